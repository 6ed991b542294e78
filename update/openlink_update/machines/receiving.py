"""Puts in use what another machine has sent: openlink-update --receive."""
import os
import shutil
from pathlib import Path

from openlink_update.disk import sync, text_in
from openlink_update.input_files import InputFolder
from openlink_update.machines.libraries import PROBES
from openlink_update.outcome import ALL_NEW, Failure, ignore_signals
from openlink_update.shown_text import report
from openlink_update.versions import same_files
from openlink_update.weekly_run import Attempt, Run


class Receiver(Run):
    """A run that puts in use what another machine has sent."""

    def receive(self, stamp: str, most: int) -> int:
        """Returns the exit status."""
        library = self.library
        old, sent = library.current(), library.version(f"{stamp}.probes")
        library.forget_updates()
        if stamp == old:
            self._remove_sent()
            report(f"{stamp} is in use already")
            return ALL_NEW
        path = self._place_of(stamp)
        name = sent.name if "\t" in text_in(sent) else "no probes"

        def complete() -> None:
            if path != library.version(stamp):
                library.complete(stamp)
            self.put_in_use(stamp, old)

        self.try_and_use(Attempt(InputFolder(sent.parent), name, path, old, True, False, complete))
        ignore_signals()
        library.settle()
        if sent.exists():
            sync(sent)
            os.rename(sent, library.path(PROBES))
            sync(library.folder)
        library.remove_old(most)
        self._remove_sent()
        report(f"{stamp} is in use")
        return ALL_NEW

    def _place_of(self, stamp: str) -> Path:
        """The folder of the version: the one that was sent, or one that this machine had before."""
        library = self.library
        if stamp in library.versions():
            return library.version(stamp)
        sent, old = library.version(f"{stamp}.sent"), library.current()
        if not sent.is_dir():
            raise Failure(f"{sent}: nothing was sent")
        library.remove_newer()
        unfinished = library.version(f"{stamp}.new")
        os.rename(sent, unfinished)
        if self.others is not None:
            same_files.link(unfinished, library.version(old) if old else None, self.others)
        return unfinished

    def _remove_sent(self) -> None:
        """Removes what was sent and is not used."""
        for path in self.library.path("versions").iterdir():
            if path.suffix == ".sent":
                shutil.rmtree(path)
            elif path.suffix == ".probes":
                path.unlink()
