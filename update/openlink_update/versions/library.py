"""The folder of the library: complete versions, and the links and names that keep them complete if a run is killed.

    versions/STAMP/        a version, never changed; STAMP is the time at which it was made, in UTC
    versions/STAMP.new/    a version that is being made; the next run removes it
    current                a link to the version in use, which is moved by a rename
    updated                the time at which an update last ended well, in UTC, whether or not it found anything new
    before                 only while processes are restarted: a link to the version to go back to, or to `none`. As
                           long as it exists, the front door offers no pages of titles
    trial/                 files of the front door that tries a version; the next run removes it
    lock                   locked by a run as long as it lives
    lock.users             see library_user.py
"""
import datetime
import fcntl
import os
import re
import shutil
from collections.abc import Iterable
from pathlib import Path
from typing import IO

from openlink_update.disk import sync, sync_disk
from openlink_update.outcome import DEVICE, Failure
from openlink_update.shown_text import line_of

STAMP = "%Y%m%dT%H%M%SZ"
_VERSION = re.compile(r"versions/([0-9]{8}T[0-9]{6}Z)")
_SECOND, _DAY = datetime.timedelta(seconds=1), datetime.timedelta(days=1)
_NONE = "none"


def _now() -> datetime.datetime:
    return datetime.datetime.now(datetime.timezone.utc)


def _moment_of(stamp: str) -> datetime.datetime | None:
    """The moment that a stamp names, or None if it names none."""
    try:
        moment = datetime.datetime.strptime(stamp, STAMP) if _VERSION.fullmatch(f"versions/{stamp}") else None
    except ValueError:
        moment = None
    return moment and moment.replace(tzinfo=datetime.timezone.utc)


def is_stamp(text: str) -> bool:
    """Whether a text is a stamp of at most a day ahead. Beyond that a clock was wrong, or the text is forged: the names
    after it would have no end."""
    moment = _moment_of(text)
    return moment is not None and moment <= _now() + _DAY


def stamp_after(stamps: Iterable[str]) -> str:
    """The stamp of this moment, or the one after all of these."""
    moments = [moment + _SECOND for moment in map(_moment_of, stamps) if moment]
    return max([_now(), *moments]).strftime(STAMP)


class Library:
    def __init__(self, folder: str | Path) -> None:
        self.folder = Path(os.path.abspath(folder))

    def path(self, *names: str) -> Path:
        return self.folder.joinpath(*names)

    def lock(self) -> IO[str]:
        """Locks the library until this process ends; a Failure if another run has done so."""
        file = open(self.path("lock"), "a+")
        try:
            fcntl.flock(file, fcntl.LOCK_EX | fcntl.LOCK_NB)
        except BlockingIOError as fault:
            raise Failure(f"{self.path('lock')}: another run has not ended", DEVICE) from fault
        return file

    def version_of(self, link: str) -> str | None:
        """The version that a link names, or None if there is no such link, or no version for it."""
        try:
            text = os.readlink(self.path(link))
        except FileNotFoundError:
            return None
        if text == _NONE:
            return None
        stamp = text.removeprefix("versions/")
        if stamp == text or not _moment_of(stamp) or not self.path(text).is_dir():
            raise Failure(f"{self.path(link)} is a link to {line_of(text)}, which is no folder versions/STAMP")
        return stamp

    def current(self) -> str | None:
        return self.version_of("current")

    def version(self, stamp: str) -> Path:
        return self.path("versions", stamp)

    def versions(self) -> list[str]:
        """The stamps of all versions, the oldest first."""
        os.makedirs(self.path("versions"), exist_ok=True)
        return sorted(filter(is_stamp, os.listdir(self.path("versions"))))

    def clear(self) -> None:
        """Removes what a killed run left unfinished."""
        shutil.rmtree(self.path("trial"), ignore_errors=True)
        for name in os.listdir(self.path("versions")):
            if name.endswith(".new") and _VERSION.fullmatch(f"versions/{name[:-4]}"):
                shutil.rmtree(self.version(name))
        self.path("current.new").unlink(missing_ok=True)

    def remove_newer(self) -> None:
        """Removes versions that are newer than the one in use: a run went back from them, or was killed before their
        use."""
        current = self.current() or ""
        for stamp in filter(_moment_of, os.listdir(self.path("versions"))):
            if stamp > current:
                shutil.rmtree(self.version(stamp))

    def begin(self) -> str:
        """Makes the folder of a new version, and returns its stamp, which is after all others."""
        stamp = stamp_after(self.versions())
        os.mkdir(self.version(f"{stamp}.new"))
        return stamp

    def complete(self, stamp: str) -> None:
        """Gives a finished version its name, once all of it is on the disk."""
        unfinished = self.version(f"{stamp}.new")
        sync_disk(unfinished)
        os.rename(unfinished, self.version(stamp))
        sync(self.path("versions"))

    def move(self, stamp: str) -> None:
        """Points `current` to a version. There is no moment without the link."""
        os.symlink(f"versions/{stamp}", self.path("current.new"))
        os.rename(self.path("current.new"), self.path("current"))
        sync(self.folder)

    def remember(self, stamp: str | None) -> None:
        """Makes `before`: whatever ends this run, the next one goes back to this version (None: to no version)."""
        os.symlink(f"versions/{stamp}" if stamp else _NONE, self.path("before"))
        sync(self.folder)

    def is_unsettled(self) -> bool:
        """Whether a run has begun to move `current` and to restart processes, and has not ended well."""
        return os.path.lexists(self.path("before"))

    def move_back(self, stamp: str | None) -> None:
        """Points `current` to the version before, or removes it if there was none."""
        try:
            if stamp is None:
                os.unlink(self.path("current"))
            elif self.current() != stamp:
                self.move(stamp)
        except FileNotFoundError:
            pass
        except OSError:  # not even a link can be made
            os.rename(self.path("before"), self.path("current"))

    def note_update(self) -> None:
        """Writes that an update has ended well, for the health page."""
        new = self.path("updated.new")
        with open(new, "w", encoding="ascii") as file:
            file.write(f"{_now().strftime(STAMP)}\n")
        os.chmod(new, 0o644)
        sync(new)
        os.rename(new, self.path("updated"))
        sync(self.folder)

    def forget_updates(self) -> None:
        """Another machine makes the versions from now on, and knows when."""
        self.path("updated").unlink(missing_ok=True)

    def settle(self) -> None:
        """All processes serve `current`: there is nothing to go back to."""
        if self.is_unsettled():
            os.unlink(self.path("before"))
            sync(self.folder)

    def remove(self, stamp: str) -> None:
        """Removes a version. If it is killed meanwhile, no run takes what is left for a version."""
        os.rename(self.version(stamp), self.version(f"{stamp}.new"))
        shutil.rmtree(self.version(f"{stamp}.new"))

    def remove_old(self, most: int) -> None:
        """Removes the oldest versions, so that `most` remain."""
        for stamp in self.versions()[:-most]:
            shutil.rmtree(self.version(stamp))
