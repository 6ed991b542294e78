"""The updates of several libraries, one after the other, each by a process of its own. So a bad file, a full disk or a
bug in the update stops only the library that it concerns. Each leaves a report in its folder."""
import collections
import contextlib
import io
import os
import signal
import subprocess
import sys
import tempfile
from pathlib import Path
from typing import IO

from openlink_update import COMMANDS, children
from openlink_update.machines.libraries import REPORT, SHARED, SITE, Libraries
from openlink_update.outcome import ALL_NEW, DEVICE, WENT_BACK, Interrupted, raise_signals
from openlink_update.shown_text import lines_to_print, report
from openlink_update.versions import shared_tables

ALONE = ""  # the library of a machine alone, in the list of names
_KILLED = "KILL"
_MOST_PRINTED, _MOST_LINE, _LAST = 2**20, 2**16, 20  # characters of a library and of a line, and lines of its end


class Updates:
    def __init__(self, libraries: Libraries, options: list[str]) -> None:
        """The options are those of each update."""
        self._libraries, self._options = libraries, options
        self._ending: Interrupted | None = None  # what interrupted a command of this run

    def run(self, names: list[str], with_fetch: bool) -> int:
        """Updates these libraries. Returns the greatest of their exit statuses."""
        raise_signals()
        statuses = []
        try:
            for name in names:
                if name != ALONE:
                    self._libraries.path(name, REPORT).unlink(missing_ok=True)
            if with_fetch:
                statuses.append(self._fetch())
            with contextlib.ExitStack() as stack:
                options = self._options_of_sharing(stack)
                for name in names:
                    statuses += [] if self._ending else [self._update(name, options)]
        except Interrupted as ending:
            self._ending = ending
        if self._ending:
            report(f"openlink-update: ended by {self._ending}", "stderr")
            return WENT_BACK
        return max(statuses)

    def _options_of_sharing(self, stack: contextlib.ExitStack) -> list[str]:
        """Those by which the updates share what they prepare; none if there is no room for it."""
        try:
            folder = stack.enter_context(tempfile.TemporaryDirectory(prefix="openlink."))
            os.chmod(folder, 0o711)  # a user prepares tables in a folder below it
            shared_tables.mark(folder, self._libraries.path(SHARED), self._libraries.versions())
            return ["--prepared", folder]
        except OSError as fault:
            report(f"shared tables are prepared for each library: {fault.strerror}")
            return []

    def _fetch(self) -> int:
        """Fetches the files that several libraries use."""
        folder = self._libraries.path(SHARED)
        if not (folder / "sources.tsv").exists():
            return ALL_NEW
        report(f"{folder}:")
        return self._child(["fetch", "--input", str(folder)], [])[0]

    def _update(self, name: str, options: list[str]) -> int:
        libraries, lines = self._libraries, list[str]()
        if name == ALONE:
            report("the library of openlink.conf:")
            words = ["--library", str(libraries.folder), "--site", str(libraries.machine)]
            return self._child(["update", *self._options, *words], lines)[0]
        report(f"{name}:")
        self._write_report(name, _KILLED, [])
        folder = libraries.path(name)
        words = ["--library", str(folder), "--site", str(folder / SITE)]
        words += ["--machine", str(libraries.machine), "--among", str(libraries.folder)]
        status, text = self._child(["update", *self._options, *words, *options], lines)
        self._write_report(name, text, lines)
        return status

    def _child(self, words: list[str], lines: list[str]) -> tuple[int, str]:
        """Runs a command, and prints what it says. Returns its exit status, 4 if a signal ended it, and that as a text.
        If this run is interrupted, so is the command, which goes back first."""
        command: list[str | Path] = [sys.executable, COMMANDS / words[0], *words[1:]]
        try:
            child = children.start(command, "/", stdout=subprocess.PIPE, stderr=subprocess.STDOUT)
        except OSError as fault:
            report(f"openlink-update: {words[0]}: {fault.strerror}", "stderr")
            return DEVICE, str(DEVICE)
        with io.TextIOWrapper(child.stdout or io.BytesIO(), errors="replace") as output:
            try:
                self._print(output, lines)
            except Interrupted as ending:
                self._ending = ending
                child.terminate()
                self._print(output, lines)
        status = child.wait()
        if status >= 0:
            return status, str(status)
        return DEVICE, signal.Signals(-status).name.removeprefix("SIG")

    @staticmethod
    def _print(output: IO[str], lines: list[str]) -> None:
        """Prints the lines of a command, and adds them to others. Of very many, it takes the first ones and the
        last."""
        left, left_out = _MOST_PRINTED, 0
        last: collections.deque[str] = collections.deque(maxlen=_LAST)
        while text := output.readline(_MOST_LINE):
            line = lines_to_print(text.rstrip("\n"))
            left -= len(text)
            if left >= 0:
                lines.append(f"{line}\n")
                report(line)
            else:
                left_out += len(last) == _LAST
                last.append(line)
        for line in [f".. {left_out} lines are left out", *last] if left_out else last:
            lines.append(f"{line}\n")
            report(line)

    def _write_report(self, name: str, status: str, lines: list[str]) -> None:
        """Replaces the report of a library. That it cannot be written does not end the run."""
        path = self._libraries.path(name, REPORT)
        try:
            with open(f"{path}.new", "w", encoding="utf-8", errors="replace") as file:
                file.writelines([f"{status}\n", *lines])
            os.replace(f"{path}.new", path)
        except OSError as fault:
            report(f"openlink-update: {path}: {fault.strerror}", "stderr")
