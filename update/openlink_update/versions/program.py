"""Runs the program's commands on files, and reads the warnings of `inspect` and `lint`."""
import os
import re
import subprocess
from pathlib import Path

from openlink_update import children
from openlink_update.outcome import DEVICE, Failure, Refused

_SECONDS = 600  # for a command
# Lines that are no warning. Every other line is one, so that a kind that is not known here keeps the old files.
PLAIN = [
    re.compile(pattern)
    for pattern in (
        r"rows [1-9]\d*",
        r"identifiers [1-9]\d*",
        r"rows of one identifier .*",
        r"rows without title_url .*",
        r'unknown column "[^"]*"(\.\.\.)?',
        r"rules [1-9]\d*",
        r"rule \d+, link: never a web link",
    )
]
NO_COLUMN = re.compile(r"no column \w+_identifier")
# The rule, and the guard or link, that a line of `lint` is about.
PLACE = re.compile(r"rule \d+(, guard \d+:|, link:)? ")


def words_of(warning: str) -> str:
    """The words by which a warning is allowed: those before its first number or quotation mark, without the place."""
    return re.split(r'[0-9"]', PLACE.sub("", warning, count=1))[0].strip(" :,")


def _is_plain(line: str) -> bool:
    return any(pattern.fullmatch(line) for pattern in PLAIN)


def warnings_in(text: str) -> list[str]:
    """The lines of `inspect` or `lint` that are warnings. That a column of identifiers is missing is one if both
    are."""
    lines = text.splitlines()
    missing = [line for line in lines if NO_COLUMN.fullmatch(line)]
    return [line for line in lines if not _is_plain(line) and (line not in missing or len(missing) > 1)]


def _is_full(folder: Path) -> bool:
    """Whether the disk of a folder has no room for another small file."""
    disk = os.statvfs(folder)
    return disk.f_bavail * disk.f_frsize < 2**16 or disk.f_files > 0 and disk.f_favail == 0


class Program:
    def __init__(self, path: str | Path, folder: str | Path) -> None:
        """The program, run in a folder, which the paths of its arguments are relative to."""
        self.path, self.folder = path, Path(folder)

    def run(self, *words: str, most: int = 0) -> tuple[int, str]:
        """The status of a command, and what it prints. Refused if it rejects a file; a Failure if it ends with another
        status above `most`."""
        try:
            process = subprocess.run(
                [self.path, *words],
                cwd=self.folder,
                stdin=subprocess.DEVNULL,
                capture_output=True,
                timeout=_SECONDS,
                start_new_session=True,
                preexec_fn=children.tied(),
            )
        except OSError as fault:
            raise Failure(f"{self.path}: {fault.strerror}", DEVICE) from fault
        except subprocess.TimeoutExpired as fault:
            raise Failure(f"openlink {words[0]}: no end after {_SECONDS} seconds", DEVICE) from fault
        message = process.stderr.decode("utf-8", "replace").strip().removeprefix("openlink: ")
        if process.returncode == DEVICE and _is_full(self.folder):
            message += ": No space left on device"
        if process.returncode == 3:
            raise Refused([message])
        if not 0 <= process.returncode <= most:
            command = f"openlink {' '.join(words)} in {self.folder}"
            raise Failure(f"{command}: status {process.returncode}, {message or 'no message'}", DEVICE)
        return process.returncode, process.stdout.decode("utf-8", "replace")

    def warnings(self, *words: str) -> list[str]:
        """The warnings of `inspect` or `lint`."""
        status, text = self.run(*words, most=1)
        return warnings_in(text) or [f"openlink {words[0]} has status 1"] if status == 1 else []
