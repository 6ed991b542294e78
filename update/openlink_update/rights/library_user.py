"""The user of a library: a number that no account of the machine has, and that no other run uses at the same time.

It needs no line in /etc/passwd, so it is the same where an older release is upgraded, in a container, and where /etc
cannot be written. Nothing belongs to it any more when the run has ended, so it need not be remembered. The numbers are
those that systemd keeps for users of this kind (DynamicUser=). In the folder of all libraries, a run locks the byte of
its number in the file lock.users, which only root can open."""
import contextlib
import ctypes
import fcntl
import grp
import os
import pwd
import signal
import time
import zlib
from collections.abc import Iterable, Iterator
from pathlib import Path
from typing import IO

from openlink_update.outcome import DEVICE, Failure

_NUMBERS = range(61184, 65520)
LOCK = "lock.users"
_OF_ROOT = 0o600  # or anybody could take all numbers
_PAUSE, _SECONDS_TO_END = 0.01, 60
_WELL = "well"
_NO_NEW_PRIVILEGES, _DUMPABLE, _DEATH_SIGNAL = 38, 4, 1  # of prctl
_LIBC = ctypes.CDLL(None)


def _is_known(number: int) -> bool:
    """Whether an account or a group of the machine has a number."""
    for known in (pwd.getpwuid, grp.getgrgid):
        with contextlib.suppress(KeyError):
            known(number)
            return True
    return False


def _numbers_in_use() -> Iterator[int]:
    """Those of these numbers that processes have, but for processes that have ended and for which nobody has waited."""
    for name in filter(str.isdigit, os.listdir("/proc")):
        with contextlib.suppress(OSError):
            if os.stat(f"/proc/{name}/stat").st_uid not in _NUMBERS:
                continue
            with open(f"/proc/{name}/stat", "rb") as file:
                number, text = os.fstat(file.fileno()).st_uid, file.read()
            if text.rpartition(b") ")[2][:1] not in (b"Z", b"X"):
                yield number


class LibraryUser:
    """A user, as long as this process holds the lock."""

    def __init__(self, number: int, lock: IO[str]) -> None:
        self.number, self._lock = number, lock

    def become(self, parent: int) -> None:
        """Gives up the rights of this process, for good. It ends when its parent does, which has this number."""
        os.setgroups([])
        os.setresgid(self.number, self.number, self.number)
        os.setresuid(self.number, self.number, self.number)
        if not self._is_it():
            os._exit(1)
        _LIBC.prctl(_NO_NEW_PRIVILEGES, 1, 0, 0, 0)
        _LIBC.prctl(_DUMPABLE, 1, 0, 0, 0)  # or its own entries of /proc are closed to it
        _LIBC.prctl(_DEATH_SIGNAL, signal.SIGKILL, 0, 0, 0)
        if os.getppid() != parent:
            os._exit(1)

    def release(self) -> None:
        """Lets another run have it."""
        self._lock.close()

    def _is_it(self) -> bool:
        """Whether this process has the rights of the user, and no others to return to."""
        numbers = {*os.getresuid(), *os.getresgid(), *os.getgroups()}
        return numbers == {self.number} and self.number in _NUMBERS

    def end_all(self) -> None:
        """Ends all processes that it has, and waits until none lives. A Failure if one does not end."""
        end = time.monotonic() + _SECONDS_TO_END
        while time.monotonic() < end:
            self._kill_all()
            if self.number not in set(_numbers_in_use()):
                return
            time.sleep(_PAUSE)
        raise Failure(f"a process of the user {self.number} does not end", DEVICE)

    def _kill_all(self) -> None:
        parent, child = os.getpid(), os.fork()
        if child == 0:
            try:
                self.become(parent)
                if self._is_it():  # looked at twice, since root's signal would end all processes of the machine
                    os.kill(-1, signal.SIGKILL)
            finally:
                os._exit(0)
        os.waitpid(child, 0)

    def fault(self, paths: Iterable[Path]) -> str:
        """Why this process cannot become it, or which of these paths it cannot read; '' if all is well."""
        reads, writes = os.pipe()
        parent, child = os.getpid(), os.fork()
        if child == 0:
            try:
                text = self._fault_now(paths, parent)
                os.write(writes, text.encode("utf-8", "replace"))
            finally:
                os._exit(0)
        os.close(writes)
        with open(reads, "rb") as pipe:
            text = pipe.read().decode("utf-8", "replace")
        os.waitpid(child, 0)
        return "" if text == _WELL else text or "no process of its user can be started"

    def _fault_now(self, paths: Iterable[Path], parent: int) -> str:
        try:
            self.become(parent)
        except OSError as fault:
            return f"this process cannot become another user: {fault.strerror}"
        for path in paths:
            if not os.access(path, os.R_OK | os.X_OK if os.path.isdir(path) else os.R_OK):
                return f"its user cannot read {path}: chmod a+rX, also the folders above"
        return _WELL


def claim(folder: Path, name: str) -> LibraryUser | None:
    """A user for the library with this name, among those that lock a number in this folder. None if there is none, or
    if this process is not root's."""
    if os.geteuid() != 0:
        return None
    try:
        lock = open(os.open(folder / LOCK, os.O_RDWR | os.O_CREAT | os.O_NOFOLLOW, _OF_ROOT), "r+", encoding="ascii")
    except OSError:
        return None
    in_use, first = set(_numbers_in_use()), zlib.crc32(name.encode()) % len(_NUMBERS)
    for number in (*_NUMBERS[first:], *_NUMBERS[:first]):
        if number not in in_use and not _is_known(number):
            with contextlib.suppress(OSError):
                fcntl.lockf(lock, fcntl.LOCK_EX | fcntl.LOCK_NB, 1, number)
                return LibraryUser(number, lock)
    lock.close()
    return None
