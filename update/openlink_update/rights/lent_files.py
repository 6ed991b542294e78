"""Files that a library's user may read, although it has no right to them: root opens them, and lends the descriptors.
Root reads none of them for it. The names of both sides are those of root_folder.py, and so are the rules for paths."""
import dataclasses
import errno
import os
import socket
import stat
from collections.abc import Sequence
from pathlib import Path

from openlink_update.outcome import DEVICE, Failure
from openlink_update.root_folder import MOST_BYTES, RootFolder, Unusable

MOST_MESSAGE = 2**16
_FILE, _ENTRY, _LISTING, _REPLACE = b"fenr"  # the kinds of requests, by their first byte
_LENT = b"lent"
_MODES = (0o600, 0o644)


@dataclasses.dataclass(frozen=True)
class Lent:
    """A folder of which files are lent."""

    root: RootFolder
    closed: frozenset[str] = frozenset()  # the names of files that are not
    replaced: frozenset[tuple[str, ...]] = frozenset()  # the files that may get other bytes


class Lender:
    """Root's side."""

    def __init__(self, folders: Sequence[Lent]) -> None:
        self._folders = folders

    def answer(self, request: bytes, sent: Sequence[int]) -> tuple[bytes, Sequence[int]]:
        """The reply to a request that came with descriptors, and the descriptor that goes with it."""
        try:
            return _LENT, self._lent(request, sent)
        except OSError as fault:
            kind = "unusable" if isinstance(fault, Unusable) else "fault"
            text = f"{kind}\0{fault.errno or errno.EIO}\0{fault.strerror}\0{fault.filename}"
        except (ValueError, LookupError):
            text = f"fault\0{errno.EINVAL}\0{os.strerror(errno.EINVAL)}\0"
        return os.fsencode(text)[: MOST_MESSAGE // 2], []

    def _lent(self, request: bytes, sent: Sequence[int]) -> Sequence[int]:
        number, *names = os.fsdecode(request[1:]).split("\0")
        lent, parts = self._folders[int(number)], tuple(names)
        if any(part in ("", ".", "..") or "/" in part for part in parts):
            raise ValueError(parts)
        if parts and parts[-1] in lent.closed:
            os.close(lent.root.entry(parts))  # what is wrong with the path is said first
            raise PermissionError(errno.EACCES, os.strerror(errno.EACCES), str(lent.root.place(parts)))
        match request[0]:
            case kind if kind == _FILE:
                return [lent.root.file(parts)]
            case kind if kind == _ENTRY:
                return [lent.root.entry(parts)]
            case kind if kind == _LISTING:
                return [lent.root.listing(parts)]
            case kind if kind == _REPLACE and parts in lent.replaced and len(sent) == 1:
                self._replace(lent, parts, sent[0])
                return []
        raise PermissionError(errno.EPERM, os.strerror(errno.EPERM), str(lent.root.place(parts)))

    @staticmethod
    def _replace(lent: Lent, parts: tuple[str, ...], descriptor: int) -> None:
        """Gives a file the bytes of a descriptor, which are not looked at."""
        status = os.fstat(descriptor)
        if not stat.S_ISREG(status.st_mode) or status.st_size > MOST_BYTES:
            raise Unusable(errno.EFBIG, "not a regular file, or too large", str(lent.root.place(parts)))
        with open(os.dup(descriptor), "rb") as file:
            file.seek(0)
            mode = _MODES[bool(status.st_mode & 0o044)]
            lent.root.replace(parts, file.read(MOST_BYTES), mode)


class LentFolder(RootFolder):
    """The user's side of the folder with a number."""

    def __init__(self, path: Path, number: int, peer: socket.socket) -> None:
        super().__init__(path)
        self._number, self._peer = number, peer

    def file(self, parts: Sequence[str]) -> int:
        return self._asked(_FILE, parts)[0]

    def entry(self, parts: Sequence[str]) -> int:
        return self._asked(_ENTRY, parts)[0]

    def listing(self, parts: Sequence[str]) -> int:
        return self._asked(_LISTING, parts)[0]

    def replace(self, parts: Sequence[str], data: bytes, mode: int) -> None:
        with open(os.memfd_create("openlink"), "wb") as file:
            os.fchmod(file.fileno(), mode)
            file.write(data)
            file.flush()
            self._asked(_REPLACE, parts, [file.fileno()])

    def remove(self, parts: Sequence[str]) -> None:
        raise PermissionError(errno.EPERM, os.strerror(errno.EPERM), str(self.place(parts)))

    def _asked(self, kind: int, parts: Sequence[str], sent: Sequence[int] = ()) -> Sequence[int]:
        with self._faults(parts):
            request = bytes([kind]) + os.fsencode("\0".join([str(self._number), *parts]))
            if any("\0" in part for part in parts) or len(request) > MOST_MESSAGE:
                raise ValueError(parts)
        socket.send_fds(self._peer, [request], sent)
        reply, descriptors, _, _ = socket.recv_fds(self._peer, MOST_MESSAGE, 1)
        if not reply:
            raise Failure("the run has ended", DEVICE)
        if reply == _LENT:
            return descriptors
        kind_of_fault, number, text, path = os.fsdecode(reply).split("\0")
        raise (Unusable if kind_of_fault == "unusable" else OSError)(int(number), text, path)
