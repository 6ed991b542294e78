"""Closes the files of the machine to a process and its children, but for programs and what these need, and one folder
that it may write in. The kernel keeps it (Landlock, from Linux 5.13 on), and no right of root is needed."""
import ctypes
import errno
import os
import stat
from collections.abc import Iterable
from pathlib import Path

# What programs of Debian need to run; nothing below /etc/openlink, /home, /var or /proc.
_READ = (
    "/usr /bin /sbin /lib /lib32 /lib64 /libx32 /etc/alternatives /etc/ld.so.cache /etc/localtime /etc/locale.alias "
    "/etc/passwd /etc/group /etc/nsswitch.conf /etc/perl /etc/python3 /dev/null /dev/zero /dev/full /dev/random "
    "/dev/urandom"
).split()
_CREATE, _ADD, _RESTRICT = 444, 445, 446  # calls, the same on each kind of machine
_VERSION, _BENEATH = 1, 1
_NO_NEW_PRIVILEGES = 38  # of prctl
_EXECUTE, _WRITE, _READ_FILE, _READ_FOLDER, _TRUNCATE = 1 << 0, 1 << 1, 1 << 2, 1 << 3, 1 << 14
_ALL = (1 << 13) - 1  # of the first version
_REFER, _OF_FILES = 1 << 13, _EXECUTE | _WRITE | _READ_FILE | _TRUNCATE
_HAS_REFER, _HAS_TRUNCATE = 2, 3  # versions
_LIBC = ctypes.CDLL(None, use_errno=True)


class _Rules(ctypes.Structure):
    _fields_ = [("handled", ctypes.c_uint64)]


class _Beneath(ctypes.Structure):
    _pack_ = 1
    _fields_ = [("allowed", ctypes.c_uint64), ("folder", ctypes.c_int32)]


def _called(number: int, *words: "ctypes.Array[ctypes.c_char] | ctypes.Structure | int | None") -> int:
    """What a call of the system returns. An OSError if it fails."""
    given = [ctypes.byref(word) if isinstance(word, ctypes.Structure) else word for word in words]
    found: int = _LIBC.syscall(ctypes.c_long(number), *given)
    if found < 0:
        raise OSError(ctypes.get_errno(), "the files of the machine cannot be closed")
    return found


def _version() -> int:
    """The version of Landlock; 0 if the kernel has none, or does not use it."""
    try:
        return _called(_CREATE, None, 0, _VERSION)
    except OSError:
        return 0


def close(read: Iterable[Path], written: Path) -> None:
    """Closes all files but those of programs, some more that are read, and a folder. An OSError if the kernel
    cannot."""
    found = _version()
    if not found:
        raise OSError(errno.ENOSYS, "this kernel cannot close files, by Landlock")
    handled = _ALL | (_REFER if found >= _HAS_REFER else 0) | (_TRUNCATE if found >= _HAS_TRUNCATE else 0)
    rules = _called(_CREATE, _Rules(handled), ctypes.sizeof(_Rules), 0)
    try:
        for path in (*map(Path, _READ), *read):
            access = _EXECUTE | _READ_FILE | _READ_FOLDER
            _allow(rules, path, access | _WRITE if str(path) == os.devnull else access)
        _allow(rules, written, handled & ~_EXECUTE)
        _LIBC.prctl(_NO_NEW_PRIVILEGES, 1, 0, 0, 0)
        _called(_RESTRICT, rules, 0)
    finally:
        os.close(rules)


def _allow(rules: int, path: Path, access: int) -> None:
    """Allows an access to a file, or to all below a folder, if it exists."""
    try:
        opened = os.open(path, os.O_PATH | os.O_CLOEXEC)
    except FileNotFoundError:
        return
    try:
        is_folder = stat.S_ISDIR(os.fstat(opened).st_mode)
        _called(_ADD, rules, _BENEATH, _Beneath(access if is_folder else access & _OF_FILES, opened), 0)
    finally:
        os.close(opened)
