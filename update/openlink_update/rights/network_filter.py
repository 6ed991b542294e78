"""Closes the network to a process and its children: they can make no socket. The kernel keeps it, by a filter of system
calls that needs no right of root. It is for Linux on x86-64; elsewhere nothing is closed."""
import ctypes
import errno
import platform

_NO_NEW_PRIVILEGES, _SECCOMP, _FILTER = 38, 22, 2  # of prctl
_NUMBER, _ARCHITECTURE = 0, 4  # places in what the filter sees of a call
_X86_64, _X32 = 0xC000003E, 0x40000000  # x32 has other numbers for the same calls
_CALLS = (41, 425)  # socket, io_uring_setup
_LOAD, _EQUAL, _AT_LEAST, _RETURN = 0x20, 0x15, 0x35, 0x06  # instructions of the filter
_ALLOW, _ERROR = 0x7FFF0000, 0x00050000
_LIBC = ctypes.CDLL(None, use_errno=True)


class _Instruction(ctypes.Structure):
    _fields_ = [("code", ctypes.c_ushort), ("yes", ctypes.c_ubyte), ("no", ctypes.c_ubyte), ("value", ctypes.c_uint)]


class _Program(ctypes.Structure):
    _fields_ = [("length", ctypes.c_ushort), ("instructions", ctypes.POINTER(_Instruction))]


def _instructions() -> list[tuple[int, int, int, int]]:
    """Code, places to skip if it holds and if not, and a value. The last one of all refuses."""
    count = len(_CALLS)
    tests = [(_EQUAL, count - place, 0, call) for place, call in enumerate(_CALLS)]
    return [
        (_LOAD, 0, 0, _ARCHITECTURE),
        (_EQUAL, 0, count + 3, _X86_64),
        (_LOAD, 0, 0, _NUMBER),
        (_AT_LEAST, count + 1, 0, _X32),
        *tests,
        (_RETURN, 0, 0, _ALLOW),
        (_RETURN, 0, 0, _ERROR | errno.EACCES),
    ]


def close() -> None:
    if platform.machine() != "x86_64":
        return
    lines = [_Instruction(*line) for line in _instructions()]
    program = _Program(len(lines), (_Instruction * len(lines))(*lines))
    _LIBC.prctl(_NO_NEW_PRIVILEGES, 1, 0, 0, 0)
    if _LIBC.prctl(_SECCOMP, _FILTER, ctypes.byref(program), 0, 0) != 0:
        number = ctypes.get_errno()
        raise OSError(number, "the network cannot be closed")
