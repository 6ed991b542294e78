"""Waits until what was written is on the disk; and small files, which are read and written as a whole."""
import ctypes
import os
from pathlib import Path

_LIBC = ctypes.CDLL(None, use_errno=True)


def sync(path: Path) -> None:
    """Waits for a file, or for the names in a folder."""
    handle = os.open(path, os.O_RDONLY)
    try:
        os.fsync(handle)
    finally:
        os.close(handle)


def sync_disk(path: Path) -> None:
    """Waits until all that was written to the file system of a path is on the disk. A version has thousands of files,
    and to wait for each takes a hundred times as long."""
    handle = os.open(path, os.O_RDONLY)
    try:
        if _LIBC.syncfs(handle) != 0:
            number = ctypes.get_errno()
            raise OSError(number, os.strerror(number), str(path))
    finally:
        os.close(handle)


def text_in(path: Path) -> str:
    """The text of a file; '' if there is none."""
    try:
        return path.read_text(encoding="utf-8", errors="replace")
    except FileNotFoundError:
        return ""


def write(path: Path, text: str) -> None:
    """Replaces a file by one with this text."""
    new = path.with_name(f"{path.name}.new")
    new.write_text(text, encoding="utf-8")
    sync(new)
    os.rename(new, path)
    sync(path.parent)
