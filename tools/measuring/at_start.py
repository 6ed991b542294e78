"""What each Python of a measured test begins with, as its sitecustomize: it notes its lines, also where it ends at once
(os._exit), as the processes of a library's user do, and where it becomes another program (preexec_fn). Other Pythons
that it starts do the same."""
from __future__ import annotations

import contextlib
import os
import resource
import subprocess
import sys
import threading
import time
from collections.abc import Callable
from pathlib import Path
from typing import Any

import coverage

_LEAST = 2**24  # bytes of a file in which notes have room: the signal of the system would end a process with less
_limits_of = resource.getrlimit  # a test may replace it


def _save() -> None:
    """Writes what has run, though the process may write no long files. One that may write none any more, or has no
    memory, goes on without."""
    with contextlib.suppress(Exception):
        most, hard = _limits_of(resource.RLIMIT_FSIZE)
        if resource.RLIM_INFINITY != hard < _LEAST:
            return
        resource.setrlimit(resource.RLIMIT_FSIZE, (hard, hard))
        try:
            coverage.process_startup.coverage.save()
        finally:
            resource.setrlimit(resource.RLIMIT_FSIZE, (most, hard))


def _exit(status: int, end: Callable[[int], None] = os._exit) -> None:
    try:
        _save()
    finally:
        end(status)


def _others() -> bool:
    """Whether the user of this process has another one that has not ended."""
    for name in filter(str.isdigit, os.listdir("/proc")):
        with contextlib.suppress(OSError):
            with open(f"/proc/{name}/stat", "rb") as file:
                is_mine, text = os.fstat(file.fileno()).st_uid == os.getuid(), file.read()
            if is_mine and int(name) != os.getpid() and text.rpartition(b") ")[2][:1] not in (b"Z", b"X"):
                return True
    return False


def _kill(number: int, what: int, kill: Callable[[int, int], None] = os.kill) -> None:
    """Before all processes of a library's user are ended, those that end by themselves have a second to write."""
    end = time.monotonic() + 1
    while number == -1 and time.monotonic() < end and _others():
        time.sleep(0.02)
    kill(number, what)


def _noted(before: Callable[[], object]) -> Callable[[], None]:
    """The same preexec_fn, after which a thread writes what has run: files that this one closes to itself stay open to
    a thread that it had before."""

    def noted() -> None:
        is_over = threading.Event()
        thread = threading.Thread(target=lambda: (is_over.wait(), _save()))
        thread.start()
        try:
            before()
        finally:
            is_over.set()
            thread.join()

    return noted


class _Popen(subprocess.Popen):  # type: ignore[type-arg]
    def __init__(self, *words: Any, preexec_fn: Callable[[], object] | None = None, **more: Any) -> None:
        super().__init__(*words, preexec_fn=None if preexec_fn is None else _noted(preexec_fn), **more)


if os.environ.pop("OPENLINK_NO_SITE", ""):  # as with -S
    sys.path[:] = [it for it in sys.path if not it.endswith(("dist-packages", "site-packages"))]
sys.executable = str(Path(__file__).resolve().parent.parent / "bin/python3")
if coverage.process_startup():
    os._exit = _exit  # type: ignore[assignment]
    os.kill = _kill
    subprocess.Popen = _Popen  # type: ignore[misc]
