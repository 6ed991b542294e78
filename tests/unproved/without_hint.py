"""Runs `rt try` without the check that it starts beside it. That check takes as long as the rest, and only says of
names that a proof will refuse them, which the proofs of the gate do."""
from __future__ import annotations

import contextlib
import os
import signal
import subprocess
import time
from collections.abc import Callable
from pathlib import Path

_PAUSE = 0.05  # seconds between two looks


def _children(process: int) -> list[int]:
    with contextlib.suppress(OSError):
        return list(map(int, Path(f"/proc/{process}/task/{process}/children").read_text(encoding="ascii").split()))
    return []


def _is_check(process: int) -> bool:
    """Whether it is the check, and no process of another name that has not become it yet."""
    with contextlib.suppress(OSError):
        words = Path(f"/proc/{process}/cmdline").read_bytes().split(b"\0")
        return os.path.basename(words[0]) == b"rattle" and words[1:2] == [b"check"]
    return False


def _end_check(process: int) -> bool:
    """Ends the check below a process, and returns whether there was one."""
    for child in _children(process):
        if _is_check(child):
            with contextlib.suppress(ProcessLookupError):
                os.kill(child, signal.SIGKILL)
            return True
        if _end_check(child):
            return True
    return False


def wait(process: subprocess.Popen[bytes], look: Callable[[], object] = bool) -> int:
    """Waits until `rt try`, or what runs it, has ended, and returns its status. Calls `look` again and again."""
    has_ended = False
    while process.poll() is None:
        has_ended = has_ended or _end_check(process.pid)
        look()
        time.sleep(_PAUSE)
    return process.returncode
