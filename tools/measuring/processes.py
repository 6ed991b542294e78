"""Runs tests in a copy of the repository, within a limit of time, and ends all that they have started."""
from __future__ import annotations

import os
import signal
import subprocess
import sys
import threading
import time
from collections.abc import Mapping
from collections.abc import Sequence
from pathlib import Path

_GRACE = 10  # seconds in which a test removes its temporary folders
_PAUSE = 0.5  # seconds between two looks at a process


def names_in(top: Path, name: str) -> list[str]:
    """The tests of a name: a script of tests/, a module PACKAGE.test_NAME, or all modules of a package."""
    place = top / "tests" / name.replace(".", "/")
    if place.is_file() or place.with_suffix(".py").is_file():
        return [name]
    return sorted(f"{name}.{it.stem}" for it in place.glob("test_*.py"))


def _signal(process: subprocess.Popen[bytes], number: int) -> None:
    try:
        os.killpg(process.pid, number)
    except ProcessLookupError:
        pass


def _end(process: subprocess.Popen[bytes]) -> None:
    if process.poll() is None:
        _signal(process, signal.SIGTERM)
        try:
            process.wait(_GRACE)
        except subprocess.TimeoutExpired:
            pass
    _signal(process, signal.SIGKILL)
    process.wait()


class _Running:
    """The processes that run now. After an interrupt none begins."""

    def __init__(self) -> None:
        self._lock = threading.Lock()
        self._those: set[subprocess.Popen[bytes]] = set()
        self._is_over = False

    def start(self, words: Sequence[str], top: Path, log: Path, more: Mapping[str, str]) -> subprocess.Popen[bytes]:
        with self._lock, log.open("wb") as out:
            if self._is_over:
                raise Interrupted
            process = subprocess.Popen(
                words,
                stdin=subprocess.DEVNULL,
                stdout=out,
                stderr=subprocess.STDOUT,
                cwd=top,
                env={**os.environ, "PWD": str(top), **more},
                start_new_session=True,
            )
            self._those.add(process)
        return process

    def end(self, process: subprocess.Popen[bytes]) -> None:
        _end(process)
        with self._lock:
            self._those.discard(process)

    def end_all(self) -> None:
        with self._lock:
            self._is_over = True
            those = list(self._those)
        for process in those:
            _signal(process, signal.SIGTERM)


class Interrupted(Exception):
    """No test begins any more."""


_RUNNING = _Running()
end_all = _RUNNING.end_all


def run(
    top: Path,
    names: Sequence[str],
    log: Path,
    limits: Sequence[float],
    limit: float,
    more: Mapping[str, str] | None = None,
    python: str = sys.executable,
) -> tuple[str, float, list[str]]:
    """Runs tests in one process until one fails, with its output in a file. Each has a limit of seconds, and so have
    all together. Returns "passed", "failed", "late" if one was, or "cut" if all were, its seconds, and the tests that
    have passed."""
    started = time.monotonic()
    place = log.with_name(f"{log.name}.passed")
    place.write_bytes(b"")
    words = [python, "-B", str(top / "tools/measuring/one_process.py"), str(place), *names]
    process = _RUNNING.start(words, top, log, more or {})
    try:
        end = _wait(process, place, limits, limit)
    finally:
        _RUNNING.end(process)
    return end, time.monotonic() - started, place.read_text(encoding="utf-8").split()


def _wait(process: subprocess.Popen[bytes], place: Path, limits: Sequence[float], limit: float) -> str:
    started = begun = time.monotonic()
    passed = 0
    while True:
        try:
            return "failed" if process.wait(_PAUSE) else "passed"
        except subprocess.TimeoutExpired:
            now, before, passed = time.monotonic(), passed, place.read_bytes().count(b"\n")
        begun = now if passed > before else begun
        if now - begun > limits[min(passed, len(limits) - 1)]:
            return "late"
        if now - started > limit:
            return "cut"
