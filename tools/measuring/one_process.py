"""Runs tests one after the other in one process, until one fails: one_process.py FILE TEST..

TEST is a module PACKAGE.test_NAME or a script of tests/. The name of each that has passed becomes a line of FILE."""
from __future__ import annotations

import signal
import subprocess
import sys
from pathlib import Path
from typing import Any

_TOP = Path(__file__).resolve().parent.parent.parent
sys.dont_write_bytecode = True
sys.path.insert(0, str(_TOP / "tools/run_tests"))
import module


class _First(module.Outcomes):
    """Ends after the first failure."""

    def fault(self, test: Any, name: str, error: Any) -> None:
        super().fault(test, name, error)
        self.stop()


def _has_passed(name: str) -> bool:
    script = _TOP / "tests" / name
    if script.is_file():
        return subprocess.run([script], check=False).returncode == 0
    return module.run(name, [], (1, 1))["failed"] == 0


def main(words: list[str]) -> int:
    module.Outcomes = _First  # type: ignore[misc]
    place, *names = words
    of_pipes = signal.getsignal(signal.SIGPIPE)
    for name in names:
        if not _has_passed(name):
            return 1
        # A command that a test calls ends with the reader of its output. The next test, which has servers, must not.
        signal.signal(signal.SIGPIPE, of_pipes)
        with open(place, "a", encoding="utf-8") as file:
            file.write(f"{name}\n")
    return 0


if __name__ == "__main__":
    signal.signal(signal.SIGTERM, signal.default_int_handler)
    sys.exit(main(sys.argv[1:]))
