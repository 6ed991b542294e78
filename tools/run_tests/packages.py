"""The packages of Debian that skipped tests name, and their installation."""
from __future__ import annotations

import contextlib
import json
import os
import re
import subprocess
import sys
from collections.abc import Iterator

import catalogue

# A program that Debian's packages ask before they start a service.
POLICY = "/usr/sbin/policy-rc.d"
_APT = ["apt-get", "-q", "-o", "Acquire::Retries=0", "-o", "Acquire::http::Timeout=10", "-o",
        "Acquire::https::Timeout=10"]
_NAMED = re.compile(r"apt-get install ([\w.+ -]+)$")


def named_in(reason: str) -> list[str]:
    """The packages that the reason of a skip names. It may have several parts."""
    found = [_NAMED.search(part) for part in reason.split("; ")]
    return [name for it in found if it for name in it[1].split()]


def lacking() -> list[str]:
    """The packages that all tests name which are skipped here, whichever are chosen."""
    ran = subprocess.run([sys.executable, "-B", catalogue.MODULE, "--reasons"], stdout=subprocess.PIPE, check=True)
    return [*dict.fromkeys(name for reason in json.loads(ran.stdout) for name in named_in(reason))]


@contextlib.contextmanager
def _no_service_starts() -> Iterator[None]:
    """No package starts a service meanwhile. A policy that the machine has already stays as it is."""
    try:
        with open(POLICY, "x", encoding="ascii") as file:
            file.write("#!/bin/sh\nexit 101\n")
        os.chmod(POLICY, 0o755)
    except OSError:
        yield
        return
    try:
        yield
    finally:
        os.remove(POLICY)


def _apt(*words: str) -> bool:
    environment = {**os.environ, "DEBIAN_FRONTEND": "noninteractive"}
    return subprocess.run([*_APT, *words], env=environment, stdout=subprocess.DEVNULL).returncode == 0


def _install(names: list[str]) -> list[str]:
    """Installs packages, and returns those that cannot be installed: the others are."""
    words = ["install", "-y", "--no-install-recommends"]
    if not _apt("update"):
        return names
    return [] if _apt(*words, *names) else [it for it in names if not _apt(*words, it)]


def install(names: list[str]) -> None:
    """Installs packages, and says which: the tests that need others are skipped, and say so too."""
    if not names:
        return
    with _no_service_starts():
        failed = _install(names)
    installed = [it for it in names if it not in failed]
    if failed:
        print(f"./test: not installed: {' '.join(failed)}", file=sys.stderr, flush=True)
    if installed:
        print(f"./test: installed {' '.join(installed)}", flush=True)
