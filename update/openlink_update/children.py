"""Processes that end with this one, even if it is killed; and free ports for them."""
import ctypes
import itertools
import os
import random
import resource
import signal
import socket
import subprocess
import time
from collections.abc import Callable, Mapping, Sequence
from pathlib import Path
from typing import IO

from openlink_update.outcome import DEVICE, Failure

_DEATH_SIGNAL = 1  # PR_SET_PDEATHSIG of prctl
_LIBC = ctypes.CDLL(None)
_PORTS = range(20000, 32000)  # below those that the system gives to clients, from 32768 on
claimed: list[socket.socket] = []  # the sockets whose names are those of ports that this process took


def tied(most_bytes: int | None = None) -> Callable[[], None]:
    """What a child calls before its command starts: it gets SIGTERM when this process ends, and writes no longer
    files."""
    parent = os.getpid()

    def tie() -> None:
        _LIBC.prctl(_DEATH_SIGNAL, signal.SIGTERM)
        if os.getppid() != parent:
            os._exit(1)
        if most_bytes is not None:
            hard = resource.getrlimit(resource.RLIMIT_FSIZE)[1]
            most = most_bytes if hard == resource.RLIM_INFINITY else min(most_bytes, hard)
            resource.setrlimit(resource.RLIMIT_FSIZE, (most, hard))

    return tie


def start(
    words: Sequence[str | Path],
    folder: str | Path,
    most_bytes: int | None = None,
    stdin: int = subprocess.DEVNULL,
    stdout: "int | IO[bytes] | None" = None,
    stderr: int | None = None,
    env: Mapping[str, str] | None = None,
    restore_signals: bool = True,
) -> "subprocess.Popen[bytes]":
    """Starts a command that ends with this process. The last five are those of Popen."""
    return subprocess.Popen(
        words,
        cwd=folder,
        preexec_fn=tied(most_bytes),
        start_new_session=True,
        stdin=stdin,
        stdout=stdout,
        stderr=stderr,
        env=env,
        restore_signals=restore_signals,
    )


def write(child: "subprocess.Popen[bytes]", data: bytes) -> None:
    """Gives a child all of its standard input. That it has ended already is seen by its status."""
    if child.stdin:
        try:
            child.stdin.write(data)
            child.stdin.close()
        except BrokenPipeError:
            pass


def stop(child: "subprocess.Popen[bytes]") -> None:
    if child.poll() is None:
        child.terminate()
        try:
            child.wait(10)
        except subprocess.TimeoutExpired:
            child.kill()
            child.wait()


def kill(child: "subprocess.Popen[bytes]") -> None:
    """Ends a child and the processes that it has started, where none has anything to keep."""
    if child.poll() is None:
        os.killpg(child.pid, signal.SIGKILL)  # it leads a session of its own
        child.wait()


def is_open(port: int) -> bool:
    """Whether something listens at a port of this machine."""
    try:
        socket.create_connection(("127.0.0.1", port), 1).close()
        return True
    except OSError:
        return False


def free_port() -> int:
    """A port at which nothing listens. No process gets it from here again until this one ends: for so long it holds the
    name openlink-port-N of an abstract socket. A Failure says that there is none: any user can take these names."""
    first = random.randrange(len(_PORTS))
    for port in itertools.chain(_PORTS[first:], _PORTS[:first]):
        claim = socket.socket(socket.AF_UNIX)
        try:
            claim.bind(f"\0openlink-port-{port}")
            socket.create_server(("127.0.0.1", port)).close()
            claimed.append(claim)
            return port
        except OSError:
            claim.close()
    raise Failure(
        f"no free port from {_PORTS[0]} to {_PORTS[-1]}: their names openlink-port-N are taken, as `ss -xl` "
        "shows, or something listens at each",
        DEVICE,
    )


def wait_for(port: int, child: "subprocess.Popen[bytes]", seconds: float) -> bool:
    """Whether a child listens at a port before it ends and before the time is over."""
    end = time.monotonic() + seconds
    while time.monotonic() < end and child.poll() is None:
        if is_open(port):
            return True
        time.sleep(0.02)
    return False
