"""The processes that serve readers, each at a port: restarts them one at a time, and asks each before the next."""
import http.client
import shlex
import subprocess
import time
from collections.abc import Sequence

from openlink_update.outcome import Failure

_SECONDS_TO_RESTART = 120
_SECONDS_FOR_A_REPLY = 4


def _report_of(port: int) -> list[str]:
    """The names of the targets that the process at a port has. OSError or HTTPException if it gives no report."""
    peer = http.client.HTTPConnection("127.0.0.1", port, timeout=_SECONDS_FOR_A_REPLY)
    try:
        peer.request("GET", "/report?rft.issn=0000-0000")
        reply = peer.getresponse()
        text = reply.read().decode("utf-8", "replace")
        if reply.status != 200:
            raise http.client.HTTPException(f"status {reply.status}")
        return [line.split("\t")[0] for line in text.splitlines() if "\t" in line]
    finally:
        peer.close()


def _answers(port: int) -> bool:
    try:
        _report_of(port)
        return True
    except (OSError, http.client.HTTPException):
        return False


def run(words: Sequence[str]) -> None:
    """Runs a command. A Failure says why it did not succeed."""
    try:
        process = subprocess.run(
            words,
            stdin=subprocess.DEVNULL,
            capture_output=True,
            text=True,
            errors="replace",
            timeout=_SECONDS_TO_RESTART,
            start_new_session=True,
        )
    except OSError as fault:
        raise Failure(f"{words[0]}: {fault.strerror}") from fault
    except subprocess.TimeoutExpired as fault:
        raise Failure(f"{' '.join(words)}: no end after {_SECONDS_TO_RESTART} seconds") from fault
    if process.returncode != 0:
        message = process.stderr.strip() or "no message"
        raise Failure(f"{' '.join(words)}: status {process.returncode}, {message}")


class Processes:
    def __init__(self, ports: list[int], restart: str, reload: str, seconds: float) -> None:
        """Ports, the command that restarts a process (PORT is its port), the one that has nginx read its files again,
        and the seconds that a process has to listen again."""
        self.ports, self._restart, self._reload, self._seconds = ports, restart, reload, seconds
        self.restarted: list[int] = []

    def is_down(self) -> bool:
        """Whether no process answers, as long as one may take to start."""
        end = time.monotonic() + self._seconds
        while self.ports and not any(map(_answers, self.ports)):
            if time.monotonic() > end:
                return True
            time.sleep(0.05)
        return False

    def wait_for_all(self) -> None:
        """Waits until each process answers, as long as one may take: a killed run may have left one that is being
        restarted, and another must not be restarted meanwhile."""
        end = time.monotonic() + self._seconds
        for port in self.ports:
            while not _answers(port) and time.monotonic() < end:
                time.sleep(0.05)

    def restart_all(self, names: list[str]) -> None:
        """Restarts them in turn. A Failure names the first that does not serve the targets with these names."""
        self.restarted.clear()
        for port in self.ports:
            self.restart_one(port, names)

    def restart_one(self, port: int, names: list[str]) -> None:
        self.restarted.append(port)
        run([word.replace("PORT", str(port)) for word in shlex.split(self._restart)])
        self._ask(port, names)

    def reload_site(self) -> None:
        run(shlex.split(self._reload))

    def _ask(self, port: int, names: list[str]) -> None:
        """Asks the process at a port until it answers with these targets."""
        end, reason = time.monotonic() + self._seconds, "no reply"
        while time.monotonic() < end:
            try:
                if _report_of(port) == names:
                    return
                reason = "it has the targets of another version"
            except (OSError, http.client.HTTPException) as fault:
                reason = getattr(fault, "strerror", None) or str(fault) or reason
            time.sleep(0.05)
        raise Failure(f"the process at port {port} does not answer within {self._seconds:g} seconds: {reason}")
