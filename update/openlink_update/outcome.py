"""How a run ends: its exit statuses, and the exceptions and signals that end it early. SIGINT, SIGTERM and SIGHUP are
the exception Interrupted, which is raised once; while a run goes back they are ignored."""
import signal

ALL_NEW, KEPT, USAGE, WENT_BACK, DEVICE = 0, 1, 2, 3, 4
_SIGNALS = (signal.SIGINT, signal.SIGTERM, signal.SIGHUP)


class Failure(Exception):
    """The run cannot continue. Its text says what is wrong and where."""

    def __init__(self, text: str, status: int = WENT_BACK) -> None:
        super().__init__(text)
        self.status = status


class Refused(Exception):
    """New files of one target cannot be used; each line of `reasons` names the file and says why."""

    def __init__(self, reasons: list[str]) -> None:
        super().__init__("; ".join(reasons))
        self.reasons = reasons


class Interrupted(Exception):
    """A signal asked the run to end."""


class Unreadable(Exception):
    """The bytes of a file are no table. Its text says why."""


def _interrupt(number: int, _: object) -> None:
    ignore_signals()
    raise Interrupted(signal.Signals(number).name)


def raise_signals() -> None:
    """From now on they end the run by an exception."""
    for number in _SIGNALS:
        signal.signal(number, _interrupt)


def ignore_signals() -> None:
    for number in _SIGNALS:
        signal.signal(number, signal.SIG_IGN)


def reset_signals() -> None:
    """They end the process at once, as they do until a run begins."""
    for number in _SIGNALS:
        signal.signal(number, signal.SIG_DFL)
