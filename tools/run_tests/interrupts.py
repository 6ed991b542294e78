"""An interrupt of a command, which then has time to end its tests and to remove its temporary folders."""
from __future__ import annotations

import signal
from types import FrameType

_SIGNALS = (signal.SIGINT, signal.SIGTERM)


def _interrupt(_: int, __: FrameType | None) -> None:
    """`timeout` sends its signal to a command and to the command's group, so a second one may follow the first."""
    for number in _SIGNALS:
        signal.signal(number, signal.SIG_IGN)
    raise KeyboardInterrupt


def heed() -> None:
    """From now on the first of these signals raises KeyboardInterrupt, and those after it do nothing."""
    for number in _SIGNALS:
        if signal.getsignal(number) != signal.SIG_IGN:
            signal.signal(number, _interrupt)
