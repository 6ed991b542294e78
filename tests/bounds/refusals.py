"""What a call of the package says against a value."""
from __future__ import annotations

from collections.abc import Callable
from typing import Any

from openlink_update.outcome import Failure
from openlink_update.outcome import Refused
from openlink_update.outcome import Unreadable


def reason(call: Callable[..., Any], *words: Any) -> str:
    """The text with which a call refuses these; '' if it does not."""
    try:
        call(*words)
    except (Failure, Refused, Unreadable) as refusal:
        return str(refusal)
    return ""
