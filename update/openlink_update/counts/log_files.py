"""Opens logs. One that cannot be read to its end counts up to there."""
import gzip
import sys
import zlib
from collections.abc import Callable, Iterator
from pathlib import Path


class LogFile:
    """A log, decompressed if its name ends in .gz. `fault` says why it could not be read to its end."""

    def __init__(self, name: str, read: Callable[[int], bytes]) -> None:
        self.name = name
        self.fault = ""
        self._read = read

    def read(self, size: int, /) -> bytes:
        """At most this number of bytes; fewer only at the end, or before a fault."""
        parts = []
        while size > 0 and not self.fault:
            try:
                part = self._read(size)
            except (OSError, EOFError, zlib.error) as fault:
                self.fault = _reason(fault)
                break
            if not part:
                break
            parts.append(part)
            size -= len(part)
        return b"".join(parts)


def _reason(fault: Exception) -> str:
    if isinstance(fault, OSError) and fault.strerror:
        return fault.strerror
    return f"gzip: {fault}"


def open_logs(names: list[str]) -> Iterator[LogFile]:
    """Each is open until the next one is taken. Without names it is the standard input."""
    if not names:
        yield LogFile("standard input", sys.stdin.buffer.read)
    for name in names:
        with Path(name).open("rb") as file:
            if name.endswith(".gz"):
                with gzip.open(file) as log:
                    yield LogFile(name, log.read1)
            else:
                yield LogFile(name, file.read)
