"""What the front door's logs hold, counted by month: equal to a slow count of made lines, in blocks of any size; names
that whoever sends requests chooses take bounded memory."""
from __future__ import annotations

import io
import random
from collections import Counter

from fixtures.cases import Case
from openlink_update.counts import log_counts

OURS = ("/find", "/find.json", "/go", "/fault")
PROBE = "info:sid/openlink:probe"
LEAST = 10_000  # lines


def made_line(made: random.Random) -> str:
    """A line of a request, a click or a request in vain; one in some is spoilt."""
    month = f"2026-{made.randint(1, 12):02}"
    if made.random() < 0.1:
        number = made.choice(["2901-0012", "1234-567X", "9780306406157", "-"])
        return f"{month} target={made.choice(['tidal-press', 'a.b_c-d', '2901-0012'])} {number}"
    if made.random() < 0.05:
        return f"{month} {made.choice(['2901-0012', '9780306406157'])} {made.choice(['1951', '2024', '-'])}"
    links = made.choice(["", "0/0", "0/2", "1/3", "2/2", "10/12", "00/3", "0/05", "1/"])
    targets = ",".join(made.sample(["tidal-press", "catalogue", "loan", "web_search", "a.b", ""], made.randint(0, 4)))
    fields = [
        f"{month}-{made.randint(1, 28):02}T08:00:{made.randint(0, 59):02}+00:00",
        made.choice(["200", "200", "200", "302", "302", "404", "499", "503", "600"]),
        made.choice(["GET", "POST"]),
        made.choice([*OURS, *OURS, "/menu.css", "/find x", "/finds", "/go/"]),
        f"0.{made.randint(0, 999):03}",
        f"found={links}",
        f"targets={targets}",
        f"from={made.choice(['', '', 'info:sid/google', 'info:sid/a.b:c', PROBE, PROBE + 's', 'é', 'x' * 101])}",
    ]
    if made.random() < 0.2:
        del fields[6]
    if made.random() < 0.05:
        fields[made.randrange(len(fields))] = made.choice(["", "x", "from=", "targets=a b", "found=1/1", "\t"])
    return made.choice([" ", " ", " ", "  "] if made.random() < 0.1 else [" "]).join(fields)


def is_date(text: str) -> bool:
    return len(text) == 7 and text[4] == "-" and text[:4].isdecimal() and text[5] in "01" and text[6].isdecimal()


def is_made_of(text: str, others: str) -> bool:
    return all(character.isascii() and (character.isalnum() or character in others) for character in text)


def slow_count(lines: list[str]) -> tuple[list[tuple[str, str, str, int]], int]:
    """The rows without an order, and how many lines have another form; a line at a time."""
    rows: Counter[tuple[str, str, str]] = Counter()
    unread = 0
    for fields in filter(None, map(str.split, lines)):
        kinds = kinds_of(fields)
        unread += kinds is None
        month = fields[0][:7]
        rows.update((month, kind, name) for kind, name in kinds or ())
    return [(*row, number) for row, number in rows.items()], unread


def kinds_of(fields: list[str]) -> list[tuple[str, str]] | None:
    if len(fields) == 3 and is_date(fields[0]):
        if fields[1].startswith("target="):
            target = fields[1][7:]
            return [("followed", target), ("followed title", f"{target} {fields[2]}")]
        return [("asked in vain", fields[1])]
    if len(fields) < 7 or not is_date(fields[0][:7]) or fields[1] == "600" or len(fields[1]) != 3:
        return None
    if not fields[1].isdecimal() or not fields[-1].startswith("from="):
        return None
    if len(fields) > 8 or fields[3] not in OURS:
        return []
    source, found = fields[-1][5:], fields[5]
    if source == PROBE or fields[1] >= "400":
        return [("probes", "")] if source == PROBE else [("errors", fields[1])]
    return [] if found == "found=" else kinds_of_request(fields, source, found)


def kinds_of_request(fields: list[str], source: str, found: str) -> list[tuple[str, str]] | None:
    parts = found.removeprefix("found=").split("/")
    if not found.startswith("found=") or len(parts) != 2 or not all(map(str.isdecimal, parts)):
        return None
    targets = fields[6].removeprefix("targets=") if len(fields) == 8 else ""
    if len(fields) == 8 and (not fields[6].startswith("targets=") or not is_made_of(targets, "_.,-")):
        return None
    if len(source) > 100 or not is_made_of(source, "_:./-"):
        return None
    kinds = [("requests", ""), ("source", source or "(none)")]
    if parts[0] == "0":
        kinds += [("without full text", ""), ("source without full text", source or "(none)")]
    if parts == ["0", "0"]:
        kinds.append(("without a link", ""))
    kind = "followed" if fields[1] == "302" else "shown"
    return kinds + [(kind, target) for target in targets.split(",") if targets]


class Blocks(io.BytesIO):
    """A file that gives a few bytes at a time."""

    def __init__(self, data: bytes, most: int) -> None:
        super().__init__(data)
        self.most = most

    def read(self, _: int | None = -1) -> bytes:
        return super().read(self.most)


class LogCounts(Case):
    def test_slow_count(self) -> None:
        made = random.Random(91)
        lines = [made_line(made) for _ in range(LEAST)]
        rows, unread = slow_count(lines)
        data = "\n".join(lines).encode()
        self.expect("kinds", {row[1] for row in rows}, set(log_counts._KINDS))
        self.expect("lines of another form", 200 < unread < 5000)
        for most in 7, 1000, 10**7:
            counts = log_counts.counts_of([Blocks(data, most)])
            self.expect(f"{most} bytes at a time: rows", sorted(counts.rows()), sorted(rows))
            self.expect(f"{most} bytes at a time: lines", (counts.lines, counts.unread), (LEAST, unread))
        halves = [io.BytesIO(data[:100_000]), io.BytesIO(data[100_000:])]
        self.expect("two files", log_counts.counts_of(halves).lines, LEAST + 1)

    def test_other_paths(self) -> None:
        """They count for nothing. A line that has too few fields, or wrong ones, has another form all the same."""
        line = "2026-10-01T08:00:00+00:00 200 GET /{} 0.001 found=1/1 targets= from=a"
        for path in (
            "finds",
            "menu.css",
            "a b",
            "a from=b",
            "a  b",
            "é",
            "\té",
            "find b",
            "go found=1/1 targets=a from=b",
        ):
            self.expect(path, (self.unread(line.format(path)), self.unread(f" {line.format(path)} ")), (0, 0))
        whole = line.format("x")
        for old, new in (
            (" 0.001 found=1/1", ""),
            ("found=1/1 targets=", " "),
            ("2026-10", "2026-20"),
            ("2026-10", "202-10"),
            (" 200", " 600"),
            (" 200", " 20"),
            ("from=", "to="),
            ("from=a", "a"),
            ("from=a", "from=a b"),
        ):
            wrong = whole.replace(old, new)
            self.expect(wrong, self.unread(wrong), 1)

    def unread(self, line: str) -> int:
        counts = log_counts.counts_of([io.BytesIO(f"{line}\n".encode())])
        self.expect(f"{line}: rows", counts.rows(), [])
        return counts.unread

    def test_order(self) -> None:
        log = b"2026-10 target=b -\n2026-10 target=a 2901-0012\n2026-10 target=c -\n2026-10 target=c -\n"
        rows = log_counts.counts_of([io.BytesIO(log)]).rows()
        self.expect("names", [name for _, kind, name, _ in rows if kind == "followed"], ["c", "a", "b"])
        self.expect("kinds", list(dict.fromkeys(kind for _, kind, _, _ in rows)), ["followed", "followed title"])
        log = b"".join(b"%d-%02d target=a -\n" % (year, month) for year in (2026, 2025) for month in range(12, 0, -1))
        months = [row[0] for row in log_counts.counts_of([io.BytesIO(log)]).rows() if row[1] == "followed"]
        self.expect("months", months, [f"{year}-{month:02}" for year in (2025, 2026) for month in range(1, 13)])
