"""Spoils a declaration in each line: a check that does not see one of the spoilt copies is not complete."""
from __future__ import annotations

import re
from collections.abc import Iterator

from packaging import declarations
from packaging import expected_table
from fixtures.cases import Case

_COMMENT_AFTER = re.compile(r"\s# ")
LEAST_SPOILT = 3  # copies of a line on average: without it, twice, and with a word changed


def declared(path: str, lines: list[str]) -> list[int]:
    """The numbers of the lines that are neither blank nor comments for people."""
    has_code_in_comments = declarations.reader(path) in (declarations.nginx, declarations.haproxy)
    return [
        number
        for number, line in enumerate(lines)
        if line.strip()
        and (not line.lstrip().startswith("#") or has_code_in_comments and declarations.is_commented(line))
    ]


def spoilt(path: str, text: str) -> Iterator[tuple[str, str]]:
    """Copies of a text with one line taken out, written twice, after the next one, or with one word changed."""
    lines = text.splitlines()
    numbers = declared(path, lines)
    for at, number in enumerate(numbers):
        line = lines[number]
        before, after = lines[:number], lines[number + 1 :]
        yield f"without line {number + 1}: {line}", "\n".join(before + after)
        yield f"twice line {number + 1}: {line}", "\n".join([*before, line, line, *after])
        if at + 1 < len(numbers) and lines[numbers[at + 1]].strip("# ") != line.strip("# "):
            following = numbers[at + 1]
            moved = [*lines[number + 1 : following + 1], line, *lines[following + 1 :]]
            yield f"line {number + 1} after the next: {line}", "\n".join(before + moved)
        comment = _COMMENT_AFTER.search(line, len(line) - len(line.lstrip()))
        for word in re.finditer(r"\w+", line[: comment.start()] if comment else line):
            changed = f"{line[:word.end()]}x{line[word.end():]}"
            yield f"line {number + 1}: {changed}", "\n".join([*before, changed, *after])


def unseen(path: str, text: str, table: str) -> tuple[int, list[str]]:
    """The number of spoilt copies, and those in which the check finds no fault."""
    rows = expected_table.rows_of(table)
    count, found = 0, []
    for what, copy in spoilt(path, text):
        count += 1
        if not expected_table.faults(path, copy, rows):
            found.append(what)
    return count, found


def check_files(case: Case, *paths: str) -> None:
    """Each file is as its table says."""
    for path in paths:
        case.expect(path, "\n".join(expected_table.faults_of_file(path)), "")


def check_spoilt(case: Case, *paths: str) -> None:
    """The table of each file is complete: the check sees each spoilt copy."""
    for path in paths:
        with open(path, encoding="utf-8") as file, open(expected_table.table_of(path), encoding="utf-8") as table:
            text = file.read()
            count, found = unseen(path, text, table.read())
        least = LEAST_SPOILT * len(declared(path, text.splitlines()))
        case.expect(f"{path}: {count} spoilt copies", count >= least > 0)
        case.expect(f"{path}: spoilt, and no fault", "\n".join(found), "")
