"""A line of the list of titles: how much it has of a title, so that a search reads few bytes."""
from __future__ import annotations

import tempfile
from pathlib import Path

from fixtures.cases import Case
from openlink_update.index import title_list
from openlink_update.index.title_groups import Title


def cells_of(name: str, forms: str, coverage: str) -> list[str]:
    """The cells of the line of a title."""
    title = Title(name)
    title.add(forms, 0, True, coverage)
    with tempfile.TemporaryDirectory() as folder:
        title_list.write_pages(Path(folder, "list"), [("a", [title])], 1, 1)
        lengths, line, _ = Path(folder, "list/0").read_bytes().split(b"\n")
    assert int(lengths) == len(line) + 1, f"the page says {lengths.decode()} for {len(line)} bytes"
    return line.decode().split("\t")


class Lines(Case):
    def test_numbers(self) -> None:
        for count in (8, 9):
            forms = [f"n{number}" for number in range(count)]
            self.expect(f"{count} numbers", cells_of("a", " ".join(forms), "t 0")[1].split(" "), forms[:8])

    def test_rows(self) -> None:
        """Twelve that differ in more than their number and the part of their table."""
        for count in (12, 13):
            rows = [f"t {number} {2000 + number}" for number in range(count)]
            self.expect(f"{count} rows", cells_of("a", "n", ";".join(rows))[2].split(";"), rows[:12])
        self.expect(
            "rows that are alike", cells_of("a", "n", "t 0 2001;t 7 2001;t.2 7 2001;u 1 2001")[2], "t 0 2001;u 1 2001"
        )

    def test_title(self) -> None:
        """A thousand bytes, and no half of a character."""
        self.expect("1,000 bytes", cells_of("é" * 500, "n", "t 0")[0], "é" * 500)
        self.expect("1,001 bytes", cells_of("a" + "é" * 500, "n", "t 0")[0], "a" + "é" * 499)

    def test_bytes(self) -> None:
        """A row that does not fit into 1,300 bytes is left out as a whole."""
        name, first = "a" * 100, "t 0 2001"
        for length, wanted in ((1300, 2), (1301, 1)):
            second = "u" * (length - len(f"{name}\tn\t{first};"))
            cells = cells_of(name, "n", f"{first};{second}")
            self.expect(f"{length} bytes", len(cells[2].split(";")), wanted)
