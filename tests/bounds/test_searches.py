"""How many places of its rarest word a search of the list looks at."""
from __future__ import annotations

from fixtures import needs
from fixtures.cases import Case
from fixtures.index_reader import Index
from fixtures.index_reader import table
from index.test_searches import searched

_MOST = 2000


@needs.command("njs")
class Searches(Case):
    def test_places(self) -> None:
        """Two thousand are all looked at. Of one more, the last title is not found."""
        names = [f"T{number:04} Reef{' Silt' * (number < _MOST)}" for number in range(_MOST + 2)]
        names[_MOST] += " Clay"
        names = [f"{name}{' Tar' * (number <= _MOST)}" for number, name in enumerate(names)]
        rows = [(name, f"{1000000 + number}0") for number, name in enumerate(names)]
        with Index({"one": table(*rows)}) as made:
            for text, count, is_more in (
                ("reef silt", _MOST, False),
                ("reef tar", _MOST, True),
                ("tar clay", 1, False),
            ):
                self.expect(f"{text}: how many, and whether more", searched(made.folder, text)[3:5], [count, is_more])
