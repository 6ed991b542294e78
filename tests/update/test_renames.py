"""Runs that are killed directly before and after each rename."""
from __future__ import annotations

import os
import signal

from fixtures import needs
from fixtures.cases import Case
from fixtures.library import HERE
from fixtures.library import Library
from fixtures.library import ended
from update.test_ends import OTHER
from update.test_ends import served


def killed_at(library, number, *options, **how):
    """A run that is killed at a rename; the number of such moments, if it ends before that one."""
    file = library.aside("moments")
    child = library.begin(*options, before=(f"{HERE}/killed.py", str(number), file), **how)
    ended(child)
    if child.returncode == -signal.SIGKILL:
        return None
    with open(file) as text:
        return int(text.read())


def age_walls(library):
    """Gives the version in use a wall of another day."""
    with open(library.path("current", "tables", "coastal-law.txt"), "r+", encoding="utf-8") as file:
        text = file.read()
        file.seek(0)
        file.write(text.replace(text.splitlines()[-1].split("\t")[-1], "20200229"))


@needs.nginx()
@needs.program()
class Renames(Case):
    def test_killed_at_renames(self) -> None:
        """SIGKILL directly before and after each rename and link of a run that ends well, those of `openlink compile`
        too. The next run puts it right."""
        self.check_each("forward", 0, 24)

    def test_killed_at_renames_back(self) -> None:
        """The same of a run that goes back, from its first own rename on."""
        self.check_each("back", 10, 26, restart="true")

    def check_each(self, name: str, first: int, expected: int, **options: str) -> None:
        """Kills a run at each moment from the first on, of which there are as many as expected."""
        with Library(probes=5) as library:
            week, number, moments = "A", first, None
            while moments is None:
                library.input.deliver(OTHER[week])
                moments = killed_at(library, number, **options)
                served(self, f"{name}, killed at moment {number}", library)
                number += 1
                status, printed = library.run()
                week = OTHER[week]
                self.expect(
                    f"{name}, the run after {number - 1}: {printed}",
                    (status, library.weeks_served(), library.left_behind()),
                    (0, {week}, []),
                )
            self.expect(f"{name}: moments", (moments, number), (expected, expected + 1))

    def test_walls_killed_at_renames(self) -> None:
        """SIGKILL around the last renames of a run that moves walls, when the new version takes the place of
        another."""
        with Library(probes=5) as library:
            row = "Walls\t3040-0007\t\t2000\t\t\t\t\t\thttps://x.example.org\t\tw\tP9M"
            library.input.add_row("coastal-law", row.encode())
            self.expect("a wall of months", library.run()[0], 0)
            number, moments = 14, None
            while moments is None:
                age_walls(library)
                moments = killed_at(library, number, "--walls")
                served(self, f"walls, killed at moment {number}", library)
                whole = [
                    os.path.exists(library.path("versions", name, "index", "format"))
                    for name in library.versions()
                    if not name.endswith(".new")
                ]
                self.expect(f"walls, complete versions after {number}", set(whole), {True})
                number += 1
                status, printed = library.run("--walls")
                self.expect(
                    f"walls, the run after {number - 1}: {printed}",
                    (status, library.weeks_served(), library.left_behind()),
                    (0, {"A"}, []),
                )
            self.expect("walls: moments", (moments, number), (24, 25))
