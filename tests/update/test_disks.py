"""Disks that are full or become full. The version before is served, and nothing is left."""
from __future__ import annotations

import contextlib
import os
import re
import resource
import shutil
import subprocess

from fixtures import needs
from fixtures.cases import Case
from fixtures.library import Library


@contextlib.contextmanager
def disk(library, options):
    """A folder that is a disk of its own."""
    folder = library.aside("disk")
    os.mkdir(folder)
    subprocess.run(["mount", "-t", "tmpfs", "-o", options, "tmpfs", folder], check=True)
    try:
        yield folder
    finally:
        subprocess.run(["umount", "-l", folder], check=True)


def fill_bytes(folder, room):
    with open(os.path.join(folder, "filler"), "wb") as file:
        file.write(bytes(max(shutil.disk_usage(folder).free - room, 0)))


def fill_files(folder, room):
    os.mkdir(os.path.join(folder, "filler"))
    for number in range(os.statvfs(folder).f_ffree - room):
        open(os.path.join(folder, "filler", str(number)), "w").close()


def fill(case, library, rooms, fill_up):
    """Runs with these rooms on the disk until one has enough. Returns the statuses of the runs."""
    library.input.deliver("B")
    first, statuses, filler = library.current(), [], os.path.join(os.path.dirname(library.folder), "filler")
    for room in rooms:
        fill_up(room)
        status, printed = library.run()
        statuses.append(status)
        shutil.rmtree(filler) if os.path.isdir(filler) else os.unlink(filler)
        is_new = status == 0
        case.expect(f"room {room}, the reason: {printed}", is_new or "No space left on device" in printed)
        case.expect(
            f"room {room}: {printed}",
            (library.current() != first, library.weeks_served(), library.left_behind()),
            (is_new, {"B" if is_new else "A"}, []),
        )
        if is_new:
            break
    library.input.deliver("B")
    case.expect("no longer full", (library.run()[0], library.weeks_served()), (0, {"B"}))
    return statuses


@needs.nginx()
@needs.program()
class Disks(Case):
    @needs.file_systems()
    def test_full_disk(self) -> None:
        """Less and less room, until nothing can be made: then the version before is served and nothing is left."""
        with Library() as aside:
            with disk(aside, "size=2m") as folder:
                with Library(folder=os.path.join(folder, "library")) as library:
                    rooms = (0, 16, 64, 120, 180, 240, 300, 360, 420, 480)
                    statuses = fill(self, library, rooms, lambda room: fill_bytes(folder, room * 1024))
                    self.expect(
                        f"a full disk: {statuses}",
                        (set(statuses[:-1]), len(statuses) > 4, statuses[-1]),
                        ({4}, True, 0),
                    )

    @needs.file_systems()
    def test_no_file_left(self) -> None:
        """A disk that has room for more bytes, but only for some files; and one that is filled while processes are
        restarted, so that not even a link to the version before can be made."""
        with Library() as aside:
            with disk(aside, "size=8m,nr_inodes=1000") as folder:
                with Library(folder=os.path.join(folder, "library")) as library:
                    statuses = fill(
                        self, library, (0, 20, 40, 80, 100, 118, 128, 140), lambda room: fill_files(folder, room)
                    )
                    self.expect(
                        f"no file left: {statuses}",
                        (set(statuses[:-1]), len(statuses) > 4, statuses[-1]),
                        ({4}, True, 0),
                    )
                with Library(folder=os.path.join(folder, "other")) as library:
                    library.input.deliver("B")
                    first, filler = library.current(), os.path.join(folder, "filler")
                    fills = f"mkdir {filler}; touch $(seq -f {filler}/%g 1000) 2>/dev/null; exit 9"
                    status, printed = library.run(restart=f"sh -c '{fills}'")
                    self.expect(
                        f"a disk that is filled meanwhile: {printed}",
                        (status, library.current(), library.weeks_served()),
                        (3, first, {"A"}),
                    )
                    shutil.rmtree(filler)
                    self.expect(
                        "no longer full",
                        (library.run()[0], library.weeks_served(), library.left_behind()),
                        (0, {"B"}, []),
                    )

    def test_oldest_away(self) -> None:
        """The command of INSTALLING's chapter "Disk" that deletes the oldest version: the next update is as ever."""
        with open("docs/INSTALLING.md", encoding="utf-8") as file:
            block = next(it for it in file.read().split("\n## Disk\n")[1].split("```\n")[1::2] if "rm -r" in it)
        command = next(line for line in block.splitlines() if line.startswith("rm "))
        with Library() as library:
            for week in "BA":
                library.input.deliver(week)
                self.expect(f"week {week}", library.run()[0], 0)
            oldest, *kept = library.versions()
            subprocess.run(
                ["sh", "-ec", re.sub(r"/etc/openlink/versions/\w+", library.path("versions", oldest), command)],
                check=True,
            )
            self.expect("versions", library.versions(), kept)
            library.input.deliver("B")
            self.expect(
                "the next week", (library.run()[0], library.weeks_served(), len(library.versions())), (0, {"B"}, 3)
            )
            self.expect("and back", (library.run("--back")[0], library.weeks_served()), (0, {"A"}))

    def test_file_limit(self) -> None:
        """Files of a limited size, which need no disk of their own."""
        with Library() as library:
            library.input.deliver("B")
            first = library.current()
            child = subprocess.run(
                library.words(),
                capture_output=True,
                text=True,
                preexec_fn=lambda: resource.setrlimit(resource.RLIMIT_FSIZE, (600, 600)),
            )
            self.expect(
                f"a limit: {child.stderr}", (child.returncode, library.current(), library.left_behind()), (4, first, [])
            )
