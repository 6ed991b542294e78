"""The order in which the update puts files in place: their bytes are on the disk before their names."""
from __future__ import annotations

import re
import tempfile

from fixtures import disk_calls
from fixtures import needs
from fixtures.cases import Case
from fixtures.disk_calls import Call
from fixtures.disk_calls import Losses
from fixtures.disk_calls import Trace
from fixtures.library import Library
from fixtures.library import PYTHON
from fixtures.provider import TABLE
from fixtures.provider import Folder
from fixtures.provider import Provider
from fixtures.provider import reply

_MAY_BE_LOST = re.compile(r"lock(\.users)?|input\.fetch/(lock|bodies(/\d+)?)")
# The next run removes these if they are there again, or has the same versions.
_MAY_COME_BACK = re.compile(r"versions/STAMP(\.new)?(/.*)?|trial(/.*)?|current\.new|input\.fetch/bodies(/.*)?")
_LOG = """1 openat(AT_FDCWD</>, "/f/a.new", O_WRONLY|O_CREAT|O_TRUNC|O_CLOEXEC, 0666) = 3</f/a.new>
1 write(3</f/a.new>, ""..., 9) = 9
1 fsync(3</f/a.new> <unfinished ...>
2 chdir("/f/sub") = 0
1 <... fsync resumed>) = 0
1 rename("/f/a.new", "/f/a") = 0
1 fsync(4</f>) = 0
2 rename("b.new", "b") = 0
2 fsync(3</f/sub>) = 0
2 unlink("/f/c") = 0
1 fsync(4</f>) = 0
"""
_NAMES = ("/f/sub", "/f/sub/b.new", "/f/c")


def followed(library: Library, *options: str) -> tuple[Trace, list[Call], tuple[int | None, str]]:
    trace = Trace(library.aside("calls"), library.folder)
    ended = library.run(*options, before=(*trace.before, *PYTHON), is_command=True)
    return trace, trace.calls(), ended


def left(losses: Losses) -> Losses:
    """The losses that matter."""
    return losses.but(_MAY_BE_LOST, _MAY_COME_BACK)


def without_each_sync(trace: Trace, folder: str, calls: list[Call]) -> list[tuple[int, Losses]]:
    """What is lost if one of the calls that wait for the disk is left out, of those that are not for a version that is
    being made: it is on the disk by one call at its end."""
    places = [
        place
        for place, call in enumerate(calls)
        if call.is_sync()
        and call.paths[0].startswith(folder)
        and (call.name == "syncfs" or ".new/" not in call.paths[0])
    ]
    return [(place, left(trace.losses(folder, calls[:place] + calls[place + 1 :]))) for place in places]


class Calls(Case):
    def test_losses(self) -> None:
        """A log of calls that are in order, and the same log without one of its lines."""
        lines = _LOG.splitlines()
        good = disk_calls.losses(disk_calls.calls_in(_LOG), "/f", _NAMES)
        self.expect("in order", good, Losses([], [], []))
        early = ["/f/a gets its name, and /f/a.new is not on the disk"]
        other = [f"/f/{it}, and /f/a is not on the disk" for it in ("sub/b gets its name", "c is removed")]
        for name, gone, expected in (
            ("no sync of the file", (2, 4), Losses(early, ["/f/a"], [])),
            ("no sync of the folder", (6,), Losses(other, [], [])),
            (
                "no sync of the folder below",
                (8,),
                Losses(["/f/c is removed, and /f/sub/b is not on the disk"], ["/f/sub/b"], []),
            ),
            ("no sync after the removal", (10,), Losses([], [], ["/f/c"])),
        ):
            log = "\n".join(line for place, line in enumerate(lines) if place not in gone)
            self.expect(name, disk_calls.losses(disk_calls.calls_in(log), "/f", _NAMES), expected)

    def test_late_writes(self) -> None:
        """A file that is written to after its sync is not on the disk, by whichever call it is written."""
        for call in (
            'write(3</f/a.new>, ""..., 1) = 1',
            "sendfile(3</f/a.new>, 5</f/c>, [0] => [1], 8) = 1",
            "copy_file_range(5</f/c>, NULL, 3</f/a.new>, NULL, 8, 0) = 8",
            "ftruncate(3</f/a.new>, 0) = 0",
            'openat(AT_FDCWD</f>, "a.new", O_WRONLY|O_TRUNC) = 6</f/a.new>',
        ):
            lines = _LOG.splitlines()
            lines.insert(5, f"1 {call}")
            found = disk_calls.losses(disk_calls.calls_in("\n".join(lines)), "/f", _NAMES)
            self.expect(call, found.faults, ["/f/a gets its name, and /f/a.new is not on the disk"])


@needs.nginx()
@needs.program()
@needs.command("strace")
class PowerCuts(Case):
    def test_weeks(self) -> None:
        """A week, going back and forward again, a week without anything new, and walls: all that they put in place is
        on the disk before the next step. A sync that is left out is seen."""
        with Library(probes=2) as library:
            library.input.deliver("B")
            library.input.add_row("coastal-law", b"Walls\t3040-0007\t\t2000\t\t\t\t\t\thttps://x.example.org\t\tw\tP9M")
            for name, options, syncs in (
                ("a week", (), 9),
                ("back", ("--back",), 5),
                ("forward", (), 9),
                ("nothing new", (), 4),
                ("walls", ("--walls",), 7),
            ):
                if name == "walls":
                    path = library.path("current", "tables", "coastal-law.txt")
                    with open(path, "r+", encoding="utf-8") as file:
                        text = file.read()
                        file.seek(0)
                        file.write(text.replace(text.splitlines()[-1].split("\t")[-1], "20200229"))
                trace, calls, (status, printed) = followed(library, *options)
                self.expect(
                    f"{name}: {printed}", (status, left(trace.losses(library.folder, calls))), (0, Losses([], [], []))
                )
                spoilt = without_each_sync(trace, library.folder, calls)
                self.expect(f"{name}: calls that wait for the disk", len(spoilt), syncs)
                for number, (place, losses) in enumerate(spoilt):
                    # That `before` is removed need not be on the disk before the name that follows it. The last two
                    # are those of the record of the run.
                    is_last = name in ("a week", "forward") and number == len(spoilt) - 5
                    self.expect(f"{name}: without {calls[place]}: {losses}", losses != Losses([], [], []), not is_last)


@needs.command("strace", "curl", "openssl")
class Fetched(Case):
    def test_fetch(self) -> None:
        """A file that is new and one that has changed, and what is remembered of both."""
        provider = Provider(has_tls=False)
        self.addCleanup(provider.stop)
        folder = Folder(provider)
        self.addCleanup(folder.close)
        provider.steps = {"/new": [reply(200, TABLE)], "/changed": [reply(200, TABLE)]}
        folder.write("changed.txt", "old\n")
        folder.write(
            "sources.tsv",
            "".join(f"{name}.txt\t{provider.address(f'/{name}')}\tplain http\n" for name in ("new", "changed")),
        )
        self.expect("the folder of the fetch", folder.fetch("new.txt")[0], 0)
        provider.steps["/new"] = [reply(200, TABLE + TABLE.splitlines(True)[1])]
        with tempfile.TemporaryDirectory() as aside:
            trace = Trace(f"{aside}/calls", folder.top)
            status, printed = folder.fetch(before=trace.before)
            calls = trace.calls()
        self.expect(f"two files: {printed}", (status, left(trace.losses(folder.top, calls))), (0, Losses([], [], [])))
        spoilt = without_each_sync(trace, folder.top, calls)
        self.expect("calls that wait for the disk", len(spoilt), 8)  # file and folder, of two files and two states
        for place, losses in spoilt:
            self.expect(f"without {calls[place]}: {losses}", losses != Losses([], [], []))
