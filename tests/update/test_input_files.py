"""The one door for files below an input folder, input_files.py: which kinds of files it reads and replaces, which it
refuses and how, and what it takes for the lines of a list. Whoever writes in the folder makes it hostile: with links,
devices, pipes, and paths that lead out of it. The update and the fetch report an OSError with its path."""
from __future__ import annotations

import os
import socket
import stat
import tempfile
import threading
from collections.abc import Callable
from pathlib import Path
from unittest import mock

from fixtures.cases import Case
from fixtures.patience import wait_until
from openlink_update import allowed_folders
from openlink_update.input_files import InputFolder, cells_in, lines_in
from openlink_update.outcome import Failure
from openlink_update.root_folder import MOST_BYTES

# Lines of a list, and the cells of those that count, after their numbers.
LISTS: list[tuple[bytes, list[tuple[int, list[str]]]]] = [
    (b"", []),
    (b"\n \n\t\n#a\tb\n", []),
    (b"a\tb\n", [(1, ["a", "b"])]),
    (b"a", [(1, ["a"])]),
    (b"a\t\tb\t\n", [(1, ["a", "", "b", ""])]),
    (b"\n#\n\na\tb\r\n\r\nc\n", [(4, ["a", "b"]), (6, ["c"])]),
    (b"\xef\xbb\xbfa\tb\n", [(1, ["a", "b"])]),
    (b"\xef\xbb\xbf# a\nb\n", [(2, ["b"])]),
    (b" # a\n", [(1, [" # a"])]),
    ("a\x0bb\u2028c\td\n".encode(), [(1, ["a\x0bb\u2028c", "d"])]),
]
# A pattern, and the names that it means of those in MATCHED and of two links.
PATTERNS = [
    ("*", ["a", "a1.txt", "a2.txt", "a[1].txt", "b", "broken", "link"]),
    ("a*.txt", ["a1.txt", "a2.txt", "a[1].txt"]),
    ("a[1]*", ["a[1].txt"]),
    ("a?.txt*", []),
    (".h*", [".hidden"]),
    ("*/c", ["folder/c"]),
    ("fold*/*", ["folder/c"]),
    ("folder/**", ["folder/c"]),
    ("folder/../b*", ["b", "broken"]),
    ("a/*", []),
    ("no/*", []),
    ("no*", []),
]
MATCHED = ("a", "a1.txt", "a2.txt", "a[1].txt", "b", ".hidden", "folder/c")


def outcome(step: Callable[[], object]) -> object:
    """What a step returns, or the name of its error."""
    try:
        return step()
    except (OSError, ValueError) as error:
        return type(error).__name__


class InputFiles(Case):
    def setUp(self) -> None:
        place = tempfile.TemporaryDirectory()
        self.addCleanup(place.cleanup)
        self.top = Path(place.name)
        self.path = self.top / "input"
        self.path.mkdir()
        self.folder = InputFolder(self.path)

    def write(self, name: str | Path, data: bytes = b"data") -> Path:
        path = self.path / name
        path.parent.mkdir(parents=True, exist_ok=True)
        path.write_bytes(data)
        return path

    def link(self, name: str, target: str | Path) -> None:
        (self.path / name).symlink_to(target)


class Reading(InputFiles):
    def test_what_is_read(self) -> None:
        self.write("file")
        self.write("folder/below")
        self.write("empty", b"")
        self.write(os.fsdecode(b"\xff\xfe.txt"))
        self.write("*")
        names = ["file", "folder/below", "folder/../file", "./folder//below", str(self.path / "file"), "../input/file"]
        for name in [*names, os.fsdecode(b"\xff\xfe.txt"), "*"]:
            self.expect(f"read {name!r}", outcome(lambda: self.folder.read(name)), b"data")
            self.expect(f"at most 2 bytes of {name!r}", self.folder.read(name, 2), b"da")
            self.expect(f"the file {name!r}", self.folder.file(name).data, b"data")
            self.expect(f"it is one, {name!r}", self.folder.exists(name), True)
            self.expect(f"the size of {name!r}", self.folder.status(name).st_size, 4)
        self.expect("an empty file", self.folder.read("empty"), b"")

    def test_the_folder_itself_may_be_a_link(self) -> None:
        self.write("file")
        (self.top / "link").symlink_to("input")
        self.expect("its file", InputFolder(self.top / "link").read("file"), b"data")

    def test_what_is_refused(self) -> None:
        self.write("file")
        self.write("folder/below")
        cases = [
            ("nothing", "FileNotFoundError"),
            ("nothing/below", "FileNotFoundError"),
            ("x" * 256, "OSError"),
            ("file/below", "NotADirectoryError"),
            ("folder", "IsADirectoryError"),
            ("", "IsADirectoryError"),
        ]
        for name, error in cases:
            for step in (self.folder.read, self.folder.file, self.folder.open, self.folder.lines):
                self.expect(f"{step.__name__} {name[:20]!r}", outcome(lambda: step(name)), error)
            if error != "IsADirectoryError":
                self.expect(f"the status of {name[:20]!r}", outcome(lambda: self.folder.status(name)), error)

    def reasons(self, name: str) -> set[tuple[str, str]]:
        """The paths and texts of the errors by which each way to read a file refuses it."""
        found = set()
        for step in (self.folder.read, self.folder.file, self.folder.open, self.folder.lines):
            try:
                step(name)
            except OSError as error:
                found.add((str(error.filename), str(error.strerror)))
            else:
                found.add(("", f"{step.__name__} opens it"))
        return found

    def refuse(self, name: str, place: str | Path, reason: str) -> None:
        """A file is refused, with this path and this reason."""
        self.expect(f"{name[:60]!r}", self.reasons(name), {(str(self.path / place), reason)})

    def test_paths_that_leave_the_folder(self) -> None:
        outside = self.write(self.top / "outside")
        sibling = self.write(self.top / "input and more" / "file")
        reason = f"outside of the input: copy it into {self.path}, or as root name its folder in {self.path}.folders"
        for name in ("../outside", "folder/../../outside", str(outside), f"{self.path}/../outside", "..", "/", "//etc"):
            self.refuse(name, os.path.normpath(self.path / name).replace("//", "/"), reason)
            self.expect(f"it does not exist, {name}", self.folder.exists(name), False)
        self.refuse(str(sibling), sibling, reason)
        self.refuse("/dev/zero", "/dev/zero", reason)
        self.refuse("a\0b", "a\0b", "not a name of a file")

    def test_links(self) -> None:
        outside = self.write(self.top / "outside" / "file").parent
        self.write("file")
        self.write("folder/below")
        links = [("link", "file"), ("out", outside / "file"), ("broken", "nothing"), ("round", "round"), ("up", "..")]
        for name, target in [*links, ("linked", "folder"), ("linked out", outside), ("folder/link", "below")]:
            self.link(name, target)
        paths = [
            *((name, name) for name, _ in links),
            ("linked", "linked"),
            ("linked/below", "linked"),
            ("linked out/file", "linked out"),
            ("up/outside/file", "up"),
            ("folder/link", "folder/link"),
        ]
        for name, place in paths:
            reason = f"{place} is a link, and none is followed: put what it leads to in its place"
            self.refuse(name, place, reason)
        self.expect("a link exists", self.folder.exists("broken"), True)
        self.expect("in a pattern", outcome(lambda: self.folder.matches("linked out/*")), "Unusable")
        self.expect("by a pattern", outcome(lambda: self.folder.matches("linked*/f*")), "Unusable")

    def test_what_is_no_regular_file(self) -> None:
        """A pipe that nobody writes to is refused at once."""
        os.mkfifo(self.path / "pipe")
        self.refuse("pipe", "pipe", "not a regular file")
        peer = socket.socket(socket.AF_UNIX)
        self.addCleanup(peer.close)
        peer.bind(str(self.path / "socket"))
        self.expect("a socket", {text for _, text in self.reasons("socket")}, {"No such device or address"})
        self.expect("a pattern does not name them", self.folder.matches("*"), [])
        devices = InputFolder("/dev")
        for name in ("zero", "null", "tty"):
            self.expect(f"the device {name}", outcome(lambda: devices.read(name, 1)) in ("Unusable", "OSError"), True)

    def test_size(self) -> None:
        for name, size in (("most", MOST_BYTES), ("more", MOST_BYTES + 1)):
            with self.write(name).open("wb") as file:
                file.truncate(size)
        self.folder.open("most").close()
        self.refuse("more", "more", "more than 256 MB")

    def test_a_file_that_grows_while_it_is_read(self) -> None:
        """Not more is read than a file may have."""
        self.write("file", b"data")
        with mock.patch("openlink_update.input_files.MOST_BYTES", 2):
            self.expect("two bytes", self.folder.file("file").data, b"da")

    def test_a_folder_that_becomes_a_link(self) -> None:
        """Neither does one lead out that is replaced at any time."""
        outside = self.write(self.top / "outside" / "file", b"secret").parent
        self.write("folder/file")
        stop = threading.Event()

        def swap() -> None:
            while not stop.is_set():
                (self.path / "folder").rename(self.path / "kept")
                (self.path / "folder").symlink_to(outside)
                (self.path / "folder").unlink()
                (self.path / "kept").rename(self.path / "folder")

        found = set[object]()

        def has_met_both() -> bool:
            found.update(outcome(lambda: self.folder.read("folder/file")) for _ in range(2000))
            return {b"data", "Unusable"} <= found

        swapping = threading.Thread(target=swap)
        swapping.start()
        wait_until(has_met_both)
        stop.set()
        swapping.join()
        self.expect("what is read", {it for it in found if isinstance(it, bytes)}, {b"data"})
        self.expect("a link was met", "Unusable" in found, True)

    def test_a_file_that_only_its_owner_reads(self) -> None:
        self.write("file").chmod(0o000)
        if os.geteuid() == 0:
            self.expect("root reads it", self.folder.read("file"), b"data")
        else:
            self.expect("it is refused", outcome(lambda: self.folder.read("file")), "PermissionError")

    def test_a_file_that_changes_while_it_is_read(self) -> None:
        def change(name: str, step: Callable[[Path], object]) -> bool:
            path = self.write(name)
            os.utime(path, (1, 1))
            file = self.folder.file(name)
            step(path)
            return file.is_changed()

        self.expect("it is the same", change("same", lambda path: path.read_bytes()), False)
        self.expect("more bytes", change("more", lambda path: path.write_bytes(b"data and more")), True)
        self.expect("other bytes", change("other", lambda path: path.write_bytes(b"atad")), True)
        self.expect("another time", change("time", lambda path: os.utime(path, (2, 2))), True)
        later = (10**9, 10**9 + 10**8)
        self.expect("a tenth of a second later", change("later", lambda path: os.utime(path, ns=later)), True)

        def append(path: Path) -> None:
            path.write_bytes(b"data and more")
            os.utime(path, (1, 1))

        self.expect("more bytes at the same time", change("same time", append), True)
        self.expect("it is gone", change("gone", Path.unlink), False)
        other = self.write("another", b"data and more")
        self.expect("another file has its name", change("replaced", lambda path: other.rename(path)), False)

    def test_lines(self) -> None:
        for data, wanted in LISTS:
            self.write("list", data)
            got = [(line.number, line.cells) for line in self.folder.lines("list")]
            self.expect(f"the lines of {data!r}", got, wanted)
            self.expect(f"of these bytes, {data!r}", [(it.number, it.cells) for it in lines_in(data)], wanted)
        self.write("list", b"a\xe4\n")
        self.expect("not UTF-8", outcome(lambda: [*self.folder.lines("list")]), "UnicodeDecodeError")
        lines = [line.cells for line in self.folder.lines("list", "latin-1")]
        self.expect("any bytes in another encoding", lines, [["a\xe4"]])

    def test_lists_of_the_update(self) -> None:
        path = self.write("list", b"a\tb\tc\n\nd\t\tf\n")
        self.expect("three cells", [*cells_in(path, 3)], [["a", "b", "c"], ["d", "", "f"]])
        faults = {
            b"a\tb\tc\n\nd\te\n": f"{path}: line 3: not 3 cells with tabs between them",
            b"a\tb\tc\td\n": f"{path}: line 1: not 3 cells with tabs between them",
            b"a\tb\t\xff\n": f"{path}: not UTF-8",
        }
        for data, wanted in faults.items():
            self.write("list", data)
            try:
                got = str([*cells_in(path, 3)])
            except Failure as failure:
                got = str(failure)
            self.expect(f"the fault of {data!r}", got, wanted)

    def test_patterns(self) -> None:
        for name in MATCHED:
            self.write(name)
        self.link("link", "a")
        self.link("broken", "nothing")
        self.expect("outside", outcome(lambda: self.folder.matches("../*")), "Unusable")
        for pattern, names in PATTERNS:
            got = sorted(os.path.relpath(path, self.path) for path in self.folder.matches(pattern))
            self.expect(f"the files of {pattern}", got, names)
            absolute = sorted(self.folder.matches(str(self.path / pattern)))
            self.expect(f"an absolute {pattern}", absolute, [str(self.path / name) for name in names])


class OtherFolders(InputFiles):
    """The folder that libraries share, and those that root allows."""

    def test_shared(self) -> None:
        shared = self.write(self.top / "shared" / "below" / "press.txt").parent.parent
        secret = self.write(self.top / "secret")
        (shared / "link").symlink_to(secret)
        os.mkfifo(shared / "pipe")
        folder = InputFolder(self.path, [shared])
        for name in (f"{shared}/below/press.txt", os.path.join("..", "shared", "below", "press.txt")):
            self.expect(f"read {name}", outcome(lambda: folder.read(name)), b"data")
        self.expect("a pattern", folder.matches(f"{shared}/below/*.txt"), [f"{shared}/below/press.txt"])
        for name in ("link", "pipe", "../secret"):
            self.expect(f"not {name}", outcome(lambda: folder.read(f"{shared}/{name}")), "Unusable")
        self.expect("nothing is written there", outcome(lambda: folder.replace(f"{shared}/new", b"")), "Unusable")
        self.expect("without it", outcome(lambda: self.folder.read(f"{shared}/below/press.txt")), "Unusable")

    def test_list(self) -> None:
        path = self.folder.beside(".folders")
        self.expect("its path", path, self.top / "input.folders")
        self.expect("no list", allowed_folders.read(path), ([], []))
        text = "# tables of the union\n/srv/tables/\n\n/srv/a b/../c\nsrv\n/a\t/b\n"
        path.write_text(text)
        wrong = [f"{path}: line {number}: not the absolute path of a folder" for number in (5, 6)]
        self.expect("folders", allowed_folders.read(path), ([Path("/srv/tables"), Path("/srv/c")], wrong))
        path.write_text("/srv\n" + "#" * 65_531)
        self.expect("65,536 bytes", allowed_folders.read(path), ([Path("/srv")], []))
        path.write_text("/srv\n" + "#" * 65_532)
        self.expect("one more", allowed_folders.read(path), ([], [f"{path}: not used: more than 65,536 bytes"]))
        path.write_bytes(b"/srv/\xff\n")
        self.expect("not UTF-8", allowed_folders.read(path), ([], [f"{path}: not used: not UTF-8"]))

    def test_list_that_others_may_have_written(self) -> None:
        """Only one of root's, or of the user of the run, that nobody else may write, and under one name."""
        path = self.top / "input.folders"
        path.write_text("/srv\n")
        refused = ([], [f"{path}: not used, since others may have written it: chown root, chmod 644"])
        for mode in (0o664, 0o646, 0o620, 0o602):
            path.chmod(mode)
            self.expect(f"mode {mode:o}", allowed_folders.read(path), refused)
        for mode in (0o644, 0o600, 0o440):
            path.chmod(mode)
            self.expect(f"mode {mode:o}", allowed_folders.read(path), ([Path("/srv")], []))
        os.link(path, self.top / "other name")
        self.expect("two names", allowed_folders.read(path), refused)
        (self.top / "other name").unlink()
        if os.geteuid() == 0:
            os.chown(path, 65534, 0)
            self.expect("another owner", allowed_folders.read(path), refused)
            os.chown(path, 0, 0)
        path.rename(self.top / "list")
        path.symlink_to(self.top / "list")
        self.expect("a link", allowed_folders.read(path)[0], [])
        path.unlink()
        os.mkfifo(path)
        self.expect("a pipe", allowed_folders.read(path), refused)


class Writing(InputFiles):
    def replace(self, name: str, data: bytes, mode: int = 0o644) -> None:
        self.folder.replace(name, data, mode)

    def test_replace(self) -> None:
        outside = self.write(self.top / "outside")
        self.write("file")
        self.link("link", outside)
        self.link("broken", "nothing")
        os.mkfifo(self.path / "pipe")
        self.link(".openlink.new", outside)
        for name in ("new", "file", "link", "broken", "pipe", "new folder/file", "folder/folder/file", "y" * 255):
            self.replace(name, b"other", 0o640)
            status = (self.path / name).lstat()
            got = stat.S_ISREG(status.st_mode), stat.S_IMODE(status.st_mode), self.folder.read(name)
            self.expect(f"a regular file with its mode and bytes, {name}", got, (True, 0o640, b"other"))
        self.expect("what the link led to", outside.read_bytes(), b"data")
        self.expect("nothing is unfinished", list(self.path.rglob(".openlink.new")), [])

    def test_what_is_not_replaced(self) -> None:
        self.write("folder/below")
        self.write("file")
        outside = self.write(self.top / "outside" / "file")
        self.link("linked", outside.parent)
        cases = [
            ("folder", "IsADirectoryError"),
            ("file/below", "NotADirectoryError"),
            ("x" * 256, "OSError"),
            ("linked/file", "Unusable"),
            ("linked/new/file", "Unusable"),
            ("../outside/file", "Unusable"),
            (str(outside), "Unusable"),
            ("", "Unusable"),
        ]
        for name, error in cases:
            self.expect(f"replace {name[:20]}", outcome(lambda: self.replace(name, b"other")), error)
        names = "folder/below", "file"
        self.expect("the files", [self.folder.read(name) for name in names], [b"data", b"data"])
        self.expect("outside", [path.read_bytes() for path in outside.parent.iterdir()], [b"data"])
        self.expect("nothing is unfinished", list(self.top.rglob(".openlink.new")), [])

    def test_remove(self) -> None:
        outside = self.write(self.top / "outside" / "file")
        self.write("file")
        self.write("folder/below")
        self.write("full/file")
        self.link("link", "folder/below")
        self.link("broken", "nothing")
        self.link("linked", outside.parent)
        (self.path / "empty").mkdir()
        for name in ("file", "link", "broken", "nothing", "nothing/below", "empty", "folder/below"):
            self.folder.remove(name)
        self.expect("a folder with files", outcome(lambda: self.folder.remove("full")), "OSError")
        self.expect("by a link", outcome(lambda: self.folder.remove("linked/file")), "Unusable")
        self.expect("what is left", sorted(os.listdir(self.path)), ["folder", "full", "linked"])
        self.expect("what the link leads to", outside.read_bytes(), b"data")
