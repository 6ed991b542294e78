"""A program of a library that changes the files of a target before they are prepared: who may name one, what it can
reach, and how it ends. Its failure is that of its target alone."""
from __future__ import annotations

import datetime
import os
import stat
import tempfile
import time
from pathlib import Path
from unittest import mock

from fixtures import needs
from fixtures.cases import Case
from fixtures.patience import patience
from fixtures.updates import Library
from openlink_update.outcome import Unreadable
from openlink_update.rights import filters
from openlink_update.rights import library_user
from openlink_update.rights.sandbox import Sandbox
from openlink_update.versions import tables_again
from openlink_update.weekly_run import Run

HEAD = b"publication_title\tprint_identifier\tonline_identifier\tdate_first_issue_online\tembargo_info\n"
CAME = b"Tides;29010012;P1M\nPiers;29150272;\n"
GIVEN = HEAD + b"Tides\t2901-0012\t\t1995\tP1M\nPiers\t2915-0272\t\t1995\t\n"
AWK = f"""#!/bin/sh
echo '{HEAD.decode().strip()}'
awk -F';' '{{ printf "%s\\t%s-%s\\t\\t1995\\t%s\\n", $1, substr($2, 1, 4), substr($2, 5), $3 }}'
"""
WORDS = "no column date_last_issue_online"


class Filtered(Library):
    """A library with a target whose file needs a filter, and another one."""

    def __init__(self) -> None:
        super().__init__()
        self.write("press.csv", CAME)
        self.write("other.txt", GIVEN)
        self.targets = {"press": ("press.csv", "filter awk"), "other": ("other.txt", "")}
        self.write_targets()
        self.filter(AWK)
        self.allowed.write_text("awk\n")

    @property
    def allowed(self) -> Path:
        return Path(f"{self.folder}.filters")

    def filter(self, text: str) -> None:
        self.write("filters/awk", text)


def rows_of(text: str | None) -> list[list[str]]:
    """The first two cells of the rows of a table."""
    return [line.split("\t")[:2] for line in (text or "").splitlines()[1:]]


ROWS = [["Tides", "2901-0012"], ["Piers", "2915-0272"]]


@needs.program()
class Update(Case):
    def test_what_it_gives_is_served(self) -> None:
        with Filtered() as library:
            status, printed = library.update()
            self.expect(f"the status: {printed}", status, 0)
            self.expect("the rows", rows_of(library.table("press")), ROWS)
            self.expect_lines("what is said", printed, f"  filter awk: {len(CAME)} bytes became {len(GIVEN)}")
            received = Path(library.library, "current", "received")
            self.expect("what came", (received / "press.txt").read_bytes(), CAME)
            self.expect("what it gave", (received / "press.txt.filtered").read_bytes(), GIVEN)
            modes = {stat.S_IMODE((received / name).stat().st_mode) for name in ("press.txt", "press.txt.filtered")}
            self.expect("who may read them", modes, {0o600})
            self.expect("nothing of its run is left", Path(library.library, "filter").exists(), False)
            self.expect("the same again", library.update()[1].startswith("nothing new: "))

    def test_several_files(self) -> None:
        with Filtered() as library:
            library.write("more.csv", b"Quays;29220408;\n")
            library.targets["press"] = ("press.csv; more.csv", "filter awk")
            library.write_targets()
            self.expect("the status", library.update()[0], 0)
            self.expect("the rows", rows_of(library.table("press")), [*ROWS, ["Quays", "2922-0408"]])
            given = library.served("received", "press.txt.2.filtered") or ""
            self.expect("each is filtered", rows_of(given), [["Quays", "2922-0408"]])

    def test_another_filter(self) -> None:
        """The same file with a filter that was changed is another table; one that is gone goes from the version."""
        with Filtered() as library:
            library.update()
            library.filter(AWK.replace("%s\\t%s", "%s!\\t%s", 1))
            status, printed = library.update()
            self.expect(f"the rows: {printed}", rows_of(library.table("press"))[0], ["Tides!", "2901-0012"])
            library.write("press.csv", GIVEN)
            library.targets["press"] = ("press.csv", "gone up to 100%; came up to 100%")
            library.write_targets()
            self.expect("without it", library.update()[0], 0)
            self.expect("what it gave", library.served("received", "press.txt.filtered"), None)

    def test_walls_start_none(self) -> None:
        """A run for the walls, and a comparison, use what it gave."""
        with Filtered() as library:
            library.update()
            library.filter("#!/bin/sh\nexit 9\n")
            library.allowed.unlink()
            version = Path(library.library, "current").resolve()
            tables = dict(tables_again.tables_of(version, datetime.date.today()))
            self.expect("tables again", [row[:2] for row in tables["press"].rows], ROWS)
            path = version / "tables" / "press.txt"
            served = path.read_bytes()
            path.write_bytes(served.replace(b"\t99999999", b"\t20010101"))
            status, printed = library.update("--walls")
            self.expect(f"the walls: {printed}", (status, rows_of(library.table("press"))), (0, ROWS))
            (Path(library.library, "current").resolve() / "received" / "press.txt.filtered").unlink()
            status, printed = library.update("--walls")
            self.expect("without what it gave", (status, "has no files of it" in printed), (3, True))

    def test_failure_is_of_its_target(self) -> None:
        with Filtered() as library:
            library.update()
            library.write("other.txt", GIVEN.replace(b"Tides", b"Waves"))
            library.filter("#!/bin/sh\nprintf 'bad \\033[2J\\n more' >&2; exit 3\n")
            status, printed = library.update()
            self.expect("the status", status, 1)
            path = library.path("press.csv")
            self.expect_lines(
                "what is said",
                printed,
                "press: kept its old rules and table",
                f"  {path}: filter awk: status 3: bad ?[2J",
                "other: 1 row added, 1 gone",
            )
            self.expect("its old rows", rows_of(library.table("press")), ROWS)
            self.expect("the other target", rows_of(library.table("other"))[0][0], "Waves")


@needs.program()
class Allowed(Case):
    """Root names the filters of a library."""

    def left_out(self, library: Filtered) -> str:
        """Why the target is left out."""
        status, printed = library.update()
        lines = printed.splitlines()
        self.expect(
            f"the other target is served: {printed}",
            (status, lines[0]),
            (1, "press: left out, since it has no old files"),
        )
        return lines[1].removeprefix(f"  {library.path('press.csv')}: filter awk: ")

    def test_list(self) -> None:
        names = "not allowed: as root, name it in {}"
        others = "{}: not used, since others may have written it: chown root, chmod 644"
        cases = {
            "no list": (None, 0o644, names),
            "an empty list": ("", 0o644, names),
            "another name": ("aw\nawk2\n#awk\nawk\tmore\n", 0o644, names),
            "others may write it": ("awk\n", 0o666, others),
            "a group may write it": ("awk\n", 0o664, others),
            "not UTF-8": ("\udcff", 0o644, "{}: not used: not UTF-8"),
        }
        for name, (text, mode, wanted) in cases.items():
            with Filtered() as library:
                library.allowed.unlink()
                if text is not None:
                    library.allowed.write_bytes(text.encode("utf-8", "surrogateescape"))
                    library.allowed.chmod(mode)
                self.expect(name, self.left_out(library), wanted.format(library.allowed))

    def test_spaces_around_a_name(self) -> None:
        with Filtered() as library:
            library.allowed.write_text(" awk \n")
            status, printed = library.update()
            self.expect(f"it is allowed: {printed}", (status, rows_of(library.table("press"))), (0, ROWS))

    def test_files(self) -> None:
        """A filter is a regular file of the folder, and no link leads to another."""
        with Filtered() as library:
            path = Path(library.path("filters", "awk"))
            path.unlink()
            self.expect("no file", self.left_out(library), f"{path}: No such file or directory")
            path.symlink_to("/bin/cat")
            self.expect("a link", " is a link, and none is followed" in self.left_out(library))
            path.unlink()
            path.mkdir()
            self.expect("a folder", self.left_out(library), f"{path}: Is a directory")

    def test_list_that_is_a_link(self) -> None:
        with Filtered() as library:
            other = Path(library.path("mine"))
            library.allowed.rename(other)
            library.allowed.symlink_to(other)
            self.expect("a link", self.left_out(library).startswith(f"{library.allowed}: not used: "))


class _Run(Case):
    """One run of a program, as a user of its own where root can start it so."""

    def setUp(self) -> None:
        super().setUp()
        place = tempfile.TemporaryDirectory()
        self.addCleanup(place.cleanup)
        self.top = Path(place.name)
        self.top.chmod(0o755)
        self.place = filters.Place(self.top / "filter")
        self.user = library_user.claim(self.top, self.id())

    def run_of(self, program: str, data: bytes = b"") -> str:
        """What a program gives, or why it gives nothing."""
        box = Sandbox(self.user, filters.limits_in(self.place.folder))
        try:
            return filters.filtered(self.place, program.encode(), data, box).decode()
        except Unreadable as fault:
            return f"fault: {fault}"

    def shell(self, *lines: str, data: bytes = b"") -> str:
        return self.run_of("\n".join(["#!/bin/sh", *lines, ""]), data)


class Runs(_Run):
    def test_how_it_is_started(self) -> None:
        self.expect("its input", self.shell("cat", data=b"a\0\xc3\xa9\n"), "a\0é\n")
        self.expect("no arguments", self.shell('echo "$#"'), "0\n")
        self.expect("its folder is empty", self.shell("ls -A | wc -l; echo x >y; cat y"), "0\nx\n")
        self.expect(
            "where it is",
            self.shell('pwd; echo "$HOME" "$TMPDIR"'),
            f"{self.place.empty}\n" + f"{self.place.empty} {self.place.empty}\n",
        )
        said = self.shell('echo "$LANG $PATH"')
        self.expect("its language, and its programs", said, "C.UTF-8 /usr/local/bin:/usr/bin:/bin\n")
        with mock.patch.dict(os.environ, {"PASSWORD": "s3cr3t"}):
            self.expect("nothing of the environment", "s3cr3t" in self.shell("env"), False)
        self.expect("a second run begins anew", self.shell("ls -A | wc -l"), "0\n")

    def test_what_it_reaches(self) -> None:
        """Neither a file of the machine that anybody may read, nor the network, nor its own neighbours."""
        (self.top / "sources.tsv").write_text("token")
        (self.top / "open").mkdir()
        (self.top / "open").chmod(0o777)
        closed = {
            "a file that all may read": f"cat {self.top}/sources.tsv",
            "a folder that all may read": f"ls {self.top}",
            "a folder that all may write in": f"touch {self.top}/open/x",
            "the folder above": "touch ../x",
            "what it gives": "echo x >../new",
            "other programs' processes": "cat /proc/1/cmdline",
            "the settings of the machine": "cat /etc/hostname || cat /etc/fstab",
            "folders of the machine": "ls / || ls /etc || ls /home || ls /root || ls /var || ls /proc || ls /sys",
            "the folder of all": f"touch {tempfile.gettempdir()}/{self.top.name}.filter",
            "a socket": "/usr/bin/python3 -c 'import socket; socket.socket()'",
        }
        for name, line in closed.items():
            self.expect(name, self.shell(f"{line} 2>/dev/null && echo open || echo closed"), "closed\n")
        self.expect("nothing was made", os.listdir(self.top / "open"), [])

    @needs.root()
    def test_who_it_is(self) -> None:
        number = self.user.number if self.user else 0
        self.expect("a user of its own", self.shell("id -u; id -g; id -G"), f"{number}\n{number}\n{number}\n")
        closed = self.top / "secrets.tsv"
        closed.write_text("s3cr3t")
        closed.chmod(0o600)
        self.expect("secrets", self.shell(f"cat {closed} || echo none"), "none\n")
        line = "stat -c '%n %a %u %g' ../program ../data ../out ../err ."
        wanted = f"../program 550 0 {number}\n../data 440 0 {number}\n../out 620 0 {number}\n../err 620 0 {number}\n"
        self.expect("who has its files", self.shell(line), f"{wanted}. 700 {number} {number}\n")
        for name in ("program", "out", "data"):
            line = f"chmod 777 ../{name} 2>/dev/null && echo open || echo closed"
            self.expect(f"{name} is root's", self.shell(line), "closed\n")

    def test_failures(self) -> None:
        cases = {
            "exit 1": "status 1",
            "echo rows; exit 7": "status 7",
            "echo; echo why >&2; exit 2": "status 2: why",
            "printf '\\n\\n  first\\nsecond' >&2; exit 2": "status 2:   first",
            "printf 'a\\tb\\r\\033]0;x\\007\\342\\200\\256' >&2; exit 2": "status 2: a b",
            "kill -TERM $$": "ended by SIGTERM",
            ":": "it gave nothing",
            "echo": "it gave nothing",
            "echo why >&2": "it gave nothing: why",
        }
        for line, wanted in cases.items():
            self.expect(line, self.shell(line), f"fault: {wanted}")
        unsafe = self.shell("printf 'a\\033]0;x\\007\\342\\200\\256b' >&2; exit 2")
        self.expect("nothing unsafe", unsafe, "fault: status 2: a?]0;x??b")
        self.expect("no program", self.run_of("just text"), "fault: it cannot be started: Exec format error")
        self.expect(
            "no interpreter", self.run_of("#!/nowhere\n"), "fault: it cannot be started: No such file or directory"
        )

    def test_full_disk(self) -> None:
        """It is the failure of this target too."""
        with mock.patch.object(Path, "write_bytes", side_effect=OSError(28, "No space left on device", "/x/data")):
            self.expect("no room", self.shell("cat"), "fault: /x/data: No space left on device")

    def test_kernel_without_landlock(self) -> None:
        with mock.patch("openlink_update.rights.closed_files._version", lambda: 0):
            said = self.shell("echo x")
        self.expect(
            "it is not started", said, "fault: it cannot be started: the kernel cannot close files to it (Landlock)"
        )

    def test_what_it_leaves(self) -> None:
        """Neither a process nor a folder that is deeper than Python can go, or closed."""
        mark = f"3{os.getpid()}.5"
        self.expect("it ends", self.shell(f"sleep {mark} & echo x; exec >&- 2>&-; exit 0"), "x\n")
        self.expect(
            "no process", [name for name in filter(str.isdigit, os.listdir("/proc")) if mark in _words(name)], []
        )
        deep = "i=0; while [ $i -lt 1500 ]; do mkdir d && cd d || exit 3; i=$((i + 1)); done; echo x"
        self.expect("a deep folder", self.shell(deep), "x\n")
        self.expect("a closed one", self.shell("mkdir -p a/b; chmod 0 a; echo x"), "x\n")
        self.expect("nothing is left", self.place.folder.exists(), False)


def _with_words(mark: str) -> list[str]:
    """The processes whose arguments have a mark."""
    return [name for name in filter(str.isdigit, os.listdir("/proc")) if mark in _words(name)]


def _words(process: str) -> str:
    try:
        return Path(f"/proc/{process}/cmdline").read_bytes().decode("utf-8", "replace")
    except OSError:
        return ""


class Bounds(_Run):
    """Each limit at its last good value, and beyond it."""

    def test_bytes(self) -> None:
        with mock.patch("openlink_update.rights.filters._MOST_GIVEN", 2**20):
            self.expect("as many as it may", len(self.shell("head -c 1048576 /dev/zero | tr '\\0' x")), 2**20)
            for more in ("1048577", "9000000"):
                said = self.shell(f"head -c {more} /dev/zero | tr '\\0' x")
                self.expect(more, said, "fault: it gave more than 1 MB")

    def test_time(self) -> None:
        with mock.patch("openlink_update.rights.filters._MOST_SECONDS", int(patience(2))):
            self.expect("within it", self.shell("sleep 0.1; echo x"), "x\n")
            begun = time.monotonic()
            self.expect("no end", self.shell("sleep 1000; echo x").startswith("fault: no end within "))
            self.expect("it was ended", time.monotonic() - begun < 100)

    @needs.root()
    def test_time_of_root(self) -> None:
        """What its own process does not end, root does."""
        with mock.patch("openlink_update.rights.filters._MORE_SECONDS", -298):
            said = self.shell("sleep 1000; echo x")
        self.expect("no end", said, "fault: no end within 0.0333333 minutes, so it was ended")

    def test_memory(self) -> None:
        line = "/usr/bin/python3 -c 'x = bytearray({} << 20); print(len(x) >> 20)' 2>/dev/null"
        self.expect("below it", self.shell(line.format(700)), "700\n")
        self.expect("above it", self.shell(line.format(1024)), "fault: status 1")
        self.expect("the limit", self.shell("ulimit -v"), "1048576\n")

    @needs.root()
    def test_processes(self) -> None:
        script = "i=0; while [ $i -lt {} ]; do sleep 30 & i=$((i + 1)); done; echo x"
        # The process that started it, its shell, and 62 more.
        self.expect("as many as it may", self.shell(script.format(62)), "x\n")
        self.expect("one more", self.shell(script.format(63)).startswith("fault: status "))

    def test_disk(self) -> None:
        with mock.patch("openlink_update.rights.filters._MOST_DISK", 2**20):
            self.expect("within it", self.shell("head -c 500000 /dev/zero >x; sleep 2; echo x"), "x\n")
            if self.user is not None:
                said = self.shell("head -c 3000000 /dev/zero >x; sleep 1000; echo x")
                self.expect("more", said, "fault: it has more than 1 MB on the disk, so it was ended")

    def test_complaint(self) -> None:
        """Its first line is looked for in 4,096 bytes, and 200 characters of it are said."""
        line = "head -c {} /dev/zero | tr '\\0' '{}' >&2; {} >&2; exit 2"
        self.expect("200", self.shell(line.format(200, "x", "echo")), f"fault: status 2: {'x' * 200}")
        self.expect("201", self.shell(line.format(201, "x", "echo")), f"fault: status 2: {'x' * 200}..")
        self.expect("4,095 blank ones", self.shell(line.format(4095, "\\n", "echo y")), "fault: status 2: y")
        self.expect("4,096 blank ones", self.shell(line.format(4096, "\\n", "echo y")), "fault: status 2")


class WithoutUser(_Run):
    def test_its_own_defences(self) -> None:
        """Where the update has no other user, a filter has neither the network nor other files, and leaves no process
        of its session."""
        self.user = None
        mark = f"4{os.getpid()}.5"
        (self.top / "sources.tsv").write_text("token")
        said = self.shell(f"cat {self.top}/sources.tsv 2>/dev/null && echo open || echo closed")
        self.expect("a file", said, "closed\n")
        line = "/usr/bin/python3 -c 'import socket; socket.socket()' 2>/dev/null && echo open || echo closed"
        self.expect("a socket", self.shell(line), "closed\n")
        self.expect("it ends", self.shell(f"sleep {mark} & echo x"), "x\n")
        end = time.monotonic() + patience(10)
        while _with_words(mark) and time.monotonic() < end:
            time.sleep(0.01)
        self.expect("no process", _with_words(mark), [])

    def test_root_runs_none(self) -> None:
        """Where no user is free, root does not run it by its own rights."""
        with Filtered() as library, mock.patch("os.geteuid", lambda: 0):
            run = Run.__new__(Run)
            run.sandbox, run._of_filters, run._among = (
                Sandbox(None, filters.limits_in(Path("/x"))),
                None,
                library.library,
            )
            run.library = mock.Mock(path=lambda name: Path(library.library, name), folder=Path(library.library))
            try:
                said = run._filtered(filters.InputFolder(library.folder), "awk", CAME).decode()
            except Unreadable as fault:
                said = str(fault)
        self.expect("it is refused", said, "no user is free who could run it, and root does not")
