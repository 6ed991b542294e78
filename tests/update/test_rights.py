"""What an update of root does as the user of a library: that user, its limits, and what it gets from root."""
from __future__ import annotations

import contextlib
import ctypes
import errno
import io
import os
import re
import resource
import shlex
import shutil
import socket
import stat
import subprocess
import sys
import tempfile
import time
from collections.abc import Callable
from pathlib import Path
from unittest import mock

from fixtures import PYTHON
from fixtures import needs
from fixtures.cases import Case
from fixtures.fetch_input import TABLE
from fixtures.patience import patience
from fixtures.program import PATH
from fixtures.provider import Provider
from fixtures.provider import reply
from fixtures.updates import Library
from openlink_update import weekly_run
from openlink_update.fetch import fetching
from openlink_update.outcome import Failure
from openlink_update.rights import handover
from openlink_update.rights import lent_files
from openlink_update.rights import library_user
from openlink_update.rights import limits
from openlink_update.rights import sandbox
from openlink_update.rights.lent_files import Lent
from openlink_update.rights.library_user import LibraryUser
from openlink_update.rights.limits import DiskLimit
from openlink_update.rights.limits import Limits
from openlink_update.rights.sandbox import Job
from openlink_update.rights.sandbox import Parent
from openlink_update.rights.sandbox import Sandbox
from openlink_update.root_folder import RootFolder
from openlink_update.root_folder import Unusable
from openlink_update.site.front_door import Site

MB = 2**20


def fault_of(call: Callable[[], object]) -> str:
    """What a call raises, or nothing."""
    try:
        call()
        return ""
    except (OSError, Failure, MemoryError) as fault:
        return f"{type(fault).__name__}: {getattr(fault, 'strerror', None) or fault}"


def processes_of(number: int) -> list[str]:
    """The processes of a user that live: those that end have no memory any more."""
    found = []
    for name in filter(str.isdigit, os.listdir("/proc")):
        with contextlib.suppress(OSError):
            text = Path(f"/proc/{name}/stat").read_text()
            has_memory = text.rpartition(") ")[2].split()[20] != "0"
            if os.stat(f"/proc/{name}").st_uid == number and has_memory:
                found.append(text)
    return found


@needs.root()
class Rights(Case):
    """A folder with an input that only root can read, one to write in, and a sandbox."""

    def setUp(self) -> None:
        super().setUp()
        place = tempfile.TemporaryDirectory()
        self.addCleanup(place.cleanup)
        self.top = Path(place.name)
        self.top.chmod(0o755)
        self.input, self.written = self.top / "input", self.top / "written"
        for folder in (self.input, self.written):
            folder.mkdir()
        self.file("table.txt", "rows")
        self.file("secrets.tsv", "s3cr3t")
        self.file("below/it.txt", "more")
        self.input.chmod(0o700)
        user = library_user.claim(self.top, self.id())  # processes of another test may not be reaped yet
        assert user, "a user is free"
        self.user = user
        self.box = self.box_of(Limits(seconds=patience(60)))

    def file(self, name: str, text: str) -> Path:
        path = self.input / name
        path.parent.mkdir(exist_ok=True)
        path.write_text(text)
        path.chmod(0o600)
        return path

    def box_of(self, most: Limits) -> Sandbox:
        box = Sandbox(self.user, most)
        box.own(self.written)
        return box

    def run_of(self, work: Callable[[Parent], str], box: Sandbox | None = None, **how: object) -> str:
        """The result of a function, or what ended it."""
        lent = Lent(RootFolder(self.input), frozenset({"secrets.tsv"}), frozenset({("new.txt",)}))
        job = Job(work, (self.written,), (lent,), **how)  # type: ignore[arg-type]
        try:
            return (box or self.box).run(job)
        except Failure as failure:
            return f"{type(failure).__name__} {failure.status}: {failure}"


class Users(Rights):
    def test_who_it_is(self) -> None:
        """The process has the number of the user, no groups, and no way back."""
        self.addCleanup(os.setgroups, os.getgroups())
        os.setgroups([4, 24])

        def work(_: Parent) -> str:
            tries = [fault_of(lambda: os.setuid(0)), fault_of(lambda: os.setgroups([0]))]
            return "\n".join([str(os.getresuid()), str(os.getresgid()), str(os.getgroups()), *tries])

        number = self.user.number
        lines = self.run_of(work).splitlines()
        self.expect("its numbers", lines[:3], [str((number,) * 3), str((number,) * 3), "[]"])
        self.expect("no way back", lines[3:], ["PermissionError: Operation not permitted"] * 2)
        words = ["sh", "-c", "id -u; id -G; grep NoNewPrivs /proc/self/status; grep CapEff /proc/self/status"]
        shown = self.run_of(lambda _: subprocess.run(words, capture_output=True, text=True).stdout).split()
        wanted = [str(number), str(number), "NoNewPrivs:", "1", "CapEff:", "0" * 16]
        self.expect("a command that it runs", shown, wanted)

    def test_what_it_has_of_its_parent(self) -> None:
        """Neither its input nor its terminal, and if memory runs out the kernel ends it first."""
        reads, writes = os.pipe()
        self.addCleanup(os.dup2, os.dup(0), 0)
        os.dup2(reads, 0)
        os.close(reads)
        os.write(writes, b"of root")
        os.close(writes)

        def work(_: Parent) -> str:
            score = Path("/proc/self/oom_score_adj").read_text().strip()
            return f"{os.read(0, 100)!r} {os.getsid(0) == os.getpid()} {score}"

        self.expect("its input, a session of its own, its score", self.run_of(work), "b'' True 1000")

    def test_what_it_reads_and_writes(self) -> None:
        """By its own rights it has neither the input nor a file of another library, and writes in its folder alone."""
        other = self.file("below/it.txt", "more")
        (self.top / "public.txt").write_text("public")

        def work(_: Parent) -> str:
            paths = (self.input / "table.txt", other, Path("/etc/shadow"))
            found = [fault_of(path.read_text) for path in paths]
            found.append(fault_of(lambda: (self.top / "public.txt").write_text("changed")))
            found.append(fault_of(lambda: (self.top / "new").mkdir()))
            found.append(fault_of(lambda: (self.written / "table").write_text("mine")))
            return "\n".join([*found, (self.top / "public.txt").read_text(), f"files {os.listdir('/proc/self/fd')}"])

        lines = self.run_of(work).split("\n")
        self.expect("what is closed", lines[:5], ["PermissionError: Permission denied"] * 5)
        self.expect("what is open", lines[5:7], ["", "public"])
        self.expect("no file of its parent is open", len(eval(lines[7].removeprefix("files "))) <= 5)
        self.expect("its file", os.stat(self.written / "table").st_uid, self.user.number)

    def test_numbers(self) -> None:
        """Two runs have two numbers, whatever their names; neither is that of an account, or of a process."""
        script = (
            "import sys; sys.path.insert(0, 'update'); from pathlib import Path\n"
            "from openlink_update.rights import library_user\n"
            "user = library_user.claim(Path(sys.argv[1]), sys.argv[2]); print(user.number, flush=True)\n"
            "sys.stdin.read()"
        )
        words = [*PYTHON, "-c", script, str(self.top), self.id()]
        with subprocess.Popen(words, stdin=subprocess.PIPE, stdout=subprocess.PIPE, text=True) as child:
            assert child.stdin and child.stdout
            other = int(child.stdout.readline())
            self.expect("another run of the same library", other != self.user.number)
            child.stdin.close()
        with mock.patch("openlink_update.rights.library_user._is_known", lambda number: number % 2 == 0):
            found = library_user.claim(self.top, "other")
            self.expect("no number of an account", found is not None and found.number % 2, 1)
        names = {name: library_user.claim(self.top, name) for name in ("a", "b", "c")}
        numbers = [user.number for user in names.values() if user]
        self.expect("numbers of libraries", len({*numbers, self.user.number}), 4)
        with mock.patch("os.geteuid", lambda: 1000):
            self.expect("not root", library_user.claim(self.top, "east"), None)
        with mock.patch("openlink_update.rights.library_user._is_known", lambda _: True):
            self.expect("none is free", library_user.claim(self.top, "east"), None)

    def test_lock(self) -> None:
        """Nobody else can open the lock, so that no run keeps the rights of root for want of a number."""
        lock = self.top / library_user.LOCK
        self.expect("its mode", stat.S_IMODE(lock.stat().st_mode), 0o600)
        self.expect("another user", self.run_of(lambda _: fault_of(lock.open)), "PermissionError: Permission denied")

    def test_last_number(self) -> None:
        """The numbers are those that systemd keeps for such users, 61184 to 65519."""
        for number, wanted in ((61183, None), (61184, 61184), (65519, 65519), (65520, None)):
            with mock.patch("openlink_update.rights.library_user._is_known", lambda it, free=number: it != free):
                user = library_user.claim(self.top, "east")
            self.expect(f"{number} alone is free", user and user.number, wanted)

    def test_paths_that_it_cannot_read(self) -> None:
        """Where the user could not do the work, the run keeps its rights, and says so."""
        self.expect("all is well", self.user.fault([self.top, self.top / "written"]), "")
        closed = f"its user cannot read {self.input}: chmod a+rX, also the folders above"
        self.expect("a folder", self.user.fault([self.top, self.input]), closed)
        self.expect("below it", self.user.fault([self.input / "table.txt"]) != "")
        with mock.patch("os.setresuid", side_effect=OSError(22, "Invalid argument")):
            fault = "this process cannot become another user: Invalid argument"
            self.expect("no such number", self.user.fault([self.top]), fault)
        with mock.patch("os.access", side_effect=ValueError):
            self.expect("anything else", self.user.fault([self.top]), "no process of its user can be started")

    def test_ends(self) -> None:
        """No process of the user outlives its work, whatever it has done."""
        script = "trap '' TERM HUP; setsid sleep 100 & setsid sleep 100 & wait"

        def work(_: Parent) -> str:
            subprocess.Popen(["sh", "-c", script], start_new_session=True)
            while len(processes_of(os.getuid())) < 4:
                time.sleep(0.01)
            return "begun"

        self.expect("its result", self.run_of(work), "begun")
        self.expect("no process is left", processes_of(self.user.number), [])

    def test_a_process_that_does_not_end(self) -> None:
        """Nothing is taken over from a user that still runs something after a minute."""
        self.expect("as it is", library_user._SECONDS_TO_END, 60)
        kill, begun = LibraryUser._kill_all, time.monotonic()
        with mock.patch.object(LibraryUser, "_kill_all", lambda _: None), contextlib.ExitStack() as stack:
            stack.enter_context(mock.patch.object(library_user, "_SECONDS_TO_END", 0.5))
            got = self.run_of(lambda _: str(subprocess.Popen(["sleep", "1000"])))
            self.expect("what is said", got, f"Failure 4: a process of the user {self.user.number} does not end")
            self.expect("in time", 0.5 <= time.monotonic() - begun < patience(20))
        kill(self.user)

    def test_without_root(self) -> None:
        """Without another user, the function is called as it is, and so is what comes at its pause."""
        seen: list[object] = []

        def work(parent: Parent) -> str:
            seen.append((os.getpid(), parent.lent(RootFolder(self.input)).open(("table.txt",)).read()))
            parent.pause()
            return "done"

        box = Sandbox(None, Limits())
        job = Job(work, at_pause=lambda: seen.append("paused"))
        self.expect("the result", (box.run(job), seen), ("done", [(os.getpid(), b"rows"), "paused"]))
        self.expect("no user", box.number, None)


class LentFiles(Rights):
    def test_files_that_are_lent(self) -> None:
        """Files below the folder are read, named and found; those that are closed, outside or no files are not."""
        os.mkfifo(self.input / "pipe")
        (self.input / "link").symlink_to("/etc/shadow")
        self.file("below/secrets.tsv", "s3cr3t")

        def work(parent: Parent) -> str:
            root = parent.lent(RootFolder(self.input))
            lines = [root.open(("below", "it.txt")).read().decode(), str(root.status(("table.txt",)).st_size)]
            lines.append(" ".join(sorted(path.name for path in root.matches(("*t*.txt",)))))
            lines += [fault_of(lambda: root.open(parts)) for parts in WRONG]
            return "\n".join(lines)

        lines = self.run_of(work).split("\n")
        self.expect("what it reads", lines[:3], ["more", "4", "table.txt"])
        self.expect("what it does not", [line.partition(":")[0] for line in lines[3:]], list(WRONG.values()))

    def test_files_that_are_replaced(self) -> None:
        """One file may get other bytes, and no other."""

        def work(parent: Parent) -> str:
            root = parent.lent(RootFolder(self.input))
            root.replace(("new.txt",), b"new rows", 0o600)
            return "\n".join(
                fault_of(call)
                for call in (
                    lambda: root.replace(("table.txt",), b"other", 0o644),
                    lambda: root.replace(("..", "new.txt"), b"other", 0o644),
                    lambda: root.remove(("table.txt",)),
                )
            )

        self.expect("refused", self.run_of(work).split("\n")[0], "PermissionError: Operation not permitted")
        path = self.input / "new.txt"
        self.expect("its bytes", (path.read_text(), stat.S_IMODE(path.stat().st_mode)), ("new rows", 0o600))
        self.expect(
            "the others", ((self.input / "table.txt").read_text(), (self.top / "new.txt").exists()), ("rows", False)
        )

    def test_long_names(self) -> None:
        """A path that no file can have is refused before it is sent."""

        def work(parent: Parent) -> str:
            root = parent.lent(RootFolder(self.input))
            return "\n".join(fault_of(lambda: root.open(("x" * count,))) for count in (255, 2**16 - 3, 2**16 - 2))

        wanted = ["FileNotFoundError", "OSError: File name too long", "Unusable: not a name of a file"]
        got = self.run_of(work).split("\n")
        self.expect("names", [line[: len(start)] for line, start in zip(got, wanted)], wanted)

    def test_shared_tables(self) -> None:
        """Root gets the bytes of a table, and lends what is made of it; it is asked for 100 files at most."""
        made, seen = self.file("made", "prepared"), list[list[tuple[str, bytes]]]()

        def shared(files: list[tuple[str, bytes]]) -> int | None:
            seen.append(files)
            return os.open(made, os.O_RDONLY) if files[0][1] == b"rows" else None

        def work(parent: Parent) -> str:
            files = [(f"/input/{number}.txt", b"rows") for number in range(101)]
            cases = (files[:2], files[:100], files, [("other", b"other")])
            return " ".join(str(parent.prepared(case)) for case in cases)

        self.expect("what is lent", self.run_of(work, shared=shared), "b'prepared' b'prepared' None None")
        self.expect("what root gets", [len(files) for files in seen], [2, 100, 1])
        self.expect("with their names", seen[0], [("/input/0.txt", b"rows"), ("/input/1.txt", b"rows")])

    def test_files_that_root_does_not_read(self) -> None:
        """Root reads the bytes of a table only if they are those of files, and not too many together."""
        with mock.patch.object(sandbox, "MOST_BYTES", 8), contextlib.ExitStack() as stack:
            paths = [self.file(name, text) for name, text in (("one", "1234"), ("two", "5678"), ("three", "5"))]
            one, two, three = [stack.enter_context(path.open("rb")).fileno() for path in paths]
            pipe, other = os.pipe()
            self.expect("two", sandbox._files_of(b"a\0b", [one, two]), [("a", b"1234"), ("b", b"5678")])
            self.expect("three", sandbox._files_of(b"a\0b\0c", [one, two, three]), [])
            self.expect("a pipe", sandbox._files_of(b"a", [pipe]), [])
            os.close(pipe)
            os.close(other)

    def test_replies_that_nobody_takes(self) -> None:
        """A function that asks and asks, and takes no reply, is ended after ten seconds."""
        self.expect("as it is", sandbox._SECONDS_TO_SEND, 10)

        def work(parent: Parent) -> str:
            root = parent.lent(RootFolder(self.input))
            assert isinstance(root, lent_files.LentFolder)
            while True:
                root._peer.send(b"f0\0none.txt")

        with mock.patch.object(sandbox, "_SECONDS_TO_SEND", 0.5):
            begun = time.monotonic()
            said = "Failure 4: it does not take the replies that it asks for, so it was ended"
            self.expect("what is said", self.run_of(work), said)
            self.expect("in time", 0.5 <= time.monotonic() - begun < patience(20))

        def fall_silent(parent: Parent) -> str:
            root = parent.lent(RootFolder(self.input))
            assert isinstance(root, lent_files.LentFolder)
            root._peer.send(b"")
            return str(time.sleep(1000))

        with mock.patch.object(sandbox, "_SECONDS_TO_SEND", 0.5):
            said = "Failure 4: it says nothing more, so it was ended"
            self.expect("one that says nothing more", self.run_of(fall_silent), said)

        def leave(parent: Parent) -> str:
            root = parent.lent(RootFolder(self.input))
            assert isinstance(root, lent_files.LentFolder)
            for _ in range(10):
                root._peer.send(b"f0\0none.txt")
            os._exit(0)

        self.expect("one that leaves", self.run_of(leave), "Failure 4: it was ended by status 0")

    def test_a_run_that_has_ended(self) -> None:
        """Nobody is there to lend a file."""
        ours, its = socket.socketpair(socket.AF_UNIX, socket.SOCK_SEQPACKET)
        its.shutdown(socket.SHUT_WR)
        with ours, its, self.assertRaises(Failure) as raised:
            lent_files.LentFolder(self.input, 0, ours).file(["it.txt"])
        self.expect("what is said", (raised.exception.status, str(raised.exception)), (4, "the run has ended"))

    def test_requests_that_nobody_sends(self) -> None:
        """Whatever is asked for, root answers with a refusal, and reads nothing but regular files."""
        lender = lent_files.Lender([Lent(RootFolder(self.input), replaced=frozenset({("new.txt",)}))])
        requests = (
            b"",
            b"f",
            b"fx",
            b"f9\0table.txt",
            b"f0\0..\0a",
            b"f0\0/etc/shadow",
            b"f0\0\0",
            b"f0\0below/it.txt",
            b"z0\0a",
            b"r0\0new.txt",
        )
        for request in requests:
            reply, lent = lender.answer(request, [])
            self.expect(f"{request!r}", (reply != b"lent", list(lent)), (True, []))
        reads, writes = os.pipe()
        self.expect("bytes of a pipe", lender.answer(b"r0\0new.txt", [reads])[0].startswith(b"unusable"))
        os.close(reads)
        os.close(writes)
        self.expect("nothing new", (self.input / "new.txt").exists(), False)

    def test_pause(self) -> None:
        """Root does its part while the function waits; what goes wrong there ends the function."""
        seen: list[str] = []

        def work(parent: Parent) -> str:
            (self.written / "before").touch()
            parent.pause()
            return f"after {os.path.exists(self.written / 'between')}"

        def between() -> None:
            seen.append(f"{os.getuid()} {os.path.exists(self.written / 'before')}")
            (self.written / "between").touch()

        self.expect("one after the other", (self.run_of(work, at_pause=between), seen), ("after True", ["0 True"]))

        box = self.box_of(Limits(seconds=1))
        got = self.run_of(lambda parent: str(parent.pause()), box, at_pause=lambda: time.sleep(1.5))
        self.expect("the time of root's part does not count", got, "None")

        def filtered(name: str, data: bytes) -> bytes:
            time.sleep(1.5)
            return data.upper()

        got = self.run_of(lambda parent: parent.filtered("awk", b"rows").decode(), box, filtered=filtered)
        self.expect("nor that of a filter", got, "ROWS")

        def fail() -> None:
            raise Failure("no restart")

        self.expect("a failure", self.run_of(work, at_pause=fail), "Failure 3: no restart")
        self.expect("no process is left", processes_of(self.user.number), [])


WRONG = {
    ("secrets.tsv",): "PermissionError",
    ("below", "secrets.tsv"): "PermissionError",
    ("..", "table.txt"): "OSError",
    ("pipe",): "Unusable",
    ("link",): "Unusable",
    ("none.txt",): "FileNotFoundError",
    ("below",): "IsADirectoryError",
}


# Calls getpid as programs of i386 do: push rbx; mov eax, 20; int 0x80; pop rbx; ret.
CALL_OF_I386 = """import ctypes, mmap
page = mmap.mmap(-1, 4096, prot=mmap.PROT_READ | mmap.PROT_WRITE | mmap.PROT_EXEC)
page.write(bytes.fromhex("53 b8 14 00 00 00 cd 80 5b c3"))
print(ctypes.CFUNCTYPE(ctypes.c_int)(ctypes.addressof(ctypes.c_char.from_buffer(page)))())
"""


class MostTaken(Rights):
    def test_time(self) -> None:
        """A function that does not end is ended, and so are its processes."""
        begun = time.monotonic()
        words = ["sh", "-c", "trap '' TERM; sleep 1000"]
        got = self.run_of(lambda _: str(subprocess.run(words)), self.box_of(Limits(seconds=1.2)))
        self.expect("what is said", got, "Exceeded 4: no end within 0.02 minutes, so it was ended")
        self.expect("in time", time.monotonic() - begun < patience(20))
        self.expect("no process is left", processes_of(self.user.number), [])

    def test_time_of_a_fetch(self) -> None:
        """A fetch has twice the time, and what has come when it ends is used."""
        steps: list[float] = []

        def longer(box: Sandbox, times: int) -> Sandbox:
            steps.append(times)
            return box

        with mock.patch.object(Sandbox, "longer", longer), tempfile.TemporaryDirectory() as folder:
            Path(folder, "sources.tsv").write_text("# none\n")
            fetching.fetch(folder, steps.append, 1, 0, (), Sandbox(None, Limits()))
        self.expect("times", steps[0], 2)
        box = self.box_of(Limits(seconds=1)).longer(2)
        begun = time.monotonic()
        got = self.run_of(lambda _: str(time.sleep(1000)), box)
        said = "Exceeded 4: no end within 0.0333333 minutes, so it was ended"
        self.expect("in time", (got, 2 <= time.monotonic() - begun), (said, True))

    def test_memory(self) -> None:
        """A function may have the memory of its limit, and not more; the limit holds for what it runs too."""
        box = self.box_of(Limits(memory=600 * MB, seconds=patience(60)))
        self.expect("within", self.run_of(lambda _: str(len(bytearray(400 * MB))), box), str(400 * MB))
        beyond = "Exceeded 4: it needs more than 600 MB of memory: --memory allows more"
        self.expect("beyond", self.run_of(lambda _: str(len(bytearray(600 * MB))), box), beyond)
        words = [*PYTHON, "-c", "bytearray(600 * 2**20)"]
        got = self.run_of(lambda _: subprocess.run(words, capture_output=True, text=True).stderr.strip()[-11:], box)
        self.expect("a command", got, "MemoryError")

    def test_limits_of_the_machine(self) -> None:
        """A limit that is lower already stays. No memory of a process that fails is written to the disk."""

        def work(_: Parent) -> str:
            resource.setrlimit(resource.RLIMIT_AS, (500 * MB, 500 * MB))
            Limits(memory=600 * MB).apply()
            return str([resource.getrlimit(kind) for kind in (resource.RLIMIT_AS, resource.RLIMIT_CORE)])

        self.expect("memory, and a core", self.run_of(work), f"[({500 * MB}, {500 * MB}), (0, 0)]")

    def test_limits_of_another(self) -> None:
        """Another user has limits of its own, or the same."""

        def work(_: Parent) -> str:
            return f"{os.getuid() != self.user.number} {resource.getrlimit(resource.RLIMIT_AS)[0]}"

        for limits_of_it, most in ((Limits(memory=500 * MB), 500 * MB), (None, 3584 * MB)):
            other = self.box.other(self.top, "filter", limits_of_it)
            self.expect(f"{most} bytes", self.run_of(work, other), f"True {most}")

    def test_processes(self) -> None:
        """It can start only so many."""

        def work(_: Parent) -> str:
            count = 1
            with contextlib.suppress(OSError):
                while count < 1000:
                    if os.fork() == 0:
                        time.sleep(1000)
                    count += 1
            return str(count)

        self.expect("how many", self.run_of(work), "256")
        self.expect("no process is left", processes_of(self.user.number), [])

    def test_disk(self) -> None:
        """What the library has counts, and what is written comes to it."""
        (self.input / "large").write_bytes(b"x" * 3 * MB)
        most = Limits(patience(60), disk=8 * MB, folders=(self.input, self.written), line="LINE")

        def write(count: int) -> str:
            for number in range(count):
                (self.written / f"{number}").write_bytes(b"x" * MB)
            time.sleep(patience(1.5))
            return "written"

        self.expect("within", self.run_of(lambda _: write(4), self.box_of(most)), "written")
        beyond = "Exceeded 4: the library has more than 8 MB on the disk, so it was ended: LINE allows more"
        self.expect("beyond", self.run_of(lambda _: write(6), self.box_of(most)), beyond)

    def test_what_is_on_the_disk(self) -> None:
        """A file with several names is there once, and what a link leads to is not."""
        (self.written / "file").write_bytes(b"x" * MB)
        (self.input / "large").write_bytes(b"x" * 3 * MB)
        os.link(self.written / "file", self.written / "again")
        (self.written / "link").symlink_to(self.input / "large")
        (self.written / "folder").symlink_to(self.input)
        most = Limits(disk=3 * MB // 2, folders=(self.written,))
        self.expect("a megabyte", DiskLimit(most, (self.written,)).fault(), None)
        (self.written / "more").write_bytes(b"x" * MB)
        self.expect("two", DiskLimit(most, (self.written,)).fault() is not None)

    def test_lines_of_a_site(self) -> None:
        """The line of a library, or of the machine, in any unit; a number has nine digits at most."""
        site, machine = self.top / "site.conf", self.top / "openlink.conf"
        machine.write_text("js_var $openlink_disk 3g;\n")
        lines = {"set $openlink_disk 20m;": 20 * MB, 'set $openlink_disk "2T";': 2 * 2**40, "": 3 * 2**30}
        lines |= {"#set $openlink_disk 20m;": 3 * 2**30, "set $openlink_disk 20;": 3 * 2**30}
        lines |= {f"set $openlink_disk {'9' * 9}m;": 999_999_999 * MB, f"set $openlink_disk {'9' * 10}m;": 3 * 2**30}
        for line, wanted in lines.items():
            site.write_text(f"server {{\n    {line}\n}}\n")
            self.expect(line, Site(site, machine).most_disk, wanted)
        self.expect("no line", Site(site).most_disk, None)

    def test_disk_without_a_line(self) -> None:
        """Without a line, it is what is written that is bounded."""
        self.expect("as it is", limits._MOST_ADDED, 20 * 2**30)
        (self.written / "before").write_bytes(b"x" * MB)
        with mock.patch("openlink_update.rights.limits._MOST_ADDED", 2 * MB):
            disk = DiskLimit(Limits(folders=(self.input,)), (self.written,))
            for size, wanted in ((2 * MB, ""), (2 * MB + 1, "it writes more than 2 MB, so it was ended: ")):
                (self.written / "file").write_bytes(b"x" * size)
                self.expect(
                    f"{size} bytes", str(disk.fault() or "").startswith(wanted) and bool(disk.fault()), bool(wanted)
                )

    def test_network(self) -> None:
        """Without the network, neither the function nor a command has a socket; with it, both do."""
        script = "import socket; socket.socket(); print('open')"

        def work(_: Parent) -> str:
            made = [fault_of(lambda: socket.socket(family)) for family in (socket.AF_INET, socket.AF_UNIX)]
            shown = subprocess.run([*PYTHON, "-c", script], capture_output=True, text=True).stdout.strip()
            return f"{made} {shown}"

        closed = "PermissionError: Permission denied"
        self.expect("without", self.run_of(work, has_network=False), f"{[closed, closed]} ")
        self.expect("with", self.run_of(work), "['', ''] open")

    def test_other_ways_to_the_network(self) -> None:
        """Neither io_uring nor the numbers of 32-bit programs lead to a socket."""

        def called(number: int) -> str:
            libc = ctypes.CDLL(None, use_errno=True)
            found = libc.syscall(ctypes.c_long(number), 2, 1, 0)
            return f"{found} {errno.errorcode[ctypes.get_errno()]}"

        io_uring, socket_of_x32 = 425, 0x40000000 + 41
        for number in (io_uring, socket_of_x32):
            got = self.run_of(lambda _: called(number), has_network=False)
            self.expect(f"the call {number}", got, "-1 EACCES")
        words = [*PYTHON, "-c", CALL_OF_I386]
        got = self.run_of(lambda _: subprocess.run(words, capture_output=True, text=True).stdout, has_network=False)
        self.expect("a call of i386, if this kernel knows them", got in ("-13\n", ""), True)

    def test_ends_of_the_child(self) -> None:
        """However it ends, there is one line."""
        cases: dict[str, Callable[[Parent], str]] = {
            "Failure 4: it was ended by the signal SIGKILL": lambda _: str(os.kill(os.getpid(), 9)),
            "Failure 4: it was ended by status 0": lambda _: os._exit(0),
            "Failure 4: ZeroDivisionError: division by zero": lambda _: str(1 / 0),
            "Failure 4: /none: No such file or directory": lambda _: open("/none").read(),
        }
        for wanted, work in cases.items():
            self.expect(wanted, self.run_of(work), wanted)

        def refuse(_: Parent) -> str:
            raise Failure("a line\nand \x1b[2J one more", 3)

        self.expect("its own failure", self.run_of(refuse), "Failure 3: a line\nand ?[2J one more")
        self.expect("a text that is not UTF-8", self.run_of(lambda _: "a\udcff"), "a?")
        self.expect("a long text", len(self.run_of(lambda _: "x" * 10**6)), 30_000)


class Handover(Rights):
    def made(self, make: Callable[[], object]) -> str:
        """Has the user make something in the folder, and returns why it is not taken."""
        self.run_of(lambda _: str(make()))
        return fault_of(lambda: handover.take(self.written, self.user.number))

    def test_what_is_taken(self) -> None:
        """Files and folders get root as their owner, and modes that let nobody write."""

        def make() -> None:
            os.umask(0)
            (self.written / "below").mkdir(0o777)
            alone = (("group", 0o640), ("others", 0o604), ("unread", 0o633))
            for name, mode in (("below/open", 0o666), ("private", 0o600), ("run", 0o4777), *alone):
                (self.written / name).write_text("x")
                (self.written / name).chmod(mode)

        self.expect("all is taken", self.made(make), "")
        found = {path.name: path.stat() for path in (self.written, *self.written.rglob("*"))}
        wanted = {"written": 0o755, "below": 0o755, "open": 0o644, "private": 0o600, "run": 0o644}
        wanted |= {"group": 0o644, "others": 0o644, "unread": 0o600}
        self.expect("modes", {name: stat.S_IMODE(it.st_mode) for name, it in found.items()}, wanted)
        self.expect("owners", {(it.st_uid, it.st_gid) for it in found.values()}, {(0, 0)})

    def test_sizes(self) -> None:
        """Root and nginx read a registry of 64 KB at most, and a targets.json of a megabyte."""
        most = {"registry.tsv": 65_536, "targets.json": MB}
        self.expect("neither", fault_of(lambda: weekly_run._check_sizes(self.top)), "")
        for name, count in most.items():
            path = self.top / name
            path.write_bytes(b"x" * count)
            self.expect(name, fault_of(lambda: weekly_run._check_sizes(self.top)), "")
            path.write_bytes(b"x" * (count + 1))
            wanted = f"Failure: {path}: more than {count:,} bytes"
            self.expect(f"{name}, one more", fault_of(lambda: weekly_run._check_sizes(self.top)), wanted)
            path.unlink()

    def test_what_is_not(self) -> None:
        """Links, pipes, files with a second name and those of others are not taken."""
        other, outside = self.top / "other", self.top / "outside"
        other.write_text("root's")
        outside.mkdir()
        self.box.own(outside)

        def link() -> None:
            (self.written / "a").write_text("x")
            os.link(self.written / "a", outside / "b")

        def lead_out() -> None:
            (outside / "own").touch()
            (self.written / "own").symlink_to(outside / "own")

        cases: dict[str, Callable[[], object]] = {
            "link to a file of the user": lead_out,
            "link to a folder of the user": lambda: (self.written / "folder").symlink_to(outside),
            "link": lambda: (self.written / "link").symlink_to(other),
            "folder": lambda: (self.written / "folder").symlink_to(self.input),
            "pipe": lambda: os.mkfifo(self.written / "pipe"),
            "names": link,
        }
        for name, make in cases.items():
            got = self.made(make)
            self.expect(
                name, got.startswith("Failure: ") and got.endswith("not a file or folder that this run has made")
            )
            for path in self.written.iterdir():
                path.unlink()
            self.box.own(self.written)
        self.run_of(lambda _: "")
        (self.written / "planted").write_text("x")
        self.expect("of another", fault_of(lambda: handover.take(self.written, self.user.number)) != "")
        self.expect("the file of root", (other.read_text(), other.stat().st_uid), ("root's", 0))


class Fallbacks(Case):
    def test_of(self) -> None:
        """Without root there is no other user, and nothing is said."""
        with mock.patch("os.geteuid", lambda: 1000):
            self.expect("not root", sandbox.of(Path("/"), Path("/"), limits.Limits(), []).number, None)
        self.expect("an unusable file is one of the system", issubclass(Unusable, OSError))

    @needs.root()
    def test_files_that_a_user_needs(self) -> None:
        """Python and the certificates that curl is told to use are among them; what does not exist is not."""
        with tempfile.TemporaryDirectory() as name, contextlib.ExitStack() as stack:
            top, said = Path(name), stack.enter_context(contextlib.redirect_stdout(io.StringIO()))
            top.chmod(0o755)
            closed = top / "closed"
            closed.mkdir(0o700)
            for module, attribute in ((sys, "executable"), (os, "__file__")):  # of a Python that may be closed here
                stack.enter_context(mock.patch.object(module, attribute, "/usr/bin/env"))
            found = sandbox.of(top, top / "east", Limits(), [top / "none"])
            self.expect("all is well", (found.number is not None, said.getvalue()), (True, ""))
            for patch in (
                mock.patch.dict(os.environ, SSL_CERT_FILE=str(closed)),
                mock.patch.dict(os.environ, CURL_CA_BUNDLE=str(closed)),
                mock.patch.object(sys, "executable", str(closed)),
                mock.patch.object(os, "__file__", str(closed / "os.py")),
            ):
                said.truncate(0)
                said.seek(0)
                with patch:
                    found = sandbox.of(top, top / "east", Limits(), [])
                line = f"files of providers are read with the rights of root: its user cannot read {closed}: "
                shown = said.getvalue()
                self.expect(f"closed: {shown}", (found.number, shown.startswith(line)), (None, True))


# Notes who runs a command, and runs it.
_NOTING = """#!/bin/sh
echo "{name} $1 $(id -u) $(id -G)" >>{notes}
exec {program} "$@"
"""


@needs.program()
@needs.command("curl")
class Runs(Case):
    """Runs of the update and of the fetch."""

    def setUp(self) -> None:
        super().setUp()
        self.library = self.enterContext(Library())
        self.notes = Path(self.library.top, "notes")
        self.bin = Path(self.library.top, "bin")
        self.bin.mkdir()
        self.notes.touch()
        self.notes.chmod(0o666)
        self.library.write("table.txt", TABLE)
        self.library.targets["press"] = ("table.txt", "")
        self.library.write_targets()
        for name, program in (("openlink", os.path.abspath(PATH)), ("curl", shutil.which("curl"))):
            path = self.bin / name
            path.write_text(_NOTING.format(name=name, notes=self.notes, program=program))
            path.chmod(0o755)
        self.library.environment["PATH"] = f"{self.bin}:{os.environ['PATH']}"

    def noted(self) -> list[list[str]]:
        """What ran since the last time: a command, a word, a user and groups."""
        lines = [line.split(" ", 3) for line in self.notes.read_text().splitlines()]
        self.notes.write_text("")
        return lines

    def update(self, *words: str) -> tuple[int, str]:
        return self.library.update("--program", str(self.bin / "openlink"), *words)

    @needs.root()
    def test_who_runs(self) -> None:
        """All that reads a table runs as a user that is not root, of no group; what it makes is root's."""
        provider = Provider(has_tls=False)
        self.addCleanup(provider.stop)
        fetched = TABLE.replace(b"Annals", b"Archives")
        provider.steps = {"/table?key=s3cr3t": [reply(200, fetched)]}
        self.library.write("sources.tsv", f"table.txt\t{provider.address('/table?key={key}')}\tplain http\n")
        self.library.write("secrets.tsv", "key\ts3cr3t\n")
        os.chmod(self.library.folder, 0o700)  # the input is for its staff alone
        status, printed = self.update("--fetch")
        self.expect(f"the run: {printed}", (status, "rights of root" in printed), (0, False))
        self.expect("what is fetched", self.library.read("table.txt"), fetched)
        noted = self.noted()
        self.expect("what ran", {(name, word) for name, word, *_ in noted}, RAN)
        users = {(user, groups) for _, _, user, groups in noted}
        self.expect("one user, and its own group", [user == groups for user, groups in users], [True])
        self.expect("not root", all(61184 <= int(user) < 65520 for user, _ in users))
        version = Path(self.library.library, "current")
        self.expect("owners", {path.stat().st_uid for path in version.rglob("*")}, {0})
        self.expect("received", stat.S_IMODE((version / "received/press.txt").stat().st_mode), 0o600)
        self.expect("the next run", self.update("--fetch")[0], 0)
        self.library.write("table.txt", TABLE.replace(b"Harbour", b"Port"))
        self.expect(
            "another table", (self.update()[0], "Port" in (self.library.served("tables/press.txt") or "")), (0, True)
        )

    @needs.root()
    def test_a_fetch_that_does_not_end(self) -> None:
        """It is ended, and the update goes on with the files that are there."""
        (self.bin / "curl").write_text("#!/bin/sh\ntrap '' TERM\nsleep 1000\n")
        self.library.write("sources.tsv", "table.txt\thttps://press.example.com/table\n")
        minutes = round(patience(4) / 60, 3)
        status, printed = self.update("--fetch", "--minutes", str(minutes))
        line = f"the fetch was ended: no end within {minutes * 2:g} minutes, so it was ended"
        self.expect(printed, (status, line in printed.splitlines()), (1, True))
        self.expect("the version", "Annals" in (self.library.served("tables/press.txt") or ""))

    @needs.root()
    def test_what_preparing_may_not(self) -> None:
        """While a version is made, nothing has a socket, and no target has the secrets; what tries it has sockets."""
        path = self.bin / "openlink"
        script = "import socket; socket.socket(); print('open')"
        line = f'echo "$1 $({shlex.join(PYTHON)} -c "{script}" 2>/dev/null)" >>{self.notes}\nexec'
        path.write_text(path.read_text().replace("exec", line))
        self.library.write("secrets.tsv", "key\ts3cr3t\n")
        self.library.targets["spy"] = ("secrets.tsv", "")
        self.library.write_targets()
        status, printed = self.update()
        self.expect(printed, (status, "secrets.tsv: Permission denied" in printed), (1, True))
        noted = {line for line in self.notes.read_text().splitlines() if not line.startswith("openlink ")}
        self.expect("sockets", noted, {"compile ", "explain ", "inspect ", "lint ", "serve open"})

    @needs.root()
    def test_a_version_that_is_too_large(self) -> None:
        """What root or nginx would have to read is not taken if it is too large, whoever has made it so."""
        path = self.bin / "openlink"
        path.write_text(
            path.read_text().replace("exec", "[ -e registry.tsv ] || head -c 2000000 /dev/zero >targets.json\nexec")
        )
        status, printed = self.update()
        wanted = r"openlink-update: \S+/targets.json: more than 1,048,576 bytes\n"
        self.expect(printed, (status, bool(re.search(wanted, printed))), (4, True))
        self.expect("nothing is in use", os.path.lexists(os.path.join(self.library.library, "current")), False)

    @needs.root()
    def test_a_folder_that_is_closed(self) -> None:
        """Where the user could not enter the library, the run goes on as before, and says why first."""
        os.chmod(self.library.top, 0o700)
        status, printed = self.update()
        line = f"files of providers are read with the rights of root: its user cannot read {self.library.library}: "
        self.expect(printed, (status, printed.startswith(line)), (0, True))
        self.expect("who ran", {user for _, _, user, _ in self.noted()}, {"0"})

    @needs.root()
    def test_another_user(self) -> None:
        """A run that is not root's does all as its own user."""
        user = 65533
        for path in (self.library.top, *map(str, Path(self.library.top).rglob("*"))):
            os.chown(path, user, user)
        words = [*PYTHON, "update/update", "--library", self.library.library, "--site", "/nonexistent"]
        words += ["--restart", "true", "--program", str(self.bin / "openlink")]
        done = subprocess.run(words, capture_output=True, text=True, user=user, group=user, extra_groups=[])
        self.expect(
            f"the run: {done.stdout}{done.stderr}", (done.returncode, "rights of root" in done.stdout), (0, False)
        )
        self.expect("who ran", {it for _, _, it, _ in self.noted()}, {str(user)})
        self.expect("the owner", Path(self.library.library, "current/registry.tsv").stat().st_uid, user)


RAN = {("curl", "-q"), *(("openlink", word) for word in ("compile", "explain", "inspect", "lint", "serve"))}
