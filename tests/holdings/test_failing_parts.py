"""What is said when curl, the program, nginx, the kernel or a filter fails: the whole text of each."""
from __future__ import annotations

import contextlib
import datetime
import gc
import io
import os
import platform
import runpy
import socket
import tempfile
import types
import zipfile
from collections.abc import Callable
from pathlib import Path
from unittest import mock

from bounds.refusals import reason
from fixtures import needs
from fixtures.cases import Case
from fixtures.made_versions import Weeks
from openlink_update.commands import holdings
from openlink_update.fetch import transfers
from openlink_update.outcome import Failure
from openlink_update.received import spreadsheets
from openlink_update.rights import closed_files
from openlink_update.rights import library_user
from openlink_update.rights import network_filter
from openlink_update.rights import sandbox
from openlink_update.rights.limits import Limits
from openlink_update.rights.sandbox import Job
from openlink_update.rights.sandbox import Sandbox
from openlink_update.site import front_door
from openlink_update.site.probing import Difference
from openlink_update.site.probing import Trial
from openlink_update.versions import making
from openlink_update.versions import served
from openlink_update.versions import tables_again
from openlink_update.versions.program import Program
from openlink_update.weekly_run import Run

_NOBODY = 65534
# Statuses of curl (see its manual), the reason that a fetch gives, and whether another try may end well.
STATUSES: tuple[tuple[int, str | None, bool], ...] = (
    (0, None, False),
    (3, "curl: status 3", False),
    (5, "the name of the proxy is unknown", True),
    (6, "the name of the host is unknown", True),
    (7, "no connection", True),
    (16, "curl: status 16", True),
    (18, "the connection broke", True),
    (22, None, False),
    (23, "the disk is full or cannot be written", False),
    (28, "no connection", True),
    (35, "TLS failed", True),
    (52, "no reply", True),
    (55, "the connection broke", True),
    (56, "the connection broke", True),
    (60, "the certificate is not trusted", False),
    (63, "more than 256 MB", False),
    (77, "no certificates of authorities on this machine", False),
    (92, "the connection broke", True),
    (95, "the connection broke", True),
    (96, "the connection broke", True),
    (97, "the proxy refused the connection", True),
    (-9, "no connection", False),
)


class Curl(Case):
    def test_statuses(self) -> None:
        for status, text, may_end_well in STATUSES:
            transfer = transfers.Transfer.__new__(transfers.Transfer)
            transfer.exit, transfer.reply, transfer._has_endless_headers = status, transfers._Reply(), False
            transfer._body, transfer._most_bytes = Path("/nonexistent"), 100
            found = transfer.fault(), status in transfers.PASSING
            self.expect(f"status {status}", found, (text, may_end_well))

    def test_certificates(self) -> None:
        for verified, text in (
            (1, "the certificate is that of another host"),
            (10, "the certificate has expired"),
            (18, "the certificate is not trusted"),
        ):
            transfer = transfers.Transfer.__new__(transfers.Transfer)
            transfer.exit, transfer.reply = 60, transfers._Reply(verified=verified)
            transfer._has_endless_headers = False
            self.expect(f"{verified}", transfer.fault(), text)

    def test_headers_of_several_replies(self) -> None:
        """Those of a reply before the last one, such as early hints, do not count."""
        text = "HTTP/1.1 103 Early Hints\r\nETag: first\r\n\r\nHTTP/1.1 200 OK\r\nLast-Modified: today\r\nX: a:b\r\n"
        self.expect("the last ones", transfers._headers_in(text), {"last-modified": "today", "x": "a:b"})


def warnings(script: str) -> list[str]:
    """The warnings of a command of the program that prints and ends as a script does."""
    return Program("/bin/sh", "/").warnings("-c", script)


class Programs(Case):
    def test_status_of_warnings(self) -> None:
        """Status 1 is a warning, also without a line that is one; status 0 is none."""
        self.expect("a warning", warnings("echo rows 3; echo rows longer than the header 1; exit 1"), [LONGER])
        self.expect("a line that is none", warnings("echo rows 3; exit 1"), ["openlink -c has status 1"])
        self.expect("no line", warnings("exit 1"), ["openlink -c has status 1"])
        self.expect("status 0", warnings("echo rows longer than the header 1"), [])
        self.expect(
            "status 3", reason(warnings, "echo openlink: rules: BadName at 1 >&2; exit 3"), "rules: BadName at 1"
        )

    def test_a_program_that_cannot_start(self) -> None:
        text = "/nonexistent/openlink: No such file or directory"
        self.expect("no program", reason(Program("/nonexistent/openlink", "/").run, "inspect", "a"), text)
        silent = reason(Program("/bin/sh", "/").run, "-c", "exit 7")
        self.expect("no message", silent, "openlink -c exit 7 in /: status 7, no message")


LONGER = "rows longer than the header 1"
XML = "XML, not a table: save it as .xlsx, .ods or text with tabs"


class Versions(Case):
    def test_memory(self) -> None:
        """Python looks for cycles again once millions of cells were compared, also if that ended with an error."""
        with contextlib.suppress(ValueError), making._collecting_nothing():
            self.expect("while they are", gc.isenabled(), False)
            raise ValueError
        self.expect("then", gc.isenabled())

    def test_abbreviations(self) -> None:
        """A version has those of its input, and those of the version before where the list cannot be read."""
        with tempfile.TemporaryDirectory() as folder:
            (Path(folder) / "abbreviations.tsv").write_bytes(b"A T\tTides\n")
            for pairs, wanted in ((b"P R\tPiers\n", b"P R\tPiers\n"), (b"", b""), (None, b"A T\tTides\n")):
                maker = making.Maker.__new__(making.Maker)
                maker.names, maker._older = ["press"], Path(folder)
                with mock.patch.object(maker, "_names_before", return_value=[]):
                    with mock.patch.object(maker, "_finish") as finish:
                        maker.make([], True, pairs)
                self.expect(f"{pairs!r}", finish.call_args.args, (True, wanted))

    def test_no_target(self) -> None:
        with Weeks() as weeks:
            weeks.write("targets.tsv", b"press\tpress.rules\tpress.txt\n")
            lines = [
                "press: left out, since it has no old files",
                *(f"  {weeks.path('input', name)}: No such file or directory" for name in ("press.rules", "press.txt")),
                "no target is left",
            ]
            self.expect("what is said", weeks.make(), lines)

    def test_tables_again(self) -> None:
        """The table of a version that an older release has made may be one that this one does not read."""
        with tempfile.TemporaryDirectory() as folder:
            version = Path(folder)
            (version / "received").mkdir()
            (version / "registry.tsv").write_text("a\tcode/a.olk\ttables/a.txt\n", encoding="utf-8")
            (version / "received/a.rules").write_text("rule\nlink https://e.org/\n", encoding="utf-8")
            (version / "received/a.txt").write_text("<?xml version='1.0'?><a/>\n", encoding="utf-8")
            said = reason(lambda: [*tables_again.tables_of(version, datetime.date(2026, 1, 1))])
            self.expect("what is said", said, f"a: its table cannot be prepared: {version}/received/a.txt: {XML}")

    def test_tables_to_the_day(self) -> None:
        """Run as a program, served.py writes tables as they are served, up to one that is none, and says why."""
        good = "publication_title\tprint_identifier\tdate_first_issue_online\nTides\t2901-0012\t1995\n"
        rows = "publication_title\tprint_identifier\tdate_first_issue_online\tcoverage_from\tcoverage_to\n"
        row = f"{rows}Tides\t2901-0012\t1995\t19950101\t99999999\n"
        with tempfile.TemporaryDirectory() as name:
            folder = Path(name)
            for source, text in (("a", good), ("b", "<?xml version='1.0'?><a/>\n"), ("c", good)):
                (folder / f"{source}.txt").write_text(text, encoding="utf-8")
            for sources, wanted in (("a", {"a": row}), ("ac", {"a": row, "c": row}), ("abc", {"a": row}), ("", {})):
                words = [f"{folder}/{it}.{end}" for it in sources for end in ("txt", "served")]
                ending = None
                with mock.patch("sys.argv", ["served.py", "2026-11-20", *words]):
                    try:
                        runpy.run_path(served.__file__, run_name="__main__")
                    except SystemExit as exit_of_program:
                        ending = exit_of_program.code
                written = {path.stem: path.read_text(encoding="utf-8") for path in folder.glob("*.served")}
                self.expect(f"what is written of {sources}", written, wanted)
                self.expect(f"what is said of {sources}", ending, f"{folder}/b.txt: {XML}" if "b" in sources else None)
                for path in folder.glob("*.served"):
                    path.unlink()

    def test_a_spreadsheet_of_another_packing(self) -> None:
        """Python unpacks other methods than deflate without a limit of memory."""
        written = io.BytesIO()
        with zipfile.ZipFile(written, "w", zipfile.ZIP_BZIP2) as archive:
            for name in ("[Content_Types].xml", "xl/workbook.xml"):
                archive.writestr(name, "<a/>")
        text = "a spreadsheet packed in a way that none is: save it again"
        self.expect("bzip2", reason(spreadsheets.sheet_of, written.getvalue(), ""), text)


class Holdings(Case):
    def said(self, folder: Path, target: str) -> tuple[int, str]:
        """The status of openlink-holdings for the version in use in a folder, and what it says."""
        errors = io.StringIO()
        with contextlib.redirect_stderr(errors):
            words = ["kbart", target, "--library", str(folder), "--site", str(folder / "site.conf")]
            status = holdings.main(words)
        return status, errors.getvalue()

    def test_a_version_that_lacks_files(self) -> None:
        with tempfile.TemporaryDirectory() as name:
            folder = Path(name)
            (folder / "current/received").mkdir(parents=True)
            (folder / "current/registry.tsv").write_text("a\tcode/a.olk\ttables/a.txt\n", encoding="utf-8")
            text = f"openlink-holdings: {folder}/current: no files of a\n"
            self.expect("a table", self.said(folder, f"{folder}/out"), (4, text))
            (folder / "current/registry.tsv").unlink()
            text = f"openlink-holdings: {folder}/current/registry.tsv: No such file or directory\n"
            self.expect("the registry", self.said(folder, f"{folder}/out"), (4, text))


class Trials(Case):
    """A process that serves a version for a trial."""

    def said_of(self, script: str) -> str:
        """Why none serves a version with a program that does what a script does."""
        with tempfile.TemporaryDirectory() as folder:
            program = Path(folder, "program")
            program.write_text(f"#!/bin/sh\n{script}\n", encoding="utf-8")
            program.chmod(0o755)

            def start() -> None:
                with Trial(str(program), Path(folder), 9):
                    pass

            return reason(start).removeprefix(folder)

    def test_that_does_not_listen(self) -> None:
        start = " cannot be served: "
        words = "serve registry.tsv 9 1000000"
        self.expect("its complaint", self.said_of('echo "$@" >&2; echo more >&2; exit 3'), f"{start}{words}\nmore")
        self.expect("none", self.said_of("exit 3"), f"{start}it does not listen")


class Doors(Case):
    """The front door for probes."""

    def setUp(self) -> None:
        room = tempfile.TemporaryDirectory()
        self.addCleanup(room.cleanup)
        self.folder = Path(room.name)
        (self.folder / "site.conf").write_text("js_path /nonexistent/nginx;\n", encoding="utf-8")

    def said_of(self, script: str, site: str = "site.conf") -> str:
        """Why no front door starts with an nginx that does what a script does."""
        nginx = self.folder / "nginx"
        nginx.write_text(f"#!/bin/sh\n{script}\n", encoding="utf-8")
        nginx.chmod(0o755)
        with contextlib.ExitStack() as stack:
            stack.enter_context(mock.patch("shutil.which", return_value=str(nginx)))
            stack.enter_context(
                mock.patch.object(front_door, "_module_of", return_value=Path("/nonexistent/module.so"))
            )

            def start() -> None:
                with front_door.FrontDoor(front_door.Site(self.folder / site), self.folder / "trial") as door:
                    door.start()

            return reason(start)

    def test_a_site_without_one(self) -> None:
        (self.folder / "other.conf").write_text("server {}\n", encoding="utf-8")
        text = f"{self.folder}/other.conf: no front door, and probes need one"
        self.expect("what is said", self.said_of("exit 1", "other.conf"), text)

    def test_nginx_that_does_not_start(self) -> None:
        start = "the front door for probes does not start: "
        self.expect("no reason", self.said_of("exit 1"), f"{start}nginx gives no reason")
        self.expect("its log", self.said_of('echo a fault >"$2"; exit 1'), f"{start}a fault")
        both = self.said_of('echo a fault >"$2"; echo another >"$4/error.log"; exit 1')
        self.expect("both logs", both, f"{start}a fault another")
        self.expect("nothing is left", (self.folder / "trial").exists(), False)


class Kernels(Case):
    def test_network(self) -> None:
        """Where the kernel cannot close the network, what would run without it does not run."""
        with mock.patch.object(network_filter, "_LIBC") as libc, mock.patch("platform.machine", return_value="x86_64"):
            libc.prctl.side_effect = [0, -1]
            said = ""
            try:
                network_filter.close()
            except OSError as fault:
                said = str(fault.strerror)
        self.expect("what is said", said, "the network cannot be closed")
        with mock.patch.object(network_filter, "_LIBC") as libc, mock.patch("platform.machine", return_value="arm64"):
            network_filter.close()
        self.expect("its numbers of calls are those of x86-64", libc.prctl.called, False)

    @needs.root()
    def test_network_of_a_user(self) -> None:
        """A process without root's rights closes it too, whatever it has given up before."""
        child = os.fork()
        if child == 0:
            step = 0
            try:
                os.setuid(_NOBODY)
                network_filter.close()
                step = 1
                socket.socket()
                step = 2
            finally:
                os._exit(step)
        wanted = 1 if platform.machine() == "x86_64" else 2
        self.expect("closed, and no socket", os.waitstatus_to_exitcode(os.waitpid(child, 0)[1]), wanted)

    def test_files(self) -> None:
        """The same for files. A kernel that does not know the call, or one that refuses it."""
        self.expect("the rights of Landlock's first version", closed_files._ALL, 0b1_1111_1111_1111)
        for what, numbers, text in (
            ("none", [-1], "this kernel cannot close files, by Landlock"),
            ("no rules", [4, -1], "the files of the machine cannot be closed"),
        ):
            said = ""
            with mock.patch.object(closed_files, "_LIBC") as libc:
                libc.syscall.side_effect = numbers
                try:
                    closed_files.close([], Path("/nonexistent"))
                except OSError as fault:
                    said = str(fault.strerror)
            self.expect(what, (said, libc.syscall.call_count), (text, len(numbers)))


def work(_: object) -> str:
    return ""


class Sandboxes(Case):
    def replied(self, job: Job, count: int = 1) -> bytes:
        """What root replies to a request for a filter, with a number of files."""
        with tempfile.TemporaryFile() as file:
            return sandbox._filtered_by(job, b"name", [file.fileno()] * count)[0]

    def test_filters(self) -> None:
        def full(name: str, data: bytes) -> bytes:
            raise OSError(28, "No space left on device", f"/x/{name}")

        self.expect("where there is none", self.replied(Job(work)), b"Xnone may run here")
        self.expect("no file", self.replied(Job(work), 0), b"Xno file came to be filtered")
        self.expect("a full disk", self.replied(Job(work, filtered=full)), b"X/x/name: No space left on device")

    def test_no_user(self) -> None:
        folder, printed = Path("/nonexistent/libraries"), io.StringIO()
        with mock.patch.object(library_user, "claim", return_value=None), mock.patch("os.geteuid", return_value=0):
            with contextlib.redirect_stdout(printed):
                box = sandbox.of(folder, folder / "north", Limits(), [])
            said = reason(Sandbox(None, Limits()).other, folder, "north")
        text = f"files of providers are read with the rights of root: no user is free, or {folder}/lock.users"
        self.expect("what is said", printed.getvalue(), f"{text} cannot be written\n")
        self.expect("whose rights", box.number, None)
        self.expect("of a filter", said, "no user is free")

    def test_root_that_has_gone(self) -> None:
        """The child of a run that has ended gets no reply."""
        calls: dict[str, Callable[[sandbox._Root], object]] = {
            "a pause": lambda root: root.pause(),
            "tables": lambda root: root.prepared([("a", b"x")]),
            "a filter": lambda root: root.filtered("a", b"x"),
        }
        for name, call in calls.items():
            root, child = socket.socketpair(socket.AF_UNIX, socket.SOCK_SEQPACKET)
            with root, child:
                root.shutdown(socket.SHUT_WR)
                with self.assertRaises(Failure) as ending:
                    call(sandbox._Root(Job(work), child))
            self.expect(name, (str(ending.exception), ending.exception.status), ("the run has ended", 4))

    def test_child_that_reads_no_more(self) -> None:
        """One that ends with or without a message that it has not read has sent nothing."""
        for sent in ([], [b"unread"]):
            parent, child = socket.socketpair(socket.AF_UNIX, socket.SOCK_SEQPACKET)
            with parent:
                with child:
                    for text in sent:
                        parent.send(text)
                self.expect(f"{sent}", sandbox._received(parent), (b"", []))


class Probing(Case):
    """What is said of probes once the processes are restarted."""

    def setUp(self) -> None:
        self.probes = mock.Mock(path=Path("/input/probes.tsv"), list=[mock.Mock(number=7, query="a=b", targets=("x",))])
        self.probes.differences.return_value = []
        self.probes.links.return_value = [{"x": "https://e.org/"}]

    def said(self) -> tuple[str, str]:
        """What is printed, and the failure."""
        trials = types.SimpleNamespace(running="http://127.0.0.1:9", links=[{"x": "https://e.org/"}])
        printed = io.StringIO()
        with contextlib.redirect_stdout(printed):
            failure = reason(Run.__new__(Run).try_again, self.probes, trials)
        return printed.getvalue(), failure

    def test_ends(self) -> None:
        self.expect("one holds", self.said(), ("1 probe holds\n", ""))
        self.probes.list *= 2
        self.expect("two hold", self.said(), ("2 probes hold\n", ""))
        self.probes.links.return_value = [{"x": "https://other.example.org/"}]
        self.expect(
            "other links", self.said(), ("", "the processes at the ports have other links than the new version")
        )
        self.probes.differences.return_value = [Difference(self.probes.list[0], ["  missing x: no row"])]
        lines = "/input/probes.tsv:7: a=b\n  missing x: no row\n"
        self.expect("a difference", self.said(), (lines, "1 of 2 probes differ at the ports"))

    def test_none(self) -> None:
        self.probes.list, printed = [], io.StringIO()
        with contextlib.redirect_stdout(printed):
            with Run.__new__(Run).front_door(self.probes) as door:
                self.expect("no front door", door, None)
        self.expect("what is said", printed.getvalue(), "/input/probes.tsv: no probes, so no link was tried\n")
        self.expect("nothing is tried again", self.said(), ("", ""))
