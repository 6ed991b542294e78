"""What the maker's key may do on another machine: what sshd hands to the command of the key is carried out only if it
is of a delivery, and otherwise changes nothing."""
from __future__ import annotations

import dataclasses
import datetime
import os
import pathlib
import shutil
import subprocess
import tempfile
from unittest import mock

from fixtures import PYTHON
from fixtures import needs
from fixtures.cases import Case
from fixtures.library import UPDATE
from fixtures.patience import patience
from openlink_update import update_options
from openlink_update.machines import machines
from openlink_update.machines import taking
from openlink_update.outcome import Failure
from openlink_update.versions.library import STAMP as STAMPS

STAMP = "20261122T000000Z"
RSYNC = "rsync --server -tre.iLsfxCIvu --timeout=60 --delete --mkpath"
PACKAGE, MOST_MODULES = "openlink_update", 16  # modules of it
REFUSED = "openlink-update: --take: this is not for a delivery: "
# What a key that has fallen into other hands may be used for.
ATTACKS = (
    "",
    "sh",
    "touch made",
    "state; touch made",
    "state && touch made",
    "$(touch made)",
    "drain\ntouch made",
    "name 99991231T235958Z",
    "name ../made",
    "receive",
    f"receive east --to {STAMP}",
    f"receive ../east {STAMP}",
    "receive east --dry-run",
    "receive east 'x; touch made'",
    "--back",
    "east --restart 'touch made'",
    "'",
    "rsync --server --sender -logDtpre.iLsfxCIvu . ./input/",
    f"{RSYNC} --sender . ./input/",
    f"{RSYNC} . ./",
    f"{RSYNC} . /etc/cron.d/",
    f"{RSYNC} . ../",
    f"{RSYNC} . ./input/../../made/",
    f"{RSYNC} . ../input/",
    f"{RSYNC} . ./versions/",
    f"{RSYNC} . ./versions/{STAMP}/",
    f"{RSYNC} . ./versions/../made.sent/",
    f"{RSYNC} . east/versions/made.sent/",
    f"{RSYNC} . east/versions/99991231T235958Z.sent/",
    f"{RSYNC} . east/versions/.probes",
    f"{RSYNC} . east/versions/{STAMP}xprobes",
    f"{RSYNC} . east/versions/{STAMP}.sent",
    f"{RSYNC} . shared/../made/",
    f"{RSYNC} . ssh/input/",
    f"{RSYNC} ./input/ ./input/",
    f"{RSYNC} --link-dest=../../../etc . ./input/",
    f"{RSYNC} --link-dest=../.. . ./versions/{STAMP}.sent/",
    f"{RSYNC} --link-dest ../../../etc . ./input/",
    f"{RSYNC} --log-file=made . ./input/",
    f"{RSYNC} --backup-dir=/etc . ./input/",
    f"{RSYNC} -s . ./input/",
    RSYNC.replace("-tre", "-ltre") + " . ./input/",
    RSYNC.replace("-tre", "-Dtre") + " . ./input/",
    RSYNC.replace("-tre", "-ptre") + " . ./input/",
    RSYNC.replace("-tre", "-Ktre") + " . ./input/",
    RSYNC.replace("-tre", "-Rtre") + " . ./input/",
)
# What a delivery needs. rsync ends with an error, since nobody speaks with it.
OF_RSYNC = (
    f"{RSYNC} . ./input/",
    f"{RSYNC} . east/input/",
    f"{RSYNC} . shared/",
    f"{RSYNC} . ./versions/{STAMP}.sent/",
    f"{RSYNC} --link-dest=../{STAMP} . east/versions/{STAMP}.sent/",
    f"{RSYNC} --link-dest ../{STAMP} --link-dest ../{STAMP} . east/versions/{STAMP}.sent/",
    f"{RSYNC} . east/versions/{STAMP}.probes",
)


class Taking(Case):
    def setUp(self) -> None:
        super().setUp()
        self.folder = pathlib.Path(tempfile.mkdtemp(prefix="taking."))
        self.addCleanup(shutil.rmtree, self.folder)
        (self.folder / "input").mkdir()

    def taken(self, request: str | None, *words: str, commands: pathlib.Path | None = None) -> tuple[int, str, str]:
        """The status and the outputs of the command of a key to which sshd hands a request, with the commands of a
        folder before others."""
        environment = {name: it for name, it in os.environ.items() if name != "SSH_ORIGINAL_COMMAND"}
        if commands is not None:
            environment["PATH"] = f"{commands}:{environment['PATH']}"
        if request is not None:
            environment["SSH_ORIGINAL_COMMAND"] = request
        done = subprocess.run(
            [*PYTHON, UPDATE, "--library", str(self.folder), "--take", *words],
            env=environment,
            cwd=self.folder if commands is None else commands,
            stdin=subprocess.DEVNULL,
            capture_output=True,
            encoding="utf-8",
            timeout=patience(60),
        )
        return done.returncode, done.stdout, done.stderr

    def test_attacks(self) -> None:
        options = update_options.parse(["--library", str(self.folder), "--take"])
        for attack in ATTACKS:
            for request in (attack, f"openlink-update --take {attack}"):
                with mock.patch.dict(os.environ, {"SSH_ORIGINAL_COMMAND": request}):
                    self.expect(request, self.reason(options).startswith(REFUSED[len("openlink-update: ") :]))
        self.expect("what is there", sorted(os.listdir(self.folder)), ["input"])
        status, printed, said = self.taken("touch made")
        self.expect("what the maker is told", (status, printed, said), (2, "", f"{REFUSED}touch made\n"))

    def reason(self, options: update_options.Options) -> str:
        """Why a request is not carried out; that it is, if it is."""
        with mock.patch.object(os, "execvp"), mock.patch.object(os, "chdir"):
            try:
                return f"carried out: {taking.take(options)}"
            except Failure as failure:
                return str(failure)

    def test_no_request(self) -> None:
        """A login without a command gets nothing."""
        status, printed, said = self.taken(None)
        self.expect("a login", (status, printed, said), (2, "", f"{REFUSED}\n"))

    def test_modules(self) -> None:
        """A delivery has many requests, so a request loads none of what makes versions."""
        with mock.patch.dict(os.environ, {"PYTHONPROFILEIMPORTTIME": "1"}):
            status, printed, said = self.taken("state")
        loaded = [name for line in said.splitlines() if (name := line.rpartition("|")[2].strip()).startswith(PACKAGE)]
        self.expect("its reply", (status, printed), (0, "key forced\n"))
        self.expect("what it needs", f"{PACKAGE}.machines.taking" in loaded)
        self.expect(f"no more: {loaded}", len(loaded) <= MOST_MODULES)

    @needs.command("rsync")
    def test_rsync(self) -> None:
        for request in OF_RSYNC:
            status, _, said = self.taken(f"openlink-update --take {request}")
            self.expect(f"{request}: {said}", (REFUSED in said, "rsync error" in said), (False, True))

    def test_where_rsync_begins(self) -> None:
        """In the folder of the libraries, wherever sshd begins."""
        commands = self.folder / "commands"
        commands.mkdir()
        stand_in = commands / "rsync"
        stand_in.write_text('#!/bin/sh\npwd\necho "$*"\n', encoding="utf-8")
        stand_in.chmod(0o755)
        request = f"{RSYNC} . ./input/"
        wanted = f"{self.folder.resolve()}\n{request.partition(' ')[2]}\n"
        self.expect("its folder, and its arguments", self.taken(request, commands=commands), (0, wanted, ""))

    def test_drain(self) -> None:
        """It ends twenty minutes after the last request, or at once; an empty file is the operator's, and stays."""
        options, path = update_options.parse(["--library", str(self.folder), "--take", "x"]), self.folder / "drain"

        def asked(word: str) -> str | None:
            taking.take(dataclasses.replace(options, take=[word]))
            return path.read_text(encoding="utf-8") if path.exists() else None

        self.expect("before", asked("end-drain"), None)
        for before in (None, f"{STAMP}\n"):
            if before is not None:
                path.write_text(before, encoding="utf-8")
            end = datetime.datetime.strptime(f"{asked('drain')}".strip(), STAMPS).replace(tzinfo=datetime.timezone.utc)
            minutes = (end - datetime.datetime.now(datetime.timezone.utc)).total_seconds() / 60
            self.expect(f"after {before}: {minutes} minutes", 19 < minutes <= 20)
            self.expect("at its end", asked("end-drain"), None)
        path.touch()
        self.expect("the operator's", (asked("drain"), asked("end-drain")), ("", ""))

    def test_state(self) -> None:
        """The versions in use, and whether the key may do more."""
        for name, link in ((".", STAMP), ("east", STAMP), ("shared", STAMP), ("west", STAMP)):
            (self.folder / name).mkdir(exist_ok=True)
            (self.folder / name / "current").symlink_to(f"versions/{link}")
        (self.folder / "west/before").symlink_to("none")
        (self.folder / "delivery").write_text(f"{STAMP}\nmore\n")
        lines = f"delivery {STAMP}\n. versions/{STAMP}\neast versions/{STAMP}\n"
        self.expect("forced", self.taken("anything --take state"), (0, f"key forced\n{lines}", ""))
        self.expect("free", self.taken(None, "state"), (0, f"key free\n{lines}", ""))
        self.expect(
            "a key that is free has no more requests",
            self.taken(None, "touch", "made")[0::2],
            (2, f"{REFUSED}touch made\n"),
        )


class Commands(Case):
    def test_missing_command(self) -> None:
        """The line names it: a machine may lack rsync or ssh."""
        with self.assertRaises(Failure) as raised:
            machines.run(["/nowhere/no-such-command", "x"], 10)
        self.expect("what is said", str(raised.exception), "no-such-command: No such file or directory")
