"""The site: targets.json, and how long processes, probes and nginx are waited for."""
from __future__ import annotations

import json
import socket
import subprocess
import sys
import tempfile
from collections.abc import Iterator
from contextlib import contextmanager
from pathlib import Path
from unittest import mock

from bounds.refusals import reason
from fixtures.cases import Case
from fixtures.patience import patience
from fixtures.provider import Held
from fixtures.provider import Provider
from fixtures.provider import Step
from fixtures.provider import reply
from openlink_update import children
from openlink_update.site import front_door
from openlink_update.site import probes
from openlink_update.site import probing
from openlink_update.site import processes
from openlink_update.site import targets_file


def nested(depth: int) -> bytes:
    """An object that has lists in each other, with these numbers of both."""
    return b'{"a": ' + b"[" * (depth - 1) + b"1" + b"]" * (depth - 1) + b"}"


class TargetsFile(Case):
    def faults(self, data: bytes) -> list[str]:
        found: list[str] = []
        targets_file.parsed(data, found)
        return found

    def test_bytes(self) -> None:
        head = b'{"words": {"library": "'
        cases: list[tuple[int, list[str]]] = [(1_048_576, []), (1_048_577, ["more than 1,048,576 bytes"])]
        for count, wanted in cases:
            data = head + b"x" * (count - len(head) - 3) + b'"}}'
            self.expect(f"{len(data)} bytes", self.faults(data), wanted)
            with tempfile.TemporaryDirectory() as folder:
                Path(folder, "targets.json").write_bytes(data)
                found = [line for line in targets_file.faults_in(f"{folder}/targets.json") if "bytes" in line]
                self.expect(f"{len(data)} bytes of a file", len(found), len(wanted))

    def test_depth(self) -> None:
        self.expect("31", self.faults(nested(31)), [])
        self.expect(
            "32",
            [line.split("..: ")[1] for line in self.faults(nested(32))],
            ["more than 31 objects and lists in each other"],
        )
        self.expect("100,000", self.faults(nested(100_000)), ["more than 31 objects and lists in each other"])

    def test_faults_that_are_told(self) -> None:
        """Ten of those in the values; of a name 40 characters."""
        for count, wanted in ((10, 10), (11, 10)):
            values = "[" + ", ".join(["NaN"] * count) + "]"
            self.expect(f"{count} errors", len(self.faults(f'{{"a": {values}}}'.encode())), wanted)
        for count in (40, 41):
            text = f'{{"{"x" * count}": NaN}}'
            self.expect(f"a name of {count}", self.faults(text.encode()), [f'"{"x" * 40}": NaN is no value of JSON'])

    def test_names(self) -> None:
        """A target has 64 characters, a logo 60 before its ending, a part of a tag 8."""

        def faults(site: dict[str, object]) -> list[str]:
            return targets_file.faults_of(json.dumps({"groups": [{"name": "a"}], **site}).encode())

        for count, wanted in ((64, 0), (65, 1)):
            self.expect(f"a target of {count}", len(faults({"targets": {"t" * count: {}}})), wanted)
        for count, wanted in ((60, 0), (61, 1)):
            self.expect(f"a logo of {count}", len(faults({"words": {"logo": f"{'l' * count}.svg"}})), wanted)
        for tag, wanted in (("a" * 8, 0), ("a" * 9, 1), (f"en-{'a' * 8}", 0), (f"en-{'a' * 9}", 1), ("a", 1)):
            self.expect(f"a language {tag}", len(faults({"languages": [tag]})), wanted)


@contextmanager
def listening(*, answers: bool) -> Iterator[int]:
    """The port of a socket that takes connections, and answers with a report, or with nothing."""
    provider = Provider(has_tls=False)
    step: Step = Held()
    if answers:
        step = reply(200, b"press\tno row\n")
    provider.steps = {"/report?rft.issn=0000-0000": [step]}
    try:
        yield int(provider.address("").rpartition(":")[2])
    finally:
        provider.stop()


class Times(Case):
    def test_reply_of_a_process(self) -> None:
        """One that takes a connection and says nothing counts as none that answers."""
        self.expect("seconds", processes._SECONDS_FOR_A_REPLY, 4)
        with listening(answers=True) as port:
            self.expect("one that answers", processes._report_of(port), ["press"])
        with listening(answers=False) as port, mock.patch.object(processes, "_SECONDS_FOR_A_REPLY", 0.3):
            self.expect("one that hangs", processes._answers(port), False)
            group = processes.Processes([port], "true", "true", 0.5)
            self.expect(
                "the run says so",
                reason(group.restart_all, ["press"]),
                f"the process at port {port} does not answer within 0.5 seconds: timed out",
            )
            self.expect("all are down", group.is_down())

    def test_status_of_a_process(self) -> None:
        """One that answers with another status has no report, whatever its text is."""
        reply = mock.Mock(read=lambda: b"press\tno row\n")
        with mock.patch("http.client.HTTPConnection") as peer:
            peer.return_value.getresponse.return_value = reply
            for status, answers in ((200, True), (503, False), (204, False)):
                reply.status = status
                self.expect(f"status {status}", processes._answers(1), answers)

    def test_waiting_for_all(self) -> None:
        """Each is asked until it answers, or the time is over."""
        for seconds, replies, wanted in ((600, [False, False, True, True], [1, 1, 1, 2]), (0, [False, False], [1, 2])):
            with mock.patch.object(processes, "_answers", side_effect=replies) as asked:
                processes.Processes([1, 2], "true", "true", seconds).wait_for_all()
            self.expect(f"{seconds} seconds: who is asked", [call.args[0] for call in asked.call_args_list], wanted)

    def test_restart(self) -> None:
        self.expect("seconds", processes._SECONDS_TO_RESTART, 120)
        self.expect("a command that ends", reason(processes.run, ["true"]), "")
        with mock.patch.object(processes, "_SECONDS_TO_RESTART", 0.3):
            self.expect(
                "one that hangs", reason(processes.run, ["sleep", "1000"]), "sleep 1000: no end after 0.3 seconds"
            )

    def test_reply_for_a_probe(self) -> None:
        self.expect("seconds", probes._SECONDS, 10)
        with listening(answers=False) as port, mock.patch.object(probes, "_SECONDS", 0.3):
            with self.assertRaises(probes.Unreachable) as fault:
                probes._get(f"http://127.0.0.1:{port}", "/report?rft.issn=0000-0000")
            self.expect("one that hangs", str(fault.exception), f"http://127.0.0.1:{port}: timed out")
        with listening(answers=True) as port:
            self.expect(
                "one that answers",
                probes._get(f"http://127.0.0.1:{port}", "/report?rft.issn=0000-0000"),
                (200, "press\tno row\n"),
            )

    def test_loading_of_a_version(self) -> None:
        """A process that never listens is ended; its message is told."""
        self.expect("seconds", (probing._SECONDS, front_door._SECONDS), (300, 30))
        with tempfile.TemporaryDirectory() as folder:
            path = Path(folder, "openlink")
            path.write_text("#!/bin/sh\necho slow >&2\nexec sleep 1000\n")
            path.chmod(0o755)
            port = children.free_port()
            with mock.patch.object(probing, "_SECONDS", patience(1)):
                told = reason(probing.Trial(str(path), Path(folder), port).__enter__)
            self.expect("one that does not listen", told, f"{folder} cannot be served: slow")

    def test_listening(self) -> None:
        """Waiting for a port ends with the time, with the child, or as soon as something listens."""
        port = children.free_port()
        child = children.start(["sleep", "1000"], "/")
        self.expect("none listens in time", children.wait_for(port, child, 0.2), False)
        with socket.create_server(("127.0.0.1", port)):
            self.expect("one listens", children.wait_for(port, child, 600))
        children.stop(child)
        self.expect("the child has ended", children.wait_for(port, child, 600), False)

    def test_child_that_stays(self) -> None:
        """SIGTERM, and SIGKILL ten seconds later for a child that ignores it."""
        script = "import signal; signal.signal(signal.SIGTERM, signal.SIG_IGN); print(1, flush=True); signal.pause()"
        child = children.start([sys.executable, "-S", "-c", script], "/", stdout=subprocess.PIPE)
        assert child.stdout
        child.stdout.readline()
        waited: list[float] = []
        wait = child.wait

        def at_once(seconds: float | None = None) -> int:
            waited.append(seconds or 0)
            return wait(seconds and 0.1)

        with mock.patch.object(child, "wait", at_once):
            children.stop(child)
        child.stdout.close()
        self.expect("seconds, and how it ends", (waited, child.returncode), ([10, 0], -9))
        quick = children.start(["sleep", "1000"], "/")
        children.stop(quick)
        self.expect("one that follows", quick.returncode, -15)
