"""The children of a run: they do not outlive it, and each has a port of its own, or none is free."""
from __future__ import annotations

import contextlib
import socket
from typing import Any
from unittest import mock

from bounds.refusals import reason
from fixtures.cases import Case
from openlink_update import children
from openlink_update.outcome import Failure


class Children(Case):
    """Children of this process."""

    def test_parent_that_has_ended(self) -> None:
        """A child whose parent ends before the child is tied to it does not start."""
        self.expect("a parent that runs", children.start(["true"], "/").wait(), 0)
        with mock.patch("os.getpid", return_value=-1):
            child = children.start(["true"], "/")
        self.expect("another parent", child.wait(), 1)

    def test_ports(self) -> None:
        """The search for a free port ends, also if another user has the names of all of them."""
        tried = []

        class Taken(socket.socket):
            def bind(self, name: Any) -> None:
                tried.append(name)
                if len(tried) > 20_000:
                    raise StopIteration  # the search would not end
                raise OSError("Address already in use")

        said = None
        try:
            with mock.patch("socket.socket", Taken), contextlib.suppress(StopIteration):
                children.free_port()
        except Failure as failure:
            said = str(failure)
        self.expect(
            "what is said",
            said,
            "no free port from 20000 to 31999: their names openlink-port-N are taken, as `ss -xl` "
            "shows, or something listens at each",
        )
        self.expect("each name is tried once", (len(tried), len(set(tried))), (12_000, 12_000))
        port = children.free_port()
        self.expect(f"a free port, {port}", 20_000 <= port < 32_000 and not children.is_open(port))
        self.expect("no port is given twice", children.free_port() != port)

    def test_a_port_in_use(self) -> None:
        """It is not given, though nobody has its name."""
        with socket.create_server(("127.0.0.1", 0)) as server:
            port = server.getsockname()[1]
            with mock.patch.object(children, "_PORTS", range(port, port + 1)):
                self.expect("what is said", reason(children.free_port)[:13], "no free port ")
