"""The port of a service: which it takes and from when on; and connections that cannot be accepted."""
import errno
import os
import random
import resource
import socket
import subprocess

from commands.test_connections import NOT_FOUND, REQUEST, connect, rest
from fixtures.patience import patience, wait_until
from fixtures.program import PATH, ProgramCase
from fixtures.system_calls import ACCEPT, Watch
from fixtures.targets import write_alpha

# The system itself gives out no port from here on.
HIGH = 61_001


def server_at(port):
    return socket.create_server(("127.0.0.1", port))


def free_port():
    """A port from HIGH on that nobody has."""
    while True:
        port = random.randint(HIGH, 65_535)
        try:
            server_at(port).close()
            return port
        except OSError:
            continue


class Serving:
    """`serve registry PORT COUNT`, which is stopped at the end if it has not ended."""

    def __init__(self, program, port, count, **how):
        self.program, self.port = program, port
        pipe = subprocess.PIPE
        how = {"cwd": program.folder, "stdin": subprocess.DEVNULL, "stdout": pipe, "stderr": pipe, **how}
        self.process = subprocess.Popen([PATH, "serve", "registry", str(port), str(count)], **how)

    def __enter__(self):
        return self

    def __exit__(self, *_):
        if self.process.poll() is None:
            self.process.kill()
        self.process.communicate()

    def ends(self, what, status, printed, errors):
        try:
            given = self.process.communicate(timeout=patience(30))
            self.program.expect(what, (self.process.returncode, *given), (status, printed, errors))
        except subprocess.TimeoutExpired:
            self.program.differ(f"{what}: it does not end")

    def reply(self):
        """What a peer gets, or why it gets nothing."""
        try:
            with connect(self) as peer:
                peer.sendall(REQUEST)
                return rest(peer)
        except OSError as fault:
            return fault


def opened_for_writing(path):
    """The FIFO, once another process waits for what is written to it; None until then."""
    try:
        return os.open(path, os.O_WRONLY | os.O_NONBLOCK)
    except OSError as error:
        if error.errno != errno.ENXIO:
            raise
        return None


def is_free(port):
    """Whether nobody listens at the port, and nobody has it."""
    with socket.socket() as peer:
        if peer.connect_ex(("127.0.0.1", port)) != errno.ECONNREFUSED:
            return False
    try:
        server_at(port).close()
    except OSError:
        return False
    return True


class Ports(ProgramCase):
    def test_high_ports(self):
        """A port above those that the system gives out is like any other."""
        write_alpha(self.program)
        port = free_port()
        with server_at(port):
            self.program.fails(["serve", "registry", str(port), "1"], 4, f"device: 127.0.0.1:{port}")
        with Serving(self.program, port, 1) as service:
            line = service.process.stdout.readline()
            self.program.expect("where the service listens", line, f"listening 127.0.0.1:{port}\n".encode())
            self.program.expect("the reply", service.reply(), NOT_FOUND)
            service.ends("a service at a high port", 0, b"", b"openlink: 1 replied, 0 silent, 0 failed\n")

    def test_the_port_is_taken_after_the_registry(self):
        """While the service waits for the registry or a file of a target, the port is free, also if the file is
        rejected then."""
        write_alpha(self.program)
        for name in "registry", "0.olk", "0.tsv":
            content = self.program.read(name)
            for given, status in (content, 0), (b"\xff", 3):
                os.remove(f"{self.program.folder}/{name}")
                os.mkfifo(f"{self.program.folder}/{name}")
                with Serving(self.program, free_port(), 1) as service:
                    fifo = wait_until(lambda: opened_for_writing(f"{self.program.folder}/{name}"))
                    self.program.expect(f"the port is free before {name} is read", is_free(service.port))
                    os.write(fifo, given)
                    os.close(fifo)
                    line = service.process.stdout.readline()
                    listening = f"listening 127.0.0.1:{service.port}\n".encode() if status == 0 else b""
                    self.program.expect("where the service listens", line, listening)
                    if status == 0:
                        self.program.expect("the reply", service.reply(), NOT_FOUND)
                    wait_until(lambda: service.process.poll() is not None)
                    self.program.expect(f"the status after {name}", service.process.returncode, status)
            os.remove(f"{self.program.folder}/{name}")
            self.program.write(name, content)

    def test_no_descriptor_is_left(self):
        """A connection that cannot be accepted ends the service: it is not one of the connections that are counted."""
        write_alpha(self.program)

        def limit():
            # Standard input, output and errors, and the listener.
            resource.setrlimit(resource.RLIMIT_NOFILE, (4, 4))

        port = free_port()
        with Serving(self.program, port, 3, preexec_fn=limit) as service:
            listening, fault = f"listening 127.0.0.1:{port}\n", f"openlink: device: 127.0.0.1:{port}\n"
            service.ends("a service without a descriptor", 4, listening.encode(), fault.encode())

    def test_no_second_attempt_to_accept(self):
        """The service ends at the first connection that cannot be accepted, even if another attempt would succeed."""
        write_alpha(self.program)
        port = free_port()
        with Watch(ACCEPT, fails_first=True) as watch, Serving(self.program, port, 1, **watch.how) as service:
            wait_until(lambda: service.process.poll() is not None or len(watch.times) > 1)
            self.program.expect("the attempts to accept", len(watch.times), 1)
            if service.process.poll() is not None:
                listening, fault = f"listening 127.0.0.1:{port}\n", f"openlink: device: 127.0.0.1:{port}\n"
                service.ends("a service that cannot accept once", 4, listening.encode(), fault.encode())
