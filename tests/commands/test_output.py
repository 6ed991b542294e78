"""Standard output and standard error that fail, after some bytes or at once."""
import os
import resource
import signal

from fixtures.program import ProgramCase

HELLO = ["expand", "{hello}", "hello=Hello+World%21"]
LINE = b"Hello%20World%21\n"
DEVICE = b"openlink: device: -\n"

# How many bytes the output takes before it fails, the status and the error. The line has 17 bytes.
ROOMS = [
    (0, 4, DEVICE),
    (3, 4, DEVICE),
    (16, 4, DEVICE),
    (17, 0, b""),
]


def run_into(program, path, room, stream, arguments):
    """Runs the program with a file of at most `room` bytes as its standard output (1) or standard error (2)."""

    def replace():
        os.dup2(file.fileno(), stream)
        signal.signal(signal.SIGXFSZ, signal.SIG_IGN)
        resource.setrlimit(resource.RLIMIT_FSIZE, (room, room))

    with open(path, "wb") as file:
        return program.run(arguments, preexec_fn=replace)


class Output(ProgramCase):
    def test_output_fails_within_the_line(self):
        for room, status, fault in ROOMS:
            given = run_into(self.program, f"{self.program.folder}/narrow", room, 1, HELLO)
            self.program.expect(f"an output of {room} bytes", given, (status, b"", fault))
            self.program.expect(f"its first {room} bytes", self.program.read("narrow"), LINE[:room])

    def test_errors_fail_too(self):
        given = run_into(self.program, f"{self.program.folder}/narrow", 3, 2, [])
        self.program.expect("errors of 3 bytes", given, (2, b"", b""))
        self.program.expect("the 3 bytes", self.program.read("narrow"), b"ope")

    def test_a_device_that_is_full(self):
        self.program.expect("a full output", run_into(self.program, "/dev/full", 17, 1, HELLO), (4, b"", DEVICE))
        self.program.expect("full errors", run_into(self.program, "/dev/full", 17, 2, []), (2, b"", b""))

    def test_a_service_ends_if_its_output_fails(self):
        """It waits for no connection if nobody can read where it listens."""
        self.program.write("registry", "")
        given = run_into(self.program, "/dev/full", 17, 1, ["serve", "registry", "0", "1"])
        self.program.expect("a service with a full output", given, (4, b"", DEVICE))
