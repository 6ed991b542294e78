"""In how many calls the program writes: a text, a file and each part of a reply in one."""
import os
import subprocess

from commands.test_connections import LONG_REQUEST, write_long
from commands.test_files import largest_code
from fixtures.program import PATH, ProgramCase
from fixtures.service import Service
from fixtures.system_calls import SEND, Watch

# A system that takes only a part of the bytes may be called again.
FEW = 4


def writes_of(program, arguments):
    """What the program prints, and how many writes it has made."""
    how = {"cwd": program.folder, "stdin": subprocess.DEVNULL, "stdout": subprocess.PIPE}
    with subprocess.Popen([PATH, *arguments], **how) as process:
        printed = process.stdout.read()
        # Its counts stay until somebody takes its status.
        os.waitid(os.P_PID, process.pid, os.WEXITED | os.WNOWAIT)
        with open(f"/proc/{process.pid}/io", encoding="ascii") as file:
            counts = dict(line.split(": ") for line in file)
    return printed, int(counts["syscw"])


class Writes(ProgramCase):
    def test_a_text(self):
        text = "x" * 60_000
        printed, count = writes_of(self.program, ["expand", "{x}", f"x={text}"])
        self.program.expect("what it prints", printed.decode() == text + "\n")
        self.program.expect(f"{count} writes of a text, which are few", count <= FEW)

    def test_a_file(self):
        """The file and the line that is printed are two writes."""
        self.program.write("largest.olk", largest_code())
        printed, count = writes_of(self.program, ["upgrade", "largest.olk", "new.olk"])
        self.program.expect("what it prints", printed, b"65536 bytes\n")
        self.program.expect("the length of the file", len(self.program.read("new.olk")), 65_536)
        self.program.expect(f"{count} writes of a file, which are few", count <= 2 * FEW)

    def test_a_reply(self):
        """The line of the service, and the head and the body of the reply."""
        page = write_long(self.program, 1)
        with Watch(SEND) as watch, Service(self.program, 1, **watch.how) as service:
            self.program.expect("the page", service.reply(LONG_REQUEST) == page)
        count = len(watch.times)
        self.program.expect(f"{count} writes of a service, which are few", 3 <= count <= 3 * FEW)
