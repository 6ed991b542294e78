"""Registry files and the files of their targets: the first error, sizes up to their limits, and keys for the tables."""
from fixtures.assembler import FAIL
from fixtures.program import ProgramCase
from fixtures.service import expect_replies, reply_of, request_of
from fixtures.system_calls import RANDOM, without

PATH = "registry.txt"

# The files of targets, and the line of a target with such files.
FILES = [("a code.olk", FAIL), ("table.txt", "title_url\nhttp://e.org/a\n"), ("bad.txt", b"\xff")]
LINE = b"alpha\ta code.olk\ttable.txt\n"


def write_files(program, registry=LINE):
    for name, content in FILES + [(PATH, registry)]:
        program.write(name, content)


def resolves(program, status, fault):
    """How `resolve` ends; no target has a link."""
    if status == 1:
        program.finds_no_link(["resolve", PATH, ""])
    else:
        program.fails(["resolve", PATH, ""], status, fault)


# A registry file, the status, and its first error; status 1 where it has none.
FIRST_FAULTS = [
    (LINE, 1, ""),
    (LINE + b"\nbeta\n", 3, "registry: line 2"),
    (b"alpha\ta code.olk\tnone.txt\nbeta\n", 4, "target alpha: device: none.txt"),
    (b"alpha\tnone.olk\tnone.txt\n", 4, "target alpha: device: none.olk"),
    (b"alpha\t a code.olk\ttable.txt\n", 4, "target alpha: device:  a code.olk"),
    (b"alpha\ttable.txt\tbad.txt\n", 3, "target alpha: load: BadMagic at 0"),
    (b"alpha\ta code.olk\tbad.txt\n", 3, "target alpha: table: NotUtf8"),
    (LINE + b"alpha\tbad.txt\tbad.txt\n", 3, "target alpha: load: BadMagic at 0"),
    (LINE + LINE, 3, "target alpha: BadTargetName"),
    (LINE + b"beta\ta code.olk\ttable.txt\n" * 2, 3, "target beta: BadTargetName"),
    (b"alpha\ta code.olk\ttable.txt\t\n", 3, "registry: line 1"),
    (b"alph\xff\ta code.olk\ttable.txt\n", 3, "registry: line 1"),
    (b"\xef\xbb\xbfalpha\ta code.olk\tbad.txt\r\n", 3, "target alpha: table: NotUtf8"),
]

# A file, how many bytes of which kind it has, the status, and the error.
SIZES = [
    (PATH, 65_536, b"\n", 1, ""),
    (PATH, 65_537, b"\n", 3, "registry: line 0"),
    ("a code.olk", 65_536, b"\0", 3, "target alpha: load: BadMagic at 0"),
    ("a code.olk", 65_537, b"\0", 3, "target alpha: load: TooLong at 65536"),
    ("table.txt", 16_777_217, b"a", 3, "target alpha: table: TooLong"),
]

# The code and the table of a 257th target, and its error: the number of targets is checked last.
LAST_TARGETS = [
    ("table.txt", "bad.txt", "load: BadMagic at 0"),
    ("a code.olk", "bad.txt", "table: NotUtf8"),
    ("a code.olk", "table.txt", "Full"),
]

# A registry file, the status, and the error where the system gives no random numbers.
WITHOUT_KEYS = [
    (LINE, 4, f"device: {PATH}"),
    (b"", 4, f"device: {PATH}"),
    # The keys are drawn once the file has been read, and before its lines are.
    (b"alpha\n", 4, f"device: {PATH}"),
    (b"\n" * 65_536, 4, f"device: {PATH}"),
    (b"\n" * 65_537, 3, "registry: line 0"),
]


class RegistryFiles(ProgramCase):
    def test_the_first_fault(self):
        for registry, status, fault in FIRST_FAULTS:
            write_files(self.program, registry)
            resolves(self.program, status, fault)

    def test_no_registry(self):
        write_files(self.program)
        self.program.fails(["resolve", "none.txt", ""], 4, "device: none.txt")

    def test_a_last_line_needs_no_end(self):
        lines = LINE + b"beta\ta code.olk\ttable.txt\n"
        for registry in (lines, lines[:-1]):
            write_files(self.program, registry)
            self.program.write("registry", registry)
            resolves(self.program, 1, "")
            expect_replies(self.program, [(request_of("/report"), reply_of(200, "alpha\tno row\nbeta\tno row\n"))])

    def test_sizes(self):
        for name, count, byte, status, fault in SIZES:
            write_files(self.program)
            self.program.write(name, byte * count)
            resolves(self.program, status, fault)

    def test_a_257th_target_is_read_before_it_is_refused(self):
        lines = "".join(f"t{number}\ta code.olk\ttable.txt\n" for number in range(256))
        for code, table, fault in LAST_TARGETS:
            write_files(self.program, f"{lines}t256\t{code}\t{table}")
            resolves(self.program, 3, f"target t256: {fault}")

    def test_the_system_gives_no_keys(self):
        for registry, status, fault in WITHOUT_KEYS:
            write_files(self.program, registry)
            given = self.program.run(["resolve", PATH, ""], **without(RANDOM))
            self.program.expect(
                f"{str(registry)[:40]} without keys", given, (status, b"", f"openlink: {fault}\n".encode())
            )
