"""Names in code files: 1 to 255 bytes from `!` to `~`; a name may come twice."""
from fixtures.assembler import code
from fixtures.program import ProgramCase

# The bytes that a name may have.
ALLOWED = range(0x21, 0x7F)


def named(*names):
    return code([("text", name) for name in names], [], "HALT")


class NamesInCode(ProgramCase):
    def test_bytes_of_names(self):
        names = [bytes([byte]) for byte in ALLOWED]
        self.program.write("code", named(*names))
        lines = [b"name %d text %s" % entry for entry in enumerate(names)]
        self.program.prints(
            ["show", "code"], b"\n".join([b"OLK1 names 94 literals 0 instructions 1", *lines, b"0 HALT"])
        )
        self.program.prints(["verify", "code"], "ok\nsteps 1 + 0*M\nbytes 0 + 0*M + 0*E + 0*M*E")

    def test_all_other_bytes(self):
        """The byte's place is named, for a name's first byte and for its last, in both kinds of names."""
        for byte in range(256):
            if byte in ALLOWED:
                continue
            # A name begins after the magic, the three counts, its kind and its length.
            for kind, name, place in [("text", bytes([byte]), 12), ("list", b"ab" + bytes([byte]), 14)]:
                self.program.write("code", code([(kind, name)], [], "HALT"))
                self.program.fails(["show", "code"], 3, f"code: BadName at {place}")

    def test_other_commands(self):
        """The same error from each command that reads a code file."""
        self.program.write("code", named("a", "b\x7f"))
        self.program.fails(["verify", "code"], 3, "load: BadName at 16")
        self.program.fails(["run", "code", ""], 3, "load: BadName at 16")
        self.program.fails(["upgrade", "code", "new"], 3, "code: BadName at 16")
        self.program.expect("a new code", self.program.has("new"), False)

    def test_lengths(self):
        self.program.write("code", named("!" * 255, "~" * 255))
        listing = f"OLK1 names 2 literals 0 instructions 1\nname 0 text {'!' * 255}\nname 1 text {'~' * 255}\n0 HALT"
        self.program.prints(["show", "code"], listing)
        self.program.write("code", named("a", "", " "))
        self.program.fails(["show", "code"], 3, "code: BadName at 14")

    def test_names_that_come_twice(self):
        """Each entry of the name reads the query, which has two values: as a list both, as a text none."""
        names = [("list", "x"), ("list", "x"), ("text", "x"), ("text", "x")]
        for entry in (0, 1):
            loop = f"LIST r0 n{entry}, EACH r1 r0 5, SEP l0, PUT r1 u, NEXT, HALT"
            self.program.write("code", code(names, [("link", ",")], loop))
            self.program.prints(["run", "code", "x=a&x=b"], "a,b")
        for entry in (2, 3):
            self.program.write("code", code(names, [], f"TEXT r0 n{entry}, UNDEF r0 3, PUT r0 u, HALT"))
            self.program.prints(["run", "code", "x=a&x=b"], "")
        self.program.write("code", code(names, [], "HALT"))
        lines = [f"name {at} {kind} {name}" for at, (kind, name) in enumerate(names)]
        self.program.prints(["show", "code"], "\n".join(["OLK1 names 4 literals 0 instructions 1", *lines, "0 HALT"]))
