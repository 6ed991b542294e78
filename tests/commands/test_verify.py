"""Code files given to `verify`: the bounds of those that are accepted, and why others are refused."""
from fixtures.assembler import LIST_FILE, code
from fixtures.program import ProgramCase

# Prints the text of `x`, whether it is defined or not.
UNGUARDED = code([("text", "x")], [], "TEXT r2 n0, PUT r2 u, HALT")
# Prints the text of `x` if it is defined.
GUARDED = code([("text", "x")], [], "TEXT r2 n0, UNDEF r2 3, PUT r2 u, HALT")


class VerifyCommand(ProgramCase):
    def test_bounds(self):
        self.program.write("list.olk", LIST_FILE)
        self.program.write("guarded.olk", GUARDED)
        self.program.prints(["verify", "list.olk"], "ok\nsteps 3 + 3*M\nbytes 0 + 1*M + 3*E + 0*M*E")
        self.program.prints(["verify", "guarded.olk"], "ok\nsteps 4 + 0*M\nbytes 0 + 0*M + 3*E + 0*M*E")

    def test_refusals(self):
        self.program.write("short.olk", LIST_FILE[:-1])
        self.program.write("unguarded.olk", UNGUARDED)
        self.program.fails(["verify", "unguarded.olk"], 3, "load: KindMismatch at 1, r2")
        self.program.fails(["verify", "short.olk"], 3, "load: Truncated at 67")
        self.program.fails(["verify", "no/such.olk"], 4, "device: no/such.olk")
        self.program.fails(["verify"], 2, "usage")
        self.program.fails(["verify", "a", "b"], 2, "usage")
