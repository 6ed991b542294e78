"""Code files given to `run`: the links of those that are accepted, and why others are refused."""
from commands.test_verify import UNGUARDED
from fixtures.assembler import FAIL, HALT, LIST_FILE, TWENTY_TEXTS
from fixtures.program import ProgramCase


class RunCommand(ProgramCase):
    def test_links(self):
        self.program.write("members.olk", LIST_FILE)
        self.program.write("halt.olk", HALT)
        self.program.write("fail.olk", FAIL)
        self.program.prints(["run", "members.olk", "list=red&list=green&list=blue"], "red,green,blue")
        self.program.prints(["run", "members.olk", ""], "")
        self.program.prints(["run", "halt.olk", "x=1"], "")
        self.program.finds_no_link(["run", "fail.olk", "x=1"])

    def test_refusals(self):
        self.program.write("wild.olk", UNGUARDED)
        self.program.write("good.olk", LIST_FILE)
        # The code's error comes before the query's.
        self.program.fails(["run", "wild.olk", "ctx_ver=Z39.88-2005"], 3, "load: KindMismatch at 1, r2")
        self.program.fails(["run", "good.olk", "ctx_ver=Z39.88-2005"], 3, "query: WrongVersion")
        self.program.fails(["run", "no/code.olk", ""], 4, "device: no/code.olk")
        self.program.fails(["run", "good.olk"], 2, "usage")
        self.program.fails(["run", "good.olk", "", ""], 2, "usage")

    def test_a_link_that_might_be_too_long(self):
        # Each of the 20,000 bytes might be written as three.
        self.program.write("twenty.olk", TWENTY_TEXTS)
        self.program.fails(["run", "twenty.olk", "x=" + "a" * 20_000], 3, "over budget: 1200000")
