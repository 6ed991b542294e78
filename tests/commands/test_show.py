"""Code files given to `show`: their listings, and why they have none."""
from fixtures.assembler import LIST_FILE
from fixtures.program import ProgramCase

LIST_LINES = """\
OLK1 names 1 literals 1 instructions 6
name 0 list list
literal 0 link ","
0 LIST r0 n0
1 EACH r1 r0 5
2 SEP l0
3 PUT r1 u
4 NEXT
5 HALT"""


class ShowCommand(ProgramCase):
    def test_a_listing(self):
        self.program.write("list.olk", LIST_FILE)
        self.program.prints(["show", "list.olk"], LIST_LINES)

    def test_refusals(self):
        self.program.write("short.olk", LIST_FILE[:-1])
        self.program.fails(["show", "short.olk"], 3, "code: Truncated at 67")
        self.program.fails(["show", "no/such.olk"], 4, "device: no/such.olk")
        self.program.fails(["show"], 2, "usage")
        self.program.fails(["show", "a", "b"], 2, "usage")
