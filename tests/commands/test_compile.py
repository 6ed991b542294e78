"""Rule files given to `compile`: their code, and why they have none."""
from fixtures.program import ProgramCase

# Rules, the code's path, the status and the error.
REFUSED = [
    ("long.rules", "code", 3, "compile: TooManyInstructions"),
    ("bad.rules", "code", 3, "rules: line 2: Template Unclosed"),
    ("none.rules", "code", 4, "device: none.rules"),
    ("good.rules", "no/such.olk", 4, "device: no/such.olk"),
]


class CompileCommand(ProgramCase):
    def test_rules_become_code(self):
        self.program.write("issn.rules", "rule\nlink http://e.org/{rft.issn}\n")
        self.program.write("issn.olk", "what stood there")
        self.program.prints(["compile", "issn.rules", "issn.olk"], "127 bytes")
        self.program.prints(["upgrade", "issn.olk", "issn2.olk"], "127 bytes")
        for code, version in ("issn.olk", b"OLK1"), ("issn2.olk", b"OLK2"):
            self.program.prints(["run", code, "rft.issn=1234-5678"], "http://e.org/1234-5678")
            self.program.expect(f"the beginning of {code}", self.program.read(code)[:4], version)
        self.program.expect("issn.olk.new exists", self.program.has("issn.olk.new"), False)

    def test_refusals(self):
        self.program.write("long.rules", "rule\nlink " + "{a}" * 585)
        self.program.write("bad.rules", "rule\nlink {a\n")
        self.program.write("good.rules", "rule\nlink a\n")
        for rules, code, status, fault in REFUSED:
            self.program.fails(["compile", rules, code], status, fault)
        self.program.fails(["compile", "good.rules"], 2, "usage")
        self.program.expect("code exists", self.program.has("code"), False)
