"""Code files given to `upgrade`: version 2 of them, and what stays where there is none."""
import os

from fixtures.assembler import LIST_FILE
from fixtures.program import ProgramCase

# The old path, the new one, the status and the error.
REFUSED = [
    ("no.olk", "kept.olk", 3, "code: BadMagic at 0"),
    ("none.olk", "kept.olk", 4, "device: none.olk"),
    ("kept.olk", "no/such.olk", 4, "device: no/such.olk"),
    ("kept.olk", "folder", 4, "device: folder"),
    ("kept.olk", "taken.olk", 4, "device: taken.olk"),
]


class UpgradeCommand(ProgramCase):
    def test_version_2(self):
        self.program.write("old.olk", LIST_FILE)
        self.program.write("new.olk", "what stood there")
        # The second time a file is upgraded into its own place.
        for old in "old.olk", "new.olk":
            self.program.prints(["upgrade", old, "new.olk"], "68 bytes")
            self.program.expect("new.olk", self.program.read("new.olk"), b"OLK2" + LIST_FILE[4:])
            self.program.expect("new.olk.new exists", self.program.has("new.olk.new"), False)
            self.program.prints(["verify", "new.olk"], "ok\nsteps 3 + 3*M\nbytes 0 + 1*M + 3*E + 0*M*E")
        self.program.expect("old.olk", self.program.read("old.olk"), LIST_FILE)

    def test_what_stands_there_stays(self):
        self.program.write("kept.olk", LIST_FILE)
        self.program.write("no.olk", "no code")
        self.program.write("taken.olk.new", "another's")
        os.mkdir(f"{self.program.folder}/folder")
        for old, new, status, fault in REFUSED:
            self.program.fails(["upgrade", old, new], status, fault)
        self.program.expect("kept.olk", self.program.read("kept.olk"), LIST_FILE)
        self.program.expect("taken.olk.new", self.program.read("taken.olk.new"), b"another's")
        for name in "folder.new", "taken.olk":
            self.program.expect(f"{name} exists", self.program.has(name), False)

    def test_other_arguments(self):
        self.program.fails(["upgrade", "a.olk"], 2, "usage")
