"""Arguments: very many, paths with spaces at their ends, those that are not UTF-8, and memory that does not hold
them."""
import resource

from fixtures import needs
from fixtures.assembler import HALT
from fixtures.program import PATH, ProgramCase

# A path with one of these at its end is another path.
ENDS = (" ", "  ", "\t", "\n", ".")

# Arguments of 1.6 million bytes, which are no command.
LONG_ARGUMENTS = ["x" * 100_000] * 16
STEP = 65_536


class Arguments(ProgramCase):
    def test_many_arguments(self):
        """None is lost: each `--list` counts, and the template and the query come after all of them."""
        for count in 40, 1_000:
            names = [f"a{number}" for number in range(count)]
            options = [word for name in names for word in ("--list", name)]
            query = "&".join(f"{name}=x&{name}=y" for name in names)
            template = ";".join(f"{{{name}}}" for name in names)
            self.program.prints(["expand", *options, template, query], ";".join(["x,y"] * count))
            # Without the last option its name is that of a text, which has the first value.
            self.program.prints(["expand", *options[:-2], template, query], ";".join(["x,y"] * (count - 1) + ["x"]))
            self.program.fails(["show", *names], 2, "usage")

    def test_ends_of_paths(self):
        self.program.write("a.rules", "rule\nlink http://e.org/\n")
        for end in ENDS:
            for name in f"code{end}", f"{end}code":
                self.program.write(name, HALT)
                self.program.prints(["run", name, ""], "")
                self.program.fails(["run", "code", ""], 4, "device: code")
                self.program.write(name, "no code")
                self.program.expect(f"compiling to {name!r}", self.program.run(["compile", "a.rules", name])[0], 0)
                self.program.expect(f"the file {name!r}", (self.program.read(name) or b"")[:4], b"OLK1")
                self.program.expect("the path without the end", self.program.has("code"), False)

    def test_arguments_that_are_not_utf8(self):
        """The path of the program is one of them."""
        usage = (2, b"", b"openlink: usage\n")
        cases = [(PATH, b"\xff"), (PATH, "run", b"\xff", ""), (b"\xff", "--version"), (b"\xe4/x", "help")]
        for name, *arguments in cases:
            self.program.expect(f"{name} {arguments}", self.program.run(arguments, name=name), usage)

    @needs.limits_of_addresses()
    def test_memory_that_does_not_hold_the_arguments(self):
        """With a little less memory than suffices for an unknown command, it runs out."""

        def given_with(pages):
            def limit():
                resource.setrlimit(resource.RLIMIT_AS, (pages * STEP, pages * STEP))

            return self.program.run(LONG_ARGUMENTS, preexec_fn=limit)

        usage = (2, b"", b"openlink: usage\n")
        too_few, enough = 0, 2**26 // STEP
        self.program.expect("an unknown command", given_with(enough), usage)
        while enough - too_few > 1:
            middle = (too_few + enough) // 2
            if given_with(middle) == usage:
                enough = middle
            else:
                too_few = middle
        self.program.expect("the same with less memory", given_with(too_few), (4, b"", b"openlink: out of memory\n"))
