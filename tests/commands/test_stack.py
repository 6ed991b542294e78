"""Commands on large inputs with a stack of 256 KiB, the bytes of the arguments among them: all end as with a larger
one."""
import resource

from fixtures.assembler import HALT
from fixtures.program import ProgramCase

STACK = 256 * 1024
IDENTIFIER = "2049-3630"


def small_stack():
    resource.setrlimit(resource.RLIMIT_STACK, (STACK, resource.getrlimit(resource.RLIMIT_STACK)[1]))


def large_rules():
    """Five hundred rules, and one with a long link."""
    rules = "".join(f'rule\nwhen rft.volume is "{n}"\nlink http://e.org/{n}\n' for n in range(500))
    link = "link http://e.org/" + "{rft.issn}" * 10 + "\n"
    return rules + "rule\nwhen given rft.issn\n" + link


def large_query():
    """4,096 pairs in less than 65,536 bytes."""
    return f"rft.issn={IDENTIFIER}&" + "&".join(["rft.au=Li"] * 4095)


class SmallStack(ProgramCase):
    def test_small_stack(self):
        self.program.write("RULES", large_rules())
        self.program.write("EMPTY", HALT)
        table = "publication_title\tprint_identifier\n" + f"Title\t{IDENTIFIER}\n" * 2000
        self.program.write("TABLE", table)
        self.program.run(["compile", "RULES", "CODE"])
        self.program.write("REGISTRY", "".join(f"t{n}\t{'CODE' if n % 2 else 'EMPTY'}\tTABLE\n" for n in range(32)))
        query = large_query()
        link = "http://e.org/" + IDENTIFIER * 10 + "\n"
        with_small = {"preexec_fn": small_stack}
        menu = "".join(f"t{n}\t{link}" for n in range(32) if n % 2)
        expected = {
            ("link", "RULES", query): (0, link.encode(), b""),
            ("resolve", "REGISTRY", query): (0, menu.encode(), b""),
            ("find", "REGISTRY", query): (0, menu.encode(), b""),
        }
        for arguments, end in expected.items():
            self.program.expect(f"{arguments[0]} with a small stack", self.program.run([*arguments], **with_small), end)
        reviews = ["inspect", "TABLE"], ["lint", "RULES", "TABLE"], ["explain", "RULES", "TABLE", query]
        on_code = ["verify", "CODE"], ["show", "CODE"], ["upgrade", "CODE", "NEW"], ["run", "CODE", query]
        others = ["compile", "RULES", "AGAIN"], ["read", query], ["expand", "{rft.au*}", query]
        for arguments in *reviews, *on_code, *others:
            usual = self.program.run(arguments)
            self.program.expect(
                f"{arguments[0]} as with a large stack", self.program.run(arguments, **with_small), usual
            )
            self.program.expect(f"{arguments[0]} ends itself", usual[0] in (0, 1))
