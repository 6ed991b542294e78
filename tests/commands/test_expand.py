"""Templates given to `expand`: what they expand to, and why they are refused."""
from fixtures.program import ProgramCase

NAMED = "v=6&empty=&who=fred"
PATHS = "hello=Hello+World%21&path=/foo/bar&empty="
COLOURS = "list=red&list=green&list=blue&path=/foo/bar"
AUTHORS = "rft.au=Smith%2C+J&rft.au=Li"

# A template, a query, and the expansion.
PLAIN = [
    ("{hello}", "hello=Hello+World%21", "Hello%20World%21"),
    ("a{y}b", "x=1", "ab"),
    ("é/{x}", "x=1", "%C3%A9/1"),
    ("{x}", "x=1&x=2", "1"),
    ("?{x,empty}", "x=1024&empty=", "?1024,"),
    ("?{x,empty}", "x=1024", "?1024"),
    ("?{x,empty}", "", "?"),
    ("", "x=1", ""),
]
OPERATORS = [
    ("{;v,empty,who}", NAMED, ";v=6;empty;who=fred"),
    ("{?v,empty}", NAMED, "?v=6&empty="),
    ("{+hello}", PATHS, "Hello%20World!"),
    ("{+path:6}here", PATHS, "/foo/bhere"),
    ("X{.empty}", PATHS, "X."),
    ("foo{#empty}", PATHS, "foo#"),
]
PREFIXES = [
    ("{+p}", "p=%2541%254", "%41%254"),
    ("{+p:2}", "p=%2541%2542%2543", "%41%42"),
    ("{p:2}", "p=%2541%2542%2543", "%254"),
    ("{v:1}", "v=%C3%A9a", "%C3%A9"),
]
LISTS = [
    ("{list}", COLOURS, "red"),
    ("{?rft.au*}", AUTHORS, "?rft.au=Smith%2C%20J&rft.au=Li"),
    ("{;rft.au}", "rft.au=", ";rft.au="),
    ("{;rft.au*}", "rft.au=", ";rft.au"),
    ("{rft.au*}/{rft_id}", "rft.au=a&rft_id=b&rft.au=c", "a,c/b"),
]
# With `--list list`.
DECLARED = [
    ("{/list*,path:4}", COLOURS, "/red/green/blue/%2Ffoo"),
    ("{;list*}", COLOURS, ";list=red;list=green;list=blue"),
    ("{list:3}", COLOURS, ""),
]

# A template, a query, and the error.
REFUSED = [
    ("{a b}", "", "template: BadName at 1"),
    ("x{+}", "", "template: BadName at 3"),
    ("{a", "", "template: Unclosed at 0"),
    ("{}", "", "template: EmptyExpression at 0"),
    ("{=a}", "", "template: ReservedOperator at 1"),
    ("{a:0}", "", "template: BadModifier at 2"),
    ("a}", "", "template: BadLiteral at 1"),
    # The template's error comes before the query's.
    ("{a", "ctx_ver=1", "template: Unclosed at 0"),
    ("{x}", "ctx_ver=Z39.88-2005&x=1", "query: WrongVersion"),
    ("a" * 8193, "", "template: TooLong at 8192"),
]

# Arguments after `expand` that are not its own.
OTHER_ARGUMENTS = [
    [],
    ["{x}"],
    ["{x}", "x=1", "y"],
    ["--list", "a", "b"],
    ["--list", "x=1"],
]


def expands(program, rows, *options):
    for template, query, expansion in rows:
        program.prints(["expand", *options, template, query], expansion)


class ExpandCommand(ProgramCase):
    def test_plain_names(self):
        expands(self.program, PLAIN)

    def test_operators(self):
        expands(self.program, OPERATORS)

    def test_prefixes_cut_at_items(self):
        expands(self.program, PREFIXES)

    def test_lists(self):
        expands(self.program, LISTS)
        expands(self.program, DECLARED, "--list", "list")
        expands(self.program, [("{a}{b*}", "b=2&a=1&a=1", "1,12")], "--list", "a", "--list", "b")

    def test_a_long_value(self):
        expands(self.program, [("{x}", "x=" + "+" * 40_000, "%20" * 40_000)])

    def test_refusals(self):
        for template, query, fault in REFUSED:
            self.program.fails(["expand", template, query], 3, fault)

    def test_other_arguments(self):
        for arguments in OTHER_ARGUMENTS:
            self.program.fails(["expand", *arguments], 2, "usage")
