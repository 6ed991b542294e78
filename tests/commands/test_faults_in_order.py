"""Which of several errors of a template or a rule file is named: the first from the left, that of the first line."""
from fixtures.program import ProgramCase

# Templates, and their first error from the left.
TEMPLATES = [
    ("{a{b}", "BadName at 1"),
    ("{a b,c:0}", "BadName at 1"),
    ("{a:0,b c}", "BadModifier at 2"),
    ("}" + "a" * 8192, "TooLong at 8192"),
    ("}" + "a" * 8191, "BadLiteral at 0"),
    ("{" + "a" * 8192, "TooLong at 8192"),
    ("{" + "a" * 8191, "Unclosed at 0"),
    ("a{b}{c d}}", "BadName at 5"),
    ("a}{b c}", "BadLiteral at 1"),
    ("{}{=a}", "EmptyExpression at 0"),
    ("{=a}{}", "ReservedOperator at 1"),
    ("{=a b}", "ReservedOperator at 1"),
    ("{a,b c,d:0}", "BadName at 3"),
    ("{a,b:0,c d}", "BadModifier at 4"),
    ("{a:0", "Unclosed at 0"),
    ("{a b", "Unclosed at 0"),
    ("{a}{", "Unclosed at 3"),
    ("{ a:0}", "BadName at 1"),
    ("{a :0}", "BadName at 1"),
    ("{a:0 b}", "BadModifier at 2"),
    ("{a* b}", "BadModifier at 2"),
    ("{+a b}", "BadName at 2"),
    ("{{a}", "BadName at 1"),
    ("{{a}}", "BadName at 1"),
    ("{a}}", "BadLiteral at 3"),
    ("é{a b}", "BadName at 3"),
    ("{,a}", "ReservedOperator at 1"),
    ("{a,}", "BadName at 3"),
    ("{,}", "ReservedOperator at 1"),
    ("a b{", "BadLiteral at 1"),
    ("%{a}", "BadLiteral at 0"),
    ("{" + "a" * 256 + ":0}", "BadName at 1"),
    ("{" + "a" * 255 + ":0}", "BadModifier at 256"),
]

# Lines of rule files, and their first error.
RULES = [
    (["rule", "list x"], "line 2: BadLine"),
    (["rule", "link a", "list x"], "line 3: BadLine"),
    (["rule", "link a", "link b"], "line 3: BadLine"),
    (["rule", "link a", "when has x"], "line 3: BadLine"),
    (["rule", "when has x", "rule", "link a"], "line 1: NoLink"),
    (["rule", "", "# a", "list x"], "line 4: BadLine"),
    (["rule", "link a", "rule", "link b", "link c"], "line 5: BadLine"),
    (["rule", "link {a", "link b"], "line 2: Template Unclosed"),
    (["link a"], "line 1: BadLine"),
    (["list x", "link a"], "line 2: BadLine"),
    (["list x", "rule", "list y", "rule"], "line 3: BadLine"),
    (["rule", 'when x holds "a"', "list x"], "line 2: KindMismatch"),
    (["rule", "when has", 'when x holds "a"', "link {a"], "line 2: BadLine"),
    (["rule", "link {a b}{rft.au:1}"], "line 2: Template BadName"),
    (["rule", "link {rft.au:1}{a b}"], "line 2: Template BadName"),
    (["rule", "link {rft.au:1}", "when"], "line 2: KindMismatch"),
    (["rule", "when has a", "rul"], "line 3: BadLine"),
    (["rule", "rule", "x"], "line 1: NoLink"),
    (["rule", "link a", "rule"], "line 3: NoLink"),
]

# Whole files that are refused; their length comes before their bytes, and these before the lines.
FILES = [
    (b"\xff" * 65537, "line 0: TooLong"),
    (b"\xff" * 65536, "line 0: NotUtf8"),
    (b"#" * 65537, "line 0: TooLong"),
    (b"x\n" * 32768 + b"\n", "line 0: TooLong"),
    (b"x\n" * 32768, "line 1: BadLine"),
    (b"x\n\xff", "line 0: NotUtf8"),
    (b"rule\nlink a\n# \xc3", "line 0: NotUtf8"),
    (b"\xef\xbb\xbfrule\nlink a\n", "line 1: BadLine"),
]


class FaultsInOrder(ProgramCase):
    def test_templates(self):
        for template, fault in TEMPLATES:
            self.program.fails(["expand", template, ""], 3, f"template: {fault}")

    def test_rules(self):
        for content, fault in [("\n".join(lines) + "\n", fault) for lines, fault in RULES] + FILES:
            self.program.write("rules", content)
            self.program.fails(["link", "rules", ""], 3, f"rules: {fault}")
            self.program.fails(["compile", "rules", "code"], 3, f"rules: {fault}")
