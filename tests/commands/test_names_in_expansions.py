"""Triplets in names, which are not decoded and are written as they are (RFC 6570, 2.3 and 3.2.7 to 3.2.9)."""
from fixtures.program import ProgramCase

# Expressions with the name %41 where it is a text, `x`, and where it is empty.
TEXTS = [
    ("{%41}", "x", ""),
    ("{+%41}", "x", ""),
    ("{#%41}", "#x", "#"),
    ("{.%41}", ".x", "."),
    ("{/%41}", "/x", "/"),
    ("{;%41}", ";%41=x", ";%41"),
    ("{?%41}", "?%41=x", "?%41="),
    ("{&%41}", "&%41=x", "&%41="),
    ("{;%41*}", ";%41=x", ";%41"),
    ("{?%41*}", "?%41=x", "?%41="),
    ("{&%41*}", "&%41=x", "&%41="),
    ("{;%41:1}", ";%41=x", ";%41"),
    ("{?%41:1}", "?%41=x", "?%41="),
    ("{&%41:1}", "&%41=x", "&%41="),
    ("{?b,%41,c}", "?%41=x", "?%41="),
]

# The same where it is a list, of `a` and `b`, and of an empty text alone.
LISTS = [
    ("{%41}", "a,b", ""),
    ("{+%41}", "a,b", ""),
    ("{#%41}", "#a,b", "#"),
    ("{.%41}", ".a,b", "."),
    ("{/%41}", "/a,b", "/"),
    ("{%41*}", "a,b", ""),
    ("{.%41*}", ".a.b", "."),
    ("{/%41*}", "/a/b", "/"),
    ("{;%41}", ";%41=a,b", ";%41="),
    ("{?%41}", "?%41=a,b", "?%41="),
    ("{&%41}", "&%41=a,b", "&%41="),
    ("{;%41*}", ";%41=a;%41=b", ";%41"),
    ("{?%41*}", "?%41=a&%41=b", "?%41="),
    ("{&%41*}", "&%41=a&%41=b", "&%41="),
]

# The same where %41 is the text `x`, and %42 the list of `a` and `b`.
BOTH = [
    ("{?%41}", "?%41=x"),
    ("{;%41}", ";%41=x"),
    ("{?%42}", "?%42=a,b"),
    ("{?%42*}", "?%42=a&%42=b"),
    ("{?A,B,%61}", ""),
]

# Templates and queries; the names are not equal.
UNEQUAL = [
    ("{%41}", "A=x"),
    ("{A}", "%2541=x"),
    ("{%41}", "%41=x"),
    ("{%41}", "a=x"),
    ("{%41}", "%252541=x"),
    ("{%aa}", "%25AA=x"),
    ("{%AA}", "%25aa=x"),
    ("{%Aa}", "%25aA=x"),
    ("{x}", "X=x"),
    ("{X}", "x=x"),
    ("{rft.au}", "RFT.AU=x"),
    ("{a.b}", "a=x"),
    ("{%C3%A9}", "%C3%A9=x"),
    ("{%2C}", ",=x"),
    ("{a%2Eb}", "a.b=x"),
    ("{a.b}", "a%252Eb=x"),
]


class NamesInExpansions(ProgramCase):
    def test_texts(self):
        for template, expansion, empty in TEXTS:
            self.program.prints(["expand", template, "%2541=x"], expansion)
            self.program.prints(["expand", template, "%2541="], empty)
            self.program.prints(["expand", template, "A=x"], "")

    def test_lists(self):
        for template, expansion, empty in LISTS:
            self.program.prints(["expand", "--list", "%41", template, "%2541=a&%2541=b"], expansion)
            self.program.prints(["expand", "--list", "%41", template, "%2541="], empty)

    def test_texts_and_lists(self):
        for template, expansion in BOTH:
            self.program.prints(["expand", "--list", "%42", template, "%2541=x&%2542=a&%2542=b"], expansion)

    def test_all_triplets(self):
        """One expression with all triplets as names, of each spelling of their digits."""
        for spelling in ("{:02X}", "{:02x}"):
            names = ["%" + spelling.format(byte) for byte in range(256)]
            query = "&".join(f"{name.replace('%', '%25')}={at}" for at, name in enumerate(names))
            pairs = [f"{name}={at}" for at, name in enumerate(names)]
            for operator, separator in [("?", "&"), ("&", "&"), (";", ";")]:
                self.program.prints(
                    ["expand", "{" + operator + ",".join(names) + "}", query], operator + separator.join(pairs)
                )
            self.program.prints(["expand", "{" + ",".join(names) + "}", query], ",".join(map(str, range(256))))
            # Names decoded, as the query has them, are other names.
            self.program.prints(["expand", "{?" + ",".join(names) + "}", query.replace("%25", "%")], "")

    def test_names_in_rules(self):
        """Rules write names as templates do."""
        for template, expansion, _ in TEXTS:
            self.program.write("rules", f"rule\nwhen has %41\nlink {template}\n")
            self.program.prints(["link", "rules", "%2541=x"], expansion)
            self.program.finds_no_link(["link", "rules", "A=x"])
            self.program.run(["compile", "rules", "code"])
            self.program.prints(["run", "code", "%2541=x"], expansion)
            self.program.finds_no_link(["run", "code", "A=x"])

    def test_unequal_names(self):
        for template, query in UNEQUAL:
            self.program.prints(["expand", template, query], "")
