"""Templates that `expand` takes, beside the examples of RFC 6570."""
import re
from urllib.parse import quote

from fixtures.program import ProgramCase

# A percent sign that begins no triplet.
LONE_PERCENT = "%(?![0-9A-Fa-f]{2})"

TEXTS = "&".join(
    [
        "hello=Hello+World%21",
        "path=/foo/bar",
        "empty=",
        "v=6",
        "who=fred",
        "x=1024",
        "lone=%2541%254",
        "triplets=%2541%2542%2543",
        "accent=%C3%A9a",
        "a.b=dotted",
        "%2541=named+by+a+triplet",
    ]
)

# A template and its expansion.
OF_TEXTS = [
    ("", ""),
    ("{hello}", "Hello%20World%21"),
    ("a{y}b", "ab"),
    ("é/{v}", "%C3%A9/6"),
    ("?{x,empty}", "?1024,"),
    ("?{x,y}", "?1024"),
    ("?{y,z}", "?"),
    ("{;v,empty,who}", ";v=6;empty;who=fred"),
    ("{?v,empty}", "?v=6&empty="),
    ("{?y,v}{&z,who}", "?v=6&who=fred"),
    ("{+lone}", "%41%254"),
    ("{+triplets:2}", "%41%42"),
    ("{triplets:2}", "%254"),
    ("{#triplets:1}", "#%41"),
    ("{accent:1}", "%C3%A9"),
    ("{+hello}", "Hello%20World!"),
    ("{+path:6}here", "/foo/bhere"),
    ("X{.empty}", "X."),
    ("foo{#empty}", "foo#"),
    ("{?who*}", "?who=fred"),
    ("{;empty:3}", ";empty"),
    ("{a.b}", "dotted"),
    ("{A}{%41:5}", "named"),
]

# A template, a query, and the expansion: literals, operators, names and prefixes.
OTHER_TEXTS = [
    ("é/{x}", "x=1", "%C3%A9/1"),
    ("it's%41%c3", "", "it's%41%c3"),
    ("X{.empty}{#x}", "empty=&x=1", "X.#1"),
    ("\U000e1000\U0010fffd", "", "%F3%A1%80%80%F4%8F%BF%BD"),
    ("%41a%4a{x}&'%7e", "x=1", "%41a%4a1&'%7e"),
    ("{x}{y}é", "x=1&y=2", "12%C3%A9"),
    ("{;v}{&v}", "v=6", ";v=6&v=6"),
    ("{a:9999}{b:10}{c:250}", f"a={'1' * 10000}&b={'2' * 11}&c={'3' * 251}", "1" * 9999 + "2" * 10 + "3" * 250),
    ("{%41.b_9}", "%2541.b_9=x", "x"),
    ("{%c3%A9*}", "%25c3%25A9=x", "x"),
    ("{.12.%41_}", "12.%2541_=x", ".x"),
    ("{#A:1,a}", "A=xy&a=zz", "#x,zz"),
    ("{a}{b}", "a=1&b=2", "12"),
    ("{x}{?x,y,rft.au*}", "x=a", "a?x=a"),
    ("a{x}b{?y,z*}{/x:3}", "", "ab"),
]

# A value, a number of items, and the value cut to that number: of code points, and with each triplet as one item.
CUT = [
    ("value", 3, "val", "val"),
    ("value", 30, "value", "value"),
    ("éa", 1, "é", "é"),
    ("a€𝄞b", 3, "a€𝄞", "a€𝄞"),
    ("%41%42%43", 2, "%4", "%41%42"),
    ("%4%41", 2, "%4", "%4"),
    ("%4%41", 3, "%4%", "%4%41"),
    ("%%41x", 2, "%%", "%%41"),
    ("%C3%A9", 1, "%", "%C3"),
]

MEMBERS = "&".join(
    [
        "list=red&list=green&list=blue",
        "rft.au=Smith,+J&rft.au=Li",
        "none=",
        "path=/foo/bar",
        "id=b",
    ]
)

# A template and its expansion.
OF_LISTS = [
    ("{/list*,path:4}", "/red/green/blue/%2Ffoo"),
    ("{?rft.au*}", "?rft.au=Smith%2C%20J&rft.au=Li"),
    ("{rft.au*}/{id}", "Smith%2C%20J,Li/b"),
    ("{;none}", ";none="),
    ("{;none*}", ";none"),
    ("{?none*}", "?none="),
    ("{none}", ""),
    ("X{.none}", "X."),
    ("{;list*}", ";list=red;list=green;list=blue"),
    ("{list:3}", ""),
    ("{?list:3,id}", "?id=b"),
]

# A text, what `{x}` writes of it, and what `{+x}` does.
WRITTEN = [
    ("", "", ""),
    ("Hello World!", "Hello%20World%21", "Hello%20World!"),
    ("/foo/bar", "%2Ffoo%2Fbar", "/foo/bar"),
    ("50%", "50%25", "50%25"),
    ("%41%4", "%2541%254", "%41%254"),
    ("%c3%A9", "%25c3%25A9", "%c3%A9"),
    ("%%41", "%25%2541", "%25%41"),
    ("é", "%C3%A9", "%C3%A9"),
    ("\x7f\n", "%7F%0A", "%7F%0A"),
    (
        "-._~:/?#[]@!$&'()*+,;=",
        "-._~%3A%2F%3F%23%5B%5D%40%21%24%26%27%28%29%2A%2B%2C%3B%3D",
        "-._~:/?#[]@!$&'()*+,;=",
    ),
    (
        '"<>\\^`{|}',
        "%22%3C%3E%5C%5E%60%7B%7C%7D",
        "%22%3C%3E%5C%5E%60%7B%7C%7D",
    ),
]


class Templates(ProgramCase):
    def test_texts(self):
        for template, expansion in OF_TEXTS:
            self.program.prints(["expand", template, TEXTS], expansion)

    def test_other_texts(self):
        """The same by a rule."""
        for template, query, expansion in OTHER_TEXTS:
            self.program.prints(["expand", template, query], expansion)
            self.program.write("rules", f"rule\nlink {template}\n")
            self.program.prints(["link", "rules", query], expansion)

    def test_prefixes(self):
        for value, items, of_points, of_triplets in CUT:
            query = "x=" + quote(value, safe="")
            self.program.prints(["expand", f"{{x:{items}}}", query], quote(of_points, safe=""))
            self.program.prints(
                ["expand", f"{{+x:{items}}}", query], quote(re.sub(LONE_PERCENT, "%25", of_triplets), safe="%")
            )

    def test_lists(self):
        for template, expansion in OF_LISTS:
            self.program.prints(["expand", "--list", "list", "--list", "none", template, MEMBERS], expansion)

    def test_written_texts(self):
        for text, simple, reserved in WRITTEN:
            query = "x=" + quote(text, safe="")
            self.program.prints(["expand", "{x}", query], simple)
            self.program.prints(["expand", "{+x}", query], reserved)
