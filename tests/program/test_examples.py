"""Each rule file NAME.rules of examples/ gives each line of NAME.query the same line of NAME.link, which is empty if
there is no link. Except in examples/spoilt/, every link in a rule file begins with a scheme, a host and a slash as
text, so that no request chooses the host, or with `none:`, which is not a web link."""
from __future__ import annotations

import glob
import re
import subprocess

from fixtures import needs
from fixtures.cases import Case

FIXED = re.compile(r"link (https?://[a-z0-9.-]+/|none:)")
# There are at least this many rule files with queries, queries, and links in rule files.
LEAST_FILES, LEAST_QUERIES, LEAST_LINKS = 6, 15, 30
PAGE = "link {+title_page}"


def lines(path: str) -> list[str]:
    with open(path, encoding="utf-8") as file:
        return file.read().splitlines()


def cases(queries: list[str], links: list[str]) -> list[tuple[str, int, bytes]]:
    """Each query with the status and the output that it must have; none if the numbers of lines differ."""
    if len(queries) != len(links):
        return []
    return [(query, 0 if link else 1, f"{link}\n".encode() if link else b"") for query, link in zip(queries, links)]


def open_hosts(text: str) -> list[str]:
    """The links of rules whose host is not fixed."""
    return [it for it in text.splitlines() if it.startswith("link ") and not FIXED.match(it)]


class Examples(Case):
    @needs.program()
    def test_links(self) -> None:
        count, paths = 0, sorted(glob.glob("examples/*.rules"))
        for path in paths:
            name = path.removesuffix(".rules")
            found = cases(lines(f"{name}.query"), lines(f"{name}.link"))
            self.expect(f"{name} has as many links as queries, and some", len(found) >= 1)
            for number, (query, status, link) in enumerate(found, 1):
                ran = subprocess.run([needs.PROGRAM, "link", path, query], stdout=subprocess.PIPE)
                self.expect(f"{path}, line {number} of its queries", (ran.returncode, ran.stdout), (status, link))
                count += 1
        self.expect(f"{len(paths)} files, {count} queries", len(paths) >= LEAST_FILES and count >= LEAST_QUERIES)

    def test_fixed_hosts(self) -> None:
        paths = [it for it in glob.glob("examples/**/*.rules", recursive=True) if "/spoilt/" not in it]
        texts = {path: "\n".join(lines(path)) for path in sorted(paths)}
        found = [(path, it) for path, text in texts.items() for it in open_hosts(text)]
        # The update knows the hosts of this column, and no request can set it.
        pages = [it for it in found if it[0].startswith("examples/providers/") and it[1].startswith(PAGE)]
        self.expect("open hosts", [it for it in found if it not in pages], [])
        self.expect("pages of titles", len(pages) > 0)
        count = sum(len(re.findall(r"^link ", text, re.M)) for text in texts.values())
        self.expect(f"{count} links", count >= LEAST_LINKS)

    def test_what_is_refused(self) -> None:
        self.expect("numbers that differ", cases(["x=1", "x=2"], ["a"]), [])
        self.expect("a link and none", cases(["x=1", "x=2"], ["a", ""]), [("x=1", 0, b"a\n"), ("x=2", 1, b"")])
        for link in "{+title_url}", "https://{host}/", "https://e.org", "https://e.org{x}/", "ftp://e/", "HTTP://e/":
            self.expect(link, open_hosts(f"rule\nlink {link}\n"), [f"link {link}"])
        for link in "https://e.org/{x}", "http://e.org/", "none:{x}":
            self.expect(link, open_hosts(f"rule\nlink {link}\n"), [])
