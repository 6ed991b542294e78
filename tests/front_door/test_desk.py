"""The librarian's desk through nginx: on the machine's own port always, on the readers' site behind the password of
/why alone, and of its folders nothing but pages, tables and the two lists of a version."""
from __future__ import annotations

import base64
import os
import shutil
from pathlib import Path

from fixtures.nginx_site import Reply
from fixtures.site_case import SiteCase

PAGES = {
    "index.html": "text/html; charset=utf-8",
    "week.en.html": "text/html; charset=utf-8",
    "desk.css": "text/css",
    "target-...en.html": "text/html; charset=utf-8",
    "year.tsv": "text/tab-separated-values; charset=utf-8",
}
LISTS = ("dropped/press.txt", "changes/a.b.txt", "dropped/...txt")
# What is in the folders and not for browsers, and ways out of them.
HIDDEN = (
    "state/months.tsv",
    "state/",
    "lint",
    "lock",
    "..",
    "../lock",
    "%2e%2e/lock",
    "..%2flock",
    "state%2fmonths.tsv",
    "week.en.html/",
    "week.en.html/x",
    "none.html",
    "received/press.rules",
    "dropped/",
    "dropped/../registry.tsv",
    "dropped/..%2fregistry.tsv",
    "changes/none.txt",
    "tables/press.txt",
    "index.html%00",
    ".html",
    "x.json",
    "//etc/passwd",
)
PASSWORD = {"Authorization": "Basic " + base64.b64encode(b"staff:right").decode()}


class Desk(SiteCase):
    has_processes = False

    @classmethod
    def setUpClass(cls) -> None:
        super().setUpClass()
        site = cls.site
        made = Path(site.path("desk/20261129T053000Z"))
        (made / "state").mkdir(parents=True)
        os.symlink(made.name, site.path("desk/current"))
        for name in (*PAGES, "state/months.tsv", "x.json", "lint"):
            (made / name).write_text(f"the file {name}\n")
        Path(site.path("desk/lock")).touch()
        version = Path(site.version())
        for name in (*LISTS, "received/press.rules", "tables/press.txt"):
            (version / name).parent.mkdir(exist_ok=True)
            (version / name).write_text(f"the list {name}\n")

    def get(self, path: str, method: str = "GET") -> Reply:
        return self.site.get(path, method, port=self.site.report_port)

    def test_own_port(self) -> None:
        for name, kind in PAGES.items():
            reply = self.get(f"/desk/{name}")
            self.expect(
                name, (reply.status, reply.text, reply.headers["Content-Type"]), (200, f"the file {name}\n", kind)
            )
        for name in LISTS:
            reply = self.get(f"/desk/{name}")
            self.expect(
                name,
                (reply.status, reply.text, reply.headers["Content-Type"]),
                (200, f"the list {name}\n", "text/tab-separated-values; charset=utf-8"),
            )
        self.expect("the folder", self.get("/desk/").text, "the file index.html\n")
        reply = self.get("/desk")
        self.expect("without a slash", (reply.status, reply.headers["Location"]), (301, "/desk/"))
        self.expect("a query", self.get("/desk/week.en.html?x=../lock").text, "the file week.en.html\n")

    def test_hidden_files(self) -> None:
        for name in HIDDEN:
            reply = self.get(f"/desk/{name}")
            self.expect(f"/desk/{name}", (reply.status in (400, 404), "the " in reply.text[:4]), (True, False))

    def test_methods_and_headers(self) -> None:
        for path in ("/desk/", "/desk/index.html", "/desk/dropped/press.txt"):
            for method, status in (("HEAD", 200), ("POST", 405), ("DELETE", 405)):
                self.expect(f"{method} {path}", self.get(path, method).status, status)
            headers = self.get(path).headers
            policy = headers["Content-Security-Policy"]
            self.expect(
                f"{path}: no script and no inline style",
                ("script-src" in policy, "unsafe" in policy, policy[:18]),
                (False, False, "default-src 'none'"),
            )
            self.expect(f"{path}: nobody keeps it", headers["Cache-Control"], "private, no-store")
        self.expect("the style is kept", self.get("/desk/desk.css").headers["Cache-Control"], "private, max-age=3600")

    def test_no_desk(self) -> None:
        """As before the first update."""
        os.rename(self.site.path("desk"), self.site.path("away"))
        try:
            for path in ("/desk/", "/desk/index.html"):
                self.expect(f"{path} without a desk", self.get(path).status, 404)
        finally:
            os.rename(self.site.path("away"), self.site.path("desk"))

    def test_readers_site(self) -> None:
        """Off by default; then with the password alone, and with the headers of the readers' site once each."""
        paths = ("/desk", "/desk/", "/desk/week.en.html", "/desk/dropped/press.txt", "/desk/desk.css")
        for path in paths:
            self.expect(f"{path} by default", self.site.get(path).status, 404)
        self.site.write("openlink/passwords", "staff:{PLAIN}right\n")
        line = f"include {self.site.path('openlink/why.conf')};"
        before = self.site.edit((f"#{line}", line))
        try:
            for path in (*paths, *(f"/desk/{name}" for name in HIDDEN[:4])):
                reply = self.site.get(path)
                self.expect(f"{path} without the password", (reply.status, "the " in reply.text[:4]), (401, False))
            for path in paths[1:]:
                reply = self.site.get(path, headers=PASSWORD)
                self.expect(f"{path} with it", (reply.status, reply.text[:4]), (200, "the "))
                names = [name.lower() for name, _ in reply.headers.items()]
                self.expect(f"{path}: headers", [it for it in names if names.count(it) > 1], [])
            self.expect("without a slash", self.site.get("/desk", headers=PASSWORD).headers["Location"], "/desk/")
            for path in ("/desker", "/whyx", "/x/desk/"):
                self.expect(path, self.site.get(path, headers=PASSWORD).status, 404)
        finally:
            self.site.write_site(before)
            shutil.rmtree(self.site.path("none"), ignore_errors=True)
