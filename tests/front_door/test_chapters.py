"""What INSTALLING.md says to an operator: the commands of "When the resolver is down" that need no systemd, before and
after the processes have ended; the limits of nginx in "First start"; the "Record of what is kept"; and "Disk"."""
from __future__ import annotations

import glob
import os
import re
import shutil
import subprocess

from fixtures.nginx_site import Site
from fixtures.patience import patience
from fixtures.patience import wait_until
from fixtures.site_case import SiteCase
from fixtures.tls_site import with_tls

STEP = re.compile(r"^\d+\. .*$", re.M)
PRINTS = re.compile(r"`([^`]+)` prints (?:`([^`]+)`|nothing)")

# Shares of two disks, of bytes and of files, and the status of the command that watches them.
SHARES = {
    ("38 4", "38 4"): 0,
    ("90 90", "90 -"): 0,
    ("91 4", "38 4"): 1,
    ("38 4", "100 4"): 1,
    ("9 100", "9 4"): 1,
}


def chapter(title: str) -> str:
    with open("docs/INSTALLING.md", encoding="utf-8") as file:
        return file.read().split(f"\n## {title}\n")[1].split("\n## ")[0]


def steps() -> list[tuple[str, str]]:
    """The commands of the chapter with what each prints if all is well; '' for nothing."""
    lines = STEP.findall(chapter("When the resolver is down"))
    return [(command, text) for line in lines for command, text in PRINTS.findall(line)]


def output(site: Site, command: str, tls_port: int = 1) -> str:
    """What a command prints, with the ports and files of this site."""
    pairs = [
        ("127.0.0.1:8079", f"127.0.0.1:{site.report_port}"),
        ("127.0.0.1:291", f"127.0.0.1:{site.ports[0]}"),
        ("127.0.0.1:443", f"127.0.0.1:{tls_port}"),
        ("http://127.0.0.1/", f"http://127.0.0.1:{site.port}/"),
        ("/var/log/nginx", site.path("log")),
        ("/etc/openlink/input/probes.tsv", site.path("probes.tsv")),
        ("/etc/openlink", site.folder),
        ("openlink-probe", "update/probe"),
        ("probes.tsv", f"probes.tsv http://127.0.0.1:{site.port}"),
    ]
    for old, new in pairs:
        command = command.replace(old, new)
    done = subprocess.run(["sh", "-c", command], capture_output=True, text=True, timeout=patience(60))
    return f"{done.stdout}{done.stderr}".strip()


def seen(site: Site, only: str = "") -> dict[tuple[str, str], str]:
    """What each command prints that needs no systemd, by what it prints if all is well."""
    found = [
        (command, text)
        for command, text in steps()
        if re.match(r"curl|tail|df|openssl|openlink-probe", command) and only in command
    ]
    return {(command, text): output(site, command) for command, text in found}


def is_well(text: str, printed: str) -> bool:
    """Whether that is what the chapter says: a text is in it, and `nothing` is no line at all."""
    return text in printed if text else printed == ""


def files_of_sites() -> list[str]:
    """The logs and caches that the sites of front_door write, as the record names them."""
    named = set()
    for path in glob.glob("front_door/*.conf"):
        with open(path, encoding="utf-8") as file:
            named.update(re.findall(r"(?:access_log|error_log|proxy_cache_path)\s+(/[^\s;]+)", file.read()))
    return sorted(os.path.basename(it).replace("@NAME@", "NAME") for it in named - {"/dev/null"})


class Chapters(SiteCase):
    """The commands as they stand on the page, at the ports and files of this site."""

    def test_steps(self) -> None:
        self.site.write("probes.tsv", "issn=2901-0012&volume=12&date=2003\ttidal-press aggregate-net catalogue\n")
        self.expect("a page", self.site.get("/find?issn=2901-0012").status, 200)
        wait_until(lambda: os.path.getsize(self.site.path("log/openlink.log")) > 0)
        self.expect(
            "a command in each step", (len(steps()), len(STEP.findall(chapter("When the resolver is down")))), (11, 10)
        )
        every = seen(self.site)
        self.expect("commands that need no systemd", len(every), 9)
        wrong = [command for (command, text), printed in every.items() if not is_well(text, printed)]
        self.expect("without TLS, no certificate alone", [it.split()[0] for it in wrong], ["openssl"])
        # The certificate of this test ends in two days; the chapter asks for seven.
        ((command, text),) = [it for it in every if it[0].startswith("openssl")]
        peer = with_tls(self.site)
        self.expect("a certificate that ends soon", output(self.site, command, peer.port), "Certificate will expire")
        self.expect("one that does not", output(self.site, command.replace("604800", "86400"), peer.port), text)
        page = next(it for it, _ in every if " 'http://127.0.0.1/find" in it)
        self.expect("the page with TLS", output(self.site, page, peer.port), "301")

    def test_without_processes(self) -> None:
        """What the chapter says that the commands print if no process answers."""
        self.site.kill()
        health, process, page = seen(self.site, "curl").values()
        self.expect("no process", (health, process.split()[0], page), ("no process answers", "000", "503"))

    def test_limits(self) -> None:
        """The edit of Debian's nginx.conf: nginx accepts it, and a second one changes nothing."""
        path, source = self.site.path("debian.conf"), "/etc/nginx/nginx.conf"
        block = next(it for it in chapter("First start").split("```\n")[1::2] if "worker_connections" in it)
        edit = block.split("nginx -t")[0]
        self.expect("an edit", edit.count("sed -i"), 1)
        shutil.copy(source, path)
        texts = []
        for _ in range(2):
            subprocess.run(["sh", "-ec", edit.replace(source, path)], check=True)
            texts.append(self.site.read("debian.conf"))
        self.expect("connections", re.findall(r"^\s*worker_connections\s+(\d+);", texts[0], re.M), ["4096"])
        self.expect("files", re.findall(r"^worker_rlimit_nofile (\d+);", texts[0], re.M), ["16384"])
        self.expect("once", texts[1] == texts[0])
        with open(path, "w") as file:  # without the modules and sites of packages
            text = re.sub(r"^\s*include .*", "", texts[0], flags=re.M).replace("/var/log/nginx", self.site.path("log"))
            file.write(text.replace("pid /run/nginx.pid;", f"pid {self.site.path('debian.pid')};"))
        done = subprocess.run(
            ["nginx", "-t", "-q", "-c", path, "-e", self.site.path("log/test.log")], capture_output=True, text=True
        )
        self.expect("nginx takes it", (done.returncode, done.stderr), (0, ""))

    def test_full_logs(self) -> None:
        """A disk without room for the logs: readers get their pages."""
        paths = [self.site.path(f"log/{name}") for name in ("openlink.log", "openlink-error.log")]
        for path in paths:
            os.replace(path, f"{path}.kept")
            os.symlink("/dev/full", path)
        try:
            self.site.reload()
            replies = [self.site.get(f"/find?issn=2901-0012&volume=12&n={number}") for number in range(20)]
        finally:
            for path in paths:
                os.replace(f"{path}.kept", path)
        found = {(it.status, "press.example.com" in it.text) for it in replies}
        self.expect("pages while the log is full", found, {(200, True)})

    def test_disk(self) -> None:
        """The command of "Disk" that watches it, with a `df` that prints these shares of bytes and of files."""
        command = next(it for it in chapter("Disk").split("```\n")[1::2] if it.startswith("df "))
        folder = self.site.path("with_df")
        os.mkdir(folder)
        for shares, status in SHARES.items():
            lines = [" ".join(f"{it}%" for it in line.split()) for line in shares]
            text = "\n".join(["#!/bin/sh", "[ $# = 3 ] || exit 9", "cat <<END", "Use% IUse%", *lines, "END", ""])
            self.site.write("with_df/df", text)
            os.chmod(f"{folder}/df", 0o755)
            done = subprocess.run(["sh", "-c", command], env={**os.environ, "PATH": f"{folder}:{os.environ['PATH']}"})
            self.expect(f"shares of the disk: {shares}", done.returncode, status)
        df = command.split("|")[0].replace("/etc/openlink", self.site.folder).replace("/var/log", self.site.path("log"))
        printed = subprocess.run(["sh", "-c", df], capture_output=True, text=True).stdout.splitlines()[1:]
        found = [bool(re.fullmatch(r"\s*\d+%\s+(\d+%|-)", it)) for it in printed]
        self.expect("what df prints", found, [True, True])

    def test_record(self) -> None:
        """The record has each file that the sites write."""
        record, files = chapter("Privacy").split("\n### Record of what is kept\n")[1], files_of_sites()
        self.expect("files", len(files), 8)
        self.expect(
            "files that the record lacks", [it for it in files if not re.search(rf"[/`]{re.escape(it)}`", record)], []
        )
