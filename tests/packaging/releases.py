"""What a release has, as packaging/release makes it: the checks of its folder, which is unpacked from its tar file, and
of the root of a machine that has its package. Each returns the faults that it finds."""
from __future__ import annotations

import hashlib
import os
import re
import subprocess
from collections.abc import Iterator
from pathlib import Path

from fixtures.patience import patience

MAKER = ("Jane & Søn", "jane@library.example.org")
PLAIN = {"PATH": "/usr/bin:/bin"}
NOTHING: dict[str, str] = {}
LEAST_FILES, LEAST_LINKS, LEAST_NAMED = 150, 60, 10
# What the package installs, among others.
FILES = """
    usr/bin/openlink usr/bin/openlink-probe usr/bin/openlink-counts usr/bin/openlink-holdings
    usr/share/man/man1/openlink.1.gz usr/share/man/man1/openlink-holdings.1.gz usr/sbin/openlink-update
    usr/share/man/man8/openlink-update.8.gz usr/share/doc/openlink/copyright usr/share/doc/openlink/SECURITY.md
    usr/share/man/man8/openlink-fetch.8.gz usr/sbin/openlink-fetch usr/share/openlink/nginx/library.conf
    usr/share/man/man8/openlink-library.8.gz usr/sbin/openlink-library
    usr/share/man/man8/openlink-desk.8.gz usr/sbin/openlink-desk
    lib/systemd/system/openlink@.service usr/share/openlink/nginx/openlink.conf
    usr/share/openlink/tables/ANY.tsv usr/share/doc/openlink/INSTALLING.md usr/share/doc/openlink/LIBRARIANS.md
    usr/share/doc/openlink/SEVERAL.md usr/share/doc/openlink/OPERATING.md usr/share/doc/openlink/CONSORTIUM.md
    usr/share/openlink/nginx/balancer.conf usr/share/openlink/haproxy/haproxy.cfg
    usr/share/openlink/nftables/connections.nft lib/systemd/system/openlink-connections.service
    usr/share/openlink/kubernetes/base/deployment.yaml usr/share/openlink/openlink_update/weekly_run.py
    usr/share/openlink/providers/doi.rules usr/share/openlink/providers/wiley.rules
    """.split()
WORDS = sorted(it.name for it in Path("front_door/words").iterdir())  # a file for each language of the reader's page
FILES += [f"usr/share/openlink/nginx/words/{it}" for it in WORDS]


def made(*arguments: str) -> tuple[int, str]:
    """Makes a release. Returns the status and what is said on standard error."""
    names = {"DEBFULLNAME": MAKER[0], "DEBEMAIL": MAKER[1]}
    return _ran(["packaging/release", *arguments], {**os.environ, **names})


def _ran(words: list[str], environment: dict[str, str], folder: str | Path | None = None) -> tuple[int, str]:
    done = subprocess.run(
        words,
        env=environment,
        cwd=folder,
        stdin=subprocess.DEVNULL,
        stdout=subprocess.DEVNULL,
        stderr=subprocess.PIPE,
        encoding="utf-8",
        timeout=patience(300),  # type: ignore[no-untyped-call]
    )
    return done.returncode, done.stderr


def sum_of(path: Path) -> str:
    return hashlib.sha256(path.read_bytes()).hexdigest()


def files_below(folder: Path) -> list[Path]:
    return sorted(it for it in folder.rglob("*") if it.is_file())


def faults_of_links(folder: Path) -> Iterator[str]:
    """The relative links of pages that lead to no file. A page may be compressed: then it is not read."""
    count = 0
    for page in folder.rglob("*.md"):
        for link in re.findall(r"\]\(([^()\s#]+)", page.read_text(encoding="utf-8")):
            if not re.match(r"https?:|mailto:", link):
                count += 1
                if not (page.parent / link).exists():
                    yield f"{page.relative_to(folder)}: there is no {link}"
    if count < LEAST_LINKS:
        yield f"{count} links, and there are at least {LEAST_LINKS}"


def faults_of_sums(folder: Path) -> Iterator[str]:
    """The files whose sums SHA256SUMS does not have."""
    lines = (folder / "SHA256SUMS").read_text(encoding="utf-8").splitlines()
    listed = {name: total for total, _, name in (line.partition("  ") for line in lines)}
    present = {str(it.relative_to(folder)): it for it in files_below(folder) if it.name != "SHA256SUMS"}
    yield from (f"SHA256SUMS: {name} differs in it, or in the folder" for name in sorted({*listed} ^ {*present}))
    for name in sorted({*listed} & {*present}):
        if sum_of(present[name]) != listed[name]:
            yield f"SHA256SUMS: {name} has another sum"
    if len(listed) < LEAST_FILES:
        yield f"SHA256SUMS: {len(listed)} files, and there are at least {LEAST_FILES}"


def faults_of_version(folder: Path, program: Path) -> Iterator[str]:
    lines = dict(it.split(" ", 1) for it in (folder / "VERSION").read_text(encoding="utf-8").splitlines())
    if lines.get("program") != sum_of(program):
        yield "VERSION: it has another sum of the program"
    if not re.fullmatch(r"[0-9a-f]{40}( with changes)?|unknown", lines.get("commit", "")):
        yield "VERSION: it has no commit"
    if lines.get("version") != version_of(program):
        yield f"VERSION: the version {lines.get('version')}"
    if (folder / "bin/openlink").read_bytes() != program.read_bytes():
        yield "bin/openlink is not the program"


def version_of(program: Path) -> str:
    """The version that a program prints, or what it prints in its place."""
    done = subprocess.run([program, "--version"], env=NOTHING, stdout=subprocess.PIPE, encoding="utf-8", check=True)
    return re.sub(r"^openlink (\d+\.\d+\.\d+)\n$", r"\1", done.stdout)


def faults_of_paths(folder: Path, top: str) -> Iterator[str]:
    """The files that name the folder in which the release was made. The program has paths of its sources."""
    for path in files_below(folder):
        if path.relative_to(folder).parts[0] != "bin" and top.encode() in path.read_bytes():
            yield f"{path.relative_to(folder)}: it names {top}"


def faults_of_folder(folder: Path, program: Path, top: str) -> list[str]:
    """What is wrong in the folder of a release, which is for this program and was made in the folder top."""
    found = [*faults_of_sums(folder), *faults_of_version(folder, program), *faults_of_links(folder)]
    return [*found, *faults_of_paths(folder, top)]


def faults_of_menu(folder: Path, built: Path) -> list[str]:
    """What is wrong when the sample library is built with nothing but the files of a release, and asked for an
    article."""
    status, said = _ran(["examples/library/build", "bin/openlink", str(built)], PLAIN, folder)
    if status:
        return [f"the sample library is not built: {said}"]
    words = ["bin/openlink", "resolve", str(built / "registry.tsv"), "rft.issn=2901-0012&rft.volume=12"]
    menu = subprocess.run(words, cwd=folder, env=NOTHING, stdout=subprocess.PIPE, encoding="utf-8").stdout
    return [] if re.search(r"^tidal-press\thttps://", menu, re.M) else [f"the menu is {menu!r}"]


def faults_of_named(root: Path) -> Iterator[str]:
    """The files of the front door that the installed site and its parts name, and that are not there. Nothing is below
    /usr/local."""
    named: set[str] = set()
    for path in sorted((root / "usr/share/openlink/nginx").glob("*.conf")):
        text = path.read_text(encoding="utf-8")
        if "/usr/local" in text:
            yield f"{path.name}: it names /usr/local"
        named |= {*re.findall(r"/(usr/share/openlink/[\w/.-]*)", text)}
    yield from (f"there is no {it}, which the site names" for it in sorted(named) if not (root / it).exists())
    if len(named) < LEAST_NAMED:
        yield f"the site names {len(named)} files, and at least {LEAST_NAMED}"


def faults_of_installed(root: Path, program: Path) -> list[str]:
    """What is wrong on a machine, whose root this is, that has the package of this program."""
    found = [f"{it} is missing" for it in [*FILES, "etc/openlink"] if not (root / it).exists()]
    if found:
        return found
    unit = (root / "lib/systemd/system/openlink@.service").read_text(encoding="utf-8")
    if not re.search(r"^ExecStart=/usr/bin/openlink serve", unit, re.M):
        found.append("openlink@.service does not start /usr/bin/openlink")
    if (root / "usr/bin/openlink").read_bytes() != program.read_bytes():
        found.append("usr/bin/openlink is not the program")
    texts = {it: (root / it).read_text(encoding="utf-8") for it in ("usr/share/doc/openlink/copyright",)}
    texts["var/lib/dpkg/status"] = (root / "var/lib/dpkg/status").read_text(encoding="utf-8")
    found += [f"{path}: a place of a name is left" for path, text in texts.items() if re.search("@[A-Z]*@", text)]
    if "not chosen a licence yet" not in texts["usr/share/doc/openlink/copyright"]:
        found.append("copyright: it does not say that no licence is chosen")
    return [*found, *faults_of_named(root), *faults_of_links(root / "usr/share/doc/openlink")]
