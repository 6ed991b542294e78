"""The help of the operator's commands agrees with their manual pages: each word of it stands there too, so that neither
has a misspelt word or another name for a thing."""
from __future__ import annotations

import contextlib
import io
import os
import re
from collections.abc import Callable
from pathlib import Path
from unittest import mock

import fixtures
from fixtures.cases import Case
from openlink_update import update_options
from openlink_update.commands import desk
from openlink_update.commands import holdings
from openlink_update.commands import library
from openlink_update.fetch import fetching

_WORD = re.compile(r"[a-z0-9]+")
# What argparse writes itself.
OF_PYTHON = {*"usage positional arguments options h help show this message and exit".split()}
# By the page of a command: its arguments before --help, and words that the page has not.
PAGES: tuple[tuple[str, Callable[[list[str]], object], tuple[str, ...], str], ...] = (
    (
        "openlink-update.8",
        update_options.parse,
        ("",),
        "got hosts move reads receives script sshd i o known yes batchmode connecttimeout serveraliveinterval "
        "userknownhostsfile module listen providers counted 10",
    ),
    ("openlink-desk.8", desk.main, ("",), ""),
    ("openlink-fetch.8", fetching.main, ("",), "due"),
    ("openlink-holdings.1", holdings.main, ("",), ""),
    ("openlink-library.8", library.main, ("", "add", "remove", "list", "mail"), "all program"),
)


def words_of_page(name: str) -> set[str]:
    """All words of a manual page, in small letters. The names of its macros are none."""
    page = Path(fixtures.TOP, "docs/man", name).read_text(encoding="utf-8")
    return {*_WORD.findall(re.sub(r"^\.[A-Z][a-z]\b", "", page, flags=re.M).lower())}


def help_of(call: Callable[[list[str]], object], command: str) -> str:
    printed = io.StringIO()
    with mock.patch.dict(os.environ, {"COLUMNS": "1000"}), contextlib.redirect_stdout(printed):
        with contextlib.suppress(SystemExit):
            call([*filter(None, [command]), "--help"])
    return printed.getvalue()


class Help(Case):
    def test_words(self) -> None:
        for page, call, commands, more in PAGES:
            text = " ".join(help_of(call, command) for command in commands)
            found = {*_WORD.findall(text.lower())} - OF_PYTHON
            self.expect(f"{page}: {len(found)} words", len(found) >= 20)
            self.expect(f"words that {page} has not", found - words_of_page(page), {*more.split()})
