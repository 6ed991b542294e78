"""What the maker's key may do on another machine: what a delivery needs, and nothing outside of a library."""
from __future__ import annotations

import os
import shlex
import tempfile
import types
from pathlib import Path
from typing import Any
from unittest import mock

from fixtures import needs
from openlink_update.machines import taking
from openlink_update.outcome import Failure
from properties.property_case import PropertyCase
from properties.property_case import strategies as st

STAMPS = ("20261101T040000Z", "20261108T040000Z")
LIBRARIES = (".", "law", "med-2")
OPTIONS = ("-rte.LsfxCIvu", "--timeout=60", "--mkpath", f"--link-dest=../{STAMPS[0]}", "--delete")
PLACES = (
    "shared/",
    *(f"{it}/input/" for it in LIBRARIES),
    *(f"{it}/versions/{stamp}{end}" for it in LIBRARIES for stamp in STAMPS for end in (".sent/", ".probes")),
)
GOOD = ("state", "drain", "end-drain", "name", "receive", "rsync", "--server", *LIBRARIES, *STAMPS, *OPTIONS, *PLACES)
BAD = tuple(
    """.. /etc/ law/../x/ ../input/ --rsync-path=x -e sh --sender --files-from=/etc/shadow Law law/versions/x.sent/
    /versions/ law/versions/20269901T000000Z.sent/ law/ versions/ ~/input/ --link-dest=/etc --link-dest=../../x --daemon
    --delete-after --timeout=600 --mkpath=x --link-dest=../20261101T040000Z/../../x
    -rtle.L -c ; $(x) law/input/../../x/ shared/../x/ shared law/input
    20269901T000000Z 99991231T235959Z --take""".split()
)
NEAR = ("--delete-after", "--timeout=600", "--mkpath=x", f"--link-dest=../{STAMPS[0]}/../../x", "-rte.L x", "-rtle.L")


def is_allowed(words: list[str]) -> bool:
    """Whether a delivery needs this request, word by word."""
    if words in (["state"], ["drain"], ["end-drain"]):
        return True
    if words[:1] == ["name"]:
        return len(words) == 2 and words[1] in STAMPS
    if words[:1] == ["receive"]:
        return len(words) == 3 and words[1] in LIBRARIES and words[2] in STAMPS
    is_rsync = words[:2] == ["rsync", "--server"] and len(words) > 4 and words[-2] == "." and words[-1] in PLACES
    return is_rsync and all(word in OPTIONS for word in words[2:-2])


def _requests() -> Any:
    word = st.one_of(st.sampled_from(GOOD), st.sampled_from(BAD), st.just(""), st.just("a b"))
    rsync = st.tuples(
        st.lists(st.sampled_from(OPTIONS), min_size=1, max_size=4),
        st.one_of(st.just([]), st.sampled_from(NEAR).map(lambda it: [it]), st.lists(word, max_size=1)),
        st.one_of(st.sampled_from(PLACES), st.sampled_from(PLACES), word),
    ).map(lambda it: ["rsync", "--server", *it[0], *it[1], ".", it[2]])
    receive = st.tuples(st.sampled_from((*LIBRARIES, "Law", "..")), st.sampled_from((*STAMPS, "x")))
    name = st.sampled_from((*STAMPS, "20269901T000000Z", "99991231T235959Z")).map(lambda it: ["name", it])
    short = st.tuples(st.sampled_from(GOOD[:5]), st.lists(word, max_size=2)).map(lambda it: [it[0], *it[1]])
    return st.one_of(
        rsync, rsync, receive.map(lambda it: ["receive", *it]), name, short, st.lists(word, min_size=1, max_size=6)
    )


class _Replaced(Exception):
    """The process would be another program now, with these words."""

    def __init__(self, _: str, words: list[str]) -> None:
        super().__init__()
        self.words = words


def _replace(program: str, words: list[str]) -> None:
    raise _Replaced(program, words)


def taken(words: list[str], folder: str, is_forced: bool) -> Any:
    """What comes of a request, which sshd or the command line gives: 'refused', the words of a program, what a run has
    to receive, or nothing."""
    # Its own functions take the place of others: a Mock takes as long as all the rest.
    options: Any = types.SimpleNamespace(library=Path(folder), take=[] if is_forced else words)
    asked = mock.patch.dict(os.environ, SSH_ORIGINAL_COMMAND=shlex.join(words))
    calls = mock.patch.multiple(os, execvp=_replace, chdir=lambda _: None)
    run = mock.patch.object(taking.dataclasses, "replace", lambda _, **fields: fields)
    with asked, calls, run, mock.patch.object(taking, "report", lambda _: None):
        try:
            return taking.take(options)
        except Failure:
            return "refused"
        except _Replaced as program:
            return program.words


@needs.hypothesis()
class Deliveries(PropertyCase):
    def test_requests(self) -> None:
        """What is no part of a delivery is refused, and changes nothing."""

        def holds(case: Any) -> None:
            words, is_forced = case
            # sshd gives the command of the maker, in which the request is after the word --take.
            asked = words[words.index("--take") + 1 :] if is_forced and "--take" in words else words
            with tempfile.TemporaryDirectory() as folder:
                result = taken(words, folder, is_forced)
                made = os.listdir(folder)
            if not is_allowed(asked):
                assert (result, made) == ("refused", []), (words, result, made)
                return
            assert made == {"drain": ["drain"], "name": ["delivery"]}.get(asked[0], []), (words, made)
            names = [it for it in asked[1:2] if it != "."]
            wanted = {"rsync": asked, "receive": {"take": None, "receive": asked[-1], "names": names}}.get(asked[0])
            assert result == wanted, (words, result)

        cases = st.tuples(_requests(), st.booleans())
        self.hold(cases, holds)

    def test_places_are_within(self) -> None:
        """Whatever rsync may write to is an input, a version that is sent, its probes, or what libraries share."""
        piece = st.sampled_from(
            (".", "..", "/", "//", "law", "input", "versions", STAMPS[0], ".sent", ".probes", "shared")
        )
        places = st.one_of(st.lists(piece, max_size=8).map("".join), st.sampled_from(PLACES), st.sampled_from(BAD))

        def holds(place: str) -> None:
            if not taking._is_place(place):
                assert place not in PLACES, place
                return
            path = os.path.normpath(os.path.join("/libraries", place))
            assert path.startswith("/libraries/") and ".." not in place, place
            parts = path.removeprefix("/libraries/").split("/")
            rest = parts if parts[0] in ("input", "versions", "shared") else parts[1:]
            sent = [["versions", f"{stamp}{end}"] for stamp in STAMPS for end in (".sent", ".probes")]
            assert rest in ([["input"], ["shared"], *sent]), place

        self.hold(places, holds)

    def test_draining(self) -> None:
        """A run gives back the readers that it took away, and leaves an operator's own file."""

        def holds(text: Any) -> None:
            with tempfile.TemporaryDirectory() as folder:
                path = Path(folder, "drain")
                if text is not None:
                    path.write_text(text)
                taken(["drain"], folder, True)
                during = path.read_text()
                taken(["end-drain"], folder, True)
                after = path.read_text() if path.exists() else None
            assert (during == "") == (text == ""), (text, during)
            assert after == ("" if text == "" else None), (text, after)

        texts = st.one_of(st.none(), st.just(""), st.sampled_from(STAMPS), st.text("TZ0189\nx", max_size=9))
        self.hold(texts, holds)
