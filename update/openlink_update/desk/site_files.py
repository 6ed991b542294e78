"""The files of a desk: each page in each language of the site, the tables for spreadsheets, the style, and in `state/`
what the next desk needs."""
import dataclasses
import datetime
import shutil
from collections.abc import Iterator, Sequence
from pathlib import Path

from openlink_update import shown_text
from openlink_update.counts.log_counts import Row
from openlink_update.desk import (
    collection,
    lint_lines,
    metrics,
    months,
    targets,
    templates_in,
    titles_page,
    week,
    words_in,
    year,
)
from openlink_update.desk.lint_lines import LintLines
from openlink_update.desk.months import Months
from openlink_update.desk.templates_in import FOLDER
from openlink_update.desk.words_in import Language
from openlink_update.root_folder import RootFolder
from openlink_update.run_records import RunRecord
from openlink_update.shown_text import line_of
from openlink_update.site import targets_file
from openlink_update.versions.library import STAMP
from openlink_update.versions.program import Program

STATE = "state"  # which nginx does not serve
_STYLE = "desk.css"
_MOST_RULES, _MOST_PROBES = 1000, 50  # lines of a target, and probes
_HEADING = ("target", "state", "rows", "added", "gone", "table of", "lines")
_HEADING_OF_COUNTS = ("month", "counted", "name", "number")


@dataclasses.dataclass(frozen=True)
class Source:
    """What a desk is made of."""

    version: Path | None  # in use
    before: Path  # the state of the desk before
    records: list[RunRecord]
    folders: list[tuple[RootFolder, list[str]]]  # of logs
    targets: Path | None  # targets.json
    program: str
    now: datetime.datetime


class _Files:
    """Writes the pages of one desk into a folder."""

    def __init__(self, folder: Path, source: Source) -> None:
        self._folder, self._source = folder, source
        self._site = _site_in(source.targets)
        self._languages = words_in.languages_of(_languages_in(self._site))
        self._targets = targets.targets_in(source.version) if source.version else []

    def write(self) -> None:
        state = self._folder / STATE
        state.mkdir()
        shutil.copyfile(FOLDER / _STYLE, self._folder / _STYLE)
        counts = months.of(self._source.before, self._source.folders)
        counts.write(state)
        self._write_week()
        self._write_year(counts)
        titles = self._write_collection()
        month = self._source.now.strftime("%Y-%m")
        shown = metrics.text_of(self._source.records, self._targets, titles, counts.rows, month)
        (state / metrics.NAME).write_text(shown, encoding="utf-8", errors="replace")
        self._write_rules(state)
        first = self._folder / f"week.{self._languages[0].tag}.html"
        shutil.copyfile(first, self._folder / "index.html")

    def _page(self, template: str, page: str, file: str, **values: object) -> None:
        """Writes a page in each language. Values that are made for a language are functions of it."""
        for t in self._languages:
            made = {name: value(t) if callable(value) else value for name, value in values.items()}
            text = templates_in.page(
                template,
                **made,
                moment=_moment,
                t=t,
                page=page,
                file=file,
                pages=("week", "year", "collection", "rules"),
                languages=self._languages,
                library=_name_of(self._site, t),
                made=self._source.now.strftime("%Y-%m-%d %H:%M UTC"),
            )
            self._put(f"{file}.{t.tag}.html", text)

    def _put(self, name: str, text: str) -> None:
        (self._folder / name).write_text(text, encoding="utf-8", errors="replace")

    def _put_table(self, name: str, rows: Iterator[Sequence[str]]) -> None:
        with open(self._folder / name, "w", encoding="utf-8", errors="replace") as file:
            file.writelines(f"{shown_text.row(cells)}\n" for cells in rows)

    def _write_week(self) -> None:
        source = self._source

        def shown(t: Language) -> week.Week:
            return week.week_of(source.records, self._targets, source.now, t)

        self._page("week.html", "week", "week", week=shown, has_version=source.version is not None)
        self._put_table("week.tsv", _cells_of(shown(self._languages[0])))

    def _write_year(self, counts: Months) -> None:
        self._page("year.html", "year", "year", year=year.year_of(counts.rows))
        self._put_table("year.tsv", _cells_of_counts(counts.rows))

    def _write_collection(self) -> int | None:
        """Returns how many titles the version has, if there is one."""
        version = self._source.version
        found = collection.collection_of(version, self._source.now.date()) if version else None
        shown = titles_page.titles_of(found) if found else None
        self._page("collection.html", "collection", "collection", titles=shown)
        if found:
            self._put_table("collection.tsv", iter(titles_page.cells_of(found)))
            self._put_table("overlaps.tsv", iter(found.rows()))
        return found.titles if found else None

    def _write_rules(self, state: Path) -> None:
        self._page("rules.html", "rules", "rules", names=[target.name for target in self._targets])
        version = self._source.version
        if version is None:
            return
        lint = LintLines(self._source.before, Program(self._source.program, version))
        probes = next((record.probes for record in self._source.records if record.probes), ())
        for target in self._targets:
            found = targets.rules_of(version, target.name, _MOST_RULES)
            lines, is_cut = found if found else (None, False)
            of_lines, others = lint_lines.beside(lines, lint.of(target)) if lines is not None else ({}, [])
            own = [probe for probe in probes if target.name in probe.targets.split()][:_MOST_PROBES]
            values = {"target": target, "lines": lines, "is_cut": is_cut, "of_lines": of_lines, "others": others}
            self._page("target.html", "rules", f"target-{target.name}", probes=own, **values)
        lint.write(state)


def _moment(stamp: str) -> str:
    """A stamp as a person reads it."""
    try:
        return datetime.datetime.strptime(stamp, STAMP).strftime("%Y-%m-%d %H:%M")
    except ValueError:
        return ""


def write(folder: Path, source: Source) -> None:
    """Writes a desk into an empty folder."""
    _Files(folder, source).write()


def _cells_of(shown: week.Week) -> Iterator[Sequence[str]]:
    yield _HEADING
    for row in shown.rows:
        said, lines = row.said, row.said.lines if row.said else ()
        numbers = (row.rows, said.added, said.gone) if said else (row.rows, 0, 0)
        day = row.target.day if row.target else ""
        yield row.name, said.state if said else "", *map(str, numbers), day, " | ".join(lines)


def _cells_of_counts(rows: Sequence[Row]) -> Iterator[Sequence[str]]:
    yield _HEADING_OF_COUNTS
    for month, kind, name, number in rows:
        yield month, kind, name, str(number)


def _site_in(path: Path | None) -> dict[str, object]:
    """What a targets.json says; nothing if it is damaged, or there is none."""
    try:
        with open(path or "", "rb") as file:
            return targets_file.parsed(file.read(targets_file.MOST_BYTES + 1), []) or {}
    except OSError:
        return {}


def _languages_in(site: dict[str, object]) -> list[str]:
    languages = site.get("languages")
    return [it for it in languages if isinstance(it, str)] if isinstance(languages, list) else []


def _name_of(site: dict[str, object], t: Language) -> str:
    """The library's name in a language."""
    words = site.get("words")
    name = words.get("library") if isinstance(words, dict) else None
    if isinstance(name, dict):
        name = name.get(t.tag, next(iter(name.values()), None))
    return line_of(name, 100) if isinstance(name, str) else ""
