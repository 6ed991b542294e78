"""The tables of expected/ themselves: each row has a reason, and each table has its declaration."""
from __future__ import annotations

import glob
from unittest import mock

from fixtures.cases import Case
from packaging import completing
from packaging import expected_table
from packaging import spoiling

PATH = "packaging/systemd/example.timer"
TEXT = "[Timer]\nOnCalendar=Mon 04:00\nPersistent=yes\n"
TABLE = (
    "# A comment.\n\t[Timer]\t\tthe section of times\n[Timer]\tOnCalendar\tMon 04:00\tonce a week, early\t.*:00\n"
    "[Timer]\tPersistent\tyes\tno week is missed\n[Timer]\tUnit\t(none)\tits own name is enough\n"
)


class Tables(Case):
    """What a table finds, and which tables are refused."""

    def faults(self, old: str, new: str) -> str:
        """The faults of the text with this change."""
        self.assertIn(old, TEXT)
        return "\n".join(expected_table.faults(PATH, TEXT.replace(old, new), expected_table.rows_of(TABLE)))

    def test_each_difference_is_a_line(self) -> None:
        for old, new, wanted in (
            ("yes", "yes", ""),
            ("Persistent=yes\n", "", "missing: [[Timer]] Persistent yes: no week is missed"),
            ("=yes", "=no", "changed to 'no': [[Timer]] Persistent yes: no week is missed"),
            ("Mon", "Tue", "changed to 'Tue 04:00': [[Timer]] OnCalendar Mon 04:00: once a week, early"),
            ("=yes\n", "=yes\nUnit=a\n", "must not be there: [[Timer]] Unit a: its own name is enough"),
            ("=yes\n", "=yes\nA=b\n", "surplus: [[Timer]] A b; if it is right, add the row '[Timer]\\tA\\tb\\tREASON'"),
            (
                "[Timer]\nOnCalendar=Mon 04:00\nPersistent=yes",
                "[Timer]\nPersistent=yes\nOnCalendar=Mon 04:00",
                "[[Timer]] Persistent yes where the table has [[Timer]] OnCalendar Mon 04:00",
            ),
            ("=yes", "", "no directive: Persistent"),
        ):
            self.expect(f"{old!r} as {new!r}", self.faults(old, new), f"{PATH}: {wanted}" if wanted else "")

    def test_a_row_without_a_reason_is_refused(self) -> None:
        for old, new in (
            ("\tno week is missed", ""),
            ("no week is missed", "yes"),
            ("\tOnCalendar", "\t"),
            (".*:00", ".*:30"),
            ("once a week, early\t", "once a week, early\tmore\t"),
        ):
            self.assertIn(old, TABLE)
            with self.assertRaises(ValueError, msg=new):
                expected_table.rows_of(TABLE.replace(old, new))
            self.compared += 1

    def test_a_completed_table_keeps_what_was_written(self) -> None:
        text = TEXT.replace("Mon", "Tue") + "Unit=a.service\nAccuracySec=1s\n"
        table = completing.completed(PATH, text, TABLE)
        self.expect_lines(
            "rows",
            table,
            "# A comment.",
            "[Timer]\tPersistent\tyes\tno week is missed",
            "[Timer]\tOnCalendar\tTue 04:00\tREASON (before, Mon 04:00: once a week, early)",
            "[Timer]\tAccuracySec\t1s\tREASON",
            "[Timer]\tUnit\t(none)\tits own name is enough",
        )
        with self.assertRaises(ValueError):
            expected_table.rows_of(table)
        written = table.replace("REASON", "since this is so")
        self.expect("its faults", expected_table.faults(PATH, text, expected_table.rows_of(written)), [])
        self.expect("nothing is new", completing.completed(PATH, TEXT, TABLE), TABLE)

    def test_each_line_is_spoilt_in_each_way(self) -> None:
        copies = dict(spoiling.spoilt(PATH, TEXT + "# A comment.\n"))
        self.expect(
            "taken out", copies["without line 3: Persistent=yes"], "[Timer]\nOnCalendar=Mon 04:00\n# A comment."
        )
        self.expect("twice", copies["twice line 1: [Timer]"].count("[Timer]"), 2)
        self.expect(
            "moved",
            copies["line 2 after the next: OnCalendar=Mon 04:00"],
            "[Timer]\nPersistent=yes\nOnCalendar=Mon 04:00\n# A comment.",
        )
        self.expect("changed", "Persistent=yesx" in copies["line 3: Persistent=yesx"])
        self.expect("comments are left", [it for it in copies if "line 4" in it], [])
        self.expect("all are seen", spoiling.unseen(PATH, TEXT, TABLE), (len(copies), []))
        with mock.patch.object(expected_table, "faults", return_value=[]):
            count, found = spoiling.unseen(PATH, TEXT, TABLE)
        self.expect("a check that sees nothing", (count, sorted(found)), (len(copies), sorted(copies)))

    def test_each_table_has_its_declaration(self) -> None:
        tables = glob.glob(f"{expected_table.FOLDER}/**/*.tsv", recursive=True)
        paths = [*glob.glob("packaging/**/*", recursive=True), *glob.glob("front_door/*")]
        self.expect(f"{len(tables)} tables", len(tables) >= 25)
        self.expect("tables of nothing", set(tables) - {expected_table.table_of(path) for path in paths}, set())
