"""The counts of months: what rotated logs hold is counted once and stays, whatever becomes of the files; and no other
file than a log of the library is read."""
from __future__ import annotations

import gzip
import io
import os
import random
from collections import Counter
from pathlib import Path

from desk.made_desk import LINE
from desk.made_desk import MadeDesk
from fixtures.cases import Case
from openlink_update.counts import log_counts
from openlink_update.desk import logs
from openlink_update.desk import months
from openlink_update.site.front_door import Site


def line(month: str, source: str = "WOS", found: str = "1/2") -> str:
    return LINE.format(month=month, found=found, targets="press", source=source)


class MonthsCase(Case):
    def counted(self, desk: MadeDesk) -> dict[tuple[str, str, str], int]:
        """The counts of a desk's logs, after those that it has stored."""
        paths = [desk.logs / it for it in ("openlink.log", "openlink-wanted.log")]
        found = months.of(desk.before, logs.folders_of(paths))
        desk.before = desk.top / "before"
        desk.before.mkdir(exist_ok=True)
        found.write(desk.before)
        return {(month, kind, name): number for month, kind, name, number in found.rows}

    def requests(self, desk: MadeDesk) -> dict[str, int]:
        return {key[0]: number for key, number in self.counted(desk).items() if key[1] == "requests"}


class Months(MonthsCase):
    def test_weeks_of_rotation(self) -> None:
        """Forty days, each with its own number of lines, of which logs of 14 days are kept, as Debian does: at the end
        each line was counted once. A day without a run, and three runs on one day, change nothing."""
        random.seed(8)
        wanted: Counter[str] = Counter()
        with MadeDesk() as desk:
            days = [[line(f"2026-{10 + day // 31}")] * random.randint(1, 9) for day in range(40)]
            for day, lines in enumerate(days):
                for number in range(14, 0, -1):  # as logrotate with delaycompress
                    for suffix in ("", ".gz"):
                        path = desk.logs / f"openlink.log.{number}{suffix}"
                        if path.exists() and number == 14:
                            path.unlink()
                        elif path.exists() and number == 1:
                            mark = path.stat().st_mtime
                            (desk.logs / "openlink.log.2.gz").write_bytes(gzip.compress(path.read_bytes()))
                            os.utime(desk.logs / "openlink.log.2.gz", (mark, mark))
                            path.unlink()
                        elif path.exists():
                            path.rename(desk.logs / f"openlink.log.{number + 1}{suffix}")
                if (desk.logs / "openlink.log").exists():
                    (desk.logs / "openlink.log").rename(desk.logs / "openlink.log.1")
                desk.log("openlink.log", lines, day)
                wanted[lines[0][:7]] += len(lines)
                for _ in range(0 if day % 5 == 3 and day != 39 else 3 if day % 5 == 1 else 1):
                    got = self.requests(desk)
            self.expect("each line once", got, dict(wanted))
            self.expect("months", len(wanted), 2)
            for path in desk.logs.iterdir():
                path.unlink()
            without_today = {**wanted, "2026-11": wanted["2026-11"] - len(days[-1])}
            self.expect("when all logs are gone", self.requests(desk), without_today)

    def test_same_as_one_count(self) -> None:
        """The counts of ten files are those of all their lines, of all kinds."""
        random.seed(5)
        with MadeDesk() as desk:
            every: list[str] = []
            for number in range(10):
                lines = [
                    line(f"2026-{random.randint(1, 9):02}", random.choice("abc"), random.choice(("0/0", "0/1", "2/2")))
                    for _ in range(200)
                ] + ["an odd line\n"]
                every += lines
                desk.log("openlink.log" + (f".{number}.gz" if number else ""), lines, number)
            desk.log("openlink-wanted.log", ["2026-03 2901-0012 2019\n"] * 7)
            every_row = log_counts.counts_of([io.BytesIO("".join(every).encode())]).rows()
            wanted = {(month, kind, name): number for month, kind, name, number in every_row}
            wanted["2026-03", "asked in vain", "2901-0012"] = 7
            self.expect("kinds", len({key[1] for key in wanted}) >= 6, True)
            self.expect("the counts", self.counted(desk), wanted)
            self.expect("and again", self.counted(desk), wanted)

    def test_broken_files(self) -> None:
        with MadeDesk() as desk:
            desk.log("openlink.log.2.gz", [line("2026-05")] * 50_000, 1)
            path = desk.logs / "openlink.log.2.gz"
            path.write_bytes(path.read_bytes()[:-30])
            (desk.logs / "openlink.log.3.gz").write_bytes(b"no gzip")
            (desk.logs / "openlink.log.8.gz").write_bytes(gzip.compress(b"")[:10] + b"\xff" * 20)  # a block of no kind
            os.mkfifo(desk.logs / "openlink.log.4")
            (desk.logs / "openlink.log.5").mkdir()
            (desk.top / "other.log").write_text(line("2026-03"))
            (desk.logs / "openlink.log.6").symlink_to(desk.top / "other.log")
            (desk.logs / "openlink.log.7").touch(0o600)
            for number, path in enumerate((desk.top / "other.log", *desk.logs.glob("openlink.log.[378]*")), 1):
                os.utime(path, (number, number))  # of one time, the second would count as the first
            desk.log("openlink.log", [line("2026-06")])
            found = self.requests(desk)
            self.expect("up to where it breaks off", (0 < found["2026-05"] <= 50_000, found["2026-06"]), (True, 1))
            self.expect("months", sorted(found), ["2026-05", "2026-06"])

    def test_files_of_one_time(self) -> None:
        """A file that is being compressed counts once; files of two logs that were rotated at once both count."""
        with MadeDesk() as desk:
            desk.log("openlink.log.1", [line("2026-05")] * 3, 1)
            (desk.logs / "openlink.log.1.gz").write_bytes(gzip.compress((desk.logs / "openlink.log.1").read_bytes()))
            desk.log("openlink-wanted.log.1", ["2026-05 2901-0012 2019\n"] * 2, 1)
            mark = int((desk.logs / "openlink.log.1").stat().st_mtime)
            for path in desk.logs.iterdir():
                os.utime(path, (mark, mark))
            os.utime(desk.logs / "openlink.log.1", (mark + 0.25, mark + 0.25))  # some programs cut it to whole seconds
            for name in ("at first", "and again"):
                found = self.counted(desk)
                numbers = found["2026-05", "requests", ""], found["2026-05", "asked in vain", "2901-0012"]
                self.expect(name, numbers, (3, 2))

    def test_order(self) -> None:
        """Of each kind the greatest numbers come first, and of equal ones the names in their order."""
        with MadeDesk() as desk:
            desk.log("openlink.log", [line("2026-05", source) for source in "bcacbd"])
            paths = [desk.logs / "openlink.log"]
            rows = months.of(desk.before, logs.folders_of(paths)).rows
            found = [(name, number) for _, kind, name, number in rows if kind == "source"]
            self.expect("sources", found, [("b", 2), ("c", 2), ("a", 1), ("d", 1)])

    def test_no_other_file(self) -> None:
        """Names beside those of the library's logs are refused, as another library's."""
        with MadeDesk() as desk:
            for name in (
                "openlink.log",
                "openlink.law.log",
                "openlink.log.1",
                "openlink.log.2.gz",
                "openlink.log-20261101",
                "openlink.log-20261030.gz",
                "error.log",
                "openlink.log.x",
                "openlink.log~",
            ):
                desk.log(name, [line("2026-05")])
            folder = logs.LogFolder(desk.logs, ["openlink.log"])
            open_ones = []
            for name in sorted(os.listdir(desk.logs)):
                try:
                    os.close(folder.file((name,)))
                    open_ones.append(name)
                except PermissionError:
                    pass
            names = ["openlink.log", "openlink.log-20261030.gz", "openlink.log-20261101", "openlink.log.1"]
            self.expect("its own", open_ones, [*names, "openlink.log.2.gz"])
            for parts in ((), ("..", "openlink.log"), ("openlink.log", "x"), ("openlink.log/../error.log",)):
                self.assertRaises(OSError, folder.file, parts)

    def test_logs_of_a_site(self) -> None:
        with MadeDesk() as desk:
            site = desk.top / "site.conf"
            site.write_text(
                """server {
    access_log /var/log/nginx/openlink.law.log openlink;
    #access_log /var/log/nginx/other.log openlink;
    access_log "/var/log/nginx/openlink.law.wanted.log" openlink_wanted if=$openlink_wanted;
    access_log /var/log/nginx/of-another-form.log combined;
    access_log off;
}
"""
            )
            self.expect(
                "its logs",
                list(map(str, Site(site).logs)),
                ["/var/log/nginx/openlink.law.log", "/var/log/nginx/openlink.law.wanted.log"],
            )

    def test_bounds(self) -> None:
        """Of months that are over the names that occur most are kept, and the others are counted together."""
        with MadeDesk() as desk:
            desk.log(
                "openlink.log.1", [line("2026-01", f"s{it:04}") for it in range(400)] + [line("2026-01", "s0399")], 1
            )
            desk.log("openlink.log.2", [line(f"{1990 + it // 12}-{it % 12 + 1:02}") for it in range(36 * 12)], 2)
            desk.log("openlink.log.3", [line("2026-05"), line("2026-04")], 3)
            self.counted(desk)
            found = self.counted(desk)
            sources = {key[2]: number for key, number in found.items() if key[:2] == ("2026-01", "source")}
            self.expect("names of a month", (len(sources), sources["s0399"], sources["(others)"]), (301, 2, 100))
            self.expect("months", len({key[0] for key in found}), 120)


class StateOnDisk(MonthsCase):
    def test_damaged_state(self) -> None:
        with MadeDesk() as desk:
            desk.before.mkdir()
            text = "2026-05\trequests\t\t7\n"
            text += "2026-05\trequests\t\t-3\nx\n2026-05\trequests\t\t\u0667\n2026-05\trequests\t\t1\t1\n"
            Path(desk.before, "months.tsv").write_text(text)
            self.expect("lines that are whole", self.requests(desk), {"2026-05": 7})
