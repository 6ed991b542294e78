"""openlink-probe against the readers' site: it waits where it is too fast for one reader, and no probe is lost."""
from __future__ import annotations

import subprocess
import sys
from pathlib import Path

from fixtures import needs
from fixtures.cases import Case
from fixtures.patience import patience
from limits.limited_site import LimitedSite

PROBES = 12  # more than one reader may send to this site at once
# The site's limit is lower than the shipped one, so that it is reached on a slow machine too.
CHANGES = (
    ("http.conf", "zone=openlink_reader_pages:1m rate=30r/s", "zone=openlink_reader_pages:1m rate=2r/s"),
    ("pages.conf", "zone=openlink_reader_pages burst=150", "zone=openlink_reader_pages burst=3"),
)


class SlowSite(LimitedSite):
    def write_configuration(self) -> None:
        super().write_configuration()
        for name, old, new in CHANGES:
            path = Path(self.path(f"openlink/{name}"))
            text = path.read_text(encoding="utf-8")
            assert old in text, f"{name} has no {old}"
            path.write_text(text.replace(old, new), encoding="utf-8")


@needs.nginx()
@needs.program()
class Probes(Case):
    def test_many_probes(self) -> None:
        site = SlowSite(processes=2)
        self.addCleanup(site.stop)
        site.start()
        path = site.path("probes.tsv")
        with open(path, "w", encoding="utf-8") as file:
            file.writelines(f"id=doi:10.5555/{number}\tdoi-resolver\n" for number in range(PROBES))
        words = ["update/probe", path, f"http://127.0.0.1:{site.port}", f"http://127.0.0.1:{site.report_port}"]
        done = subprocess.run(
            [sys.executable, *words], capture_output=True, text=True, timeout=patience(60), check=False
        )
        self.expect("all hold", (done.returncode, done.stdout, done.stderr), (0, "", ""))
        refused = Path(site.path("log/openlink.log")).read_text(encoding="utf-8").count(" 429 ")
        self.expect(f"{refused} came too soon", refused > 0)
