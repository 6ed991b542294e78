"""The processor time that the front door takes in njs for the reading of a request, and for the header Accept-Language,
as a multiple of what a peer takes in the same run. The peer splits, decodes, encodes and joins the pairs of a usual
request with JavaScript's own functions. On a slow or busy machine both take longer, and their ratio stays."""
from __future__ import annotations

import os
import resource
import subprocess
import tempfile

from fixtures import needs
from fixtures.cases import Case
from fixtures.readings import write_modules

TRIES = 9
SECONDS = 20  # of processor time, after which a script that does not end is killed
SCRIPT = """import languages from './languages.js';
import reading from './reading.js';
const USUAL = 'ctx_ver=Z39.88-2004&rft_val_fmt=info%3Aofi%2Ffmt%3Akev%3Amtx%3Ajournal&rfr_id=info%3Asid%2Fexample.org'
    + '&rft.genre=article&rft.atitle=Storm+surges+and+the+growth+of+eelgrass&rft.jtitle=Annals+of+Tidal+Studies'
    + '&rft.issn=2901-0012&rft.eissn=2908-0142&rft.date=2003-05-01&rft.volume=12&rft.issue=3&rft.spage=101'
    + '&rft.epage=118&rft.aulast=Smith&rft.aufirst=Jane&rft_id=info%3Adoi%2F10.5555%2Ftidal.2003';
const pairs = USUAL.split('&').map((pair) => pair.split('=').map((it) => decodeURIComponent(it.split('+').join(' '))));
function pairsOf(key, value, count) { return Array(count).fill(0).map(() => [key, value]); }
// The replies of the program to a usual request, and to others of 8 KB, as it reads them.
const readings = {
    usual: pairs, long: pairs.concat([['rft.description', 'word and, '.repeat(900)]]),
    many: pairsOf('rft.issn', '1234-567', 300), other: pairsOf('a', 'b', 300),
    latin: [['rft.atitle', '\\xe9'.repeat(1300)]], marks: [['rft.atitle', '%&+'.repeat(1000)]],
    issns: pairsOf('rft.issn', '2901-0012 '.repeat(20), 40),
    isbns: [['x.isbn', '9781234560102']].concat(pairsOf('rft.isbn', '9781234560102 '.repeat(14), 40)),
    digits: [['x.isbn', '9781234560102']].concat(pairsOf('rft.isbn', '1'.repeat(200), 40)),
    identifiers: pairsOf('rft_id', 'https://pmc.ncbi.nlm.nih.gov/', 270)
};
Object.keys(readings).forEach((name) => {
    const notes = { left_out: 0, retracted: false };
    readings[name] = JSON.stringify({ links: [], notes, pairs: readings[name] });
});
// What the front door does with a reply, if something else is found.
function read(text) {
    const q = new reading.Reading(USUAL);
    q.take(JSON.parse(text));
    q.pmc();
    return q.textToRead() + q.strictTexts().join(' ');
}
const headers = {
    commas: ','.repeat(8192),
    ranges: 'x-1-2-3-4-5-6;q=0.001,'.repeat(370),
    hyphens: 'de' + '-a'.repeat(4095),
    spaces: 'de' + ' '.repeat(8190),
    stars: '*,'.repeat(4096)
};
const offered = 'en de fr es pt-BR zh-Hant ar he pl cs'.split(' ');
function written(part) { return encodeURIComponent(decodeURIComponent(part.split('+').join(' '))); }
function peer() { return USUAL.split('&').map((pair) => pair.split('=').map(written).join('=')).join('&'); }
for (let i = 0; i < COUNT; i++) CALL;
"""
# For each: how often a script calls it, so that no script takes long, and how many calls of the peer may at most take
# as long as one of it. When these limits were set, it was 1.8, 5, 15, 19, 5, 4, 4, 20, 7 and 20, and for the headers
# 1.7, 6, 0.4, 0.5 and 2.6. A limit of 40 is 2.4 ms where the peer takes 0.06 ms.
REQUESTS: dict[str, tuple[int, float]] = {
    "usual": (200, 4),
    "long": (100, 10),
    "many": (40, 30),
    "other": (40, 38),
    "latin": (15, 10),
    "marks": (15, 9),
    "issns": (15, 10),
    "isbns": (15, 40),
    "digits": (15, 15),
    "identifiers": (15, 40),
}
HEADERS: dict[str, tuple[int, float]] = {
    "commas": (400, 4),
    "ranges": (100, 16),
    "hyphens": (3000, 1),
    "spaces": (3000, 1),
    "stars": (300, 6),
}
CALLS = {
    "nothing": ("0", 0),
    "peer": ("peer()", 500),
    **{name: (f"read(readings.{name})", count) for name, (count, _) in REQUESTS.items()},
    **{name: (f"languages.chosen(headers.{name}, offered)", count) for name, (count, _) in HEADERS.items()},
}


def limit_time() -> None:
    resource.setrlimit(resource.RLIMIT_CPU, (SECONDS, SECONDS))


def took(folder: str, name: str) -> tuple[int, float]:
    """The status of a script that makes the calls of this name, and its seconds of processor time."""
    call, count = CALLS[name]
    with open(f"{folder}/speed.js", "w") as file:
        file.write(SCRIPT.replace("CALL", call).replace("COUNT", str(count)))
    child = subprocess.Popen(["njs", "-p", folder, f"{folder}/speed.js"], preexec_fn=limit_time)
    _, status, usage = os.wait4(child.pid, 0)
    child.returncode = status
    return status, usage.ru_utime + usage.ru_stime


def costs_of(least: dict[str, float]) -> dict[str, float]:
    """For each request and header the calls of the peer that take as long, from the least times of all scripts."""
    one = {name: max(0, least[name] - least["nothing"]) / count for name, (_, count) in CALLS.items() if count}
    return {name: one[name] / (one["peer"] or 1e-9) for name in (*REQUESTS, *HEADERS)}


@needs.command("njs")
class Speed(Case):
    """No reading and no header costs more than its limit."""

    def test_costs(self) -> None:
        """Each costs at most what it may. The least time of each script counts, since other processes on the machine
        make a time longer and never shorter. Those that cost more are measured again beside the peer, up to nine
        times."""
        most = {name: most for name, (_, most) in {**REQUESTS, **HEADERS}.items()}
        least: dict[str, float] = {}
        costs: dict[str, float] = {}
        with tempfile.TemporaryDirectory() as folder:
            write_modules(folder)
            names = [*CALLS]
            for _ in range(TRIES):
                for name in names:
                    status, seconds = took(folder, name)
                    if status != 0:
                        self.fail(f"the script of {name}, which has {SECONDS} s of processor time: status {status}")
                    least[name] = min(seconds, least.get(name, seconds))
                costs = costs_of(least)
                names = ["nothing", "peer", *(name for name in costs if costs[name] > most[name])]
                if len(names) == 2:
                    break
        self.expect("readings and headers", len(costs), 15)
        for name, cost in costs.items():
            self.expect(
                f"{name} costs {cost:.2f} times what the peer does, and {most[name]} are allowed", cost <= most[name]
            )
