"""The doors of a trial, by a module that says what each has."""
from __future__ import annotations

import http.client
import json
import os
import tempfile
from pathlib import Path

from fixtures import needs
from fixtures.cases import Case
from fixtures.patience import patience
from openlink_update.site import front_door

SITE = """js_path {folder}/;
js_import door from door.js;
js_preload_object targets from {folder}/none.json;
js_var $openlink_list "a list";
"""
MODULE = """function json(r) {
    const names = ['openlink_folder', 'openlink_upstream', 'openlink_list'];
    r.return(200, JSON.stringify(names.map((name) => r.variables[name]).concat(targets.name)));
}
export default { json, report: json };
"""


def said(address: str, page: str) -> object:
    peer = http.client.HTTPConnection(address.removeprefix("http://"), timeout=patience(10))
    try:
        peer.request("GET", f"/{page}")
        return json.loads(peer.getresponse().read())
    finally:
        peer.close()


@needs.nginx()
class Doors(Case):
    def setUp(self) -> None:
        super().setUp()
        room = tempfile.TemporaryDirectory()
        self.addCleanup(room.cleanup)
        self.folder = Path(room.name)
        os.chmod(self.folder, 0o755)
        texts = {"site.conf": SITE.format(folder=room.name), "door.js": MODULE, "processes.conf": ""}
        for name, text in {**texts, "a.json": '{"name": "a"}', "b.json": '{"name": "b"}'}.items():
            (self.folder / name).write_text(text, encoding="utf-8")

    def test_what_each_has(self) -> None:
        """Doors with the same targets.json share a server, for which nginx compiles the module, and nothing else."""
        doors = (("one", "a", 11), ("two", "b", 12), ("three", "a", 13))
        with front_door.FrontDoor(front_door.Site(self.folder / "site.conf"), self.folder / "trial") as trial:
            found = [trial.add_door([port], Path(f"/{at}"), f"{self.folder}/{it}.json") for at, it, port in doors]
            trial.start()
            text = (self.folder / "trial/nginx.conf").read_text(encoding="utf-8")
            for (at, targets, port), address in zip(doors, found):
                upstream = f"door{address.rpartition(':')[2]}"
                for page in ("find.json", "report.txt"):
                    self.expect(f"{at}: {page}", said(address, page), [f"/{at}", upstream, "a list", targets])
                ports = text.partition(f"upstream {upstream} {{\n")[2].partition("}")[0].split()
                self.expect(f"{at}: its processes", ports, ["server", f"127.0.0.1:{port}", "max_fails=0;"])
        self.expect("servers", text.count("    server {\n"), 2)
