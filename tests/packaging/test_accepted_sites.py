"""nginx takes the sites as they are: that of openlink.conf with all that an operator may take out of its comments,
beside balancer.conf, and that of the pods."""
from __future__ import annotations

import os
import re
import shutil
import subprocess
import tempfile

from fixtures import needs
from fixtures.cases import Case
from fixtures.certificates import write_certificate
from openlink_update import children

PORTS = ("80", "443", "8077", "8078", "8079", "8080")
MODULE = "/usr/lib/nginx/modules/ngx_http_js_module.so"
_COMMENTED = re.compile(r"^( *)#(?=[^\s#]|    )", re.M)


def text_of(path: str) -> str:
    with open(path, encoding="utf-8") as file:
        return file.read()


@needs.nginx()
@needs.command("openssl")
class Sites(Case):
    """A folder that stands for a machine with the front door."""

    def setUp(self) -> None:
        self.folder = tempfile.mkdtemp(prefix="sites.")
        self.addCleanup(shutil.rmtree, self.folder)
        for name in ("log", "tls", "conf.d", "etc", "cache"):
            os.mkdir(f"{self.folder}/{name}")
        shutil.copytree("front_door", f"{self.folder}/front_door")
        write_certificate(f"{self.folder}/tls/privkey.pem", f"{self.folder}/tls/fullchain.pem", "a")
        self.ports = {port: str(children.free_port()) for port in PORTS}
        for name in os.listdir("front_door"):
            if name.endswith(".conf"):
                self.put(f"front_door/{name}", text_of(f"front_door/{name}"))
        temporary = "".join(
            f"{kind}_temp_path {self.folder}/cache/{kind};\n"
            for kind in ("client_body", "proxy", "fastcgi", "uwsgi", "scgi")
        )
        self.put(
            "nginx.conf",
            f"load_module {MODULE};\npid {self.folder}/pid;\nevents {{}}\nhttp {{\n{temporary}"
            f"include {self.folder}/conf.d/*.conf;\n}}\n",
        )

    def put(self, name: str, text: str) -> None:
        """Writes a file, with the paths and the ports of this folder."""
        for old, new in (
            ("/usr/local/share/openlink/nginx", "front_door"),
            ("/var/log/nginx", "log"),
            ("/etc/openlink", "etc"),
            ("/etc/nginx/openlink/targets.json", "front_door/targets.json"),
            ("/var/lib/nginx", "cache"),
            ("/etc/letsencrypt/live/links.library.example.org", "tls"),
            ("/etc/ssl/certs/ca-certificates.crt", "tls/fullchain.pem"),
        ):
            text = text.replace(old, f"{self.folder}/{new}")
        text = re.sub(r"(\blisten (?:127\.0\.0\.1:|\[::\]:)?)(\d+)(?=[ ;])", lambda it: it[1] + self.ports[it[2]], text)
        if not os.path.exists("/proc/net/if_inet6"):
            text = re.sub(r"^.*listen \[::\].*\n", "", text, flags=re.M)
        with open(f"{self.folder}/{name}", "w", encoding="utf-8") as file:
            file.write(text)

    def said(self) -> str:
        """What nginx has to say."""
        words = ["nginx", "-t", "-q", "-p", self.folder, "-c", f"{self.folder}/nginx.conf", "-e", "stderr"]
        path = f"{os.environ.get('PATH', '')}:/usr/sbin"
        done = subprocess.run(words, env={**os.environ, "PATH": path}, capture_output=True, text=True, check=False)
        return done.stderr + (f"status {done.returncode}" if done.returncode else "")

    def test_openlink_conf_with_all_that_is_optional(self) -> None:
        text = text_of("front_door/openlink.conf")
        count = len(_COMMENTED.findall(text))
        self.expect(f"{count} lines in comments", count >= 40)
        self.put("conf.d/openlink.conf", _COMMENTED.sub(r"\1", text))
        self.put("conf.d/balancer.conf", text_of("front_door/balancer.conf"))
        self.expect("nginx -t", self.said(), "")
        self.put("conf.d/openlink.conf", text.replace("least_conn", "least_con"))
        self.expect("an unknown directive", 'unknown directive "least_con"' in self.said())

    def test_the_site_of_the_pods(self) -> None:
        self.put("conf.d/openlink.conf", text_of("packaging/kubernetes/base/openlink.conf"))
        self.expect("nginx -t", self.said(), "")
