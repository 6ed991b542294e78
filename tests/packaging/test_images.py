"""The images: each instruction of the Containerfiles, each command of a RUN, and each line of .containerignore is one
that its table explains."""
from __future__ import annotations

import glob
import re

from fixtures import needs
from fixtures.cases import Case
from packaging import declarations
from packaging import spoiling

CONTAINER = "packaging/container/Containerfile"
PATHS = [CONTAINER, "packaging/kubernetes/Containerfile"]
IGNORED = ".containerignore"


class Images(Case):
    """What the Containerfiles declare, and what an engine takes for them."""

    def test_each_instruction_is_as_its_table_says(self) -> None:
        self.expect("the files", sorted(glob.glob("packaging/**/Containerfile", recursive=True)), PATHS)
        spoiling.check_files(self, *PATHS, IGNORED)

    def test_each_spoilt_line_is_a_fault(self) -> None:
        spoiling.check_spoilt(self, *PATHS, IGNORED)

    def test_the_logs_of_the_site_go_to_the_container(self) -> None:
        with open(CONTAINER, encoding="utf-8") as file:
            text = file.read()
        named = set()
        for path in ("front_door/openlink.conf", "front_door/readers.conf", "front_door/http.conf"):
            with open(path, encoding="utf-8") as file:
                named |= set(re.findall(r"^ *(?:access|error)_log (/var/log/\S+?)[ ;]", file.read(), re.M))
        self.expect("logs of the site", len(named) >= 3)
        self.expect("logs that the image does not have", [it for it in sorted(named) if it not in text], [])

    @needs.python_module("yaml", "python3-yaml")
    def test_the_command_of_an_operator_gives_the_rights_of_the_pods(self) -> None:
        with open("packaging/kubernetes/base/deployment.yaml", encoding="utf-8") as file:
            entries = declarations.yaml(file.read())
        container = "spec > template > spec > containers > 1 > volumeMounts"
        mounted = [it for it in entries if it.place.startswith(container)]
        kept = {it.place for it in mounted if it.name == "readOnly"}
        written = [it.value for it in mounted if it.name == "mountPath" and it.place not in kept]
        with open(CONTAINER, encoding="utf-8") as file:
            text = file.read()
        words = _command_of(text)
        self.expect("all rights are taken", _given(words, "--cap-drop"), ["ALL"])
        self.expect("rights that are given", [it for it in words if it.startswith(("--cap-add", "--privileged"))], [])
        self.expect("no program gives more", _given(words, "--security-opt"), ["no-new-privileges"])
        self.expect("the root is for reading alone", "--read-only" in words)
        self.expect("what is written", _given(words, "--tmpfs"), written)
        self.expect("who may write there", re.findall(r"&& chmod 1777 (.*)", text), [" ".join(written)])

    @needs.python_module("yaml", "python3-yaml")
    def test_all_have_one_user_who_is_not_root(self) -> None:
        with open("packaging/kubernetes/base/deployment.yaml", encoding="utf-8") as file:
            entries = declarations.yaml(file.read())
        ids = [it.value for name in ("runAsUser", "runAsGroup") for it in entries if it.name == name]
        self.expect("the user of the pods", len(ids) == 2 and "0" not in ids)
        for path in PATHS:
            with open(path, encoding="utf-8") as file:
                text = file.read()
            self.expect(path, re.findall(r"^USER (.*)", text, re.M), [":".join(ids)])
            last = re.findall(r"^(?:FROM|USER).*", text, re.M)[-1]
            self.expect(f"{path}: what follows", last, f"USER {':'.join(ids)}")
        with open(CONTAINER, encoding="utf-8") as file:
            command = _command_of(file.read())
        self.expect("no other one", [it for it in command if it in ("--user", "-u", "--group-add")], [])

    def test_the_user_may_listen_at_the_ports_of_the_site(self) -> None:
        """In podman's container from the lowest port on, and in a pod by the port's number."""
        with open("front_door/openlink.conf", encoding="utf-8") as file:
            ports = _ports_of(file.read())
        with open(CONTAINER, encoding="utf-8") as file:
            text = file.read()
        self.expect("ports below 1024", len([it for it in ports if it < 1024]) >= 5)
        name, _, least = _given(_command_of(text), "--sysctl")[0].partition("=")
        self.expect("the option", (name, int(least)), ("net.ipv4.ip_unprivileged_port_start", min(ports)))
        with open("packaging/kubernetes/base/openlink.conf", encoding="utf-8") as file:
            ports = _ports_of(file.read())
        self.expect("ports of a pod", len(ports) >= 3 and min(ports) >= 1024)


def _command_of(text: str) -> list[str]:
    """The words of `podman run` in a Containerfile."""
    command = re.search(r"^#   podman run (?:.*\\\n)*.*", text, re.M)
    return command[0].replace("\\\n#", "").split() if command else []


def _given(words: list[str], option: str) -> list[str]:
    return [after for it, after in zip(words, words[1:]) if it == option]


def _ports_of(site: str) -> list[int]:
    """The ports of a site and of its processes."""
    return [int(it) for it in re.findall(r"^ +(?:listen |server 127\.0\.0\.1:)(\d+)", site, re.M)]
