"""The objects of packaging/kubernetes: each field is one that its table explains."""
from __future__ import annotations

import glob

from fixtures import needs
from fixtures import yaml_files
from fixtures.cases import Case
from packaging import declarations
from packaging import spoiling

FOLDER = "packaging/kubernetes"
# What must be among the files that are found.
NAMES = [
    "base/deployment",
    "base/disruption-budget",
    "base/ingress",
    "base/kustomization",
    "base/network-policy",
    "base/service",
    "second/host",
    "second/kustomization",
]


def files() -> list[str]:
    return sorted(glob.glob(f"{FOLDER}/**/*.yaml", recursive=True))


def flat(value: object, place: tuple[str, ...] = ()) -> list[tuple[str, str, str]]:
    """A value of YAML in the form of entries."""
    if isinstance(value, list) and not any(isinstance(it, (dict, list)) for it in value):
        return [(" > ".join(place[:-1]), place[-1], ", ".join(str(it) for it in value))]
    if isinstance(value, (dict, list)):
        pairs = value.items() if isinstance(value, dict) else enumerate(value, 1)
        return [entry for name, below in pairs for entry in flat(below, (*place, str(name)))]
    return [(" > ".join(place[:-1]), place[-1], str(value))]


@needs.python_module("yaml", "python3-yaml")
class Objects(Case):
    """What the files declare."""

    def test_each_field_is_as_its_table_says(self) -> None:
        found = files()
        self.expect("files that are missing", [it for it in NAMES if f"{FOLDER}/{it}.yaml" not in found], [])
        spoiling.check_files(self, *found)

    def test_each_spoilt_line_is_a_fault(self) -> None:
        spoiling.check_spoilt(self, *files())

    def test_all_probes_ask_the_same_page(self) -> None:
        with open(f"{FOLDER}/base/deployment.yaml", encoding="utf-8") as file:
            entries = declarations.yaml(file.read())
        commands = [it.value for it in entries if it.name == "command" and "Probe" in it.place]
        self.expect("probes", (len(commands), len(set(commands))), (3, 1))

    def test_what_the_reader_refuses(self) -> None:
        for text in ("a: 1\n   b: 2\n", "a:\n    b: 1\n  c: 2\n", "no name\n", "a:\n  b: 1\n   - c\n"):
            with self.assertRaises(ValueError, msg=text):
                declarations.yaml(text)
            self.compared += 1

    def test_the_entries_are_what_yaml_means(self) -> None:
        for path in files():
            with open(path, encoding="utf-8") as file:
                text = file.read()
            words = {"true": "True", "false": "False"}
            read = [
                (place, name, words.get(value, value.replace('"', "")))
                for place, name, value in declarations.yaml(text)
            ]
            self.expect(path, read, flat(yaml_files.read(path)))
