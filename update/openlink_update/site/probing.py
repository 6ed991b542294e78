"""The library's probes: what each shows in the version in use and in the new one."""
import dataclasses
import subprocess
from collections.abc import Sequence
from pathlib import Path

from openlink_update import children
from openlink_update.input_files import InputFolder
from openlink_update.outcome import Failure
from openlink_update.site import probes
from openlink_update.site.probes import Probe, Unreachable

_SECONDS = 300  # until a version is loaded
_CONNECTIONS = "1000000"


@dataclasses.dataclass(frozen=True)
class Difference:
    """A probe that does not hold, and lines that say why."""

    probe: Probe
    lines: list[str]


class Probes:
    def __init__(self, folder: InputFolder, name: str) -> None:
        """The probes of a file, if there is one. A Failure says which line is wrong."""
        self.path = folder.place(name)
        self.list: list[Probe] = []
        try:
            if folder.exists(name):
                self.list = probes.read(folder.read(name))
        except (OSError, ValueError) as fault:
            raise Failure(f"{self.path}: {getattr(fault, 'strerror', None) or fault}") from fault

    def links(self, door: str) -> list[dict[str, str]]:
        """The links of each probe, by target, at the address of a front door."""
        try:
            return [probes.links(door, probe.query) or {} for probe in self.list]
        except Unreachable as fault:
            raise Failure(str(fault)) from fault

    def differences(self, door: str) -> list[Difference]:
        """The probes that do not hold there."""
        return self.tried(door)[0]

    def tried(self, door: str) -> tuple[list[Difference], list[dict[str, str]]]:
        """The probes that do not hold there, and the links of each probe."""
        try:
            menus = [probes.links(door, probe.query) for probe in self.list]
            lines = [probes.differences_of(menu, door, probe) for menu, probe in zip(menus, self.list)]
        except Unreachable as fault:
            raise Failure(str(fault)) from fault
        differing = [Difference(probe, text) for probe, text in zip(self.list, lines) if text]
        return differing, [menu or {} for menu in menus]

    def keep_those_that_hold(self, links: Sequence[dict[str, str]]) -> tuple[list[dict[str, str]], list[str]]:
        """Leaves out the probes that do not hold with these links. Returns the links of the others, and the lines of
        those that are left out."""
        pairs = list(zip(self.list, links))
        holding = [(probe, menu) for probe, menu in pairs if set(menu) == set(probe.targets)]
        others = [str(probe.number) for probe, menu in pairs if set(menu) != set(probe.targets)]
        self.list = [probe for probe, _ in holding]
        return [menu for _, menu in holding], others

    def changes(self, old: Sequence[dict[str, str]], new: Sequence[dict[str, str]]) -> list[str]:
        """Lines that say which links each probe gains and loses, and those that lead elsewhere."""
        lines = []
        for probe, before, after in zip(self.list, old, new):
            parts = [f"  gains {name} {after[name]}" for name in after if name not in before]
            parts += [f"  loses {name} {before[name]}" for name in before if name not in after]
            parts += [
                f"  {name} {before[name]} is now {after[name]}"
                for name in after
                if name in before and before[name] != after[name]
            ]
            if parts:
                lines += [f"{self.path}:{probe.number}: {probe.query}", *parts]
        return lines


class Trial:
    """A process that serves a version at a port for as long as the block lasts."""

    def __init__(self, program: str, version: Path, port: int) -> None:
        self._program, self._version, self._port = program, version, port

    def __enter__(self) -> "Trial":
        words = [self._program, "serve", "registry.tsv", str(self._port), _CONNECTIONS]
        self._child = children.start(words, self._version, stdout=subprocess.DEVNULL, stderr=subprocess.PIPE)
        if not children.wait_for(self._port, self._child, _SECONDS):
            children.stop(self._child)
            message = self._child.stderr.read().decode("utf-8", "replace").strip() if self._child.stderr else ""
            self._close()
            raise Failure(f"{self._version} cannot be served: {message or 'it does not listen'}")
        return self

    def __exit__(self, *_: object) -> None:
        children.stop(self._child)
        self._close()

    def _close(self) -> None:
        if self._child.stderr:
            self._child.stderr.close()
