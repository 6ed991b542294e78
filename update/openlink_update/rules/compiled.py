"""Where a version has the rules of a target as they are compiled: as they came, or behind a proxy."""
from pathlib import Path

FOLDER = "rules"  # of those behind a proxy


def behind(name: str) -> str:
    """The path of a target's rules behind a proxy below a version, which has them if the target has one."""
    return f"{FOLDER}/{name}.rules"


def path_in(version: Path, name: str) -> str:
    """The path of a target's rules below a version."""
    return behind(name) if (version / behind(name)).exists() else f"received/{name}.rules"
