"""Writes docs/contracts.txt from the sources: cd tests && python3 -m sources.writing_contracts
Read the difference before you commit it."""
from __future__ import annotations

from fixtures import TOP
from sources import contracts


def main() -> None:
    lines = contracts.lines_of(contracts.Sources(TOP).contracts())
    with open(f"{TOP}/{contracts.PATH}", "w", encoding="utf-8") as file:
        file.write("\n".join([contracts.HEAD, *lines]) + "\n")
    print(f"{contracts.PATH}: {len(lines)} calls")


if __name__ == "__main__":
    main()
