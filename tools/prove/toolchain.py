"""The toolchain: `rattle build`, which proves a crate and builds it, and `rattle-link`, which links the program.

A library is built with --statements: the crates above it then load what it states, and not its proofs, which halves the
time of all proofs. `rt lib` has no such flag."""

import os
import subprocess


class Toolchain:
    def __init__(self):
        self.version = _output("version")
        self._root = os.path.dirname(_output("doc").strip())

    def proof(self, crates, name, jobs):
        """Returns the command that proves the crate and builds its library or, of the program, its object file."""
        root = self._root
        words = [f"{root}/bin/rattle", "build", "--crate-name", name, "--jobs", str(jobs)]
        for library in ("std", *crates.of_toolchain[name]):
            words += ["--extern", f"{library}={root}/rlibs/{library}.rlib"]
        for dep in crates.deps[name]:
            words += ["--extern", f"{dep}={crates.built(dep)}"]
        words += ["-L", f"dependency={root}/rlibs", "-L", f"dependency={crates.proofs}"]
        words += ["--antt-project", f"{root}/rattle/logic/antt-project.json", "--logic-built", f"{root}/logic_built"]
        if name == crates.program:
            words += ["--toolchain", f"{root}/toolchain", "--backend", "llvm", "src/main.rt"]
        else:
            words += ["--statements", "src/lib.rt"]
        return [*words, "-o", crates.built(name)]

    def link(self, object_file, program):
        """Returns the command that links the program."""
        root = self._root
        words = [f"{root}/bin/rattle-link", "--target", "x86_64-unknown-linux-gnu", "--toolchain", f"{root}/toolchain"]
        return [*words, "-o", program, object_file, f"{root}/c/libos_c.a", f"{root}/c/liblibc_c.a"]


def _output(word):
    return subprocess.run(["rt", word], stdout=subprocess.PIPE, text=True, check=True).stdout
