#!/usr/bin/env python3
"""Checks a crate before the libraries below it are proved: `rattle check` reads these from their sources, as `rt try`
does. It is for work on a crate that stands high while lower ones are still being checked, and gives no verdict for the
gate.

    python3 dev/check_over_sources.py CRATE [--test] [--only PATH ..] [other flags of `rattle check`]

A library that is already built in this checkout (out/rlib with a stamp), with all below it, is used as it is. Kept work
goes to out/sources of the crate. It needs Linux, Python 3 and the toolchain's `rattle` on the path."""

import pathlib
import shutil
import subprocess
import sys

TOP = pathlib.Path(__file__).resolve().parent.parent


def listed():
    """The libraries that each crate of crates.txt uses."""
    lines = (line.partition("#")[0].strip() for line in (TOP / "crates.txt").read_text().splitlines())
    pairs = (line.split(":", 1) for line in lines if ":" in line)
    return {head.split()[0]: libraries.split() for head, libraries in pairs}


def below(crate, uses, found):
    """Adds the repository's crates below one to `found`, lowest first."""
    for library in uses[crate]:
        if library in uses and library not in found:
            below(library, uses, found)
            found.append(library)
    return found


def main():
    crate, *flags = sys.argv[1:] or sys.exit(__doc__)
    kit = pathlib.Path(
        shutil.which("rattle") or sys.exit("check_over_sources: no `rattle` on the path")
    ).resolve().parent.parent
    uses = listed()
    if crate not in uses:
        sys.exit(f"check_over_sources: crates.txt has no {crate}")
    order = below(crate, uses, [])
    built = []
    for library in order:
        rlib = TOP / "crates" / library / "out/rlib"
        if (rlib / "stamp").exists() and all(it in built for it in uses[library] if it in uses):
            built.append(library)
    words = []
    for library in sorted({"std", "core"} | {it for of in [*order, crate] for it in uses[of] if it not in uses}):
        words += ["--extern", f"{library}={kit}/rlibs/{library}.rlib"]
    words += ["-L", f"dependency={kit}/rlibs"]
    for library in order:
        folder = TOP / "crates" / library
        if library in built:
            words += ["--extern", f"{library}={folder}/out/rlib/{library}.rlib"]
        else:
            words += ["--lib", f"{library}:{','.join(['core', 'std', *uses[library]])}={folder}/src/lib.rt"]
    folder = TOP / "crates" / crate
    (folder / "out").mkdir(exist_ok=True)
    words += ["--antt-project", f"{kit}/rattle/logic/antt-project.json", "--logic-built", f"{kit}/logic_built"]
    words += ["--incremental", "out/sources", "--links", f"{crate}="]
    root = "src/main.rt" if (folder / "src/main.rt").exists() else "src/lib.rt"
    print("from sources:", *(it for it in order if it not in built), flush=True)
    sys.exit(subprocess.run(
        [f"{kit}/bin/rattle", "check", "--crate-name", crate, root, *words, *flags], cwd=folder
    ).returncode)


if __name__ == "__main__":
    main()
