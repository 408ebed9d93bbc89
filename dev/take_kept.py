#!/usr/bin/env python3
"""Gives this checkout the libraries that `rt ci` keeps on this machine, so that neither `rt check` in a crate's folder
nor dev/check_over_sources.py proves or reads them anew.

    python3 dev/take_kept.py

It takes a library only if it was proved from the sources that stand here, over libraries that are taken too, and names
those that it took. It reads the toolchain's `rt` as a module: kit 13f. Needs Linux and Python 3."""

import importlib.machinery
import importlib.util
import pathlib
import shutil
import sys

TOP = pathlib.Path(__file__).resolve().parent.parent


def toolchain():
    """Returns the toolchain's `rt` as a module."""
    path = shutil.which("rt") or sys.exit("take_kept: no `rt` on the path")
    loader = importlib.machinery.SourceFileLoader("rt", str(pathlib.Path(path).resolve()))
    module = importlib.util.module_from_spec(importlib.util.spec_from_loader("rt", loader))
    loader.exec_module(module)
    return module


def take(kept, crate, taken):
    """Takes a crate's library, and returns whether it was there."""
    if crate.is_program or crate.is_static or not all(it.name in taken for it in crate.below()):
        return False
    key = kept.key(crate)
    if not pathlib.Path(kept.place(crate, False, key)).is_dir():
        return False
    # What else stands there would have `rt` take the kept files for damaged ones, and remove them.
    shutil.rmtree(pathlib.Path(crate.folder, "out/rlib"), ignore_errors=True)
    if not kept.give(crate, False, key):
        return False
    kept.is_built(crate)
    pathlib.Path(crate.folder, "out/rlib/stamp").write_text(crate.stamp())
    return True


def main():
    if len(sys.argv) > 1:
        sys.exit(__doc__)
    rt = toolchain()
    rt.Crate.allowed = rt.handles_of(str(TOP))
    crates = rt.crates_of(str(TOP))
    kept = rt.Kept(crates)
    taken = []
    for crate in crates:
        if take(kept, crate, taken):
            taken.append(crate.name)
    print("taken:", *taken)


if __name__ == "__main__":
    main()
