#!/usr/bin/env python3
"""Proves and builds `bench`, a program that measures calls. It is outside crates/, so that the gate does not spend four
processor minutes on it: its files are bench/crate/NAME.rt.txt, and bench/crate/uses is its line of crates.txt.

    python3 bench/build_bench.py [--folder FOLDER] [--fmt] [--only-try] BENCH

BENCH is the path of the program to make. It is built in a copy of the repository, in --folder or in a folder that is
removed at the end, over the proofs that checks on this machine kept. --fmt lays its files out first, and writes them
back; --only-try interprets it, and proves and builds nothing."""

import argparse
import pathlib
import shutil
import subprocess
import sys
import tempfile

TOP = pathlib.Path(__file__).resolve().parent.parent
FILES = TOP / "bench" / "crate"


def copied(folder):
    """Copies the repository, with the crate in its list, and returns the crate's folder."""
    shutil.copytree(TOP / "crates", folder / "crates", ignore=shutil.ignore_patterns("out"), dirs_exist_ok=True)
    shutil.copy(TOP / "HANDLES", folder)
    (folder / "crates.txt").write_text((TOP / "crates.txt").read_text() + (FILES / "uses").read_text())
    crate = folder / "crates" / "bench"
    (crate / "src").mkdir(parents=True, exist_ok=True)
    for file in FILES.glob("*.rt.txt"):
        shutil.copy(file, crate / "src" / file.stem)
    return crate


def main():
    words = argparse.ArgumentParser(description=__doc__, formatter_class=argparse.RawDescriptionHelpFormatter)
    words.add_argument("--folder", type=pathlib.Path)
    words.add_argument("--fmt", action="store_true")
    words.add_argument("--only-try", action="store_true")
    words.add_argument("bench", type=pathlib.Path)
    words = words.parse_args()
    with tempfile.TemporaryDirectory() as scratch:
        folder = words.folder or pathlib.Path(scratch)
        folder.mkdir(parents=True, exist_ok=True)
        crate = copied(folder)
        if words.fmt:
            subprocess.run(["rt", "fmt"], cwd=crate, check=True)
            for file in (crate / "src").glob("*.rt"):
                shutil.copy(file, FILES / f"{file.name}.txt")
        # Without arguments it prints its usage and ends with status 2.
        ran = subprocess.run(["rt", "try" if words.only_try else "run"], cwd=crate)
        if words.only_try:
            sys.exit(ran.returncode != 2)
        if not (crate / "out" / "bench").exists():
            sys.exit("bench is not built")
        shutil.copy(crate / "out" / "bench", words.bench)


if __name__ == "__main__":
    main()
