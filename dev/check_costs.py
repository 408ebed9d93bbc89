#!/usr/bin/env python3
"""Checks a crate from nothing and prints how many seconds of a processor each function took, the dearest first.

    python3 dev/check_costs.py [--most N] CRATE [-- FLAG ..]

It removes what dev/check_over_sources.py kept, runs it with these flags, for example `--test` or `--only PATH`, and
reads the processor time of its processes ten times a second. A function's seconds are those between the file that the
check wrote before and the function's own: what the check does between two functions counts for the second. A library
below that is not built in this checkout is checked too, so take the kept ones first (dev/take_kept.py). `Lts` is what
the borrow checker leaves to prove, `Tie` what the contracts come to, `Proof` what is searched. It needs Linux and
Python 3."""

import argparse
import bisect
import collections
import os
import pathlib
import re
import shutil
import subprocess
import sys
import time

TOP = pathlib.Path(__file__).resolve().parent.parent
PARTS = ("Lts", "Tie", "Proof")
FILE = re.compile(r"Rattle-\w+-(?:specs|proofs)\.(.+?)\.(\w+?)(?:\.(?:Given|View))?\.oantt$")
TICKS = os.sysconf("SC_CLK_TCK")


def seconds_of(process):
    """The processor seconds of a process, of those below it, and of ended ones that these waited for."""
    parents, seconds = collections.defaultdict(list), {}
    for folder in pathlib.Path("/proc").iterdir():
        if folder.name.isdigit():
            try:
                fields = (folder / "stat").read_text().rpartition(")")[2].split()
            except OSError:
                continue
            parents[int(fields[1])].append(int(folder.name))
            seconds[int(folder.name)] = sum(map(int, fields[11:15])) / TICKS
    total, left = 0, [process]
    while left:
        each = left.pop()
        total += seconds.get(each, 0)
        left += parents[each]
    return total


def checked(crate, flags):
    """Runs the check, and returns the moments at which its processor time was read, and the seconds read then."""
    words = [sys.executable, str(TOP / "dev/check_over_sources.py"), crate, "--jobs", "1", *flags]
    moments, seconds = [time.time()], [0]
    with subprocess.Popen(words) as check:
        while check.poll() is None:
            time.sleep(0.1)
            moments.append(time.time())
            seconds.append(max(seconds[-1], seconds_of(check.pid)))
    return moments, seconds


def costs_of(kept, moments, seconds):
    """For each function the seconds of its parts, and those of what else it has."""
    files = sorted((each.stat().st_mtime, each.name) for each in kept.rglob("*.oantt") if "records" not in each.parts)
    found, before = collections.defaultdict(collections.Counter), None
    for at, name in files:
        taken = seconds[min(bisect.bisect(moments, at), len(seconds) - 1)]
        # What comes before the first file is the front end's.
        if before is not None and (part := FILE.match(name)):
            found[part[1]][part[2] if part[2] in PARTS else "rest"] += taken - before
        before = taken
    return found


def main():
    words = argparse.ArgumentParser(description=__doc__, formatter_class=argparse.RawDescriptionHelpFormatter)
    words.add_argument("crate")
    words.add_argument("--most", type=int, default=30, help="how many functions it prints")
    words.add_argument("flags", nargs="*", metavar="FLAG", help="flags of `rattle check`")
    words = words.parse_args()
    kept = TOP / "crates" / words.crate / "out/sources"
    shutil.rmtree(kept, ignore_errors=True)
    found = costs_of(kept, *checked(words.crate, words.flags))
    if not found:
        sys.exit("check_costs: the check wrote no file")
    print("seconds", *PARTS, "rest", "function", sep="\t")
    for name, of in sorted(found.items(), key=lambda each: -each[1].total())[: words.most]:
        print(*(f"{seconds:.1f}" for seconds in (of.total(), *(of[part] for part in (*PARTS, "rest")))), name, sep="\t")
    print(f"{sum(of.total() for of in found.values()):.0f} seconds")


if __name__ == "__main__":
    main()
