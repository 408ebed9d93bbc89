#!/usr/bin/env python3
"""Measures what each crate costs the gate: runs `rt ci`, and prints for each crate the processor seconds of its check
and build, of its tests with their check, of its edits, and of everything else (links, runs). It needs only Linux and
Python 3.

    python3 dev/measure_gate.py [--anew] [CRATE ..]

It measures all crates unless some are named. The lines of `rt ci` come first; its last line and its status are also
this script's. The seconds are those that the system counts for each process that `rt` waits for, so they grow with
other work on the machine, and on that of its neighbours. So it also times a short loop, on each processor in turn, and
says about how many minutes an idle machine takes. With --anew `rt ci` proves again what a kit keeps of earlier runs.
SIGTERM ends it with what was measured by then."""

import argparse
import collections
import multiprocessing
import os
import pathlib
import re
import signal
import statistics
import subprocess
import sys
import tempfile
import time

TOP = pathlib.Path(__file__).resolve().parent.parent
# Python reads this when `rt` starts: it prints, after each process that was waited for, a line with its seconds, its
# folder and its arguments.
NOTES = '''
import os, subprocess
class Popen(subprocess.Popen):
    def __init__(self, args, *rest, **how):
        self.place = how.get("cwd") or os.getcwd()
        super().__init__(args, *rest, **how)
    def _try_wait(self, flags):
        try:
            number, status, usage = os.wait4(self.pid, flags)
        except ChildProcessError:
            return self.pid, 0
        if number == self.pid:
            words = self.args if isinstance(self.args, str) else " ".join(map(os.fspath, self.args))
            with open(os.environ["GATE_COSTS"], "a", errors="replace") as file:
                print(usage.ru_utime + usage.ru_stime, self.place, words.replace("\\n", " "), sep="\\t", file=file)
        return number, status
subprocess.Popen = Popen
'''
KINDS = ("check", "tests", "edits", "else")
CPUS = os.sched_getaffinity(0)


def kind(place, words):
    """The crate that a process was for, and what it did there."""
    named = re.search(r" --crate-name (\w+)", words)
    crate = named[1] if named else (re.search(r"/crates/(\w+)", f"{place} {words}") or ["", "others"])[1]
    if "/rt-edit-" in place:
        return crate, "edits"
    if not named:
        return crate, "else"
    return crate, "tests" if re.search(r" --test( |$)", words) else "check"


def loop_seconds():
    """What a loop that uses no memory takes: on a processor that a neighbour shares, up to twice its least."""
    begun, total = time.process_time(), 0
    for number in range(60_000):
        total += number
    return time.process_time() - begun


def time_loops(path):
    """Writes the seconds of the loop on each processor in turn, until the process is ended."""
    with open(path, "w") as file:
        while True:
            for cpu in sorted(CPUS):
                os.sched_setaffinity(0, {cpu})
                print(loop_seconds(), file=file, flush=True)
                time.sleep(0.2)


def slowdown(loops):
    """How many times longer than on an idle machine the checks took, from the seconds that the loops took beside them.

    38 checks of one crate were timed while neighbours kept the processors more or less busy. Each took 4.3 seconds and
    19 for each time that the loop took its least, by the harmonic mean (1.1 to 2.1 times), give or take one second."""
    if not loops:
        return 1
    least = sorted(loops)[len(loops) // 100]
    return (4.3 + 19 * statistics.harmonic_mean(loops) / least) / (4.3 + 19)


def main():
    options = argparse.ArgumentParser(description=__doc__, formatter_class=argparse.RawDescriptionHelpFormatter)
    options.add_argument("--anew", action="store_true", help="prove again what is kept of earlier runs")
    options.add_argument("crates", nargs="*", metavar="CRATE")
    given = options.parse_args()
    command = ["rt", "ci", *["--anew"] * given.anew, *given.crates]
    with tempfile.TemporaryDirectory() as folder:
        pathlib.Path(folder, "sitecustomize.py").write_text(NOTES)
        costs = pathlib.Path(folder, "costs")
        costs.touch()
        loops = pathlib.Path(folder, "loops")
        loops.touch()
        multiprocessing.Process(target=time_loops, args=(loops,), daemon=True).start()
        ran = subprocess.Popen(
            command, cwd=TOP, stdout=subprocess.PIPE, stderr=subprocess.STDOUT, text=True, errors="replace",
            env={**os.environ, "PYTHONPATH": folder, "GATE_COSTS": str(costs)}
        )
        signal.signal(signal.SIGTERM, lambda *_: ran.terminate())
        line = ""
        for line in ran.stdout:
            print(line, end="", flush=True)
        status = ran.wait()
        slower = slowdown([float(each) for each in loops.read_text().splitlines()])
        found = collections.defaultdict(collections.Counter)
        for cost in costs.read_text(errors="replace").splitlines():
            seconds, place, words = cost.split("\t", 2)
            crate, what = kind(place, words)
            found[crate][what] += float(seconds)
    print("crate", *KINDS, sep="\t")
    for crate, of in sorted(found.items(), key=lambda each: -each[1].total()):
        print(crate, *[f"{of[what]:.0f}" for what in KINDS], sep="\t")
    whole = sum(map(collections.Counter.total, found.values()))
    print("minutes of all crates", *[f"{sum(of[what] for of in found.values()) / 60:.0f}" for what in KINDS], sep="\t")
    print(f"{whole / 60:.0f} processor minutes, and about {whole / 60 / slower:.0f} on an idle machine")
    print(line, end="")
    sys.exit(status)


if __name__ == "__main__":
    main()
