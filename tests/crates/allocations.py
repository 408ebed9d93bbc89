"""Tests of crates with each allocation of each call that they mark refused, one at a time.

A test marks the beginning and the end of a call (`marked` of `base_tests`, `mark` of `exchange_tests`); it calls again
if memory ran out, and asserts what the second call returns and what the first one left. A library that is loaded before
the C library forks at each allocation of a marked call (`refused_memory.c`): in the child this allocation fails, and
the rest of the test has to pass. So one run of a test refuses all allocations of its calls.

There is a check for each test with marks. `marked_calls.txt` says which calls it makes, and how many allocations of
each are refused: a call that is missing, or has fewer, is noticed."""

import os
import pathlib
import re
import subprocess
import tempfile
from concurrent.futures import ThreadPoolExecutor

from harness.processes import PATIENCE, processors
from harness.programs import TOP, refused_memory
from harness.tests import add, Test

# The crates whose tests have marks.
CRATES = ("base_tests", "exchange_tests")
TABLE = pathlib.Path(__file__).with_name("marked_calls.txt")


class Seen:
    """What a test did, by the lines of the report."""

    def __init__(self, program, name, library):
        with tempfile.TemporaryFile("w+", errors="replace") as report, tempfile.TemporaryDirectory() as folder:
            environment = {"PATH": os.environ["PATH"], "LD_PRELOAD": library, "REPORT": str(report.fileno())}
            how = {"cwd": folder, "env": environment, "pass_fds": [report.fileno()], "stdin": subprocess.DEVNULL}
            try:
                ran = subprocess.run(
                    [program, name], stdout=subprocess.PIPE, stderr=subprocess.STDOUT, timeout=4 * PATIENCE, **how
                )
                self.fault = f"the test itself fails: {ran.stdout[-200:]!r}" if ran.returncode else ""
            except subprocess.TimeoutExpired:
                self.fault = "it does not end"
            report.seek(0)
            lines = report.read().splitlines()
        self.name = name
        self.refusals = [int(found[2]) for found in map(re.compile(r"call (\d+) of (\d+)").fullmatch, lines) if found]
        self.wrong = [line for line in lines if line.startswith("wrong ")]

    def ends(self):
        """What is wrong with the test or with its children."""
        ends = [
            self.fault, f"{len(self.wrong)} children end otherwise" * bool(self.wrong), *map(self.shown, self.wrong[:3])
        ]
        return "; ".join(filter(None, ends))

    @staticmethod
    def shown(line):
        _, call, allocation, status, *said = line.split(" ", 4)
        return f"call {call}, allocation {allocation}, wait status {status}: {''.join(said).strip()[-200:]}"


def marked_calls(crate):
    """The table's rows of a crate: for each test the numbers of refusals of its calls."""
    lines = "\n".join(line for line in TABLE.read_text().splitlines() if not line.startswith("#"))
    rows = re.findall(r"^(\S+) (\S+):((?:\s+\d+)+)$", lines, re.M)
    return {name: [int(number) for number in numbers.split()] for of, name, numbers in rows if of == crate}


def difference(found, wanted):
    """How the refusals of a test's calls differ from those of the table."""
    if found == wanted:
        return ""
    place = next((at for at, both in enumerate(zip(found, wanted)) if both[0] != both[1]), min(len(found), len(wanted)))
    return f"from call {place} on {found[place:place + 8]}, in the table {wanted[place:place + 8]}"


def tests_in(program):
    ran = subprocess.run([program, "--list"], stdout=subprocess.PIPE, text=True, check=True)
    return re.findall(r"^(\S+): test$", ran.stdout, re.M)


def program_of(programs, crate):
    """The program of a crate's tests: crates/NAME/out/NAME_tests, which `rt ci` and `rt test` build, or
    FOLDER/NAME_tests."""
    places = [pathlib.Path(programs, f"{crate}_tests"), pathlib.Path(programs, crate, "out", f"{crate}_tests")]
    return next((place for place in places if place.is_file()), places[-1])


def known(crate):
    """Makes the tests of a crate a test here."""
    def call(trial):
        program = program_of(trial.given.programs, crate)
        if not program.is_file() and trial.given.programs != str(TOP / "crates"):
            return trial.leave(f"{program} is not there")
        if not program.is_file():
            return trial.note(crate, f"{program} is not there")
        library = refused_memory()
        with ThreadPoolExecutor(processors()) as pool:
            found = list(pool.map(lambda name: Seen(program, name, library), tests_in(program)))
        wanted = marked_calls(crate)
        for seen in filter(lambda seen: seen.refusals or seen.fault or seen.name in wanted, found):
            fault = seen.ends() or difference(seen.refusals, wanted.get(seen.name, []))
            trial.note(f"{crate} {seen.name}: {len(seen.refusals)} calls, {sum(seen.refusals)} refusals", fault)
        missing = wanted.keys() - {seen.name for seen in found}
        trial.note(f"{crate}: each test of the table", ", ".join(sorted(missing)) or "" if wanted else "there is none")

    add(Test(f"crates/allocations/{crate}", call, seconds=60))


for each in CRATES:
    known(each)
