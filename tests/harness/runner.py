"""Runs tests side by side, each in a process of its own, and counts what they checked."""

import argparse
import contextlib
import dataclasses
import os
import pathlib
import re
import signal
import subprocess
import sys
import tempfile
import threading
import time
from concurrent.futures import ThreadPoolExecutor, as_completed

from harness.machine import Machine, Missing
from harness.processes import SLOWNESS, ending, on_signals, processors
from harness.programs import SCRATCH, programs_in
from harness.tests import GIVEN, TESTS, all_tests, found, given, Test

# The seconds that a test may take, with what is compiled for it.
LIMIT = 280 * SLOWNESS
# How many times as long a slow one may take.
SLOW = 4
# The seconds that it then has to remove what it made.
GRACE = 5
# The number of tests that run at a time; most of them wait most of the time.
LANES = 6 + processors() // 2
# How many tests may be flaky. One more fails the run.
FLAKY = 3


class Groups:
    """The running tests, each in its own session, which is ended as a whole."""

    def __init__(self):
        self.lock, self.running, self.is_over = threading.RLock(), set(), False

    @contextlib.contextmanager
    def started(self, words, **how):
        """Starts a process, and kills at its end whatever it started."""
        with self.lock:
            if self.is_over:
                raise Missing("a run that goes on")
            process = subprocess.Popen(words, stdin=subprocess.DEVNULL, start_new_session=True, **how)
            self.running.add(process)
        try:
            yield process
        finally:
            self.end([process])
            with self.lock:
                self.running.discard(process)

    @staticmethod
    def end(processes):
        """Lets the processes that still run remove their folders. Then kills all that they or the ended ones
        started."""
        running = [process for process in processes if process.poll() is None]
        for process in running:
            process.terminate()
        end = time.monotonic() + GRACE
        for process in running:
            with contextlib.suppress(subprocess.TimeoutExpired):
                process.wait(max(0.0, end - time.monotonic()))
        for process in processes:
            with contextlib.suppress(ProcessLookupError):
                os.killpg(process.pid, signal.SIGKILL)
            process.wait()

    def ran(self, words, **how):
        """Runs a command, and returns the same as `subprocess.run`, with all output in `stdout`."""
        with self.started(words, stdout=subprocess.PIPE, stderr=subprocess.STDOUT, text=True, **how) as process:
            said, _ = process.communicate(timeout=LIMIT)
        return subprocess.CompletedProcess(words, process.returncode, said)

    def end_all(self, number, _):
        """Handles a signal: ends all running tests, starts no other, and ends this script. Tests are started by other
        threads than the one that gets the signal, so none of them holds the lock that it waits for."""
        with self.lock:
            self.is_over = True
            self.end(list(self.running))
        sys.exit(128 + number)


@dataclasses.dataclass
class Outcome:
    """The result of a test: how many checks passed and failed, and the lines about them."""

    test: Test
    passed: int = 0
    failed: int = 0
    seconds: float = 0
    lines: list = dataclasses.field(default_factory=list)

    def left(self):
        return [f"{self.test.name}: {line[6:]}" for line in self.lines if line.startswith("left  ")]

    def show(self, shows_all):
        print(f"{self.test.name}: {self.passed} passed, {self.failed} failed, {self.seconds:.0f} s")
        for line in self.lines:
            if line.startswith("left  "):
                print(f"    left out: {line[6:]}")
            elif shows_all or line.startswith("WRONG"):
                print(f"    {line}")
        sys.stdout.flush()


class Run:
    """A run of tests on this machine."""

    def __init__(self, machine, is_slow):
        self.machine, self.is_slow = machine, is_slow

    def outcome_of(self, test):
        """Runs a test, and ends with it whatever it started."""
        if test.is_slow and not self.is_slow:
            return Outcome(test, lines=["left  it takes minutes: --slow runs it"])
        begun = time.monotonic()
        try:
            self.machine.prepare(test.needs, test.programs)
            return self.counted(test, *self.ran(test), time.monotonic() - begun)
        except Missing as missing:
            return Outcome(test, lines=[f"left  it needs {missing}"])
        except (RuntimeError, OSError, subprocess.SubprocessError) as fault:
            return Outcome(test, failed=1, lines=[f"WRONG {fault}"])

    def ran(self, test):
        """The lines of a test, and what is wrong with its end."""
        machine, most = self.machine, LIMIT * (SLOW if test.is_slow else 1)
        environment = {
            **machine.environment, GIVEN: machine.given.written(), SCRATCH: str(machine.scratch),
            "PYTHONDONTWRITEBYTECODE": "1"
        }
        words, fault = [sys.executable, TESTS / "run", "--alone", test.name], ""
        with tempfile.TemporaryFile("w+", errors="replace") as said:
            how = {"cwd": machine.scratch, "env": environment, "stdout": said, "stderr": subprocess.STDOUT}
            with machine.groups.started(words, **how) as process:
                try:
                    process.wait(most)
                except subprocess.TimeoutExpired:
                    fault = f"it did not end in {most:.0f} seconds"
            said.seek(0)
            lines = said.read().splitlines()
        if not fault and process.returncode not in (0, 1):
            fault = f"it ended with status {process.returncode}"
        return lines, fault

    def counted(self, test, lines, fault, seconds):
        """The result of a test that ended, by its last line."""
        counts = re.fullmatch(r"(\d+) passed, (\d+) failed", lines[-1] if lines else "")
        if not fault and not counts:
            fault = "it ended without a count"
        if fault:
            return Outcome(test, 0, 1, seconds, [*[f"WRONG {line}" for line in lines[-8:]], f"WRONG {fault}"])
        if {"services_in_c", "both_in_c"} & {*test.needs} and self.machine.lacks_sanitizers:
            lines.insert(
                0,
                "left  the sanitizers of addresses and of undefined behavior, which cc has not, or which don't run here"
            )
        outcome = Outcome(test, int(counts[1]), int(counts[2]), seconds, lines[:-1])
        if not outcome.passed and not outcome.failed and not outcome.left():
            return Outcome(test, 0, 1, seconds, [*lines[:-1], "WRONG it checks nothing"])
        return outcome


def side_by_side(run, chosen, shows_all):
    """Runs the tests, the longest first, and shows each result as it comes. Returns the results."""
    found = []
    with ThreadPoolExecutor(LANES) as pool:
        for ran in as_completed(
            [pool.submit(run.outcome_of, test) for test in sorted(chosen, key=lambda test: -test.seconds)]
        ):
            found.append(ran.result())
            found[-1].show(shows_all)
    return found


def go(run, chosen, shows_all):
    """Runs the tests, and returns how many checks passed and failed. A test that fails beside others is run once more,
    alone. If it passes then, it is flaky, and reported."""
    passed = failed = 0
    flaky, left = [], []
    for outcome in side_by_side(run, chosen, shows_all):
        if outcome.failed:
            print("once more, alone:")
            # In another thread, as before: this one handles signals.
            with ThreadPoolExecutor(1) as pool:
                outcome = pool.submit(run.outcome_of, outcome.test).result()
            outcome.show(shows_all)
            flaky += [outcome.test.name] * (not outcome.failed)
        passed, failed, left = passed + outcome.passed, failed + outcome.failed, left + outcome.left()
    listed("LEFT OUT, NOT TRIED HERE", sorted(left))
    listed(f"FLAKY: these failed beside others, and passed alone; more than {FLAKY} of them fail the run", flaky)
    return passed, failed + len(flaky) * (len(flaky) > FLAKY)


def uses_stock(test):
    return test.uses_stock or {"mit", "heimdal", "krb5", "kinit", "both_in_c"} & {*test.needs}


def listed(what, lines):
    if lines:
        print(f"{what}:", *lines, sep="\n    ", flush=True)


def alone(name):
    """Runs a test in this process."""
    test, gives = found(name), given()
    with tempfile.TemporaryDirectory() as folder, ending():
        trial = test.trial(programs_in(gives.programs, test.programs), pathlib.Path(folder))
        trial.given = gives
        test.call(trial)
    trial.end()


def main(doc):
    words = argparse.ArgumentParser(description=doc, formatter_class=argparse.RawDescriptionHelpFormatter)
    words.add_argument(
        "-k", nargs="+", default=[""], metavar="WORD", dest="words",
        help="the tests with one of these words in their names, or, if a word is a whole name, that test"
    )
    words.add_argument("--list", action="store_true", help="prints the names of the tests, and runs none")
    words.add_argument(
        "--programs", type=pathlib.Path, help="the folder of the programs, their tests and the library for C"
    )
    words.add_argument("--stock", type=pathlib.Path, help="the folder to unpack the stock programs in, and keep")
    words.add_argument("--slow", action="store_true", help="also the tests that take minutes")
    words.add_argument(
        "--all-lines", action="store_true", help="all lines of each test, and not only those of what was wrong"
    )
    words.add_argument("--alone", metavar="NAME", help=argparse.SUPPRESS)
    words = words.parse_args()
    if words.alone:
        return alone(words.alone)
    tests = all_tests()
    chosen = [
        test for name, test in tests.items()
        if any(word == name if word in tests else word in name for word in words.words)
    ]
    if not chosen:
        sys.exit(f"no test has {' or '.join(words.words)} in its name")
    if words.list:
        return print(*sorted(test.name for test in chosen), sep="\n")
    groups = Groups()
    on_signals(groups.end_all)
    with tempfile.TemporaryDirectory() as folder:
        scratch = pathlib.Path(folder, "programs")
        scratch.mkdir()
        packages = (words.stock or pathlib.Path(folder, "stock")) if any(map(uses_stock, chosen)) else None
        machine = Machine(packages, scratch, groups, words.programs and words.programs.resolve())
        passed, failed = go(Run(machine, words.slow), chosen, words.all_lines)
    print(f"{passed} passed, {failed} failed")
    sys.exit(1 if failed else 0)
