"""The sessions beside this file: command lines of `kadm` over files in a folder, each with what it prints.

A session is a file NAME.session, and the test kadm/sessions/NAME. The start of a line says what it is:

    # COMMENT
    % ROW        the options of a command, which usage.py tries: `list db! like long-`
    $ COMMAND    a command line for `sh`; `show_keytab` is tests/harness/show_keytab.py
    > MORE       the command goes on
    < LINE       this is typed at a terminal, which standard input then is; `^D` ends the input
    ~ TEXT       standard output contains this text
    ? TEXT       standard error contains this text
    ! LINE       a line of standard error; `! ...` stands for any text
    [NUMBER]     the status, if it is not 0
    = LINE       the line of a field of a policy in standard output. Such lines that follow each other stand for a whole
                 policy: all other fields, each in its place, are as a new principal's with random keys (FIELDS in
                 tests/harness/databases.py)
    LINE         another line of standard output

A line that ends in ` (no-eol)` has no line feed. Each session begins with the files in FILES. A command that does not
succeed has to leave all files as they were; it may make an empty lock. `CLOCK=`, `DRAWS=` and `HELD=` are settings of
tests/harness/fixed_system.c. A command with `FAILS=NAME,..` runs once for each of its calls of the system. Another one
fails each time, with the result that is written. These names have to be among the calls. A call after the last `rename`
is one that syncs the folder: if it fails, the file has to be the new one, and the command says so."""

import dataclasses
import itertools
import pathlib
import re

from harness import databases
from harness.checks import expect
from harness.programs import HARNESS, TOP, fixed_system
from harness.tests import add, Test
from harness.trial import Trial

FOLDER = TOP / "tests" / "kadm" / "sessions"
# The files that each session begins with; `fields` has the names of the fields of a policy, a line each, and `newest` a
# database in the newest version.
FILES = {
    "seed": bytes([7] * 40), "short": bytes([7] * 31), "pass": b"password\nmore", "long": b"a" * 1025,
    "fields": "".join(f"{field.name}\n" for field in databases.FIELDS), "newest": databases.one_row_text(),
}
# The calls that a command has to make, and that fail one after another.
FAILS = re.compile(r"\bFAILS=([a-z_,]+)")


@dataclasses.dataclass
class Step:
    """A command, and the result that is wanted."""

    number: int
    command: str
    typed: list = dataclasses.field(default_factory=list)
    printed: list = dataclasses.field(default_factory=list)
    texts: list = dataclasses.field(default_factory=list)
    faults: list = dataclasses.field(default_factory=list)
    said: list = dataclasses.field(default_factory=list)
    status: int = 0

    def take(self, line):
        """Takes a line after the command."""
        mark, _, rest = line.partition(" ")
        if mark == ">":
            self.command += f"\n{rest}"
        elif mark in (marked := {"<": self.typed, "~": self.texts, "?": self.faults, "!": self.said}):
            marked[mark].append(rest)
        elif status := re.fullmatch(r"\[(\d+)\]", line):
            self.status = int(status[1])
        else:
            self.printed.append(line)

    def wanted(self, ran):
        """The status, standard output and standard error. What the session leaves open is taken as it came."""
        printed, said = text_of(self.printed), text_of(self.said)
        if self.texts:
            printed = ran.out if all(text in ran.out for text in self.texts) else f".. {self.texts} .."
        if self.faults:
            said = ran.err if all(text in ran.err for text in self.faults) else f".. {self.faults} .."
        if self.said == ["..."]:
            said = ran.err or "some text"
        return self.status, printed, said

    def place(self):
        return f"line {self.number}, {self.command}"

    def compare(self, ran, what):
        expect(f"{self.place()}{what}", (ran.status, ran.out, ran.err), self.wanted(ran))


def text_of(lines):
    return "".join(f"{line}\n" for line in lines).replace(" (no-eol)\n", "")


def steps_of(path):
    steps = []
    lines = enumerate(path.read_text().splitlines(), 1)
    for is_policy, block in itertools.groupby(lines, lambda numbered: numbered[1].startswith("= ")):
        if is_policy:
            steps[-1].printed += databases.policy_lines(line[2:] for _, line in block)
            continue
        for number, line in block:
            if line.startswith("$ "):
                steps.append(Step(number, line[2:]))
            elif line and not line.startswith(("#", "%")):
                steps[-1].take(line)
    return steps


def files(folder):
    """What the plain files hold, but for empty locks."""
    found = {path.name: path.read_bytes() for path in folder.iterdir() if path.is_file()}
    return {name: octets for name, octets in found.items() if octets or not name.endswith(".lock")}


def changes(before, after):
    """The names of the files that differ."""
    return sorted(name for name in {*before, *after} if before.get(name) != after.get(name))


class Session(Trial):
    """A folder in which the commands of a session are run, with the files that each session begins with."""

    def __init__(self, programs, folder):
        super().__init__(programs, folder)
        found = folder / "programs"
        found.mkdir()
        (found / "kadm").symlink_to(programs["kadm"])
        (found / "show_keytab").symlink_to(HARNESS / "show_keytab.py")
        self.environment |= {"PATH": f"{found}:{self.environment['PATH']}", "LD_PRELOAD": fixed_system()}
        self.changed = []
        self.enter("session")
        for name, octets in FILES.items():
            self.write(name, octets)

    def do(self, steps):
        for step in steps:
            before = files(self.folder)
            for command, what, is_renamed in self.runs_of(step):
                if is_renamed:
                    self.expect_change(step, command, what)
                    continue
                step.compare(self.line(command, step.typed), what)
                if step.status:
                    expect(f"{step.place()}{what}: the files that changed", changes(before, files(self.folder)), [])

    def expect_change(self, step, command, what):
        """Runs a command in a copy of the folder, where it has to change the same files as if no call fails."""
        ran = self.line_in_copy(command)
        step.compare(ran, what)
        changed = changes(files(self.folder), files(self.copy()))
        expect(f"{step.place()}{what}: the files that changed", changed, self.changed)
        wanted = ": the change is made, but may be lost if the power fails now: "
        expect(f"{step.place()}{what}: it says so", wanted in ran.err, True)

    def copy(self):
        return pathlib.Path(f"{self.folder}.copy")

    def line_in_copy(self, command):
        return self.line(f"rm -rf {self.copy()} && cp -r . {self.copy()} && cd {self.copy()} && {command}")

    def line(self, command, typed=()):
        words = ["sh", "-c", command]
        return self.run_typed(words, text_of(typed).replace("^D\n", "\4")) if typed else self.run(words)

    def runs_of(self, step):
        """The command of a step; or, for each of its calls, the command in which this one fails, words that say so,
        and whether a file was renamed before."""
        named = FAILS.search(step.command)
        if not named:
            return [(step.command, "", False)]
        calls = self.calls_of(step)
        expect(f"{step.place()}: the calls that it does not make", sorted({*named[1].split(",")} - {*calls}), [])
        failing = lambda turn: FAILS.sub(f"FAILS={turn}", step.command)
        renamed = len(calls) - calls[::-1].index("rename") if "rename" in calls else len(calls)
        return [(failing(turn), f": call {turn}, {name}, fails", turn > renamed) for turn, name in enumerate(calls, 1)]

    def calls_of(self, step):
        """The names of the calls of a command, which runs in a copy of the folder. Keeps which files it changes."""
        ran = self.line_in_copy(FAILS.sub("CALLS=calls", step.command))
        expect(f"{step.place()}: the status if no call fails", ran.status, 0)
        self.changed = [name for name in changes(files(self.folder), files(self.copy())) if name != "calls"]
        return [line.split()[0] for line in (self.copy() / "calls").read_text().splitlines()]


def known(path):
    """Makes a session a test."""
    def call(trial):
        steps = steps_of(path)
        trial.check(f"{path.stem}: {len(steps)} commands", trial.do, steps)

    add(Test(f"kadm/sessions/{path.stem}", call, ("kadm",), Session))


for each in sorted(FOLDER.glob("*.session")):
    known(each)
