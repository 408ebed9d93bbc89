"""Kills `kadm` at each of its system calls, and while it writes, and checks what is left: the old database or the new
one, whole, and a next command that works."""

import json
import re
import signal
import subprocess
import time

from harness.processes import PATIENCE
from harness.tests import test
from harness.tracer import KILLED, killing

# Each command, and whether it writes the database (`db`) or the keytab (`kt`).
COMMANDS = {
    "random --db db --name h --seed seed": "db",
    "random --db db --name h --seed seed --replace": "db",
    "policy --db db --name h --field disabled --value true": "db",
    "keytab --db db --name h --out kt --append": "kt",
    "import --db db --name i --keytab i.kt": "db",
}
# The calls that change what is on the disk: it is killed at each of them. An open counts only if it makes a file.
CHANGES = re.compile(
    r"(open\w*\(.*O_CREAT|creat\(|p?writev?\w*\(|f(data)?sync\(|rename\w*\(|link\w*\(|unlink\w*\(|"
    r"f?(l|t)?chown\w*\(|f?chmod\w*\(|f?truncate\w*\(|flock\(|fcntl\w*\(.*F_(OFD_)?SETLK)"
)
# The rows that are written while a `kadm` is killed, how often one is started for it, and how many have to be killed
# before they end.
ROWS, KILLS, KILLS_AT_LEAST = 4000, 40, 8


def name_of(line):
    return line.partition("(")[0]


class Kadm:
    """The program in a folder with a realm."""

    def __init__(self, program, folder):
        self.program, self.folder = program, folder
        (self.folder / "seed").write_bytes(bytes(range(32)))
        for words in (
            "init --db db --realm A.B --seed seed", "random --db db --name i --seed seed",
            "keytab --db db --name i --out i.kt", "remove --db db --name i", "random --db db --name h --seed seed",
            "keytab --db db --name h --out kt",
        ):
            self.run(words).check_returncode()
        self.before = {name: (self.folder / name).read_bytes() for name in ("db", "kt")}

    def run(self, words, *front):
        return subprocess.run(
            [*front, self.program, *words.split()], cwd=self.folder, capture_output=True, timeout=PATIENCE
        )

    def restore(self):
        for path in self.folder.glob("*.new"):
            path.unlink()
        for name, octets in self.before.items():
            (self.folder / name).write_bytes(octets)

    def calls_of(self, words):
        """The system calls of a command, after the one that starts the program, which is strace's own."""
        traced = self.run(words, "strace", "-o", "calls")
        traced.check_returncode()
        lines = (self.folder / "calls").read_text(errors="replace").splitlines()
        return [line for line in lines if re.match(r"\w+\(", line)][1:]

    def fault_of_kill(self, words, written, calls, number):
        """What is wrong after a kill at this call: the command survives, a database or a keytab is neither the old one
        nor the new one, or the next command fails."""
        self.restore()
        name = name_of(calls[number - 1])
        turn = sum(name_of(line) == name for line in calls[:number])
        call = f"{number}, {name}"
        ran = self.run(words, *killing(name, turn))
        if ran.returncode not in KILLED:
            return f"call {call}: it is not killed, but ends with status {ran.returncode}: {ran.stderr[-80:]!r}"
        for name, octets in self.before.items():
            found = (self.folder / name).read_bytes()
            if found != octets and (name != written or found != self.after):
                return f"call {call}: {name} is neither the old one nor the new one"
        listed = self.run("list --db db")
        if listed.returncode or not listed.stdout.startswith(b"h "):
            return f"call {call}: the database is not read: {listed.stdout[:80]!r}"
        if self.run("random --db db --name next --seed seed").returncode:
            return f"call {call}: the next command fails"
        return ""

    def faults_of(self, words, written, every):
        """The number of calls at which it was killed, how many of these change something, and what was wrong."""
        self.restore()
        calls = self.calls_of(words)
        self.after = (self.folder / written).read_bytes()
        changes = [number for number, line in enumerate(calls, 1) if CHANGES.match(line)]
        killed = sorted({*range(1, len(calls) + 1, every), *changes})
        faults = [self.fault_of_kill(words, written, calls, number) for number in killed]
        for call in ("open", "write", "fsync", "rename"):
            if not any(call in name_of(calls[number - 1]) for number in changes):
                faults.append(f"it makes no call {call}")
        return len(killed), len(changes), list(filter(None, faults))


def try_calls(trial, every):
    """Kills each command at each Nth of its calls, and at each call that makes, writes, syncs or moves a file. It is
    also wrong if a command survives its kill."""
    trial.enter("realm")
    kadm = Kadm(trial.programs["kadm"], trial.folder)
    for command, written in COMMANDS.items():
        killed, changes, faults = kadm.faults_of(command, written, every)
        trial.note(f"{command}: killed at {killed} calls, where {changes} change something", " | ".join(faults))


@test("kadm", needs=("strace",), seconds=30)
def at_calls_that_change(trial):
    """A kill at each seventh call, and at each call that makes, writes, syncs or moves a file."""
    try_calls(trial, 7)


@test("kadm", needs=("strace",), seconds=300, is_slow=True)
def at_each_call(trial):
    """A kill at each call."""
    try_calls(trial, 1)


@test("kadm", seconds=20)
def at_some_moment(trial):
    """A command that is killed at some moment of its run, also while it writes."""
    trial.realm()
    file = trial.folder / "database"
    database = json.loads(file.read_text())
    row = database["principals"]["h"]
    database["principals"].update({f"n{number}": row for number in range(ROWS)})
    file.write_text(json.dumps(database))
    begun = time.monotonic()
    trial.expect("kadm random --db database --name first", 0, "=ok", what=f"a row more beside {ROWS}")
    took, killed, faults = time.monotonic() - begun, 0, []
    for turn in range(KILLS):
        before, name = file.read_bytes(), f"killed{turn}"
        quiet = {"stdout": subprocess.PIPE, "stderr": subprocess.DEVNULL}
        running = trial.start(["kadm", "random", "--db", "database", "--name", name], **quiet)
        # More kills in the last half of the run, when the file is written.
        time.sleep(took * (1 - (1 - turn / KILLS) ** 2) * 1.1)
        running.kill()
        said = running.communicate(timeout=PATIENCE)[0]
        killed += running.returncode == -signal.SIGKILL and not said
        if running.returncode not in (0, -signal.SIGKILL):
            faults.append(f"{name}: status {running.returncode}")
        rows = json.loads(file.read_bytes())["principals"]
        if file.read_bytes() != before and name not in rows or said and name not in rows:
            faults.append(f"{name}: it said {said!r}, and the database is neither what it was nor what it has to be")
    if killed < KILLS_AT_LEAST:
        faults.append(f"so few are killed, and not {KILLS_AT_LEAST} at the least")
    trial.note(
        f"{KILLS} commands, {killed} of them killed: the database is what it was, or has the row", "; ".join(faults)
    )
    trial.expect("kadm random --db database --name last", 0, "=ok", what="the next command finds no lock")
    trial.expect("kadm list --db database", 0, "\nlast 1 ", "\nn0 1 ")
    left = [each for each in trial.folder.glob("database*") if each.suffix != ".lock"]
    modes = {each.stat().st_mode & 0o777 for each in left}
    trial.note("what is left of them is the owner's alone", "" if modes <= {0o600} else str(modes))
