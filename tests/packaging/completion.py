"""The completion of `kdcd`, `kadm` and `kclient` that `dev/make_completion.py` makes: bash completes the commands, the
options that `--help` of each command has, and values; and zsh reads its files, if it is on the path."""

import re
import shutil
import subprocess
import sys

from harness.checks import differs
from harness.programs import TOP
from harness.tests import test

PROGRAMS = ("kadm", "kclient", "kdcd")
# Completes the words after the function's file and name, in the folder, and prints each proposal on a line.
COMPLETE = (
    'source "$1"; shift; each=$1; shift; COMP_WORDS=("$@"); COMP_CWORD=$(($# - 1)); "_$each"; '
    'printf "%s\\n" "${COMPREPLY[@]}"'
)
# Words before the one that is completed, with what is proposed in a folder with the files `database` and `www.keytab`.
VALUES = (
    ("kadm add --db d", "database"), ("kadm add --db = d", "database"), ("kadm add --db =", "database www.keytab"),
    ("kadm keytab --out ", "database www.keytab"), ("kadm policy --field dis", "disabled"),
    ("kadm policy --value t", "true"), ("kadm policy --name d", ""), ("kclient kvno --keytab w", "www.keytab"),
    ("kadm policy --set dis", "disabled="), ("kadm policy --set disabled = t", "true"),
    ("kadm policy --set disabled =", "false never true"),
    ("kdcd serve --log-format j", "json"), ("kdcd serve --udp ", ""), ("kadm ad", "add"),
    ("kadm check w", "www.keytab"), ("kadm restore --from w", "www.keytab"), ("kclient k", "kinit kvno klist kdestroy"),
)


def make(trial):
    """Makes the files in a folder of their own, and returns it."""
    trial.enter("made")
    command = [sys.executable, TOP / "dev/make_completion.py", trial.folder]
    subprocess.run(command, check=True, stdout=subprocess.DEVNULL)
    return trial.folder


def completed(made, folder, line):
    """What bash proposes in a folder for the last word of a line."""
    words = line.split(" ")
    script = made / f"{words[0]}.bash"
    words = ["bash", "-c", COMPLETE, "bash", script, words[0], *words]
    ran = subprocess.run(words, capture_output=True, text=True, cwd=folder)
    return sorted(ran.stdout.split()), ran.stderr


@test()
def files(trial):
    """There is a file for each program and shell, and the shells read them."""
    made = make(trial)
    wanted = [*(f"_{name}" for name in PROGRAMS), *(f"{name}.bash" for name in PROGRAMS)]
    trial.note("the files", differs(sorted(each.name for each in made.iterdir()), wanted))
    for name in wanted:
        shell = "bash" if name.endswith(".bash") else "zsh"
        if shutil.which(shell):
            ran = subprocess.run([shell, "-n", made / name], capture_output=True, text=True)
            trial.note(f"{shell} reads {name}", ran.stderr)
        else:
            trial.leave(f"{name}: {shell} is not on the path")


@test()
def values(trial):
    """What completes the value of an option, in a folder with two files."""
    made = make(trial)
    trial.enter("values")
    for name in ("database", "www.keytab"):
        (trial.folder / name).touch()
    for line, wanted in VALUES:
        found, said = completed(made, trial.folder, line)
        trial.note(f"what completes {line!r}", said or differs(found, sorted(wanted.split())))


# Principals with characters that a shell reads, each as it proposes them.
PRINCIPALS = {"host/www.a.b": "host/www.a.b", "host/$(id)": r"host/\$\(id\)", r"a\20b": r"a\\20b", "alice": "alice"}
# Words before the one that is completed, with the principals that are proposed among others.
NAMED = (
    ("kadm show --db database --name host/w", ["host/www.a.b"]), ("kadm show --db = database --name al", ["alice"]),
    ("kadm show --db database al", ["alice"]), ("kadm drop --db database host/", ["host/www.a.b", "host/$(id)"]),
    ("kadm show --db other --name al", []), ("kadm add --db database --name al", []),
    ("kadm list --db database al", []), ("kadm policy --db database --value al", []),
)


@test("kadm")
def principals(trial):
    """Principals complete names, also those with characters that a shell reads."""
    made = make(trial)
    trial.enter("principals")
    trial.expect("kadm init --db database --realm A.B", 0, "=ok")
    for name in PRINCIPALS:
        trial.expect(["kadm", "add", "--db", "database", "--random", f"--name={name}"], 0, "=ok")
    (trial.folder / "kadm").symlink_to(trial.programs["kadm"])
    for line, wanted in NAMED:
        words = ["bash", "-c", COMPLETE, "bash", made / "kadm.bash", "kadm", "./kadm", *line.split(" ")[1:]]
        ran = subprocess.run(words, capture_output=True, text=True, cwd=trial.folder)
        trial.note(f"what completes {line!r}", ran.stderr or differs(
            sorted(ran.stdout.split()), sorted(PRINCIPALS[name] for name in wanted)
        ))
    all_shown = "kadm show --db database --name "
    words = ["bash", "-c", COMPLETE, "bash", made / "kadm.bash", "kadm", "./kadm", *all_shown.split(" ")[1:]]
    ran = subprocess.run(words, capture_output=True, text=True, cwd=trial.folder)
    trial.note("what completes an empty name", ran.stderr or differs(
        sorted(ran.stdout.split()), sorted([*PRINCIPALS.values(), "krbtgt/A.B"])
    ))


def helped(program, *words):
    """The options that the help of a program, or of a command, names at the beginning of a line; and the commands."""
    text = subprocess.run([program, *words, "--help"], capture_output=True, text=True).stdout
    options = re.findall(r"^ +(?:-\w, )?(--?[a-z][\w-]*)", text.partition("Options:")[2], re.M)
    return options, re.findall(r"^  (\w+)", text.partition("Commands:")[2].partition("\n\n")[0], re.M)


@test("kadm", "kclient", "kdcd")
def options(trial):
    """Each command of each program, with the options of its help."""
    made = make(trial)
    trial.enter("options")
    for name, program in trial.programs.items():
        commands = [each for each in helped(program)[1] if each != "help"]
        found = [each for each in completed(made, trial.folder, f"{name} ")[0] if not each.startswith("-")]
        trial.note(f"the commands of {name}", differs(found, sorted(commands)) or "there is none" * (not commands))
        for command in commands:
            wanted = sorted(set(helped(program, command)[0]))
            found = completed(made, trial.folder, f"{name} {command} -")[0]
            fault = differs(found, wanted) or "there is none" * (not wanted)
            trial.note(f"the options of {name} {command}", fault)
