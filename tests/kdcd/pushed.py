"""The units docs/kdcd-push.path and docs/kdcd-push.service: systemd reads them without a complaint; and their script
docs/kdcd-push.sh copies a database that `kadm` changed to a second server, which serves the change. It puts nothing
else in place, follows no link as root, and leaves nothing beside. In place of `ssh` a script runs what it would run on
the other host, in a folder of this name; in place of the user `kdcd` there is `nobody`, if root runs the tests."""

import os
import pwd
import shlex
import shutil
import stat
import subprocess
import time

from harness.processes import PATIENCE
from harness.programs import TOP
from harness.server import Server
from harness.tests import test

UNITS = [TOP / "docs" / name for name in ("kdcd-push.path", "kdcd-push.service")]
SCRIPT = TOP / "docs" / "kdcd-push.sh"
FOLDER = "/var/lib/kdcd"
# Gives a command to a shell as `ssh root@HOST COMMAND` does, in the folder HOST. No host is there that has no folder.
# What is sent goes through the command PASSES. Then it runs the script `hook`, once, if there is one.
SSH = """#!/bin/sh
host=${1#root@}
[ "$1" != "$host" ] && cd "$(dirname "$0")/$host" || exit 255
shift
{ eval "${PASSES:-cat}"; } | sh -c "$*"
status=$?
[ ! -e ../hook ] || { mv ../hook ../ran && sh ../ran; }
exit $status
"""
# In place of `mktemp`: the name of a link that the server's user has planted, as if it could have been guessed.
MKTEMP = "#!/bin/sh\necho .planted\n"
# The seconds in which a server serves a change that was copied, on an idle machine.
SERVED_WITHIN = 3
IS_ROOT = os.geteuid() == 0
OTHER = "nobody"
ADD = "add --db database --password-file pw --name"


class Hosts:
    """Two hosts in folders: `first`, where the database is changed, and `second`, which has a copy of it."""

    def __init__(self, trial):
        self.trial = trial
        trial.realm("first")
        self.first, self.top = trial.folder, trial.folder.parent
        trial.enter("second")
        self.second = trial.folder
        shutil.copy(self.first / "database", self.second)
        trial.folder = self.first
        self.bin = self.top / "bin"
        self.bin.mkdir()
        shutil.copy(trial.programs["kadm"], self.bin)
        self.put_script("ssh", SSH)
        self.put_script("kdcd-push", self.script())
        if IS_ROOT:
            # As systemd makes the folder on both hosts: the user's own.
            self.top.chmod(0o711)
            for folder in (self.first, self.second):
                self.give(folder)
                self.give(folder / "database")

    def script(self):
        """The script with the places of this trial, and with the user that stands for kdcd."""
        text = SCRIPT.read_text()
        changes = {
            f"cd {FOLDER} && exec": f"cd {self.first} && exec", f"{FOLDER}/database": f"{self.first}/database",
            f"cd {FOLDER} && new": "cd . && new", "/usr/local/bin/": f"{self.bin}/",
            "runuser -u kdcd --": f"runuser -u {OTHER} --" if IS_ROOT else "env",
        }
        for there, here in changes.items():
            self.trial.note(f"the script has {there}", "it has not" * (there not in text))
            text = text.replace(there, here)
        return text

    def put_script(self, name, text):
        place = self.top / name if name == "ssh" else self.bin / name
        place.write_text(text)
        place.chmod(0o755)

    @property
    def owner(self):
        """The user that stands for kdcd, and its group."""
        user = pwd.getpwnam(OTHER) if IS_ROOT else None
        return (user.pw_uid, user.pw_gid) if user else (os.geteuid(), os.getegid())

    def give(self, place):
        os.chown(place, *self.owner, follow_symlinks=False)

    def add(self, name):
        """Adds a principal on the first host, as root."""
        self.trial.expect(f"kadm {ADD} {name}", 0, "=ok")

    def start(self, servers="second", **more):
        """Starts the script for these servers."""
        here = {"SSH": str(self.top / "ssh")} | more
        words = [str(self.bin / "kdcd-push"), *servers.split()]
        how = {"stdin": subprocess.DEVNULL, "stdout": subprocess.PIPE, "stderr": subprocess.PIPE}
        return self.trial.start(words, env=self.trial.environment | here, **how)

    def push(self, servers="second", **more):
        """Runs the script for these servers. Returns its status and what it says."""
        process = self.start(servers, **more)
        out, err = process.communicate(timeout=PATIENCE)
        return process.returncode, (out + err).decode()

    def expect(self, what, status, *texts, servers="second", **more):
        """The script ends so, and says these texts."""
        found, said = self.push(servers, **more)
        lacking = [text for text in texts if text not in said]
        self.trial.note(what, f"status {found}, {said!r}" * (found != status or bool(lacking)))

    def copied(self):
        return (self.second / "database").read_bytes()

    def expect_refused(self, what, *texts, **more):
        """The script fails. The copy is as it was, and nothing is beside it."""
        before, beside = self.copied(), sorted(os.listdir(self.second))
        self.expect(what, 1, "not copied to: second\n", *texts, **more)
        self.trial.note(f"{what}: the copy stays", "it is another" * (self.copied() != before))
        self.trial.same(f"{what}: what is beside it", sorted(os.listdir(self.second)), beside)

    def expect_same(self, what):
        """The copy has the bytes of the database, the mode and the owner of a server's files; nothing is beside it."""
        found = (self.second / "database").lstat()
        self.trial.note(f"{what}: the bytes", "others" * (self.copied() != (self.first / "database").read_bytes()))
        self.trial.same(
            f"{what}: the copy's mode and owner", (oct(found.st_mode), (found.st_uid, found.st_gid)),
            (oct(stat.S_IFREG | 0o600), self.owner)
        )
        left = [each for each in os.listdir(self.second) if each.startswith(".")]
        self.trial.same(f"{what}: what is left beside it", left, [])


def hosts(trial):
    """Both hosts, or None if nobody can't enter the folders here."""
    if IS_ROOT and not shutil.which("runuser"):
        return trial.leave("kdcd-push: runuser is not on the path")
    made = Hosts(trial)
    words = ["runuser", "-u", OTHER, "--", str(made.bin / "kadm"), "--version"]
    if IS_ROOT and subprocess.run(words, cwd=made.first, capture_output=True).returncode:
        return trial.leave(f"kdcd-push: the user {OTHER} runs no program in {made.top}")
    return made


def expect_served(trial, server, name, wanted):
    """The server gives this answer to a login of the name soon."""
    is_served = server.wait(lambda: server.answer(name) == wanted, SERVED_WITHIN)
    trial.note(f"the second server answers {name} with {wanted}", "" if is_served else server.answer(name))


@test("kadm", "kdcd", seconds=15)
def copies(trial):
    """Two servers with databases of their own. The second gets what `kadm` changes in the first's."""
    if not (both := hosts(trial)):
        return
    trial.folder = both.second
    second = Server(trial)
    trial.folder = both.first
    served = Server(trial)
    (both.second / "database").chmod(0o644)

    both.add("w")
    trial.note("the first server serves the change", "" if served.wait(lambda: served.answer("w") == "25", 3) else "no")
    trial.same("the second one does not know it", second.answer("w"), "6")
    both.expect("the database is copied", 0)
    expect_served(trial, second, "w", "25")
    both.expect_same("a copy")

    both.add("x")
    both.expect("a host that fails: the command fails", 1, "not copied to: away gone\n", servers="away second gone")
    expect_served(trial, second, "x", "25")

    change = shlex.join([trial.programs["kadm"], *f"{ADD} y".split()])
    (both.top / "hook").write_text(f"cd {shlex.quote(str(both.first))} && exec {change}\n")
    both.expect("a change while it is copied", 0)
    trial.note("the change was made then", "" if (both.top / "ran").exists() else "no")
    expect_served(trial, second, "y", "25")
    both.expect_same("both")

    (both.second / "database").unlink()
    both.expect("a host without a database", 0)
    both.expect_same("its first one")
    os.rename(both.first / "database", both.first / "away")
    both.expect("a database that is gone: the command fails", 1)
    expect_served(trial, second, "y", "25")
    served.end()
    second.end()


@test("kadm", seconds=5)
def refusals(trial):
    """What is no database of this realm is not put in place."""
    if not (both := hosts(trial)):
        return
    both.add("w")
    both.expect_refused("a text that is cut on its way", PASSES="head -c 200")
    both.expect_refused("a text without its last bytes", PASSES="head -c -2")
    both.expect_refused("nothing comes", PASSES="cat > /dev/null")
    trial.same("all that it says then", both.push(PASSES="cat > /dev/null"), (1, "not copied to: second\n"))
    both.expect_refused("another text comes", PASSES="echo []")
    whole = (both.first / "database").read_bytes()
    (both.first / "database").write_bytes(whole[:200])
    both.expect_refused("a database that is cut", "kadm: /dev/stdin: EOF while parsing")
    (both.first / "database").write_bytes(b"root:x:0:0:root:/root:/bin/bash\n")
    both.expect_refused("another file", "kadm: /dev/stdin: ")
    trial.expect("kadm init --db others --realm C.D", 0, "=ok")
    (both.first / "database").write_bytes((both.first / "others").read_bytes())
    both.expect_refused("a database of another realm", "it is a database of another realm")
    (both.first / "database").write_bytes(whole)
    (both.second / "database").write_bytes(whole[:200])
    both.expect("in place of a damaged copy", 0)
    both.expect_same("a whole one")
    (both.second / "database").unlink()
    both.expect("a text that is cut, and no copy is there", 1, "not copied to: second", PASSES="head -c 200")
    trial.same("nothing is there then", os.listdir(both.second), [])
    (both.second / "database").mkdir()
    both.give(both.second / "database")
    (both.second / "database/own").touch()
    both.expect("a folder in place of the copy", 1, "not copied to: second")
    trial.same("it stays", sorted(os.listdir(both.second)), ["database"])
    trial.same("with what is in it", os.listdir(both.second / "database"), ["own"])
    both.expect("without a host", 2, "usage: kdcd-push HOST ..", servers="")


@test("kadm", seconds=5)
def links(trial):
    """Links that the user kdcd may have planted: root writes and reads nothing through them."""
    if not (both := hosts(trial)):
        return
    both.add("w")
    victim, text = both.top / "victim", "of root alone\n"
    victim.write_text(text)
    victim.chmod(0o600)
    copy = both.second / "database"
    copy.unlink()
    copy.symlink_to(victim)
    both.expect("a link in place of the copy", 0)
    both.expect_same("it is replaced")
    trial.same("the file that the link led to", (victim.read_text(), oct(victim.stat().st_mode)), (text, oct(0o100600)))
    if not IS_ROOT:
        return trial.leave("what root would write through a link: root does not run the tests")

    (both.second / ".planted").symlink_to(victim)
    both.put_script("mktemp", MKTEMP)
    before = both.copied()
    both.expect("a link at the new name", 1, "Permission denied", "not copied to: second\n")
    (both.bin / "mktemp").unlink()
    trial.note("the copy stays", "it is another" * (both.copied() != before))
    trial.same("what the link led to", (victim.read_text(), oct(victim.stat().st_mode)), (text, oct(0o100600)))

    os.rename(both.first / "database", both.first / "own")
    (both.first / "database").symlink_to(both.top / "secret")
    shutil.copy(both.first / "own", both.top / "secret")
    (both.top / "secret").chmod(0o600)
    trial.folder = both.top
    trial.expect("kadm add --db secret --password-file first/pw --name secret", 0, "=ok")
    both.expect_refused("a link to a file that only root can read", "Permission denied")


@test("kadm", seconds=5)
def at_once(trial):
    """Pushes at once, while the database changes: the copy is whole at each moment, and in the end the last one."""
    if not (both := hosts(trial)):
        return
    wanted = {both.copied()}
    pushes = []
    for turn in range(4):
        both.add(f"w{turn}")
        wanted.add((both.first / "database").read_bytes())
        pushes += [both.start(PASSES="sleep 0.2; cat"), both.start()]
        trial.note("the copy is one of the texts", "it is another" * (both.copied() not in wanted))
    while any(each.poll() is None for each in pushes):
        if both.copied() not in wanted:
            trial.note("the copy is one of the texts meanwhile", "it is another")
        time.sleep(0.01)
    ended = [(each.wait(PATIENCE), each.communicate()[1].decode()) for each in pushes]
    trial.same("how they end", ended, [(0, "")] * len(pushes))
    both.expect_same("in the end")


@test()
def units(trial):
    """systemd reads both units without a complaint."""
    if not shutil.which("systemd-analyze"):
        return trial.leave("systemd-analyze verify of kdcd-push: it is not on the path")
    trial.enter("units")
    # systemd looks whether the script is there.
    for unit in UNITS:
        trial.write(unit.name, unit.read_text().replace("/usr/local/bin/kdcd-push", str(trial.folder / "kdcd-push")))
    trial.write("kdcd-push", SCRIPT.read_text())
    (trial.folder / "kdcd-push").chmod(0o755)
    words = ["systemd-analyze", "verify", "--man=no", *(trial.folder / unit.name for unit in UNITS)]
    ran = subprocess.run(words, capture_output=True, text=True)
    trial.same("systemd-analyze verify", (ran.returncode, ran.stdout + ran.stderr), (0, ""))
