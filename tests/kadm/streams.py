"""`kadm` without some of its standard streams, and batches whose passwords come late."""

import itertools
import os
import subprocess

from harness.processes import PATIENCE
from harness.tests import test

# What closes each standard stream in a shell.
CLOSED = ("0<&-", "1>&-", "2>&-")


def closings():
    """Each choice of standard streams that are closed."""
    return (" ".join(chosen) for count in range(1, 4) for chosen in itertools.combinations(CLOSED, count))


@test("kadm", seconds=10)
def missing(trial):
    """A file that `kadm` opens never takes the place of a standard stream that it was started without."""
    trial.realm()
    versions = 1
    for closed in closings():
        words = f"exec {trial.programs['kadm']} random --db database --name h {closed}"
        trial.expect(["sh", "-c", words], 0, what=f"kadm random {closed}")
        versions += 1
        words = f"exec {trial.programs['kadm']} keytab --db database --name h --out h.keytab --append {closed}"
        trial.expect(["sh", "-c", words], 0, what=f"kadm keytab {closed}")
        lock = (trial.folder / "database.lock").read_bytes()
        trial.same(f"{closed}: the lock is empty", lock, b"")
        trial.expect("kadm list --db database --like h", 0, f"=h {versions} 18,17,20,19")
        words = "kadm import --db database --name imported --keytab h.keytab"
        trial.expect(words, 1, "=refused NoKeys", what=f"{closed}: the keytab is whole")
    left = [path.name for path in trial.folder.glob("*.new")]
    trial.same("no file is left", left, [])


@test("kadm")
def late_passwords(trial):
    """A batch waits for a password before it locks the database."""
    trial.realm()
    os.mkfifo(trial.folder / "fifo")
    words = ["kadm", "batch", "--db", "database"]
    waits = trial.start(words, stdin=subprocess.PIPE, stdout=subprocess.PIPE, stderr=subprocess.PIPE)
    waits.stdin.write(b"add --name w --password-file fifo\npasswd --name u --password-file other\n")
    waits.stdin.close()
    waits.stdin = None
    trial.expect("kadm random --db database --name y", 0, "=ok", seconds=10, what="it keeps no command waiting")
    (trial.folder / "fifo").write_bytes(b"a password\n")
    out, err = waits.communicate(timeout=PATIENCE)
    trial.same("it is done once the password is there", (waits.returncode, out, err), (0, b"ok\n", b""))
    trial.expect("kadm list --db database --like w", 0, "=w 1 18,17,20,19")
    # What is wrong with the file of a password is said at its line, and in its turn.
    trial.write("long", "a" * 1025)
    trial.expect(
        "kadm batch --db database --keep-going", 1, "=failed\nrefused Exists\nrefused LongPassword",
        "kadm: line 1: passwd: none: No such file", "kadm: line 2: add: u: this principal already exists",
        "kadm: line 3: passwd: long: the password has more than 1024 bytes",
        given="passwd --name u --password-file none\nadd --name u --password-file pw\n"
              "passwd --name u --password-file long\n",
    )
