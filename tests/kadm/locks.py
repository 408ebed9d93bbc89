"""Twenty commands at the same time on one database, commands that wait for its lock, and owners of files."""

import fcntl
import os
import shutil
import subprocess
import time

from harness.processes import PATIENCE
from harness.tests import test
from harness.wire import REALM

# The seconds that `kadm` waits for another one.
KADM_WAITS = 10


@test("kadm", seconds=20)
def pairs(trial):
    """Twenty commands at the same time on one database, and commands that wait for its lock."""
    trial.realm()
    random, names = "kadm random --db database --name".split(), {f"n{number}" for number in range(20)}
    quiet = {"stdout": subprocess.PIPE, "stderr": subprocess.DEVNULL}
    commands = [trial.start([*random, name], **quiet) for name in names]
    said = {process.communicate(timeout=PATIENCE)[0] for process in commands}
    trial.note("twenty kadm random at once: all are done", "" if said == {b"ok\n"} else str(said))
    listed = {line.split()[0] for line in trial.run("kadm list --db database").out.splitlines()}
    differ = names ^ (listed - {"u", "v", "h", "host/n", f"krbtgt/{REALM}"})
    trial.note("the database has what was done, and nothing else", str(sorted(differ)) if differ else "")
    left = [each.name for each in trial.folder.glob("database.*.new")]
    trial.note("no file is left beside it", str(left) if left else "")
    with open(trial.folder / "database.lock") as lock:
        fcntl.flock(lock, fcntl.LOCK_EX)
        begun = time.monotonic()
        trial.expect("kadm random --db database --name x", 1, "=refused Locked", "waiting for another kadm", seconds=20)
        took = time.monotonic() - begun
        trial.note(f"it waits for {KADM_WAITS} seconds", f"for {took:.1f}" * (took < KADM_WAITS))
        trial.expect("kadm list --db database", 0, "host/n", seconds=10)
        waits = trial.start([*random, "x"], **quiet)
        time.sleep(3)
    said = waits.communicate(timeout=PATIENCE)[0]
    trial.note("a command that waits is done once the lock is free", "" if said == b"ok\n" else repr(said))
    waits = trial.start("kadm add --db database --name w".split(), stdin=subprocess.PIPE, stdout=subprocess.PIPE)
    trial.expect("kadm random --db database --name y", 0, "=ok", seconds=10, what="a prompt keeps no command waiting")
    said = waits.communicate(b"a password\n", PATIENCE)[0]
    trial.note("it is done once the password is there", "" if said == b"ok\n" else repr(said))


@test("kadm")
def owners(trial):
    """A changed file keeps its owner and group, and with `--keep-mode` its mode."""
    trial.realm()
    if os.geteuid():
        trial.leave("owners and groups: only root can give files away")
        return
    trial.run("kadm keytab --db database --name h --out shared.keytab")
    try:
        os.chown(trial.folder / "text", 65534, 65533)
    except OSError as fault:
        trial.leave(f"owners and groups: files can't be given away here ({fault.strerror})")
        return
    kept = {"database": (65534, 65533, 0o640), "shared.keytab": (65532, 65531, 0o440)}
    for name, (owner, group, mode) in kept.items():
        os.chown(trial.folder / name, owner, group)
        os.chmod(trial.folder / name, mode)
    # An existing lock keeps its owner, so the next command makes one.
    (trial.folder / "database.lock").unlink()
    for mode, option in ((None, " --keep-mode"), (0o600, "")):
        trial.expect(f"kadm random --db database --name h{option}", 0, "=ok")
        trial.expect(f"kadm keytab --db database --name h --out shared.keytab --append{option}", 0, "=ok")
        for name, wanted in kept.items():
            found = (trial.folder / name).stat()
            found = (found.st_uid, found.st_gid, found.st_mode & 0o777)
            fault = "" if found == (*wanted[:2], mode or wanted[2]) else str(found)
            trial.note(f"{name} keeps its owner and group, and its mode{option or ' is 600'}", fault)
    lock, secret = trial.folder / "database.lock", trial.folder / "secret"
    owner = lock.stat().st_uid
    trial.note("a lock that is made belongs to the owner of the database", "" if owner == 65534 else str(owner))
    # The folder's owner may have put a link there.
    lock.unlink()
    secret.write_bytes(b"")
    lock.symlink_to(secret)
    trial.expect("kadm random --db database --name h", 0, "=ok")
    owner = secret.stat().st_uid
    trial.note("the file that a lock is a link to keeps its owner", "" if owner == os.geteuid() else str(owner))
    lock.unlink()
    other = ["setpriv", "--reuid=65534", "--regid=65534", "--clear-groups"]
    if not shutil.which("setpriv") or trial.run([*other, "true"]).status:
        trial.leave("a kadm of another user: setpriv is missing, or may not become one here")
        return
    before = (trial.folder / "database").read_bytes()
    os.chmod(trial.folder, 0o777)
    os.chown(trial.folder / "database", 65533, 65533)
    os.chmod(trial.folder / "database", 0o644)
    words = [*other, trial.programs["kadm"], *"random --db database --name h".split()]
    trial.expect(words, 3, "=failed", "can't be kept", what="a user who can't keep them changes nothing")
    is_same = (trial.folder / "database").read_bytes() == before
    trial.note("the database is as it was", "" if is_same else "it is another")


# Numbers of users that need no name.
FIRST, SECOND = 65532, 65533


@test("kadm")
def planted_keytabs(trial):
    """A keytab of another user gets no keys, who may have put it there to have them. Root may extend one in a folder
    where nobody else but its owner could have put it."""
    trial.realm()
    if os.geteuid():
        trial.leave("keytabs of other users: only root can give files away")
        return
    folder, words = trial.folder / "sub", "kadm keytab --db database --name h --out sub/kt --append"
    folder.mkdir()
    trial.expect("kadm keytab --db database --name h --out sub/kt", 0, "=ok")
    before = (folder / "kt").read_bytes()
    rows = (
        # the owners of the keytab and of its folder, the folder's mode, and whether root may extend the keytab
        (0, SECOND, 0o777, True), (FIRST, 0, 0o755, True), (FIRST, FIRST, 0o700, True), (FIRST, SECOND, 0o700, False),
        (FIRST, 0, 0o775, False), (FIRST, 0, 0o757, False), (FIRST, FIRST, 0o1777, False),
    )
    for owner, of_folder, mode, may in rows:
        (folder / "kt").write_bytes(before)
        os.chown(folder / "kt", owner, owner)
        os.chown(folder, of_folder, of_folder)
        os.chmod(folder, mode)
        status, *texts = (0, "=ok") if may else (1, "=refused NotOurs", "sub/kt: this keytab is another user's")
        what = f"root, a keytab of {owner} in a folder of {of_folder} with mode {mode:o}"
        trial.expect(words, status, *texts, what=what)
        is_extended = (folder / "kt").read_bytes() != before
        trial.same(f"{what}: whether it has more keys", is_extended, may)
        found = (folder / "kt").stat().st_uid
        trial.same(f"{what}: its owner", found, owner)
    other = ["setpriv", f"--reuid={SECOND}", f"--regid={SECOND}", "--clear-groups"]
    if not shutil.which("setpriv") or trial.run([*other, "true"]).status:
        trial.leave("a kadm of another user: setpriv is missing, or may not become one here")
        return
    for path in (trial.folder, trial.folder / "database", trial.folder / "database.lock", folder, folder / "kt"):
        os.chown(path, SECOND, SECOND)
    os.chmod(folder, 0o700)
    words = [*other, trial.programs["kadm"], *words.split()[1:]]
    for owner, status, text in ((SECOND, 0, "=ok"), (FIRST, 1, "=refused NotOurs")):
        (folder / "kt").write_bytes(before)
        os.chown(folder / "kt", owner, owner)
        os.chmod(folder / "kt", 0o644)
        trial.expect(words, status, text, what=f"user {SECOND}, a keytab of {owner}")
