"""Whether a change of `kadm` is on the disk: the folder of a file is synced after the rename. And what is said if a
write or a sync fails."""

from harness.programs import fixed_system
from harness.tests import test

# Errors of the system: an input or output error, and those of a file system that syncs no folder.
EIO, EINVAL, EOPNOTSUPP = 5, 22, 95
# Commands that write, the file that each writes, the folder of this file, and the commands' standard input.
WRITES = (
    ("kadm init --db new --realm R.S", "new", ".", ""),
    ("kadm random --db database --name h", "database", ".", ""),
    ("kadm policy --db sub/database --name h --field preauth --value false", "sub/database", "sub", ""),
    ("kadm keytab --db database --name h --out sub/new.keytab", "sub/new.keytab", "sub", ""),
    ("kadm keytab --db database --name h --out h.keytab --append", "h.keytab", ".", ""),
    ("kadm batch --db database", "database", ".", "random --name h\n"),
)
LOST = "the change is made, but may be lost if the power fails now: "


def octets_at(path):
    return path.read_bytes() if path.exists() else None


def started(trial, name):
    """Makes another folder with a realm, and a copy of its database in a folder of its own."""
    del trial.environment["LD_PRELOAD"]
    trial.realm(name)
    (trial.folder / "sub").mkdir()
    trial.write("sub/database", (trial.folder / "database").read_bytes())
    trial.environment["LD_PRELOAD"] = fixed_system()


def failing(trial, call, error=EIO):
    """The environment in which the next call with this name fails with this error."""
    return {**trial.environment, "FAILS": call, "ERROR": str(error)}


@test("kadm", seconds=20)
def folders(trial):
    """The folder of a file is synced after the file was renamed."""
    trial.environment["LD_PRELOAD"] = fixed_system()
    for number, (words, name, folder, given) in enumerate(WRITES):
        started(trial, f"synced{number}")
        trial.expect(words, 0, "=ok", given=given, env={**trial.environment, "CALLS": "calls"})
        calls = (trial.folder / "calls").read_text().splitlines()
        synced = [call.split()[0] for call in calls if call.split()[0] in ("fsync", "rename", "fsync_folder")]
        trial.same(f"{words}: what is synced", synced, ["fsync", "rename", "fsync_folder"])
        trial.same(f"{words}: its folder", calls[-2:], [f"open {folder}", "fsync_folder"])


@test("kadm", seconds=20)
def failing_syncs(trial):
    """If a folder can't be synced, the file is the new one, and the command says that the change may be lost. A file
    system that syncs no folder fails no command."""
    trial.environment["LD_PRELOAD"] = fixed_system()
    for number, (words, name, _, given) in enumerate(WRITES):
        failed = ("=failed", f"{name}: {LOST}Input/output error")
        for error, status, texts in ((EIO, 3, failed), (EINVAL, 0, ("=ok",)), (EOPNOTSUPP, 0, ("=ok",))):
            started(trial, f"failing{number}.{error}")
            path = trial.folder / name
            before = octets_at(path)
            trial.expect(words, status, *texts, given=given, env=failing(trial, "fsync_folder", error))
            trial.note(f"{words}: {name} is the new one", "" if octets_at(path) != before else "it is the old one")
            trial.expect(f"kadm list --db {words.split()[3]}", 0, what=f"{words}: the database can be read")


@test("kadm")
def batches(trial):
    """A batch says that its lines are done once the file is written, and not before."""
    trial.environment["LD_PRELOAD"] = fixed_system()
    lines = "random --name new\nrandom --name h\nremove --name none\n"
    added, renewed = "kadm: line 1: random: new: added", "kadm: line 2: random: h: has new keys, version 2"
    for call, changed in (("fsync", False), ("rename", False), ("fsync_folder", True)):
        started(trial, f"batch_{call}")
        before = octets_at(trial.folder / "database")
        ran = trial.run("kadm batch --db database --keep-going", given=lines, env=failing(trial, call))
        said = [text in ran.err for text in (added, renewed)]
        trial.same(f"{call} fails: what is said to be done", (ran.status, *said), (3, changed, changed))
        is_changed = octets_at(trial.folder / "database") != before
        trial.same(f"{call} fails: whether the database is another", is_changed, changed)
