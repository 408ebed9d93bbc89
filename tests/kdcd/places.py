"""A journal's names that something else has, FIFOs in the place of files, and rights on files of keys."""

import os
import socket
import stat

from harness import staged_realm as realm
from harness.stage import FEWER, FIRST_ROWS, T, Buyer, Staged, turn
from harness.tests import test
from harness.wire import REALM
from kdcd.journals import DAMAGED

# The first bytes of a journal: an OCTET STRING, a SEQUENCE, the field [0] and an OCTET STRING, the realm.
FRONT = bytes.fromhex("047c307aa0050403") + REALM.encode()
# What has the name of a file of a journal, and is none.
OTHERS = {
    "database": lambda path: path.write_text(realm.database(REALM, realm.TGS)),
    "keytab": lambda path: path.write_bytes(bytes.fromhex("05020000002e00010003412e42")),
    "text": lambda path: path.write_text("0\n"),
    "file of zeros": lambda path: path.write_bytes(bytes(512)),
    "file that begins with one byte of a journal": lambda path: path.write_bytes(b"\4" + bytes(range(100, 131))),
    "file that differs from a journal in its fourth tag": lambda path: path.write_bytes(FRONT[:6] + b"\5" + FRONT[7:]),
    "folder": lambda path: path.mkdir(),
    "FIFO": os.mkfifo,
    "socket": lambda path: socket.socket(socket.AF_UNIX).bind(str(path)),
    "device": lambda path: os.mknod(path, 0o600 | stat.S_IFCHR, os.makedev(1, 3)),
    "link to a device": lambda path: path.symlink_to("/dev/null"),
}
# What a start finds in the place of a journal's file after a crash: nothing, or the front of a journal.
FRONTS = [b"", *(FRONT[:length] for length in (1, 2, 3, 5, 7, 8, len(FRONT))), FRONT + bytes(100)]


def places(folder):
    """What the folder has, without the stage."""
    found = {}
    for path in folder.iterdir():
        stat_of = path.lstat()
        text = path.read_bytes() if stat.S_ISREG(stat_of.st_mode) else None
        found[path.name] = stat_of.st_ino, stat_of.st_mode, stat_of.st_rdev, text
    found.pop("stage")
    return found


@test("kdcd", trial=Staged, seconds=5)
def names(trial):
    """A journal's names that something else has, and FIFOs in the place of files."""
    trial.enter()
    ends = {
        "": "it is no journal", ".old": "the file .old beside it is no journal",
        ".new": "the file .new beside it is no journal", ".lock": "the file .lock beside it is no empty file",
    }
    serve = "kdcd serve --db database --udp 127.0.0.1:0 --rounds 0"
    for what, make in OTHERS.items():
        for end, text in ends.items():
            path = trial.folder / f"j{end}"
            try:
                make(path)
            except PermissionError:
                trial.leave(f"a {what}: only root can make one")
                break
            before = places(trial.folder)
            ran = trial.run(f"{serve} --journal j", seconds=10)
            found, wanted = (ran.status, ran.out, ran.err), (
                1, "refused NotJournal\n", f"kdcd: j: {text}, and stays as it is\n"
            )
            trial.same(f"a {what} at j{end} is refused", found, wanted)
            trial.same(f"a {what} at j{end} stays, and all beside it", places(trial.folder), before)
            for each in trial.folder.glob("j*"):
                each.rmdir() if each.is_dir() else each.unlink()
    for number, front in enumerate(FRONTS):
        trial.write("k", front)
        trial.write("k.old", front)
        trial.write("k.new", front)
        trial.expect(f"{serve} --journal k", 0, f"journal k: {DAMAGED}", what=f"a journal that was cut, {number}")
    for words, path in ((f"{serve} --seed pipe", "pipe"), ("kdcd serve --db pipe --udp 127.0.0.1:0 --rounds 0", "pipe"),
                        (f"{serve} --seed /dev/urandom", "/dev/urandom")):
        if path == "pipe" and not (trial.folder / path).exists():
            os.mkfifo(trial.folder / path)
        ran = trial.run(words, seconds=10)
        trial.same(
            f"what is no plain file ends the start: {words}", (ran.status, ran.out, ran.err),
            (3, "failed\n", f"kdcd: {path}: it is no file\n")
        )
    (trial.folder / "l.lock").symlink_to("nowhere")
    ran = trial.run(f"{serve} --journal l", seconds=10)
    found = ran.status, ran.out, ran.err, (trial.folder / "nowhere").exists()
    wanted = 3, "failed\n", "kdcd: l: the lock beside it: it is no file\n", False
    trial.same("a lock that is a link makes no file elsewhere", found, wanted)


@test("kdcd", trial=Staged)
def turn_of_files(trial):
    """A file with the name of a journal's that appears while the server runs."""
    trial.enter()
    server = trial.server("--first --journal turn")
    buyer = Buyer(server)
    found = [buyer.buy(server, T)]
    trial.write("turn.old", "a file of somebody\n")
    trial.show(T + 601)
    found.append(buyer.buy(server, T + 601))
    kept = (trial.folder / "turn.old").read_bytes()
    said = "kdcd: journal turn: a file that is no journal has the name of one of its files\n"
    trial.same(
        "no turn replaces a file of somebody", (found, kept, said in server.said()),
        (["ticket"] * 2, b"a file of somebody\n", True)
    )
    server.end()


def said_of(what, mode):
    return f"kdcd: {what}: its mode {mode:o} gives its group or others rights; make it 600\n"


@test("kdcd", trial=Staged)
def rights(trial):
    """What is said of the rights on files of keys, at each load."""
    trial.enter()
    trial.write("seed", bytes([7] * 32))
    for mode in (0o600, 0o400, 0o700, 0o640, 0o604, 0o620, 0o610):
        (trial.folder / "database").chmod(mode)
        (trial.folder / "seed").chmod(mode)
        ran = trial.run("kdcd serve --db database --seed seed --udp 127.0.0.1:0 --rounds 0")
        wanted = said_of("database database", mode) + said_of("seed seed", mode) if mode & 0o077 else ""
        trial.same(f"what is said of files with mode {mode:o}", ran.err.partition("kdcd: version")[0], wanted)
    (trial.folder / "database").chmod(0o600)
    server = trial.server("--first")
    before = len(server.said())
    trial.rows(*FIRST_ROWS, name="next")
    (trial.folder / "next").chmod(0o644)
    os.replace(trial.folder / "next", trial.folder / "database")
    turn(server)
    trial.same(
        "what is said of new rows that others may read", server.said()[before:],
        said_of("database database", 0o644) + FEWER
    )
    server.end()
    if os.geteuid():
        return trial.leave("files of another user: only root can make one")
    for name in ("database", "seed"):
        (trial.folder / name).chmod(0o600)
        os.chown(trial.folder / name, 4711, -1)
    ran = trial.run("kdcd serve --db database --seed seed --udp 127.0.0.1:0 --rounds 0")
    owned = "".join(f"kdcd: {name} {name}: it belongs to user 4711, and this server runs as user 0\n" for name in (
        "database", "seed"
    ))
    trial.same("what is said of files of another user", ran.err.partition("kdcd: version")[0], owned)
