"""A journal that outlives a boot, since it was sealed; a server without a journal while one is beside its database; and
the size at which a journal's files take turns."""

import re

from harness.stage import Buyer, Staged, T
from harness.tests import test
from kdcd.journals import ABSENT, DAMAGED, OTHER_BOOT

SEALED = "resumed with 1 authenticators"
NO_SEAL = "the file .sealed beside it is no seal, and stays as it is"
# A server that ends at once.
SERVE = "kdcd serve --db database --udp 127.0.0.1:0 --rounds 0"


def begun(trial, words="--journal", buyer=None):
    """Starts a server, sells a ticket, and kills it. Returns the buyer, his answer, and what the start said of the
    journal."""
    server = trial.server(words)
    buyer = buyer or Buyer(server)
    found = buyer.buy(server, trial.second)
    said = re.findall(r"kdcd: journal \S+: (.*)\n", server.said())
    server.process.kill()
    server.process.wait()
    return buyer, found, said


def seal(trial, status, out, said=""):
    """Runs `kdcd seal`, which has to say this of the journal."""
    ran = trial.run("kdcd seal --journal database.journal")
    err = f"kdcd: journal database.journal: {said}\n" if said else ""
    trial.same(f"kdcd seal: {out.strip()}", (ran.status, ran.out, ran.err), (status, out, err))


def not_sealed(said):
    """What `kdcd seal` says where a start would say this."""
    return said.replace("not resumed", "not sealed")


def at(trial, later, boot):
    """Sets the clock and the boot."""
    trial.second = T + later
    trial.show(trial.second)
    trial.set("BOOT", boot)


def octets(trial, end=""):
    """The bytes of a file of the journal."""
    return (trial.folder / f"database.journal{end}").read_bytes()


def sealed_once(trial):
    """Seals the journal of a first server at its second try, which is in its boot. Returns the server's buyer."""
    at(trial, 0, "one")
    seal(trial, 1, "refused Absent\n", not_sealed(ABSENT))
    (trial.folder / "database.journal.lock").unlink()
    buyer, found, said = begun(trial, "--first --journal")
    trial.same("a first start sells at once", (found, said), ("ticket", [ABSENT]))
    at(trial, 20, "two")
    seal(trial, 1, "refused OtherBoot\n", not_sealed(OTHER_BOOT))
    at(trial, 10, "one")
    seal(trial, 0, "ok\n")
    trial.same("a seal is the last check", octets(trial, ".sealed"), octets(trial)[-16:])
    seal(trial, 0, "ok\n")
    return buyer


@test("kdcd", trial=Staged, seconds=5)
def boots(trial):
    """A journal that is sealed outlives a boot, once; one that is not sealed doesn't."""
    trial.enter()
    buyer = sealed_once(trial)
    at(trial, 30, "two")
    buyer, found, said = begun(trial, "--journal", buyer)
    trial.same("a start in another boot resumes with a sealed journal", (found, said), ("ticket", [SEALED]))
    trial.same("it breaks the seal", octets(trial, ".sealed"), b"")
    files = b"two" in octets(trial), b"one" in octets(trial, ".old")
    trial.same("it goes on in a file of its boot", files, (True, True))
    at(trial, 31, "two")
    server = trial.server("--journal")
    found = [buyer.buy(server, T), buyer.buy(server, T + 31)]
    said = re.findall(r"kdcd: journal \S+: (.*)\n", server.said())
    both = "resumed with 2 authenticators"
    trial.same("a start in the same boot resumes with both files", (found, said), (["ticket"] * 2, [both]))
    what = "a journal that a server has open is not sealed"
    trial.expect("kdcd seal --journal database.journal", 3, "another server appends to it", what=what)
    server.end()
    at(trial, 40, "three")
    _, found, said = begun(trial, "--journal", buyer)
    trial.same("a start in a third boot refuses, since nobody sealed it", (found, said), ("37", [OTHER_BOOT]))


@test("kdcd", trial=Staged, seconds=5)
def others(trial):
    """What is no seal, a seal of another journal, and a journal that is cut."""
    trial.enter()
    buyer = sealed_once(trial)
    for text, what, boot in ((b"x", "octets that are no seal", "two"), (b"x" * 16, "another journal's seal", "three")):
        trial.write("database.journal.sealed", text)
        at(trial, 41, boot)
        _, found, said = begun(trial, "--journal", buyer)
        trial.same(what, (found, said), ("37", [DAMAGED]))
    trial.write("database.journal.sealed", b"a file of somebody")
    seal(trial, 1, "refused NotJournal\n", NO_SEAL)
    trial.same("it stays", octets(trial, ".sealed"), b"a file of somebody")
    (trial.folder / "database.journal.sealed").unlink()
    trial.write("database.journal", octets(trial)[:-1])
    seal(trial, 1, "refused Damaged\n", not_sealed(DAMAGED))


@test("kdcd", trial=Staged, seconds=5)
def no_journal(trial):
    """A server without a journal while one is beside its database."""
    trial.enter()
    at(trial, 0, "one")
    begun(trial, "--first --journal")
    refused = "kdcd: database: its journal is beside it; start with --journal to go on with that, or with " \
              "--no-journal to remove it\n"
    ran = trial.run(SERVE)
    trial.same("a start without the journal", (ran.status, ran.out, ran.err), (1, "refused Journal\n", refused))
    trial.expect(f"{SERVE} --no-journal --journal", 2, "--journal and --no-journal don't go together")
    trial.write("database.journal.new", "a file of somebody\n")
    trial.expect(f"{SERVE} --no-journal", 1, "refused NotJournal", what="--no-journal removes no file of somebody")
    (trial.folder / "database.journal.new").unlink()
    server = trial.server("--journal")
    what = "--no-journal removes no journal that a server has open"
    trial.expect(f"{SERVE} --no-journal", 3, "another server appends to it", what=what)
    server.end()
    what = "--no-journal serves, as after a restart"
    trial.expect(f"{SERVE} --no-journal", 0, "all TGS-REQs are refused until", what=what)
    left = sorted(path.name for path in trial.folder.glob("database.*"))
    trial.same("it removes the journal", left, ["database.journal.lock"])
    trial.expect(SERVE, 0, what="then a start needs no option")
    trial.expect(f"{SERVE} --no-journal", 0, what="--no-journal without a journal")


@test("kdcd", trial=Staged, seconds=5)
def sizes(trial):
    """The size at which a journal's files take turns."""
    trial.enter()
    at(trial, 0, "one")
    for word in ("x", "-1", "1.5M", "513M", "1G", "4294967296", "''"):
        words = f"{SERVE} --journal --journal-size {word}"
        trial.expect(words, 2, "--journal-size takes a number of bytes up to 512M", what=f"--journal-size {word}")
    for word in ("0", "512M", "1K", "536870912"):
        trial.expect(f"{SERVE} --journal --journal-size {word}", 0, what=f"--journal-size {word}")
        for path in trial.folder.glob("database.journal*"):
            path.unlink()
    server = trial.server("--first --journal --journal-size 1K")
    buyer = Buyer(server)
    found = [buyer.buy(server, T) for _ in range(30)]
    now, old = len(octets(trial)), len(octets(trial, ".old"))
    are_right = now < 1200, 1024 <= old < 1200
    trial.same("files of a thousand bytes take turns", (found, *are_right), (["ticket"] * 30, True, True))
    server.end()
