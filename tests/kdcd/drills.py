"""Drills of docs/RUNNING.md and docs/REFERENCE.md: the first of two servers is lost, a server is restarted on a full
disk, and a clock was ahead."""

import shutil

from harness.stage import T, Buyer, Staged, limit, turn, utc
from harness.tests import test
from harness.wire import REALM

JOURNAL = "--journal run/journal"
# How far the clock was ahead, in seconds; and how long a start refuses TGS-REQs that does not resume.
AHEAD, REFUSING = 7200, 301
# The row that only the lost server had, and the one that the other one gets later.
LOST, NEW = ("kadm add --db database --name %s --password-file pw" % name for name in ("lost", "new"))


@test("kadm", "kdcd", "kclient", seconds=3)
def lost_server(trial):
    """Clients of a server that is lost turn to the other one. That has the rows of the last copy, and takes changes."""
    trial.realm()
    shutil.copytree(trial.folder, trial.folder.parent / "copy")
    first = trial.serve("--first")
    trial.expect(LOST, 0, "=ok", what="a change that is not copied")
    trial.folder = trial.folder.parent / "copy"
    second = trial.serve("--first")
    first.process.kill()
    first.process.wait()
    both = f"--kdc {first.udp} --kdc {second.udp}"
    login = f"kclient kinit {both} --realm {REALM} --password-file pw --cache"
    trial.expect(f"{login} cc u", 0, "=ok", what="a login")
    trial.expect(f"kclient kvno {both} --cache cc h", 0, "=h kvno 1", what="a ticket for a service")
    trial.expect(f"{login} cc2 lost", 1, "=refused 6", what="a login of a principal that was lost")
    trial.expect(NEW, 0, "=ok", what="a change on the other server")
    trial.note("it is served", "" if second.wait(lambda: "with 6 rows" in second.said(), 10) else second.said())
    trial.expect(f"{login} cc2 new", 0, "=ok", what="a login of the new principal")
    second.end()


def first_server(trial):
    """The first server of a realm, with a journal, and a client."""
    trial.enter()
    (trial.folder / "run").mkdir()
    server = trial.server(f"--first {JOURNAL}", restore_signals=False)
    return server, Buyer(server)


def expect_said(trial, what, server, text):
    trial.note(what, "" if text in server.said() else f"it says {server.said()!r}")


@test("kdcd", trial=Staged, seconds=3)
def full_disk(trial):
    """A server that is restarted while its journal's disk is full finds the record that was cut, and does not resume.
    The disk is full: the file has room for a part of a record, and no other file is made."""
    server, buyer = first_server(trial)
    # Enough that the file becomes longer than the log, for which the limit holds, too.
    trial.same("tickets", {buyer.buy(server, T) for _ in range(30)}, {"ticket"})
    limit(server, (trial.folder / "run/journal").stat().st_size + 10)
    (trial.folder / "run").rename(trial.folder / "away")
    trial.same("a TGS-REQ gets no reply", buyer.buy(server, T, seconds=0.5), "none")
    expect_said(trial, "the server says so", server, "a record was cut; no reply is sent until it can be written")
    server.end()
    (trial.folder / "away").rename(trial.folder / "run")
    server = trial.server(JOURNAL)
    expect_said(trial, "a restart", server, "run/journal: not resumed: it is damaged, or others may write it")
    trial.same("a TGS-REQ after it", buyer.buy(server, T), "37")
    server.end()


@test("kdcd", trial=Staged, seconds=3)
def clock_ahead(trial):
    """The clock was ahead, and is right again: whom the server refuses, and what a restart with and without the journal
    refuses."""
    server, buyer = first_server(trial)
    trial.show(T + AHEAD)
    turn(server)
    trial.same("a ticket while the clock is ahead", buyer.buy(server, T + AHEAD), "ticket")
    trial.show(T)
    turn(server)
    trial.same("the same client afterwards", buyer.buy(server, T), "37")
    server.end()
    server = trial.server(JOURNAL)
    until = f"kdcd: restart: all TGS-REQs are refused until {utc(T + AHEAD + 1)}\n"
    expect_said(trial, "a restart with the journal refuses all until the clock's latest time", server, until)
    server.end()
    (trial.folder / "run").rename(trial.folder / "away")
    (trial.folder / "run").mkdir()
    server = trial.server(JOURNAL)
    until = f"kdcd: restart: all TGS-REQs are refused until {utc(T + REFUSING)}\n"
    expect_said(trial, "a restart without it refuses all for 301 seconds", server, until)
    trial.show(T + REFUSING)
    trial.same("a ticket after that", buyer.buy(server, T + REFUSING), "ticket")
    server.end()
