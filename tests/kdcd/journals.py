"""What a start in each second makes of a journal, and replies that wait for their records."""

import contextlib
import re
import resource
import shutil
import socket

from harness import staged_realm as realm
from harness.kerberos import elements, fields, time_of
from harness.processes import SLOWNESS
from harness.stage import FRAMED, T, ask, Buyer, counts, limit, settle, Staged
from harness.tests import test
from harness.wire import answer, datagrams, place_of


def copied(trial, second):
    """Copies the journal, since a start may change it, and sets the clock."""
    shutil.rmtree(trial.folder / "copy", ignore_errors=True)
    shutil.copytree(trial.folder / "run", trial.folder / "copy", ignore=shutil.ignore_patterns("*.lock"))
    trial.show(second)


def resumed(trial, second, database="database"):
    """What a start in this second says of the journal."""
    copied(trial, second)
    ran = trial.run(f"kdcd serve --db {database} --udp 127.0.0.1:0 --rounds 0 --journal copy/journal")
    found = re.findall(r"kdcd: journal copy/journal: (.*)\n", ran.err)
    return found[0] if ran.status == 0 and len(found) == 1 else f"status {ran.status}, {ran.err!r}"


def expect_floor(trial, buyer, second, floor):
    """Tries the floor with which a start in this second resumes: an earlier authenticator is refused."""
    copied(trial, second)
    server = trial.server("--journal copy/journal")
    found = [buyer.buy(server, each) for each in (floor - 1, floor)]
    trial.same(f"the floor of a start {second - T} seconds later is {floor - T}", found, ["37", "ticket"])
    server.end()


def expect_behind(trial, buyer):
    """A start whose clock is two hours behind its journal, and one after the clock was put right: what was used stays
    used."""
    copied(trial, T - 7_000)
    trial.server("--journal copy/journal").end()
    trial.show(T + 310)
    server = trial.server("--journal copy/journal")
    found = [buyer.buy(server, T + each) for each in (302, 303)]
    trial.same("a journal outlives a clock that was two hours behind", found, ["37", "ticket"])
    server.end()


def sells(trial, buyer, begins, seconds):
    """Starts a server in this second, and buys a ticket in each of these. Returns the buyer, the answers, and what is
    said of the journal."""
    trial.show(T + begins)
    server = trial.server("--journal run/journal")
    buyer, found = buyer or Buyer(server), []
    for second in seconds:
        trial.show(T + second)
        found.append(buyer.buy(server, T + second))
    said = re.findall(r"kdcd: journal run/journal: (.*)\n", server.said())
    server.end()
    return buyer, found, said


ABSENT, DAMAGED = "not resumed: there is none", "not resumed: it is damaged, or others may write it"
OTHER_BOOT = "not resumed: the system was booted since, and it was not sealed before"


@test("kdcd", trial=Staged, seconds=5)
def seconds(trial):
    """What a start in each second makes of a journal."""
    trial.enter()
    run = trial.folder / "run"
    run.mkdir()
    trial.set("BOOT", "one")
    trial.same("a start without a journal", resumed(trial, T), ABSENT)
    buyer, found, said = sells(trial, None, 0, (300, 301, 302))
    trial.same("a server sells tickets from its floor on", (found, said), (["37", "ticket", "ticket"], [ABSENT]))
    trial.same("a start in the last second of the journal", resumed(trial, T + 302), "resumed with 2 authenticators")
    trial.same(
        "a start a second before that", resumed(trial, T + 301),
        "resumed with 2 authenticators, with a clock that is behind it"
    )
    expect_behind(trial, buyer)
    expect_floor(trial, buyer, T + 302, T + 301)
    for mode, wanted in (
        (0o640, "resumed with 2 authenticators"), (0o660, DAMAGED), (0o602, DAMAGED),
        (0o600, "resumed with 2 authenticators")
    ):
        (run / "journal").chmod(mode)
        trial.same(f"a journal with mode {mode:o}", resumed(trial, T + 302), wanted)
    # It appends to what was read, and the files take turns.
    _, found, said = sells(trial, buyer, 310, (600, 601, 602))
    trial.same("a server goes on with the journal", (found, said), (["ticket"] * 3, ["resumed with 2 authenticators"]))
    trial.same("a start after the files took turns", resumed(trial, T + 602), "resumed with 5 authenticators")
    expect_floor(trial, buyer, T + 602, T + 302)
    # The first file is dropped, and no start is refused because of that.
    _, found, said = sells(trial, buyer, 610, (1202,))
    trial.same("a server goes on with two files", (found, said), (["ticket"], ["resumed with 5 authenticators"]))
    trial.same("a start after the first file was dropped", resumed(trial, T + 1202), "resumed with 3 authenticators")
    expect_floor(trial, buyer, T + 1202, T + 902)
    trial.set("BOOT", "another")
    trial.same("a start after another boot", resumed(trial, T + 1202), OTHER_BOOT)
    trial.set("BOOT", "one")
    (run / "journal.old").unlink()
    trial.same(
        "a start without the older file", resumed(trial, T + 1202),
        "not resumed: the journal that goes before it is missing"
    )
    trial.rows(realm.TGS_OF_A_C, name="other", of="A.C")
    trial.same("a start of another realm", resumed(trial, T + 1202, "other"), "not resumed: it is of another realm")


# Requests, for how many of them the journal can't be written, whether each gets its reply, or the end of its
# connection; and the failed calls.
WITHHELD = (
    ("ticket datagram", 0, (True, True), 0),
    # No other reply is sent either: it might be the reply that was withheld.
    ("ticket message", 2, (False, False), 2),
    ("ticket message", 1, (False, True), 1),
    # An action without a reply waits for nothing.
    ("nothing close", 2, (True, True), 0),
)


@test("kdcd", trial=Staged, seconds=10)
def withheld(trial):
    """Replies wait for their records."""
    trial.enter()
    for requests, broken, wanted, faults in WITHHELD:
        trial.show(T)
        server = trial.server("--first --rounds 500 --journal withheld", restore_signals=False)
        buyer, found = Buyer(server), []
        for number, what in enumerate(requests.split()):
            limit(server, 0 if number < broken else resource.RLIM_INFINITY)
            found.append(is_done(server, what, buyer, 1 if number < broken else 20))
        limit(server)
        found = tuple(found), counts(server)[1:]
        trial.same(
            f"a journal that fails for {broken} of {requests}: {wanted}, {faults} calls fail", found,
            (wanted, (faults, 0))
        )
        entries = entries_of((trial.folder / "withheld").read_bytes())
        kept = [(time_of(T - 5), 5)] * ("ticket" in requests and wanted[0])
        trial.same("the journal has the authenticator that was answered", entries, kept)
        for file in trial.folder.glob("withheld*"):
            file.unlink()


def over_tcp(server, request):
    """The answer on a connection, or `end` if it ends without one."""
    connection = socket.create_connection(place_of(server.addresses[1][1]), 5 * SLOWNESS)
    with connection as peer, contextlib.suppress(TimeoutError):
        peer.sendall(len(request).to_bytes(4, "big") + request)
        reply = peer.recv(65536)[4:]
        return answer(reply) if reply else "end"
    return "none"


@test("kdcd", trial=Staged)
def ends(trial):
    """A reply that is withheld ends its connection, so that the client asks another server at once."""
    trial.enter()
    server = trial.server("--quiet-start --log")
    buyer = Buyer(server)
    found = [over_tcp(server, request) for request in (buyer.request(T), realm.LOGIN)]
    settle(server)
    is_said = [
        line.endswith(" sent=no") for line in server.said().splitlines() if " tcp as " in line or " tcp tgs " in line
    ]
    trial.same(
        "a quiet start ends the connection of a TGS-REQ, and answers a login", (found, is_said),
        (["end", "ticket"], [True, False])
    )
    server.end()
    server = trial.server("--first --journal ends", restore_signals=False)
    buyer = Buyer(server)
    limit(server, 0)
    found = [over_tcp(server, request) for request in (buyer.request(T), realm.LOGIN)]
    limit(server)
    found.append(over_tcp(server, realm.LOGIN))
    trial.same("a journal that fails ends the connections of requests", found, ["end", "end", "ticket"])
    server.end()


def is_done(server, what, buyer, seconds):
    """Whether a request gets its reply, or the end of its connection, in this time."""
    if what == "ticket":
        return buyer.buy(server, T - 5, seconds=seconds) == "ticket"
    if what == "datagram":
        return answer(ask(server, realm.LOGIN, seconds)) == "ticket"
    if what == "nothing":
        with datagrams(server.udp) as peer:
            peer.send(b"x")
        return True
    connection = socket.create_connection(place_of(server.addresses[1][1]), seconds * SLOWNESS)
    with connection as peer, contextlib.suppress(TimeoutError):
        if what == "message":
            peer.sendall(FRAMED)
            return answer(peer.recv(65536)[4:]) == "ticket"
        peer.shutdown(socket.SHUT_WR)
        return peer.recv(1) == b""
    return False


def entries_of(text):
    """The times of the authenticators in a journal, and how many seconds later their requests came (docs/FORMATS.md, 'A
    journal')."""
    found = [fields(contents) for _, contents in elements(text)[2::2]]
    return [(each[1], int.from_bytes(elements(each[3])[0][1], "big", signed=True)) for each in found]
