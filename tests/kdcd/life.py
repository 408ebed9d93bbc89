"""A server whose rows change, with the requests and replies of a model; the file of its rows, which is replaced,
broken, removed and put back; and what comes by connections."""

import os
import re
import signal
import socket

from harness import staged_realm as realm
from harness.processes import SLOWNESS
from harness.server import drained
from harness.stage import FEWER, FIRST_ROWS, MORE, ask, counts, filled, Staged, turn
from harness.tests import test
from harness.wire import REALM, place_of

# What is at the path of the database, the next request, and its reply, or the first bytes of its reply if that has a
# ticket. Nothing stands for the same file as before.
LIFE = (
    (None, realm.LOGIN, realm.CLIENT_UNKNOWN),
    # A new principal.
    ((*FIRST_ROWS, realm.NEW_USER), realm.LOGIN, realm.TICKET),
    ("{", realm.LOGIN, realm.TICKET),
    (realm.database("C.D", realm.TGS_OF_C_D), realm.LOGIN, realm.TICKET),
    (None, realm.FOR_SERVICE, realm.SERVICE_TICKET),
    # A principal that is disabled.
    ((*FIRST_ROWS, realm.DISABLED_USER), realm.LOGIN, realm.CLIENT_REVOKED),
    # Replay caches are kept.
    (None, realm.FOR_SERVICE, realm.SERVICE_TICKET),
    (None, realm.SAME_AUTHENTICATOR, realm.REPEAT),
    # New keys of the services. Tickets under the older keys are accepted until those are dropped.
    ((realm.NEWER_SERVICE, realm.NEWER_TGS, realm.USER), realm.NEXT_AUTHENTICATOR, realm.NEWER_SERVICE_TICKET),
    (None, realm.FOR_SERVICE, realm.SERVICE_TICKET),
    ((realm.NEWER_SERVICE, realm.LAST_TGS, realm.USER), realm.LAST_AUTHENTICATOR, realm.BAD_KEY_VERSION),
    # A principal that is removed.
    (None, realm.LOGIN, realm.CLIENT_UNKNOWN),
)


@test("kdcd", trial=Staged)
def a_model(trial):
    """A server whose rows change, with the requests and replies of a model."""
    trial.enter()
    trial.rows(*FIRST_ROWS)
    server = trial.server("--first --log --remembered 64 --greatest-renewable 0 --rounds 1000")
    replies = []
    for number, (rows, request, wanted) in enumerate(LIFE):
        if rows:
            trial.put("database", rows if isinstance(rows, str) else realm.database(REALM, *rows))
        turn(server)
        reply = ask(server, request)
        is_right = reply.startswith(wanted) if wanted[0] in (0x6B, 0x6D) else reply == wanted
        trial.note(
            f"request {number} of a life gets its reply", "" if is_right else f"{reply.hex()}, and not {wanted.hex()}"
        )
        replies.append(reply)
    is_kept = replies[4] == replies[6] == replies[9]
    trial.note("the same request gets the same reply as before the rows were replaced", "" if is_kept else str(replies))
    found, said = counts(server), server.said()
    events = sum(not line.startswith("kdcd: ") for line in said.splitlines())
    trial.same("each event is counted, and none of them failed", found, (events, 0, 0))
    refused = re.findall(r"kdcd: database: (\w+)", said)
    trial.same("a file that is broken and one of another realm are refused once", refused, ["NotJson", "OtherRealm"])


# The error with code 61 (KRB_ERR_FIELD_TOOLONG).
TOO_LONG = realm.CLIENT_UNKNOWN.replace(bytes.fromhex("a603020106"), bytes.fromhex("a60302013d"))


def stream_for(server, octets):
    """All that a peer gets which sends these bytes and closes its half of the connection."""
    found = b""
    with socket.create_connection(place_of(server.addresses[1][1]), 5 * SLOWNESS) as peer:
        peer.sendall(octets)
        peer.shutdown(socket.SHUT_WR)
        while piece := peer.recv(65536):
            found += piece
    return found


@test("kdcd", trial=Staged)
def streams(trial):
    """The bytes for a length with its first bit set, for half a length, and for a request that comes by two
    connections."""
    trial.enter()
    server = trial.server("--first")
    for what, octets, wanted in (
        ("a length with its first bit set gets code 61 and the end", b"\x80\0\0\0", b"\0\0\0\x4c" + TOO_LONG),
        ("two bytes of a length and the end get nothing", b"\0\0", b""),
    ):
        trial.same(what, stream_for(server, octets), wanted)
    request = len(realm.FOR_SERVICE).to_bytes(4, "big") + realm.FOR_SERVICE
    first, second = stream_for(server, request), stream_for(server, request)
    is_kept = first == second and first[4:].startswith(realm.SERVICE_TICKET)
    trial.note(
        "a TGS-REQ gets the same reply by another connection",
        "" if is_kept else f"{first.hex()}, and then {second.hex()}"
    )
    server.end()


KEPT = "; the rows before it stay\n"
GONE = f"kdcd: database: No such file or directory (os error 2){KEPT}"
# What becomes of the file of a database, and what is said then. Nothing stands for no change.
DEEDS = (
    ("nothing", ""), ("more rows", MORE), ("nothing", ""),
    ("write {", f"kdcd: database: NotJson (EOF while parsing at line 1 column 1){KEPT}"),
    ("nothing", ""), ("write {}", f"kdcd: database: BadVersion{KEPT}"), ("rows", FEWER), ("remove", GONE),
    ("nothing", ""),
    ("folder", f"kdcd: database: it is no file{KEPT}"), ("nothing", ""), ("remove folder", GONE), ("rows", FEWER),
    ("nothing", ""),
    ("another realm", f"kdcd: database: OtherRealm{KEPT}"), ("nothing", ""),
)


def do(trial, server, deed):
    path = trial.folder / "database"
    if deed.startswith("write "):
        # A server that reads while a file is written may read half of it.
        server.process.send_signal(signal.SIGSTOP)
        path.write_text(deed[6:])
        server.process.send_signal(signal.SIGCONT)
    elif deed in ("rows", "more rows"):
        trial.rows(*FIRST_ROWS, *[realm.NEW_USER] * (deed == "more rows"))
    elif deed == "another realm":
        trial.rows(realm.TGS_OF_C_D, of="C.D")
    elif deed != "nothing":
        {"remove": path.unlink, "folder": path.mkdir, "remove folder": path.rmdir}[deed]()


@test("kdcd", trial=Staged)
def rows(trial):
    """The file of a server's rows, which is replaced, broken, removed and put back."""
    trial.enter()
    trial.rows(*FIRST_ROWS)
    server = trial.server("--first")
    for number, (deed, wanted) in enumerate(DEEDS):
        before = len(server.said())
        trial.write("stage/calls", "")
        do(trial, server, deed)
        turn(server)
        is_read = "open database" in trial.calls()
        found = server.said()[before:], deed == "nothing" and is_read
        trial.same(f"the file of the rows, deed {number}: {deed}", found, (wanted, False))
    server.end()
    trial.rows(*FIRST_ROWS)
    reader, writer = os.pipe()
    server = trial.server("--first", errors=writer)
    drained(reader)
    filled(writer)
    do(trial, server, "more rows")
    turn(server)
    junk = drained(reader)
    turn(server)
    found = drained(reader), "database" in junk
    turn(server)
    trial.same(
        "a line that could not be written comes at the next look, once", (found, drained(reader)), ((MORE, False), "")
    )
    server.end()
    os.close(reader)
    os.close(writer)
