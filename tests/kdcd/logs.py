"""The line of each request, also if its reply can't be sent; and logs that can't be written."""

import contextlib
import os
import select
import socket

from harness import staged_realm as realm
from harness.kerberos import as_req
from harness.processes import SLOWNESS
from harness.server import drained
from harness.stage import FIRST_ROWS, FRAMED, MORE, T, filled, limit, place, settle, Staged, turn, utc
from harness.tests import test
from harness.wire import REALM, answer, ask_udp, datagrams, place_of

# The lines for a pipe without a reader.
MANY = 1000
# Requests, each with its way: a login, bytes that are no request, the same on a connection, a length that is too large,
# and two logins at once.
EVENTS = ("udp", realm.LOGIN), ("udp", b"x"), ("tcp", b"\0\0\0\1x"), ("tcp", b"\x80\0\0\0"), ("tcp", 2 * FRAMED)
# Their lines, after the peer and the way.
TICKET = f"as w krbtgt/A.B ticket 10h etype=18/18 flags=I until={utc(T + 36_000)}"
LOGGED = [TICKET], ["none"], ["none"], ["none"], [TICKET, TICKET]


def sent(server, way, request):
    """Sends a request. Returns the address that it was sent from."""
    if way == "udp":
        with datagrams(server.udp) as peer:
            peer.send(request)
            return place(peer)
    with socket.create_connection(place_of(server.addresses[1][1]), 5 * SLOWNESS) as peer:
        peer.sendall(request)
        peer.shutdown(socket.SHUT_WR)
        with contextlib.suppress(ConnectionError):
            while peer.recv(65536):
                pass
        return place(peer)


@test("kdcd", trial=Staged)
def each_request(trial):
    """The line of each request, also if its reply can't be sent."""
    trial.enter()
    # The call that fails, and the number of the request whose reply it sends.
    for failing, of in ((None, None), ("sendto", 0), ("send", 4)):
        server = trial.server("--first --log")
        wanted, start = "", len(server.said())
        for number, ((way, request), logged) in enumerate(zip(EVENTS, LOGGED)):
            if number == of:
                trial.set("FAILS", failing)
            own = sent(server, way, request)
            wanted += "".join(f"{utc(T)} {own} {way} {line}{' sent=no' if number == of else ''}\n" for line in logged)
            server.wait(lambda: len(server.said()) >= start + len(wanted), 5)
        turned = len(server.said())
        turn(server)
        has_failed = not (trial.folder / "stage" / "FAILS").exists()
        what = f"if {failing} fails for request {of}" if failing else "if no call fails"
        trial.same(f"each request has its line, {what}", (server.said()[start:turned], has_failed), (wanted, True))
        server.end()


class Asker:
    """A client that logs in again and again from one port. Its `line` is that of each login."""

    def __init__(self, server, peer):
        self.server, self.peer = server, peer
        self.line = f"{utc(T)} {place(peer)} udp {TICKET}\n"

    def log_in(self, count):
        """Logs in, and waits until the server has written or lost the lines. Returns whether each login got a
        ticket."""
        answers = {answer(ask_udp(self.peer, realm.LOGIN)) for _ in range(count)}
        settle(self.server)
        return answers == {"ticket"}


@contextlib.contextmanager
def asking(server):
    with datagrams(server.udp) as peer:
        peer.settimeout(20 * SLOWNESS)
        yield Asker(server, peer)


# The room of a log: this many lines and bytes; the logins that come while there is no more; and what the log then has
# before the line of the next login.
ROOMS = (
    (1, 0, 2, "{line}{lost}1 lines are lost\n"), (1, 1, 2, "{line}2\n{lost}1 lines are lost\n"),
    (2, -1, 2, "{line}{line}{lost}1 lines are lost\n"),
    (3, 0, 3, "{line}{line}{line}"), (3, -1, 3, "{line}{line}{line}{lost}1 lines are lost\n"),
    (0, 0, 3, "{lost}3 lines are lost\n"),
)


@test("kdcd", trial=Staged)
def room(trial):
    """A disk that is full for some lines. The line after lost ones says how many."""
    trial.enter()
    for lines, more, logins, wanted in ROOMS:
        server = trial.server("--first --log", restore_signals=False)
        before = len(server.said())
        with asking(server) as asker:
            limit(server, before + lines * len(asker.line) + more)
            are_answered = asker.log_in(logins)
            limit(server)
            are_answered = asker.log_in(1) and are_answered
        wanted = wanted.format(line=asker.line, lost="kdcd: log: ") + asker.line
        found = server.said()[before:], are_answered
        trial.same(f"{logins} lines in room for {lines} and {more} bytes, and one after that", found, (wanted, True))
        server.end()


@test("kdcd", trial=Staged)
def cut(trial):
    """A line after one that was cut starts on a line of its own, also if it comes from another writer."""
    trial.enter()
    for has_change in (False, True):
        trial.rows(*FIRST_ROWS, realm.NEW_USER)
        reader, writer = os.pipe()
        server = trial.server("--first --log", errors=writer)
        drained(reader)
        # The first piece of a long line takes the last place.
        filled(writer, 1)
        with asking(server) as asker:
            whole = asker.line.replace(
                TICKET, f"as {'n' * 190} krbtgt/A.B refused 6 client-unknown rule=client-unknown"
            )
            found = [answer(ask_udp(asker.peer, as_req(REALM.encode(), b"n" * 190)))]
            settle(server)
            first = drained(reader).lstrip("\n")
            found.append(0 < len(first) < len(whole) and whole.startswith(first))
            if has_change:
                trial.rows(*FIRST_ROWS, realm.NEW_USER)
                server.wait(lambda: select.select([reader], [], [], 0)[0], 4)
                found.append(drained(reader))
            found.append(asker.log_in(1))
            found.append(drained(reader))
        next_lines = f"kdcd: log: 1 lines are lost\n{asker.line}"
        wanted = [f"\n{MORE}", True, next_lines] if has_change else [True, f"\n{next_lines}"]
        trial.same(
            f"{'a line about the rows' if has_change else 'the next line'} after one that was cut", found,
            ["6", True, *wanted]
        )
        server.end()
        os.close(reader)
        os.close(writer)


@test("kdcd", trial=Staged)
def many(trial):
    """Many lines: a pipe without a reader loses all, one that is not read loses the last ones, and the next line says
    how many; a file takes all."""
    trial.enter()
    for is_read in (False, True):
        path = trial.folder / f"pipe{is_read}"
        os.mkfifo(path)
        reader = os.open(path, os.O_RDONLY | os.O_NONBLOCK)
        writer = os.open(path, os.O_WRONLY)
        server = trial.server("--first --log", errors=writer)
        os.close(writer)
        drained(reader)
        with asking(server) as asker:
            if not is_read:
                os.close(reader)
            are_answered = asker.log_in(MANY)
            reader = reader if is_read else os.open(path, os.O_RDONLY | os.O_NONBLOCK)
            kept = drained(reader).splitlines(keepends=True) if is_read else []
            are_answered = asker.log_in(1) and are_answered
        is_part = 0 < len(kept) < MANY if is_read else True
        found = are_answered, set(kept) <= {asker.line}, is_part, drained(reader)
        lost = f"kdcd: log: {MANY - len(kept)} lines are lost\n{asker.line}"
        what = "that is not read" if is_read else "without a reader"
        trial.same(f"{MANY} lines for a pipe {what}", found, (True, True, True, lost))
        server.end()
        os.close(reader)
    server = trial.server("--first --log")
    before = len(server.said())
    with asking(server) as asker:
        found = asker.log_in(MANY), server.said()[before:] == MANY * asker.line
    trial.same(f"{MANY} lines for a file", found, (True, True))
    server.end()
