"""Attacks of a user, a keytab's holder and a stranger (SECURITY.md): forged tickets that name another client,
requests that take all memory, datagrams that fill the log, and what a stranger learns of clients and does to them."""

import collections
import contextlib
import itertools
import os
import pathlib
import re
import resource
import socket
import time

from harness.kerberos import (
    as_req, encrypted_data, field, general_string, integer, key_of, name, octet_string, sequence, tgs_req, ticket_in,
    time_of, timestamp, tlv,
)
from harness.processes import SLOWNESS
from harness.show_keytab import entries, line
from harness.tests import test
from harness.wire import REALM, answer, ask_udp, datagrams, login, place_of

OURS = REALM.encode()
PASSWORD = b"a password"
# The bits of KDCOptions (RFC 4120, section 5.4.1), and those of TicketFlags that make a ticket renewable, or one to be
# validated.
RENEW, VALIDATE, RENEWABLE, INVALID = 30, 31, 8, 7
# The size of a client's replay cache of the forged tickets.
REMEMBERED = 8
# The bytes that a server may allocate beyond what it has at its start, and the longest request that is kept.
ROOM, LONGEST_KEPT = 6 << 20, 4096
# The clients that take it, the authenticators that the replay cache of each holds, and after how many refused requests
# they stop.
TAKERS, HELD, ENOUGH = 3, 4096, 40
# The seconds in which they have to be done, and those from one tidying of the server to the next.
HASTE, MINUTE, SKEW = 20, 60, 300
# The replies after which a client takes another connection: as long as these are, a server gives more to one.
GIVEN = 50
# The datagrams of one byte between two logins, and the logins.
NOISE, LOGINS = 40, 50


def bits(*numbers):
    """Four bytes in which these bits are set. Bit 0 is the most significant one."""
    return sum(1 << (31 - number) for number in numbers).to_bytes(4, "big")


class Client:
    """A client with a TGT, or with a ticket that it made itself. Each request has an authenticator of its own."""

    def __init__(self, server, client, password=PASSWORD):
        self.client = client
        key = key_of(password, OURS + client)
        with datagrams(server.udp) as peer:
            reply = ask_udp(peer, as_req(OURS, client, timestamp(key, int(time.time()))))
        self.ticket, self.key = ticket_in(key, reply)

    def request(self, service, second, microsecond, client=None, **more):
        return tgs_req(OURS, client or self.client, service, (self.ticket, self.key), (second, microsecond), **more)


def forged_ticket(key, service, client, session_key, flag):
    """A ticket for the service, as anyone who has its key can make it: it names any client and session key (RFC 4120,
    section 5.3)."""
    now = int(time.time())
    part = tlv(0x63, sequence(
        field(0, tlv(0x03, b"\0" + bits(flag))),
        field(1, sequence(field(0, integer(18)), field(1, octet_string(session_key)))),
        field(2, general_string(OURS)), field(3, name(1, client)),
        field(4, sequence(field(0, integer(1)), field(1, octet_string(b"")))),
        field(5, time_of(now)), field(6, time_of(now)), field(7, time_of(now + 3600)), field(8, time_of(now + 7200)),
    ))
    return tlv(0x61, sequence(
        field(0, integer(5)), field(1, general_string(OURS)), field(2, name(2, *service)),
        field(3, encrypted_data(key, 2, part)),
    ))


def forged_requests(forger, client, second, count, way, asked=None):
    """TGS-REQs with a ticket that a service forged with its key, which ask to renew or to validate it, or for another
    service. `forger` is the key and the service, and `way` the options and the ticket's flag. Their authenticators are
    those that the client may use next."""
    (key, service), (options, flag) = forger, way
    session_key = os.urandom(32)
    ticket = forged_ticket(key, service, client, session_key, flag)
    return [
        tgs_req(OURS, client, asked or service, (ticket, session_key), (second, turn), options=bits(*options))
        for turn in range(count)
    ]


def answers(server, requests):
    """How many of the requests got each answer."""
    with datagrams(server.udp) as peer:
        peer.settimeout(10 * SLOWNESS)
        return dict(collections.Counter(answer(ask_udp(peer, request)) for request in requests))


def keytab_key(file):
    """The key of type 18 in a keytab."""
    lines = map(line, entries(file.read_bytes()))
    return bytes.fromhex(next(each.split()[3] for each in lines if each.split()[2] == "18"))


@test("kadm", "kdcd", seconds=5)
def forged_by_users(trial):
    """Tickets that a user made, in the name of another client."""
    trial.realm()
    trial.expect("kadm add --db database --name mallory --password-file pw", 0, "=ok")
    server = trial.serve(f"--first --log --remembered {REMEMBERED}")
    now = int(time.time())
    mallory, mallory_key = (b"mallory",), key_of(PASSWORD, OURS + b"mallory")
    for what, option, flag in (("renew", [RENEW], RENEWABLE), ("validate", [VALIDATE], INVALID)):
        found = answers(server, forged_requests((mallory_key, mallory), b"v", now, 2 * REMEMBERED, (option, flag)))
        trial.same(
            f"tickets under a user's own key, which name another client, to {what}: no key", found,
            {"45": 2 * REMEMBERED}
        )
    lines = re.findall(r" udp tgs (\S+) (\S+) refused 45 no-key rule=(\S+)", server.said())
    trial.same("the log names no client for them", set(lines), {("-", "mallory", "no-key")})
    owner, thief = Client(server, b"v"), Client(server, b"mallory")
    found = answers(server, [thief.request((b"h",), now, turn, client=b"v") for turn in range(2 * REMEMBERED)])
    trial.same("a user's ticket beside an authenticator of another client: bad match", found, {"36": 2 * REMEMBERED})
    found = answers(server, [owner.request((b"mallory",), now, turn) for turn in range(1)])
    trial.same("nobody gets a ticket for a user", found, {"7": 1})
    found = answers(server, [owner.request((b"h",), now, turn) for turn in range(1, REMEMBERED)])
    trial.same("the client still has all its authenticators, the same ones", found, {"ticket": REMEMBERED - 1})
    server.end()


@test("kadm", "kdcd", seconds=5)
def forged_by_services(trial):
    """The holder of a service's key can do it, as RFC 4120 has the renewal of tickets for services."""
    trial.realm()
    server = trial.serve(f"--first --remembered {REMEMBERED}")
    now, key = int(time.time()), keytab_key(trial.folder / "h.keytab")
    owner, other = Client(server, b"v"), Client(server, b"u")
    found = answers(server, forged_requests((key, (b"h",)), b"v", now, REMEMBERED, ([RENEW], RENEWABLE)))
    trial.same("a keytab's holder renews a ticket for its service in a client's name", found, {"ticket": REMEMBERED})
    found = answers(server, [owner.request((b"h",), now, REMEMBERED)])
    trial.same("so it uses up the client's authenticators", found, {"29": 1})
    found = answers(server, [other.request((b"h",), now, turn) for turn in range(REMEMBERED)])
    trial.same("and nobody else's", found, {"ticket": REMEMBERED})
    others = ((b"krbtgt", OURS), (b"host", b"n"))
    found = [answers(server, forged_requests((key, other), b"u", now, 1, ([RENEW], RENEWABLE))) for other in others]
    trial.same(
        "it makes no ticket for the ticket-granting service, and none for another service", found, [{"31": 1}] * 2
    )
    requests = [
        forged_requests((key, (b"h",)), b"u", now, 1, (option, RENEWABLE), others[1]) for option in ([], [RENEW])
    ]
    found = [answers(server, each) for each in requests]
    trial.same("nor does it buy or renew another service's ticket with one for its own", found, [{"35": 1}] * 2)
    server.end()


class Connection:
    """Asks over one connection after another: each for less than the server gives to one. The server also ends one if
    it ran out of memory for a request."""

    def __init__(self, address):
        self.place, self.peer, self.given = place_of(address), None, 0

    def ask(self, request):
        """The reply, or nothing if the connection ended without one."""
        try:
            if not self.peer:
                self.peer = socket.create_connection(self.place, 10 * SLOWNESS)
            self.peer.sendall(len(request).to_bytes(4, "big") + request)
            octets = self.peer.recv(4, socket.MSG_WAITALL)
            octets = self.peer.recv(int.from_bytes(octets, "big"), socket.MSG_WAITALL) if len(octets) == 4 else b""
        except ConnectionError:
            octets = b""
        self.given += 1
        if not octets or self.given == GIVEN:
            self.end()
        return octets

    def end(self):
        if self.peer:
            self.peer.close()
        self.peer, self.given = None, 0


def data_bytes(server):
    """The data of the process, as RLIMIT_DATA counts it."""
    status = pathlib.Path(f"/proc/{server.process.pid}/status").read_text()
    return int(re.search(r"VmData:\s+(\d+)", status)[1]) * 1024


def greatest(taker, second, turn):
    """The longest request whose reply is kept, for a service that is unknown: the error names it."""
    beyond = len(taker.request((b"a" * 3000,), second, turn)) - LONGEST_KEPT
    return taker.request((b"a" * (3000 - beyond),), second, turn)


def take(server, takers, second):
    """Sends the longest requests of each taker until enough of them got no reply. Returns how many got which answer,
    and those without one."""
    connection, found, refused = Connection(server.addresses[1][1]), collections.Counter(), []
    for turn in range(HELD):
        for taker in takers:
            came = answer(connection.ask(greatest(taker, second, turn)))
            found[came] += 1
            if came == "none":
                refused.append((taker, turn))
            if len(refused) == ENOUGH:
                connection.end()
                return found, refused
    connection.end()
    return found, refused


def asked(server, requests):
    """How many of the requests got each answer over TCP."""
    connection = Connection(server.addresses[1][1])
    found = collections.Counter(answer(connection.ask(request)) for request in requests)
    connection.end()
    return dict(found)


def is_served_again(server, taker, old):
    """Whether longest requests are answered again, and how many seconds after their authenticators were too old."""
    turns, end = itertools.count(HELD), old + 2 * MINUTE * SLOWNESS
    batch = lambda count: asked(
        server, [greatest(taker, int(time.time()) - SKEW + HASTE, next(turns)) for _ in range(count)]
    ) == {"7": count}
    is_well = False
    while not is_well and time.time() < end and server.process.poll() is None:
        time.sleep(1)
        is_well = time.time() > old and batch(1) and batch(ENOUGH)
    return is_well, time.time() - old


@test("kadm", "kdcd", seconds=90)
def memory(trial):
    """Clients that take all memory which a limit allows, as LimitDATA= of the unit does."""
    trial.realm()
    for turn in range(TAKERS):
        trial.expect(f"kadm add --db database --name c{turn} --password-file pw", 0, "=ok")
    server = trial.serve(f"--first --remembered {HELD}")
    takers, owner = [Client(server, b"c%d" % turn) for turn in range(TAKERS)], Client(server, b"v")
    most = data_bytes(server) + ROOM
    resource.prlimit(server.process.pid, resource.RLIMIT_DATA, (most, most))
    # These are too old in some seconds.
    old = int(time.time() + HASTE * SLOWNESS)
    found, refused = take(server, takers, old - SKEW)
    taken = found["7"]
    is_well = set(found) == {"7", "none"} and len(refused) == ENOUGH
    trial.note(
        f"{taken} requests of {TAKERS} clients take the memory, and {len(refused)} get no reply",
        "" if is_well else str(dict(found))
    )
    if time.time() > old:
        trial.note("they were sent in time", f"not within {HASTE * SLOWNESS:.0f} seconds")
    now = int(time.time())
    found = asked(server, [login("v"), owner.request((b"h",), now, 0), login("nobody")] * 20)
    trial.note(
        f"logins and a ticket beside them: {found}", "" if set(found) <= {"6", "ticket", "none"} else "other answers"
    )
    # Shorter requests with the same authenticators need less memory.
    found = asked(server, [taker.request((b"x",), old - SKEW, turn) for taker, turn in refused])
    trial.note(
        f"none of the refused had changed anything: {found}",
        "" if set(found) <= {"7", "none"} else "they are in a replay cache"
    )
    trial.note(
        f"the process keeps to its {most >> 10} KiB, and lives",
        "" if server.process.poll() is None else f"status {server.process.poll()}"
    )
    is_well, seconds = is_served_again(server, takers[0], old)
    trial.note(
        f"once these are old, and a tidying has passed, requests are answered again ({seconds:.0f} s)",
        "" if is_well else "they are not"
    )
    now = int(time.time())
    found = asked(server, [
        login("v"), *[owner.request((b"h",), now, turn) for turn in range(1, 100)],
        Client(server, b"c0").request((b"h",), now, 0)
    ])
    trial.same("and logins and tickets are as before", found, {"ticket": 101})
    trial.same("the server ends at SIGTERM", server.end(), -15)


@test("kadm", "kdcd", seconds=5)
def noise(trial):
    """A stranger's datagrams of one byte beside logins: each is a line of the log, and none costs the line of a
    login."""
    trial.realm()
    server = trial.serve("--first --log")
    with datagrams(server.udp) as stranger, datagrams(server.udp) as peer:
        peer.settimeout(10 * SLOWNESS)
        own = peer.getsockname()[1]
        for _ in range(LOGINS):
            for _ in range(NOISE):
                stranger.send(b"x")
            ask_udp(peer, login("v"), 1)
        with contextlib.suppress(OSError):
            stranger.settimeout(0.1)
            trial.note("no datagram of one byte is answered", f"one gets {stranger.recv(100)!r}")
    lines = lambda: re.findall(rf":{own} udp as v \S+ ticket ", server.said())
    server.wait(lambda: len(lines()) == LOGINS, 5)
    trial.same(f"{LOGINS} logins beside {LOGINS * NOISE} datagrams of one byte have their lines", len(lines()), LOGINS)
    lines_of_noise = len(re.findall(r" udp none\n", server.said()))
    trial.note(
        f"{lines_of_noise} of these have theirs", "" if 0 < lines_of_noise <= LOGINS * NOISE else "an odd number"
    )
    server.end()


# What a stranger gets for a client with this field, before any preauthentication (RFC 4120, section 7.5.9).
STANDINGS = {"disabled": ("true", "18"), "expires": ("2001-01-01", "1"), "password_expires": ("2001-01-01", "23")}
# A PA-ENC-TIMESTAMP (type 2) that nobody encrypted, and how many of them lock a client.
JUNK, TRIES = sequence(field(1, integer(2)), field(2, octet_string(b"junk"))), 3


@test("kadm", "kdcd")
def stranger(trial):
    """Without any key: the codes by which clients differ, and a lock by junk in place of timestamps, also of a client
    that needs none."""
    trial.realm()
    for name_of, (value, _) in STANDINGS.items():
        trial.expect(f"kadm add --db database --name {name_of} --password-file pw", 0, "=ok")
        trial.expect(f"kadm policy --db database --name {name_of} --field {name_of} --value {value}", 0, "=ok")
    server = trial.serve(f"--first --lock-after {TRIES} --lock-seconds 600")
    wanted = {"nobody": "6", "u": "25", "v": "ticket"} | {each: code for each, (_, code) in STANDINGS.items()}
    trial.same("what a stranger learns of clients", {each: server.answer(each) for each in wanted}, wanted)
    with datagrams(server.udp) as peer:
        for client in (b"u", b"v"):
            found = [answer(ask_udp(peer, as_req(OURS, client, JUNK))) for _ in range(TRIES)]
            trial.same(f"junk for {client.decode()}", found, ["24"] * TRIES)
            good = timestamp(key_of(PASSWORD, OURS + client), int(time.time()))
            trial.same("then its password", answer(ask_udp(peer, as_req(OURS, client, good))), "18")
    server.end()
