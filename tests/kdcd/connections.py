"""Peers that close half of a connection, are slow, never read, are idle or send nonsense."""

import collections
import contextlib
import os
import pathlib
import random
import re
import select
import signal
import socket
import time
from concurrent.futures import ThreadPoolExecutor

from harness.kerberos import body, elements, field, fields, integer, sequence, tlv
from harness.processes import SLOWNESS
from harness.tests import test
from harness.wire import (
    REALM, answer, ask_tcp, ask_udp, connected, datagrams, framed, login, long_login, place_of, read_reply,
    read_to_end,
)

# The connections that are served at once (docs/REFERENCE.md, 'Limits'), and the server's files that are not
# connections.
CONNECTIONS, OTHER_FILES = 256, 16
# The seconds for which a connection may be without a complete request.
LONGEST_IDLE = 30


def is_served(server):
    """What is wrong, unless a datagram and a new connection are answered now."""
    found = server.answer("v"), answer(ask_tcp(server.addresses[1][1], login("v")))
    return "" if found == ("ticket", "ticket") else f"beside it a datagram gets {found[0]}, and a connection {found[1]}"


def half_closed(server):
    """Requests after which the peer sends nothing more, and half a request."""
    faults = []
    for requests in (1, 3):
        with connected(server) as peer:
            peer.sendall(framed(login("v")) * requests)
            peer.shutdown(socket.SHUT_WR)
            found = [answer(read_reply(peer)) for _ in range(requests)]
            rest = peer.recv(1)
        if found != ["ticket"] * requests or rest:
            faults.append(f"{requests} requests get {found}, then {rest!r}")
    with connected(server) as peer:
        peer.sendall(framed(login("v"))[:20])
        peer.shutdown(socket.SHUT_WR)
        rest = peer.recv(1)
    return "; ".join([*faults, *[f"half a request gets {rest!r}"] * bool(rest)]) or is_served(server)


def slow(server):
    """One byte at a time, of the request and of the reply."""
    with connected(server) as peer:
        peer.setsockopt(socket.IPPROTO_TCP, socket.TCP_NODELAY, 1)
        for octet in framed(login("v")):
            peer.sendall(bytes([octet]))
            time.sleep(0.003)
        beside = is_served(server)
        found = answer(read_reply(peer, 1))
    return beside or ("" if found == "ticket" else f"it gets {found}")


def full(server):
    """A peer that sends requests without end and reads no reply. It is dropped 30 seconds after it was given all that a
    connection is given, and nobody waits for it."""
    requests, end = framed(login("v")) * 100, time.monotonic() + LONGEST_IDLE + 10 * SLOWNESS
    with connected(server) as peer:
        peer.settimeout(SLOWNESS)
        while time.monotonic() < end:
            try:
                peer.sendall(requests)
            except TimeoutError:
                continue
            except ConnectionError:
                return is_served(server)
            time.sleep(0.05)
    return "it is not dropped"


def held(server):
    """The number of files that the server has open."""
    return len(list(pathlib.Path(f"/proc/{server.process.pid}/fd").iterdir()))


def idle(server):
    """More than twice as many connections as are served at once, which send nothing and whose peers never close them. A
    datagram and a new connection are answered, and the server holds at most twice as many as it serves."""
    with contextlib.ExitStack() as stack:
        for _ in range(2 * CONNECTIONS + 88):
            stack.enter_context(connected(server))
        fault, files = is_served(server), held(server)
    return fault or f"the server has {files} files open" * (files > 2 * CONNECTIONS + OTHER_FILES)


def is_open(connection):
    """Whether the server has not ended the connection, and nothing came on it."""
    poll = select.poll()
    poll.register(connection, select.POLLIN)
    return not poll.poll(0)


def longest_idle(server):
    """With all connections in use, the first of them asks for a ticket. Then 44 more come, and one that asks, too: the
    45 that have been idle longest are closed, and no other."""
    with contextlib.ExitStack() as stack:
        several = lambda count: [stack.enter_context(connected(server)) for _ in range(count)]
        first, *others = several(CONNECTIONS)
        # A request on the last one is answered after the server accepted all before it.
        for peer in (others[-1], first):
            peer.sendall(framed(login("v")))
            if (found := answer(read_reply(peer))) != "ticket":
                return f"one of {CONNECTIONS} connections gets {found}"
        later = several(45)
        later[-1].sendall(framed(login("v")))
        found = answer(read_reply(later[-1]))
        ended = [number for number, peer in enumerate([first, *others, *later]) if not is_open(peer)]
    fault = f"the last one gets {found}, and {ended} are closed" * ((found, ended) != ("ticket", list(range(1, 46))))
    return fault or is_served(server)


def one_after_another(server):
    """More connections than are served at once, one after another."""
    found = collections.Counter(answer(ask_tcp(server.addresses[1][1], login("v"))) for _ in range(CONNECTIONS + 44))
    return "" if found == {"ticket": CONNECTIONS + 44} else f"they get {dict(found)}"


def asking_for(service):
    """A login of an unknown client. The error names this service."""
    return tlv(
        0x6A,
        sequence(field(1, integer(5)), field(2, integer(10)), field(4, body(REALM.encode(), (service,), b"nobody")))
    )


def service_of(reply):
    """The service that an error with code 6 names, or what else the reply is."""
    if answer(reply) != "6":
        return answer(reply)
    [_, parts] = elements(elements(fields(elements(reply)[0][1])[10])[0][1])
    return elements(elements(parts[1])[0][1])[0][1]


def alternating(server):
    """Two connections whose bytes alternate get their own replies, and none before the last byte."""
    services, faults = (b"first", b"other"), []
    requests = [framed(asking_for(service)) for service in services]
    with connected(server) as first, connected(server) as other:
        for peer in (first, other):
            peer.setsockopt(socket.IPPROTO_TCP, socket.TCP_NODELAY, 1)
        for place in range(len(requests[0])):
            if place == len(requests[0]) - 1:
                time.sleep(0.2)
                faults += ["a reply comes before the last octet"] * (not (is_open(first) and is_open(other)))
            for peer, request in zip((first, other), requests):
                peer.sendall(request[place:place + 1])
        found = tuple(service_of(read_reply(peer)) for peer in (first, other))
        time.sleep(0.2)
        faults += ["more than a reply comes"] * (not (is_open(first) and is_open(other)))
    return "; ".join([*faults, *[f"they get {found}"] * (found != services)])


def cut_anywhere(server):
    """Two requests on a connection, in two pieces that are cut at each place. The first piece is read before the second
    one is sent."""
    services, faults = (b"first", b"other"), []
    stream = b"".join(framed(asking_for(service)) for service in services)
    with datagrams(server.udp) as beside:
        for place in range(len(stream) + 1):
            with connected(server) as peer:
                peer.sendall(stream[:place])
                # All that was there before the second of these is read before it.
                for _ in range(2):
                    ask_udp(beside, asking_for(b"beside"))
                peer.sendall(stream[place:])
                found = tuple(service_of(read_reply(peer)) for _ in services)
            if found != services:
                faults.append(f"cut at {place}: {found}")
    return "; ".join(faults[:3])


def used(server):
    """The processor time of the server so far, in seconds."""
    words = pathlib.Path(f"/proc/{server.process.pid}/stat").read_text().rpartition(")")[2].split()
    return (int(words[11]) + int(words[12])) / os.sysconf("SC_CLK_TCK")


def keeps_open(server):
    """A peer keeps its side of a connection open after the server closed its own. The server waits meanwhile."""
    with connected(server) as peer:
        peer.sendall(b"\x80" * 4)
        found, rest = answer(read_reply(peer)), peer.recv(1)
        before = used(server)
        time.sleep(3)
        took = used(server) - before
    fault = f"it gets {found}, then {rest!r}" * (found != "61" or rest != b"")
    return fault or f"the server works for {took} of 3 seconds" * (took > 0.2)


def reads_little(server):
    """A connection whose peer's system buffers few bytes until the peer reads them."""
    peer = socket.socket()
    peer.setsockopt(socket.SOL_SOCKET, socket.SO_RCVBUF, 4096)
    peer.setsockopt(socket.IPPROTO_TCP, socket.TCP_MAXSEG, 536)
    peer.settimeout(10 * SLOWNESS)
    peer.connect(place_of(server.addresses[1][1]))
    return peer


def waiting(peer):
    """The number of bytes in the system's buffers, at both ends of a connection."""
    port = peer.getsockname()[1]
    lines = [line.split() for line in pathlib.Path("/proc/net/tcp").read_text().splitlines()[1:]]
    ends = [line for line in lines if port in (int(each.rpartition(":")[2], 16) for each in line[1:3])]
    return sum(int(part, 16) for line in ends if line[3] != "0A" for part in line[4].split(":"))


def unread(server, ends, least):
    """What is wrong, unless a peer that asks three times gets at least this many long replies, which it begins to read
    only after `ends`, and then the end. While one waits it isn't read."""
    with reads_little(server) as peer:
        for _ in range(3):
            peer.sendall(framed(long_login()))
            time.sleep(1)
        if (known := waiting(peer)) > 3 * 60_000:
            return f"all of it waits in the system's buffers, {known} octets"
        ends(peer)
        found = [answer(reply) for reply in read_to_end(peer)]
    return "" if least <= len(found) <= 3 and set(found) == {"7"} else f"three requests get {found}"


def written_in_part(server):
    """A reply that is partly written is finished after the peer closed its half."""
    return unread(server, lambda peer: peer.shutdown(socket.SHUT_WR), 3) or is_served(server)


def without_request(server):
    """A connection without a complete request for 30 seconds is closed, and its peer still gets what it has not
    read."""
    begun, faults = time.monotonic(), []
    until = lambda seconds: time.sleep(max(0.0, begun + seconds - time.monotonic()))
    with contextlib.ExitStack() as stack:
        silent, half, late, asking = (stack.enter_context(connected(server)) for _ in range(4))
        pool = stack.enter_context(ThreadPoolExecutor())
        unanswered = silent, half, late
        not_read = pool.submit(unread, server, lambda _: time.sleep(LONGEST_IDLE + 3), 1)
        half.sendall(framed(login("v"))[:20])
        until(LONGEST_IDLE * 2 / 3)
        # Half a request does not count, and a whole one does.
        late.sendall(framed(login("v"))[:20])
        asking.sendall(framed(login("v")))
        found = answer(read_reply(asking))
        faults += [f"one that asks late gets {found}"] * (found != "ticket")
        until(LONGEST_IDLE - 3)
        faults += ["one is closed too early"] * (not all(map(is_open, (*unanswered, asking))))
        until(LONGEST_IDLE + 3)
        faults += ["one that asked late is closed with the others"] * (not is_open(asking))
        end_of = lambda peer: "nothing" if is_open(peer) else peer.recv(1)
        ended = [end_of(peer) for peer in unanswered]
        until(LONGEST_IDLE * 5 / 3 + 3)
        ended.append(end_of(asking))
        faults += [f"they end with {ended}"] * (ended != [b""] * 4)
        faults.append(not_read.result())
    return "; ".join(filter(None, faults)) or is_served(server)


def closed_by_server(server):
    """The server closes 600 connections, and their peers keep their sides open. After 30 seconds it has dropped
    them."""
    with contextlib.ExitStack() as stack:
        closed = []
        for _ in range(2 * CONNECTIONS + 88):
            closed.append(stack.enter_context(connected(server)))
            closed[-1].sendall(bytes(4))
            if rest := closed[-1].recv(1):
                return f"length zero gets {rest!r}"
        fault, files = is_served(server), held(server)
        fault = fault or f"the server has {files} files open" * (files > 2 * CONNECTIONS + OTHER_FILES)
        time.sleep(LONGEST_IDLE + 3)
        left = held(server)
    # The connections that wait beside it are few.
    fault = fault or f"{left} files are open after {LONGEST_IDLE} seconds" * (left > 2 * OTHER_FILES)
    return fault or is_served(server)


def odd_lengths(server):
    """A length with its high bit set, also with more bytes after it than the server reads; a length past the longest
    request; and length zero."""
    faults = []
    for octets, wanted in (
        (b"\x80\0\0\0", "61"), (b"\x80" * 5000, "61"), ((65536).to_bytes(4, "big"), "61"), (bytes(4), "none")
    ):
        with connected(server) as peer:
            peer.sendall(octets)
            found, rest = answer(read_reply(peer)), peer.recv(1)
        if found != wanted or rest:
            faults.append(f"{len(octets)} octets, {octets[:4].hex()}, get {found}, then {rest!r}")
    return "; ".join(faults) or is_served(server)


def nonsense(server):
    """Datagrams of random bytes, and logins with one byte changed. Each gets one reply at most."""
    chance = random.Random(42)
    with datagrams(server.udp) as peer:
        for turn in range(4000):
            octets = bytearray(login("v")) if turn % 2 else chance.randbytes(chance.randrange(1400))
            if turn % 2:
                octets[chance.randrange(len(octets))] = chance.randrange(256)
            peer.send(octets)
            time.sleep(0.0005 * (turn % 4 == 0))
        time.sleep(0.5)
    return is_served(server)


def in_turn(trial):
    """What is wrong, unless a connection is answered among the first of many datagrams that wait with it."""
    server = trial.serve("--first --log")
    server.process.send_signal(signal.SIGSTOP)
    with datagrams(server.udp) as peer, connected(server) as connection:
        for _ in range(100):
            peer.send(login("v"))
        connection.sendall(framed(login("v")))
        server.process.send_signal(signal.SIGCONT)
        found = answer(read_reply(connection))
        lines = lambda: re.findall(r" (udp|tcp) as v ", server.said())
        server.wait(lambda: len(lines()) > 100, 5)
    server.end()
    place = lines().index("tcp") if "tcp" in lines() else None
    return f"it gets {found}, at place {place} of {len(lines())}" * (
        found != "ticket" or len(lines()) != 101 or place > 24
    )


def own_replies(trial):
    """What is wrong, unless peers of two addresses for datagrams and of two for connections, which ask at the same
    time, get their own replies, each from where it asked."""
    words = " ".join(f"--{kind} 127.0.0.1:0" for kind in ("udp", "tcp") for _ in range(2))
    # A round without an event takes a tenth of a second.
    server = trial.serve(f"--first --rounds 64 {words}")
    sockets = [
        socket.socket(type=socket.SOCK_DGRAM if kind == "udp" else socket.SOCK_STREAM) for kind, _ in server.addresses
    ]
    services = [f"s{number}".encode() for number in range(len(sockets))]
    with contextlib.ExitStack() as stack:
        for peer, (kind, address), service in zip(sockets, server.addresses, services):
            stack.enter_context(peer).settimeout(5 * SLOWNESS)
            peer.connect(place_of(address))
            peer.sendall(asking_for(service) if kind == "udp" else framed(asking_for(service)))
        kinds = [kind for kind, _ in server.addresses]
        came = [peer.recv(65536) if kind == "udp" else read_reply(peer) for peer, kind in zip(sockets, kinds)]
        found = [service_of(reply) for reply in came]
        server.wait(lambda: False, 20)
        # The end of the server ends connections. Nothing else comes.
        has_more = lambda peer, kind: not is_open(peer) if kind == "udp" else peer.recv(1)
        more = [kind for peer, kind in zip(sockets, kinds) if has_more(peer, kind)]
    # Two datagrams, two new connections, and a piece on each.
    said = server.out.read_text()
    is_well = len(sockets) == 4 and found == services and not more and said == "served 6 0 0\n"
    return "" if is_well else f"they get {found}, then {more}; {said!r}"


def try_each_of(trial, given, tries):
    """Runs tries at the same time, each with what is given, a server or the folder of one."""
    def fault_of(tried):
        try:
            return tried(given)
        except OSError as error:
            return str(error) or type(error).__name__

    with ThreadPoolExecutor() as pool:
        for what, fault in zip(tries, pool.map(fault_of, tries.values())):
            trial.note(what, fault)


@test("kadm", "kdcd", seconds=10)
def replies(trial):
    """Peers that ask at the same time."""
    trial.realm()
    try_each_of(trial, trial, {"peers of four addresses get their own replies": own_replies})
    try_each_of(trial, trial, {"a connection beside a hundred datagrams": in_turn})


@test("kadm", "kdcd", seconds=80)
def peers(trial):
    """Odd and hostile peers of the server."""
    trial.realm()
    server = trial.serve()
    for what, tried in {
        "a peer that closes its half of a connection": half_closed,
        "a peer that sends and reads an octet at a time": slow,
        "two connections whose octets alternate": alternating,
        "two requests in pieces that are cut anywhere": cut_anywhere,
        f"more connections than {CONNECTIONS}, one after another": one_after_another,
        "a connection that its peer keeps open after the server closed it": keeps_open,
        "the connections that have been idle longest are closed for new ones": longest_idle,
        f"more idle connections than {CONNECTIONS}": idle, "lengths that are none": odd_lengths,
        "datagrams that are no requests": nonsense,
        "replies that are written in part, before the peer's end": written_in_part,
    }.items():
        try_each_of(trial, server, {what: tried})
    try_each_of(trial, server, {
        f"connections without a complete request for {LONGEST_IDLE} seconds": without_request,
        "a peer that sends without end and reads no reply": full,
        "more connections than are held at once, which peers keep open after the server closed them": closed_by_server,
    })
    status = server.end()
    trial.note("the server still runs, and ends at SIGTERM", "" if status == -15 else f"status {status}")
