"""A connection gets 256 replies, or 262,144 bytes of them, and then its end (docs/REFERENCE.md, 'Limits'). It is not
read while a peer has not taken what it was sent."""

import contextlib
import select
import time
from concurrent.futures import ThreadPoolExecutor

from harness.processes import SLOWNESS
from harness.tests import test
from harness.wire import answer, ask_tcp, connected, framed, login, long_login, read_reply, read_to_end

MOST_REPLIES, MOST_BYTES = 256, 262_144
# The most bytes that are read from a connection at once.
PIECE = 2_048
# The connections whose peers ask and never read, and the requests that each has ready.
PEERS, REQUESTS = 64, 2_000


def one_at_a_time(server):
    """A peer reads each reply before it asks again. It gets 256 of them, and then the end."""
    with connected(server) as peer:
        found = []
        for _ in range(MOST_REPLIES):
            peer.sendall(framed(login("v")))
            found.append(answer(read_reply(peer)))
        rest = peer.recv(1)
    return "" if found == ["ticket"] * MOST_REPLIES and not rest else f"it gets {found[-3:]}, then {rest!r}"


def long_replies(server):
    """A peer asks for replies of 60,000 bytes. It gets 262,144 bytes of them, up to the end of the last one."""
    taken, count = 0, 0
    with connected(server) as peer:
        while taken < MOST_BYTES:
            peer.sendall(framed(long_login()))
            reply = read_reply(peer)
            if answer(reply) != "7":
                return f"after {count} replies it gets {answer(reply)}"
            taken, count = taken + len(framed(reply)), count + 1
        rest = peer.recv(1)
    return f"after {count} replies of {taken} bytes it gets {rest!r}" if rest else ""


def send_what_fits(peers, octets):
    """Has each peer send as many of these bytes as its system takes, until none has sent any for a second. Returns how
    many bytes each has sent."""
    sent = {peer: 0 for peer in peers}
    for peer in peers:
        peer.setblocking(False)
    while ready := select.select([], [peer for peer in peers if sent[peer] < len(octets)], [], SLOWNESS)[1]:
        for peer in ready:
            with contextlib.suppress(BlockingIOError):
                sent[peer] += peer.send(octets[sent[peer]:sent[peer] + PIECE])
    for peer in peers:
        # A system whose peer takes bytes again may notice that only after as long as it took none.
        peer.settimeout(20 * SLOWNESS)
    return [sent[peer] for peer in peers]


def fault_of(peer):
    """What is wrong with what a peer gets that asked without reading."""
    found = read_to_end(peer)
    size, most = sum(len(framed(reply)) for reply in found), MOST_REPLIES + PIECE // len(framed(login("v")))
    is_well = MOST_REPLIES <= len(found) <= most and {answer(reply) for reply in found} == {"ticket"}
    return "" if is_well and size < 2 * MOST_BYTES else f"{len(found)} replies of {size} bytes"


@test("kadm", "kdcd", seconds=15)
def replies(trial):
    """How many replies a connection gets, and that peers that ask without reading keep nobody waiting."""
    trial.realm()
    server = trial.serve()
    trial.note("a peer that reads each reply", one_at_a_time(server))
    trial.note("a peer that asks for long replies", long_replies(server))
    with contextlib.ExitStack() as stack:
        peers = [stack.enter_context(connected(server)) for _ in range(PEERS)]
        sent = send_what_fits(peers, framed(login("v")) * REQUESTS)
        needed = 2 * MOST_REPLIES * len(framed(login("v")))
        trial.note(
            f"each of {PEERS} peers has sent enough requests", f"one sent {min(sent)}" * (min(sent) < needed)
        )
        begun = time.monotonic()
        found = server.answer("v"), answer(ask_tcp(server.addresses[1][1], login("v")))
        trial.same("beside them a datagram and a new connection get a ticket", found, ("ticket", "ticket"))
        seconds = time.monotonic() - begun
        trial.note("within a second", f"after {seconds:.1f}" * (seconds > SLOWNESS))
        with ThreadPoolExecutor(PEERS) as pool:
            faults = list(filter(None, pool.map(fault_of, peers)))
    trial.note(f"each of these gets {MOST_REPLIES} replies, those that came with the last, and its end",
               "; ".join(faults[:3]))
    trial.same("the server still runs, and ends at SIGTERM", server.end(), -15)
