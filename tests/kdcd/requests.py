"""Each request has to be answered: datagrams that are sent once, and as many authenticators of a client as its replay
cache holds."""

import time

from harness.kerberos import key_of, tgs_req, ticket_in
from harness.processes import SLOWNESS
from harness.tests import test
from harness.wire import REALM, answer, ask_tcp, ask_udp, datagrams, login

# The number of datagrams that are sent one after another, and the size of a client's replay cache.
DATAGRAMS, REMEMBERED = 1000, 1000


@test("kadm", "kdcd", seconds=10)
def each(trial):
    """Datagrams that are sent once, and as many authenticators of a client as its replay cache holds."""
    trial.realm()
    server = trial.serve(f"--first --remembered {REMEMBERED}")
    with datagrams(server.udp) as peer:
        peer.settimeout(10 * SLOWNESS)
        answered = sum(bool(ask_udp(peer, login("v"), 1)) for _ in range(DATAGRAMS))
        trial.note(
            f"{DATAGRAMS} datagrams are answered, each asked once", "" if answered == DATAGRAMS else f"{answered} are"
        )
        expect_remembered(trial, server, peer)
    server.end()
    first, second = first_session_key(trial), first_session_key(trial)
    trial.note("two starts give different session keys", "" if first != second else "the first one is the same")


def first_session_key(trial):
    """The session key that the first login gets after a start."""
    server = trial.serve("--first")
    with datagrams(server.udp) as peer:
        peer.settimeout(10 * SLOWNESS)
        _, key = ticket_in(key_of(b"a password", REALM.encode() + b"v"), ask_udp(peer, login("v")))
    server.end()
    return key


def expect_remembered(trial, server, peer):
    """Each of these authenticators gets a ticket, the next one is refused, and a repeated one gets the same bytes as
    before."""
    realm, now = REALM.encode(), int(time.time())
    ticket, key = ticket_in(key_of(b"a password", realm + b"v"), ask_udp(peer, login("v")))
    requests = [tgs_req(realm, b"v", (b"h",), (ticket, key), (now, turn)) for turn in range(REMEMBERED + 1)]
    replies = [ask_udp(peer, request) for request in requests]
    bought = sum(reply[:1] == b"\x6d" for reply in replies)
    trial.note(
        f"{REMEMBERED} authenticators of a client buy a ticket each", "" if bought == REMEMBERED else f"{bought} do"
    )
    found = answer(replies[-1])
    trial.note("one more is refused with 29", "" if found == "29" else f"it gets {found}")
    others = sum(ask_udp(peer, request) != reply for request, reply in list(zip(requests, replies))[:-1])
    trial.note("each that comes again gets the reply of before", f"{others} get another" if others else "")
    address, first = server.addresses[1][1], requests[0]
    trial.note(
        "also over two connections",
        "" if [ask_tcp(address, first) for _ in range(2)] == [replies[0]] * 2 else "they get others"
    )


@test("kadm", "kdcd")
def kept(trial):
    """A request of as many bytes as `--kept` gets the same reply when it comes again, and one of a byte more is
    refused."""
    trial.realm()
    realm, now = REALM.encode(), int(time.time())
    server = trial.serve("--first")
    with datagrams(server.udp) as peer:
        ticket, key = ticket_in(key_of(b"a password", realm + b"v"), ask_udp(peer, login("v")))
    server.end()
    request = tgs_req(realm, b"v", (b"h",), (ticket, key), (now, 0))
    for most, wanted in ((len(request), "the same"), (len(request) - 1, "34"), (0, "34"), (65535, "the same")):
        server = trial.serve(f"--first --kept {most}")
        with datagrams(server.udp) as peer:
            first, again = ask_udp(peer, request), ask_udp(peer, request)
        server.end()
        found = "the same" if first == again else answer(again)
        is_well = first[:1] == b"\x6d" and found == wanted
        trial.note(
            f"with --kept {most} a request of {len(request)} bytes that comes again gets {wanted}",
            "" if is_well else f"{answer(first)}, {found}"
        )
