"""The lines of a log: their fields, to a file and to sinks that accept no lines."""

import itertools
import json
import os
import re
import time

from harness.kerberos import body, field, integer, key_of, sequence, tgs_req, ticket_in, tlv
from harness.server import SINKS, drained, flood, sink_of
from harness.tests import test
from harness.wire import REALM, ask_tcp, ask_udp, datagrams, login

# A line of the log.
LINE = re.compile(
    r"\d{4}-\d\d-\d\dT\d\d:\d\d:\d\dZ \S+:\d+ (udp|tcp) "
    r"(none|unanswered|(as|tgs) \S+ \S+ (ticket [\w-]+|refused (\d+|-) [a-z-]+)( [a-z]+=\S+)*)"
)
# The number of datagrams that are sent with each log.
REQUESTS = 1000
# The names on each line with --log-format json.
NAMED = {"time", "peer", "transport", "exchange"}


def odd_lines(text):
    """The lines that are not the log's, except for those that a server writes at its start and its end."""
    return [line for line in text.splitlines() if not line.startswith("kdcd: ") and not LINE.fullmatch(line)]


@test("kadm", "kdcd", seconds=40)
def sinks(trial):
    """A thousand requests with a log to a file, and to sinks that accept no lines."""
    trial.realm()
    for what in SINKS:
        writer, reader = sink_of(trial, what)
        served = trial.serve("--first --log", errors=writer)
        os.close(writer)
        count = flood(served.udp, REQUESTS)
        is_well = count == REQUESTS
        trial.note(f"log to {what}: {REQUESTS} datagrams are answered", "" if is_well else f"{count} are")
        over_tcp = sum(bool(ask_tcp(served.addresses[1][1], login("v"))) for _ in range(200 if is_well else 1))
        trial.note(f"log to {what}: 200 connections are answered", "" if over_tcp == 200 else f"{over_tcp} are")
        text = drained(reader) if reader else (trial.folder / "lines").read_text()
        odd = odd_lines(text)
        if what == "a file":
            odd = odd or (text.count(" udp as ") < REQUESTS) * [f"{text.count(' udp as ')} lines"]
        if reader:
            found, more = served.answer("v"), drained(reader)
            is_well = found == "ticket" and " udp as v " in more
            trial.note(f"log to {what}: it has lines again once it is read", "" if is_well else f"{found}, {more!r}")
            os.close(reader)
        trial.note(f"log to {what}: lines are whole", f"{odd[:3]}" if odd else "")
        status = served.end()
        trial.note(f"log to {what}: SIGTERM ends it", "" if status == -15 else f"status {status}")


@test("kadm", "kdcd", seconds=3)
def fields_of_lines(trial):
    """The line of a request has its names, and what became of it."""
    trial.realm()
    realm, long_name = REALM.encode(), "/".join(letter * 250 for letter in "abcde")
    trial.expect(
        f"kadm random --db database --name {long_name}", 0, "=ok",
        what="a service whose tickets are too long for a datagram"
    )
    served = trial.serve("--first --log")
    ask = lambda request: ask_udp(peer, request)
    with datagrams(served.udp) as peer:
        peer.send(b"no request")
        ask(login("u"))
        ticket, session_key = ticket_in(key_of(b"a password", realm + b"v"), ask(login("v")))
        parts = field(1, integer(5)), field(2, integer(10)), field(4, body(realm, long_name.encode().split(b"/"), b"v"))
        ask(tlv(0x6A, sequence(*parts)))
        request = tgs_req(realm, b"v", (b"h",), (ticket, session_key), (int(time.time()), 1))
        # The last byte of the ticket's cipher, and that of the authenticator's.
        for place in (request.index(ticket) + len(ticket) - 1, request.index(body(realm, (b"h",))) - 3):
            ask(request[:place] + bytes([request[place] ^ 1]) + request[place + 1:])
        first, second = ask(request), ask(request)
    lines = (
        "none", r"as u krbtgt/A\.B refused 25 \S+ rule=preauthentication-required",
        r"as v krbtgt/A\.B ticket 10h etype=18/18 flags=I until=\S+", r"as v a+\.\.\. refused 52 \S+",
        r"tgs - h refused 31 \S+ rule=ticket-not-opened", r"tgs v h refused 31 \S+ rule=authenticator-not-opened",
        r"tgs v h ticket 10h etype=18/18 flags=- until=\S+", r"tgs v h ticket - repeat=yes",
    )
    logged = lambda: [line for line in served.said().splitlines() if not line.startswith("kdcd: ")]
    served.wait(lambda: len(logged()) == len(lines), 3)
    odd = [line for line, wanted in itertools.zip_longest(logged(), lines, fillvalue="") if not re.fullmatch(
        rf"\S+ \S+ udp {wanted}", line
    )]
    trial.note("a line has the names of its request, and its outcome", "" if not odd and first == second else f"{odd}")
    served.end()


@test("kadm", "kdcd", seconds=3)
def objects(trial):
    """A log of JSON lines."""
    trial.realm()
    served = trial.serve("--first --log-format json")
    for name in ("v", "nobody"):
        served.answer(name)
    served.wait(lambda: served.said().count("\n{") >= 2, 3)
    served.end()
    lines = [line for line in served.said().splitlines() if not line.startswith("kdcd: ")]
    found = [json.loads(line) for line in lines]
    is_well = len(found) >= 2 and all(NAMED <= each.keys() and set(map(type, each.values())) == {str} for each in found)
    outcomes = {(each.get("client"), each.get("outcome")) for each in found}
    is_well = is_well and {("v", "ticket"), ("nobody", "refused")} <= outcomes
    trial.note("--log-format json: a line is an object, whose values are strings", "" if is_well else f"{lines[:3]}")


@test("kadm", "kdcd", seconds=10)
def lost_lines(trial):
    """The server counts the lost lines after the last round."""
    trial.realm()
    reader, writer = os.pipe()
    served = trial.serve("--first --log --rounds 8000", errors=writer)
    os.close(writer)
    answered, more, text = flood(served.udp, 2000), 500, drained(reader)
    while answered >= 2000 and more == 500:
        more = flood(served.udp, 500)
        text += drained(reader)
    served.wait(lambda: False, 5 if answered >= 2000 else 0)
    status, events = served.end(), re.findall(r"served (\d+) 0 0", served.out.read_text())
    text += drained(reader)
    os.close(reader)
    lost = sum(map(int, re.findall(r"kdcd: log: (\d+) lines? (?:are|is) lost", text)))
    lines = len(LINE.findall(text))
    is_well = status == 0 and events == [str(lines + lost)] and not odd_lines(text)
    fault = "" if is_well else f"status {status}, {events} events, {lines} lines, {lost} lost: {text[-200:]!r}"
    trial.note("the lines that are lost are counted after the last round", fault)
