"""Clients of a script: replay caches, locks, and that each gets the same replies without the others."""

from harness.kerberos import (
    as_req, elements, field, fields, general_string, integer, name, octet_string, opened, sealed, sequence, tgs_req,
    time_of, timestamp, tlv,
)
from harness.tests import test
from harness.wire import REALM
from kdcd.scripts import DONE, MIDNIGHT, ask, came, check, key, opening

SESSION_KEY = bytes([7] * 32)
# The byte that is repeated by the keys of `krbtgt/A.B` and of `h`.
HOST = 1


def ticket(client):
    """A TGT for 2024-01-01 from 00:00:00 to 10:00:00, with the flag INITIAL."""
    times = [field(number, time_of(MIDNIGHT + after)) for number, after in ((5, 0), (6, 0), (7, 36000))]
    part = tlv(0x63, sequence(
        field(0, tlv(0x03, b"\0\0\x40\0\0")),
        field(1, sequence(field(0, integer(18)), field(1, octet_string(SESSION_KEY)))),
        field(2, general_string(REALM.encode())), field(3, name(1, client)),
        field(4, sequence(field(0, integer(1)), field(1, octet_string(b"")))), *times,
    ))
    cipher = sealed(bytes([HOST] * 32), 2, part)
    return tlv(0x61, sequence(
        field(0, integer(5)), field(1, general_string(REALM.encode())), field(2, name(2, b"krbtgt", REALM.encode())),
        field(3, sequence(field(0, integer(18)), field(1, integer(1)), field(2, octet_string(cipher)))),
    ))


TICKETS = {bytes([letter]): ticket(bytes([letter])) for letter in b"pqrstuvw"}


def buying(client, second, cusec=0, nonce=1):
    """A TGS-REQ for `h`, whose authenticator is from this second and microsecond."""
    held, at = (TICKETS[client], SESSION_KEY), (MIDNIGHT + second, cusec)
    return tgs_req(REALM.encode(), client, (b"h",), held, at, nonce=nonce)


def keys(octet):
    """Keys of the types 18 and 20 that repeat this byte."""
    return f"{key(octet)},{key(octet, 20)}"


def with_host(limits):
    return [(opening(key(HOST), limits), "ok"), (f"add h {key(HOST)}", "ok")]


@test("kdcd", seconds=2)
def replay_caches(trial):
    """Replay caches: each is its client's own."""
    trial.enter("scripts")
    u, w = [(f"add {client} {keys(ord(client))}", "ok") for client in "uw"]
    few = [(ask(buying(b"u", 0, cusec)), outcome) for cusec, outcome in enumerate(("ticket", "ticket", "29"))]
    other = ask(buying(b"w", 0)), "ticket"
    check(trial, "a full replay cache refuses its own client alone", [*with_host("2 0 0 36000 0"), u, w, *few, other])
    begun = [*with_host("64 0 0 36000 0"), u]
    restarted = [(f"restart {MIDNIGHT}", "ok"), (ask(buying(b"u", 300)), "37"), (ask(buying(b"u", 301), 1), "ticket")]
    check(trial, "after a restart older authenticators are refused", [*begun, *restarted])
    first, later = ask(buying(b"u", 0)), ask(buying(b"u", 301), 301)
    check(
        trial, "a dropped authenticator is too old if the clock goes back",
        [*begun, (first, "ticket"), (later, "ticket"), (first, "37")]
    )
    removed = [
        (first, "ticket"), ("remove u", "ok"), (ask(buying(b"u", 0, 1)), "6"), u, (ask(buying(b"u", 0, nonce=2)), "34")
    ]
    check(trial, "a removed client keeps its replay cache", [*begun, *removed])


def login(octet):
    """An AS-REQ of `u` with a timestamp of 2024-01-01 00:00:00 under the key that repeats this byte."""
    return ask(as_req(REALM.encode(), b"u", timestamp(bytes([octet] * 32), MIDNIGHT)))


@test("kdcd", seconds=2)
def locks(trial):
    """Locks of clients that fail to show their key."""
    trial.enter("scripts")
    locking = [(opening(key(0), "64 2 60 36000 0"), "ok"), (f"add u {key(0)}", "ok")]
    wrong, new_key = (login(9), "24"), (f"keys u {key(3)}", "ok")
    # After the new key the older one is wrong.
    check(trial, "a new key ends a lock", [
        *locking, wrong, wrong, (login(0), "18"), new_key, (login(3), "ticket"), (login(0), "24"), (login(3), "ticket"),
    ])
    check(trial, "failures count for one key version", [*locking, wrong, new_key, wrong, wrong, (login(3), "18")])
    disabled = [(login(0), "18"), ("policy u disabled=true", "ok"), (login(0), "18")]
    check(trial, "a locked client that is disabled is refused", [*locking, wrong, wrong, *disabled])
    ran = trial.run(["kdcd", "script"], "".join(f"{line}\n" for line in (locking[0][0], locking[1][0], login(0))))
    found = granted(ran.out.rpartition(" ")[2], bytes(32))
    # The flags INITIAL and PRE-AUTHENT (RFC 4120, section 5.3: bits 9 and 10).
    trial.note(
        "a login gets a ticket of ten hours", "" if found == ("00600000", b"20240101100000Z") else f"it gets {found}"
    )


def granted(digits, client_key):
    """The flags of a ticket, and when it ends, from the part of an AS-REP that its client decrypts, or why there are
    none."""
    try:
        cipher = elements(fields(fields(elements(bytes.fromhex(digits))[0][1])[6])[2])[0][1]
        part = fields(elements(opened(client_key, 3, cipher))[0][1])
        return elements(part[4])[0][1][1:].hex(), elements(part[7])[0][1]
    except (ValueError, LookupError) as fault:
        return str(fault)


class Step:
    """A line of one client, or of none, with its outcome if it is known."""

    def __init__(self, client, lines):
        self.client, self.lines = client, lines


class Draws:
    """A linear congruential generator that returns the highest byte of each number."""

    def __init__(self):
        self.last = 0

    def draw(self):
        self.last = (self.last * 6_364_136_223_846_793_005 + 1_442_695_040_888_963_407) % 2**64
        return self.last >> 56


# What a client's policy is set to: the fields that a step sets, all others as at first.
POLICIES = {"free": {"preauth": "false"}, "disable": {"disabled": "true"}, "revoke": {}}
# The acts of a step, each with the greatest byte that draws it.
ACTS = {
    53: "as", 65: "as with a bad timestamp", 155: "tgs", 191: "tgs again", 207: "tgs altered", 219: "tgs spoilt",
    231: "add", 233: "remove",
    237: "keys", 245: "free", 247: "disable", 249: "revoke", 251: "keys of the TGS", 252: "nothing",
    254: "keys of the service", 255: "restart",
}
BAD_TIMESTAMP = sequence(
    field(1, integer(2)), field(2, octet_string(sequence(field(0, integer(18)), field(2, octet_string(bytes(54))))))
)


def lines_of(act, client, at, stamp, octet):
    """The lines of a step that happens this many seconds after midnight. `octet` makes its random bytes and new
    keys."""
    letter, random = client.decode(), bytes([octet] * 64).hex()
    request = {
        "as": lambda: as_req(REALM.encode(), client),
        "as with a bad timestamp": lambda: as_req(REALM.encode(), client, BAD_TIMESTAMP),
        **dict.fromkeys(("tgs", "tgs again"), lambda: buying(client, stamp)),
        "tgs altered": lambda: buying(client, stamp, nonce=2),
        "tgs spoilt": lambda: spoilt(buying(client, stamp)),
    }
    if act in request:
        return [ask(request[act](), at, random)]
    if act in POLICIES:
        values = {"disabled": "false", "preauth": "true", "revoked_before": "never", **POLICIES[act]}
        if act == "revoke":
            values["revoked_before"] = MIDNIGHT + at
        return [f"policy {letter} {setting}={value}" for setting, value in values.items()]
    return [line for line in {
        "add": f"add {letter} {keys(octet)}", "remove": f"remove {letter}", "keys": f"keys {letter} {keys(octet)}",
        "keys of the TGS": f"keys krbtgt/{REALM} {key(octet)}", "keys of the service": f"keys h {key(octet)}",
        "restart": f"restart {MIDNIGHT + at}",
        "nothing": "",
    }[act].splitlines()]


def spoilt(request):
    """A request with the checksum of another body."""
    return request[:-1] + bytes([request[-1] ^ 1])


def step_of(act, client, at, stamp, octet):
    """A step belongs to its client if it is a request or a change of the client's row."""
    is_general = act in ("keys of the TGS", "keys of the service", "restart", "nothing")
    return Step(None if is_general else client, lines_of(act, client, at, stamp, octet))


def drawn_steps(clients, count):
    """The steps that add the clients, without preauthentication, and drawn steps up to this count. Some are half a
    minute late."""
    draws, clock, last = Draws(), 0, {}
    steps = [step_of(act, bytes([client]), 0, 0, client) for client in clients for act in ("add", "free")]
    while len(steps) < count:
        clock += draws.draw() % 11
        drawn = draws.draw()
        act = next(act for greatest, act in ACTS.items() if drawn <= greatest)
        client = bytes([clients[draws.draw() % len(clients)]])
        at = max(0, clock - draws.draw() % 32)
        stamp = last.get(client, at) if act in ("tgs again", "tgs altered") else at
        if act == "tgs":
            last[client] = stamp
        steps.append(step_of(act, client, at, stamp, draws.draw()))
    return steps


def beside_another():
    """`u` and `w` are added, and the KDC starts again. 301 seconds later, when authenticators are accepted, `u` sends a
    request, and `w` ten. Then `w` and `krbtgt/A.B` get new keys, and `u` sends one more request. The first and the last
    request of `w` have the same authenticators' times as those of `u`."""
    acts = [(0, b"u", "add"), (0, b"u", "free"), (0, b"w", "add"), (0, b" ", "restart"), (301, b"u", "tgs")]
    acts += [(at, b"w", "tgs") for at in range(301, 311)]
    acts += [(310, b"w", "keys"), (310, b" ", "keys of the TGS"), (310, b"u", "tgs")]
    return [step_of(act, client, at, at, octet) for octet, (at, client, act) in enumerate(acts, 2)]


def printed_by(trial, limits, steps):
    """What the lines of each step print, or None if the script did not run to its end."""
    before = [line for line, _ in with_host(limits)]
    ran = trial.run(
        ["kdcd", "script"], "".join(f"{line}\n" for line in [*before, *(line for step in steps for line in step.lines)])
    )
    printed = iter(ran.out.splitlines()[len(before):])
    found = [[next(printed, None) for _ in step.lines] for step in steps]
    return found if ran.status == DONE and None not in sum(found, []) else None


def tickets_of(trial, limits, steps, whole, client):
    """How many tickets the client gets, or None if it gets other replies than in a KDC that never had another
    client."""
    own = [step for step in steps if step.client in (None, client)]
    struck = printed_by(trial, limits, own)
    if whole is None or struck is None or struck != [
        found for step, found in zip(steps, whole) if step.client in (None, client)
    ]:
        return None
    return sum(came(line) == "ticket" for step, found in zip(own, struck) for line in found if step.client == client)


@test("kdcd", seconds=15)
def others(trial):
    """A client gets the same replies beside others as in a run without their requests and the changes of their rows."""
    trial.enter("scripts")
    limits, steps = "64 0 0 36000 0", beside_another()
    whole = printed_by(trial, limits, steps)
    found = [tickets_of(trial, limits, steps, whole, client) for client in (b"u", b"w")]
    trial.note("a client gets the same without another", "" if found == [2, 10] else f"tickets {found}")
    clients, limits = b"pqrstuvw", "4 2 300 36000 0"
    steps = drawn_steps(clients, 2000)
    whole = printed_by(trial, limits, steps)
    for client in clients:
        found = tickets_of(trial, limits, steps, whole, bytes([client]))
        trial.note(
            f"{chr(client)} gets the same {found} tickets without seven others",
            "" if found and found >= 50 else "it gets others, or too few"
        )
