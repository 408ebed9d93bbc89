"""`kclient` behind a proxy that changes the good replies of `kdcd serve`: each byte of an AS-REP (`kinit`) and of a
TGS-REP (`kvno`) XORed with 01, and each of their proper prefixes."""

import calendar
import time

from harness.hostile import REALM, counted, datagram, error, Kdc, no_connection, number
from harness.kerberos import elements, fields, key_of, opened
from harness.tests import test
from harness.wire import ask_udp, datagrams
from kclient.hostile import CACHE, Hostile

# The size of a client's replay cache on the server: more authenticators than are sent.
REMEMBERED = 65536
# The first bytes of the replies with a ticket, an AS-REP and a TGS-REP.
WITH_TICKET = (b"\x6b", b"\x6d")


class Proxy(Kdc):
    """Forwards datagrams to a KDC, and its replies back. It changes a reply with a ticket on the way."""

    def __init__(self, behind):
        super().__init__(hand_on, no_connection)
        self.behind = behind
        self.begin(None)

    def begin(self, change):
        """Begins a command, with this change of its replies."""
        self.change, self.replies, self.changed = change, {}, None


def hand_on(proxy, message, sender):
    if message not in proxy.replies:
        with datagrams(proxy.behind) as peer:
            proxy.replies[message] = ask_udp(peer, message)
    reply = proxy.replies[message]
    if proxy.change and reply[:1] in WITH_TICKET:
        reply = proxy.changed = proxy.change(reply)
    proxy.udp.sendto(reply, sender)


def as_it_is(reply):
    return reply


def flipped(place):
    return lambda reply: reply[:place] + bytes([reply[place] ^ 1]) + reply[place + 1:]


def cut(end):
    return lambda reply: reply[:end]


# The outcome of a reply: what is printed, and words of standard error. Nothing is said about an accepted reply.
TAKEN = None
NOT_A_REPLY = "refused NotAReply", "the bytes that came back are not a reply of a KDC"
CLIENT = "refused Mismatch", "the reply is for another client"
SERVICE = "refused Mismatch", "the reply has a ticket for another service"
UNOPENED = "refused CannotOpen", "does not decrypt the reply"
# The outcome of a reply with one byte of a value changed, by the fields of the value (RFC 4120, section 5.4.2, and 5.3
# for the ticket). A client does not check padata, name-types and key versions, nor the ticket's encryption type and
# encrypted part, which only its service can read. All else is tags, lengths and fixed numbers.
PADATA_TYPE, PADATA_VALUE, CREALM, CNAME_TYPE, CNAME = (2, 1), (2, 2), (3,), (4, 0), (4, 1)
TICKET_REALM, SNAME_TYPE, SNAME = (5, 1), (5, 2, 0), (5, 2, 1)
TICKET_ETYPE, TICKET_KVNO, TICKET_CIPHER = (5, 3, 0), (5, 3, 1), (5, 3, 2)
ETYPE, KVNO, CIPHER = (6, 0), (6, 1), (6, 2)
DUE = {
    **dict.fromkeys((PADATA_TYPE, PADATA_VALUE, CNAME_TYPE, KVNO), TAKEN),
    **dict.fromkeys((SNAME_TYPE, TICKET_ETYPE, TICKET_KVNO, TICKET_CIPHER), TAKEN),
    **dict.fromkeys((CREALM, CNAME), CLIENT),
    **dict.fromkeys((TICKET_REALM, SNAME), SERVICE),
    **dict.fromkeys((ETYPE, CIPHER), UNOPENED),
}


def places(octets, start=0, end=None, path=()):
    """The places of all bytes of values, each with its fields."""
    end = len(octets) if end is None else end
    while start < end:
        tag, length, start = octets[start], octets[start + 1], start + 2
        if length & 0x80:
            start, length = start + (length & 0x7F), int.from_bytes(octets[start:start + (length & 0x7F)], "big")
        inside = (*path, tag - 0xA0) if tag >= 0xA0 else path
        if tag & 0x20:
            yield from places(octets, start, start + length, inside)
        else:
            yield from ((place, path) for place in range(start, start + length))
        start += length


def principal(realm, octets):
    """A principal, from the bytes of a PrincipalName."""
    parts = fields(octets)
    strings = [contents for _, contents in elements(elements(parts[1])[0][1])]
    kind = int.from_bytes(elements(parts[0])[0][1], "big")
    return number(kind) + number(len(strings)) + counted(realm) + b"".join(map(counted, strings))


def seconds(text):
    """A KerberosTime in seconds, or zero if it is absent."""
    return number(calendar.timegm(time.strptime(elements(text)[0][1].decode(), "%Y%m%d%H%M%SZ")) if text else 0)


def cache_head(reply):
    return b"\5\4\0\0" + client_of(fields(elements(reply)[0][1]))


def client_of(parts):
    return principal(elements(parts[3])[0][1], parts[4])


def credential(reply, key, usage):
    """What a client keeps from a reply, whose encrypted part this key decrypts: the credential, and its session key."""
    parts = fields(elements(reply)[0][1])
    part = fields(elements(opened(key, usage, elements(fields(parts[6])[2])[0][1]))[0][1])
    kind, session_key = [elements(value)[0][1] for value in fields(part[0]).values()]
    service = principal(elements(part[9])[0][1], part[10])
    times = b"".join(seconds(part.get(each)) for each in (5, 6, 7, 8))
    flags = elements(part[4])[0][1][1:]
    front = client_of(parts) + service + kind.rjust(2, b"\0") + counted(session_key)
    return front + times + b"\0" + flags + number(0) + number(0) + counted(parts[5]) + number(0), session_key


def ticket_version(reply):
    """The key version under which the ticket is encrypted."""
    ticket = fields(fields(elements(reply)[0][1])[5])
    return int.from_bytes(elements(fields(ticket[3])[1])[0][1], "big")


class Sweep:
    """Runs a command through a proxy again and again, each time with another change of the reply with a ticket."""

    def __init__(self, hostile, proxy, words, before, taken):
        """`before` is the cache before each command. `taken` returns what has to be printed for an accepted reply, and
        the cache."""
        self.hostile, self.proxy, self.words, self.before, self.taken = hostile, proxy, words, before, taken

    def come_of(self, change, due):
        """The time that the command takes, and what is wrong with its result."""
        self.proxy.begin(change)
        ran, took = self.hostile.begin(self.words, self.before)
        if self.proxy.changed is None:
            return took, ["no reply with a ticket came"]
        if due is TAKEN:
            out, cache = self.taken(self.proxy.changed)
            return took, self.hostile.faults((ran, took), (0, out, ()), cache)
        out, said = due
        texts = f"kclient: {self.proxy.address}: ", said
        return took, self.hostile.faults((ran, took), (1, out, texts), self.before)

    def expect(self, what, changes):
        """Checks that each of these changes has its expected outcome."""
        before, longest, faults = sorted(self.hostile.folder.iterdir()), 0, []
        for place, (change, due) in enumerate(changes):
            took, found = self.come_of(change, due)
            longest = max(longest, took)
            faults += [f"{place}: {each}" for each in found]
        if sorted(self.hostile.folder.iterdir()) != before:
            faults.append("leaves files")
        taken = sum(due is TAKEN for _, due in changes)
        shown = f"{what}: {len(changes)}, {taken} of them accepted, each in at most {longest:.2f} s"
        self.hostile.note(shown, "; ".join(faults[:3]) + f" and {len(faults) - 3} more" * (len(faults) > 3))

    def go(self, what):
        """Tries the reply unchanged, with each of its bytes XORed with 01, and each proper prefix."""
        self.expect(f"{what} as it is", [(as_it_is, TAKEN)])
        reply = self.proxy.changed or b""
        found = dict(places(reply))
        changes = [(flipped(place), DUE.get(found.get(place), NOT_A_REPLY)) for place in range(len(reply))]
        self.expect(f"{what} with an octet changed", changes)
        self.expect(f"{what}, cut", [(cut(end), NOT_A_REPLY) for end in range(len(reply))])


@test("kadm", "kdcd", "kclient", trial=Hostile, seconds=120)
def octets(hostile):
    """A proxy that changes the good replies of `kdcd serve`."""
    hostile.realm()
    hostile.write("cc", CACHE)
    hostile.expect("kadm keytab --db database --name u --out u.keytab", 0, "=ok")
    server = hostile.serve(f"--first --remembered {REMEMBERED}")
    proxy = Proxy(server.udp)
    expect_next(hostile, server.udp)
    # the same nonce each time, so that all replies have the same length
    known = ["--kdc", proxy.address, "--seed", "seed", "--cache", "cc"]
    key = key_of(b"a password", REALM + b"u")
    words = ["kinit", *known, "--realm", "A.B", "--name", "u", "--keytab", "u.keytab"]
    login = Sweep(hostile, proxy, words, CACHE, lambda reply: ("ok", cache_head(reply) + credential(reply, key, 3)[0]))
    login.go("an AS-REP")
    login.expect("an AS-REP as it is, once more", [(as_it_is, TAKEN)])
    _, session_key = credential(proxy.changed, key, 3)
    before = (hostile.folder / "cc").read_bytes()
    taken = lambda reply: (f"h kvno {ticket_version(reply)}", before + credential(reply, session_key, 8)[0])
    Sweep(hostile, proxy, ["kvno", *known, "--name", "h"], before, taken).go("a TGS-REP")
    server.end()


def expect_next(hostile, good):
    """A KDC refuses, so that the client asks the next one, which is a good one."""
    for code in (29, 37):
        kdc = Kdc(datagram(error(code)), no_connection)
        words = ["kinit", "--kdc", kdc.address, "--kdc", good, "--realm", "A.B", "--name", "u", "--keytab", "u.keytab"]
        ran, took = hostile.begin([*words, "--cache", "new"], CACHE)
        faults = hostile.faults((ran, took), (0, "ok", ()), CACHE)
        if kdc.datagrams != 1:
            faults.append(f"sends {kdc.datagrams} datagrams to the first")
        hostile.note(f"error {code}, then a good KDC", "; ".join(faults))
        (hostile.folder / "new").unlink(missing_ok=True)
