"""What lies between a client and the KDCs of its realm, for `kclient/commands.py`: a relay that loses, forges and
counts messages, a KDC in Python whose clock differs, and replies that say what a KDC should not. It uses `kerberos.py`,
and no code of the crates."""

import calendar
import contextlib
import dataclasses
import os
import selectors
import socket
import threading
import time

from harness.hostile import error
from harness.kerberos import (
    elements, encrypted_data, field, fields, general_string, integer, name, octet_string, opened, sealed, sequence,
    time_of, tlv,
)
from harness.wire import ask_udp, datagrams

REALM = b"A.B"
# The tags of AS-REQ, TGS-REQ and their replies, and the usages of tickets' and replies' keys (RFC 4120, sections 5.4.1,
# 5.4.2 and 7.5.1).
AS_REQ, TGS_REQ, AS_REP, TGS_REP = 0x6A, 0x6C, 0x6B, 0x6D
OF_TICKET, OF_CLIENT, OF_SESSION = 2, 3, 8
# What a connection gets that is closed without a reply.
CLOSED = bytearray()
# The seconds by which a clock may differ.
SKEW = 300


@dataclasses.dataclass
class Message:
    """A message of a command: the first has the place 0."""

    relay: object
    kdc: object
    octets: bytes
    is_datagram: bool
    place: int

    def ask(self):
        """The reply of the KDC behind the relay."""
        with datagrams(self.relay.behind) as peer:
            self.relay.answered = ask_udp(peer, self.octets)
        return self.relay.answered


def free_pair(host):
    """Sockets for TCP and UDP with the same port."""
    for _ in range(100):
        tcp, udp = socket.create_server((host, 0)), socket.socket(type=socket.SOCK_DGRAM)
        try:
            udp.bind(tcp.getsockname())
            return tcp, udp
        except OSError:
            tcp.close()
            udp.close()
    raise OSError(f"no port of {host} is free")


class Kdc:
    """A KDC's place on the relay."""

    def __init__(self, host, marks):
        self.marks, self.is_closing = marks, False
        self.tcp, self.udp = free_pair(host)
        self.address = "{}:{}".format(*self.tcp.getsockname())

    def close(self):
        self.tcp.close()
        self.udp.close()


class Relay:
    """Listens in the places of two KDCs on a host, and lets a link say what each message gets: bytes, or None for no
    reply. `ways` has a letter for each message of a command: `u` for a datagram, `t` for a message over TCP, `=` for
    one over TCP with the bytes of the message before; `U`, `T` and `#` for those to the second KDC. A datagram that is
    repeated counts once."""

    def __init__(self, host, behind):
        self.behind, self.answered, self.is_over = behind, b"", False
        self.first, self.second = Kdc(host, "ut="), Kdc(host, "UT#")
        self.begin(good)
        threading.Thread(target=self.serve, daemon=True).start()

    def begin(self, link):
        """Begins the messages of a command."""
        self.link, self.ways, self.sent, self.replies, self.held = link, "", [], {}, []

    def serve(self):
        """Takes datagrams and connections. A KDC whose sockets are closed takes no more."""
        with selectors.DefaultSelector() as selector:
            for kdc in (self.first, self.second):
                selector.register(kdc.tcp, selectors.EVENT_READ, (kdc, self.take_connection))
                selector.register(kdc.udp, selectors.EVENT_READ, (kdc, self.take_datagram))
            while not self.is_over:
                for key, _ in selector.select(0.2):
                    kdc, take = key.data
                    # A client may be gone.
                    with contextlib.suppress(OSError):
                        take(kdc)
                    if kdc.is_closing:
                        selector.unregister(kdc.tcp)
                        selector.unregister(kdc.udp)
                        kdc.close()
                        kdc.is_closing = False
        for kdc in (self.first, self.second):
            kdc.close()

    def take_datagram(self, kdc):
        octets, sender = datagram = kdc.udp.recvfrom(65535)
        if datagram not in self.replies:
            self.replies[datagram] = self.reply(kdc, octets, True)
        if self.replies[datagram] is not None:
            kdc.udp.sendto(self.replies[datagram], sender)

    def take_connection(self, kdc):
        connection, _ = kdc.tcp.accept()
        connection.settimeout(20)
        octets = connection.recv(int.from_bytes(connection.recv(4, socket.MSG_WAITALL), "big"), socket.MSG_WAITALL)
        reply = self.reply(kdc, octets, False)
        if reply is None:
            # The connection stays open.
            self.held.append(connection)
            return
        with connection:
            connection.sendall(b"" if reply is CLOSED else len(reply).to_bytes(4, "big") + reply)

    def reply(self, kdc, octets, is_datagram):
        is_same = not is_datagram and self.sent[-1:] == [octets]
        self.ways += kdc.marks[0 if is_datagram else 1 + is_same]
        self.sent.append(octets)
        return self.link(Message(self, kdc, octets, is_datagram, len(self.sent) - 1))


# Links: what messages get.


def good(message):
    return message.ask()


def silent(message):
    return None


def no_datagrams(message):
    return None if message.is_datagram else message.ask()


def dropped(message):
    """Datagrams get no reply, and connections are closed."""
    return None if message.is_datagram else CLOSED


def too_big(message):
    """Each datagram gets KRB_ERR_RESPONSE_TOO_BIG."""
    return error(52) if message.is_datagram else message.ask()


def stale(message):
    """The last reply of the KDC, to another request."""
    return message.relay.answered


def once(message):
    """The KDC answers a message, and then refuses connections."""
    message.kdc.is_closing = True
    return message.ask()


def refuses(code):
    """A KRB-ERROR with this code."""
    return lambda message: error(code)


def refuses_at(place, code):
    return lambda message: error(code) if message.place == place else message.ask()


def forged(reply):
    """A reply that does not depend on the message."""
    return lambda message: reply


def forged_once(reply):
    return lambda message: reply if message.place == 0 else message.ask()


def split(first, second=good):
    """A link for each KDC."""
    return lambda message: (first if message.kdc is message.relay.first else second)(message)


# Replies.


@dataclasses.dataclass(frozen=True)
class Made:
    """What a reply says besides what its request asks for. Times are seconds from now on; None leaves a field out."""

    key: bytes
    session: bytes = b"k" * 32
    client_realm: bytes = REALM
    service_realm: bytes = REALM
    client: bytes = b"v"
    flags: int = 0x00400000
    start: int | None = None
    end: int = 36_000
    renewable: int | None = None
    version: int | None = 1
    ahead: int = 0
    # The key that the ticket is encrypted with, if it is not random bytes, and its client, session key and end, if they
    # are others.
    ticket_key: bytes | None = None
    ticket_client: bytes | None = None
    ticket_session: bytes | None = None
    ticket_end: int | None = None

    def __call__(self, message):
        """The link whose replies are these."""
        return self.reply(message.octets)

    def reply(self, request):
        """A reply to a request, with its nonce and for its service."""
        [(tag, contents)] = elements(request)
        asked = fields(fields(contents)[4])
        is_first, now = tag == AS_REQ, int(time.time()) + self.ahead
        moment = lambda number, seconds: [] if seconds is None else [field(number, time_of(now + seconds))]
        part = tlv(0x79 if is_first else 0x7A, sequence(
            field(0, sequence(field(0, integer(18)), field(1, octet_string(self.session)))),
            field(1, sequence(sequence(field(0, integer(0)), field(1, time_of(now))))), field(2, asked[7]),
            field(4, tlv(0x03, b"\0" + self.flags.to_bytes(4, "big"))), *moment(5, 0), *moment(6, self.start),
            *moment(7, self.end), *moment(8, self.renewable), field(9, general_string(self.service_realm)),
            field(10, asked[3]),
        ))
        version = [] if self.version is None else [field(1, integer(self.version))]
        cipher = os.urandom(8) if self.ticket_key is None else sealed(self.ticket_key, OF_TICKET, self.ticket_part(now))
        encrypted = sequence(field(0, integer(18)), *version, field(2, octet_string(cipher)))
        ticket = tlv(0x61, sequence(
            field(0, integer(5)), field(1, general_string(self.service_realm)), field(2, asked[3]), field(3, encrypted),
        ))
        usage = OF_CLIENT if is_first else OF_SESSION
        return tlv(AS_REP if is_first else TGS_REP, sequence(
            field(0, integer(5)), field(1, integer(11 if is_first else 13)),
            field(3, general_string(self.client_realm)),
            field(4, name(1, self.client)), field(5, ticket), field(6, encrypted_data(self.key, usage, part)),
        ))

    def ticket_part(self, now):
        """What the ticket's encrypted part says (RFC 4120, section 5.3)."""
        return tlv(0x63, sequence(
            field(0, tlv(0x03, b"\0" + self.flags.to_bytes(4, "big"))),
            field(1, sequence(field(0, integer(18)), field(1, octet_string(self.ticket_session or self.session)))),
            field(2, general_string(self.client_realm)), field(3, name(1, self.ticket_client or self.client)),
            field(4, sequence(field(0, integer(1)), field(1, octet_string(b"")))), field(5, time_of(now)),
            field(7, time_of(now + (self.end if self.ticket_end is None else self.ticket_end))),
        ))


def seconds_of(octets):
    """The seconds of a KerberosTime, by its element."""
    return calendar.timegm(time.strptime(elements(octets)[0][1].decode(), "%Y%m%d%H%M%SZ"))


def padata_of(request, kind):
    """The value of the request's padata of a type, or None."""
    padata = fields(elements(request)[0][1]).get(3)
    found = [fields(tlv(tag, contents)) for tag, contents in elements(elements(padata)[0][1])] if padata else []
    return next((elements(each[2])[0][1] for each in found if elements(each[1])[0][1] == bytes([kind])), None)


def moment_in(key, usage, data):
    """The seconds and microseconds of an encrypted timestamp, or of an authenticator, by its EncryptedData."""
    text = opened(key, usage, elements(fields(data)[2])[0][1])
    is_stamp = text[0] == 0x30
    parts = fields(text) if is_stamp else fields(elements(text)[0][1])
    when, rest = (parts[0], parts[1]) if is_stamp else (parts[5], parts[4])
    return seconds_of(when), int.from_bytes(elements(rest)[0][1], "big")


class OtherClock:
    """A KDC whose clock differs, for a client with this key. It refuses times that differ from its own."""

    def __init__(self, client, key):
        self.client, self.key, self.sessions = client, key, {}

    def of(self, ahead):
        """The link where its clock is this many seconds ahead."""
        return lambda message: self.reply(message.octets, ahead)

    def reply(self, request, ahead):
        made = Made(self.key, os.urandom(32), client=self.client, ahead=ahead, start=0)
        if request[0] == AS_REQ:
            stamp = padata_of(request, 2)
            if stamp is None:
                return wanted_of(self.client, ahead)
            found = moment_in(self.key, 1, stamp)
        else:
            presented = fields(elements(padata_of(request, 1))[0][1])
            session = self.sessions[presented[3]]
            made = dataclasses.replace(made, key=session)
            found = moment_in(session, 7, presented[4])
        if abs(found[0] - time.time() - ahead) > SKEW:
            return error(37, ahead=ahead)
        reply = made.reply(request)
        self.sessions[fields(elements(reply)[0][1])[5]] = made.session
        return reply


def wanted_of(client, ahead=0, etype=18):
    """Error 25, whose PA-ETYPE-INFO2 names a type, and the client's default salt."""
    info = sequence(sequence(field(0, integer(etype)), field(1, general_string(REALM + client))))
    return error(25, sequence(sequence(field(1, integer(19)), field(2, octet_string(info)))), ahead)


# The random bytes of a command with a seed: the ChaCha20 of D. J. Bernstein, with a counter and a nonce of 64 bits that
# begin at zero.


def chacha20(seed, count):
    """The first bytes that the seed gives, this many."""
    return b"".join(chacha20_block(seed, number) for number in range(-(-count // 64)))[:count]


def chacha20_block(seed, number):
    word = lambda octets: int.from_bytes(octets, "little")
    begun = [word(b"expand 32-byte k"[place:place + 4]) for place in range(0, 16, 4)]
    begun += [*[word(seed[place:place + 4]) for place in range(0, 32, 4)], number & 0xFFFFFFFF, number >> 32, 0, 0]
    state = begun[:]

    def quarter(a, b, c, d):
        for to, by, other, turn in ((a, b, d, 16), (c, d, b, 12), (a, b, d, 8), (c, d, b, 7)):
            state[to] = (state[to] + state[by]) & 0xFFFFFFFF
            turned = state[other] ^ state[to]
            state[other] = (turned << turn | turned >> (32 - turn)) & 0xFFFFFFFF

    for _ in range(10):
        for places in ((0, 4, 8, 12), (1, 5, 9, 13), (2, 6, 10, 14), (3, 7, 11, 15)):
            quarter(*places)
        for places in ((0, 5, 10, 15), (1, 6, 11, 12), (2, 7, 8, 13), (3, 4, 9, 14)):
            quarter(*places)
    return b"".join(((a + b) & 0xFFFFFFFF).to_bytes(4, "little") for a, b in zip(begun, state))
