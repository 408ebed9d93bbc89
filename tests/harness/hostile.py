"""Programs in a KDC's place that answer too much, too slowly, nothing, or from elsewhere."""

import socket
import threading
import time

from harness.kerberos import (
    elements, field, fields, general_string, integer, name, octet_string, opened, sequence, time_of, tlv,
)

REALM = b"A.B"
# A cache of u in A.B without credentials (version 4).
EMPTY = bytes.fromhex("0504" "0000" "00000001" "00000001" "00000003") + b"A.B" + bytes.fromhex("00000001") + b"u"


def error(code, e_data=None, ahead=0):
    """KRB-ERROR (RFC 4120, section 5.9.1), from a clock that is ahead by this many seconds."""
    more = [] if e_data is None else [field(12, octet_string(e_data))]
    return tlv(0x7E, sequence(
        field(0, integer(5)), field(1, integer(30)), field(4, time_of(int(time.time()) + ahead)), field(5, integer(0)),
        field(6, integer(code)), field(9, general_string(REALM)), field(10, name(2, b"krbtgt", REALM)), *more,
    ))


def entry(etype=18, params=None, salt=REALM + b"u"):
    """An entry of ETYPE-INFO2 with this salt, if there is one, and these parameters of string-to-key."""
    named = [] if salt is None else [field(1, general_string(salt))]
    more = [] if params is None else [field(2, octet_string(params))]
    return sequence(field(0, integer(etype)), *named, *more)


def wanted(*entries):
    """Error 25, with a PA-ETYPE-INFO2 of these entries."""
    info = octet_string(sequence(*entries))
    return error(25, sequence(sequence(field(1, integer(19)), field(2, info))))


def framed(octets):
    return len(octets).to_bytes(4, "big") + octets


class Kdc:
    """Listens on a port of 127.0.0.1 for datagrams and connections, and counts the messages of each. `by_udp` handles a
    datagram: it gets this object, the message and its sender. `by_tcp` handles a connection: it gets this object and
    the connection, whose message has been read."""

    def __init__(self, by_udp, by_tcp):
        self.by_udp, self.by_tcp, self.datagrams, self.connections, self.senders = by_udp, by_tcp, 0, 0, []
        self.tcp = socket.create_server(("127.0.0.1", 0))
        self.place = self.tcp.getsockname()
        self.udp = socket.socket(socket.AF_INET, socket.SOCK_DGRAM)
        self.udp.bind(self.place)
        self.address = f"127.0.0.1:{self.place[1]}"
        for work in (self.take_datagrams, self.take_connections):
            threading.Thread(target=work, daemon=True).start()

    def take_datagrams(self):
        while True:
            message, sender = self.udp.recvfrom(65535)
            self.datagrams += 1
            if sender not in self.senders:
                self.senders.append(sender)
            threading.Thread(target=self.by_udp, args=(self, message, sender), daemon=True).start()

    def take_connections(self):
        while True:
            connection, _ = self.tcp.accept()
            self.connections += 1
            threading.Thread(target=self.take_connection, args=(connection,), daemon=True).start()

    def take_connection(self, connection):
        with connection:
            try:
                length = int.from_bytes(connection.recv(4, socket.MSG_WAITALL), "big")
                connection.recv(length, socket.MSG_WAITALL)
                self.by_tcp(self, connection)
            except OSError:
                # the client has closed it
                return


def no_datagram(kdc, message, sender):
    """Does nothing."""


def no_connection(kdc, connection):
    """Keeps the connection open, and sends nothing."""
    time.sleep(60)


def datagram(reply, after=0.0):
    def send(kdc, message, sender):
        time.sleep(after)
        kdc.udp.sendto(reply, sender)
    return send


def connection(octets):
    return lambda kdc, connection: connection.sendall(octets)


def drip(kdc, connection):
    """Sends a reply of 1,000 bytes, one every half second."""
    connection.sendall((1000).to_bytes(4, "big"))
    for _ in range(100):
        time.sleep(0.5)
        connection.sendall(b"\x7e")


def from_elsewhere(kdc, message, sender):
    with socket.socket(socket.AF_INET, socket.SOCK_DGRAM) as other:
        other.bind(("127.0.0.1", 0))
        other.sendto(error(6), sender)


def late(kdc, message, sender):
    """Answers the first request when the second one comes, which gets another reply."""
    if kdc.senders.index(sender) == 0:
        return
    kdc.udp.sendto(error(6), kdc.senders[0])
    time.sleep(0.2)
    kdc.udp.sendto(error(24), sender)


def wants_key(etype, *entries):
    """Asks for a timestamp, by these entries of ETYPE-INFO2. Answers one under the published key of this type with
    error 6, and any other with error 24."""
    def send(kdc, message, sender):
        stamp = timestamp_in(message)
        if not stamp:
            return kdc.udp.sendto(wanted(*entries), sender)
        is_due = stamp[0] == etype and is_opened(KEYS[etype], stamp[1])
        kdc.udp.sendto(error(6 if is_due else 24), sender)
    return send


def timestamp_in(request):
    """The encryption type and the cipher of the timestamp in an AS-REQ, if it has one."""
    padata = fields(request).get(3)
    for _, contents in elements(elements(padata)[0][1]) if padata else []:
        parts = {tag - 0xA0: value for tag, value in elements(contents)}
        if elements(parts[1])[0][1] == b"\2":
            sealed = fields(elements(parts[2])[0][1])
            return elements(sealed[0])[0][1][0], elements(sealed[2])[0][1]
    return None


def is_opened(key, cipher):
    try:
        return bool(opened(key, 1, cipher))
    except ValueError:
        return False


def number(value):
    return value.to_bytes(4, "big")


def counted(octets):
    return number(len(octets)) + octets


# The keys of RFC 3962, appendix B, for the password "password", the salt "ATHENA.MIT.EDUraeburn" and one iteration, by
# their types.
KEYS = {
    17: bytes.fromhex("42263c6e89f4fc28b8df68ee09799f15"),
    18: bytes.fromhex("fe697b52bc0d3ce14432ba036a92e65bbb52280990a2fa27883998d72af30161"),
}
