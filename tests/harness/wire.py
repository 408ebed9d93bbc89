"""Requests to a KDC by datagrams and connections, and the answers."""

import socket
import sys
import time

from harness.kerberos import as_req, body, elements, field, fields, integer, sequence, tlv
from harness.processes import SLOWNESS

REALM = "A.B"


def free_port():
    """A port that is free for UDP and for TCP."""
    for _ in range(100):
        with socket.socket() as tcp, socket.socket(type=socket.SOCK_DGRAM) as udp:
            tcp.bind(("127.0.0.1", 0))
            try:
                udp.bind(tcp.getsockname())
                return tcp.getsockname()[1]
            except OSError:
                continue
    sys.exit("no port is free")


def login(name):
    return as_req(REALM.encode(), name.encode())


def long_login():
    """A login for an unknown service, whose name has 60,000 bytes. The error names it."""
    parts = field(1, integer(5)), field(2, integer(10)), field(4, body(REALM.encode(), (b"a" * 60_000,), b"v"))
    return tlv(0x6A, sequence(*parts))


def place_of(address):
    host, _, port = address.rpartition(":")
    return host.strip("[]"), int(port)


def datagrams(address):
    peer = socket.socket(socket.AF_INET6 if "[" in address else socket.AF_INET, socket.SOCK_DGRAM)
    peer.settimeout(SLOWNESS)
    peer.connect(place_of(address))
    return peer


def ask_udp(peer, request, tries=3):
    """The reply, or None. Like stock clients it asks again after a second, three times in all."""
    for _ in range(tries):
        try:
            peer.send(request)
            return peer.recv(65536)
        except OSError:
            time.sleep(0.02)
    return b""


def ask_tcp(address, request):
    try:
        with socket.create_connection(place_of(address), 5 * SLOWNESS) as peer, peer.makefile("rb") as stream:
            peer.sendall(len(request).to_bytes(4, "big") + request)
            return stream.read(int.from_bytes(stream.read(4), "big"))
    except OSError:
        return b""


def answer(reply):
    """`ticket`, the code of the error, or `none`."""
    if not reply:
        return "none"
    [(tag, contents)] = elements(reply)
    return "ticket" if tag in (0x6B, 0x6D) else str(int.from_bytes(elements(fields(contents)[6])[0][1], "big"))


def framed(message):
    return len(message).to_bytes(4, "big") + message


def connected(server):
    return socket.create_connection(place_of(server.addresses[1][1]), 10 * SLOWNESS)


def read_reply(connection, piece=65536):
    """The next reply, read in pieces, or what there is of it if the connection ends."""
    octets, wanted = b"", 4
    while len(octets) < wanted:
        read = connection.recv(min(piece, wanted - len(octets)))
        if not read:
            break
        octets += read
        wanted = 4 + int.from_bytes(octets[:4], "big")
    return octets[4:]


def read_to_end(connection):
    """All replies that come, up to the end of the connection."""
    replies = []
    while reply := read_reply(connection):
        replies.append(reply)
    return replies
