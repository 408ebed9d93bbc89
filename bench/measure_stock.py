#!/usr/bin/env python3
"""Measures `kdcd serve`, with and without its log, and beside it MIT's `krb5kdc` and Heimdal's `kdc`.

    python3 bench/measure_stock.py [--mit FOLDER] [--heimdal FOLDER] [--programs FOLDER] [--tickets N]

The folders are those of `stock_kdcs.py`, which starts the servers. Each has the same realm, with keys of type 18 only,
and its own port, and shares one processor with the client. Each request has another nonce, so that none is answered
from a cache. It prints what a request costs each server in processor time, system calls included, and ends with status
1 if a request got another reply than expected."""

import argparse
import pathlib
import sys
import tempfile
import time

import harness_path
from harness.kerberos import as_req, key_of, tgs_req, ticket_in, timestamp
from harness.peer import Peer
from harness.processes import ending
from harness.stock_kdcs import heimdal, kdcd, keep_to_one_processor, mit, Principal
from measure_server import measure_datagrams

REALM = b"EXAMPLE.COM"
SERVICE = (b"host", b"n1")
NEEDS_PREAUTH = b"alice"
CLIENTS = [b"bob%d" % number for number in range(5)]
PASSWORD = b"a password"
PRINCIPALS = [
    Principal("host/n1"),
    Principal(NEEDS_PREAUTH.decode(), PASSWORD.decode()),
    *[Principal(client.decode(), PASSWORD.decode(), preauth=False) for client in CLIENTS],
]
NONCES = iter(range(1, 2**31))


def client_key(client):
    return key_of(PASSWORD, REALM + client)


def service_requests(server, count):
    """TGS-REQs, `count` of each client, each with another authenticator."""
    peer, requests = Peer(server), []
    for client in CLIENTS:
        peer.ask(as_req(REALM, client, nonce=next(NONCES)))
        ticket, session_key = ticket_in(client_key(client), peer.reply)
        now = int(time.time())
        requests += [
            tgs_req(REALM, client, SERVICE, (ticket, session_key), (now, cusec), nonce=next(NONCES))
            for cusec in range(count)
        ]
    return requests


def measure(what, server, count):
    print(what)
    logins = lambda client: [as_req(REALM, client, nonce=next(NONCES)) for _ in range(count)]
    odd = measure_datagrams(server, "a client that is unknown", logins(b"nobody"), 0x7E)
    odd += measure_datagrams(server, "a client without a timestamp", logins(NEEDS_PREAUTH), 0x7E)
    odd += measure_datagrams(server, "a ticket", logins(CLIENTS[0]), 0x6B)
    stamp = timestamp(client_key(NEEDS_PREAUTH), time.time())
    stamped = [as_req(REALM, NEEDS_PREAUTH, stamp, next(NONCES)) for _ in range(count)]
    odd += measure_datagrams(server, "a ticket, with a timestamp", stamped, 0x6B)
    odd += measure_datagrams(server, "a ticket for a service", service_requests(server, count // len(CLIENTS)), 0x6D)
    server.end()
    return odd


def main():
    words = argparse.ArgumentParser(description=__doc__, formatter_class=argparse.RawDescriptionHelpFormatter)
    words.add_argument("--programs", default="crates", help="the folder of kadm and kdcd, or that of the crates")
    words.add_argument("--mit", help="the folder of MIT's packages; left out, its KDC is not measured")
    words.add_argument("--heimdal", help="the folder of Heimdal's packages; left out, its KDC is not measured")
    words.add_argument("--port", type=int, default=20188)
    words.add_argument("--tickets", type=int, default=5000, help="requests of each kind, at most 5,120")
    words = words.parse_args()
    keep_to_one_processor()
    realm, odd = REALM.decode(), 0
    with tempfile.TemporaryDirectory() as folder, ending():
        folders = [pathlib.Path(folder, name) for name in ("plain", "logged", "mit", "heimdal")]
        for each in folders:
            each.mkdir()
        server = kdcd(words.programs, folders[0], realm, PRINCIPALS, words.port)
        odd += measure("kdcd serve", server, words.tickets)
        with open(folders[1] / "lines", "w") as log:
            server = kdcd(words.programs, folders[1], realm, PRINCIPALS, words.port, log)
            odd += measure("kdcd serve --log", server, words.tickets)
        if words.mit:
            server = mit(words.mit, folders[2], realm, PRINCIPALS, words.port + 1)
            odd += measure("krb5kdc", server, words.tickets)
        if words.heimdal:
            server = heimdal(words.heimdal, folders[3], realm, PRINCIPALS, words.port + 2)
            odd += measure("Heimdal's kdc", server, words.tickets)
    sys.exit(1 if odd else 0)


if __name__ == "__main__":
    main()
