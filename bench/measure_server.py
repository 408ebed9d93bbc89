#!/usr/bin/env python3
"""Measures `kdcd serve` on the loopback, and tries it with hostile traffic. It needs only Linux and Python 3.

    python3 bench/measure_server.py [--kdcd crates/kdcd/out/kdcd] [--idle SECONDS] [--requests N] [--tickets N]

It makes its own realm in a temporary folder, starts the server on ports that the system chooses, and prints what it
found. It ends with status 1 if a good request got no reply."""

import argparse
import os
import random
import re
import select
import socket
import subprocess
import sys
import tempfile
import threading
import time

import harness_path
from harness import databases
from harness.kerberos import as_req, tgs_req, ticket_in, timestamp
from harness.peer import Peer
from harness.processes import RUNNING, ending

REALM = b"EXAMPLE.COM"
KEY = bytes([0x11]) * 32
SERVICE = (b"host", b"n1")
# Clients that need no preauthentication. The replay cache of each holds 4,096 authenticators.
CLIENTS = [b"bob%d" % number for number in range(5)]
TICKS = os.sysconf("SC_CLK_TCK")


def framed(message):
    return len(message).to_bytes(4, "big") + message


# The server.


def row(key, preauth=True):
    return databases.row([{"keys": [{"etype": 18, "key": key}], "version": 1}], preauth=preauth)


def database_text(rows):
    return databases.database_text(REALM.decode(), rows)


class Server:
    """`kdcd serve` over a realm with `alice`, who needs preauthentication, the clients that need none, and a
    service."""

    def __init__(self, kdcd, folder, rounds=None):
        database = os.path.join(folder, "database")
        seed = os.path.join(folder, "seed")
        rows = {"krbtgt/EXAMPLE.COM": row("00" * 32), "alice": row(KEY.hex()), "host/n1": row("22" * 32)}
        rows.update({client.decode(): row(KEY.hex(), preauth=False) for client in CLIENTS})
        with open(database, "w") as file:
            file.write(database_text(rows))
        with open(seed, "wb") as file:
            file.write(os.urandom(32))
        words = [kdcd, "serve", "--db", database, "--udp", "127.0.0.1:0", "--tcp", "127.0.0.1:0"]
        words += ["--seed", seed, "--first"]
        if rounds is not None:
            words += ["--rounds", str(rounds)]
        self.process = subprocess.Popen(words, stdout=subprocess.PIPE, stderr=subprocess.PIPE, text=True)
        RUNNING.append(self.process)
        # Before that line it says what rights others have on its files.
        line = next((line for line in self.process.stderr if "serving on" in line), "")
        found = re.search(r"udp (\S+):(\d+) and tcp (\S+):(\d+)", line)
        if not found:
            sys.exit(f"the server did not start: {line}{self.process.stdout.read()}")
        self.udp = (found[1], int(found[2]))
        self.tcp = (found[3], int(found[4]))

    def processor_seconds(self):
        with open(f"/proc/{self.process.pid}/schedstat") as file:
            return int(file.read().split()[0]) / 1e9

    def ticks(self):
        with open(f"/proc/{self.process.pid}/stat") as file:
            parts = file.read().rsplit(")", 1)[1].split()
        return int(parts[11]) + int(parts[12])

    def resident_kib(self):
        with open(f"/proc/{self.process.pid}/status") as file:
            return int(re.search(r"VmRSS:\s+(\d+)", file.read())[1])

    def connect(self):
        connection = socket.create_connection(self.tcp)
        connection.settimeout(5)
        return connection

    def end(self):
        self.process.terminate()
        return self.process.wait()


def summary(seconds):
    seconds = sorted(seconds)
    at = lambda part: seconds[min(len(seconds) - 1, int(len(seconds) * part))] * 1e6
    return f"median {at(0.5):.0f} us, 99 of 100 {at(0.99):.0f} us, most {seconds[-1] * 1e6:.0f} us"


def measure_datagrams(server, what, requests, tag):
    """Sends each of the requests. The replies have to begin with this tag."""
    peer, taken = Peer(server), []
    used, passed, odd = 0, 0, 0
    for place in range(0, len(requests), 100):
        before, start = server.processor_seconds(), time.perf_counter()
        for request in requests[place:place + 100]:
            taken.append(peer.ask(request))
            odd += peer.reply[0] != tag
        passed, used = passed + time.perf_counter() - start, used + server.processor_seconds() - before
    count = len(requests)
    print(f"datagrams, {what}: {used / count * 1e6:.1f} us of processor time each, {count / passed:.0f} a second "
          f"from one client; {summary(taken)}")
    if odd:
        print(f"  {odd} replies of another kind")
    return odd


def service_requests(server, count):
    """TGS-REQs, `count` of each client, each with another authenticator."""
    peer, requests = Peer(server), []
    for client in CLIENTS:
        peer.ask(as_req(REALM, client))
        ticket, session_key = ticket_in(KEY, peer.reply)
        now = int(time.time())
        requests += [tgs_req(REALM, client, SERVICE, (ticket, session_key), (now, cusec)) for cusec in range(count)]
    return requests


class KeptConnection:
    """A client that asks over one connection until the server closes it, as it does after 256 replies, and then over
    another one."""

    def __init__(self, server):
        self.server, self.connection = server, server.connect()

    def exchange(self, request):
        self.connection.sendall(framed(request))
        return read_message(self.connection)

    def ask(self, request):
        try:
            return self.exchange(request)
        except (ConnectionError, EOFError):
            self.connection.close()
            self.connection = self.server.connect()
            return self.exchange(request)


def measure_connection(server, request, count):
    connection, taken = KeptConnection(server), []
    before = server.processor_seconds()
    for _ in range(count):
        start = time.perf_counter()
        connection.ask(request)
        taken.append(time.perf_counter() - start)
    used = server.processor_seconds() - before
    print(f"one connection at a time: {used / count * 1e6:.1f} us of processor time a request; {summary(taken)}")


def read_exactly(connection, count):
    octets = b""
    while len(octets) < count:
        piece = connection.recv(count - len(octets))
        if not piece:
            raise EOFError
        octets += piece
    return octets


def read_message(connection):
    return read_exactly(connection, int.from_bytes(read_exactly(connection, 4), "big"))


def measure_idle(server, what, seconds, request):
    ticks, used = server.ticks(), server.processor_seconds()
    time.sleep(seconds)
    used = server.processor_seconds() - used
    print(f"idle {seconds} s, {what}: {server.ticks() - ticks} ticks of 1/{TICKS} s, {used * 1e3:.2f} ms of processor "
          f"time, {used / seconds * 100:.3f} of 100 of one core")
    peer, taken = Peer(server), []
    for _ in range(30):
        time.sleep(random.uniform(0.05, 0.15))
        taken.append(peer.ask(request))
    print(f"  a datagram then: {summary(taken)}")


def closed_connection(server):
    """A connection that the server has closed because of a length of 2^31, and that its peer keeps open."""
    connection = server.connect()
    connection.sendall(b"\x80\0\0\0")
    while connection.recv(65536):
        pass
    return connection


class Asking(threading.Thread):
    """Sends good requests, in datagrams and over its own connection, until it is stopped."""

    def __init__(self, server, request):
        super().__init__()
        self.peer, self.connection, self.request = Peer(server), KeptConnection(server), request
        self.taken, self.taken_over, self.lost, self.is_over = [], [], 0, False

    def run(self):
        while not self.is_over:
            try:
                self.taken.append(self.peer.ask(self.request))
            except OSError:
                self.lost += 1
            try:
                start = time.perf_counter()
                self.connection.ask(self.request)
                self.taken_over.append(time.perf_counter() - start)
            except (OSError, EOFError):
                self.lost += 1
            time.sleep(0.005)

    def end(self, what):
        self.is_over = True
        self.join()
        print(
            f"  good requests beside {what}: {len(self.taken)} datagrams, {self.peer.asked_again} of them asked again, "
            f"{summary(self.taken)}"
        )
        print(f"  and {len(self.taken_over)} on a connection, {summary(self.taken_over)}; {self.lost} lost")
        return self.lost


def random_datagrams(server, count, request):
    """Sends random bytes, and good requests with one byte changed."""
    sender = socket.socket(socket.AF_INET, socket.SOCK_DGRAM)
    sender.connect(server.udp)
    sender.setblocking(False)
    for number in range(count):
        if number % 2:
            octets = bytearray(request)
            octets[random.randrange(len(octets))] = random.randrange(256)
        else:
            octets = os.urandom(random.randrange(1400))
        try:
            sender.send(octets)
        except BlockingIOError:
            pass
        if number % 50 == 49:
            time.sleep(0.001)
        while select.select([sender], [], [], 0)[0]:
            sender.recv(65536)


def hostile_connections(server, count):
    """Opens connections that send random bytes, half of a length, a length of 2^31, or nothing; 100 at a time."""
    held = []
    kinds = [
        lambda: os.urandom(random.randrange(1, 3000)), lambda: b"\0\0", lambda: b"\x80\0\0\0" + bytes(100), lambda: b""
    ]
    for number in range(count):
        connection = server.connect()
        try:
            connection.sendall(kinds[number % 4]())
        except OSError:
            pass
        held.append(connection)
        time.sleep(0.002)
        if len(held) > 100:
            held.pop(0).close()
    for connection in held:
        connection.close()


def unread_connection(server, request):
    """A peer that sends requests and never reads. Prints how many bytes it could send before its system took no more
    for five seconds, or the server dropped it."""
    connection, sent = server.connect(), 0
    requests = framed(request) * 100
    try:
        while sent < 2**30:
            connection.sendall(requests)
            sent += len(requests)
    except OSError as error:
        print(f"a peer that never reads can send {sent / 1e6:.1f} MB of requests ({error})")
        return
    print("a peer that never reads can send 1 GB")


def pipelining_connections(server, request, count, seconds):
    """Connections that send requests without end and read the replies. Each gets its replies beside all the others. One
    that the server closes, after 256 replies, is replaced."""
    connections, unsent, read = [None] * count, [b""] * count, [0] * count
    places = {}

    def connect(place):
        connections[place], unsent[place] = server.connect(), b""
        connections[place].setblocking(False)
        places[connections[place]] = place

    def reconnect(place):
        del places[connections[place]]
        connections[place].close()
        connect(place)

    for place in range(count):
        connect(place)
    end = time.monotonic() + seconds
    while time.monotonic() < end:
        readable, writable, _ = select.select(connections, connections, [], 0.1)
        for place in [places[connection] for connection in writable]:
            unsent[place] = unsent[place] or framed(request) * 200
            try:
                unsent[place] = unsent[place][connections[place].send(unsent[place]):]
            except OSError:
                # The server has dropped it, and the next turn reads its end.
                continue
        for place in [places[connection] for connection in readable]:
            try:
                octets = connections[place].recv(65536)
            except ConnectionError:
                octets = b""
            read[place] += len(octets)
            if not octets:
                reconnect(place)
    print(
        f"{count} connections that send without end had {min(read)} to {max(read)} octets of replies "
        f"each in {seconds} s"
    )
    for connection in connections:
        connection.close()


def main():
    parser = argparse.ArgumentParser(description="Measures kdcd serve on the loopback.")
    parser.add_argument("--kdcd", default="crates/kdcd/out/kdcd")
    parser.add_argument("--idle", type=float, default=60)
    parser.add_argument("--requests", type=int, default=20000)
    parser.add_argument("--tickets", type=int, default=1000)
    parser.add_argument("--datagrams", type=int, default=100000)
    parser.add_argument("--connections", type=int, default=1000)
    words = parser.parse_args()
    unknown, known = as_req(REALM, b"nobody"), as_req(REALM, b"alice")
    lost = 0
    with tempfile.TemporaryDirectory() as folder, ending():
        server = Server(words.kdcd, folder)
        lost += measure_datagrams(server, "a client that is unknown", [unknown] * words.requests, 0x7E)
        lost += measure_datagrams(server, "a client without a timestamp", [known] * words.requests, 0x7E)
        lost += measure_datagrams(server, "a ticket", [as_req(REALM, CLIENTS[0])] * words.requests, 0x6B)
        stamped = as_req(REALM, b"alice", timestamp(KEY, time.time()))
        lost += measure_datagrams(server, "a ticket, with a timestamp", [stamped] * words.requests, 0x6B)
        lost += measure_datagrams(server, "a ticket for a service", service_requests(server, words.tickets), 0x6D)
        measure_connection(server, unknown, words.requests)
        measure_idle(server, "no connection open", words.idle, unknown)
        idle = [server.connect() for _ in range(256)]
        measure_idle(server, "256 idle connections", words.idle, unknown)
        for connection in idle:
            connection.close()
        time.sleep(0.5)
        closed = [closed_connection(server) for _ in range(100)]
        measure_idle(server, "100 connections that it closed and their peers keep open", words.idle, unknown)
        for connection in closed:
            connection.close()
        print(f"memory: {server.resident_kib()} KiB")

        asking = Asking(server, unknown)
        asking.start()
        random_datagrams(server, words.datagrams, known)
        lost += asking.end(f"{words.datagrams} random datagrams")
        asking = Asking(server, unknown)
        asking.start()
        hostile_connections(server, words.connections)
        lost += asking.end(f"{words.connections} hostile connections")
        asking = Asking(server, unknown)
        asking.start()
        pipelining_connections(server, unknown, 200, 5)
        lost += asking.end("them")
        asking = Asking(server, unknown)
        asking.start()
        unread_connection(server, unknown)
        lost += asking.end("it")
        print(f"memory afterwards: {server.resident_kib()} KiB")
        if server.process.poll() is not None:
            sys.exit("the server has ended")
        server.end()

        server = Server(words.kdcd, folder, rounds=40)
        Peer(server).ask(unknown)
        out, _ = server.process.communicate()
        print(f"40 rounds with one datagram: {out.strip()}, status {server.process.returncode}")
    sys.exit(1 if lost else 0)


if __name__ == "__main__":
    main()
