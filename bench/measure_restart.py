#!/usr/bin/env python3
"""Measures what clients see when `kdcd serve --journal` is restarted under load. Linux and Python 3 alone are needed.

    python3 bench/measure_restart.py [--kdcd crates/kdcd/out/kdcd] [--rate N] [--clients N] [--seconds N] [--restarts N]
        [--records N] [--kill]

N client processes ask for tickets of a service, together at that rate, and do not wait for each other. Each
request has a socket of its own and is asked again as stock clients do: the same octets after a second, after another
one, and then over TCP. Meanwhile the server is ended and started again. It prints how many requests got their ticket at
once and after another try, and the errors that others got. With `--restarts 0` it prints what there is without a
restart. With `--records N` the first server starts on a journal with this many records (`measure_long_restart.py`).
It ends with status 1 if a request got an error or no reply."""

import argparse
import collections
import multiprocessing
import os
import pathlib
import select
import signal
import socket
import subprocess
import sys
import tempfile
import time

import harness_path
from harness.kerberos import as_req, tgs_req, ticket_in
from harness.processes import RUNNING, ending
from harness.wire import answer, free_port
from measure_long_restart import write_journal
from measure_server import KEY, REALM, database_text, framed, row

SERVICE = (b"host", b"n1")
# How many seconds after the first datagram the same octets are sent again, and then by TCP.
AGAIN, BY_TCP = (1, 2), 3
# When a request is given up.
PATIENCE = 8


class Restarted:
    """A server on ports that stay the same."""

    def __init__(self, kdcd, folder, clients, records):
        self.folder, self.address = folder, ("127.0.0.1", free_port())
        rows = {"krbtgt/EXAMPLE.COM": row("00" * 32), "host/n1": row("22" * 32)}
        rows.update({client.decode(): row(KEY.hex(), preauth=False) for client in clients})
        (folder / "database").write_text(database_text(rows))
        at = "%s:%d" % self.address
        self.words = [
            kdcd, "serve", "--db", "database", "--udp", at, "--tcp", at, "--journal", "journal", "--remembered", "65536"
        ]
        if records:
            write_journal(folder, records, 1_000)
        self.begin(*[] if records else ["--first"])

    def begin(self, *words):
        self.errors = open(self.folder / "errors", "wb+")
        self.process = subprocess.Popen(
            [*self.words, *words], cwd=self.folder, stdout=subprocess.DEVNULL, stderr=self.errors
        )
        RUNNING.append(self.process)
        while self.process.poll() is None and b"kdcd: limits: " not in self.said():
            time.sleep(0.001)
        if self.process.poll() is not None:
            sys.exit(f"the server did not start: {self.said().decode()}")

    def said(self):
        return (self.folder / "errors").read_bytes()

    def restart(self, number):
        """Ends it by a signal and starts it again. Gives how many seconds it did not listen."""
        start = time.perf_counter()
        self.process.send_signal(number)
        self.process.wait()
        self.begin()
        if b"journal journal: resumed" not in self.said():
            print(f"it did not resume: {self.said().decode()}")
        return time.perf_counter() - start


class Asked:
    """A request that waits for its reply."""

    def __init__(self, address, octets):
        self.address, self.octets, self.start, self.tries = address, octets, time.monotonic(), 0
        self.peer = socket.socket(socket.AF_INET, socket.SOCK_DGRAM)
        self.peer.connect(address)
        self.peer.setblocking(False)
        self.send()

    def send(self):
        self.tries += 1
        try:
            self.peer.send(self.octets)
        except OSError:
            pass

    def look(self):
        """The reply, if it is there."""
        try:
            return self.peer.recv(65536)
        except OSError:
            return b""

    def go_on(self):
        """Asks again where that is due. Gives a reply that came over TCP, and whether it is given up."""
        passed = time.monotonic() - self.start
        if self.tries <= len(AGAIN):
            if passed >= AGAIN[self.tries - 1]:
                self.send()
            return b"", False
        if passed < BY_TCP:
            return b"", False
        self.tries += 1
        try:
            with socket.create_connection(self.address, 1) as connection:
                connection.sendall(framed(self.octets))
                found = b""
                while len(found) < 4 or len(found) < 4 + int.from_bytes(found[:4], "big"):
                    piece = connection.recv(65536)
                    if not piece:
                        break
                    found += piece
                return found[4:], False
        except OSError:
            return b"", passed > PATIENCE


def ask_all(address, client, rate, count, signals):
    """A client process: it makes its requests, waits until all are ready, and sends them at a rate."""
    ready, begin, outcomes = signals
    with socket.socket(socket.AF_INET, socket.SOCK_DGRAM) as peer:
        peer.connect(address)
        peer.settimeout(5)
        peer.send(as_req(REALM, client))
        ticket, key = ticket_in(KEY, peer.recv(65536))
    now = int(time.time())
    requests = [tgs_req(REALM, client, SERVICE, (ticket, key), (now, number)) for number in range(count)]
    ready.release()
    begin.wait()
    start, waiting, found, poller, place = time.monotonic(), {}, collections.Counter(), select.epoll(), 0

    def end(asked, reply):
        found[(answer(reply), asked.tries)] += 1
        del waiting[asked.peer.fileno()]
        asked.peer.close()

    while place < count or waiting:
        while place < count and time.monotonic() >= start + place / rate:
            asked = Asked(address, requests[place])
            waiting[asked.peer.fileno()] = asked
            poller.register(asked.peer, select.EPOLLIN)
            place += 1
        due = start + place / rate - time.monotonic() if place < count else 0.02
        for number, _ in poller.poll(max(0, min(due, 0.02))):
            reply = waiting[number].look()
            if reply:
                end(waiting[number], reply)
        late = time.monotonic() - AGAIN[0]
        for asked in [each for each in waiting.values() if each.start < late]:
            reply, is_over = asked.go_on()
            if reply or is_over:
                end(asked, reply)
    outcomes.put((dict(found), time.monotonic() - start))


def measure(server, words, clients):
    """Gives what became of the requests, the rate, and for how long the server was away."""
    rate, count = words.rate / len(clients), words.rate * words.seconds // len(clients)
    ready, begin, outcomes = multiprocessing.Semaphore(0), multiprocessing.Event(), multiprocessing.Queue()
    for client in clients:
        more = server.address, client, rate, count, (ready, begin, outcomes)
        multiprocessing.Process(target=ask_all, args=more, daemon=True).start()
    for _ in clients:
        ready.acquire()
    begin.set()
    away = []
    for _ in range(words.restarts):
        time.sleep(words.seconds / (words.restarts + 1))
        away.append(server.restart(signal.SIGKILL if words.kill else signal.SIGTERM))
    found, passed = collections.Counter(), 0
    for _ in clients:
        outcome, seconds = outcomes.get()
        found.update(outcome)
        passed = max(passed, seconds)
    return found, count * len(clients), passed, away


def main():
    words = argparse.ArgumentParser(description=__doc__, formatter_class=argparse.RawDescriptionHelpFormatter)
    words.add_argument("--kdcd", default="crates/kdcd/out/kdcd")
    words.add_argument("--rate", type=int, default=1_000)
    words.add_argument("--clients", type=int, default=4)
    words.add_argument("--seconds", type=int, default=15)
    words.add_argument("--restarts", type=int, default=5)
    words.add_argument("--records", type=int, default=0)
    words.add_argument("--kill", action="store_true", help="by SIGKILL in place of SIGTERM")
    words = words.parse_args()
    with tempfile.TemporaryDirectory() as folder, ending():
        clients = [b"client%d" % number for number in range(words.clients)]
        server = Restarted(os.path.abspath(words.kdcd), pathlib.Path(folder), clients, words.records)
        found, count, passed, away = measure(server, words, clients)
        server.process.terminate()
        server.process.wait()
    tickets = {tries: number for (what, tries), number in sorted(found.items()) if what == "ticket"}
    others = {what: number for (what, tries), number in sorted(found.items()) if what != "ticket"}
    print(f"{count} requests in {passed:.1f} s from {words.clients} processes, {words.restarts} restarts: "
          f"{tickets.get(1, 0)} tickets at once, {sum(tickets.values()) - tickets.get(1, 0)} after another try")
    print("errors: " + (", ".join(f"{number} times {what}" for what, number in others.items()) or "none"))
    if away:
        print("the server was away for " + ", ".join(f"{seconds * 1e3:.0f}" for seconds in away) + " ms")
    sys.exit(1 if others else 0)


if __name__ == "__main__":
    main()
