#!/usr/bin/env python3
"""Measures how long replies of `kdcd serve` wait while its database is replaced. It needs only Linux and Python 3.

    python3 bench/measure_changes.py [--kdcd crates/kdcd/out/kdcd] [--rows N] [--rate N] [--seconds N] [--changes N]

It sends --rate requests a second, each for another service, so that each reply is known by the service that it names,
and replaces the database every few seconds. It ends with status 1 if a change was not served."""

import argparse
import os
import socket
import sys
import tempfile
import threading
import time

import harness_path
from harness.kerberos import body, field, integer, sequence, tlv
from harness.peer import Peer
from harness.processes import ending
from measure_server import Server, database_text, row

REALM = b"EXAMPLE.COM"


def request(number):
    """An AS-REQ of an unknown client."""
    asked = body(REALM, (b"n%07d" % number,), b"nobody")
    return tlv(0x6A, sequence(field(1, integer(5)), field(2, integer(10)), field(4, asked)))


def login(client):
    return tlv(0x6A, sequence(
        field(1, integer(5)), field(2, integer(10)), field(4, body(REALM, (b"krbtgt", REALM), client))))


def rows_with(rows, newcomer):
    """Rows with four keys each, and a new one."""
    keys = [{"etype": etype, "key": "%02x" % etype * size} for etype, size in ((18, 32), (17, 16), (20, 32), (19, 16))]
    known = {"krbtgt/EXAMPLE.COM": row("00" * 32)}
    for name in [f"user{number:06d}" for number in range(rows)] + [newcomer]:
        known[name] = row("00" * 32, preauth=False)
        known[name]["keys"] = [{"keys": keys, "version": 1}]
    return database_text(known)


def replace(path, text):
    with open(path + ".new", "w") as file:
        file.write(text)
        file.flush()
        os.fsync(file.fileno())
    os.rename(path + ".new", path)
    return time.perf_counter()


class Changes(threading.Thread):
    """Replaces the database now and then, and measures how soon a new principal gets a ticket."""

    def __init__(self, server, path, texts, pause):
        super().__init__()
        self.server, self.path, self.texts, self.pause, self.taken = server, path, texts, pause, []

    def run(self):
        peer = Peer(self.server)
        for newcomer, text in self.texts:
            time.sleep(self.pause)
            start = replace(self.path, text)
            while time.perf_counter() - start < 10:
                peer.ask(login(newcomer.encode()))
                if peer.reply[0] == 0x6B:
                    self.taken.append(time.perf_counter() - start)
                    break
                time.sleep(0.02)


def measure(server, changes, rate, seconds):
    """Sends at a steady rate, also while no reply comes. Returns how long each reply took, and how many requests got
    none."""
    peer = socket.socket(socket.AF_INET, socket.SOCK_DGRAM)
    peer.setsockopt(socket.SOL_SOCKET, socket.SO_RCVBUF, 8_000_000)
    peer.connect(server.udp)
    peer.setblocking(False)
    requests = [request(number) for number in range(rate * seconds)]
    sent, taken, unsent = {}, [], 0

    def receive():
        while True:
            try:
                reply = peer.recv(4096)
            except BlockingIOError:
                return
            number = int(reply[-7:])
            taken.append(time.perf_counter() - sent.pop(number))

    changes.start()
    start = time.perf_counter()
    for number, octets in enumerate(requests):
        while time.perf_counter() < start + number / rate:
            receive()
        sent[number] = time.perf_counter()
        try:
            peer.send(octets)
        except BlockingIOError:
            unsent += 1
    passed = time.perf_counter() - start
    end = time.perf_counter() + 3
    while time.perf_counter() < end:
        receive()
        time.sleep(0.001)
    changes.join()
    return sorted(taken), len(sent), passed, unsent


def main():
    words = argparse.ArgumentParser(description=__doc__, formatter_class=argparse.RawDescriptionHelpFormatter)
    words.add_argument("--kdcd", default="crates/kdcd/out/kdcd")
    words.add_argument("--rows", type=int, default=10_000)
    words.add_argument("--rate", type=int, default=5_000)
    words.add_argument("--seconds", type=int, default=20)
    words.add_argument("--changes", type=int, default=5)
    words = words.parse_args()
    with tempfile.TemporaryDirectory() as folder, ending():
        server = Server(words.kdcd, folder)
        path = os.path.join(folder, "database")
        texts = [(f"new{number}", rows_with(words.rows, f"new{number}")) for number in range(words.changes)]
        print(f"{words.rows} rows of four keys, {len(texts[0][1])} octets")
        changes = Changes(server, path, texts, words.seconds / (words.changes + 1))
        taken, lost, passed, unsent = measure(server, changes, words.rate, words.seconds)
        asked = words.rate * words.seconds
        at = lambda part: taken[min(len(taken) - 1, int(len(taken) * part))] * 1e3
        print(
            f"{asked} requests, {asked / passed:.0f} a second, {words.changes} changes: median {at(0.5):.2f} ms, "
            f"99 of 100 {at(0.99):.1f} ms, longest {taken[-1] * 1e3:.0f} ms; {lost} without a reply, {unsent} not sent"
        )
        print("a newcomer had its ticket after " + ", ".join(f"{seconds:.2f}" for seconds in changes.taken) + " s")
        print(f"memory: {server.resident_kib()} KiB")
        server.end()
    sys.exit(0 if len(changes.taken) == words.changes else 1)


main()
