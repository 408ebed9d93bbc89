#!/usr/bin/env python3
"""Measures `kdcd serve` and `kadm` over a large realm. It needs only Linux and Python 3.

    python3 bench/measure_realm.py [--kdcd PROGRAM] [--kadm PROGRAM] [--rows N] [--times N] [--requests N]

It makes a database of --rows rows, each with four random keys, in the form that `kadm` writes. It prints how long the
server takes until it listens and how much memory it uses, what a request costs over it and over 100 rows, how long the
server takes to read a new database, and how long commands of `kadm` take. It ends with status 1 if a command failed."""

import argparse
import json
import os
import random
import re
import subprocess
import sys
import tempfile
import time

import harness_path
from harness.databases import database
from harness.kerberos import as_req
from harness.peer import Peer
from harness.processes import RUNNING, ending
from measure_server import REALM, Server, measure_datagrams, row


def database_text(rows):
    """The text of a database with names of one and of two components, and a key of each type in each row."""
    source = random.Random(rows)
    kinds = ["user%06d", "user%06d", "host/node%06d.example.com", "HTTP/web%06d.example.com"]
    names = ["krbtgt/EXAMPLE.COM"] + [kinds[number % 4] % number for number in range(rows - 1)]
    known = {}
    for name in sorted(names):
        known[name] = row("", preauth=False)
        sizes = ((18, 32), (17, 16), (20, 32), (19, 16))
        keys = [{"etype": etype, "key": source.randbytes(size).hex()} for etype, size in sizes]
        known[name]["keys"] = [{"keys": keys, "version": 1}]
    return json.dumps(database(REALM.decode(), known), separators=(",", ":"))


class RealmServer(Server):
    """`kdcd serve` over the database at a path, with these further options."""

    def __init__(self, kdcd, database, *more, environment=None):
        start = time.perf_counter()
        words = [kdcd, "serve", "--db", database, "--udp", "127.0.0.1:0", "--tcp", "127.0.0.1:0", "--first", *more]
        self.process = subprocess.Popen(
            words, stdout=subprocess.PIPE, stderr=subprocess.PIPE, text=True, env=environment
        )
        RUNNING.append(self.process)
        # Before that line it says what rights others have on its files.
        line = next((line for line in self.process.stderr if "serving on" in line), "")
        self.started, self.used = time.perf_counter() - start, self.processor_seconds()
        found = re.search(r"udp (\S+):(\d+) and tcp (\S+):(\d+)", line)
        if not found:
            sys.exit(f"the server did not start: {line}")
        self.udp, self.tcp = (found[1], int(found[2])), (found[3], int(found[4]))

    def most_kib(self):
        with open(f"/proc/{self.process.pid}/status") as file:
            return int(re.search(r"VmHWM:\s+(\d+)", file.read())[1])


def measure_start(kdcd, database, size, times):
    best = None
    for _ in range(times):
        server = RealmServer(kdcd, database)
        if best is None or server.started < best[0]:
            best = (server.started, server.used, server.most_kib(), server.resident_kib())
        server.end()
    parts = [f"{kib} KiB ({kib * 1024 / size:.2f} times the text)" for kib in best[2:]]
    print(
        f"start: listens after {best[0]:.2f} s, {best[1]:.2f} s of processor time; at most {parts[0]}, then {parts[1]}"
    )


def measure_requests(kdcd, database, what, requests):
    server = RealmServer(kdcd, database)
    measure_datagrams(server, f"{what}, an unknown client", [as_req(REALM, b"nobody")] * requests, 0x7E)
    measure_datagrams(server, f"{what}, a ticket", [as_req(REALM, b"user000000")] * requests, 0x6B)
    server.end()


def measure_replacement(kdcd, database, text):
    """Sends one request after another while the file is replaced. The longest wait is the time for reading it."""
    server = RealmServer(kdcd, database)
    peer, taken = Peer(server), []
    used = server.processor_seconds()
    peer.socket.settimeout(30)
    with open(database + ".new", "w") as file:
        file.write(text)
    os.rename(database + ".new", database)
    end = time.perf_counter() + 5
    while time.perf_counter() < end:
        taken.append(peer.ask(as_req(REALM, b"nobody")))
        time.sleep(0.005)
    print(f"a replaced database: the longest wait of a reply is {max(taken):.2f} s; at most {server.most_kib()} KiB, "
          f"then {server.resident_kib()} KiB")
    server.end()


def measure_command(words, input=None):
    before, start = os.times(), time.perf_counter()
    done = subprocess.run(words, input=input, capture_output=True)
    passed, after = time.perf_counter() - start, os.times()
    used = after.children_user + after.children_system - before.children_user - before.children_system
    print(f"kadm {words[1]}: {passed:.2f} s, {used:.2f} s of processor time")
    return done.returncode


def main():
    words = argparse.ArgumentParser(description=__doc__, formatter_class=argparse.RawDescriptionHelpFormatter)
    words.add_argument("--kdcd", default="crates/kdcd/out/kdcd")
    words.add_argument("--kadm", default="crates/kadm/out/kadm")
    words.add_argument("--rows", type=int, default=100_000)
    words.add_argument("--times", type=int, default=3)
    words.add_argument("--requests", type=int, default=5_000)
    words = words.parse_args()
    failed = 0
    with tempfile.TemporaryDirectory() as folder, ending():
        large, small = os.path.join(folder, "large"), os.path.join(folder, "small")
        text = database_text(words.rows)
        for path, content in ((large, text), (small, database_text(100))):
            with open(path, "w") as file:
                file.write(content)
        print(f"{words.rows} rows of four keys, {len(text)} octets")
        measure_start(words.kdcd, large, len(text), words.times)
        measure_requests(words.kdcd, small, "100 rows", words.requests)
        measure_requests(words.kdcd, large, f"{words.rows} rows", words.requests)
        measure_replacement(words.kdcd, large, text)
        for database in (small, large):
            print(os.path.basename(database))
            for number in range(words.times):
                failed += measure_command(
                    [words.kadm, "add", "--db", database, "--name", f"new{number}"], b"a password\n"
                )
            failed += measure_command([words.kadm, "show", "--db", database, "--name", "new0"])
    sys.exit(1 if failed else 0)


if __name__ == "__main__":
    main()
