#!/usr/bin/env python3
"""Measures what a line of the log costs `kdcd serve`: two servers of one realm, one with `--log`, get requests in
turns, in short stretches. It needs only Linux and Python 3.

    python3 bench/measure_log.py [--programs FOLDER] [--sink file|pipe|socket] [--turns N] [--requests N]

The folder has `kadm` and `kdcd`, or the crates. The log goes to a file, or through a pipe or a stream socket, like that
of a service to systemd's journal. `cat` reads these on another processor and writes to the file: its time is not
counted, but what it costs the server to wake it is. It prints the quartiles of the processor time of a request, system
calls included, over the stretches of each server, for logins that get a ticket and for logins that are refused. It ends
with status 1 if a line was lost, since such a line costs less."""

import argparse
import os
import pathlib
import socket
import subprocess
import sys
import tempfile

import harness_path
from harness.kerberos import as_req
from harness.peer import Peer
from harness.processes import ending
from harness.stock_kdcs import kdcd, keep_to_one_processor, Principal

REALM = "EXAMPLE.COM"
PRINCIPALS = [Principal("bob", "a password", preauth=False)]


class Log:
    """The log of a server: a file, and the sink for the server's standard error through which its lines come into the
    file. A pipe or a socket is read on one of these processors."""

    def __init__(self, path, sink, processors):
        self.path, self.reader, self.errors = path, None, os.open(path, os.O_WRONLY | os.O_CREAT)
        if sink != "file":
            file, (end, self.errors) = self.errors, ends_of(sink)
            self.reader = subprocess.Popen(["cat"], stdin=end, stdout=file)
            os.sched_setaffinity(self.reader.pid, processors)
            os.close(end)
            os.close(file)

    def count(self):
        """The number of requests in it, after the server has ended."""
        os.close(self.errors)
        if self.reader:
            self.reader.wait()
        return self.path.read_text().count(" udp as ")


def ends_of(sink):
    """The ends at which a pipe or a socket is read and written."""
    return os.pipe() if sink == "pipe" else [end.detach() for end in socket.socketpair()]


def stretch(peer, server, request, count):
    """Sends `count` requests, and returns the microseconds of processor time for each."""
    before = server.processor_seconds()
    for _ in range(count):
        peer.ask(request)
    return (server.processor_seconds() - before) / count * 1e6


def quartiles(numbers):
    numbers = sorted(numbers)
    return [numbers[len(numbers) * part // 4] for part in (1, 2, 3)]


def measure(what, servers, request, turns, count):
    peers = [Peer(server) for server in servers]
    found = ([], [])
    for turn in range(turns):
        # Each time the other server is first.
        for place in (turn % 2, 1 - turn % 2):
            found[place].append(stretch(peers[place], servers[place], request, count))
    without, with_log = map(quartiles, found)
    shown = lambda three: ", ".join(f"{each:.1f}" for each in three)
    print(f"{what}: quartiles {shown(without)} us without the log, {shown(with_log)} us with it; "
          f"the log costs {shown([b - a for a, b in zip(without, with_log)])} us")


def main():
    words = argparse.ArgumentParser(description=__doc__, formatter_class=argparse.RawDescriptionHelpFormatter)
    words.add_argument("--programs", default="crates")
    words.add_argument("--sink", choices=("file", "pipe", "socket"), default="file", help="where the log goes")
    words.add_argument("--turns", type=int, default=200)
    words.add_argument("--requests", type=int, default=200, help="in a stretch")
    words.add_argument("--port", type=int, default=20388)
    words = words.parse_args()
    others = keep_to_one_processor()
    if words.sink != "file" and not others:
        sys.exit("there is no other processor, which the reader of the log needs")
    logins = {"a ticket": b"bob", "a client that is unknown": b"nobody"}
    with tempfile.TemporaryDirectory() as folder, ending():
        plain, logged = [pathlib.Path(folder, name) for name in ("plain", "logged")]
        for each in (plain, logged):
            each.mkdir()
        log = Log(logged / "log", words.sink, others)
        servers = [
            kdcd(words.programs, plain, REALM, PRINCIPALS, words.port),
            kdcd(words.programs, logged, REALM, PRINCIPALS, words.port + 1, log.errors),
        ]
        for what, client in logins.items():
            measure(what, servers, as_req(REALM.encode(), client), words.turns, words.requests)
        for server in servers:
            server.end()
        lost = len(logins) * words.turns * words.requests - log.count()
    if lost > 0:
        sys.exit(f"{lost} lines of the log were lost, or more")


if __name__ == "__main__":
    main()
