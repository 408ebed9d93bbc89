"""`kdcd serve` on a stage: its clock shows what a file says, its calls of the system are listed, and single ones fail
(`fixed_system.c`)."""

import contextlib
import fcntl
import itertools
import os
import pathlib
import re
import resource
import socket
import time

from harness import staged_realm as realm
from harness.kerberos import tgs_req, ticket_in
from harness.processes import PATIENCE, SLOWNESS
from harness.programs import fixed_system
from harness.server import Server
from harness.trial import Trial
from harness.wire import REALM, answer, ask_udp, datagrams, place_of

# The first second of 2024, and for how many seconds a restart then refuses all TGS-REQs.
T, REFUSING = 1_704_067_200, 301
# A server looks at the file of its rows before each of this many rounds.
ROUNDS = 16
# The size of one of the places of a pipe.
PIPE_PLACE = 4096


def utc(second):
    return time.strftime("%Y-%m-%dT%H:%M:%SZ", time.gmtime(second))


class Staged(Trial):
    """Commands on a stage: a folder with the settings of `fixed_system.c` and the list of calls."""

    def __init__(self, programs, folder):
        super().__init__(programs, folder)
        # The databases are their owner's alone, as `kadm` writes them. A server says if they are not.
        os.umask(0o077)
        self.environment |= {"LD_PRELOAD": fixed_system(), "STAGE": "stage", "CALLS": "stage/calls"}

    def enter(self, name="staged"):
        """Makes another folder, with a stage whose clock shows the first second of 2024, and with a database."""
        super().enter(name)
        (self.folder / "stage").mkdir()
        self.show(T)
        self.rows(realm.SERVICE, realm.TGS, realm.USER, realm.NEW_USER)

    def put(self, name, text):
        """Replaces a file by another one."""
        self.write(f"{name}.beside", text)
        os.replace(self.folder / f"{name}.beside", self.folder / name)

    def set(self, name, text):
        """Sets what the system shows."""
        self.put(f"stage/{name}", text)

    def show(self, second):
        """Sets the clock."""
        self.set("CLOCK", str(second))

    def rows(self, *rows, name="database", of=REALM):
        """Replaces the file of a database."""
        self.put(name, realm.database(of, *rows))

    def calls(self):
        """The calls since `stage/calls` was emptied."""
        return (self.folder / "stage" / "calls").read_text().splitlines()

    def server(self, words, **how):
        return Server(self, words, environment=self.environment, **how)


def ask(server, request, seconds=20):
    """The reply to a datagram that is sent once, from a port of its own. It is empty if none comes in this time."""
    with datagrams(server.udp) as peer:
        peer.settimeout(seconds * SLOWNESS)
        return ask_udp(peer, request, 1)


def turn(server):
    """Sends datagrams that are no requests, until the server has looked at its clock and its rows after what came
    before."""
    with datagrams(server.udp) as peer:
        for _ in range(2 * ROUNDS):
            peer.send(b"x")
        ask_udp(peer, realm.LOGIN)


def is_accepted(server, own):
    """Whether the server has accepted a connection from this port. The system lists a connection that waits with the
    number 0."""
    port = place_of(server.addresses[1][1])[1]
    lines = (line.split() for line in pathlib.Path("/proc/net/tcp").read_text().splitlines()[1:])
    ends = {tuple(int(each.rpartition(":")[2], 16) for each in line[1:3]): line[9] for line in lines}
    return ends.get((port, own), "0") != "0"


def settle(server):
    """Waits until the server has written or lost the line of each request that was answered: until it accepts a
    connection."""
    with socket.create_connection(place_of(server.addresses[1][1]), 5 * SLOWNESS) as peer:
        server.wait(lambda: is_accepted(server, peer.getsockname()[1]), 5)


def counts(server):
    """The counts that a server with --rounds prints at its end. It is sent datagrams until then."""
    end = time.monotonic() + PATIENCE
    with datagrams(server.udp) as peer:
        while server.process.poll() is None and time.monotonic() < end:
            with contextlib.suppress(OSError):
                peer.send(b"x")
            time.sleep(0.001)
    found = re.fullmatch(r"served (\d+) (\d+) (\d+)\n", server.out.read_text())
    return tuple(map(int, found.groups())) if found else server.out.read_text()


class Buyer:
    """A client, `w`, with a TGT of the second that the clock shows."""

    def __init__(self, server):
        self.ticket, self.key = ticket_in(bytes.fromhex(realm.NEW_USER_KEY), ask(server, realm.LOGIN))
        self.turns = itertools.count(1)

    def request(self, second, client=b"w"):
        """A new TGS-REQ, whose authenticator has this time."""
        return tgs_req(REALM.encode(), client, (b"h",), (self.ticket, self.key), (second, next(self.turns)))

    def buy(self, server, second, client=b"w", seconds=20):
        return answer(ask(server, self.request(second, client), seconds))


FIRST_ROWS = realm.SERVICE, realm.TGS, realm.USER
FEWER, MORE = ("kdcd: database database with %d rows\n" % count for count in (3, 4))


def filled(writer, leaves=0):
    """Fills a pipe with empty lines, except for this many of its places."""
    places = fcntl.fcntl(writer, fcntl.F_GETPIPE_SZ) // PIPE_PLACE - leaves
    for _ in range(places):
        os.write(writer, b"\n" * PIPE_PLACE)


# A login on a connection.
FRAMED = len(realm.LOGIN).to_bytes(4, "big") + realm.LOGIN


def place(peer):
    return "%s:%d" % peer.getsockname()


def limit(server, most=resource.RLIM_INFINITY):
    """Lets no file of the server become longer than this from now on. A write past it has an error, or is cut."""
    resource.prlimit(server.process.pid, resource.RLIMIT_FSIZE, (most, resource.RLIM_INFINITY))
