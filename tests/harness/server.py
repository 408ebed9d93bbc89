"""`kdcd serve`, and places for its log."""

import os
import pty
import re
import select
import shlex
import subprocess
import time

from harness.processes import PATIENCE, RUNNING, SLOWNESS
from harness.wire import answer, ask_udp, datagrams, free_port, login


class Server:
    """`kdcd serve` on a port of 127.0.0.1 that was free, or on the addresses of `words`. Standard error goes to a file,
    or elsewhere."""

    def __init__(self, trial, words="--first", errors=None, environment=None, **more):
        self.file, self.out = trial.folder / f"log{len(RUNNING)}", trial.folder / f"out{len(RUNNING)}"
        address = f"127.0.0.1:{free_port()}"
        words += "" if "--udp" in words else f" --udp {address} --tcp {address}"
        self.addresses = [("udp", address), ("tcp", address)]
        with open(self.file, "wb") as file, open(self.out, "wb") as out:
            words = ["kdcd", "serve", "--db", "database", *shlex.split(words)]
            how = {"stdin": subprocess.DEVNULL, "stdout": out, "stderr": file if errors is None else errors}
            how |= {"env": environment or trial.environment, **more}
            self.process = trial.start(words, **how)
        self.is_up = self.wait(self.read_addresses if errors is None else lambda: self.answer("nobody", 1) == "6")
        if not self.is_up:
            trial.note(shlex.join(words), f"does not serve: {self.said()!r}")

    def wait(self, is_there, seconds=60):
        end = time.monotonic() + seconds * SLOWNESS
        while time.monotonic() < end and self.process.poll() is None and not is_there():
            time.sleep(0.02)
        return is_there()

    def read_addresses(self):
        if "kdcd: limits: " in self.said():
            self.addresses = re.findall(r"(udp|tcp) (\S+:\d+)", re.search("kdcd: serving on .*", self.said())[0])
        return "kdcd: limits: " in self.said()

    def said(self):
        return self.file.read_text(errors="replace")

    @property
    def udp(self):
        return next(address for kind, address in self.addresses if kind == "udp")

    def answer(self, name, tries=3):
        """What a login of this name gets, by a datagram."""
        with datagrams(self.udp) as peer:
            return answer(ask_udp(peer, login(name), tries))

    def end(self):
        """Ends the server by SIGTERM, and returns its status."""
        self.process.terminate()
        try:
            return self.process.wait(5 * SLOWNESS)
        except subprocess.TimeoutExpired:
            self.process.kill()
            return self.process.wait(PATIENCE)


def flood(address, count):
    """Sends up to `count` logins, and returns how many were answered before one that was not, after three tries."""
    requests = (login("v"), login("nobody"))
    with datagrams(address) as peer:
        for turn in range(count):
            if not ask_udp(peer, requests[turn % 2]):
                return turn
    return count


# The places that a log may go to.
SINKS = ("a file", "/dev/full", "a pipe that is closed", "a pipe that nobody reads", "a terminal that nobody reads")


def sink_of(trial, what):
    """The place for output, and the end from which it is read, if there is one."""
    if what == "a file":
        return os.open(trial.folder / "lines", os.O_WRONLY | os.O_CREAT | os.O_APPEND, 0o600), None
    if what == "/dev/full":
        return os.open(what, os.O_WRONLY), None
    reader, writer = os.pipe() if "pipe" in what else pty.openpty()
    if "closed" in what:
        os.close(reader)
        reader = None
    return writer, reader


def drained(reader):
    """Reads what waits in a pipe or a terminal."""
    octets = b""
    while select.select([reader], [], [], 0.3)[0]:
        more = os.read(reader, 65536)
        if not more:
            break
        octets += more
    return octets.decode(errors="replace").replace("\r\n", "\n")
