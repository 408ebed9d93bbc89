"""Servers that are started again and again on the files of a journal, and authenticators that are presented to them
once more. Nothing is forced to the disk, and each server is killed."""

import contextlib
import functools
import os
import re
import select
import subprocess
import time
import typing

from harness import staged_realm as realm
from harness.journal_texts import Files, are_journals, begun_floor, resumed, whole
from harness.kerberos import (
    encrypted_data, field, general_string, integer, name, octet_string, sequence, tgs_req, time_of, tlv,
)
from harness.processes import PATIENCE, RUNNING, SLOWNESS
from harness.stage import T
from harness.wire import REALM, answer, datagrams

OURS, CLIENT, DAY = REALM.encode(), b"w", 86_400
# The client as the entries of a journal have it.
CLIENT_NAME = name(1, CLIENT)[2:]
SESSION_KEY = bytes(range(32))
# The last line of a start.
IS_UP = b"kdcd: limits: "
# For how many seconds a reply is awaited that may be withheld.
MOMENT = 0.3
# How many seconds pass between two looks whether a server has ended.
BETWEEN_LOOKS = 0.03
# The options of a server with the journal of a lane.
JOURNAL = "--journal run/journal"
# The names of the files of a journal, in the order of `Files`.
ENDS = "", ".old", ".new", ".sealed"


def ticket():
    """A TGT of the client, valid for a day before and after what clocks show, as the KDC itself would make it."""
    at = [time_of(second) for second in (T - DAY, T - DAY, T + DAY)]
    part = tlv(0x63, sequence(
        field(0, tlv(0x03, bytes(5))),
        field(1, sequence(field(0, integer(18)), field(1, octet_string(SESSION_KEY)))),
        field(2, general_string(OURS)), field(3, name(1, CLIENT)),
        field(4, sequence(field(0, integer(1)), field(1, octet_string(b"")))),
        *(field(5 + number, second) for number, second in enumerate(at)),
    ))
    return tlv(0x61, sequence(
        field(0, integer(5)), field(1, general_string(OURS)), field(2, name(2, b"krbtgt", OURS)),
        field(3, encrypted_data(bytes.fromhex(realm.TGS_KEY), 2, part)),
    ))


@functools.lru_cache(1)
def held():
    return ticket(), SESSION_KEY


# The nonces of a first request with an authenticator, and of another one with the same: the server that answered the
# first may send the same reply to that one again, but none to the other.
FIRST, OTHER = 1, 2


@functools.lru_cache(None)
def request_of(authenticator, nonce):
    """A TGS-REQ with this authenticator: the client as in a journal, the second and the microsecond."""
    client, *at = authenticator
    if client != CLIENT_NAME:
        raise ValueError("an authenticator of another client")
    return tgs_req(OURS, CLIENT, (b"h",), held(), tuple(at), nonce=nonce)


def authenticator(second, microsecond):
    return CLIENT_NAME, second, microsecond


class Started:
    """A server that was started in the folder of a lane. It is up, or has ended."""

    def __init__(self, lane, words):
        how = {"cwd": lane.folder, "env": lane.environment, "stdin": subprocess.DEVNULL}
        how |= {"stdout": subprocess.PIPE, "stderr": subprocess.PIPE, "bufsize": 0}
        words = f"serve --db database --udp 127.0.0.1:0 {words}".split()
        self.process = lane.trial.start(["kdcd", *words], **how)
        self.said = self.read()
        self.is_up, self.journal = IS_UP in self.said, lane.journal
        self.status, self.out, self.peer = None, "", None
        if self.is_up:
            self.address = re.search(rb"serving on udp (\S+)", self.said)[1].decode()
            self.peer = datagrams(self.address)
        else:
            self.end()

    def read(self):
        """What it says until it is up or has ended."""
        said, end = b"", time.monotonic() + PATIENCE
        while IS_UP not in said and time.monotonic() < end:
            if select.select([self.process.stderr], [], [], 1)[0]:
                more = os.read(self.process.stderr.fileno(), 65536)
                if not more:
                    break
                said += more
        return said

    @property
    def of_journal(self):
        """What it said of its journal."""
        return re.findall(rf"kdcd: journal {self.journal}: (.*)\n", self.said.decode(errors="replace"))

    def present(self, authenticators):
        """The answers to other requests with these authenticators, which are sent at once."""
        for each in authenticators:
            with contextlib.suppress(OSError):
                self.peer.send(request_of(each, OTHER))
        return [self.receive(self.peer, 5) for _ in authenticators]

    def buy(self, known):
        """The answer to a first request with this authenticator, from a port of its own. A reply that may be withheld
        is awaited for a moment."""
        with datagrams(self.address) as peer:
            peer.send(request_of(known, FIRST))
            return self.receive(peer, MOMENT)

    def receive(self, peer, seconds):
        """The next answer, unless none comes in this time or the server ends."""
        end, is_over = time.monotonic() + seconds * SLOWNESS, False
        peer.settimeout(BETWEEN_LOOKS)
        while True:
            with contextlib.suppress(OSError):
                return answer(peer.recv(65536))
            if is_over or time.monotonic() > end:
                return "none"
            is_over = self.process.poll() is not None

    def end(self):
        """Kills it, unless it has ended, and keeps its status and its output."""
        if self.status is not None:
            return
        if self.is_up:
            self.peer.close()
            self.process.kill()
        with contextlib.suppress(subprocess.TimeoutExpired):
            self.process.wait(None if self.is_up else PATIENCE)
        self.process.kill()
        self.status = self.process.wait()
        self.out, self.said = self.process.stdout.read().decode(), self.said + self.process.stderr.read()
        self.process.stdout.close()
        self.process.stderr.close()
        RUNNING.remove(self.process)


class Lane:
    """A folder with a stage, a small realm, and a journal, `run/journal` or another one. Lanes work side by side."""

    def __init__(self, trial, number=0, journal="run/journal"):
        self.trial, self.folder, self.journal = trial, trial.folder / f"lane{number}", journal
        for each in (self.folder, self.folder / "stage", self.folder / "run"):
            each.mkdir()
        (self.folder / "database").write_text(realm.database(REALM, realm.SERVICE, realm.TGS, realm.NEW_USER))
        self.environment = {name: value for name, value in trial.environment.items() if name != "CALLS"}
        self.environment |= {"UNSYNCED": "1"}
        self.clock = open(self.folder / "stage" / "CLOCK", "wb", 0)
        self.set("BOOT", "one")
        self.show(T)

    def set(self, what, text):
        """Sets what the system shows, or removes a setting."""
        path = self.folder / "stage" / what
        if text is None:
            path.unlink(missing_ok=True)
        else:
            path.write_text(f"{text}\n")

    def show(self, second):
        """Sets the clock. The line is written in place and has always the same length, so it is never read in part."""
        os.pwrite(self.clock.fileno(), b"%20d\n" % second, 0)

    def put(self, files):
        """Puts these files in place of those of the journal."""
        for end, octets in zip(ENDS, files):
            path = self.folder / f"{self.journal}{end}"
            if octets is None:
                path.unlink(missing_ok=True)
            else:
                path.write_bytes(octets)

    def files(self):
        """What the files of the journal have."""
        paths = [self.folder / f"{self.journal}{end}" for end in ENDS]
        return Files(*(path.read_bytes() if path.exists() else None for path in paths))

    def start(self, words=JOURNAL):
        """Starts a server with these options."""
        return Started(self, words)

    def calls(self):
        """The calls of the system on the journal's files since the list was emptied."""
        path = self.folder / "stage" / "calls"
        return path.read_text().splitlines() if path.exists() else []


class Outcome(typing.NamedTuple):
    """What a start on these files did: whether it came up, what it said of its journal, what was presented to it and
    sold once more, and what else is wrong."""

    is_up: bool
    said: str
    presented: int = 0
    sold: tuple = ()
    fault: str = ""


def present_again(lane, clocks, known, words=JOURNAL):
    """Starts a server with these options when the clock shows the first of these seconds, and presents all these
    authenticators to it in each of the seconds. Returns what it did."""
    lane.show(clocks[0])
    server = lane.start(words)
    if not server.is_up:
        return Outcome(False, f"status {server.status}", fault=plainly(server))
    found = []
    for second in clocks:
        lane.show(second)
        found += zip(server.present(known), [second] * len(known), known)
    server.end()
    sold = tuple((each[1:], second) for outcome, second, each in found if outcome == "ticket")
    odd = {outcome for outcome, *_ in found} - {"ticket", "34", "37"}
    said = " and ".join(server.of_journal)
    return Outcome(True, said, len(found), sold, f"other answers: {odd}" if odd else "")


def plainly(server):
    """What is wrong with the end of a server that does not come up: it has to say why in one plain line."""
    lines = server.said.decode(errors="replace").splitlines()
    is_plain = len(lines) == 1 and lines[0].startswith("kdcd: ") and re.fullmatch(r"refused \w+\n|failed\n", server.out)
    wanted = {"f": 3, "r": 1}.get(server.out[:1])
    if is_plain and server.status == wanted:
        return ""
    return f"it ends with status {server.status}, prints {server.out!r} and says {lines}"


def otherwise_than_asked(outcome, files, boot, at, left):
    """What is wrong, unless a start in this boot and second did with files what they ask for. `left` are those that it
    left."""
    if outcome.fault or outcome.is_up != are_journals(files):
        return outcome.fault or f"is it up? {outcome.is_up}"
    if not outcome.is_up:
        return "" if left == files else "it changed the files"
    wanted, found = resumed(files, OURS, boot), re.search(r"(?<!not )resumed with (\d+) authenticators", outcome.said)
    count = None if wanted is None else len(wanted)
    if (int(found[1]) if found else None) != count:
        return f"{outcome.said!r}, and not resumed with {count}"
    return otherwise_begun(left, begun_floor(files, OURS, boot, at))


def otherwise_begun(left, floor):
    """What is wrong, unless a start left a journal that was begun anew with this floor. None stands for one that goes
    on."""
    newer = left.newer and whole(left.newer)
    if floor is None or newer and newer.header.floor == floor and not newer.header.link and left.older is None:
        return ""
    found = newer and (newer.header.floor - T, newer.header.link, left.older)
    return f"it begins a journal with floor, link and older file {found}, and the floor is {floor - T}"
