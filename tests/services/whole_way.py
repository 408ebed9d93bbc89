"""A ticket's whole way through the programs, for each encryption type: `kadm` makes a realm, `kdcd serve` issues the
tickets, `kclient` gets them, MIT's library makes AP-REQs with them (`mk_req.c`), and the example of a service accepts
these. The service's lines about a ticket are compared with what MIT's library reads from it, and that library checks
the AP-REP."""

import calendar
import contextlib
import json
import os
import re
import subprocess
import threading
import time

from harness.checks import Differs, expect
from harness.kerberos import ap_req, authenticator, credentials, elements, fields, integer, opened, time_of
from harness.processes import PATIENCE, RUNNING, kill
from harness.programs import SERVICE_EXAMPLE
from harness.tests import test

TYPES = (17, 18, 19, 20)
SERVICE, OTHER = "imap/h", "imap/other"
# What the client asks the library for, besides the AP-REQ.
CHOICES = ((), ("mutual",), ("subkey", "mutual", "number", "checksum"))
CONFIGURATION = "[libdefaults]\ndefault_realm = A.B\nrdns = false\ndns_lookup_kdc = false\n"
# What a service says of a refusal, by its code.
TEXTS = {
    32: "KRB_AP_ERR_TKT_EXPIRED: the ticket has expired",
    34: "KRB_AP_ERR_REPEAT: the authenticator was seen before",
    35: "KRB_AP_ERR_NOT_US: the ticket is for another service",
    37: "KRB_AP_ERR_SKEW: the clocks differ too much, or the service was just restarted",
}
# What both print about a ticket. The library prints 0 for an absent time.
PRINTED = ("client", "session-key-type", "flags", "authtime", "starttime", "endtime", "renew-till")


class Place:
    """A folder with the files of a realm whose keys all have one type."""

    def __init__(self, programs, folder):
        self.programs, self.folder = programs, folder
        # The program that makes AP-REQs.
        self.requests = Request if programs.get("mk_req") else OwnRequest

    def path(self, name):
        return os.path.join(self.folder, name)

    def write(self, name, octets):
        with open(self.path(name), "wb") as file:
            file.write(octets)
        return self.path(name)

    def seed(self):
        return self.write("seed", os.urandom(32))

    def run(self, program, *words):
        """Runs a program, which must succeed, and returns what it prints."""
        ran = subprocess.run([self.programs[program], *words], capture_output=True, text=True, timeout=PATIENCE)
        expect(f"the status of {program} {' '.join(words)} ({ran.stdout}{ran.stderr})", ran.returncode, 0)
        return ran.stdout

    def kadm(self, sub, *words):
        return self.run("kadm", sub, "--db", self.path("database"), *words)

    def make_realm(self, etype):
        self.etype = etype
        password = self.write("password", b"secret\n")
        expect("init", self.kadm("init", "--realm", "A.B", "--seed", self.seed()), "ok\n")
        expect("add", self.kadm("add", "--name", "u", "--password-file", password), "ok\n")
        for service in (SERVICE, OTHER):
            expect("random", self.kadm("random", "--name", service, "--seed", self.seed()), "ok\n")
        self.keep_type(etype)
        names = (SERVICE, OTHER, "krbtgt/A.B", "u")
        expect("list", self.kadm("list"), "".join(f"{name} 1 {etype}\n" for name in names))
        for service, keytab in ((SERVICE, "keytab"), (OTHER, "other.keytab")):
            expect("keytab", self.kadm("keytab", "--name", service, "--out", self.path(keytab)), "ok\n")

    def keep_type(self, etype):
        """Removes the keys of all other types from the database."""
        with open(self.path("database")) as file:
            database = json.load(file)
        for row in database["principals"].values():
            for version in row["keys"]:
                version["keys"] = [key for key in version["keys"] if key["etype"] == etype]
        self.write("database", json.dumps(database).encode())

    def get_tickets(self, kdc):
        common = ("--kdc", kdc, "--cache", self.path("cache"))
        words = ("--realm", "A.B", "--name", "u", "--password-file", self.path("password"), "--renewable")
        expect("kinit", self.run("kclient", "kinit", *common, *words, "--seed", self.seed()), "ok\n")
        for service in (SERVICE, OTHER):
            printed = self.run("kclient", "kvno", *common, "--name", service, "--seed", self.seed())
            expect("kvno", printed, f"{service} kvno 1\n")


@contextlib.contextmanager
def in_time(process):
    """Kills a program that is not done in its time, which is an error."""
    late = threading.Event()
    timer = threading.Timer(PATIENCE, lambda: (late.set(), kill(process)))
    timer.start()
    try:
        yield
    finally:
        timer.cancel()
    if late.is_set():
        raise Differs(
            f"{os.path.basename(process.args[0])} says nothing more, and does not end, for {PATIENCE:.0f} seconds"
        )


class Lines:
    """A program that gets one line after another, and has to answer each in its time."""

    def __init__(self, *words, environment=None, errors=False):
        """With `errors`, text on standard error is an error."""
        self.process = subprocess.Popen(
            words,
            stdin=subprocess.PIPE,
            stdout=subprocess.PIPE,
            stderr=subprocess.PIPE if errors else None,
            text=True,
            env=environment,
        )
        RUNNING.append(self.process)

    def send(self, line):
        self.process.stdin.write(line + "\n")
        self.process.stdin.flush()

    def line(self):
        with in_time(self.process):
            return self.process.stdout.readline().rstrip("\n")

    def ask(self, line):
        self.send(line)
        return self.line()

    def end(self):
        self.process.stdin.close()
        self.process.stdout.close()
        with in_time(self.process):
            said = self.process.stderr.read() if self.process.stderr else ""
            status = self.process.wait()
        expect(f"the status at the end ({said})", status, 0)
        expect("what it said on standard error", said, "")


class Kdc:
    def __init__(self, place):
        words = [place.programs["kdcd"], "serve", "--db", place.path("database"), "--seed", place.seed(), "--first"]
        words += ["--udp", "127.0.0.1:0", "--tcp", "127.0.0.1:0"]
        self.process = subprocess.Popen(words, stdout=subprocess.DEVNULL, stderr=subprocess.PIPE, text=True)
        RUNNING.append(self.process)
        with in_time(self.process):
            found = next(
                filter(None, (re.search(r"udp (\S+:\d+) and tcp", line) for line in self.process.stderr)), None
            )
        if not found:
            raise Differs("kdcd does not serve")
        self.address = found[1]

    def end(self):
        kill(self.process)


class OwnRequest:
    """An AP-REQ of type 18 by `kerberos.py`, and what that reads from the ticket with the service's key."""

    def __init__(self, place, service, _keytab, choice):
        with open(place.path("cache"), "rb") as cache:
            found = {b"/".join(parts).decode(): (key, ticket) for parts, key, ticket in credentials(cache.read())}
        self.key, ticket = found[service]
        with open(place.path("database")) as file:
            key = json.load(file)["principals"][service]["keys"][0]["keys"][0]["key"]
        sealed = elements(fields(fields(elements(ticket)[0][1])[3])[2])[0][1]
        part = fields(elements(opened(bytes.fromhex(key), 2, sealed))[0][1])
        moment = lambda text: calendar.timegm(time.strptime(elements(text)[0][1].decode(), "%Y%m%d%H%M%SZ"))
        seconds = lambda number: str(moment(part[number]) if number in part else 0)
        times = {word: seconds(number) for word, number in zip(PRINTED[3:], (5, 6, 7, 8))}
        flags = elements(part[0])[0][1][1:].hex()
        self.read = {"client": "u@A.B", "session-key-type": "18", "flags": flags, **times}
        self.at = int(time.time()), int.from_bytes(os.urandom(2), "big")
        options = b"\x20\0\0\0" if "mutual" in choice else bytes(4)
        self.digits = ap_req(ticket, self.key, 11, authenticator(b"A.B", b"u", *self.at), options).hex()

    def take(self, ap_rep):
        sealed = elements(fields(fields(elements(bytes.fromhex(ap_rep))[0][1])[2])[2])[0][1]
        part = fields(elements(opened(self.key, 12, sealed))[0][1])
        expect("the time in the AP-REP", part[0], time_of(self.at[0]))
        expect("the microseconds in the AP-REP", part[1], integer(self.at[1]))

    def end(self):
        """Does nothing, since no process runs."""


class Request:
    """An AP-REQ by MIT's library, and what it reads from the ticket with the service's keytab."""

    def __init__(self, place, service, keytab, choice):
        environment = {
            **os.environ,
            "KRB5_CONFIG": place.write("krb5.conf", CONFIGURATION.encode()),
            "KRB5CCNAME": "FILE:" + place.path("cache"),
            "KRB5_KTNAME": "FILE:" + place.path(keytab),
        }
        self.maker = Lines(place.programs["mk_req"], f"{service}@A.B", *choice, environment=environment)
        self.read = {}
        while "renew-till" not in self.read:
            word, _, value = self.maker.line().partition(" ")
            if not word:
                raise Differs("mk_req made no AP-REQ")
            self.read[word] = value
        self.digits = self.read["ap-req"]

    def take(self, ap_rep):
        expect("the AP-REP", self.maker.ask(ap_rep), "the AP-REP is taken")

    def end(self):
        self.maker.end()


def refused(code, service, place):
    """The line for an AP-REQ that is refused."""
    return f"refused {code} {TEXTS[code]}: for {service}@A.B, key type {place.etype}"


def contents(answer):
    """The contents that the service prints for an AP-REQ that it accepts."""
    words = answer.split(" ")
    expect(f"the answer ({answer})", words[0], "accepted")
    return {"client": words[1], **dict(zip(words[2::2], words[3::2]))}


def present(place, service, choice):
    """Presents a ticket that is accepted, and then the same AP-REQ again."""
    request = place.requests(place, SERVICE, "keytab", choice)
    accepted = contents(service.ask(request.digits))
    for word in PRINTED:
        expect(word, accepted.get(word, "0"), request.read[word])
    expect("an AP-REP", "ap-rep" in accepted, "mutual" in choice)
    if "mutual" in choice:
        request.take(accepted["ap-rep"])
    expect("the service", accepted["for"], SERVICE)
    expect("the same again", service.ask(request.digits), refused(34, SERVICE, place))
    request.end()
    return accepted


def refuse(place, service, name, keytab, answer):
    request = place.requests(place, name, keytab, ())
    expect(f"a ticket for {name}", service.ask(request.digits), answer)
    expect("an AP-REQ that is cut", service.ask(request.digits[:-2]), "not an AP-REQ")
    request.end()


def go_on(place):
    """Ends services by the end of their input. Each goes on with what the one before saved: it accepts a client at
    once, and refuses what that one accepted. The file is gone while one runs. One whose file is damaged refuses all."""
    saved, requests = place.path("saved"), [place.requests(place, SERVICE, "keytab", ()) for _ in range(3)]
    words = [place.programs[SERVICE_EXAMPLE], place.path("keytab")]
    service = Lines(*words, "first", "save", saved)
    expect("a new one", service.ask(requests[0].digits).split(" ")[0], "accepted")
    service.end()
    expect("who may read what is saved", os.stat(saved).st_mode & 0o777, 0o600)
    service = Lines(*words, "save", saved)
    expect("one after it", service.ask(requests[1].digits).split(" ")[0], "accepted")
    expect("whether the file is there", os.path.exists(saved), False)
    expect("the first again", service.ask(requests[0].digits), refused(34, SERVICE, place))
    service.end()
    with open(saved, "r+b") as file:
        file.write(b"damaged")
    service = Lines(*words, "save", saved)
    expect("one after damage", service.ask(requests[2].digits), refused(37, SERVICE, place))
    service.end()
    for request in requests:
        request.end()


def go(trial, programs, etype):
    """Presents AP-REQs that are accepted, and refused when they come again. An AP-REQ for another service, one that is
    cut and one after a restart are refused too."""
    trial.enter(f"type{etype}")
    place = Place(programs, trial.folder)
    place.make_realm(etype)
    kdc = Kdc(place)
    place.get_tickets(kdc.address)
    kdc.end()
    service = Lines(place.programs[SERVICE_EXAMPLE], place.path("keytab"), "first")
    for choice in CHOICES if place.requests is Request else CHOICES[:2]:
        accepted = present(place, service, choice)
        expect("the client", accepted["client"], "u@A.B")
        expect("the session key's type", accepted["session-key-type"], str(etype))
    refuse(place, service, OTHER, "other.keytab", refused(35, OTHER, place))
    service.end()
    restarted = Lines(place.programs[SERVICE_EXAMPLE], place.path("keytab"))
    refuse(place, restarted, SERVICE, "keytab", refused(37, SERVICE, place))
    restarted.end()
    go_on(place)


PROGRAMS = ("kadm", "kdcd", "kclient", SERVICE_EXAMPLE)


@test(*PROGRAMS, seconds=5)
def by_python(trial):
    """Tickets of type 18, with AP-REQs in Python."""
    trial.check(f"the whole way to {SERVICE_EXAMPLE} with type 18", go, trial, {**trial.programs, "mk_req": None}, 18)


@test(*PROGRAMS, needs=("krb5",), seconds=10)
def by_mit(trial):
    """Tickets of each type, with AP-REQs of MIT's library."""
    for etype in TYPES:
        programs = {**trial.programs, "mk_req": trial.given.made["mk_req"]}
        trial.check(f"the whole way to {SERVICE_EXAMPLE} with type {etype}", go, trial, programs, etype)
