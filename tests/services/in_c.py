"""Services in C (`ap_service.c`) in a realm of this repository, for each encryption type: `kadm` makes the realm and
the keytab, `kdcd serve` issues the tickets, MIT's `kinit` logs in, and `ap_client.c` presents tickets by MIT's library.
`ap_judged.c` tries what the header says about bad calls and about accepted AP-REQs, with an AP-REQ from `mk_req.c`;
`ap_sealed.c` that MIT's library opens what is sealed here, and the other way.
These programs are compiled as

    cc -g -fsanitize=address,undefined -I docs -o NAME tests/services/NAME.c \\
        crates/ap_accept_c/out/libap_accept.a
    cc -o NAME tests/services/NAME.c -lkrb5

A check says `ok`, the first answer that differs, or what a sanitizer found."""

import contextlib
import os
import re
import socket
import subprocess
import time

from harness.checks import Differs, expect
from harness.kerberos import elements, fields, general_string, integer, sequence
from harness.processes import PATIENCE, SLOWNESS
from harness.tests import test
from harness.wire import free_port
from services.whole_way import OTHER, SERVICE, TEXTS, TYPES, Kdc, Lines, OwnRequest, Place

# The lifetime of a ticket that is presented past its end, and the clock skew that a service allows.
SHORT_LIFE, LENIENCE = 20, 300
TAKEN, GOOD, CLOSED = "taken, with no AP-REP", "taken, and the AP-REP is good", "closed"
# What MIT's library says of a code (`krb5_get_error_message`).
TOO_FAR, NOT_FOR_US = "Clock skew too great", "The ticket isn't for us"


def refused(code, rule, service=SERVICE):
    """The line that the service prints for a client that it refuses, as a pattern for any type of the service's key."""
    return re.escape(f"refused {code} {rule}: {TEXTS[code]}: key version 1, type TYPE for {service}@A.B")


EXPIRED, REPEAT, SKEW = refused(32, "ticket-expired"), refused(34, "repeated"), refused(37, "skewed")
NOT_US = refused(35, "not-for-us", OTHER)
NO_AP_REQ = re.escape("refused -1: the bytes do not encode an AP-REQ")


def accepted(subkey=0, rest="", service=SERVICE):
    """The line that the service prints for a client that it accepts, as a pattern for any type of the session key."""
    return (
        rf"u@A\.B for {service}@A\.B until \d+, key type TYPE, subkey type {subkey}, flags [0-9a-f]{{8}}{rest}"
    )


# A number, and the checksum of the text 'checksum', with the type and length for the key's type.
TOLD = r", number \d+, checksum of type \d+ and \d+ octets of 'checksum'"
# The client's arguments, what it prints for each connection, and what the service prints.
NEW = (
    ((), (TAKEN,), (accepted(),)),
    (("mutual",), (GOOD,), (accepted(rest=", asks for a reply"),)),
    (("subkey", "number", "checksum"), (TAKEN,), (accepted("TYPE", TOLD),)),
    (("mutual", "subkey", "number", "checksum"), (GOOD,), (accepted("TYPE", TOLD + ", asks for a reply"),)),
    (("sendauth",), (TAKEN,), (accepted(rest=r".*"),)),
    (("sendauth", "mutual", "subkey"), (GOOD,), (accepted("TYPE", r".*, asks for a reply"),)),
    (("repeat",), (TAKEN, CLOSED), (accepted(), REPEAT)),
    (("repeat", "mutual"), (GOOD, CLOSED), (accepted(rest=", asks for a reply"), REPEAT)),
    (("none",), (CLOSED,), (NO_AP_REQ,)),
    (("cut",), (CLOSED,), (NO_AP_REQ,)),
    (("skew=400",), (CLOSED,), (SKEW,)),
    (("skew=400", "sendauth"), (f"refused by {SERVICE}@A.B: {TOO_FAR}",), (SKEW,)),
)
OLD = ((("old", "repeat"), (CLOSED, CLOSED), (EXPIRED, REPEAT)),)
FOREIGN = (
    ((), (CLOSED,), (NOT_US,)),
    (("sendauth",), (f"refused by {OTHER}@A.B: {NOT_FOR_US}",), (NOT_US,)),
)
RESTARTED = (((), (CLOSED,), (SKEW,)),)
# A service with the keys of both services, that accepts for one of them alone.
ITS_OWN = (((), (TAKEN,), (accepted(),)),)


def connections(*lists):
    return sum(len(says) for tries in lists for _, says, _ in tries)


class Way:
    """A realm of one type, a client that has logged in, and a service."""

    def __init__(self, programs, folder, etype):
        self.place, self.etype, self.port = Place(programs, folder), etype, None
        self.place.make_realm(etype)
        self.kdc = Kdc(self.place)
        realms = f"[realms]\nA.B = {{\nkdc = {self.kdc.address}\n}}\n"
        self.place.write("krb5.conf", f"[libdefaults]\ndefault_realm = A.B\nrdns = false\n{realms}".encode())

    def environment(self, cache):
        return {
            **os.environ,
            "KRB5_CONFIG": self.place.path("krb5.conf"),
            "KRB5CCNAME": "FILE:" + self.place.path(cache),
        }

    def log_in(self, cache, *words):
        kinit = [self.place.programs["kinit"], *words, "u@A.B"]
        ran = subprocess.run(
            kinit, input="secret\n", capture_output=True, text=True, env=self.environment(cache), timeout=PATIENCE
        )
        expect(f"the status of kinit ({ran.stderr})", ran.returncode, 0)

    def start(self, count, *words, keytab="keytab"):
        self.port = str(free_port())
        words = [self.place.path(keytab), self.port, *words, str(count)]
        self.service = Lines(self.place.programs["ap_service"], *words, errors=True)

    def client(self, cache, service, words):
        """Runs a client, and returns what it prints. Tries again if the service doesn't listen yet."""
        command = [self.place.programs["ap_client"], self.port, f"{service}@A.B", *words]
        for _ in range(100):
            ran = subprocess.run(command, capture_output=True, text=True, env=self.environment(cache), timeout=PATIENCE)
            if "no connection" not in ran.stdout:
                return ran.stdout
            time.sleep(0.1)
        return "no connection"

    def present(self, cache, service, tries):
        for words, says, lines in tries:
            wanted = f"ticket of type {self.etype}: " + "\n".join(says) + "\n"
            expect(f"type {self.etype}, the client with {words}", self.client(cache, service, words), wanted)
            for line in lines:
                found, pattern = self.service.line(), line.replace("TYPE", str(self.etype))
                if not re.fullmatch(pattern, found):
                    expect(f"type {self.etype}, the service with {words}", found, pattern)

    def judge(self):
        """Tries what the header says about bad calls and about an accepted AP-REQ. A line reports each answer that
        differs."""
        environment = {**self.environment("cache"), "KRB5_KTNAME": "FILE:" + self.place.path("keytab")}
        mk_req = [self.place.programs["mk_req"], f"{SERVICE}@A.B"]
        made = subprocess.run(
            mk_req, stdin=subprocess.DEVNULL, capture_output=True, text=True, env=environment, timeout=PATIENCE
        )
        digits = re.search(r"^ap-req ([0-9a-f]+)$", made.stdout, re.MULTILINE)
        if not digits:
            expect(f"type {self.etype}, what mk_req makes ({made.stderr})", made.stdout, "an AP-REQ")
        ap_judged = [self.place.programs["ap_judged"], self.place.path("keytab"), digits[1]]
        ran = subprocess.run(ap_judged, capture_output=True, text=True, timeout=PATIENCE)
        expect(f"type {self.etype}, ap_judged", (ran.returncode, ran.stdout, ran.stderr), (0, "0 failed\n", ""))

    def begin(self, old):
        """Starts the service. `old` says how a ticket past its end is presented, if it is."""
        self.log_in("cache")
        self.log_in("old", "-l", f"{SHORT_LIFE}s")
        self.judge()
        self.start(connections(NEW, FOREIGN, old) + 1, "first")
        self.present("old", SERVICE, NEW[:1])
        self.ended = time.time() + SHORT_LIFE + LENIENCE
        self.present("cache", SERVICE, NEW)
        self.present("cache", OTHER, FOREIGN)

    def finish(self, old):
        self.present("old", SERVICE, old)
        self.service.end()
        self.start(connections(RESTARTED))
        self.present("cache", SERVICE, RESTARTED)
        self.service.end()
        both_keytabs(self.place)
        self.start(connections(ITS_OWN, FOREIGN), "first", f"for={SERVICE}", keytab="both.keytab")
        self.present("cache", SERVICE, ITS_OWN)
        self.present("cache", OTHER, FOREIGN)
        self.service.end()
        self.kdc.end()


def both_keytabs(place):
    """Writes a keytab with the keys of both services: what follows a keytab's first two bytes are its entries."""
    parts = []
    for name in ("keytab", "other.keytab"):
        with open(place.path(name), "rb") as file:
            parts.append(file.read())
    place.write("both.keytab", parts[0] + parts[1][2:])


def programs_of(trial):
    return {**trial.programs, **trial.given.made, "kinit": "kinit"}


def go(trial, old):
    """Tries services of each type, and a ticket past its end if `old` says how it is presented."""
    ways = []
    for etype in TYPES:
        trial.enter(f"type{etype}")
        begin = lambda: ways.append(begun(programs_of(trial), trial.folder, etype, old))
        trial.check(f"the service in C with type {etype}: judges, new tickets", begin)
    time.sleep(max([0, *[way.ended + 2 - time.time() for way in ways if old]]))
    for way in ways:
        rest = "a ticket past its end, " * bool(old) + "a restart, one for one name"
        trial.check(f"the service in C with type {way.etype}: {rest}", way.finish, old)


@test("kadm", "kdcd", "kclient", needs=("krb5", "kinit", "services_in_c"), seconds=120)
def by_mit(trial):
    """Services of each type, with tickets by MIT's `kinit` and AP-REQs by MIT's library."""
    go(trial, ())


@test("kadm", "kdcd", "kclient", needs=("krb5", "kinit", "services_in_c"), seconds=400, is_slow=True)
def by_mit_past_its_end(trial):
    """The same, and a ticket that is past its end, which takes six minutes."""
    go(trial, OLD)


@test(needs=("both_in_c",), seconds=10)
def sealing(trial):
    """What the library for C seals, MIT's opens, and the other way, for each type; checksums likewise."""
    trial.enter("sealing")
    ran = subprocess.run([trial.given.made["ap_sealed"]], capture_output=True, text=True, timeout=PATIENCE)
    trial.same("ap_sealed", (ran.returncode, ran.stdout, ran.stderr), (0, "0 failed\n", ""))


@test("kadm", "kdcd", "kclient", needs=("services_in_c",), seconds=60)
def by_python(trial):
    """A service of type 18, with AP-REQs in Python."""
    trial.enter("realm")
    trial.check("the service in C with type 18, without MIT's library", without_mit, programs_of(trial), trial.folder)


def without_mit(programs, folder):
    """Tries type 18 only, with tickets by `kclient` and AP-REQs in Python: `ap_judged`, two clients of the service,
    where one asks for a reply, and the same AP-REQ again."""
    place = Place({**programs, "mk_req": None}, folder)
    place.make_realm(18)
    kdc = Kdc(place)
    place.get_tickets(kdc.address)
    kdc.end()
    words = [programs["ap_judged"], place.path("keytab"), OwnRequest(place, SERVICE, None, ()).digits]
    judged = subprocess.run(words, capture_output=True, text=True, timeout=PATIENCE)
    expect("ap_judged", (judged.returncode, judged.stdout, judged.stderr), (0, "0 failed\n", ""))
    port, requests = free_port(), [OwnRequest(place, SERVICE, None, choice) for choice in ((), ("mutual",))]
    service = Lines(programs["ap_service"], place.path("keytab"), str(port), "first", "4", errors=True)
    for request, rest in zip([*requests, requests[0]], ("", ", asks for a reply", None)):
        reply = asked(port, bytes.fromhex(request.digits))
        line = service.line()
        pattern = (REPEAT if rest is None else accepted(rest=rest)).replace("TYPE", "18")
        expect(f"what the service says, {line!r}", bool(re.fullmatch(pattern, line)), True)
        if rest:
            request.take(reply.hex())
        else:
            expect("the reply", reply, b"")
    took = dripped(port)
    expect("what the service says of a peer that sends a byte every half second", service.line(), "no message")
    expect(f"{took:.1f} seconds of such a peer, where 10 are due", 9.9 <= took <= 11 + 2 * SLOWNESS, True)
    service.end()
    goes_on(programs, place)
    sends_errors(programs, place)


def goes_on(programs, place):
    """Ends services by SIGTERM. Each goes on with what the one before saved: it accepts a client at once, and refuses
    what that one accepted. One whose file is damaged refuses everybody."""
    saved, requests = place.path("saved"), [OwnRequest(place, SERVICE, None, ()).digits for _ in range(3)]
    seen = accepted().replace("TYPE", "18")
    ends_after(programs, place, ["first"], [(requests[0], seen)])
    expect("who may read what is saved", os.stat(saved).st_mode & 0o777, 0o600)
    ends_after(programs, place, [], [(requests[1], seen), (requests[0], REPEAT.replace("TYPE", "18"))])
    with open(saved, "r+b") as file:
        file.write(b"damaged")
    ends_after(programs, place, [], [(requests[2], SKEW.replace("TYPE", "18"))])


def ends_after(programs, place, words, turns):
    """Runs a service, tries requests, each with a pattern for what it then says, and ends the service by SIGTERM."""
    port, saved = free_port(), place.path("saved")
    words = [programs["ap_service"], place.path("keytab"), str(port), *words, f"save={saved}"]
    service = Lines(*words, errors=True)
    for digits, pattern in turns:
        asked(port, bytes.fromhex(digits))
        line = service.line()
        expect(f"what the service says, {line!r}", bool(re.fullmatch(pattern, line)), True)
        expect("whether the file is there while the service runs", os.path.exists(saved), False)
    service.process.terminate()
    service.end()


def connected(port):
    """A connection. Tries again if the service doesn't listen yet."""
    for _ in range(100):
        try:
            return socket.create_connection(("127.0.0.1", port), 10)
        except ConnectionRefusedError:
            time.sleep(0.1)
    raise Differs("the service does not listen")


def sent(peer, stream, message):
    """The reply to a message, or nothing if the connection is closed."""
    peer.sendall(len(message).to_bytes(4, "big") + message)
    return stream.read(int.from_bytes(stream.read(4), "big"))


def asked(port, request):
    """The same on a connection of its own."""
    with connected(port) as peer, peer.makefile("rb") as stream:
        return sent(peer, stream, request)


def sends_errors(programs, place):
    """A client that speaks as `krb5_sendauth` gets a KRB-ERROR where it is refused (RFC 4120, section 5.9.1)."""
    port, request = free_port(), bytes.fromhex(OwnRequest(place, SERVICE, None, ()).digits)
    service = Lines(programs["ap_service"], place.path("keytab"), str(port), "first", "2", errors=True)
    expect("the reply to the AP-REQ", asked(port, request), b"")
    with connected(port) as peer, peer.makefile("rb") as stream:
        for text in (b"KRB5_SENDAUTH_V1.0\0", b"by python\0"):
            peer.sendall(len(text).to_bytes(4, "big") + text)
        expect("that the service goes on", stream.read(1), b"\0")
        tag, text = elements(sent(peer, stream, request))[0]
    part = fields(text)
    expect("the tag", tag, 0x7E)
    expect("the fields", sorted(part), [0, 1, 4, 5, 6, 9, 10])
    wanted = [integer(number) for number in (5, 30, 34)]
    expect("the version, the type and the code", [part[place] for place in (0, 1, 6)], wanted)
    expect("the realm", part[9], general_string(b"A.B"))
    components = [general_string(component) for component in SERVICE.encode().split(b"/")]
    expect("the service", fields(part[10])[1], sequence(*components))
    service.end()


def dripped(port):
    """The seconds until the service closes a connection whose peer sends a byte every half second."""
    begun = time.monotonic()
    with contextlib.suppress(ConnectionError), socket.create_connection(("127.0.0.1", port), 10) as peer:
        peer.settimeout(0.5)
        peer.sendall((1000).to_bytes(4, "big"))
        is_open = True
        while is_open and time.monotonic() < begun + PATIENCE:
            peer.sendall(b"n")
            with contextlib.suppress(TimeoutError):
                is_open = peer.recv(1) != b""
    return time.monotonic() - begun


def begun(programs, folder, etype, old):
    way = Way(programs, folder, etype)
    way.begin(old)
    return way
