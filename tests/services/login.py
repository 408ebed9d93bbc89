"""The example of a login by a password: at the realm's KDC, and at programs in its place that know the password but not
the key of the service, by which the login is verified. `Made` of the relay makes their replies. And what it says of the
reply of a service, the other example."""

import dataclasses
import re
import subprocess
import time

from harness.checks import differs
from harness.programs import LOGIN_EXAMPLE, SERVICE_EXAMPLE
from harness.relay import AS_REQ, Made, Relay
from harness.tests import test
from kclient.files import FILES, H, NO_KEY, V, keytab

NO_VERSION = "the keytab has no key of the service with the ticket's encryption type and version"
ANOTHER_KEY = (
    "the keytab's key does not decrypt the ticket: it is another key of the same version, or it is another KDC"
)
OTHER_TICKET = "the ticket has another client or session key than the KDC's reply: it is another KDC"
NOT_VALID = "the ticket is not valid now: the clocks may differ"
NO_SERVICE = "the keytab has no key of this realm, or the first one is the client's own"
# The keytabs. The first principal of one is the client, whose key verifies nothing.
KEYTABS = {
    "keys": keytab((b"h", 1, 18, H), (b"v", 2, 18, V)), "old": keytab((b"h", 1, 18, NO_KEY)),
    "later": keytab((b"h", 2, 18, H)),
    "own": keytab((b"v", 2, 18, V), (b"h", 1, 18, H)),
}
# A session key that is not that of the reply, and the flag INVALID (RFC 4120, section 5.3).
OTHER_SESSION, INVALID = b"n" * 32, 0x01000000
# What the KDC in its place says to the client, and then of the service `h`. It knows the password of `v`.
FIRST = Made(V)
OF_H = Made(FIRST.session, client=b"v", ticket_key=H)
# What the ticket of `h` is, and what comes of it.
TICKETS = {
    "encrypted with random bytes": (dataclasses.replace(OF_H, ticket_key=None), ANOTHER_KEY),
    "encrypted with the client's key": (dataclasses.replace(OF_H, ticket_key=V), ANOTHER_KEY),
    "encrypted with the session key": (dataclasses.replace(OF_H, ticket_key=FIRST.session), ANOTHER_KEY),
    "of a key version that the keytab lacks": (dataclasses.replace(OF_H, version=7), NO_VERSION),
    "one that the realm's KDC gave another client": (dataclasses.replace(OF_H, ticket_client=b"u"), OTHER_TICKET),
    "one with a session key that is unknown": (dataclasses.replace(OF_H, ticket_session=OTHER_SESSION), OTHER_TICKET),
    "one that has ended": (dataclasses.replace(OF_H, ticket_end=-301), NOT_VALID),
    "one that has to be validated": (dataclasses.replace(OF_H, flags=OF_H.flags | INVALID), NOT_VALID),
    "encrypted with the service's key": (OF_H, None),
}


def log_in(trial, what, words, given, wanted):
    """Logs in. It has to print this text, or, if that is None, the second in which a ticket ends, and an AP-REQ."""
    ran = trial.run(f"{LOGIN_EXAMPLE} {words}", given=given + "\n")
    got = re.fullmatch(r"(\d+)\n6e[0-9a-f]+\n", ran.out)
    is_well = got and int(got[1]) > time.time() if wanted is None else re.fullmatch(f"(?:{wanted})\n", ran.out)
    trial.note(what, ran.fault(0 if wanted is None else 1) or f"it prints {ran.out!r}" * (not is_well))


def make_realm(trial):
    trial.enter("realm")
    trial.write("pass", FILES["pass"])
    for name, octets in KEYTABS.items():
        trial.write(name, octets)
    for words in (
        "init --realm A.B",
        *(f"add --name {name} --password-file pass --types 18 --service" for name in ("u", "v", "h")),
        "policy --name v --field preauth --value false",
    ):
        trial.expect(f"kadm {words} --db database", 0, "=ok")


@test("kadm", "kdcd", LOGIN_EXAMPLE)
def at_the_realms_kdc(trial):
    """Logins at the realm's KDC."""
    make_realm(trial)
    server = trial.serve("--first")
    trial.configure(server.udp)
    log_in(trial, "the realm's KDC", "v h keys", "password", None)
    log_in(trial, "the realm's KDC, with preauthentication", "u h keys", "password", None)
    log_in(trial, "the realm's KDC, and another password", "u h keys", "passw0rd", rf"{server.udp}: error 24: .*")
    log_in(trial, "the realm's KDC, and a keytab with another key", "v h old", "password", f"h: {ANOTHER_KEY}")
    log_in(trial, "the realm's KDC, and a keytab without the key", "v h later", "password", f"h: {NO_VERSION}")
    log_in(
        trial, "the realm's KDC, and a keytab that begins with the client's key", "v h own", "password",
        f"v@A.B: {NO_SERVICE}"
    )
    log_in(
        trial, "the realm's KDC, and a service that it has not", "v nobody keys", "password",
        rf"{server.udp}: nobody: error 7: .*"
    )
    log_in(trial, "the realm's KDC, and a client with its realm", "v@A.B h keys", "password", None)
    log_in(
        trial, "the realm's KDC, and a realm that no KDC is known of", "v@C.D h keys", "password",
        r"\S*: C\.D: it has no kdc of this realm.*"
    )
    log_in(
        trial, "the realm's KDC, and a client whose name is none", "v//u h keys", "password",
        "v//u: it is not a valid name"
    )
    log_in(trial, "the realm's KDC, and no keytab", "v h nowhere", "password", "nowhere: .*")
    server.end()


class Presenting:
    """A login that presents its ticket to `h`, and waits for the reply."""

    def __init__(self, trial):
        pipes = {"stdin": subprocess.PIPE, "stdout": subprocess.PIPE, "text": True}
        self.process = trial.start([LOGIN_EXAMPLE, "v", "h", "keys"], **pipes)
        self.process.stdin.write("password\n")
        self.process.stdin.flush()
        self.ends, self.ap_req = (self.process.stdout.readline().strip() for _ in range(2))

    def take(self, line):
        """What it says of this reply, and its status."""
        said, _ = self.process.communicate(f"{line}\n", timeout=60)
        return said, self.process.returncode


REPLIED, NOT_OPENED = ("the service has replied\n", 0), ("the key does not open the reply\n", 1)
NO_REPLY = "the octets are no reply\n", 1


@test("kadm", "kdcd", LOGIN_EXAMPLE, SERVICE_EXAMPLE)
def to_a_service(trial):
    """The example of a login presents its ticket to the example of a service, and takes its reply and no other."""
    make_realm(trial)
    server = trial.serve("--first")
    trial.configure(server.udp)
    logins = [Presenting(trial) for _ in range(5)]
    ran = trial.run(f"{SERVICE_EXAMPLE} keys first", given="".join(f"{each.ap_req}\n" for each in logins))
    replies = re.findall(r"^accepted v@A\.B for h@?\S* .* ap-rep ([0-9a-f]+)$", ran.out, re.M)
    trial.note("the service accepts each", ran.fault(0) or differs(len(replies), len(logins)))
    changed = f"{replies[1][:-2]}{int(replies[1][-2:], 16) ^ 1:02x}"
    for what, login, line, wanted in (
        ("its reply", logins[0], replies[0], REPLIED),
        ("its reply with a bit changed", logins[1], changed, NOT_OPENED),
        ("the reply to another", logins[2], replies[3], NOT_OPENED),
        ("what it sent itself", logins[3], logins[3].ap_req, NO_REPLY),
        ("no digits", logins[4], "it is me", NO_REPLY),
    ):
        trial.note(what, differs(login.take(line), wanted))
    server.end()


@test("kadm", LOGIN_EXAMPLE)
def at_another_kdc(trial):
    """Logins at programs in the KDC's place."""
    make_realm(trial)
    relay = Relay("127.0.0.1", None)
    trial.configure(relay.first.address)
    for what, (of_h, wanted) in TICKETS.items():
        relay.begin(lambda message: (FIRST if message.octets[0] == AS_REQ else of_h)(message))
        log_in(trial, f"another KDC, and a ticket {what}", "v h keys", "password", wanted and f"h: {wanted}")
    relay.is_over = True
