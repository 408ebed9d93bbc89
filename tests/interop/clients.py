"""`kclient` against `kdcd serve`, MIT's `krb5kdc` and Heimdal's `kdc`: clients with keys of all four types and of each
type, with and without preauthentication, over UDP and TCP, and tickets for services likewise. The stock tools then read
the caches and get tickets with them, and the other way round."""

import os
import subprocess

from harness.checks import Notes
from harness.processes import PATIENCE
from harness.programs import LOGIN_EXAMPLE
from harness.stock_kdcs import heimdal, kdcd, keytab, mit, Principal, unpacked
from harness.tests import test
from harness.wire import free_port

REALM = "A.B"
PASSWORD = "a password"
EACH = {"": (18, 17, 20, 19), "18": (18,), "17": (17,), "20": (20,), "19": (19,)}
PRINCIPALS = [
    *[Principal(f"u{end}", PASSWORD, True, types) for end, types in EACH.items()],
    *[Principal(f"v{end}", PASSWORD, False, types) for end, types in EACH.items()],
    *[Principal(f"h{end}", None, False, types) for end, types in EACH.items()],
]
CLIENTS = [each.name for each in PRINCIPALS if each.password]
# Heimdal's KDC sends these a reply that no password decrypts (docs/CLIENT.md, 'Trying it').
UNOPENED = {"heimdal": ("v19", "v20")}
SERVICES = [each.name for each in PRINCIPALS if not each.password]


class Clients(Notes):
    """Commands against one KDC."""

    def __init__(self, trial, name, folder, kdc, keytab):
        super().__init__()
        self.roots, self.name, self.folder, self.kdc = trial.given.roots, name, folder, kdc
        self.clients = [each for each in CLIENTS if each not in UNOPENED.get(name, ())]
        self.password = self.write("pw", PASSWORD + "\n")
        self.kclient, self.example, self.keytab = trial.programs["kclient"], trial.programs[LOGIN_EXAMPLE], keytab
        self.configuration = self.write("client.conf", f"""
[libdefaults]
    default_realm = {REALM}
    dns_lookup_kdc = false
    rdns = false
[realms]
    {REALM} = {{
        kdc = {kdc.address}
    }}
""")

    def write(self, name, text):
        file = self.folder / name
        file.write_text(text)
        return str(file)

    def expect(self, words, wanted, status=0, environment=None, given=None):
        """Runs a command, which has to print each of these texts and end with this status."""
        shown = " ".join(os.path.basename(each) if "/" in each[:1] else each for each in words)
        try:
            ran = subprocess.run(words, env=environment, input=given, capture_output=True, text=True, timeout=PATIENCE)
        except (OSError, subprocess.TimeoutExpired) as fault:
            self.note(f"{self.name}: {shown}", str(fault))
            return
        said = ran.stdout + ran.stderr
        is_well = ran.returncode == status and all(each in said for each in wanted)
        fault = "" if is_well else f"status {ran.returncode}, and not {status} with {wanted}: {said.strip()}"
        self.note(f"{self.name}: {shown}", fault)

    def kinit(self, name, *more, wanted=("ok",), status=0, cache="cc"):
        words = ["kinit", "--kdc", self.kdc.address, "--realm", REALM, "--name", name, "--password-file", self.password]
        self.expect([self.kclient, *words, "--cache", str(self.folder / cache), *more], wanted, status)

    def kvno(self, services, *more, cache="cc"):
        names = [word for each in services for word in ("--name", each)]
        wanted = [f"{each} kvno 1" for each in services]
        self.expect(
            [self.kclient, "kvno", "--kdc", self.kdc.address, "--cache", str(self.folder / cache), *names, *more],
            wanted
        )

    def go(self):
        for way in ((), ("--tcp",)):
            for name in self.clients:
                self.kinit(name, *way)
                self.kvno(SERVICES, *way)
                self.expect(
                    [self.kclient, "klist", "--cache", str(self.folder / "cc")], [f"principal {name}@{REALM}", "h20@"]
                )
        self.kinit("u", "--life", "3600", "--renewable", "--forwardable")
        # a login, and a ticket, that the service's keytab verifies
        words = [
            self.kclient, "kvno", "--kdc", self.kdc.address, "--cache", str(self.folder / "cc"), "--name", "h",
            "--keytab", self.keytab
        ]
        self.expect(words, ["h kvno 1, keytab entry valid"])
        environment = {**os.environ, "KRB5_CONFIG": self.configuration}
        for name in self.clients:
            self.expect([self.example, name, "h", self.keytab], [], environment=environment, given=PASSWORD + "\n")
        self.kinit("nobody", wanted=("refused 6",), status=1, cache="none")
        self.write("pw", "another password\n")
        self.kinit("u", wanted=("refused 24",), status=1, cache="none")
        self.kinit("v", wanted=("refused CannotOpen",), status=1, cache="none")
        self.write("pw", PASSWORD + "\n")
        left = (self.folder / "none").exists()
        self.note(f"{self.name}: a refused kinit leaves no cache", "it left one" if left else "")
        for stock, go in (("mit", self.mit), ("heimdal", self.heimdal)):
            if root := self.roots.get(stock):
                go({**unpacked(root), "KRB5_CONFIG": self.configuration})
            else:
                self.leave(f"the clients of {stock}")

    def mit(self, known):
        ours, theirs = ({**known, "KRB5CCNAME": f"FILE:{self.folder}/{name}"} for name in ("cc", "stock"))
        self.kinit("u")
        self.expect(["kvno", *SERVICES], [f"{each}@{REALM}: kvno = 1" for each in SERVICES], environment=ours)
        self.expect(["klist", "-ef"], [f"{each}@{REALM}" for each in ("u", *SERVICES)], environment=ours)
        self.kvno(SERVICES)
        for name in self.clients:
            self.expect(["kinit", name], [], environment=theirs, given=PASSWORD + "\n")
            self.kvno(SERVICES, cache="stock")
            self.expect(["klist", "-ef"], [f"{each}@{REALM}" for each in (name, *SERVICES)], environment=theirs)

    def heimdal(self, known):
        cache, stock = f"--cache=FILE:{self.folder}/cc", f"--cache=FILE:{self.folder}/stock"
        self.kinit("u")
        for each in SERVICES:
            self.expect(["kgetcred", cache, each], [], environment=known)
        self.expect(
            ["heimtools", "klist", "-v", cache], [f"{each}@{REALM}" for each in ("u", *SERVICES)], environment=known
        )
        self.kvno(SERVICES)
        for name in self.clients:
            words = ["kinit.heimdal", f"--password-file={self.password}", stock, f"{name}@{REALM}"]
            self.expect(words, [], environment=known)
            self.kvno(SERVICES, cache="stock")


def go(trial, name, start, root):
    """Starts a KDC, and tries clients against it."""
    folders = []
    for kind in ("server", "client"):
        trial.enter(kind)
        folders.append(trial.folder)
    server = start(root, folders[0], REALM, PRINCIPALS, free_port())
    clients = Clients(trial, name, folders[1], server, keytab(name, root, folders[0], "h"))
    clients.go()
    if name in UNOPENED:
        trial.leave(f"{' and '.join(UNOPENED[name])} at the KDC of {name}, whose reply to them no password opens")
    server.end()
    trial.add(clients)


PROGRAMS = ("kadm", "kdcd", "kclient", LOGIN_EXAMPLE)


@test(*PROGRAMS, seconds=40, uses_stock=True)
def at_kdcd(trial):
    """Clients at `kdcd serve`."""
    go(trial, "kdcd", kdcd, trial.given.programs)


@test(*PROGRAMS, needs=("mit",), seconds=40)
def at_mit(trial):
    """Clients at MIT's `krb5kdc`."""
    go(trial, "mit", mit, trial.given.roots["mit"])


@test(*PROGRAMS, needs=("heimdal",), seconds=40)
def at_heimdal(trial):
    """Clients at Heimdal's `kdc`."""
    go(trial, "heimdal", heimdal, trial.given.roots["heimdal"])
