"""Command lines of `kclient`: what each prints, its status, the messages that it sends, and the cache that it leaves.
The KDC is `kdcd serve` behind a relay that loses, forges and counts messages, or one in Python (`harness/relay.py`).
The sessions are those of `sessions.py`, and the files beside them in `files.py`. Some lines need a user other than
root, whom root becomes."""

import contextlib
import itertools
import os
import pty
import re
import shlex
import shutil
import subprocess
import sys
import time
from concurrent.futures import ThreadPoolExecutor

from harness.processes import PATIENCE, RUNNING
from harness.relay import Relay
from harness.trial import Trial
from kclient.files import FILES

# The file of each user's own cache, and the number of a user who has none.
OWN, USERS = "/tmp/krb5cc_{}", 20000
# Runs a command without random bytes of the system: the call `getrandom` of x86-64 fails with EACCES, by a filter of
# the kernel (seccomp).
REFUSE_RANDOM = """
import ctypes, os, struct, sys
rows = [(0x20, 0, 0, 0), (0x15, 0, 1, 318), (0x06, 0, 0, 0x5000D), (0x06, 0, 0, 0x7FFF0000)]
lines = ctypes.create_string_buffer(b"".join(struct.pack("HBBI", *row) for row in rows))
filter = ctypes.create_string_buffer(struct.pack("HxxxxxxQ", len(rows), ctypes.addressof(lines)))
call = ctypes.CDLL(None, use_errno=True).prctl
if call(38, 1, 0, 0, 0) or call(22, 2, filter, 0, 0):
    sys.exit(f"no filter: {os.strerror(ctypes.get_errno())}")
os.execv(sys.argv[1], sys.argv[1:])
"""
# The number of sequences that run side by side; most of them wait.
MANY = 24
# The words that a first word stands for.
SHORT = {
    "LOGIN": "kclient kinit --kdc FIRST --realm A.B --cache cc --seed seed --name".split(),
    "KINIT": "kclient kinit --kdc FIRST --realm A.B --password-file pass --cache cc --seed seed --name".split(),
    "KVNO": "kclient kvno --kdc FIRST --cache cc --seed seed --name".split(),
    "RENEW": "kclient kinit --renew --kdc FIRST --cache cc --seed seed".split(),
    "VALIDATE": "kclient kinit --validate --kdc FIRST --cache cc --seed seed".split(),
}
# The relays listen on 127.N.0.1, whose name is also 127.N.1. Tests that run side by side begin with different numbers.
HOSTS = (1 + number % 254 for number in itertools.count(os.getpid()))


def credentials(octets):
    """The credentials of a cache, each as its service; when the client was authenticated, and when the ticket starts,
    ends and can be renewed no more, in seconds; its flags (RFC 4120, section 5.3: bit 0 is the most significant); and
    the type of its key."""
    place = 4 + int.from_bytes(octets[2:4], "big")

    def take(count):
        nonlocal place
        place += count
        return octets[place - count:place]

    number = lambda count=4: int.from_bytes(take(count), "big")
    counted = lambda: take(number())

    def principal():
        _, count = number(), number()
        return [counted() for _ in range(count + 1)][1:]

    principal()
    while place < len(octets):
        _, service, kind, _ = principal(), b"/".join(principal()), number(2), counted()
        times, _, flags = [number() for _ in range(4)], take(1), take(4).hex()
        _, _, _, _ = number(), number(), counted(), counted()
        yield service.decode(), times, flags, str(kind)


def fault_of_times(found, wanted, moments, less):
    """What is wrong with the times of a credential. A wanted one is `-`, or a moment with seconds behind it, as in
    `login+3600`: one of those in which that command ran, or, with seconds behind it, up to `less` before."""
    for seconds, text in zip(found, wanted):
        base, *behind = text.split("+")
        first, last = moments[base]
        if not first - less * bool(behind) <= seconds - sum(map(int, behind)) <= last:
            return f"{text} is {seconds}, where {base} is from {first} to {last}"
    return ""


def fault_of_held(octets, wanted, moments, less):
    """What is wrong with the credentials of a cache."""
    lines = [line.split() for line in wanted]
    found = list(credentials(octets))
    if [(each[0], *each[2:]) for each in found] != [(line[0], *line[5:]) for line in lines]:
        return f"the cache has {found}, and not {wanted}"
    return next(
        filter(None, (fault_of_times(each[1], line[1:5], moments, less) for each, line in zip(found, lines))), ""
    )


def date(seconds):
    return time.strftime("%Y-%m-%dT%H:%M:%SZ", time.gmtime(seconds))


class Sequence:
    """Command lines that are run one after another in a folder of their own, with a relay of their own."""

    def __init__(self, trial, table, runs):
        self.trial, self.name, self.runs, self.notes = trial, table.name, runs, []
        self.user = trial.other if table.is_other else None
        host = f"127.{next(HOSTS)}.0.1"
        self.relay = Relay(host, trial.server.udp)
        self.folder = trial.folder / host
        self.uses_own, self.own = table.uses_own, OWN.format(self.user)
        self.placed = {
            "FIRST": self.relay.first.address, "SECOND": self.relay.second.address, "OWN": self.own,
            "HOST": host.replace(".0.1", ".1"), "PORT": self.relay.second.address.rpartition(":")[2],
        }
        self.moments = {"-": (0, 0), "login": (0, 0)}
        self.make_files()

    def make_files(self):
        self.folder.mkdir()
        for name, text in FILES.items():
            file = self.folder / name
            file.parent.mkdir(exist_ok=True)
            file.write_bytes(text if isinstance(text, bytes) else self.with_places(text).encode())
        for each in (self.folder, *self.folder.rglob("*")):
            if self.user is not None:
                os.chown(each, self.user, self.user)
        os.truncate(self.folder / "big", (1 << 24) + 1)

    def with_places(self, text):
        """A text with the addresses and paths of this sequence."""
        return re.sub("|".join(self.placed), lambda found: self.placed[found[0]], text)

    def pattern(self, text):
        """What a printed text has to be. `ANY` is any text, and `3600~` is 3600 or as many more as the command took
        seconds."""
        begun, ended = self.moments["now"]
        numbers = lambda found: "(?:" + "|".join(str(int(found[1]) + more) for more in range(ended - begun + 1)) + ")"
        text = re.escape(self.with_places(text)).replace("ANY", ".*")
        return re.sub(r"(\d+)\\?~", numbers, text)

    def go(self):
        try:
            for run in self.runs:
                self.notes.append((f"{self.name}: {run.words}", self.tried(run)))
        finally:
            self.relay.is_over = True
            with contextlib.suppress(FileNotFoundError):
                if self.uses_own:
                    os.unlink(self.own)
        return self.notes

    def tried(self, run):
        """Runs a command line, and returns what is wrong with what comes of it."""
        try:
            return self.fault(run)
        except (OSError, LookupError, ValueError, subprocess.SubprocessError) as fault:
            # A cache or a message that can't be read, say.
            return f"{type(fault).__name__}: {fault}"

    def fault(self, run):
        time.sleep(run.wait)
        before, files = self.cache(), sorted(self.folder.rglob("*"))
        self.place_times(before)
        self.relay.begin(run.link)
        begun = int(time.time())
        with self.lacking(run.lacks):
            status, out, err = self.ran(run)
        self.moments["now"] = begun, int(time.time())
        self.moments[run.mark] = self.moments["now"]
        if run.is_login and status == 0:
            self.moments["login"] = self.moments["now"]
        faults = [f"status {status}, and not {run.status}"] * (status != run.status)
        if not (re.search if run.is_part else re.fullmatch)(self.pattern(run.out), out):
            faults.append(f"prints {out!r}, and not {self.with_places(run.out)!r}")
        if not re.fullmatch(self.pattern(run.err), err):
            faults.append(f"says {err!r}, and not {self.with_places(run.err)!r}")
        if self.relay.ways != run.ways:
            faults.append(f"sends {self.relay.ways!r}, and not {run.ways!r}")
        after = self.cache()
        if run.status != 0 and not run.is_unprinted and (after != before) != run.is_partly_done:
            faults.append("does not keep what came" if run.is_partly_done else "changes the cache")
        if run.held:
            # A renewed ticket lives as long as the first one: a second less than was asked for, if the KDC began it in
            # the next second.
            begun, ended = self.moments["login"]
            faults.append(fault_of_held(after or b"", run.held, self.moments, 0 if run.is_login else ended - begun))
        if run.sent and self.relay.sent != (wanted := run.sent(self.relay.sent, after or b"", self.moments["now"])):
            faults.append(
                f"sends {[each.hex() for each in self.relay.sent]}, and not {[each.hex() for each in wanted]}"
            )
        left = {each.name for each in self.folder.rglob("*")} - {each.name for each in files} - {"cc"}
        if left:
            faults.append(f"leaves {sorted(left)}")
        return "; ".join(filter(None, faults))

    def place_times(self, octets):
        """Lets `STARTS` and `ENDS` stand for the times of the cache's first credential."""
        for _, (begun, start, end, _), *_ in itertools.islice(credentials(octets) if octets else (), 1):
            self.placed |= {"STARTS": date(start or begun), "ENDS": date(end)}

    def cache(self):
        with contextlib.suppress(OSError):
            return (self.folder / "cc").read_bytes()

    @contextlib.contextmanager
    def lacking(self, path):
        """Takes all rights to a path from everyone but root; from a folder, that to write."""
        if path is None:
            yield
            return
        mode = (self.folder / path).stat().st_mode & 0o777
        os.chmod(self.folder / path, 0o555 if path == "." else 0)
        try:
            yield
        finally:
            os.chmod(self.folder / path, mode)

    def ran(self, run):
        """The status of a command line, and what it prints."""
        words = [part for word in shlex.split(run.words) for part in SHORT.get(word, [word])]
        words = [self.trial.programs["kclient"], *map(self.with_places, words[1:])]
        if run.is_refused_random:
            words = [sys.executable, "-c", REFUSE_RANDOM, *words]
        environment = {"PATH": os.environ["PATH"], "LANG": "C.UTF-8", **run.names}
        how = {} if self.user is None else {"user": self.user, "group": self.user, "extra_groups": []}
        given, ends = run.given.encode(), []
        stdin = stdout = subprocess.PIPE
        if run.is_asked:
            master, stdin = pty.openpty()
            os.write(master, given + b"\n")
            ends, given = [master, stdin], None
        elif run.given == ".":
            stdin, given = os.open(self.folder, os.O_RDONLY), None
            ends = [stdin]
        if run.is_unprinted:
            stdout = os.open("/dev/full", os.O_WRONLY)
            ends.append(stdout)
        try:
            process = subprocess.Popen(
                words, cwd=self.folder, env=environment, stdin=stdin, stdout=stdout, stderr=subprocess.PIPE, **how
            )
            RUNNING.append(process)
            out, err = process.communicate(given, PATIENCE)
        finally:
            for each in ends:
                os.close(each)
        return process.returncode, (out or b"").decode(errors="replace"), err.decode(errors="replace")


class Commands(Trial):
    """The realm of the tables, its server, and another user."""

    def __init__(self, programs, folder):
        super().__init__(programs, folder)
        # The other user runs the program, too.
        folder.chmod(0o755)
        self.programs["kclient"] = shutil.copy(programs["kclient"], folder / "kclient")
        os.chmod(folder / "kclient", 0o755)
        self.folder = folder / "realm"
        self.folder.mkdir()
        for name in ("pass", "twotypes"):
            self.write(name, FILES[name])
        for words in (
            "init --realm A.B",
            *(f"add --name {name} --password-file pass --types 18 --service" for name in ("u", "v", "h")),
            "import --name w --keytab twotypes", "policy --name v --field preauth --value false",
            *(f"policy --name {name} --field postdate --value true" for name in ("u", "krbtgt/A.B")),
        ):
            if fault := self.run(f"kadm {words} --db database").fault(0, "=ok"):
                self.note(f"kadm {words}", fault)
        self.server = self.serve("--first --greatest-life 36000 --greatest-renewable 604800 --remembered 65536")
        self.folder = folder
        self.other, self.can_refuse_random = self.other_user(), self.refuses_random()

    def other_user(self):
        """The number of a user other than root; None if this user is another already, or if root may not become one."""
        other = USERS + os.getpid() % USERS
        if os.geteuid() != 0:
            return None
        try:
            subprocess.run(["true"], check=True, user=other, group=other, extra_groups=[])
            return other
        except OSError as fault:
            self.leave(f"files without rights: root can't become another user here ({fault.strerror})")
            return None

    def refuses_random(self):
        ran = subprocess.run([sys.executable, "-c", REFUSE_RANDOM, "/bin/true"], capture_output=True, text=True)
        if ran.returncode:
            self.leave(f"a system without random bytes: {ran.stderr.strip()}")
        return ran.returncode == 0

    def can_run(self, run):
        has_all_rights = self.other is None and os.geteuid() == 0
        return not (run.lacks and has_all_rights) and (self.can_refuse_random or not run.is_refused_random)

    def go(self, table):
        if table.uses_own and self.other is None:
            # The user's own cache may be there, and other trials may look for it.
            return self.leave(f"{table.name}: it needs another user, at whose place for a cache nobody else looks")
        found = [Sequence(self, table, list(filter(self.can_run, runs))) for runs in table.sequences()]
        with ThreadPoolExecutor(MANY) as pool:
            for notes in pool.map(Sequence.go, found):
                for what, fault in notes:
                    self.note(what, fault)
        self.server.end()
