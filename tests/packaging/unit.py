"""The unit docs/kdcd.service: systemd reads it without a complaint and rates it; and `kdcd serve` under as much of it
as shows without systemd: its limits, its filter of system calls, no new privileges and no memory that is writable and
executable."""

import ctypes
import os
import pathlib
import re
import resource
import shlex
import shutil
import subprocess
import time

from harness.kerberos import key_of, tgs_req, ticket_in
from harness.programs import TOP
from harness.server import Server
from harness.tests import test
from harness.wire import REALM, answer, ask_tcp, ask_udp, datagrams, login

UNIT = TOP / "docs" / "kdcd.service"
# The unit's exposure as `systemd-analyze security` has it, in tenths, at most.
EXPOSURE = 15
SIZES = {"K": 1 << 10, "M": 1 << 20, "G": 1 << 30}
# Numbers of Linux (prctl.h) and of libseccomp: a call that the filter does not allow fails with EPERM.
SET_NO_NEW_PRIVS, SET_MDWE, REFUSE_EXEC_GAIN = 38, 65, 1
ALLOW, FAIL = 0x7FFF0000, 0x00050001


def settings():
    """The lines of the unit's section [Service], each name with its values."""
    text, found = UNIT.read_text().replace("\\\n", " ").partition("[Service]")[2], {}
    for line in text.partition("[Install]")[0].splitlines():
        name, is_setting, value = line.partition("=")
        if is_setting and not line.startswith("#"):
            found.setdefault(name, []).append(value)
    return found


def number(text):
    return int(text[:-1]) * SIZES[text[-1]] if text[-1] in SIZES else int(text)


def analyzed(*words):
    return subprocess.run(["systemd-analyze", *map(str, words)], capture_output=True, text=True)


def calls_in(name, known):
    """The system calls of a set of systemd's, such as @system-service."""
    if not name.startswith("@"):
        return {name}
    if name not in known:
        lines = analyzed("syscall-filter", "--no-pager", name).stdout.splitlines()[1:]
        known[name] = set().union(
            *(calls_in(each.strip(), known) for each in lines if not each.strip().startswith("#"))
        )
    return known[name]


def allowed(values):
    """The system calls that the lines of SystemCallFilter= leave."""
    left, known = calls_in("@default", {}), {}
    for value in values:
        sets = set().union(*(calls_in(each, known) for each in value.lstrip("~").split()))
        left = left - sets if value.startswith("~") else left | sets
    return left


class Sandbox:
    """What the unit sets for a process, set before the program starts."""

    def __init__(self, found):
        self.library, self.seccomp = ctypes.CDLL(None, use_errno=True), ctypes.CDLL("libseccomp.so.2")
        self.limits = {
            resource.RLIMIT_DATA: number(found["LimitDATA"][0]),
            resource.RLIMIT_NOFILE: number(found["LimitNOFILE"][0]),
            resource.RLIMIT_CORE: number(found["LimitCORE"][0]),
        }
        resolve = self.seccomp.seccomp_syscall_resolve_name
        numbers = (resolve(each.encode()) for each in sorted(allowed(found["SystemCallFilter"])))
        self.calls = [each for each in numbers if each >= 0]
        self.seccomp.seccomp_init.restype = ctypes.c_void_p

    def enter(self):
        os.umask(0o077)
        for limit, most in self.limits.items():
            resource.setrlimit(limit, (most, most))
        self.library.prctl(SET_NO_NEW_PRIVS, 1, 0, 0, 0)
        # A kernel before 6.3 doesn't know this.
        self.library.prctl(SET_MDWE, REFUSE_EXEC_GAIN, 0, 0, 0)
        rules = ctypes.c_void_p(self.seccomp.seccomp_init(FAIL))
        for call in self.calls:
            self.seccomp.seccomp_rule_add(rules, ALLOW, call, 0)
        if self.seccomp.seccomp_load(rules):
            raise OSError("the filter of system calls is not loaded")


@test()
def journal(trial):
    """The log's journal of its own: its settings have the name that systemd looks for, and lines that it knows; pages
    name it. And the addresses are of a host, no wildcard."""
    found = settings()
    [space] = found["LogNamespace"]
    place = TOP / "docs" / f"journald@{space}.conf"
    trial.note(f"{place.name} is there", "" if place.is_file() else "it is not")
    lines = [line.partition("=") for line in place.read_text().splitlines() if line and line[0] not in "#["]
    known = pathlib.Path("/etc/systemd/journald.conf")
    if known.is_file():
        names = set(re.findall(r"^#?(\w+)=", known.read_text(), re.M))
        trial.same("settings that systemd doesn't know", [name for name, _, _ in lines if name not in names], [])
    else:
        trial.leave(f"the names of the settings: {known} is not there")
    trial.same("the size of the journal", [value for name, _, value in lines if name == "SystemMaxUse"], ["1G"])
    pages = " ".join(page.read_text() for page in [*TOP.glob("*.md"), *TOP.glob("docs/*")] if page.is_file())
    reads = set(re.findall(r"journalctl [^`]*?-u\s[^`]*?kdcd", pages))
    wrong = [each for each in reads if f"--namespace={space}" not in each]
    trial.note("how pages read it", ", ".join(wrong) or "no page says so" * (not reads))
    words = shlex.split(found["ExecStart"][0])
    addresses = [word for place, word in enumerate(words) if words[place - 1] in ("--udp", "--tcp")]
    wild = [each for each in addresses if each.startswith(("0.0.0.0:", "[::]:"))]
    trial.note("its addresses", ", ".join(wild) or "there is none" * (not addresses))


@test("kdcd")
def file(trial):
    """The unit as a file."""
    if not shutil.which("systemd-analyze"):
        return trial.leave("the unit, since there is no systemd-analyze")
    trial.enter("unit")
    found = settings()
    # systemd looks whether the program is there.
    copy = trial.folder / UNIT.name
    copy.write_text(UNIT.read_text().replace("/usr/local/bin/kdcd", trial.programs["kdcd"]))
    ran = analyzed("verify", "--man=no", copy)
    trial.note(
        "systemd reads the unit without a complaint",
        ran.stdout + ran.stderr or "" if not ran.returncode else f"status {ran.returncode}"
    )
    ran = analyzed("security", "--offline=true", f"--threshold={EXPOSURE}", copy)
    rated = re.search(r"exposure level for \S+: ([0-9.]+)", ran.stdout)
    what = f"systemd rates its exposure {rated[1] if rated else 'not at all'}, at most {EXPOSURE / 10}"
    trial.note(what, "" if rated and not ran.returncode else ran.stderr or f"status {ran.returncode}")
    data, most = number(found["LimitDATA"][0]), number(found["MemoryMax"][0])
    trial.note(
        "an allocation is refused before the process is killed: LimitDATA is below MemoryMax",
        "" if data < most else f"{data}, {most}"
    )


def expect_words(trial, words):
    """The options in the unit's command line, on addresses and files of this trial."""
    for place, word in enumerate(words):
        words[place] = {
            "--db": "database", "--udp": "127.0.0.1:0", "--tcp": "127.0.0.1:0"
        }.get(words[place - 1], word)
    trial.expect(
        shlex.join(["kdcd", *words, "--rounds", "0"]), 0, "=served 0 0 0", what="kdcd takes the options of the unit"
    )
    # The journal is beside the database.
    for path in trial.folder.glob("database.journal*"):
        path.unlink()
    return shlex.join(words[3:])


@test("kadm", "kdcd")
def sandbox(trial):
    """A server under the unit's limits and filter: datagrams, connections, a change, the journal, the log and a
    restart."""
    if not shutil.which("systemd-analyze"):
        return trial.leave("the unit, since there is no systemd-analyze")
    trial.realm()
    found = settings()
    options = expect_words(trial, shlex.split(found["ExecStart"][0])[1:])
    try:
        box = Sandbox(found)
        subprocess.run(["true"], preexec_fn=box.enter, check=True)
    except (OSError, subprocess.SubprocessError) as missing:
        trial.leave(f"the server under the unit's filter, which this machine does not take: {missing}")
        return
    begin = lambda more: Server(trial, f"{more} {options}", preexec_fn=box.enter)
    begin("--first").end()
    server = begin("")
    status = pathlib.Path(f"/proc/{server.process.pid}/status").read_text()
    trial.note(
        "the filter of system calls holds", "" if "Seccomp:\t2\n" in status and "NoNewPrivs:\t1\n" in status else status
    )
    trial.note("a restart resumes", "" if "resumed with 0 authenticators" in server.said() else server.said())
    udp, tcp = (dict(server.addresses)[kind] for kind in ("udp", "tcp"))
    with datagrams(udp) as peer:
        ticket, key = ticket_in(key_of(b"a password", REALM.encode() + b"v"), ask_udp(peer, login("v")))
        request = lambda turn: tgs_req(REALM.encode(), b"v", (b"h",), (ticket, key), (int(time.time()), turn))
        found = [answer(ask_udp(peer, request(1))), answer(ask_tcp(tcp, request(2))), answer(ask_tcp(tcp, login("u")))]
    trial.note(
        "a datagram, a connection and a login are answered", "" if found == ["ticket", "ticket", "25"] else str(found)
    )
    trial.expect("kadm random --db database --name late", 0, "=ok", what="a change of the database")
    is_taken = server.wait(lambda: "with 6 rows" in server.said(), 5)
    trial.note("is served", "" if is_taken else server.said())
    trial.note(
        "each request has its line", "" if len(re.findall(r" (?:as|tgs) ", server.said())) == 4 else server.said()
    )
    trial.note("the server ends at SIGTERM", "" if server.end() == -15 else "with another status")
    server = begin("")
    trial.note(
        "the next one resumes with what was recorded",
        "" if "resumed with 2 authenticators" in server.said() else server.said()
    )
    server.end()
