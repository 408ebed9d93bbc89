"""The library for C as it is installed: a program that is compiled by the header and the shared object alone, threads
under a sanitizer (`ap_threads.c`), new keys at SIGHUP (`ap_service.c`), and the module `docs/ap_accept.py`."""

import os
import pathlib
import re
import shutil
import signal
import subprocess
import sys

from c_library import LIBRARY, shared_name
from harness.checks import expect
from harness.processes import PATIENCE
from harness.programs import TOP
from harness.tests import test
from harness.wire import free_port
from services.in_c import accepted, asked, programs_of, refused
from services.whole_way import OTHER, SERVICE, Kdc, Lines, OwnRequest, Place

MODULE = """
import sys
sys.path.insert(0, {docs!r})
from ap_accept import Acceptor, Failed
keytab, first, second = open({keytab!r}, "rb").read(), bytes.fromhex({first!r}), bytes.fromhex({second!r})
acceptor = Acceptor(keytab, is_first=True)
client = acceptor.accept(first)
print(client.name, client.realm.decode(), client.ends > 0, client.reply, client.key.type)
print(client.unseal(1024, client.seal(1024, b"a text")))
try:
    client.unseal(1025, client.seal(1024, b"a text"))
except Failed as fault:
    print(fault.status)
later = Acceptor(keytab, saved=acceptor.save())
try:
    later.accept(first)
except Failed as fault:
    print(fault.status, fault.rule, fault)
print(later.accept(second).reply is not None)
"""
SAID = """u A.B True None 18
b'a text'
31
34 repeated KRB_AP_ERR_REPEAT: the authenticator was seen before
True
"""


def library_of(trial):
    """The archive that the programs of tests are linked with. The shared object is beside it."""
    built = pathlib.Path(trial.given.programs) / LIBRARY.name
    return built if built.is_file() else LIBRARY


def with_tickets(programs, folder):
    """A realm of type 18, and tickets in a cache."""
    place = Place({**programs, "mk_req": None}, folder)
    place.make_realm(18)
    kdc = Kdc(place)
    place.get_tickets(kdc.address)
    kdc.end()
    return place


def digits_of(place, count, choice=()):
    return [OwnRequest(place, SERVICE, None, choice).digits for _ in range(count)]


@test("kadm", "kdcd", "kclient", needs=("threads_in_c",), seconds=60)
def threads(trial):
    """Threads that share an acceptor under one lock, and threads with one each. The library has no variable of its own
    that they would share."""
    trial.enter("threads")
    place = with_tickets(programs_of(trial), trial.folder)
    words = [trial.given.made["ap_threads"], place.path("keytab"), *digits_of(place, 6)]
    ran = subprocess.run(words, capture_output=True, text=True, timeout=PATIENCE)
    trial.same("ap_threads", (ran.returncode, ran.stdout, ran.stderr), (0, "0 failed\n", ""))
    if not shutil.which("nm"):
        return trial.leave("the variables of the library: nm is not on the path")
    listed = subprocess.run(["nm", library_of(trial)], capture_output=True, text=True, timeout=PATIENCE).stdout
    trial.note("that nm lists functions", "it lists none" * (" T ap_accept\n" not in listed))
    found = [line[19:] for line in listed.splitlines() if line[17:19] in KINDS]
    trial.same("its variables, but for the octet to which a pointer to no octets points", found, ["nothing"])


# The letters by which nm shows a variable that can be written.
KINDS = {f"{letter} " for letter in "BbDdCGgSs"}


@test("kadm", "kdcd", "kclient", needs=("services_in_c",), seconds=20)
def new_keys(trial):
    """At SIGHUP a service takes the keys of its keytab anew, and keeps the old ones if it can't."""
    trial.enter("new_keys")
    trial.check("new keys at SIGHUP", reads_anew, programs_of(trial), trial.folder)


def reads_anew(programs, folder):
    place, port = with_tickets(programs, folder), free_port()
    keytab, other = (pathlib.Path(place.path(name)) for name in ("keytab", "other.keytab"))
    requests, own = [bytes.fromhex(digits) for digits in digits_of(place, 4)], keytab.read_bytes()
    service = Lines(programs["ap_service"], keytab, str(port), "first", "4", errors=True)
    turns = (
        (own, "the keys are read", accepted()), (other.read_bytes(), "the keys are read", refused(35, "not-for-us")),
        (own[:-1], "the keytab can't be read: the old keys stay", refused(35, "not-for-us")),
        (own, "the keys are read", accepted()),
    )
    # The service takes signals once it listens.
    for at, (octets, says, pattern) in enumerate(turns):
        if at:
            keytab.write_bytes(octets)
            service.process.send_signal(signal.SIGHUP)
            expect("what the service says of its keytab", service.line(), says)
        asked(port, requests[at])
        says_of(service.line(), pattern)
    service.end()


def says_of(line, pattern):
    expect(f"what the service says, {line!r}", bool(re.fullmatch(pattern.replace("TYPE", "18"), line)), True)


@test("kadm", "kdcd", "kclient", needs=("services_in_c",), seconds=20)
def from_python(trial):
    """The module for Python, over the shared object."""
    trial.enter("from_python")
    place = with_tickets(programs_of(trial), trial.folder)
    script = MODULE.format(
        docs=str(TOP / "docs"), keytab=place.path("keytab"), first=digits_of(place, 1)[0],
        second=digits_of(place, 1, ("mutual",))[0]
    )
    library = str(library_of(trial).parent / shared_name())
    environment = {**os.environ, "AP_ACCEPT": library, "PYTHONDONTWRITEBYTECODE": "1"}
    ran = subprocess.run(
        [sys.executable, "-c", script], capture_output=True, text=True, env=environment, timeout=PATIENCE
    )
    trial.same("what the module says", (ran.returncode, ran.stdout, ran.stderr), (0, SAID, ""))


@test("kadm", "kdcd", "kclient", needs=("services_in_c",), seconds=10)
def installed(trial):
    """`install.py --library` installs what a program needs, and a program is compiled and run with that alone."""
    trial.enter("installed")
    root, prefix = trial.folder / "root", trial.folder / "root/opt/kdc"
    install = [sys.executable, TOP / "dev" / "install.py", "--programs", trial.given.programs, "--unproved"]
    words = ["--root", root, "--library", library_of(trial), "/opt/kdc"]
    trial.expect([*install, *words], 0, what="the library is installed")
    own = (prefix / "lib/pkgconfig/plovertrunk-accept.pc").read_text().replace("/opt/kdc", str(prefix), 1)
    (trial.folder / "plovertrunk-accept.pc").write_text(own)
    flags = ["-I", prefix / "include", "-L", prefix / "lib", "-lap_accept"]
    if shutil.which("pkg-config"):
        asks = ["pkg-config", "--cflags", "--libs", "plovertrunk-accept"]
        environment = {**os.environ, "PKG_CONFIG_PATH": str(trial.folder)}
        said = subprocess.run(asks, capture_output=True, text=True, timeout=PATIENCE, env=environment)
        trial.same("pkg-config", said.stdout.split(), ["-I" + str(flags[1]), "-L" + str(flags[3]), flags[4]])
    source, made = TOP / "tests/services/ap_judged.c", trial.folder / "judged"
    trial.expect(["cc", "-std=c11", "-o", made, source, *flags], 0, what="a program is compiled over the shared object")
    trial.expect("kadm init --db database --realm A.B", 0, "=ok")
    trial.expect("kadm random --db database --name host/h", 0, "=ok")
    trial.expect("kadm keytab --db database --name host/h --out keytab", 0, "=ok")
    run = ["env", f"LD_LIBRARY_PATH={prefix / 'lib'}", made, "keytab"]
    trial.expect(run, 0, "=0 failed", what="it runs")
    if shutil.which("readelf"):
        needed = subprocess.run(["readelf", "-d", made], capture_output=True, text=True, timeout=PATIENCE).stdout
        trial.note("it asks for the soname", "it does not" * (f"[{shared_name()}]" not in needed))
    trial.note("the manual page", "it is not there" * (not (prefix / "share/man/man3/ap_accept.3").is_file()))
