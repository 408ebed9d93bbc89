"""A server with a journal: restarts under load, kills, files that are cut, changed or of other users, and a full
disk."""

import functools
import random
import resource
import threading
import time

from harness.kerberos import key_of, tgs_req, ticket_in
from harness.processes import PATIENCE
from harness.tests import test
from harness.wire import REALM, answer, ask_udp, datagrams, login

# The number of kills of a server with a journal, and of SIGTERMs while requests come.
JOURNAL_KILLS, JOURNAL_RESTARTS = 20, 5
# The size at which the disk of a journal is full, in bytes: some thirty records.
FULL = 2048


class Buyer:
    """A client that gets tickets from a server with a journal, each with its own authenticator."""

    def __init__(self, trial, server):
        self.trial, self.turn = trial, 0
        with datagrams(server.udp) as peer:
            reply = ask_udp(peer, login("v"))
        self.ticket, self.key = ticket_in(key_of(b"a password", REALM.encode() + b"v"), reply)

    def request(self):
        self.turn += 1
        return tgs_req(REALM.encode(), b"v", (b"h",), (self.ticket, self.key), (int(time.time()), self.turn))

    def buy(self, server, request=None, tries=3):
        """The answer to this request, or to the next new one."""
        with datagrams(server.udp) as peer:
            return answer(ask_udp(peer, request or self.request(), tries))


def again(trial, server, kill=False, words=""):
    """Ends the server of this realm, and starts it again."""
    if kill:
        server.process.kill()
        server.process.wait(PATIENCE)
    else:
        server.end()
    return trial.serve(f"--journal run/journal {words}")


def resumed(server, what="resumed with"):
    """What is wrong, unless the server reports this about its journal."""
    return "" if f"journal run/journal: {what}" in server.said() else f"it says {server.said()!r}"


def first(trial):
    """Makes a realm, and starts its first server with a journal. Returns the server and a client."""
    trial.realm()
    (trial.folder / "run").mkdir()
    server = trial.serve("--first --journal run/journal")
    return server, Buyer(trial, server)


def journal(trial):
    """Makes a realm with a journal of fifty records. Returns a client."""
    server, buyer = first(trial)
    for _ in range(50):
        buyer.buy(server)
    server.end()
    return buyer


@test("kadm", "kdcd", seconds=2)
def resumes(trial):
    """A restart resumes, and nobody else takes the journal."""
    server, buyer = first(trial)
    folder = trial.folder / "run"
    requests = [buyer.request() for _ in range(3)]
    found = [buyer.buy(server, request) for request in requests]
    trial.note("a server with a new journal sells tickets", "" if found == ["ticket"] * 3 else str(found))
    second = trial.run("kdcd serve --db database --udp 127.0.0.1:0 --journal run/journal --rounds 0")
    said = "run/journal: another server appends to it; each server needs a journal of its own"
    trial.note("a second process does not take its journal", second.fault(3, "=failed", said))
    # As in the moment in which the files take turns.
    (folder / "journal").rename(folder / "away")
    second = trial.run("kdcd serve --db database --udp 127.0.0.1:0 --journal run/journal --rounds 0")
    trial.note("nor while the file is away", second.fault(3, "=failed", said))
    (folder / "away").rename(folder / "journal")
    server = again(trial, server)
    trial.note("a restart resumes", resumed(server, "resumed with 3 authenticators"))
    found = [buyer.buy(server, request) for request in requests] + [buyer.buy(server)]
    trial.note(
        "what was answered before gets 34, and a new request a ticket",
        "" if found == ["34"] * 3 + ["ticket"] else str(found)
    )
    server.end()
    ran = trial.run("kdcd serve --db database --udp 127.0.0.1:0 --journal run/journal --first --rounds 0")
    fault = ran.fault(1, "=refused NotFirst", "--first is for the first start alone")
    trial.note("--first is refused beside a journal", fault)


@test("kadm", "kdcd", seconds=3)
def quiet(trial):
    """A start that resumes nothing refuses tickets for services. With --quiet-start it does not answer these
    requests."""
    buyer = journal(trial)
    for words, wanted in (("", "37"), ("--quiet-start", "none")):
        server = trial.serve(words)
        found = buyer.buy(server, tries=1)
        trial.note(
            f"a TGS-REQ after a start with '{words}' gets {wanted}", "" if found == wanted else f"it gets {found}"
        )
        server.end()


@test("kadm", "kdcd", seconds=5)
def under_load(trial):
    """SIGTERM while requests come: each request gets a ticket, if it is repeated when no reply comes."""
    buyer = journal(trial)
    server, found = trial.serve("--journal run/journal"), []
    for _ in range(JOURNAL_RESTARTS):
        found += [buyer.buy(server) for _ in range(50)]
        server = again(trial, server)
        found.append(buyer.buy(server))
    others = [each for each in found if each != "ticket"]
    trial.note(
        f"{JOURNAL_RESTARTS} restarts, and {len(found)} requests around them: each gets a ticket",
        str(others) if others else ""
    )
    server.end()


@test("kadm", "kdcd", seconds=25)
def kills(trial):
    """A kill at a random moment: no request that was answered gets another ticket."""
    buyer = journal(trial)
    server, faults, count = trial.serve("--journal run/journal"), [], 0
    for _ in range(JOURNAL_KILLS):
        end, sold = time.monotonic() + random.uniform(0.05, 0.5), []
        killer = threading.Timer(end - time.monotonic(), server.process.kill)
        killer.start()
        while time.monotonic() < end:
            request = buyer.request()
            if buyer.buy(server, request, 1) == "ticket":
                sold.append(request)
        killer.join()
        server = again(trial, server, kill=True)
        faults += [fault for fault in [resumed(server)] if fault]
        found = [buyer.buy(server, request) for request in sold[-200:]]
        faults += [each for each in found if each != "34"]
        count += len(found)
    trial.note(f"{JOURNAL_KILLS} kills, and {count} requests of before once more: each gets 34", "; ".join(faults[:3]))
    server.end()


@test("kadm", "kdcd", seconds=3)
def doubts(trial):
    """Journals that a start does not resume."""
    buyer, file = journal(trial), trial.folder / "run" / "journal"
    whole = file.read_bytes()
    changed = bytes([*whole[:100], whole[100] ^ 1, *whole[101:]])
    for what, octets, mode in (
        ("cut", whole[:-1], 0o600), ("changed", changed, 0o600), ("empty", b"", 0o600),
        ("what others may write", whole, 0o666),
    ):
        file.write_bytes(octets)
        file.chmod(mode)
        server = trial.serve("--journal run/journal")
        fault = resumed(server, "not resumed: it is damaged, or others may write it")
        found = buyer.buy(server)
        trial.note(
            f"a journal that is {what} is not resumed", fault or ("" if found == "37" else f"a request gets {found}")
        )
        server.end()
    file.unlink()
    server = trial.serve("--journal run/journal")
    trial.note("a journal that was removed is not resumed", resumed(server, "not resumed: there is none"))
    server.end()


@test("kadm", "kdcd", seconds=5)
def full(trial):
    """No room for a record: no reply is sent until there is room, and then the journal continues."""
    buyer, folder = journal(trial), trial.folder / "run"
    for file in folder.iterdir():
        file.unlink()
    limits = functools.partial(resource.setrlimit, resource.RLIMIT_FSIZE, (FULL, FULL))
    server = trial.serve("--first --journal run/journal", preexec_fn=limits, restore_signals=False)
    for file in folder.iterdir():
        file.unlink()
    folder.rmdir()
    sold = 0
    while sold < 100 and buyer.buy(server, tries=1) == "ticket":
        sold += 1
    trial.note(f"where a record can't be written, no reply is sent ({sold} were)", "" if 0 < sold < 100 else "they are")
    trial.note("nor is any other", "" if server.answer("v", 1) != "ticket" else "a login gets a ticket")
    folder.mkdir()
    found = [buyer.buy(server), server.answer("v")]
    trial.note("once it can be, they are sent", "" if found == ["ticket"] * 2 else str(found))
    said = server.said()
    are_said = "no reply is sent until it can be written" in said and "it can be written again" in said
    trial.note("both are said", "" if are_said else f"it says {said!r}")
    server = again(trial, server)
    trial.note("and the next start resumes", resumed(server))
    server.end()
