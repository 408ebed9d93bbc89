"""`kdcd serve --metrics FILE` on a stage, where the clock shows what a file says: the numbers after a known set of
requests, each text by a parser of Prometheus' format, and what is said of a file that can't be written."""

import contextlib
import os
import re
import stat

from harness import staged_realm as realm
from harness.kerberos import as_req, tgs_req, ticket_in
from harness.stage import REFUSING, Staged, T, ask
from harness.tests import test
from harness.wire import REALM, answer, ask_tcp

# The seconds between two texts.
BETWEEN = 10
# The first line of what a text has, by Prometheus' text format: a name, labels in braces or none, and a number.
SAMPLE = re.compile(r'([a-z_]+)(?:\{((?:[a-z_]+="[^"\\\n]*",?)+)\})? (\d+)')
LABEL = re.compile(r'([a-z_]+)="([^"]*)"')
TYPES = ("counter", "gauge")
# How many kinds of requests are counted apart: no request, no memory; for AS-REQ a ticket, one that is too big, and 19
# rules; for TGS-REQ also a ticket or an error that is sent again, and 42 rules.
KINDS = 2 + 2 + 19 + 4 + 42


class Bad(Exception):
    """A text is not in Prometheus' format."""


def samples_in(text):
    """The numbers of a text by name and labels. Each family has one line of help and one of its type, and then all its
    samples."""
    found, seen, family = {}, set(), None
    if not text.endswith("\n"):
        raise Bad("its last line has no end")
    lines = iter(text.splitlines())
    for line in lines:
        if line.startswith("# HELP "):
            family = line.split(" ")[2]
            kind = re.fullmatch(rf"# TYPE {family} (\w+)", next(lines, ""))
            if family in seen or not kind or kind[1] not in TYPES:
                raise Bad(f"{family}: its head is twice there, or has no type")
            if (kind[1] == "counter") != family.endswith("_total"):
                raise Bad(f"{family}: only the name of a counter ends in _total")
            seen.add(family)
            continue
        sample = SAMPLE.fullmatch(line)
        if not sample or sample[1] != family:
            raise Bad(f"no sample of {family}: {line!r}")
        key = sample[1], tuple(sorted(LABEL.findall(sample[2] or "")))
        if key in found:
            raise Bad(f"twice there: {line!r}")
        found[key] = int(sample[3])
    return found


def key(name, **labels):
    return name, tuple(sorted(labels.items()))


def requests(exchange, outcome, rule=""):
    return key("kdcd_requests_total", exchange=exchange, outcome=outcome, rule=rule)


def replies(transport, sent):
    return key("kdcd_replies_total", transport=transport, sent=sent)


class Watched(Staged):
    """A stage with a server that writes its numbers to the file `m`."""

    def numbers(self, server, before=None):
        """The numbers of the file, once there is another file than before. The server writes one after the rounds in
        which its clock is ten seconds later."""
        file = self.folder / "m"
        server.wait(lambda: file.exists() and file.stat().st_ino != before)
        try:
            return samples_in(file.read_text())
        except (Bad, OSError) as fault:
            self.note("the numbers of a server", str(fault))
            return {}

    def next_numbers(self, server, second):
        """The numbers of the next file, written in this second."""
        before = (self.folder / "m").stat().st_ino
        self.show(second)
        return self.numbers(server, before)

    def has(self, what, found, wanted):
        """Notes whether these numbers are as expected."""
        self.same(what, {each: found.get(each) for each in wanted}, wanted)


def asked(server):
    """What the requests of a known set get, and one of its TGS-REQs."""
    ticket, session = ticket_in(bytes.fromhex(realm.NEW_USER_KEY), ask(server, realm.LOGIN))

    def buy(service, number, **more):
        return tgs_req(REALM.encode(), b"w", (service,), (ticket, session), (T, number), **more)

    good = buy(b"h", 1)
    requests = (
        realm.LOGIN, as_req(REALM.encode(), b"nobody"), as_req(REALM.encode(), b"u"), good, good, buy(b"nothing", 2),
        buy(b"h", 1, nonce=7),
    )
    found = [answer(ask(server, request)) for request in requests]
    found += [answer(ask_tcp(server.addresses[1][1], realm.LOGIN)), answer(ask(server, b"x", 0.3))]
    return found, good


def expect_counts(trial, now):
    """The counts after that set."""
    counted = {
        requests("as", "ticket"): 3, requests("as", "refused", "client-unknown"): 1,
        requests("as", "refused", "preauthentication-required"): 1, requests("tgs", "ticket"): 1,
        requests("tgs", "ticket-again"): 1, requests("tgs", "refused", "service-unknown"): 1,
        requests("tgs", "refused", "repeated"): 1, requests("", "none"): 1,
    }
    others = {each: counted.get(each, 0) for each in now if each[0] == "kdcd_requests_total"}
    trial.has("requests by exchange, outcome and rule", now, counted | others)
    trial.has("replies by transport", now, {
        replies("udp", "yes"): 8, replies("udp", "no"): 0, replies("tcp", "yes"): 1, replies("tcp", "no"): 0,
    })
    size = sum(os.path.getsize(file) for file in trial.folder.glob("j*") if file.name in ("j", "j.old"))
    trial.has("faults, rows, replay caches, journal and start", now, {
        key("kdcd_faults_total"): 0, key("kdcd_memory_faults_total"): 0, key("kdcd_log_lost_lines_total"): 0,
        key("kdcd_database_rows"): 4, key("kdcd_database_taken_seconds"): T, key("kdcd_database_behind"): 0,
        key("kdcd_replay_clients"): 1, key("kdcd_replay_authenticators"): 2, key("kdcd_journal_bytes"): size,
        key("kdcd_start_time_seconds"): T, key("kdcd_refused_until_seconds"): 0,
    })


@test("kdcd", trial=Watched, seconds=5)
def numbers(trial):
    """The numbers after a known set of requests, and a file that everybody may read and nobody sees half written."""
    trial.enter()
    server = trial.server("--first --metrics m --journal j")
    first = trial.numbers(server)
    trial.same("each kind of request has a sample", sum(name == "kdcd_requests_total" for name, _ in first), KINDS)
    trial.has("before any request all counts are 0", first, {each: 0 for each in first if each[0].endswith("_total")})
    found, good = asked(server)
    wanted = ["ticket", "6", "25", "ticket", "ticket", "7", "34", "ticket", "none"]
    trial.same("what the requests got", found, wanted)
    now = trial.next_numbers(server, T + BETWEEN)
    expect_counts(trial, now)
    kept = now.get(key("kdcd_replay_kept_bytes"), 0)
    trial.note("bytes are kept for both authenticators", "" if len(good) * 2 < kept < 6000 else str(kept))
    events = now.get(key("kdcd_events_total"), 0)
    # A connection is opened, brings a piece, and may have ended.
    trial.note("events", "" if 9 + 2 <= events <= 9 + 3 else str(events))
    version = trial.run("kdcd --version").out.split(" ", 1)[1].strip()
    trial.has("the version", now, {key("kdcd_info", version=version): 1})
    said = server.said()
    trial.note("the first line has the version", "" if said.startswith(f"kdcd: version {version}\n") else said)
    found = stat.S_IMODE((trial.folder / "m").stat().st_mode), (trial.folder / "m.new").exists()
    trial.same("everybody may read the file, nothing is beside it", found, (0o644, False))
    server.end()


@test("kdcd", trial=Watched, seconds=5)
def texts(trial):
    """Each reading of the file is a whole text, while it is written again and again."""
    trial.enter()
    server = trial.server("--first --metrics m")
    trial.numbers(server)
    found, files = [], set()

    def is_other(before):
        with contextlib.suppress(OSError), open(trial.folder / "m") as file:
            try:
                samples_in(file.read())
            except Bad as fault:
                found.append(str(fault))
            files.add(os.fstat(file.fileno()).st_ino)
        return (trial.folder / "m").stat().st_ino != before

    for turn in range(1, 9):
        trial.show(T + turn * BETWEEN)
        before = (trial.folder / "m").stat().st_ino
        server.wait(lambda: is_other(before))
    trial.same("each reading of the file is a whole text", (found, len(files) > 1), ([], True))
    server.end()


@test("kdcd", trial=Watched, seconds=5)
def rows(trial):
    """The rows that are served, when they were taken, and whether newer ones were refused."""
    trial.enter()
    server = trial.server("--first --metrics m")
    trial.numbers(server)

    def state(second):
        now = trial.next_numbers(server, second)
        return tuple(now.get(key(f"kdcd_database_{name}")) for name in ("rows", "taken_seconds", "behind"))

    trial.put("database", "no database")
    server.wait(lambda: "the rows before it stay" in server.said())
    trial.same("a database at fault", state(T + BETWEEN), (4, T, 1))
    trial.rows(realm.SERVICE, realm.TGS, realm.USER)
    server.wait(lambda: "with 3 rows" in server.said())
    trial.same("a database that is taken", state(T + 2 * BETWEEN), (3, T + BETWEEN, 0))
    server.end()


@test("kdcd", trial=Watched, seconds=5)
def start(trial):
    """Until when TGS-REQs are refused after a start, and how many replies a quiet start withheld."""
    trial.enter()
    server = trial.server("--quiet-start --metrics m")
    first = trial.numbers(server)
    trial.has("until when all TGS-REQs are refused", first, {key("kdcd_refused_until_seconds"): T + REFUSING})
    ticket, session = ticket_in(bytes.fromhex(realm.NEW_USER_KEY), ask(server, realm.LOGIN))
    request = tgs_req(REALM.encode(), b"w", (b"h",), (ticket, session), (T, 1))
    trial.same("a TGS-REQ at a quiet start", answer(ask(server, request, 0.5)), "none")
    now = trial.next_numbers(server, T + BETWEEN)
    trial.has("what was withheld", now, {
        key("kdcd_withheld_total", **{"for": "quiet-start"}): 1, key("kdcd_withheld_total", **{"for": "journal"}): 0,
        replies("udp", "yes"): 1, replies("udp", "no"): 1, requests("tgs", "refused", "skewed"): 1,
        key("kdcd_faults_total"): 1,
    })
    server.end()


@test("kdcd", trial=Watched, seconds=10)
def faults(trial):
    """A file that can't be written is said once, and the server serves; a file of something else stays."""
    trial.enter()
    server = trial.server("--first --metrics none/m")
    said = "kdcd: metrics none/m: No such file or directory (os error 2)\n"
    server.wait(lambda: said in server.said())
    for turn in (1, 2, 3):
        trial.show(T + turn * BETWEEN)
        server.wait(lambda: server.said().count("metrics") > 1, 3)
    found = server.said().count(said), answer(ask(server, realm.LOGIN))
    trial.same("a file in no folder is said once, and the server serves", found, (1, "ticket"))
    (trial.folder / "none").mkdir()
    trial.show(T + 4 * BETWEEN)
    again = "kdcd: metrics none/m: it can be written again\n"
    server.wait(lambda: again in server.said())
    found = server.said().count(again), (trial.folder / "none" / "m").exists()
    trial.same("the file can be written again", found, (1, True))
    server.end()
    trial.write("other", (trial.folder / "database").read_bytes())
    for what, path in (("another database", "other"), ("somebody's file beside it", "m")):
        trial.write("m.new", "somebody's\n")
        both = lambda: [(trial.folder / name).read_bytes() for name in ("other", "m.new")]
        before, server = both(), trial.server(f"--first --metrics {path}")
        server.wait(lambda: "metrics" in server.said())
        said = f"kdcd: metrics {path}: the file there has no numbers, and stays as it is\n"
        trial.same(f"{what} is not replaced by numbers", (server.said().count(said), both()), (1, before))
        server.end()


@test("kdcd", trial=Watched, seconds=15)
def names(trial):
    """The names of the files of the database and of the journal, and files that have no numbers. The server says so,
    serves, and changes nothing there."""
    trial.enter()
    taken = "this is the name of a file of the database or of the journal"
    stays = "the file there has no numbers, and stays as it is"
    for name, text, said in (
        ("database", None, taken), ("database.lock", None, taken), ("database.new", None, taken), ("j", None, taken),
        ("j.old", None, taken), ("j.new", None, taken), ("j.lock", None, taken), ("j.sealed", None, taken),
        ("empty", b"", stays), ("cut", b"# HELP kdcd_info", stays),
    ):
        if text is not None:
            trial.write(name, text)
        server = trial.server(f"--first --journal j --metrics {name}")
        line, file = f"kdcd: metrics {name}: {said}\n", trial.folder / name
        server.wait(lambda: line in server.said(), 5)
        found = server.said().count(line), answer(ask(server, realm.LOGIN)), (trial.folder / f"{name}.new").exists()
        trial.same(f"{name}: it is said once, and the server serves", found, (1, "ticket", False))
        now = file.read_bytes() if file.exists() else None
        is_well = now == text if text is not None else not (now or b"").startswith(b"# HELP")
        trial.note(f"{name}: nothing is written there", "" if is_well else repr((now or b"")[:20]))
        server.end()
        for left in trial.folder.glob("j*"):
            left.unlink()
