"""Lines of programs that the pages show are those that the built programs print. They are compared but for numbers,
times, addresses, folders, names and flags; `..` on a page stands for anything. A line that takes another user, a full
disk or little memory is not made here: its words must be among the texts of the sources (`UNMADE`)."""

import json
import os
import re
import shutil
import time

from harness.kerberos import ticket_in, tgs_req
from harness.processes import SLOWNESS
from harness.programs import TOP, fixed_system
from harness.server import Server
from harness.tests import test
from harness.wire import REALM, ask_udp, datagrams, login

CRATES = TOP / "crates"
# The pages with lines of programs, and where lines are: blocks, text between backticks, and the first cells of tables.
PAGES = ("CLIENT.md", "REFERENCE.md", "RUNNING.md", "TROUBLE.md", "USERS.md")
BEGINNINGS = r'kdcd: |\d{4}-\d\d-\d\dT|\{"time"|principal |krbtgt/\S+ from |host/\S+ version '
BLOCK = re.compile(rf"^    ((?:{BEGINNINGS}).*)$", re.M)
SPAN = re.compile(r"`((?:kdcd|kadm|kclient): [^`|]*[^`|: ])`")
TABLES = ("What the server says", "What a start says of its journal")
# What stands for a part of a line that may differ.
ALIKE = (
    (r"\d{4}-\d\d-\d\dT\d\d:\d\d:\d\dZ", "TIME"), (r"/var/lib/kdcd/|/\S*/(?=database)", ""),
    (r"krbtgt/[\w.]+", "krbtgt/REALM"), (r"\b(host/(www\.example\.com|www\.a\.b|n)|h)\b", "SERVICE"),
    (r"EXAMPLE\.COM|A\.B", "REALM"), (r"\b(alice|mallory|nobody|bob|u|v|x)\b", "NAME"), (r"\d+", "N"),
    (r'flags(=|":"| )[A-Za-z]+', r"flags\1F"), (r"\b(udp|tcp) (as|tgs|none)", r"UDP \2"),
)
# Lines that need another user, a full disk or little memory. Other tests make them.
UNMADE = (
    "lines are lost", "memory ran out: ", "no reply is sent until it can be written", "database: out of memory",
    "it belongs to user N", "the journal that goes before it is missing",
)


def alike(line):
    for part, name in ALIKE:
        line = re.sub(part, name, line)
    return line


def shown():
    """The lines that the pages show, each with its page."""
    found = []
    for page in PAGES:
        text = (TOP / "docs" / page).read_text()
        found += [(page, line) for line in BLOCK.findall(text)]
        found += [(page, line) for line in SPAN.findall(" ".join(text.split()))]
    text = (TOP / "docs" / "TROUBLE.md").read_text()
    for title in TABLES:
        section = text.partition(f" {title}\n")[2].partition("\n#")[0]
        cells = re.findall(r"^\| (`[^|]*) \|", section, re.M)
        found += [("TROUBLE.md", line) for cell in cells for line in re.findall(r"`([^`]+)`", cell) if " " in line]
    return found


def texts_of_sources():
    """What the sources print, as one text without what is filled in."""
    files = (path.read_text() for path in CRATES.glob("*/src/**/*.rt"))
    return "\n".join(alike(re.sub(r"\{[^{}\n]*\}", "N", text)) for text in files)


def has_words(line, known):
    """Whether the pieces of a line, between what is filled in, are all among the texts of the sources."""
    pieces = [piece.strip(" .:;") for piece in re.split(r"\bN\b|\bTIME\b|\.\.|: |; ", line)]
    long = [piece for piece in pieces if len(piece) > 6]
    return bool(long) and all(piece in known for piece in long)


class Session:
    """What the programs print in a realm with four rows."""

    def __init__(self, trial):
        self.trial, self.lines = trial, []
        trial.realm("shown")
        trial.expect("kadm remove --name h --db database", 0, "=ok")
        (trial.folder / "stage").mkdir()
        self.environment = {**trial.environment, "LD_PRELOAD": fixed_system(), "STAGE": "stage"}

    def run(self, words, given="", **how):
        ran = self.trial.run(words, given=given, **how)
        self.lines += (ran.out + ran.err).splitlines()

    def serve(self, words):
        server = Server(self.trial, words, environment=self.environment)
        self.trial.short["KINIT"] = f"kclient kinit --kdc {server.udp} --realm {REALM} --cache cc --name".split()
        self.trial.short["KVNO"] = f"kclient kvno --kdc {server.udp} --cache cc --name".split()
        return server

    def end(self, server):
        server.end()
        self.lines += server.said().splitlines()

    def requests(self, server):
        """A login, failures, tickets and a datagram that is no request."""
        self.run("KINIT v --password-file pw --forwardable --renewable")
        self.run("KVNO host/n")
        self.run(f"kclient kvno --kdc {server.udp} --cache cc host/n x")
        self.run("kclient klist --cache cc")
        self.run("KINIT u --password-file other")
        self.run("KINIT mallory --password-file pw")
        behind = {**self.environment, "CLOCK": str(int(time.time()) - 3600)}
        self.run("KINIT u --password-file pw", env=behind)
        with datagrams(server.udp) as peer:
            peer.settimeout(2 * SLOWNESS)
            key = self.key_of("v")
            held = ticket_in(key, ask_udp(peer, login("v")))
            ask_udp(peer, tgs_req(REALM.encode(), b"u", (b"host", b"n"), held, (int(time.time()), 1)), 1)
            peer.send(b"no request")
            server.wait(lambda: " udp none" in server.said(), 5)

    def set(self, name, text):
        """Sets what the stage of the servers shows (`fixed_system.c`)."""
        put(text)(self.trial.folder / "stage" / name)

    def key_of(self, name):
        """The key of type 18 of a principal, as the database has it."""
        row = json.loads((self.trial.folder / "database").read_text())["principals"][name]
        return bytes.fromhex(next(key["key"] for key in row["keys"][0]["keys"] if key["etype"] == 18))

    def replaced(self, server, what, wanted):
        """Puts something else at the database's path, and waits until the server says so."""
        what(self.trial.folder / "database")
        server.wait(lambda: wanted in server.said(), 10)


def put(text):
    """What replaces a database by this text."""
    def replace(path):
        beside = path.with_name("beside")
        beside.write_text(text)
        os.chmod(beside, 0o600)
        os.replace(beside, path)
    return replace


def changes(session):
    """A server, and what it says of databases that it can't take."""
    database = session.trial.folder / "database"
    good = database.read_text()
    bad = json.loads(good)
    bad["principals"]["u"]["expires"] = -1
    server = session.serve("--first --log")
    session.requests(server)
    session.replaced(server, put(json.dumps(bad)), "BadRow")
    session.trial.expect("kadm init --realm B.C --db other.database", 0, "=ok")
    session.replaced(server, put((session.trial.folder / "other.database").read_text()), "OtherRealm")
    session.replaced(server, lambda path: (path.unlink(), path.mkdir()), "it is no file")
    database.rmdir()
    session.set("AMONG", "database")
    session.set("ERROR", "13")
    session.set("FAILS", "open")
    session.replaced(server, put(good), "Permission denied")
    session.end(server)


def journals(session):
    """Starts beside a journal: whole, of another boot, with a clock that is behind it, of another realm, damaged; and a
    clock that goes back."""
    folder, now = session.trial.folder, int(time.time())
    session.set("CLOCK", str(now + 3600))
    server = session.serve("--log")
    session.set("CLOCK", str(now))
    server.wait(lambda: "the clock went back" in server.said(), 10)
    session.end(server)
    session.set("CLOCK", str(now + 60))
    for words in ("--journal", "--journal"):
        session.end(session.serve(f"--log --log-format json {words}"))
    server = session.serve("--journal --log --log-format json")
    session.run("KINIT mallory --password-file pw")
    session.end(server)
    session.set("CLOCK", str(now))
    session.end(session.serve("--journal"))
    session.set("BOOT", "another")
    session.end(session.serve("--journal"))
    shutil.copy(folder / "other.database", folder / "database")
    session.end(session.serve("--journal"))
    with open(folder / "database.journal", "ab") as file:
        file.write(b"\4\5cut")
    os.chmod(folder / "database", 0o640)
    session.end(session.serve("--journal"))


@test("kadm", "kdcd", "kclient", seconds=30)
def lines(trial):
    """Each line that a page shows is one that a program prints."""
    session = Session(trial)
    changes(session)
    session.run("kadm batch --db database", given="show --name u\nadd --name u --password-file pw\n")
    session.run("kadm batch --db database", given="policy --name u --field expires --value never\n"
                "add --name u --password-file pw\n")
    session.trial.expect("kadm keytab --db database --name host/n --out n.keytab", 0, "=ok")
    session.run("kclient klist --keytab n.keytab")
    journals(session)
    printed = {alike(line) for line in session.lines}
    printed |= {line.removeprefix("kdcd: ") for line in printed} | {line.partition(": ")[2] for line in printed}
    known = texts_of_sources()
    for page, line in shown():
        wanted = alike(line)
        form = re.compile(".*".join(map(re.escape, wanted.split(".."))))
        is_printed = any(form.fullmatch(each) or form.fullmatch(each.partition(": ")[2]) for each in printed)
        is_other = any(each in wanted for each in UNMADE)
        fault = "" if is_printed or is_other and has_words(wanted, known) else "no program prints it"
        trial.note(f"{page}: {line[:90]}", fault)
