"""The sessions beside this file: command lines of `kclient`, each with its status, all that it prints, the messages
that it sends, and the cache that it leaves. The KDC is `kdcd serve` behind a relay that loses, forges and counts
messages, or one in Python.

A session is a file NAME.session, and the test kclient/sessions/NAME. The start of a line says what it is:

    # COMMENT
    % ROW             the options of a command, which usage.py tries (tests/harness/options.py)
    == another user   a user other than root runs the commands
    == own cache      in the cache that this user has if none is named
    == apart          each command below is run after those above this line, and without the others below it
    $ COMMAND         a command line, after variables as in NAME=VALUE. `<<< TEXT` is its standard input, and `< .` lets
                      that be a folder; else it is empty
    < TEXT            this is typed at a terminal, which standard input then is
    : after SECONDS   it is run so much later
    : kdc NAME        its messages get what this one of `kdcs.py` says, and not the replies of `kdcd serve`
    : messages WAYS   the messages that it sends, as the relay counts them. Without this line it sends none
    : requests NAME   these are, byte by byte, those of `kdcs.py`
    : cache TICKET    a ticket of the cache after it: its service; when the client was authenticated, the ticket starts,
                      ends, and is renewed no more; its flags; and the type of its key. Unless a command succeeds, the
                      cache stays the same
    : keeps-what-came it fails, and the cache has what came before
    : moment NAME     the moment in which it runs gets a name, for lines after it
    : without PATH    nobody has rights to this path meanwhile
    : no-room         standard output has no room
    : no-random       the system has no random bytes
    : if PATH         it is only run if this file is there; `: unless PATH`: if it is not
    ~ TEXT            standard output contains this text
    ! LINE            a line of standard error
    [NUMBER]          the status, if it is not 0
    LINE              a line of standard output

LOGIN, KINIT, KVNO, RENEW and VALIDATE stand for the words in SHORT. FIRST and SECOND are the addresses of the two KDCs,
HOST and PORT name the second one, and OWN is the user's own cache. AHEAD and LIFE are some seconds, more on a slow
machine. What is printed may have `ANY`, which is any text; `3600~`, which is 3600 or as many more as the command took
seconds; and STARTS and ENDS, the times of the cache's first ticket. `\\n` is a line feed, `\\xff` a byte that is not
UTF-8, and a line that ends in ` (no-eol)` has no line feed."""

import dataclasses
import math
import os
import re
import typing

from harness.processes import SLOWNESS
from harness.programs import TOP
from harness.relay import good
from harness.tests import add, Test
from kclient.commands import Commands
from kclient.kdcs import REQUESTS, kdc

FOLDER = TOP / "tests" / "kclient" / "sessions"
# The seconds until a postdated ticket starts, and those that a short one lives.
SECONDS = {"AHEAD": math.ceil(3 * SLOWNESS), "LIFE": math.ceil(3 * SLOWNESS)}


def plain(text):
    """A text of a session, with its escapes and seconds."""
    text = text.replace("\\n", "\n").replace("\\xff", "\udcff")
    return re.sub("|".join(SECONDS), lambda found: str(SECONDS[found[0]]), text)


@dataclasses.dataclass
class Run:
    """A command line, and what comes of it."""

    words: str
    # The variables of the environment, and standard input: nothing; this text; or, as `.`, a folder.
    names: dict
    given: str
    status: int = 0
    # All of standard output and of standard error, without the last line feed.
    out: str = ""
    err: str = ""
    ways: str = ""
    link: typing.Callable = good
    held: list = dataclasses.field(default_factory=list)
    # Returns the messages that have to be sent, by those that are, the cache, and the time.
    sent: typing.Callable | None = None
    wait: float = 0
    mark: str = "now"
    lacks: str | None = None
    # Whether `out` is only a part of what is printed; whether standard input is a terminal, standard output has no
    # room, and the system has no random bytes.
    is_part: bool = False
    is_asked: bool = False
    is_unprinted: bool = False
    # Whether it fails, and has changed the cache before.
    is_partly_done: bool = False
    is_refused_random: bool = False
    # Whether it is run on this machine.
    is_here: bool = True

    @property
    def is_login(self):
        return self.words.startswith(("LOGIN", "KINIT", "kclient kinit")) and "--renew" not in self.words.split()

    def take(self, line):
        """Takes a line after the command."""
        mark, _, rest = line.partition(" ")
        if mark == ":":
            self.take_setting(*rest.partition(" ")[::2])
        elif mark == "<":
            self.given, self.is_asked = plain(rest), True
        elif mark == "~":
            self.out, self.is_part = plain(rest), True
        elif mark == "!":
            self.err += f"{plain(rest)}\n".replace(" (no-eol)\n", "")
        elif status := re.fullmatch(r"\[(\d+)\]", line):
            self.status = int(status[1])
        else:
            self.out += f"{plain(line)}\n"

    def take_setting(self, name, value):
        """Takes a line that begins with a colon."""
        value = plain(value)
        settings = {
            "after": lambda: ("wait", sum(map(float, value.split("+")))), "kdc": lambda: ("link", kdc(value)),
            "messages": lambda: ("ways", value), "requests": lambda: ("sent", REQUESTS[value]),
            "cache": lambda: ("held", [*self.held, value]), "moment": lambda: ("mark", value),
            "without": lambda: ("lacks", value), "keeps-what-came": lambda: ("is_partly_done", True),
            "no-room": lambda: ("is_unprinted", True), "no-random": lambda: ("is_refused_random", True),
            "if": lambda: ("is_here", os.path.exists(value)), "unless": lambda: ("is_here", not os.path.exists(value)),
        }
        setattr(self, *settings[name]())


def run_of(line):
    """The command of a line, with its variables and its standard input."""
    names = {}
    while variable := re.match(r"([A-Z0-9_]+)=(\S*) ", line):
        names[variable[1]], line = plain(variable[2]), line[variable.end():]
    words, has_text, given = line.partition(" <<< ")
    if has_text:
        return Run(plain(words), names, f"{plain(given)}\n")
    return Run(plain(line.removesuffix(" < .")), names, "." if line.endswith(" < .") else "")


class Table:
    """The command lines of a session."""

    def __init__(self, path):
        self.name, self.before, self.runs, self.is_apart, self.settings = path.stem, [], [], False, set()
        for line in path.read_text().splitlines():
            if line == "== apart":
                self.before, self.runs, self.is_apart = self.runs, [], True
            elif line.startswith("== "):
                self.settings.add(line[3:])
            elif line.startswith("$ "):
                self.runs.append(run_of(line[2:]))
            elif line and not line.startswith(("#", "%")):
                self.runs[-1].take(line)
        self.is_other, self.uses_own = "another user" in self.settings, "own cache" in self.settings
        self.runs = [run for run in self.runs if run.is_here]

    def sequences(self):
        return [[*self.before, run] for run in self.runs] if self.is_apart else [[*self.before, *self.runs]]


def known(path):
    """Makes a session a test."""
    def call(trial):
        trial.go(Table(path))

    add(Test(f"kclient/sessions/{path.stem}", call, ("kadm", "kdcd", "kclient"), Commands, seconds=10))


for each in sorted(FOLDER.glob("*.session")):
    known(each)
