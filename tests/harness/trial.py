"""A folder in which a test runs commands, with a realm and servers for it."""

import math
import os
import pty
import shlex
import subprocess

from harness.checks import Notes
from harness.processes import RUNNING, SLOWNESS, Ran
from harness.server import Server
from harness.wire import REALM


class Trial(Notes):
    """A folder in which commands are run."""

    def __init__(self, programs, folder):
        super().__init__()
        self.programs, self.folder = programs, folder / "none"
        self.environment = {"PATH": os.environ["PATH"], "HOME": "/", "LANG": "C.UTF-8", "KRB5_CONFIG": "krb5.conf"}
        # Without it a command would use the cache of the person that runs the trials.
        self.environment["KRB5CCNAME"] = "FILE:default_cache"
        # The libraries of unpacked stock programs.
        self.environment |= {name: os.environ[name] for name in ("LD_LIBRARY_PATH",) if name in os.environ}
        # The words that a word of a command line stands for.
        self.short = {}

    def write(self, name, text):
        (self.folder / name).write_bytes(text if isinstance(text, bytes) else text.encode())

    def start(self, words, **how):
        """Starts a program. It is killed at the end of the script at the latest."""
        words = [self.programs.get(words[0], words[0]), *words[1:]]
        process = subprocess.Popen(words, **{"cwd": self.folder, "env": self.environment, **how})
        RUNNING.append(process)
        return process

    def run(self, words, given="", seconds=60, **how):
        """Runs a command, which may take this many seconds on an idle machine."""
        if isinstance(words, str):
            words = [part for word in shlex.split(words) for part in self.short.get(word, [word])]
        how = {"stdin": subprocess.PIPE, "stdout": subprocess.PIPE, "stderr": subprocess.PIPE, **how}
        given = given.encode() if how["stdin"] == subprocess.PIPE else None
        return Ran(self.start(words, **how), given, seconds)

    def run_typed(self, words, typed, **how):
        """Runs a command whose standard input is a terminal, where this text is typed."""
        master, slave = pty.openpty()
        os.write(master, typed.encode())
        ran = self.run(words, stdin=slave, **how)
        os.close(slave)
        os.close(master)
        return ran

    def expect_typed(self, words, typed, status, out, asked):
        """Runs a command at a terminal, where this text is typed, and which has to ask this many times for a
        password."""
        ran = self.run_typed(words, typed, seconds=10)
        fault = ran.fault(status, out) or ("" if ran.err.count("Password for ") == asked else f"it asks {ran.err!r}")
        self.note(f"at a terminal: {words}, {typed!r}", fault)

    def expect(self, words, status, *texts, what=None, **how):
        """Runs a command, and notes whether its result is as expected."""
        self.note(what or words, self.run(words, **how).fault(status, *texts))

    def cases(self, lines, **how):
        """Runs commands, one on each line: `WORDS <<< LINE OF STANDARD INPUT -> STATUS TEXT; TEXT ..`. Input and texts
        are optional."""
        for line in filter(None, map(str.strip, lines.splitlines())):
            command, _, wanted = line.rpartition(" -> ")
            words, has_given, given = command.partition(" <<< ")
            status, _, texts = wanted.partition(" ")
            given = given + "\n" if has_given else ""
            self.expect(words, int(status), *filter(None, texts.split("; ")), what=command, given=given, **how)

    def same(self, what, found, wanted):
        self.note(what, "" if found == wanted else f"{found!r}, and not {wanted!r}")

    def enter(self, name):
        """Makes another folder, an empty one."""
        self.folder = self.folder.parent / name
        self.folder.mkdir()

    def realm(self, name="realm"):
        """Makes another folder with a realm: `u` with a password, `v` with one and without preauthentication, and the
        services `h` and `host/n`."""
        self.enter(name)
        self.write("pw", "a password\n")
        self.write("other", "another password\n")
        self.write("text", "no database\n")
        self.write("seed", os.urandom(32))
        self.write("short", bytes(31))
        for words in (
            f"init --realm {REALM}", "add --name u --password-file pw", "add --name v --password-file pw",
            "random --name h", "random --name host/n", "policy --name v --field preauth --value false",
            "keytab --name h --out h.keytab",
        ):
            if fault := self.run(f"kadm {words} --db database").fault(0, "=ok"):
                self.note(f"kadm {words}", fault)

    def serve(self, *words, **how):
        """Starts a server for this realm. From then on `KDC` stands for its address."""
        server = Server(self, *words, **how)
        self.short["KDC"] = [server.udp]
        self.short["KINIT"] = f"kclient kinit --kdc {server.udp} --realm {REALM} --cache cc --name".split()
        self.short["KVNO"] = f"kclient kvno --kdc {server.udp} --cache cc --name".split()
        return server

    def with_server(self, words, lines):
        """Runs commands beside a server with these options."""
        server = self.serve(words)
        self.cases(lines)
        server.end()

    def configure(self, address, more=""):
        defaults = f"default_realm = {REALM}\ndns_lookup_kdc = false\nrdns = false\n{more}\n"
        self.write("krb5.conf", f"[libdefaults]\n{defaults}[realms]\n{REALM} = {{\nkdc = {address}\n}}\n")


# The seconds until a postdated ticket starts.
AHEAD = math.ceil(3 * SLOWNESS)
