#!/usr/bin/env python3
"""Shows a realm at work: makes one, serves it, logs in, and gets a ticket for a service.

    python3 dev/demo.py [--seconds N] [--port N] [--programs FOLDER]

It first builds kdcd, kadm and kclient without proof, if out/unproved at the top of the repository lacks one or a source
is newer: a minute or two. Then it explains and prints each command, what the command prints, and the server's log as it
happens. At the end it serves the realm to other clients until Ctrl-C, or for N seconds. The realm is in a folder of its
own, which is removed at the end; its password is public. If the port is taken, the realm gets another one. It needs
Linux and Python 3."""

import argparse
import contextlib
import os
import pathlib
import shutil
import signal
import socket
import subprocess
import sys
import tempfile
import threading
import time

TOP = pathlib.Path(__file__).resolve().parent.parent
PROGRAMS = ("kdcd", "kadm", "kclient")
REALM, USER, SERVICE, PASSWORD = "EXAMPLE.COM", "alice", "host/www.example.com", "a password"
# These are built without optimizing, which takes less time. `kadm` would then take ten seconds for keys of a password.
UNOPTIMIZED = ("kdcd", "kclient")
# How long the server's lines about a command may take.
MOMENT = 0.2
# What is printed before the commands that it explains.
EXPLAINED = {
    "realm": "The database gets the realm's own key, a user with a password, and a service with a random key, which\n"
    "# the service's host gets in a keytab. `ok` means that it is done.",
    "server": "The KDC. (--first: there was none in this realm before.) It prints its version, its addresses, its\n"
    "# database, and its limits: the defaults of its options, in seconds where they are times.",
    "login": "alice logs in. The KDC first refuses with 25, so that her client proves that it has her key; then it\n"
    "# issues a ticket. A line of the log has the time, the client's address, `as` for a login, the client, the\n"
    "# service (krbtgt is the KDC itself), and the outcome. Behind a refusal it has the rule that refused; behind a\n"
    "# ticket its encryption types, its flags (I: initial, A: preauthenticated), and when it ends.",
    "service": "With that ticket she gets one for the service (`tgs`). `kvno` prints the version of the service's\n"
    "# key, and decrypts the ticket with the keytab.",
    "cache": "The tickets that she has now, with their times (renew -: not renewable), flags and encryption types.",
}


class Failed(Exception):
    """A command did not do its work."""


def say(line=""):
    print(line, flush=True)


def explain(what):
    say(f"\n# {EXPLAINED[what]}")


# ---- the programs


def newest_source():
    return max(path.stat().st_mtime for path in TOP.glob("crates/*/src/**/*.rt"))


def build(folder):
    """Builds the programs that are missing or old, side by side."""
    newest = newest_source()
    missing = [name for name in PROGRAMS if not is_new(folder / name, newest)]
    if not missing:
        return
    say(f"Building {', '.join(missing)} without proof, side by side: a minute or two.")
    begun = time.monotonic()
    building = {name: builder(name, folder) for name in missing}
    try:
        while building:
            for name in [name for name, process in building.items() if process.poll() is not None]:
                out = building.pop(name).communicate()[0]
                if not (folder / name).is_file():
                    raise Failed(f"{name} was not built:\n{out}")
                say(f"  {name}: {time.monotonic() - begun:.0f} s")
            if sys.stdout.isatty():
                print(f"  {time.monotonic() - begun:.0f} s", end="\r", flush=True)
            time.sleep(0.1)
    finally:
        for process in building.values():
            with contextlib.suppress(ProcessLookupError):
                os.killpg(process.pid, signal.SIGTERM)


def is_new(program, newest):
    return program.is_file() and program.stat().st_mtime >= newest


def builder(name, folder):
    """Starts to build a program, in a session of its own, which ends as a whole."""
    words = ["--unoptimized"] * (name in UNOPTIMIZED) + ["--out", folder, name]
    return subprocess.Popen(
        [sys.executable, TOP / "dev" / "quick_build.py", *words], stdin=subprocess.DEVNULL, stdout=subprocess.PIPE,
        stderr=subprocess.STDOUT, text=True, start_new_session=True
    )


# ---- the realm


class Realm:
    """A realm in a folder, and its server."""

    def __init__(self, folder, programs, port):
        self.folder, self.port, self.server = folder, port, None
        self.environment = {
            **os.environ, "PATH": f"{programs}:{os.environ.get('PATH', '')}",
            "KRB5_CONFIG": str(folder / "krb5.conf"), "KRB5CCNAME": f"FILE:{folder / 'tickets'}",
        }

    def run(self, words, given=None):
        """Runs a command in the folder. Prints it with what it says."""
        say(f"$ printf '{given}\\n' | {words}" if given else f"$ {words}")
        ran = subprocess.run(
            words.split(), cwd=self.folder, env=self.environment, input=f"{given}\n" if given else "", text=True,
            stdout=subprocess.PIPE, stderr=subprocess.STDOUT
        )
        print(ran.stdout, end="", flush=True)
        if ran.returncode:
            raise Failed(f"`{words}` ended with status {ran.returncode}")

    def make(self):
        explain("realm")
        self.run(f"kadm init --db database --realm {REALM}")
        self.run(f"kadm add --db database --name {USER}", PASSWORD)
        self.run(f"kadm add --db database --name {SERVICE} --random")
        self.run(f"kadm keytab --db database --name {SERVICE} --out www.keytab")
        (self.folder / "krb5.conf").write_text(
            f"[libdefaults]\ndefault_realm = {REALM}\n[realms]\n{REALM} = {{\nkdc = 127.0.0.1:{self.port}\n}}\n"
        )

    def serve(self):
        """Starts the server, and prints what it says as it comes."""
        address = f"127.0.0.1:{self.port}"
        words = f"kdcd serve --db database --udp {address} --tcp {address} --first --log"
        explain("server")
        say(f"$ {words} &")
        self.server = subprocess.Popen(
            words.split(), cwd=self.folder, env=self.environment, stdin=subprocess.DEVNULL, stdout=subprocess.DEVNULL,
            stderr=subprocess.PIPE, text=True
        )
        is_serving = threading.Event()
        threading.Thread(target=self.relay, args=(is_serving,), daemon=True).start()
        if not is_serving.wait(30) or self.server.poll() is not None:
            raise Failed("the server did not start")
        time.sleep(MOMENT)

    def relay(self, is_serving):
        for line in self.server.stderr:
            say(f"  | {line.rstrip()}")
            if " serving on " in line:
                is_serving.set()
        is_serving.set()

    def log_in(self):
        explain("login")
        self.run(f"kclient kinit {USER}", PASSWORD)
        time.sleep(MOMENT)
        explain("service")
        self.run(f"kclient kvno {SERVICE} --keytab www.keytab")
        time.sleep(MOMENT)
        explain("cache")
        self.run("kclient klist")

    def stop(self):
        if self.server and self.server.poll() is None:
            self.server.terminate()
            self.server.wait()


def free_port(wanted):
    """This port if it is free for datagrams and connections, or else another one."""
    for port in [wanted] + [0] * 50:
        with socket.socket(socket.AF_INET, socket.SOCK_STREAM) as tcp:
            with socket.socket(socket.AF_INET, socket.SOCK_DGRAM) as udp:
                with contextlib.suppress(OSError):
                    tcp.bind(("127.0.0.1", port))
                    udp.bind(("127.0.0.1", tcp.getsockname()[1]))
                    return tcp.getsockname()[1]
    raise Failed("no port is free")


def show(folder, programs, words):
    port = free_port(words.port)
    realm = Realm(folder, programs, port)
    try:
        say(f"A realm in {folder}. `#` explains, `$` is a command, `|` is a line of the server.")
        realm.make()
        realm.serve()
        realm.log_in()
        say()
        say(f"To log in from another terminal, with MIT's clients (Debian: krb5-user) and the password `{PASSWORD}`:")
        say(f"    export KRB5_CONFIG={folder}/krb5.conf KRB5CCNAME=FILE:{folder}/others")
        say(f"    kinit {USER}")
        say(f"    kvno -k {folder}/www.keytab {SERVICE}")
        say(f"Serving for {words.seconds} seconds." if words.seconds is not None else "Serving until Ctrl-C.")
        realm.server.wait(words.seconds)
        raise Failed("the server ended")
    except subprocess.TimeoutExpired:
        pass
    finally:
        realm.stop()


def main():
    parser = argparse.ArgumentParser(description=__doc__, formatter_class=argparse.RawDescriptionHelpFormatter)
    parser.add_argument("--seconds", type=float, help="how long the realm is served at the end")
    parser.add_argument("--port", type=int, default=8888)
    parser.add_argument("--programs", type=pathlib.Path, help="takes built programs from this folder")
    words = parser.parse_args()
    signal.signal(signal.SIGTERM, lambda *_: sys.exit(1))
    folder = pathlib.Path(tempfile.mkdtemp(prefix="realm-"))
    try:
        programs = words.programs or TOP / "out" / "unproved"
        if not words.programs:
            build(programs)
        os.umask(0o077)
        show(folder, programs.resolve(), words)
    except KeyboardInterrupt:
        say()
    except Failed as failed:
        sys.exit(f"demo: {failed}")
    finally:
        shutil.rmtree(folder, ignore_errors=True)


if __name__ == "__main__":
    main()
