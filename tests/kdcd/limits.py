"""Each option of `kdcd serve`, its limits at their ends, and requests to servers with them."""

import collections
import os
import pathlib
import re
import socket
import time

from harness.kerberos import key_of, ticket_in
from harness.options import MOST
from harness.server import Server
from harness.tests import test
from harness.wire import REALM, answer, ask_tcp, ask_udp, datagrams, free_port, login


@test("kadm", "kdcd")
def ends(trial):
    """Each option of `kdcd serve`, its limits at their ends, and starts that fail."""
    trial.realm()
    limits = ("lock-after", "lock-seconds", "greatest-life", "greatest-renewable")
    for name, ends in {"remembered": (1, 65536), "kept": (0, 65535), **dict.fromkeys(limits, (0, MOST))}.items():
        for end in ends:
            seconds = " --lock-seconds 9" if name == "lock-after" and end else ""
            words = f"kdcd serve --db database --udp 127.0.0.1:0 --rounds 0 --{name} {end}{seconds}"
            trial.expect(words, 0, f"{name} {end}", "=served 0 0 0")
    spans = "--greatest-life 10h --greatest-renewable 7d --lock-seconds 5m"
    limits = "lock-seconds 300, greatest-life 36000, greatest-renewable 604800"
    trial.expect(f"kdcd serve --db database --udp 127.0.0.1:0 --rounds 0 {spans}", 0, limits, "=served 0 0 0")
    port, nine = free_port(), " ".join(["--udp 127.0.0.1:0"] * 9)
    with socket.socket(type=socket.SOCK_DGRAM) as taken:
        taken.bind(("127.0.0.1", port))
        trial.cases(f"""
            kdcd serve --db database --rounds 0 --tcp 127.0.0.1:0 -> 0 =served 0 0 0; with 5 rows
            kdcd serve --db database --rounds 0 --udp 127.0.0.1:0 --seed seed --fixed --log --first -> 0 =served 0 0 0
            kdcd serve --db database --udp 127.0.0.1:{port} -> 3 =failed; udp 127.0.0.1:{port}: 
            kdcd serve --db database {nine} -> 2 --udp; 8
            kdcd serve --db database --udp 127.0.0.1:0 --lock-after 3 -> 2 --lock-after needs --lock-seconds
            kdcd serve --db text --udp 127.0.0.1:0 -> 1 =refused NotJson; text: invalid JSON at line 1 column
            kdcd serve --db none --udp 127.0.0.1:0 -> 3 =failed; none: No such file
            kdcd serve --db . --udp 127.0.0.1:0 -> 3 =failed
            kdcd serve --db database --seed short --udp 127.0.0.1:0 -> 1 =refused ShortSeed; short: 
            kdcd serve --db database --seed none --udp 127.0.0.1:0 -> 3 =failed; none: No such file
            kdcd serve --db database --seed /dev/zero --udp 127.0.0.1:0 -> 3 =failed; /dev/zero: it is no file
        """)


@test("kadm", "kdcd", "kclient", seconds=10)
def served(trial):
    """Requests to servers with limits."""
    trial.realm()
    server = trial.serve("--first --remembered 1")
    trial.cases("KINIT u --password-file pw -> 0 =ok\nKVNO h -> 0 =h kvno 1\nKVNO host/n -> 1 =refused 29")
    status = server.end()
    trial.note("SIGTERM ends a server at once", "" if status == -15 else f"status {status}")
    wrong, right = "KINIT u --password-file other -> 1 =refused 24\n", "KINIT u --password-file pw -> 0 =ok\n"
    most = f"--rounds {MOST} --remembered 65536 --lock-after {MOST} --lock-seconds {MOST}"
    trial.with_server(f"--first {most}", f"{4 * wrong}{right}KVNO h --name host/n -> 0 h kvno 1; host/n kvno 1")
    locked = f"{wrong}KINIT u --password-file pw -> 1 =refused 18"
    trial.with_server(f"--first --lock-after 1 --lock-seconds {MOST}", locked)
    trial.with_server("--first --lock-after 1 --lock-seconds 0", f"{wrong}sleep 1.1 -> 0\n{right}")
    for life in (1, 60, 86400):
        server = trial.serve(f"--first --greatest-life {life} --greatest-renewable {life}")
        trial.cases("KINIT u --renewable --password-file pw -> 0 =ok")
        ends = re.search(r"from (\S+) till (\S+)", trial.run("kclient klist --cache cc").out)
        lived = seconds_of(ends[2]) - seconds_of(ends[1]) if ends else None
        trial.note(f"--greatest-life {life} is the ticket's life", "" if lived == life else f"it is {lived}")
        server.end()
    longest = "KINIT u --life 86400 --password-file pw -> 0 =ok\nKINIT u --password-file pw -> 1 =refused TooLate"
    trial.with_server(f"--first --greatest-life {MOST} --greatest-renewable {MOST}", longest)
    trial.with_server("--first --greatest-life 0", "KINIT u --password-file pw -> 1 =refused 11")
    trial.with_server("", f"{right}KVNO h -> 1 =refused 37")
    # A login as before. The client asks the next KDC for a ticket if a quiet one does not answer.
    other = Server(trial, "--first")
    trial.with_server("--quiet-start", f"{right}KVNO h --kdc {other.udp} -> 0 =h kvno 1")
    other.end()


def seconds_of(text):
    return time.mktime(time.strptime(text, "%Y-%m-%dT%H:%M:%SZ"))


@test("kadm", "kdcd")
def seeds(trial):
    """The first tickets of two servers with one seed have the same session key. Another seed makes another key, and so
    does the system."""
    trial.realm()
    trial.write("another", os.urandom(32))
    keys = [first_key(trial, words) for words in ("--seed seed", "--seed seed", "--seed another", "", "")]
    is_right = None not in keys and keys[0] == keys[1] and len({*keys}) == 4
    trial.note("--seed decides the keys of tickets, else they are the system's", "" if is_right else f"not so: {keys}")


def first_key(trial, words):
    """The session key of a server's first ticket."""
    server = Server(trial, f"--first {words}")
    reply = ask_tcp(server.addresses[1][1], login("v"))
    server.end()
    return ticket_in(key_of(b"a password", REALM.encode() + b"v"), reply)[1] if answer(reply) == "ticket" else None


@test("kadm", "kdcd", "kclient")
def addresses(trial):
    """Eight addresses. The server answers on each."""
    trial.realm()
    interfaces = pathlib.Path("/proc/net/if_inet6")
    six = "[::1]" if interfaces.exists() and " lo\n" in interfaces.read_text() else ""
    if not six:
        trial.leave("IPv6, which this machine has not")
    hosts = ["127.0.0.1", "127.0.0.2", "127.0.0.3", six or "127.0.0.4"]
    served = trial.serve("--first " + " ".join(f"--{kind} {host}:0" for kind in ("udp", "tcp") for host in hosts))
    kinds = collections.Counter(kind for kind, _ in served.addresses)
    trial.note("eight addresses are named", "" if kinds == {"udp": 4, "tcp": 4} else served.said())
    for kind, address in served.addresses:
        if kind == "udp":
            with datagrams(address) as peer:
                found = answer(ask_udp(peer, login("v")))
        else:
            found = answer(ask_tcp(address, login("v")))
        trial.note(f"{kind} {address} answers", "" if found == "ticket" else found)
        way = " --tcp" if kind == "tcp" else ""
        trial.cases(f"kclient kinit --kdc {address}{way} --realm A.B --name u --password-file pw --cache cc -> 0 =ok")
    again = " ".join(f"--{kind} {address}" for kind, address in served.addresses)
    served.end()
    served = trial.serve(again)
    trial.note("the next run takes the same ports at once", "" if served.is_up else served.said())
    served.end()
