"""The order in which a start reads and opens what it needs; starts that fail; files that are accepted and refused."""

import contextlib
import os
import re
import socket

from harness import staged_realm as realm
from harness.databases import VERSION
from harness.processes import SLOWNESS
from harness.stage import ask, Staged
from harness.tests import test
from harness.wire import answer, free_port, login

# The longest file of a seed.
LONGEST_SEED = 16_777_216
# The steps of a start, by the calls that show them.
STEPS = {
    "open database": "rows", "statx none": "rows", "open seed": "seed", "open short": "seed", "getentropy": "random",
    "bind": "sockets",
    "open run/journal.lock": "journal", "clock_gettime": "clock",
}
# The options of a start, and its steps in order.
STARTS = {
    "": "rows random sockets clock", "--first": "rows random sockets clock", "--seed seed": "rows seed sockets clock",
    "--journal run/journal": "rows random sockets journal clock",
}


def steps_of(trial, words, status, *texts):
    """The steps of a start, and what is wrong, unless it ends with this status and prints these texts."""
    trial.write("stage/calls", "")
    ran = trial.run(f"kdcd serve --udp 127.0.0.1:0 --rounds 0 {words}")
    calls = trial.calls()
    return " ".join(dict.fromkeys(STEPS[call] for call in calls if call in STEPS)), ran.fault(status, *texts)


@test("kdcd", trial=Staged)
def order(trial):
    """The order in which a start reads and opens what it needs, and starts that fail."""
    trial.enter()
    (trial.folder / "run").mkdir()
    trial.write("seed", bytes([7] * 33))
    trial.write("short", bytes([7] * 31))
    for words, wanted in STARTS.items():
        found = steps_of(trial, f"--db database {words}", 0, "with 4 rows")
        trial.same(f"a start with '{words}': {wanted}", found, (wanted, ""))
    port = free_port()
    with socket.socket(type=socket.SOCK_DGRAM) as taken:
        taken.bind(("127.0.0.1", port))
        for words, wanted, status, text in (
            ("--db none", "rows", 3, "none: No such file"),
            ("--db database --seed short", "rows seed", 1, "short: the seed has fewer than 32 bytes"),
            (f"--db database --seed seed --udp 127.0.0.1:{port}", "rows seed sockets", 3, f"udp 127.0.0.1:{port}: "),
        ):
            trial.same(f"a start that fails after {wanted}", steps_of(trial, words, status, text), (wanted, ""))
    trial.set("FAILS", "clock_gettime")
    found = steps_of(trial, "--db database --seed seed", 3, "=failed", "the clock: Input/output error")
    trial.same("a start whose clock fails", found, ("rows seed sockets clock", ""))


# What is wrong with a database, in the words of `kadm` too.
WHY = {
    "NotJson": "this is not a database: its text is not a JSON object",
    "BadVersion": "this is not a database of a version that this program reads",
    "BadRow": "its realm or one of its rows is invalid",
    "NoTicketGranter": "it has no row for krbtgt/REALM",
}


@test("kdcd", trial=Staged)
def files(trial):
    """Databases and seeds that are accepted and refused."""
    trial.enter()
    for what, text, refusal in (
        ("is no UTF-8", b'{"realm":"\xff"}', "NotJson"), ("is no object", "[]", "NotJson"),
        ("has a later version", f'{{"version":{VERSION + 1}}}', "BadVersion"),
        ("has no realm", '{"principals":{},"version":3}', "BadRow"),
        ("has no row of krbtgt", '{"principals":{},"realm":"A.B","version":3}', "NoTicketGranter"),
    ):
        trial.write("refused", text)
        ran = trial.run("kdcd serve --db refused --udp 127.0.0.1:0")
        # Where in the text it is wrong may stand on a line before.
        found = ran.status, ran.out, ran.err.splitlines()[-1:]
        wanted = 1, f"refused {refusal}\n", [f"kdcd: refused: {WHY[refusal]}"]
        trial.same(f"a database that {what}: {refusal}", found, wanted)
    replies = []
    for name, text in {
        "32": bytes([7] * 32), "40": bytes([7] * 32 + [8] * 8), "another": bytes([7] * 31 + [8])
    }.items():
        trial.write(name, text)
        server = trial.server(f"--first --seed {name}")
        replies.append(ask(server, realm.LOGIN))
        server.end()
    is_right = answer(replies[0]) == "ticket" and replies[0] == replies[1] != replies[2]
    trial.note("a seed is the first 32 bytes of its file", "" if is_right else str(replies))
    longer = 1, "refused LongFile\n", "kdcd: longest: the file is too long\n"
    for length, wanted in ((LONGEST_SEED, (0, "served 0 0 0\n")), (LONGEST_SEED + 1, longer)):
        trial.write("longest", b"")
        os.truncate(trial.folder / "longest", length)
        ran = trial.run("kdcd serve --db database --udp 127.0.0.1:0 --rounds 0 --seed longest")
        trial.same(f"a seed's file of {length} bytes", (ran.status, ran.out, ran.err)[:len(wanted)], wanted)


def asked_at(host, port):
    """The address from which the system sends the reply to a datagram that came to this one."""
    with socket.socket(type=socket.SOCK_DGRAM) as peer:
        peer.settimeout(5 * SLOWNESS)
        peer.sendto(login("nobody"), (host, port))
        return peer.recvfrom(65536)[1][0]


@test("kdcd", trial=Staged)
def wildcards(trial):
    """Each address for datagrams that stands for all of the host has a line at the start. Replies leave from another
    address there than the one that was asked, and else from that one."""
    trial.enter()
    every, first, second = free_port(), free_port(), free_port()
    server = trial.server(
        f"--first --udp 0.0.0.0:{every} --udp 127.0.0.1:{first} --udp 127.0.0.2:{second} --tcp 0.0.0.0:{every}"
    )
    said = server.said()
    line = (
        f"kdcd: udp 0.0.0.0:{every}: replies leave from the address that the system picks, and clients that asked at "
        "another drop them; name the host's addresses instead: at most 8 of --udp and --tcp in all\n"
    )
    trial.same("one of three addresses for datagrams has its line, behind those of all", (
        said.count("replies leave from"), re.search(r"kdcd: serving on .*\n(.*\n)", said)[1]
    ), (1, line))
    found = [asked_at(host, port) for host, port in (("127.0.0.2", every), ("127.0.0.1", first), ("127.0.0.2", second))]
    trial.same("where replies leave", found, ["127.0.0.1", "127.0.0.1", "127.0.0.2"])
    server.end()
    with contextlib.suppress(OSError):
        socket.create_server(("::", 0), family=socket.AF_INET6).close()
        server = trial.server(f"--first --udp [::]:{every}")
        trial.same("the same of IPv6", server.said().count(f"kdcd: udp [::]:{every}: replies leave from "), 1)
        server.end()
