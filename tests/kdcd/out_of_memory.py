"""A server that runs out of memory: single allocations that fail, and a limit that many connections reach."""

import contextlib
import pathlib
import re
import resource
import socket

from harness import staged_realm as realm
from harness.faults import refuse_each, refusing
from harness.processes import SLOWNESS
from harness.server import Server
from harness.stage import T, ask, Staged, turn
from harness.tests import test
from harness.wire import answer, place_of

# How many allocations of a server fail while it serves four requests, but for one, one in a run.
SERVED = 36

def hold_memory(server, count):
    """Sends the front of a long request on each of this many connections. Returns them."""
    peers = []
    for _ in range(count):
        peer = socket.create_connection(place_of(server.addresses[1][1]), 5 * SLOWNESS)
        with contextlib.suppress(OSError):
            peer.sendall((65_000).to_bytes(4, "big") + bytes(64_000))
        peers.append(peer)
    return peers


@test("kdcd", trial=Staged)
def limit_of_data(trial):
    """Requests for which there is no memory: a line a minute, and all is well afterwards."""
    trial.enter()
    server = trial.server("--first")
    before, said = len(server.said()), lambda: server.said()[before:]
    wanted = r"(kdcd: memory ran out: [1-9]\d* requests were left unanswered\n)"
    status = pathlib.Path(f"/proc/{server.process.pid}/status").read_text()
    used = 1024 * int(re.search(r"VmData:\s*(\d+) kB", status)[1])
    resource.prlimit(server.process.pid, resource.RLIMIT_DATA, (used, resource.RLIM_INFINITY))
    for second, lines in ((0, 1), (59, 1), (60, 2)):
        trial.show(T + second)
        for peer in hold_memory(server, 40):
            peer.close()
        server.wait(lambda: re.fullmatch(wanted * lines, said()), 5)
        turn(server)
        found = said()
        trial.note(
            f"memory runs out, {second} seconds later: {lines} lines",
            "" if re.fullmatch(wanted * lines, found) else repr(found)
        )
    trial.same("a login after memory ran out", answer(ask(server, realm.LOGIN)), "ticket")
    server.end()


@test("kadm", "kdcd", seconds=5)
def commands(trial):
    """Allocations of a server that ends at once."""
    trial.realm()
    refuse_each(trial, "kdcd serve --db database --udp 127.0.0.1:0 --rounds 0 --first")


@test("kadm", "kdcd", seconds=10)
def serving(trial):
    """Allocations of a running server: a request for which one fails may get no ticket, and all others get theirs."""
    trial.realm()
    environment = refusing(trial)
    trial.run("kdcd serve --db database --udp 127.0.0.1:0 --tcp 127.0.0.1:0 --rounds 0 --first", env=environment)
    begun, faults, hurt = int((trial.folder / "counted").read_text()), [], 0
    for number in range(1, SERVED):
        server = Server(trial, environment={**environment, "REFUSED": str(begun + number)})
        found = [server.answer("v", 1) for _ in range(4)]
        status, lost = server.end(), len(found) - found.count("ticket")
        hurt += lost
        if lost > 1 or status != -15:
            faults.append(f"{number}: {found}, status {status}")
    what = f"kdcd serve: {SERVED - 1} failed allocations while it serves, which cost {hurt} tickets"
    trial.note(what, "; ".join(faults[:3]))
