"""`kdcd` without its standard streams."""

import signal
import socket
import time

from harness.processes import PATIENCE, SLOWNESS
from harness.tests import test
from harness.wire import answer, ask_udp, free_port, login

# What closes each standard stream in a shell.
CLOSED = "0<&- 1>&- 2>&-"


def is_up(place, seconds=60):
    """Whether a server answers at this port within this time: error 6, since nobody has the name."""
    end = time.monotonic() + seconds * SLOWNESS
    while time.monotonic() < end:
        with socket.socket(type=socket.SOCK_DGRAM) as peer:
            peer.connect(("127.0.0.1", place))
            peer.settimeout(1)
            if answer(ask_udp(peer, login("nobody"), 1)) == "6":
                return True
    return False


@test("kadm", "kdcd", seconds=10)
def missing(trial):
    """A file that a server opens never takes the place of a standard stream that it was started without: what it logs
    is in no file."""
    trial.realm()
    before = (trial.folder / "database").read_bytes()
    place = free_port()
    options = f"serve --db database --first --journal --log --udp 127.0.0.1:{place}"
    server = trial.start(["sh", "-c", f"exec {trial.programs['kdcd']} {options} {CLOSED}"])
    trial.note("it serves", "" if is_up(place) else "it does not answer")
    words = f"exec {trial.programs['kadm']} random --db database --name h {CLOSED}"
    trial.expect(["sh", "-c", words], 0)
    server.send_signal(signal.SIGTERM)
    server.wait(PATIENCE)
    found = {path.name: path.read_bytes() for path in trial.folder.glob("*.lock")}
    trial.same("each lock is empty", set(found.values()), {b""})
    trial.same("there is a journal's lock", "database.journal.lock" in found, True)
    trial.expect("kadm list --db database --like h", 0, "=h 2 18,17,20,19")
    is_changed = (trial.folder / "database").read_bytes() != before
    trial.note("the database is another", "" if is_changed else "it is the same")
