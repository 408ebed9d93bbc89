"""Processes that tests start: how long each may take, and that none outlives its test."""

import contextlib
import os
import pathlib
import signal
import subprocess
import sys


def processors():
    """The number of processors that this process may use. A container may have a part of them."""
    found = len(os.sched_getaffinity(0))
    with contextlib.suppress(OSError, ValueError):
        quota, period = pathlib.Path("/sys/fs/cgroup/cpu.max").read_text().split()
        found = min(found, max(1, int(quota) // int(period)))
    return found


def slowness():
    """How many times longer something may take than on an idle machine with six processors: three times with two
    processors, more if other processes run too."""
    return min(8.0, max(1.0, 6 / processors(), os.getloadavg()[0] / processors()))


# Each time limit is multiplied by this. A least time is not.
SLOWNESS = slowness()
# How many seconds a program may take.
PATIENCE = 60 * SLOWNESS
RUNNING = []


def family(pid):
    """A process and all its descendants."""
    parents = {}
    for stat in pathlib.Path("/proc").glob("[0-9]*/stat"):
        # A process that has ended in the meantime has no file.
        with contextlib.suppress(OSError):
            parents.setdefault(
                int(stat.read_text(errors="replace").rpartition(")")[2].split()[1]), []
            ).append(int(stat.parent.name))
    found = [pid]
    for each in found:
        found += parents.get(each, ())
    return found


def kill(process):
    """Kills a process and all its descendants."""
    if process.poll() is None:
        for pid in family(process.pid):
            with contextlib.suppress(ProcessLookupError):
                os.kill(pid, signal.SIGKILL)
    process.wait()


def end_all():
    while RUNNING:
        kill(RUNNING.pop())


def on_signals(handler):
    """Handles the signals that end a script. A signal that is ignored, as by `nohup`, stays ignored."""
    for number in (signal.SIGTERM, signal.SIGINT, signal.SIGHUP):
        if signal.getsignal(number) != signal.SIG_IGN:
            signal.signal(number, handler)


@contextlib.contextmanager
def ending():
    """Kills at its end everything that was started, even if an error or a signal ends the script."""
    on_signals(lambda number, _: sys.exit(128 + number))
    try:
        yield
    finally:
        end_all()


class Ran:
    """A command that has ended. It has no status if it did not end in time."""

    def __init__(self, process, given, seconds):
        try:
            octets = process.communicate(given, seconds * SLOWNESS)
            self.status = process.returncode
        except subprocess.TimeoutExpired:
            kill(process)
            octets = process.communicate()
            self.status = None
        self.out, self.err = [(each or b"").decode(errors="replace") for each in octets]

    def fault(self, status, *texts):
        """What is wrong, unless the command has this status and each of these texts: `=TEXT` is all of standard output,
        and any other text is anywhere on standard output or standard error."""
        is_said = lambda text: self.out == text[1:] + "\n" if text[:1] == "=" else text in self.out + self.err
        if self.status == status and all(map(is_said, texts)):
            return ""
        ended = "does not end" if self.status is None else f"status {self.status}"
        wanted = ", ".join([f"status {status}", *map(repr, texts)])
        return f"{ended}, prints {self.out[:160]!r}, says {self.err[:160]!r}; wanted: {wanted}"
