"""A tracer, by which a command is killed at one of its calls of the system."""

import shutil
import signal
import subprocess

from harness.processes import PATIENCE

# The end of a command that strace kills; strace then ends itself by the same signal.
KILLED = (-signal.SIGKILL, 128 + signal.SIGKILL)


def killing(name, turn):
    """The words that run a command and kill it at this call with this name. strace counts the calls of each name by
    itself."""
    return ("strace", "-o", "/dev/null", "-e", f"inject={name}:signal=KILL:when={turn}")


def lacking():
    """What this machine lacks, if anything."""
    if not shutil.which("strace"):
        return "strace"
    how = {
        "stdin": subprocess.DEVNULL, "stdout": subprocess.DEVNULL, "stderr": subprocess.PIPE, "text": True,
        "timeout": PATIENCE
    }
    ran = subprocess.run([*killing("exit_group", 1), "true"], **how)
    ended = f"status {ran.returncode}: {ran.stderr.strip()[-100:]!r}"
    return "" if ran.returncode in KILLED else f"an strace that may trace and kill here ({ended})"
