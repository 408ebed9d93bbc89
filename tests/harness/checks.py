"""What a test notes: the checks that passed, those that failed, and what it left out."""

import subprocess
import sys
import threading


class Differs(Exception):
    """A result differs from the expected one."""


def expect(what, found, wanted):
    if found != wanted:
        raise Differs(f"{what}: {found!r}, and not {wanted!r}")


def differs(found, wanted):
    """The fault of a result that is another one than expected; none if it is that one."""
    return f"{found!r}, and not {wanted!r}" * (found != wanted)


class Notes:
    """Counts the checks that passed and failed, and prints a line for each. Threads may share it."""

    def __init__(self):
        self.right, self.wrong, self.alone = 0, 0, threading.Lock()

    def note(self, what, fault=""):
        shown = f"{'WRONG' if fault else 'ok   '} {what}{': ' * bool(fault)}{fault}"
        with self.alone:
            self.right, self.wrong = self.right + (not fault), self.wrong + bool(fault)
            print(shown.encode("ascii", "backslashreplace").decode(), flush=True)

    def check(self, what, call, *given):
        """Calls a function that raises `Differs` if something is wrong."""
        try:
            call(*given)
            self.note(what)
        except (Differs, OSError, subprocess.SubprocessError) as fault:
            self.note(what, str(fault) or type(fault).__name__)

    def leave(self, what):
        print(f"left  {what}", flush=True)

    def add(self, others):
        """Counts the checks of others, too."""
        self.right, self.wrong = self.right + others.right, self.wrong + others.wrong

    def end(self):
        """Prints the last line and ends the script, with status 1 if a check failed."""
        print(f"{self.right} passed, {self.wrong} failed")
        sys.exit(1 if self.wrong else 0)
