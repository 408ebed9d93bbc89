"""A command at a terminal of its own, which shows what is typed unless its echo is off."""

import contextlib
import fcntl
import os
import pty
import select
import signal
import termios
import time

from harness.processes import SLOWNESS, family, kill
from harness.programs import TOP

# The folder of the programs in the scripts of docs/ that hide what is typed, and the settings of kadm's.
USUAL, SETTINGS = "/usr/local/libexec/plovertrunk/", "/etc/default/kadm"


def put_script(trial, name, folder):
    """Puts the script that hides what is typed into a folder, for a program of the trial. Returns its path."""
    text = (TOP / "docs" / f"{name}.sh").read_text()
    place = folder / name
    program = trial.programs[name]
    trial.same(f"the script names {name}", text.count(f"{USUAL}{name}"), 1)
    place.write_text(text.replace(f"{USUAL}{name}", program).replace(SETTINGS, str(folder / "settings")))
    place.chmod(0o755)
    return str(place)


def take_terminal():
    """Takes standard input as the terminal of the session, and its signals, which a shell's `&` has turned off."""
    fcntl.ioctl(0, termios.TIOCSCTTY, 0)
    for number in (signal.SIGINT, signal.SIGQUIT):
        signal.signal(number, signal.SIG_DFL)


class Terminal:
    """A command whose standard streams are a terminal, which can interrupt it."""

    def __init__(self, trial, words):
        self.shown = b""
        self.master, slave = pty.openpty()
        self.process = trial.start(
            words, stdin=slave, stdout=slave, stderr=slave, start_new_session=True, preexec_fn=take_terminal
        )
        os.close(slave)

    def has_echo(self):
        """Whether it shows what is typed."""
        return bool(termios.tcgetattr(self.master)[3] & termios.ECHO)

    def read(self, seconds):
        """Reads what is shown within this time. Returns whether there was anything."""
        ready = select.select([self.master], [], [], seconds)[0]
        # Reading a terminal that nobody has open fails.
        with contextlib.suppress(OSError):
            octets = os.read(self.master, 4096) if ready else b""
            self.shown += octets
            return bool(octets)
        return False

    def wait_for(self, text, times=1):
        """Waits until the text is shown this many times. Returns whether it is."""
        end = time.monotonic() + 20 * SLOWNESS
        while self.shown.decode(errors="replace").count(text) < times and time.monotonic() < end:
            self.read(0.05)
        return self.shown.decode(errors="replace").count(text) >= times

    def type(self, text):
        os.write(self.master, text.encode())

    def kill_program(self, number):
        """Sends a signal to the program that the command has started."""
        for pid in family(self.process.pid)[1:]:
            with contextlib.suppress(ProcessLookupError):
                os.kill(pid, number)

    def end(self):
        """Waits until the command ends. Returns its status, all that was shown, and whether there is an echo."""
        end = time.monotonic() + 20 * SLOWNESS
        while self.process.poll() is None and time.monotonic() < end:
            self.read(0.05)
        while self.read(0):
            pass
        status, has_echo = self.process.poll(), self.has_echo()
        kill(self.process)
        os.close(self.master)
        return status, self.shown.decode(errors="replace").replace("\r", ""), has_echo


def expect_hidden(trial, words, typed, status, shown):
    """Runs a command at a terminal, and types each of these lines when it asks for a password. What is typed is never
    among what is shown."""
    terminal = Terminal(trial, words)
    echoes = []
    for number, line in enumerate(typed, 1):
        if not terminal.wait_for("Password for ", number):
            break
        echoes.append(terminal.has_echo())
        terminal.type(line)
    trial.same(f"{words[1:]}: what is shown, and the echo after it", terminal.end(), (status, shown, True))
    trial.same(f"{words[1:]}: the echo while it asks", echoes, [False] * len(typed))


def expect_restored(trial, words, asked):
    """Ends a command at a terminal while it asks, in each way. The echo is on then, and nothing typed was shown."""
    ways = {
        "Ctrl-C": (lambda terminal: terminal.type("half\x03"), 130),
        "Ctrl-\\": (lambda terminal: terminal.type("half\x1c"), 131),
        "a kill of the program": (lambda terminal: terminal.kill_program(signal.SIGKILL), 128 + signal.SIGKILL),
        "a SIGTERM to the program": (lambda terminal: terminal.kill_program(signal.SIGTERM), 128 + signal.SIGTERM),
        "the end of the input": (lambda terminal: terminal.type("\x04"), 3),
    }
    for way, (act, status) in ways.items():
        terminal = Terminal(trial, words)
        trial.same(f"{way}: it asks", terminal.wait_for(asked), True)
        trial.same(f"{way}: the echo is off", terminal.has_echo(), False)
        act(terminal)
        found, shown, has_echo = terminal.end()
        trial.same(f"{way}: the status, and the echo after it", (found, has_echo), (status, True))
        trial.same(f"{way}: what was typed is shown", "half" in shown, False)
        if status == 130:
            trial.same("the line of the question ends", shown, f"{asked}\n")
