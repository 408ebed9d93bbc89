"""`dev/demo.py` over the built programs: it makes a realm, logs in and gets a ticket, and shows what it does."""

import pathlib
import re
import socket
import subprocess
import sys

from harness.programs import TOP
from harness.tests import test

PROGRAMS = ("kdcd", "kadm", "kclient")
# What it prints, in this order: commands, what they say, and lines of the log.
SHOWN = (
    "\n# The database gets ",
    "$ kadm init --db database --realm EXAMPLE.COM\nok\n",
    "$ printf 'a password\\n' | kadm add --db database --name alice\nok\n",
    "\n# The KDC. ",
    "$ kdcd serve --db database --udp 127.0.0.1:",
    "  | kdcd: serving on udp 127.0.0.1:",
    "\n# alice logs in. ",
    "$ printf 'a password\\n' | kclient kinit alice\n",
    " as alice krbtgt/EXAMPLE.COM ticket ",
    "\n# With that ticket ",
    "$ kclient kvno host/www.example.com --keytab www.keytab\n",
    " tgs alice host/www.example.com ticket ",
    "\n# The tickets that she has now",
    "$ kclient klist\nprincipal alice@EXAMPLE.COM\n",
    "To log in from another terminal, ",
    "Serving for 0.3 seconds.\n",
)


def missing(printed):
    """The first text of those above that is not there, behind the ones before it."""
    place = 0
    for text in SHOWN:
        place = printed.find(text, place)
        if place < 0:
            return f"{text!r} is missing in {printed!r}"
    return ""


@test("kdcd", "kadm", "kclient", seconds=10)
def shows_a_realm(trial):
    """All that it prints, at a port that is taken; and that its folder is gone at the end."""
    trial.enter("programs")
    for name in PROGRAMS:
        (trial.folder / name).symlink_to(trial.programs[name])
    with socket.create_server(("127.0.0.1", 0)) as taken:
        port = taken.getsockname()[1]
        words = ["--seconds", "0.3", "--programs", trial.folder, "--port", str(port)]
        ran = subprocess.run(
            [sys.executable, TOP / "dev/demo.py", *words], stdout=subprocess.PIPE, stderr=subprocess.STDOUT, text=True,
            timeout=60
        )
    trial.note("what it prints", missing(ran.stdout) or f"status {ran.returncode}" * (ran.returncode != 0))
    trial.note("another port than the one that is taken", "it is used" * (f"127.0.0.1:{port}" in ran.stdout))
    folder = re.search(r"A realm in (\S+)\. ", ran.stdout)
    trial.note("its folder", "" if folder and not pathlib.Path(folder[1]).exists() else "it is still there")
