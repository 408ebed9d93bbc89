#!/usr/bin/env python3
"""Measures `kadm batch` with many users beside the time of their keys alone. It needs Linux and Python 3.

    python3 bench/measure_batch.py [--kadm crates/kadm/out/kadm] [--users N]

A batch that adds the users with a password each is run, and one that adds as many principals with random keys, which
takes all but the keys of the passwords. The difference is the time of these keys. Times are of a processor, in user
mode and in the system. Standard error is a terminal: the script also prints how many lines of progress came, and in how
many seconds."""

import argparse
import os
import pathlib
import pty
import subprocess
import sys
import tempfile
import threading
import time


def read_all(terminal, into):
    """Reads what a terminal shows, to its end."""
    try:
        while octets := os.read(terminal, 65536):
            into.append(octets)
    except OSError:
        pass


def run_batch(kadm, folder, lines):
    """Runs a batch. Returns its seconds of a processor and by the clock, and how many lines of progress it showed."""
    init = [kadm, "init", "--db", folder / "database", "--realm", "EXAMPLE.COM"]
    subprocess.run(init, check=True, stdout=subprocess.DEVNULL)
    ours, theirs = pty.openpty()
    shown, before, begun = [], os.times(), time.monotonic()
    words, how = [kadm, "batch", "--db", folder / "database"], {"stdin": subprocess.PIPE, "stdout": subprocess.PIPE}
    with subprocess.Popen(words, stderr=theirs, **how) as run:
        os.close(theirs)
        reader = threading.Thread(target=read_all, args=(ours, shown))
        reader.start()
        out, _ = run.communicate("".join(lines).encode())
    reader.join()
    took, after = time.monotonic() - begun, os.times()
    (folder / "database").unlink()
    if run.returncode or out != b"ok\n":
        sys.exit(f"status {run.returncode}, {out!r}, {b''.join(shown)!r}")
    used = after.children_user + after.children_system - before.children_user - before.children_system
    return used, took, b"".join(shown).count(b"kadm: line ")


def main():
    words = argparse.ArgumentParser(description=__doc__, formatter_class=argparse.RawDescriptionHelpFormatter)
    words.add_argument("--kadm", default="crates/kadm/out/kadm", type=pathlib.Path)
    words.add_argument("--users", default=300, type=int)
    words = words.parse_args()
    with tempfile.TemporaryDirectory() as name:
        folder, users = pathlib.Path(name), range(words.users)
        for user in users:
            (folder / f"{user}.password").write_text(f"the password of {user}\n")
        kadm = words.kadm.resolve()
        of_passwords = [f"add --name u{user} --password-file {folder}/{user}.password\n" for user in users]
        used, took, shown = run_batch(kadm, folder, of_passwords)
        others, _, _ = run_batch(kadm, folder, [f"add --name u{user} --random\n" for user in users])
    keys = used - others
    print(f"{words.users} users: {used:.2f} s of a processor, {took:.2f} s by the clock, {shown} lines of progress")
    print(f"their keys alone: {keys:.2f} s of a processor; the batch takes {used / keys:.3f} x as long")


if __name__ == "__main__":
    main()
