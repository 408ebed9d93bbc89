#!/usr/bin/env python3
"""Measures for how long `kdcd serve --journal` is away when it is started on a long journal. Linux and Python 3 alone
are needed.

    python3 bench/measure_long_restart.py [--kdcd crates/kdcd/out/kdcd] [--rate N] [--starts N] [--records N ..]

For each number of records it writes a journal as a server leaves it that got this many requests a second until now: the
records of the last ten minutes in the newer file, and those of the ten minutes before in the older one. Each request
has an authenticator of its own, of the second in which it came. It prints how many milliseconds pass from a start to
the first reply, the median of the starts, and how much memory the server then has. It ends with status 1 if a start did
not resume."""

import argparse
import itertools
import os
import pathlib
import re
import signal
import socket
import statistics
import subprocess
import sys
import tempfile
import time

import harness_path
from harness.journal_texts import Header, appended, check_of
from harness.kerberos import as_req, field, integer, name, octet_string, sequence, time_of
from harness.processes import RUNNING, ending
from harness.wire import free_port
from measure_server import KEY, REALM, database_text, row

BOOT = pathlib.Path("/proc/sys/kernel/random/boot_id").read_text().strip().encode()
# The clients take turns. The files do, too, after this many seconds.
CLIENTS, TURN = 1_000, 600


def entry_writer():
    """A function that writes entries of the clients fast: only their times and numbers differ."""
    names = [field(0, name(1, b"filler%d" % number)) for number in range(CLIENTS)]
    ages = field(3, integer(0))

    def written(client, second, turn):
        return sequence(names[client], field(1, time_of(second)), field(2, integer(turn)), ages)

    return written


def file_text(header, moments, written):
    """The text of a file with an entry for each moment: a second and a number in it."""
    text, check = appended(header.link, header.written())
    texts = [text]
    for second, turn in moments:
        element = written(turn % CLIENTS, second, turn)
        check = check_of(check, element)
        texts += [octet_string(element), octet_string(check)]
    return b"".join(texts), check


def write_journal(folder, records, rate):
    """Writes the two files of a journal. Returns how many of its authenticators are not too old."""
    now, written = int(time.time()), entry_writer()
    seconds = range(now - (records + rate - 1) // rate + 1, now + 1)
    moments = list(itertools.islice(itertools.product(seconds, range(rate)), records))
    turned = next((place for place, (second, _) in enumerate(moments) if second > now - TURN), records)
    older, newer = moments[:turned], moments[turned:]
    begun = seconds[0]
    check, floor = b"", begun - 300
    if older:
        text, check = file_text(Header(REALM, BOOT, begun, floor, b""), older, written)
        (folder / "journal.old").write_bytes(text)
        begun, floor = newer[0][0], older[-1][0] + 1
    text, _ = file_text(Header(REALM, BOOT, begun, floor, check), newer, written)
    (folder / "journal").write_bytes(text)
    for path in folder.glob("journal*"):
        path.chmod(0o600)


def start(kdcd, folder):
    """Starts a server. Gives the seconds until its first reply, what it says, and its memory in MB."""
    address = ("127.0.0.1", free_port())
    words = [kdcd, "serve", "--db", "database", "--udp", "%s:%d" % address, "--journal", "journal"]
    begun = time.perf_counter()
    with open(folder / "errors", "wb") as errors:
        process = subprocess.Popen(words, cwd=folder, stdout=subprocess.DEVNULL, stderr=errors)
    RUNNING.append(process)
    with socket.socket(socket.AF_INET, socket.SOCK_DGRAM) as peer:
        peer.connect(address)
        peer.settimeout(0.01)
        while process.poll() is None:
            try:
                peer.send(as_req(REALM, b"nobody"))
                peer.recv(65536)
                break
            except OSError:
                time.sleep(0.001)
    passed = time.perf_counter() - begun
    status = pathlib.Path(f"/proc/{process.pid}/status").read_text() if process.poll() is None else ""
    process.send_signal(signal.SIGTERM)
    process.wait()
    memory = re.search(r"VmHWM:\s*(\d+) kB", status)
    return passed, (folder / "errors").read_text(), int(memory[1]) / 1000 if memory else 0


def main():
    words = argparse.ArgumentParser(description=__doc__, formatter_class=argparse.RawDescriptionHelpFormatter)
    words.add_argument("--kdcd", default="crates/kdcd/out/kdcd")
    words.add_argument("--rate", type=int, default=1_000)
    words.add_argument("--starts", type=int, default=5)
    words.add_argument("--records", type=int, nargs="+", default=[0, 100_000, 300_000, 600_000, 1_200_000])
    words = words.parse_args()
    has_failed = False
    for records in words.records:
        with tempfile.TemporaryDirectory() as folder, ending():
            folder = pathlib.Path(folder)
            (folder / "database").write_text(database_text({"krbtgt/EXAMPLE.COM": row("00" * 32)}))
            (folder / "database").chmod(0o600)
            write_journal(folder, max(1, records), words.rate)
            size = sum(path.stat().st_size for path in folder.glob("journal*"))
            found = [start(os.path.abspath(words.kdcd), folder) for _ in range(words.starts)]
            said = re.findall(r"kdcd: journal journal: (.*)", found[0][1])
            has_failed |= any("journal journal: resumed with" not in each for _, each, _ in found)
            away = statistics.median(passed for passed, *_ in found)
            memory = max(memory for *_, memory in found)
            print(f"{records} records, {size / 1e6:.0f} MB: {away * 1e3:.0f} ms until the first reply, {memory:.0f} MB "
                  f"at most; it says {said}", flush=True)
    sys.exit(1 if has_failed else 0)


if __name__ == "__main__":
    main()
