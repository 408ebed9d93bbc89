#!/usr/bin/env python3
"""Measures a service whose keytab is replaced under load: `example_service`. It needs only Linux and Python 3.

    python3 bench/measure_rotation.py [--service crates/example_service/out/example_service] [--rate N] [--rotations N]

--rate AP-REQs a second come in for --rotations + 1 seconds. Each second but the first begins with a new keytab: the
next key version beside the two before it. The AP-REQs have tickets under the newest version and the one before in
turns, of as many clients as the service's replay caches take. It ends with status 1 if one was not accepted, if the
last one is accepted again, or if a version that the keytab lost still counts."""

import argparse
import multiprocessing
import os
import subprocess
import sys
import tempfile
import threading
import time

import harness_path
from harness.kerberos import (
    ap_req, authenticator, field, general_string, integer, name, octet_string, sealed, sequence, time_of, tlv
)
from harness.processes import RUNNING, ending

REALM, SERVICE, ETYPE = b"EXAMPLE.COM", (b"host", b"www.example.com"), 18
# How many AP-REQs one client sends: fewer than its replay cache takes in five minutes.
EACH = 500
# How many versions a keytab has.
KEPT = 3


def counted(octets):
    return len(octets).to_bytes(2, "big") + octets


def keytab(keys):
    """MIT's format, version 2, of these keys by version."""
    entries = []
    for version, key in keys.items():
        principal = len(SERVICE).to_bytes(2, "big") + counted(REALM) + b"".join(map(counted, SERVICE))
        principal += (2).to_bytes(4, "big")
        entry = principal + bytes(4) + bytes([version]) + ETYPE.to_bytes(2, "big") + counted(key)
        entry += version.to_bytes(4, "big")
        entries.append(len(entry).to_bytes(4, "big") + entry)
    return b"\5\2" + b"".join(entries)


def replace(path, octets):
    with open(path + ".new", "wb") as file:
        file.write(octets)
    os.rename(path + ".new", path)


def ticket(key, version, client, session_key, now):
    """A ticket (section 5.3) for ten hours under a version of the service's key."""
    part = tlv(0x63, sequence(
        field(0, tlv(0x03, b"\0\0\0\0\0")),
        field(1, sequence(field(0, integer(ETYPE)), field(1, octet_string(session_key)))),
        field(2, general_string(REALM)),
        field(3, name(1, client)),
        field(4, sequence(field(0, integer(1)), field(1, octet_string(b"")))),
        field(5, time_of(now)),
        field(7, time_of(now + 36000)),
    ))
    encrypted = sequence(
        field(0, integer(ETYPE)), field(1, integer(version)), field(2, octet_string(sealed(key, 2, part)))
    )
    return tlv(0x61, sequence(
        field(0, integer(5)), field(1, general_string(REALM)), field(2, name(2, *SERVICE)), field(3, encrypted)
    ))


def lines_of(key, version, client, numbers, now):
    """AP-REQs of one client with a ticket under one version, as the service reads them."""
    session_key = os.urandom(32)
    shown = ticket(key, version, client, session_key, now)
    made = lambda number: ap_req(shown, session_key, 11, authenticator(REALM, client, now, number))
    return [(number, made(number).hex().encode() + b"\n") for number in numbers]


def prepared(keys, rate, now):
    """All AP-REQs in order: in each second those under the newest version and under the one before it in turns."""
    by_version = {}
    for number in range(rate * len(keys)):
        newest = number // rate + 1
        by_version.setdefault(max(1, newest - number % 2), []).append(number)
    jobs, client = [], 0
    for version, numbers in by_version.items():
        for place in range(0, len(numbers), EACH):
            jobs.append((keys[version], version, b"user%d" % client, numbers[place:place + EACH], now))
            client += 1
    with multiprocessing.Pool() as pool:
        return [line for _, line in sorted(pair for pairs in pool.starmap(lines_of, jobs) for pair in pairs)], client


class Answers(threading.Thread):
    """The service's answers, and when each came."""

    def __init__(self, stdout):
        super().__init__()
        self.stdout, self.said, self.came = stdout, [], []

    def run(self):
        for line in self.stdout:
            self.came.append(time.perf_counter())
            self.said.append(line.decode().strip())


def send_all(stdin, path, keys, lines, rate):
    """Sends at a steady rate, and replaces the keytab at the start of each second but the first. Returns when each was
    sent."""
    sent, start = [], time.perf_counter()
    for number, line in enumerate(lines):
        while time.perf_counter() < start + number / rate:
            time.sleep(0.0002)
        newest, of_second = divmod(number, rate)
        if newest and not of_second:
            kept = range(max(1, newest + 2 - KEPT), newest + 2)
            replace(path, keytab({version: keys[version] for version in kept}))
        sent.append(time.perf_counter())
        stdin.write(line)
        stdin.flush()
    return sent


def judge(lines, answers, sent):
    """Prints what came, and returns how many answers are wrong."""
    *said, again, old = answers.said
    waits = sorted(1000 * (came - at) for came, at in zip(answers.came, sent))
    refused = [line for line in said if not line.startswith("accepted ")]
    took = sent[-1] - sent[0]
    print(f"{len(said)} AP-REQs in {took:.1f} s, {len(said) / took:.0f} a second: {len(said) - len(refused)} accepted")
    half, most = waits[len(waits) // 2], waits[len(waits) * 99 // 100]
    print(f"an answer took {half:.2f} ms at the median, {most:.2f} for 99 of 100, {waits[-1]:.2f} at most")
    for line in sorted(set(refused)):
        print(f"{refused.count(line)} times: {line}")
    print(f"the last one again: {again}; one under a version that the keytab lost: {old}")
    missing = len(lines) - len(said)
    are_wrong = again != "refused 34 KRB_AP_ERR_REPEAT", old != "refused 44 KRB_AP_ERR_BADKEYVER"
    return len(refused) + missing + sum(are_wrong)


def main():
    words = argparse.ArgumentParser(description=__doc__, formatter_class=argparse.RawDescriptionHelpFormatter)
    words.add_argument("--service", default="crates/example_service/out/example_service")
    words.add_argument("--rate", type=int, default=1_000)
    words.add_argument("--rotations", type=int, default=10)
    words = words.parse_args()
    keys = {version: os.urandom(32) for version in range(1, words.rotations + 2)}
    now = int(time.time())
    lines, clients = prepared(keys, words.rate, now)
    print(f"{len(lines)} AP-REQs of {clients} clients; the keytab is replaced {words.rotations} times")
    with tempfile.TemporaryDirectory() as folder, ending():
        path = os.path.join(folder, "keytab")
        replace(path, keytab({1: keys[1]}))
        service = subprocess.Popen([words.service, path, "first"], stdin=subprocess.PIPE, stdout=subprocess.PIPE)
        RUNNING.append(service)
        answers = Answers(service.stdout)
        answers.start()
        sent = send_all(service.stdin, path, keys, lines, words.rate)
        [(_, of_first)] = lines_of(keys[1], 1, b"late", [0], now)
        service.stdin.write(lines[-1] + of_first)
        service.stdin.close()
        answers.join()
        service.wait()
        sys.exit(1 if judge(lines, answers, sent) else 0)


if __name__ == "__main__":
    main()
