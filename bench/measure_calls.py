#!/usr/bin/env python3
"""Measures calls by `bench`: each word again and again, in turns with other builds of it, and in turns on the
processors. It needs only Linux and Python 3.

    python3 bench/measure_calls.py BENCH [BENCH ..] [--turns N] [--words WORD ..]

BENCH is the path of a `bench` that was built. For each word and build it prints the nanoseconds of processor time for a
call: the least over all turns, and the fifth least, which shows how far the least can be trusted."""

import argparse
import os
import re
import subprocess

SHORT = [
    "block", "cts", "seal-17", "seal-18", "seal-19", "seal-20", "read-request", "write-error", "as", "as-preauth",
    "tgs", "tgs-repeat", "accept", "accept-many",
]
LONG = [
    "pbkdf2-sha1", "pbkdf2-sha384", "string-17", "string-18", "string-19", "string-20", "tgs-full", "tgs-full-early",
    "accept-new", "read-rows", "write-rows",
]


def measured(bench, word, processor):
    """The nanoseconds for a call, as the program prints them."""
    pin = lambda: os.sched_setaffinity(0, {processor})
    ran = subprocess.run([bench, word], capture_output=True, text=True, preexec_fn=pin, check=True)
    return int(re.match(r"(\d+) ns a call", ran.stdout)[1])


def main():
    words = argparse.ArgumentParser(description=__doc__.split("\n")[0])
    words.add_argument("bench", nargs="+")
    words.add_argument("--turns", type=int, default=12)
    words.add_argument("--words", nargs="+", default=[*SHORT, *LONG])
    given = words.parse_args()
    processors = sorted(os.sched_getaffinity(0))
    print("word", *given.bench, sep="\t")
    for word in given.words:
        turns = given.turns if word in SHORT else max(3, given.turns // 4)
        found = [[] for _ in given.bench]
        for turn in range(turns):
            for at, bench in enumerate(given.bench):
                found[at].append(measured(bench, word, processors[turn % len(processors)]))
        print(word, *[f"{sorted(of)[0]} ({sorted(of)[min(4, turns - 1)]})" for of in found], sep="\t", flush=True)


if __name__ == "__main__":
    main()
