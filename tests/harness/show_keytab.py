#!/usr/bin/env python3
"""Prints the entries of a keytab (docs/FORMATS.md) with their keys: `NAME@REALM VERSION TYPE KEY`. It uses no code of
this repository.

    PYTHONPATH=tests python3 tests/harness/show_keytab.py KEYTAB"""

import io
import pathlib
import sys


def entries(octets):
    """The bytes of each entry. Before an entry is its length; one below zero is that of a hole, and zero is the end."""
    rest = io.BytesIO(octets[2:])
    while length := int.from_bytes(rest.read(4), "big", signed=True):
        found = rest.read(abs(length))
        if length > 0:
            yield found


def line(entry):
    """The line for the bytes of an entry."""
    rest = io.BytesIO(entry)
    number = lambda size: int.from_bytes(rest.read(size), "big")
    text = lambda: rest.read(number(2))
    count = number(2)
    realm, *name = [text().decode() for _ in range(1 + count)]
    # The type of the name, and the time.
    rest.read(8)
    version, etype, key = number(1), number(2), text()
    return f"{'/'.join(name)}@{realm} {number(4) or version} {etype} {key.hex()}"


def main():
    octets = pathlib.Path(sys.argv[1]).read_bytes()
    if octets[:2] != b"\5\2":
        sys.exit(f"{sys.argv[1]}: this is not a keytab of version 2")
    print(*map(line, entries(octets)), sep="\n")


if __name__ == "__main__":
    main()
