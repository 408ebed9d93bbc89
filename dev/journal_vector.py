#!/usr/bin/env python3
"""Prints the journal that the tests of `journal` expect (`crates/base_tests/src/realm/journals.rt`), one element a
line.

It is written from docs/FORMATS.md alone: a few lines for DER, and SHA-256 from hashlib."""

import hashlib


def tlv(tag, contents):
    assert len(contents) < 128
    return bytes([tag, len(contents)]) + contents


def field(number, element):
    return tlv(0xA0 + number, element)


def octets(contents):
    return tlv(0x04, contents)


def integer(number):
    return tlv(0x02, number.to_bytes(number.bit_length() // 8 + 1, "big", signed=True))


def time(text):
    return tlv(0x18, text.encode())


def name(number, *components):
    strings = b"".join(tlv(0x1B, component.encode()) for component in components)
    return tlv(0x30, field(0, integer(number)) + field(1, tlv(0x30, strings)))


def checked(before, element):
    check = hashlib.sha256(before + element).digest()[:16]
    print((octets(element) + octets(check)).hex())
    return check


def header(realm, boot, at, floor, link):
    fields = field(
        0, octets(realm)
    ), field(1, octets(boot)), field(2, time(at)), field(3, time(floor)), field(4, octets(link))
    return tlv(0x30, b"".join(fields))


def entry(client, ctime, cusec, age):
    return tlv(0x30, field(0, client) + field(1, time(ctime)) + field(2, integer(cusec)) + field(3, integer(age)))


CHECK = checked(b"", header(b"A.B", b"boot", "20240101000000Z", "20240101000501Z", b""))
CHECK = checked(CHECK, entry(name(1, "u"), "20240101000000Z", 7, 1))
CHECK = checked(CHECK, entry(name(1, "u"), "20240101000500Z", 999999, -298))
