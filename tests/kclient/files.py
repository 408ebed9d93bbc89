"""The files beside the command lines of `commands.py`: keytabs and caches (docs/FORMATS.md), with keys by RFC 3962, and
`krb5.conf`s."""

import time

from harness.hostile import EMPTY, counted, number
from harness.kerberos import (
    field, general_string as text_of, integer, key_of, name as name_of, octet_string, sequence, tlv,
)

REALM = b"A.B"

U, V, H = (key_of(b"password", REALM + each) for each in (b"u", b"v", b"h"))
W, W_17 = bytes(range(0x40, 0x60)), bytes(range(0x60, 0x70))
NO_KEY, NO_KEY_17 = bytes(32), bytes(16)


def short(value):
    return value.to_bytes(2, "big")


def short_counted(octets):
    return short(len(octets)) + octets


def key_entry(names, version, etype, key, at=0, whole=True):
    """An entry of a keytab (docs/FORMATS.md). The version also has four bytes, unless it is not whole."""
    front = short(len(names)) + short_counted(REALM) + b"".join(map(short_counted, names)) + number(1) + number(at)
    return counted(
        front + bytes([version & 0xFF]) + short(etype) + short_counted(key) + (number(version) if whole else b"")
    )


def keytab(*entries):
    return b"\5\2" + b"".join(key_entry((client,), *rest) for client, *rest in entries)


def named(names, realm=REALM, kind=1):
    """A principal of a cache."""
    return number(kind) + number(len(names)) + counted(realm) + b"".join(map(counted, names))


def held(client, server, typed_key, times, flags, ticket):
    """A credential of a cache. Its key has its type before it."""
    etype, key = typed_key
    front = client + server + short(etype) + counted(key) + b"".join(map(number, times)) + b"\0" + number(flags)
    return front + number(0) * 2 + counted(ticket) + number(0)


def ticket(names, realm=REALM, etype=18):
    """A ticket whose encrypted part is four zeros."""
    sealed = sequence(field(0, integer(etype)), field(1, integer(1)), field(2, octet_string(bytes(4))))
    return tlv(
        0x61, sequence(field(0, integer(5)), field(1, text_of(realm)), field(2, name_of(2, *names)), field(3, sealed))
    )


# 2024-01-01 00:00:00, an hour, ten hours and a week later.
MIDNIGHT = 1_704_067_200
HOUR, TEN_HOURS, WEEK = (MIDNIGHT + hours * 3600 for hours in (1, 10, 168))
GRANTING = (b"krbtgt", REALM)
OF_U, OF_GRANTING = named((b"u",)), named(GRANTING, kind=2)
NOW = int(time.time())
TIMES = (NOW, NOW, NOW + 36_000, 0)

# A cache as MIT's library writes it, with a header and a setting of the library: a ticket-granting ticket; a ticket of
# a service whose name has a line feed, `@`, `/` and `\`, without a start, encrypted under another type's key; and one
# of `v` in `C D`, with all flags, the last end, and bytes that are no ticket.
LISTED = (
    b"\5\4\0\x0c\0\1\0\x08" + bytes(8) + OF_U
    + held(
        OF_U, named((b"krb5_ccache_conf_data", b"pa_type", b"krbtgt/A.B@A.B"), b"X-CACHECONF:", 0), (0, b""),
        (0, 0, 0, 0), 0, b"2"
    )
    + held(OF_U, OF_GRANTING, (18, b"k" * 32), (MIDNIGHT, MIDNIGHT, TEN_HOURS, WEEK), 0x40E00000, ticket(GRANTING))
    + held(
        OF_U, named((b"host", b"a\nb@/\\c"), kind=3), (17, b"k" * 16), (MIDNIGHT, 0, HOUR, 0), 0,
        ticket((b"host", b"x"), etype=20)
    )
    + held(
        named((b"v",), b"C D"), named((b"h",), b"C D"), (23, b"k" * 16), (MIDNIGHT, MIDNIGHT + 60, (1 << 32) - 1, 0),
        0x7FFC8000, b"hello"
    )
)
# An entry with a version of four bytes, a hole, one of type 23, and one with a version of one byte, whose name has a
# line feed.
LISTED_KEYS = (
    b"\5\2" + key_entry((b"host", b"www.a.b"), 300, 18, b"k" * 32, MIDNIGHT) + b"\xff\xff\xff\xfa" + bytes(6)
    + key_entry(
        (b"host", b"www.a.b"), 300, 23, b"k" * 16, MIDNIGHT
    ) + key_entry((b"u\n",), 2, 17, b"k" * 16, MIDNIGHT, False)
)

# A `krb5.conf` as a site may have it: a comment of each kind, another section and relation before, blanks and tabs,
# lines that end with a carriage return, groups in groups, a realm that is there twice, another way, a brace on a line
# of its own, values between quotation marks, and a last line without a line feed.
SITE = """# a site
; of two realms
[logging]
 default_realm = NO.SUCH
[libdefaults]\r
\tdns_lookup_kdc = false\r
\tdefault_realm=A.B \t\r
 # default_realm = C
 default_realm = D
 kdc = 127.0.2.99
 [realms]
C = {
  kdc = 127.0.2.7:750
  v4_instance_convert = {
    kdc = 127.0.2.98
    A.B = {
    }
  }
  kdc = [::1]
}
kdc = 127.0.2.97
A.B = {
  admin_server = admin.example.com
  kdc = tcp/127.0.2.96
  KDC = 127.0.2.95
  kdc = 127.0.2.1
  kdc = https://kdc.example.com/KdcProxy
  kdc = [::1]:89
}
E =
  # of two
{
  kdc = "127.0.2.5"
  kdc = kdc..example.com:88
}
[domain_realm]
A.B = {
  kdc = 127.0.2.94
}
[realms]
A.B = {
  kdc = 127.0.2.2:0"""

# The KDC of the realm.
REALMS = "[realms]\nA.B = {\nkdc = FIRST\n}\n"

# The files that stand beside a command. `FIRST` and `SECOND` are addresses, and `HOST` is the name of a host with them.
FILES = {
    "seed": bytes([7]) * 40, "seed2": bytes([8]) * 32, "short": bytes([7]) * 31,
    "pass": b"password\nmore", "wrong": b"passw0rd", "long": b"a" * 1025,
    # It is made longer than any file may be.
    "big": b"",
    "empty": EMPTY, "cut": b"\5\4\0",
    # Of a keytab the key with the greatest version counts.
    "keys": keytab(
        (b"u", 1, 18, NO_KEY), (b"u", 2, 18, U), (b"u", 3, 17, NO_KEY_17), (b"v", 2, 18, V), (b"h", 1, 18, H),
        (b"v", 1, 18, NO_KEY),
    ),
    "old": keytab(
        (b"u", 1, 18, U), (b"u", 2, 18, NO_KEY), (b"v", 1, 18, V), (b"v", 2, 18, NO_KEY), (b"h", 1, 18, NO_KEY)
    ),
    "other": keytab((b"u", 1, 17, NO_KEY_17), (b"h", 2, 18, H)),
    "twotypes": keytab((b"w", 1, 18, W), (b"w", 1, 17, W_17)),
    "type17": keytab((b"w", 1, 17, W_17)),
    # The key of an entry has one byte.
    "broken": keytab((b"h", 1, 17, b"k", 0, False)),
    # Its ticket can't be presented: the key has another type, or it is no ticket.
    "oddkey": b"\5\4\0\0" + OF_U + held(OF_U, OF_GRANTING, (23, b"k" * 16), TIMES, 0x400000, ticket(GRANTING)),
    "noticket": b"\5\4\0\0" + OF_U + held(OF_U, OF_GRANTING, (18, b"k" * 32), TIMES, 0x400000, b"hello"),
    "listed": LISTED, "listedcut": LISTED[:100], "listedkeys": LISTED_KEYS,
    # A realm `N` has hosts without an address: no resolver is asked for a name with two dots in a row.
    "conf": """# the realm of the tests
[libdefaults]
    default_realm = A.B

[realms]
    A.B = {
        kdc = tcp/192.0.2.9
        kdc = FIRST
        kdc = SECOND
    }
    N = {
        kdc = x..example.com
        kdc = y..example.com:750
    }
""",
    "odd":
        "[libdefaults]\n    default_realm =\n[realms]\n    X = {\n        kdc = a b\x1b[@..c\n    }\n"
        "    Y = {\n        kdc =\n    }\n",
    # The default realm stands in one file of a folder.
    "named":
        'includedir conf.d\n[realms]\n    A.B =\n    {\n        kdc = x..example.com\n'
        '        kdc = "HOST:PORT"\n    }\n',
    "conf.d/.a.conf": "[libdefaults]\ndefault_realm = NOT.READ\n",
    "conf.d/b.conf": "[libdefaults]\ndefault_realm = A.B",
    "conf.d/c.conf~": "[libdefaults]\ndefault_realm = NOT.READ\n",
    "gone": "include conf.d/nowhere\n",
    # A name that is never looked up, since the KDC before it answers.
    "late": "[libdefaults]\ndefault_realm = A.B\n[realms]\nA.B = {\nkdc = FIRST\nkdc = x..example.com\n}\n",
    # Files that include files, and one that includes itself.
    "deep": "include deep1\n", "deep1": "include deep2\n", "deep2": "include deep3\n",
    "deep3": "[libdefaults]\ndefault_realm = A.B\n" + REALMS,
    "loop": "[libdefaults]\ndefault_realm = A.B\n" + REALMS + "include loop\n",
    "devices": "include /dev/zero\ninclude conf.d\n[libdefaults]\ndefault_realm = A.B\n" + REALMS,
    # Settings of first tickets and of the cache.
    "settings": "[libdefaults]\ndefault_realm = A.B\nticket_lifetime = 2h\nrenew_lifetime = 1d 1h\nforwardable = Yes\n"
    "default_ccache_name = FILE:cc\n" + REALMS,
    "kcm": "[libdefaults]\ndefault_ccache_name = KCM:\n",
    "tokens":
        "[libdefaults]\ndefault_realm = A.B\nticket_lifetime = 2 hours\n"
        "default_ccache_name = /tmp/%{username}\n" + REALMS,
    "temp": "[libdefaults]\ndefault_ccache_name = FILE:%{TEMP}/a%b%{TEMP}/none\n",
    "bare": "[realms]\n",
    "site": SITE,
    "nothing": "", "unclosed": "[libdefaults", "twice": "[libdefaults\ndefault_realm = A = B",
}
