"""`kclient` against programs in a KDC's place."""

import itertools
import socket

from harness.hostile import (
    KEYS, connection, datagram, drip, entry, error, framed, from_elsewhere, Kdc, late, no_connection, no_datagram,
    number, wanted, wants_key,
)
from harness.tests import test
from kclient.hostile import CACHE, Hostile
from kclient.hostile_octets import NOT_A_REPLY

# The outcome of the parameters of string-to-key in the first error 25. A weak count ends the command before it encrypts
# a timestamp; a count that is accepted leads to a second request.
WEAK = "refused WeakCount", "fewer iterations of string-to-key"
OUT_OF_RANGE = "refused CountTooLarge", "more iterations of string-to-key"
COUNTS = (
    *((etype, 1, WEAK) for etype in (17, 18, 19, 20)),
    *((etype, 4095, WEAK) for etype in (17, 18)),
    *((etype, 32767, WEAK) for etype in (19, 20)),
    *((etype, count, OUT_OF_RANGE) for etype in (17, 18, 19, 20) for count in (0, (1 << 20) + 1, (1 << 32) - 1)),
)
# The types of the entries of ETYPE-INFO2. The first type that a client supports decides.
ENTRIES = ((18,), (18, 17), (23, 18, 17), (17, 18))


def expect_keys(hostile):
    """Keys from passwords, by entries with the salt, and by entries without it, where it is the default one."""
    hostile.write("pw.raeburn", "password\n")
    options = (
        "--realm", "ATHENA.MIT.EDU", "--name", "raeburn", "--password-file", "pw.raeburn", "--least-count", "1"
    )
    for types, salt in itertools.product(ENTRIES, (b"ATHENA.MIT.EDUraeburn", None)):
        first = next(etype for etype in types if etype in KEYS)
        entries = [entry(etype, number(1), salt) for etype in types]
        kdc = Kdc(wants_key(first, *entries), no_connection)
        what = f"a key by entries of the types {types}, {'with' if salt else 'without'} a salt"
        hostile.expect_kinit(what, [kdc], options, (1, "refused 6", "error 6", 0, 0), (2, 0))
    kdc = Kdc(datagram(wanted(entry(23, number(1)))), no_connection)
    said = "the KDC names no key of the client with one of the encryption types 17 to 20"
    hostile.expect_kinit("an entry of type 23 alone", [kdc], options, (1, "refused CannotOpen", said, 0, 0), (1, 0))


@test("kclient", trial=Hostile, seconds=100)
def answers(hostile):
    """Programs in a KDC's place."""
    hostile.enter("answers")
    hostile.write("pw", "a password\n")
    hostile.write("cc", CACHE)
    hello, tcp = b"hello", ("--tcp",)
    not_a_reply = (1, *NOT_A_REPLY)
    silence = (3, "failed", "no reply in time")
    with socket.create_server(("127.0.0.1", 0)) as closed:
        nowhere = f"127.0.0.1:{closed.getsockname()[1]}"
    hostile.expect_kinit("nobody listens", [nowhere], tcp, (3, "failed", "efused", 0, 0))
    kdc = Kdc(no_datagram, connection(framed(bytes(1 << 24))))
    hostile.expect_kinit("a reply of 16 MiB over TCP", [kdc], tcp, (3, "failed", kdc.address, 0, 0), (0, 1))
    kdc = Kdc(no_datagram, connection(framed(bytes((1 << 20) + 1))))
    hostile.expect_kinit("one octet more than the longest", [kdc], tcp, (3, "failed", kdc.address, 0, 0), (0, 1))
    kdc = Kdc(no_datagram, connection(framed(bytes(1 << 20))))
    hostile.expect_kinit("the longest reply, of zeros", [kdc], tcp, (*not_a_reply, 0, 0), (0, 1))
    kdc = Kdc(no_datagram, connection(framed(error(6))[:-1]))
    hostile.expect_kinit("a reply that ends an octet early", [kdc], tcp, (3, "failed", kdc.address, 0, 0), (0, 1))
    kdc = Kdc(no_datagram, connection(b""))
    hostile.expect_kinit("a connection that is closed", [kdc], tcp, (3, "failed", kdc.address, 0, 0), (0, 1))
    kdc = Kdc(no_datagram, drip)
    hostile.expect_kinit("an octet every half second", [kdc], tcp, (*silence, 7.9, 8), (0, 1))
    kdc = Kdc(datagram(hello), no_connection)
    hostile.expect_kinit("hello by UDP", [kdc], (), (*not_a_reply, 0, 0), (1, 0))
    kdc = Kdc(no_datagram, connection(framed(hello)))
    hostile.expect_kinit("hello by TCP", [kdc], tcp, (*not_a_reply, 0, 0), (0, 1))
    kdc = Kdc(no_datagram, connection(framed(hello)))
    hostile.expect_kinit("no datagram is answered, then hello by TCP", [kdc], (), (*not_a_reply, 6.9, 7), (3, 1))
    for etype, count, (out, said) in COUNTS:
        kdc = Kdc(datagram(wanted(entry(etype, number(count)))), no_connection)
        hostile.expect_kinit(f"a count of {count} of type {etype}", [kdc], (), (1, out, said, 0, 0), (1, 0))
    for etype, params in itertools.product((17, 18, 19, 20), (b"", b"\0\0\x10", b"\0\0\x10\0\0", bytes(1000))):
        kdc = Kdc(datagram(wanted(entry(etype, params))), no_connection)
        what = f"s2kparams of {len(params)} octets of type {etype}"
        hostile.expect_kinit(what, [kdc], (), (1, *OUT_OF_RANGE, 0, 0), (1, 0))
    expect_keys(hostile)
    kdc = Kdc(datagram(wanted(entry(18, number(1)))), no_connection)
    least = ("--least-count", "1")
    hostile.expect_kinit("a count of 1 that is asked for", [kdc], least, (1, "refused 25", "error 25", 0, 0), (2, 0))
    kdc = Kdc(datagram(wanted(entry())), no_connection)
    hostile.expect_kinit("error 25 again and again", [kdc], (), (1, "refused 25", "error 25", 0, 0), (2, 0))
    kdc = Kdc(datagram(wanted(*[entry(23)] * 999, entry())), no_connection)
    hostile.expect_kinit("an ETYPE-INFO2 of 1,000 entries", [kdc], (), (1, "refused 25", "error 25", 0, 0), (2, 0))
    kdc = Kdc(datagram(wanted(*[entry(18, number(1))] * 1000)), no_connection)
    hostile.expect_kinit("1,000 entries with a count of 1", [kdc], (), (1, *WEAK, 0, 0), (1, 0))
    kdc = Kdc(datagram(error(34)), no_connection)
    hostile.expect_kinit("error 34 without a timestamp", [kdc], (), (1, "refused 34", kdc.address, 0, 0), (1, 0))
    for code in (29, 37):
        kdcs = [Kdc(datagram(error(code)), no_connection), Kdc(datagram(error(6)), no_connection)]
        said = f"{kdcs[1].address}: error 6"
        hostile.expect_kinit(f"error {code}, and the next KDC", kdcs, (), (1, "refused 6", said, 0, 0), (1, 0))
        kdcs = [Kdc(datagram(error(code)), no_connection), Kdc(datagram(error(29)), no_connection)]
        said = f"{kdcs[0].address}: error {code}"
        hostile.expect_kinit(f"error {code}, and error 29", kdcs, (), (1, f"refused {code}", said, 0, 0), (1, 0))
    for ahead, said in ((3600, "seconds ahead of this"), (-3600, "seconds behind this")):
        kdc = Kdc(datagram(error(37, ahead=ahead)), no_connection)
        hostile.expect_kinit(f"error 37 again and again, {said}", [kdc], (), (1, "refused 37", said, 0, 0), (2, 0))
    kdc = Kdc(datagram(error(37, ahead=-(1 << 32))), no_connection)
    hostile.expect_kinit("error 37 with a year before 1970", [kdc], (), (1, "refused 37", "error 37", 0, 0), (1, 0))
    kdc = Kdc(datagram(error(6), 1.5), no_connection)
    hostile.expect_kinit("a reply after a second and a half", [kdc], (), (1, "refused 6", kdc.address, 1.4, 2))
    kdc = Kdc(datagram(error(52)), connection(framed(hello)))
    hostile.expect_kinit("error 52 by UDP, then hello by TCP", [kdc], (), (*not_a_reply, 0, 0), (1, 1))
    kdc = Kdc(datagram(error(52)), connection(framed(error(52))))
    hostile.expect_kinit("error 52 also by TCP", [kdc], (), (1, "refused 52", kdc.address, 0, 0), (1, 1))
    kdc = Kdc(from_elsewhere, connection(framed(hello)))
    hostile.expect_kinit("a datagram from another port", [kdc], (), (*not_a_reply, 6.9, 7), (3, 1))
    kdc = Kdc(late, connection(framed(wanted(entry()))))
    hostile.expect_kinit("a late reply to the request before", [kdc], (), (1, "refused 24", "error 24", 6.9, 7), (4, 1))
    kdc = Kdc(no_datagram, no_connection)
    hostile.expect_kinit("silence", [kdc], (), (*silence, 14.9, 15), (3, 1))
    kdcs = [Kdc(no_datagram, no_connection), Kdc(datagram(hello), no_connection)]
    end = (1, "refused NotAReply", f"{kdcs[1].address}: the bytes that came back", 14.9, 15)
    hostile.expect_kinit("silence, and hello of the next KDC", kdcs, (), end, (3, 1))
    kdcs = [Kdc(no_datagram, no_connection) for _ in range(4)]
    hostile.expect_kinit("silence of four KDCs", kdcs, (), (*silence, 29.9, 30), (3, 1))
