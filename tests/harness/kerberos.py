"""The part of Kerberos that is needed to measure a KDC, in plain Python: DER, encryption types 17 and 18 (RFC 3961 and
RFC 3962), and the requests of a client (RFC 4120), of type 18. It uses nothing of this repository's own code, and is
too slow and too trusting for any other use. If Python has the module `cryptography`, AES comes from there."""

import functools
import hashlib
import hmac
import math
import os
import time
import typing

try:
    from cryptography.hazmat.primitives.ciphers import Cipher
    from cryptography.hazmat.primitives.ciphers.algorithms import AES
    from cryptography.hazmat.primitives.ciphers.modes import CBC
except ImportError:
    Cipher = None

# DER.


def tlv(tag, *contents):
    contents = b"".join(contents)
    length = len(contents)
    if length < 128:
        return bytes([tag, length]) + contents
    octets = length.to_bytes((length.bit_length() + 7) // 8, "big")
    return bytes([tag, 0x80 | len(octets)]) + octets + contents


def integer(value):
    return tlv(0x02, value.to_bytes(value.bit_length() // 8 + 1, "big", signed=True))


def field(number, *contents):
    return tlv(0xA0 + number, *contents)


def sequence(*contents):
    return tlv(0x30, *contents)


def octet_string(octets):
    return tlv(0x04, octets)


def general_string(text):
    return tlv(0x1B, text)


def time_of(seconds):
    return tlv(0x18, time.strftime("%Y%m%d%H%M%SZ", time.gmtime(seconds)).encode())


def name(kind, *parts):
    return sequence(field(0, integer(kind)), field(1, sequence(*[general_string(part) for part in parts])))


def elements(octets):
    """The elements in the bytes, as tags and contents."""
    found = []
    while octets:
        tag, length, start = octets[0], octets[1], 2
        if length & 0x80:
            start = 2 + (length & 0x7F)
            length = int.from_bytes(octets[2:start], "big")
        found.append((tag, octets[start:start + length]))
        octets = octets[start + length:]
    return found


def fields(octets):
    """The fields of a SEQUENCE in a tag, by their numbers."""
    [(_, contents)] = elements(octets)
    if contents[0] == 0x30:
        [(_, contents)] = elements(contents)
    return {tag - 0xA0: value for tag, value in elements(contents)}


# AES (FIPS 197), with keys of 16 or 32 bytes.


def times_x(octet):
    return (octet << 1) ^ (0x11B if octet & 0x80 else 0)


def product(a, b):
    total = 0
    while b:
        total, a, b = total ^ (a if b & 1 else 0), times_x(a), b >> 1
    return total


def substitute(octet):
    inverse = next((other for other in range(256) if product(octet, other) == 1), 0)
    turned = [(inverse << count | inverse >> (8 - count)) & 0xFF for count in range(5)]
    return 0x63 ^ turned[0] ^ turned[1] ^ turned[2] ^ turned[3] ^ turned[4]


def column(octet, factors):
    return int.from_bytes(bytes(product(octet, factor) for factor in factors), "big")


BOX = [substitute(octet) for octet in range(256)]
UNBOX = [BOX.index(octet) for octet in range(256)]
# The columns of MixColumns and InvMixColumns, each for the byte in one row.
MIX = [[column(BOX[octet], (2, 1, 1, 3)[-row:] + (2, 1, 1, 3)[:-row]) for octet in range(256)] for row in range(4)]
UNMIX = [[column(octet, (14, 9, 13, 11)[-row:] + (14, 9, 13, 11)[:-row]) for octet in range(256)] for row in range(4)]


@functools.lru_cache(1024)
def round_keys(key):
    """The 11 or 15 round keys, of four words each."""
    words = [int.from_bytes(key[place:place + 4], "big") for place in range(0, len(key), 4)]
    length, constant = len(words), 1
    for place in range(length, 4 * length + 28):
        word = words[-1]
        if place % length == 0:
            word = (word << 8 | word >> 24) & 0xFFFFFFFF
        if place % length == 0 or length == 8 and place % 4 == 0:
            word = int.from_bytes(bytes(BOX[octet] for octet in word.to_bytes(4, "big")), "big")
        if place % length == 0:
            word, constant = word ^ constant << 24, times_x(constant)
        words.append(words[place - length] ^ word)
    return [words[place:place + 4] for place in range(0, len(words), 4)]


def encrypt_block(keys, block):
    state = [int.from_bytes(block[4 * c:4 * c + 4], "big") ^ keys[0][c] for c in range(4)]
    for key in keys[1:-1]:
        state = [
            MIX[0][state[c] >> 24] ^ MIX[1][state[(c + 1) % 4] >> 16 & 0xFF] ^ MIX[2][state[(c + 2) % 4] >> 8 & 0xFF]
            ^ MIX[3][state[(c + 3) % 4] & 0xFF] ^ key[c]
            for c in range(4)
        ]
    last = [
        BOX[state[c] >> 24] << 24 | BOX[state[(
            c + 1
        ) % 4] >> 16 & 0xFF] << 16 | BOX[state[(c + 2) % 4] >> 8 & 0xFF] << 8
        | BOX[state[(c + 3) % 4] & 0xFF]
        for c in range(4)
    ]
    return b"".join((last[c] ^ keys[-1][c]).to_bytes(4, "big") for c in range(4))


def decrypt_block(keys, block):
    state = [int.from_bytes(block[4 * c:4 * c + 4], "big") ^ keys[-1][c] for c in range(4)]
    for key in keys[-2::-1]:
        state = [
            UNBOX[state[c] >> 24] << 24 | UNBOX[state[c - 1] >> 16 & 0xFF] << 16 | UNBOX[state[c - 2] >> 8 & 0xFF] << 8
            | UNBOX[state[c - 3] & 0xFF]
            for c in range(4)
        ]
        state = [state[c] ^ key[c] for c in range(4)]
        if key is not keys[0]:
            state = [
                UNMIX[0][word >> 24] ^ UNMIX[1][word >> 16 & 0xFF] ^ UNMIX[2][word >> 8 & 0xFF] ^ UNMIX[3][word & 0xFF]
                for word in state
            ]
    return b"".join(word.to_bytes(4, "big") for word in state)


def xor(a, b):
    return bytes(x ^ y for x, y in zip(a, b))


def blocks(octets):
    return [octets[place:place + 16] for place in range(0, len(octets), 16)]


def cbc_encrypt(key, text):
    """CBC of whole blocks, from a block of zeros."""
    if Cipher:
        return Cipher(AES(key), CBC(bytes(16))).encryptor().update(text)
    keys, last, ciphers = round_keys(key), bytes(16), []
    for block in blocks(text):
        last = encrypt_block(keys, xor(block, last))
        ciphers.append(last)
    return b"".join(ciphers)


def cbc_decrypt(key, cipher):
    if Cipher:
        return Cipher(AES(key), CBC(bytes(16))).decryptor().update(cipher)
    keys, last, texts = round_keys(key), bytes(16), []
    for block in blocks(cipher):
        texts.append(xor(decrypt_block(keys, block), last))
        last = block
    return b"".join(texts)


def encrypt(key, text):
    """CBC with ciphertext stealing (RFC 3962, section 5), of more than one block."""
    ciphers = blocks(cbc_encrypt(key, text + bytes(-len(text) % 16)))
    return b"".join([*ciphers[:-2], ciphers[-1], ciphers[-2]])[:len(text)]


def decrypt(key, cipher):
    *whole, before, rest = blocks(cipher)
    full = rest + cbc_decrypt(key, before)[len(rest):]
    return cbc_decrypt(key, b"".join([*whole, full, before]))[:len(cipher)]


# Encryption types 17 and 18, and their checksums of types 15 and 16 (RFC 3961, section 5, and RFC 3962).


def folded(octets, size):
    """n-fold (RFC 3961, section 5.1)."""
    bits = len(octets) * 8
    number, text = int.from_bytes(octets, "big"), b""
    for count in range(math.lcm(len(octets), size) // len(octets)):
        turn = 13 * count % bits
        text += ((number >> turn | number << (bits - turn)) & ((1 << bits) - 1)).to_bytes(len(octets), "big")
    total = sum(int.from_bytes(text[place:place + size], "big") for place in range(0, len(text), size))
    most = (1 << size * 8) - 1
    while total > most:
        total = (total & most) + (total >> size * 8)
    return total.to_bytes(size, "big")


@functools.lru_cache(1024)
def derived(key, usage, kind):
    return cbc_encrypt(key, folded(usage.to_bytes(4, "big") + bytes([kind]), 16) + bytes(16))[:len(key)]


def key_of(password, salt):
    """The key of a password, with the default count (RFC 3962, section 4)."""
    return cbc_encrypt(hashlib.pbkdf2_hmac("sha1", password, salt, 4096, 32), folded(b"kerberos", 16) + bytes(16))


def mac(key, octets):
    return hmac.digest(key, octets, "sha1")[:12]


def checksum(key, usage, octets):
    return mac(derived(key, usage, 0x99), octets)


def sealed(key, usage, text, confounder=None):
    text = (confounder or os.urandom(16)) + text
    return encrypt(derived(key, usage, 0xAA), text) + mac(derived(key, usage, 0x55), text)


def opened(key, usage, cipher):
    text = decrypt(derived(key, usage, 0xAA), cipher[:-12])
    if mac(derived(key, usage, 0x55), text) != cipher[-12:]:
        raise ValueError("the key does not open it")
    return text[16:]


def encrypted_data(key, usage, text, confounder=None):
    return sequence(field(0, integer(18)), field(2, octet_string(sealed(key, usage, text, confounder))))


# Requests.

class Asked(typing.NamedTuple):
    """What a request asks for besides its names. The type of the service's name is `kind`."""

    types: tuple = (18, 17, 20, 19)
    nonce: int = 1
    options: bytes = bytes(4)
    kind: int = 2


def body(realm, service, client=None, **more):
    """The body of a request with till zero. `more` is of `Asked`."""
    asked = Asked(**more)
    parts = [field(0, tlv(0x03, b"\0" + asked.options))]
    if client:
        parts.append(field(1, name(1, client)))
    parts += [
        field(2, general_string(realm)),
        field(3, name(asked.kind, *service)),
        field(5, tlv(0x18, b"19700101000000Z")),
        field(7, integer(asked.nonce)),
        field(8, sequence(*[integer(etype) for etype in asked.types])),
    ]
    return sequence(*parts)


def as_req(realm, client, padata=b"", nonce=1):
    """An AS-REQ for the ticket-granting service."""
    parts = [field(1, integer(5)), field(2, integer(10))]
    if padata:
        parts.append(field(3, sequence(padata)))
    return tlv(0x6A, sequence(*parts, field(4, body(realm, (b"krbtgt", realm), client, nonce=nonce))))


def timestamp(key, seconds, microseconds=0, confounder=None):
    """PA-ENC-TIMESTAMP (section 5.2.7.2)."""
    text = sequence(field(0, time_of(seconds)), field(1, integer(microseconds)))
    return sequence(field(1, integer(2)), field(2, octet_string(encrypted_data(key, 1, text, confounder))))


def ticket_in(key, reply):
    """The ticket of an AS-REP, and its session key."""
    parts = fields(elements(reply)[0][1])
    cipher = elements(fields(parts[6])[2])[0][1]
    [(_, part)] = elements(opened(key, 3, cipher))
    session_key = elements(fields(fields(part)[0])[1])[0][1]
    return parts[5], session_key


def authenticator(realm, client, seconds, microseconds, check=None):
    """Authenticator (section 5.5.1), with a checksum of type 16 over the bytes, for the usage, in `check`."""
    parts = [field(0, integer(5)), field(1, general_string(realm)), field(2, name(1, client))]
    if check:
        parts.append(field(3, sequence(field(0, integer(16)), field(1, octet_string(checksum(*check))))))
    return tlv(0x62, sequence(*parts, field(4, integer(microseconds)), field(5, time_of(seconds))))


def ap_req(ticket, session_key, usage, shown, options=bytes(4), confounder=None):
    """AP-REQ (section 5.5.1) with this authenticator, encrypted for this usage."""
    return tlv(0x6E, sequence(
        field(0, integer(5)),
        field(1, integer(14)),
        field(2, tlv(0x03, b"\0" + options)),
        field(3, ticket),
        field(4, encrypted_data(session_key, usage, shown, confounder)),
    ))


def tgs_req(realm, client, service, held, at, **more):
    """A TGS-REQ with a ticket, whose session key is beside it in `held`, and with an authenticator of a second and
    microseconds. `more` is of `Asked`, and the authenticator's confounder."""
    ticket, session_key = held
    confounder = more.pop("confounder", None)
    asked = body(realm, service, **more)
    shown = authenticator(realm, client, *at, (session_key, 6, asked))
    presented = ap_req(ticket, session_key, 7, shown, confounder=confounder)
    padata = sequence(field(1, integer(1)), field(2, octet_string(presented)))
    return tlv(0x6C, sequence(field(1, integer(5)), field(2, integer(12)), field(3, sequence(padata)), field(4, asked)))


# A credential cache, version 4 (docs/FORMATS.md).


def credentials(octets):
    """The credentials of a cache: the service's components, the session key, and the ticket."""
    place = 4 + int.from_bytes(octets[2:4], "big")

    def take(count):
        nonlocal place
        place += count
        return octets[place - count:place]

    number = lambda count=4: int.from_bytes(take(count), "big")
    counted = lambda: take(number())

    def principal():
        _, count = number(), number()
        _, *parts = [counted() for _ in range(count + 1)]
        return parts

    principal()
    found = []
    while place < len(octets):
        _, service, _ = principal(), principal(), take(2)
        key = counted()
        # The times, is_skey, the flags, and two empty lists.
        take(4 * 4 + 1 + 4 + 4 + 4)
        found.append((service, key, counted()))
        counted()
    return found
