"""Accepts AP-REQ messages of Kerberos 5 in Python, over the shared object of the library for C: an example of how
another language calls it. ap_accept.h says what each call takes and returns.

    acceptor = Acceptor(open("/etc/krb5.keytab", "rb").read())
    client = acceptor.accept(ap_req)
    print(client.name, client.realm, client.ends)
    sealed = client.seal(1024, b"welcome")

AP_ACCEPT in the environment is the path of the shared object, if the linker doesn't find it."""

import ctypes
import os
import threading
import time
from ctypes import c_bool, c_int32, c_int64, c_size_t, c_uint8, c_uint32, c_void_p
from typing import NamedTuple

VERSION, REALM, NAME, AP_REP = 3, 1, 2, 6
DONE, TOO_SMALL, ABSENT = 0, -4, -7
ROOM = c_void_p, c_size_t, c_void_p
CALLS = {
    "ap_size": (), "ap_close": (c_void_p,), "ap_octets": (c_void_p, c_uint32, *ROOM), "ap_save": (c_void_p, *ROOM),
    "ap_open": (c_uint32, c_void_p, c_void_p, c_size_t, c_uint32, c_bool, c_int64, c_uint32),
    "ap_resume": (c_uint32, c_void_p, c_void_p, c_size_t, c_uint32, c_void_p, c_size_t),
    "ap_accept": (c_void_p, c_int64, c_uint32, c_void_p, c_void_p, c_size_t, c_void_p, c_size_t),
    "ap_rule": (c_void_p, c_void_p, c_size_t), "ap_text": (c_void_p, c_int32, c_void_p, c_size_t),
    "ap_shared_key": (c_void_p, c_void_p), "ap_seal": (c_void_p, c_uint32, c_void_p, c_void_p, c_size_t, *ROOM),
    "ap_unseal": (c_void_p, c_uint32, c_void_p, c_size_t, *ROOM),
}
LIBRARY = ctypes.CDLL(os.environ.get("AP_ACCEPT", f"libap_accept.so.{VERSION}"))
for call, types in CALLS.items():
    getattr(LIBRARY, call).argtypes = types
for call in ("ap_size", "ap_rule", "ap_text"):
    getattr(LIBRARY, call).restype = c_size_t


class Numbers(ctypes.Structure):
    """struct ap_accepted"""
    _fields_ = [
        *((name, c_int64) for name in ("authtime", "starttime", "endtime", "renew_till", "seq_number", "key_version")),
        ("flags", c_uint32),
        *((f"{name}_type", c_int32) for name in ("session_key", "subkey", "checksum", "ticket_key")),
        *((f"has_{name}", c_bool) for name in ("seq_number", "checksum", "ap_rep", "key_version")),
    ]


class Key(ctypes.Structure):
    """struct ap_key"""
    _fields_ = [("type", c_int32), ("octets", c_uint8 * 32)]


class Failed(Exception):
    """A call that failed: its status, the rule that refuses the AP-REQ, if one does, and a text."""

    def __init__(self, status, acceptor=None):
        rule, text = ctypes.create_string_buffer(32), ctypes.create_string_buffer(256)
        LIBRARY.ap_rule(acceptor, rule, 32)
        LIBRARY.ap_text(acceptor, status, text, 256)
        self.status, self.rule, self.text = status, rule.value.decode(), text.value.decode()
        super().__init__(self.text)


def copied(call, *words):
    """The bytes that a call copies, or None: it is made once for their number, and again for them."""
    length = c_size_t()
    status = call(*words, None, 0, ctypes.byref(length))
    octets = ctypes.create_string_buffer(length.value)
    if status == TOO_SMALL:
        status = call(*words, octets, length, ctypes.byref(length))
    if status not in (DONE, ABSENT):
        raise Failed(status)
    return octets.raw[:length.value] if status == DONE else None


class Client(NamedTuple):
    """Whom an AP-REQ is from, until when its ticket lasts, the AP-REP if it asks for one, and the shared key."""
    name: str
    realm: bytes
    ends: int
    reply: bytes | None
    key: Key

    def seal(self, usage, text):
        return copied(LIBRARY.ap_seal, ctypes.byref(self.key), usage, os.urandom(16), text, len(text))

    def unseal(self, usage, sealed):
        return copied(LIBRARY.ap_unseal, ctypes.byref(self.key), usage, sealed, len(sealed))


class Acceptor:
    """The services of a keytab. Threads may share it. `saved` is what `save` of an earlier one returned."""

    def __init__(self, keytab, remembered=1024, is_first=False, saved=None):
        self.lock, self.at = threading.Lock(), ctypes.create_string_buffer(LIBRARY.ap_size())
        words = VERSION, self.at, keytab, len(keytab), remembered
        if saved is None:
            status = LIBRARY.ap_open(*words, is_first, int(time.time()), 0)
        else:
            status = LIBRARY.ap_resume(*words, saved, len(saved))
        if status != DONE:
            raise Failed(status)

    def accept(self, ap_req):
        numbers, key, now = Numbers(), Key(), time.time_ns() // 1000
        with self.lock:
            status = LIBRARY.ap_accept(
                self.at, now // 1_000_000, now % 1_000_000, os.urandom(16), ap_req, len(ap_req), ctypes.byref(numbers),
                ctypes.sizeof(numbers)
            )
            if status == DONE:
                status = LIBRARY.ap_shared_key(self.at, ctypes.byref(key))
            if status != DONE:
                raise Failed(status, self.at)
            name, realm, reply = (copied(LIBRARY.ap_octets, self.at, part) for part in (NAME, REALM, AP_REP))
        return Client(name.decode(), realm, numbers.endtime, reply, key)

    def save(self):
        with self.lock:
            return copied(LIBRARY.ap_save, self.at)

    def __del__(self):
        LIBRARY.ap_close(self.at)
