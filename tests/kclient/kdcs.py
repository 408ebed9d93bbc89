"""KDCs of the sessions, by the names that sessions give them, and requests that have to be sent. Requests, replies and
keys are made by `kerberos.py` and `relay.py` from RFC 3961, RFC 3962 and RFC 4120."""

import dataclasses

from harness.hostile import entry, error, number, wanted
from harness.kerberos import (
    as_req, credentials, elements, field, fields, integer, octet_string, sequence, tgs_req, timestamp,
)
from harness.relay import (
    chacha20, dropped, forged, forged_once, good, Made, moment_in, no_datagrams, once, OtherClock, padata_of, refuses,
    refuses_at, silent, split, stale, too_big, wanted_of,
)
from kclient.files import FILES, GRANTING, H, REALM, U, V

# The bytes that are sent with a seed: nonces are four bytes of ChaCha20 without the highest bit, and confounders the 16
# behind them. The moments are those in the messages.
DRAWN = chacha20(FILES["seed"][:32], 40)
NONCES = [int.from_bytes(DRAWN[place:place + 4], "big") & 0x7FFFFFFF for place in (0, 20)]
CONFOUNDERS = [DRAWN[place:place + 16] for place in (4, 24)]
SESSION = b"k" * 32


def stamped(messages, _, now):
    """The requests of `u` without and with a timestamp."""
    at = moment_in(U, 1, padata_of(messages[1], 2))
    first = as_req(REALM, b"u", nonce=NONCES[0])
    return [
        first, as_req(REALM, b"u", timestamp(U, *at, CONFOUNDERS[0]), nonce=NONCES[0])
    ] if now[0] <= at[0] <= now[1] else []


def unstamped(*_):
    return [as_req(REALM, b"v", nonce=NONCES[0])]


def presented(service, count=1, **more):
    """Requests for this service with the cache's ticket-granting ticket, each a microsecond after the one before."""
    def requests(messages, cache, now):
        [(_, _, granting), *_] = credentials(cache)
        data = fields(elements(padata_of(messages[0], 1))[0][1])[4]
        at, rest = moment_in(SESSION, 7, data)
        found = [
            tgs_req(
                REALM, b"v", service, (granting, SESSION), (at, rest + turn), confounder=CONFOUNDERS[turn],
                nonce=NONCES[turn], **more
            ) for turn in range(count)
        ]
        return found if now[0] <= at <= now[1] else []
    return requests


def repeated(made):
    """The reply to the first message, for each."""
    replies = []

    def link(message):
        replies.extend([] if replies else [made(message)])
        return replies[0]
    return link


APART = OtherClock(b"u", U)
# Makes a ticket of `h`. It does not know the key of `h`.
OF_H = Made(SESSION, client=b"v", end=3600)
# It knows that key.
SEALED = dataclasses.replace(OF_H, ticket_key=H)
# Error 25 without a PA-ETYPE-INFO2 that can be read.
UNREADABLE = error(25, sequence(sequence(field(1, integer(19)), field(2, octet_string(b"hello")))))

# What the messages of a command get. A number behind the name is given to it.
KDCS = {
    "good": good, "silent": silent, "once": once, "stale": stale, "dropped": dropped, "too_big": too_big,
    "no_datagrams": no_datagrams, "refuses": refuses,
    "refuses_the_first_with_34": refuses_at(0, 34), "refuses_the_second_with_34": refuses_at(1, 34),
    # Links of two KDCs.
    "first_silent": split(silent), "first_once": split(once), "first_refuses_29": split(refuses(29)),
    "first_refuses_37": split(refuses(37)), "first_refuses_29_second_silent": split(refuses(29), silent),
    "first_an_hour_ahead_second_refuses_29": split(APART.of(3600), refuses(29)),
    # Clocks of a KDC.
    "an_hour_ahead": APART.of(3600), "an_hour_and_ten_seconds_ahead": APART.of(3610),
    # Replies that do not depend on the message.
    "hello": forged(b"hello"),
    "wants_too_many_iterations": forged(wanted(entry(19, b"\xff" * 4))),
    "wants_preauthentication_again": forged(wanted(entry())),
    "wants_what_cannot_be_read": forged(UNREADABLE),
    "wants_type_23": forged(wanted(entry(23))),
    "wants_type_17_of_w": forged(wanted_of(b"w", etype=17)),
    # A reply to the first message alone.
    "wants_type_17_of_w_once": forged_once(wanted_of(b"w", etype=17)),
    "wants_4096_iterations_of_type_20_once": forged_once(wanted(entry(20, number(4096)))),
    "wants_4096_iterations_of_type_18_once": forged_once(wanted(entry(18, number(4096)))),
    "wants_1_iteration_of_type_18_once": forged_once(wanted(entry(18, number(1)))),
    # A KDC in Python that knows the password of `v`.
    "made_for_v": Made(V),
    "made_for_v_with_all_flags": Made(V, flags=0x54C00000, renewable=604_800),
    "made_for_another_realm_of_the_client": Made(V, client_realm=b"C.D"),
    "made_for_another_realm_of_the_service": Made(V, service_realm=b"C.D"),
    "made_with_another_session_key": Made(b"n" * 32, client=b"u"),
    "sells_h": OF_H,
    "sells_h_without_a_version": dataclasses.replace(OF_H, version=None),
    "sells_h_of_version_300": dataclasses.replace(OF_H, version=300),
    "sells_h_twice_the_same": repeated(OF_H),
    "sells_h_under_the_key_of_v": dataclasses.replace(OF_H, ticket_key=V),
    "sells_h_under_its_key": SEALED,
    "sells_h_with_a_ticket_of_u": dataclasses.replace(SEALED, ticket_client=b"u"),
    "sells_h_with_another_session_key_in_the_ticket": dataclasses.replace(SEALED, ticket_session=b"n" * 32),
}
# What has to be sent, byte by byte: by the messages that are sent, the cache, and the time.
REQUESTS = {
    "stamped": stamped, "unstamped": unstamped, "presented_for_h": presented((b"h",), kind=1),
    "presented_twice_for_h": presented((b"h",), 2, kind=1),
    # FORWARDABLE, PROXIABLE, ALLOW-POSTDATE, RENEWABLE and RENEW
    "presented_to_renew": presented(GRANTING, options=bytes.fromhex("54800002")),
}


def kdc(words):
    """The KDC of these words: its name, or its name and a number."""
    name, *numbers = words.split()
    return KDCS[name](*map(int, numbers)) if numbers else KDCS[name]
