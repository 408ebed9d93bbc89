"""Lines of a script of `kdcd script`, and what each has to print."""

from harness.wire import REALM, answer

MIDNIGHT = 1704067200
# The maximum lengths of a line and of an input, in bytes.
MAX_LINE, MAX_INPUT = 262_144, 16_777_216
# The statuses of a script: it was read to its end, it has a malformed line, or a call failed.
DONE, FAULT, FAILED = 0, 1, 3
# The KDC's 64 random bytes for a request.
ZEROS, UP_FROM_0, UP_FROM_64 = bytes(64).hex(), bytes(range(64)).hex(), bytes(range(64, 128)).hex()


def key(octet, etype=18):
    """The key of type 17 to 20 that repeats this byte."""
    return f"{etype}:{bytes([octet] * (16 if etype in (17, 19) else 32)).hex()}"


def up_from(octet):
    """The key of type 18 whose bytes count up from this one."""
    return f"18:{bytes(range(octet, octet + 32)).hex()}"


def opening(first_key, limits="64 0 0 36000 0"):
    return f"open {REALM} {limits} {first_key}"


OPEN = opening(key(0))


def ask(request, at=0, random=UP_FROM_0, room=1400, usec=0):
    """The line of a request that comes this many seconds after 2024-01-01 00:00:00."""
    return f"request {MIDNIGHT + at} {usec} {random} {room} {request.hex() or '-'}"


def came(printed):
    """What a line has printed. For a reply it is `ticket` or the code of an error."""
    word, _, digits = printed.partition(" ")
    return answer(bytes.fromhex(digits)) if word == "reply" else printed


def fault_in(trial, rows):
    """Runs the lines of these rows. Each one prints the text beside it, or a reply with this outcome. Beside None it
    may print any text. Returns what is wrong."""
    ran = trial.run(["kdcd", "script"], "".join(f"{line}\n" for line, _ in rows))
    printed = ran.out.splitlines()
    for number, ((line, wanted), found) in enumerate(zip(rows, printed), 1):
        if wanted is not None and wanted not in (found, came(found)):
            return f"line {number}, {line[:60]}, prints {found[:80]!r}, and not {wanted[:80]!r}"
    return "" if (
        ran.status, len(printed)
    ) == (DONE, len(rows)) else f"status {ran.status}, {len(printed)} lines for {len(rows)}"


def check(trial, what, rows):
    trial.note(what, fault_in(trial, rows))

K = key(0, 17)
