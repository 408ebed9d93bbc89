"""A clock that goes back, and what a start refuses."""

from harness import staged_realm as realm
from harness.stage import REFUSING, T, ask, Buyer, Staged, turn, utc
from harness.tests import test
from harness.wire import answer

# The lines about a clock that goes back.
BACK = "kdcd: the clock went back: "


def back_to(after):
    return f"{BACK}all TGS-REQs are refused until {utc(T + after)}\n"


def back_for(after):
    return f"{BACK}TGS-REQs of clients that were served at a later time are refused until {utc(T + after)}\n"


# The options of a server that starts at one o'clock; and times, in seconds after midnight, with what it says when its
# clock shows them. One server restarts an hour later than most of these times. The clock of another steps an hour ahead
# and back, and then two days. The clock of the third goes back to a time before its restart, and then to one before a
# time that it showed.
CLOCKS = (
    (
        "",
        ((3600, ""), (0, back_to(3901)), (59, ""), (60, back_to(3901)), (3300, ""), (3299, back_to(3901)), (3302, ""))
    ),
    ("--first", (
        (3600, ""), (3300, ""), (3299, back_for(3300)), (100, back_for(3300)), (159, ""), (160, back_for(3300)),
        (172_800, ""),
        (3600, back_to(86_400)), (86_400, back_for(172_500)), (172_500, ""),
    )),
    ("", ((0, back_to(3901)), (10_800, ""), (7200, back_for(10_500)))),
)


@test("kdcd", trial=Staged, seconds=10)
def steps(trial):
    """A clock that goes back, and what a start refuses."""
    trial.enter()
    for words, events in CLOCKS:
        trial.show(T + 3600)
        server = trial.server(words)
        for after, wanted in events:
            before = len(server.said())
            trial.show(T + after)
            turn(server)
            trial.same(f"a server with '{words}' whose clock shows {utc(T + after)}", server.said()[before:], wanted)
        server.end()
    for second, words, client, wanted in (
        (REFUSING - 1, "--quiet-start", b"w", "none"), (REFUSING, "--quiet-start", b"w", "37"),
        (REFUSING - 1, "", b"w", "37"),
        # The authenticator is of another client than the ticket.
        (REFUSING - 1, "--quiet-start", b"u", "36"),
    ):
        trial.show(T)
        server = trial.server(words)
        buyer = Buyer(server)
        trial.show(T + second)
        found = buyer.buy(server, T, client, 1 if wanted == "none" else 20)
        trial.same(
            f"a TGS-REQ of {client.decode()} {second} seconds after a start with '{words}' gets {wanted}", found, wanted
        )
        server.end()
    for later, wanted in ((300, "the same"), (301, "37")):
        found = reply_again(trial, later)
        trial.same(
            f"an authenticator that comes again after a tidying {later} seconds after it gets {wanted}", found, wanted
        )


def reply_again(trial, later):
    """What a request gets that comes again, if in the meantime the clock showed a later time. An authenticator is
    dropped after 301 seconds. From then on it is too old, even if the clock goes back."""
    trial.show(T)
    server = trial.server("--first")
    first = ask(server, realm.FOR_SERVICE)
    trial.show(T + later)
    turn(server)
    trial.show(T)
    second = ask(server, realm.FOR_SERVICE)
    server.end()
    if not first.startswith(realm.SERVICE_TICKET):
        return f"at first {first.hex()}"
    return "the same" if first == second else answer(second)
