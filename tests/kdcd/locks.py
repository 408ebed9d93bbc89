"""Clients that are locked after failures."""

import math
import re
import time

from harness.options import MOST
from harness.processes import SLOWNESS
from harness.tests import test
from kdcd.changes import SERVED_WITHIN

SHORT_LOCK_SECONDS = math.ceil(6 * SLOWNESS)


@test("kadm", "kdcd", "kclient", seconds=40)
def failures(trial):
    """A lock, its end, another lock after a single failure, since only a good login starts the count again, and a lock
    that a new password ends."""
    trial.realm()
    served = trial.serve(f"--first --lock-after 3 --lock-seconds {SHORT_LOCK_SECONDS}")
    wrong, right = "KINIT u --password-file other -> 1 =refused 24\n", "KINIT u --password-file pw -> 0 =ok\n"
    locked = "KINIT u --password-file pw -> 1 =refused 18; locked\n"
    others = "KINIT u --password-file other -> 1 =refused 18\nKINIT v --password-file pw -> 0 =ok\n"
    for failures, while_locked in ((2 * wrong + right + 3 * wrong, locked + others), (wrong, locked)):
        trial.cases(failures)
        last = time.time()
        trial.cases(while_locked)
        time.sleep(max(0.0, last + SHORT_LOCK_SECONDS + 1.1 - time.time()))
    trial.cases(right + 2 * wrong + right)
    served.end()
    served = trial.serve(f"--first --lock-after 1 --lock-seconds {MOST}")
    trial.cases(wrong + locked + "kadm passwd --db database --name u --password-file other -> 0 =ok")
    start = time.monotonic()
    while served.answer("u") == "18" and time.monotonic() < start + 3 * SERVED_WITHIN:
        time.sleep(0.02)
    trial.cases("KINIT u --password-file other -> 0 =ok")
    served.end()


@test("kadm", "kdcd", "kclient")
def rules(trial):
    """A client that is locked and then disabled is refused as disabled."""
    trial.realm()
    served = trial.serve("--first --log --lock-after 1 --lock-seconds 600")
    trial.cases("KINIT u --password-file other -> 1 =refused 24\nKINIT u --password-file pw -> 1 =refused 18")
    trial.cases("kadm policy --db database --name u --field disabled --value true -> 0 =ok")
    refusals = lambda: re.findall(r" as u \S+ refused 18 \S+ rule=(\S+)", served.said())
    start = time.monotonic()
    while refusals()[-1:] != ["client-disabled"] and time.monotonic() < start + 3 * SERVED_WITHIN:
        served.answer("u")
        time.sleep(0.02)
    found = list(dict.fromkeys(refusals()))
    trial.note(
        "a locked client that is disabled is refused as disabled",
        "" if found == ["client-locked", "client-disabled"] else str(found)
    )
    served.end()
