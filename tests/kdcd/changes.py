"""Changes by `kadm` that a server serves within two seconds, or a few more on a slow machine."""

import itertools
import pathlib
import resource
import time

from harness.processes import SLOWNESS
from harness.server import Server
from harness.tests import test

# The seconds in which a server serves a change.
SERVED_WITHIN = 2 * SLOWNESS
# The seconds after which a server reads the database again if a read failed.
RETRIED_AFTER = 5


@test("kadm", "kdcd", "kclient", seconds=30)
def by_kadm(trial):
    """A change by `kadm` is served within two seconds, or a few more on a slow machine."""
    trial.realm()
    served, fixed = trial.serve(), Server(trial, "--first --fixed")

    def change(words, wanted, given=""):
        fault, start = trial.run(words, given=given).fault(0), time.monotonic()
        while (found := served.answer("w")) != wanted and time.monotonic() < start + 3 * SERVED_WITHIN:
            time.sleep(0.02)
        took = time.monotonic() - start
        is_late = found != wanted or took > SERVED_WITHIN
        trial.note(f"{words} is served", fault or (f"w gets {found} after {took:.1f} s" if is_late else ""))

    change("kadm add --db database --name w", "25", given="a password\n")
    change("kadm policy --db database --name w --field preauth --value false", "ticket")
    change("kadm policy --db database --name w --field disabled --value true", "18")
    change("kadm policy --db database --name w --field disabled --value false", "ticket")
    change("kadm policy --db database --name w --field expires --value 2020-01-01", "1")
    change("kadm remove --db database --name w", "6")
    lines = [f"kdcd: database database with {rows} rows\n" for rows in (6, 5)]
    is_said = served.wait(lambda: served.said().endswith(lines[1]), 4) and lines[0] in served.said()
    trial.note("each database that is taken has a line", "" if is_said else served.said())
    trial.cases("KINIT u --password-file pw -> 0 =ok\nKVNO h -> 0 =h kvno 1")
    trial.run("kadm passwd --db database --name u --password-file other")
    trial.run("kadm random --db database --name h")
    time.sleep(SERVED_WITHIN)
    trial.cases("""
        KVNO h -> 0 =h kvno 1
        KVNO h --fresh -> 0 =h kvno 2
        KINIT u --password-file other -> 0 =ok
        KINIT u --password-file pw -> 1 =refused 24
    """)
    trial.run("kadm init --db foreign --realm R.S")
    trial.run("cp database kept")
    none = "No such file or directory (os error 2)"
    found = trial.run("kadm list --db text").err.partition("text: ")[2].partition("\n")[0]
    trial.run("cp database broken")
    broken = trial.folder / "broken"
    broken.write_text(broken.read_text().replace('"preauth":true', '"preauth":1', 1))
    rows = {
        "mv text": f"NotJson ({found})", "mv broken": 'BadRow (principal "h": preauth)', "mv foreign": "OtherRealm",
        "mv database": none
    }
    for words, said in rows.items():
        trial.run(f"{words} {'gone' if said == none else 'database'}")
        line = f"kdcd: database: {said}; the rows before it stay\n"
        trial.note(f"{words}: it says {said}", "" if served.wait(lambda: line in served.said(), 4) else served.said())
    time.sleep(SERVED_WITHIN)
    trial.note("each is said once", "" if served.said().count("rows before it stay") == 4 else served.said())
    trial.cases("KINIT u --password-file other -> 0 =ok")
    trial.run("mv kept database")
    change("kadm add --db database --name w --password-file pw", "25")
    # The other server looked again by then, too.
    time.sleep(SERVED_WITHIN)
    found = fixed.answer("w")
    trial.note("--fixed: no change is served", "" if found == "6" else found)
    expect_without_files(trial, served)
    served.end()
    fixed.end()


def expect_without_files(trial, served):
    """A database that can't be opened is opened again some seconds later. The server reports the failure once, and then
    the rows."""
    pid = served.process.pid
    hard = resource.prlimit(pid, resource.RLIMIT_NOFILE)[1]
    used = {int(each.name) for each in pathlib.Path(f"/proc/{pid}/fd").iterdir()}
    free = next(number for number in itertools.count() if number not in used)
    resource.prlimit(pid, resource.RLIMIT_NOFILE, (free, hard))
    failed = "kdcd: database: Too many open files (os error 24); the rows before it stay\n"
    taken = "database with 7 rows\n"
    trial.expect("kadm add --db database --name x --password-file pw", 0, "=ok")
    is_said = served.wait(lambda: failed in served.said(), 4)
    trial.note("a database that cannot be opened, since descriptors ran out", "" if is_said else served.said())
    time.sleep(SERVED_WITHIN + RETRIED_AFTER)
    trial.note(
        "that is said once", "" if served.said().count(failed) == 1 and taken not in served.said() else served.said()
    )
    resource.prlimit(pid, resource.RLIMIT_NOFILE, (hard, hard))
    is_taken = served.wait(lambda: taken in served.said(), SERVED_WITHIN + RETRIED_AFTER)
    trial.note("it is opened again, and that is said", "" if is_taken and served.answer("x") == "25" else served.said())
