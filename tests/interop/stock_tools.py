"""MIT's and Heimdal's tools, if they are on the path."""

import shutil
import time

from harness.tests import test
from harness.trial import AHEAD
from harness.wire import REALM

# The seconds for which a client is locked.
LOCK_SECONDS = 60


@test("kadm", "kdcd", "kclient", seconds=80, uses_stock=True)
def mit_and_heimdal(trial):
    """MIT's and Heimdal's tools, if they are on the path."""
    trial.realm()
    for name in ("u", f"krbtgt/{REALM}"):
        trial.run(f"kadm policy --db database --name {name} --field postdate --value true")
    trial.run("kadm add --db database --name off --password-file pw")
    trial.run("kadm policy --db database --name off --field disabled --value true")
    trial.run("kadm keytab --db database --name v --out v.keytab")
    served = trial.serve()
    trial.configure(served.udp)
    trial.cases("KINIT u --password-file pw --renewable --forwardable -> 0 =ok\nKVNO h --name host/n -> 0 h kvno 1")
    if shutil.which("kvno") and "Kerberos 5 version" in trial.run("klist -V").out:
        try_mit(trial, served)
    else:
        trial.leave("MIT's klist, kinit and kvno, which are not on the path")
    if shutil.which("kgetcred"):
        kinit = "kinit.heimdal" if shutil.which("kinit.heimdal") else "kinit"
        trial.cases(f"""
            {kinit} --password-file=pw --cache=FILE:heimdal u@A.B -> 0
            kgetcred --cache=FILE:heimdal h -> 0
            kgetcred --cache=FILE:cc h -> 0
            kclient kvno --cache heimdal --name h -> 0 =h kvno 1
            {kinit} --password-file=other --cache=FILE:heimdal u@A.B -> 1 Password incorrect
        """)
    else:
        trial.leave("Heimdal's kinit and kgetcred, which are not on the path")
    served.end()


def try_mit(trial, served):
    stock = {**trial.environment, "KRB5CCNAME": "FILE:stock"}
    trial.cases("""
        klist -ke h.keytab -> 0 1 h@A.B (aes256-cts-hmac-sha1-96); (aes128-cts-hmac-sha1-96)
        klist -ke h.keytab -> 0 1 h@A.B (aes256-cts-hmac-sha384-192); (aes128-cts-hmac-sha256-128)
        klist -efc cc -> 0 u@A.B; krbtgt/A.B@A.B; h@A.B; host/n@A.B; Flags: FRIA
        klist -sc cc -> 0
        kvno -c cc host/n -> 0 host/n@A.B: kvno = 1
    """)
    for way in ("", "udp_preference_limit = 1"):
        trial.configure(served.udp, way)
        trial.cases("kinit u <<< a password -> 0\nkvno -k h.keytab h -> 0 kvno = 1, keytab entry valid", env=stock)
    trial.cases(f"""
        kclient kvno --name h --name host/n -> 0 h kvno 1; host/n kvno 1
        kclient klist -> 0 principal u@A.B
        kinit -k -t v.keytab v -> 0
        kinit u <<< another password -> 1 Password incorrect
        kinit nobody -> 1 Client 'nobody@A.B' not found in Kerberos database
        kinit off <<< a password -> 1 Client's credentials have been revoked
        kvno nothing -> 1 Server not found in Kerberos database
        kinit -r 2d u <<< a password -> 0
        kinit -R -> 0
        kinit -s {AHEAD}s u <<< a password -> 0
        kinit -v -> 1 Ticket not yet valid
    """, env=stock)
    time.sleep(AHEAD)
    trial.cases("kinit -v -> 0\nkvno h -> 0 kvno = 1", env=stock)
    try_mit_lock(trial, stock)
    trial.configure(served.udp)


def try_mit_lock(trial, stock):
    """MIT's client with a wrong password three times, and with the right one during the lock and after its end."""
    served = trial.serve(f"--first --lock-after 3 --lock-seconds {LOCK_SECONDS}")
    trial.configure(served.udp)
    for turn in ("first", "second", "third"):
        what = f"a lock after three failures: the {turn} wrong password of MIT's kinit"
        trial.expect("kinit u", 1, "Password incorrect", given="another password\n", what=what, env=stock)
    failed = time.monotonic()
    what = "a lock after three failures: the right password is refused"
    revoked = "Client's credentials have been revoked"
    trial.expect("kinit u", 1, revoked, given="a password\n", what=what, env=stock)
    trial.expect(
        "kinit -k -t v.keytab v", 0, what="a lock after three failures: another client is not locked", env=stock
    )
    time.sleep(max(0, failed + LOCK_SECONDS + 2 - time.monotonic()))
    what = f"a lock of {LOCK_SECONDS} seconds: the right password is taken after it"
    trial.expect("kinit u", 0, given="a password\n", what=what, env=stock)
    trial.expect("kvno h", 0, "kvno = 1", what="a lock that has ended: a ticket of a service", env=stock)
    status = served.end()
    trial.note("a server with locks ends", "" if status == -15 else f"status {status}")
