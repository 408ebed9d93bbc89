"""Each option of `kclient` with good values, and the errors that a user meets."""

import time

from harness.options import NAMES, faults_of
from harness.tests import test
from harness.trial import AHEAD
from harness.wire import REALM


@test("kadm", "kdcd", "kclient", seconds=20)
def options(trial):
    """Each option of `kclient` with good values, and the errors that a user meets."""
    trial.realm()
    for name in ("u", f"krbtgt/{REALM}"):
        trial.run(f"kadm policy --db database --name {name} --field postdate --value true")
    trial.run("kadm keytab --db database --name u --out u.keytab")
    trial.run("kadm keytab --db database --name host/n --out host.keytab")
    served = trial.serve()
    trial.configure(served.udp)
    trial.cases(f"""
        KINIT u --password-file pw --tcp -> 0 =ok
        KINIT u --keytab u.keytab -> 0 =ok
        KINIT u --password-file pw --seed seed -> 0 =ok
        KINIT u --password-file pw --service h -> 0 =ok
        KINIT u <<< a password -> 0 =ok
        kclient kinit --kdc KDC --name u@A.B --password-file pw --cache cc --life 8h -> 0 =ok
        kclient kinit --renew --kdc KDC --cache cc -> 1 =refused NotRenewable; --renewable
        KINIT u --password-file pw --least-count 4096 -> 0 =ok
        KINIT u --password-file pw --least-count 4097 -> 1 =refused WeakCount; the least count
        KINIT u --password-file pw --life 600 --renewable --forwardable --proxiable -> 0 =ok
        kclient klist --cache cc -> 0 principal u@A.B; flags F; renew 2
        kclient kinit --renew --kdc KDC --cache cc -> 0 =ok
        kclient kinit --kdc 127.0.0.1:9 --kdc KDC --realm A.B --name u --keytab u.keytab --cache cc -> 0 =ok
        KINIT u --password-file pw --start {AHEAD} -> 0 =ok
        kclient kinit --validate --kdc KDC --cache cc -> 1 =refused 33
    """)
    mode = (trial.folder / "cc").stat().st_mode & 0o777
    trial.note("a cache is its owner's alone", "" if mode == 0o600 else oct(mode))
    trial.cases("""
        kclient kinit --name u --password-file pw -> 0 =ok
        kclient kvno --name h -> 0 =h kvno 1
        kclient klist -> 0 principal u@A.B; h@A.B from
    """, env={**trial.environment, "KRB5CCNAME": "FILE:named"})
    trial.expect("kclient klist", 2, "KRB5CCNAME", env={**trial.environment, "KRB5CCNAME": "KEYRING:x"})
    time.sleep(AHEAD)
    trial.cases("""
        kclient kinit --validate --kdc KDC --cache cc -> 0 =ok
        KVNO h --name host/n -> 0 h kvno 1; host/n kvno 1
        KVNO h --fresh --seed seed --tcp -> 0 =h kvno 1
        KVNO h --keytab h.keytab -> 0 =h kvno 1, keytab entry valid
        KVNO h --keytab host.keytab -> 1 =refused Absent; host.keytab: 
        KVNO nothing -> 1 =refused 7
        kclient klist --keytab h.keytab -> 0 h@A.B version 1 type 18; h@A.B version 1 type 19
        KINIT nobody --password-file pw -> 1 =refused 6; not in the database
        KINIT u --password-file other -> 1 =refused 24; the password
        KINIT v --password-file other -> 1 =refused CannotOpen; the password
        KINIT u --password-file none -> 3 =failed; none: No such file
        KINIT u --password-file pw --keytab u.keytab -> 2 --keytab
        KINIT u --keytab host.keytab -> 1 =refused Absent; host.keytab: 
        KINIT u --keytab text -> 1 =refused BadMagic; text: 
        KINIT u -> 3 =failed; standard input
        kclient kinit --renew --validate --kdc KDC --cache cc -> 2 --renew
        kclient kinit --renew --life 60 --kdc KDC --cache cc -> 2 --renew
        kclient klist --cache cc --keytab h.keytab -> 2 --keytab
        kclient klist --cache text -> 1 =refused BadMagic; text: 
        kclient klist --cache none -> 1 =refused Absent; none: there is no cache
        kclient kinit --kdc KDC --realm A.B --name u --keytab u.keytab --cache no/cc -> 3 =failed; no/cc: 
        kclient kinit --kdc 127.0.0.1:9 --realm A.B --name u --keytab u.keytab --cache cc -> 3 =failed; 127.0.0.1:9: 
        kclient kinit --kdc KDC --realm X.Y --name u --password-file pw --cache cc -> 1 =refused 6
        kclient kinit --kdc KDC --realm X.Y --name u --keytab u.keytab --cache cc -> 1 =refused Absent; u.keytab: 
    """)
    kinit = [*"kclient kinit --kdc 127.0.0.1:9 --realm A.B --keytab u.keytab --cache cc --name".split()]
    # behind an `@` stands a realm
    names = [each for each in NAMES if "@" not in each]
    trial.note(f"{len(names)} invalid names", faults_of(trial, kinit, names, 1, "=refused BadName"))
    served.end()
