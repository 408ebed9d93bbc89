"""Each command and option of `kadm` with good values, bad names and files, and what is printed."""

import os
import shlex

from harness.databases import POLICY
from harness.options import MOST, NAMES, faults_of
from harness.server import sink_of
from harness.tests import test
from harness.wire import REALM

FLAGS = [field for field, value in POLICY.items() if isinstance(value, bool)]
TIMES = [field for field, value in POLICY.items() if value is None]
SPANS = [field for field in POLICY if field not in (*FLAGS, *TIMES)]
# Good and bad values of the fields of a policy.
SETTINGS = {
    **dict.fromkeys(FLAGS, (("true", "false"), ("", "TRUE", "yes", "1", "never", "true "))),
    **dict.fromkeys(TIMES, (
        ("never", "0", "7d", "90m", "1798761600", "2027-01-01", "2027-01-01T12:00:00Z", "2028-02-29"),
        ("", "Never", "-1", "2027-1-1", "2027-02-29", "2027-13-01", "2027-01-01T24:00:00Z", "2027-01-01 12:00:00Z"),
    )),
    **dict.fromkeys(
        SPANS, (("0", "1", "10h", "49710d", str(MOST)), ("", "-1", "never", "h", "1w", "1 h", "49711d", str(MOST + 1)))
    ),
}


@test("kadm", seconds=10)
def good_uses(trial):
    """Each command and option with good values, and what is printed. Then fields of a policy, and bad names and
    files."""
    trial.realm()
    trial.cases("""
        kadm init --db new --realm R.S -> 0 =ok
        kadm init --db seeded --realm R.S --seed seed -> 0 =ok
        kadm add --db database --name a --password-file pw -> 0 =ok
        kadm add --db database --name b --password-file pw --types 17 -> 0 =ok
        kadm add --db database --name c <<< a password -> 0 =ok
        kadm passwd --db database --name a --password-file other --types 20,18 -> 0 =ok
        kadm passwd --db database --name c <<< another -> 0 =ok
        kadm random --db database --name r -> 0 =ok
        kadm random --db database --name r --seed seed --types 19,17 -> 0 =ok
        kadm drop --db database --name r --version 0000000001 -> 0 =ok
        kadm add --db database --name s --random -> 0 =ok
        kadm random --db database --name s -> 0 =ok; s: has new keys, version 2; older versions stay
        kadm random --db database --name s --replace -> 0 =ok; s: has new keys, version 3; older versions are dropped
        kadm random --db database --name t -> 0 =ok; t: added, with keys of version 1
        kadm random --db database --name t --types 17 -> 0 =ok
        kadm drop --db database --name t --older -> 0 =ok
        kadm add --db database --name x <<<  -> 1 =refused BadPassword
        kadm list --db database --like t --long -> 0 =t 2 17 never never false 1 true
        kadm policy --db database --name t --field preauth --value false -> 0 =ok
        kadm policy --db database --name t --field expires --value 2020-01-01 -> 0 =ok
        kadm lint --db database -> 0 a old_passwords 1 #; t expired 2020-01-01T00:00:00Z #; t no_preauth #; \
t may_be_service #
        kadm random --db database --name nobody --existing -> 1 =refused Absent
        kadm random --db database --name nobody --replace -> 1 =refused Absent
        kadm keytab --db database --name t --out t.keytab -> 0 =ok
        kadm remove --db database --name s -> 0 =ok
        kadm remove --db database --name t -> 0 =ok
        kadm import --db database --name t --keytab t.keytab -> 0 =ok
        kadm list --db database --like t -> 0 =t 2 17
        kadm remove --db database --name t -> 0 =ok
        kadm keytab --db database --name a --out a.keytab -> 0 =ok
        kadm keytab --db database --name b --out a.keytab --append -> 0 =ok
        kadm remove --db database --name b -> 0 =ok
        kadm batch --db database <<< random --name s -> 0 =ok; line 1: random: s: added, with keys of version 1
        kadm batch --db database --keep-going <<< remove --name s -> 0 =ok
        kadm batch --db database <<< remove --name s -> 1 =refused Absent; \
line 1: remove: s: the database has no such principal; line 1: nothing was written
        kadm migrate --db database -> 0 =ok
        kadm list --db database --like c --long -> 0 =c 2 18,17,20,19 never never false 2 false
        kadm add --db database --name d --password-file pw --service --types 18 --disabled --expires 2028-02-29 -> 0 =ok
        kadm list --db database --like d --long --json -> 0 "name":"d"; "expires":"2028-02-29T00:00:00Z"; \
"disabled":true
        kadm policy --db database --name d --name d --set disabled=false --set expires=never -> 0 =ok
        kadm list --db database --like d --long -> 0 =d 1 18 never never false 1 true
        kadm migrate --db database --users-are-no-services -> 0 =ok
        kadm list --db database --like d --long -> 0 =d 1 18 never never false 1 false
        kadm remove --db database --name d -> 0 =ok
    """)
    every, rows = "1 18,17,20,19", ["a 2 20,18", "c 2 18,17,20,19"]
    rows += [f"h {every}", f"host/n {every}", f"krbtgt/{REALM} {every}", "r 2 19,17", f"u {every}", f"v {every}"]
    trial.expect("kadm list --db database", 0, "=" + "\n".join(rows))
    policy = "kadm policy --db database --name a --field".split()
    for field, (good, bad) in SETTINGS.items():
        faults = faults_of(trial, [*policy, field, "--value"], good, 0, "=ok")
        faults += faults_of(trial, [*policy, field, "--value"], bad, 2, "--value")
        trial.note(f"kadm policy --field {field}: {len(good)} good values, {len(bad)} bad ones", faults)
    last = {**dict.fromkeys(FLAGS, "false"), **dict.fromkeys(SPANS, str(MOST))}
    last.update(dict.fromkeys(TIMES, "1835395200 2028-02-29T00:00:00Z"))
    rows = [*[f"{field} {value}" for field, value in sorted(last.items())], "version 2 20,18", "version 1 18,17,20,19"]
    trial.expect("kadm show --db database --name a", 0, "=" + "\n".join(rows))
    random = "kadm random --db database --name".split()
    trial.note(f"{len(NAMES)} invalid names", faults_of(trial, random, NAMES, 1, "=refused BadName"))
    trial.write("longest", "p" * 1024)
    (trial.folder / "folder").mkdir()
    before = (trial.folder / "database").read_bytes()
    trial.cases("""
        kadm init --db n --realm "" -> 1 =refused BadName
        kadm add --db database --name x --password-file none -> 3 =failed; none: No such file
        kadm passwd --db database --name x --password-file pw -> 1 =refused Absent
        kadm list --db folder -> 3 =failed; folder: 
        kadm keytab --db database --name a --out folder -> 3 =failed; folder: 
        kadm keytab --db database --name a --out no/kt -> 3 =failed; no/kt
        kadm keytab --db database --name a --out /dev/full -> 3 =failed; /dev/full: 
        kadm keytab --db database --name a --out ./database -> 1 =refused IsDatabase
        kadm keytab --db ./database --name a --out database --append -> 1 =refused IsDatabase
        kadm keytab --db database --name a --out folder/../database -> 1 =refused IsDatabase
        kadm keytab --db database --name a --out new -> 1 =refused IsDatabase
        kadm keytab --db database --name a --out ./new.lock --append -> 1 =refused IsLock
        kadm import --db database --name x --keytab none -> 3 =failed; none: No such file
    """)
    changed = (trial.folder / "database").read_bytes() != before
    trial.note("the database is as it was before these", "it is another" if changed else "")
    trial.expect("kadm add --db database --name longest --password-file longest", 0, "=ok")
    modes = {(trial.folder / name).stat().st_mode & 0o777 for name in ("database", "a.keytab", "new")}
    trial.note("a database and a keytab are their owner's alone", "" if modes == {0o600} else str(modes))
    for sink in ("/dev/full", "a pipe that is closed"):
        writer, _ = sink_of(trial, sink)
        trial.expect("kadm list --db database", 3, stdout=writer, what=f"kadm list, whose output is {sink}")
        os.close(writer)
    for number, closed in enumerate(("0<&-", "1>&-", "2>&-", "0<&- 1>&- 2>&-")):
        words = f"exec {shlex.quote(trial.programs['kadm'])} random --db database --name closed{number} {closed}"
        trial.run(["sh", "-c", words])
        trial.expect("kadm show --db database --name u", 0, "version 1 ", what=f"the database is whole: kadm {closed}")
