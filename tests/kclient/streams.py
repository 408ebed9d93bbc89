"""`kclient` without its standard streams, and what it syncs."""

from harness.programs import fixed_system
from harness.tests import test
from harness.wire import REALM


@test("kadm", "kdcd", "kclient", seconds=5)
def missing(trial):
    """A cache never takes the place of a standard stream that the program was started without."""
    trial.realm()
    server = trial.serve()
    login = f"--kdc {server.udp} --realm {REALM} --cache cc --name u --password-file pw"
    for closed in ("1>&-", "2>&-", "0<&- 1>&-", "0<&- 1>&- 2>&-"):
        for path in trial.folder.glob("cc*"):
            path.unlink()
        words = f"exec {trial.programs['kclient']} kinit {login} {closed}"
        trial.expect(["sh", "-c", words], 0, what=f"kinit {closed}")
        trial.expect("kclient klist --cache cc", 0, f"u@{REALM}", what=f"{closed}: the cache is whole")
        trial.expect("KVNO h", 0, "=h kvno 1", what=f"{closed}: it has a ticket")
        left = sorted(path.name for path in trial.folder.glob("cc*"))
        trial.same(f"{closed}: no other file is left", left, ["cc"])
    server.end()


@test("kadm", "kdcd", "kclient", seconds=5)
def caches(trial):
    """A cache is synced before it is renamed, and its folder is not."""
    trial.realm()
    server = trial.serve()
    environment = {**trial.environment, "LD_PRELOAD": fixed_system(), "CALLS": "calls"}
    trial.expect("KINIT u --password-file pw", 0, "=ok", env=environment)
    calls = [call.split()[0] for call in (trial.folder / "calls").read_text().splitlines()]
    found = [call for call in calls if call in ("fsync", "rename", "fsync_folder")]
    trial.same("what kinit syncs", found, ["fsync", "rename"])
    server.end()


@test("kadm", "kdcd", "kclient", seconds=5)
def configs(trial):
    """A `krb5.conf` that names the cache, the realm and its KDC is opened once for a command."""
    trial.realm()
    server = trial.serve()
    (trial.folder / "krb5.conf").write_text(
        f"[libdefaults]\ndefault_realm = {REALM}\ndefault_ccache_name = FILE:cc\n"
        f"[realms]\n{REALM} = {{\nkdc = {server.udp}\n}}\n"
    )
    environment = {**trial.environment, "LD_PRELOAD": fixed_system(), "KRB5_CONFIG": "krb5.conf", "CALLS": "calls"}
    environment.pop("KRB5CCNAME", None)
    trial.expect("kclient kinit u --password-file pw", 0, "=ok", env=environment)
    calls = (trial.folder / "calls").read_text().splitlines()
    trial.same("how often krb5.conf is opened", sum(call.split()[:2] == ["open", "krb5.conf"] for call in calls), 1)
    trial.expect("kclient klist --cache cc", 0, f"u@{REALM}", what="the cache that it names")
    server.end()
