"""Allocations of `kadm` that fail."""

from harness.faults import refuse_each
from harness.tests import test


@test("kadm", seconds=400)
def commands(trial):
    """Allocations of each command that fail."""
    trial.realm()
    for words in (
        "init --db new --realm R.S", "add --name w --password-file pw", "passwd --name w --password-file other",
        "random --name r",
        "random --name r", "drop --name r --version 1", "policy --name w --field disabled --value true", "list",
        "show --name w",
        "keytab --name h --out kt", "keytab --name r --out kt --append", "remove --name w", "migrate",
    ):
        refuse_each(trial, f"kadm {words}" + " --db database" * ("--db" not in words))
