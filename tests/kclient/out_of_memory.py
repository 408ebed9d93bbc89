"""Allocations of `kclient` that fail."""

from harness.faults import refuse_each
from harness.tests import test


@test("kadm", "kdcd", "kclient", seconds=30)
def commands(trial):
    """Allocations of each command that fail."""
    trial.realm()
    server = trial.serve()
    for words in ("KINIT v --password-file pw", "KVNO h", "kclient klist --cache cc"):
        refuse_each(trial, words)
    server.end()
