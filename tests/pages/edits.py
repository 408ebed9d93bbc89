"""Edits that the prover has to refuse (`dev/edits`, and must-fail/ of crates): their old texts still stand in the
code."""

from try_edits import stale

from harness.tests import test


@test()
def texts(trial):
    """The old text of each edit stands in its file exactly once, and PROMISES and THEOREMS name no edit that there is
    not."""
    for what, fault in stale():
        trial.note(what, fault)
