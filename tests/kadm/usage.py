"""The help of `kadm`, and each of its options with bad values, left out, given twice, and without a value."""

from harness.options import try_sessions
from harness.tests import test


@test("kadm", seconds=20)
def bad_uses(trial):
    """The help of each command, and bad uses of each option."""
    try_sessions(trial, "kadm")
