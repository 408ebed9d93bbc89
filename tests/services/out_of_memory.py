"""Allocations of a service that fail."""

from harness.faults import refuse_each
from harness.programs import SERVICE_EXAMPLE
from harness.tests import test


@test("kadm", SERVICE_EXAMPLE)
def a_line(trial):
    """Allocations for a line that is no AP-REQ."""
    trial.realm()
    refuse_each(trial, f"{SERVICE_EXAMPLE} h.keytab first", given="00\n", status=1, out="out of memory\n")
