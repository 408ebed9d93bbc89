"""The words of a service's command line."""

from harness.programs import SERVICE_EXAMPLE
from harness.tests import test

USAGE = f"usage: {SERVICE_EXAMPLE} KEYTAB [first] [save FILE]"


@test(SERVICE_EXAMPLE)
def words(trial):
    """`--help` says what each word is; other words without a meaning are a usage error."""
    trial.enter("words")
    for word in ("--help", "-h"):
        trial.expect(f"{SERVICE_EXAMPLE} {word}", 0, USAGE, "\n  KEYTAB  ", "\n  first  ", "\n  save FILE  ")
    for line in ("", "h.keytab second", "h.keytab save", "--help first last"):
        trial.expect(f"{SERVICE_EXAMPLE} {line}", 2, f"={USAGE}")
