"""Databases of each version, and the database of the newest one that each becomes."""

from harness.databases import VERSION, one_row_text
from harness.tests import test


@test("kadm")
def versions(trial):
    """`migrate` of a database of each version. Tickets for the ticket-granting service are never denied."""
    trial.enter("versions")
    for version in range(1, VERSION + 1):
        for words in ("kadm migrate --db db", "kadm migrate --db db --users-are-no-services"):
            trial.write("db", one_row_text(version))
            trial.expect(words, 0, "=ok", what=f"{words}, from version {version}")
            trial.same("the database that is written", (trial.folder / "db").read_text(), one_row_text())
