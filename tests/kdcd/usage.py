"""The help of `kdcd`, and each of its options with bad values, left out, given twice, and without a value."""

from harness.options import try_program
from harness.tests import test

# The options of each command: `!` is required, `*` may be given more than once, `-` has no value, `?` may have none,
# and `#` has a number.
COMMANDS = {
    "kdcd serve":
        "db! udp!* tcp* log- log-format first- journal? no-journal- journal-size quiet-start- fixed- seed rounds# "
        "remembered kept lock-after# lock-seconds greatest-life greatest-renewable metrics",
    "kdcd seal": "journal!",
}


@test("kadm", "kdcd", seconds=20)
def bad_uses(trial):
    """The help of each command, and bad uses of each option."""
    try_program(trial, "kdcd", COMMANDS)
