"""Passwords at a terminal."""

from harness.terminal import expect_hidden, expect_restored, put_script
from harness.tests import test


@test("kadm", "kdcd", "kclient")
def logins(trial):
    """A login asks once."""
    trial.realm()
    server = trial.serve()
    for words, typed, status, out, asked in (
        ("KINIT v", "a password\n", 0, "=ok", 1),
        ("KINIT v", "another\n", 1, "=refused CannotOpen", 1),
    ):
        trial.expect_typed(words, typed, status, out, asked)
    server.end()


@test("kadm", "kdcd", "kclient", seconds=4)
def hidden(trial):
    """The installed script hides what is typed, and leaves the terminal as it was."""
    trial.realm()
    server = trial.serve()
    kclient = put_script(trial, "kclient", trial.folder)
    kinit = [kclient, *trial.short["KINIT"][1:], "v"]
    asked = "Password for v@A.B: "
    expect_hidden(trial, kinit, ["a password\n"], 0, f"{asked}\nok\n")
    expect_hidden(trial, [*kinit, "--password-file", "pw"], [], 0, "ok\n")
    trial.expect([kclient, "klist", "--cache", "cc"], 0, "v@A.B", what="another command")
    expect_restored(trial, kinit, asked)
    server.end()
