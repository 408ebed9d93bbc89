"""Passwords at a terminal."""

from harness.terminal import expect_hidden, expect_restored, put_script
from harness.tests import test


@test("kadm")
def new_passwords(trial):
    """A new password is asked for twice."""
    trial.realm()
    for words, typed, status, out, asked in (
        ("kadm add --db database --name t", "secret\nsecret\n", 0, "=ok", 2),
        ("kadm add --db database --name o", "one\ntwo\n", 1, "=refused Mismatch", 2),
        ("kadm add --db database --name o", "\x04", 3, "=failed", 1),
        ("kadm passwd --db database --name t", "new\nnew\n", 0, "=ok", 2),
    ):
        trial.expect_typed(words, typed, status, out, asked)


@test("kadm", seconds=4)
def hidden(trial):
    """The installed script hides what is typed, and leaves the terminal as it was."""
    trial.realm()
    kadm = put_script(trial, "kadm", trial.folder)
    asked = "Password for t@A.B: "
    for words, typed, status, shown in (
        ("add --name t", ["secret\n", "secret\n"], 0, f"{asked}\n{asked}\nok\n"),
        ("passwd --name t", ["one\n", "two\n"], 1, f"{asked}\n{asked}\nMISMATCHrefused Mismatch\n"),
        ("passwd --name t --password-file pw", [], 0, "ok\n"),
        ("random --name s", [], 0, "ok\nkadm: s: added, with keys of version 1\n"),
    ):
        shown = shown.replace("MISMATCH", "kadm: t: the two passwords differ; nothing was changed\n")
        expect_hidden(trial, [kadm, *words.split(), "--db", "database"], typed, status, shown)
    expect_restored(trial, [kadm, "passwd", "--db", "database", "t"], asked)


@test("kadm")
def settings(trial):
    """The installed script hands its words on, and names the database of the host's settings."""
    trial.realm()
    kadm = put_script(trial, "kadm", trial.folder)
    listed = trial.run("kadm list --db database").out.strip("\n")
    trial.expect([kadm, "list"], 2, "required", what="without settings, a command without --db")
    trial.write("settings", "# the host's\nKADM_DB=database\n")
    trial.expect([kadm, "list"], 0, f"={listed}", what="the settings name the database")
    trial.expect([kadm, "show", "--name=a b", "--db=database"], 1, "=refused BadName", what="a word with a space")
    trial.expect([kadm], 2, what="no word")
    trial.expect([kadm, "add", "t"], 0, "=ok", what="a password from a pipe", given="a password\n")
    trial.environment["KADM_DB"] = "text"
    trial.expect([kadm, "list"], 1, "=refused NotJson", what="the environment comes before the settings")
    trial.expect([kadm, "list", "--db", "database"], 0, what="the option comes before both")
