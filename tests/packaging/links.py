"""`dev/install.py` and `dev/make_deb.py` in folders that others may write: links that were planted there lead neither
of them to another file."""

import os
import secrets
import shutil

from install import Refused, write

from harness.programs import TOP
from harness.tests import test
from packaging.install import INSTALL, PACK, stand_ins

# What the victim of a link has, and its mode.
OWN, MODE = "its own text\n", 0o640
# Runs the words as a process whose number was known before: that of the shell, which makes a link by it.
WITH_LINK = 'ln -s "$1" "$2/.kdcd.$$.new" && shift 2 && exec "$@"'


def victim(trial):
    """A file that no program here may touch."""
    trial.write("victim", OWN)
    place = trial.folder / "victim"
    place.chmod(MODE)
    return place


def expect_untouched(trial, what, place):
    trial.same(f"{what}: the victim", (place.read_text(), place.stat().st_mode & 0o777), (OWN, MODE))


def installing(trial):
    """The words that install stand-ins, and the folder of the installed programs, which is there."""
    programs, root = stand_ins(trial.folder / "programs"), trial.folder / "root"
    (root / "usr/local/bin").mkdir(parents=True)
    return [*INSTALL, "--programs", str(programs), "--root", str(root)], root / "usr/local/bin"


@test()
def target(trial):
    """A link at the place of a program is replaced, also one that leads nowhere."""
    trial.enter("target")
    words, folder = installing(trial)
    place = victim(trial)
    (folder / "kadm").symlink_to(place)
    (folder / "kdcd").symlink_to(trial.folder / "nowhere")
    trial.expect(words, 0, what="the programs are installed")
    expect_untouched(trial, "a link at the place of kadm", place)
    trial.note("nothing is made where a link led", "it is" * (trial.folder / "nowhere").exists())
    for name in ("kadm", "kdcd"):
        found = (folder / name).lstat()
        trial.same(f"{name} is a program, and no link", oct(found.st_mode), oct(0o100755))
    trial.same("no other file is left", sorted(os.listdir(folder)), ["kadm", "kclient", "kdcd", "kdcd-push"])


@test()
def temporary(trial):
    """A link at a name that could be guessed from the process's number is not followed."""
    trial.enter("temporary")
    words, folder = installing(trial)
    place = victim(trial)
    trial.expect(["sh", "-c", WITH_LINK, "sh", place, folder, *words], 0, what="the programs are installed")
    expect_untouched(trial, "a link at a guessed name", place)
    planted = [each for each in os.listdir(folder) if each.endswith(".new")]
    trial.note("the link was there", "" if len(planted) == 1 else str(planted))
    trial.same("kdcd is a program", oct((folder / "kdcd").lstat().st_mode), oct(0o100755))


@test()
def guessed(trial):
    """A link at the very name that would be taken: another name is taken."""
    trial.enter("guessed")
    place, drawn, usual = victim(trial), [], secrets.token_hex
    planted = trial.folder / ".file.planted.new"
    planted.symlink_to(place)

    def draw(count):
        drawn.append("planted" if not drawn else usual(count))
        return drawn[-1]

    secrets.token_hex = draw
    try:
        write(trial.folder, "/file", b"new\n", 0o644)
    finally:
        secrets.token_hex = usual
    expect_untouched(trial, "a link at the fresh name", place)
    trial.same("the names that were tried", len(drawn), 2)
    trial.same("the link stays", os.readlink(planted), str(place))
    trial.same("the file", (trial.folder / "file").read_text(), "new\n")
    trial.same("no other file is left", sorted(os.listdir(trial.folder)), [planted.name, "file", "victim"])


@test()
def folders(trial):
    """A folder that is a link is refused, and nothing is installed; the folder of --root may be one."""
    trial.enter("folders")
    words, folder = installing(trial)
    elsewhere = trial.folder / "elsewhere"
    elsewhere.mkdir()
    for name in ("usr/local/lib/systemd", "usr/local/share", "usr/local/bin"):
        link = trial.folder / "root" / name
        link.parent.mkdir(exist_ok=True)
        if link.is_dir():
            shutil.rmtree(link)
        link.symlink_to(elsewhere)
        trial.expect(words, 1, f"{link}: it is no folder; if it is a link", what=f"a link at {name} is refused")
        trial.same(f"nothing is made where {name} leads", os.listdir(elsewhere), [])
        installed = [each for each in (trial.folder / "root").rglob("*") if each.is_file()]
        trial.same("nothing is installed", installed, [])
        link.unlink()
    (trial.folder / "root/usr/local/lib").rmdir()
    (trial.folder / "root/usr/local/lib").write_text(OWN)
    trial.expect(words, 1, "lib: it is no folder", what="a file in place of a folder is refused")
    os.unlink(trial.folder / "root/usr/local/lib")
    (trial.folder / "named").symlink_to(trial.folder / "root")
    trial.expect([*words, "--root", trial.folder / "named"], 0, what="the folder of --root is a link")
    trial.note("the programs are where it leads", "" if (folder / "kdcd").is_file() else "they are not")


@test()
def settings(trial):
    """The settings of the log are made once; an administrator's stay as they are."""
    trial.enter("settings")
    words, _ = installing(trial)
    trial.expect(words, 0, "journald@kdcd.conf", what="the first time")
    place = trial.folder / "root/etc/systemd/journald@kdcd.conf"
    trial.same("the settings", place.read_text(), (TOP / "docs/journald@kdcd.conf").read_text())
    place.write_text(OWN)
    ran = trial.run(words)
    trial.note("the second time", ran.fault(0) or "it names the settings" * ("journald@kdcd.conf" in ran.out))
    trial.same("changed settings stay", place.read_text(), OWN)
    place.unlink()
    place.symlink_to(trial.folder / "nowhere")
    trial.expect(words, 0, what="settings that are a link")
    trial.same("it stays", os.readlink(place), str(trial.folder / "nowhere"))
    trial.note("nothing is made where it leads", "it is" * (trial.folder / "nowhere").exists())


@test()
def packed(trial):
    """A link at the place of the package is replaced."""
    trial.enter("packed")
    if not shutil.which("dpkg-deb"):
        return trial.leave("the package for Debian: dpkg-deb is not on the path")
    programs, out, place = stand_ins(trial.folder / "programs"), trial.folder / "out", victim(trial)
    trial.expect([*PACK, "--programs", programs, "--out", out], 0, what="the package is made")
    made = next(out.iterdir())
    made.unlink()
    made.symlink_to(place)
    trial.expect([*PACK, "--programs", programs, "--out", out], 0, what="the package is made again")
    expect_untouched(trial, "a link at the place of the package", place)
    trial.same("the package is a file", oct(made.lstat().st_mode), oct(0o100644))
    trial.same("no other file is left", os.listdir(out), [made.name])
    trial.expect(["dpkg-deb", "--field", made, "Package"], 0, "=plovertrunk", what="it is the package")


@test()
def failed(trial):
    """A file that can't be put in place leaves nothing beside it."""
    trial.enter("failed")
    (trial.folder / "kadm").mkdir()
    try:
        write(trial.folder, "/kadm", b"new\n", 0o644)
        found = "nothing"
    except (IsADirectoryError, Refused) as fault:
        found = type(fault).__name__
    trial.same("a folder in place of the file: the error", found, "IsADirectoryError")
    trial.same("what is there", os.listdir(trial.folder), ["kadm"])
