#!/usr/bin/env python3
"""Installs `kdcd`, `kadm` and `kclient` with their manual pages, completion for bash and zsh, the units of systemd with
what they start, and what makes the user `kdcd` and its folder. `kadm` and `kclient` are scripts, which hide what is
typed at a terminal; the programs that they run are in libexec.

    python3 dev/install.py [--programs FOLDER] [--root FOLDER] [--unproved] [--library FILE] [PREFIX]

--library also installs the library for C, FILE and the shared object beside it, as `c_library.py` makes them, with the
header, `plovertrunk-accept.pc` and the manual page.
PREFIX is /usr/local, or an absolute path. --root installs below a folder, as to make a package; the installed files
name no folder of it. The programs are those of the crates, as `rt run` leaves them there, or of FOLDER. An unproved
program, whose version says so, is refused without --unproved. A file that is there is replaced as a whole, so a server
may run meanwhile. Only the settings in etc, of the server's log and of `kadm`, stay as they are: an administrator
changes them. It needs only Python 3, and prints each path that it wrote. The status is 1 if a program is refused or not
there, or a folder below that of --root is a link; nothing is installed then.

Others may write into a folder of PREFIX: Debian's /usr/local belongs to a group. So no link there is followed. A file
is written under a fresh name and then renamed, which replaces a link. A folder that is a link is refused, wherever it
leads: others could change where, between a look and a write."""

import argparse
import contextlib
import errno
import os
import pathlib
import secrets
import subprocess
import sys

from c_library import installed
from make_completion import Unreadable, made

TOP = pathlib.Path(__file__).resolve().parent.parent
DOCS = TOP / "docs"
NAME = "plovertrunk"
PROGRAMS = ("kdcd", "kadm", "kclient")
# The programs that ask for passwords, each with a script of docs/ in its place.
ASKING = ("kadm", "kclient")
# The units of docs/: the server, and what brings a changed database to other hosts, by the script PUSH.
UNITS = ("kdcd.service", "kdcd-push.path", "kdcd-push.service")
PUSH = "kdcd-push"
# The settings of the server's log, as systemd names them for the namespace `kdcd` of the unit. It reads them in /etc.
LOG = "journald@kdcd.conf"
# The settings of `kadm`: the database of a command that names none.
DEFAULTS = """# Variables of a shell. The database of a kadm without --db, and without KADM_DB in its environment:
KADM_DB=/var/lib/kdcd/database
"""
# With these prefixes the settings are in the system's own /etc.
OF_SYSTEM = ("/usr", "/usr/local")
# Where shells look for the files of `make_completion.py`, below share/.
COMPLETION = {"{}.bash": "bash-completion/completions/{}", "_{}": "zsh/site-functions/_{}"}
# What `dev/quick_build.py` adds to the version of a program.
MARK = "(unproved)"
# The prefix in the units and scripts of docs/, and the file of kadm's settings in its script.
USUAL, DEFAULTS_PATH = "/usr/local/", "/etc/default/kadm"
# The user that the server runs as, and its folder (sysusers.d, tmpfiles.d of systemd).
USER = 'u kdcd - "Kerberos KDC" /nonexistent /usr/sbin/nologin\n'
FOLDER = "d /var/lib/kdcd 0700 kdcd kdcd\n"
# How a folder and a new file are opened: never through a link, and the file only if nothing has its name. A folder need
# not be readable.
NO_LINK = os.O_NOFOLLOW | os.O_CLOEXEC
AS_FOLDER = os.O_PATH | os.O_DIRECTORY | NO_LINK
AS_NEW = os.O_WRONLY | os.O_CREAT | os.O_EXCL | NO_LINK
# How many fresh names are tried.
TRIES = 100


class Refused(Exception):
    """Why nothing is installed."""


def version(program):
    """The line that a program prints of its version."""
    ran = subprocess.run([program, "--version"], capture_output=True, text=True, stdin=subprocess.DEVNULL)
    if ran.returncode:
        raise Refused(f"{program}: --version ends with status {ran.returncode}")
    return ran.stdout.strip()


def program_in(folder, name, takes_unproved):
    """The path of a program, in this folder or as built in the folder of the crates."""
    places = [folder / name, folder / name / "out" / name]
    found = next((place for place in places if place.is_file()), None)
    if not found:
        raise Refused(
            f"{name} is not there: {' or '.join(map(str, places))}; build it by `rt run -- --help` in crates/{name}"
        )
    if MARK in version(found) and not takes_unproved:
        raise Refused(f"{found}: nothing was proved of it; --unproved installs it nevertheless")
    return found


def contents(folder, prefix, takes_unproved):
    """All that is installed: for each path its bytes and its mode."""
    found = {
        program_path(prefix, name): (program_in(folder, name, takes_unproved).read_bytes(), 0o755) for name in PROGRAMS
    }
    for page in sorted((DOCS / "man").iterdir()):
        found[f"{prefix}/share/man/man{page.suffix[1:]}/{page.name}"] = page.read_bytes(), 0o644
    try:
        completion = made()
    except Unreadable as fault:
        raise Refused(f"completion: {fault}") from fault
    for name in PROGRAMS:
        for file, place in COMPLETION.items():
            found[f"{prefix}/share/{place.format(name)}"] = completion[file.format(name)].encode(), 0o644
    placed = lambda name: placed_text((DOCS / name).read_text(), prefix)
    texts = {f"lib/systemd/system/{unit}": placed(unit) for unit in UNITS}
    texts |= {"lib/sysusers.d/kdcd.conf": USER, "lib/tmpfiles.d/kdcd.conf": FOLDER}
    found |= {f"{prefix}/{name}": (text.encode(), 0o644) for name, text in texts.items()}
    for name in (PUSH, *ASKING):
        found[f"{prefix}/bin/{name}"] = placed(f"{name}.sh").encode(), 0o755
    return found | {path: (text.encode(), 0o644) for path, text in settings(prefix).items()}


def program_path(prefix, name):
    """The path of a program; in place of some there is a script in bin."""
    return f"{prefix}/libexec/{NAME}/{name}" if name in ASKING else f"{prefix}/bin/{name}"


def placed_text(text, prefix):
    """The text of a unit or script with the paths of this prefix."""
    return text.replace(USUAL, f"{prefix}/").replace(DEFAULTS_PATH, f"{above_etc(prefix)}{DEFAULTS_PATH}")


def above_etc(prefix):
    """The path of the folder with the `etc` of settings; it is empty for the system's own."""
    return "" if prefix in OF_SYSTEM else prefix


def settings(prefix):
    """The paths of the settings that stay as an administrator has changed them, with their texts."""
    above = above_etc(prefix)
    return {f"{above}/etc/systemd/{LOG}": (DOCS / LOG).read_text(), f"{above}{DEFAULTS_PATH}": DEFAULTS}


def enter(folder, name, path):
    """Opens a folder in an open one, and makes it if it is not there. A link, or what else is no folder, is refused."""
    try:
        try:
            return os.open(name, AS_FOLDER, dir_fd=folder)
        except FileNotFoundError:
            os.mkdir(name, 0o755, dir_fd=folder)
            return os.open(name, AS_FOLDER, dir_fd=folder)
    except OSError as fault:
        if fault.errno not in (errno.ENOTDIR, errno.ELOOP):
            raise
        raise Refused(f"{path}: it is no folder; if it is a link, name the folder that it leads to") from None


@contextlib.contextmanager
def folder_of(root, path):
    """Opens the folder of a path below `root`, and makes what is not there."""
    root.mkdir(parents=True, exist_ok=True)
    shown, folder = root, os.open(root, AS_FOLDER & ~os.O_NOFOLLOW)
    try:
        for name in pathlib.PurePath(path).relative_to("/").parent.parts:
            shown, outer = shown / name, folder
            folder = enter(outer, name, shown)
            os.close(outer)
        yield folder
    finally:
        os.close(folder)


def create(folder, name):
    """Makes a file in an open folder, of a name that nobody can foresee and nothing had. Returns the name, and it."""
    for _ in range(TRIES):
        new = f".{name}.{secrets.token_hex(8)}.new"
        with contextlib.suppress(FileExistsError):
            return new, os.open(new, AS_NEW, 0o600, dir_fd=folder)
    raise FileExistsError(f"{name}: all fresh names beside it are taken")


def is_there(folder, name):
    """Whether anything has this name in an open folder, also a link that leads nowhere."""
    try:
        os.stat(name, dir_fd=folder, follow_symlinks=False)
    except FileNotFoundError:
        return False
    return True


def write(root, path, octets, mode, stays=False):
    """Puts a file in its place below `root` as a whole. With `stays` it replaces nothing. Returns whether it wrote."""
    name = os.path.basename(path)
    with folder_of(root, path) as folder:
        if stays and is_there(folder, name):
            return False
        new, number = create(folder, name)
        try:
            with open(number, "wb") as file:
                file.write(octets)
                os.fchmod(number, mode)
            os.replace(new, name, src_dir_fd=folder, dst_dir_fd=folder)
        except BaseException:
            os.unlink(new, dir_fd=folder)
            raise
    return True


def main():
    words = argparse.ArgumentParser(description=__doc__, formatter_class=argparse.RawDescriptionHelpFormatter)
    words.add_argument("--programs", type=pathlib.Path, default=TOP / "crates")
    words.add_argument("--root", type=pathlib.Path, default=pathlib.Path("/"))
    words.add_argument("--unproved", action="store_true")
    words.add_argument("--library", type=pathlib.Path)
    words.add_argument("prefix", nargs="?", default="/usr/local", metavar="PREFIX")
    given = words.parse_args()
    prefix = os.path.normpath(given.prefix)
    if not os.path.isabs(prefix):
        words.error("PREFIX is an absolute path")
    os.umask(0o022)
    try:
        files = contents(given.programs, prefix, given.unproved)
        files |= installed(prefix, given.library) if given.library else {}
        for path in files:
            with folder_of(given.root, path):
                pass
        for path, (octets, mode) in files.items():
            if write(given.root, path, octets, mode, stays=path in settings(prefix)):
                print(given.root / path.lstrip("/"))
    except (Refused, OSError) as fault:
        sys.exit(f"install.py: {fault}")


if __name__ == "__main__":
    main()
