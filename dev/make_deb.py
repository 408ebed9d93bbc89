#!/usr/bin/env python3
"""Makes a package for Debian of what `install.py` installs: `kdcd`, `kadm` and `kclient` with their manual pages,
completion for bash and zsh, the units of systemd with what they start, what makes the user and its folder, and the
pages.

    python3 dev/make_deb.py [--programs FOLDER] [--out FOLDER] [--unproved] [--library FILE]

The programs are those of the crates, as `rt run` leaves them there, or of FOLDER. An unproved program, whose version
says so, is refused without --unproved, and the package's version then ends with `~unproved`. With --library it has the
library for C too, as `install.py` installs it. The package is
plovertrunk_VERSION_ARCHITECTURE.deb in the folder of --out, or in the current one; the last line is its path.
Installing it makes the user and the folder; it starts nothing, since no unit names an address of the host yet. Removing
it stops the server and leaves /var/lib/kdcd. It needs Python 3 and dpkg-deb. The status is 1 if a program is refused or
not there; no package is made then."""

import argparse
import gzip
import pathlib
import re
import subprocess
import sys
import tempfile

from c_library import installed
from install import MARK, NAME, PROGRAMS, TOP, Refused, contents, program_in, program_path, version, write

# Where Debian's zsh looks for the completion of packages, in place of the folder that `install.py` uses.
FOR_ZSH = ("/usr/share/zsh/site-functions/", "/usr/share/zsh/vendor-completions/")
CONTROL = """Package: {name}
Version: {version}
Architecture: {architecture}
Maintainer: those from whom you have it <root@localhost>
Installed-Size: {size}
Depends: libc6 (>= {libc})
Recommends: systemd
Suggests: libjemalloc2, openssh-client, krb5-user | heimdal-clients
Section: net
Priority: optional
Description: Kerberos 5 KDC for one realm, with its tools
 kdcd serves a realm over UDP and TCP, kadm makes and changes its database,
 and kclient gets tickets. {proof}
 The pages are in /usr/share/doc/{name}.
"""
PROVED, UNPROVED = "Each function is proved to meet its contract.", "NOTHING IS PROVED OF THESE PROGRAMS."
# Runs after the files are there. A host without systemd gets the same user and folder by other means. So does a root
# without /proc, as the one in which an image is made: systemd's tools fail there.
POSTINST = """#!/bin/sh
set -e
[ "$1" = configure ] || exit 0
has() { [ -e /proc/self ] && command -v "$1" > /dev/null; }
if has systemd-sysusers; then
    systemd-sysusers kdcd.conf
elif ! getent passwd kdcd > /dev/null; then
    useradd --system --user-group --home-dir /nonexistent --no-create-home --shell /usr/sbin/nologin kdcd
fi
if has systemd-tmpfiles; then
    systemd-tmpfiles --create kdcd.conf
else
    install -d -o kdcd -g kdcd -m 700 /var/lib/kdcd
fi
if [ -d /run/systemd/system ]; then
    systemctl daemon-reload
fi
"""
PRERM = """#!/bin/sh
set -e
if [ "$1" = remove ] && [ -d /run/systemd/system ]; then
    systemctl disable --now kdcd.service kdcd-push.path kdcd-push.service
fi
"""
POSTRM = """#!/bin/sh
set -e
if [ -d /run/systemd/system ]; then
    systemctl daemon-reload
fi
"""
COPYRIGHT = "No licence is chosen yet: README.md says so, and CHANGELOG.md what 1.0 asks for.\n"


def packed(files):
    """The files of `install.py` as Debian has them: manual pages are compressed, and zsh's files in another folder."""
    found = {}
    for path, (octets, mode) in files.items():
        if "/share/man/" in path:
            path, octets = f"{path}.gz", gzip.compress(octets, 9, mtime=0)
        found[path.replace(*FOR_ZSH)] = octets, mode
    pages = [page for pattern in ("*.md", "docs/*.*", "docs/pictures/*") for page in TOP.glob(pattern)]
    for page in sorted(filter(pathlib.Path.is_file, pages)):
        found[f"/usr/share/doc/{NAME}/{page.relative_to(TOP)}"] = page.read_bytes(), 0o644
    return found | {f"/usr/share/doc/{NAME}/copyright": (COPYRIGHT.encode(), 0o644)}


def least_libc(programs):
    """The least version of the C library that has what the programs take from it."""
    found = {each for octets in programs for each in re.findall(rb"GLIBC_(\d+)\.(\d+)", octets)}
    return ".".join(map(str, max((tuple(map(int, each)) for each in found), default=(2, 17))))


def control(files, said):
    """The text of the package's control file, for programs that say this of their version."""
    number = said.split()[1]
    is_unproved = MARK in said
    return CONTROL.format(
        name=NAME, version=f"{number}{'~unproved' * is_unproved}",
        size=sum(len(octets) for octets, _ in files.values()) // 1024 + 1, architecture=machine(),
        libc=least_libc(files[program_path("/usr", name)][0] for name in PROGRAMS),
        proof=UNPROVED if is_unproved else PROVED
    )


def machine():
    """Debian's name of this machine's architecture."""
    return subprocess.run(["dpkg", "--print-architecture"], check=True, capture_output=True, text=True).stdout.strip()


def own_files(files, text):
    """The files by which dpkg knows the package, as `contents` has those that it installs. What is in /etc stays as an
    administrator changed it."""
    settings = "".join(f"{path}\n" for path in files if path.startswith("/etc/"))
    found = {"control": (text, 0o644), "conffiles": (settings, 0o644)}
    found |= {name: (script, 0o755) for name, script in (("postinst", POSTINST), ("prerm", PRERM), ("postrm", POSTRM))}
    return {f"/DEBIAN/{name}": (text.encode(), mode) for name, (text, mode) in found.items()}


def make(out, files, text):
    """Makes the package in a folder, and returns its path."""
    fields = dict(line.split(": ", 1) for line in text.splitlines() if re.match(r"[A-Z][\w-]*: ", line))
    name = f"{NAME}_{fields['Version']}_{fields['Architecture']}.deb"
    with tempfile.TemporaryDirectory() as scratch:
        root, made = pathlib.Path(scratch, "root"), pathlib.Path(scratch, name)
        for path, (octets, mode) in (files | own_files(files, text)).items():
            write(root, path, octets, mode)
        for folder in [root, *(each for each in root.rglob("*") if each.is_dir())]:
            folder.chmod(0o755)
        subprocess.run(["dpkg-deb", "--build", "--root-owner-group", root, made], check=True, stdout=subprocess.DEVNULL)
        # Others may write into the folder of --out, and guess the name.
        write(out, f"/{name}", made.read_bytes(), 0o644)
    return out / name


def main():
    words = argparse.ArgumentParser(description=__doc__, formatter_class=argparse.RawDescriptionHelpFormatter)
    words.add_argument("--programs", type=pathlib.Path, default=TOP / "crates")
    words.add_argument("--out", type=pathlib.Path, default=pathlib.Path("."))
    words.add_argument("--unproved", action="store_true")
    words.add_argument("--library", type=pathlib.Path)
    given = words.parse_args()
    try:
        files = packed(contents(given.programs, "/usr", given.unproved))
        files |= packed(installed("/usr", given.library)) if given.library else {}
        said = [version(program_in(given.programs, name, True)) for name in PROGRAMS]
        print(make(given.out, files, control(files, next((each for each in said if MARK in each), said[0]))))
    except (Refused, OSError, subprocess.SubprocessError) as fault:
        sys.exit(f"make_deb.py: {fault}")


if __name__ == "__main__":
    main()
