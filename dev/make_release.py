#!/usr/bin/env python3
"""Makes a release of the tree that it is run in: a package for Debian and a .tar.gz, each with the proved programs, the
library for C and its header, the manual pages, units, completion and pages, and the commit; and their SHA-256 sums.

    python3 dev/make_release.py [--out FOLDER]

It first runs the gate, `bash .ci/run`: a quarter of an hour if this machine keeps what passed, else an hour or more. So
a release is of a tree that the gate has passed. It refuses a tree with changes that are not committed, one that the
gate doesn't pass or changes, and an unproved program. Before the gate it removes the library for C that an earlier
commit may have left. The files are in FOLDER, by default out/release:

    plovertrunk_VERSION_ARCHITECTURE.deb
    plovertrunk-VERSION-ARCHITECTURE.tar.gz     unpack it by `tar -C / --strip-components=1 -xzf`
    SHA256SUMS                                  of both; `sha256sum -c SHA256SUMS` compares them

What is installed from the archive is compared by `cd / && sha256sum -c usr/share/doc/plovertrunk/SHA256SUMS`.

Two runs of one commit make the same .tar.gz of the same programs. It needs git, Python 3, dpkg-deb and a C compiler.
The status is 1 if it refuses; it makes nothing then."""

import argparse
import gzip
import hashlib
import io
import pathlib
import re
import subprocess
import sys
import tarfile

from c_library import LIBRARY, PROVED, installed
from install import MARK, PROGRAMS, TOP, Refused, contents, program_in, version, write
from make_deb import NAME, control, machine, make, packed

# Where a release says of itself what it is.
DOC = f"/usr/share/doc/{NAME}"
# How many changed files a refusal names.
MOST = 5
LAST_LINE = re.compile(r"([1-9]\d*) passed, 0 failed")


def git(tree, *words):
    return subprocess.run(["git", *words], cwd=tree, check=True, capture_output=True, text=True).stdout.strip()


def commit_of(tree):
    """The commit of a tree that nothing was changed in."""
    changed = git(tree, "status", "--porcelain").splitlines()
    if changed:
        raise Refused(f"changes are not committed: {', '.join(map(str.strip, changed[:MOST]))}")
    return git(tree, "rev-parse", "HEAD")


def remove_library(library):
    """Removes the library for C, its shared objects, and the proved functions that it is made of: they may be of
    another commit, and nothing of their bytes shows that."""
    old = (library, library.with_name(PROVED.name), *library.parent.glob(f"{library.stem}.so*"))
    for each in old:
        each.unlink(missing_ok=True)


def passed(tree):
    """The commit of a tree, and the last line of the gate, which has passed it now without an earlier library for C."""
    commit = commit_of(tree)
    remove_library(tree / LIBRARY.relative_to(TOP))
    gate = subprocess.Popen(["bash", ".ci/run"], cwd=tree, stdin=subprocess.DEVNULL, stdout=subprocess.PIPE, text=True)
    last = ""
    for line in gate.stdout:
        print(line, end="", flush=True)
        last = line.strip()
    if gate.wait() or not LAST_LINE.fullmatch(last):
        raise Refused(f"the gate did not pass this tree: {last}")
    if commit_of(tree) != commit:
        raise Refused("another commit was taken while the gate ran")
    return commit, last


def files_of(programs, library, commit, gate):
    """All files of a release, by their paths: of each the bytes and the mode."""
    if not library.is_file():
        raise Refused(f"{library} is not there: dev/c_library.py builds it")
    found = packed(contents(programs, "/usr", False) | installed("/usr", library))
    said = f"commit {commit}\ngate {gate}\n"
    return found | {f"{DOC}/COMMIT": (said.encode(), 0o644)}


def number_of(programs):
    """The version of the programs, which is the same for all. All are proved."""
    said = {name: version(program_in(programs, name, True)) for name in PROGRAMS}
    if unproved := [name for name, line in said.items() if MARK in line]:
        raise Refused(f"nothing was proved of {', '.join(unproved)}, and a release has proved programs alone")
    numbers = {line.split()[1] for line in said.values()}
    if len(numbers) != 1:
        raise Refused(f"the programs have several versions: {', '.join(sorted(numbers))}")
    return numbers.pop()


def tar(files, name, seconds):
    """The bytes of a .tar.gz of these files in one folder, with a list of their sums."""
    sums = "".join(f"{hashlib.sha256(octets).hexdigest()}  {path[1:]}\n" for path, (octets, _) in sorted(files.items()))
    written = io.BytesIO()
    with tarfile.open(fileobj=written, mode="w", format=tarfile.USTAR_FORMAT) as made:
        for path, (octets, mode) in sorted((files | {f"{DOC}/SHA256SUMS": (sums.encode(), 0o644)}).items()):
            entry = tarfile.TarInfo(f"{name}{path}")
            entry.size, entry.mode, entry.mtime, entry.uname, entry.gname = len(octets), mode, seconds, "root", "root"
            made.addfile(entry, io.BytesIO(octets))
    return gzip.compress(written.getvalue(), 9, mtime=0)


def release(out, programs, library, commit, gate, seconds):
    """Makes the files of a release in a folder, and returns their paths."""
    number = number_of(programs)
    files = files_of(programs, library, commit, gate)
    whole = f"{NAME}-{number}-{machine()}"
    octets = tar(files, whole, seconds)
    made = [make(out, files, control(files, f"{NAME} {number}")), out / f"{whole}.tar.gz"]
    write(out, f"/{whole}.tar.gz", octets, 0o644)
    sums = "".join(f"{hashlib.sha256(each.read_bytes()).hexdigest()}  {each.name}\n" for each in made)
    write(out, "/SHA256SUMS", sums.encode(), 0o644)
    return [*made, out / "SHA256SUMS"]


def main():
    words = argparse.ArgumentParser(description=__doc__, formatter_class=argparse.RawDescriptionHelpFormatter)
    words.add_argument("--out", type=pathlib.Path, default=TOP / "out" / "release")
    given = words.parse_args()
    try:
        commit, gate = passed(TOP)
        if not LIBRARY.is_file():
            subprocess.run([sys.executable, TOP / "dev" / "c_library.py"], check=True)
        seconds = int(git(TOP, "log", "-1", "--format=%ct", commit))
        for path in release(given.out, TOP / "crates", LIBRARY, commit, gate, seconds):
            print(path)
    except (Refused, OSError, subprocess.SubprocessError) as fault:
        sys.exit(f"make_release.py: {fault}")


if __name__ == "__main__":
    main()
