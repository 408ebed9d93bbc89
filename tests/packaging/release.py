"""`dev/make_release.py`, with scripts in place of the programs and of the gate: which trees it refuses, and what a
release has."""

import hashlib
import shutil
import subprocess
import tarfile

from c_library import shared_name
from install import Refused
from make_release import passed, release

from harness.checks import differs
from harness.tests import test
from packaging.install import UNPROVED, stand_ins

GATE = "echo '3 passed, 0 failed'\n"
# Gates that a tree does not pass: one that fails, one that ends early, one with nothing to pass, and one that changes
# the tree.
BAD_GATES = (
    "echo '2 passed, 1 failed'; exit 1\n", "echo 'rt ci: killed'\n", "echo '0 passed, 0 failed'\n",
    "touch another; echo '3 passed, 0 failed'\n", "git commit -q --allow-empty -m other; echo '3 passed, 0 failed'\n",
    "echo '3 passed, 0 failed'; exit 1\n",
)
AUTHOR = ("-c", "user.name=a", "-c", "user.email=a@example.com")
COMMIT = "0123456789012345678901234567890123456789"


def git(folder, *words):
    ran = subprocess.run(["git", *AUTHOR, *words], cwd=folder, check=True, capture_output=True, text=True)
    return ran.stdout.strip()


def tree(folder, gate):
    """A repository of one commit, with this gate."""
    (folder / ".ci").mkdir(parents=True)
    (folder / ".ci/run").write_text(gate)
    (folder / ".gitignore").write_text("out/\n")
    git(folder, "init", "-q")
    for key, value in (("user.name", "a"), ("user.email", "a@example.com")):
        git(folder, "config", key, value)
    git(folder, "add", "-A")
    git(folder, "commit", "-q", "-m", "one")
    return folder


def refusal(call, *words):
    """Why this is refused, or nothing."""
    try:
        call(*words)
    except Refused as refused:
        return str(refused)
    return ""


@test()
def trees(trial):
    """A release is of a commit that the gate passes, and of no other tree."""
    trial.enter("trees")
    good = tree(trial.folder / "good", f"ls crates/ap_accept_c/out > out/seen\n{GATE}")
    built = good / "crates/ap_accept_c/out"
    for place in (good / "out", built):
        place.mkdir(parents=True)
    stale = ("libap_accept.a", "libap_accept_c.a", "libap_accept.so.2", shared_name())
    for name in (*stale, "kept"):
        (built / name).touch()
    found = passed(good)
    trial.same("the gate finds no library for C of before", (good / "out/seen").read_text(), "kept\n")
    trial.note("a tree that passes", differs(found, (git(good, "rev-parse", "HEAD"), "3 passed, 0 failed")))
    (good / "new").touch()
    trial.note("a file that is not committed is refused", "it is not" * (not refusal(passed, good)))
    for number, gate in enumerate(BAD_GATES):
        bad = tree(trial.folder / str(number), gate)
        trial.note(f"a gate is not passed: {gate.strip()}", "it is" * (not refusal(passed, bad)))


@test()
def files(trial):
    """The package and the archive have the same files, the sums are theirs, and two runs make the same archive."""
    trial.enter("files")
    if not shutil.which("dpkg-deb"):
        return trial.leave("a release: dpkg-deb is not on the path")
    programs, library = stand_ins(trial.folder / "programs"), trial.folder / "libap_accept.a"
    words = (COMMIT, "3 passed, 0 failed", 1_700_000_000)
    refused = refusal(release, trial.folder, programs, library, *words)
    trial.note("without the library it is refused", "it is not" * (not refused))
    library.write_bytes(b"!<arch>\n")
    (trial.folder / shared_name()).write_bytes(b"\x7fELF")
    unproved = stand_ins(trial.folder / "unproved", kdcd=UNPROVED)
    refused = refusal(release, trial.folder, unproved, library, *words)
    wanted = "nothing was proved of kdcd, and a release has proved programs alone"
    trial.same("an unproved kdcd is refused", refused, wanted)
    trial.note("nothing is made then", differs(list(trial.folder.glob("plovertrunk*")), []))
    package, archive, sums = release(trial.folder / "one", programs, library, *words)
    check_sums(trial, sums, sums.parent)
    trial.expect(["dpkg-deb", "-x", package, trial.folder / "package"], 0, what="the package is unpacked")
    with tarfile.open(archive) as made:
        made.extractall(trial.folder / "archive", filter="data")
    folder = next((trial.folder / "archive").iterdir())
    trial.note("the archive's folder", differs(folder.name.rsplit("-", 1)[0], "plovertrunk-0.9.0"))
    sums = folder / "usr/share/doc/plovertrunk/SHA256SUMS"
    check_sums(trial, sums, folder)
    sums.unlink()
    trial.note("both have the same files", differs(octets_in(folder), octets_in(trial.folder / "package")))
    said = (folder / "usr/share/doc/plovertrunk/COMMIT").read_text()
    trial.note("the commit", differs(said, f"commit {COMMIT}\ngate 3 passed, 0 failed\n"))
    wanted = ("bin/kdcd", "lib/libap_accept.a", "include/ap_accept.h", f"lib/{shared_name()}")
    trial.note("what it has to have", ", ".join(name for name in wanted if not (folder / "usr" / name).exists()))
    again = release(trial.folder / "two", programs, library, *words)[1]
    trial.note("two runs make the same archive", "they differ" * (again.read_bytes() != archive.read_bytes()))


def octets_in(folder):
    return {str(each.relative_to(folder)): each.read_bytes() for each in folder.rglob("*") if each.is_file()}


def check_sums(trial, sums, folder):
    """Each line of a list of sums is that of its file in this folder."""
    lines = sums.read_text().splitlines()
    wrong = [line for line in lines if hashlib.sha256((folder / line[66:]).read_bytes()).hexdigest() != line[:64]]
    fault = ", ".join(wrong) or "there are few" * (len(lines) < 2)
    trial.note(f"the sums of {folder.name}, {len(lines)} lines", fault)
