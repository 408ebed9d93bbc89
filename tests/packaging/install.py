"""`dev/install.py` in a folder: what it installs, that systemd reads the unit and the lines for its user and folder,
that a running server is replaced, that the installed `kadm` hides what is typed, and that an unproved program is
refused. The package of `dev/make_deb.py` likewise: its files and its fields, and that it is installed in a root without
/proc."""

import os
import pathlib
import re
import shutil
import subprocess
import sys

from harness.checks import differs
from harness.programs import TOP
from harness.terminal import expect_hidden
from harness.tests import test

# What is installed, below the prefix, with its mode.
INSTALLED = {
    "bin/kadm": 0o755, "bin/kclient": 0o755, "bin/kdcd": 0o755, "bin/kdcd-push": 0o755,
    "libexec/plovertrunk/kadm": 0o755, "libexec/plovertrunk/kclient": 0o755, "etc/default/kadm": 0o644,
    "etc/systemd/journald@kdcd.conf": 0o644, "lib/sysusers.d/kdcd.conf": 0o644, "lib/tmpfiles.d/kdcd.conf": 0o644,
    "share/man/man1/kclient.1": 0o644, "share/man/man8/kadm.8": 0o644, "share/man/man8/kdcd.8": 0o644,
    **{f"lib/systemd/system/{unit}": 0o644 for unit in ("kdcd.service", "kdcd-push.path", "kdcd-push.service")},
    **{f"share/bash-completion/completions/{name}": 0o644 for name in ("kadm", "kclient", "kdcd")},
    **{f"share/zsh/site-functions/_{name}": 0o644 for name in ("kadm", "kclient", "kdcd")},
}
# A program that says of itself what a proved one, and one of `quick_build.py`, says.
PROVED, UNPROVED = "#!/bin/sh\necho 'kdcd 0.9.0'\n", "#!/bin/sh\necho 'kdcd 0.9.0 (unproved)'\n"


def modes(folder):
    """The files of a folder with their modes."""
    return {str(each.relative_to(folder)): each.stat().st_mode & 0o777 for each in folder.rglob("*") if each.is_file()}


def stand_ins(folder, **texts):
    """A folder with scripts in place of the programs."""
    folder.mkdir()
    for name in ("kadm", "kclient", "kdcd"):
        place = folder / name
        place.write_text(texts.get(name, PROVED))
        place.chmod(0o755)
    return folder


INSTALL, PACK = ([sys.executable, str(TOP / "dev" / name)] for name in ("install.py", "make_deb.py"))


@test()
def refusals(trial):
    """A program that is unproved, or not there, keeps all from being installed."""
    trial.enter("refusals")
    install = INSTALL
    unproved, root = stand_ins(trial.folder / "unproved", kclient=UNPROVED), trial.folder / "refused"
    trial.expect([*install, "--programs", unproved, "--root", root], 1, what="an unproved kclient is refused")
    trial.note("nothing is installed then", differs(list(root.rglob("*")), []))
    trial.expect([*install, "--programs", unproved, "--root", root, "--unproved"], 0, what="--unproved installs it")
    (unproved / "kadm").unlink()
    trial.expect([*install, "--programs", unproved, "--root", root], 1, what="a kadm that is not there is an error")
    trial.expect(
        [*install, "--programs", unproved, "usr"], 2, what="a prefix that is no absolute path is a usage error"
    )


def built(trial):
    """The words that install the built programs."""
    return [*INSTALL, "--programs", trial.given.programs]


@test("kadm", "kdcd", "kclient", seconds=10)
def files(trial):
    """All files are there, with their modes, and the unit names the installed server. A server that runs goes on."""
    trial.enter("files")
    install = built(trial)
    root, words = trial.folder / "root", [*install, "--unproved", "--root", trial.folder / "root", "/opt/kdc"]
    trial.expect(words, 0, what="the built programs are installed")
    trial.note("the files and their modes", differs(modes(root / "opt/kdc"), INSTALLED))
    unit = (root / "opt/kdc/lib/systemd/system/kdcd.service").read_text()
    trial.note(
        "the unit starts the installed server", "it does not" * ("ExecStart=/opt/kdc/bin/kdcd serve" not in unit)
    )
    push = (root / "opt/kdc/bin/kdcd-push").read_text()
    trial.same("kdcd-push runs the installed kadm", push.count("PATH=/opt/kdc/bin/:$PATH"), 2)
    server = root / "opt/kdc/bin/kdcd"
    trial.expect("kadm init --db database --realm A.B", 0, "=ok")
    serve = [str(server), "serve", "--rounds", "100", "--udp", "127.0.0.1:0", "--db", "database"]
    running = trial.start(serve, stdout=subprocess.DEVNULL, stderr=subprocess.DEVNULL)
    before = server.stat().st_ino
    trial.expect(words, 0, what="they are installed again while the server runs")
    trial.note("the server is another file", "it is the same" * (server.stat().st_ino == before))
    trial.note("the running server ends as it should", differs(running.wait(60), 0))
    trial.note("no other file is left", differs(modes(root / "opt/kdc"), INSTALLED))


@test("kadm", "kdcd", "kclient", seconds=3)
def installed_kadm(trial):
    """The installed kadm hides what is typed, and has the database of its settings, which a new installation leaves."""
    trial.enter("installed_kadm")
    words = [*built(trial), "--unproved", trial.folder / "kdc"]
    trial.expect(words, 0, what="the built programs are installed")
    settings = trial.folder / "kdc/etc/default/kadm"
    trial.same("the database of the settings", settings.read_text().splitlines()[-1], "KADM_DB=/var/lib/kdcd/database")
    settings.write_text("KADM_DB=database\n")
    trial.expect(words, 0, what="they are installed again")
    kadm = str(trial.folder / "kdc/bin/kadm")
    trial.expect([kadm, "init", "--realm", "A.B"], 0, "=ok", what="a realm in the database of the settings")
    asked = "Password for t@A.B: "
    expect_hidden(trial, [kadm, "add", "t"], ["secret\n", "secret\n"], 0, f"{asked}\n{asked}\nok\n")
    trial.expect("kadm list --db database --like t", 0, "t 1 18,17,20,19", what="its row is in that database")
    kclient = trial.folder / "kdc/bin/kclient"
    trial.same("the installed kclient", trial.run([kclient, "--version"]).out, trial.run("kclient --version").out)


@test("kadm", "kdcd", "kclient")
def systemd(trial):
    """systemd makes the user and the folder by the installed lines."""
    trial.enter("systemd")
    install = built(trial)
    root = trial.folder / "system"
    trial.expect([*install, "--unproved", "--root", root], 0, what="the programs are installed in a system of its own")
    if not shutil.which("systemd-sysusers") or not shutil.which("systemd-tmpfiles") or os.getuid():
        return trial.leave("systemd-sysusers and systemd-tmpfiles as root")
    (root / "etc").mkdir(exist_ok=True)
    trial.expect(["systemd-sysusers", f"--root={root}"], 0, what="systemd-sysusers")
    users = [line for line in (root / "etc/passwd").read_text().splitlines() if line.startswith("kdcd:")]
    homes = [each.split(":")[5:] for each in users]
    trial.note("there is a user kdcd without home and shell", differs(homes, [["/nonexistent", "/usr/sbin/nologin"]]))
    trial.expect(["systemd-tmpfiles", "--create", f"--root={root}"], 0, what="systemd-tmpfiles")
    folder = (root / "var/lib/kdcd").stat()
    trial.note(
        "its folder is its own",
        differs((folder.st_mode & 0o777, str(folder.st_uid)), (0o700, users[0].split(":")[2] if users else ""))
    )


# Where the package has files otherwise than `install.py`, below /usr. The settings of the log are not below /usr.
IN_PACKAGE = (("share/zsh/site-functions/", "share/zsh/vendor-completions/"), (".1", ".1.gz"), (".8", ".8.gz"))


def in_package(name):
    for there, here in IN_PACKAGE:
        name = name.replace(there, here)
    return name if name.startswith("etc/") else f"usr/{name}"


@test()
def package_refusals(trial):
    """An unproved program is not packed, or shows in the package's version."""
    trial.enter("package_refusals")
    if not shutil.which("dpkg-deb"):
        return trial.leave("the package for Debian: dpkg-deb is not on the path")
    proved, unproved = stand_ins(trial.folder / "all_proved"), stand_ins(trial.folder / "one_unproved", kadm=UNPROVED)
    tool = [*PACK, "--out", trial.folder, "--programs"]
    trial.expect([*tool, unproved], 1, what="an unproved kadm is not packed")
    trial.note("no package is made then", differs(list(trial.folder.glob("*.deb")), []))
    trial.expect([*tool, unproved, "--unproved"], 0, what="--unproved packs it")
    trial.expect([*tool, proved], 0, what="a package of proved programs")
    names = sorted(each.name.rsplit("_", 1)[0] for each in trial.folder.glob("*.deb"))
    trial.note("the names say which is unproved", differs(names, ["plovertrunk_0.9.0", "plovertrunk_0.9.0~unproved"]))


@test()
def package(trial):
    """The package has the files that are installed, and the pages."""
    trial.enter("package")
    if not shutil.which("dpkg-deb"):
        return trial.leave("the package for Debian: dpkg-deb is not on the path")
    programs, root = stand_ins(trial.folder / "programs"), trial.folder / "package"
    trial.expect([*PACK, "--out", trial.folder, "--programs", programs], 0, what="the package is made")
    made = next(trial.folder.glob("plovertrunk_0.9.0_*.deb"))
    trial.expect(["dpkg-deb", "-x", made, root], 0, what="the package is unpacked")
    found = {name: mode for name, mode in modes(root).items() if not name.startswith("usr/share/doc/")}
    wanted = {in_package(name): mode for name, mode in INSTALLED.items()}
    trial.note("its files and their modes", differs(found, wanted))
    shown = [*TOP.glob("*.md"), *TOP.glob("docs/*.md"), *TOP.glob("docs/pictures/*.svg")]
    docs = root / "usr/share/doc/plovertrunk"
    found = {str(each.relative_to(docs)) for suffix in ("md", "svg") for each in docs.rglob(f"*.{suffix}")}
    trial.note("its pages and pictures", differs(found, {str(each.relative_to(TOP)) for each in shown}))
    unit = (root / "usr/lib/systemd/system/kdcd.service").read_text()
    trial.note("its unit starts the installed server", "it does not" * ("ExecStart=/usr/bin/kdcd serve" not in unit))
    scripts = subprocess.run(["dpkg-deb", "--ctrl-tarfile", made], capture_output=True).stdout
    lacking = [name for name in ("postinst", "prerm", "postrm") if name.encode() not in scripts]
    trial.note("its scripts are there", differs(lacking, []))
    kept = subprocess.run(["dpkg-deb", "--info", made, "conffiles"], capture_output=True, text=True).stdout
    trial.note(
        "what dpkg leaves as an administrator changed it",
        differs(sorted(kept.split()), ["/etc/default/kadm", "/etc/systemd/journald@kdcd.conf"])
    )


# What the package's scripts call, and the files that these read.
CALLED = ("sh", "getent", "useradd", "install", "systemd-sysusers", "systemd-tmpfiles", "systemctl")
READ = {
    "passwd": "root:x:0:0:root:/root:/bin/sh\n", "group": "root:x:0:\n", "shadow": "root:*:19000:0:99999:7:::\n",
    "gshadow": "root:*::\n", "login.defs": "SYS_UID_MAX 999\n", "nsswitch.conf": "passwd: files\ngroup: files\n",
}


def small_root(root):
    """Makes a root with what the package's scripts call, as far as this machine has it, and nothing else."""
    for name in filter(shutil.which, CALLED):
        program = pathlib.Path(shutil.which(name)).resolve()
        linked = subprocess.run(["ldd", program], capture_output=True, text=True).stdout
        for each in (pathlib.Path("/usr/bin", name), *map(pathlib.Path, re.findall(r"(/[^\s:]+) \(0x", linked))):
            place = root / str(each).lstrip("/")
            place.parent.mkdir(parents=True, exist_ok=True)
            shutil.copy(program if each.name == name else each.resolve(), place)
    (root / "bin").symlink_to("usr/bin")
    for name in ("etc", "var/lib/dpkg/info", "var/lib/dpkg/updates", "dev", "root"):
        (root / name).mkdir(parents=True, exist_ok=True)
    for name, text in READ.items():
        (root / "etc" / name).write_text(text)
    (root / "var/lib/dpkg/status").touch()
    (root / "dev/null").touch()
    return root


@test(seconds=3)
def package_without_proc(trial):
    """dpkg installs the package in a root without /proc, as where an image is made; the user and the folder are there.
    """
    trial.enter("package_without_proc")
    if os.getuid() or not shutil.which("dpkg-deb") or not shutil.which("useradd"):
        return trial.leave("the package for Debian in a root of its own: root, dpkg and useradd")
    programs, root = stand_ins(trial.folder / "programs"), small_root(trial.folder / "root")
    trial.expect([*PACK, "--out", trial.folder, "--programs", programs], 0, what="the package is made")
    made = next(trial.folder.glob("plovertrunk_0.9.0_*.deb"))
    words = ["dpkg", f"--root={root}", "--force-depends", "-i", made]
    trial.environment["PATH"] = f"/usr/sbin:/sbin:{trial.environment['PATH']}"
    trial.expect(words, 0, what="dpkg installs it")
    state = ["dpkg-query", f"--admindir={root}/var/lib/dpkg", "-W", "-f", "${Status}", "plovertrunk"]
    trial.same("its state", trial.run(state).out, "install ok installed")
    users = [each for each in (root / "etc/passwd").read_text().splitlines() if each.startswith("kdcd:")]
    homes = [each.split(":")[5:] for each in users]
    trial.same("the user kdcd, without home and shell", homes, [["/nonexistent", "/usr/sbin/nologin"]])
    folder = (root / "var/lib/kdcd").stat()
    wanted = (0o700, users[0].split(":")[2] if users else "")
    trial.same("its folder", (folder.st_mode & 0o777, str(folder.st_uid)), wanted)
    trial.expect(words, 0, what="dpkg installs it once more")
    trial.expect([*words[:2], "-r", "plovertrunk"], 0, what="dpkg removes it")
    trial.same("the folder stays", (root / "var/lib/kdcd").is_dir(), True)
