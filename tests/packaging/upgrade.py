"""The lines of docs/RUNNING.md that keep the installed programs before an upgrade, and that bring them back; and a
package that an older one replaces."""

import os
import re
import shutil

from harness.programs import TOP
from harness.tests import test
from packaging.install import INSTALL, PACK, small_root, stand_ins

# What is installed of each program, below the prefix: the program itself, which may stand behind a script of its name.
PROGRAMS = {"kdcd": "bin/kdcd", "kadm": "libexec/plovertrunk/kadm", "kclient": "libexec/plovertrunk/kclient"}
USUAL = "/usr/local"


def line_of(title, words):
    """The only command of a section of the page that has these words."""
    section = (TOP / "docs/RUNNING.md").read_text().partition(f"\n## {title}\n")[2].partition("\n## ")[0]
    return re.search(rf"^    .*?({words}.*)$", section, re.M)[1]


def of_version(trial, version):
    """A folder with programs that say they are of this version."""
    text = f"#!/bin/sh\necho 'kdcd {version}'\n"
    return stand_ins(trial.folder / version, **dict.fromkeys(PROGRAMS, text))


def programs(trial, version):
    """The words that install programs of this version."""
    return [*INSTALL, "--programs", of_version(trial, version), trial.folder / "usr"]


def expect_version(trial, what, version, folder="usr"):
    found = {name: (trial.folder / folder / place).read_text().split()[-1] for name, place in PROGRAMS.items()}
    trial.same(f"{what}: the programs", found, dict.fromkeys(PROGRAMS, f"{version}'"))


@test()
def from_sources(trial):
    """After the way back each installed program is the old one, those behind scripts too."""
    trial.enter("from_sources")
    here = lambda line: line.replace(USUAL, str(trial.folder / "usr"))
    trial.expect(programs(trial, "0.8.0"), 0, what="the old programs are installed")
    expect_version(trial, "before", "0.8.0")
    trial.expect(["sh", "-e", "-c", here(line_of("Upgrade", f"tar -C {USUAL} -c"))], 0, what="they are kept")
    trial.expect(programs(trial, "0.9.0"), 0, what="the new ones are installed")
    expect_version(trial, "after the upgrade", "0.9.0")
    back = here(line_of("Going back a version", f"tar -C {USUAL} -x"))
    trial.expect(["sh", "-e", "-c", back], 0, what="the old ones are brought back")
    expect_version(trial, "after the way back", "0.8.0")


@test(seconds=5)
def by_packages(trial):
    """An older package replaces a newer one, and leaves the folder of the database."""
    trial.enter("by_packages")
    if os.getuid() or not shutil.which("dpkg-deb") or not shutil.which("useradd"):
        return trial.leave("packages in a root of its own: root, dpkg and useradd")
    root = small_root(trial.folder / "root")
    trial.environment["PATH"] = f"/usr/sbin:/sbin:{trial.environment['PATH']}"
    for version in ("0.8.0", "0.9.0"):
        words = [*PACK, "--out", trial.folder, "--programs", of_version(trial, version)]
        trial.expect(words, 0, what=f"the package {version} is made")
    for what, version in (("at first", "0.8.0"), ("after the upgrade", "0.9.0"), ("after the way back", "0.8.0")):
        made = next(trial.folder.glob(f"plovertrunk_{version}_*.deb"))
        install = ["dpkg", f"--root={root}", "--force-depends", "-i", made]
        trial.expect(install, 0, what=f"{what}: dpkg installs {version}")
        expect_version(trial, what, version, "root/usr")
        (root / "var/lib/kdcd/database").touch()
    trial.same("the folder of the database", os.listdir(root / "var/lib/kdcd"), ["database"])
