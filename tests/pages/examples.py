"""The commands that the pages for administrators and CLIENT.md show, one block after another, in a realm of their own:
each block must end well, and print what the page says below it. The folder of the server and of root is the
current one, the user is the one that runs this, and the KDC's address is that of a server that is started here."""

import os
import re
import shutil
import subprocess
import time

from harness.processes import PATIENCE
from harness.programs import TOP
from harness.tests import test
from harness.wire import free_port

DOCS = TOP / "docs"
# The sections whose blocks are run, in this order, and a word that every block of them has to have.
SECTIONS = (
    ("USERS.md", "Many at once", "batch"), ("USERS.md", "One user", "remove"), ("USERS.md", "Policies", "policy"),
    ("REALM.md", "Lists", "list"), ("USERS.md", "Users are not services", "migrate"),
    ("KEYS.md", "A new service", "keytab"), ("KEYS.md", "New keys", "keytab"),
    ("REALM.md", "Backup and restore", "database"), ("CLIENT.md", "The commands", "kclient kinit"),
    ("RUNNING.md", "Is it healthy?", "kclient kinit"), ("RUNNING.md", "Changing the database", "kadm"),
    ("USERS.md", "A leaver", "disabled"),
)
# What stands for another place or user here.
HERE = (
    ("runuser -u kdcd -- ", ""), ("/var/lib/kdcd/", "./"), ("cd /var/lib/kdcd", "cd ."), ("/root/", "./"),
    ("chown -h kdcd:kdcd ", "ls "), ("install -o kdcd -m 600 ", "ls "), ("kclient kinit --renew ", "true "),
)
# How often a block is tried that needs what the server has not taken yet, and how many seconds lie between.
TRIES, PAUSE = 4, 1.5
# The first words of lines that are no commands: what a program prints, or the settings of a file.
PRINTED = ("kdcd: ", "principal ", "krbtgt/", "host/", "[", '{"', "2026-", "Environment=")
# Programs of examples that a machine may not have.
MAY_LACK = ("gpg", "age")


def blocks(page, title):
    """The blocks of commands of a section, as texts."""
    section = (DOCS / page).read_text().partition(f"\n## {title}\n")[2].partition("\n## ")[0]
    indented = re.findall(r"(?:^    .*\n(?:\n(?=    ))?)+", section, re.M)
    found = [re.sub(r"^    ", "", block, flags=re.M).strip("\n") for block in indented]
    return [block for block in found if not block.startswith(PRINTED)]


def here(block, address):
    for there, replacement in (*HERE, ("192.0.2.1:88", address)):
        block = block.replace(there, replacement)
    return block


def make_realm(trial):
    """The realm of the examples, before the first one, and the files that they name."""
    trial.expect("kadm init --db database --realm EXAMPLE.COM", 0, "=ok")
    for name in ("alice", "bob", "carol"):
        trial.write(f"{name}.password", "a password\n")
    trial.write("krb5.conf", "[libdefaults]\ndefault_realm = EXAMPLE.COM\n")
    make_backup_keys(trial)


def make_backup_keys(trial):
    """The keys to which a backup is encrypted. The agent of gpg ends with its folder."""
    (trial.folder / "gnupg").mkdir(mode=0o700)
    trial.environment["GNUPGHOME"] = str(trial.folder / "gnupg")
    if shutil.which("gpg"):
        key = "--batch --quiet --pinentry-mode loopback --passphrase= --quick-generate-key backup@example.com"
        trial.expect(["gpg", *key.split()], 0, what="a key of gpg")
    if shutil.which("age"):
        trial.expect(["sh", "-c", "age-keygen -o backup.key && age-keygen -y backup.key > backup.pub"], 0)


def serve(trial, address):
    """Serves the realm, and returns once it listens."""
    log = open(trial.folder / "log", "wb")
    words = f"kdcd serve --db database --udp {address} --tcp {address} --first"
    trial.start(words.split(), stdin=subprocess.DEVNULL, stdout=log, stderr=log)
    end = time.monotonic() + PATIENCE
    while time.monotonic() < end and "limits" not in (trial.folder / "log").read_text():
        time.sleep(0.05)
    realms = f"[realms]\nEXAMPLE.COM = {{\nkdc = {address}\n}}\n"
    trial.write("krb5.conf", f"[libdefaults]\ndefault_realm = EXAMPLE.COM\n{realms}")


def run_block(trial, page, title, block):
    """Runs a block. No command of it is refused; a server with no rounds, if it has one, says so."""
    for _ in range(TRIES):
        ran = trial.run(["sh", "-e", "-c", block], given="a password\n")
        if "kclient" not in block or not ran.fault(0):
            break
        time.sleep(PAUSE)
    fault = ran.fault(0) or "a command is refused" * bool(re.search(r"^(refused|failed|usage)", ran.out, re.M))
    fault = fault or "it does not print `served 0 0 0`" * ("--rounds 0" in block and "served 0 0 0" not in ran.out)
    trial.note(f"{page}, {title!r}: {block.splitlines()[-1][:80]}", fault)


@test("kadm", "kdcd", "kclient", seconds=20)
def commands(trial):
    """The blocks of the sections, in their order."""
    places = {os.path.dirname(each) for each in trial.programs.values()}
    trial.environment["PATH"] = ":".join([*places, trial.environment["PATH"]])
    trial.environment["KRB5CCNAME"] = "FILE:cc"
    trial.enter("commands")
    make_realm(trial)
    address, is_served = f"127.0.0.1:{free_port()}", False
    for page, title, word in SECTIONS:
        found = blocks(page, title)
        if not is_served and "kclient" in "".join(found):
            serve(trial, address)
            is_served = True
        is_there = any(word in block for block in found)
        trial.note(f"{page}, {title!r}: its blocks", "" if is_there else f"no block has {word!r}")
        for block in found:
            if lacking := [name for name in MAY_LACK if block.startswith(f"{name} ") and not shutil.which(name)]:
                trial.leave(f"{page}, {title!r}: {lacking[0]} is not on the path")
            else:
                run_block(trial, page, title, here(block, address))
    if shutil.which("gpgconf"):
        trial.run("gpgconf --kill all")
