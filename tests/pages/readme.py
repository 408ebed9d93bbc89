"""The lines of CONTRIBUTING.md that serve the realm of crates/kdcd/data, by the built `kdcd` in place of `rt try`; and
those of README.md that make a first realm, in an empty folder and with the built programs on the path. Then our client
logs in to both and gets the ticket. MIT's clients do so too, if they are on the path, and print what README.md has. Its
lines of Rust, and those of docs/CLIENT_LIBRARY.md, must be in the programs and libraries that they show, which the gate
builds. Only the port differs."""

import os
import re
import shutil
import subprocess
import time

from harness.processes import PATIENCE
from harness.programs import LOGIN_EXAMPLE, SERVICE_EXAMPLE, TOP
from harness.tests import test
from harness.wire import free_port

PORT = "8888"
SERVICE = "host/www.example.com"
# MIT's clients in the realm of crates/kdcd/data.
CLIENTS = (
    "$ export KRB5_CONFIG=$PWD/data/krb5.conf", "$ kinit alice", f"$ kvno -k data/www.keytab {SERVICE}",
    f"{SERVICE}@EXAMPLE.COM: kvno = 1, keytab entry valid",
)
# The files whose code the pages show.
EXAMPLES = (f"{SERVICE_EXAMPLE}/src/main.rt", f"{LOGIN_EXAMPLE}/src/main.rt", "client_sockets/src/client.rt")
# The file with the contract that README.md shows, and how that begins.
CONTRACT, FUNCTION = "kdc_core/src/kdc.rt", "pub fn replace"


def blocks(title, page="README.md"):
    """The indented blocks of the section with this title, as lists of lines."""
    section = (TOP / page).read_text().partition(f"## {title}\n")[2].partition("\n## ")[0]
    indented = re.findall(r"(?:^(?:    .*)?\n)+", section, re.M)
    found = [[line[4:] for line in block.strip("\n").splitlines()] for block in indented]
    return [lines for lines in found if any(lines)]


def fenced(page):
    """The blocks of Rust of a page, as lists of lines."""
    return [block.splitlines() for block in re.findall(r"^```rust\n(.*?)^```$", (TOP / page).read_text(), re.M | re.S)]


@test()
def code(trial):
    """Checks that each block of Rust is, line by line, in one of the files."""
    stripped = lambda lines: "\n".join(map(str.strip, lines))
    files = [stripped((TOP / "crates" / name).read_text().splitlines()) for name in EXAMPLES]
    for lines in [*blocks("In your own program"), *fenced("docs/CLIENT_LIBRARY.md")]:
        is_there = any(f"\n{stripped(lines)}\n" in file for file in files)
        trial.note(
            f"the code that begins with {lines[0]}", "" if is_there else f"it is in none of {', '.join(EXAMPLES)}"
        )


@test()
def contract(trial):
    """The function that README.md shows first has all of its contract there, as it stands but for promises."""
    shown = re.search(rf"^    {FUNCTION}.*\n(?:    .*\n)*", (TOP / "README.md").read_text(), re.M)
    found = re.search(rf"^    {FUNCTION}.*?(?=^    \{{$)", (TOP / "crates" / CONTRACT).read_text(), re.M | re.S)
    wanted = re.sub(r"^ *// Promise.*\n(?: *// .*\n)*", "", found[0], flags=re.M) if found else None
    trial.note(f"the contract of {FUNCTION}", "" if shown and shown[0] == wanted else "it is another one")


def serve_data(trial, first):
    """Serves the realm of the first command, in a copy of its folder and at another port, for as long as the clients
    take."""
    port = str(free_port())
    folder, command = " ".join(first).replace("\\ ", "").partition(" rt try ")[::2]
    shutil.copytree(TOP / folder.removeprefix("cd ") / "data", trial.folder / "data")
    config = trial.folder / "data" / "krb5.conf"
    config.write_text(config.read_text().replace(PORT, port))
    start(trial, f"kdcd {command.partition(' -- ')[2].replace(PORT, port)}")
    usual, trial.environment["KRB5_CONFIG"] = trial.environment["KRB5_CONFIG"], str(config)
    trial.expect("kclient kinit alice --cache cc", 0, "=ok", given="a password\n")
    trial.expect(
        f"kclient kvno {SERVICE} --cache cc --keytab data/www.keytab", 0, f"={SERVICE} kvno 1, keytab entry valid"
    )
    if shutil.which("kvno"):
        log_in(trial, CLIENTS)
    else:
        trial.leave("MIT's clients in the realm of crates/kdcd/data, which are not on the path")
    trial.environment["KRB5_CONFIG"] = usual


def make_realm(trial, lines, port):
    """Runs all lines but the last one, which starts the server in the folder that the others made."""
    *lines, serve = [line.replace(PORT, port) for line in lines]
    trial.expect(["sh", "-e"], 0, "ok", given="\n".join(lines) + "\n", what="the lines that make the realm")
    trial.folder /= "out/realm"
    start(trial, serve)


def start(trial, serve):
    """Starts the server, and waits until it listens."""
    log = open(trial.folder / "log", "wb")
    trial.start(["sh", "-c", f"exec {serve}"], stdin=subprocess.DEVNULL, stdout=log, stderr=log)
    end = time.monotonic() + PATIENCE
    while time.monotonic() < end and "limits" not in (trial.folder / "log").read_text():
        time.sleep(0.05)
    trial.note("the server starts", "" if "limits" in (trial.folder / "log").read_text() else "it does not")


def log_in(trial, lines):
    """Runs the commands after `$`. Each one has to print the lines below it."""
    commands = re.findall(r"^\$ (.*)\n((?:[^$].*\n)*)", "\n".join(lines) + "\n", re.M)
    exports = [command for command, printed in commands if command.startswith("export ")]
    for command, printed in commands:
        if command not in exports:
            ran = trial.run(["sh", "-c", "; ".join([*exports, command])], given="a password\n")
            fault = ran.fault(0)
            said = (ran.out + ran.err).split("\n")
            lacking = [line for line in printed.splitlines() if not any(line in each for each in said)]
            trial.note(f"MIT's {command}", fault or f"{lacking} is not in {said}" * bool(lacking))


def expect_example(trial):
    """The example of a login prints when its ticket ends, in seconds since 1970, and an AP-REQ; with another password
    why there is none."""
    ran = trial.run(f"{LOGIN_EXAMPLE} alice host/www.example.com www.keytab", given="a password\n")
    got = re.fullmatch(r"(\d+)\n6e[0-9a-f]+\n", ran.out)
    late = got and int(got[1]) > time.time()
    trial.note(f"{LOGIN_EXAMPLE} gets a ticket", ran.fault(0) or f"it prints {ran.out!r}" * (not late))
    ran = trial.run(f"{LOGIN_EXAMPLE} alice host/www.example.com www.keytab", given="another password\n")
    refused = re.fullmatch(r"127\.0\.0\.1:\d+: error 24: .*\n", ran.out)
    trial.note(f"{LOGIN_EXAMPLE} says why it gets none", ran.fault(1) or f"it prints {ran.out!r}" * (not refused))


def with_path(trial):
    """Puts the folders of the programs on the path."""
    places = [os.path.dirname(each) for each in trial.programs.values()]
    trial.environment["PATH"] = ":".join([*places, trial.environment["PATH"]])


@test("kadm", "kdcd", "kclient", uses_stock=True)
def data_realm(trial):
    """The command that serves a realm of this repository."""
    with_path(trial)
    trial.enter("data_realm")
    serve_data(trial, *blocks("Build, prove, test", "CONTRIBUTING.md"))


@test("kadm", "kdcd", "kclient", LOGIN_EXAMPLE, uses_stock=True)
def first_realm(trial):
    """The lines that make a first realm, and clients in it."""
    realm, clients = blocks("A first realm")
    with_path(trial)
    trial.enter("top")
    make_realm(trial, realm, str(free_port()))
    trial.expect("kclient kinit --name alice --cache cc", 0, "=ok", given="a password\n")
    trial.expect("kclient kvno --name host/www.example.com --cache cc", 0, "=host/www.example.com kvno 1")
    expect_example(trial)
    if shutil.which("kvno"):
        log_in(trial, clients)
    else:
        trial.leave("MIT's clients in the realm of README.md, which are not on the path")
