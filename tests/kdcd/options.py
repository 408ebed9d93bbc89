"""The words after `kdcd serve`, and what a server says and does by them."""

import pathlib
import re
import time

from harness import staged_realm as realm
from harness.stage import REFUSING, T, ask, Staged, turn, utc
from harness.tests import test
from harness.wire import answer
from kdcd.journals import ABSENT, OTHER_BOOT

MOST = 4294967295
# Words after `kdcd serve` that are refused, and how the error begins.
REFUSED = """
    --db d UDP:88 --rounds 4294967296 -> --rounds
    --db d UDP:88 --rounds +7 -> --rounds
    --db d UDP:88 --rounds -7 -> --rounds
    --db d UDP:88 --rounds many -> --rounds
    --db d --udp 127.0.0.1 TCP:88 -> --udp
    --db d UDP:88 --tcp localhost:88 -> --tcp
    --db d UDP:88 --udp 127.0.0.2 -> --udp
    --db d --seed s -> --udp
    --db d UDP:1 UDP:2 UDP:3 UDP:4 TCP:1 TCP:2 TCP:3 TCP:4 TCP:5 -> --udp
    --db d UDP:88 --remembered 0 -> --remembered
    --db d UDP:88 --remembered 65537 -> --remembered
    --db d UDP:88 --remembered x -> --remembered
    --db d UDP:88 --remembered -1 -> --remembered
    --db d UDP:88 --kept 65536 -> --kept
    --db d UDP:88 --kept x -> --kept
    --db d UDP:88 --lock-after 4294967296 --lock-seconds 1 -> --lock-after
    --db d UDP:88 --lock-after 3 -> --lock-after
    --db d UDP:88 --lock-seconds 4294967296 -> --lock-seconds
    --db d UDP:88 --greatest-life 1w -> --greatest-life
    --db d UDP:88 --greatest-life 49711d -> --greatest-life
    --db d UDP:88 --greatest-renewable 1.5 -> --greatest-renewable
    UDP:88 -> the following required arguments were not provided: --db <FILE>
    --db d UDP:88 --db d -> the argument '--db <FILE>' cannot be used multiple times
    --db '' UDP:88 -> a value is required for '--db <FILE>' but none was supplied
    --db d UDP:88 --seed s --seed s -> the argument '--seed <FILE>' cannot be used multiple times
    --db d --seed '' UDP:88 -> a value is required for '--seed <FILE>' but none was supplied
    --db d UDP:88 --metrics m --metrics m -> the argument '--metrics <FILE>' cannot be used multiple times
    --db d UDP:88 --log yes -> unexpected argument 'yes' found
    --db d UDP:88 --first=1 -> unexpected value '1' for '--first' found; no more were expected
    --db d UDP:88 --fixed=1 -> unexpected value '1' for '--fixed' found; no more were expected
"""
# Words that are accepted. Each flag is once the only one.
ACCEPTED = f"""
    UDP:0 TCP:0 --seed s --rounds 007
    TCP:0 --seed s --fixed --log
    UDP:0 UDP:0 UDP:0 UDP:0 TCP:0 TCP:0 TCP:0 TCP:0
    UDP:0 --remembered 1
    UDP:0 --remembered 65536
    UDP:0 --kept 0
    UDP:0 --kept 65535
    UDP:0 --lock-seconds 3
    UDP:0 --lock-seconds 5m --greatest-life 10h --greatest-renewable 0007d
    UDP:0 --lock-after 0 --lock-seconds 0 --greatest-life 0 --greatest-renewable 0
    UDP:0 --lock-after {MOST} --lock-seconds {MOST} --greatest-life {MOST} --greatest-renewable {MOST}
    UDP:0 UDP:0 TCP:0 --tcp 127.0.0.2:0 ANY:0 --rounds 7 --seed s --first --quiet-start --fixed --log \
--greatest-renewable 5 --greatest-life 4 --lock-seconds 3 --lock-after 2 --kept 6 --remembered 1
    ANY:0
    ANY:0 --first
    ANY:0 --quiet-start
    ANY:0 --journal j
    ANY:0 --fixed
    ANY:0 --log
    ANY:0 --metrics m
"""
# The limits of a server, and what they are without their options.
LIMITS = {
    "remembered": 4096, "kept": 4096, "lock-after": 0, "lock-seconds": 0, "greatest-life": 36000,
    "greatest-renewable": 604800
}
REFUSES = f"restart: all TGS-REQs are refused until {utc(T + REFUSING)}"
QUIET = "quiet start: they get no reply until then"


def spelled(words):
    """These words, with addresses in place of UDP, TCP and ANY."""
    interfaces = pathlib.Path("/proc/net/if_inet6")
    one, every = ("[::1]", "[::]") if interfaces.exists() and " lo\n" in interfaces.read_text() else (
        "127.0.0.3", "0.0.0.0"
    )
    return words.replace("UDP:", "--udp 127.0.0.1:").replace("TCP:", f"--tcp {one}:").replace("ANY:", f"--tcp {every}:")


def in_seconds(value):
    """A number, or a time span with its unit in seconds."""
    number, unit = re.fullmatch(r"(\d+)([smhd]?)", str(value)).groups()
    return int(number) * {"": 1, "s": 1, "m": 60, "h": 3600, "d": 86400}[unit]


def said_at_start(trial, words, *journal):
    """What a server with these words says at its start. All ports are 0."""
    values = lambda name: re.findall(rf"--{name} (\S+)", words)
    *others, last = [f"{kind} {address}" for kind in ("udp", "tcp") for address in values(kind)]
    limits = ", ".join(f"{name} {in_seconds((values(name) or [usual])[0])}" for name, usual in LIMITS.items())
    restart = [] if "--first" in words else [REFUSES, QUIET] if "--quiet-start" in words else [REFUSES]
    version = trial.run("kdcd --version").out.replace("kdcd", "version").strip()
    serving = f"serving on {', '.join(others)}{' and ' * bool(others)}{last}"
    lines = (version, serving, "database d with 1 rows", *journal, *restart, f"limits: {limits}")
    return "".join(f"kdcd: {line}\n" for line in lines)


def without_ports(said):
    return re.sub(r":\d+(?=,| and |\n)", ":0", said)


def lines_in(text):
    return filter(None, map(str.strip, text.replace("\\\n", "").splitlines()))


@test("kdcd", trial=Staged, seconds=10)
def words(trial):
    """The words after `kdcd serve` that are refused, and what a server says that accepts them."""
    trial.enter()
    trial.rows(realm.TGS, name="d")
    trial.write("s", bytes([7] * 32))
    for line in lines_in(REFUSED):
        words, _, wanted = line.partition(" -> ")
        ran = trial.run(f"kdcd serve {spelled(words)}")
        is_right = ran.status == 2 and " ".join(ran.out.split()).startswith(f"error: {wanted}")
        trial.note(f"refused: {words}", "" if is_right else f"status {ran.status}, {ran.out!r}")
    for words in map(spelled, lines_in(ACCEPTED)):
        begun = time.monotonic()
        ran = trial.run(f"kdcd serve --db d {words}" + " --rounds 0" * ("--rounds" not in words))
        # Seven rounds in which nothing comes take a tenth of a second each.
        are_served = "--rounds" not in words or time.monotonic() - begun > 0.6
        journal = [f"journal j: {ABSENT}"] if "--journal" in words else []
        found, wanted = (without_ports(ran.err), ran.out, are_served), (
            said_at_start(trial, words, *journal), "served 0 0 0\n", True
        )
        trial.same(f"accepted: {words}", found, wanted)
    server = trial.server(f"--rounds {MOST} --seed s --first")
    trial.same(f"a server with --rounds {MOST} --seed s --first", answer(ask(server, realm.LOGIN)), "ticket")
    server.end()


@test("kdcd", trial=Staged)
def flags(trial):
    """What a server does by --fixed and by --log, and says of its journal."""
    trial.enter()
    trial.rows(realm.TGS, name="d")
    for flag, has_line, looks in (("--fixed", False, False), ("--log", True, True)):
        trial.rows(realm.TGS, realm.NEW_USER)
        server = trial.server(flag)
        trial.write("stage/calls", "")
        trial.rows(realm.TGS)
        turn(server)
        found = " udp none\n" in server.said(), "open database" in trial.calls()
        trial.same(
            f"with {flag} alone a request has a line: {has_line}; the new database is read: {looks}", found,
            (has_line, looks)
        )
        server.end()
    words = spelled(
        "UDP:0 --udp 127.0.0.2:0 TCP:0 --journal k --quiet-start --remembered 1 --lock-after 2 --lock-seconds 3 "
        "--greatest-life 4 --greatest-renewable 5"
    )
    for boot, news in (("one", ABSENT), ("another", OTHER_BOOT)):
        trial.set("BOOT", boot)
        found = without_ports(trial.run(f"kdcd serve --db d --rounds 0 {words}").err)
        wanted = said_at_start(trial, words, f"journal k: {news}")
        trial.same(f"what is said of a journal: {news}", found, wanted)
