"""The lines of a script: their forms and limits, and reads, writes and allocations that fail."""

from concurrent.futures import ThreadPoolExecutor

from harness.faults import refusing
from harness.processes import processors
from harness.tests import test
from kdcd.script_requests import (
    BASIC, CLIENT_UNKNOWN, LENIENT_USER, PREAUTH_REQUIRED, SERVICE, TGS_REP, TGS_REQ, TICKET, USER
)
from kdcd.scripts import DONE, FAILED, FAULT, K, MAX_INPUT, MAX_LINE, OPEN, UP_FROM_64, ZEROS, ask, key

# Lines that a script can't have.
OTHER_FORMS = (
    "open", "open ", "open A.B 64 0 0 36000 0", f"open A.B 64 0 0 36000 {K}", f"open A.B 64 0 0 36000 0 {K} ",
    f"open A.B 64 0 0  36000 0 {K}",
    f"open  A.B 64 0 0 36000 0 {K}", f" open A.B 64 0 0 36000 0 {K}", f"OPEN A.B 64 0 0 36000 0 {K}",
    f"open A.B 64 0 0 36000 0 {K}\r",
    f"open \u00e9 64 0 0 36000 0 {K}", f"open A/B 64 0 0 36000 0 {K}", f"open A.B 0 0 0 36000 0 {K}",
    f"open A.B 65537 0 0 36000 0 {K}",
    f"open A.B +64 0 0 36000 0 {K}", f"open A.B 64 -0 0 36000 0 {K}", f"open A.B 64 0x0 0 36000 0 {K}",
    f"open A.B 64 4294967296 0 36000 0 {K}",
    f"open A.B 64 0 18446744073709551616 36000 0 {K}", "open A.B 64 0 0 36000 0 ", "open A.B 64 0 0 36000 0 17",
    "open A.B 64 0 0 36000 0 17:",
    f"open A.B 64 0 0 36000 0 {K[:-1]}", f"open A.B 64 0 0 36000 0 {K[:-1]}g", f"open A.B 64 0 0 36000 0 {K}00",
    f"open A.B 64 0 0 36000 0 18{K[2:]}", f"open A.B 64 0 0 36000 0 16{K[2:]}", f"open A.B 64 0 0 36000 0 +{K}",
    f"open A.B 64 0 0 36000 0 {K},",
    f"open A.B 64 0 0 36000 0 {K},19{K[2:]},{K}",
    "add u", f"add u v {K}", f"add u {K},", f"add / {K[:-1]}", f"add \u00e9 {K}",
    f"request 0 0 {ZEROS} 0", f"request 0 0 {ZEROS} 0 - -", f"request 0 0 {ZEROS} 0 ", f"request 0 0 {ZEROS} 0 0",
    f"request 0 0 {ZEROS} 0 --",
    f"request 0 0 {ZEROS[:-1]} 0 -", f"request 0 0 {ZEROS}0 0 -", f"request 0 0 {ZEROS[:-1]}x 0 -",
    f"request 0 1000000 {ZEROS} 0 -",
    f"request 253402300800 0 {ZEROS} 0 -", f"request -1 0 {ZEROS} 0 -", f"request 0 0 {ZEROS} 4294967296 -",
    "restart", "restart ", "restart 0 0", "restart -1", "restart 253402300800",
    "keys u", "keys u 17:0", "drop u", "drop u 4294967296", "drop u -1", "remove", "remove u v",
    "policy u", "policy u disabled", "policy u disabled=", "policy u disabled=never",
    "policy u greatest_life=4294967296",
    "policy u expires=253402300800", "policy u versions=1", "\r", " ",
)
# Scripts without an `open`, what they print, and their status.
UNOPENED = (
    (f"add u {K}\n", "fault 1\n", FAULT), (f"add / {K}\n", "fault 1\n", FAULT),
    (f"request 0 0 {ZEROS} 0 -\n", "fault 1\n", FAULT), ("", "", DONE),
)
# What follows an `open`, what it prints after `ok`, and the status.
LINES = (
    (f"add u {K}", "ok\n", DONE),
    (f"add u 19{K[2:]},017:0F{'0' * 30}\nadd u {K}\n", "ok\nrefused Exists\n", DONE),
    (f"add krbtgt/A.B {K}\n", "refused Exists\n", DONE),
    (f"add a\\0d {K}\nadd a\\0D {K}\n", "ok\nrefused BadName\n", DONE),
    (f"add  {K}\nadd / {K}\n", "refused BadName\nrefused BadName\n", DONE),
    (f"add 1/2/3/4/5/6/7/8/9/a/b/c/d/e/f/g/h {K}\n", "refused BadName\n", DONE),
    (f"add u\r {K}\n", "refused BadName\n", DONE),
    (f"request 253402300799 999999 {ZEROS} 4294967295 -\n", "none\n", DONE),
    (f"request 00 00 {ZEROS} 00 -", "none\n", DONE),
    (f"add u {K}\nopen A.B 64 0 0 36000 0 {K}\nadd u {K}\n", "ok\nok\nok\n", DONE),
    (f"add u {K}\nkeys u {key(0)}\ndrop u 2\ndrop u 1\ndrop u 1\nremove u\nremove u\n",
     "ok\nok\nrefused CurrentKeys\nok\nrefused Absent\nok\nrefused Absent\n", DONE),
    (f"remove krbtgt/A.B\nkeys u {K}\ndrop / 1\nremove /\nkeys / {K}\n",
     "refused Protected\nrefused Absent\nrefused BadName\nrefused BadName\nrefused BadName\n", DONE),
    ("policy krbtgt/A.B disabled=true\npolicy krbtgt/A.B expires=never\n"
     "policy krbtgt/A.B revoked_before=0253402300799\npolicy u preauth=false\npolicy / greatest_renewable=0\n",
     "ok\nok\nok\nrefused Absent\nrefused BadName\n", DONE),
    ("restart 0\nrestart 0253402300799\n", "ok\nok\n", DONE),
    (f"\n\nadd u {K}\n\nadd\nadd v {K}\n", "ok\nfault 6\n", FAULT),
    (f"\nadd u {K}\r\n", "fault 3\n", FAULT),
)


def faults_of(trial, scripts):
    """What is wrong, unless each of these scripts prints the text beside it and ends with the status after that."""
    faults = []
    for script, printed, status in scripts:
        ran = trial.run(["kdcd", "script"], script)
        if (ran.out, ran.status) != (printed, status):
            faults.append(f"{script[-60:]!r} prints {ran.out[-60:]!r}, and ends with status {ran.status}")
    return "; ".join(faults[:3])


def padded(length):
    """A request whose line has this many bytes, by zeros in front of a number."""
    rest = f" 0 {ZEROS} 1400 -"
    return "request ".ljust(length - len(rest), "0") + rest


@test("kdcd", seconds=10)
def forms(trial):
    """The lines of a script, one after another, and their limits."""
    trial.enter("scripts")
    first = [(line, "fault 1\n", FAULT) for line in OTHER_FORMS]
    trial.note(f"{len(first)} lines in none of the forms, each as the first line", faults_of(trial, first))
    after = [(f"{OPEN}\n{line}", "ok\nfault 2\n", FAULT) for line in OTHER_FORMS]
    trial.note("the same lines after an `open`", faults_of(trial, after))
    trial.note("a KDC is opened first", faults_of(trial, UNOPENED))
    lines = [(f"{OPEN}\n{lines}", f"ok\n{printed}", status) for lines, printed, status in LINES]
    trial.note("each line is answered in turn", faults_of(trial, lines))
    trial.note("a line has a maximum length", faults_of(trial, (
        (f"{OPEN}\n{padded(MAX_LINE)}", "ok\nnone\n", DONE),
        (f"{OPEN}\n{padded(MAX_LINE)}\n\nend\n", "ok\nnone\nfault 4\n", FAULT),
        (f"{OPEN}\n{padded(MAX_LINE + 1)}", "ok\nfault 2\n", FAULT),
    )))
    inputs = ("\n" * MAX_INPUT, "", DONE), ("\n" * (MAX_INPUT + 1), f"fault {MAX_INPUT + 1}\n", FAULT)
    trial.note("an input has a maximum length", faults_of(trial, inputs))


# Three lines, and what they print.
MIXED, MIXED_PRINTED = f"open A.B 64 0 0 36000 0 {K}\nadd krbtgt/A.B {K}\nadd\n", "ok\nrefused Exists\nfault 3\n"
# The most bytes that a read gives.
PIECE = 7
# Each kind of line, and each kind of reply, with what is printed.
EVERY_KIND = (
    (OPEN, "ok"), (ask(BASIC), CLIENT_UNKNOWN), *USER[1:], (ask(BASIC), PREAUTH_REQUIRED), (ask(BASIC[1:]), "none"),
    *LENIENT_USER[2:], (ask(BASIC), TICKET), (f"keys u {key(1)}", "ok"), ("drop u 1", "ok"), ("remove u", "ok"),
    ("remove u", "refused Absent"), (f"add / {K}", "refused BadName"), ("restart 0", "ok"),
    *SERVICE, *[(ask(TGS_REQ, random=UP_FROM_64), TGS_REP)] * 2, ("add", "fault 19"),
)


def is_end(ran, statuses):
    """Whether a run of these lines failed and printed no more than a beginning of the text, or ended as it should."""
    is_whole = (ran.status, ran.out) == (FAULT, MIXED_PRINTED)
    return ran.status in statuses and (is_whole or ran.status == FAILED and MIXED_PRINTED.startswith(ran.out))


@test("kdcd", seconds=10)
def failed_calls(trial):
    """Reads and writes of a script that fail."""
    trial.enter("scripts")
    environment = refusing(trial)

    def run(script=MIXED, **numbers):
        return trial.run(
            ["kdcd", "script"], script, env={**environment, **{word: str(number) for word, number in numbers.items()}}
        )

    trial.note("the lines in short reads", "" if is_end(run(PIECE=PIECE), [FAULT]) else "they end otherwise")
    # The last read of a run without a failure finds the end of the input.
    reads = range(-(-len(MIXED) // PIECE))
    odd = [calls for calls in reads if not is_end(run(PIECE=PIECE, READS=calls), [FAILED])]
    trial.note(f"reads that fail after 0 to {reads[-1]} good ones", f"after {odd}" if odd else "")
    ends = [run(WRITES=calls) for calls in range(64)]
    odd = [calls for calls, ran in enumerate(ends) if not is_end(ran, [FAULT, FAILED])]
    failed = [calls for calls, ran in enumerate(ends) if ran.status == FAILED]
    is_well = not odd and failed == list(range(len(failed))) and len(MIXED_PRINTED.splitlines()) <= len(failed) < 63
    trial.note(
        f"writes that fail after 0 to {len(failed) - 1} good ones",
        "" if is_well else f"{odd} end otherwise, and {failed} fail"
    )


@test("kdcd", seconds=10)
def refused_allocations(trial):
    """A script with each kind of line and reply, in runs in which one allocation fails."""
    trial.enter("scripts")
    environment, whole = refusing(trial), "".join(f"{printed}\n" for _, printed in EVERY_KIND)
    script = "".join(f"{line}\n" for line, _ in EVERY_KIND)

    def run(given, number=0):
        """Runs a script, and returns what came of it, and how many allocations it made."""
        counted = trial.folder / f"counted{number}"
        numbers = {"COUNTED": str(counted), **({"REFUSED": str(number)} if number else {})}
        ran = trial.run(["kdcd", "script"], given, env={**environment, **numbers})
        return ran, int(counted.read_text())

    def is_end(number):
        """Whether the run printed a beginning of the text, or ended as it should; and whether it failed."""
        ran, _ = run(script, number)
        failed = ran.status == FAILED
        return (failed and whole.startswith(ran.out) or (ran.status, ran.out) == (FAULT, whole)), failed

    # The first ones are those of the program's start.
    (_, begun), (_, ended) = run(""), run(script)
    numbers = range(begun + 1, ended + 1)
    with ThreadPoolExecutor(processors()) as pool:
        ends = list(pool.map(is_end, numbers))
    odd = [number for number, (is_well, _) in zip(numbers, ends) if not is_well]
    failed = sum(failed for _, failed in ends)
    trial.note(
        f"{len(EVERY_KIND)} lines of each kind: {len(numbers)} allocations refused, which end {failed} runs",
        f"{odd[:5]} end otherwise" if odd or failed < len(EVERY_KIND) else ""
    )
