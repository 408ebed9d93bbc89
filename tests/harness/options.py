"""The help of commands, and each of their options with bad values, left out, given twice, and without a value."""

import re
import shlex

from harness.programs import TOP
from harness.wire import REALM

MOST = 4294967295
# Bad values of options.
NUMBERS = ("", "-1", "+1", "1.5", "0x10", "ten", " 1", "1 ", "\u0661", str(MOST + 1), "18446744073709551617")
ADDRESSES = (
    "", "localhost:88", "127.0.0.1", "127.0.0.1:", "127.0.0.1:65536", ":88", "::1:88", "[::1]", "127.1:88", " [::1]:88",
)
BAD = {
    **dict.fromkeys(("db", "seed", "password-file", "out", "keytab", "dump", "stash", "cache", "from"), ("",)),
    **dict.fromkeys(
        ("lock-seconds", "greatest-life", "greatest-renewable"),
        (*NUMBERS, "h", "1w", "1 h", "+1h", "1.5h", "49711d"),
    ),
    **dict.fromkeys(("udp", "tcp", "kdc"), ADDRESSES),
    "remembered": (*NUMBERS, "0", "65537"),
    "kept": (*NUMBERS, "65536"),
    "log-format": ("", "nonsense", "JSON", "text,json"),
    "journal-size": ("", "-1", "1.5M", "513M", "1G", str(MOST), "1T", "M"),
    "types": ("", "16", "18,18", "18,", ",18", "18 17", "18;17", "aes256-cts", "18,17,20,19,23"),
    "field": ("", "nonsense", "Disabled"),
    "value": ("", "nonsense"),
    "set": ("", "nonsense", "disabled", "disabled=", "=true", "disabled=TRUE", "Disabled=true"),
    "expires": ("", "nonsense", "2027-02-29"),
}
GOOD = {
    "db": "database", "realm": REALM, "name": "n", "seed": "seed", "password-file": "pw", "types": "18", "version": "1",
    "field": "disabled", "value": "true", "out": "kt", "keytab": "kt", "from": "database", "udp": "127.0.0.1:0",
    "cache": "cc", "log-format": "text", "journal": "j", "journal-size": "1M",
}
# What is behind the name of an option: it is required, may be given more than once, has no value, may have none, or its
# value is a number.
MARKS = "!*-?#"
# A line of a session with the options of a command. Each command has one such line.
ROW = re.compile(r"^% (\w+) (.*)$", re.M)
NAMES = (
    "", "a b", "a//b", "/a", "a/", "u@x", "\\41", "\\4A", "\\4", "\u00e9", "a" * 256, "a/" * 16 + "a", "a\nb",
)


def faults_of(trial, base, values, status, *texts):
    """What is wrong, if a command with each of these last words has to end with this status and these texts."""
    faults = ((value, trial.run([*base, value], seconds=10).fault(status, *texts)) for value in values)
    return " | ".join(f"{value[:40]!r}: {fault}" for value, fault in faults if fault)


def rows(program):
    """The options of each command, as the sessions of a program have them."""
    texts = [path.read_text() for path in sorted((TOP / "tests" / program / "sessions").glob("*.session"))]
    return [(f"{program} {command}", options) for text in texts for command, options in ROW.findall(text)]


def commands_in(text):
    """The commands that a help lists."""
    return re.findall(r"^  (\w+) ", text.partition("Commands:\n")[2].partition("\n\n")[0], re.M)


def try_sessions(trial, program):
    """Tries what the sessions of a program say of its options. The help lists the commands with a row, and no other."""
    found = rows(program)
    try_program(trial, program, dict(found))
    listed = {f"{program} {each}" for each in commands_in(trial.run(f"{program} --help").out)} - {f"{program} help"}
    trial.same("the commands of the help, and those with a row", sorted(listed), sorted(row[0] for row in found))


def try_program(trial, program, commands):
    """Tries the help of a program and of each command, and each option of these commands."""
    trial.realm()
    subcommands = [each.split()[1] for each in commands]
    trial.expect(f"{program} --help", 0, *subcommands)
    for words in ([], ["nonsense"], ["--nonsense"], [""], ["\udcff"], [subcommands[0], "\udcff"]):
        trial.note(f"{program} {shlex.join(words)}", trial.run([program, *words]).fault(2))
    for command, options in commands.items():
        options = {each.rstrip(MARKS): each[len(each.rstrip(MARKS)):] for each in options.split()}
        trial.expect(f"{command} --help", 0, *[f"--{name}" for name in options])
        base = {name: GOOD[name] for name, marks in options.items() if "!" in marks}
        for name, marks in options.items():
            try_option(trial, command, base, name, marks)
        trial.expect(f"{command} {shlex.join(joined(base))} --nonsense", 2, "--nonsense")


def joined(base):
    return [word for name, value in base.items() for word in (f"--{name}", value)]


def try_option(trial, command, base, name, marks):
    """Tries bad uses of an option beside the words that the command requires."""
    option, values = f"--{name}", NUMBERS if "#" in marks else BAD.get(name, ())
    if "-" in marks:
        cases = [[f"{option}=yes"], [option, option]]
    else:
        cases = [*[[option, value] for value in values], *[[f"{option}={value}"] for value in values]]
        cases += [] if "?" in marks else [[option]]
        cases += [] if "*" in marks else [[option, GOOD.get(name, "1")] * 2]
        cases += [[]] if "!" in marks else []
    others = joined({each: value for each, value in base.items() if each != name})
    ran = ((case, trial.run([*command.split(), *others, *case], seconds=10).fault(2, option)) for case in cases)
    faults = " | ".join(f"{shlex.join(case) or 'left out'}: {fault}" for case, fault in ran if fault)
    trial.note(f"{command} {option}: {len(cases)} bad uses", faults)
