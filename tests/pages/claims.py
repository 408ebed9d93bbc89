"""What the pages say of the code is so, as far as sources show it: the tables of rules with their order and codes, the
rules that lines of the log name, the crates of MAP.md, the numbers of COUNTS, the names of items and files, the
sections that a link names in words, the number of exported errors, the names of refusals in the manual pages, and the
commands and options of command lines."""

import collections
import re
import shlex

from make_completion import TABLES, commands_in

from harness.programs import TOP
from harness.tests import test

CRATES = TOP / "crates"
WORDS = (
    "no", "one", "two", "three", "four", "five", "six", "seven", "eight", "nine", "ten", "eleven", "twelve", "thirteen",
    "fourteen", "fifteen", "sixteen", "seventeen", "eighteen", "nineteen", "twenty"
)
# The manual pages, and the files with the names of what a program refuses.
REFUSALS = {
    "kadm.8": [
        "kadm/src/reasons.rt", "kadm/src/reports.rt", "file_store/src/faults.rt", "principals_text/src/read_fault.rt",
        "principals/src/change.rt", "cred_files/src/fault.rt",
    ],
    "kclient.1": ["client_files/src/words.rt", "cred_files/src/fault.rt", "file_store/src/faults.rt"],
    "kdcd.8": [
        "file_store/src/faults.rt", "kdc_files/src/files.rt", "kdc_files/src/sealing.rt",
        "principals_text/src/read_fault.rt",
    ],
}
# Names there that the program never prints: those of a program over `client_files`, of caches, of memory.
NEVER = {"kclient.1": {"NoLogin", "NotValid"}, "kadm.8": {"Memory", "TooLate"}}
# How many exported enums are an `Error` or a `Refusal` at most.
MOST_ERRORS = 14
# The manual page of each program, and the options that are plain words in its synopsis.
MANUALS = {"kadm": ("kadm.8", set()), "kclient": ("kclient.1", {"--name"}), "kdcd": ("kdcd.8", set())}
# Pages whose names of items and files are those of this repository, and names there of other ones.
OF_CODE = (
    "CONTRIBUTING.md", "SECURITY.md", "docs/CLIENT_LIBRARY.md", "docs/DECISIONS.md", "docs/FORMATS.md", "docs/MAP.md",
    "docs/PERFORMANCE.md", "docs/PROMISES.md", "docs/PROTOCOL.md", "docs/PROVING.md", "docs/SERVICES.md",
)
OF_OTHERS = {"array::from_fn", "krb5.h", "krb5_verify_init_creds", "pam_krb5", "tcp_max_orphans"}
# Options that each command has, and those of other programs that a page names alone.
GENERAL = {"--help", "--version"}
OTHERS = {"--allow-holes", "--canonicalize", "--collector"}


def read(name):
    return (TOP / name).read_text()


def differs(found, wanted):
    """What differs between two lists, by the first place."""
    if found == wanted:
        return ""
    at = next((at for at, (one, other) in enumerate(zip(found, wanted)) if one != other), min(len(found), len(wanted)))
    return f"{len(found)} and not {len(wanted)}: {found[at:at + 1]} and not {wanted[at:at + 1]}"


def section(page, title):
    return read(page).partition(f"\n## {title}\n")[2].partition("\n## ")[0]


def rows(text):
    """The cells of a page's rows."""
    lines = [line for line in text.splitlines() if line.startswith("|")]
    found = [[cell.strip() for cell in re.split(r"(?<!\\)\|", line)[1:-1]] for line in lines]
    return [cells for cells in found if not set(cells[0]) <= set("-")]


# The rules of the exchanges.

def codes():
    """The name and the number of each error code, by its name in the code."""
    text, numbers = read("crates/krb_fields/src/code.rt"), read("crates/krb_fields/src/numbers.rt")
    named = dict(re.findall(r'Code::(\w+) => "(\w+)"', text))
    number_of = dict(re.findall(r"^pub const (\w+): i32 = (\d+);$", numbers, re.M))
    cited = re.findall(r"^    (\w+) = numbers::(\w+) as isize,$", text, re.M)
    return {name: (named.get(name), int(number_of[number])) for name, number in cited}


def in_words(name):
    """The name of a rule in words: BadVersion is `bad version`."""
    return re.sub(r"(?<!^)(?=[A-Z])", " ", name).lower()


def logged(kind):
    """The names of rules in the log, by their names in the code."""
    crate = {"AsRefusal": "as_exchange", "TgsRefusal": "tgs_opening", "ApRefusal": "ap_req"}[kind]
    return dict(re.findall(rf'{kind}::(\w+) => "([\w-]+)"', read(f"crates/{crate}/src/refusal.rt")))


def coded(kind, file):
    """The codes of rules, by their names in the code."""
    arms = re.findall(rf"((?:{kind}::\w+(?: \| )?)+) => Code::(\w+)", read(file))
    return {name: code for names, code in arms for name in re.findall(r"::(\w+)", names)}


def as_rules():
    names, known, code_of = logged("AsRefusal"), codes(), coded("AsRefusal", "crates/as_exchange/src/refusal.rt")
    array = read("crates/as_exchange/src/rules.rt").partition("\n    [\n")[2].partition("\n    ]\n")[0]
    return [(names[rule].replace("-", " "), known[code_of[rule]]) for rule in re.findall(r"AsRefusal::(\w+)", array)]


def tgs_rules():
    names, known = logged("TgsRefusal") | {f"Ap.{name}": word for name, word in logged("ApRefusal").items()}, codes()
    code_of = coded("TgsRefusal", "crates/tgs_opening/src/refusal.rt")
    code_of |= {f"Ap.{name}": code for name, code in coded("ApRefusal", "crates/ap_req/src/refusal.rt").items()}
    code_of["Ap.ForeignClient"] = "KdcErrPolicy"
    rule = r"(?:Refuses|Records) \(?tgs\.(?:(Ap) ap\.)?(\w+)|(Repeats) "
    listed = re.findall(rule, read("crates/tgs_exchange/specs/Refusals.antt"))
    rules = [f"{'Ap.' * bool(ap)}{name}" if not repeats else "Ap.Repeated" for ap, name, repeats in listed]
    return [(names[rule].replace("-", " "), known[code_of[rule]]) for rule in rules if rule in names]


def service_rules():
    known = codes()
    listed = re.findall(r"refuses \(.*\) (\w+) codes\.(\w+)", read("crates/ap_accept/specs/Rules.antt"))
    return [(name, known[code]) for name, code in listed]


def page_rules(title):
    """The rules of a table of PROTOCOL.md: the name, and the code's name and number."""
    found = []
    for first, _, code, number, *_ in (cells for cells in rows(section("docs/PROTOCOL.md", title)) if len(cells) > 3):
        if re.search(r"\d", number):
            found.append((first.strip("*").lower().replace("-", " "), (code.strip("()`"), int(number.strip("()")))))
    return found


@test()
def rules(trial):
    spaced = lambda rules: [(in_words(name), code) for name, code in rules]
    for title, wanted in (("The rules of an AS-REQ", as_rules()), ("The rules of a TGS-REQ", tgs_rules()),
                          ("What a service accepts", spaced(service_rules()))):
        trial.note(f"PROTOCOL.md, {title!r}: the rules, their order and codes", differs(page_rules(title), wanted))
    known = {*logged("AsRefusal").values(), *logged("TgsRefusal").values(), *logged("ApRefusal").values()}
    named = {(page.name, word) for page in pages() for word in re.findall(r"\brule=([a-z-]+)", page.read_text())}
    unknown = [f"{page}: {word}" for page, word in sorted(named) if word not in known]
    trial.note(f"the rules of lines of the log, {len(named)}", ", ".join(unknown) or "there is none" * (not named))


# What pages count.

def setting_number(name):
    """A number among the constants of `text_fields`, in the file with the fields of a policy."""
    return int(re.search(rf"{name}: \w+ = (\d+)", read("crates/text_fields/src/settings.rt"))[1])


def settings():
    return setting_number("SETTINGS")


def default(option):
    """The default of an option of `kdcd serve`."""
    found = re.search(rf'\bargs,\s*"{option}",\s*([\d_]+),', read("crates/kdcd/src/options.rt"))
    return int(found[1].replace("_", ""))


def version():
    return re.search(r'VERSION: &str = "(.*)"', read("crates/file_store/src/version.rt"))[1]


def microseconds(request):
    """The processor time of each KDC for a request, by PERFORMANCE.md: ours with a line of the log, as the others'."""
    page = read("docs/PERFORMANCE.md")
    ours, mit, heimdal = re.search(rf"^\| {request} \|" + r" ([\d.]+) µs \|" * 3, page, re.M).groups()
    line = re.search(r"without a log, which adds some ([\d.]+) µs", page)[1]
    return [f"{float(ours) + float(line):.0f}", mit, heimdal]


def lines_of(*patterns):
    """How many lines the files of these patterns in crates/ have."""
    return sum(file.read_text().count("\n") for pattern in patterns for file in CRATES.glob(pattern))


def lines_of_code():
    """The lines of all crates but those of tests."""
    return lines_of("*/src/**/*.rt") - lines_of("*_tests/src/**/*.rt")


# A page, how it says a number, and that number.
COUNTS = (
    ("README.md", r"in (\d+) crates\.", lambda: len(list(CRATES.glob("*/src")))),
    ("README.md", r"This is ([\d.]+):", version),
    ("README.md", r"plovertrunk_([\d.]+)_amd64", version),
    ("CHANGELOG.md", r"version of all programs is ([\d.]+) ", version),
    ("docs/FORMATS.md", r"object with these (\w+) members", lambda: settings() + 1),
    ("docs/FORMATS.md", r"Rows of version \d have the other (\w+) members", settings),
    ("docs/FORMATS.md", r"and `version`, (\d+)\.", lambda: setting_number("NEWEST_VERSION")),
    ("docs/REFERENCE.md", r"`--remembered`, ([\d,]+);", lambda: default("remembered")),
    ("docs/REFERENCE.md", r"limits: remembered (\d+)", lambda: default("remembered")),
    ("docs/REFERENCE.md", r"kept (\d+), lock-after", lambda: default("kept")),
    ("docs/REFERENCE.md", r"greatest-life (\d+)", lambda: default("greatest-life")),
    ("docs/REFERENCE.md", r"greatest-renewable (\d+)", lambda: default("greatest-renewable")),
    ("docs/PROTOCOL.md", r"\(`Limits::kept`, ([\d,]+)\)", lambda: default("kept")),
    ("docs/SETUP.md", r"plovertrunk_([\d.]+)_amd64", version),
)


# A page, how it says a size, and that size: the two differ by a twentieth at most.
SIZES = (
    ("README.md", r"code and contracts \(([\d,]+) lines\)", lines_of_code),
    ("README.md", r"that contracts name \(([\d,]+)\)", lambda: lines_of("*/specs/*.antt")),
    ("README.md", r"proofs \(([\d,]+)\)", lambda: lines_of("*/proofs/**/*.antt")),
)


@test()
def sizes(trial):
    for page, pattern, counted in SIZES:
        said, wanted = re.findall(pattern, " ".join(read(page).split())), counted()
        wrong = [f"it says {each}, and there are {wanted}" for each in said if abs(
            int(each.replace(",", "")) - wanted
        ) > wanted / 20]
        trial.note(f"{page}: {pattern}", ", ".join(wrong) or "it does not say so" * (not said))
    said = re.findall(r"of a ticket, with a log \|" + r" (\d+) µs \|" * 3, read("README.md"))
    wanted = tuple(microseconds("a ticket without preauthentication"))
    trial.note("README.md: the time of a ticket", differs(said, [wanted]))


@test()
def counts(trial):
    for page, pattern, counted in COUNTS:
        said, wanted = re.findall(pattern, " ".join(read(page).split())), counted()
        numbers = [WORDS.index(each) if each in WORDS else each.replace(",", "") for each in said]
        wrong = [f"it says {each}, and there are {wanted}" for each in numbers if str(each) != str(wanted)]
        trial.note(f"{page}: {pattern}", ", ".join(wrong) or "it does not say so" * (not said))


# What pages name.

def pages():
    return sorted([*TOP.glob("*.md"), *TOP.glob("docs/*.md")])


@test()
def crates(trial):
    crates = sorted(each.name for each in CRATES.iterdir() if (each / "src").is_dir())
    table = re.findall(r"^\| ((?:`\w+`(?:, )?)+) \|", section("docs/MAP.md", "The crates"), re.M)
    named = [name for cell in table for name in re.findall(r"`(\w+)`", cell)]
    trial.note("MAP.md: the crates of its table", differs(sorted(named), crates))
    picture = read("docs/MAP.md").partition("\n    programs")[2].partition("\n## ")[0]
    lines = {name: at for at, line in enumerate(picture.splitlines()) for name in re.findall(r"\w+", line)}
    lacking = [name for name in crates if name not in lines and not name.endswith("_tests")]
    trial.note("MAP.md: the crates of its picture", ", ".join(lacking))
    listed = re.findall(r"^(\w.*?):(.*)$", read("crates.txt"), re.M)
    uses = {head.split()[0]: libraries.split() for head, libraries in listed}
    pairs = [(name, library) for name in crates for library in uses[name] if library in crates]
    late = [f"{name} uses {library}" for name, library in pairs if named.index(library) > named.index(name)]
    trial.note("MAP.md: its table has each crate behind those that it uses", ", ".join(late))
    above = [f"{name} uses {library}" for name, library in pairs if lines[library] < lines.get(name, -1)]
    trial.note("MAP.md: its picture has no crate below one that uses it", ", ".join(above))


def sources():
    """The files of Rattle and of its contracts."""
    return sorted(file for kind in ("rt", "antt") for file in CRATES.rglob(f"*.{kind}") if "/out/" not in str(file))


def scripts():
    """The files beside the crates that are no pages."""
    found = (file for name in ("tests", "bench", "dev", "docs") for file in (TOP / name).rglob("*") if file.is_file())
    return [file for file in found if file.suffix != ".md" and "__pycache__" not in file.parts]


@test()
def items(trial):
    """Names of items, and of files, between backticks are those of sources and scripts."""
    files = [*sources(), *scripts()]
    texts = (f"{file.stem} {file.read_text(errors='ignore')}" for file in files)
    known = {word for text in texts for word in re.findall(r"\w+", text)} | {each.name for each in CRATES.iterdir()}
    edits = [*CRATES.glob("*/*/*.edit")]
    known |= {file.stem for file in edits}
    more = (*CRATES.glob("*/*"), *edits, *TOP.iterdir())
    there = {file.name for file in (*files, *more)}
    for page in OF_CODE:
        spans = re.findall(r"`([^`\n]+)`", re.sub(r"^    .*$", "", read(page), flags=re.M))
        named = {span for span in spans if re.fullmatch(r"[A-Za-z_]\w*(::\w+)*", span)} - OF_OTHERS
        unknown = lambda word: re.search(r"_|[a-z][A-Z]", word) and word not in known
        lacking = {item for item in named if any(map(unknown, item.split("::")))}
        plain = [span for span in spans if "*" not in span]
        paths = {path for span in plain for path in re.findall(r"[\w.-]+\.(?:antt|rt|py|c|h|edits|session)\b", span)}
        lacking |= paths - there - OF_OTHERS
        trial.note(f"{page}: its names of items and files, {len(named) + len(paths)}", ", ".join(sorted(lacking)))


def error_enums():
    """The enums that crates export as errors, by names in `Error` and `Refusal`."""
    found = set()
    for library in CRATES.glob("*/src/lib.rt"):
        exported = set(re.findall(r"\w+", " ".join(re.findall(r"pub use ([^;]*);", library.read_text()))))
        texts = [file.read_text() for file in library.parent.rglob("*.rt")]
        found |= exported & {name for text in texts for name in re.findall(r"pub enum (\w+(?:Error|Refusal))\b", text)}
    return found


@test()
def errors(trial):
    """Few exported enums are errors: a caller learns few."""
    found = error_enums()
    fault = ", ".join(sorted(found)) if not 0 < len(found) <= MOST_ERRORS else ""
    trial.note(f"exported enums of errors and refusals, {len(found)}: at most {MOST_ERRORS}", fault)


@test()
def refusals(trial):
    """The manual page of a program has each name that it prints after `refused`."""
    for page, sources in REFUSALS.items():
        names = {name for source in sources for name in re.findall(r'"([A-Z][A-Za-z]+)"', read(f"crates/{source}"))}
        lacking = names - NEVER.get(page, set()) - set(re.findall(r"\w+", read(f"docs/man/{page}")))
        fault = ", ".join(sorted(lacking)) or "there is none" * (not names)
        trial.note(f"{page}: the names of refusals, {len(names)}", fault)


def options_in(mdoc):
    """The options that a manual page names: `Fl -db` is `--db`, and `Fl s` is `-s`."""
    return {f"-{name}" for name in re.findall(r"\bFl (-?\w[\w-]*)", mdoc)}


def synopsis(mdoc):
    """The commands of a manual page's synopsis with the options of each, also if a command is there twice."""
    found = {}
    for usage in mdoc.partition(".Sh SYNOPSIS\n")[2].partition("\n.Sh ")[0].split(".Nm\n"):
        for command in re.findall(r"\A\.Cm (\w+)$", usage, re.M):
            found.setdefault(command, set()).update(options_in(usage))
    return found


def apart(found, wanted):
    """What one of two sets has that the other lacks."""
    lacking, unknown = (", ".join(sorted(each)) for each in (wanted - found, found - wanted))
    return "; ".join([f"it lacks {lacking}"] * bool(lacking) + [f"there is no {unknown}"] * bool(unknown))


@test()
def manuals(trial):
    """A program's manual page explains the options of its tables and no others, and its synopsis has the commands with
    their options and no others."""
    for program, (page, plain) in MANUALS.items():
        commands, mdoc = commands_in(TABLES[program]), read(f"docs/man/{page}")
        takes = {command: {option.word for option in row} - {"--help"} for command, (_, row) in commands.items()}
        known, shown = set().union(*takes.values()), synopsis(mdoc)
        explained = options_in("\n".join(re.findall(r"^\.It Fl .*$", mdoc, re.M)))
        trial.note(f"{page}: the options that it explains", apart(explained, known))
        trial.note(f"{page}: the options that it names", apart(options_in(mdoc) - GENERAL, known - GENERAL))
        trial.note(f"{page}: the commands that it names", apart(set(re.findall(r"\bCm (\w+)", mdoc)), set(takes)))
        trial.note(f"{page}: the commands of its synopsis", apart(set(shown), set(takes)))
        for command in set(shown) & set(takes):
            trial.note(f"{page}: {command} in its synopsis", apart(shown[command], takes[command] - plain))


@test()
def sections(trial):
    """A link to a page with a section in words, as `[CLIENT.md](CLIENT.md), 'Trying it'`."""
    for page in pages():
        text = " ".join(page.read_text().split())
        wrong = []
        for target, title in re.findall(r"\]\(([\w./]+\.md)\), '([^']+)'", text):
            heads = re.findall(r"^#+ (.*)$|^\*\*([^*]+?)\.?\*\*", (page.parent / target).read_text(), re.M)
            if title not in {first or second for first, second in heads}:
                wrong.append(f"{target} has no section {title!r}")
        trial.note(f"{page.relative_to(TOP)}: sections that it names", ", ".join(wrong))


def command_faults(line, known):
    """What is wrong with a command line of one of our programs."""
    try:
        words = shlex.split(line, comments=True)
    except ValueError:
        words = line.split()
    program, *rest = words
    command = next((word for word in rest if not word.startswith("-")), None)
    if command not in known[program]:
        return [] if command is None and set(rest) <= GENERAL else [f"{program} has no command {command}"]
    options = {option.word for option in known[program][command][1]} | GENERAL
    given = {word.partition("=")[0] for word in rest if re.match(r"--?[a-z]", word)}
    return [f"{program} {command} has no option {word}" for word in sorted(given - options)]


@test()
def commands(trial):
    """The command lines of the pages, in blocks and between backticks, have commands and options that there are."""
    known = {program: commands_in(sources) for program, sources in TABLES.items()}
    options = {option.word for commands in known.values() for _, row in commands.values() for option in row} | GENERAL
    own = (file for file in scripts() if file.suffix == ".py")
    options |= {word for file in own for word in re.findall(r'"(--[a-z][a-z-]+)"', file.read_text())} | OTHERS
    for page in pages():
        text = re.sub(r" \\\n\s+", " ", page.read_text())
        lines = re.findall(r"^    (?:\$ |.*?(?:--|;|\||sh -c|&&) )?((?:kadm|kdcd|kclient) [a-z-].*)$", text, re.M)
        lines += [" ".join(each.split()) for each in re.findall(r"`((?:kadm|kclient|kdcd) [a-z-][^`]*)`", text)]
        lines = [re.split(r"[;|)&<>]|\.\.", line)[0] for line in lines]
        faults = [f"{fault} ({line})" for line in lines for fault in command_faults(line, known)]
        trial.note(f"{page.relative_to(TOP)}: its command lines, {len(lines)}", "; ".join(faults))
        unknown = sorted(set(re.findall(r"`(--[a-z][a-z-]+)[^`]*`", text)) - options)
        trial.note(f"{page.relative_to(TOP)}: its options", ", ".join(unknown))
