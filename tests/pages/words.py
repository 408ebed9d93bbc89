"""The English of the repository as far as a script can check it: phrases that a reader of Kerberos has to translate
back, in pages, code and scripts; lines of pages that are too wide, pages that are too long, and links and paths that
lead nowhere. Manual pages are checked by `mandoc -Tlint`, if that is on the path.

PHRASES says how often each phrase still stands. A number may only fall: lower it when a line `lower` says so."""

import pathlib
import re
import shutil
import subprocess

from harness.programs import TOP
from harness.tests import all_tests, test

# Where people read, by the names of the columns of PHRASES.
KINDS = {
    "pages": ("*.md", "docs/*.md", "docs/man/*"),
    "code": ("crates/*/src/**/*.rt", "crates/*/specs/**/*.antt", "crates/*/proofs/**/*.antt"),
    "scripts": (
        "tests/run", "tests/*/*.py", "tests/*/*.c", "tests/*/sessions/*", "bench/*.py", "bench/crate/*", "dev/*.py",
        "docs/*.h",
    ),
}
# A phrase, where a space may be the end of a line; what to write instead; and how often it still stands in pages, code
# and scripts.
PHRASES = (
    ("wants? of memory|memory is wanting|refused memory|handed no allocator", "out of memory", 0, 0, 0),
    ("tickets? for tickets", "TGT", 0, 0, 0),
    ("ticket granters?", "ticket-granting service", 0, 0, 0),
    ("untimely|as skewed", "clock skew, refused with 37", 0, 0, 0),
    ("the memories|(?:is|are) remembered", "replay cache, records", 0, 0, 0),
    ("lets? go|letting go", "drops, evicts, frees, closes", 0, 0, 0),
    ("(?:is|are) at fault|a fault of", "fails with, returns an error", 0, 0, 0),
    ("whoever|who asks", "the caller, the peer, the client", 0, 0, 0),
    ("of which|of whom|that which", "two sentences", 0, 2, 1),
    ("what it is that|in vain|all the same", "a verb", 0, 0, 0),
    ("where there (?:is|are) none", "if it is absent", 0, 0, 0),
    ("so many", "N, this many", 0, 0, 0),
    ("tells?|told(?!-)", "returns, logs, records", 1, 13, 3),
)
# A space of a phrase: in comments the next line begins with the comment's own sign.
GAP = r"(?:[ \t]+|[ \t]*\n[ \t]*(?:///?|//!|--|\*|#)?[ \t]*)"
# The units and settings of systemd, and what they start, by the ends of their names.
UNITS = (".service", ".path", ".conf", ".sh")
# The widest line of a page, but for rows of tables, which can't be broken.
WIDEST, WIDEST_OF_README = 120, 100
# How many lines a page has at most, and all together.
MOST_LINES = {
    "CHANGELOG.md": 100, "CONTRIBUTING.md": 90, "README.md": 100, "SECURITY.md": 100, "docs/CLIENT.md": 125,
    "docs/CLIENT_LIBRARY.md": 103, "docs/DECISIONS.md": 129, "docs/FORMATS.md": 329, "docs/HOSTS.md": 63,
    "docs/KEYS.md": 60, "docs/MAP.md": 101, "docs/PERFORMANCE.md": 120, "docs/PROTOCOL.md": 267,
    "docs/PROVING.md": 138, "docs/README.md": 30, "docs/REALM.md": 125, "docs/REFERENCE.md": 93,
    "docs/RUNNING.md": 167, "docs/SERVICES.md": 158, "docs/SETUP.md": 109, "docs/TROUBLE.md": 77,
    "docs/USERS.md": 95,
}
IN_ALL = 2621
# How many lines the pages of docs/ have at most, with those that a script makes.
IN_DOCS = 3400
# Pages that a script makes. They may be as long as it makes them.
MADE = ("docs/PROMISES.md", "docs/THEOREMS.md")
# How many lines a file of Python has at most.
MOST_LINES_OF_PYTHON = 500
# A link of a page, and a path of this repository that a page or a comment names.
LINK, PATH = re.compile(r"\]\(([^)#\s]*)(?:#([^)\s]*))?\)"), re.compile(
    r"(?<![\w/.$-])((?:crates|docs|tests|bench|dev)/[\w./*@-]*[\w*])"
)
# What such a path may be that is made by a build, or stands for others.
OTHER = re.compile(r"/out(/|$)|\*|\b(NAME|CRATE)\b")
# The longest row of a table, and how many longer ones a page still has. A number may only fall.
LONGEST_ROW, LONG_ROWS = 300, {}
# How wide lines begin that have to stay: a program prints them as one.
KEPT = (
    "    accepted u@A.B", "    2026-11-23T22:46:18Z", '    {"time":', "    krbtgt/A.B@A.B from",
    "    kdcd: the clock went back", "    kdcd: limits",
)
# How many wide lines a page still has. A number may only fall.
WIDE = {}


def files(kind):
    return sorted(
        path for pattern in KINDS[kind] for path in TOP.glob(pattern) if path != pathlib.Path(__file__).resolve()
    )


def places(paths):
    """For each phrase where it stands in these files, as PATH:LINE."""
    either = "|".join(f"({phrase})" for phrase, *_ in PHRASES)
    pattern, found = re.compile(rf"\b(?:{either.replace(' ', GAP)})\b", re.I), [[] for _ in PHRASES]
    for path in paths:
        text = path.read_text()
        for each in pattern.finditer(text):
            found[each.lastindex - 1].append(f"{path.relative_to(TOP)}:{text.count(chr(10), 0, each.start()) + 1}")
    return found


def check_count(notes, what, found, most):
    """Notes whether these places are as few as they may be."""
    notes.note(what, f"{len(found)} times, and {most} at most: {', '.join(found)}" * (len(found) > most))
    if len(found) < most:
        print(f"lower {what}: {len(found)}, where {most} stands")


@test()
def phrases(notes):
    """Phrases that still stand."""
    found = {kind: places(files(kind)) for kind in KINDS}
    for index, (phrase, better, *most) in enumerate(PHRASES):
        for kind, number in zip(KINDS, most):
            check_count(notes, f"{kind}: {phrase!r} ({better})", found[kind][index], number)


def wide_lines(page, widest):
    """The lines that are too wide. What a page that is made shows of sources stays as it is there."""
    text = page.read_text()
    if str(page.relative_to(TOP)) in MADE:
        text = re.sub(r"^```text\n.*?^```$", lambda block: "\n" * block[0].count("\n"), text, flags=re.M | re.S)
    lines = enumerate(text.splitlines(), 1)
    return [f"line {number}" for number, line in lines if len(line) > widest and not line.startswith(("|", *KEPT))]


def pages():
    return sorted([*TOP.glob("*.md"), *TOP.glob("docs/*.md")])


@test()
def widths(notes):
    """The widths and lengths of pages."""
    for page in pages():
        name = str(page.relative_to(TOP))
        widest = WIDEST_OF_README if name == "README.md" else WIDEST
        check_count(notes, f"{name}: lines of more than {widest} columns", wide_lines(page, widest), WIDE.get(name, 0))
    for name, most in MOST_LINES.items():
        count = len((TOP / name).read_text().splitlines())
        notes.note(f"{name}: its length", f"{count} lines, and {most} at most" * (count > most))
    count = sum(len(page.read_text().splitlines()) for page in pages() if str(page.relative_to(TOP)) not in MADE)
    notes.note("the length of all pages written by hand", f"{count} lines, and {IN_ALL} at most" * (count > IN_ALL))
    count = sum(len(page.read_text().splitlines()) for page in TOP.glob("docs/*.md"))
    notes.note("the length of docs/", f"{count} lines, and {IN_DOCS} at most" * (count > IN_DOCS))
    for name in (*MOST_LINES, *MADE):
        lines = enumerate((TOP / name).read_text().splitlines(), 1)
        long = [f"line {number}" for number, line in lines if line.startswith("|") and len(line) > LONGEST_ROW]
        check_count(notes, f"{name}: rows of more than {LONGEST_ROW} characters", long, LONG_ROWS.get(name, 0))
    without = {str(page.relative_to(TOP)) for page in pages()} - {*MOST_LINES, *MADE}
    notes.note("each page has a length in MOST_LINES", ", ".join(sorted(without)))


def anchors(page):
    """The names of a page's headings, as in a link to them; of another file its lines, as `L7`."""
    if page.suffix != ".md":
        return {f"L{line}" for line, _ in enumerate(page.read_text().splitlines(), 1)}
    heads = re.findall(r"^#+ (.*)$", page.read_text(), re.M)
    return {re.sub(r"[^\w -]", "", head.lower()).replace(" ", "-") for head in heads}


def wide_among(lines, mark=""):
    """The numbers of the lines that are too wide, of those that begin with a mark."""
    found = (number for number, line in enumerate(lines, 1) if len(line) > WIDEST and line.lstrip().startswith(mark))
    return ", ".join(map(str, found))


@test()
def scripts(notes):
    """The widths of Python's and C's files, of code, definitions without laws, and comments of sessions; the lengths of
    Python's files."""
    files_of = [
        TOP / "tests" / "run", *(path for folder in ("tests", "bench", "dev") for path in TOP.glob(f"{folder}/**/*.py"))
    ]
    texts = {str(path.relative_to(TOP)): path.read_text().splitlines() for path in files_of}
    kinds = {
        "Python": ("", files_of),
        "C and shell": ("", [TOP / ".ci/run", *TOP.glob("tests/**/*.c"), *TOP.glob("docs/*.h")]),
        "units and settings": ("", [path for path in TOP.glob("docs/*") if path.suffix in UNITS]),
        "code": ("", TOP.glob("crates/*/src/**/*.rt")),
        "definitions": ("", (path for path in TOP.glob("crates/*/specs/**/*.antt") if not path.stem.endswith("Laws"))),
        "comments of sessions": ("#", TOP.glob("tests/**/*.session")),
    }
    for what, (mark, paths) in kinds.items():
        each = ((path, wide_among(path.read_text().splitlines(), mark)) for path in paths)
        wide = [f"{path.relative_to(TOP)}: {numbers}" for path, numbers in each if numbers]
        notes.note(f"{what}: lines of more than {WIDEST} columns", "; ".join(wide))
    long = [name for name, lines in texts.items() if len(lines) > MOST_LINES_OF_PYTHON]
    notes.note(f"Python's files of more than {MOST_LINES_OF_PYTHON} lines", ", ".join(long))


@test()
def links(notes):
    """The links of pages, and the paths that pages and comments name."""
    for page in pages():
        text, faults = page.read_text(), []
        for target, anchor in LINK.findall(text):
            place = (page.parent / target).resolve() if target else page
            if "://" in target:
                continue
            if not place.exists():
                faults.append(f"{target} is not there")
            elif anchor and anchor not in anchors(place):
                faults.append(f"{target} has no heading {anchor}")
        faults += [f"{path} is not there" for path in PATH.findall(text) if not OTHER.search(path) and not (
            TOP / path
        ).exists()]
        notes.note(f"{page.relative_to(TOP)}: its links and paths", ", ".join(sorted(set(faults))))
    named = {(path, file) for kind in ("code", "scripts") for file in files(kind) for path in re.findall(
        r"\bdocs/[\w.@-]*\w\b", file.read_text()
    )}
    faults = [f"{path} in {file.relative_to(TOP)}" for path, file in sorted(named) if not (TOP / path).exists()]
    notes.note("pages that code and scripts name", ", ".join(faults))


@test()
def names_of_tests(notes):
    """The words by which pages name tests."""
    named = {(page.name, word) for page in pages() for word in re.findall(r"tests/run -k ([\w/]+)", page.read_text())}
    is_known = lambda word: word == "WORD" or any(word in name for name in all_tests())
    lacking = [f"{page}: {word}" for page, word in sorted(named) if not is_known(word)]
    notes.note("words of `tests/run -k` in pages", ", ".join(lacking))


@test()
def manuals(notes):
    """The form of the manual pages."""
    if not shutil.which("mandoc"):
        return notes.leave("mandoc -Tlint of the manual pages: mandoc is not on the path")
    folder = TOP / "docs" / "man"
    names = sorted(page.name for page in folder.iterdir())
    ran = subprocess.run(["mandoc", "-Tlint", *names], capture_output=True, text=True, cwd=folder)
    notes.note("mandoc -Tlint of the manual pages", " ".join(ran.stdout.split()))
