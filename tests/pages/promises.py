"""The page of promises is the one that its generator makes of the sources, of the edits and of its prose. What the page
itself names, read again without the generator, are functions and clauses that there are; and each clause of a public
function is among them, or in the list of those left out (`contracts.py`)."""

import collections
import difflib
import re

from list_undocumented import PRIVATE
from make_promises import BODY, COMMAND, PAGE, page
from promised import CRATES, INVARIANT, ONLY, Fault, carriers, promises
from try_edits import every_edit

from harness.tests import test
from pages.contracts import beyond, left_out

# A row of promises, and what carries a promise: at its end, in brackets.
ROW, CARRIED = re.compile(r"^\| (.*) \| (.*?) ?\|$"), re.compile(r"\(([^()]*)\)$")
HEAD = "| promises, each with what carries it | in |"
# A clause of a function as prose names it.
IN_PROSE = re.compile(r"`((?:\w+::)?[a-z]\w*)`: `(\w+)`")


@test(seconds=10)
def made(trial):
    """docs/PROMISES.md is as `dev/make_promises.py` makes it."""
    try:
        wanted = page()
    except Fault as fault:
        return trial.note("the promises of the sources, and dev/promises.txt", str(fault))
    lines = difflib.unified_diff(PAGE.read_text().split("\n"), wanted.split("\n"), "as it is", "as it is made", n=0)
    differing = [line for line in lines if line[:1] in "+-"][2:]
    fault = f"{COMMAND} makes it again; {len(differing)} lines differ: {' '.join(differing[:4])}" if differing else ""
    trial.note("docs/PROMISES.md", fault)


def unknown_in(refused, carriers):
    """The functions and clauses of a comment `# Refused by: ..` that are none of these."""
    unknown = []
    for piece in refused.split("; "):
        functions, _, clauses = piece.partition(": ")
        for name in re.findall(r"`([^`]+)`", functions):
            known = [each for each in carriers if name in (each.label(), each.name)]
            lacking = [each for each in re.findall(r"`([^`]+)`", clauses) if not any(one.has(each) for one in known)]
            unknown += [f"{name}: {each}" for each in lacking] if known else [name]
    return unknown


def places(cell):
    """The files of a cell. A crate is named once for those that follow one another."""
    found, crate = [], ""
    for name in re.findall(r"`([^`]+)`", cell):
        first, _, rest = name.partition("/")
        crate, file = (first, rest) if rest and (CRATES / first).is_dir() else (crate, name)
        found.append(f"{crate}/{file}")
    return found


def carried_in(text):
    """The functions and types in a promise's brackets, each with its clauses or laws; None without a name."""
    for piece in text.split("; "):
        names, _, clauses = piece.partition(": ")
        named, owner = re.findall(r"`([^`]+)`", clauses) or ([INVARIANT] if "invariant" in clauses else [ONLY]), ""
        for name in re.findall(r"`([^`]+)`", names):
            owner = name.rpartition("::")[0] or (owner if "::" not in name and name[:1].islower() else "")
            yield (f"{owner}::{name}" if owner and "::" not in name else name), named


def rows_of_promises():
    """The texts of the rows of promises, each with its files."""
    is_in, files = False, []
    for line in PAGE.read_text().splitlines():
        is_in = line == HEAD or is_in and line.startswith("|")
        if is_in and (row := ROW.match(line)) and line != HEAD and not line.startswith("|---"):
            files = places(row[2]) or files
            yield row[1], files


def on_page():
    """What the page names, as (file, function, clauses); and the promises that name nothing."""
    found, bare = [], []
    for texts, files in rows_of_promises():
        for text in texts.split("<br>"):
            if not (carried := CARRIED.search(text)):
                bare.append(text)
                continue
            found += [(tuple(files), label, clauses) for label, clauses in carried_in(carried[1])]
    return found, bare


@test(seconds=10)
def named(trial):
    """Each function and clause that the page names is in one of the files of its row; and each clause of a public
    function is named, or left out by the list."""
    by_label, found = collections.defaultdict(list), collections.defaultdict(set)
    for each in carriers():
        by_label[each.label()].append(each)
    listed, bare = on_page()
    unknown = []
    for files, label, clauses in listed:
        there = [each for each in by_label[label] if each.place() in files]
        for clause in clauses:
            having = [each for each in there if each.has(clause)]
            unknown += [] if having else [f"{label}: {clause} in {', '.join(files)}"]
            for each in having:
                found[each.crate, each.label()].add(clause.partition(".")[0])
    trial.note(f"functions and clauses of {len(listed)} that promises name", "; ".join(unknown))
    trial.note("each promise names what carries it", "; ".join(bare) or "there are few" * (len(listed) < 500))
    public = collections.defaultdict(set)
    for each in carriers():
        if each.is_public and not PRIVATE.search(each.crate):
            public[each.crate, each.label()] |= set(each.clauses)
    listed = left_out()
    lacking = beyond(public, {key: found[key] | listed.get(key, set()) for key in public})
    trial.note("clauses of public functions that the page and the list lack", lacking)
    prose = re.sub(r"^\|.*$", "", PAGE.read_text(), flags=re.M)
    unknown = [f"{name}: {clause}" for name, clause in IN_PROSE.findall(" ".join(prose.split())) if not any(
        each.has(clause) for label, some in by_label.items() for each in some if name in (label, each.name)
    )]
    trial.note("clauses that the prose names", "; ".join(unknown))


@test(seconds=10)
def refusing(trial):
    """What refuses a wrong body is a function of the edit's crate, with the clauses that are named."""
    by_crate, unknown = collections.defaultdict(list), []
    for each in carriers():
        by_crate[each.crate].append(each)
    for crate, name, _, edit in every_edit():
        if found := BODY.search(edit):
            unknown += [f"{crate}/{name}: {what}" for what in unknown_in(found[2], by_crate[crate])]
    trial.note("what refuses wrong bodies", "; ".join(unknown))


@test(seconds=10)
def parts(trial):
    """A part of a clause that a promise names, as `answered.names`, is a word of the definitions of its crate."""
    named = {(each.carrier.crate, clause) for each in promises()[1] for clause in each.clauses if "." in clause}
    words = lambda crate: {word for file in (CRATES / crate / "specs").glob("*.antt") for word in re.findall(
        r"\w+", file.read_text()
    )}
    known = {crate: words(crate) for crate, _ in named}
    unknown = [f"{crate}: {clause}" for crate, clause in sorted(named) if clause.partition(".")[2] not in known[crate]]
    trial.note("parts of clauses that promises name", ", ".join(unknown))
