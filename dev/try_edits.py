#!/usr/bin/env python3
"""Tries edits that the prover has to refuse, outside the gate: those of dev/edits/CRATE.edits. The gate tries those of
crates/CRATE/must-fail/ alone, since each costs it 15 to 60 processor seconds.

    python3 dev/try_edits.py [--list | --whole] CRATE [NAME ..]
    python3 dev/try_edits.py --all
    python3 dev/try_edits.py --stale

A file has, for each edit, a line `= NAME` and below it the lines of a file of must-fail/: `file:`, and pairs of `old:`
and `new:`, beside comments that begin with `#` (`dev/make_promises.py` makes rows of some). They are tried in a copy of
the repository, over the libraries that were built here. Only the functions that an edit changes are checked. If that
refuses nothing, or with --whole, `rt must-fail` checks the whole crate, and prints the result. The status is 1 if an
edit was not refused. --list prints the names.

--all tries those of all crates: first together those of one crate that each change another function, and alone those
that this does not refuse. Its last line is `DATE COMMIT: N refused, M not refused`.

--stale tries nothing. It names the edits, of the gate too, whose old text is no longer in its file exactly once, and
those that docs/PROMISES.md and docs/THEOREMS.md name and that there are not. The last line is `N passed, M failed`. The
gate tries this (`tests/pages/edits.py`)."""

import argparse
import datetime
import os
import pathlib
import re
import shutil
import subprocess
import sys
import tempfile

TOP = pathlib.Path(__file__).resolve().parent.parent
# How many wrong bodies each of the two pages names at least.
LEAST_NAMED = 30
FUNCTION = re.compile(r"^( *)(?:pub(?:\(\w+\))? )?(?:const )?(?:unsafe )?fn (\w+)", re.M)
IMPL = re.compile(r"^impl(?:<.*?>)? (?:(\w+)(?:<.*>)? for )?(\w+)", re.M)

# A line of a check that says why something is not proved, and one that only says that a proof names what the edit
# removed.
REFUSED = re.compile(r"(\./)?proofs/\S+: error: |fn \S+: no proof: .* did not prove ")
GONE = re.compile(r"has no field|is not in scope|has no `|was not admitted|that depends on")


def edits_of(crate):
    """The crate's edits, by name."""
    file = TOP / "dev" / "edits" / f"{crate}.edits"
    parts = re.split(r"^= (\S+)\n", file.read_text(), flags=re.M) if file.exists() else []
    return dict(zip(parts[1::2], parts[2::2]))


def last(pattern, text):
    """The last match of the pattern in the text."""
    found = None
    for found in pattern.finditer(text):
        pass
    return found


def function_at(crate, file, text, end):
    """The name of the last function before this place of a file, as much of its end as `--only` needs. (The module of a
    method may be that of its type.)"""
    function = last(FUNCTION, text[:end])
    owner = last(IMPL, text[:function.start()]) if function and function[1] else None
    modules = [part for part in pathlib.PurePath(file).with_suffix("").parts[1:] if part not in ("lib", "main")]
    names = [f"{owner[2][0].upper()}{owner[2][1:]}{owner[1] or ''}"] if owner else modules or [crate]
    return "::".join([*names, function[2]]) if function else None


def applied(crate, edit, before=()):
    """The texts of the files that an edit changes, by their paths in the crate, and the functions that it changes.
    Returns None if an old text is not exactly once in its file, as the pairs before it left that. `before` has the
    texts of files that other edits changed."""
    file, old, texts, functions = "", "", dict(before), set()
    for line in edit.splitlines():
        word, _, rest = line.partition(": ")
        if word == "file":
            file = rest
        elif word == "old":
            old = rest
        elif word in ("new", "new:"):
            path = TOP / "crates" / crate / file
            text = texts.get(file) or (path.read_text() if path.is_file() else "")
            if text.count(old) != 1:
                return None
            functions.add(function_at(crate, file, text, text.index(old) + len(old)))
            texts[file] = text.replace(old, rest)
    return texts, sorted(functions - {None})


def linked(source, made):
    """Another name for a file that was built, or a copy on another file system."""
    try:
        os.link(source, made)
    except OSError:
        shutil.copy2(source, made)


def copied(crate, folder):
    """The crate's folder in a copy of the repository, with the libraries that were built and without edits."""
    shutil.copytree(TOP / "crates", folder / "crates", ignore=shutil.ignore_patterns("out"))
    for built in TOP.glob("crates/*/out/rlib"):
        shutil.copytree(built, folder / built.relative_to(TOP), copy_function=linked)
    for name in ("crates.txt", "HANDLES"):
        shutil.copy(TOP / name, folder / name)
    place = folder / "crates" / crate
    shutil.rmtree(place / "must-fail", ignore_errors=True)
    return place


def said_of(place, texts, functions):
    """The lines of the check of these functions, with these texts in place of the crate's own, and whether it came to
    its end."""
    own = {path: (place / path).read_text() for path in texts}
    for path, text in texts.items():
        (place / path).write_text(text)
    words = ["rt", "check", "--jobs", "1", *[word for function in functions for word in ("--only", function)]]
    said = subprocess.run(
        words, cwd=place, stdout=subprocess.PIPE, stderr=subprocess.STDOUT, text=True, errors="replace"
    ).stdout
    for path, text in own.items():
        (place / path).write_text(text)
    counts = re.search(r"^only=(\d+) proved=(\d+)$", said, re.M)
    return said.splitlines(), bool(counts) and counts[1] != counts[2]


def refusal(place, texts, functions):
    """What the check of these functions refuses, with these texts in place of the crate's own, if anything."""
    lines, is_refused = said_of(place, texts, functions)
    return next((line for line in lines if is_refused and REFUSED.match(line) and not GONE.search(line)), None)


def show(crate, name, said):
    print(f"{crate}/{name}: refused, as it must be: {said[:160]}", flush=True)


def tried(place, crate, name, edit, is_whole):
    """Tries an edit, prints the result, and returns whether it is refused."""
    found = applied(crate, edit)
    said = refusal(place, *found) if found and found[1] and not is_whole else None
    if said:
        show(crate, name, said)
        return True
    folder = place / "must-fail"
    folder.mkdir()
    (folder / f"{name}.edit").write_text(edit)
    status = subprocess.run(["rt", "must-fail", crate], cwd=place.parent.parent).returncode
    shutil.rmtree(folder)
    return status == 0


def tried_together(place, crate, known):
    """Tries, in one check, edits that each change another function. Returns the names of the tried ones, and of the
    refused ones."""
    texts, by_function = {}, {}
    for name, edit in known.items():
        found = applied(crate, edit, texts)
        if found and len(found[1]) == 1 and found[1][0] not in by_function:
            texts, by_function[found[1][0]] = found[0], name
    lines, _ = said_of(place, texts, sorted(by_function))
    refused = set()
    for function, name in by_function.items():
        tail = function.removeprefix(f"{crate}::")
        places = (f"::{tail}: ", f"/{tail.replace('::', '/')}/")
        its_own = (line for line in lines if any(place in line[:line.find(": ") + 2] for place in places))
        if said := next((line for line in its_own if REFUSED.match(line) and not GONE.search(line)), None):
            show(crate, name, said)
            refused.add(name)
    return set(by_function.values()), refused


def try_all():
    """Tries the edits of all crates, and prints how many were refused. Returns whether all were."""
    refused, wrong = 0, []
    for file in sorted((TOP / "dev" / "edits").glob("*.edits")):
        crate, known = file.stem, edits_of(file.stem)
        with tempfile.TemporaryDirectory() as folder:
            place, left, alone = copied(crate, pathlib.Path(folder)), dict(known), {}
            while left:
                together, found = tried_together(place, crate, left)
                alone |= {name: left[name] for name in (together or set(left)) - found}
                left = {name: edit for name, edit in left.items() if name not in together} if together else {}
            wrong += [f"{crate}/{name}" for name, edit in alone.items() if not tried(place, crate, name, edit, False)]
        refused += len(known)
    print(*[f"NOT REFUSED {name}" for name in wrong], sep="\n", end="\n" * bool(wrong))
    commit = subprocess.run(
        ["git", "rev-parse", "--short", "HEAD"], cwd=TOP, stdout=subprocess.PIPE, text=True
    ).stdout.strip()
    print(f"{datetime.date.today()} {commit}: {refused - len(wrong)} refused, {len(wrong)} not refused")
    return not wrong


def every_edit():
    """The crate, the name, the place and the text of each edit, of the gate too."""
    for file in sorted((TOP / "dev" / "edits").glob("*.edits")):
        for name, edit in edits_of(file.stem).items():
            yield file.stem, name, f"dev/edits/{file.name}, {name}", edit
    for file in sorted(TOP.glob("crates/*/must-fail/*.edit")):
        yield file.parent.parent.name, file.stem, str(file.relative_to(TOP)), file.read_text()


def named_edits():
    """The edits that PROMISES and THEOREMS name as wrong bodies, by their crate and name, each with its page."""
    table = (TOP / "docs" / "PROMISES.md").read_text().partition("\n## Wrong bodies\n")[2].partition("\n## ")[0]
    for crate, cell in re.findall(r"^\| `(\w+)` \| (.*) \|$", table, re.M):
        yield from (("PROMISES.md", f"{crate}/{name}") for name in re.findall(r"\(`(\w+)`; ", cell))
    theorems = (TOP / "docs" / "THEOREMS.md").read_text()
    yield from (("THEOREMS.md", name) for name in re.findall(r"\(`(\w+/\w+)`(?:, by hand)?\)", theorems))


def stale():
    """Each edit, and each that a page names, with what is wrong: nothing, that it can't be applied, or that it doesn't
    exist; and the pages that name few."""
    known = list(every_edit())
    for crate, _, place, edit in known:
        yield place, "" if applied(crate, edit) else "an old text is not in its file exactly once"
    names = {f"{crate}/{name}" for crate, name, _, _ in known}
    named = list(named_edits())
    for page, name in named:
        yield f"docs/{page}: {name}", "" if name in names else "there is no such edit"
    for page in ("PROMISES.md", "THEOREMS.md"):
        yield f"docs/{page}: its edits", "there are few" * (sum(page == each for each, _ in named) < LEAST_NAMED)


def find_stale():
    """Names what is stale, and returns whether there is nothing."""
    found = list(stale())
    wrong = [f"{what}: {fault}" for what, fault in found if fault]
    print(*[f"WRONG {line}" for line in wrong], sep="\n", end="\n" * bool(wrong))
    print(f"{len(found) - len(wrong)} passed, {len(wrong)} failed")
    return not wrong


def main():
    words = argparse.ArgumentParser(description=__doc__, formatter_class=argparse.RawDescriptionHelpFormatter)
    words.add_argument("--list", action="store_true")
    words.add_argument("--stale", action="store_true")
    words.add_argument("--all", action="store_true")
    words.add_argument("--whole", action="store_true")
    words.add_argument("crate", nargs="?")
    words.add_argument("name", nargs="*")
    words = words.parse_args()
    if words.stale or words.all:
        sys.exit(not (find_stale() if words.stale else try_all()))
    known = edits_of(words.crate)
    if not known:
        sys.exit(f"{words.crate} has no edits in {TOP / 'dev' / 'edits'}")
    if lacking := [name for name in words.name if name not in known]:
        sys.exit(f"{words.crate} has no such edits: {', '.join(lacking)}")
    names = words.name or list(known)
    if words.list:
        return print(*names, sep="\n")
    with tempfile.TemporaryDirectory() as folder:
        place = copied(words.crate, pathlib.Path(folder))
        came = [tried(place, words.crate, name, known[name], words.whole) for name in names]
    sys.exit(not all(came))


if __name__ == "__main__":
    main()
