#!/usr/bin/env python3
"""Makes docs/THEOREMS.md from the sources and from dev/theorems.txt, its prose.

    python3 dev/make_theorems.py [--check]

The prose is Markdown, with these lines of its own:

    @quote CRATE/FILE.rt FUNCTION CLAUSE ..      clauses word for word, with their places; `-` is one without a name
    @quote CRATE/FILE.antt NAME ..               definitions word for word, with their places; lines that follow one
                                                 another make one block
    @rests on CRATE/FILE.rt FUNCTION CLAUSE ..   clauses that count for what has to be believed, and aren't shown
    @believe         the lines `CRATE/FILE.antt NAME | meaning` below it; and how many definitions, files and lines all
                     clauses of this theorem rest on
    @bodies          the lines `CRATE/EDIT | what the wrong body does` below it
    @places          the lines `STEP | WORDS | CRATE/FILE.rt FUNCTION CLAUSE ..; ..` below it

`@believe`, `@bodies` and `@places` follow one another, and make one table. A name that is no longer in the sources ends
the run with an error; so does a definition of `@believe` that the clauses don't rest on. --check makes nothing: its
status is 1 if the page differs. The gate compares it, too (`tests/pages/theorems.py`)."""

import argparse
import sys
import textwrap

from definitions import CRATES, TOP, clause, closure, definition
from try_edits import edits_of

PAGE, PROSE = TOP / "docs" / "THEOREMS.md", TOP / "dev" / "theorems.txt"
COMMAND = "python3 dev/make_theorems.py"
# The widest line of the page, and its longest row.
WIDEST, LONGEST_ROW = 120, 300


class Fault(Exception):
    """The prose names something that is not in the sources."""


def link(place):
    """A link to a line, by its short path."""
    return f"[{place.short()}](../{place.file}#L{place.line})"


def source_file(word):
    """`kdc_core/kdc.rt` is crates/kdc_core/src/kdc.rt, and `kdc_core/Run.antt` is crates/kdc_core/specs/Run.antt."""
    crate, _, file = word.partition("/")
    return f"crates/{crate}/{'specs' if file.endswith('.antt') else 'src'}/{file}"


def clauses_of(words):
    """The clauses that the words `FILE FUNCTION CLAUSE ..` name."""
    file, function, *names = words.split()
    try:
        return [clause(source_file(file), function, name) for name in names]
    except (LookupError, FileNotFoundError) as fault:
        raise Fault(str(fault)) from fault


def find(file, name):
    found = definition(source_file(file), name)
    if found is None:
        raise Fault(f"{file} has no definition {name}")
    return found


def packed(head, cells):
    """Rows with as many of the cells as each has room for. The first one has this head."""
    rows, line = [], ""
    for cell in cells:
        if line and len(f"| {head} | {line}; {cell} |") > LONGEST_ROW:
            rows.append(f"| {head} | {line} |")
            head, line = "", ""
        line += f"; {cell}" if line else cell
    return [*rows, f"| {head} | {line} |"]


def place_of(found):
    """The links to the first of some clauses or definitions of one file, and the lines of the others."""
    others = ", ".join(str(each.place.line) for each in found[1:])
    return link(found[0].place) + (f" and line{'s' * (len(found) > 2)} {others}" if others else "")


class Page:
    """The page as it is made. `rests_on` has the clauses of the theorem that is being made."""

    def __init__(self, prose):
        self.waiting, self.made, self.rests_on = prose.split("\n"), [], []

    def make(self):
        while self.waiting:
            line = self.waiting.pop(0)
            word, _, words = line.partition(" ")
            if line.startswith("## "):
                self.rests_on = []
            if line.startswith("@"):
                getattr(self, word[1:])(words)
            else:
                self.made.append(line)
        return "\n".join(self.made)

    def rows(self):
        """The cells of the lines up to the next blank one, or the next that begins with `@`."""
        found = []
        while self.waiting and self.waiting[0].strip() and not self.waiting[0].startswith("@"):
            found.append([cell.strip() for cell in self.waiting.pop(0).split(" | ")])
        return found

    def quote(self, words):
        """A block of all that this line and the `@quote` right after it name, below their places."""
        lines, heads = [], []
        for each in [words, *self.more_quotes()]:
            file, *names = each.split()
            if file.endswith(".antt"):
                found = [find(file, name) for name in names]
                heads.append(f"{', '.join(f'`{name}`' for name in names)} {place_of(found)}")
            else:
                found = clauses_of(each)
                self.rests_on += found
                heads.append(f"`{names[0]}` {place_of(found)}")
            lines += [line for one in found for line in one.lines]
        head = textwrap.wrap(f"{'; '.join(heads)}:", WIDEST, break_long_words=False, break_on_hyphens=False)
        self.made += [*head, "", "```text", *lines, "```"]

    def more_quotes(self):
        while self.waiting and self.waiting[0].startswith("@quote "):
            yield self.waiting.pop(0).removeprefix("@quote ")

    def rests(self, words):
        self.rests_on += clauses_of(words.removeprefix("on "))

    def believe(self, _):
        whole, cells = closure(self.rests_on), []
        for name, meaning in self.rows():
            file, name = name.split()
            found = find(file, name)
            if (found.place.file, found.name) not in whole.items():
                raise Fault(f"the clauses do not rest on {name} of {file}")
            cells.append(f"`{name}` ({file}:{found.place.line}): {meaning}")
        self.made += ["| | |", "|---|---|", *packed("to believe", cells), *packed("in all", [counted(whole)])]

    def bodies(self, _):
        self.made += packed("refused", [f"{words} (`{name}`{by_hand(name)})" for name, words in self.rows()])

    def places(self, _):
        for step, words, places in self.rows():
            cells = list(map(stands_in, filter(None, places.split("; "))))
            self.made += packed(step, [f"{words}: {cells[0]}", *cells[1:]])


def stands_in(words):
    """A function's clauses, with the place of the first."""
    found = clauses_of(words)
    _, function, *names = words.split()
    shown = "" if names == ["-"] else ": " + ", ".join(f"`{name}`" for name in names)
    return f"`{function}`{shown} ({found[0].place.short()})"


def by_hand(name):
    """Says of an edit CRATE/NAME of dev/edits that it is tried by hand; the gate tries those of must-fail/."""
    crate, _, edit = name.partition("/")
    if (CRATES / crate / "must-fail" / f"{edit}.edit").exists():
        return ""
    if edit not in edits_of(crate):
        raise Fault(f"there is no edit {name}")
    return ", by hand"


def counted(whole):
    """How much has to be believed."""
    kit = sorted(whole.kit)
    kit = ", ".join(f"`{name}`" for name in kit[:-1]) + f" and `{kit[-1]}`" if len(kit) > 1 else f"`{kit[0]}`"
    return (
        f"{len(whole.items())} definitions in {len(whole.files())} files, {whole.lines()} lines with their comments;"
        f" {len(whole.code)} types and constants of the code; words of the toolchain's {kit}"
    )


def page():
    """The text of the page."""
    return Page(PROSE.read_text()).make()


def main():
    parser = argparse.ArgumentParser(description=__doc__, formatter_class=argparse.RawDescriptionHelpFormatter)
    parser.add_argument("--check", action="store_true")
    words = parser.parse_args()
    try:
        text = page()
    except Fault as fault:
        sys.exit(f"make_theorems: {fault}")
    if words.check:
        sys.exit(PAGE.read_text() != text)
    PAGE.write_text(text)


if __name__ == "__main__":
    main()
