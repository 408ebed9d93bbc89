#!/usr/bin/env python3
"""Makes docs/PROMISES.md from the sources, from the edits that must be refused, and from dev/promises.txt, its prose.

    python3 dev/make_promises.py [--check]

A promise stands in a comment directly above the first of the clauses that carry it, below any other comment there. It
names the clauses if they are several, or a part of one (`answered.names`):

    // Promise (found, only): a value at the front is read exactly where it is spelled there.
    ensures found { .. }

Another function that carries this sentence has its first words, and where the whole stands; if that is in another
crate, `as Reader::read_tlv of krb_der`:

    // Promise (found, only), as Reader::read_tlv: a value at the front ..

So do the laws of an impl and of a trait, and the ghost fields of a struct. An edit that was tried, and that the page is
to show, has the lines `# Wrong body: ..` and `# Refused by: ..`; the second names functions and clauses.

The prose is Markdown, with these lines of its own:

    @rows CRATE/FILE.rt CRATE ..    the promises of these files, in this order and in each file's; a crate stands for
                                    those of its files that no such line names, and FILE:FUNCTION for one function;
                                    lines that begin with four spaces go on with it
    @bodies                         the table of wrong bodies but for those of THEOREMS

No row has more than 300 characters. It has as many promises of one crate as there is room for, also later ones if no
other sentence goes on with them (GOES_ON); a sentence with too many functions has several rows, by their files.
--check makes nothing: its status is 1 if the page differs. The gate compares it, too (`tests/pages/promises.py`)."""

import argparse
import itertools
import re
import sys
import typing

from promised import INVARIANT, ONLY, TOP, Fault, promises, with_sentences
from try_edits import every_edit

PAGE, PROSE = TOP / "docs" / "PROMISES.md", TOP / "dev" / "promises.txt"
# The prose of THEOREMS.md, which has the wrong bodies of its theorems as lines `CRATE/NAME | WHAT`.
THEOREMS = TOP / "dev" / "theorems.txt"
COMMAND = "python3 dev/make_promises.py"
LONGEST_ROW = 300
# The sentence of a row that goes on with the row above.
SAME = "the same"
# How a sentence begins that speaks of what the one before it says.
GOES_ON = re.compile(
    r"(so|such|these|that|those|this|they|besides|it|its|else|not so|the same|if it|if that|each later|a later start"
    r"|other processes|of the|of these|of a start|without it|with another|with an entry|the bytes may|the raised"
    r"|the set of names|two such|the two runs|the second request|whatever was|one ticket per|in the AS exchange"
    r"|the encoding that is|the service is|the request names the same|a state that resumes|the hub is also"
    r"|after memory ran out a"
    r"|what `run_server|the log has an entry|the sockets have recorded|the first process|each process kept)\b"
)
# A line `@rows`, with the lines that go on with it.
ROWS = re.compile(r"^@rows .*(?:\n    .*)*", re.M)
# The comment of an edit that is a row of the table of wrong bodies.
BODY = re.compile(r"^# Wrong body: (.*(?:\n#   .*)*)\n# Refused by: (.*(?:\n#   .*)*)$", re.M)


def code(words):
    return ", ".join(f"`{word}`" for word in words)


def clauses_in_words(carrier, clauses):
    """How the page names a carrier's clauses; a contract's only clause not at all."""
    if carrier.kind == "fn":
        return "" if clauses == (ONLY,) else f": {code(clauses)}"
    if clauses == (INVARIANT,):
        return ": its invariant"
    what = "invariant" if carrier.kind == "struct" else "law"
    return f": the {what}{'s' * (len(clauses) > 1)} {code(clauses)}"


def carried_by(carried):
    """The functions and clauses in words. Of those that have the same clauses, functions without a type come first,
    and a type is named once."""
    groups, cells = {}, []
    for carrier, clauses in carried:
        _, group = groups.setdefault((carrier.kind, *sorted(clauses)), (clauses_in_words(carrier, clauses), []))
        group.append(carrier)
    for words, group in groups.values():
        named = dict.fromkeys((each.owners[:1] if each.name else (), each.label()) for each in group)
        types, labels, before = [(), *dict.fromkeys(owner for owner, _ in named if owner)], [], ()
        for owner, label in sorted(named, key=lambda pair: types.index(pair[0])):
            labels.append(label.removeprefix(f"{owner[0]}::") if owner and owner == before else label)
            before = owner
        cells.append(f"{code(labels)}{words}")
    return "; ".join(cells)


def files_of(carried):
    """The cell of files. A crate is named once for those that follow one another."""
    names, before = [], None
    for place in dict.fromkeys(carrier.place() for carrier, _ in carried):
        crate, _, file = place.partition("/")
        names.append(file if crate == before else place)
        before = crate
    return code(names)


class Row(typing.NamedTuple):
    """Some promises of one crate, as texts, and all that carry them."""

    texts: tuple
    carried: tuple

    def line(self, before=None):
        """The line of the page, below that of another row: its cell of files is empty if that row's is the same."""
        files = files_of(self.carried)
        return f"| {'<br>'.join(self.texts)} | {files if before is None or files_of(before.carried) != files else ''} |"

    def joined(self, other):
        return Row(self.texts + other.texts, self.carried + other.carried)

    def crate(self):
        return self.carried[0][0].crate

    def goes_on(self):
        """Whether it speaks of what the row before it says."""
        return GOES_ON.match(self.texts[0]) is not None


def row(text, carried):
    return Row((f"{text} ({carried_by(carried)})",), tuple(carried))


def checked(line):
    if len(line) > LONGEST_ROW:
        raise Fault(f"a row has {len(line)} characters, and {LONGEST_ROW} are the most: {line}")
    return line


def rows_of(text, carried):
    """The rows of a sentence: one, or some, each with as many of the files as it has room for."""
    if len((whole := row(text, carried)).line()) <= LONGEST_ROW:
        return [whole]
    made, waiting = [], []
    for _, group in itertools.groupby(sorted_by_file(carried), key=lambda each: each[0].place()):
        more = list(group)
        if waiting and len(row(text, waiting + more).line()) > LONGEST_ROW:
            made.append(row(text, waiting))
            text, waiting = SAME, []
        waiting += more
    return [*made, row(text, waiting)]


def has_room(made, at, more):
    """Whether the row at this place has room for another one of its crate, with the row below it as it is."""
    if made[at].crate() != more.crate():
        return False
    both, above = made[at].joined(more), made[at - 1] if at else None
    lines = [both.line(above), *(row.line(both) for row in made[at + 1:at + 2])]
    return all(len(line) <= LONGEST_ROW for line in lines)


def packed(rows):
    """The lines of these rows: each goes into the first row of its crate that has room for it. One that goes on with
    the row before it, or with which the next one goes on, stays where it is."""
    made = []
    for each, after in itertools.zip_longest(rows, rows[1:]):
        moves = not each.goes_on() and not (after and after.goes_on())
        places = range(0 if moves else max(0, len(made) - 1), len(made))
        if (at := next((at for at in places if has_room(made, at, each)), None)) is None:
            made.append(each)
        else:
            made[at] = made[at].joined(each)
    return [checked(each.line(above)) for above, each in zip([None, *made], made)]


def sorted_by_file(carried):
    """The same, each file's together, in the order in which the files come."""
    places = list(dict.fromkeys(carrier.place() for carrier, _ in carried))
    return sorted(carried, key=lambda each: places.index(each[0].place()))


class Page:
    """The page as it is made."""

    def __init__(self, prose, found):
        self.prose = re.sub(ROWS, lambda words: " ".join(words[0].split()), prose).split("\n")
        self.sentences = with_sentences(found)
        listed = [word for line in self.prose if line.startswith("@rows ") for word in line.split()[1:]]
        self.ranks = {word: rank for rank, word in enumerate(listed)}

    def key_of(self, carrier):
        """The word of a line `@rows` that stands for a carrier."""
        words = f"{carrier.place()}:{carrier.label()}", carrier.place()
        return next((word for word in words if word in self.ranks), carrier.crate)

    def order_of(self, promise):
        """The place of a promise: by the prose, and then by its file."""
        rank = self.ranks.get(self.key_of(promise.carrier), len(self.ranks))
        return rank, promise.carrier.place(), promise.line

    def make(self):
        lacking = {own.carrier.place() for own, *_ in self.sentences if self.key_of(own.carrier) not in self.ranks}
        if lacking:
            raise Fault(f"no line `@rows` of {PROSE.name} names {', '.join(sorted(lacking))}")
        made = []
        for line in self.prose:
            word, _, words = line.partition(" ")
            made += self.rows(words.split()) if word == "@rows" else bodies() if word == "@bodies" else [line]
        return "\n".join(made)

    def rows(self, words):
        """The table of the promises of these files and crates."""
        made = []
        here = [each for each in self.sentences if self.key_of(each[0].carrier) in words]
        for own, *others in sorted(here, key=lambda each: self.order_of(each[0])):
            carrying = [own, *sorted(others, key=self.order_of)]
            made += rows_of(own.text, [(each.carrier, each.clauses) for each in carrying])
        return ["| promises, each with what carries it | in |", "|---|---|", *packed(made)]


def bodies():
    """The table of the wrong bodies that were tried, but for those of THEOREMS.md: some of a crate in a row."""
    made, elsewhere = [], set(re.findall(r"^(\w+/\w+) \|", THEOREMS.read_text(), re.M))
    for crate, name, _, edit in sorted(every_edit(), key=lambda each: each[0]):
        if (found := BODY.search(edit)) and f"{crate}/{name}" not in elsewhere:
            what, refused = (each.replace("\n#  ", "").removesuffix(".") for each in found.groups())
            cell = f"{what} (`{name}`; {refused.replace(f': {ONLY}', '')})"
            if made and made[-1].startswith(f"| `{crate}` |") and len(made[-1]) + len(cell) + 4 <= LONGEST_ROW:
                cell = f"{made.pop().removeprefix(f'| `{crate}` | ').removesuffix(' |')}<br>{cell}"
            made.append(checked(f"| `{crate}` | {cell} |"))
    return ["| crate | wrong bodies, each with its edit and what refuses it |", "|---|---|", *made]


def page():
    """The text of the page."""
    return Page(PROSE.read_text(), promises()[1]).make()


def main():
    parser = argparse.ArgumentParser(description=__doc__, formatter_class=argparse.RawDescriptionHelpFormatter)
    parser.add_argument("--check", action="store_true")
    words = parser.parse_args()
    try:
        text = page()
    except Fault as fault:
        sys.exit(f"make_promises: {fault}")
    if words.check:
        sys.exit(PAGE.read_text() != text)
    PAGE.write_text(text)


if __name__ == "__main__":
    main()
