"""The functions of the sources with their clauses, the laws of impls and the invariants of types, and the promises that
stand in comments above them: what docs/PROMISES.md is made of (`dev/make_promises.py`)."""

import collections
import pathlib
import re
import typing

TOP = pathlib.Path(__file__).resolve().parent.parent
CRATES = TOP / "crates"

FUNCTION = re.compile(r'^(\s*)(pub )?(?:pub\([a-z ]+\) )?(?:const |unsafe |final |extern "C" )*fn (\w+)')
CLAUSE = re.compile(r"^\s+ensures(?: (\w+))? \{")
LAW = re.compile(r"^    ghost (?!use\b)(\w+)\b")
BLOCK = re.compile(r"^(?:pub(?:\([a-z ]+\))? )?(impl|trait|struct)\b(.*)$")
# A list of type parameters or arguments without another one inside.
PARAMETERS = re.compile(r"<[^<>]*>")
# The name of a contract's only clause, which has none, and the law of a type that is its invariant.
ONLY, INVARIANT = "the clause", "invariant"
# A promise: its clauses, the function that has its sentence, that one's crate, and the sentence.
BEGINNING = "// Promise"
PROMISE = re.compile(BEGINNING + r"(?: \(([^()]*)\))?(?:, as ([\w:]+)(?: of (\w+))?)?: (.*)")
# What ends the first words of a sentence that another function has.
GOES_ON = " .."


class Fault(Exception):
    """A promise in the sources, or the prose of the page, is not as it has to be."""


class Carrier(typing.NamedTuple):
    """What carries promises: a function with its clauses; an impl, a trait or a struct with its laws."""

    crate: str
    # The path below src/.
    file: str
    # The type or the trait that a method belongs to; a method of an impl of a trait has both, the type first.
    owners: tuple
    # The function's name; None of laws.
    name: str | None
    # `fn`, `impl`, `trait` or `struct`.
    kind: str
    # Whether other crates can call the function.
    is_public: bool
    # Each clause about the result, or each law, with its line, counted from 0. A clause without a name is ONLY.
    clauses: dict

    def label(self):
        """How PROMISES.md names it."""
        return "::".join(filter(None, [*self.owners[:1], self.name]))

    def place(self):
        """How PROMISES.md names its file."""
        return f"{self.crate}/{self.file}"

    def has(self, clause):
        """Whether it has a clause. `c.part` names a part of what the clause c says."""
        return clause.partition(".")[0] in self.clauses


class Promise(typing.NamedTuple):
    """What a carrier promises by some clauses: a sentence of its own, or the first words of another one's."""

    carrier: Carrier
    clauses: tuple
    text: str
    # The label of the function that has the sentence, and its crate; None for a sentence of its own.
    source: tuple | None
    # The line of its comment, counted from 0.
    line: int


def owners(block):
    """The type of an impl and its trait, or the trait or the struct that is defined."""
    while (text := PARAMETERS.sub("", block)) != block:
        block = text
    trait, is_for, kind = block.strip().partition(" for ")
    names = [kind, trait] if is_for else [trait]
    return tuple(re.match(r"&?(?:'\w+ )?(?:mut )?((?:\w+::)*\w*)", name)[1].rpartition("::")[2] for name in names)


def clauses_at(lines, at, indent):
    """The clauses of the function at this line. Its body begins at its own indentation; without one, it ends with a
    semicolon."""
    found, depth = {}, 0
    for place in range(at, len(lines)):
        line = lines[place]
        if line.lstrip().startswith("//"):
            continue
        depth += line.count("{") - line.count("}")
        if place > at and (clause := CLAUSE.match(line)):
            found.setdefault(clause[1] or ONLY, place)
        if line.endswith(";") and depth == 0 or re.fullmatch(rf"{indent}\S.*[{{}}]|{indent}[{{}}]+", line):
            break
    return found


def carriers_in(crate, file, shown):
    """The carriers of a file. `shown` has the names that its crate shows to others, or `*` for all of this file."""
    lines, found, block, laws = file.read_text().splitlines(), [], None, {}
    place = str(file.relative_to(CRATES / crate / "src"))
    for at, line in enumerate(lines):
        if head := BLOCK.match(line):
            end = next((place for place in range(at, len(lines)) if lines[place].endswith(("{", "{}", ";"))), at)
            text = " ".join([head[2], *lines[at + 1:end + 1]])
            block, laws = (head[1], owners(text.replace("->", "").rstrip("{}; "))), {}
            block = block if lines[end].endswith("{") else None
        elif line == "}":
            if laws:
                found.append(Carrier(crate, place, block[1], None, block[0], False, laws))
            block, laws = None, {}
        if block and (law := LAW.match(line)):
            laws[law[1]] = at
        if function := FUNCTION.match(line):
            kind, owned = block or (None, ())
            is_said = bool(function[2]) or kind == "trait" or len(owned) == 2
            is_public = is_said and (set(owned or (function[3],)) <= shown or "*" in shown)
            found.append(Carrier(crate, place, owned, function[3], "fn", is_public, clauses_at(
                lines, at, function[1]
            )))
    return found


def shown_by(crate):
    """The names that a crate shows to others, and its public modules."""
    library = CRATES / crate / "src" / "lib.rt"
    if not library.exists():
        return set(), set()
    text = library.read_text()
    used = " ".join(re.findall(r"^pub use ([^;]*);", text, re.M))
    return set(re.findall(r"\w+", used)), set(re.findall(r"^pub mod (\w+);", text, re.M))


def source_files():
    """Each file of the code, with its crate and the names that this shows to others."""
    for crate in sorted(each.name for each in CRATES.iterdir() if (each / "src").is_dir()):
        names, modules = shown_by(crate)
        for file in sorted((CRATES / crate / "src").rglob("*.rt")):
            is_open = file.stem in modules or file.name == "lib.rt"
            yield crate, file, names | {"*"} if is_open else names


def carriers():
    """The carriers of all libraries and programs."""
    return [each for crate, file, shown in source_files() for each in carriers_in(crate, file, shown)]


def comment_above(lines, at):
    """The first line of the comment directly above this line."""
    first = at
    while first and lines[first - 1].lstrip().startswith("// "):
        first -= 1
    return first


def sentence(text):
    """The sentence of a comment, without the full stop at its end."""
    return text if text.endswith(GOES_ON) else text.removesuffix(".")


def comments_of_promises(lines, at):
    """The promises in the comment above this line: the first line of each, and its words."""
    found = []
    for number in range(comment_above(lines, at), at):
        words = lines[number].strip()
        if words.startswith(BEGINNING):
            found.append((number, words))
        elif found:
            found[-1] = found[-1][0], f"{found[-1][1]} {words.removeprefix('// ')}"
    return found


def promises_above(carrier, clause, lines):
    """The promises in the comment above a clause or a law."""
    found = []
    for number, words in comments_of_promises(lines, carrier.clauses[clause]):
        where, head = f"{carrier.place()}:{number + 1}", PROMISE.fullmatch(words)
        if not head:
            raise Fault(f"{where} is no promise as dev/make_promises.py reads it")
        names = tuple(head[1].split(", ")) if head[1] else (clause,)
        if unknown := [name for name in names if not carrier.has(name)]:
            raise Fault(f"{where}: {carrier.label()} has no clause {unknown[0]}")
        if clause not in {name.partition(".")[0] for name in names}:
            raise Fault(f"{where}: the clause {clause} of {carrier.label()} stands below it, and is not named")
        source = (head[2], head[3] or carrier.crate) if head[2] else None
        found.append(Promise(carrier, names, sentence(head[4]), source, number))
    return found


def promises():
    """All carriers, and all promises of the sources, in the order of files and lines."""
    all_carriers, found = [], []
    for crate, file, shown in source_files():
        here, lines = carriers_in(crate, file, shown), file.read_text().splitlines()
        in_file = [each for carrier in here for clause in carrier.clauses for each in promises_above(
            carrier, clause, lines
        )]
        read = sum(1 for line in lines if line.lstrip().startswith(BEGINNING))
        if read != len(in_file):
            raise Fault(f"{crate}/{file.name}: {read - len(in_file)} promises stand above no clause and no law")
        all_carriers += here
        found += sorted(in_file, key=lambda each: each.line)
    return all_carriers, found


def with_sentences(found):
    """The sentences, each with the promises that have it, its own first."""
    by_source, sentences = collections.defaultdict(list), {}
    for each in found:
        if each.source is None:
            by_source[each.carrier.label(), each.carrier.crate].append(each)
            sentences[each.carrier.place(), each.line] = [each]
    for each in found:
        if each.source:
            words = each.text.removesuffix(GOES_ON)
            meant = [one for one in by_source[each.source] if one.text.startswith(words)]
            if len(meant) != 1 or words == each.text:
                raise Fault(f"{each.carrier.place()}:{each.line + 1}: {len(meant)} promises of {each.source[0]} in"
                            f" {each.source[1]} begin with '{words}{GOES_ON}'")
            sentences[meant[0].carrier.place(), meant[0].line].append(each)
    return list(sentences.values())
