"""The definitions in `specs/` and the clauses in `src/`: where each one stands, and which definitions it names.

A *definition* is an item of a file of `specs/` that is an `abbrev`, an `unfoldable`, a `record` or a `data`. Any other
item is a law: it is proved, so nobody has to believe it, and what it names is not followed. Names are taken from the
text: a name counts unless its own equation binds it as a variable."""

import collections
import dataclasses
import functools
import itertools
import re

from promised import BEGINNING, CRATES, TOP, comment_above

# The first line of an item of specs/, at the edge or in a `module _ ..` block.
ITEM = re.compile(
    r"^(?:  )?(?:(?P<kind>abbrev|unfoldable) )?(?:pub )?(?:(?P<form>record|data) )?(?P<name>◌\S+◌|[^\s:=(){}]+)"
    r"(?P<rest>.*)$"
)
# Words at the beginning of a line that begin no item.
NO_ITEM = {"use", "module", "unfolding", "where", "infixl", "infixr", "--", "mod"}
# A name, with what it is taken from: `as_exchange.issued`, `p.ticket`.
NAME = re.compile(r"[^\W\d][\w'-]*(?:\.[^\W\d][\w'-]*)*")
IMPORT = re.compile(r"^[ ]*(?:pub |ghost )?use Rattle\.([\w.]+?)(?:\.\{([^}]*)\}| as (\w+)|);?$", re.M)


@dataclasses.dataclass(frozen=True)
class Place:
    """A file, as a path from the top of the repository, and a line of it."""

    file: str
    line: int

    def short(self):
        """The path without `crates/`, and without `src/`, with the line."""
        return f"{self.file.removeprefix('crates/').replace('/src/', '/')}:{self.line}"


@dataclasses.dataclass(frozen=True)
class Definition:
    """An item of specs/: its name, its place, its lines with the comment above it, and whether it is a law."""

    name: str
    place: Place
    lines: tuple
    is_law: bool

    def count(self):
        """How many lines it has, with its comments, and without blank ones."""
        return sum(1 for line in self.lines if line.strip())


@dataclasses.dataclass(frozen=True)
class Clause:
    """A clause of a function: its lines as they stand, with the comment before it, and the place of its first line."""

    function: str
    name: str
    place: Place
    lines: tuple


@dataclasses.dataclass
class Scope:
    """What the names of a file are imported from: a module's path with the name there, and the paths of modules."""

    names: dict
    modules: dict


def imports(text):
    """The names and the modules that a file imports, each with what it stands for."""
    scope = Scope({}, {})
    joined = re.sub(r"\{\n([^}]*)\}", lambda block: "{" + " ".join(block[1].split()) + "}", text)
    for path, names, alias in IMPORT.findall(joined):
        if alias:
            scope.modules[alias] = path
        for each in filter(None, (name.strip() for name in names.split(","))):
            name, _, other = each.partition(" as ")
            scope.names[other or name] = (path, name)
    return scope


def target(path, name):
    """What a name of a module stands for."""
    crate, kind, *inside = path.split(".")
    if not (CRATES / crate).is_dir():
        return ("kit", crate)
    if kind != "specs":
        return None
    if inside[0] in ("declared", "contracts"):
        return code_target(crate, inside[1:], name)
    file = f"crates/{crate}/specs/{inside[0]}.antt"
    return ("definition", file, inside[1] if len(inside) > 1 else name)


def code_target(crate, inside, name):
    """A type or a constant of the code, by its module and its name. A variant stands for its type."""
    if inside[-1] == "TheVariants":
        return ("code", crate, inside[-3] if len(inside) > 2 else "lib", inside[-2])
    if inside[-1] == "TheConstants":
        return ("code", crate, inside[-2] if len(inside) > 1 else "lib", name)
    return ("code", crate, inside[-2] if len(inside) > 1 else "lib", inside[-1])


def binders(text):
    """The variables that the head of an equation, its lambdas and its signature bind."""
    head = re.split(r" = |\bType\b", text, maxsplit=1)[0] if " = " in text else ""
    found = {word for word in NAME.findall(head)[1:] if word[:1].islower()}
    for group in re.findall(r"[({]([\w' -]+) :", text):
        found |= set(group.split())
    for group in re.findall(r"λ ((?:[\w']+ )*[\w']+)\.|λ \(([^)]*)\)", text):
        found |= set(NAME.findall(" ".join(group)))
    return found


def equations(item):
    """The parts of an item with variables of their own: its signature, and each of its equations."""
    first, *others = (line for line in item.lines if not is_comment(line))
    indent = " " * (len(first) - len(first.lstrip()))
    parts, head = [[first]], f"{indent}{item.name} "
    for line in others:
        if line.startswith(head) or line.startswith(f"{indent}  pub "):
            parts.append([])
        parts[-1].append(line)
    return ["\n".join(part) for part in parts]


def mentioned(text):
    """The names that a text has and does not bind, but for the fields that it sets."""
    bound = binders(text)
    plain = re.sub(r"(?<=[{;\n])\s*[\w']+ = ", " ", text)
    plain = re.sub(r"^(\s*)pub ([\w']+) :", r"\1", plain)
    return [name for name in NAME.findall(plain) if name.split(".")[0] not in bound]


@functools.cache
def parse(file):
    """The definitions and laws of a file of specs/, by their names, and its scope."""
    text = (TOP / file).read_text()
    lines, begun, in_module = text.split("\n"), [], False
    for number, line in enumerate(lines):
        in_module = line.startswith("module ") if line[:1] not in ("", " ", "-") else in_module
        found = begins(line) if in_module or not line.startswith(" ") else None
        if found or line.startswith(("module ", "use ", "-- ----")):
            begun.append((found, number))
    ends = [number for _, number in begun[1:]] + [len(lines)]
    items = [made(file, lines, found, number, end) for (found, number), end in zip(begun, ends) if found]
    return {item.name: item for item in items}, imports(text)


def begins(line):
    """The parts of a line that begins an item, or None."""
    found = ITEM.match(line)
    if not found or line[:3] == "   " or found["name"] in NO_ITEM or found["name"].startswith("}"):
        return None
    if found["form"] or found["kind"] or found["rest"].lstrip().startswith(":"):
        return found
    return None


def is_comment(line):
    return line.lstrip().startswith("--")


def made(file, lines, found, number, end):
    """The item that a line begins, with the comment above it. Its place is that of the line."""
    first, last = number, end
    while first and is_comment(lines[first - 1]):
        first -= 1
    while last > number + 1 and (not lines[last - 1].strip() or is_comment(lines[last - 1])):
        last -= 1
    is_law = not (found["kind"] or found["form"])
    return Definition(found["name"], Place(file, number + 1), tuple(lines[first:last]), is_law)


def definition(file, name):
    """A definition, or None if the file has no such item."""
    return parse(file)[0].get(name)


def resolve(name, scope, file=None):
    """What a name stands for in a file, or None for a variable, a field or a word of the language."""
    first, _, rest = name.partition(".")
    if file and first in parse(file)[0]:
        return ("definition", file, first)
    if first in scope.names:
        return target(*scope.names[first])
    if first in scope.modules and rest:
        return target(scope.modules[first], rest.split(".")[0])
    return None


@functools.cache
def named_by(file, name):
    """What a definition names."""
    items, scope = parse(file)
    texts = equations(items[name])
    found = {resolve(each, scope, file) for text in texts for each in mentioned(text)}
    operators = [each for each in (*items, *scope.names) if each.startswith("◌") and each.endswith("◌")]
    used = [each for each in operators if any(f" {each.strip('◌')} " in text for text in texts)]
    found |= {resolve(each, scope, file) for each in used}
    return frozenset(found - {None, ("definition", file, name)})


@dataclasses.dataclass
class Closure:
    """All that has to be believed of some clauses: definitions, types and constants of the code, and the crates of the
    toolchain whose words they use. The laws are those that definitions hold together with, and that are proved."""

    definitions: dict = dataclasses.field(default_factory=dict)
    laws: set = dataclasses.field(default_factory=set)
    code: set = dataclasses.field(default_factory=set)
    kit: set = dataclasses.field(default_factory=set)

    def add(self, targets):
        waiting = collections.deque(targets)
        while waiting:
            each = waiting.popleft()
            if each is None:
                continue
            if each[0] == "kit":
                self.kit.add(each[1])
            elif each[0] == "code":
                self.code.add(each[1:])
            elif each[1:] not in self.definitions and (TOP / each[1]).exists():
                waiting.extend(self.take(*each[1:]))

    def take(self, file, name):
        """Takes a definition, and returns what it names."""
        found = definition(file, name) or holder(file, name)
        if found is None:
            passed_on = parse(file)[1].names.get(name)
            return (target(*passed_on),) if passed_on else ()
        if found.is_law:
            self.laws.add((file, found.name))
            return ()
        self.definitions[file, name] = found
        if found.name != name:
            return (("definition", file, found.name),)
        return named_by(file, name)

    def files(self):
        return {file for file, _ in self.definitions}

    def items(self):
        return {(each.place.file, each.name): each for each in self.definitions.values()}

    def lines(self):
        return sum(each.count() for each in self.items().values())


def holder(file, name):
    """The type of data of a file that has a constructor of this name."""
    for item in parse(file)[0].values():
        if any(re.match(rf"\s+(?:pub )?{re.escape(name)} :", line) for line in item.lines):
            return item
    return None


# ---- clauses


@functools.cache
def source(file):
    """The lines of a file of the code, and its scope."""
    text = (TOP / file).read_text()
    return text.split("\n"), imports(text)


def functions(file, name):
    """The lines that begin the functions of this name: `Kdc::handle`, or `any_run`."""
    lines, _ = source(file)
    owner, _, function = name.rpartition("::")
    found, header = [], ""
    for number, line in enumerate(lines):
        if re.match(r"impl\b|pub trait\b", line):
            header = line
            for more in lines[number + 1:]:
                if header.rstrip().endswith("{"):
                    break
                header += " " + more.strip()
        elif re.match(rf"\s*(?:pub(?:\(\w+\))? )?(?:const )?(?:unsafe )?(?:extern \"C\" )?fn {function}\b", line):
            is_method = line.startswith(" ")
            if is_method == bool(owner) and (not owner or re.search(rf"\b{owner}\b(?!:)", header)):
                found.append(number)
    return found


def clause(file, function, name):
    """The clause of this name of a function; the name of the only clause, which has none, is `-`."""
    lines, _ = source(file)
    found = []
    for start in functions(file, function):
        for number in range(start + 1, len(lines)):
            line = lines[number]
            if re.match(r"\s*\{\s*\}?$", line):
                break
            word = re.match(r"\s*(?:ensures|requires)(?: (\w+))? \{", line)
            if word and (word[1] or "-") == name:
                found.append(cut(file, function, name, number))
    if len(found) != 1:
        raise LookupError(f"{file}: {function} has {len(found)} clauses {name}")
    return found[0]


def cut(file, function, name, number):
    """The clause that begins with this line, up to its closing brace, with its comment but for the promises in it."""
    lines, _ = source(file)
    first = comment_above(lines, number)
    comment = list(itertools.takewhile(lambda line: not line.lstrip().startswith(BEGINNING), lines[first:number]))
    last, depth = number, 0
    while True:
        depth += lines[last].count("{") - lines[last].count("}")
        if depth == 0:
            break
        last += 1
    margin = len(lines[number]) - len(lines[number].lstrip())
    shown = (*comment, *lines[number:last + 1])
    return Clause(function, name, Place(file, number + 1), tuple(line[margin:] for line in shown))


def closure(clauses):
    """What has to be believed of these clauses."""
    found = Closure()
    for each in clauses:
        _, scope = source(each.place.file)
        text = "\n".join(line for line in each.lines if not line.startswith("//"))
        bound = binders(re.sub(r"^\s*(?:ensures|requires)(?: \w+)? ", "", text))
        names = [name for name in NAME.findall(text) if name.split(".")[0] not in bound]
        found.add(resolve(name, scope) for name in names)
    return found
