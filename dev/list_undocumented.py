#!/usr/bin/env python3
"""Lists the public items of the crates without a doc comment: functions, methods, types, traits, constants, modules and
fields that are `pub`, the methods of public traits, and the variants of public enums.

    python3 dev/list_undocumented.py [CRATE ..]

It needs only Python 3. It prints PATH:LINE, the kind and the name of each, and at the end how many there are of how
many. The status is 1 if there is one; the gate tries that, too. Crates that no other one uses, programs and tests, are
left out unless they are named."""

import argparse
import pathlib
import re
import sys
import typing

TOP = pathlib.Path(__file__).resolve().parent.parent
ITEM = re.compile(
    r"^\s*pub (?:const |unsafe |ghost |extern \"C\" )*(fn|struct|enum|trait|const|static|type|mod|union) (\w+)"
)
FIELD = re.compile(r"^\s+pub (\w+): ")
VARIANT = re.compile(r"^    ([A-Z]\w*)(?: \{|\(|,|$)")
METHOD = re.compile(r"^    fn (\w+)")
# What is public in a public enum and trait.
INNER = {"enum": VARIANT, "trait": METHOD}
# A crate that no other one uses: a program, or tests.
PRIVATE = re.compile(r"_tests$|^(kdcd|kadm|kclient|example_service|example_login)$")


class Item(typing.NamedTuple):
    place: str
    kind: str
    name: str
    has_doc: bool


def has_doc(lines, at):
    """Whether a doc comment is above this line, or above the attributes and other comments there."""
    at -= 1
    while at >= 0 and not lines[at].strip().startswith("///"):
        begin = at
        if not lines[at].strip().startswith("//"):
            if not lines[at].strip().endswith("]"):
                return False
            # An attribute is on one line or several.
            above = range(at, max(-1, at - 9), -1)
            begin = next((each for each in above if lines[each].strip().startswith("#[")), None)
            if begin is None or "" in map(str.strip, lines[begin:at]):
                return False
        at = begin - 1
    return at >= 0


def items_in(file):
    """The public items of a file. A module may have its doc at the head of its own file."""
    lines, found, kind = file.read_text().splitlines(), [], None
    for at, line in enumerate(lines):
        place = f"{file.relative_to(TOP)}:{at + 1}"
        item = ITEM.match(line)
        if item:
            inner = [file.parent / f"{item[2]}.rt", file.with_suffix("") / f"{item[2]}.rt"] if item[1] == "mod" else []
            is_in_file = any(each.exists() and each.read_text().startswith("//!") for each in inner)
            found.append(Item(place, item[1], item[2], is_in_file or has_doc(lines, at)))
        if (field := FIELD.match(line)) and not item:
            found.append(Item(place, "field", field[1], has_doc(lines, at)))
        kind = item[1] if item and item[1] in INNER else kind if line != "}" else None
        if kind and not item and (inner := INNER[kind].match(line)):
            found.append(Item(place, f"part of a {kind}", inner[1], has_doc(lines, at)))
    return found


def all_items(crates):
    """The public items of these crates, or of all that others use."""
    crates = crates or sorted(each.name for each in (TOP / "crates").iterdir() if not PRIVATE.search(each.name))
    files = [file for crate in crates for file in sorted((TOP / "crates" / crate / "src").rglob("*.rt"))]
    return [item for file in files for item in items_in(file)]


def main():
    words = argparse.ArgumentParser(description=__doc__, formatter_class=argparse.RawDescriptionHelpFormatter)
    words.add_argument("crate", nargs="*")
    crates = words.parse_args().crate
    if unknown := [crate for crate in crates if not (TOP / "crates" / crate).is_dir()]:
        words.error(f"no such crate: {', '.join(unknown)}")
    found = all_items(crates)
    lacking = [item for item in found if not item.has_doc]
    for item in lacking:
        print(f"{item.place} {item.kind} {item.name}")
    print(f"{len(lacking)} of {len(found)} public items have no doc")
    sys.exit(bool(lacking))


if __name__ == "__main__":
    main()
