"""The contracts of public functions: each clause is in a promise above it (`dev/make_promises.py`), or in
`unnamed_clauses.txt` beside this file."""

import collections
import pathlib
import re

from list_undocumented import PRIVATE
from promised import Fault, promises

from harness.tests import test

UNNAMED = pathlib.Path(__file__).with_name("unnamed_clauses.txt")


def left_out():
    """The clauses that the list leaves out, by the crate and the function."""
    lines = [line for line in UNNAMED.read_text().splitlines() if line and not line.startswith("#")]
    found = [re.fullmatch(r"(\w+) ([\w:]+): (.+)", line).groups() for line in lines]
    return {(crate, function): set(clauses.split(", ")) for crate, function, clauses in found}


def unnamed():
    """The clauses of public functions that no promise names, by the crate and the function."""
    carriers, found = promises()
    named, lacking = collections.defaultdict(set), collections.defaultdict(set)
    for each in found:
        carrier = each.carrier
        named[carrier.place(), carrier.label()] |= {clause.partition(".")[0] for clause in each.clauses}
    for each in carriers:
        if each.is_public and not PRIVATE.search(each.crate):
            lacking[each.crate, each.label()] |= set(each.clauses) - named[each.place(), each.label()]
    return {key: clauses for key, clauses in lacking.items() if clauses}


def beyond(some, others):
    """What the first of two such lists names and the second doesn't."""
    more = {key: sorted(clauses - others.get(key, set())) for key, clauses in some.items()}
    return "; ".join(f"{crate} {name}: {', '.join(clauses)}" for (crate, name), clauses in more.items() if clauses)


@test(seconds=10)
def left(trial):
    """Each clause of a public function of a library is in a promise, or in the list of those left out."""
    try:
        lacking, listed = unnamed(), left_out()
    except Fault as fault:
        return trial.note("the promises of the sources", str(fault))
    trial.note("the clauses that are named nowhere", beyond(lacking, listed))
    trial.note("the clauses that the list leaves out are there, and not named", beyond(listed, lacking))
