"""The page of theorems is the one that its generator makes of the sources and its prose."""

import difflib

from make_theorems import COMMAND, PAGE, Fault, page

from harness.tests import test


@test(seconds=10)
def made(trial):
    """docs/THEOREMS.md is as `dev/make_theorems.py` makes it; a change of a source may move its lines."""
    try:
        wanted = page()
    except Fault as fault:
        return trial.note("dev/theorems.txt", str(fault))
    lines = difflib.unified_diff(PAGE.read_text().split("\n"), wanted.split("\n"), "as it is", "as it is made", n=0)
    differing = [line for line in lines if line[:1] in "+-"][2:]
    fault = f"{COMMAND} makes it again; {len(differing)} lines differ: {' '.join(differing[:4])}" if differing else ""
    trial.note("docs/THEOREMS.md", fault)
