"""The pictures are those that their generator makes, small, well formed and shown by a page; and PERFORMANCE.md has the
times that the bars are drawn from."""

import re
import xml.etree.ElementTree

from make_pictures import COMMAND, PICTURES, measured, pictures

from harness.programs import TOP
from harness.tests import test

# The bytes of a picture at most.
MOST = 20_000
TIMES = "bench/measured.txt"


@test()
def made(trial):
    """Each picture is as `dev/make_pictures.py` makes it, and there is no other."""
    wanted = pictures()
    trial.note("docs/pictures", ", ".join(str(each) for each in sorted({*PICTURES.glob("*")} ^ {*wanted})))
    shown = "".join(page.read_text() for page in (*TOP.glob("*.md"), *TOP.glob("docs/*.md")))
    for file, text in wanted.items():
        differs = not file.exists() or file.read_text() != text
        trial.note(f"{file.name} is as it is made", f"{COMMAND} makes it again" * differs)
        trial.note(f"{file.name} is small", f"{len(text.encode())} bytes" * (len(text.encode()) > MOST))
        xml.etree.ElementTree.fromstring(text)
        trial.note(f"a page shows {file.name}", "none does" * (f"pictures/{file.name})" not in shown))


@test()
def times(trial):
    """The rows of PERFORMANCE.md have the times that are drawn."""
    page = (TOP / "docs/PERFORMANCE.md").read_text()
    for line in (TOP / TIMES).read_text().splitlines():
        if not line.startswith("#"):
            request, ours, _, _, mit, heimdal = (cell.strip() for cell in line.split("|"))
            row = f"| {request} | {ours} µs | {mit} µs | {heimdal} µs |"
            trial.note(f"PERFORMANCE.md: {request}", f"it has no row {row}" * (row not in page))
    trial.note("the requests that are drawn", "there is none" * (not measured(TOP / TIMES)))
