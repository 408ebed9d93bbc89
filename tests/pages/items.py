"""Public items of the crates have a doc comment (`dev/list_undocumented.py`), and each library begins with what it is
for and an example."""

from list_undocumented import all_items

from harness.programs import TOP
from harness.tests import test

# The least lines of the comment at the head of a library.
LEAST = 10


@test()
def documented(trial):
    """Each public item of a crate that another one uses has a doc comment; so has each public field, each variant of an
    enum and each method of a trait."""
    found = all_items([])
    lacking = [f"{item.place} {item.name}" for item in found if not item.has_doc]
    trial.note(f"docs of {len(found)} public items", ", ".join(lacking))


@test()
def libraries(trial):
    """The head of each library has its length, and an example, but for crates of tests."""
    heads = {
        path.parts[-3]: [line for line in path.read_text().splitlines() if line.startswith("//!")]
        for path in sorted(TOP.glob("crates/*/src/lib.rt"))
    }
    short = [name for name, head in heads.items() if len(head) < LEAST]
    trial.note(f"heads of {len(heads)} libraries with {LEAST} lines or more", ", ".join(short))
    plain = [name for name, head in heads.items() if "//! ```" not in head and not name.endswith("_tests")]
    trial.note("heads with an example", ", ".join(plain))
