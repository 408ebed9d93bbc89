"""Rows as JSON, beside the text of the database: `list --json` and `show --json` have all of a row but its keys."""

import calendar
import json
import time

from harness.tests import test

TIMES = ("expires", "password_expires", "revoked_before")
# What makes rows that differ in each field, and in their versions.
COMMANDS = (
    "add --name a --random --types 18", "add --name a/b --random --types 17,19", "add --name u --password-file pw",
    "random --name a --types 20,19 --existing", "random --name a --types 18,17 --existing",
    "policy --name a --set disabled=true --set expires=2030-01-01T00:00:01Z --set greatest_life=10h",
    "policy --name u --set preauth=false --set password_expires=2031-02-28 --set revoked_before=5 --set postdate=true",
    "policy --name a/b --set forwardable=false --set proxiable=false --set ok_as_delegate=true --set service=false",
    "policy --name a/b --set greatest_renewable=604800",
)


def seconds(date):
    return calendar.timegm(time.strptime(date, "%Y-%m-%dT%H:%M:%SZ"))


def shown(name, row):
    """What a row shows as JSON, from the database's text, with times as seconds."""
    versions = [
        {"version": each["version"], "types": [key["etype"] for key in each["keys"]]} for each in row["keys"]
    ]
    policy = {field: value for field, value in row.items() if field != "keys"}
    return {"name": name, **versions[0], **policy, "versions": len(versions), "key_versions": versions}


def read(line):
    """An object that was printed, with times as seconds."""
    found = json.loads(line)
    return found | {field: seconds(found[field]) for field in TIMES if found[field] is not None}


@test("kadm", seconds=2)
def as_json(trial):
    """Each object has each field of the row, and each version with its types, and no key."""
    trial.enter("as_json")
    trial.write("pw", "a password\n")
    trial.expect("kadm init --db database --realm A.B", 0, "=ok")
    for words in COMMANDS:
        trial.expect(f"kadm {words} --db database", 0, "=ok")
    rows = json.loads((trial.folder / "database").read_text())["principals"]
    wanted = {name: shown(name, rows[name]) for name in sorted(rows)}
    for words, names in (
        ("list --json", list(wanted)), ("list --long --json", list(wanted)), ("list --json --like a*", ["a", "a/b"]),
        ("show --json a", ["a"]), ("show u a/b --json", ["u", "a/b"]), ("show --like a* --json", ["a", "a/b"]),
        ("show --json --like none", []),
    ):
        ran = trial.run(f"kadm {words} --db database")
        found = [read(line) for line in ran.out.splitlines()]
        trial.same(words, (ran.status, found), (0, [wanted[name] for name in names]))
        keys = [key["key"] for row in rows.values() for each in row["keys"] for key in each["keys"]]
        trial.same(f"{words}: keys that are shown", [key for key in keys if key in ran.out], [])
