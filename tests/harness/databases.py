"""The text of a realm's database (docs/FORMATS.md, 'The text of a database'). FIELDS is the one place where tests have
the fields of a policy and what is expected of a new principal. All of it is written by hand."""

import json
import typing

# The newest version.
VERSION = 3


class Field(typing.NamedTuple):
    """A field of a policy."""

    name: str
    # The version that brought it.
    since: int
    # Its value for a new principal with random keys: in the text, and as `kadm show` prints it.
    text: str
    shown: str


# In the order of their names.
FIELDS = (
    Field("disabled", 1, "false", "false"),
    Field("expires", 1, "null", "never"),
    Field("forwardable", 1, "true", "true"),
    Field("greatest_life", 1, "4294967295", "4294967295"),
    Field("greatest_renewable", 1, "4294967295", "4294967295"),
    Field("ok_as_delegate", 1, "false", "false"),
    Field("password_expires", 1, "null", "never"),
    Field("postdate", 1, "false", "false"),
    Field("preauth", 1, "true", "true"),
    Field("proxiable", 1, "true", "true"),
    Field("revoked_before", 2, "null", "never"),
    Field("service", 3, "true", "true"),
)
# The policy of a new principal with random keys. A flag is a bool, a lifetime a number, a time None.
POLICY = {field.name: json.loads(field.text) for field in FIELDS}


def row(versions, **others):
    """The row of a principal with these versions of its keys: the policy of a new one but for these fields."""
    return dict(sorted({**POLICY, "keys": versions, **others}.items()))


def database(realm, rows, version=VERSION):
    """The database of a realm with these rows by their names, without the fields that a later version brought."""
    later = {field.name for field in FIELDS if field.since > version}
    known = lambda members: {name: value for name, value in members.items() if name not in later}
    return {"principals": {name: known(row) for name, row in dict(rows).items()}, "realm": realm, "version": version}


def database_text(realm, rows):
    return json.dumps(database(realm, rows))


def one_row_text(version=VERSION):
    """The text that `kadm` writes of a database whose one principal, krbtgt/A.B, has a policy as a new one; and such a
    text in an older version."""
    keys = [{"keys": [{"etype": 17, "key": "000102030405060708090a0b0c0d0e0f"}], "version": 1}]
    return json.dumps(database("A.B", {"krbtgt/A.B": row(keys)}, version), separators=(",", ":"))


def policy_lines(changed):
    """What `kadm show` prints of a policy: that of a new principal, but for these lines, each in place of the one of
    its field."""
    lines = {field.name: f"{field.name} {field.shown}" for field in FIELDS}
    for line in changed:
        name = line.split(" ")[0]
        if name not in lines:
            raise ValueError(f"{line}: no field of a policy has this name")
        lines[name] = line
    return list(lines.values())
