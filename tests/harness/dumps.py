"""A reader of what MIT's `kdb5_util dump` writes, which says what database `kadm import --dump` has to make of it. It
shares nothing with our own code, and decrypts keys with `kerberos.py`."""

import json
import re
import subprocess
from concurrent.futures import ThreadPoolExecutor

from harness import databases
from harness.kerberos import opened
from harness.processes import PATIENCE, processors
from harness.trial import Trial

SIZES = {17: 16, 18: 32, 19: 16, 20: 32}
ANY = 4294967295
# The attributes that have a place, or say nothing of tickets (MIT's kdb.h).
PLACED = 0x00D0D2DB


class Refused(Exception):
    """The command has to be refused with this word."""


def number(field):
    if not re.fullmatch(rb"[0-9]+", field) or int(field) > ANY:
        raise Refused("BadDump")
    return int(field)


def octets(size, field):
    if not size:
        found = b"" if field == b"-1" else None
    else:
        found = bytes.fromhex(field.decode()) if re.fullmatch(rb"([0-9a-fA-F]{2})*", field) else None
    if found is None or len(found) != size:
        raise Refused("BadDump")
    return found


SPECIAL = {b"n": b"\n", b"t": b"\t", b"b": b"\b", b"0": b"\0"}
LETTERS = {
    **{each: b"\\" + each for each in (b"/", b"@", b"\\")},
    **{octet: b"\\" + letter for letter, octet in SPECIAL.items()},
}


def quoted(octets):
    return b"".join(LETTERS.get(bytes([octet]), bytes([octet])) for octet in octets)


def named(text):
    """The components and the realm of a name."""
    if not re.fullmatch(rb"(?s)(?:[^\\]|\\.)*", text):
        raise Refused("BadDump")
    tokens = re.findall(rb"(?s)\\.|[^\\]", text)
    parts, kinds = [b""], []
    for token in tokens:
        if token in (b"/", b"@"):
            parts.append(b"")
            kinds.append(token)
        else:
            parts[-1] += SPECIAL.get(token[1:], token[1:]) if token[:1] == b"\\" else token
    if kinds[-1:] != [b"@"] or b"@" in kinds[:-1]:
        raise Refused("BadDump")
    *components, realm = parts
    if b"/".join(map(quoted, components)) + b"@" + quoted(realm) != text:
        raise Refused("BadDump")
    return components, realm


def principal(fields):
    """What the fields of a principal say, behind the word `princ`."""
    take = iter(fields)

    def field():
        try:
            return next(take)
        except StopIteration:
            raise Refused("BadDump") from None

    numbers = lambda count: [number(field()) for _ in range(count)]
    part = lambda: (number(field()), octets(number(field()), field()))
    base, size, tagged, keys, extra = numbers(5)
    text = field()
    if base != 38 or len(text) != size:
        raise Refused("BadDump")
    components, realm = named(text)
    attributes, life, renewable, expires, password_expires, *_ = numbers(8)
    tagged = [part() for _ in range(tagged)]
    found = []
    for _ in range(keys):
        parts, version = numbers(2)
        if parts not in (1, 2):
            raise Refused("BadDump")
        found.append((version, part(), part() if parts == 2 else None))
    last = field()
    if list(take) or last[-1:] != b";":
        raise Refused("BadDump")
    octets(extra, last[:-1])
    return {
        "name": components, "realm": realm, "attributes": attributes, "life": life, "renewable": renewable,
        "expires": expires, "password_expires": password_expires, "tagged": tagged, "keys": found,
    }


def principals(text):
    header, *lines = text.split(b"\n")
    if not re.fullmatch(rb"kdb5_util load_dump version [5-8]", header) or not lines or lines[-1]:
        raise Refused("BadDump")
    found = []
    for line in lines[:-1]:
        word, *fields = line.split(b"\t")
        if word == b"princ":
            found.append(principal(fields))
        elif word != b"policy":
            raise Refused("BadDump")
    return found


def data_of(each, tag):
    return next((octets for found, octets in each["tagged"] if found == tag), None)


def is_own(each):
    return each["name"] == [b"K", b"M"] or len(each["name"]) > 1 and each["name"][0] in (b"kadmin", b"kiprop")


def is_placed(key):
    version, (etype, _), _ = key
    return version > 0 and etype in SIZES


def fits(each):
    return 1 <= len(each["name"]) <= 16 and all(1 <= len(part) <= 255 for part in each["name"])


def losses(each, realm):
    """The kinds of what has no place."""
    salt, keys = each["realm"] + b"".join(each["name"]), each["keys"]
    policy = data_of(each, 3)
    found = ["realm"] * (each["realm"] != realm) + ["name"] * (not fits(each))
    found += ["keys"] * (not any(map(is_placed, keys)))
    found += ["policy"] * (policy is not None and len(policy) >= 8 and any(policy[4:8]))
    found += ["strings"] * (data_of(each, 11) is not None)
    found += ["attributes"] * bool(each["attributes"] & ~PLACED)
    seen = set()
    for version, (etype, _), given in keys:
        other = given is not None and given[0] != 0 and given[1] != salt
        found += ["key"] * (not is_placed((version, (etype, b""), given)) or (version, etype) in seen)
        found += ["salt"] * other
        seen.add((version, etype))
    return found


def decrypted(key, etype, stored):
    if len(stored) < 2:
        raise Refused("BadStash")
    try:
        text = opened(key, 0, stored[2:])[:int.from_bytes(stored[:2], "little")]
    except (ValueError, IndexError):
        raise Refused("BadStash") from None
    if len(text) != int.from_bytes(stored[:2], "little") or len(text) != SIZES[etype]:
        raise Refused("BadStash")
    return text


def row(each, masters):
    """The row of a principal as the database's text has it."""
    version = data_of(each, 8)
    numbered = len(version) == 2 if version is not None else False
    number = int.from_bytes(version, "little") if numbered else min(masters, default=0)
    if number not in masters:
        raise Refused("BadStash")
    versions = {}
    types = list(dict.fromkeys(etype for key in each["keys"] if is_placed(key) for etype in [key[1][0]]))
    for key in filter(is_placed, each["keys"]):
        version, (etype, stored), _ = key
        versions.setdefault(version, {}).setdefault(etype, decrypted(masters[number], etype, stored))
    has = lambda bit: bool(each["attributes"] & bit)
    ordered = lambda keys: [{"etype": etype, "key": keys[etype].hex()} for etype in types if etype in keys]
    newest_first = sorted(versions.items(), reverse=True)
    return databases.row(
        [{"keys": ordered(keys), "version": version} for version, keys in newest_first],
        disabled=has(0x40), expires=each["expires"] or None, forwardable=not has(0x2),
        greatest_life=each["life"] or ANY, greatest_renewable=0 if has(0x8) else each["renewable"],
        ok_as_delegate=has(0x100000), password_expires=0 if has(0x200) else each["password_expires"] or None,
        postdate=not has(0x1), preauth=has(0x80), proxiable=not has(0x10), service=not has(0x1000),
    )


def shown(component):
    is_plain = lambda octet: 0x21 <= octet <= 0x7E and chr(octet) not in "/\\@"
    return "".join(chr(octet) if is_plain(octet) else f"\\{octet:02x}" for octet in component)


def model(text, masters, skip=False):
    """The database that a dump stands for, with these master keys. `Refused` if the command has to be refused."""
    found = principals(text)
    realm = next((each["realm"] for each in found if each["name"] == [b"krbtgt", each["realm"]]), None)
    if realm is None or not 1 <= len(realm) <= 255:
        raise Refused("BadDump")
    if not skip and any(losses(each, realm) for each in found if not is_own(each)):
        raise Refused("NoPlace")
    rows = {}
    for each in found:
        if not is_own(each) and each["realm"] == realm and fits(each) and any(map(is_placed, each["keys"])):
            name = "/".join(map(shown, each["name"]))
            made = row(each, masters)
            if name in rows:
                raise Refused("BadDump")
            rows[name] = made
    if f"krbtgt/{shown(realm)}" not in rows:
        raise Refused("BadDump")
    return databases.database(shown(realm), rows)


def masters_in(stash):
    """The master keys of a stash file, which is a keytab, by their versions."""
    place, found = 2, {}
    while place < len(stash):
        size = int.from_bytes(stash[place:place + 4], "big", signed=True)
        entry, place = stash[place + 4:place + 4 + abs(size)], place + 4 + abs(size)
        if size > 0:
            count, at = int.from_bytes(entry[:2], "big"), 2
            for _ in range(count + 1):
                at += 2 + int.from_bytes(entry[at:at + 2], "big")
            at += 4 + 4
            length = int.from_bytes(entry[at + 3:at + 5], "big")
            key, more = entry[at + 5:at + 5 + length], entry[at + 5 + length:]
            found[int.from_bytes(more[:4], "big") or entry[at]] = key
    return found


class Dumps(Trial):
    """Imports of dumps in a folder."""

    def kadm(self, *words):
        """Runs `kadm`. Threads may run it side by side."""
        words = [self.programs["kadm"], *map(str, words)]
        return subprocess.run(words, capture_output=True, text=True, timeout=PATIENCE, cwd=self.folder)

    def fault(self, name, text, masters, stash, *flags):
        """What is wrong with the import of a text, whose files get this name."""
        dump, db = self.folder / f"{name}.dump", self.folder / f"{name}.db"
        dump.write_bytes(text)
        ran = self.kadm("import", "--db", db, "--dump", dump, "--stash", stash, *flags)
        said = f"status {ran.returncode}, {ran.stdout!r}, {ran.stderr[:200]!r}"
        try:
            wanted = model(text, masters, "--skip" in flags)
        except Refused as refused:
            is_well = ran.returncode == 1 and ran.stdout == f"refused {refused}\n" and not db.exists()
            is_named = str(refused) != "BadDump" or re.search(r": line \d+: |krbtgt|twice", ran.stderr)
            fault = "" if is_well and is_named else f"{said}; wanted: refused {refused}"
        else:
            is_well = ran.returncode == 0 and ran.stdout == "ok\n" and db.exists()
            fault = "" if is_well else f"{said}; wanted: a database"
            if is_well and json.loads(db.read_text()) != wanted:
                fault = "another database than the model's"
        for file in (dump, db, self.folder / f"{name}.db.lock"):
            file.unlink(missing_ok=True)
        return fault

    def all_of(self, what, texts, *more):
        """Imports each of these texts, and notes how many were well."""
        faults = []
        with ThreadPoolExecutor(processors()) as pool:
            jobs = [
                pool.submit(self.fault, f"{what}-{place}".replace(" ", "-"), text, *more)
                for place, text in enumerate(texts)
            ]
            for place, job in enumerate(jobs):
                if fault := job.result():
                    faults.append(f"{place}: {fault}")
        self.note(f"{len(texts)} dumps: {what}", "; ".join(faults[:3]))
