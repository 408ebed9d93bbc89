"""`kadm import --dump` of hostile dumps: cut at every byte, and with every byte changed. Each time the database is what
the reader of dumps says, or the command is refused with the line and writes nothing."""

import pathlib

from harness.dumps import Dumps, masters_in
from harness.tests import test

SMALL = pathlib.Path(__file__).resolve().parent / "dumps"


class Hostile(Dumps):
    """Imports of changed dumps, in a folder that has the stash file."""

    def __init__(self, programs, folder):
        super().__init__(programs, folder)
        self.enter("dumps")
        self.whole, self.stash = (SMALL / "small.dump").read_bytes(), SMALL / "small.stash"
        self.masters = masters_in(self.stash.read_bytes())
        # Without the principal that has what has no place.
        self.lines = [line for line in self.whole.splitlines(True) if b"\th/n" not in line]
        self.text = b"".join(self.lines)

    def each(self, what, texts, *flags):
        """Imports each text. A changed byte may be one of krbtgt's attributes, by which nobody could log in."""
        self.all_of(what, texts, self.masters, self.stash, "--whole-realm", *flags)


@test("kadm", trial=Hostile, seconds=60)
def cut(trial):
    """A dump as it is, cut at each byte, and without a byte or a line."""
    whole, text, lines = trial.whole, trial.text, trial.lines
    trial.each("as it is", [text])
    trial.each("with what has no place", [whole])
    trial.each("with that left out", [whole], "--skip")
    trial.each("cut at each byte", [text[:place] for place in range(len(text))])
    trial.each("each byte dropped", [whole[:place] + whole[place + 1:] for place in range(len(whole))], "--skip")
    trial.each("each line dropped", [b"".join(lines[:place] + lines[place + 1:]) for place in range(len(lines))])
    trial.each("each line twice", [b"".join(lines[:place + 1] + lines[place:]) for place in range(len(lines))])
    trial.each("each version", [
        text.replace(b"version 7", b"version " + each, 1) for each in (b"4", b"5", b"6", b"8", b"9", b"75")
    ])


def change(trial, what, changed):
    """Imports the dump with each byte changed."""
    text = trial.text
    trial.each(what, [text[:place] + bytes([changed(text[place])]) + text[place + 1:] for place in range(len(text))])


@test("kadm", trial=Hostile, seconds=60)
def bits(trial):
    """A dump with one bit of each byte changed, and with a digit for each byte."""
    change(trial, "one bit of each byte changed", lambda octet: octet ^ 1)
    change(trial, "a 9 for each byte", lambda _: 0x39)


@test("kadm", trial=Hostile, seconds=60)
def ends(trial):
    """A dump with the end of a field or of a line for each byte."""
    change(trial, "a tab for each byte", lambda _: 9)
    change(trial, "a line feed for each byte", lambda _: 10)


@test("kadm", trial=Hostile)
def stashes(trial):
    """Another master key, and a stash file that is cut at each byte."""
    octets, other = trial.stash.read_bytes(), trial.folder / "other.stash"
    other.write_bytes(octets[:-5] + bytes([octets[-5] ^ 1]) + octets[-4:])
    trial.all_of("another master key", [trial.text], masters_in(other.read_bytes()), other)
    for place in range(len(octets)):
        other.write_bytes(octets[:place])
        ran = trial.kadm("import", "--db", "cut.db", "--dump", SMALL / "small.dump", "--stash", other, "--skip")
        left = (trial.folder / "cut.db").exists()
        is_well = ran.returncode == 1 and ran.stdout == "refused BadStash\n" and not left
        fault = "" if is_well else f"{ran.returncode} {ran.stdout!r} {ran.stderr!r}"
        trial.note(f"a stash file cut at {place}", fault)
