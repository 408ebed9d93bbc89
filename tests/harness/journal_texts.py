"""The text of a journal in plain Python, and what a start has to make of it. It is written from docs/FORMATS.md, 'A
journal', and docs/RUNNING.md, 'Restarts', and uses none of the code of the crates."""

import calendar
import contextlib
import functools
import hashlib
import time
import typing

from harness.kerberos import elements, field, integer, octet_string, sequence, time_of, tlv

# The seconds by which a clock may differ, and those that a start without a journal refuses.
SKEW, REFUSING = 300, 301
# The greatest second of a KerberosTime.
LAST_SECOND = 253_402_300_799
# The length of a check, and of the tag and the length before it.
CHECK, BEFORE_CHECK = 16, 2


class Header(typing.NamedTuple):
    """The first element of a file."""

    realm: bytes
    boot: bytes
    at: int
    floor: int
    link: bytes

    def written(self):
        return sequence(
            field(0, octet_string(self.realm)), field(1, octet_string(self.boot)), field(2, time_of(self.at)),
            field(3, time_of(self.floor)), field(4, octet_string(self.link)),
        )


class Entry(typing.NamedTuple):
    """An authenticator that was accepted. `client` is the contents of a PrincipalName."""

    client: bytes
    ctime: int
    cusec: int
    age: int

    @property
    def came(self):
        """The second in which its request came."""
        return self.ctime + self.age

    @property
    def authenticator(self):
        return self.client, self.ctime, self.cusec

    def written(self):
        return sequence(
            field(0, tlv(0x30, self.client)), field(1, time_of(self.ctime)), field(2, integer(self.cusec)),
            field(3, integer(self.age)),
        )


class Journal(typing.NamedTuple):
    """A whole file: its header, its entries, and its last check."""

    header: Header
    entries: tuple
    check: bytes

    @property
    def latest(self):
        """The latest second that the file knows."""
        return max([self.header.at, *(entry.came for entry in self.entries)])

    @property
    def high(self):
        """The least second that is not below its floor and above all times of its entries."""
        return max([self.header.floor, *(entry.ctime + 1 for entry in self.entries)])

    def recent(self):
        """The entries that a start keeps."""
        return [entry for entry in self.entries if entry.ctime >= self.latest - SKEW]


class Files(typing.NamedTuple):
    """What is in FILE, FILE.old, FILE.new and FILE.sealed. None stands for no file."""

    newer: bytes | None = None
    older: bytes | None = None
    beside: bytes | None = None
    seal: bytes | None = None


# Writing.


def check_of(before, element):
    return hashlib.sha256(before + element).digest()[:CHECK]


def appended(before, element):
    """An element and its check, as they stand behind the check before; and its check."""
    check = check_of(before, element)
    return octet_string(element) + octet_string(check), check


def text_of(header, entries):
    """The text of a file, and its last check."""
    texts, check = [], header.link
    for element in (header, *entries):
        text, check = appended(check, element.written())
        texts.append(text)
    return b"".join(texts), check


# Reading.


def seconds(text):
    return calendar.timegm(time.strptime(text.decode(), "%Y%m%d%H%M%SZ"))


def parts(element, tags):
    """The contents of the fields of a SEQUENCE, which have these tags."""
    [(outer, contents)] = elements(element)
    found = [(number, *elements(part)) for number, part in elements(contents)]
    wanted = [(0xA0 + number, tag) for number, tag in enumerate(tags)]
    if outer != 0x30 or [(number, tag) for number, (tag, _) in found] != wanted:
        raise ValueError("it is another element")
    return [contents for _, (_, contents) in found]


def signed(octets):
    return int.from_bytes(octets, "big", signed=True)


def header_in(element):
    realm, boot, at, floor, link = parts(element, (4, 4, 0x18, 0x18, 4))
    return Header(realm, boot, seconds(at), seconds(floor), link)


def entry_in(element):
    client, ctime, cusec, age = parts(element, (0x30, 0x18, 2, 2))
    return Entry(client, seconds(ctime), signed(cusec), signed(age))


def read(reader, element):
    """What a reader finds in an element, or None."""
    with contextlib.suppress(ValueError, IndexError, TypeError):
        return reader(element)


def octets_at(text, place):
    """The contents of the OCTET STRING at a place, and the place behind it; or None. Its length is in the fewest
    bytes."""
    if text[place:place + 1] != b"\x04" or place + 1 >= len(text):
        return None
    length, start = text[place + 1], place + 2
    if length >= 0x80:
        start += length - 0x80
        length = int.from_bytes(text[place + 2:start], "big")
    contents = text[start:start + length]
    is_whole = len(contents) == length and text[place:start] == octet_string(contents)[:start - place]
    return (contents, start + length) if is_whole else None


def element_at(text, place, before):
    """The element at a place, if its check follows it, and the place behind that; or None."""
    found = octets_at(text, place)
    check = found and octets_at(text, found[1])
    return (found[0], check[1]) if check and check[0] == check_of(before, found[0]) else None


def first_at(text):
    """The header at the front of a file, and the place behind it; or None."""
    found = octets_at(text, 0)
    header = found and read(header_in, found[0])
    return (header, element_at(text, 0, header.link)[1]) if header and element_at(text, 0, header.link) else None


@functools.lru_cache(1024)
def whole(text):
    """The journal in this text, or None if it is broken."""
    first = first_at(text) if text else None
    if not first:
        return None
    header, place = first
    entries = []
    while place < len(text):
        found = element_at(text, place, text[place - CHECK:place])
        entry = read(entry_in, found[0]) if found else None
        if not entry:
            return None
        place = found[1]
        entries.append(entry)
    return Journal(header, tuple(entries), text[-CHECK:])


@functools.lru_cache(1024)
def readable(text):
    """The headers and the entries of a file that may be damaged: each element whose check follows from the 16 bytes
    before it. Those of the front are among them."""
    first = first_at(text)
    found = [element_at(text, place, text[place - CHECK:place]) for place in range(CHECK + BEFORE_CHECK, len(text))]
    entries = [read(entry_in, each[0]) for each in found if each]
    return [first[0]] if first else [], [entry for entry in entries if entry]


# What a start has to make of it.


def may_be_journal(text):
    """Whether a text has the first tags of a journal, as far as it goes: a start leaves other files as they are."""
    place = 0
    for tag in (0x04, 0x30, 0xA0, 0x04):
        if text[place:place + 1] not in (b"", bytes([tag])):
            return False
        length = text[place + 1:place + 2]
        if length and (length[0] == 0x80 or length[0] > 0x84):
            return False
        place += 2 + max(0, length[0] - 0x80) if length else len(text)
    return True


def are_journals(files):
    """Whether a start may touch each of the files."""
    return all(may_be_journal(text) for text in (files.newer, files.older, files.beside) if text is not None)


def held_in(files):
    """The authenticators that the files still hold."""
    texts = filter(None, (files.older, files.newer, files.beside))
    return {entry.authenticator for text in texts for entry in readable(text)[1]}


def found_floor(files):
    """The floor of a start that does not resume: it is above all that the files hold. None if they hold nothing."""
    floors = []
    for text in filter(None, (files.older, files.newer, files.beside)):
        headers, entries = readable(text)
        floors += [second for header in headers for second in (header.floor, header.at + REFUSING)]
        floors += [second for entry in entries for second in (entry.ctime + 1, entry.came + REFUSING)]
    return min(max(floors), LAST_SECOND) if floors else None


def finished(files):
    """The files, if a turn was cut before its second rename: the new one is in its place then."""
    beside, older = files.beside and whole(files.beside), files.older and whole(files.older)
    if files.newer is None and beside and older and beside.header.link == older.check:
        return files._replace(newer=files.beside, beside=None)
    return files


def is_linked(journal, older):
    """Whether nothing goes before a journal, or what does is there, below its floor."""
    if not journal.header.link:
        return True
    is_behind = older and older.check == journal.header.link and older.high <= journal.header.floor
    return bool(is_behind) and older.header.realm == journal.header.realm


def parts_of(files):
    """The newer and the older journal of files, each None if it is missing or broken."""
    return [text and whole(text) for text in (files.newer, files.older)]


def is_resumed(files, realm, boot):
    """Whether a start in this boot resumes with files."""
    newer, older = parts_of(files)
    if not newer or newer.header.realm != realm or files.seal not in (None, b"", newer.check):
        return False
    return (newer.header.boot == boot or files.seal == newer.check) and is_linked(newer, older)


def resumed(files, realm, boot):
    """The authenticators with which a start in this boot resumes, or None if it does not."""
    files = finished(files)
    if not is_resumed(files, realm, boot):
        return None
    newer, older = parts_of(files)
    before = older.recent() if newer.header.link else []
    return [entry.authenticator for entry in (*before, *newer.recent())]


def begun_floor(files, realm, boot, at):
    """The floor with which a start in this second begins a journal anew. None if it goes on with what it finds."""
    files = finished(files)
    if not is_resumed(files, realm, boot):
        return max(at + REFUSING, found_floor(files) or 0)
    newer, older = parts_of(files)
    latest = max(newer.latest, older.latest) if newer.header.link else newer.latest
    return max(at + REFUSING, newer.high) if at < latest else None
