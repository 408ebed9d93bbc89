"""Starts on each front of a journal's files and on files with a changed byte, sealed and not, in the same boot and in
another one, with a clock that is right or behind: whatever the clock shows, no start sells a second ticket for an
authenticator that its files still hold."""

import collections
import itertools
import queue
import typing
from concurrent.futures import ThreadPoolExecutor

from harness.journal_texts import Files, held_in, whole
from harness.restarting import Lane, authenticator, otherwise_than_asked, present_again
from harness.stage import T, Staged
from harness.tests import test

# The servers that run side by side in a test.
LANES = 2
# The older file takes its turn once it has this many bytes: with three entries.
SIZE = 280
# When the newer file was begun, and the latest second of the journal.
TURNED = LATEST = T + 12
# The authenticators of the older and of the newer file, by their seconds. The clients of some are 290 and 300 seconds
# ahead, the greatest of all by as much as is allowed.
OLDER, NEWER = (T, T + 290, T - 200), (TURNED + 290, LATEST + 300)
ACCEPTED = tuple(
    authenticator(second, first + turn) for first, seconds in ((0, OLDER), (10, NEWER))
    for turn, second in enumerate(seconds)
)
# By how many seconds the clock of a start is behind the journal.
BEHIND = 0, 1, 120, 400
BOOTS = {"the same boot": "one", "another boot": "two"}
# One case in this many is started twice; a file is cut or changed once in this many bytes, if not at each.
SOMETIMES, SPARSE = 15, 12


class Damaged(typing.NamedTuple):
    """The files of a journal after some damage."""

    place: str
    files: Files


class Case(typing.NamedTuple):
    """A start on damaged files. If `is_twice`, another one follows, whose clock is right."""

    damaged: Damaged
    known: tuple
    boot: str
    behind: int
    is_twice: bool


def written(lane):
    """The files that a server writes over a turn."""
    lane.put(Files())
    lane.show(T)
    server = lane.start(f"--first --journal {lane.journal} --journal-size {SIZE}")
    found = [server.buy(each) for each in ACCEPTED[:len(OLDER)]]
    lane.show(TURNED)
    found += [server.buy(each) for each in ACCEPTED[len(OLDER):]]
    server.end()
    files = lane.files()
    older, newer = (whole(text or b"") for text in (files.older, files.newer))
    are_right = older and newer and newer.header.link == older.check and found == ["ticket"] * len(found)
    lane.trial.note("a server writes two files", "" if are_right else f"{found}, {files}")
    return files


def fronts(files, part, step):
    """The files with each front of one of them."""
    text = getattr(files, part)
    return [
        Damaged(f"{part} cut to {length} bytes", files._replace(**{part: text[:length]}))
        for length in sorted({*range(0, len(text), step), len(text)})
    ]


def changed(files, part, step):
    """The files with a changed byte in one of them: one bit of it, or all."""
    text, bits = getattr(files, part), itertools.cycle((1, 0x80, 0xFF))
    return [
        Damaged(f"{part} changed at {place}", files._replace(**{
            part: text[:place] + bytes([text[place] ^ bit]) + text[place + 1:]
        }))
        for place, bit in zip(range(0, len(text), step), bits)
    ]


def cut_turns(files, step):
    """The files of a turn that was cut between its two renames, with each front of the new one."""
    cut = files._replace(newer=None, beside=files.newer)
    return [Damaged("no newer file", files._replace(newer=None)), *fronts(cut, "beside", step)]


def sealed(damaged, files):
    """The same files beside the seal of the undamaged ones."""
    return damaged._replace(files=damaged.files._replace(seal=files.newer[-16:]))


def kind_of(case):
    """The line of the cases that are counted together."""
    boot = next(what for what, name in BOOTS.items() if name == case.boot)
    seal = "sealed" if case.damaged.files.seal else "not sealed"
    return f"{seal}, {boot}, {f'the clock {case.behind} seconds behind' if case.behind else 'the clock right'}"


def tried(lane, case):
    """What the start of a case does: outcomes of it, and of the next start."""
    files, at, boot = case.damaged.files, LATEST - case.behind, case.boot.encode()
    lane.put(files)
    lane.set("BOOT", case.boot)
    # A clock that was behind is put right later; one that was right goes back.
    later = LATEST + 1 if case.behind else LATEST - BEHIND[-1]
    outcome = present_again(lane, (at, later), case.known)
    found = [outcome._replace(fault=otherwise_than_asked(outcome, files, boot, at, lane.files()))]
    if case.is_twice:
        found.append(present_again(lane, (LATEST,), case.known))
    return case, found


def side_by_side(lanes, cases):
    """Tries the cases, each in the next lane that is free."""
    free = queue.SimpleQueue()
    for lane in lanes:
        free.put(lane)

    def in_lane(case):
        lane = free.get()
        try:
            return tried(lane, case)
        finally:
            free.put(lane)

    with ThreadPoolExecutor(len(lanes)) as pool:
        return list(pool.map(in_lane, cases))


def sold_again(found):
    """What is wrong, if a start sold a second ticket."""
    sold = [(case, outcome) for case, outcomes in found for outcome in outcomes if outcome.sold]
    shown = [
        f"{case.damaged.place}: {[(second - T, at - T) for (second, _), at in outcome.sold]}, '{outcome.said}'"
        for case, outcome in sold[:2]
    ]
    count = sum(len(outcome.sold) for _, outcome in sold)
    return f"{count} second tickets in {len(sold)} starts, as {'; '.join(shown)}" if sold else ""


def otherwise_wrong(found):
    """What else is wrong with starts."""
    faults = [
        f"{case.damaged.place}: {outcome.fault}" for case, outcomes in found for outcome in outcomes if outcome.fault
    ]
    return f"{len(faults)} starts, as {'; '.join(faults[:2])}" if faults else ""


def report(trial, what, outcomes):
    """Notes what the starts of each kind did."""
    kinds = collections.defaultdict(list)
    for case, found in outcomes:
        kinds[kind_of(case)].append((case, found))
    for kind, found in kinds.items():
        every = [outcome for _, outcomes in found for outcome in outcomes]
        said = collections.Counter(outcome.said for outcome in every)
        counted = f"{len(every)} starts, {sum(outcome.presented for outcome in every)} authenticators once more"
        trial.note(f"{what}, {kind}: {counted}: no second ticket", sold_again(found))
        trial.note(f"  they do what the files ask for, and say {dict(said.most_common())}", otherwise_wrong(found))


def sweep(trial, what, damage):
    """Tries starts on what `damage` makes of the files."""
    trial.enter()
    lanes = [Lane(trial, number) for number in range(LANES)]
    files, cases = written(lanes[0]), []
    for damaged in damage(files):
        for either in (damaged, sealed(damaged, files)):
            known = tuple(sorted(held_in(either.files)))
            for boot, behind in itertools.product(BOOTS.values(), BEHIND):
                cases.append(Case(either, known, boot, behind, len(cases) % SOMETIMES == 1))
    report(trial, what, side_by_side(lanes, cases))


@test("kdcd", trial=Staged, seconds=60)
def each_front_of_the_newer_file(trial):
    """The newer file was cut at each byte."""
    sweep(trial, "a front of the newer file", lambda files: fronts(files, "newer", 1))


@test("kdcd", trial=Staged, seconds=20)
def fronts_of_the_older_file(trial):
    """The older file was cut, or is missing."""
    missing = lambda files: [Damaged("no older file", files._replace(older=None))]
    sweep(trial, "a front of the older file", lambda files: missing(files) + fronts(files, "older", SPARSE))


@test("kdcd", trial=Staged, seconds=20)
def changed_bytes(trial):
    """A byte of a file was changed."""
    either = lambda files: [*changed(files, "newer", SPARSE), *changed(files, "older", SPARSE)]
    sweep(trial, "a file with a changed byte", either)


@test("kdcd", trial=Staged, seconds=20)
def turns_that_were_cut(trial):
    """The newer file is missing, as between the renames of a turn, and the new one was cut."""
    sweep(trial, "a turn that was cut", lambda files: cut_turns(files, SPARSE))
