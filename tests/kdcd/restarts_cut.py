"""Starts, turns and seals of a journal in which one call of the system fails, or the process is killed in place of it.
Each start comes up, or says in one plain line why not; and the next start sells no second ticket for an authenticator
that was accepted."""

import dataclasses
import itertools
import typing

from harness.journal_texts import Files, held_in
from harness.restarting import JOURNAL, Lane, authenticator, plainly, present_again
from harness.stage import T, Staged
from harness.tests import test
from kdcd.restarts_swept import ACCEPTED, LATEST, written

# The errors of a call that fails.
INPUT_OUTPUT_ERROR, NO_SPACE = 5, 28
# The calls that change files.
CHANGES = "open", "write", "fsync", "fdatasync", "rename", "unlink", "ftruncate", "fchmod"
# The settings of what becomes of a call.
SETTINGS = "FAILS", "THEN", "ERROR", "KILLS"
# By how many seconds the clock of the next start is behind the journal.
NEXT_BEHIND = 0, 120, 400
SEAL = "kdcd seal --journal run/journal"


class Scene(typing.NamedTuple):
    """Files, and what is done with them. A server is started with these words, and `acts` is called with it once it is
    up; without that, only the start is tried. Before the call that is struck, the next one with the name `first`
    fails. `next_words` are those of the next starts; if the scene `removes` files, only what the files
    then hold is presented to them."""

    files: Files
    words: str = JOURNAL
    boot: str = "one"
    behind: int = 0
    acts: typing.Callable | None = None
    first: str | None = None
    next_words: tuple = (JOURNAL,)
    removes: bool = False


class Blow(typing.NamedTuple):
    """What becomes of a call, by its number and its line in the list."""

    setting: str
    error: int
    number: int
    call: str

    def shown(self):
        what = "a kill at" if self.setting == "KILLS" else f"error {self.error} of"
        name, path = self.call.split(" ", 1)
        return f"{what} call {self.number}, {name} {path.rpartition('/')[2]}"


@dataclasses.dataclass
class Seen:
    """What was seen after the blows to a scene. `next` has what starts on files did, by the files and the clock."""

    up: int = 0
    presented: int = 0
    sold: list = dataclasses.field(default_factory=list)
    faults: list = dataclasses.field(default_factory=list)
    next: dict = dataclasses.field(default_factory=dict)


def prepare(lane, scene):
    """Puts the files of a scene, and sets what the system shows."""
    for setting in SETTINGS:
        lane.set(setting, None)
    lane.put(scene.files)
    lane.set("BOOT", scene.boot)
    lane.show(LATEST - scene.behind)
    (lane.folder / "stage" / "calls").unlink(missing_ok=True)


def strike(lane, scene, blow, before):
    """Sets what becomes of a call that comes after `before` others."""
    lane.set("FAILS", scene.first)
    if blow:
        lane.set("ERROR", blow.error)
        lane.set("THEN" if scene.first and blow.setting == "FAILS" else blow.setting, before + blow.number)


def played(lane, scene, blow=None):
    """Plays a scene with a blow, or without one. Returns the calls that it may strike, the authenticators that were
    accepted, and the server."""
    prepare(lane, scene)
    if not scene.acts:
        strike(lane, scene, blow, 0)
    server = lane.start(scene.words)
    before, sold = 0, []
    if server.is_up and scene.acts:
        before = len(lane.calls())
        strike(lane, scene, blow, before)
        sold = scene.acts(server)
    return lane.calls()[before:], sold, server


def blows(calls):
    """What may become of each call: each fails, and those that change files also for want of room, or by a kill."""
    for number, call in enumerate(calls, 1):
        yield Blow("FAILS", INPUT_OUTPUT_ERROR, number, call)
        if call.split()[0] in CHANGES:
            yield Blow("FAILS", NO_SPACE, number, call)
            yield Blow("KILLS", 0, number, call)


def sold_at_once(lane, server, known):
    """What a server that came up sells once more, when its clock is as it was and when it is right."""
    found = list(zip(known, server.present(known)))
    lane.show(LATEST + 1)
    found += zip(known, server.present(known))
    return [each[1:] for each, outcome in found if outcome == "ticket"]


def next_starts(lane, scene, known, what, seen):
    """Starts servers on the files that a blow left, unless the same ones were tried."""
    files = lane.files()
    known = tuple(sorted(held_in(files))) if scene.removes else known
    for words, behind in itertools.product(scene.next_words, NEXT_BEHIND):
        if (files, known, words, behind) not in seen.next:
            prepare(lane, scene._replace(files=files))
            outcome = present_again(lane, (LATEST - behind, LATEST + 1), known, words)
            seen.next[files, known, words, behind] = outcome
            seen.presented += outcome.presented
            seen.faults += [f"{what}, and a start: {outcome.fault}"] if outcome.fault else []
            start = f"a start {behind} seconds behind, '{outcome.said}'"
            seen.sold += [f"{what}, and {start}: {second - T}.{turn}" for (second, turn), _ in outcome.sold]


def struck(lane, scene, blow, seen):
    """Plays a scene with a blow, or without one, and starts servers on what it left."""
    _, sold, server = played(lane, scene, blow)
    known = (*sorted(held_in(scene.files)), *sold)
    what = blow.shown() if blow else "no blow"
    is_killed = blow and blow.setting == "KILLS"
    if server.is_up:
        seen.up += 1
        if not is_killed and not scene.acts:
            seen.sold += [f"{what}: {each} by this start" for each in sold_at_once(lane, server, known)]
        server.end()
    elif not is_killed and (fault := plainly(server)):
        seen.faults.append(f"{what}: {fault}")
    next_starts(lane, scene, known, what, seen)


def strike_each(lane, what, scene):
    """Plays a scene, lets each call of it fail, and kills the process at each."""
    calls, _, server = played(lane, scene)
    server.end()
    seen, every = Seen(), list(blows(calls))
    for blow in (None, *every):
        struck(lane, scene, blow, seen)
    report(lane.trial, f"{what}: {len(every)} blows to {len(calls)} calls", seen)


def report(trial, what, seen):
    counted = f"{seen.up} servers are up, {len(seen.next)} more starts"
    sold = f"{len(seen.sold)} second tickets, as {'; '.join(seen.sold[:2])}" if seen.sold else ""
    trial.note(f"{what}, {counted}, {seen.presented} authenticators once more: no second ticket", sold)
    faults = f"{len(seen.faults)}, as {'; '.join(seen.faults[:2])}" if seen.faults else ""
    trial.note("  each of these starts comes up, or says in one line why not", faults)


def lane_and_files(trial):
    """A lane whose calls are listed, and the files of a journal over a turn."""
    trial.enter()
    lane = Lane(trial)
    files = written(lane)
    lane.set("CALLS", "stage/calls")
    lane.set("AMONG", "run")
    return lane, files


@test("kdcd", trial=Staged, seconds=15)
def starts_that_resume(trial):
    """Starts that resume: in the same boot; with a seal; in another boot with one; and with a turn."""
    lane, files = lane_and_files(trial)
    sealed = files._replace(seal=files.newer[-16:])
    strike_each(lane, "a start that resumes", Scene(files))
    strike_each(lane, "a start that breaks a seal", Scene(sealed))
    strike_each(lane, "a start in another boot", Scene(sealed, boot="two"))
    strike_each(lane, "a start whose files take turns", Scene(files, f"{JOURNAL} --journal-size 1"))


@test("kdcd", trial=Staged, seconds=15)
def starts_anew(trial):
    """Starts that begin a journal anew: with a clock that is behind, after another boot, after damage."""
    lane, files = lane_and_files(trial)
    for behind in (1, 400):
        strike_each(lane, f"a start {behind} seconds behind", Scene(files, behind=behind))
        strike_each(lane, f"a start {behind} seconds behind, in another boot", Scene(files, boot="two", behind=behind))
    strike_each(lane, "a start on a damaged file", Scene(files._replace(newer=files.newer[:-1]), behind=400))
    strike_each(lane, "a start on a damaged older file", Scene(files._replace(older=files.older[:-1]), behind=400))
    empty = Scene(files._replace(newer=b""), behind=400)
    strike_each(lane, "a start on an empty file", empty)
    strike_each(lane, "the same if the first write fails", empty._replace(first="write"))


@test("kdcd", trial=Staged, seconds=10)
def starts_after_a_cut_turn(trial):
    """Starts after a turn that was cut between its two renames."""
    lane, files = lane_and_files(trial)
    cut = files._replace(newer=None, beside=files.newer)
    for behind in (0, 400):
        strike_each(lane, f"a start {behind} seconds behind, after a turn that was cut", Scene(cut, behind=behind))


def sells_two(server):
    """Buys two tickets. Returns the authenticators that were accepted."""
    asked = [authenticator(LATEST + 300, 100), authenticator(LATEST, 101)]
    return [each for each in asked if server.buy(each) == "ticket"]


@test("kdcd", trial=Staged, seconds=10)
def running_servers(trial):
    """Servers whose files take turns, and which begin a journal anew since a record was not written."""
    lane, files = lane_and_files(trial)
    size = len(files.newer) + 1
    strike_each(lane, "a turn of a running server", Scene(files, f"{JOURNAL} --journal-size {size}", acts=sells_two))
    strike_each(lane, "a journal that is begun anew", Scene(files, acts=sells_two, first="write"))


def seal(lane):
    """Runs `kdcd seal`, and returns its calls and what it said."""
    ran = lane.trial.run(SEAL, cwd=lane.folder, env=lane.environment)
    return lane.calls(), ran


@test("kdcd", trial=Staged, seconds=10)
def seals(trial):
    """`kdcd seal`, and starts in the same boot and in another one."""
    lane, files = lane_and_files(trial)
    prepare(lane, Scene(files))
    calls, ran = seal(lane)
    trial.note("a journal is sealed", ran.fault(0, "=ok"))
    for boot in ("one", "two"):
        seen, every = Seen(), list(blows(calls))
        for blow in every:
            prepare(lane, Scene(files))
            strike(lane, Scene(files), blow, 0)
            _, ran = seal(lane)
            if blow.setting == "FAILS" and ran.status not in (0, 3):
                seen.faults.append(f"{blow.shown()}: status {ran.status}, {ran.out!r}, {ran.err!r}")
            next_starts(lane, Scene(files, boot=boot), ACCEPTED, blow.shown(), seen)
        report(trial, f"a seal, and a start in boot {boot}: {len(every)} blows to {len(calls)} calls", seen)


@test("kdcd", trial=Staged, seconds=10)
def removals(trial):
    """`--no-journal`, which removes the journal of a database, and starts on what it left, with and without it."""
    trial.enter()
    lane = Lane(trial, journal="database.journal")
    files = written(lane)
    lane.set("CALLS", "stage/calls")
    lane.set("AMONG", lane.journal)
    words = "--no-journal", "--journal"
    for behind in NEXT_BEHIND:
        scene = Scene(files, words[0], behind=behind, next_words=words, removes=True)
        strike_each(lane, f"--no-journal {behind} seconds behind", scene)
