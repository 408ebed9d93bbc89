"""Starts beside a journal that they do not resume, one example each: none forgets what the files hold."""

from harness.journal_texts import CHECK, LAST_SECOND, Entry, Files, Header, found_floor, text_of, whole
from harness.restarting import CLIENT_NAME, JOURNAL, Lane, authenticator, present_again
from harness.stage import T, Staged
from harness.tests import test
from harness.wire import REALM
from kdcd.restarts_swept import ACCEPTED, BEHIND, LATEST, written

DAMAGED = "not resumed: it is damaged, or others may write it"
FIRST = "--first is for the first start alone"
SERVE = "kdcd serve --db database --udp 127.0.0.1:0 --rounds 0"


def lane_and_files(trial, **more):
    """A lane, and the files of a journal over a turn."""
    trial.enter()
    lane = Lane(trial, **more)
    return lane, written(lane)


def expect_refused(lane, what, words, said=""):
    """Starts a server with a clock that is right, or behind and then put right. It comes up, says first this of its
    journal, and refuses what was accepted before."""
    files = lane.files()
    for behind in BEHIND:
        lane.put(files)
        found = present_again(lane, (LATEST - behind, LATEST + 1), ACCEPTED, words)
        fault = found.fault or ("" if found.said.startswith(said) else f"it says {found.said!r}")
        sold = [(second - T, turn) for (second, turn), _ in found.sold]
        what_then = f"{what}, {behind} seconds behind, then right: what was accepted is refused"
        lane.trial.note(what_then, fault or (f"{len(sold)} second tickets: {sold}" if sold else ""))
    lane.put(files)


@test("kdcd", trial=Staged, seconds=2)
def first_without_a_journal(trial):
    """`--first --no-journal` beside a journal, or beside one of its files."""
    lane, files = lane_and_files(trial, journal="database.journal")
    missing = Files(None, None, None, None)
    for what, left in (
        ("a journal", files), ("a newer file", missing._replace(newer=files.newer)),
        ("an older file", missing._replace(older=files.older)), ("a damaged file", missing._replace(newer=b"")),
    ):
        for words in ("--first --no-journal", "--first --journal"):
            lane.put(left)
            ran = trial.run(f"{SERVE} {words}", cwd=lane.folder, env=lane.environment)
            trial.note(f"{words} beside {what}", ran.fault(1, "=refused NotFirst", FIRST))
            trial.note("  it leaves the files", "" if lane.files() == left else "it changes them")
    lane.put(missing)
    ran = trial.run(f"{SERVE} --first --no-journal", cwd=lane.folder, env=lane.environment)
    trial.note("--first --no-journal without a journal", ran.fault(0))


@test("kdcd", trial=Staged, seconds=2)
def without_the_journal(trial):
    """`--no-journal` beside a journal: what was accepted before is refused, and the journal is removed."""
    lane, files = lane_and_files(trial, journal="database.journal")
    expect_refused(lane, "--no-journal", "--no-journal")
    lane.put(files._replace(newer=files.newer[:-1]))
    expect_refused(lane, "--no-journal beside a damaged journal", "--no-journal")
    lane.show(LATEST)
    lane.start("--no-journal").end()
    trial.same("it removes the journal", lane.files(), Files())


@test("kdcd", trial=Staged, seconds=2)
def another_seal(trial):
    """A seal that is there and is not the journal's, in the same boot and in another one."""
    lane, files = lane_and_files(trial)
    older = files.older[-CHECK:]
    for boot in ("one", "two"):
        lane.set("BOOT", boot)
        for what, seal in (("the older file's check", older), ("a part of the seal", files.newer[-CHECK:-1])):
            lane.put(files._replace(seal=seal))
            said = DAMAGED if boot == "one" else ""
            expect_refused(lane, f"a start in boot {boot} beside {what} as a seal", JOURNAL, said)


@test("kdcd", trial=Staged, seconds=2)
def cut_turns(trial):
    """A turn that was cut between its two renames: the next start finishes it. If the older file is not the one that
    goes before the new one, it refuses."""
    lane, files = lane_and_files(trial)
    cut = files._replace(newer=None, beside=files.newer)
    lane.put(cut)
    for behind in BEHIND:
        lane.put(cut)
        found = present_again(lane, (LATEST - behind, LATEST + 1), ACCEPTED)
        trial.same(f"a start {behind} seconds behind sells nothing twice", (found.sold, found.fault), ((), ""))
        said = "resumed with 5 authenticators" + (", with a clock that is behind it" if behind else "")
        trial.same(f"a start {behind} seconds behind finishes the turn", found.said, said)
        if not behind:
            trial.note("the new file is in its place", "" if lane.files() == files else "the files are others")
    lane.put(cut._replace(older=files.older[:-CHECK - 2]))
    expect_refused(lane, "a cut turn with another older file", JOURNAL)


@test("kdcd", trial=Staged, seconds=3)
def floors(trial):
    """The floor of a start that does not resume: an authenticator below it is refused, and one of its second gets a
    ticket, once clocks allow that."""
    lane, files = lane_and_files(trial)
    for what, left, boot in (
        ("after another boot", files, "two"), ("without the older file", files._replace(older=None), "one"),
        ("with a damaged file", files._replace(newer=files.newer[:-1]), "one"),
        ("with a damaged header", files._replace(newer=files.newer[:40] + b"?" + files.newer[41:]), "one"),
        ("without the newer file", files._replace(newer=None), "one"),
    ):
        lane.set("BOOT", boot)
        for behind in BEHIND:
            lane.put(left)
            floor = max(found_floor(left), LATEST - behind + 301)
            lane.show(LATEST - behind)
            server = lane.start()
            lane.show(floor)
            found = server.present([authenticator(floor - 1, 7), authenticator(floor, 7)])
            server.end()
            trial.same(f"{what}, {behind} seconds behind: the floor is {floor - T}", found, ["37", "ticket"])


@test("kdcd", trial=Staged, seconds=2)
def far_ahead(trial):
    """A journal of a clock that was far ahead: the floor is at most the last second of all."""
    lane, _ = lane_and_files(trial)
    for second in (LAST_SECOND - 302, LAST_SECOND - 1, LAST_SECOND):
        header = Header(REALM.encode(), b"one", second - 300, second - 300, b"")
        text, _ = text_of(header, [Entry(CLIENT_NAME, second, 5, -300)])
        lane.put(Files(text[:-1], None, None, None))
        lane.show(LATEST)
        server = lane.start()
        trial.same(f"a damaged journal {LAST_SECOND - second} seconds before the last is not resumed",
                   server.of_journal[:1], [DAMAGED])
        found = server.present([authenticator(LATEST + 300, 1)])
        server.end()
        newer = whole(lane.files().newer)
        wanted = found_floor(Files(text[:-1], None, None, None))
        trial.same("  its floor is kept", (newer.header.floor, found), (wanted, ["37"]))
