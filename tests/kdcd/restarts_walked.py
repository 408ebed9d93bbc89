"""Servers one after another on one journal, by chance: with clocks that go forward and back, in other boots, sealed and
not, with turns, and killed at any call. Nobody changes the files, so no authenticator that was accepted by any of them
gets a second ticket."""

import random

from harness.restarting import JOURNAL, Lane, authenticator, plainly
from harness.stage import T, Staged
from harness.tests import test

# The walks, and the servers of each.
WALKS, SERVERS = 8, 20
# By how many seconds a clock moves, and by how many a client's clock differs from the server's.
MOVES = 0, 1, 2, 30, 299, 300, 301, 302, 602, 700, 1_200, -1, -2, -50, -299, -300, -301, -700, -90_000, 90_000
AHEAD = 0, 1, 100, 299, 300, -1, -150, -299, -300
# How many requests come at a time, and how many of before are presented again besides as many of the last ones.
ASKED, AGAIN = 4, 20
# The calls at which a server is killed.
CALLS = "open", "write", "rename", "unlink", "fsync", "statx"


class Walk:
    """A walk: what was accepted so far, and what is wrong."""

    def __init__(self, lane, seed):
        self.lane, self.chance = lane, random.Random(seed)
        self.accepted, self.second, self.boot, self.turn = [], T, 1, 0
        self.presented, self.sold, self.faults = 0, [], []

    def move(self):
        """Moves the clock."""
        self.second = max(T - 80_000, min(T + 80_000, self.second + self.chance.choice(MOVES)))
        self.lane.show(self.second)

    def present(self, server, said):
        """Presents what was accepted before: the last ones, and some of the others."""
        last, others = self.accepted[-AGAIN:], self.accepted[:-AGAIN]
        known = last + self.chance.sample(others, min(AGAIN, len(others)))
        found = list(zip(known, server.present(known)))
        self.presented += len(found)
        self.sold += [
            f"{each[1] - T}.{each[2]} at {self.second - T}, '{said}'" for each, what in found if what == "ticket"
        ]

    def buy(self, server):
        """Buys tickets."""
        for _ in range(ASKED):
            self.turn += 1
            each = authenticator(self.second + self.chance.choice(AHEAD), self.turn)
            if server.buy(each) == "ticket":
                self.accepted.append(each)

    def reboot(self):
        """Now and then the system is booted again; the journal may be sealed before."""
        if self.chance.random() < 0.3:
            if self.chance.random() < 0.6:
                self.lane.trial.run(f"kdcd seal {JOURNAL}", cwd=self.lane.folder, env=self.lane.environment)
            self.boot += 1
            self.lane.set("BOOT", f"boot{self.boot}")

    def kill_at(self, odds):
        """Lets the server be killed at one of its next calls, or at none."""
        self.lane.set("KILLS", self.chance.choice(CALLS) if self.chance.random() < odds else None)

    def serve(self, words):
        """Starts a server, and lets it serve for a while."""
        self.kill_at(0.15)
        server = self.lane.start(words)
        if not server.is_up:
            self.faults += [] if server.status == -9 else [f"{server.status}: {plainly(server)}"]
            return
        said = " and ".join(server.of_journal)
        for _ in range(3):
            self.kill_at(0)
            self.present(server, said)
            self.kill_at(0.1)
            self.buy(server)
            self.move()
        self.kill_at(0)
        if server.process.poll() is None:
            self.present(server, said)
        server.end()


def walk(trial, seed):
    """Walks from an empty folder, and notes what was sold twice."""
    lane = Lane(trial, seed)
    lane.set("AMONG", "run")
    walked = Walk(lane, seed)
    for number in range(SERVERS):
        size = walked.chance.choice((200, 500, 5_000, 100_000))
        walked.serve(f"{JOURNAL} --journal-size {size} {'' if number else '--first'}")
        walked.move()
        walked.reboot()
    many = f"{len(walked.accepted)} authenticators were accepted, {walked.presented} came once more"
    fault = f"{len(walked.sold)} second tickets, as {walked.sold[:3]}" if walked.sold else ""
    trial.note(f"walk {seed}, {SERVERS} servers: {many}: no second ticket", fault)
    trial.note("  each start comes up, or is killed", "; ".join(walked.faults[:3]))


@test("kdcd", trial=Staged, seconds=30)
def walks(trial):
    """Walks by chance."""
    trial.enter()
    for seed in range(WALKS):
        walk(trial, seed)
