"""Commands whose allocations fail, one in each run (`refused_memory.c`)."""

import pathlib
import re
import shutil
import tempfile
from concurrent.futures import ThreadPoolExecutor

from harness.processes import processors
from harness.programs import refused_memory


def refusing(trial):
    """The environment in which allocations are counted and fail."""
    return {**trial.environment, "LD_PRELOAD": refused_memory(), "COUNTED": str(trial.folder / "counted")}


def contents(folder):
    """The files of a folder, without locks, counts and the logs of servers."""
    kept = (each for each in folder.iterdir() if each.suffix not in (".lock", ".so") and not re.fullmatch(
        r"counted|log\d+", each.name
    ))
    return {each.name: each.read_bytes() for each in kept}


class Refusals:
    """Runs of a command in copies of a folder, each with another allocation that fails."""

    def __init__(self, trial, words, given, status, out):
        self.trial, self.words, self.given, self.status, self.out = trial, words, given, status, out
        self.environment, self.before = refusing(trial), contents(trial.folder)
        self.whole = trial.run(words, given=given, env=self.environment)
        self.counted = int((trial.folder / "counted").read_text())
        # Parts that differ from run to run are not compared.
        self.after = contents(trial.folder).keys()

    def fault(self, template, number):
        """What is wrong with the run in which this allocation fails, and whether all was done without it."""
        with tempfile.TemporaryDirectory() as place:
            folder = pathlib.Path(place, "copy")
            shutil.copytree(template, folder)
            environment = {**self.environment, "COUNTED": str(folder / "counted"), "REFUSED": str(number)}
            ran = self.trial.run(self.words, given=self.given, env=environment, cwd=folder)
            now = contents(folder)
        if ran.status == 0 and ran.out in (self.whole.out, self.out) and now.keys() == self.after:
            return "", True
        is_said = ran.status == self.status and ran.err.endswith("out of memory\n")
        if is_said and now.keys() == self.after or ran.status == self.status and now == self.before:
            return "", False
        changed = sorted(name for name in now.keys() | self.before.keys() if now.get(name) != self.before.get(name))
        return f"{number}: {ran.fault(self.status)}, {ran.out[:80]!r}, {ran.err[:80]!r}, files {changed}", False


def refuse_each(trial, words, given="", status=3, out=None):
    """Lets each allocation of a command fail, one in a run. The command ends with this status and leaves all files
    unchanged, or does all of its work without that allocation, or prints `out`. Or all is done but what is printed of
    it: it ends with this status and says why."""
    with tempfile.TemporaryDirectory() as place:
        template = pathlib.Path(place, "template")
        shutil.copytree(trial.folder, template, ignore=shutil.ignore_patterns("*.lock", "*.so", "counted", "log*"))
        refusals = Refusals(trial, words, given, status, out)
        if refusals.whole.status != 0:
            return trial.note(words, refusals.whole.fault(0))
        with ThreadPoolExecutor(processors()) as pool:
            found = list(pool.map(lambda number: refusals.fault(template, number), range(1, refusals.counted + 1)))
    trial.note(
        f"{words}: each of {refusals.counted} allocations refused, {sum(done for _, done in found)} without effect",
        "; ".join([fault for fault, _ in found if fault][:3])
    )
