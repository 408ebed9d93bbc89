"""Commands against hostile KDCs: what is checked of each."""

import time

from harness.processes import SLOWNESS
from harness.trial import Trial

CACHE = b"what the cache was before\n"
# The seconds by which a command may be late, beside other work on the machine.
SLACK = 3 * SLOWNESS
# What names the client of most commands.
AS_U = ("--realm", "A.B", "--name", "u", "--password-file", "pw")
# The address space of a command, in KiB. It fails if it needs more memory.
ROOM = 16384


class Hostile(Trial):
    """Runs `kclient` in a folder, and checks the results."""

    def begin(self, words, cache):
        """Runs a command that begins with this cache. Returns its result, and the seconds that it took."""
        (self.folder / "cc").write_bytes(cache)
        bounded = ["sh", "-c", f'ulimit -v {ROOM} && exec "$@"', "sh", self.programs["kclient"]]
        begun = time.monotonic()
        return self.run([*bounded, *words]), time.monotonic() - begun

    def faults(self, begun, end, cache, seconds=(0, 0)):
        """What is wrong with what `begin` returned. `end` is the status, what the command has to print, and the texts
        that it has to write to standard error. It has to leave this cache, and to end after `seconds`, the least and
        the most."""
        (ran, took), (status, out, said), (least, most), faults = begun, end, seconds, []
        if ran.status != status:
            faults.append("it does not end" if ran.status is None else f"status {ran.status}, and not {status}")
        if ran.out != out + "\n":
            faults.append(f"prints {ran.out!r}, and not {out!r}")
        if any(each not in ran.err for each in said) or bool(said) != bool(ran.err):
            faults.append(f"says {ran.err!r}, and not {said}")
        if not least <= took <= most + SLACK:
            faults.append(f"takes {took:.1f} seconds, and not {least} to {most + SLACK}")
        if (self.folder / "cc").read_bytes() != cache:
            faults.append("the cache is not what it has to be")
        return faults

    def expect_kinit(self, what, kdcs, options, end, counts=None):
        """Runs a `kinit` that asks these addresses, and has to change no file. Options that name no client are those of
        `u`. `end` is the status, what it prints and says, and the least and the most seconds. The first KDC has to get
        `counts` datagrams and connections."""
        status, out, said, *seconds = end
        before = sorted(self.folder.iterdir())
        addresses = [word for each in kdcs for word in ("--kdc", getattr(each, "address", each))]
        as_client = () if "--name" in options else AS_U
        words = ["kinit", *addresses, *as_client, "--cache", "cc", *options]
        begun = self.begin(words, CACHE)
        faults = self.faults(begun, (status, out, (said,)), CACHE, seconds)
        if counts and (kdcs[0].datagrams, kdcs[0].connections) != counts:
            faults.append(
                f"sends {kdcs[0].datagrams} datagrams and {kdcs[0].connections} connections, and not {counts}"
            )
        if sorted(self.folder.iterdir()) != before:
            faults.append("leaves files")
        self.note(f"{what} ({begun[1]:.1f} s)", "; ".join(faults))
