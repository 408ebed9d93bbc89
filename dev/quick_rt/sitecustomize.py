"""Keeps `rt check` from computing one sum thousands of times.

    PYTHONPATH=../../dev/quick_rt rt check

It is for the folder of a crate; the path counts from where `rt` runs. The stamp of a library covers the crates below
it, and `rt` computes it anew along each path through the crates: three to five minutes of a processor in `kdcd` and
`exchange_tests`, before anything is checked. With this folder on PYTHONPATH each stamp is computed once in a run of
`rt`. Sources must not change while it runs. `rt ci` uses no stamps and needs none of this.

    QUICK_RT=all PYTHONPATH=../../dev/quick_rt rt all check --jobs 4

This also leaves out the pass over the sources of each crate that `rt all` begins with where nothing is built: ten
minutes, one crate at a time."""

import importlib.machinery
import os

KEPT = {}


def once(compute):
    def kept(crate):
        if crate.folder not in KEPT:
            KEPT[crate.folder] = compute(crate)
        return KEPT[crate.folder]

    return kept


class Loader(importlib.machinery.SourceFileLoader):
    def exec_module(self, module):
        super().exec_module(module)
        if module.__name__ == "rtlib":
            module.Crate.stamp = once(module.Crate.stamp)
            if os.environ.get("QUICK_RT") == "all":
                module.Crate.front_end = lambda crate: 0


importlib.machinery.SourceFileLoader = Loader
