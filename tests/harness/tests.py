"""Tests by name. A test is a function that gets a trial: an empty folder, with the programs that it needs. The name of
the function `room` of `kdcd/logs.py` is `kdcd/logs/room`. A session is a test, too."""

import dataclasses
import importlib
import json
import os
import pathlib
import typing

from harness.trial import Trial

TESTS = pathlib.Path(__file__).resolve().parent.parent
# The variable with what a run gives to a test, as JSON.
GIVEN = "TESTS_GIVEN"


@dataclasses.dataclass(frozen=True)
class Test:
    """A test. It is run in a process of its own, with a folder that is removed at its end."""

    name: str
    call: typing.Callable
    # The programs that it runs, by the names of their crates.
    programs: tuple = ()
    # What makes its trial, from the paths of these programs and the folder.
    trial: typing.Callable = Trial
    # What the machine has to have (`machine.py`); without it the test is left out.
    needs: tuple = ()
    # Whether it also tries stock programs, if they are there.
    uses_stock: bool = False
    # About how many seconds it takes. The longest are started first.
    seconds: int = 1
    # Whether it takes minutes, and only runs if that is asked for.
    is_slow: bool = False


@dataclasses.dataclass(frozen=True)
class Given:
    """What a run gives to each test: the folder of the programs, or that of the crates; the folders of MIT's and
    Heimdal's packages; and the programs that were compiled for tests."""

    programs: str
    roots: dict
    made: dict

    def written(self):
        return json.dumps(dataclasses.asdict(self))


def given():
    """What the run gives to this process, which runs a test."""
    return Given(**json.loads(os.environ[GIVEN]))


KNOWN = {}


def add(test):
    """Makes a test known. Its name has to be its own."""
    if test.name in KNOWN:
        raise ValueError(f"two tests have the name {test.name}")
    KNOWN[test.name] = test


def test(*programs, **more):
    """Makes the function below a test, which runs these programs."""
    def known(call):
        add(Test(f"{call.__module__.replace('.', '/')}/{call.__name__}", call, programs, **more))
        return call
    return known


def module_of(name):
    """The module that makes a test known, by the test's name."""
    folder, module, _ = name.split("/", 2)
    return f"{folder}.{module}"


def modules():
    """All modules beside the harness."""
    paths = (path for path in TESTS.glob("[a-z]*/[a-z]*.py") if path.parent.name != "harness")
    return sorted(".".join(path.relative_to(TESTS).with_suffix("").parts) for path in paths)


def all_tests():
    """All tests, by their names."""
    for module in modules():
        importlib.import_module(module)
    return KNOWN


def found(name):
    """The test with this name."""
    importlib.import_module(module_of(name))
    return KNOWN[name]
