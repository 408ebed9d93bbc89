"""The programs that tests run, and libraries that are loaded before the C library."""

import os
import pathlib
import subprocess
import sys
import threading

from c_library import kit

HARNESS = pathlib.Path(__file__).resolve().parent
TOP = HARNESS.parent.parent
# The variable with the folder that all tests of a run share.
SCRATCH = "TESTS_SCRATCH"
# The examples of a service and of a login, by the names of their crates.
SERVICE_EXAMPLE, LOGIN_EXAMPLE = "example_service", "example_login"


def places_of(folder, name):
    """Where a program may be: in this folder, or as built in the folder of the crates."""
    return [f"{folder}/{name}", f"{folder}/{name}/out/{name}"]


def programs_in(folder, names):
    """The paths of the programs in this folder."""
    found = {}
    for name in names:
        places = places_of(folder, name)
        found[name] = next((os.path.abspath(each) for each in places if os.path.isfile(each)), None)
        if not found[name]:
            sys.exit(f"{name} is not there: {' or '.join(places)}")
    return found


def preloaded(name):
    """The library that is made of a source of this folder, to be loaded before the C library. It is made once for all
    tests of a run."""
    made = pathlib.Path(os.environ[SCRATCH], f"{name}.so")
    if not made.exists():
        own = made.with_suffix(f".{os.getpid()}.{threading.get_ident()}")
        compiler = [
            kit() / "toolchain" / "bin" / "clang", "-fuse-ld=lld", "-O1", "-shared", "-fPIC", "-nostdlib",
            "-fno-builtin"
        ]
        subprocess.run([*compiler, HARNESS / f"{name}.c", "-o", own], check=True)
        os.replace(own, made)
    return str(made)


def fixed_system():
    """The library that sets what the system shows to a program."""
    return preloaded("fixed_system")


def refused_memory():
    """The library that refuses allocations of a program."""
    return preloaded("refused_memory")
