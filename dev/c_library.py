#!/usr/bin/env python3
"""Builds the library for C, crates/ap_accept_c/out/libap_accept.a, with all that a program needs besides the C library:
the proved functions of crates/ap_accept_c, those of the header (docs/ap_accept.c), and those that allocate. Beside it,
the same as a shared object, libap_accept.so.3, which exports the functions of the header alone. Its number is the
header's AP_VERSION.

    python3 dev/c_library.py

It builds over the libraries below the crate that `rt ci` has proved in this copy and left in their folders. That takes
a minute; `rt lib` would prove each of them again, since `rt ci` leaves no stamps. In a working copy, where `rt check`
has built them, it runs `rt lib`. Needs a C compiler: the one that CC names, or cc."""

import argparse
import importlib.util
import os
import pathlib
import re
import shutil
import subprocess
import sys
import tempfile

TOP = pathlib.Path(__file__).resolve().parent.parent
CRATE = TOP / "crates" / "ap_accept_c"
LIBRARY = CRATE / "out" / "libap_accept.a"
# What `rt lib` makes, without the functions of the header.
PROVED = CRATE / "out" / "libap_accept_c.a"
HEADER = TOP / "docs" / "ap_accept.h"
MANUAL = TOP / "docs" / "ap_accept.3"
# What `pkg-config` says of the library.
PC = """prefix={prefix}
Name: plovertrunk-accept
Description: Acceptor of Kerberos AP-REQ messages
Version: {version}
Cflags: -I${{prefix}}/include
Libs: -L${{prefix}}/lib -lap_accept
"""


def kit():
    """The toolchain's folder."""
    command = shutil.which("rt")
    if not command:
        raise FileNotFoundError("the toolchain's command rt is not on the path")
    return pathlib.Path(os.path.realpath(command)).parent.parent


def complete(proved, made):
    """Makes the library of the archive of proved functions, by commands that must succeed."""
    archiver = kit() / "toolchain" / "bin" / "llvm-ar"
    with tempfile.TemporaryDirectory(prefix="c-library-") as folder:
        checks, whole = pathlib.Path(folder, "ap_accept.o"), pathlib.Path(folder, made.name)
        flags = ["-std=c99", "-O2", "-fPIC", "-Wall", "-Wextra", "-Werror", "-I", HEADER.parent]
        run(os.environ.get("CC", "cc"), *flags, "-c", "-o", checks, TOP / "docs" / "ap_accept.c")
        run(archiver, "qcsL", whole, proved, checks, kit() / "c" / "liblibc_c.a")
        shutil.copy(whole, made)


def version():
    """The AP_VERSION of the header."""
    return re.search(r"^#define AP_VERSION (\d+)$", HEADER.read_text(), re.MULTILINE)[1]


def shared_name():
    """The name of the shared object, by which programs that are linked with it ask for it."""
    return f"libap_accept.so.{version()}"


def share(library):
    """Makes a shared object of the library beside it. It exports the functions of the header alone."""
    names = re.findall(r"^(?:u?int32_t|size_t) (ap_\w+)\(", HEADER.read_text(), re.MULTILINE)
    with tempfile.TemporaryDirectory(prefix="c-library-") as folder:
        script, made = pathlib.Path(folder, "names"), pathlib.Path(folder, shared_name())
        script.write_text("{ global: " + "".join(f"{name}; " for name in names) + "local: *; };\n")
        flags = ["-shared", f"-Wl,-soname,{made.name}", f"-Wl,--version-script={script}", "-Wl,-z,defs,-z,relro,-z,now"]
        run(os.environ.get("CC", "cc"), *flags, "-o", made, *(f"-Wl,-u,{name}" for name in names), library)
        shutil.copy(made, library.parent)


def installed(prefix, library):
    """What is installed of the library, for each path its bytes and its mode. `library` is the archive; the shared
    object is beside it. A program is linked with the shared object through a script of the linker, which names it."""
    name = shared_name()
    found = {
        f"{prefix}/include/{HEADER.name}": HEADER.read_bytes(), f"{prefix}/lib/{library.name}": library.read_bytes(),
        f"{prefix}/lib/{name}": (library.parent / name).read_bytes(),
        f"{prefix}/lib/libap_accept.so": f"INPUT(-l:{name})\n".encode(),
        f"{prefix}/lib/pkgconfig/plovertrunk-accept.pc": PC.format(prefix=prefix, version=version()).encode(),
        f"{prefix}/share/man/man3/{MANUAL.name}": MANUAL.read_bytes()
    }
    return {path: (octets, 0o644) for path, octets in found.items()}


def run(*words):
    subprocess.run(list(map(str, words)), check=True)


def main():
    argparse.ArgumentParser(description=__doc__, formatter_class=argparse.RawDescriptionHelpFormatter).parse_args()
    os.chdir(CRATE)
    spec = importlib.util.spec_from_file_location("rtlib", kit() / "bin" / "rtlib.py")
    sys.dont_write_bytecode, rtlib = True, importlib.util.module_from_spec(spec)
    sys.modules["rtlib"] = rtlib
    spec.loader.exec_module(rtlib)
    crate = rtlib.Crate(str(CRATE), str(TOP), {})
    if all(each.is_built() for each in crate.below()):
        built = subprocess.run(["rt", "lib"]).returncode
    else:
        words = crate.words(["--jobs", "1"], keeps=False)
        how = ["--toolchain", str(kit() / "toolchain"), "--backend", "llvm", "-o", str(PROVED)]
        built = subprocess.run([rtlib.RATTLE, "build", *words, *how]).returncode
    if not built:
        complete(PROVED, LIBRARY)
        share(LIBRARY)
    sys.exit(built)


if __name__ == "__main__":
    main()
