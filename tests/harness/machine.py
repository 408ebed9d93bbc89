"""What this machine has for tests: stock programs, a C compiler, a tracer; and the programs that are compiled for
tests."""

import os
import pathlib
import shutil
import sys
import threading

from c_library import LIBRARY
from harness.programs import TOP, places_of
from harness.stock_kdcs import fetched, unpacked
from harness.tests import Given
from harness.tracer import lacking

SERVICES = TOP / "tests" / "services"
SANITIZERS, OF_THREADS = ("-g", "-fsanitize=address,undefined"), ("-g", "-fsanitize=thread")
STRICT = ("-std=c11", "-pedantic", "-Wall", "-Wextra", "-Werror")
# Programs that show whether a compiler finds what a test needs.
PROBE = "int main(void) { return 0; }\n"
KRB5_PROBE = "#include <krb5.h>\nint main(void) { krb5_context context; krb5_init_context(&context); return 0; }\n"
# The programs of KDCs, by whose they are, and what each is called in a line `left out`.
STOCK = {
    "mit": ("krb5kdc", "kdb5_util", "kadmin.local", "kinit", "kvno"), "heimdal": ("kgetcred", "kdc", "kadmin.heimdal")
}
CALLED = {"mit": "MIT's krb5kdc", "heimdal": "Heimdal's kdc"}
# The programs that are compiled: over MIT's library, over the library for C, over both, and with threads.
OVER_KRB5, OVER_OURS, OVER_BOTH = ("ap_client", "mk_req"), ("ap_service", "ap_judged"), ("ap_sealed",)
WITH_THREADS = "ap_threads"


class Missing(Exception):
    """This machine lacks something that a test needs."""


class Machine:
    """The folders with the programs of MIT and Heimdal, and the programs that are compiled for tests into the scratch
    folder."""

    def __init__(self, packages, scratch, groups, programs):
        """`packages` is the folder in which stock packages are unpacked, if tests use them."""
        roots = {name: "/" * self.has(*names) for name, names in STOCK.items()}
        if packages and not all(roots.values()) and self.has("apt-get", "dpkg"):
            unpacked_roots = fetched(packages)
            roots = {name: root or unpacked_roots.get(name, "") for name, root in roots.items()}
        self.roots = {name: root for name, root in roots.items() if root}
        self.environment = unpacked(*self.roots.values())
        self.scratch, self.groups, self.alone, self.folder = scratch, groups, threading.Lock(), programs
        self.library, self.lacks_sanitizers = programs / LIBRARY.name if programs else LIBRARY, False
        made = {name: str(scratch / name) for name in (*OVER_KRB5, *OVER_OURS, *OVER_BOTH, WITH_THREADS)}
        self.given = Given(str(programs or TOP / "crates"), self.roots, made)

    @staticmethod
    def has(*programs):
        path = f"{os.environ['PATH']}:/usr/sbin:/usr/lib/heimdal-servers"
        return all(shutil.which(program, path=path) for program in programs)

    def prepare(self, needs, programs):
        """Makes what a test needs, or raises Missing. The folder of --programs may lack some of the programs; without
        that option each has to be there."""
        for name in programs if self.folder else ():
            if not any(map(os.path.isfile, places_of(self.folder, name))):
                raise Missing(f"{name}, which is not in {self.folder}")
        for need in needs:
            if need in STOCK:
                if need not in self.roots:
                    raise Missing(CALLED[need])
            else:
                {
                    "strace": self.strace, "krb5": self.krb5, "kinit": self.kinit, "services_in_c": self.services_in_c,
                    "both_in_c": self.both_in_c, "threads_in_c": self.threads_in_c
                }[need]()

    @staticmethod
    def strace():
        if missing := lacking():
            raise Missing(missing)

    def compiles(self, source, made, *words):
        """Runs the compiler. Tests that need the same program may compile it at the same time."""
        compiler = shutil.which("cc")
        if not compiler:
            raise Missing("a C compiler cc")
        own = made.with_name(f"{made.name}.{threading.get_ident()}")
        ran = self.groups.ran([compiler, "-I", TOP / "docs", "-o", own, source, *words])
        if not ran.returncode:
            os.replace(own, made)
        return ran

    def can_compile(self, text, *words):
        """Whether this machine can compile and run a small program."""
        made = self.scratch / f"probe{threading.get_ident()}"
        source = made.with_suffix(".c")
        source.write_text(text)
        if self.compiles(source, made, *words).returncode:
            return False
        return not self.groups.ran([made], env=self.environment).returncode

    def compile(self, name, *words):
        """Compiles a program of `tests/services` into the scratch folder, once. Since its needs were probed for, an
        error is one of the program."""
        if not (self.scratch / name).exists():
            ran = self.compiles(SERVICES / f"{name}.c", self.scratch / name, *words)
            if ran.returncode:
                raise RuntimeError(f"{name} is not compiled: {ran.stdout[-600:]}")

    def krb5_words(self):
        """The words by which a compiler finds MIT's library, of the packages or of the system."""
        root = self.roots.get("mit", "/").rstrip("/")
        places = [f"-L{each}" for each in pathlib.Path(root or "/").glob("usr/lib/*/") if root]
        places += ["-I", f"{root}/usr/include", "-I", f"{root}/usr/include/mit-krb5"] if root else []
        return *places, "-Wl,--allow-shlib-undefined", "-lkrb5"

    def krb5(self):
        """Compiles programs that call MIT's library."""
        words = self.krb5_words()
        if not self.can_compile(KRB5_PROBE, *words):
            raise Missing("MIT's library with its header (Debian: libkrb5-dev)")
        for name in OVER_KRB5:
            self.compile(name, *words)

    def kinit(self):
        if not shutil.which("kinit", path=self.environment["PATH"]):
            raise Missing("MIT's kinit")

    def services_in_c(self):
        """Builds the library for C, and compiles the programs over it, once."""
        with self.alone:
            if not self.can_compile(PROBE):
                raise Missing("a C compiler cc that makes programs")
            self.lacks_sanitizers = not self.can_compile(PROBE, *SANITIZERS)
            if self.folder and not self.library.exists():
                raise Missing(f"{LIBRARY.name}, which is not in {self.folder}")
            if not self.library.exists():
                ran = self.groups.ran([sys.executable, TOP / "dev" / "c_library.py"])
                if ran.returncode:
                    raise RuntimeError(f"the library for C is not built: {ran.stdout[-600:]}")
            for name in OVER_OURS:
                self.compile(name, *STRICT, *[] if self.lacks_sanitizers else SANITIZERS, self.library)

    def both_in_c(self):
        """Compiles programs over MIT's library and the library for C."""
        self.krb5()
        self.services_in_c()
        for name in OVER_BOTH:
            words = [] if self.lacks_sanitizers else SANITIZERS
            self.compile(name, *words, self.library, *self.krb5_words(), "-lk5crypto")

    def threads_in_c(self):
        """Compiles a program with threads, with the sanitizer of threads if the compiler has it."""
        self.services_in_c()
        if not self.can_compile(PROBE, *OF_THREADS):
            raise Missing("the sanitizer of threads, which cc has not, or which doesn't run here")
        self.compile(WITH_THREADS, *STRICT, *OF_THREADS, self.library, "-lpthread")
