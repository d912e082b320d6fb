"""The static library of crates/conway_c, and what C, Python and Rust make of it.

tests/run/library makes it in the gate, and `rt lib` in that crate does. Each script over it passes
where there is none, and says so."""

import os
import shutil
import subprocess
import sys
from pathlib import Path
from typing import NamedTuple

from stored import TOP

LIBRARY = TOP / "crates/conway_c/out/libconway_c.a"
HEADERS = TOP / "examples/c"
# the programs in C that try the library
TRIALS = Path(__file__).resolve().parent / "c"
# of a program whose blocks are counted, by trial.c
COUNTED = "-Wl," + ",".join(f"--wrap={it}" for it in ("malloc", "calloc", "realloc", "aligned_alloc", "posix_memalign", "free"))
# of a program that sanitizers look at, and its status where they find something
SANITIZED = ("-g", "-O1", "-fno-omit-frame-pointer", "-fsanitize=address,undefined", "-fno-sanitize-recover=all")
FOUND = 99
# a program that does nothing wrong, or by its word writes behind a block, loses one, or overflows
PROBE = b"""
#include <limits.h>
#include <stdlib.h>
int main(int count, char **words)
{
    char wrong = count > 1 ? words[1][0] : 0;
    volatile int sum = INT_MAX;
    volatile char *volatile block = malloc(8);
    block[wrong == 'b' ? 8 : 0] = 1;
    sum += wrong == 's';
    if (wrong != 'l') free((void *)block);
    block = NULL;
    return 0;
}
"""


class Parts(NamedTuple):
    """A C compiler, the library, and what that calls of the C library."""

    compiler: str
    library: Path
    archives: list


def kit():
    """The folder of the kit of `rt`."""
    rt = shutil.which("rt")
    return Path(os.environ.get("RATTLE_KIT", Path(rt).resolve().parents[1] if rt else "/"))


def archives_of_kit():
    """What the static library calls of the C library, as the kit has it."""
    return [kit() / "c/liblibc_c.a", kit() / "c/libos_c.a"]


def parts_for(script, library=LIBRARY):
    """What there is to build with, or None, which is told in the name of the script."""
    compiler = shutil.which("cc") or shutil.which("gcc") or shutil.which("clang")
    if compiler is None:
        print(f"{script}: no C compiler here; nothing was run")
        return None
    archives = archives_of_kit()
    lacking = [it for it in (library, *archives) if not it.is_file()]
    if lacking:
        print(f"{script}: there is no {lacking[0].name}: run rt ci and tests/run/library first; nothing was run")
        return None
    return Parts(compiler, library, archives)


def compiled(parts, sources, made, flags=("-O1",)):
    """C files as a program over the library."""
    words = [*flags, "-Wall", "-Wextra", "-Werror", "-I", HEADERS]
    subprocess.run([parts.compiler, *words, *sources, parts.library, *parts.archives, "-o", made], check=True)
    return made


def program_in_c(parts, folder, name):
    """A file of examples/c as a program."""
    return compiled(parts, [HEADERS / f"{name}.c"], folder / name)


def trial_in_c(parts, folder, name, flags=("-O1",)):
    """A file of tests/run/c as a program, whose blocks are counted."""
    return compiled(parts, [TRIALS / f"{name}.c", TRIALS / "trial.c"], folder / name, (*flags, COUNTED))


class Checker(NamedTuple):
    """What looks at a program as it runs: how that is compiled, the words before it, and its environment."""

    compiler: str
    flags: tuple = SANITIZED
    words: tuple = ()
    env: dict = {**os.environ, "ASAN_OPTIONS": f"exitcode={FOUND}:detect_leaks=1", "UBSAN_OPTIONS": f"exitcode={FOUND}:print_stacktrace=1"}


def finds(checker, folder):
    """What a checker finds of what is wrong in a program: bytes behind a block, a lost block, a sum. None where it does not run."""
    made = folder / "probe"
    built = subprocess.run([checker.compiler, *checker.flags, "-x", "c", "-", "-o", made], input=PROBE, capture_output=True)
    if built.returncode:
        return None
    ends = {it: subprocess.run([*checker.words, made, *it.split()], capture_output=True, env=checker.env).returncode for it in ("", "behind", "lost", "sum")}
    return None if ends.pop("") else {it for it, status in ends.items() if status == FOUND}


def sanitizer(folder):
    """The first compiler that has a runtime of its sanitizers, as a checker, or None."""
    for name in ("gcc", "clang", "cc"):
        checker = Checker(shutil.which(name)) if shutil.which(name) else None
        if checker and finds(checker, folder) == {"behind", "lost", "sum"}:
            return checker
    return None


def valgrind(parts, folder):
    """Memcheck as a checker, which also looks at each access of the library's own code, or None."""
    words = ("valgrind", "--quiet", f"--error-exitcode={FOUND}", "--leak-check=full", "--errors-for-leak-kinds=all")
    checker = Checker(parts.compiler, ("-g", "-O1"), words, dict(os.environ))
    return checker if shutil.which("valgrind") and finds(checker, folder) == {"behind", "lost"} else None


def shared_library(parts, folder):
    """A shared library of all calls, for ctypes."""
    made = folder / "libconway.so"
    whole = ["-Wl,--whole-archive", parts.library, "-Wl,--no-whole-archive"]
    subprocess.run([parts.compiler, "-shared", *whole, *parts.archives, "-o", made], check=True)
    return made


def program_in_rust(script, parts, folder):
    """examples/rust as a program, or None where there is no cargo, which is told."""
    cargo = shutil.which("cargo")
    if cargo is None:
        print(f"{script}: no cargo here; examples/rust was left out")
        return None
    folders = dict.fromkeys(str(it.parent) for it in (parts.library, *parts.archives))
    env = {**os.environ, "CONWAY_ARCHIVES": os.pathsep.join(folders), "CARGO_TARGET_DIR": str(folder / "target")}
    crate = TOP / "examples/rust/Cargo.toml"
    subprocess.run([cargo, "build", "--quiet", "--offline", "--locked", "--release", "--manifest-path", crate], env=env, check=True)
    return folder / "target/release/replay"


def program_in_python(shared):
    """The words that run examples/python/conway.py over a shared library."""
    return [sys.executable, str(TOP / "examples/python/conway.py"), str(shared)]
