#!/usr/bin/env python3
"""Runs the tests of refused growths once for each growth that they make, with that one refused.

usage: refuse_growths.py [--limit N] [CRATE ..]

For each crate of tests (none named: every one that has such tests) its tests `growth_*` and `pledge_holds` are proved and built by
`rt test`, and each is run with growth 1 refused, then with growth 2, and so on until a run meets no refusal. A test holds where no
growth is refused and where any one is. Prints a line for each test, and ends with status 1 where a run failed. Needs gcc: a library
loaded in front of the C library counts and refuses.
`rt try --test --fail-alloc N -- TEST` does the same for one N, without a proof, and doesn't say whether a growth was refused.
"""
import argparse
import os
import re
import subprocess
import sys
import tempfile

TOP = os.path.abspath(os.path.join(os.path.dirname(__file__), "../.."))

SHIM = r"""
#define _GNU_SOURCE
#include <dlfcn.h>
#include <errno.h>
#include <fcntl.h>
#include <stdlib.h>
#include <unistd.h>

static long seen;

static int refuses(void) {
    if (__sync_add_and_fetch(&seen, 1) != atol(getenv("REFUSE_GROWTH")))
        return 0;
    close(open(getenv("GROWTHS_TO"), O_CREAT | O_WRONLY, 0600));
    errno = ENOMEM;
    return 1;
}

void *malloc(size_t size) {
    void *(*real)(size_t) = (void *(*)(size_t))dlsym(RTLD_NEXT, "malloc");
    return refuses() ? NULL : real(size);
}

void *realloc(void *old, size_t size) {
    void *(*real)(void *, size_t) = (void *(*)(void *, size_t))dlsym(RTLD_NEXT, "realloc");
    return refuses() ? NULL : real(old, size);
}
"""


def built_shim(folder):
    """The path of the built library."""
    source = os.path.join(folder, "refuse.c")
    with open(source, "w", encoding="utf-8") as file:
        file.write(SHIM)
    subprocess.run(["gcc", "-O1", "-shared", "-fPIC", "-o", source[:-1] + "so", source, "-ldl"], check=True)
    return source[:-1] + "so"


def tests_of(crate):
    """The names of the crate's tests of refused growths, with their modules."""
    found = []
    for at, _, files in sorted(os.walk(f"{TOP}/crates/{crate}/src")):
        for name in sorted(files):
            with open(f"{at}/{name}", encoding="utf-8") as file:
                names = re.findall(r"#\[test\]\s*fn (growth_\w+|pledge_holds)", file.read())
            module = os.path.relpath(f"{at}/{name}", f"{TOP}/crates/{crate}/src")[: -len(".rt")].replace("/", "::")
            found += [test if module == "lib" else f"{module}::{test}" for test in names]
    return found


def refuse_each(program, test, shim, told, words):
    """Runs the test for each growth of its. The runs that held, and those that failed."""
    held = failed = 0
    for n in range(1, words.limit):
        if os.path.exists(told):
            os.unlink(told)
        env = dict(os.environ, LD_PRELOAD=shim, REFUSE_GROWTH=str(n), GROWTHS_TO=told)
        done = subprocess.run([program, test], stdin=subprocess.DEVNULL, capture_output=True, timeout=60, env=env)
        if done.returncode:
            failed += 1
            print(f"{test}: growth {n}: status {done.returncode}: {done.stderr[-200:]!r}")
        else:
            held += 1
        if not os.path.exists(told):
            break
    return held, failed


def main():
    parser = argparse.ArgumentParser(description=__doc__, formatter_class=argparse.RawDescriptionHelpFormatter)
    parser.add_argument("--limit", type=int, default=100000)
    parser.add_argument("crates", nargs="*")
    words = parser.parse_args()
    crates = words.crates or [name for name in sorted(os.listdir(f"{TOP}/crates")) if tests_of(name)]
    failures = 0
    with tempfile.TemporaryDirectory() as folder:
        shim, told = built_shim(folder), f"{folder}/told"
        for crate in crates:
            subprocess.run(["rt", "test"], cwd=f"{TOP}/crates/{crate}", check=True, stdout=subprocess.DEVNULL)
            for test in tests_of(crate):
                held, failed = refuse_each(f"{TOP}/crates/{crate}/out/{crate}_tests", test, shim, told, words)
                print(f"{crate} {test}: {held} runs held, {failed} failed")
                failures += failed
    sys.exit(1 if failures else 0)


if __name__ == "__main__":
    main()
