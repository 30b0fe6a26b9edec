#!/usr/bin/env python3
"""Compares the library, through its Python binding, with a built program and with the plain auditor on random bundles, most of
them damaged.

usage: fuzz_library.py PROGRAM [COUNT [SEED]]      (PROGRAM is - for the plain auditor alone)

The bundles are those of fuzz_audit.py, and one in fifty is a run of random bytes. Of each the verdict is compared with the plain
auditor's and with `audit`'s line and status, and of one in ten the text of the serial run with what `serial` writes. Ends with
status 1 at a difference, which it prints. `examples/run.sh` builds the library.
"""
import os
import random
import subprocess
import sys

if len(sys.argv) < 2 or "--help" in sys.argv:
    sys.exit(__doc__)

sys.path.insert(0, os.path.join(os.path.dirname(os.path.abspath(__file__)), "../../examples/python"))

import fuzz_audit
import plain_audit
import sgt


def random_bytes(rng):
    """Bytes that spell nothing, or begin as a bundle does."""
    front = rng.choice([b"", b"sgt 1\n", b'sgt 1\n{"decisions":[],"sites":1}\nsite 0\n'])
    letters = rng.choice([range(256), b"\n\0 rwc019[]=xyend", b'{}[]",:0decisonmtrank'])
    return front + bytes(rng.choices(letters, k=rng.choice([0, 1, 10, 100, 1000])))


def by_plain(data):
    """The plain auditor's line, and the status that it stands for."""
    line = plain_audit.verdict(data)
    return f"{line}\n".encode(), 0 if line.startswith("yes") else 1


def by_program(program, word, data):
    """What the program writes of the bundle, and its status."""
    done = subprocess.run([program, word], input=data, capture_output=True)
    return done.stdout, done.returncode


def by_library(word, data):
    """The same of the library."""
    if word == "audit":
        verdict = sgt.audit(data)
        return f"{verdict}\n".encode(), 0 if isinstance(verdict, sgt.Yes) else 1
    is_valid, text = sgt.serial(data)
    return text, 0 if is_valid else 1


def main():
    program = sys.argv[1]
    count = int(sys.argv[2]) if len(sys.argv) > 2 else 1000
    rng = random.Random(int(sys.argv[3]) if len(sys.argv) > 3 else 1)
    seen, differ, serials = {}, 0, 0
    for at in range(count):
        is_noise = rng.random() < 0.02
        data = random_bytes(rng) if is_noise else fuzz_audit.damaged(rng, fuzz_audit.random_run(rng))
        found = by_library("audit", data)
        pairs = [("plain", by_plain(data), found)]
        if program != "-":
            pairs.append(("audit", by_program(program, "audit", data), found))
        if program != "-" and at % 10 == 0:
            pairs.append(("serial", by_program(program, "serial", data), by_library("serial", data)))
            serials += 1
        for what, want, got in pairs:
            if want != got:
                differ += 1
                print(what, "wanted", want, "and got", got, "of", repr(data))
        key = "yes" if found[1] == 0 else found[0].split()[-1].decode()
        seen[key] = seen.get(key, 0) + 1
    print(dict(sorted(seen.items())), f"{count} verdicts and {serials} serial runs compared, {differ} differ")
    sys.exit(1 if differ else 0)


if __name__ == "__main__":
    main()
