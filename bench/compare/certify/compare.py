#!/usr/bin/env python3
"""Compares what `sgt certify` writes with slow.py, on random logs, and audits each bundle that it makes.

usage: compare.py PROGRAM SEED COUNT       (PROGRAM is a built `sgt`)
"""
import random
import subprocess
import sys

import random_logs
import slow


def run(program, word, text):
    return subprocess.run([program, word], input=text, capture_output=True)


def main(program, seed, count):
    rng = random.Random(int(seed))
    differ = made = 0
    for _ in range(int(count)):
        text = random_logs.case(rng).encode()
        found = run(program, "certify", text)
        is_made = found.returncode == 0
        made += is_made
        if (found.returncode, found.stdout) != slow.certify(text) or (is_made and run(program, "audit", found.stdout).returncode != 0):
            differ += 1
            sys.stdout.write(text.decode() + "--- %d\n" % found.returncode + found.stdout.decode())
    print("%s compared, %d made, %d differ" % (count, made, differ))
    return differ != 0


if __name__ == "__main__":
    if len(sys.argv) != 4:
        sys.exit(__doc__)
    sys.exit(main(*sys.argv[1:]))
