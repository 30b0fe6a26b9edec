#!/usr/bin/env python3
"""Explains random logs without a certificate, some of them damaged, and compares with what `certify` says of them.

usage: fuzz_logs.py PROGRAM SEED COUNT       (PROGRAM is a built `sgt`)

The status has to be that of `certify`, or 1 where a transaction is asked for that is nowhere, and the first line its
first line, or of a yes `a certificate exists: `.
"""
import random
import re
import subprocess
import sys

import random_logs


def damaged(rng, text):
    """The text with a line dropped, doubled, changed or exchanged."""
    lines = text.split("\n")
    at, other, what = rng.randrange(len(lines)), rng.randrange(len(lines)), rng.randrange(4)
    if what == 0:
        del lines[at]
    elif what == 1:
        lines.insert(at, lines[other])
    elif what == 2 and lines[at]:
        lines[at] = lines[at][:-1] + rng.choice("0123x]")
    else:
        lines[at], lines[other] = lines[other], lines[at]
    return "\n".join(lines)


def run(program, words, text):
    return subprocess.run([program, *words], input=text, capture_output=True)


def differs(program, text, tx):
    """Whether an explanation is another answer than that of `certify`."""
    said = run(program, ["certify"], text)
    first = said.stdout.split(b"\n")[0]
    wanted = b"a certificate exists: " if said.returncode == 0 else first + b"\n"
    is_there = re.search(rb"^[a-z]%d(\[|$)" % tx, text, re.M)
    for words, status in ((["explain"], said.returncode), (["explain", "--tx", str(tx)], said.returncode if is_there else 1)):
        told = run(program, words, text)
        if told.returncode != status or not told.stdout.startswith(wanted):
            return True
    return False


def main(program, seed, count):
    rng = random.Random(int(seed))
    differ = compared = 0
    for _ in range(int(count)):
        text = random_logs.case(rng)
        if rng.random() < 0.4:
            text = damaged(rng, text)
        if text.split("\n")[1:2] != ["site 0"]:
            continue
        compared += 1
        if differs(program, text.encode(), rng.randrange(1, 6)):
            differ += 1
            print(text)
    print(f"{compared} compared, {differ} differ")
    return 1 if differ else 0


if __name__ == "__main__":
    if len(sys.argv) != 4:
        sys.exit(__doc__)
    sys.exit(main(*sys.argv[1:]))
