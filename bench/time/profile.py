#!/usr/bin/env python3
"""Where the instructions of a command go, function by function, as valgrind's callgrind counts them.

usage: profile.py PROGRAM [COMMAND ..]

PROGRAM is a built `sgt`, COMMAND one of audit, serial, certify, explain, replay and run; all where none is said. Inputs: a bundle
of 100,000 lines (16 sites of 64 items; for certify without its line 2), as many lines of events, and a thousand scripts with
disjoint items, by one worker; each is read from a file. It prints instructions a line (of `run`: a script), each function with at least a hundredth of them
by itself. What the compiler puts into its caller is counted there.
"""
import collections
import os
import re
import subprocess
import sys
import tempfile

HERE = os.path.dirname(os.path.abspath(__file__))
sys.path.insert(0, HERE)
LINES = 100_000
FOUND = re.compile(r"^\s*([\d,]+) \([ \d.]+%\)\s+\S+?:(.*?)(?: \[[^\]]*\])?$")


def made(script):
    words = [sys.executable, os.path.join(HERE, script), str(LINES), "16", "64"]
    return subprocess.run(words, check=True, capture_output=True).stdout


def input_of(command):
    """The words behind the program, what it reads, and how many lines or scripts that is."""
    if command == "run":
        import time_run
        return ["run", "--workers", "1"], time_run.inputs()["disjoint"], time_run.SCRIPTS
    if command == "replay":
        text = made("make_events.py")
        return ["replay"], text, text.count(b"\n")
    text = made("make_bundle.py")
    count = text.count(b"\n")
    if command == "certify":
        first, _, rest = text.split(b"\n", 2)
        text = first + b"\n" + rest
    return [command], text, count


def profile(program, command):
    """Instructions by function, and how many units they are for."""
    words, text, count = input_of(command)
    with tempfile.TemporaryDirectory() as folder:
        out, given = os.path.join(folder, "out"), os.path.join(folder, "in")
        with open(given, "wb") as file:
            file.write(text)
        with open(given, "rb") as file:
            subprocess.run(["valgrind", "--tool=callgrind", f"--callgrind-out-file={out}", program] + words, stdin=file,
                           stdout=subprocess.DEVNULL, stderr=subprocess.DEVNULL)
        told = subprocess.run(["callgrind_annotate", "--threshold=100", out], capture_output=True, text=True).stdout
    by = collections.Counter()
    for line in told.split("\n"):
        found = FOUND.match(line)
        if found and "PROGRAM TOTALS" not in line:
            by[re.sub(r"::<.*", "", found[2])] += int(found[1].replace(",", ""))
    return by, count


def main():
    if len(sys.argv) < 2 or "--help" in sys.argv:
        sys.exit(__doc__)
    program = os.path.abspath(sys.argv[1])
    for command in sys.argv[2:] or ["audit", "serial", "certify", "explain", "replay", "run"]:
        by, count = profile(program, command)
        whole = sum(by.values())
        print(f"{command}: {whole / count:,.0f}")
        for name, number in by.most_common():
            if number * 100 < whole:
                break
            print(f"  {number / count:8,.0f}  {name}")


if __name__ == "__main__":
    main()
