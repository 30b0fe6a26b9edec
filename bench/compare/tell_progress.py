#!/usr/bin/env python3
"""Looks at what a built program tells with `--progress` of texts of more than a million lines.

usage: tell_progress.py PROGRAM

Each million of lines is told once, with the site in whose section the last of them stands; of a history and of events there is none.
Ends with status 1 where something else is told, or where the answer isn't the one without `--progress`. Half a minute.
"""
import os
import re
import subprocess
import sys

TOP = os.path.join(os.path.dirname(os.path.abspath(__file__)), "../..")
MILLION = 1_000_000


def made(script, *words):
    return subprocess.run([sys.executable, os.path.join(TOP, "bench/time", script), *words], check=True, capture_output=True).stdout


def wanted_of(text):
    """What is to be told."""
    told, site = [], None
    for number, line in enumerate(text.split(b"\n")[:-1], 1):
        if hit := re.fullmatch(rb"site (\d+)", line):
            site = int(hit[1])
        if number % MILLION == 0:
            told.append(f"sgt: {number:,} lines" + ("" if site is None else f", site {site}"))
    return told


def wrong_of(program, command, text):
    """What is wrong with the command on the text, or None."""
    with_it = subprocess.run([program, command, "--progress"], input=text, capture_output=True)
    without = subprocess.run([program, command], input=text, capture_output=True)
    told, wanted = with_it.stderr.decode().split("\n")[:-1], wanted_of(text)
    if not wanted:
        return "the text has less than a million lines"
    if told != wanted:
        return f"told {told}, wanted {wanted}"
    if (with_it.returncode, with_it.stdout) != (without.returncode, without.stdout) or without.stderr:
        return "the answer differs"
    return None


def main():
    if len(sys.argv) != 2 or "--help" in sys.argv:
        sys.exit(__doc__)
    program, failed = os.path.abspath(sys.argv[1]), 0
    bundle = made("make_bundle.py", "2500000", "16", "20")
    first, _, rest = bundle.split(b"\n", 2)
    texts = [("audit", bundle), ("serial", bundle), ("certify", first + b"\n" + rest), ("replay", made("make_events.py", "1200000", "3", "20")),
             ("check", made("make_history.py", "even", "1100000"))]
    for command, text in texts:
        wrong = wrong_of(program, command, text)
        failed += wrong is not None
        print(f"{command}: {wrong or 'as promised'}", flush=True)
    sys.exit(1 if failed else 0)


if __name__ == "__main__":
    main()
