#!/usr/bin/env python3
"""Sees that a fault is told at once on a pipe that stays open.

usage: open_pipe.py PROGRAM [COMMAND ..]

A command is audit, workers, certify, explain, draw, or explain_logs and draw_logs, which are the same of logs without a
certificate: all where none is named. For each command and fault the text up to and with the faulty line goes into a pipe,
whole, line by line, and that line alone behind the others; also a text that fills pages of 4,096 bytes, and of logs without
a certificate one of some thousand lines. The pipe stays open, and nothing more comes. The answer has to be there within two
seconds. Then a stream that doesn't end follows a fault: the program has to end, with less than 50 MB.
"""
import os
import subprocess
import sys
import threading
import time

SECONDS = 2
MEMORY = 50_000_000
COMMANDS = {
    "audit": ["audit"],
    "workers": ["audit", "--workers", "4"],
    "certify": ["certify"],
    "explain": ["explain"],
    "draw": ["draw"],
    "explain_logs": ["explain"],
    "draw_logs": ["draw"],
}
WITHOUT = {"certify", "explain_logs", "draw_logs"}      # what reads logs without a certificate
FIRST = "sgt 1\n"
COMMITS = '{"decisions":[{"commit":1,"rank":0},{"commit":2,"rank":1}],"sites":%d}\n'
HEAD = COMMITS % 2
SITE = "site 0\nitem x=5\nitem y=2\n"
LOG = "r1[x]=5\nw1[y]=7\nc1\nr2[y]=7\nw2[x]=1\nc2\n"
FINALS = "final x=1\nfinal y=7\nend\n"
UNTOUCHED = "final x=1\nfinal y=2\nend\n"
WALK = '{"decisions":[{"refuse":1,"walk":%s}],"sites":1}\n'
STEPS = '[{"item":"x","kind":"rw","site":0,"to":2},{"item":"x","kind":"rw","site":0,"to":1}]'

# of logs: behind line 1, the lines before the fault, its line, and its number
LOGS = [
    ("", "site 0 \n", 2),
    ("", "site 1\n", 7),
    (SITE, "r1[x]=05\n", 2),
    (SITE, "d1[x]=5\n", 2),
    (SITE, "r1[z]=5\n", 8),
    (SITE + "r1[x]=5\n", "r1[x]=5\n", 9),
    (SITE, "r1[x]=6\n", 10),
    (SITE + "w1[y]=7\n", "r1[x]=5\n", 12),
    (SITE + LOG, "r2[x]=1\n", 13),
    (SITE + "r1[x]=5\nw1[y]=7\nc1\nr2[y]=7\n", "final x=5\n", 15),
    (SITE + LOG, "final x=5\n", 16),
    (SITE + LOG + FINALS, "x\n", 2),
    (SITE + LOG + FINALS + "site 1\nitem z=0\n", "r1[z]=1\n", 10),
    ("".join(f"site {k}\nend\n" for k in range(64)), "site 64\n", 19),
]

# of logs without a certificate
BARE = [
    (SITE + "p1[x]=1\nn1\nw2[x]=1\nc2\nr3[x]=1\nw3[y]=1\n", "n3\n", 12),
    (SITE + "p1[x]=1\nn1\nw2[x]=1\nc2\n" + UNTOUCHED + "site 1\nitem z=0\n", "c1\n", 13),
    (SITE + "w1[x]=1\nc1\n" + UNTOUCHED + "site 1\nitem z=0\n", "a1\n", 13),
]

# of bundles: line 2, the lines before the fault, its line, and its number
BUNDLES = [
    ("", "", "{}\n", 3),
    ("", "", '{"decisions":[{"commit":1,"rank":1}],"sites":1}\n', 4),
    ("", "", '{"decisions":[{"commit":1,"rank":0},{"commit":1,"rank":1}],"sites":1}\n', 5),
    ("", "", WALK % "[]", 6),
    ('{"decisions":[{"commit":1,"rank":1},{"commit":2,"rank":0}],"sites":1}\n', SITE + "r1[x]=5\n", "w2[x]=1\n", 11),
    (COMMITS % 1, SITE, "r3[x]=5\n", 13),
    (COMMITS % 1, SITE + "r2[x]=5\nc2\nr1[x]=5\n", "c1\n", 14),
    (COMMITS % 1, SITE + LOG + FINALS, "site 1\n", 19),
    (COMMITS % 2, SITE + LOG + FINALS, "end\n", 7),
]


def cases(command):
    """The name, the text before the faulty line, that line, and the answer, for each fault."""
    found = [("", "sgt 3\n", 1)]
    second = "" if command in WITHOUT else HEAD
    for before, line, number in LOGS + (BARE if command in WITHOUT else []):
        sites = COMMITS % 64 if second and number == 19 else second
        found.append((FIRST + sites + before, line, number))
    if command not in WITHOUT:
        found += [(FIRST + second + before, line, number) for second, before, line, number in BUNDLES]
    for before, line, number in found:
        at = before.count("\n") + 1
        yield before, line, f"no line {at} F{number}\n"


def many_lines():
    """Lines without a fault: two items are read and written by many transactions."""
    lines, value = [], 5
    for tx in range(3, 5003):
        lines.append(f"r{tx}[x]={value}\nw{tx}[x]={tx}\nc{tx}\n")
        value = tx
    return "".join(lines)


def long_case():
    """Of logs without a certificate: a read of another value behind some thousand lines."""
    before = FIRST + SITE + many_lines()
    return before, "r1[x]=5\n", f"no line {before.count(chr(10)) + 1} F10\n"


def of_pages(command, pages):
    """A read of another value, behind items, in so many pages of 4,096 bytes."""
    before = FIRST + ("" if command in WITHOUT else HEAD) + "site 0\n"
    room = pages * 4096 - len(before) - len("r1[a0000000]=\n")
    items, digits = divmod(room - 1, len("item a0000000=0\n"))
    before += "".join(f"item a{item:07}=0\n" for item in range(items))
    return before, f"r1[a0000000]={'7' * (digits + 1)}\n", f"no line {before.count(chr(10)) + 1} F10\n"


def feed(pipe, pieces):
    """Writes the pieces, one after another, as far as they are read."""
    try:
        for piece in pieces:
            pipe.write(piece.encode())
            pipe.flush()
    except OSError:
        pass


def started(program, command):
    pipe, nowhere = subprocess.PIPE, subprocess.DEVNULL
    return subprocess.Popen([program, *COMMANDS[command]], stdin=pipe, stdout=pipe, stderr=nowhere)


def answer(program, command, pieces):
    """What is told of these pieces, in a pipe that stays open; nothing where that takes too long."""
    running = started(program, command)
    feeder = threading.Thread(target=feed, args=(running.stdin, pieces), daemon=True)
    feeder.start()
    try:
        running.wait(SECONDS)
        told = running.stdout.read().decode(errors="replace")
    except subprocess.TimeoutExpired:
        running.kill()
        told = ""
    running.wait()
    feeder.join()
    return told


def lines_of(text):
    return text.splitlines(keepends=True)


def check(program, command):
    """How many answers are wrong or late."""
    wrong = 0
    for before, line, wanted in cases(command):
        whole = before + line
        for how, pieces in (("whole", [whole]), ("by lines", lines_of(whole)), ("the line alone", [before, line])):
            told = answer(program, command, pieces)
            if not told.startswith(wanted):
                wrong += 1
                print(f"{command}, {how}: {wanted.strip()} is wanted behind {whole!r:.300}, not {told[:80]!r}")
    for pages in (1, 2, 3):
        before, line, wanted = of_pages(command, pages)
        told = answer(program, command, [before + line])
        if not told.startswith(wanted):
            wrong += 1
            print(f"{command}, {pages} pages: {wanted.strip()} is wanted, and not {told[:80]!r}")
    if command in WITHOUT:
        before, line, wanted = long_case()
        for how, pieces in (("whole", [before + line]), ("by lines", lines_of(before + line))):
            told = answer(program, command, pieces)
            if not told.startswith(wanted):
                wrong += 1
                print(f"{command}, long, {how}: {wanted.strip()} is wanted, and not {told[:80]!r}")
    return wrong


def endless(program, command):
    """Whether a stream that doesn't end, behind a fault in its first lines, is left in time and in little room."""
    head, wanted = ("sgt 1\nsite 1\n", "no line 2 F7\n") if command in WITHOUT else ("sgt 3\n", "no line 1 F1\n")
    running = started(program, command)
    os.set_blocking(running.stdin.fileno(), True)

    def pour():
        feed(running.stdin, [head])
        while running.returncode is None:
            try:
                os.write(running.stdin.fileno(), b"w1[x]=1\n" * 8192)
            except OSError:
                return

    pourer = threading.Thread(target=pour, daemon=True)
    pourer.start()
    late = threading.Timer(10, running.kill)
    late.start()
    begun = time.monotonic()
    _, status, usage = os.wait4(running.pid, 0)
    late.cancel()
    running.returncode = status
    told = running.stdout.read().decode(errors="replace")
    room = usage.ru_maxrss * 1024
    if told.startswith(wanted) and room < MEMORY:
        return 0
    seconds = time.monotonic() - begun
    print(f"{command}, a stream that doesn't end: {told[:80]!r} after {seconds:.1f} s, {room // 1_000_000} MB")
    return 1


def main():
    words = sys.argv[1:]
    if words in (["--help"], ["-h"]):
        print(__doc__.strip())
        return
    if not words or any(word not in COMMANDS for word in words[1:]):
        sys.exit(__doc__)
    program, commands = words[0], words[1:] or list(COMMANDS)
    wrong = 0
    for command in commands:
        wrong += check(program, command) + endless(program, command)
        print(f"{command}: {sum(1 for _ in cases(command))} faults")
    sys.exit(1 if wrong else 0)


if __name__ == "__main__":
    main()
