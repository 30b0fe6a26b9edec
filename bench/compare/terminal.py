#!/usr/bin/env python3
"""Looks at what a built program says where standard input or standard error is a terminal.

usage: terminal.py PROGRAM

Who types at a terminal is told what is awaited; who reads a terminal is told behind a no what to type to learn more. Nobody else is, and
with `-q` nobody is. Prints what differs, and ends with status 1 then.
"""
import os
import pty
import subprocess
import sys
import tempfile
import tty

YES = b'sgt 1\n{"decisions":[{"commit":1,"rank":0}],"sites":1}\nsite 0\nitem x=5\nr1[x]=5\nc1\nfinal x=5\nend\n'
NO = YES.replace(b"r1[x]=5", b"r1[x]=4")
VERDICT = {True: (0, b"yes 1 committed 0 refused 0 withdrawn\n"), False: (1, b"no line 5 F10\n")}
AWAITED = b"sgt: waiting for a bundle from the terminal, which Ctrl-D ends; sgt --help says more\n"
LEARN = b"sgt: to learn more: sgt explain %s\n"
CONTROL_D = b"\x04"

# whether it is typed, whether errors are shown on a terminal, the words, whether the bundle is valid, and what is said
CASES = [
    (False, False, ["audit"], True, b""),
    (False, False, ["audit"], False, b""),
    (False, True, ["audit"], True, b""),
    (False, True, ["audit"], False, LEARN % b"F10"),
    (False, True, ["audit", "bundle"], False, LEARN % b"bundle"),
    (False, True, ["audit", "-q"], False, b""),
    (False, True, ["audit", "-q", "bundle"], False, b""),
    (False, False, ["audit", "--why", "bundle"], False, LEARN % b"bundle"),
    (True, False, ["audit"], True, AWAITED),
    (True, False, ["audit"], False, AWAITED),
    (True, False, ["audit", "bundle"], True, b""),
    (True, True, ["audit"], True, AWAITED),
]


def read_of(place):
    """All that was written to a terminal."""
    told = b""
    while True:
        try:
            piece = os.read(place, 4096)
        except OSError:
            return told
        if not piece:
            return told
        told += piece


def run(program, is_typed, is_shown, words, text):
    """The status, and what is written to standard output and to standard error."""
    with tempfile.TemporaryDirectory() as folder:
        with open(f"{folder}/bundle", "wb") as file:
            file.write(text)
        typed, given = pty.openpty() if is_typed else os.pipe()[::-1]
        reads, shown = pty.openpty() if is_shown else os.pipe()
        if is_shown:
            tty.setraw(shown)
        running = subprocess.Popen([program, *words], stdin=given, stdout=subprocess.PIPE, stderr=shown, cwd=folder)
        os.close(shown)
        os.close(given)
        try:
            os.write(typed, text + CONTROL_D if is_typed else text)
        except OSError:
            pass
        if not is_typed:
            os.close(typed)
        told = read_of(reads)
        out = running.stdout.read()
        return (running.wait(), out), told


def main():
    if len(sys.argv) != 2 or "--help" in sys.argv:
        sys.exit(__doc__)
    program, wrong = os.path.abspath(sys.argv[1]), 0
    for is_typed, is_shown, words, is_valid, wanted in CASES:
        answer, told = run(program, is_typed, is_shown, words, YES if is_valid else NO)
        if answer != VERDICT[is_valid] and "-q" not in words or told != wanted:
            wrong += 1
            print(f"typed {is_typed}, shown {is_shown}, {' '.join(words)}: {answer}, {told!r}; wanted {wanted!r}")
    print(f"{len(CASES)} runs, {wrong} differ")
    sys.exit(wrong > 0)


if __name__ == "__main__":
    main()
