#!/usr/bin/env python3
"""Compares what the library's `certify` and `explain` write, through its Python binding, with what a built program writes.

usage: fuzz_texts.py PROGRAM [COUNT [SEED]]

COUNT random logs without a certificate (certify/random_logs.py, a quarter of them damaged) are certified, and COUNT bundles
of fuzz_audit.py, most of them damaged, are explained; one text in fifty is a run of random bytes. Of each the whole text and the
status are compared. Then each call is made with room for one byte less and for sixteen more, and the bytes of `out` that are not
the text have to stay as they were. Ends with status 1 at a difference, which it prints. `examples/run.sh` builds the library.
"""
import ctypes
import os
import random
import sys

if len(sys.argv) < 2 or "--help" in sys.argv:
    sys.exit(__doc__)

HERE = os.path.dirname(os.path.abspath(__file__))
sys.path += [os.path.join(HERE, "../../examples/python"), os.path.join(HERE, "certify")]

import fuzz_audit
import fuzz_library
import random_logs
import sgt

MORE = 16


def given(rng, word):
    """A text for the call."""
    if rng.random() < 0.02:
        return fuzz_library.random_bytes(rng)
    if word == "certify":
        return random_logs.case(rng).encode()
    return fuzz_audit.damaged(rng, fuzz_audit.random_run(rng))


def called(word, data, room):
    """What the call returns with this room, the length that it tells, and all of `out`, which was full of 7s."""
    out = ctypes.create_string_buffer(b"\7" * (room + MORE), room + MORE)
    length = ctypes.c_size_t(7)
    number = getattr(sgt.LIBRARY, f"sgt_{word}")(data, len(data), out, room, ctypes.byref(length))
    return number, length.value, out.raw


def complaints(word, data, wanted):
    """What is wrong with the calls on these bytes, where the program's text and status are these."""
    text, status = wanted
    is_yes, found = getattr(sgt, word)(data)
    if (found, 0 if is_yes else 1) != wanted:
        yield "another text", found
    if called(word, data, len(text) + MORE) != (status, len(text), text + b"\7" * 2 * MORE):
        yield "with more room", called(word, data, len(text) + MORE)
    if text and called(word, data, len(text) - 1) != (sgt.ROOM, len(text), b"\7" * (len(text) - 1 + MORE)):
        yield "with less room", called(word, data, len(text) - 1)


def main():
    program = sys.argv[1]
    count = int(sys.argv[2]) if len(sys.argv) > 2 else 1000
    rng = random.Random(int(sys.argv[3]) if len(sys.argv) > 3 else 1)
    differ = 0
    for word in ["certify", "explain"]:
        statuses = {}
        for _ in range(count):
            data = given(rng, word)
            wanted = fuzz_library.by_program(program, word, data)
            statuses[wanted[1]] = statuses.get(wanted[1], 0) + 1
            for what, found in complaints(word, data, wanted):
                differ += 1
                print(word, what, "wanted", wanted, "and got", found, "of", repr(data))
        print(word, f"{count} compared, by status {dict(sorted(statuses.items()))}, {differ} differ so far")
    sys.exit(1 if differ else 0)


if __name__ == "__main__":
    main()
