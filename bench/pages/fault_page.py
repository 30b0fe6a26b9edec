#!/usr/bin/env python3
"""Writes docs/FAULTS.md, the page of the faults, by running the program.

usage: fault_page.py PROGRAM [ROWS]

PROGRAM is `sgt`, or a program that explains its standard input where it has no word, and else the topic that is named.
ROWS is the folder of the rows whose inputs are explained: crates/sgt_rows/data/rows, say."""
import os
import subprocess
import sys

HERE = os.path.dirname(os.path.abspath(__file__))
# a topic, and the row that is its example
TOPICS = [
    ("F1", "explain_f1"),
    ("F2", "explain_f2"),
    ("F3", "explain_f3_k3"),
    ("F4", "explain_f4"),
    ("F5", "explain_f5"),
    ("F6", "explain_f6"),
    ("F7", "explain_f7"),
    ("F8", "explain_f8"),
    ("F9", "explain_f9"),
    ("F10", "explain_f10"),
    ("F11", "explain_f11"),
    ("F12", "explain_f12"),
    ("F13", "explain_f13_decided_otherwise"),
    ("F14", "explain_f14"),
    ("F15", "explain_f15"),
    ("F16", "explain_f16"),
    ("F17", "explain_f17"),
    ("F18", "explain_f18"),
    ("F19", "explain_f19"),
    ("K1", "explain_f3_k1"),
    ("K2", "explain_f3_k2"),
    ("K3", "explain_f3_k3_out_of_range"),
]


def run(program, words, given):
    """What the program writes of this input."""
    command = [program] + (["explain"] if os.path.basename(program) == "sgt" else []) + words
    done = subprocess.run(command, input=given, stdout=subprocess.PIPE, check=False)
    return done.stdout.decode("ascii")


def section(program, rows, topic, row):
    """The part of the page on a topic."""
    with open(os.path.join(rows, row, "stdin"), "rb") as file:
        given = file.read()
    rule = run(program, [topic], b"")
    name, _, body = rule.partition("\n")
    return f"## {name}\n\n```\n{body}```\n\nA bundle with it, explained:\n\n```\n{run(program, [], given)}```\n"


def main():
    if len(sys.argv) not in (2, 3) or "--help" in sys.argv:
        sys.exit(__doc__)
    program = os.path.abspath(sys.argv[1])
    rows = sys.argv[2] if len(sys.argv) == 3 else os.path.join(HERE, "../../crates/sgt_rows/data/rows")
    with open(os.path.join(rows, "explain_of_a_yes", "stdin"), "rb") as file:
        whole = file.read()
    page = [
        "# The faults, explained\n\n"
        "This page is made by the program itself: `bench/pages/fault_page.py` runs `sgt explain` on an example of each fault, and\n"
        "`sgt explain F1` to `F19` and `K1` to `K3` for the rules. [FORMAT.md](FORMAT.md) has the rules whole.\n\n"
        "The examples are this bundle, broken once each:\n\n"
        f"```\n{whole.decode('ascii')}```\n\nIt is explained so:\n\n```\n{run(program, [], whole)}```\n"
    ]
    page += [section(program, rows, topic, row) for topic, row in TOPICS]
    with open(os.path.join(HERE, "../../docs/FAULTS.md"), "w", encoding="ascii") as file:
        file.write("\n".join(page))


if __name__ == "__main__":
    main()
