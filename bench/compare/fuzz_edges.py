#!/usr/bin/env python3
"""Compares decisions and ranks on the edges that a built program gathers with those on all edges of the rule.

usage: fuzz_edges.py PROGRAM [COUNT [SEED]]

COUNT random runs (100,000 where nothing is said), each of 2 to 12 transactions that read, write and add to one item of their own;
500 runs are one replay, and windows are closed between runs. Here each decision is taken on every conflict of the item's log:
refused is who would close a cycle, and who is committed is placed behind all that it doesn't reach and in front of all that it
does. So the program's decision and its order of ranks show at each decision whether its edges reach what all edges reach. Each
bundle is audited too. Ends with status 1 at a difference, which it prints.
"""
import json
import random
import subprocess
import sys

BATCH, WINDOW = 500, 4096
NAMES = ["a%03x" % j for j in range(BATCH)]


def conflict(first, second):
    """Whether two entries (letter, transaction) of the item are in conflict: not two reads, and not two increments."""
    return first[1] != second[1] and not (first[0] == second[0] and first[0] in "rd")


def reached(entries, start):
    """Whom a transaction reaches over all conflicts of these entries."""
    out = {}
    for at, first in enumerate(entries):
        for second in entries[at + 1:]:
            if conflict(first, second):
                out.setdefault(first[1], set()).add(second[1])
    found, todo = set(), [start]
    while todo:
        for to in out.get(todo.pop(), ()):
            if to not in found:
                found.add(to)
                todo.append(to)
    return found


class Run:
    """One item's transactions, with what is wanted of them."""

    def __init__(self, name, first):
        self.place, self.begun = "0." + name, first
        self.log, self.order, self.drafts, self.wanted, self.events = [], [], {}, {}, []

    def begin(self):
        self.drafts[self.begun] = [False, None]
        self.begun += 1
        self.events.append("b")

    def read(self, tx):
        kept, change = self.drafts[tx]
        if not kept and change != "w":
            self.log.append(("r", tx))
            self.drafts[tx][0] = True
        self.events.append(f"r{tx}[{self.place}]")

    def change(self, tx, letter):
        if self.drafts[tx][1] != "w":
            self.drafts[tx][1] = letter
        self.events.append(f"{letter}{tx}[{self.place}]=1")

    def commit(self, tx):
        _, change = self.drafts.pop(tx)
        own = [(change, tx)] if change else []
        found = reached([e for e in self.log if e[1] in self.order or e[1] == tx] + own, tx)
        self.wanted[tx] = "no" if tx in found else "yes"
        if tx not in found:
            self.log += own
            self.order = [t for t in self.order if t not in found] + [tx] + [t for t in self.order if t in found]
        self.events.append(f"c{tx}")

    def withdraw(self, tx):
        del self.drafts[tx]
        self.events.append(f"a{tx}")


def random_run(rng, name, first):
    run, last = Run(name, first), first + rng.choice([2, 3, 4, 6, 8, 12])
    letters = rng.choice(["rrwd", "rrdd", "rddd", "rrrd", "rw", "rwddd"])
    while run.begun < last or run.drafts:
        if run.begun < last and (not run.drafts or rng.random() < 0.4):
            run.begin()
            continue
        tx, chance = rng.choice(list(run.drafts)), rng.random()
        if chance < 0.3:
            run.commit(tx)
        elif chance < 0.32:
            run.withdraw(tx)
        elif (letter := rng.choice(letters)) == "r":
            run.read(tx)
        else:
            run.change(tx, letter)
    return run


def batch(rng):
    runs, lines, first, opened = [], ["site 0 " + " ".join(x + "=0" for x in NAMES)], 1, 0
    for name in NAMES:
        if opened > WINDOW - 20 or rng.random() < 0.05:
            lines.append("z")
            opened = 0
        run = random_run(rng, name, first)
        opened += run.begun - first
        first = run.begun
        runs.append(run)
        lines += run.events
    return runs, "\n".join(lines) + "\n"


def answer(program, words, text):
    return subprocess.run([program, *words], input=text.encode(), stdout=subprocess.PIPE, check=False).stdout.decode()


def differing(program, runs, text):
    """The first run whose decisions or ranks differ, or None."""
    replies, _, bundle = answer(program, ["replay"], text).partition("---\n")
    told = dict(line[1:].split(" ") for line in replies.splitlines() if line.startswith("c"))
    decisions = json.loads(bundle.split("\n", 2)[1])["decisions"]
    rank = {it["commit"]: it["rank"] for it in decisions if "commit" in it}
    for run in runs:
        if any(told[str(tx)] != verdict for tx, verdict in run.wanted.items()):
            return run
        if sorted(run.order, key=rank.get) != run.order:
            return run
    return None if answer(program, ["audit"], bundle).startswith("yes") else runs[0]


def main():
    if len(sys.argv) < 2 or "--help" in sys.argv:
        sys.exit(__doc__)
    program = sys.argv[1]
    count, seed = (int(word) for word in (sys.argv[2:] + ["100000", "1"][len(sys.argv) - 2:])[:2])
    rng, done, refused = random.Random(seed), 0, 0
    while done < count:
        runs, text = batch(rng)
        run = differing(program, runs, text)
        if run is not None:
            print("differs:", " ".join(run.events), run.wanted, run.order)
            sys.exit(1)
        refused += sum(verdict == "no" for run in runs for verdict in run.wanted.values())
        done += len(runs)
    print(f"{done} runs of one item, seed {seed}: 0 differ, {refused} refused")


if __name__ == "__main__":
    main()
