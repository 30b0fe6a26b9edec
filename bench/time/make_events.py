#!/usr/bin/env python3
"""Writes a big input of a replay.

usage: make_events.py LINES [SITES [ITEMS [SEED]]] > EVENTS      (16 sites and 64 items a site where nothing is said)

Windows of 4,096 short transactions (one to five reads, writes and increments at one or two sites), some thirty of them
active at a time; one commit in eight part by part, one transaction in forty withdrawn.
"""
import random
import sys


def main():
    if len(sys.argv) < 2 or "--help" in sys.argv:
        sys.exit(__doc__)
    lines = int(sys.argv[1])
    sites = int(sys.argv[2]) if len(sys.argv) > 2 else 16
    items = int(sys.argv[3]) if len(sys.argv) > 3 else 64
    rng = random.Random(int(sys.argv[4]) if len(sys.argv) > 4 else 1)
    names = sorted(f"i{n}" for n in range(items))
    out = [f"site {s} " + " ".join(f"{x}={s + n}" for n, x in enumerate(names)) for s in range(sites)]
    written, tx, begun, active = 0, 0, 0, []
    while written < lines:
        if begun == 4096:
            while active:
                written += end(out, rng, active.pop(0))
            out.append("z")
            begun, written = 0, written + 1
        out.append("b")
        tx, begun, written = tx + 1, begun + 1, written + 1
        places = rng.sample(range(sites), min(sites, rng.choice((1, 1, 2))))
        operations = rng.randint(1, 5)
        touched = set()
        for _ in range(operations):
            s, x = rng.choice(places), rng.choice(names)
            touched.add(s)
            kind = rng.random()
            if kind < 0.6:
                out.append(f"r{tx}[{s}.{x}]")
            elif kind < 0.9:
                out.append(f"w{tx}[{s}.{x}]={rng.randrange(1000)}")
            else:
                out.append(f"d{tx}[{s}.{x}]={rng.randrange(10)}")
        written += operations
        active.append((tx, sorted(touched)))
        if len(active) > 30:
            written += end(out, rng, active.pop(rng.randrange(len(active))))
        if len(out) > 100000:
            print("\n".join(out))
            out = []
    while active:
        end(out, rng, active.pop(0))
    if out:
        print("\n".join(out))


def end(out, rng, transaction):
    """Ends the transaction; how many lines that took."""
    tx, touched = transaction
    kind = rng.random()
    if kind < 1 / 40:
        out.append(f"a{tx}")
        return 1
    if kind < 1 / 8:
        out.append(f"v{tx}")
        out.extend(f"i{tx}@{s}" for s in touched)
        return 1 + len(touched)
    out.append(f"c{tx}")
    return 1


main()
