#!/usr/bin/env python3
"""Writes logs without a certificate that are hard to certify.

usage: make_hard_logs.py KIND COUNT > LOGS

    again   63 refused transactions, one a site, get their cycle by the last commit; meanwhile COUNT others are refused at
            the last site, each after a commit that all 63 lead to, so they are asked COUNT times
    runs    COUNT runs on one item, a thousand reads and a thousand increments by turns
    chain   COUNT refused transactions, whose only cycle goes through a chain of a thousand commits
"""
import sys


def section(site, items, entries, values):
    """The text of a site whose items begin at 0."""
    return "".join(["site %d\n" % site, *("item %s=0\n" % x for x in items), *entries,
                    *("final %s=%d\n" % (x, values.get(x, 0)) for x in items), "end\n"])


def again(n):
    out = ["sgt 1\n"]
    for site in range(63):
        late = site + 4
        entries = ["r%d[y]=0\nw1[y]=1\nc1\nw2[u]=1\nc2\nr%d[u]=1\nn%d\n" % (late, late, late)]
        out.append(section(site, ["u", "y"], entries, {"u": 1, "y": 1}))
    entries = ["w1[q]=1\nc1\nr3[q]=1\nr3[x]=0\nw2[x]=1\nc2\n"]
    for k in range(n):
        refused, commit = 67 + 2 * k, 68 + 2 * k
        entries.append("r%d[s]=%d\nr%d[q]=1\nw%d[s]=%d\nc%d\np%d[s]=0\nn%d\n"
                       % (refused, k, commit, commit, k + 1, commit, refused, refused))
    out.append(section(63, ["q", "s", "x"], [*entries, "c3\n"], {"q": 1, "s": n, "x": 1}))
    return "".join(out)


def runs(n):
    entries, value = [], 0
    for run in range(n):
        for tx in range(1000 * run + 1, 1000 * run + 1001):
            if run % 2:
                value += 1
            entries.append("d%d[x]=1\nc%d\n" % (tx, tx) if run % 2 else "r%d[x]=%d\nc%d\n" % (tx, value, tx))
    return "sgt 2\n" + section(0, ["x"], entries, {"x": value})


def chain(n):
    names, late = ["x%03d" % i for i in range(1000)], range(1001, n + 1001)
    entries = ["r%d[x000]=0\n" % i for i in late] + ["w1[x000]=1\nc1\n"]
    entries += ["r%d[%s]=1\nw%d[%s]=1\nc%d\n" % (i + 1, names[i - 1], i + 1, names[i], i + 1) for i in range(1, 1000)]
    entries += ["r%d[x999]=1\nn%d\n" % (i, i) for i in late]
    return "sgt 1\n" + section(0, names, entries, {x: 1 for x in names})


KINDS = {"again": again, "runs": runs, "chain": chain}

if __name__ == "__main__":
    if len(sys.argv) != 3 or sys.argv[1] not in KINDS:
        sys.exit(__doc__)
    sys.stdout.write(KINDS[sys.argv[1]](int(sys.argv[2])))
