#!/usr/bin/env python3
"""Random logs without a certificate, some of them damaged.

usage: random_logs.py SEED COUNT > LOGS       (a line `=== N` stands behind each)
"""
import random
import sys


def site_lines(rng, k, txs, fates, many):
    names = sorted(rng.sample(["x", "y", "z", "u", "item_1"], rng.randint(1, 3)))
    values = {n: rng.randint(0, 2) for n in names}
    lines = ["site %d" % k] + ["item %s=%d" % (n, values[n]) for n in names]
    here = [t for t in txs if rng.random() < many]
    todo = {t: rng.sample(names, rng.randint(0, len(names))) for t in here}
    while here:
        t = rng.choice(here)
        if todo[t] and rng.random() < 0.6:
            n = todo[t].pop()
            lines.append("r%d[%s]=%d" % (t, n, values[n]))
            continue
        fate = fates[t]
        if fate != "a":
            for n in rng.sample(names, rng.choice([0, 1, 1, 2]) if len(names) > 1 else rng.choice([0, 1, 1])):
                v = rng.randint(0, 3)
                add = rng.random() < 0.35
                lines.append("%s%d[%s]=%d" % (("d" if add else "w") if fate == "c" else ("q" if add else "p"), t, n, v))
                if fate == "c":
                    values[n] = values[n] + v if add else v
        lines.append("%s%d" % (fate, t))
        here.remove(t)
    return lines + ["final %s=%d" % (n, values[n]) for n in names] + ["end"]


def damaged(rng, lines):
    lines = list(lines)
    for _ in range(rng.randint(1, 2)):
        k = rng.randrange(len(lines))
        how = rng.randrange(7)
        if how == 0:
            del lines[k]
        elif how == 1:
            lines.insert(k, lines[k])
        elif how == 2:
            j = rng.randrange(len(lines))
            lines[k], lines[j] = lines[j], lines[k]
        elif how == 3:
            lines[k] = lines[k].replace("=", "=1")
        elif how == 4:
            lines[k] = rng.choice("rwdpqcna") + lines[k][1:]
        elif how == 5:
            lines.insert(k, rng.choice(["", "site 1", "end", "c9", "sgt 1", "r1[x]=0", "{}"]))
        else:
            lines[k] = lines[k].replace("1", "2", 1)
        if not lines:
            lines = [""]
    return lines


def case(rng):
    txs = rng.sample(range(1, 12), rng.randint(1, 6))
    fates = {t: rng.choices("cna", [6, rng.choice([0, 1, 3]), 1])[0] for t in txs}
    many = rng.choice([0.5, 0.7, 0.95])
    lines = ["sgt 2" if rng.random() < 0.9 else "sgt 1"]
    for k in range(rng.choice([1, 1, 2, 2, 3])):
        lines += site_lines(rng, k, txs, fates, many)
    if rng.random() < 0.25:
        lines = damaged(rng, lines)
    text = "".join(l + "\n" for l in lines)
    return text[:-rng.randint(1, 4)] if rng.random() < 0.03 else text


if __name__ == "__main__":
    if len(sys.argv) != 3:
        sys.exit(__doc__)
    rng = random.Random(int(sys.argv[1]))
    for n in range(int(sys.argv[2])):
        text = case(rng)
        if not text.endswith("\n"):
            text += "\n"
        sys.stdout.write(text + "=== %d\n" % n)
