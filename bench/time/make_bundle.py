#!/usr/bin/env python3
"""Writes a big valid bundle.

usage: make_bundle.py LINES [SITES [ITEMS [SEED]]] > BUNDLE      (16 sites and 64 items a site where nothing is said)

About LINES lines: short transactions of one to five operations at one or two sites. One group in fifty is a refusal with its
cycle of two steps, one in thirty a pair whose ranks stand against their decisions, one in forty a withdrawal.
"""
import random
import sys
import tempfile


def numbers(words):
    """LINES, SITES, ITEMS and SEED; or the program's own words, and the end."""
    if words in (["--help"], ["-h"]):
        print(__doc__.strip())
        sys.exit()
    if not 1 <= len(words) <= 4 or not all(word.isdecimal() for word in words):
        sys.exit(__doc__)
    lines, sites, items, seed = [int(word) for word in words] + [16, 64, 1][len(words) - 1 :]
    if not 1 <= sites <= 64 or not 1 <= items <= 1000:
        sys.exit("make_bundle.py: 1 to 64 sites, and 1 to 1000 items a site")
    return lines, sites, items, seed


class Bundle:
    """The logs and decisions so far, each in a file of its own."""

    def __init__(self, site_count, item_count, rng):
        self.rng, self.names = rng, [f"i{n:03}" for n in range(item_count)]
        self.first = [[rng.randrange(1000) for _ in self.names] for _ in range(site_count)]
        self.values = [list(row) for row in self.first]
        self.logs = [tempfile.TemporaryFile("w+", buffering=1 << 20) for _ in range(site_count)]
        self.decisions = tempfile.TemporaryFile("w+", buffering=1 << 20)
        self.lines, self.tx, self.rank, self.decided = 2 + site_count * (2 + 2 * item_count), 0, 0, 0

    def decide(self, text):
        self.decisions.write(("," if self.decided else "") + text)
        self.decided += 1

    def read(self, at, site, item):
        self.logs[site].write(f"r{at}[{self.names[item]}]={self.values[site][item]}\n")

    def write(self, at, site, item):
        self.values[site][item] = self.rng.randrange(10 ** self.rng.choice([1, 3, 6, 12]))
        self.logs[site].write(f"w{at}[{self.names[item]}]={self.values[site][item]}\n")

    def refusal(self, site):
        """Two transactions: the second one would close a cycle of two steps."""
        one, other = self.rng.sample(range(len(self.names)), 2)
        a, b = self.tx + 1, self.tx + 2
        self.read(a, site, one)
        self.read(b, site, other)
        self.write(a, site, other)
        self.logs[site].write(f"c{a}\np{b}[{self.names[one]}]=7\nn{b}\n")
        self.decide(f'{{"commit":{a},"rank":{self.rank}}}')
        self.decide(f'{{"refuse":{b},"walk":[{{"item":"{self.names[other]}","kind":"rw","site":{site},"to":{a}}},'
                    f'{{"item":"{self.names[one]}","kind":"rw","site":{site},"to":{b}}}]}}')
        self.tx, self.rank, self.lines = self.tx + 2, self.rank + 1, self.lines + 6

    def crossed(self, site):
        """Two transactions whose ranks stand against their decisions."""
        one, other = self.rng.sample(range(len(self.names)), 2)
        a, b = self.tx + 1, self.tx + 2
        self.read(a, site, one)
        self.write(b, site, one)
        self.logs[site].write(f"c{b}\n")
        self.write(a, site, other)
        self.logs[site].write(f"c{a}\n")
        self.decide(f'{{"commit":{b},"rank":{self.rank + 1}}}')
        self.decide(f'{{"commit":{a},"rank":{self.rank}}}')
        self.tx, self.rank, self.lines = self.tx + 2, self.rank + 2, self.lines + 5

    def withdrawal(self, site):
        self.tx += 1
        self.read(self.tx, site, self.rng.randrange(len(self.names)))
        self.logs[site].write(f"a{self.tx}\n")
        self.decide(f'{{"withdraw":{self.tx}}}')
        self.lines += 2

    def commit(self, site):
        """One transaction, at this site and perhaps at another."""
        self.tx += 1
        rng, count = self.rng, len(self.names)
        for at in {site, rng.randrange(len(self.logs))} if rng.random() < 0.3 else {site}:
            items = sorted(rng.sample(range(count), min(count, rng.choice([1, 2, 2, 3]))))
            changed = [item for item in items if rng.random() < 0.5]
            for item in items:
                self.read(self.tx, at, item)
            for item in changed:
                self.write(self.tx, at, item)
            self.logs[at].write(f"c{self.tx}\n")
            self.lines += len(items) + len(changed) + 1
        self.decide(f'{{"commit":{self.tx},"rank":{self.rank}}}')
        self.rank += 1

    def tell(self, out):
        out.write('sgt 1\n{"decisions":[')
        copy(self.decisions, out)
        out.write(f'],"sites":{len(self.logs)}}}\n')
        for site, log in enumerate(self.logs):
            items = zip(self.names, self.first[site])
            out.write(f"site {site}\n" + "".join(f"item {name}={value}\n" for name, value in items))
            copy(log, out)
            finals = zip(self.names, self.values[site])
            out.write("".join(f"final {name}={value}\n" for name, value in finals) + "end\n")


def main():
    wanted, site_count, item_count, seed = numbers(sys.argv[1:])
    rng = random.Random(seed)
    bundle = Bundle(site_count, item_count, rng)
    while bundle.lines < wanted:
        turn = rng.random()
        site = rng.randrange(site_count)
        if turn < 0.02 and item_count > 1:
            bundle.refusal(site)
        elif turn < 0.05 and item_count > 1:
            bundle.crossed(site)
        elif turn < 0.075:
            bundle.withdrawal(site)
        else:
            bundle.commit(site)
    bundle.tell(sys.stdout)


def copy(file, out):
    file.seek(0)
    while piece := file.read(1 << 20):
        out.write(piece)


if __name__ == "__main__":
    main()
