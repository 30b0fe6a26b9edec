#!/usr/bin/env python3
"""A slow certificate maker, written from the rules of a bundle alone: the answer to logs without a second line.

usage: slow.py < LOGS         (writes what `sgt certify` has to write, and ends with its status)
"""
import re
import sys

ENTRY = re.compile(rb"([rwdpq])([1-9][0-9]*)\[([a-z][a-z0-9_]{0,15})\]=(0|[1-9][0-9]*)")
END = re.compile(rb"([cna])([1-9][0-9]*)")
HOLDING = re.compile(rb"(item|final) ([a-z][a-z0-9_]{0,15})=(0|[1-9][0-9]*)")
SITE = re.compile(rb"site (0|[1-9][0-9]*)")
FATE = {"w": "c", "d": "c", "c": "c", "p": "n", "q": "n", "n": "n", "a": "a"}
ACT = {"r": "r", "w": "w", "d": "d", "p": "w", "q": "d"}


def read_line(line, second):
    """The line of a section as a tuple, or None."""
    m = ENTRY.fullmatch(line)
    if m:
        kind, tx, item, value = m[1].decode(), int(m[2]), m[3].decode(), int(m[4])
        if tx >= 2**32 or value >= 2**64 or (kind in "dq" and not second):
            return None
        return ("op", kind, tx, item, value)
    m = END.fullmatch(line)
    if m:
        return ("end", m[1].decode(), int(m[2])) if int(m[2]) < 2**32 else None
    m = HOLDING.fullmatch(line)
    if m:
        return (m[1].decode(), m[2].decode(), int(m[3])) if int(m[3]) < 2**64 else None
    m = SITE.fullmatch(line)
    if m:
        return ("site", int(m[1])) if int(m[1]) < 64 else None
    return ("close",) if line == b"end" else None


class Site:
    def __init__(self):
        self.items, self.finals, self.log = [], [], []  # log: (line, parsed)

    def value(self, item):
        value = dict(self.items)[item]
        for _, e in self.log:
            if e[0] == "op" and e[3] == item and e[1] in "wd":
                value = e[4] if e[1] == "w" else (value + e[4]) % 2**64
        return value


def tx_of(e):
    return e[2]


def fault_of(sites, open_, e, fates):
    """The least fault of the line, without a certificate."""
    if e[0] == "site":
        return None if open_ is None and e[1] == len(sites) else 7
    if open_ is None:
        return 7
    if e[0] == "item":
        fits = not open_.log and not open_.finals and len(open_.items) < 1024
        return None if fits and (not open_.items or open_.items[-1][0] < e[1]) else 7
    last = open_.log[-1][1] if open_.log and not open_.finals else None
    is_open = last is not None and last[0] == "op" and last[1] in "wdpq"
    names = [n for n, _ in open_.items]
    if e[0] in ("op", "end"):
        if open_.finals:
            return 7
        if e[0] == "op":
            if e[3] not in names:
                return 8
            for _, f in open_.log:
                if f[0] == "op" and f[2] == e[2] and f[3] == e[3] and (f[1] == "r") == (e[1] == "r"):
                    return 9
            if e[1] == "r" and open_.value(e[3]) != e[4]:
                return 10
        if is_open:
            goes = "wdc" if last[1] in "wd" else "pqn"
            if e[1] not in goes or tx_of(e) != tx_of(last):
                return 12
        if any(f[0] == "end" and f[2] == e[2] for _, f in open_.log):
            return 13
        if e[1] in FATE and fates.get(e[2], FATE[e[1]]) != FATE[e[1]]:
            return 13
        return None
    if e[0] == "final":
        if len(open_.finals) >= len(names) or names[len(open_.finals)] != e[1]:
            return 7
    elif len(open_.finals) != len(names):
        return 7
    if is_open:
        return 12
    ended = {f[2] for _, f in open_.log if f[0] == "end"}
    if any(f[2] not in ended for _, f in open_.log):
        return 15
    if e[0] == "final" and open_.value(e[1]) != e[2]:
        return 16
    return None


def read(text):
    """(sites, fates), or (line, fault)."""
    pieces = text.split(b"\n")
    sites, open_, fates, second = [], None, {}, None
    for number, line in enumerate(pieces, 1):
        last = number == len(pieces)
        full = open_ is None and len(sites) == 64
        if last and not line:
            return (sites, fates) if sites and open_ is None else (number, 18)
        if len(line) > 1048576:
            return number, 1 if second is None else 19 if full else 2
        if full:
            return number, 19
        if last:
            return number, 18
        if second is None:
            if line not in (b"sgt 1", b"sgt 2"):
                return number, 1
            second = line == b"sgt 2"
            continue
        e = read_line(line, second)
        if e is None:
            return number, 2
        fault = fault_of(sites, open_, e, fates)
        if fault:
            return number, fault
        if e[0] == "site":
            open_ = Site()
        elif e[0] == "item":
            open_.items.append(e[1:])
        elif e[0] == "final":
            open_.finals.append(e[1:])
        elif e[0] == "close":
            sites.append(open_)
            open_ = None
        else:
            open_.log.append((number, e))
            if e[1] in FATE:
                fates[e[2]] = FATE[e[1]]


def conflicts_of(sites):
    """{(a, b): least (site, item, kind, line, line)}."""
    found = {}
    for s, site in enumerate(sites):
        ops = [(n, e) for n, e in site.log if e[0] == "op"]
        for i, (p, e) in enumerate(ops):
            for q, f in ops[i + 1:]:
                a, b = ACT[e[1]], ACT[f[1]]
                if e[3] != f[3] or e[2] == f[2] or (a == b and a in "rd"):
                    continue
                kind = "rw" if a == "r" else "wr" if b == "r" else "ww"
                label = (s, e[3], kind, p, q)
                key = (e[2], f[2])
                if key not in found or label[:3] < found[key][:3]:
                    found[key] = label
    return found


def walk_of(i, through, conflicts):
    """The least of the shortest cycles through i over `through`, as a list of transactions behind i; or None."""
    paths = [[i]]
    met = set()
    for _ in range(len(through)):
        paths = [p + [t] for p in paths for t in sorted(through) if t != i and t not in p and (p[-1], t) in conflicts]
        best = {}
        for p in sorted(paths):
            if p[-1] not in met:
                best.setdefault(p[-1], p)
        met |= set(best)
        paths = sorted(best.values())
        closing = [p for p in paths if (p[-1], i) in conflicts]
        if closing:
            return closing[0][1:] + [i]
        if not paths:
            return None
    return None


def steps(i, walk, conflicts):
    return [(a, b) + conflicts[a, b] for a, b in zip([i] + walk, walk)]


def certify(text):
    """(status, bytes)."""
    got = read(text)
    if isinstance(got[0], int):
        return 1, b"no line %d F%d\n" % got
    sites, fates = got
    ends = [[(e[2], n) for n, e in site.log if e[0] == "end"] for site in sites]
    everyone = sorted(fates)
    conflicts = conflicts_of(sites)

    def left(decided):
        return [[x for x in site if x[0] not in decided] for site in ends]

    def free(decided):
        now = left(decided)
        return [t for t in everyone if t not in decided and all(site[0][0] == t for site in now if t in [x[0] for x in site])]

    decided = []
    while free(decided):
        decided.append(free(decided)[0])
    if len(decided) < len(everyone):
        now = left(decided)
        t = next(site[0][0] for site in now if site)
        met, links = [], []
        while t not in met:
            met.append(t)
            s = next(s for s, site in enumerate(now) if t in [x[0] for x in site] and site[0][0] != t)
            before = now[s][0]
            links.append((before[0], t, s, before[1], dict(now[s])[t]))
            t = before[0]
        links = links[met.index(t):][::-1]
        k = min(range(len(links)), key=lambda k: links[k][0])
        lines = ["%d before %d site %d lines %d %d\n" % x for x in links[k:] + links[:k]]
        return 1, ("no order\n" + "".join(lines)).encode()
    committed = [t for t in everyone if fates[t] == "c"]
    ranks = {}
    while True:
        ready = [t for t in committed if t not in ranks and all(a in ranks for a, b in conflicts if b == t and fates[a] == "c")]
        if not ready:
            break
        ranks[ready[0]] = len(ranks)
    if len(ranks) < len(committed):
        for t in committed:
            walk = walk_of(t, set(committed), conflicts)
            if walk:
                break
        lines = ["%d %s %d site %d item %s lines %d %d\n" % (a, k, b, s, x, p, q) for a, b, s, x, k, p, q in steps(t, walk, conflicts)]
        return 1, ("no ranks\n" + "".join(lines)).encode()
    decided, out = [], []
    while len(decided) < len(everyone):
        now = free(decided)
        plain = [t for t in now if fates[t] != "n"]
        t, walk = (plain[0], None) if plain else (None, None)
        if not plain:
            done = {u for u in decided if fates[u] == "c"}
            for u in now:
                walk = walk_of(u, done, conflicts)
                if walk:
                    t = u
                    break
            if t is None:
                lines = ["%s%d site %d line %d\n" % (fates[site[0][0]], site[0][0], s, site[0][1]) for s, site in enumerate(left(decided)) if site]
                return 1, ("no walk\n" + "".join(lines)).encode()
        decided.append(t)
        if fates[t] == "c":
            out.append('{"commit":%d,"rank":%d}' % (t, ranks[t]))
        elif fates[t] == "a":
            out.append('{"withdraw":%d}' % t)
        else:
            links = ",".join('{"item":"%s","kind":"%s","site":%d,"to":%d}' % (x, k, s, b) for a, b, s, x, k, p, q in steps(t, walk, conflicts))
            out.append('{"refuse":%d,"walk":[%s]}' % (t, links))
    line = '{"decisions":[%s],"sites":%d}\n' % (",".join(out), len(sites))
    first, rest = text.split(b"\n", 1)
    return 0, first + b"\n" + line.encode() + rest


if __name__ == "__main__":
    if len(sys.argv) > 1:
        sys.exit(__doc__)
    status, answer = certify(sys.stdin.buffer.read())
    sys.stdout.buffer.write(answer)
    sys.exit(status)
