"""The inputs that hostile.py times: each is made for a number n, and grows as n does.

usage: none, hostile.py imports it
"""
import json
import sys

NAMES = ["a%03x" % j for j in range(1024)]
WINDOW = 4000


def item(j):
    return "%d.%s" % (j // 1024, NAMES[j % 1024])


def sites(items):
    parts = range((items + 1023) // 1024)
    return "".join("site %d %s\n" % (s, " ".join(x + "=0" for x in NAMES[: min(items - 1024 * s, 1024)])) for s in parts)


def windows(lines_of, n):
    """Transactions one after another, with a new window after each 4,000."""
    text = ["site 0 x=0\n"]
    for i in range(1, n + 1):
        text.append("b\n" + lines_of(i) + "c%d\n" % i)
        if i % 4000 == 0:
            text.append("z\n")
    return "".join(text)


def add_and_read(n):
    return windows(lambda i: ("d%d[0.x]=1\n" if i % 2 else "r%d[0.x]\n") % i, n)


def adds(n):
    return windows(lambda i: "d%d[0.x]=1\n" % i, n)


def read_and_write(n):
    return windows(lambda i: "r%d[0.x]\nw%d[0.x]=%d\n" % (i, i, i), n)


def old_reads(n):
    """One half reads the first version; the other half writes, and commits first."""
    n = min(n, 4000) // 2
    begun = "".join("b\n" for _ in range(2 * n))
    reads = "".join("r%d[0.x]\n" % i for i in range(1, n + 1))
    writes = "".join("w%d[0.x]=%d\nc%d\n" % (i, i, i) for i in range(n + 1, 2 * n + 1))
    return "site 0 x=0\n" + begun + reads + writes + "".join("c%d\n" % i for i in range(n, 0, -1))


def pending(n, falling=True):
    txs = list(range(1, (n + 999) // 1000 + 1))
    reads = "".join("r%d[0.%s]\n" % (t, x) for t in (reversed(txs) if falling else txs) for x in NAMES[:1000])
    return sites(1024) + "b\n" * len(txs) + reads + "".join("a%d\n" % t for t in txs)


def draft(n):
    n = min(n, 65536)
    return sites(65536) + "b\n" + "".join("r1[%s]\nw1[%s]=1\n" % (item(j), item(j)) for j in range(65535, 65535 - n, -1)) + "c1\n"


def blind_writes(n):
    line = " ".join("w[%s]=1" % item(j) for j in range(min(n, 32768))) + "\n"
    return sites(min(n, 32768)) + line * 2


def adders(n):
    lines = [" ".join(("d[%s]=1" if i % 2 else "r[%s]") % item(j) for j in range(200)) for i in range(n // 200 + 1)]
    return sites(200) + "\n".join(lines) + "\n"


def same_item(n):
    return "site 0 x=0\n" + "r[0.x] w[0.x]=1\n" * min(n, 1000)


def bundle(n, line2='{"decisions":[%s],"sites":1}', rank=lambda i, n: i - 1, order=lambda i, n: i):
    """A log of reads of one item, by transactions in some order."""
    decided = line2 % ",".join('{"commit":%d,"rank":%d}' % (i, rank(i, n)) for i in range(1, n + 1))
    entries = "".join("r%d[x]=0\n" % order(i, n) for i in range(1, n + 1))
    ends = "".join("c%d\n" % order(i, n) for i in range(1, n + 1))
    return "sgt 1\n" + decided + "\nsite 0\nitem x=0\n" + entries + ends + "final x=0\nend\n"


def uncertified(text):
    first, _, rest = text.partition("\n")
    return first + "\n" + rest.partition("\n")[2]


# ---- replays


def wide(n):
    """Transactions one after another that read an item at each of 64 sites."""
    text = [sites(65536)]
    for i in range(1, n // 64 + 2):
        text.append("b\n" + "".join("r%d[%d.%s]\n" % (i, s, NAMES[i % 1024]) for s in range(64)) + "c%d\n" % i)
        if i % WINDOW == 0:
            text.append("z\n")
    return "".join(text)


def in_halves(n, first_half, second_half):
    """Windows of two halves of transactions that are begun together, each half at most 2,000."""
    text, first = ["site 0 x=0\n"], 1
    while n > 0:
        k = min(WINDOW // 2, n)
        early, late = range(first, first + k), range(first + k, first + 2 * k)
        text += ["b\n" * (2 * k), first_half(early, late), second_half(early, late), "z\n"]
        first, n = first + 2 * k, n - k
    return "".join(text)


def sums_and_reads(n):
    """One half adds to an item and commits, and then the other half reads the sum."""
    adds = lambda early, late: "".join("d%d[0.x]=1\nc%d\n" % (i, i) for i in early)
    reads = lambda early, late: "".join("r%d[0.x]\n" % i for i in late) + "".join("c%d\n" % i for i in late)
    return in_halves(n, adds, reads)


def reads_and_sums(n):
    """One half reads an item and commits, and then the other half adds to it."""
    reads = lambda early, late: "".join("r%d[0.x]\nc%d\n" % (i, i) for i in early)
    adds = lambda early, late: "".join("d%d[0.x]=1\nc%d\n" % (i, i) for i in late)
    return in_halves(n, reads, adds)


def every_version(n):
    """An item is written again and again; each version is read by one of those that end behind all writes, the last first."""
    steps = lambda early, late: "".join("w%d[0.x]=%d\nc%d\nr%d[0.x]\n" % (i, i, i, j) for i, j in zip(early, late))
    return in_halves(n, steps, lambda early, late: "".join("c%d\n" % j for j in reversed(late)))


def falling_ends(n):
    """Transactions of a window that read an item and end in falling order."""
    reads = lambda early, late: "".join("r%d[0.x]\n" % i for i in [*early, *late])
    return in_halves(n, reads, lambda early, late: "".join("c%d\n" % i for i in [*reversed(late), *reversed(early)]))


def against(n):
    """As many edges as k adders and readers have, and then k transactions that are placed in front of all of them."""
    text, first = ["site 0 x=0 y=0\n"], 1
    while n > 0:
        k = min(1365, n)
        old, writer = range(first, first + k), first + k
        adders, readers = range(writer + 1, writer + 1 + k), range(writer + 1 + k, writer + 1 + 2 * k)
        text.append("b\n" * (3 * k + 1) + "".join("r%d[0.y]\n" % i for i in old))
        text.append("w%d[0.y]=1\nw%d[0.x]=1\nc%d\n" % (writer, writer, writer))
        text.append("".join("d%d[0.x]=1\nc%d\n" % (i, i) for i in adders) + "".join("r%d[0.x]\n" % i for i in readers))
        text.append("".join("c%d\n" % i for i in [*readers, *old]) + "z\n")
        first, n = first + 3 * k + 1, n - k
    return "".join(text)


def alone(n):
    """A chain of k adders, k readers of their sum, and k that are placed in front: each adder alone leads to the next one."""
    text, first = ["site 0 x=0 y=0 z=0\n"], 1
    while n > 0:
        k = min((WINDOW + 95) // 3, n)
        adders, readers, late = range(first, first + k), range(first + k, first + 2 * k), range(first + 2 * k, first + 3 * k)
        text.append("b\n" * (3 * k) + "".join("r%d[0.y]\n" % i for i in late) + "w%d[0.y]=1\n" % first)
        text.append("".join("w%d[0.z]=1\nd%d[0.x]=1\nc%d\n" % (i, i, i) for i in adders))
        text.append("".join("r%d[0.x]\nc%d\n" % (i, i) for i in readers) + "".join("c%d\n" % i for i in late) + "z\n")
        first, n = first + 3 * k, n - k
    return "".join(text)


def long_walks(n):
    """Chains of a thousand, and a thousand transactions that are refused, each with the whole chain as its walk."""
    text, first = [sites(2048)], 1
    while n > 0:
        k = min(1000, n)
        chain, late = range(first + 1, first + k), range(first + k, first + 2 * k)
        text.append("b\n" * (2 * k) + "".join("r%d[%s]\n" % (i, item(0)) for i in late))
        text.append("w%d[%s]=1\nw%d[%s]=1\nc%d\n" % (first, item(0), first, item(1), first))
        text.append("".join("r%d[%s]\nw%d[%s]=1\nc%d\n" % (i, item(j), i, item(j + 1), i) for j, i in enumerate(chain, 1)))
        text.append("".join("r%d[%s]\nc%d\n" % (i, item(k), i) for i in late) + "z\n")
        first, n = first + 2 * k, n - k
    return "".join(text)


def full_window(n):
    return "site 0 x=0\n" + "b\n" * n


def unknown_items(n):
    return sites(65536) + "b\n" + "".join("r1[%d.zz]\n" % (i % 64) for i in range(n)) + "a1\n"


def refused_events(n):
    """One with many reads is decided, and then asked for what it may not do again."""
    reads = "".join("r1[%s]\n" % item(j) for j in range(min(n // 2, 20000)))
    installs = "".join("i1@%d\n" % s for s in range(64))
    return sites(65536) + "b\n" + reads + "v1\n" + "v1\nc1\na1\n" * (n // 4) + installs


def shared_names():
    """1,024 names with one key, and so one hint: what a bit changes in the second half, one in the first half takes back."""
    names = []
    for n in range(1024):
        front, back = bytearray(b"dddddddd"), bytearray(b"aaaaaaaa")
        for i in range(8):
            bits = n >> 2 * i & 3
            back[i] ^= bits << 3
            front[(i + 4) % 8] ^= bits
        names.append((front + back).decode())
    return sorted(names)


def shared_hints(n, made=[]):
    """Transactions that read each of a thousand items whose names share a hint."""
    if not made:
        made.extend(shared_names())
    reads = ["r%%d[0.%s]\n" % x for x in made[:1000]]
    text = ["site 0 %s\n" % " ".join(x + "=0" for x in made)]
    for i in range(1, n // 1000 + 2):
        text.append("b\n" + "".join(read % i for read in reads) + "c%d\n" % i)
    return "".join(text)


# ---- runs


def wide_scripts(n):
    """Scripts that read an item at each of 64 sites with 1,024 items."""
    return sites(65536) + (" ".join("r[%d.a000]" % s for s in range(64)) + "\n") * min(n, 1000)


def late_sources(n):
    """A script with many sums, whose source stands behind many other operations."""
    k = min(n, 40000)
    return "site 0 a=0 b=0 c=0\n" + "r[0.b] " * k + "r[0.a]" + " w[0.c]=0.a+1" * k + "\n"


def same_reads(n):
    return "site 0 a=0\n" + "r[0.a] " * min(n, 120000) + "r[0.a]\n"


def same_writes(n):
    return "site 0 a=0\n" + "w[0.a]=1 " * min(n, 90000) + "d[0.a]=1\n"


def reads_and_writes(n):
    k = min(n // 2, 32000)
    return sites(32768) + (" ".join("r[%s] w[%s]=1" % (item(j), item(j)) for j in range(k)) + "\n") * 2


def withdrawn_scripts(n):
    """A thousand scripts that are withdrawn at their last operation."""
    k = max(min(n // 1000, 60000), 1)
    line = " ".join("r[%s]" % item(j) for j in range(k)) + " w[0.a000]=0.a000+18446744073709551615\n"
    return sites(65536).replace("a000=0", "a000=5", 1) + line * 1000


# ---- bundles


def section(site, items, entries, last=0):
    """The section of a site whose items begin with 0; entries are (letter, transaction, item or None, value)."""
    lines = ["%s%d\n" % (k, t) if x is None else "%s%d[%s]=%d\n" % (k, t, x, v) for k, t, x, v in entries]
    finals = ["final %s=%d\n" % (x, last) for x in items]
    return "".join(["site %d\n" % site, *("item %s=0\n" % x for x in items), *lines, *finals, "end\n"])


def certificate(decisions, count=1):
    return "sgt 1\n" + json.dumps({"decisions": decisions, "sites": count}, separators=(",", ":")) + "\n"


def committed(n):
    return [{"commit": i, "rank": i - 1} for i in range(1, n + 1)]


def ends(txs):
    return [("c", i, None, 0) for i in txs]


def step(name, kind, to):
    return {"item": name, "kind": kind, "site": 0, "to": to}


def hub_walks(n):
    """One transaction reads 1,000 items, and each of n refused ones has a cycle through it."""
    late = range(2, n + 2)
    entries = [("r", i, "a000", 0) for i in late] + [("r", 1, x, 0) for x in NAMES[1:1000]] + [("w", 1, "a000", 0), ("c", 1, None, 0)]
    for i in late:
        entries += [("p", i, "a3e7", 5), ("n", i, None, 0)]
    walks = [{"refuse": i, "walk": [step("a000", "rw", 1), step("a3e7", "rw", i)]} for i in late]
    return certificate(committed(1) + walks) + section(0, NAMES[:1000], entries)


def line2(n, decision):
    """A log of reads, with a line 2 whose decisions are made by the function."""
    first, _, rest = uncertified(bundle(n)).partition("\n")
    return '%s\n{"decisions":[%s],"sites":1}\n%s' % (first, ",".join(decision(i) for i in range(1, n + 1)), rest)


def other_order(n):
    return line2(n, lambda i: '{"rank":%d,"commit":%d}' % (i - 1, i))


def out_of_range(n):
    return line2(n, lambda i: '{"commit":%d,"rank":%d}' % (i if i < n else 2**32, i - 1))


def missing_member(n):
    return line2(n, lambda i: '{"commit":%d,"rank":%d}' % (i, i - 1) if i < n else '{"commit":%d}' % i)


def unknown_members(n):
    return "sgt 1\n{" + ",".join('"k%d":0' % i for i in range(n)) + ',"sites":1}\nsite 0\nend\n'


def deep(n):
    return "sgt 1\n" + "[" * n + "]" * n + "\nsite 0\nend\n"


def sparse(n):
    """Numbers of transactions far above the count of decisions."""
    txs = [i * (4294967295 // n) for i in range(1, n + 1)]
    decisions = [{"commit": tx, "rank": i} for i, tx in enumerate(txs)]
    return certificate(decisions) + section(0, ["x"], [("r", tx, "x", 0) for tx in txs] + ends(txs))


def many_sites(n):
    """Each transaction reads at each of 64 sites."""
    txs = range(1, n // 64 + 2)
    return certificate(committed(len(txs)), 64) + "".join(section(s, ["x"], [("r", i, "x", 0) for i in txs] + ends(txs)) for s in range(64))


def many_items(n):
    """Transactions that read and write each of 1,000 items of a site."""
    txs, entries = range(1, n // 2000 + 2), []
    for i in txs:
        entries += [("r", i, x, 0) for x in NAMES[:1000]] + [("w", i, x, 0) for x in NAMES[:1000]] + ends([i])
    return certificate(committed(len(txs))) + section(0, NAMES[:1000], entries)


def alternating(n):
    """Many open transactions that read by turns from both ends."""
    k = n // 10 + 1
    turns = [i // 2 + 1 if i % 2 == 0 else k - i // 2 for i in range(k)]
    return certificate(committed(k)) + section(0, NAMES[:10], [("r", t, x, 0) for x in NAMES[:10] for t in turns] + ends(range(1, k + 1)))


def blind(n):
    """Each transaction writes the item."""
    entries = [entry for i in range(1, n + 1) for entry in (("w", i, "x", 7), ("c", i, None, 0))]
    return certificate(committed(n)) + section(0, ["x"], entries, 7)


# ---- logs without a certificate


def hub(n, closing):
    """One transaction leads to one half of the others. The other half, refused, leads to it, and back from the last if closing."""
    half, late = range(2, n // 2 + 2), range(n // 2 + 2, 2 * (n // 2) + 2)
    entries = [("r", i, "y", 0) for i in late] + [("w", 1, "x", 0), ("w", 1, "y", 0), ("c", 1, None, 0)]
    entries += [("r", i, "x", 0) for i in half] + [("w", half[-1], "z", 0)] + ends([half[-1], *half[:-1]])
    for i in late:
        entries += [("r", i, "z", 0)] * closing + [("n", i, None, 0)]
    return "sgt 1\n" + section(0, ["x", "y", "z"], entries)


def opposite_ends(n):
    """The ends stand at two sites in opposite order."""
    return "sgt 1\n" + section(0, [], ends(range(1, n + 1))) + section(1, [], ends(range(n, 0, -1)))


def no_cycles(n):
    """Refused transactions alone, none of which has a cycle."""
    return "sgt 1\n" + section(0, ["x"], [("r", i, "x", 0) for i in range(1, n + 1)] + [("n", i, None, 0) for i in range(1, n + 1)])


def logged_sums(n):
    """One half adds to an item, and the other half reads the sum."""
    adds = [entry for i in range(1, n // 2 + 1) for entry in (("d", i, "x", 0), ("c", i, None, 0))]
    late = range(n // 2 + 1, 2 * (n // 2) + 1)
    return "sgt 2\n" + section(0, ["x"], adds + [("r", i, "x", 0) for i in late] + ends(late))


# ---- histories


def history(transactions):
    """One line for each list of operations, which ran one after another. A session is a number's, or the line's own."""
    line = '{"tx":%d,"end":"commit","ops":%s,"begin":%d,"done":%d,"session":%d}\n'
    return "".join(line % (i, json.dumps(ops), 2 * i, 2 * i + 1, i if at is None else at) for i, (ops, at) in enumerate(transactions))


def late_read(n, session=None):
    """The first writes an item; the last, behind n that read another one, reads it as it was before."""
    return history([([["w", "x", 1]], session), *[([["r", "y", 0]], session)] * n, ([["r", "x", 0]], session)])


def stale_read(n):
    """Writes of 1,000 items by turns, and near the end one read of a version that was written over long ago."""
    writes = [([["w", NAMES[i % 1000], i // 1000 + 1]], None) for i in range(n)]
    return history([*writes[:-5], ([["r", NAMES[7], 1]], None), *writes[-5:]])


def broken_pairs(n, in_sessions=False):
    """Pairs of a write and a later read that doesn't see it, each in a session of its own."""
    at = lambda i: i if in_sessions else None
    return history([it for i in range(n // 2) for it in (([["w", i, 1]], at(i)), ([["r", i, 0]], at(i)))])


def last_pair(n):
    """Lines of 100 sessions by turns, all kept; and a pair at the end that real time alone breaks."""
    reads = [([["r", "y", 0]], i % 100) for i in range(n)]
    return history([*reads, ([["w", "x", 1]], None), ([["r", "x", 0]], None)])


def backward(n):
    """Each reads what the line behind it writes; all ran at once, so that an order serves and keeps real time."""
    line = '{"tx":%d,"end":"commit","ops":[["r",%d,1],["w",%d,1]],"begin":1,"done":2,"session":%d}\n'
    last = '{"tx":%d,"end":"commit","ops":[["w",%d,1]],"begin":1,"done":2,"session":%d}\n'
    return "".join(line % (i, i + 1, i, i) for i in range(n)) + last % (n, n, n)


def long_way(n):
    """Each reads what the line in front of it writes, and the last one alone was done before the first began."""
    line = '{"tx":%d,"end":"commit","ops":[["r",%d,1],["w",%d,1]],"begin":0,"done":9,"session":%d}\n'
    first = '{"tx":0,"end":"commit","ops":[["w",0,1]],"begin":5,"done":9,"session":0}\n'
    last = '{"tx":%d,"end":"commit","ops":[["r",%d,1]],"begin":0,"done":1,"session":%d}\n'
    return first + "".join(line % (i, i - 1, i, i) for i in range(1, n)) + last % (n, n - 1, n)


if __name__ == "__main__":
    sys.exit(__doc__)
