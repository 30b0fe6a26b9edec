"""A common order of the ends of all sites, where the sites logged them in different ones: as after a two-phase commit.

An end stands in the text with its transaction's changes directly in front of it. It may stand wherever nothing in
conflict with these is passed: behind as many reads as `lows` says, and in front of the others from `ups` on. So there
is a graph of what has to stand before what, and an order of that graph is taken in which transactions stand as they
were decided, each at its first end, as far as that can be.
"""
import bisect
import heapq
from array import array

CHANGES = b"wp"


class Span:
    """Of each end of a site: how many reads have to stand in front of it (`lows`), and may (`ups`)."""

    def __init__(self, site):
        # (an edge is an end that has to stand before another, which is at the same place of `behind`)
        self.site, self.before, self.behind = site, array("I"), array("I")
        count = len(site.end_txs)
        self.lows, self.ups = array("I", [0]) * count, array("I", [len(site.read_txs)]) * count
        items = len(site.all_items)
        self.last_read, self.unread = [0] * items, [[] for _ in range(items)]
        self.writer, self.adders, self.own = [None] * items, [[] for _ in range(items)], {}
        read = 0
        for end, slot in enumerate(site.end_slots):
            self.read_up_to(read, slot)
            read = slot
            self.meet(end)
        self.read_up_to(read, len(site.read_txs))
        del self.last_read, self.unread, self.writer, self.adders, self.own

    def read_up_to(self, first, last):
        for read in range(first, last):
            item = self.site.read_items[read]
            for end in self.unread[item]:
                self.ups[end] = min(self.ups[end], read)
            self.unread[item] = []
            self.last_read[item] = self.own[self.site.read_txs[read]] = read + 1

    def meet(self, end):
        site = self.site
        low = self.own.pop(site.end_txs[end], 0)
        for change in site.changes_of(end):
            item = site.change_items[change]
            low = max(low, self.last_read[item])
            is_write = site.change_kinds[change] in CHANGES
            before = self.adders[item] if is_write and self.adders[item] else [self.writer[item]]
            for other in before:
                if other is not None:
                    self.before.append(other)
                    self.behind.append(end)
            if site.end_kinds[end] == ord("n"):
                continue  # (nobody sees what a refused one asked for: others may pass it)
            self.unread[item].append(end)
            if is_write:
                self.writer[item], self.adders[item] = end, []
            else:
                self.adders[item].append(end)
        self.lows[end] = low


class Prefix:
    """Transactions in a row. Who waits for the first so many of them is let go once these are placed."""

    def __init__(self, row):
        self.row, self.at, self.waiting = row, 0, {}

    def wait(self, count, tx):
        """Whether the transaction has to wait."""
        if count:
            self.waiting.setdefault(count, []).append(tx)
        return count > 0

    def freed(self, placed):
        while self.at < len(self.row) and placed[self.row[self.at]]:
            self.at += 1
            yield from self.waiting.pop(self.at, ())


class Search:
    """Places the transactions one by one.

    A `careful` search keeps a refused transaction behind all that ended before it at a site."""

    def __init__(self, spans, decided, careful):
        self.decided, self.placed, self.count = decided, array("I", [0]) * len(decided), 0
        self.waits, self.behind, self.rows = array("I", [0]) * len(decided), {}, {}
        for span in spans:
            self.enter(span, careful)
        self.ready = [(decided[tx], tx) for tx in self.rows if not self.waits[tx]]
        heapq.heapify(self.ready)
        while self.ready:
            self.place(heapq.heappop(self.ready)[1])

    def enter(self, span, careful):
        txs = span.site.end_txs
        by_up = sorted(range(len(txs)), key=span.ups.__getitem__)
        ups = array("I", (span.ups[end] for end in by_up))
        rows = [Prefix(array("I", (txs[end] for end in by_up)))] + ([Prefix(txs)] if careful else [])
        for end, tx in enumerate(txs):
            self.rows.setdefault(tx, []).extend(rows)
            self.waits[tx] += rows[0].wait(bisect.bisect_left(ups, span.lows[end]), tx)
            if careful and span.site.end_kinds[end] == ord("n"):
                self.waits[tx] += rows[1].wait(end, tx)
        for before, end in zip(span.before, span.behind):
            self.behind.setdefault(txs[before], []).append(txs[end])
            self.waits[txs[end]] += 1

    def place(self, tx):
        self.count += 1
        self.placed[tx] = self.count
        for freed in (*self.behind.get(tx, ()), *(it for row in self.rows[tx] for it in row.freed(self.placed))):
            self.waits[freed] -= 1
            if not self.waits[freed]:
                heapq.heappush(self.ready, (self.decided[freed], freed))


def settle(sites, names, decided):
    """Gives each site its ends in a common order.

    Where there is none the sites stay as they are, and what is in the way is told."""
    spans = [Span(site) for site in sites]
    for careful in (True, False):
        search = Search(spans, decided, careful)
        if search.count == len(search.rows):
            for span in spans:
                place_ends(span, search.placed)
            return []
    first = min((tx for tx in search.rows if not search.placed[tx]), key=decided.__getitem__)
    return told_circle(spans, names, first, search.placed)


def place_ends(span, order):
    """Moves each end in front of those that it is to precede, and none back but behind what it has to follow."""
    site = span.site
    row = sorted(range(len(site.end_txs)), key=lambda end: order[site.end_txs[end]])
    slots, least = array("I", [0]) * len(row), len(site.read_txs)
    for at in range(len(row) - 1, -1, -1):
        least = slots[at] = min(least, site.end_slots[row[at]])
    low = 0
    for at, end in enumerate(row):
        low = max(low, span.lows[end])
        slots[at] = max(slots[at], low)
    site.row = array("I", row), slots


def told_circle(spans, names, tx, placed):
    """Transactions of which each has to end before the next: a line for each, the last one leads back to the first."""
    met = {}
    while tx not in met:
        met[tx] = blocker(spans, tx, placed)
        tx = met[tx][0]
    circle = []
    first = tx
    while not circle or tx != first:
        before, span, one, other = met[tx]
        lines = f"lines {span.site.end_lines[one]} and {span.site.end_lines[other]}"
        circle.append(f"{names[before]} has to end before {names[tx]} at site {span.site.name} ({lines}): "
                      f"{reason(span, names, one, other)}")
        tx = before
    return circle[::-1]


def blocker(spans, tx, placed):
    """Who has to end before the transaction and can't yet: it, where, and the ends of the two there."""
    for span in spans:
        txs = span.site.end_txs
        for before, end in zip(span.before, span.behind):
            if txs[end] == tx and not placed[txs[before]]:
                return txs[before], span, before, end
        for end in (end for end, it in enumerate(txs) if it == tx):
            for before, up in enumerate(span.ups):
                if up < span.lows[end] and not placed[txs[before]]:
                    return txs[before], span, before, end
    raise AssertionError("nothing is in the way")


def reason(span, names, before, end):
    """Why the end `before` has to stand in front of the other one."""
    site, low = span.site, span.lows[end] - 1
    mine = {site.change_items[it]: it for it in site.changes_of(before)}
    for change in site.changes_of(end):
        first = mine.get(site.change_items[change])
        if first is not None and (site.change_kinds[first] in CHANGES or site.change_kinds[change] in CHANGES):
            return f"both wrote {item_of(site, site.change_items[change])}"
    up = span.ups[before]
    told = f"{read_of(site, names, up)}, which {names[site.end_txs[before]]} wrote"
    if up == low and site.read_txs[low] == site.end_txs[end]:
        return told
    if site.read_txs[low] == site.end_txs[end]:
        return f"{told}, and then {read_of(site, names, low)}"
    return f"{told}, and {read_of(site, names, low)} before {names[site.end_txs[end]]} wrote it"


def read_of(site, names, read):
    return f"{names[site.read_txs[read]]} read {item_of(site, site.read_items[read])} in line {site.read_lines[read]}"


def item_of(site, number):
    return site.all_items[number].name
