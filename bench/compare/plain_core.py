#!/usr/bin/env python3
"""A plain scheduler of one thread, written from docs/FORMAT.md alone: it scans the whole logs at each decision.

usage: plain_core.py < EVENTS          (the input of a replay: site lines, then events)

It is slow, shares nothing with the program, and makes the bundles that fuzz_audit.py damages.
"""
import json
import re
import sys
from collections import deque

NAME = r"[a-z][a-z0-9_]{0,15}"
WINDOW = 4096
LETTERS = {"put": ("w", "p"), "add": ("d", "q")}


class Refusal(Exception):
    pass


def kind_of(first, second):
    """How two entries (letter, tx, item, value) conflict, or None."""
    if first[0] not in "rwdpq" or second[0] not in "rwdpq" or first[1] == second[1] or first[2] != second[2]:
        return None
    reads = (first[0] == "r", second[0] == "r")
    if all(reads) or first[0] in "dq" and second[0] in "dq":
        return None
    return {(True, False): "rw", (False, True): "wr", (False, False): "ww"}[reads]


class Core:
    def __init__(self, sites):
        self.sites = sites                      # of each site: items in rising order with their first values
        self.logs = [[] for _ in sites]
        self.begun = self.window_begun = 0
        self.active = {}                        # of each active transaction: kept reads and private changes
        self.past, self.order = [], []          # committed of closed windows, and of this one, in serial order
        self.rulings = []
        self.step = None                        # (transaction, whether it was committed, sites not yet installed)

    def value(self, site, item):
        value = dict(self.sites[site])[item]
        for entry in self.logs[site]:
            if entry[0] == "w" and entry[2] == item:
                value = entry[3]
            elif entry[0] == "d" and entry[2] == item:
                value = (value + entry[3]) % 2**64
        return value

    def touched(self, tx):
        return sorted({site for kept in self.active[tx] for site, _ in kept})

    def need(self, tx, any_step):
        if not 1 <= tx <= self.begun:
            raise Refusal("E1")
        if tx not in self.active:
            raise Refusal("E2")
        if self.step and (any_step or self.step[0] == tx):
            raise Refusal("E3")

    def need_item(self, site, item):
        if site >= len(self.sites) or item not in dict(self.sites[site]):
            raise Refusal("E4")

    def begin(self):
        if self.step:
            raise Refusal("E3")
        if self.window_begun == WINDOW:
            raise Refusal("E7")
        self.begun += 1
        self.window_begun += 1
        self.active[self.begun] = ({}, {})
        return self.begun

    def look(self, tx, site, item):
        reads, changes = self.active[tx]
        kind, value = changes.get((site, item), (None, None))
        if kind == "put":
            return value
        if (site, item) in reads:
            return (reads[site, item] + (value or 0)) % 2**64
        return None

    def read(self, tx, site, item):
        self.need(tx, False)
        self.need_item(site, item)
        if self.look(tx, site, item) is None:
            value = self.value(site, item)
            self.logs[site].append(("r", tx, item, value))
            self.active[tx][0][site, item] = value
        return self.look(tx, site, item)

    def change(self, tx, site, item, kind, value):
        self.need(tx, False)
        self.need_item(site, item)
        before = self.active[tx][1].get((site, item))
        if kind == "add" and before:
            kind, value = before[0], (before[1] + value) % 2**64
        self.active[tx][1][site, item] = (kind, value)

    def block(self, tx, site, committed):
        changes = sorted((item, change) for (at, item), change in self.active[tx][1].items() if at == site)
        letters = [(LETTERS[kind][not committed], tx, item, value) for item, (kind, value) in changes]
        return letters + [("c" if committed else "n", tx)]

    def edges(self, tx):
        """The labelled conflicts among the committed and this transaction, its private changes behind each log."""
        nodes = set(self.past) | set(self.order) | {tx}
        found = []
        for site, log in enumerate(self.logs):
            whole = [e for e in log if e[1] in nodes and len(e) == 4] + self.block(tx, site, True)[:-1]
            for at, first in enumerate(whole):
                for second in whole[at + 1:]:
                    if kind := kind_of(first, second):
                        found.append((first[1], second[1], site, first[2], kind))
        return found

    def decide(self, tx):
        """Takes the decision; answers whether it is a commit."""
        edges = self.edges(tx)
        out = {}
        for edge in edges:
            out.setdefault(edge[0], []).append(edge)
        came, todo, walk = {}, deque([tx]), None
        while todo and walk is None:
            at = todo.popleft()
            for edge in out.get(at, []):
                if edge[1] == tx:
                    walk = [edge]
                    while walk[0][0] != tx:
                        walk.insert(0, came[walk[0][0]])
                    break
                if edge[1] not in came:
                    came[edge[1]] = edge
                    todo.append(edge[1])
        if walk is not None:
            self.rulings.append(("refuse", tx, walk))
            return False
        self.rulings.append(("commit", tx))
        self.order = [t for t in self.order if t not in came] + [tx] + [t for t in self.order if t in came]
        return True

    def vote(self, tx):
        self.need(tx, True)
        committed = self.decide(tx)
        left = self.touched(tx)
        if left:
            self.step = (tx, committed, left)
        else:
            del self.active[tx]
        return committed

    def install(self, tx, site):
        if not 1 <= tx <= self.begun:
            raise Refusal("E1")
        if tx not in self.active:
            raise Refusal("E2")
        if self.step and self.step[0] != tx:
            raise Refusal("E3")
        if site >= len(self.sites):
            raise Refusal("E4")
        if not self.step:
            raise Refusal("E5")
        if site in self.touched(tx) and site not in self.step[2]:
            raise Refusal("E6")
        if site not in self.touched(tx):
            raise Refusal("E12")
        self.logs[site] += self.block(tx, site, self.step[1])
        self.step[2].remove(site)
        if not self.step[2]:
            self.step = None
            del self.active[tx]

    def commit(self, tx):
        committed = self.vote(tx)
        while self.step:
            self.install(tx, self.step[2][0])
        return committed

    def withdraw(self, tx):
        self.need(tx, True)
        self.rulings.append(("withdraw", tx))
        for site in self.touched(tx):
            self.logs[site].append(("a", tx))
        del self.active[tx]

    def close(self):
        if self.step:
            raise Refusal("E3")
        if self.active:
            raise Refusal("E8")
        self.past += self.order
        self.order, self.window_begun = [], 0
        return len(self.past)

    def certificate(self):
        rank = {tx: at for at, tx in enumerate(self.past + self.order)}
        decisions = []
        for ruling in self.rulings:
            if ruling[0] == "commit":
                decisions.append({"commit": ruling[1], "rank": rank[ruling[1]]})
            elif ruling[0] == "withdraw":
                decisions.append({"withdraw": ruling[1]})
            else:
                walk = [{"item": e[3], "kind": e[4], "site": e[2], "to": e[1]} for e in ruling[2]]
                decisions.append({"refuse": ruling[1], "walk": walk})
        return {"decisions": decisions, "sites": len(self.sites)}

    def bundle(self):
        second = any(e[0] in "dq" for log in self.logs for e in log)
        lines = ["sgt 2" if second else "sgt 1", json.dumps(self.certificate(), separators=(",", ":"), sort_keys=True)]
        for site, items in enumerate(self.sites):
            lines.append(f"site {site}")
            lines += [f"item {item}={value}" for item, value in items]
            lines += [f"{e[0]}{e[1]}[{e[2]}]={e[3]}" if len(e) == 4 else f"{e[0]}{e[1]}" for e in self.logs[site]]
            lines += [f"final {item}={self.value(site, item)}" for item, _ in items]
            lines.append("end")
        return "".join(line + "\n" for line in lines)


def reply(core, line):
    """The reply to an event's line."""
    try:
        if line == "b":
            return f"b{core.begin()}"
        if line == "z":
            return f"z {core.close()}"
        if hit := re.fullmatch(rf"r(\d+)\[(\d+)\.({NAME})\]", line):
            return f"{line}={core.read(int(hit[1]), int(hit[2]), hit[3])}"
        if hit := re.fullmatch(rf"([wd])(\d+)\[(\d+)\.({NAME})\]=(\d+)", line):
            core.change(int(hit[2]), int(hit[3]), hit[4], "put" if hit[1] == "w" else "add", int(hit[5]))
            return line
        if hit := re.fullmatch(r"i(\d+)@(\d+)", line):
            core.install(int(hit[1]), int(hit[2]))
            return line
        tx = int(line[1:])
        if line[0] == "a":
            core.withdraw(tx)
            return line
        committed = core.commit(tx) if line[0] == "c" else core.vote(tx)
        return f"{line} {'yes' if committed else 'no'}"
    except Refusal as refusal:
        return f"! {refusal}"


def replay(text):
    """What a replay of readable input writes, and its status."""
    lines = text.split("\n")[:-1]
    count = sum(line.startswith("site ") for line in lines)
    core = Core([[(held.split("=")[0], int(held.split("=")[1])) for held in line.split(" ")[2:]] for line in lines[:count]])
    out = [reply(core, line) for line in lines[count:]]
    if core.active:
        return "".join(line + "\n" for line in out + ["! E8"]), 1
    return "".join(line + "\n" for line in out + ["---"]) + core.bundle(), 0


if __name__ == "__main__":
    if len(sys.argv) > 1:
        sys.exit(__doc__)
    written, status = replay(sys.stdin.read())
    sys.stdout.write(written)
    sys.exit(status)
