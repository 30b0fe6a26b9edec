#!/usr/bin/env python3
"""What `sgt check` answers to a history, plainly and in time n log n: sorted chains, a graph, searches. Not proved.

usage: plain.py [FILE]      writes the answer and ends with its status

The definition is docs/FORMAT.md, "Histories". slow.py beside it tries all orders and is for histories of a few transactions; this one
takes some 20 s for a hundred thousand. JSON that nests more than a thousand levels is told as L1.
"""
import collections
import json
import re
import sys

LINE_MAX = 16_777_216
KINDS = ["ww", "wr", "rw"]
SURROGATE = re.compile("[\ud800-\udfff]")


class Unreadable(Exception):
    """Which line can't be read, and how."""


def whole(text):
    if text == "-0":
        raise ValueError("-0 is no whole number here")
    return int(text)


def refuse(text):
    raise ValueError(text)


DECODER = json.JSONDecoder(parse_int=whole, parse_constant=refuse)


def is_number(value, least, most):
    return type(value) is int and least <= value <= most


def is_name(value, least, most):
    if type(value) is str:
        return least <= len(value.encode()) <= most
    return is_number(value, 0, 2**64 - 1)


def is_value(value):
    return value is None or type(value) in (str, bool) or is_number(value, -(2**63), 2**64 - 1)


def has_surrogate(value):
    if type(value) is str:
        return bool(SURROGATE.search(value))
    if type(value) is dict:
        return any(has_surrogate(it) for pair in value.items() for it in pair)
    return type(value) is list and any(map(has_surrogate, value))


def operation(op):
    if type(op) is not list or not 3 <= len(op) <= 4 or op[0] not in ("r", "w") or type(op[0]) is not str:
        return None
    least = 1 if op[0] == "w" else 0
    if not is_name(op[1], 0, 1024) or not is_number(op[2], least, 2**64 - 1) or len(op) == 4 and not is_value(op[3]):
        return None
    return op


Transaction = collections.namedtuple("Transaction", "id commits ops")


def read(data):
    """The transactions of the text."""
    lines = data.split(b"\n")
    if lines[-1] == b"":
        lines.pop()
    seen, found = set(), []
    for number, line in enumerate(lines, 1):
        if len(line) > LINE_MAX:
            raise Unreadable(f"! L2 line {number}")
        try:
            text = line.decode("utf-8")
            value = DECODER.decode(text.strip(" \t\r\n"))
        except (ValueError, RecursionError):
            raise Unreadable(f"! L1 line {number}") from None
        ok = type(value) is dict and not has_surrogate(value) and is_name(value.get("tx"), 1, 256) and value.get("end") in ("commit", "abort")
        if not ok or type(value["end"]) is not str or type(value.get("ops")) is not list or None in map(operation, value["ops"]):
            raise Unreadable(f"! L1 line {number}")
        if key(value["tx"]) in seen:
            raise Unreadable(f"! L3 line {number}")
        seen.add(key(value["tx"]))
        found.append(Transaction(value["tx"], value["end"] == "commit", value["ops"]))
    return found


def key(name):
    """Numbers before strings, by value or by bytes."""
    return (0, name, b"") if type(name) is int else (1, 0, name.encode())


def value_key(value):
    return type(value).__name__, value


def spelled(value):
    return json.dumps(value, ensure_ascii=False, separators=(",", ":"))


class History:
    def __init__(self, transactions):
        self.transactions = transactions
        self.writers, self.aborted, self.chains = {}, {}, {}
        self.own = {}  # of each committed writer and item: the versions that it wrote
        for line, t in enumerate(transactions, 1):
            for kind, item, version, *_ in t.ops:
                if kind != "w":
                    continue
                if t.commits:
                    self.writers.setdefault((key(item), version), line)
                    self.own.setdefault((line, key(item)), []).append(version)
                else:
                    self.aborted.setdefault((key(item), version), line)
        for item, version in self.writers:
            self.chains.setdefault(item, []).append(version)
        for chain in self.chains.values():
            chain.sort()

    def name(self, line):
        return spelled(self.transactions[line - 1].id)

    # ---- faults of a line

    def fault(self):
        values = {}
        for line, t in enumerate(self.transactions, 1):
            if t.commits:
                found = [it for it in (self.internal(line, t), self.duplicate(line, t), *self.foreign(line, t), self.value(line, t, values)) if it]
                if found:
                    name, op, behind = found[0]
                    told = f"line {line} {self.name(line)} {op[0]} {spelled(op[1])} {op[2]}" + (" " + behind if behind else "")
                    return f"no {name}\n{told}\n"
        return None

    def internal(self, line, t):
        last, later = {}, {}
        for kind, item, version, *_ in t.ops:
            if kind == "w":
                later.setdefault(key(item), set()).add(version)
        for op in t.ops:
            kind, item, version = op[0], key(op[1]), op[2]
            if kind == "r" and item in last:
                if last[item] != version:
                    return "internal", op, f"wrote {last[item]}"
            elif kind == "r":
                if version in later.get(item, ()):
                    return "internal", op, f"writes it in line {line}"
            else:
                if item in last and version <= last[item]:
                    return "internal", op, f"wrote {last[item]}"
                last[item] = version
        return None

    def duplicate(self, line, t):
        for op in t.ops:
            by = self.writers.get((key(op[1]), op[2])) if op[0] == "w" else None
            if by and by < line:
                return "duplicate", op, f"written by {self.name(by)} line {by}"
        return None

    def foreign(self, line, t):
        """G1a, unwritten and G1b: the first operation of each."""
        first, written = {}, set()
        for op in t.ops:
            kind, item, version = op[0], key(op[1]), op[2]
            if kind == "w":
                written.add(item)
            elif item not in written and version != 0:
                by = self.writers.get((item, version))
                if by is None:
                    aborted = self.aborted.get((item, version))
                    told = ("G1a", op, f"written by {self.name(aborted)} line {aborted}") if aborted else ("unwritten", op, "")
                else:
                    above = [v for v in self.own[by, item] if v > version]
                    told = ("G1b", op, f"written by {self.name(by)} line {by}, which wrote {min(above)}") if above else None
                if told:
                    first.setdefault(told[0], told)
        return [first.get(name) for name in ("G1a", "unwritten", "G1b")]

    def value(self, line, t, values):
        for op in t.ops:
            if len(op) == 4:
                given, by = values.setdefault((key(op[1]), op[2]), (op[3], line))
                if value_key(given) != value_key(op[3]):
                    return "value", op, f"value {spelled(op[3])}, line {by} gives {spelled(given)}"
        return None

    # ---- conflicts: (from, to, kind, item, V, V'), lines from 1

    def conflicts(self):
        behind = {}
        for item, chain in self.chains.items():
            behind[item, 0] = chain[0]
            behind.update(((item, v), w) for v, w in zip(chain, chain[1:]))
        for item, chain in self.chains.items():
            for v, w in zip(chain, chain[1:]):
                yield self.writers[item, v], self.writers[item, w], 0, item, v, w
        for line, t in enumerate(self.transactions, 1):
            written = set()
            for kind, item, version, *_ in t.ops if t.commits else ():
                if kind == "w":
                    written.add(key(item))
                elif key(item) not in written:
                    if version:
                        yield self.writers[key(item), version], line, 1, key(item), version, version
                    if (key(item), version) in behind:
                        following = behind[key(item), version]
                        yield line, self.writers[key(item), following], 2, key(item), version, following

    def cycle(self):
        steps = [it for it in self.conflicts() if it[0] != it[1]]
        for most, name in ((0, "G0"), (1, "G1c"), (2, None)):
            edges = collections.defaultdict(list)
            for step in steps:
                if step[2] <= most:
                    edges[step[0]].append(step)
            nodes = components(edges)
            if nodes:
                found = shortest(edges, nodes)
                anti = sum(step[2] == 2 for step in found)
                return f"no {name or ('G-single' if anti == 1 else 'G2-item')}\n" + "".join(map(self.step, found))
        return None

    def step(self, step):
        a, b, kind, item, v, w = step
        name = spelled(item[1] if item[0] == 0 else item[2].decode())
        return f"{self.name(a)} {KINDS[kind]} {self.name(b)} {name} {v} {w} lines {a} {b}\n"


def components(edges):
    """The nodes of the strongly connected component, of two nodes or more, that has the least node of all such."""
    numbers, low, stack, on_stack, best = {}, {}, [], set(), None
    for start in sorted(edges):
        if start in numbers:
            continue
        walk = [(start, iter(edges.get(start, ())))]
        numbers[start] = low[start] = len(numbers)
        stack.append(start)
        on_stack.add(start)
        while walk:
            node, ahead = walk[-1]
            for step in ahead:
                to = step[1]
                if to not in numbers:
                    numbers[to] = low[to] = len(numbers)
                    stack.append(to)
                    on_stack.add(to)
                    walk.append((to, iter(edges.get(to, ()))))
                    break
                if to in on_stack:
                    low[node] = min(low[node], numbers[to])
            else:
                walk.pop()
                if walk:
                    low[walk[-1][0]] = min(low[walk[-1][0]], low[node])
                if low[node] == numbers[node]:
                    part = set()
                    while not part or it != node:
                        it = stack.pop()
                        on_stack.discard(it)
                        part.add(it)
                    if len(part) > 1 and (best is None or min(part) < min(best)):
                        best = part
    return best


def shortest(edges, nodes):
    """Of the shortest cycles through the least node the one that is least, step by step from it on."""
    start, back = min(nodes), collections.defaultdict(set)
    for node in nodes:
        for step in edges.get(node, ()):
            if step[1] in nodes:
                back[step[1]].add(node)
    far, front = {start: 0}, [start]
    while front:
        front = [a for b in front for a in back[b] if a not in far and not far.update({a: far[b] + 1})]
    length = 1 + min(far[step[1]] for step in edges[start] if step[1] in far)
    found, here = [], start
    for left in range(length - 1, -1, -1):
        step = min((s for s in edges[here] if far.get(s[1]) == left), key=lambda s: (s[1], s[2], s[3], s[4]))
        found.append(step)
        here = step[1]
    return found


def check(data):
    try:
        transactions = read(data)
    except Unreadable as why:
        return 2, f"{why}\n"
    history = History(transactions)
    no = history.fault() or history.cycle()
    if no:
        return 1, no
    committed = sum(t.commits for t in transactions)
    return 0, f"yes {committed} committed {len(transactions) - committed} aborted\n"


if __name__ == "__main__":
    if "--help" in sys.argv:
        sys.exit(__doc__)
    words = [it for it in sys.argv[1:] if it != "-"]
    status, answer = check(open(words[0], "rb").read() if words else sys.stdin.buffer.read())
    sys.stdout.buffer.write(answer.encode())
    sys.exit(status)
