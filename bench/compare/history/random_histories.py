#!/usr/bin/env python3
"""Compares a built program's `check` with slow.py on small random histories.

usage: random_histories.py PROGRAM [COUNT [SEED]]

A history is what a few transactions on few items did that ran side by side, with dirty, committed or old reads; then reads,
writes and ends are changed, lines exchanged, ids given twice, and all is spelled oddly: white space, escapes, CR LF, members
that nobody asked for or that stand twice, bytes that are no JSON. What the program doesn't know of --against, --sessions and
--real-time isn't asked for. Ends with status 1 at a difference, which it prints, and else says how often each answer came;
with status 1 also where standard error was told nothing of a line that can't be read. Four at a time; 100,000 take half an
hour of two processors.
"""
import collections
import multiprocessing
import os
import random
import subprocess
import sys
import tempfile

import slow

ITEMS = ["x", "y", "", 'say "a\\b"', "tab\t\b\f\n\r\x01\x1f\x7f", "caf\u00e9", "\u65e5\u672c", "\U0001f600", "a/b", "5", 5, 0, 2**64 - 1]
IDS = ["T", "t", "\u00e9", '"', "\\", "\x00", "7", 7, 0, 2**64 - 1, "T" * 256, "\n", "9", 9, 10, "a b"]
VALUES = ["v", "", "\u00e9\n", 1, -1, 0, -(2**63), 2**64 - 1, True, False, None, "1"]
BAD_VERSIONS = ["-1", "1.0", "1e3", "-0", "18446744073709551616", '"1"', "null", "01", "1e0", "[]", "true", "+1", ""]
BAD_LINES = [
    b"",
    b" ",
    b"{}",
    b"[]",
    b"null",
    b'"tx"',
    b'\xef\xbb\xbf{"tx":1,"end":"commit","ops":[]}',
    b'{"tx":1,"end":"commit","ops":[]}}',
    b'{"tx":1,"end":"commit","ops":[],}',
    b'{"tx":1,"end":"commit","ops":[]} x',
    b'{"tx":1,"end":"commit"}',
    b'{"tx":1,"end":"Commit","ops":[]}',
    b'{"tx":1,"end":"commit","ops":{}}',
    b'{"tx":1,"end":"commit","ops":[[]]}',
    b'{"tx":1,"end":"commit","ops":[["r","x"]]}',
    b'{"tx":1,"end":"commit","ops":[["r","x",0,1,2]]}',
    b'{"tx":1,"end":"commit","ops":[["d","x",1]]}',
    b'{"tx":1,"end":"commit","ops":[["w","x",0]]}',
    b'{"tx":1,"end":"commit","ops":[["r","x",0,1.5]]}',
    b'{"tx":1,"end":"commit","ops":[["r","x",0,[]]]}',
    b'{"tx":1,"end":"commit","ops":[["r",null,0]]}',
    b'{"tx":1,"end":"commit","ops":[["r",-1,0]]}',
    b'{"tx":1,"end":"commit","ops":[["r",1.0,0]]}',
    b'{"tx":1,"end":"commit","ops":[["r","x",0,18446744073709551616]]}',
    b'{"tx":1,"end":"commit","ops":[["r","x",0,-9223372036854775809]]}',
    b'{"tx":"","end":"commit","ops":[]}',
    b'{"tx":-1,"end":"commit","ops":[]}',
    b'{"tx":1.0,"end":"commit","ops":[]}',
    b'{"tx":null,"end":"commit","ops":[]}',
    b'{"tx":18446744073709551616,"end":"commit","ops":[]}',
    b'{"tx":"' + b"a" * 257 + b'","end":"commit","ops":[]}',
    b'{"tx":1,"end":"commit","ops":[["r","' + b"a" * 1025 + b'",0]]}',
    b'{"tx":1,"end":"commit","ops":[["r","' + b"\\u00e9" * 513 + b'",0]]}',
    b'{"tx":1,"end":"commit","ops":[],"more":"\\ud800"}',
    b'{"tx":1,"end":"commit","ops":[],"more":"\\ud800\\u0041"}',
    b'{"tx":1,"end":"commit","ops":[],"\\udc00":1}',
    b'{"tx":1,"end":"commit","ops":[],"more":"\xff"}',
    b'{"tx":1,"end":"commit","ops":[],"more":"\xed\xa0\x80"}',
    b'{"tx":1,"end":"commit","ops":[],"more":"\xc0\xaf"}',
    b'{"tx":1,"end":"commit","ops":[],"more":"\x01"}',
    b'{"tx":1,"end":"commit","ops":[],"more":"\\x41"}',
    b'{"tx":1,"end":"commit","ops":[],"more":"\\u00g0"}',
    b'{"tx":1,"end":"commit","ops":[],"more":[1,]}',
    b'{"tx":1,"end":"commit","ops":[],"more":.5}',
    b'{"tx":1,"end":"commit","ops":[],"more":1.}',
    b'{"tx":1,"end":"commit","ops":[],"more":1e}',
    b'{"tx":1,"end":"commit","ops":[],"more":-}',
    b'{"tx":1,"end":"commit","ops":[],"more":00}',
    b'{"tx":1,"end":"commit","ops":[],"more":nul}',
    b'{"tx":1,"end":"commit","ops":[],"more":NaN}',
    b"{'tx':1}",
]
ODD_MEMBERS = [
    '"more":{"tx":1,"ops":[["w"]],"end":{}}',
    '"more":[[],{},[{"a":[null,true,false,-0.0e-7,1E+400]}]]',
    '"":"\\ud83d\\ude00\\/"',
    '"\\u0000":0',
    '"begin":[]',
]


# ---------------------------------------------------------------- what transactions did


def side_by_side(rng):
    """Lines as [id, end, operations, begin, done, session], each operation as [kind, item, version, values]."""
    items = rng.sample(ITEMS, rng.choice([1, 1, 2, 2, 3, 4]))
    many = rng.choice([0, 1, 2, 2, 3, 3, 4, 4, 5, 6, 7])
    ids = rng.sample(IDS, many)
    reads_of = rng.choice(["dirty", "committed", "old", "serial"])
    gaps = rng.choice([[1], [1, 1, 2], [1, 3, 1000]])
    left = {i: rng.choice([0, 1, 2, 2, 3, 4]) for i in range(many)}
    lines = {i: [ids[i], "commit" if rng.random() < 0.85 else "abort", [], 0, 0, rng.choice(["p", "q", 7, "7"])] for i in range(many)}
    written = {x: [(0, None)] for x in items}
    committed, clock, live, begun, ended = set(), 0, [], {}, []
    waiting = list(range(many))
    while waiting or live:
        clock += rng.choice([0, 1, 1, 2])
        start = waiting and (not live or reads_of != "serial" and rng.random() < 0.4)
        if start:
            i = waiting.pop(0)
            live.append(i)
            lines[i][3] = clock
            begun[i] = {x: max((v for v, by in written[x] if by is None or by in committed), default=0) for x in items}
            continue
        i = rng.choice(live)
        if left[i] == 0:
            live.remove(i)
            ended.append(i)
            lines[i][4] = clock
            if lines[i][1] == "commit":
                committed.add(i)
            continue
        left[i] -= 1
        x = rng.choice(items)
        own = [v for v, by in written[x] if by == i]
        if rng.random() < 0.5:
            version = max(v for v, _ in written[x]) + rng.choice(gaps)
            written[x].append((version, i))
            lines[i][2].append(["w", x, version])
        else:
            seen = [v for v, by in written[x] if by is None or by in committed or reads_of == "dirty"]
            version = own[-1] if own else begun[i][x] if reads_of == "old" else max(seen)
            lines[i][2].append(["r", x, version])
    order = ended if rng.random() < 0.6 else rng.sample(ended, len(ended))
    return [lines[i] for i in order], items


def operations_of(lines):
    return [o for line in lines for o in line[2]]


def least(operation, version):
    """The version, or the least that the operation may have."""
    return max(version, 1 if operation[0] == "w" else 0)


def change(rng, lines, items):
    """One thing goes wrong."""
    operations = operations_of(lines)
    kind = rng.choice(["version", "version", "stale", "stale", "end", "again", "kind", "item", "exchange", "id", "drop"])
    if kind == "end" and lines:
        line = rng.choice(lines)
        line[1] = "abort" if line[1] == "commit" else "commit"
    elif kind == "id" and len(lines) > 1:
        rng.choice(lines)[0] = rng.choice(lines)[0]
    elif kind == "exchange" and len(lines) > 1:
        i, j = rng.sample(range(len(lines)), 2)
        lines[i], lines[j] = lines[j], lines[i]
    elif not operations:
        return
    elif kind == "version":
        o = rng.choice(operations)
        o[2] = least(o, o[2] + rng.choice([-2, -1, 1, 2]))
    elif kind == "stale":
        o = rng.choice(operations)
        same = [p[2] for p in operations if p[1] == o[1] and type(p[1]) is type(o[1])]
        o[2] = least(o, rng.choice(same + [0]))
    elif kind == "kind":
        o = rng.choice(operations)
        o[0] = "r" if o[0] == "w" else "w"
        o[2] = least(o, o[2])
    elif kind == "item":
        rng.choice(operations)[1] = rng.choice(items)
    else:
        line = rng.choice([line for line in lines if line[2]])
        at = rng.randrange(len(line[2]))
        if kind == "drop":
            line[2].pop(at)
        else:
            line[2].insert(rng.randrange(len(line[2]) + 1), list(line[2][at]))


def give_values(rng, lines):
    given, wrong = {}, rng.choice([0, 0, 0.1])
    for o in operations_of(lines):
        if rng.random() < 0.7:
            first = given.setdefault((type(o[1]), o[1], o[2]), rng.choice(VALUES))
            o.append(rng.choice(VALUES) if rng.random() < wrong else first)


# ---------------------------------------------------------------- how it is spelled


class Speller:
    def __init__(self, rng):
        self.rng = rng
        self.odd = rng.choice([0, 0, 0.05, 0.3])
        self.is_plain = rng.random() < 0.5      # members in the order in which most write them: such lines are read at once

    def white(self):
        if self.rng.random() < self.odd:
            return "".join(self.rng.choice(" \t\r") for _ in range(self.rng.choice([1, 1, 2, 5])))
        return ""

    def string(self, text):
        out = []
        short = {'"': '\\"', "\\": "\\\\", "\b": "\\b", "\f": "\\f", "\n": "\\n", "\r": "\\r", "\t": "\\t", "/": "\\/"}
        for c in text:
            escaped = self.rng.random() < self.odd
            must = c in '"\\' or c < " "
            if (must or escaped) and c in short and self.rng.random() < 0.7:
                out.append(short[c])
            elif must or escaped:
                units = c.encode("utf-16-be")
                for i in range(0, len(units), 2):
                    code = "%04x" % int.from_bytes(units[i : i + 2], "big")
                    out.append("\\u" + (code.upper() if self.rng.random() < 0.5 else code))
            else:
                out.append(c)
        return '"' + "".join(out) + '"'

    def value(self, value):
        if isinstance(value, str):
            return self.string(value)
        if value is None or isinstance(value, bool):
            return {None: "null", True: "true", False: "false"}[value]
        return str(value)

    def list(self, parts):
        return "[" + ",".join(self.white() + p + self.white() for p in parts) + (self.white() if not parts else "") + "]"

    def operation(self, o):
        return self.list([self.string(o[0]), self.value(o[1]), str(o[2])] + [self.value(v) for v in o[3:4]])

    def line(self, line, with_times):
        tx, end, operations, begin, done, session = line
        members = [
            (self.string("tx"), self.value(tx)),
            (self.string("end"), self.string(end)),
            (self.string("ops"), self.list([self.operation(o) for o in operations])),
        ]
        if with_times:
            members += [(self.string("begin"), str(begin)), (self.string("done"), str(done)), (self.string("session"), self.value(session))]
        if not self.is_plain:
            self.rng.shuffle(members)
        parts = [self.white() + n + self.white() + ":" + self.white() + v + self.white() for n, v in members]
        if self.rng.random() < self.odd:
            parts.insert(self.rng.randrange(len(parts) + 1), self.rng.choice(ODD_MEMBERS))
        if self.rng.random() < self.odd:
            parts.insert(0, self.rng.choice(['"tx":{}', '"end":1', '"ops":[["w"]]', '"tx":"T"', '"ops":[]', '"end":"abort"']))
        if self.rng.random() < self.odd / 10:
            parts.append('"deep":' + "[" * 3000 + "]" * 3000)
        return (self.white() + "{" + ",".join(parts) + "}" + self.white()).encode()


def damage(rng, lines):
    """Something that can't be read."""
    at = rng.randrange(len(lines) + 1)
    kind = "long" if rng.random() < 0.01 else rng.choice(["line", "line", "byte", "cut", "version", "double"])
    if kind == "long":
        lines.insert(at, b" " * (slow.LINE_MAX + 1))
    elif kind == "line" or at == len(lines):
        lines.insert(at, rng.choice(BAD_LINES))
    elif kind == "byte":
        line = bytearray(lines[at])
        line[rng.randrange(len(line))] = rng.choice(b'"\\{}[],:0 1-.ertu\x00\x1f\x7f\x80\xc3\xe2\xf0\xff')
        lines[at] = bytes(line).replace(b"\n", b" ")
    elif kind == "cut":
        lines[at] = lines[at][: rng.randrange(len(lines[at]))]
    elif kind == "version":
        operation = '["r","x",%s]' % rng.choice(BAD_VERSIONS)
        lines.insert(at, ('{"tx":"bad","end":"commit","ops":[%s]}' % operation).encode())
    else:
        lines.insert(at, rng.choice(lines))


def order_of(rng, speller, lines):
    """An order to judge the history against."""
    ids = [line[0] for line in lines if line[1] == "commit"]
    if rng.random() < 0.5:
        rng.shuffle(ids)
    if ids and rng.random() < 0.3:
        at = rng.randrange(len(ids))
        what = rng.choice(["again", "drop", "other", "type"])
        if what == "again":
            ids.insert(at, rng.choice(ids))
        elif what == "drop":
            ids.pop(at)
        elif what == "other":
            ids[at] = rng.choice(IDS)
        else:
            ids[at] = str(ids[at]) if isinstance(ids[at], int) else ids[at]
    text = [(speller.white() + speller.value(i) + speller.white()).encode() for i in ids]
    if rng.random() < 0.03:
        text.insert(rng.randrange(len(text) + 1), rng.choice([b"", b"{}", b'"', b"1 2", b"\xff"]))
    return b"\n".join(text) + (b"\n" if text and rng.random() < 0.9 else b"")


def history(rng, with_asked, with_against):
    """A text, the options, and the order to judge it against, if one is asked for."""
    lines, items = side_by_side(rng)
    for _ in range(rng.choice([0, 0, 0, 1, 1, 2, 3])):
        change(rng, lines, items)
    if rng.random() < 0.4:
        give_values(rng, lines)
    speller = Speller(rng)
    options = []
    if with_asked and rng.random() < 0.5:
        options = rng.choice([["--real-time"], ["--sessions"], ["--sessions", "--real-time"]])
    if rng.random() < 0.3:
        options = options + ["--order"]
    is_free = with_against and "--order" not in options
    order = order_of(rng, speller, lines) if is_free and rng.random() < 0.25 else None
    with_times = bool(set(options) & {"--real-time", "--sessions"}) and rng.random() < 0.95 or rng.random() < 0.1
    spelled = [speller.line(line, with_times) for line in lines]
    if rng.random() < 0.15:
        damage(rng, spelled)
    text = (b"\r\n" if rng.random() < 0.1 else b"\n").join(spelled)
    if spelled and (rng.random() < 0.9 or spelled[-1] == b""):
        text += b"\n"
    return text, options, order


# ---------------------------------------------------------------- comparing


def compare(job):
    """The first line of the answer, what differs, if anything does, and whether words on standard error are missing."""
    program, seed, number, with_asked, with_against = job
    text, options, order = history(random.Random(f"{seed} {number}"), with_asked, with_against)
    words = ["check"] + options
    with tempfile.NamedTemporaryFile() as file:
        if order is not None:
            file.write(order)
            file.flush()
            words += ["--against", file.name]
        run = subprocess.run([program] + words, input=text, capture_output=True)
    asked = {option[2:].replace("-", "_"): True for option in options}
    said, status = slow.answer(text, against_text=order, **asked)
    head = said.split(b"\n")[0].decode()
    kind = " ".join(head.split()[:2]) if head[:1] in "!n" else head.split()[0]
    if (run.stdout, run.returncode) == (said, status):
        return kind, None, status == 2 and not run.stderr
    told = [f"history {number} of seed {seed}: {' '.join(words)}", repr(text), f"order: {order!r}"]
    told += [f"slow.py: {said!r} {status}", f"program: {run.stdout!r} {run.returncode} {run.stderr!r}"]
    return kind, "\n".join(told), False


def main():
    if len(sys.argv) < 2 or "--help" in sys.argv:
        sys.exit(__doc__)
    program = os.path.abspath(sys.argv[1])
    count = int(sys.argv[2]) if len(sys.argv) > 2 else 1000
    seed = sys.argv[3] if len(sys.argv) > 3 else "1"
    probe = subprocess.run([program, "check", "--sessions", "--real-time"], input=b"", capture_output=True)
    with_asked = probe.returncode == 0
    probe = subprocess.run([program, "check", "--against", os.devnull], input=b"", capture_output=True)
    with_against = probe.returncode == 0
    jobs = ((program, seed, number, with_asked, with_against) for number in range(count))
    kinds, wordless = collections.Counter(), 0
    with multiprocessing.Pool(4) as pool:
        for kind, differs, is_wordless in pool.imap(compare, jobs, chunksize=50):
            if differs:
                print(differs)
                sys.exit(1)
            kinds[kind] += 1
            wordless += is_wordless
    without = [word for word, is_known in (("sessions and real time", with_asked), ("orders", with_against)) if not is_known]
    print(f"{count} histories, 0 differ{' (without ' + ' and '.join(without) + ')' if without else ''}")
    for kind, many in sorted(kinds.items()):
        print(f"{many:8} {kind}")
    if wordless:
        print(f"of {wordless} that can't be read standard error was told nothing")
        sys.exit(1)


if __name__ == "__main__":
    main()
