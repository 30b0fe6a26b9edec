#!/usr/bin/env python3
"""What `sgt check` answers, slowly: all orders are tried, all cycles are listed. For histories of a few transactions.

usage: slow.py [--order] [--against ORDER] [--real-time] [--sessions] [FILE]

Writes the whole answer and ends with its status. Serializable is what docs/HISTORIES.md calls so: some order of the committed
transactions, run alone one after another, gives each read its version. Then faults and cycles are looked for, and it must be
that there is one exactly where no order serves: else slow.py itself is wrong, and says so.
"""
import itertools
import sys

LINE_MAX = 16_777_216
TOP = 2**64
KINDS = ["ww", "wr", "rw", "po", "rt"]
ORDERS_OF = 7  # more committed transactions than these: not all orders are tried


class Unreadable(Exception):
    """Not a line of a history."""


# ---------------------------------------------------------------- JSON


class Number(str):
    """A number as it is spelled."""


class Text(bytes):
    """A string, decoded."""


class Reader:
    """One JSON value of bytes, as RFC 8259 has it."""

    def __init__(self, line):
        try:
            line.decode("utf-8")
        except UnicodeDecodeError:
            raise Unreadable
        self.line = line
        self.at = 0

    def peek(self):
        return self.line[self.at : self.at + 1]

    def white(self):
        while self.peek() in (b" ", b"\t", b"\n", b"\r"):
            self.at += 1

    def take(self, word):
        if self.line[self.at : self.at + len(word)] != word:
            raise Unreadable
        self.at += len(word)

    def hex4(self):
        digits = self.line[self.at : self.at + 4]
        if len(digits) != 4 or any(d not in b"0123456789abcdefABCDEF" for d in digits):
            raise Unreadable
        self.at += 4
        return int(digits, 16)

    def string(self):
        self.take(b'"')
        out = bytearray()
        while True:
            byte = self.peek()
            if byte == b"" or byte < b" ":
                raise Unreadable
            self.at += 1
            if byte == b'"':
                return Text(out)
            if byte != b"\\":
                out += byte
                continue
            escape = self.peek()
            self.at += 1
            plain = {b'"': b'"', b"\\": b"\\", b"/": b"/", b"b": b"\b", b"f": b"\f", b"n": b"\n", b"r": b"\r", b"t": b"\t"}
            if escape in plain:
                out += plain[escape]
            elif escape == b"u":
                code = self.hex4()
                if 0xDC00 <= code <= 0xDFFF:
                    raise Unreadable
                if 0xD800 <= code <= 0xDBFF:
                    self.take(b"\\u")
                    low = self.hex4()
                    if not 0xDC00 <= low <= 0xDFFF:
                        raise Unreadable
                    code = 0x10000 + (code - 0xD800) * 0x400 + (low - 0xDC00)
                out += chr(code).encode("utf-8")
            else:
                raise Unreadable

    def digits(self):
        start = self.at
        while self.peek().isdigit():
            self.at += 1
        if start == self.at:
            raise Unreadable

    def number(self):
        start = self.at
        if self.peek() == b"-":
            self.at += 1
        if self.peek() == b"0":
            self.at += 1
        else:
            self.digits()
        if self.peek() == b".":
            self.at += 1
            self.digits()
        if self.peek() in (b"e", b"E"):
            self.at += 1
            if self.peek() in (b"+", b"-"):
                self.at += 1
            self.digits()
        return Number(self.line[start : self.at].decode())

    def scalar(self):
        byte = self.peek()
        if byte == b'"':
            return self.string()
        for word, value in ((b"true", True), (b"false", False), (b"null", None)):
            if byte == word[:1]:
                self.take(word)
                return value
        return self.number()

    def value(self):
        """Without recursion: values nest however deep."""
        stack = []  # of [value so far, name of the member that is read]
        while True:
            self.white()
            byte = self.peek()
            if byte in (b"{", b"["):
                self.at += 1
                self.white()
                opened = {} if byte == b"{" else []
                if self.peek() == (b"}" if byte == b"{" else b"]"):
                    self.at += 1
                    value = opened
                else:
                    stack.append([opened, self.name() if byte == b"{" else None])
                    continue
            else:
                value = self.scalar()
            while True:
                if not stack:
                    return value
                holder, name = stack[-1]
                if isinstance(holder, dict):
                    holder[name] = value  # the last counts
                else:
                    holder.append(value)
                self.white()
                byte = self.peek()
                self.at += 1
                if byte == b",":
                    if isinstance(holder, dict):
                        self.white()
                        stack[-1][1] = self.name()
                    break
                if byte != (b"}" if isinstance(holder, dict) else b"]"):
                    raise Unreadable
                stack.pop()
                value = holder

    def name(self):
        name = self.string()
        self.white()
        self.take(b":")
        return name

    def whole(self):
        value = self.value()
        self.white()
        if self.at != len(self.line):
            raise Unreadable
        return value


def written(value):
    """A value, or None where it is left out, compact."""
    if value is None:
        return b"null"
    if value is True or value is False:
        return b"true" if value else b"false"
    if isinstance(value, int):
        return str(value).encode()
    short = {0x08: b"\\b", 0x0C: b"\\f", 0x0A: b"\\n", 0x0D: b"\\r", 0x09: b"\\t", 0x22: b'\\"', 0x5C: b"\\\\"}
    return b'"' + b"".join(short.get(c, b"\\u%04x" % c if c < 32 else bytes([c])) for c in value) + b'"'


# ---------------------------------------------------------------- histories


class Operation:
    def __init__(self, kind, item, version, has_value, value):
        self.kind, self.item, self.version, self.has_value, self.value = kind, item, version, has_value, value

    def told(self):
        return b"%s %s %d" % (self.kind.encode(), written(self.item), self.version)


class Transaction:
    def __init__(self, line, tx, commits, operations):
        self.line, self.tx, self.commits, self.operations = line, tx, commits, operations
        self.begin = self.done = self.session = None

    def own(self, place):
        """What it wrote last before of the item of the operation there, or None."""
        item = self.operations[place].item
        before = [o.version for o in self.operations[:place] if o.kind == "w" and o.item == item]
        return before[-1] if before else None

    def writes(self, item):
        return [o.version for o in self.operations if o.kind == "w" and o.item == item]


def natural(value):
    if not isinstance(value, Number) or not value.isdigit() or int(value) >= TOP:
        raise Unreadable
    return int(value)


def key(value, least, most):
    if isinstance(value, Text):
        if not least <= len(value) <= most:
            raise Unreadable
        return value
    return natural(value)


def given(value):
    if value is None or isinstance(value, (bool, Text)):
        return value
    if not isinstance(value, Number) or not value.lstrip("-").isdigit() or value == "-0":
        raise Unreadable
    if not -(2**63) <= int(value) < TOP:
        raise Unreadable
    return int(value)


def operation(value):
    if not isinstance(value, list) or len(value) not in (3, 4) or value[0] not in (b"r", b"w") or not isinstance(value[0], Text):
        raise Unreadable
    kind = value[0].decode()
    item, version = key(value[1], 0, 1024), natural(value[2])
    if kind == "w" and version == 0:
        raise Unreadable
    has_value = len(value) == 4
    return Operation(kind, item, version, has_value, given(value[3]) if has_value else None)


def transaction(number, line, real_time, sessions):
    value = Reader(line).whole()
    if not isinstance(value, dict):
        raise Unreadable
    members = {bytes(name): member for name, member in value.items()}
    if not all(name in members for name in (b"tx", b"end", b"ops")):
        raise Unreadable
    tx = key(members[b"tx"], 1, 256)
    end, ops = members[b"end"], members[b"ops"]
    if not isinstance(end, Text) or end not in (b"commit", b"abort") or not isinstance(ops, list):
        raise Unreadable
    one = Transaction(number, tx, end == b"commit", [operation(o) for o in ops])
    if one.commits and real_time:
        one.begin, one.done = natural(members.get(b"begin")), natural(members.get(b"done"))
        if one.begin > one.done:
            raise Unreadable
    if one.commits and sessions:
        one.session = key(members.get(b"session"), 0, 1024)
    return one


def lines_of(text):
    lines = text.split(b"\n")
    if lines[-1] == b"":
        lines.pop()
    return lines


def read(text, real_time, sessions):
    """The transactions, or the number of the first unreadable line and why it is so."""
    history, seen = [], set()
    for number, line in enumerate(lines_of(text), 1):
        if len(line) > LINE_MAX:
            return number, "L2"
        try:
            one = transaction(number, line, real_time, sessions)
        except Unreadable:
            return number, "L1"
        if (type(one.tx), one.tx) in seen:
            return number, "L3"
        seen.add((type(one.tx), one.tx))
        history.append(one)
    return history, None


def same_values(a, b):
    return type(a) is type(b) and a == b


# ---------------------------------------------------------------- all orders


def run_one(state, one):
    """The first place where the transaction breaks the order, and what the item has there; else None and the state behind it."""
    state = dict(state)
    for place, o in enumerate(one.operations):
        has = state.get(o.item, 0)
        if o.kind == "r" and o.version != has or o.kind == "w" and o.version <= has:
            return (place, has), None
        if o.kind == "w":
            state[o.item] = o.version
    return None, state


def before(one, other, real_time, sessions):
    """Whether sessions or time put the first before the other."""
    if sessions and one.session == other.session and type(one.session) is type(other.session) and one.line < other.line:
        return True
    return real_time and one.done < other.begin


def serves(order, real_time, sessions):
    state = {}
    for one in order:
        fault, state = run_one(state, one)
        if fault:
            return False
    for i, one in enumerate(order):
        if any(before(other, one, real_time, sessions) for other in order[i + 1 :]):
            return False
    return True


def values_agree(committed):
    values = {}
    for one in committed:
        for o in one.operations:
            if o.has_value:
                first = values.setdefault((type(o.item), o.item, o.version), o.value)
                if not same_values(first, o.value):
                    return False
    return True


def is_serializable(committed, real_time, sessions):
    return values_agree(committed) and any(serves(order, real_time, sessions) for order in itertools.permutations(committed))


# ---------------------------------------------------------------- faults of a line


def by_line(one):
    return b"written by %s line %d" % (written(one.tx), one.line)


def internal(history, one, place):
    o, own = one.operations[place], one.own(place)
    if o.kind == "r" and own is not None:
        return b"wrote %d" % own if o.version != own else None
    if o.kind == "w" and own is not None:
        return b"wrote %d" % own if o.version <= own else None
    later = [p for p in one.operations[place + 1 :] if p.kind == "w" and p.item == o.item and p.version == o.version]
    if o.kind == "r" and later:
        return b"writes it in line %d" % one.line
    return None


def writers(history, o, commits):
    return [t for t in history if t.commits == commits and o.version in t.writes(o.item)]


def duplicate(history, one, place):
    o = one.operations[place]
    earlier = [t for t in writers(history, o, True) if t.line < one.line]
    return by_line(earlier[0]) if o.kind == "w" and earlier else None


def foreign(one, place):
    o = one.operations[place]
    return o.kind == "r" and one.own(place) is None and o.version != 0


def aborted_read(history, one, place):
    o = one.operations[place]
    aborted = writers(history, o, False)
    if foreign(one, place) and not writers(history, o, True) and aborted:
        return by_line(aborted[0])
    return None


def unwritten(history, one, place):
    o = one.operations[place]
    none = not writers(history, o, True) and not writers(history, o, False)
    return b"" if foreign(one, place) and none else None


def intermediate_read(history, one, place):
    o = one.operations[place]
    found = writers(history, o, True)
    if not foreign(one, place) or not found:
        return None
    greater = [v for v in found[0].writes(o.item) if v > o.version]
    return by_line(found[0]) + b", which wrote %d" % min(greater) if greater else None


def value(history, one, place):
    o = one.operations[place]
    if not o.has_value:
        return None
    given_before = [
        (t.line, p.value)
        for t in history
        if t.commits and t.line <= one.line
        for p in (t.operations if t is not one else t.operations[:place])
        if p.has_value and p.item == o.item and type(p.item) is type(o.item) and p.version == o.version
    ]
    if all(same_values(v, o.value) for _, v in given_before):
        return None
    line, first = given_before[0]
    return b"value %s, line %d gives %s" % (written(o.value), line, written(first))


FAULTS = [
    ("internal", internal),
    ("duplicate", duplicate),
    ("G1a", aborted_read),
    ("unwritten", unwritten),
    ("G1b", intermediate_read),
    ("value", value),
]


def first_fault(history):
    for one in history:
        if not one.commits:
            continue
        for name, judge in FAULTS:
            for place, o in enumerate(one.operations):
                told = judge(history, one, place)
                if told is not None:
                    tail = b" " + told if told else b""
                    return b"no %s\nline %d %s %s%s\n" % (name.encode(), one.line, written(one.tx), o.told(), tail)
    return None


# ---------------------------------------------------------------- conflicts and cycles


def rank(item):
    return (1, item) if isinstance(item, Text) else (0, item)


class Step:
    """A conflict, or what sessions or time ask for, of one transaction with another."""

    def __init__(self, source, kind, target, item=None, v=None, w=None):
        self.source, self.kind, self.target, self.item, self.v, self.w = source, kind, target, item, v, w

    def key(self):
        thing = (rank(self.item), self.v) if self.item is not None else ()
        return (self.target.line, KINDS.index(self.kind), thing)

    def told(self):
        head = b"%s %s %s" % (written(self.source.tx), self.kind.encode(), written(self.target.tx))
        if self.kind == "po":
            middle = b"session %s" % written(self.source.session)
        elif self.kind == "rt":
            middle = b"done %d begin %d" % (self.source.done, self.target.begin)
        else:
            middle = b"%s %d %d" % (written(self.item), self.v, self.w)
        return head + b" " + middle + b" lines %d %d\n" % (self.source.line, self.target.line)


def conflicts(committed):
    steps = []
    items = {(type(o.item), o.item): o.item for t in committed for o in t.operations}.values()
    for item in items:
        chain = sorted({v for t in committed for v in t.writes(item)})
        for one in committed:
            for place, o in enumerate(one.operations):
                if o.item != item or type(o.item) is not type(item):
                    continue
                foreign_read = o.kind == "r" and one.own(place) is None
                behind = [v for v in chain if v > o.version][:1]
                for other in committed:
                    if other is one:
                        continue
                    if o.kind == "w" and behind and behind[0] in other.writes(item):
                        steps.append(Step(one, "ww", other, item, o.version, behind[0]))
                    if foreign_read and behind and behind[0] in other.writes(item):
                        steps.append(Step(one, "rw", other, item, o.version, behind[0]))
                    if o.kind == "w":
                        for p, q in enumerate(other.operations):
                            if q.kind == "r" and q.item == item and type(q.item) is type(item) and q.version == o.version and other.own(p) is None:
                                steps.append(Step(one, "wr", other, item, o.version, o.version))
    return steps


def asked(committed, real_time, sessions):
    steps = []
    for one in committed:
        for other in committed:
            if one is not other and sessions and before(one, other, False, True):
                steps.append(Step(one, "po", other))
            if one is not other and real_time and before(one, other, True, False):
                steps.append(Step(one, "rt", other))
    return steps


def cycles_through(steps, first):
    """All cycles of transactions through this one, each as its transactions from it on."""
    found, walks = [], [[first]]
    while walks:
        walk = walks.pop()
        for target in {s.target for s in steps if s.source is walk[-1]}:
            if target is first:
                found.append(walk)
            elif target not in walk:
                walks.append(walk + [target])
    return found


def shown_cycle(committed, steps):
    for first in committed:
        cycles = cycles_through(steps, first)
        if cycles:
            length = min(map(len, cycles))
            told = []
            for cycle in cycles:
                if len(cycle) == length:
                    ends = cycle[1:] + [first]
                    told.append([min((s for s in steps if s.source is a and s.target is b), key=Step.key) for a, b in zip(cycle, ends)])
            return min(told, key=lambda cycle: [s.key() for s in cycle])
    return None


def cycle_answer(committed, real_time, sessions):
    steps = conflicts(committed)
    for name, kinds in (("G0", {"ww"}), ("G1c", {"ww", "wr"}), (None, set(KINDS))):
        cycle = shown_cycle(committed, [s for s in steps if s.kind in kinds])
        if cycle:
            return told_cycle(name or by_rw(cycle), cycle)
    for with_time in (False, True):
        if with_time and not real_time or not with_time and not sessions:
            continue
        more = steps + asked(committed, with_time, sessions)
        cycle = shown_cycle(committed, more)
        if cycle:
            tail = "-realtime" if any(s.kind == "rt" for s in cycle) else "-process"
            return told_cycle(by_rw(cycle) + tail, cycle)
    return None


def by_rw(cycle):
    many = sum(s.kind == "rw" for s in cycle)
    return "G1c" if many == 0 else "G-single" if many == 1 else "G2-item"


def told_cycle(name, cycle):
    return b"no %s\n" % name.encode() + b"".join(s.told() for s in cycle)


# ---------------------------------------------------------------- orders


def least_order(committed, real_time, sessions):
    steps = conflicts(committed) + asked(committed, real_time, sessions)
    left, order = list(committed), []
    while left:
        free = [t for t in left if not any(s.target is t and s.source in left for s in steps)]
        order.append(free[0])
        left.remove(free[0])
    return order


def against(history, text, real_time, sessions):
    committed = {(type(t.tx), t.tx): t for t in history if t.commits}
    order = []
    for number, line in enumerate(lines_of(text), 1):
        try:
            tx = key(Reader(line).whole(), 1, 256)
        except Unreadable:
            tx = None
        one = committed.get((type(tx), tx))
        if one is None or one in order:
            return b"no order\norder line %d\n" % number
        order.append(one)
    if len(order) < len(committed):
        return b"no order\norder line %d\n" % (len(order) + 1)
    state = {}
    for i, one in enumerate(order):
        fault, state = run_one(state, one)
        if fault:
            place, has = fault
            return b"no order\nline %d %s %s finds %d\n" % (one.line, written(one.tx), one.operations[place].told(), has)
        steps = [s for s in asked(list(committed.values()), real_time, sessions) if s.source is one and s.target in order[:i]]
        sessions_broken = [s for s in steps if s.kind == "po"]
        times_broken = [s for s in steps if s.kind == "rt"]
        if sessions_broken:
            return b"no order\n" + max(sessions_broken, key=lambda s: s.target.line).told()
        if times_broken:
            return b"no order\n" + max(times_broken, key=lambda s: (s.target.begin, -s.target.line)).told()
    return None


# ---------------------------------------------------------------- the answer


def answer(text, real_time=False, sessions=False, order=False, against_text=None):
    """What is written, and the status."""
    history, unreadable = read(text, real_time, sessions)
    if unreadable:
        return b"! %s line %d\n" % (unreadable.encode(), history), 2
    committed = [t for t in history if t.commits]
    no = first_fault(history)
    if no is None and against_text is not None:
        no = against(history, against_text, real_time, sessions)
    elif no is None:
        no = cycle_answer(committed, real_time, sessions)
        if len(committed) <= ORDERS_OF and is_serializable(committed, real_time, sessions) == (no is not None):
            sys.exit(f"slow.py is wrong: {no!r} of {text!r}")
    elif len(committed) <= ORDERS_OF and is_serializable(committed, real_time, sessions):
        sys.exit(f"slow.py is wrong: {no!r} of {text!r}")
    if no is not None:
        return no, 1
    yes = b"yes %d committed %d aborted\n" % (len(committed), len(history) - len(committed))
    if order:
        yes += b"---\n" + b"".join(written(t.tx) + b"\n" for t in least_order(committed, real_time, sessions))
    return yes, 0


def answer_to(words, stdin):
    """The answer to the words of a command line."""
    options = {"real_time": False, "sessions": False, "order": False, "against_text": None}
    text, words = None, list(words)
    while words:
        word = words.pop(0)
        if word == "--against":
            with open(words.pop(0), "rb") as file:
                options["against_text"] = file.read()
        elif word in ("--order", "--real-time", "--sessions"):
            options[word[2:].replace("-", "_")] = True
        elif word != "-":
            with open(word, "rb") as file:
                text = file.read()
    return answer(stdin() if text is None else text, **options)


if __name__ == "__main__":
    if "--help" in sys.argv:
        sys.exit(__doc__)
    said, status = answer_to(sys.argv[1:], sys.stdin.buffer.read)
    sys.stdout.buffer.write(said)
    sys.exit(status)
