"""Answers of `sgt certify` and `sgt explain`, told with the transactions, items, values and lines of the log."""
import json
import re
import sys

ENTRY = r"(?:[rwdpq]\d+\[\w+\]=\d+|[cna]\d+|(?:item|final) \w+=\d+|site \d+)"
HOLES = {"i": r"([a-z][a-z0-9_]*)", "e": f"({ENTRY})", "*": "(.*?)", **dict.fromkeys("tsvl", r"(\d+)")}
KINDS = {"rw": ("read", "wrote"), "wr": ("wrote", "read"), "ww": ("wrote", "wrote")}
ENDS = {"c": "committed", "n": "was refused", "a": "was withdrawn"}
ACTS = {"r": "read", "w": "wrote", "p": "asked to write"}
ROUND = {"no ranks": "no ranks: each of these has to come before the next, and the last before the first",
         "no order": "no order: these ends go round in a circle, so the sites have no common order",
         "no walk": "no walk: who was refused is on no circle of conflicts with committed ones"}
MEANS = {"F10": "the item doesn't have this value there", "F16": "ITEM doesn't have this value at the end"}
OF_AUDITS = ("F3", "F4", "F5", "F6", "F11", "F14", "F17")
MOST_SHOWN = 12

# A line behind the first of an answer of `sgt certify`.
STEP = re.compile(r"\d+ (?:rw|wr|ww) \d+ site .*|\d+ before \d+ site .*|[cna]\d+ site \d+ line \d+|\d+|tx \d+")

# What `sgt explain` writes, with holes: of a transaction, an item, a site, a value, a line, an entry, or of any words.
SENTENCES = """
  <t> <*> <i> before <t> <*> it: site <s>, lines <l> and <l>
  <t> to <t>: not shown by the lines before the fault
transaction <t> was refused (decision <*>), since it would close a cycle:
decision <*> refuses <t>, since it would close a cycle:
decision <*> commits <t> with rank <*>: of <t> may stand <*>
decision <*> refuses <t>: of <t> may stand <*>
decision <*> withdraws <t>: of <t> may stand <*>
decision <*> commits <t> with rank <*>: <*> has to stand among the entries
decision <*> refuses <t>: <*> has to stand among the entries
decision <*> withdraws <t>: <*> has to stand among the entries
decision <*> commits <t> with rank <*>
decision <*> refuses <t>
decision <*> withdraws <t>
<*> the end of decision <*> (line <l>)
site <s>
ReadValue: <e>, but <i> at site <s> is <v> here
Final: <e>, but <i> at site <s> is <v> at the end
<v> was its value up to line <l>: a read of an old version, or the log is wrong
<v> was its value up to line <l>
<v> was never its value before<*>
Item: site <s> has no item <i>
the nearest by name there: <i>, <i>
the nearest by name there: <i>
Twice: transaction <t> <*> item <i> of site <s> a second time
Block: what transaction <t> <*> isn't followed by its next line
directly behind line <l> may stand <*> of <t> alone: they stand together
transaction <t> has ended at this site: nothing of it may follow
transaction <t> has no decision in the certificate
transaction <t> has no <*> of <i> there
NotEnded: transaction <t> has an entry at site <s> and no end
<t> <*> <i> of site <s> before <t> <*> it (<*>): <t> has to have the smaller rank
WalkStep: step <*> of <*> in the walk of refused transaction <t> (decision <*>)
WalkShape: the walk of refused transaction <t> (decision <*>) is no cycle
<t> -> <t> by <*> on <i> at site <s>: a <*> by <t> before a <*> by <t>
rank <*> is given to <t> (decision <*>) and to <t> (decision <*>)
step <*> leads to <t>, which isn't committed before: decision <*> commits <t> with rank <*>
step <*> leads to <t>, which isn't committed before: decision <*> refuses <t>
step <*> leads to <t>, which isn't committed before: decision <*> withdraws <t>
step <*> leads to <t>, which has no decision
two of its steps lead to <t>
its last step leads to <t>, and not back to it
  <t> <*> before <t> <*>: site <s>, lines <l> and <l>
transactions <t> and <t> were committed, and their conflicts close a cycle, so no serial order agrees with them:
transactions <t>, <t> and <t> were committed, and their conflicts close a cycle, so no serial order agrees with them:
the sites log the ends of transactions <t> and <t> in orders that contradict one another:
the sites log the ends of transactions <t>, <t> and <t> in orders that contradict one another:
lost update (<*>): <t> read <i> (line <l>) before <t> <*> it (line <l>), and then <*> (line <l>)
write skew (<*>): <t> read <i>, <t> read <i>, and each changed what the other had read
read skew (<*>): <t> read <i> before <t> changed it, and <i> after: it saw half of what <t> did
transaction <t> was refused, and lies on no cycle with transactions that were committed before it:
  <e>: site <s>, line <l><*>
End: transaction <t> is <*> by line <l>, and <*> by line <l>
transaction <t>:
transaction <t> wrote it
transaction <t> added to it, which gave <v>
transaction <t> has rank <*>
"""


class Names:
    """What the numbers, names and lines of a text stand for. `shift` is 1 where lines are counted with line 2."""

    def __init__(self, told):
        self.transactions = {str(number): plain(name) for name, number in told["transactions"].items()}
        self.items = {short: plain(item) for item, short in told["items"].items()}
        self.values = told["values"] and {str(number): value for value, number in told["values"].items()}
        self.is_signed, self.sites = told["least"] < 0, [plain(name) for name in told["sites"]]
        self.lines = {text: int(line) for text, line in told["lines"].items()}
        self.held, self.log, self.shift, self.named = dict(told["held"]), str(told["log"]), 0, set()

    def t(self, text):
        return self.transactions.get(text, f"{text} of the text")

    def i(self, text):
        return self.items.get(text, text)

    def s(self, text):
        return self.sites[int(text)] if int(text) < len(self.sites) else f"{text} of the text"

    def v(self, text):
        if self.values is not None:
            return self.values.get(text, text)
        return str(int(text) - 2**64) if self.is_signed and int(text) >= 2**63 else text

    def place(self, text):
        """The line of the log, or None."""
        found = self.lines.get(str(int(text) - self.shift))
        if found is not None:
            self.named.add(found)
        return found

    def l(self, text):  # noqa: E743
        found = self.place(text)
        return f"{text} of the {'bundle' if self.shift else 'text'}" if found is None else str(found)

    def e(self, text):
        if found := re.fullmatch(r"([rwdpq])(\d+)\[(\w+)\]=(\d+)", text):
            letter, tx, item, value = found[1], self.t(found[2]), self.i(found[3]), self.v(found[4])
            if letter in "dq":
                return f"{tx} {'added' if letter == 'd' else 'asked to add'} {value} to {item}"
            return f"{tx} {ACTS[letter]} {item} = {value}"
        if found := re.fullmatch(r"([cna])(\d+)", text):
            return f"{self.t(found[2])} {ENDS[found[1]]}"
        if found := re.fullmatch(r"(item|final) (\w+)=(\d+)", text):
            return f"{self.i(found[2])} = {self.v(found[3])} at the {'start' if found[1] == 'item' else 'end'}"
        return f"site {self.s(text.removeprefix('site '))}"


def plain(name):
    """A name, or words, as they can be shown in a line."""
    return name if name.isprintable() else json.dumps(name)[1:-1]


def at_line(names, text):
    told = names.l(text)
    return f"{told} of the log" if told.isdigit() else told


def forms():
    """Of each sentence: what it looks like, and the words and holes that it is made of."""
    for sentence in SENTENCES.strip("\n").split("\n"):
        parts = re.split(r"<(.)>", sentence)
        pattern = "".join(HOLES[part] if at % 2 else re.escape(part) for at, part in enumerate(parts))
        yield re.compile(pattern), parts


def told_by(names, all_forms, said):
    """The sentence with what its holes stand for; another one as it is."""
    for form, parts in all_forms:
        found = form.fullmatch(said)
        if found:
            filled = iter(found.groups())
            return "".join((next(filled) if part == "*" else getattr(names, part)(next(filled))) if at % 2 else part
                           for at, part in enumerate(parts))
    return said


def explained(names, said, shift):
    """An answer of `sgt explain` or `sgt audit`, which counts the lines of a bundle, or of logs."""
    names.shift, all_forms = shift, list(forms())
    for line in said:
        shown = re.fullmatch(rf"( *)(\d+) \| ({ENTRY})(?:( {{3,}})(.*))?", line)
        refused = re.fullmatch(r"no line (\d+) (F\d+)", line)
        if shown:
            behind = f"     {told_by(names, all_forms, shown[5])}" if shown[5] else ""
            yield f"{names.place(shown[2]) or '-':>4} | {names.e(shown[3])}{behind}"
        elif refused:
            yield f"no: {refused[2]} at line {at_line(names, refused[1])}"
        else:
            yield ROUND.get(line) or told_by(names, all_forms, line)


def certified(names, said):
    """An answer of `sgt certify`, which counts the lines of its text."""
    for line in said:
        if line in ROUND:
            yield ROUND[line]
        elif found := re.fullmatch(r"no line (\d+) (F\d+)", line):
            means = MEANS.get(found[2], "").replace("ITEM", plain(names.held.get(found[1], "the item")))
            yield f"no: {found[2]} at line {at_line(names, found[1])}{': ' if means else ''}{means}"
        elif found := re.fullmatch(r"(\d+) (rw|wr|ww) (\d+) site (\d+) item (\w+) lines (\d+) (\d+)", line):
            first, second = KINDS[found[2]]
            yield (f"{names.t(found[1])} {first} {names.i(found[5])} before {names.t(found[3])} {second} it: "
                   f"site {names.s(found[4])}, lines {names.l(found[6])} and {names.l(found[7])}")
        elif found := re.fullmatch(r"(\d+) before (\d+) site (\d+) lines (\d+) (\d+)", line):
            yield (f"{names.t(found[1])} ended before {names.t(found[2])}: site {names.s(found[3])}, "
                   f"lines {names.l(found[4])} and {names.l(found[5])}")
        elif found := re.fullmatch(r"([cna]\d+) site (\d+) line (\d+)", line):
            yield f"{names.e(found[1])}: site {names.s(found[2])}, line {names.l(found[3])}"
        else:
            yield line


def shown_lines(names):
    """The lines of the log that were named, where it can still be read."""
    wanted = sorted(names.named)[:MOST_SHOWN]
    if not wanted or names.log == "-":
        return
    try:
        with open(names.log, "rb") as source:
            for number, line in enumerate(source, 1):
                if number in wanted:
                    text = line.decode(errors="replace").strip()
                    yield f"{number:>4} | {text if len(text) <= 120 else text[:118] + '..'}"
                if number >= wanted[-1]:
                    return
    except OSError:
        return


def names_of(path):
    with open(path, encoding="utf-8") as told:
        try:
            return Names(json.load(told))
        except (ValueError, KeyError, TypeError, AttributeError, RecursionError) as why:
            raise ValueError(f"{path}: no names that export.py wrote") from why


def trace(path):
    """The answer on standard input, told."""
    names = names_of(path)
    said = sys.stdin.buffer.read().decode(errors="replace").removesuffix("\n").split("\n")
    if said[0] in ("sgt 1", "sgt 2"):
        raise ValueError("a bundle, and no answer: `sgt certify` found a certificate")
    if not re.match(r"(yes|no) |a certificate exists: ", said[0]):
        raise ValueError("no answer of `sgt certify`, `audit` or `explain` as text: its first line is no verdict")
    found = re.fullmatch(r"no line \d+ (F\d+)", said[0])
    is_of_logs = said[0] in ROUND or found and found[1] not in OF_AUDITS
    if is_of_logs and all(STEP.fullmatch(line) for line in said[1:]):
        for line in certified(names, said):
            print(line)
        for line in shown_lines(names):
            print(line)
    else:
        for line in explained(names, said, 0 if is_of_logs else 1):
            print(line)
