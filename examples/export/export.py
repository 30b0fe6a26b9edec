#!/usr/bin/env python3
"""Turns what a system logged about its transactions into the text that `sgt certify` reads.

    export.py LOG.jsonl [NAMES.json] > LOGS
    export.py --trace NAMES.json < ANSWER

LOG.jsonl (or - for standard input) has an event a line, in the order in which the events took effect; docs/EXPORT.md
says what the events are. NAMES.json gets what the names, numbers and values of the text stand for, and the line of the
log that each line of the text came from. With --trace an answer of `sgt certify` or `sgt explain` is told with the
names and lines of the log. Status 1 and a message: the log has something that the text can't hold.
"""
import contextlib
import datetime
import functools
import json
import os
import re
import sys
from array import array

sys.dont_write_bytecode = True  # (a checkout stays as it is)
import answers
import ends

NAME = re.compile(r"[a-z][a-z0-9_]{0,15}")
MOST_ITEMS = 1024
MOST_SITES = 64
MOST_TOLD = 5
LONGEST_LINE = 2**26
LETTERS = {"commit": "c", "refuse": "n", "abort": "a"}
ASKED = {"w": "p", "d": "q"}
READ, WRITE, ADD, END, ITEMS, FINAL = range(6)
ACTS = {"read": READ, "write": WRITE, "add": ADD, "end": END, "items": ITEMS, "final": FINAL}
TIME = re.compile(r"(\d{4}-\d\d-\d\d)[Tt ](\d\d:\d\d)(:\d\d)?(?:[.,](\d{1,9}))? ?(?:([Zz])|([+-]\d\d):?(\d\d)?)?")
WRONG_AT = "an \"at\" that is neither a number nor a time in ISO 8601"


class Bad(Exception):
    """What the text can't hold, in words."""


class Notes:
    """What is told on standard error without stopping: the first few of a kind, and how many there are."""

    def __init__(self):
        self.kinds = {}

    def add(self, kind, text):
        found = self.kinds.setdefault(kind, [0, []])
        found[0] += 1
        if found[0] <= MOST_TOLD:
            found[1].append(text)

    def tell(self):
        for kind, (count, texts) in self.kinds.items():
            for text in texts:
                print(f"export.py: {kind}: {answers.plain(text)}", file=sys.stderr)
            if count > len(texts):
                print(f"export.py: {kind}: {count - len(texts)} more", file=sys.stderr)


class Values:
    """What kinds of value the log has, and how each is spelled in the text."""

    def __init__(self):
        self.least, self.greatest, self.has_other, self.has_increment = 0, 0, False, False
        self.numbers = {}

    def seen(self, value):
        """The value as it is kept: a whole number, or the JSON text of another one."""
        if type(value) is float and value.is_integer():
            value = int(value)
        if type(value) is int:
            if value < self.least:
                self.least = value
            elif value > self.greatest:
                self.greatest = value
            return value
        self.has_other = True
        return json.dumps(value, sort_keys=True)

    def settle(self):
        fits = self.greatest < (2**63 if self.least < 0 else 2**64) and self.least >= -(2**63)
        self.are_numbers = fits and not self.has_other
        if self.has_increment and not self.are_numbers:
            raise Bad("increments beside values that aren't whole numbers of 64 bits")

    def number(self, value):
        # 0 is the value that an item has where the log names none
        if value is None:
            return 0
        return value % 2**64 if self.are_numbers else self.numbers.setdefault(value, len(self.numbers) + 1)


class Part:
    """What a transaction has done at one site, until it ends there."""

    __slots__ = ("reads", "asked", "flaw")

    def __init__(self):
        self.reads = {}  # item: (how often it had been changed, the value, the line)
        self.asked = {}  # item: (letter, value, the line)
        self.flaw = None  # why it can't be told, should it commit


class Item:
    """An item of a site: its values as far as they are known, who changed it last, and who wants to."""

    __slots__ = ("name", "initial", "start", "now", "final", "finish", "changes", "changer", "writers", "adders",
                 "is_used", "is_open")

    def __init__(self, name):
        # (`start` and `finish` are the lines of the log that tell the values at the start and at the end; as long as
        # the value at the start is open, `now` is the sum of the increments)
        self.name, self.initial, self.start, self.now, self.final, self.finish = name, None, 0, None, None, 0
        self.changes, self.changer, self.writers, self.adders = 0, None, {}, {}
        self.is_used, self.is_open = False, True

    def learn(self, value, line):
        """This is its value now, so the one at the start, where nothing has said it, is known too."""
        if self.now is None:
            self.initial = value
        elif type(value) is int:
            self.initial = value - self.now
        self.now, self.start, self.is_open = value, line, False

    def is_told(self):
        """Whether the text has the item: it is used, or it doesn't end as it began."""
        return self.is_used or None not in (self.initial, self.final) and self.initial != self.final


class Site:
    """One site's reads, ends and changes so far, in columns. Changes stay with their transaction until it ends."""

    def __init__(self, name):
        self.name, self.items, self.all_items = name, {}, []
        self.parts, self.ended, self.latest = {}, set(), 0
        # reads, in the order of the log
        self.read_txs, self.read_items, self.read_values, self.read_lines = array("I"), array("I"), [], array("I")
        # ends, each with how many reads stand in front of it, and its changes from this one on
        self.end_txs, self.end_kinds, self.end_lines = array("I"), bytearray(), array("I")
        self.end_slots, self.end_firsts = array("I"), array("I")
        self.change_kinds, self.change_items = bytearray(), array("I")
        self.change_values, self.change_lines = [], array("I")
        self.row = None  # the ends in the order of the text, where that isn't that of the log

    def item(self, name):
        """The number of the item of this name."""
        number = self.items.get(name)
        if number is None:
            number = self.items[name] = len(self.all_items)
            self.all_items.append(Item(name))
        return number

    def part(self, tx):
        part = self.parts.get(tx)
        if part is None:
            if tx in self.ended:
                raise Bad("an event of a transaction behind its end here")
            part = self.parts[tx] = Part()
        return part

    def changes_of(self, end):
        """The places of the changes of this end."""
        last = self.end_firsts[end + 1] if end + 1 < len(self.end_firsts) else len(self.change_kinds)
        return range(self.end_firsts[end], last)


class Log:
    """All sites, the numbers of the transactions, and where each was decided: at its first end."""

    def __init__(self):
        self.sites, self.numbers, self.names = {}, {}, [""]
        # of each transaction that was decided: a number that rises, how, and the line
        self.decided, self.hows, self.decided_lines, self.decisions = array("I", [0]), bytearray(1), array("I", [0]), 0
        self.values, self.notes, self.is_crossed = Values(), Notes(), False

    def site(self, name):
        site = self.sites.get(name)
        if site is None:
            site = self.sites[name] = Site(name)
        return site

    def number(self, name):
        number = self.numbers.setdefault(name, len(self.names))
        if number == len(self.names):
            self.names.append(name)
            self.decided.append(0)
            self.hows.append(0)
            self.decided_lines.append(0)
        return number

    def take(self, act, site, tx, item, value, line):
        if act == READ:
            self.read(site, tx, item, value, line)
        elif act == WRITE or act == ADD:
            self.change(site, tx, item, "w" if act == WRITE else "d", value, line)
        elif act == END:
            for one in self.sites_of(tx) if site is None else site:
                self.end(one, tx, value, line)
        else:
            for name, told in value.items():
                self.tell(site.all_items[site.item(name)], act, self.values.seen(told), line)

    def sites_of(self, tx):
        """Of an end without a site: all that its transaction is at."""
        found = [site for site in self.sites.values() if tx in site.parts]
        if not found and self.decided[tx]:
            raise Bad("an end of a transaction that has ended everywhere")
        return found or [self.site(next(iter(self.sites), "0"))]

    def tell(self, item, act, value, line):
        if act == FINAL:
            item.final, item.finish = value, line
            return
        if item.is_used or item.writers or item.adders or not item.is_open:
            raise Bad(f"a value of {item.name} at the start, behind another one or behind the item's first use")
        item.learn(value, line)

    def read(self, site, tx, number, value, line):
        part, item = site.part(tx), site.all_items[number]
        if number in part.asked:
            self.own_read(part, tx, item, part.asked[number], value, line)
            return  # its own change, which nobody else could see
        if number in part.reads:
            before, first, at = part.reads[number]
            if before != item.changes or value != first:
                found = f"not repeatable: {self.names[tx]} read {item.name} in lines {at} and {line}, "
                part.flaw = part.flaw or found + self.writer_between(item, before, at)
            return
        self.dirty_read(site, tx, number, value, line)
        item.is_used = True
        if item.is_open:
            item.learn(value, line)
        part.reads[number] = (item.changes, value, line)
        site.read_txs.append(tx)
        site.read_items.append(number)
        site.read_values.append(value)
        site.read_lines.append(line)

    def dirty_read(self, site, tx, number, value, line):
        """Tells of a read of what another has written and not ended, where that isn't known to be the item's value."""
        item = site.all_items[number]
        if not item.is_open and same(value, item.now):
            return
        for other, at in item.writers.items():
            if other != tx and same(value, site.part(other).asked[number][1]):
                self.notes.add("a dirty read (G1a, where it was aborted)",
                               f"{self.names[tx]} read {item.name} in line {line}, at site {site.name}: what "
                               f"{self.names[other]} wrote in line {at} and had not ended")

    def own_read(self, part, tx, item, own, value, line):
        letter, change, at = own
        if letter == "d" and item.is_open and type(value) is int:
            item.learn(value - change, line)
        left = change if letter == "w" else self.sum_of(item.now, change)
        if not same(value, left):
            found = f"own read: {self.names[tx]} read {item.name} in line {line}, and not what it left in line {at}"
            part.flaw = part.flaw or found

    def writer_between(self, item, before, at):
        if before != item.changes:
            return f"{self.names[item.changer[0]]} wrote it in line {item.changer[1]}"
        for tx, line in item.writers.items():
            if line > at:
                return f"{self.names[tx]} wrote it in line {line} and hadn't ended"
        return "nobody wrote it between"

    def change(self, site, tx, number, letter, value, line):
        part, item = site.part(tx), site.all_items[number]
        if letter == "d":
            if type(value) is not int:
                raise Bad("an increment by what is no whole number")
            self.values.has_increment = True
        own = part.asked.get(number)
        if own is None or letter == "w":
            self.overlap(site, item, tx, letter, line)
        if own is not None and letter == "d":
            letter, value = own[0], self.sum_of(own[1], value)
        (item.writers if letter == "w" else item.adders)[tx] = line
        part.asked[number] = (letter, value, line)

    def overlap(self, site, item, tx, letter, line):
        """Tells of a change of an item that another has changed and not ended; but not of two increments."""
        for open_ones in (item.writers, item.adders) if letter == "w" else (item.writers,):
            other = next((other for other in open_ones if other != tx), None)
            if other is not None:
                self.notes.add("a dirty write, unless writes stay private until the commit",
                               f"{self.names[other]} wrote {item.name} in line {open_ones[other]} and {self.names[tx]} "
                               f"in line {line}, at site {site.name}, before either ended")
                return

    def sum_of(self, one, other):
        one = 0 if one is None else one
        if type(one) is not int or type(other) is not int:
            raise Bad("an increment beside values that are no whole numbers")
        total = one + other
        return total if -(2**63) <= total < 2**64 else total % 2**64

    def end(self, site, tx, how, line):
        part = site.part(tx)
        if how == "commit" and part.flaw:
            raise Bad(part.flaw)
        self.decide(site, tx, LETTERS[how], line)
        decided = self.decided[tx]
        self.is_crossed = self.is_crossed or decided < site.latest
        site.latest = decided
        site.end_txs.append(tx)
        site.end_kinds.append(ord(LETTERS[how]))
        site.end_lines.append(line)
        site.end_slots.append(len(site.read_txs))
        site.end_firsts.append(len(site.change_kinds))
        for number, own in part.asked.items():
            item = site.all_items[number]
            item.writers.pop(tx, None)
            item.adders.pop(tx, None)
            if how != "abort":
                self.put_change(site, tx, number, item, own, how == "commit")
        del site.parts[tx]
        site.ended.add(tx)

    def decide(self, site, tx, letter, line):
        """A transaction is decided at its first end, in one way."""
        if not self.decided[tx]:
            self.decisions += 1
            self.decided[tx], self.hows[tx], self.decided_lines[tx] = self.decisions, ord(letter), line
        elif self.hows[tx] != ord(letter):
            how, first = (next(it for it in LETTERS if LETTERS[it] == one) for one in (letter, chr(self.hows[tx])))
            raise Bad(f"{self.names[tx]} has the end {how} at site {site.name}, "
                      f"and the end {first} in line {self.decided_lines[tx]}")

    def put_change(self, site, tx, number, item, own, is_committed):
        letter, value, line = own
        item.is_used = True
        if is_committed:
            item.changes, item.changer, item.is_open = item.changes + 1, (tx, line), item.is_open and letter == "d"
            item.now = value if letter == "w" else self.sum_of(item.now, value)
        site.change_kinds.append(ord(letter if is_committed else ASKED[letter]))
        site.change_items.append(number)
        site.change_values.append(value)
        site.change_lines.append(line)

    def finish(self):
        for site in self.sites.values():
            if site.parts:
                raise Bad(f"transaction {self.names[min(site.parts)]} has no end at site {site.name}")
            for item in site.all_items:
                if item.is_open and item.final is not None:
                    item.learn(item.final, item.finish)
            missing = sorted(item.name for item in site.all_items if item.is_used and item.final is None)
            if missing:
                self.notes.add("no value at the end", f"of {len(missing)} items at site {site.name}, {missing[0]} the "
                               "first: what was written last is believed")
        self.values.settle()
        if self.is_crossed:
            for told in ends.settle(list(self.sites.values()), self.names, self.decided):
                self.notes.add("no common order of the ends", told)
        self.notes.tell()


def same(one, other):
    return one == other or type(one) is int and type(other) is int and (one - other) % 2**64 == 0


def time_of(text):
    """A time in ISO 8601, in nanoseconds."""
    found = TIME.fullmatch(text)
    if not found:
        raise Bad(WRONG_AT)
    day, clock, seconds, fraction, _, hours, minutes = found.groups()
    moment = second_of(f"{day}T{clock}{seconds or ':00'}{hours or '+00'}:{minutes or '00'}")
    return moment * 10**9 + int((fraction or "0").ljust(9, "0"))


@functools.lru_cache(maxsize=4096)
def second_of(text):
    return int(datetime.datetime.fromisoformat(text).timestamp())


def spelled(name, key):
    if isinstance(name, bool) or not isinstance(name, (str, int)):
        raise Bad(f"a {key} that is neither a string nor a number")
    return str(name)


def act_of(keys):
    """What an event with these keys does."""
    acts = [key for key in keys if key in ACTS]
    unknown = [key for key in keys if key not in ACTS and key not in ("site", "tx", "value", "at")]
    if unknown:
        raise Bad(f"a key that no event has: {unknown[0]}")
    if len(acts) != 1:
        raise Bad("an event has one of read, write, add, end, items and final")
    act = ACTS[acts[0]]
    wanted = [key for key in (act != END and "site", act <= END and "tx", act < END and "value") if key]
    for key in wanted:
        if key not in keys:
            raise Bad(f"no {key}")
    for key in ("tx", "value"):
        if key in keys and key not in wanted:
            raise Bad(f"{acts[0]} and {key} in one event")
    return act, acts[0]


class Events:
    """The events of a source, one a line, with their names as numbers of the log."""

    def __init__(self, log):
        self.log, self.forms, self.spelled_at = log, {}, None

    def numbered(self, event):
        """The event of one line as `Log.take` wants it, without the line."""
        if type(event) is not dict:
            raise Bad("no JSON object")
        keys = tuple(event)
        if keys not in self.forms:
            self.forms[keys] = act_of(keys)
        act, word = self.forms[keys]
        if act < END:
            return self.operation(act, event["site"], event["tx"], event[word], event["value"])
        told = event[word]
        if act == END:
            if type(told) is not str or told not in LETTERS:
                raise Bad("an end that is none of commit, abort and refuse")
            return act, self.sites_of(event.get("site")), self.log.number(spelled(event["tx"], "tx")), 0, told
        if type(told) is not dict:
            raise Bad(f"{word} are an object of names and values")
        if type(event["site"]) is list:
            raise Bad("several sites, and the event is no end")
        return act, self.log.site(spelled(event["site"], "site")), 0, 0, told

    def operation(self, act, name, tx, item, value):
        site = self.log.sites.get(name) if type(name) is str else None
        if site is None:
            if type(name) is list:
                raise Bad("several sites, and the event is no end")
            site = self.log.site(spelled(name, "site"))
        number = self.log.number(tx if type(tx) is str else spelled(tx, "tx"))
        item = site.item(item if type(item) is str else spelled(item, "name of an item"))
        return act, site, number, item, self.log.values.seen(value)

    def sites_of(self, name):
        """The sites that an end tells, or None where it tells none."""
        if name is None:
            return None
        names = name if type(name) is list else [name]
        if not names:
            raise Bad("an empty list of sites")
        return [self.log.site(it) for it in dict.fromkeys(spelled(it, "site") for it in names)]

    def position(self, at):
        """The "at" of an event, as a number."""
        is_time = type(at) is str
        at = time_of(at) if is_time else at
        if type(at) not in (int, float) or at != at:
            raise Bad(WRONG_AT)
        if self.spelled_at not in (None, is_time):
            raise Bad("some \"at\" are numbers and some are times")
        self.spelled_at = is_time
        return at


def lines_of(source):
    """The lines that hold something, with their numbers, as JSON values."""
    decode, number = json.JSONDecoder().raw_decode, 0
    for line in iter(functools.partial(source.readline, LONGEST_LINE), b""):
        number += 1
        if len(line) == LONGEST_LINE:
            raise Bad(f"line {number}: a line of {LONGEST_LINE} bytes or more")
        if number == 1:
            if line.startswith(b"\x1f\x8b"):
                raise Bad("this is packed: gzip -dc LOG | export.py - NAMES.json")
            line = line.removeprefix(b"\xef\xbb\xbf")
        try:
            text = line.strip(b" \t\r\n").decode()
            if text:
                event, end = decode(text)
                if end != len(text):
                    raise Bad(f"more than one JSON value, from column {end + 1} on")
                yield number, event
        except UnicodeDecodeError as why:
            raise Bad(f"line {number}: no UTF-8, from byte {why.start + 1} on") from why
        except json.JSONDecodeError as why:
            raise Bad(f"line {number}: no JSON: {why.msg}, column {why.colno}") from why
        except Bad as why:
            raise Bad(f"line {number}: {why}") from why
        except (ValueError, RecursionError) as why:
            raise Bad(f"line {number}: a number too long or a value nested too deep") from why


def log_of(source):
    log = Log()
    events, held, is_timed = Events(log), Held(), None
    for line, event in lines_of(source):
        try:
            numbered = events.numbered(event)
            is_placed = "at" in event
            if is_timed is None and (is_placed or numbered[0] < ITEMS):
                is_timed = is_placed
            if is_placed != bool(is_timed) and numbered[0] < ITEMS or is_placed and not is_timed:
                raise Bad("some events of transactions have an \"at\" and some have none")
            if is_timed:
                held.add(numbered, line, events.position(event["at"]) if is_placed else float("-inf"))
            else:
                log.take(*numbered, line)
        except (Bad, ValueError, RecursionError, OverflowError) as why:
            raise Bad(f"line {line}: {why}") from why
    for line, numbered in held.in_order():
        try:
            log.take(*numbered, line)
        except Bad as why:
            raise Bad(f"line {line}: {why}") from why
    log.finish()
    return log


class Held:
    """Events that have to be sorted, in columns."""

    def __init__(self):
        self.acts, self.sites, self.txs, self.items, self.values = bytearray(), [], array("I"), array("I"), []
        self.lines, self.ats = array("I"), []

    def add(self, numbered, line, at):
        act, site, tx, item, value = numbered
        self.acts.append(act)
        self.sites.append(site)
        self.txs.append(tx)
        self.items.append(item)
        self.values.append(value)
        self.lines.append(line)
        self.ats.append(at)

    def in_order(self):
        """By their positions; those of one position in the order of the lines."""
        order = array("I", sorted(range(len(self.ats)), key=self.ats.__getitem__))
        self.ats = None
        for at in order:
            yield self.lines[at], (self.acts[at], self.sites[at], self.txs[at], self.items[at], self.values[at])


def told_items(site):
    return [item for item in site.all_items if item.is_told()]


def short_names(log):
    """A name of the text for each item, over all sites."""
    items = sorted({item.name for site in log.sites.values() for item in told_items(site)})
    if all(NAME.fullmatch(item) for item in items):
        return {item: item for item in items}
    return {item: f"i{n}" for n, item in enumerate(items, 1)}


def places_of(site):
    """The place of each entry in the order of the text: a read 3n, a change 3n + 1, an end 3n + 2."""
    read = 0
    for end, slot in zip(*site.row) if site.row is not None else enumerate(site.end_slots):
        while read < slot:
            yield 3 * read
            read += 1
        for change in site.changes_of(end):
            yield 3 * change + 1
        yield 3 * end + 2
    while read < len(site.read_txs):
        yield 3 * read
        read += 1


def sections_of(site, section_of, count):
    """The places of the entries of each section.

    An end stands in each section that its transaction touched, or in all."""
    if count == 1:
        return [array("Q", places_of(site))]
    found, touched, open_ones = [array("Q") for _ in range(count)], {}, []
    for place in places_of(site):
        at, kind = divmod(place, 3)
        if kind == 2:
            for section, change in open_ones:
                touched.setdefault(site.end_txs[at], set()).add(section)
                found[section].append(change)
            open_ones = []
            for section in sorted(touched.pop(site.end_txs[at], range(count))):
                found[section].append(place)
        elif kind == 1:
            open_ones.append((section_of[site.change_items[at]], place))
        else:
            section = section_of[site.read_items[at]]
            touched.setdefault(site.read_txs[at], set()).add(section)
            found[section].append(place)
    return found


def entries_of(site, places, names, value_of):
    """The lines of the text for these places, as `text_lines` gives them."""
    spelled_items = [f"[{names.get(item.name)}]=" for item in site.all_items]
    tx_of = array("I", bytes(4 * len(site.change_kinds)))
    for end, tx in enumerate(site.end_txs):
        for change in site.changes_of(end):
            tx_of[change] = tx
    for place in places:
        at, kind = divmod(place, 3)
        if kind == 0:
            item, value = spelled_items[site.read_items[at]], value_of(site.read_values[at])
            yield f"r{site.read_txs[at]}{item}{value}\n", site.read_lines[at], None
        elif kind == 1:
            item, value = spelled_items[site.change_items[at]], value_of(site.change_values[at])
            yield f"{chr(site.change_kinds[at])}{tx_of[at]}{item}{value}\n", site.change_lines[at], None
        else:
            yield f"{chr(site.end_kinds[at])}{site.end_txs[at]}\n", site.end_lines[at], None


def text_lines(log, names, places):
    """The lines of the text, each with its line of the log or 0, and with its item if it says the first or last value.

    `places` gets the name of each section's site."""
    has_increments = any(kind in b"dq" for site in log.sites.values() for kind in set(site.change_kinds))
    yield "sgt 2\n" if has_increments else "sgt 1\n", 0, None
    value_of = log.values.number
    for site in log.sites.values():
        items = sorted(told_items(site), key=lambda item: names[item.name])
        parts = [items[first : first + MOST_ITEMS] for first in range(0, max(len(items), 1), MOST_ITEMS)]
        section_of = {site.items[item.name]: n for n, part in enumerate(parts) for item in part}
        for part, entries in zip(parts, sections_of(site, section_of, len(parts))):
            yield f"site {len(places)}\n", 0, None
            for item in part:
                yield f"item {names[item.name]}={value_of(item.initial)}\n", item.start, item.name
            yield from entries_of(site, entries, names, value_of)
            for item in part:
                final = item.now if item.final is None else item.final
                yield f"final {names[item.name]}={value_of(final)}\n", item.finish, item.name
            yield "end\n", 0, None
            places.append(site.name)


def write_text(log, path, out, told):
    """Writes the text, and into `told` the names, where there is such a file."""
    names, places, write = short_names(log), [], out.write
    if told is None:
        for text, _, _ in text_lines(log, names, places):
            write(text)
        return
    told.write('{"lines": {')
    mark, held = "", {}
    for number, (text, line, item) in enumerate(text_lines(log, names, places), 1):
        write(text)
        if line:
            told.write(f'{mark}"{number}": {line}')
            mark = ", "
            if item is not None:
                held[number] = item
    rest = {"held": held, "log": path, "sites": places, "transactions": log.numbers, "items": names,
            "values": None if log.values.are_numbers else log.values.numbers, "least": log.values.least}
    told.write("}, " + json.dumps(rest)[1:] + "\n")


def export(path, names_path):
    with contextlib.nullcontext(sys.stdin.buffer) if path == "-" else open(path, "rb") as source:
        log = log_of(source)
    if not log.sites:
        raise Bad("no event")
    sections = sum(max(1, -(-len(told_items(site)) // MOST_ITEMS)) for site in log.sites.values())
    if names_path and path != "-" and os.path.exists(names_path) and os.path.samefile(path, names_path):
        raise Bad(f"{names_path} is the log: the names need a file of their own")
    if sections > MOST_SITES:
        raise Bad(f"{sections} sections, and at most {MOST_SITES} fit: a site is one for each {MOST_ITEMS} items")
    with open(names_path, "w", encoding="utf-8") if names_path else contextlib.nullcontext() as told:
        write_text(log, path, sys.stdout, told)


def main(words):
    for stream in (sys.stdout, sys.stderr):
        stream.reconfigure(encoding="utf-8", errors="backslashreplace")
    if words and words[0] == "--trace" and len(words) == 2:
        answers.trace(words[1])
    elif len(words) in (1, 2) and (words[0] == "-" or not words[0].startswith("-")):
        export(words[0], words[1] if len(words) == 2 else None)
    elif words in (["--help"], ["-h"]):
        print(__doc__.strip())
    else:
        sys.exit(__doc__)


if __name__ == "__main__":
    try:
        main(sys.argv[1:])
        sys.stdout.flush()
    except BrokenPipeError:
        sys.stderr.close()
        sys.exit(1)
    except KeyboardInterrupt:
        sys.exit(130)
    except MemoryError:
        sys.exit("export.py: want of memory")
    except (Bad, OSError, ValueError) as why:
        sys.exit(f"export.py: {answers.plain(str(why))}")
