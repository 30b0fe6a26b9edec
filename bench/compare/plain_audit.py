#!/usr/bin/env python3
"""A plain auditor, written from docs/FORMAT.md alone: every entry is judged against all earlier ones.

usage: plain_audit.py < BUNDLE

It is slow, shares nothing with the program, and is what random bundles are compared with (fuzz_audit.py).
"""
import json
import re
import sys

LIMIT = 1_048_576
GREATEST = 2**64 - 1
NUM = r"(0|[1-9][0-9]*)"
NAME = r"([a-z][a-z0-9_]{0,15})"
SITE = re.compile(rf"site {NUM}\Z")
HELD = re.compile(rf"(item|final) {NAME}={NUM}\Z")
OPERATION = re.compile(rf"([rwpdq]){NUM}\[{NAME}\]={NUM}\Z")
END = re.compile(rf"([cna]){NUM}\Z")
KINDS = {"wr": ("write", "read"), "rw": ("read", "write"), "ww": ("write", "write")}


class Refused(Exception):
    """The first line with a fault, and the least of its faults."""


def is_tx(number):
    return type(number) is int and 1 <= number < 2**32


def is_step(step, sites):
    return (isinstance(step, dict) and set(step) == {"item", "kind", "site", "to"}
            and isinstance(step["item"], str) and re.fullmatch(NAME, step["item"]) is not None and "\n" not in step["item"]
            and step["kind"] in ("wr", "rw", "ww") and type(step["site"]) is int and 0 <= step["site"] < sites and is_tx(step["to"]))


def is_decision(decision, sites):
    if not isinstance(decision, dict):
        return False
    if set(decision) == {"commit", "rank"}:
        return is_tx(decision["commit"]) and type(decision["rank"]) is int and 0 <= decision["rank"] < 2**32
    if set(decision) == {"refuse", "walk"}:
        return is_tx(decision["refuse"]) and isinstance(decision["walk"], list) and all(is_step(s, sites) for s in decision["walk"])
    return set(decision) == {"withdraw"} and is_tx(decision["withdraw"])


def read_certificate(line):
    """The certificate that the bytes are the one text of, or None."""
    try:
        value = json.loads(line.decode("ascii"))
    except Exception:
        return None
    if not (isinstance(value, dict) and set(value) == {"decisions", "sites"} and type(value["sites"]) is int
            and 1 <= value["sites"] <= 64 and isinstance(value["decisions"], list)
            and all(is_decision(d, value["sites"]) for d in value["decisions"])):
        return None
    return value if json.dumps(value, separators=(",", ":"), sort_keys=True).encode() == line else None


def judge_certificate(certificate):
    """The least of F4, F5 and F6, or None."""
    decisions = certificate["decisions"]
    ranks = [d["rank"] for d in decisions if "commit" in d]
    if sorted(ranks) != list(range(len(ranks))):
        return 4
    txs = [tx_of(d) for d in decisions]
    if len(set(txs)) != len(txs):
        return 5
    for number, decision in enumerate(decisions):
        if "refuse" not in decision:
            continue
        walk = [step["to"] for step in decision["walk"]]
        between = walk[:-1]
        earlier = {d["commit"] for d in decisions[:number] if "commit" in d}
        if len(walk) < 2 or walk[-1] != decision["refuse"] or len(set(between)) != len(between) \
                or decision["refuse"] in between or not set(between) <= earlier:
            return 6
    return None


def tx_of(decision):
    return decision.get("commit", decision.get("refuse", decision.get("withdraw")))


def number_of(text, most=GREATEST):
    number = int(text)
    return number if number <= most else None


def read_line(line, second):
    """A line of a section as a tuple, or None where it is no spelling."""
    try:
        text = line.decode("ascii")
    except UnicodeDecodeError:
        return None
    if text == "end":
        return ("end",)
    if (hit := SITE.match(text)) and number_of(hit[1], 63) is not None:
        return ("site", int(hit[1]))
    if (hit := HELD.match(text)) and number_of(hit[3]) is not None:
        return (hit[1], hit[2], int(hit[3]))
    if (hit := OPERATION.match(text)) and number_of(hit[4]) is not None and is_tx(int(hit[2])):
        return None if hit[1] in "dq" and not second else (hit[1], int(hit[2]), hit[3], int(hit[4]))
    if (hit := END.match(text)) and is_tx(int(hit[2])):
        return (hit[1], int(hit[2]))
    return None


def does(entry):
    return "read" if entry[0] == "r" else "write" if entry[0] in "wpdq" else None


def clash(first, second, kind):
    """Whether the earlier entry conflicts with the later one, as this kind."""
    return (does(first), does(second)) == KINDS[kind] and first[2] == second[2] and first[1] != second[1] \
        and not (first[0] in "dq" and second[0] in "dq")


def value_before(items, entries, name):
    value = items[name]
    for entry in entries:
        if entry[0] == "w" and entry[2] == name:
            value = entry[3]
        if entry[0] == "d" and entry[2] == name:
            value = (value + entry[3]) % 2**64
    return value


class Section:
    def __init__(self):
        self.items, self.entries, self.finals = [], [], []


def may_stand(section, line, sites_done):
    """What a section allows."""
    if section is None:
        return line == ("site", sites_done)
    names = [name for name, _ in section.items]
    if line[0] == "item":
        return not section.entries and not section.finals and len(names) < 1024 and (not names or names[-1] < line[1])
    if line[0] == "final":
        return len(section.finals) < len(names) and line[1] == names[len(section.finals)]
    if line[0] == "end":
        return len(section.finals) == len(names)
    return line[0] != "site" and not section.finals


def judge(section, line, by_tx, ranks, number_by_tx, all_logs, certificate):
    """The faults of a line that the section allows, beside F7."""
    found = []
    items, entries = dict(section.items), section.entries
    if line[0] in "rwpdqcna":
        tx = line[1]
        mine = [e for e in entries if e[1] == tx]
        if does(line):
            if line[2] not in items:
                found.append(8)
            if any(does(e) == does(line) and e[2] == line[2] for e in mine):
                found.append(9)
            if line[0] == "r" and line[2] in items and line[3] != value_before(items, entries, line[2]):
                found.append(10)
            if tx in ranks and any(e[1] in ranks and ranks[e[1]] > ranks[tx] and any(does(e) and clash(e, line, k) for k in KINDS) for e in entries):
                found.append(11)
        wanted = {"w": "commit", "d": "commit", "c": "commit", "p": "refuse", "q": "refuse", "n": "refuse", "a": "withdraw"}.get(line[0])
        if tx not in by_tx or any(e[0] in "cna" for e in mine) or (wanted and wanted not in by_tx[tx]):
            found.append(13)
        if line[0] in "cna" and tx in by_tx:
            if any(e[0] in "cna" and number_by_tx.get(e[1], -1) > number_by_tx[tx] for e in entries):
                found.append(14)
    if line[0] != "item" and entries:
        last = entries[-1]
        if last[0] in "wd" and not (line[0] in "wdc" and line[1] == last[1]) or last[0] in "pq" and not (line[0] in "pqn" and line[1] == last[1]):
            found.append(12)
    if line[0] == "final" and not section.finals or line[0] == "end" and not items:
        ended = {e[1] for e in entries if e[0] in "cna"}
        if any(e[1] not in ended for e in entries):
            found.append(15)
    if line[0] == "final" and line[2] != value_before(items, entries, line[1]):
        found.append(16)
    if line[0] == "end" and len(all_logs) == certificate["sites"]:
        for decision in certificate["decisions"]:
            at = decision.get("refuse")
            for step in decision.get("walk", []):
                log = all_logs[step["site"]]
                if not any(does(e) and does(f) and e[1] == at and f[1] == step["to"] and e[2] == step["item"]
                           and clash(e, f, step["kind"]) for p, e in enumerate(log) for f in log[p + 1:]):
                    found.append(17)
                at = step["to"]
    return found


def first_fault(data):
    """The verdict on the bytes: (None, certificate) for a yes, else (line, fault)."""
    at, line_number = 0, 0

    def next_line(limit):
        nonlocal at, line_number
        line_number += 1
        feed = data.find(b"\n", at)
        stop = len(data) if feed < 0 else feed
        if limit is not None and stop - at > limit:
            return None
        if feed < 0:
            raise Refused(line_number, 18)
        line, at = data[at:feed], feed + 1
        return line

    first = next_line(LIMIT)
    if first not in (b"sgt 1", b"sgt 2"):
        raise Refused(1, 1)
    certificate = read_certificate(next_line(None))
    if certificate is None:
        raise Refused(2, 3)
    fault = judge_certificate(certificate)
    if fault:
        raise Refused(2, fault)
    by_tx = {tx_of(d): d for d in certificate["decisions"]}
    ranks = {d["commit"]: d["rank"] for d in certificate["decisions"] if "commit" in d}
    numbers = {tx_of(d): n for n, d in enumerate(certificate["decisions"])}
    logs, section = [], None
    while len(logs) < certificate["sites"] or section is not None:
        text = next_line(LIMIT)
        line = None if text is None else read_line(text, first == b"sgt 2")
        if line is None:
            raise Refused(line_number, 2)
        if not may_stand(section, line, len(logs)):
            raise Refused(line_number, 7)
        if line[0] == "site":
            section = Section()
            logs.append(section.entries)
            continue
        faults = judge(section, line, by_tx, ranks, numbers, logs, certificate)
        if faults:
            raise Refused(line_number, min(faults))
        if line[0] == "item":
            section.items.append((line[1], line[2]))
        elif line[0] == "final":
            section.finals.append((line[1], line[2]))
        elif line[0] == "end":
            section = None
        else:
            section.entries.append(line)
    if at < len(data):
        raise Refused(line_number + 1, 19)
    return certificate


def verdict(data):
    try:
        decisions = first_fault(data)["decisions"]
    except Refused as fault:
        return "no line %d F%d" % fault.args
    count = [sum(kind in d for d in decisions) for kind in ("commit", "refuse", "withdraw")]
    return "yes %d committed %d refused %d withdrawn" % tuple(count)


if __name__ == "__main__":
    if len(sys.argv) > 1:
        sys.exit(__doc__)
    print(verdict(sys.stdin.buffer.read()))
