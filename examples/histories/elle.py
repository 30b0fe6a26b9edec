"""Turns a history of Jepsen's list-append or rw-register workload, in EDN or JSON, into ours (docs/FORMAT.md).

    python3 elle.py [--registers-by-value] history.edn > bank.history

List-append: the version of a key is the length of its list, and the longest list that was read gives the order. An append that no
read shows is dropped, since nobody can tell where it stood; how many were is told on standard error. Rw-register: a transaction that
reads a key and then writes it makes the next version of it; where that doesn't order all writes of a key, the program stops, unless
`--registers-by-value` says that a key's values are written in rising order. An operation of type `info` counts as committed where
somebody read what it wrote, and else as aborted; of type `fail`, as aborted.
"""
import argparse
import json
import re
import sys


# the version of a write of which nothing is known, and which is dropped
UNKNOWN = -1


class Unfit(Exception):
    """The history can't be told by versions; says why."""


# ---- EDN: as much of it as histories have

TOKEN = re.compile(r'[\s,]*(?:;[^\n]*\s*)*([\[\](){}]|#\{|#_|#[\w./*+!?-]+|"(?:\\.|[^"\\])*"|\\\S|[^\s,\[\](){}"]+)')
CLOSING = {"[": "]", "(": ")", "{": "}", "#{": "}"}


def edn_values(text):
    """Each value at the top of the text: maps as dicts, vectors, lists and sets as lists, keywords and symbols as strings."""
    tokens = (match.group(1) for match in TOKEN.finditer(text))
    for token in tokens:
        yield edn_value(token, tokens)


def edn_value(token, tokens):
    if token in CLOSING:
        return edn_collection(token, tokens)
    if token == "#_":
        edn_value(next(tokens), tokens)
        return edn_value(next(tokens), tokens)
    if token[0] == "#":
        return edn_value(next(tokens), tokens)
    if token[0] == '"':
        return json.loads(token)
    if token[0] == ":":
        return token[1:]
    return {"nil": None, "true": True, "false": False}[token] if token in ("nil", "true", "false") else number(token)


def edn_collection(opening, tokens):
    # (a history nests a few levels; one that nests more than Python's stack isn't one)
    found = []
    for token in tokens:
        if token == CLOSING[opening]:
            return dict(zip(found[::2], found[1::2])) if opening == "{" else found
        if token == "#_":
            edn_value(next(tokens), tokens)
        else:
            found.append(edn_value(token, tokens))
    raise Unfit("the text ends inside a value")


def number(token):
    return int(token.rstrip("N")) if re.fullmatch(r"[+-]?\d+N?", token) else token


def operations(text):
    """The operations of a file: EDN maps one after another or in one vector, a JSON array, or a JSON object a line."""
    start = text.lstrip()[:2]
    if re.match(r'\{\s*"|\[\s*\{\s*"', text.lstrip()[:200]):
        found = json.loads(text) if start[0] == "[" else [json.loads(line) for line in text.splitlines() if line.strip()]
    else:
        found = list(edn_values(text))
        found = found[0] if len(found) == 1 and isinstance(found[0], list) else found
    return [it for it in found if isinstance(it, dict) and it.get("type") in ("ok", "fail", "info")
            and isinstance(it.get("value"), list) and it.get("process") != "nemesis"]


# ---- what each transaction did: (kind, key, element or list)

def steps(operation):
    for step in operation["value"]:
        if not isinstance(step, list) or len(step) != 3 or step[0] not in ("r", "w", "append"):
            raise Unfit(f"no step of list-append or rw-register: {step}")
        yield step[0], step[1], step[2]


def key_of(value):
    return value if isinstance(value, (int, str)) and not isinstance(value, bool) else json.dumps(value)


def list_versions(told):
    """The place of each element of each key, by the longest list of the key that was read by a transaction that is known to be done."""
    longest, sizes = {}, {}
    for operation in told:
        for kind, key, value in steps(operation):
            if kind == "r" and operation["type"] == "ok" and len(value or []) > len(longest.get(key_of(key), [])):
                longest[key_of(key)] = value
    for operation in told:
        appended = set()
        for kind, key, value in steps(operation):
            key = key_of(key)
            if kind == "append":
                appended.add(key)
            elif operation["type"] == "ok" and key not in appended and (value or []) != longest.get(key, [])[: len(value or [])]:
                raise Unfit(f"key {key}: one read gave {value}, and another {longest[key]}: no one order of appends gives both")
    for key, value in longest.items():
        places = sizes[key] = {json.dumps(it): place for place, it in enumerate(value, 1)}
        if len(places) != len(value):
            raise Unfit(f"key {key}: an element stands twice in {value}")
    return sizes


def appends(told):
    """The operations of each transaction of a list-append history, and how many appends were dropped."""
    places, dropped, found = list_versions(told), 0, []
    for operation in told:
        ops, own = [], {}
        for kind, key, value in steps(operation):
            key = key_of(key)
            if kind == "append":
                place = places.get(key, {}).get(json.dumps(value))
                dropped += place is None
                own[key] = None if place is None else place
                if place is not None:
                    ops.append(["w", key, place])
            elif operation["type"] == "ok" and own.get(key, 0) is not None:
                # (a read behind an append of its own that nobody else read says nothing of others)
                ops.append(["r", key, len(value or [])])
        found.append(ops)
    return found, dropped


def registers(told, by_value):
    """The operations of each transaction of an rw-register history."""
    if by_value:
        version = lambda key, value: 0 if value is None else value + 1
    else:
        places = register_chains(told)
        version = lambda key, value: 0 if value is None else places.get(key, {}).get(value, UNKNOWN)
    dropped, found = 0, []
    for operation in told:
        ops = [["w" if kind == "w" else "r", key_of(key), version(key_of(key), value)]
               for kind, key, value in steps(operation) if kind == "w" or operation["type"] == "ok"]
        found.append([op for op in ops if op[0] == "r" or op[2] != UNKNOWN])
        dropped += len(ops) - len(found[-1])
    return found, dropped


def register_chains(told):
    """The place of each value of each key, where each write but the first follows a read or a write of it in its own transaction."""
    behind, written, read = {}, {}, set()
    for operation in told:
        seen = {}
        for kind, key, value in steps(operation):
            key = key_of(key)
            if kind == "w":
                written.setdefault(key, []).append((value, operation["type"] == "ok"))
                if key in seen and operation["type"] == "ok":
                    if behind.setdefault(key, {}).setdefault(seen[key], value) != value:
                        raise Unfit(f"key {key}: {behind[key][seen[key]]} and {value} were both written on {seen[key]}: "
                                    "an update is lost, and no one order of versions can be told")
            elif operation["type"] == "ok":
                read.add((key, value))
            if kind == "w" or operation["type"] == "ok":
                seen[key] = value
    places = {}
    for key, values in written.items():
        places[key], at = {}, None
        while at in behind.get(key, {}):
            at = behind[key][at]
            places[key][at] = len(places[key]) + 1
        for value, is_done in values:
            if value in places[key]:
                continue
            if is_done:
                raise Unfit(f"key {key}: nothing says behind which value {value} was written; see --registers-by-value")
            if (key, value) in read:
                # (written by nobody who committed: behind all others, where whoever read it shows)
                places[key][value] = 2**63 + len(places[key])
    return places


def read_of(told, found):
    """The versions that somebody else than their writer read."""
    return {(op[1], op[2]) for operation, ops in zip(told, found) if operation["type"] == "ok" for op in ops if op[0] == "r"}


def main():
    words = argparse.ArgumentParser(description=__doc__, formatter_class=argparse.RawDescriptionHelpFormatter)
    words.add_argument("file", nargs="?", default="-")
    words.add_argument("--registers-by-value", action="store_true")
    words = words.parse_args()
    text = sys.stdin.read() if words.file == "-" else open(words.file, encoding="utf-8").read()
    try:
        told = operations(text)
        is_lists = any(kind == "append" for operation in told for kind, _, _ in steps(operation))
        found, dropped = appends(told) if is_lists else registers(told, words.registers_by_value)
    except (Unfit, ValueError, KeyError) as reason:
        sys.exit(f"elle.py: {reason}")
    seen = read_of(told, found)
    for number_, (operation, ops) in enumerate(zip(told, found)):
        shown = any(op[0] == "w" and (op[1], op[2]) in seen for op in ops)
        done = operation["type"] == "ok" or operation["type"] == "info" and shown
        line = {"tx": operation.get("index", f"T-{number_}"), "end": "commit" if done else "abort", "ops": ops}
        if "process" in operation:
            line["session"] = operation["process"]
        print(json.dumps(line, separators=(",", ":")))
    if dropped:
        print(f"elle.py: {dropped} writes that no read shows were dropped", file=sys.stderr)


main() if __name__ == "__main__" else None
