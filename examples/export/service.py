#!/usr/bin/env python3
"""Turns a service's own lines into events: to be changed to suit yours.

    service.py < SERVICE.log > LOG.jsonl

The lines are `TXN R KEY VALUE`, `TXN W KEY VALUE`, `TXN COMMIT`, `TXN ABORT`, and at the end `FINAL KEY VALUE`.
"""
import json
import sys

ACTS = {"R": "read", "W": "write"}


def event_of(words):
    if words[0] == "FINAL":
        return {"site": "main", "final": {words[1]: int(words[2])}}
    tx, act, *rest = words
    if act in ACTS:
        return {"site": "main", "tx": tx, ACTS[act]: rest[0], "value": int(rest[1])}
    return {"site": "main", "tx": tx, "end": act.lower()}


for number, line in enumerate(sys.stdin, 1):
    try:
        print(json.dumps(event_of(line.split())))
    except (ValueError, IndexError):
        sys.exit(f"service.py: line {number} is none that is known: {line.rstrip()}")
