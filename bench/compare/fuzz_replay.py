#!/usr/bin/env python3
"""Compares a built program's replay with the plain scheduler on random scripts of events.

usage: fuzz_replay.py PROGRAM [COUNT [SEED]]

Scripts are short, on few items and sites, so that conflicts, steps left open and refusals are common; one in thirty has a line
that can't be read. Output and status are to be the plain scheduler's but for the walks of refusals, and each bundle is to pass
the plain auditor with the decisions counted. Ends with status 1 at a difference, which it prints.
"""
import json
import random
import subprocess
import sys

import plain_audit
import plain_core

VALUES = [0, 1, 2, 3, 2**64 - 1, 2**64 - 2]
NAMES = ["x", "y", "z", "a_1"]
UNREADABLE = ["q", "", "b ", " b", "b1", "r1[0.x]=5", "r0[0.x]", "r01[0.x]", "r1[64.x]", "r1[0.X]", "w1[0.x]", "w1[0.x]=05",
              f"d1[0.x]={2**64}", "c", "c0", f"c{2**32}", "i1", "i1@64", "i1@00", "z1", "a1 ", "site 0", "site 9 x=1", "b\r"]


def sites_of(rng):
    """Sites with items in rising order."""
    sites = []
    for _ in range(rng.choice([1, 1, 2, 2, 3, 5])):
        names = sorted(rng.sample(NAMES, rng.choice([0, 1, 1, 2, 2, 3])))
        sites.append([(name, rng.choice(VALUES)) for name in names])
    return sites


def transaction(rng, core):
    """One that an event speaks of: mostly an active one, or the one whose step is open."""
    chance = rng.random()
    if core.step and chance < 0.4:
        return core.step[0]
    if core.active and chance < 0.95:
        return rng.choice(list(core.active))
    return rng.choice([1, 2, max(core.begun, 1), core.begun + 1, 2**32 - 1])


def event(rng, core, kinds):
    """A random event, mostly one that may be allowed now."""
    kind = rng.choice(kinds) if core.active or rng.random() < 0.2 else rng.choice("bbbz")
    tx = transaction(rng, core)
    places = [(site, name) for site, items in enumerate(core.sites) for name, _ in items]
    site, name = rng.choice(places) if places and rng.random() < 0.97 else (rng.choice([0, len(core.sites), 63]), rng.choice(NAMES))
    if kind == "i" and core.step and rng.random() < 0.7:
        tx, site = core.step[0], rng.choice(core.step[2])
    if kind in "bz":
        return kind
    if kind == "i":
        return f"i{tx}@{site}"
    if kind == "r":
        return f"r{tx}[{site}.{name}]"
    if kind in "wd":
        return f"{kind}{tx}[{site}.{name}]={rng.choice(VALUES)}"
    return f"{kind}{tx}"


def ends(rng, core):
    """Events that end what is active."""
    lines = []
    while core.step:
        lines.append(f"i{core.step[0]}@{core.step[2][0]}")
        plain_core.reply(core, lines[-1])
    while core.active:
        lines.append(rng.choice("ccca") + str(rng.choice(list(core.active))))
        plain_core.reply(core, lines[-1])
    return lines


def script(rng):
    """The lines of a random script."""
    core = plain_core.Core(sites_of(rng))
    lines = [" ".join([f"site {k}"] + [f"{name}={value}" for name, value in items]) for k, items in enumerate(core.sites)]
    kinds = rng.choice(["bbrrrrwwddcccviiaz", "bbrrrrrrwwwwwcvii", "bbbrrrrrrrrwwwwddcviiii", "brwdcviaz", "bbrrrrrrrwwwwwwwccz"])
    for _ in range(rng.choice([0, 3, 10, 20, 40, 80, 160])):
        lines.append(event(rng, core, kinds))
        plain_core.reply(core, lines[-1])
    if rng.random() < 0.8:
        lines += ends(rng, core)
    return lines


def wanted(rng, lines):
    """A script's text, perhaps with a line that can't be read, and what its replay writes with which status."""
    if rng.random() < 0.03:
        at = rng.randrange(len(lines) + 1)
        bad = rng.choice([line for line in UNREADABLE if line != "site 0" or at > 0])
        text = "".join(line + "\n" for line in lines[:at] + [bad] + lines[at:])
        return text, f"! L1 line {at + 1}\n", 2
    text = "".join(line + "\n" for line in lines)
    if rng.random() < 0.01:
        return text[:-1], f"! L1 line {len(lines)}\n", 2
    return (text, *plain_core.replay(text))


def without_walks(text):
    """The output with no steps in the walks of its certificate."""
    lines = text.split("\n")
    if "---" not in lines:
        return text
    at = lines.index("---") + 2
    certificate = json.loads(lines[at])
    for decision in certificate["decisions"]:
        if "walk" in decision:
            decision["walk"] = []
    lines[at] = json.dumps(certificate, separators=(",", ":"), sort_keys=True)
    return "\n".join(lines)


def fault_of(found, status, want, want_status):
    """What is wrong with the program's output, or None."""
    if status != want_status:
        return f"status {status} for {want_status}"
    try:
        if without_walks(found) != without_walks(want):
            return "another output"
    except (ValueError, IndexError, KeyError, TypeError):
        return "no certificate"
    if status != 0:
        return None
    bundle = found.split("---\n", 1)[1]
    decisions = json.loads(bundle.split("\n")[1])["decisions"]
    counts = [sum(kind in decision for decision in decisions) for kind in ("commit", "refuse", "withdraw")]
    verdict = plain_audit.verdict(bundle.encode())
    said = "yes {} committed {} refused {} withdrawn".format(*counts)
    return None if verdict == said else f"audited as {verdict}"


def main():
    if len(sys.argv) < 2 or "--help" in sys.argv:
        sys.exit(__doc__)
    program = sys.argv[1]
    count = int(sys.argv[2]) if len(sys.argv) > 2 else 1000
    rng = random.Random(int(sys.argv[3]) if len(sys.argv) > 3 else 1)
    seen, differ = {}, 0
    for _ in range(count):
        text, want, want_status = wanted(rng, script(rng))
        done = subprocess.run([program, "replay"], input=text.encode(), capture_output=True)
        found = done.stdout.decode(errors="replace")
        for line in want.split("---\n")[0].split("\n")[:-1]:
            key = line if line.startswith("! E") else line[:3] if line.startswith("! L") else line[0]
            key += " " + line.split(" ")[1] if key in ("c", "v") else ""
            seen[key] = seen.get(key, 0) + 1
        if fault := fault_of(found, done.returncode, want, want_status):
            differ += 1
            print(fault, "of", repr(text), "wanted", repr(want), "found", repr(found), done.stderr.decode(errors="replace"))
    print(dict(sorted(seen.items())), f"{count} compared, {differ} differ")
    sys.exit(1 if differ else 0)


if __name__ == "__main__":
    main()
