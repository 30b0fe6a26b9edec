#!/usr/bin/env python3
"""Runs random scripts by 1 to 16 workers of a built program, and checks what each run leaves.

usage: fuzz_run.py PROGRAM [COUNT [SEED]]

Which transactions are refused and which ranks are given isn't fixed, so nothing is compared with another run. Of each output:
the lines of the scripts, the verdict and the status agree with each other and with the certificate; `audit` of the program says
of the bundle what the output says, and so does the plain auditor (on one run in ten); and the committed scripts, run here one
after another by rank from the initial values, make just the reads, the changes and the last values that the bundle has. One
input in forty has a line that can't be read. Ends with status 1 at a difference, which it prints.
"""
import json
import random
import re
import subprocess
import sys

import plain_audit

MOST = 2**64 - 1
VALUES = [0, 1, 2, 3, MOST, MOST - 1, 2**63]
NAMES = ["a_1", "b", "c", "d", "e", "x", "y", "z"]
UNREADABLE = ["", "q", "r[0.x] ", " r[0.x]", "r1[0.x]", "r[64.x]", "r[9.x]", "r[0.X]", "w[0.x]", "w[0.x]=05", "w[0.x]=0.x",
              "w[0.x]=0.x+1", "d[0.x]=1 w[0.x]=0.x+1", f"d[0.x]={2**64}", "site 0", "site 9 x=1", "r[0.x]\r", "c1"]
RESULT = re.compile(r"s(\d+) (committed|refused|withdrawn) (\d+) tries (\d+)")
ENTRY = re.compile(r"([rwdpqcna])(\d+)(?:\[(\w+)\]=(\d+))?")


class Withdrawn(Exception):
    """A sum is above the greatest value."""


def sites_of(rng):
    """The items of each site with their initial values."""
    sites = []
    for _ in range(rng.choice([1, 1, 1, 2, 2, 3, 6])):
        names = sorted(rng.sample(NAMES, rng.choice([1, 1, 2, 2, 3, 8])))
        sites.append({name: rng.choice(VALUES if rng.random() < 0.3 else [0, 1, 2]) for name in names})
    return sites


def operations(rng, sites):
    """The operations of a script: (letter, place, number or None, source or None)."""
    places = [(site, name) for site, items in enumerate(sites) for name in items]
    ops, named = [], []
    for _ in range(rng.choice([1, 2, 2, 3, 4, 8] if rng.random() < 0.5 else [8, 12, 20])):
        place, number = rng.choice(places), rng.choice(VALUES if rng.random() < 0.1 else [1, 2, 3])
        kind = rng.choice("rrrwsssd")
        if kind == "s" and not named:
            kind = "r"
        ops.append((kind, place, None if kind == "r" else number, rng.choice(named) if kind == "s" else None))
        if kind != "d":
            named.append(place)
    return ops


def word(op):
    kind, (site, name), number, source = op
    if kind == "r":
        return f"r[{site}.{name}]"
    if kind == "s":
        return f"w[{site}.{name}]={source[0]}.{source[1]}+{number}"
    return f"{kind}[{site}.{name}]={number}"


def serially(ops, state):
    """The entries of a script that runs alone on this state, by site; the state with its changes."""
    kept, changes, logged = {}, {}, {}

    def look(place):
        letter, number = changes.get(place, ("d", 0))
        return number if letter == "w" else (kept[place] + number) & MOST if place in kept else None

    def changed(place, letter, number):
        changes[place] = (letter, number)

    for kind, place, number, source in ops:
        if kind == "r" and look(place) is None:
            kept[place] = state[place]
            logged.setdefault(place[0], []).append(("r", place[1], state[place]))
        elif kind == "w":
            changed(place, "w", number)
        elif kind == "s":
            if look(source) + number > MOST:
                raise Withdrawn
            changed(place, "w", look(source) + number)
        elif kind == "d":
            letter, before = changes.get(place, ("d", 0))
            changed(place, letter, (before + number) & MOST)
    for place, (letter, number) in sorted(changes.items()):
        logged.setdefault(place[0], []).append((letter, place[1], number))
        state[place] = number if letter == "w" else (state[place] + number) & MOST
    return logged


def logs_of(lines, sites):
    """The entries of each transaction by site, and the last values."""
    entries, finals, site = {}, {}, -1
    for line in lines:
        if line.startswith("site "):
            site = int(line.split(" ")[1])
        elif line.startswith("final "):
            name, value = line[6:].split("=")
            finals[site, name] = int(value)
        elif match := ENTRY.fullmatch(line):
            letter, tx, name, value = match.groups()
            if name:
                entries.setdefault(int(tx), {}).setdefault(site, []).append((letter, name, int(value)))
    assert site == len(sites) - 1
    return entries, finals


def results_of(lines, tries):
    """How each script ended: its verdict, its transaction and its tries."""
    results = []
    for n, line in enumerate(lines, 1):
        job, verdict, tx, count = RESULT.fullmatch(line).groups()
        assert int(job) == n and 1 <= int(count) <= tries, line
        assert verdict != "refused" or int(count) == tries, line
        results.append((verdict, int(tx), int(count)))
    return results


def check(program, output, status, sites, scripts, tries, plainly):
    """Raises where something is wrong with an output; answers how many scripts ended in which way."""
    head, bundle = output.split("---\n", 1)
    *told, verdict = head.split("\n")[:-1]
    results = results_of(told, tries)
    assert len(results) == len(scripts), "a line for each script"
    lines = bundle.split("\n")
    decisions = json.loads(lines[1])["decisions"]
    counts = {kind: sum(kind in decision for decision in decisions) for kind in ("commit", "refuse", "withdraw")}
    said = "yes {commit} committed {refuse} refused {withdraw} withdrawn".format(**counts)
    assert verdict == said, (verdict, said)
    assert sum(count for _, _, count in results) == len(decisions), "a decision for each try"
    kinds = [kind for kind, _, _ in results]
    assert counts["commit"] == kinds.count("committed") and counts["withdraw"] == kinds.count("withdrawn")
    assert status == (0 if all(kind == "committed" for kind in kinds) else 1), status
    audit = subprocess.run([program, "audit"], input=bundle.encode(), capture_output=True)
    assert (audit.returncode, audit.stdout.decode()) == (0, verdict + "\n"), audit.stdout
    assert not plainly or plain_audit.verdict(bundle.encode()) == verdict, "the plain auditor"
    entries, finals = logs_of(lines, sites)
    ranks = {decision["commit"]: decision["rank"] for decision in decisions if "commit" in decision}
    state = {(site, name): value for site, items in enumerate(sites) for name, value in items.items()}
    committed = sorted((ranks[tx], tx, n) for n, (kind, tx, _) in enumerate(results) if kind == "committed")
    assert len(committed) == len(ranks), "a script for each commit"
    for _, tx, n in committed:
        assert serially(scripts[n], state) == entries.get(tx, {}), f"transaction {tx}"
    assert state == finals, "last values"
    return kinds


def main():
    if len(sys.argv) < 2 or "--help" in sys.argv:
        sys.exit(__doc__)
    program = sys.argv[1]
    count = int(sys.argv[2]) if len(sys.argv) > 2 else 1000
    rng = random.Random(int(sys.argv[3]) if len(sys.argv) > 3 else 1)
    seen, differ = {}, 0
    for n in range(count):
        sites = sites_of(rng)
        scripts = [operations(rng, sites) for _ in range(rng.choice([0, 1, 2, 5, 20, 50, 100, 200, 400]))]
        workers, tries = rng.choice([1, 2, 2, 3, 4, 4, 8, 16, 16]), rng.choice([1, 2, 3, 4, 4])
        lines = [" ".join([f"site {k}"] + [f"{name}={value}" for name, value in items.items()]) for k, items in enumerate(sites)]
        lines += [" ".join(map(word, ops)) for ops in scripts]
        bad = rng.randrange(len(sites), len(lines) + 1) if rng.random() < 0.025 else None
        if bad is not None:
            sites[0].setdefault("x", 0)
            lines[0] = " ".join(["site 0"] + [f"{name}={value}" for name, value in sorted(sites[0].items())])
            lines.insert(bad, rng.choice(UNREADABLE))
        text = "".join(line + "\n" for line in lines)
        words = [program, "run", "--workers", str(workers), "--tries", str(tries)]
        done = subprocess.run(words, input=text.encode(), capture_output=True, timeout=60)
        output = done.stdout.decode(errors="replace")
        try:
            if bad is not None:
                assert (done.returncode, output) == (2, f"! L1 line {bad + 1}\n")
                kinds = ["unreadable"]
            else:
                kinds = check(program, output, done.returncode, sites, scripts, tries, n % 10 == 0)
                again = [RESULT.fullmatch(line) for line in output.split("\n")[: len(scripts)]]
                kinds += ["tried again"] * sum(int(match.group(4)) > 1 for match in again)
            for kind in kinds:
                seen[kind] = seen.get(kind, 0) + 1
        except Exception as fault:  # whatever is wrong with an output is a difference
            differ += 1
            print(type(fault).__name__, fault, "of", words[1:], repr(text), "found", repr(output), done.stderr.decode(errors="replace"))
    print(dict(sorted(seen.items())), f"{count} runs, {differ} differ")
    sys.exit(1 if differ else 0)


if __name__ == "__main__":
    main()
