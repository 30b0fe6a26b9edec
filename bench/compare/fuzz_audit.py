#!/usr/bin/env python3
"""Compares a built program with the plain auditor on random bundles, most of them damaged.

usage: fuzz_audit.py PROGRAM [COUNT [SEED]]

The bundles are runs of the plain scheduler on few items and sites, so that conflicts are common; then lines are doubled,
dropped, exchanged or changed, ranks moved and walks turned. Ends with status 1 at a difference, which it prints.
"""
import json
import random
import re
import subprocess
import sys

import plain_audit
import plain_core

VALUES = [0, 1, 2, 3, 2**64 - 1, 2**64 - 2]
NAMES = ["x", "y", "z", "a_1"]


def random_run(rng):
    """The bundle of a random run."""
    sites = []
    for _ in range(rng.choice([1, 1, 2, 2, 3])):
        names = sorted(rng.sample(NAMES, rng.choice([0, 1, 1, 2, 2, 3])))
        sites.append([(name, rng.choice(VALUES)) for name in names])
    core = plain_core.Core(sites)
    places = [(site, name) for site, items in enumerate(sites) for name, _ in items] or [(0, "x")]
    adds = rng.random() < 0.6
    for _ in range(rng.choice([3, 10, 20, 40, 80])):
        live = list(core.active)
        kind = rng.choice("bbrrrrwwddcccviiaz" if adds else "bbrrrrwwwcccviiaz")
        tx = rng.choice(live) if live else 1
        site, name = rng.choice(places)
        line = {"b": "b", "z": "z", "r": f"r{tx}[{site}.{name}]", "i": f"i{tx}@{site}"}.get(kind, f"{kind}{tx}")
        if kind in "wd":
            line = f"{kind}{tx}[{site}.{name}]={rng.choice(VALUES)}"
        plain_core.reply(core, line)
    if core.step:
        for site in list(core.step[2]):
            core.install(core.step[0], site)
    for tx in list(core.active):
        rng.choice([core.commit, core.withdraw])(tx)
    return core.bundle()


def with_certificate(rng, lines):
    """A change of the certificate that keeps its spelling."""
    try:
        certificate = json.loads(lines[1])
        decisions = certificate["decisions"]
        decision = rng.choice(decisions)
        step = rng.choice([s for d in decisions for s in d.get("walk", [])] or [{}])
    except (ValueError, IndexError, KeyError):
        return
    turn = rng.randrange(7)
    if turn == 0:
        rng.shuffle(decisions)
    elif turn == 1:
        commits = [d for d in decisions if "commit" in d]
        ranks = [d["rank"] for d in commits]
        rng.shuffle(ranks)
        for each, rank in zip(commits, ranks):
            each["rank"] = rank
    elif turn == 2 and "rank" in decision:
        decision["rank"] = rng.choice([0, 1, decision["rank"] + 1, 2**32 - 1])
    elif turn == 3 and step:
        step["kind"] = rng.choice(["wr", "rw", "ww"])
    elif turn == 4 and step:
        step["to"] = rng.randrange(1, 5)
    elif turn == 5 and step:
        step["item"], step["site"] = rng.choice(NAMES), rng.randrange(certificate["sites"])
    elif turn == 6:
        decisions.append(dict(decision)) if rng.random() < 0.5 else decisions.remove(decision)
    lines[1] = json.dumps(certificate, separators=(",", ":"), sort_keys=True)


def damaged(rng, text):
    """The bundle with one to three changes."""
    lines = text.split("\n")[:-1]
    for _ in range(rng.choice([0, 1, 1, 1, 1, 2])):
        if len(lines) < 3:
            break
        at = rng.randrange(len(lines))
        turn = rng.randrange(16)
        if turn == 0:
            lines.insert(at, lines[at])
        elif turn == 1:
            del lines[at]
        elif turn == 2:
            other = rng.randrange(len(lines))
            lines[at], lines[other] = lines[other], lines[at]
        elif turn == 3:
            lines.insert(at, lines[rng.randrange(len(lines))])
        elif turn == 4:
            lines[at] = re.sub(r"^[rwpdqcna](?=\d)", lambda _: rng.choice("rwpdqcna"), lines[at])
        elif turn == 5:
            numbers = list(re.finditer(r"\d+", lines[at]))
            if numbers:
                hit = rng.choice(numbers)
                new = rng.choice(["0", "1", "2", "3", "05", "64", "63", str(2**64), str(2**64 - 1), str(2**32), ""])
                lines[at] = lines[at][:hit.start()] + new + lines[at][hit.end():]
        elif turn == 6:
            lines[at] = re.sub(r"\[\w+\]", lambda _: f"[{rng.choice(NAMES + ['q'])}]", lines[at])
        elif turn == 7:
            lines[0] = rng.choice(["sgt 1", "sgt 2", "sgt 2", "sgt 3", "sgt  1"])
        else:
            with_certificate(rng, lines)
    text = "".join(line + "\n" for line in lines)
    if rng.random() < 0.05:
        text = text[:rng.randrange(len(text) + 1)]
    if rng.random() < 0.03:
        text += rng.choice(["\n", "x", "end\n"])
    return text.encode()


def main():
    if len(sys.argv) < 2 or "--help" in sys.argv:
        sys.exit(__doc__)
    program = sys.argv[1]
    count = int(sys.argv[2]) if len(sys.argv) > 2 else 1000
    rng = random.Random(int(sys.argv[3]) if len(sys.argv) > 3 else 1)
    seen, differ = {}, 0
    for _ in range(count):
        data = damaged(rng, random_run(rng))
        want = plain_audit.verdict(data)
        done = subprocess.run([program, "audit"], input=data, capture_output=True)
        key = "yes" if want.startswith("yes") else want.split()[-1]
        seen[key] = seen.get(key, 0) + 1
        if done.stdout.decode() != want + "\n" or done.returncode != (0 if key == "yes" else 1):
            differ += 1
            print("wanted", want, "and got", done.stdout, "status", done.returncode, "of", repr(data.decode()))
    print(dict(sorted(seen.items())), f"{count} compared, {differ} differ")
    sys.exit(1 if differ else 0)


if __name__ == "__main__":
    main()
