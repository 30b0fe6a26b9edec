#!/usr/bin/env python3
"""Compares a built program's `serve` with the plain one on random talks.

usage: fuzz_serve.py PROGRAM [COUNT [SEED]]

Talks are short, on few items and sites, with cuts, lines that can't be read, and ends of all kinds. A third is sent at once, a third in
bursts of a few bytes, and a third line by line, each next line only once the reply is there. Replies, status and bundles are to be the
plain ones' but for the walks of refusals, and the bundles are to be a chain by the plain auditor, and by the program's. Ends with status 1
at a difference, which it prints.
"""
import os
import random
import select
import subprocess
import sys
import tempfile

import plain_serve

import fuzz_replay

WAIT = 30


def talk_of(rng):
    """The bytes of a random talk."""
    talk = plain_serve.Talk(lambda bundle: 1)
    sites = [] if rng.random() < 0.01 else fuzz_replay.sites_of(rng)
    lines = [" ".join([f"site {k}"] + [f"{name}={value}" for name, value in items]) for k, items in enumerate(sites)]
    if rng.random() < 0.02:
        lines.insert(rng.randrange(len(lines) + 1), rng.choice(fuzz_replay.UNREADABLE))
    for line in lines:
        talk.line(line.encode())
        if talk.status is not None:
            break
    kinds = rng.choice(["bbrrrrwwddcccviiaz", "bbrrrrrrwwwwwcvii", "bbbrrrrrrrrwwwwddcviiii", "brwdcviaz", "bbrrrrrrrwwwwwwwccz"])
    cuts = rng.choice([0, 0.02, 0.1])
    for _ in range(rng.choice([0, 3, 10, 20, 40, 80, 160])):
        if talk.status is not None:
            break
        core = talk.core or plain_serve.plain_core.Core(talk.sites)
        more = ["x"] if rng.random() < cuts else [fuzz_replay.event(rng, core, kinds)]
        if more == ["x"] and talk.core is not None and rng.random() < 0.7:
            more = fuzz_replay.ends(rng, core) + more
            lines += more[:-1]                  # `ends` has done them
            more = more[-1:]
        if rng.random() < 0.02:
            more = [rng.choice(fuzz_replay.UNREADABLE + ["x1", "X", "x "])]
        for line in more:
            lines.append(line)
            talk.line(line.encode("latin-1"))
    data = "".join(line + "\n" for line in lines).encode("latin-1")
    if rng.random() < 0.02:
        data += b"r1[0.x" + b"x" * rng.choice([10, plain_serve.LIMIT - 6, plain_serve.LIMIT - 5, plain_serve.LIMIT]) + rng.choice([b"", b"\n", b"\nb\n"])
    return data[:-1] if data and rng.random() < 0.1 else data


class Ended(Exception):
    pass


def reply_of(process, held):
    """The next line of replies, awaited for so long."""
    while b"\n" not in held:
        if not select.select([process.stdout], [], [], WAIT)[0]:
            raise TimeoutError
        more = os.read(process.stdout.fileno(), 65536)
        if not more:
            raise Ended
        held += more
    line, _, rest = held.partition(b"\n")
    return line + b"\n", rest


def by_lines(process, data, wanted):
    """What was replied where each line is sent once the reply to the one before is there."""
    found, held, awaited = b"", b"", wanted.split(b"\n")[:-1]
    probe = plain_serve.Talk(lambda bundle: 1)
    try:
        for line in data.split(b"\n")[:-1]:
            process.stdin.write(line + b"\n")
            process.stdin.flush()
            if probe.status is None and probe.line(line) is not None and len(found.split(b"\n")) <= len(awaited):
                said, held = reply_of(process, held)
                found += said
        process.stdin.write(data.split(b"\n")[-1])
        process.stdin.flush()
    except (BrokenPipeError, Ended):
        pass
    rest, _ = process.communicate(timeout=WAIT)
    return found + held + rest


def by_bursts(process, data, rng):
    at = 0
    try:
        while at < len(data):
            size = rng.choice([1, 2, 7, 30, 200, 5000])
            process.stdin.write(data[at:at + size])
            process.stdin.flush()
            at += size
    except BrokenPipeError:
        pass
    return process.communicate(timeout=WAIT)[0]


def run(program, data, wanted, rng, folder):
    """What the program replies to the talk, and its status."""
    words = [program, "serve"] + (["--bundles", folder] if folder else [])
    process = subprocess.Popen(words, stdin=subprocess.PIPE, stdout=subprocess.PIPE, stderr=subprocess.DEVNULL)
    how = rng.choice(["once", "bursts", "lines"]) if len(data) < 100_000 else "once"
    try:
        if how == "lines":
            found = by_lines(process, data, wanted)
        elif how == "bursts":
            found = by_bursts(process, data, rng)
        else:
            found = process.communicate(data, timeout=WAIT)[0]
    except (TimeoutError, subprocess.TimeoutExpired):
        process.kill()
        process.communicate()
        return f"no reply in {WAIT} s, sent by {how}", None
    return found.decode(errors="replace"), process.returncode


def without_walks(bundle):
    return fuzz_replay.without_walks("---\n" + bundle)


def difference(program, data, rng, folder):
    """What is wrong, or None."""
    wanted, bundles, status = plain_serve.talk(data)
    found, ended = run(program, data, wanted.encode(), rng, folder)
    if (found, ended) != (wanted, status):
        return f"wanted {wanted!r} and status {status}, found {found!r} and status {ended}"
    if not folder:
        return None
    names = sorted(os.listdir(folder))
    if names != [f"{number:08}.sgt" for number in range(1, len(bundles) + 1)]:
        return f"bundles {names} in place of {len(bundles)}"
    texts = [(name, open(os.path.join(folder, name), "rb").read()) for name in names]
    if [without_walks(text.decode()) for _, text in texts] != [without_walks(bundle) for bundle in bundles]:
        return "other bundles"
    line, _ = plain_serve.audit_chain(texts) if texts else ("yes", 0)
    if not line.startswith("yes "):
        return line if texts else None
    done = subprocess.run([program, "audit", "--chain", *names], cwd=folder, capture_output=True, text=True)
    return None if (done.stdout, done.returncode) == (line + "\n", 0) else f"audited as {done.stdout!r} in place of {line}"


def main():
    if len(sys.argv) < 2 or "--help" in sys.argv:
        sys.exit(__doc__)
    program = os.path.abspath(sys.argv[1])
    count = int(sys.argv[2]) if len(sys.argv) > 2 else 1000
    rng = random.Random(int(sys.argv[3]) if len(sys.argv) > 3 else 1)
    seen, differ = {}, 0
    for _ in range(count):
        data = talk_of(rng)
        with tempfile.TemporaryDirectory() as above:
            folder = os.path.join(above, "bundles") if rng.random() < 0.7 else None
            fault = difference(program, data, rng, folder)
        for line in plain_serve.talk(data)[0].split("\n")[:-1]:
            key = " ".join(line.split(" ")[:2])[:4] if line.startswith("! ") else line[0]
            seen[key] = seen.get(key, 0) + 1
        if fault:
            differ += 1
            print(f"{fault}, of {data[:3000]!r}")
    print(dict(sorted(seen.items())), f"{count} compared, {differ} differ")
    sys.exit(1 if differ else 0)


if __name__ == "__main__":
    main()
