#!/usr/bin/env python3
"""Runs a built program's `serve` once for each growth that it makes, with that one refused.

usage: refuse_serve.py PROGRAM [TALK ..]

PROGRAM is the program itself, not a script that starts it, and built without AddressSanitizer. TALK is a file with the lines of a talk;
without one two talks of the script's own. Each line is sent once the reply to the one before is there. A run holds where each line is
answered as the plain server does, or by `! E9` and the plain server goes on as if that line hadn't been there; where the bundles in the
folder are the plain ones (but for the walks of refusals); and where the status is the plain one, or 3 with `sgt: memory` on standard
error. Nothing may be told of a device. Ends with status 1 where a run doesn't hold. Needs gcc; two minutes.
"""
import os
import select
import subprocess
import sys
import tempfile

import fuzz_serve
import plain_serve
import refuse_growths

WAIT = 60
TALKS = [
    b"site 0 x=5 y=2\nsite 1 z=7\nb\nb\nr1[0.x]\nr2[0.y]\nw1[0.y]=7\nw2[0.x]=8\nv1\ni1@0\nc2\nx\nb\nd1[1.z]=4\nr1[1.z]\nb\na2\nc1\nz\nb\nq\nr3[0.x]\nx\n"
    b"w3[1.z]=1\nv3\nx\ni3@1\ni3@0\nx\nx\nb\nw1[0.x]=3\nb\nr2[1.z]\nv1",
    b"site 0 a=1 b=2 c=3 d=4 e=5 f=6 g=7 h=8\n"
    + b"".join(b"b\nr%d[0.a]\nw%d[0.%c]=%d\nd%d[0.h]=1\n" % (n, n, 98 + n % 6, n, n) for n in range(1, 13))
    + b"".join(b"c%d\n" % n for n in range(1, 13)) + b"z\nx\n"
    + b"".join(b"b\nr%d[0.b]\nw%d[0.a]=%d\nc%d\n" % (n, n, n, n) for n in range(1, 9)) + b"x\nb\nr1[0.a]\n",
]


def reply_of(process):
    """The next line of replies, or nothing at the end."""
    said = b""
    while not said.endswith(b"\n"):
        if not select.select([process.stdout], [], [], WAIT)[0]:
            raise TimeoutError("no reply")
        more = os.read(process.stdout.fileno(), 1)
        if not more:
            break
        said += more
    return said.decode()


def answered(process, probe, lines):
    """The first reply that isn't as the plain server's, with it, or None; and how often `! E9` was said."""
    refused = 0
    for line in lines:
        try:
            process.stdin.write(line + b"\n")
        except BrokenPipeError:
            return None, refused
        waits = probe.core is not None or plain_serve.read_site(line.decode(), len(probe.sites)) is None
        said = reply_of(process) if waits else None
        if said == "":
            return None, refused
        if said == "! E9\n":
            refused += 1
            if probe.core is None:
                probe.core = plain_serve.plain_core.Core(probe.sites)
            continue
        wanted = probe.line(line)
        if waits and said != wanted + "\n":
            return f"{line!r} answered {said!r} in place of {wanted!r}", refused
    return None, refused


def run(program, data, folder, shim, told, n):
    """What is wrong with a run whose growth n is refused, if anything is, and a word on how it went."""
    bundles = []

    def take(bundle):
        bundles.append(bundle)
        return len(bundles)

    probe, env = plain_serve.Talk(take), dict(os.environ, LD_PRELOAD=shim, REFUSE_GROWTH=str(n), GROWTHS_TO=told)
    process = subprocess.Popen([program, "serve", "--bundles", folder], stdin=subprocess.PIPE, stdout=subprocess.PIPE, stderr=subprocess.PIPE,
                               bufsize=0, env=env)
    *lines, rest = data.split(b"\n")
    fault, refused = answered(process, probe, lines)
    try:
        process.stdin.write(rest)
    except BrokenPipeError:
        pass
    _, errors = process.communicate(timeout=WAIT)
    if fault:
        return fault, "differs"
    if process.returncode == 3:
        return None if errors.startswith(b"sgt: memory") else f"status 3 and {errors!r}", "status 3"
    probe.end(rest)
    if process.returncode != probe.status or errors:
        return f"status {process.returncode} in place of {probe.status}, {errors!r}", "differs"
    names = sorted(os.listdir(folder))
    found = [open(os.path.join(folder, name), encoding="utf-8").read() for name in names]
    if [fuzz_serve.without_walks(text) for text in found] != [fuzz_serve.without_walks(text) for text in bundles]:
        return f"bundles {names} differ", "differs"
    return None, "E9" if refused else "as if none"


def main():
    if len(sys.argv) < 2 or "--help" in sys.argv:
        sys.exit(__doc__)
    program = os.path.abspath(sys.argv[1])
    talks = [open(name, "rb").read() for name in sys.argv[2:]] or TALKS
    failed = 0
    with tempfile.TemporaryDirectory() as above:
        shim, told = refuse_growths.built_shim(above), os.path.join(above, "told")
        for number, data in enumerate(talks, 1):
            ways, n = {}, 0
            while n == 0 or os.path.exists(told):
                n += 1
                if os.path.exists(told):
                    os.unlink(told)
                with tempfile.TemporaryDirectory(dir=above) as folder:
                    fault, way = run(program, data, os.path.join(folder, "b"), shim, told, n)
                ways[way] = ways.get(way, 0) + 1
                if fault:
                    failed += 1
                    print(f"talk {number}, growth {n}: {fault}", flush=True)
            print(f"talk {number}: {n - 1} growths refused, {dict(sorted(ways.items()))}", flush=True)
            if n == 1:
                print("no growth was seen: a program with AddressSanitizer, or a script?")
                failed += 1
    sys.exit(1 if failed else 0)


if __name__ == "__main__":
    main()
