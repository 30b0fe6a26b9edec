#!/usr/bin/env python3
"""Times runs of a thousand scripts by 1, 2 and 4 workers, beside the plain service.

usage: time_run.py PROGRAM SERVICE [RUNS]

PROGRAM is a built `sgt`, SERVICE a built bench/time/baseline/service.rs; RUNS is 20 where nothing is said. Disjoint: a thousand scripts
at 64 sites, each reads eight items of its site and writes one, and the next script is at the next site. Hot: each script reads
one item of one site and writes it with one added. Spread: each script reads eight items and writes one of them, all at one site.
It prints scripts a second by the least elapsed time of the runs, and in brackets the processor seconds (user + system) of that
run and how many tries were refused in it. A run is the whole process: it reads and checks the input, runs the scripts, and
writes the lines and the bundle; `sgt run` also settles the run and audits its bundle.
"""
import os
import re
import resource
import subprocess
import sys
import time

SCRIPTS = 1000
ITEMS = [f"x{n}" for n in range(8)]


def site_line(site):
    return " ".join([f"site {site}"] + [f"{item}=0" for item in ITEMS])


def eight_reads(site, n):
    reads = [f"r[{site}.{item}]" for item in ITEMS]
    target = ITEMS[n % len(ITEMS)]
    return " ".join(reads + [f"w[{site}.{target}]={site}.{target}+1"])


def inputs():
    disjoint = [site_line(site) for site in range(64)] + [eight_reads(n % 64, n // 64) for n in range(SCRIPTS)]
    hot = ["site 0 x=0"] + ["r[0.x] w[0.x]=0.x+1"] * SCRIPTS
    spread = [site_line(0)] + [eight_reads(0, n) for n in range(SCRIPTS)]
    return {name: "".join(line + "\n" for line in lines).encode() for name, lines in
            (("disjoint", disjoint), ("hot", hot), ("spread", spread))}


def one(words, text):
    """Elapsed and processor seconds of a run, and how many tries it refused."""
    before, start = resource.getrusage(resource.RUSAGE_CHILDREN), time.perf_counter()
    done = subprocess.run(words, input=text, capture_output=True)
    elapsed, after = time.perf_counter() - start, resource.getrusage(resource.RUSAGE_CHILDREN)
    assert done.returncode in (0, 1), done.stderr
    refused = int(re.search(rb"^yes \d+ committed (\d+) refused", done.stdout, re.MULTILINE).group(1))
    return elapsed, after.ru_utime + after.ru_stime - before.ru_utime - before.ru_stime, refused


def main():
    if len(sys.argv) < 3 or "--help" in sys.argv:
        sys.exit(__doc__)
    program, service = sys.argv[1:3]
    runs = int(sys.argv[3]) if len(sys.argv) > 3 else 20
    print("load", *os.getloadavg())
    for name, text in inputs().items():
        for workers in (1, 2, 4):
            shown = []
            for words in ([program, "run", "--workers", str(workers)], [service, str(workers), "4"]):
                elapsed, spent, refused = min(one(words, text) for _ in range(runs))
                shown.append(f"{SCRIPTS / elapsed:9.0f} scripts a second ({spent:.3f} s, {refused} refused)")
            print(f"{name:9} {workers} workers: sgt run {shown[0]}   plain {shown[1]}")


if __name__ == "__main__":
    main()
