#!/usr/bin/env python3
"""Runs a command, mostly `rt ci`, and says where its processor time went, by crate: proofs, tests, must-fail edits.

usage: gate_times.py COMMAND [WORD ..]

It looks at the running provers five times a second, so up to a fifth of a second of each is missed. The last line has the time
of everything that ran, as the system counts it.

Minutes of one machine are not minutes of another, so each row is also told in units: the processor time of the proof of
sgt_names in the same run is one unit. (Where sgt_names was kept from an earlier run there are none.)
"""
import os
import re
import resource
import subprocess
import sys
import time

TICKS = os.sysconf("SC_CLK_TCK")
PARTS = ("proofs", "tests", "edits")
UNIT = "sgt_names"


def words_of(pid):
    with open(f"/proc/{pid}/cmdline", "rb") as file:
        return file.read().decode("utf-8", "replace").split("\0")


def look(seen, top):
    """Notes the time of each prover that descends from the command, and of the kernel that a prover starts."""
    parents, stats = {}, {}
    for pid in filter(str.isdigit, os.listdir("/proc")):
        try:
            with open(f"/proc/{pid}/stat") as file:
                stats[pid] = file.read()
        except OSError:
            continue
        parents[pid] = stats[pid][stats[pid].rindex(")") + 2:].split()[1]
    for pid, stat in stats.items():
        try:
            fields = stat[stat.rindex(")") + 2:].split()
            above = pid
            while above not in ("0", top):
                above = parents.get(above, "0")
            if not stat.split("(", 1)[1].startswith(("rattle", "antt")) or above != top:
                continue
            key = (pid, fields[19])
            if key not in seen:
                words = words_of(pid)
                if "--crate-name" not in words:
                    words = words_of(parents[pid])
                seen[key] = [words, os.readlink(f"/proc/{pid}/cwd"), 0.0]
            seen[key][2] = (int(fields[11]) + int(fields[12])) / TICKS
        except (OSError, ValueError):
            pass


def kind(words, folder):
    if "rt-edit" in folder:
        return "edits"
    return "tests" if "--test" in words else "proofs"


def line(name, minutes, unit):
    told = " ".join(f"{each:8.1f}" for each in [*minutes, sum(minutes)])
    return f"{name:20} {told} {sum(minutes) / unit:8.1f}" if unit else f"{name:20} {told} {'-':>8}"


def in_units(minutes, unit):
    return f", {minutes / unit:.1f} units," if unit else ""


def main():
    if len(sys.argv) < 2 or "--help" in sys.argv:
        sys.exit(__doc__)
    started, seen = time.time(), {}
    running = subprocess.Popen(sys.argv[1:])
    while running.poll() is None:
        look(seen, str(running.pid))
        time.sleep(0.2)
    table = {}
    for words, folder, seconds in seen.values():
        name = words[words.index("--crate-name") + 1] if "--crate-name" in words else "other"
        row = table.setdefault(name, dict.fromkeys(PARTS, 0.0))
        row[kind(words, folder)] += seconds / 60
    unit = table.get(UNIT, {}).get("proofs", 0.0)
    print(f"{'crate':20} {'proofs':>8} {'tests':>8} {'edits':>8} {'all':>8} {'units':>8}   (processor minutes; a unit: the proof of {UNIT})")
    for name, row in sorted(table.items()):
        print(line(name, [row[part] for part in PARTS], unit))
    print(line("together", [sum(row[part] for row in table.values()) for part in PARTS], unit))
    used = resource.getrusage(resource.RUSAGE_CHILDREN)
    minutes = (used.ru_utime + used.ru_stime) / 60
    print(f"all that ran: {minutes:.1f} processor minutes{in_units(minutes, unit)} in {(time.time() - started) / 60:.1f} minutes")
    sys.exit(running.returncode)


if __name__ == "__main__":
    main()
