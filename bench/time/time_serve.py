#!/usr/bin/env python3
"""What `serve` costs: round trips beside an echo, bursts beside `replay`, and memory over a thousand cuts.

usage: time_serve.py PROGRAM [LINES [RUNS]]

Round trips: a line is sent once the reply to the one before is there, to `sgt serve` and to a program that sends each line back, both over
a pipe. Bursts: the same lines at once, to `sgt serve` and to `sgt replay`. The least of so many runs each. Ends with status 1 where
a cost is more than 1.3 times the other, or where a thousand cuts of a thousand transactions take a tenth more memory than ten.
"""
import os
import subprocess
import sys
import tempfile
import time

ECHO = """
#include <stdio.h>
int main(void) {
    static char line[65536];
    while (fgets(line, sizeof line, stdin)) { fputs(line, stdout); fflush(stdout); }
}
"""
ITEMS, EPOCH = 64, 4000


def events(count):
    """So many lines of events: transactions that read an item and write it and another, in epochs."""
    lines, number = [], 0
    while len(lines) < count:
        number += 1
        a, b = number % ITEMS, (number * 7 + 1) % ITEMS
        lines += ["b", f"r{number}[0.i{a:02}]", f"w{number}[0.i{a:02}]={number}", f"w{number}[0.i{b:02}]={number + 1}", f"c{number}"]
        if number % EPOCH == 0:
            lines.append("z")
    return lines


def sites():
    return "site 0 " + " ".join(f"i{k:02}=0" for k in range(ITEMS)) + "\n"


def round_trips(words, head, lines):
    """Seconds that lines take, one by one."""
    process = subprocess.Popen(words, stdin=subprocess.PIPE, stdout=subprocess.PIPE, bufsize=0)
    sent, got = process.stdin.fileno(), process.stdout.fileno()
    os.write(sent, head)
    began = time.perf_counter()
    for line in lines:
        os.write(sent, line)
        if not os.read(got, 65536).endswith(b"\n"):
            raise ValueError("half a reply")
    took = time.perf_counter() - began
    process.stdin.close()
    process.wait()
    return took


def burst(words, path):
    """Seconds that a whole input takes."""
    began = time.perf_counter()
    with open(path, "rb") as data:
        subprocess.run(words, stdin=data, stdout=subprocess.DEVNULL, check=True)
    return time.perf_counter() - began


def most_memory(program, cuts, transactions):
    """The greatest memory, in KiB, over so many cuts of so many transactions."""
    process = subprocess.Popen([program, "serve"], stdin=subprocess.PIPE, stdout=subprocess.PIPE)
    process.stdin.write(sites().encode())
    window = "".join(line + "\n" for line in events(5 * transactions)) + "x\n"
    wanted = window.count("\n")
    for _ in range(cuts):
        process.stdin.write(window.encode())
        process.stdin.flush()
        for _ in range(wanted):
            process.stdout.readline()
    with open(f"/proc/{process.pid}/status") as status:
        most = next(int(line.split()[1]) for line in status if line.startswith("VmHWM:"))
    process.stdin.close()
    process.wait()
    return most


def told(name, mine, other, limit, unit):
    ratio = mine / other
    print(f"{name}: {mine:.3f} beside {other:.3f} {unit}, {ratio:.2f} times{'' if ratio <= limit else ', more than ' + str(limit)}", flush=True)
    return ratio <= limit


def main():
    if len(sys.argv) < 2 or "--help" in sys.argv:
        sys.exit(__doc__)
    program = os.path.abspath(sys.argv[1])
    count = int(sys.argv[2]) if len(sys.argv) > 2 else 1_000_000
    runs = int(sys.argv[3]) if len(sys.argv) > 3 else 5
    with tempfile.TemporaryDirectory() as folder:
        echo, source, path = (os.path.join(folder, name) for name in ("echo", "echo.c", "events"))
        with open(source, "w") as file:
            file.write(ECHO)
        subprocess.run(["gcc", "-O2", source, "-o", echo], check=True)
        lines = [line.encode() + b"\n" for line in events(count // 10)]
        head = sites().encode()
        mine = min(round_trips([program, "serve"], head, lines) for _ in range(runs))
        other = min(round_trips([echo], b"", lines) for _ in range(runs))
        holds = told(f"{len(lines)} round trips", mine, other, 1.3, "s")
        with open(path, "w") as file:
            file.write(sites() + "".join(line + "\n" for line in events(count)))
        mine = min(burst([program, "serve"], path) for _ in range(runs))
        other = min(burst([program, "replay"], path) for _ in range(runs))
        holds &= told(f"{count} events at once", mine, other, 1.3, "s")
    few, many = most_memory(program, 10, 1000), most_memory(program, 1000, 1000)
    holds &= told("memory over 1,000 cuts and over 10", many / 1024, few / 1024, 1.1, "MiB")
    sys.exit(0 if holds else 1)


if __name__ == "__main__":
    main()
