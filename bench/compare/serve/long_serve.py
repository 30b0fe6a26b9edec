#!/usr/bin/env python3
"""`sgt serve` over many transactions: 6,000 and a cut, and 120,000 to the end of the input, whose bundle is made there.

usage: long_serve.py PROGRAM [CUT [END]]     (numbers of transactions; 6000 and 120000)

Each transaction reads x and writes it greater by 1, an epoch is closed behind each 4,000, and the replies are known beforehand.
The bundles have to be there, to follow one another, and to tell so many committed transactions: the program's own `audit` says so.
"""
import os
import subprocess
import sys
import tempfile


EPOCH = 4_000


def events(first, count, x):
    """The lines of so many transactions from this number on, over this value of x, and their replies."""
    asked, told = [], []
    for tx in range(first, first + count):
        asked += ["b", f"r{tx}[0.x]", f"w{tx}[0.x]={x + 1}", f"c{tx}"]
        told += [f"b{tx}", f"r{tx}[0.x]={x}", f"w{tx}[0.x]={x + 1}", f"c{tx} yes"]
        x += 1
        if (tx - first + 1) % EPOCH == 0:
            asked.append("z")
            told.append(f"z {tx}")
    return asked, told, x


def serve(program, folder, asked, told):
    """Whether the program replies so, and ends well."""
    text = "".join(line + "\n" for line in asked)
    run = subprocess.run([program, "serve", "--bundles", folder], input=text, capture_output=True, text=True, check=False)
    replies = run.stdout.splitlines()
    if run.returncode == 0 and replies == told:
        return True
    at = next((n for n, pair in enumerate(zip(replies, told)) if pair[0] != pair[1]), min(len(replies), len(told)))
    print(f"status {run.returncode}, reply {at + 1} is {replies[at:at + 1]} and not {told[at:at + 1]}; {run.stderr.strip()}")
    return False


def main():
    program = sys.argv[1]
    cut, end = [int(word) for word in sys.argv[2:]] + [6_000, 120_000][len(sys.argv) - 2:]
    first, said, x = events(1, cut, 0)
    more, told, _ = events(1, end, x)
    with tempfile.TemporaryDirectory() as folder:
        fine = serve(program, folder, ["site 0 x=0"] + first + ["x"] + more, said + ["x 1"] + told)
        names = sorted(os.listdir(folder))
        fine &= names == ["00000001.sgt", "00000002.sgt"]
        for names_of, count in ((names[:1], cut), (names[1:2], end)):
            wanted = f"yes {count} committed 0 refused 0 withdrawn\n"
            audit = subprocess.run([program, "audit"] + [f"{folder}/{name}" for name in names_of], stdin=subprocess.DEVNULL,
                                   capture_output=True, text=True, check=False)
            if audit.stdout != wanted:
                print(f"audit of {names_of}: {audit.stdout!r}, and not {wanted!r}")
                fine = False
        chain = subprocess.run([program, "audit", "--chain"] + [f"{folder}/{name}" for name in names], stdin=subprocess.DEVNULL,
                               capture_output=True, text=True, check=False)
        fine &= chain.stdout == f"yes {cut + end} committed 0 refused 0 withdrawn\n"
    print(f"{cut} transactions and a cut, {end} to the end: {'as they have to be' if fine else 'OTHERWISE'}")
    return 0 if fine else 1


if __name__ == "__main__":
    sys.exit(main())
