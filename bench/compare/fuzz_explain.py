#!/usr/bin/env python3
"""Explains broken bundles and looks at what is written.

usage: fuzz_explain.py PROGRAM [ROUNDS [SEED]]

PROGRAM is `sgt`, or a program that explains its standard input. Each round breaks an input of the rows of sgt_rows that begin with explain at one or two
places. The first line has to be the verdict of plain_audit.py; of a no, the second begins with the fault's name, there are at
most ten lines, and each line that is shown with a number is that line of the input. Of logs without a certificate: see certify/fuzz_logs.py."""
import os
import random
import re
import subprocess
import sys

HERE = os.path.dirname(os.path.abspath(__file__))
sys.path.insert(0, HERE)
sys.dont_write_bytecode = True
import plain_audit  # noqa: E402

NAMES = (
    "Format Notation Certificate Ranks DecidedTwice WalkShape Section Item Twice ReadValue RankOrder Block End "
    "DecisionOrder NotEnded Final WalkStep Truncated Trailing"
).split()
SHOWN = re.compile(r" *([0-9]+) \| (.*)\Z")


def escaped(line):
    """A line as it is shown, without a cut."""
    out = ""
    for byte in line:
        if byte == 9:
            out += "\\t"
        elif byte == 13:
            out += "\\r"
        elif byte == 92:
            out += "\\\\"
        elif 32 <= byte < 127:
            out += chr(byte)
        else:
            out += f"\\x{byte:02x}"
    return out


def broken(rng, data):
    """The bundle, broken."""
    lines = data.split(b"\n")
    for _ in range(rng.randint(1, 2)):
        at = rng.randrange(len(lines))
        what = rng.randrange(9)
        if what == 0:
            del lines[at]
        elif what == 1:
            lines.insert(at, rng.choice(lines))
        elif what == 2:
            other = rng.randrange(len(lines))
            lines[at], lines[other] = lines[other], lines[at]
        elif what == 3:
            lines[at] = re.sub(rb"[0-9]", lambda _: b"%d" % rng.randrange(4), lines[at], count=rng.randint(1, 3))
        elif what == 4:
            lines[at] = re.sub(rb"\A[rwpcnadq]", lambda _: rng.choice([b"r", b"w", b"p", b"c", b"n", b"a", b"d"]), lines[at])
        elif what == 5:
            place = rng.randrange(len(lines[at]) + 1)
            lines[at] = lines[at][:place] + bytes([rng.choice(b" \t\r\\=[]{}x0\x00\xff")]) + lines[at][place:]
        elif what == 6:
            lines[1 % len(lines)] = re.sub(rb"[0-9]", lambda _: b"%d" % rng.randrange(4), lines[1 % len(lines)], count=rng.randint(1, 9))
        elif what == 7:
            lines[at] = re.sub(rb"wr|rw|ww", lambda _: rng.choice([b"wr", b"rw", b"ww"]), lines[at])
        else:
            return b"\n".join(lines)[: rng.randrange(len(data) + 1)]
        if not lines:
            return b""
    return b"\n".join(lines)


def complaint(data, text):
    """What is wrong with an explanation."""
    lines = text.split("\n")
    if not text.endswith("\n"):
        return "no LF at the end"
    head = data.split(b"\n")[:2]
    if head[0] in (b"sgt 1", b"sgt 2") and head[1:] and head[1].startswith(b"site "):
        return None if re.match("no |a certificate exists: ", text) else "neither of what logs are told"
    first, rest = lines[0] + "\n", lines[1:-1]
    if first.strip() != plain_audit.verdict(data).strip():
        return f"another verdict: {plain_audit.verdict(data)!r}"
    if first.startswith("yes"):
        return None
    number = int(first.split(" F")[1])
    if not rest or not rest[0].startswith(NAMES[number - 1] + ": "):
        return "another name"
    if len(lines) - 1 > 10:
        return "more than ten lines"
    given = data.split(b"\n")
    for line in rest:
        shown = SHOWN.match(line)
        if shown:
            wanted = escaped(given[int(shown[1]) - 1])
            if not (shown[2] + " ").startswith(wanted + " ") and not (shown[2].endswith("..") and wanted.startswith(shown[2][:-2])):
                return f"line {shown[1]} is {wanted!r}"
    return None


def main():
    if len(sys.argv) not in (2, 3, 4) or "--help" in sys.argv:
        sys.exit(__doc__)
    program = os.path.abspath(sys.argv[1])
    rounds = int(sys.argv[2]) if len(sys.argv) > 2 else 1000
    rng = random.Random(int(sys.argv[3]) if len(sys.argv) > 3 else 1)
    command = [program] + (["explain"] if os.path.basename(program) == "sgt" else [])
    inputs = []
    for row in sorted(it for it in os.listdir(os.path.join(HERE, "../../crates/sgt_rows/data/rows")) if it.startswith("explain")):
        path = os.path.join(HERE, "../../crates/sgt_rows/data/rows", row, "stdin")
        if os.path.exists(path):
            with open(path, "rb") as file:
                inputs.append(file.read())
    counts, bad = {}, 0
    for _ in range(rounds):
        data = broken(rng, rng.choice(inputs))
        text = subprocess.run(command, input=data, stdout=subprocess.PIPE, check=False).stdout.decode("ascii")
        why = complaint(data, text)
        kind = text.split("\n")[0].split(" ")[-1] if text.startswith("no") else "yes"
        counts[kind] = counts.get(kind, 0) + 1
        if why:
            bad += 1
            print(f"{why}\n{data!r}\n{text}")
    print(" ".join(f"{kind}:{counts[kind]}" for kind in sorted(counts, key=lambda k: (len(k), k))))
    print(f"{rounds} rounds, {bad} bad")
    sys.exit(1 if bad else 0)


if __name__ == "__main__":
    main()
