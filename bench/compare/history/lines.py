#!/usr/bin/env python3
"""Runs a built program's `check` over lines that can't be read, and compares what standard error is told of each.

usage: lines.py PROGRAM

Each mistake stands alone, behind two good lines, and in a history of several blocks behind a line that is longer than a block,
there as the last line, and with `-q` in front of another one. Standard output has to be the answer alone (nothing with `-q`),
the status 2, and standard error one line. Then what is told where a history is given to a command that reads bundles, and that nothing is told of a
history that can be read. Ends with status 1 at a difference, which it prints. Four at a time; takes some seconds.
"""
import concurrent.futures
import subprocess
import sys

GOOD = b'{"tx":%d,"end":"commit","ops":[]}\n'
ID = "a string of 1 to 256 bytes or a whole number from 0 to 2^64-1"
ITEM = "a string of 0 to 1024 bytes or a whole number from 0 to 2^64-1"
WHOLE = "a whole number from 0 to 2^64-1"
VALUE = "a string, a whole number from -2^63 to 2^64-1, true, false or null"


def line(ops, tx='"a"', end='"commit"'):
    return ('{"tx":%s,"end":%s,"ops":[%s]}' % (tx, end, ops)).encode()


def version(text):
    return "ops[0]: its version is %s, and has to be %s" % (text, WHOLE)


MISTAKES = [
    (b"pay-1,commit,r x 0", "not JSON: column 1: pay-1,commit,r x 0"),
    (b'{"tx":"a","end":"commit","ops":[["r","x"', "not JSON: the line ends behind column 40, in the midst of a value"),
    (b'{"tx":"a","end":"com', 'not JSON: column 17: a string with no end: "com'),
    (line('["r","x"]'), 'ops[0] has 2 elements, and has to have 3 or 4: ["r","x"]'),
    (line('["r","x",null]'), version("null")),
    (line('["r","x","1"]'), version('"1"')),
    (line('["r","x",-1]'), version("-1")),
    (line('["r","x",1.0]'), version("1.0")),
    (line('["r","x",1e3]'), version("1e3")),
    (line('["r","x",-0]'), version("-0")),
    (line('["r","x",18446744073709551616]'), version("18446744073709551616")),
    (b'{"tx":"a","end":"commit"}', 'no member "ops"'),
    (b'{"tx":"a","ops":[]}', 'no member "end"'),
    (b'{"end":"commit","ops":[]}', 'no member "tx"'),
    (line("", end='"committed"'), '"end" is "committed", and has to be "commit" or "abort"'),
    (line('["read","x",1]'), 'ops[0]: its kind is "read", and has to be "r" or "w"'),
    (line('["r","x",1,1.5]'), "ops[0]: its value is 1.5, and has to be " + VALUE),
    (line('["r","x",1, { "a" : 1 } ]'), 'ops[0]: its value is { "a" : 1 }, and has to be ' + VALUE),
    (line('["r",1.5,1]'), "ops[0]: its item is 1.5, and has to be " + ITEM),
    (line('["w","x",1],["r","x",1],["w","x",0]'), "ops[2]: a write's version is 0, and has to be from 1"),
    (line('{"kind":"r"}'), 'ops[0] is {"kind":"r"}, and has to be an array'),
    (line("", tx='"%s"' % ("a" * 257)), '"tx" is "%s..., and has to be %s' % ("a" * 39, ID)),
    (line("", tx="null"), '"tx" is null, and has to be ' + ID),
    (line("", tx='"\x1b[31m"'), 'not JSON: column 8: a control character in a string: \\u001b[31m","end":"commit","ops":[]}'),
    (line("", tx="[\u009b, \u202e]").replace(b"[", b'["', 1).replace(b"]", b'"]', 1),
     '"tx" is ["\\u009b, \\u202e"], and has to be ' + ID),
    (b"", "nothing stands in it"),
    (b" \t\r", "nothing stands in it"),
    (b'[{"tx":"a"}]', 'not an object: [{"tx":"a"}]'),
    (b"sgt 1", "not JSON, but the line of a bundle: sgt 1"),
    (b'{"tx":"\xff"}', 'not UTF-8: column 8: \\xff"}'),
    (line("", tx='"\\ud800"'), 'not JSON: column 8: half a surrogate pair: \\ud800","end":"commit","ops":[]}'),
    (b"\xef\xbb\xbf" + line(""), "it begins with a byte order mark (bytes ef bb bf)"),
    (line("") + b" {}", "behind the object stands {}"),
    (b"{'tx':1}", "not JSON: column 2: 'tx':1}"),
    (line('["r","x",1],'), "not JSON: column 45: ]}"),
    (line("", tx='"b","deep":' + "[" * 1000 + "]" * 1000, end="null"), '"end" is null, and has to be "commit" or "abort"'),
]


def cases():
    """What is run: a name, the words behind the program, the text, and what has to come of it."""
    two = GOOD % 1 + GOOD % 2
    long = b'{"tx":4,"end":"commit","ops":[],"note":"%s"}\n' % (b"n" * 200_000)
    many = b"".join(GOOD % n for n in range(10, 3000)) + long
    every = [(bad, b"L1", words) for bad, words in MISTAKES]
    every.append((line("", tx="10"), b"L3", '"tx" is 10, which an earlier line has'))
    for bad, fault, words in every:
        places = [(many, 2992, bad, ["check"]), (many, 2992, bad + b"\r\n" + GOOD % 9, ["check", "-q"])]
        if fault == b"L1":
            places += [(b"", 1, bad + b"\n", ["check"]), (two, 3, bad + b"\n" + GOOD % 9, ["check"])]
        for front, number, behind, asked in places:
            if behind:
                answer = b"" if "-q" in asked else b"! %s line %d\n" % (fault, number)
                rest = "\\x0d" if "UTF-8" in words and behind.startswith(bad + b"\r") else ""       # no text: all is shown
                yield words, asked, front + behind, (2, answer, ("sgt: line %d: %s%s\n" % (number, words, rest)).encode())
    words = "longer than 16777216 bytes, without its LF"
    yield words, ["check"], b" " * 16_777_217, (2, b"! L2 line 1\n", ("sgt: line 1: %s\n" % words).encode())
    yield "good", ["check"], many, (0, b"yes 2991 committed 0 aborted\n", b"")
    hint = b"sgt: standard input looks like a history: sgt check\n"
    for command in ("audit", "serial", "certify", "explain", "draw"):
        yield "a history", [command], two, (1, None, hint)


def differs(case):
    name, asked, text, wanted = case
    done = subprocess.run([sys.argv[1]] + asked, input=text, capture_output=True)
    found = (done.returncode, done.stdout if wanted[1] is not None else None, done.stderr)
    if found == wanted:
        return 0
    print("%s: %s\n  found  %r\n  wanted %r" % (asked, name, found, wanted), flush=True)
    return 1


def main():
    if len(sys.argv) < 2 or "--help" in sys.argv:
        sys.exit(__doc__)
    every = list(cases())
    with concurrent.futures.ThreadPoolExecutor(4) as pool:
        differences = sum(pool.map(differs, every))
    print("%d runs, %d differences" % (len(every), differences))
    return 1 if differences else 0


if __name__ == "__main__":
    sys.exit(main())
