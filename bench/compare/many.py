#!/usr/bin/env python3
"""Runs each command on more of everything than 16 bits can count, where the limits of docs/OPERATING.md allow as many.

usage: many.py PROGRAM [CASE ..]

Of transactions, items of a history, lines, sessions, operations and members of one line, blanks of one line, cuts, names in a folder
and reads there are 70,000 each, and the answers are known beforehand; 2 GB of memory have to be enough. Prints what differs, and ends
with status 1 then. A minute.
"""
import fcntl
import os
import resource
import subprocess
import sys
import tempfile
import termios
import time

MANY = 70_000
WAIT = 120
ROOM = 2_000_000_000


def history():
    """Each transaction writes an item of its own."""
    return [f'{{"tx":{tx},"end":"commit","ops":[["w","i{tx}",1]]}}' for tx in range(MANY)]


def skew(first):
    """Two that read what the other writes."""
    return [f'{{"tx":{first},"end":"commit","ops":[["r","p",0],["w","q",1]]}}',
            f'{{"tx":{first + 1},"end":"commit","ops":[["w","p",1],["r","q",0]]}}']


def text_of(lines):
    return "".join(line + "\n" for line in lines).encode()


NO = "no G2-item\n{0} rw {1} \"p\" 0 1 lines {2} {3}\n{1} rw {0} \"q\" 0 1 lines {3} {2}\n"


def of_check():
    """Histories: name, words, text, answer, status."""
    yes = f"yes {MANY} committed 0 aborted\n"
    order = "---\n" + "".join(f"{tx}\n" for tx in range(MANY))
    no = NO.format(MANY, MANY + 1, MANY + 1, MANY + 2)
    plain = history()
    timed = [f'{line[:-1]},"begin":{2 * tx},"done":{2 * tx + 1}}}' for tx, line in enumerate(plain)]
    of_one = [f'{line[:-1]},"session":"s"}}' for line in plain]
    of_many = [f'{line[:-1]},"session":{tx}}}' for tx, line in enumerate(plain)]
    own = ",".join(f'["w","x",{version}],["r","x",{version}]' for version in range(1, MANY))
    yield "check, items", ["check"], text_of(plain), yes, 0
    yield "check, items and a cycle", ["check"], text_of(plain + skew(MANY)), no, 1
    yield "check, an order", ["check", "--order"], text_of(plain), yes + order, 0
    late = [f'{line[:-1]},"begin":{2 * MANY},"done":{2 * MANY + 1}}}' for line in skew(MANY)]
    yield "check --real-time, a cycle", ["check", "--real-time"], text_of(timed + late), no, 1
    yield "check --real-time", ["check", "--real-time", "--order"], text_of(timed), yes + order, 0
    for name, lines in (("one session", of_one), ("sessions", of_many)):
        yield f"check --sessions, {name}", ["check", "--sessions", "--order"], text_of(lines), yes + order, 0
    yield "check, operations", ["check"], text_of([f'{{"tx":1,"end":"commit","ops":[{own}]}}']), "yes 1 committed 0 aborted\n", 0
    members = "".join(f'"m{at}":{at},' for at in range(MANY))
    yield "check, members", ["check"], text_of([f'{{{members}"tx":1,"end":"commit","ops":[]}}']), "yes 1 committed 0 aborted\n", 0
    blanks = " " * MANY
    yield "check, blanks", ["check"], text_of([f'{{"tx":1,{blanks}"end":"commit","ops":[]}}']), "yes 1 committed 0 aborted\n", 0


def bundle():
    """A bundle in which each transaction reads x and writes it."""
    decisions = ",".join(f'{{"commit":{tx},"rank":{tx - 1}}}' for tx in range(1, MANY + 1))
    lines = ["sgt 1", f'{{"decisions":[{decisions}],"sites":1}}', "site 0", "item x=0"]
    for tx in range(1, MANY + 1):
        lines += [f"r{tx}[x]={tx - 1}", f"w{tx}[x]={tx}", f"c{tx}"]
    return lines + [f"final x={MANY}", "end"]


def of_bundles():
    lines = bundle()
    whole, logs = text_of(lines), text_of(lines[:1] + lines[2:])
    yes = f"yes {MANY} committed 0 refused 0 withdrawn\n"
    wrong = text_of(lines[:-2] + [f"final x={MANY + 1}", "end"])
    no = f"no line {len(lines) - 1} F16\n"
    for words in (["audit"], ["audit", "--workers", "4"], ["explain"]):
        yield " ".join(words), words, whole, yes, 0
        yield " ".join(words) + ", a no", words, wrong, no, 1
    yield "certify", ["certify"], logs, whole.decode(), 0
    yield "explain of logs", ["explain"], logs, f"a certificate exists: {yes[4:]}", 0


def talk():
    """A service without a folder: cut after cut, and replies."""
    asked, told = ["site 0 x=0"], []
    for cut in range(1, MANY + 1):
        asked += ["b", "d1[0.x]=1", "c1", "x"]
        told += ["b1", "d1[0.x]=1", "c1 yes", f"x {cut}"]
    yield "serve, cuts", ["serve"], text_of(asked), "".join(line + "\n" for line in told), 0


def cases():
    yield from of_check()
    yield from of_bundles()
    yield from talk()


def run(program, words, text, folder="."):
    return subprocess.run([program, *words], input=text, capture_output=True, timeout=WAIT, cwd=folder,
                          preexec_fn=lambda: resource.setrlimit(resource.RLIMIT_AS, (ROOM, ROOM)))


def differs(name, done, answer, status, is_front=False):
    """Whether something else was answered, which is told."""
    told = done.stdout.decode(errors="replace")
    if done.returncode == status and (told.startswith(answer) if is_front else told == answer):
        return 0
    print(f"{name}: status {done.returncode}, {told[:120]!r} {done.stderr.decode(errors='replace')[:120]!r}; wanted {status}, {answer[:120]!r}")
    return 1


def in_folder(program):
    """A service in whose folder many files stand, one with a name that is no UTF-8, goes on behind the greatest number."""
    with tempfile.TemporaryDirectory() as folder:
        for name in range(MANY):
            open(f"{folder}/other{name}", "w").close()
        open(os.path.join(folder.encode(), b"\xff"), "w").close()
        for number in (3, 9, 5):
            open(f"{folder}/{number:08}.sgt", "w").close()
        done = run(program, ["serve", "--bundles", folder], b"site 0 x=0\nb\nc1\nx\n")
        return differs("serve, names in the folder", done, "b1\nc1 yes\nx 10\n", 0)


def against(program):
    """An order of many, from outside."""
    with tempfile.TemporaryDirectory() as folder:
        with open(f"{folder}/order", "w") as file:
            file.writelines(f"{tx}\n" for tx in range(MANY - 1))
            file.write(" " * MANY + f"{MANY - 1}\n")
        done = run(program, ["check", "--against", "order"], text_of(history()), folder)
        return differs("check --against", done, "yes ", 0, is_front=True)


def by_many_reads(program):
    """A section that comes by many reads: nothing is written before all that was written is read."""
    lines = bundle()
    for words in (["audit"], ["audit", "--workers", "4"]):
        running = subprocess.Popen([program, *words], stdin=subprocess.PIPE, stdout=subprocess.PIPE, stderr=subprocess.PIPE)
        pipe = running.stdin.fileno()
        try:
            for at in range(0, len(lines), 3):
                os.write(pipe, text_of(lines[at:at + 3]))
                while fcntl.ioctl(pipe, termios.FIONREAD, b"    ") != b"\0\0\0\0" and running.poll() is None:
                    time.sleep(0)
        except OSError:
            pass
        out, err = running.communicate(timeout=WAIT)
        done = subprocess.CompletedProcess(words, running.returncode, out, err)
        if differs(" ".join(words) + ", line by line", done, f"yes {MANY} committed 0 refused 0 withdrawn\n", 0):
            return 1
    return 0


def main():
    if len(sys.argv) < 2 or "--help" in sys.argv:
        sys.exit(__doc__)
    program, wanted, wrong = os.path.abspath(sys.argv[1]), sys.argv[2:], 0
    for name, words, text, answer, status in cases():
        if not wanted or any(word in name for word in wanted):
            wrong += differs(name, run(program, words, text), answer, status, words[0] == "explain")
    for name, call in (("folder", in_folder), ("against", against), ("reads", by_many_reads)):
        if not wanted or name in wanted:
            wrong += call(program)
    print(f"{wrong} differ")
    sys.exit(wrong > 0)


if __name__ == "__main__":
    main()
