"""A bank with eight clients, as a load for the recorders beside this file, and a judge behind it.

Accounts stand in pairs. A client moves money between two accounts, or takes money out of one account of a pair as long as
the pair together has enough: the first loses an update where two do it at once, the second skews."""
import collections
import os
import random
import shutil
import subprocess
import sys
import threading

ACCOUNTS = [f"account{n}" for n in range(6)]
START = 100
CLIENTS = 8


class Refused(Exception):
    """The database didn't carry out an operation or a commit, and rolls the transaction back."""


def work(connection, seed, rounds):
    """One client: `connection` has begin, read, write, commit and rollback, and records what it does."""
    rng = random.Random(seed)
    for _ in range(rounds):
        connection.begin()
        try:
            pair = rng.randrange(len(ACCOUNTS) // 2) * 2
            one, other = ACCOUNTS[pair : pair + 2] if rng.random() < 0.5 else rng.sample(ACCOUNTS, 2)
            x, y = connection.read(one), connection.read(other)
            if rng.random() < 0.5:
                connection.write(one, x - 1)
                connection.write(other, y + 1)
            elif x + y >= 5:
                connection.write(one, x - 5)
            if rng.random() < 0.1:
                connection.rollback()
            else:
                connection.commit()
        except Refused:
            connection.rollback()


def run(connections, rounds):
    """Eight clients at once, each with a connection of its own."""
    threads = [threading.Thread(target=work, args=(it, n, rounds)) for n, it in enumerate(connections)]
    for thread in threads:
        thread.start()
    for thread in threads:
        thread.join()


HERE = os.path.dirname(os.path.abspath(__file__))
PLAIN = os.path.join(HERE, "../../bench/compare/history/plain.py")


def program():
    """The path of `sgt`: that of the variable SGT, the one on the PATH, or this checkout's; or None."""
    built = os.path.join(HERE, "../../crates/sgt/out/sgt")
    return os.environ.get("SGT") or shutil.which("sgt") or (built if os.path.exists(built) else None)


def judge(title, path):
    """Prints what is said of the history, and gives the first line of it."""
    judge_of = [program(), "check"] if program() else [sys.executable, PLAIN]
    said = subprocess.run([*judge_of, path], capture_output=True, text=True)
    print(f"{title}: {said.stdout.rstrip()}")
    if said.stderr or said.returncode > 1:
        print(said.stderr.rstrip(), file=sys.stderr)
    verdict = said.stdout.split("\n")[0]
    if verdict.startswith("no ") and program():
        told = subprocess.run([program(), "explain", verdict[3:]], capture_output=True, text=True)
        print("".join(f"    {line}\n" for line in told.stdout.splitlines()), end="")
    sys.stdout.flush()
    return verdict


def demonstrate(levels, play, rounds=40, runs=3):
    """Plays the bank `runs` times at each level by `play(level, path, rounds)`, judges each history, and prints a table."""
    found = {}
    for level in levels:
        counts = found[level] = collections.Counter()
        for number in range(1, runs + 1):
            path = f"{level.replace(' ', '_')}.{number}.history"
            play(level, path, rounds)
            verdict = judge(f"{level}, run {number}", path)
            counts["yes" if verdict.startswith("yes ") else verdict] += 1
    print()
    for level, counts in found.items():
        print(f"{level:28}" + ", ".join(f"{count} x {what}" for what, count in counts.most_common()))
