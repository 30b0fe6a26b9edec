"""Eight threads move money between accounts, each move a transaction that `sgt serve` certifies; and the bundles are audited.

Four threads move money between any two accounts, and four between the same two, so that many are refused and tried again. Meanwhile
the bank is cut into bundles. No move loses money: the sum is the same in the end. In a folder with bundles it goes on from the last one.

usage: python3 bank.py [FOLDER [MOVES]]       (SGT: the program, else `sgt`; MOVES of each thread)
"""
import os
import random
import sys
import tempfile
import threading
import time

from certifier import Certifier, audit, bundles_in, finals_of

ACCOUNTS = [f"account_{number}" for number in range(8)]
FIRST, THREADS = 1000, 8


def move(certifier, giver, taker, amount):
    """Moves money, where the giver has so much; how often it was tried."""
    tries = 0

    def does(tx):
        nonlocal tries
        tries += 1
        has = tx.read(giver)
        if has < amount:
            return tx.withdraw()
        tx.put(giver, has - amount)
        tx.put(taker, tx.read(taker) + amount)
        tx.add("moves", 1, site=1)

    certifier.run(does)
    return tries


def customer(certifier, number, moves, tries):
    """A thread's moves."""
    rng = random.Random(number)
    names = ACCOUNTS if number < THREADS // 2 else ACCOUNTS[:2]
    for _ in range(moves):
        giver, taker = rng.sample(names, 2)
        tries[number] += move(certifier, giver, taker, rng.randrange(1, 200))


def run(folder, moves):
    """The sum of the accounts at the end, and how many transactions were refused."""
    tries = [0] * THREADS
    with Certifier.resume(folder, [dict.fromkeys(ACCOUNTS, FIRST), {"moves": 0}], audited=True) as certifier:
        threads = [threading.Thread(target=customer, args=(certifier, number, moves, tries)) for number in range(THREADS)]
        for thread in threads:
            thread.start()
        while any(thread.is_alive() for thread in threads):
            time.sleep(0.1)
            certifier.cut()
        for thread in threads:
            thread.join()
        total = certifier.run(lambda tx: sum(tx.read(account) for account in ACCOUNTS))
    return total, sum(tries) - THREADS * moves


def main():
    if "--help" in sys.argv:
        sys.exit(__doc__)
    moves = int(sys.argv[2]) if len(sys.argv) > 2 else 250
    with tempfile.TemporaryDirectory() as folder:
        folder = sys.argv[1] if len(sys.argv) > 1 else folder
        is_new = not os.path.isdir(folder) or not bundles_in(folder)
        total, refused = run(folder, moves)
        bundles = bundles_in(folder)
        finals = finals_of(os.path.join(folder, bundles[-1]))[0]
        said = audit(folder, bundles)
    print(f"{THREADS * moves} moves, {refused} refused and tried again, in {len(bundles)} bundles")
    print(f"{total} of {FIRST * len(ACCOUNTS)} are there")
    print(*said, sep="\n")
    has_all = f" {refused} refused " in said[0] or not is_new
    return 0 if total == sum(finals.values()) == FIRST * len(ACCOUNTS) and has_all else 1


if __name__ == "__main__":
    sys.exit(main())
