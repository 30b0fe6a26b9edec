"""A store of two items that writes its log so that it can be audited, certifies by hand, and audits itself.

Transactions run side by side, each with private writes. A transaction commits only where nobody has written since what it read,
and is withdrawn otherwise: so the order in which they commit is a serial order, and a transaction's rank is its place in it.

usage: python3 store.py [careless]      (careless: a store that forgets to compare what was read)
"""
import json
import sys

import sgt


class Store:
    """One site. `log` has its entries in the order in which they happened, and `decisions` what was decided of each transaction."""

    def __init__(self, items, is_careless=False):
        self.initial = dict(items)
        self.values = dict(items)
        self.versions = dict.fromkeys(items, 0)
        self.log, self.decisions, self.commits = [], [], 0
        self.begun, self.is_careless = 0, is_careless

    def begin(self):
        self.begun += 1
        return Transaction(self, self.begun)

    def decide(self, tx, writes, is_committed):
        """Writes the end of a transaction: one block of the log, with nothing of another transaction between."""
        if not is_committed:
            self.log.append(f"a{tx}")
            self.decisions.append({"withdraw": tx})
            return
        for item, value in writes.items():
            self.log.append(f"w{tx}[{item}]={value}")
            self.values[item] = value
            self.versions[item] += 1
        self.log.append(f"c{tx}")
        self.decisions.append({"commit": tx, "rank": self.commits})
        self.commits += 1

    def bundle(self):
        """The log with its certificate, as docs/FORMAT.md has them. Each transaction has ended."""
        certificate = {"decisions": self.decisions, "sites": 1}
        return "".join(line + "\n" for line in [
            "sgt 1",
            json.dumps(certificate, separators=(",", ":"), sort_keys=True),
            "site 0",
            *(f"item {item}={value}" for item, value in sorted(self.initial.items())),
            *self.log,
            *(f"final {item}={value}" for item, value in sorted(self.values.items())),
            "end",
        ]).encode()


class Transaction:
    """Reads are logged as they happen, the first of each item alone; writes are private until the commit."""

    def __init__(self, store, tx):
        self.store, self.tx = store, tx
        self.reads, self.versions, self.writes = {}, {}, {}

    def read(self, item):
        if item in self.writes:
            return self.writes[item]
        if item not in self.reads:
            self.reads[item] = self.store.values[item]
            self.versions[item] = self.store.versions[item]
            self.store.log.append(f"r{self.tx}[{item}]={self.reads[item]}")
        return self.reads[item]

    def write(self, item, value):
        self.writes[item] = value

    def commit(self):
        store = self.store
        is_current = all(store.versions[item] == version for item, version in self.versions.items())
        is_committed = store.is_careless or is_current
        store.decide(self.tx, self.writes, is_committed)
        return is_committed


def move(transaction, amount):
    """Moves money from a to b, where a has so much."""
    a, b = transaction.read("a"), transaction.read("b")
    if amount <= a:
        transaction.write("a", a - amount)
        transaction.write("b", b + amount)


def main():
    store = Store({"a": 10, "b": 0}, is_careless=sys.argv[1:] == ["careless"])
    first, second = store.begin(), store.begin()
    move(first, 3)
    move(second, 4)
    first.commit()
    while not second.commit():
        second = store.begin()
        move(second, 4)
    bundle = store.bundle()
    sys.stdout.write(bundle.decode())
    print(sgt.audit(bundle))


if __name__ == "__main__":
    main()
