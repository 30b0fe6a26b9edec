"""Writes a history: a line a transaction, which says what it read and wrote, by version, and how it ended.

    history = History("bank.history")
    with history.begin("client 1", "pay") as transaction:     # where it raises, it is recorded as aborted
        transaction.read("alice", version=3, value=50)
        transaction.write("alice", version=4, value=40)
        transaction.end(committed=True)                       # as the database said
    history.close()
"""
import fcntl
import json
import math
import threading
import time
from decimal import Decimal

NOTHING = object()


def plain(value):
    """The value as a history can have it: a string, a whole number, true, false or null. Of any other its text (so 5.0 is 5)."""
    if isinstance(value, (float, Decimal)) and math.isfinite(value):
        exact = Decimal(str(value))
        value = int(exact) if exact == exact.to_integral_value() else format(exact, "f").rstrip("0")
    is_plain = value is None or isinstance(value, (str, bool)) or isinstance(value, int) and -2**63 <= value < 2**64
    return value if is_plain else str(value)


class History:
    """The lines of a history. Any number of threads may write to it. A line is in the file once its transaction has ended.

    A process has a file of its own, and its name in the ids: History(f"bank.{pid}", process=pid). `cat` joins the files, and
    `--real-time` takes them together where all ran on one machine."""

    def __init__(self, path, process=None):
        self.file = open(path, "a", encoding="utf-8")
        try:
            fcntl.flock(self.file, fcntl.LOCK_EX | fcntl.LOCK_NB)
        except BlockingIOError:
            raise RuntimeError(f"{path}: another recorder writes it: give each process a file of its own, and its name") from None
        self.file.truncate(0)
        self.lock = threading.Lock()
        self.begun = 0
        self.front = "T-" if process is None else f"{process}/T-"

    def begin(self, session=None, name=None):
        """Begins a transaction: each attempt is one. A session is one client, whose transactions follow one another; the name says what
        the transaction does, and answers show it ("T-3 pay")."""
        with self.lock:
            self.begun += 1
            number = self.begun
        return Transaction(self, f"{self.front}{number}" if name is None else f"{self.front}{number} {name}", session)

    def add(self, line):
        text = json.dumps(line, separators=(",", ":"), ensure_ascii=False)
        with self.lock:
            self.file.write(text + "\n")
            self.file.flush()

    def close(self):
        self.file.close()


class Transaction:
    """What one transaction did. An operation is told when the database has answered it; one that failed is not told."""

    def __init__(self, history, name, session):
        self.history, self.session, self.ops, self.is_over = history, session, [], False
        self.line = {"tx": name, "end": "abort", "ops": self.ops, "begin": time.monotonic_ns()}
        if session is not None:
            self.line["session"] = session

    def read(self, item, version, value=NOTHING):
        """It read this version of the item: 0 is the one at the start."""
        self.tell("r", item, version, value)

    def write(self, item, version, value=NOTHING):
        """It wrote this version, which is greater than the one before it."""
        if version == 0:
            raise ValueError(f"{item}: version 0 is the value at the start, which nobody wrote: rows that are inserted begin with 1")
        self.tell("w", item, version, value)

    def tell(self, kind, item, version, value):
        if self.is_over:
            raise RuntimeError(f"{self.line['tx']} has ended: begin another transaction for each attempt")
        if not isinstance(version, tuple):      # (those of postgres.py's Times are told later)
            version = int(version)
        self.ops.append([kind, plain(item), version] if value is NOTHING else [kind, plain(item), version, plain(value)])

    def end(self, committed):
        """The database has said that it committed, or that it did not."""
        if self.is_over:
            raise RuntimeError(f"{self.line['tx']} has ended already: begin another transaction for each attempt")
        self.is_over = True
        self.line["end"], self.line["done"] = "commit" if committed else "abort", time.monotonic_ns()
        self.history.add(self.line)

    def __enter__(self):
        return self

    def __exit__(self, kind, why, trace):
        if not self.is_over:
            self.end(committed=False)
