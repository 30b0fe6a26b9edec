"""Records what transactions on SQLite read and write.

A table of one row counts all changes, by a trigger: a change leaves the next number in its row as the version. Both happen in one
statement, so that no other change can come between. Run as a program it plays the bank of bank.py by `begin immediate`, by `begin`,
with no transaction at all, and by `begin` where the clients share a cache and read what isn't committed:

    python3 sqlite.py FOLDER
"""
import os
import sqlite3
import sys

import bank
from history import History

WAYS = ["begin immediate", "begin", "no transaction", "begin, read uncommitted"]


class Versions:
    """A connection whose transactions are recorded. Each row has its version beside its value."""

    def __init__(self, history, path, way, session):
        self.connection = connect(path, way)
        self.word = None if way == "no transaction" else way.split(",")[0]
        self.history, self.session = history, session

    def ask(self, text, *values):
        try:
            return self.connection.execute(text, values).fetchall()
        except sqlite3.OperationalError as refusal:
            raise bank.Refused from refusal

    def begin(self):
        self.transaction = self.history.begin(self.session)
        while self.word:
            try:
                self.ask(self.word)
                return
            except bank.Refused:
                pass

    def read(self, item):
        ((value, version),) = self.ask("SELECT balance, version FROM account WHERE name = ?", item)
        self.transaction.read(item, version, value)
        return value

    def write(self, item, value):
        ((version,),) = self.ask(
            "UPDATE account SET balance = ?, version = 1 + (SELECT last FROM counter) WHERE name = ? RETURNING version", value, item
        )
        self.transaction.write(item, version, value)

    def commit(self):
        if self.word:
            self.ask("commit")
        self.transaction.end(committed=True)

    def rollback(self):
        if self.connection.in_transaction:
            self.connection.execute("rollback")
        # (with no transaction, what was written stays)
        self.transaction.end(committed=not self.word)


def connect(path, way):
    if way.endswith("uncommitted"):
        connection = sqlite3.connect(f"file:{path}?cache=shared", uri=True, isolation_level=None, check_same_thread=False)
        connection.execute("PRAGMA read_uncommitted = 1")
    else:
        connection = sqlite3.connect(path, isolation_level=None, check_same_thread=False, timeout=20)
    return connection


def fill(path, way):
    connection = connect(path, way)
    connection.execute("PRAGMA journal_mode = WAL")
    connection.execute("PRAGMA synchronous = OFF")
    connection.execute("DROP TABLE IF EXISTS account")
    connection.execute("DROP TABLE IF EXISTS counter")
    connection.execute("CREATE TABLE counter (last integer NOT NULL)")
    connection.execute("CREATE TABLE account (name text PRIMARY KEY, balance integer NOT NULL, version integer NOT NULL)")
    connection.execute("INSERT INTO counter VALUES (0)")
    connection.execute(
        "CREATE TRIGGER counted BEFORE UPDATE OF balance ON account BEGIN UPDATE counter SET last = last + 1; END"
    )
    connection.executemany("INSERT INTO account VALUES (?, ?, 0)", [(it, bank.START) for it in bank.ACCOUNTS])
    connection.close()


def main():
    if len(sys.argv) != 2 or "--help" in sys.argv:
        sys.exit(__doc__)
    file = os.path.join(sys.argv[1], "bank.db")

    def play(way, path, rounds):
        fill(file, way)
        history = History(path)
        clients = [Versions(history, file, way, f"client {n}") for n in range(bank.CLIENTS)]
        bank.run(clients, rounds)
        for client in clients:
            client.connection.close()
        history.close()

    bank.demonstrate(WAYS, play)


main() if __name__ == "__main__" else None
