"""Records what transactions on MariaDB or MySQL read and write.

The table has a column `ver`, which each change counts up by `ver = last_insert_id(ver + 1)`: the server hands the new version
back with the answer, so no second query is needed. Run as a program it plays the bank of bank.py at each isolation level:

    python3 mariadb.py HOST PORT USER DATABASE
"""
import sys

import pymysql

import bank
from history import History

LEVELS = ["read uncommitted", "read committed", "repeatable read", "serializable"]
# lock wait timeout, deadlock, record changed since the snapshot
REFUSALS = {1205, 1213, 1020}


class Versions:
    """A connection whose transactions are recorded. Each row has its version beside its value."""

    def __init__(self, history, where, level, session):
        self.connection = pymysql.connect(**where)
        self.cursor = self.connection.cursor()
        self.cursor.execute(f"SET SESSION TRANSACTION ISOLATION LEVEL {level}")
        self.history, self.session = history, session

    def ask(self, text, *values):
        try:
            self.cursor.execute(text, values)
        except pymysql.err.OperationalError as refusal:
            if refusal.args[0] not in REFUSALS:
                raise
            raise bank.Refused from refusal

    def begin(self):
        self.connection.begin()
        self.transaction = self.history.begin(self.session)

    def read(self, item):
        self.ask("SELECT balance, ver FROM account WHERE name = %s", item)
        value, version = self.cursor.fetchone()
        self.transaction.read(item, version, value)
        return value

    def write(self, item, value):
        self.ask("UPDATE account SET balance = %s, ver = last_insert_id(ver + 1) WHERE name = %s", value, item)
        self.transaction.write(item, self.cursor.lastrowid, value)

    def commit(self):
        self.connection.commit()
        self.transaction.end(committed=True)

    def rollback(self):
        self.connection.rollback()
        self.transaction.end(committed=False)


def fill(where):
    connection = pymysql.connect(**where)
    cursor = connection.cursor()
    cursor.execute("DROP TABLE IF EXISTS account")
    cursor.execute(
        "CREATE TABLE account (name varchar(64) PRIMARY KEY, balance bigint NOT NULL, ver bigint NOT NULL DEFAULT 0) ENGINE=InnoDB"
    )
    cursor.executemany("INSERT INTO account (name, balance) VALUES (%s, %s)", [(it, bank.START) for it in bank.ACCOUNTS])
    connection.commit()
    connection.close()


def main():
    host, port, user, database = sys.argv[1:5]
    where = {"host": host, "port": int(port), "user": user, "database": database}

    def play(level, path, rounds):
        fill(where)
        history = History(path)
        clients = [Versions(history, where, level, f"client {n}") for n in range(bank.CLIENTS)]
        bank.run(clients, rounds)
        for client in clients:
            client.connection.close()
        history.close()

    bank.demonstrate(LEVELS, play)


main() if __name__ == "__main__" else None
