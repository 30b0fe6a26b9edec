"""A recorded program on PostgreSQL, whole: clients that pay from two accounts, each attempt a transaction of the history.

    python3 pay.py "dbname=bank" [FILE [CLIENTS [PAYMENTS [LEVEL]]]]     (it makes the table `account` anew)
    sgt check FILE

LEVEL is "read committed", "repeatable read" or "serializable". It prints how many payments were committed; where a
client failed the status is 1.
"""
import random
import sys
import threading

import psycopg2
from psycopg2 import errors, extensions

from history import History


def attempt(history, client, connection, name, amount):
    with history.begin(client, "pay") as it:           # aborted where it raises
        cursor = connection.cursor()
        cursor.execute("SELECT balance, version FROM account WHERE name = %s", (name,))
        balance, version = cursor.fetchone()
        it.read(name, version, balance)
        cursor.execute("UPDATE account SET balance = %s, version = version + 1 WHERE name = %s RETURNING version",
                       (balance - amount, name))
        for (version,) in cursor:
            it.write(name, version, balance - amount)
        failed = connection.info.transaction_status == extensions.TRANSACTION_STATUS_INERROR
        connection.commit()                            # raises nothing where the server answers ROLLBACK
        it.end(committed=not failed)


def pay(history, client, connection, name, amount):
    while True:
        try:
            return attempt(history, client, connection, name, amount)
        except (errors.SerializationFailure, errors.DeadlockDetected):
            connection.rollback()


def make_table(where):
    connection = psycopg2.connect(where)
    cursor = connection.cursor()
    cursor.execute("DROP TABLE IF EXISTS account")
    cursor.execute("CREATE TABLE account (name text PRIMARY KEY, balance bigint NOT NULL)")
    cursor.execute("INSERT INTO account VALUES ('alice', 1000), ('bob', 1000)")
    # rows that are there start with version 0, and those that are inserted from now on are written with version 1
    cursor.execute("ALTER TABLE account ADD version bigint NOT NULL DEFAULT 0")
    cursor.execute("ALTER TABLE account ALTER version SET DEFAULT 1")
    connection.commit()
    connection.close()


def main():
    if len(sys.argv) < 2:
        sys.exit(__doc__)
    where, path, clients, payments, level = sys.argv[1:] + ["pay.history", "4", "25", "SERIALIZABLE"][len(sys.argv) - 2:]
    make_table(where)
    history = History(path)
    paid = []

    def run(number):
        rng = random.Random(number)
        connection = psycopg2.connect(where)
        connection.set_session(isolation_level=level)
        for _ in range(int(payments)):
            pay(history, f"client {number}", connection, rng.choice(["alice", "bob"]), rng.randrange(1, 10))
            paid.append(number)
        connection.close()

    threads = [threading.Thread(target=run, args=(number,)) for number in range(int(clients))]
    for thread in threads:
        thread.start()
    for thread in threads:
        thread.join()
    history.close()
    print(f"{len(paid)} payments, in {path}")
    if len(paid) < int(clients) * int(payments):
        sys.exit(f"{int(clients) * int(payments)} were wanted: a client failed")


main() if __name__ == "__main__" else None
