"""Records what transactions on PostgreSQL read and write.

Two ways. `Versions`: the table has a column `version`, which each change counts up. `Unchanged`: the table stays as it is; a row's
`xmin` says which transaction wrote it, and the server's commit timestamps (`track_commit_timestamp = on`) in what order these
committed. Run as a program it plays the bank of bank.py at each isolation level:

    python3 postgres.py "host=127.0.0.1 dbname=bank user=me" [--unchanged]

Where a run of `Unchanged` ended before its versions were told, they are told behind it, from FILE.raw:

    python3 postgres.py "host=127.0.0.1 dbname=bank user=me" --close FILE
"""
import json
import sys

import psycopg2
from psycopg2 import errors, extensions

import bank
from history import History

LEVELS = {
    "read committed": extensions.ISOLATION_LEVEL_READ_COMMITTED,
    "repeatable read": extensions.ISOLATION_LEVEL_REPEATABLE_READ,
    "serializable": extensions.ISOLATION_LEVEL_SERIALIZABLE,
}


class Versions:
    """A connection whose transactions are recorded. Each row has its version beside its value."""

    def __init__(self, history, where, level, session):
        self.connection = psycopg2.connect(where)
        self.connection.set_session(isolation_level=LEVELS[level])
        self.cursor = self.connection.cursor()
        self.history, self.session = history, session

    def ask(self, text, *values):
        try:
            self.cursor.execute(text, values)
        except (errors.SerializationFailure, errors.DeadlockDetected) as refusal:
            raise bank.Refused from refusal
        return self.cursor.fetchone()

    def begin(self):
        self.transaction = self.history.begin(self.session)

    def read(self, item):
        value, version = self.ask("SELECT balance, version FROM account WHERE name = %s", item)
        self.transaction.read(item, version, value)
        return value

    def write(self, item, value):
        (version,) = self.ask(
            "UPDATE account SET balance = %s, version = version + 1 WHERE name = %s RETURNING version", value, item
        )
        self.transaction.write(item, version, value)

    def commit(self):
        # behind an error that was passed over the server answers COMMIT with ROLLBACK, and psycopg2 raises nothing
        has_failed = self.connection.info.transaction_status == extensions.TRANSACTION_STATUS_INERROR
        try:
            self.connection.commit()
        except errors.SerializationFailure as refusal:
            raise bank.Refused from refusal
        self.transaction.end(committed=not has_failed)

    def rollback(self):
        self.connection.rollback()
        self.transaction.end(committed=False)


class Unchanged(Versions):
    """The same for a table without a column for versions. The versions are told behind the run, by `Times`. INSERT tells the xmin of its
    row as UPDATE does. DELETE would tell that of the row that goes: take pg_current_xact_id()::xid::text::bigint there."""

    def begin(self):
        super().begin()
        self.own, self.written = None, {}

    def read(self, item):
        value, writer = self.ask("SELECT balance, xmin::text::bigint FROM account WHERE name = %s", item)
        self.transaction.read(item, (writer, self.written.get(item, 0) if writer == self.own else None), value)
        return value

    def write(self, item, value):
        (self.own,) = self.ask(
            "UPDATE account SET balance = %s WHERE name = %s RETURNING xmin::text::bigint", value, item
        )
        self.written[item] = self.written.get(item, 0) + 1
        self.transaction.write(item, (self.own, self.written[item]), value)


class Times(History):
    """A history of `Unchanged`: each line goes to PATH.raw, and `close` writes PATH, once the server has told in what order the writers
    committed. What was written before it was begun is the value at the start, so none but recorded transactions may be open then.

    A version is 1024 times the writer's place in that order, and how often the writer has written the item by then."""

    def __init__(self, path, where):
        cursor = psycopg2.connect(where).cursor()
        cursor.execute("SHOW track_commit_timestamp")
        if cursor.fetchone() != ("on",):
            raise RuntimeError("track_commit_timestamp is off: set it to on in postgresql.conf, and restart the server")
        cursor.execute("SELECT pg_snapshot_xmax(pg_current_snapshot())::xid::text::bigint")
        super().__init__(path + ".raw")
        self.path, self.where = path, where
        self.add(cursor.fetchone()[0])

    def close(self):
        super().close()
        tell_versions(self.path, self.where)


def tell_versions(path, where):
    """Writes the history from PATH.raw."""
    with open(path + ".raw", encoding="utf-8") as file:
        start, *lines = (json.loads(line) for line in file if line.endswith("\n"))
    last, read = {}, {}
    for line in lines:
        for kind, item, (writer, times), *_ in line["ops"]:
            if kind == "w":
                last[writer, item] = times
            elif writer > 2 and (writer - start) % 2**32 < 2**31:
                read[writer] = item
    known = {writer for writer, _ in last}
    for writer in sorted(read.keys() - known):
        print(f"transaction {writer} wrote {read[writer]}, and was not recorded: its version is told as unwritten", file=sys.stderr)
    places = {writer: place for place, writer in enumerate(in_commit_order(where, known | read.keys()), 1)}
    history = History(path)
    for line in lines:
        for operation in line["ops"]:
            writer, times = operation[2]
            times = last.get((writer, operation[1]), 0) if times is None else times
            operation[2] = 1024 * places[writer] + times if writer in places else 0
        history.add(line)
    history.close()


def in_commit_order(where, writers):
    """Committed writers in the order of their commits, and behind them those that did not commit."""
    cursor = psycopg2.connect(where).cursor()
    cursor.execute("SELECT x, pg_xact_commit_timestamp(x::text::xid) FROM unnest(%s::bigint[]) AS x", [sorted(writers)])
    told = cursor.fetchall()
    committed = sorted((time, writer) for writer, time in told if time is not None)
    return [writer for _, writer in committed] + [writer for writer, time in told if time is None]


def fill(where, column):
    """Makes the table anew."""
    connection = psycopg2.connect(where)
    cursor = connection.cursor()
    cursor.execute("DROP TABLE IF EXISTS account")
    cursor.execute(f"CREATE TABLE account (name text PRIMARY KEY, balance bigint NOT NULL{column})")
    cursor.executemany("INSERT INTO account (name, balance) VALUES (%s, %s)", [(it, bank.START) for it in bank.ACCOUNTS])
    connection.commit()
    connection.close()


def main():
    where, unchanged = sys.argv[1], "--unchanged" in sys.argv
    if sys.argv[2:3] == ["--close"]:
        return tell_versions(sys.argv[3], where)

    def play(level, path, rounds):
        fill(where, "" if unchanged else ", version bigint NOT NULL DEFAULT 0")
        history = Times(path, where) if unchanged else History(path)
        kind = Unchanged if unchanged else Versions
        clients = [kind(history, where, level, f"client {n}") for n in range(bank.CLIENTS)]
        bank.run(clients, rounds)
        for client in clients:
            client.connection.close()
        history.close()

    bank.demonstrate(LEVELS, play)


main() if __name__ == "__main__" else None
