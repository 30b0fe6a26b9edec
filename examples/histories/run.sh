#!/bin/sh
# Starts PostgreSQL and MariaDB on the loopback, in a folder that goes at the end, plays the bank on them and on SQLite at each
# isolation level, and judges what was recorded by `sgt check`, or bench/compare/history/plain.py where there is no `sgt`. A system that isn't installed is left out, and said so.
# Where `sgt` is on the PATH (or in the variable SGT) it explains each anomaly. It wants of Debian's packages: postgresql, mariadb-server, python3-psycopg2,
# python3-pymysql. As root it runs the servers as the users postgres and mysql.
set -eu
export PYTHONDONTWRITEBYTECODE=1
here=$(cd "$(dirname "$0")" && pwd)
python=${PYTHON:-/usr/bin/python3}
room=$(mktemp -d)
chmod 755 "$room"
stop=
trap 'eval "$stop"; rm -rf "$room"' EXIT

# as USER COMMAND..: runs the command as that user where this is root
as() {
    user=$1
    shift
    if [ "$(id -u)" = 0 ]; then (cd "$room" && exec setpriv --reuid "$user" --regid "$user" --init-groups "$@"); else "$@"; fi
}

echo '== SQLite'
mkdir "$room/sqlite"
(cd "$room/sqlite" && "$python" "$here/sqlite.py" "$room/sqlite")

bin=$(ls -d /usr/lib/postgresql/*/bin 2>/dev/null | tail -n 1)
if [ -n "$bin" ] && "$python" -c 'import psycopg2' 2>/dev/null; then
    port=$((20000 + $$ % 10000))
    mkdir "$room/postgres" "$room/played"
    [ "$(id -u)" != 0 ] || chown postgres "$room/postgres"
    as postgres "$bin/initdb" -D "$room/postgres/data" -U bank -A trust > "$room/postgres.log"
    as postgres "$bin/pg_ctl" -D "$room/postgres/data" -w -l "$room/postgres/log" start -o "-p $port -k $room/postgres \
        -c listen_addresses=127.0.0.1 -c track_commit_timestamp=on -c fsync=off -c deadlock_timeout=20ms" > /dev/null
    stop="as postgres $bin/pg_ctl -D $room/postgres/data -m immediate stop > /dev/null; $stop"
    for way in '' --unchanged; do
        echo "== PostgreSQL $("$bin/postgres" --version | sed 's/.* \([0-9.]*\) .*/\1/') $way"
        (cd "$room/played" && "$python" "$here/postgres.py" "host=127.0.0.1 port=$port user=bank dbname=postgres" $way)
    done
else
    echo 'PostgreSQL or python3-psycopg2 is not installed: left out'
fi

server=$(command -v mariadbd || ls /usr/sbin/mariadbd 2>/dev/null || true)
if [ -n "$server" ] && "$python" -c 'import pymysql' 2>/dev/null; then
    port=$((30000 + $$ % 10000))
    mkdir -p "$room/mariadb" "$room/played"
    [ "$(id -u)" != 0 ] || chown mysql "$room/mariadb"
    as mysql mariadb-install-db --no-defaults --datadir="$room/mariadb/data" --auth-root-authentication-method=normal > "$room/mariadb.log" 2>&1
    as mysql "$server" --no-defaults --datadir="$room/mariadb/data" --socket="$room/mariadb/socket" --port=$port \
        --bind-address=127.0.0.1 --innodb-flush-log-at-trx-commit=0 --pid-file="$room/mariadb/pid" > "$room/mariadb/log" 2>&1 &
    stop="kill \$(cat $room/mariadb/pid) 2>/dev/null && wait; $stop"
    for _ in 1 2 3 4 5 6 7 8 9 10 11 12 13 14 15 16 17 18 19 20; do
        "$python" -c "import pymysql; pymysql.connect(host='127.0.0.1', port=$port, user='root')" 2>/dev/null && break
        sleep 1
    done
    "$python" -c "import pymysql; pymysql.connect(host='127.0.0.1', port=$port, user='root').cursor().execute('CREATE DATABASE bank')"
    echo "== MariaDB $("$server" --version | sed 's/.*Ver \([0-9.]*\).*/\1/')"
    (cd "$room/played" && "$python" "$here/mariadb.py" 127.0.0.1 $port root bank)
else
    echo 'MariaDB or python3-pymysql is not installed: left out'
fi
