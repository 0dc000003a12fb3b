"""The databases of the demonstration: a table with a row for each version of a key, in SQLite or in PostgreSQL, and the machine's clock."""
import contextlib
import glob
import os
import sqlite3
import threading
import time

from harness import postgres
from harness.postgres import Cluster

SETTINGS = {"fsync": "off", "synchronous_commit": "off", "shared_buffers": "16MB"}
FAKETIME = os.environ.get("LIBFAKETIME", "/usr/lib/*/faketime/libfaketime.so.1")
CLOCK = "create function clock() returns bigint language sql as 'select (extract(epoch from clock_timestamp()) * 1000000000)::bigint'"
TABLE = "create table versions (key text, stamp bigint, value text, primary key (key, stamp))"
WRITE = "insert into versions values (?, ?, ?)"
WRITE_BY_CLOCK = "insert into versions values (?, clock(), ?) returning stamp"
NEWEST = "select stamp from versions where key = ? order by stamp desc limit 1"
READ = "select value from versions where key = ? and stamp <= ? order by stamp desc limit 1"


class Place:
    """A machine of the database."""

    def __init__(self, name):
        self.name, self.own = name, threading.local()
        self.changing = threading.Lock()  # whoever writes holds it
        self.last = 0  # the last time of its hybrid logical clock

    def connection(self):
        """The connection of this thread."""
        if not hasattr(self.own, "connection"):
            self.own.connection = self.connect()
        return self.own.connection

    def leave(self):
        """Closes the connection of this thread."""
        if hasattr(self.own, "connection"):
            self.own.connection.close()
            del self.own.connection

    def clock(self):
        """The clock of this machine, in nanoseconds."""
        return int(self.execute("select clock()")[0])

    @contextlib.contextmanager
    def transaction(self):
        """What is written in the block is there for others when it ends."""
        self.execute("begin")
        try:
            yield
        except BaseException:
            self.execute("rollback")
            raise
        self.execute("commit")

    def newest(self, key):
        """The stamp of the newest version that is there; 0 where there is none."""
        row = self.execute(NEWEST, key)
        return int(row[0]) if row else 0

    def write(self, key, value, stamp):
        self.execute(WRITE, key, stamp, value)

    def write_by_clock(self, key, value):
        """Writes a value under the database's own time; its stamp."""
        return int(self.execute(WRITE_BY_CLOCK, key, value)[0])

    def read(self, key, stamp):
        """The value of the key in the snapshot at this stamp."""
        row = self.execute(READ, key, stamp)
        return row and row[0]


class SqlitePlace(Place):
    """A file of SQLite, whose function `clock` is ahead by so many nanoseconds."""

    def __init__(self, name, path, ahead):
        super().__init__(name)
        self.file, self.ahead = path, ahead
        self.execute(TABLE)

    def connect(self):
        connection = sqlite3.connect(self.file, isolation_level=None, timeout=20)
        connection.execute("pragma journal_mode = wal")
        connection.execute("pragma synchronous = off")
        connection.create_function("clock", 0, lambda: time.time_ns() + self.ahead)
        return connection

    def execute(self, text, *values):
        return self.connection().execute(text, values).fetchone()

    def close(self):
        self.leave()


class ServerPlace(Place):
    """A server of PostgreSQL 15 with data of its own in a room for all of them."""

    def __init__(self, name, cluster, *statements):
        super().__init__(name)
        self.cluster = cluster
        try:
            for text in statements:
                self.execute(text)
        except BaseException:
            self.close()
            raise

    def connect(self):
        return self.cluster.connect()

    def execute(self, text, *values):
        first, *parts = text.split("?")
        rows = self.connection().run(first + "".join(quoted(value) + part for value, part in zip(values, parts)))
        return rows[0] if rows else None

    def close(self):
        self.leave()
        self.cluster.close()


class PostgresPlace(ServerPlace):
    """One under libfaketime if its clock is ahead."""

    def __init__(self, name, path, ahead):
        shifted = []
        if ahead:
            shifted = ["env", f"LD_PRELOAD={glob.glob(FAKETIME)[0]}", f"FAKETIME=+{ahead / 1e9:.6f}", "FAKETIME_DONT_FAKE_MONOTONIC=1"]
        room, folder = os.path.split(path)
        cluster = Cluster(postgres.installed_here(room), room, folder, "", behind=shifted, **SETTINGS, shared_preload_libraries="")
        super().__init__(name, cluster, TABLE, CLOCK)


class ExtensionPlace(ServerPlace):
    """One that stamps each commit, by the extension of clients/postgres and the machine with this shared file. Its rows have no column for
    that."""

    def __init__(self, name, installed, room, shared):
        cluster = Cluster(installed, room, f"extension-{name}", shared, **SETTINGS, **{"truetime.stamp": "all"})
        super().__init__(name, cluster, "create extension truetime", "create table versions (key text, value text)",
                         "create index on versions (key)")

    def insert(self, key, value):
        """Commits a value; its stamp, which came with the answer."""
        self.execute("insert into versions values (?, ?)", key, value)
        return self.connection().last_commit()

    def latest(self):
        return int(self.execute("select latest from truetime.now()")[0])

    def make_readable(self, moment):
        self.execute("select truetime.make_readable(?)", moment)

    def newest(self, key):
        return int(self.execute("select coalesce(max(truetime.stamp_of(xmin)), 0) from versions where key = ?", key)[0])

    def read(self, key, stamp):
        row = self.execute("select value from versions where key = ? and truetime.stamp_of(xmin) <= ? "
                           "order by truetime.stamp_of(xmin) desc limit 1", key, stamp)
        return row and row[0]


def quoted(value):
    return str(value) if isinstance(value, int) else "'" + value.replace("'", "''") + "'"


def missing_for_postgres():
    """Debian's packages that PostgresPlace needs and that are not here."""
    missing = []
    if not os.path.exists(os.path.join(os.path.dirname(postgres.CONFIG), "initdb")):
        missing.append("postgresql-15")
    if not glob.glob(FAKETIME):
        missing.append("libfaketime")
    return missing
