#!/usr/bin/python3
"""Merges the changes of several PostgreSQL servers in the order of their stamps.

Each server has the extension truetime, a publication and a logical slot of pgoutput. Its commits come in the order of their commit records,
which is not that of stamps, so each is held until every server has written a watermark at or above its stamp: below that no other can come.

As a program it writes a line of JSON for each commit, and asks the servers for watermarks. As a module: `follow` for servers, `merge` for
streams of messages from elsewhere. Servers are numbered from 0; stamps are nanoseconds.
"""
import argparse
import collections
import heapq
import itertools
import json
import select
import struct
import sys
import time
import typing

WATERMARK, ORIGIN = "truetime.watermark", "truetime/"
AT_ONCE = 1000  # messages of a server before it is the next one's turn
KINDS = {b"I": "insert", b"U": "update", b"D": "delete"}


class Change(typing.NamedTuple):
    """What was done to a row, or to a whole table by a truncate. Values are texts, or None. A large one that an update left as it was is
    missing in `row`; `old` has what the table's replica identity says of the row before."""
    kind: str
    table: str
    row: typing.Optional[dict] = None
    old: typing.Optional[dict] = None


class Commit(typing.NamedTuple):
    """The changes of a transaction. One without a stamp has none to be compared: it comes behind those that its server committed before."""
    stamp: typing.Optional[int]
    server: int
    changes: list


class Late(Exception):
    """A commit came behind a watermark at or above its stamp: what wrote this stream is not the extension."""


class Message:
    """A message of pgoutput, which is read from its second byte on."""

    def __init__(self, data: bytes):
        self.data, self.at, self.kind = data, 1, data[:1]

    def take(self, form: str):
        """The next number."""
        value, = struct.unpack_from(">" + form, self.data, self.at)
        self.at += struct.calcsize(">" + form)
        return value

    def bytes(self, length: int) -> bytes:
        self.at += length
        return self.data[self.at - length:self.at]

    def text(self) -> str:
        """The next text, which a zero ends."""
        return self.bytes(self.data.index(0, self.at) + 1 - self.at)[:-1].decode()

    def row(self, columns: list) -> dict:
        found = {}
        for name in columns[:self.take("H")]:
            kind = self.bytes(1)
            if kind == b"t":
                found[name] = self.bytes(self.take("I")).decode()
            elif kind == b"n":
                found[name] = None
        return found


class Stream:
    """The commits of one server, by its messages, which are put in as they come."""

    def __init__(self, server: int):
        self.server, self.watermark = server, 0
        self.tables: dict = {}
        self.open: typing.Optional[Commit] = None
        self.held: list = []  # a heap of places and commits
        self.highest = 0  # of all stamps and watermarks
        self.count = 0
        self.unused: collections.deque = collections.deque()  # in the order of the stream: where each ends, and its number or None
        self.used: set = set()

    def put(self, data: bytes) -> None:
        """Takes the next message."""
        message = Message(data)
        if message.kind == b"B":
            self.open = Commit(None, self.server, [])
        elif message.kind == b"O":
            stamp, name = message.take("Q"), message.text()
            self.open = self.open._replace(stamp=stamp if name.startswith(ORIGIN) else None)
        elif message.kind == b"C":
            message.bytes(9)
            self.close(message.take("Q"))
        elif message.kind == b"M":
            self.see(message)
        elif message.kind == b"R":
            self.learn(message)
        elif message.kind in b"IUDT":
            self.open.changes.extend(self.changes_in(message))

    def see(self, message: Message) -> None:
        """A watermark, unless it is another message. That of a transaction never is one."""
        in_transaction, end = message.take("B"), message.take("Q")
        if message.text() == WATERMARK and not in_transaction:
            self.watermark = max(self.watermark, int(message.bytes(message.take("I"))))
            self.highest = max(self.highest, self.watermark)
            self.unused.append((end, None))

    def learn(self, message: Message) -> None:
        """The name and the columns of a table."""
        number = message.take("I")
        name = f"{message.text()}.{message.text()}"
        message.bytes(1)
        columns, keys = [], set()
        for _ in range(message.take("H")):
            is_key = message.take("B") & 1
            columns.append(message.text())
            keys.update(columns[-1:] if is_key else [])
            message.bytes(8)
        self.tables[number] = name, columns, keys

    def changes_in(self, message: Message) -> list:
        if message.kind == b"T":
            count, _ = message.take("I"), message.bytes(1)
            return [Change("truncate", self.tables[message.take("I")][0]) for _ in range(count)]
        name, columns, keys = self.tables[message.take("I")]
        rows = {}
        while message.at < len(message.data):
            which = message.bytes(1)
            row = message.row(columns)
            if which == b"K":
                row = {column: value for column, value in row.items() if column in keys}
            rows["row" if which == b"N" else "old"] = row
        return [Change(KINDS[message.kind], name, **rows)]

    def close(self, end: int) -> None:
        """The commit is whole, and ends there in the WAL."""
        commit, self.open = self.open, None
        if commit.stamp is not None and commit.stamp <= self.watermark:
            raise Late(f"server {self.server}: stamp {commit.stamp} behind watermark {self.watermark}")
        self.highest = max(self.highest, commit.stamp or 0)
        place = self.highest if commit.stamp is None else commit.stamp, commit.stamp is None, self.server
        self.count += 1
        heapq.heappush(self.held, (place, self.count, commit))
        self.unused.append((end, self.count))

    def up_to(self, stamp: int) -> typing.Iterator[tuple]:
        """Gives the commits up to a stamp, in their order, which are held no longer."""
        while self.held and self.held[0][0][0] <= stamp:
            place, number, commit = heapq.heappop(self.held)
            self.used.add(number)
            yield place, commit

    def use(self) -> int:
        """Where in the WAL everything before has been given out, or 0 if no more has than at the last call. The server need not keep it."""
        end = 0
        while self.unused and (self.unused[0][1] is None or self.unused[0][1] in self.used):
            end, number = self.unused.popleft()
            self.used.discard(number)
        return end


def merge(streams: typing.Sequence[Stream], after: tuple = (0, -1)) -> typing.Iterator[Commit]:
    """Gives the commits that have their place by now, in the order of stamps, and of servers where stamps are equal. Those up to this stamp
    and server, which were used before, are left out. All that it gives has to be taken."""
    whole = min(stream.watermark for stream in streams)
    for _, commit in heapq.merge(*(stream.up_to(whole) for stream in streams)):
        if commit.stamp is None or (commit.stamp, commit.server) > tuple(after):
            yield commit


class Server:
    """The messages of a server, by psycopg2."""

    def __init__(self, conninfo: str, slot: str, publication: str):
        import psycopg2.extras  # the rest of this file does without
        self.failure, self.told = psycopg2.Error, ""
        self.asking = psycopg2.connect(conninfo)
        self.asking.autocommit = True
        self.changes = psycopg2.connect(conninfo, connection_factory=psycopg2.extras.LogicalReplicationConnection).cursor()
        self.changes.start_replication(slot_name=slot, options={
            "proto_version": "1", "publication_names": publication, "messages": "true"})

    def fileno(self) -> int:
        return self.changes.fileno()

    def messages(self) -> list:
        """Those that have come, and not more than at once."""
        read = iter(self.changes.read_message, None)
        return [message.payload for message in itertools.islice(read, AT_ONCE)]

    def emit_watermark(self) -> None:
        """Asks for a watermark. A server whose machine is gone gives none, and is asked again."""
        try:
            with self.asking.cursor() as cursor:
                cursor.execute("SELECT truetime.emit_watermark()")
            self.told = ""
        except self.failure as failed:
            if not (failed.pgcode or "").startswith("T"):
                raise
            if self.told != (told := f"{self.asking.dsn}: {failed}"):
                print(told, end="", file=sys.stderr, flush=True)
            self.told = told

    def confirm(self, end: int) -> None:
        """Tells the server that it need not keep what is before."""
        self.changes.send_feedback(flush_lsn=end, force=True)


def follow(servers: typing.Sequence[Server], after: tuple = (0, -1), every_s: float = 0.1) -> typing.Iterator[Commit]:
    """Gives the commits of these servers in the order of stamps, without end. Whoever asks for the next has used those before: the servers
    keep them no longer. After a failure some may come again; those up to `after`, a stamp and a server, are left out."""
    streams, due = [Stream(number) for number in range(len(servers))], 0.0
    while True:
        if time.monotonic() >= due:
            for server in servers:
                server.emit_watermark()
            due = time.monotonic() + every_s
        most = 0
        for server, stream in zip(servers, streams):
            came = server.messages()
            most = max(most, len(came))
            for data in came:
                stream.put(data)
        yield from merge(streams, after)
        for server, stream in zip(servers, streams):
            if end := stream.use():
                server.confirm(end)
        if most < AT_ONCE:
            select.select(servers, [], [], max(0.0, due - time.monotonic()))


def main() -> None:
    parser = argparse.ArgumentParser(description=__doc__.partition("\n")[0])
    parser.add_argument("slot")
    parser.add_argument("publication")
    parser.add_argument("conninfo", nargs="+", help="of each server, as psql takes it")
    parser.add_argument("--after", nargs=2, type=int, default=(0, -1), metavar=("STAMP", "SERVER"), help="the last commit that was used")
    parser.add_argument("--every", type=float, default=0.1, metavar="SECONDS", help="how often to ask for watermarks")
    given = parser.parse_args()
    try:
        import psycopg2
    except ImportError:
        sys.exit("truetime_merge: psycopg2 is missing (apt install python3-psycopg2)")
    try:
        servers = [Server(conninfo, given.slot, given.publication) for conninfo in given.conninfo]
        for commit in follow(servers, tuple(given.after), given.every):
            changes = [{name: value for name, value in change._asdict().items() if value is not None} for change in commit.changes]
            print(json.dumps({"stamp": commit.stamp, "server": commit.server, "changes": changes}), flush=True)
    except (Late, psycopg2.Error) as failed:
        sys.exit(f"truetime_merge: {failed}")
    except (KeyboardInterrupt, BrokenPipeError):
        sys.exit(1)


if __name__ == "__main__":
    main()
