"""Tries truetime_merge by messages that are made here. python3 -m unittest, in this folder; no server is wanted."""
import struct
import unittest

import truetime_merge
from truetime_merge import Change, Commit, Late, Stream, follow, merge


def text(value):
    return value.encode() + b"\0"


def begin(stamp, origin="truetime/7"):
    """The start of a transaction, with an origin where it has a stamp."""
    of_origin = [b"O" + struct.pack(">Q", stamp) + text(origin)] if stamp else []
    return [b"B" + struct.pack(">QqI", 0, 0, 5), *of_origin]


def commit(stamp, *changes, end=1, **how):
    return [*begin(stamp, **how), *changes, b"C" + struct.pack(">BQQq", 0, 0, end, 0)]


def watermark(stamp, in_transaction=0, prefix="truetime.watermark", end=1):
    said = str(stamp).encode()
    return [b"M" + struct.pack(">BQ", in_transaction, end) + text(prefix) + struct.pack(">I", len(said)) + said]


def relation(number=3, columns=("id", "note")):
    """A table whose first column is its key."""
    found = b"".join(bytes([place == 0]) + text(name) + struct.pack(">II", 23, 0) for place, name in enumerate(columns))
    return b"R" + struct.pack(">I", number) + text("public") + text("photo") + b"d" + struct.pack(">H", len(columns)) + found


def row(*values):
    """None is null, and an ellipsis a large value that was not changed."""
    def one(value):
        return {None: b"n", ...: b"u"}.get(value) or b"t" + struct.pack(">I", len(value)) + value.encode()
    return struct.pack(">H", len(values)) + b"".join(map(one, values))


def streams(*of_servers):
    """The streams of servers to which these lists of messages have come."""
    made = []
    for number, messages in enumerate(of_servers):
        made.append(Stream(number))
        for message in [one for some in messages for one in some]:
            made[-1].put(message)
    return made


def places(commits):
    return [(one.stamp, one.server) for one in commits]


class Merging(unittest.TestCase):
    def test_in_the_order_of_stamps(self):
        both = streams([commit(30), commit(10), watermark(40)], [commit(20), commit(40), watermark(40)])
        self.assertEqual(places(merge(both)), [(10, 0), (20, 1), (30, 0), (40, 1)])
        self.assertEqual(places(merge(both)), [])

    def test_held_until_each_server_wrote_a_watermark(self):
        both = streams([commit(10), commit(30), watermark(50)], [commit(20)])
        self.assertEqual(places(merge(both)), [])
        both[1].put(watermark(20)[0])
        self.assertEqual(places(merge(both)), [(10, 0), (20, 1)])
        for message in commit(25) + watermark(29):
            both[1].put(message)
        self.assertEqual(places(merge(both)), [(25, 1)])
        both[1].put(watermark(30)[0])
        self.assertEqual(places(merge(both)), [(30, 0)])

    def test_one_stamp_on_two_servers_comes_together(self):
        both = streams([commit(10), commit(20), watermark(30)], [commit(10), commit(15), watermark(30)])
        self.assertEqual(places(merge(both)), [(10, 0), (10, 1), (15, 1), (20, 0)])

    def test_what_was_used_before_is_left_out(self):
        for after, wanted in ((10, 0), [(10, 1), (20, 0)]), ((10, 1), [(20, 0)]), ((9, 5), [(10, 0), (10, 1), (20, 0)]):
            both = streams([commit(10), commit(20), watermark(30)], [commit(10), watermark(30)])
            self.assertEqual(places(merge(both, after)), wanted)

    def test_without_a_stamp_it_comes_behind_what_its_server_committed_before(self):
        both = streams([commit(30), commit(0), commit(10), watermark(40), commit(0), commit(50, origin="other"), commit(41)], [watermark(60)])
        self.assertEqual(places(merge(both)), [(10, 0), (30, 0), (None, 0), (None, 0), (None, 0)])
        both[0].put(watermark(60)[0])
        self.assertEqual(places(merge(both)), [(41, 0)])

    def test_a_commit_behind_a_watermark_is_refused(self):
        self.assertEqual(places(merge(streams([watermark(20), commit(21), watermark(21)]))), [(21, 0)])
        with self.assertRaises(Late):
            streams([watermark(20), commit(20)])

    def test_only_the_extension_writes_watermarks(self):
        others = [commit(10), watermark(20, prefix="mine"), watermark(20, in_transaction=1)]
        self.assertEqual(places(merge(streams(others))), [])


class Changes(unittest.TestCase):
    def changes(self, *messages):
        return next(merge(streams([commit(10, relation(), *messages), watermark(10)]))).changes

    def test_rows(self):
        number = struct.pack(">I", 3)
        self.assertEqual(self.changes(
            b"I" + number + b"N" + row("1", "party"),
            b"U" + number + b"N" + row("1", None),
            b"U" + number + b"O" + row("1", "x") + b"N" + row("2", ...),
            b"U" + number + b"K" + row("2", None) + b"N" + row("3", ""),
            b"D" + number + b"K" + row("3", None),
            b"T" + struct.pack(">IB", 1, 0) + number,
        ), [
            Change("insert", "public.photo", {"id": "1", "note": "party"}),
            Change("update", "public.photo", {"id": "1", "note": None}),
            Change("update", "public.photo", {"id": "2"}, {"id": "1", "note": "x"}),
            Change("update", "public.photo", {"id": "3", "note": ""}, {"id": "2"}),
            Change("delete", "public.photo", None, {"id": "3"}),
            Change("truncate", "public.photo"),
        ])

    def test_types_and_other_messages_are_no_changes(self):
        self.assertEqual(self.changes(b"Y" + struct.pack(">I", 9) + text("public") + text("mood"), *watermark(5, 1, "mine")), [])


class Scripted:
    """A server to which these lists of messages come, one at each look."""

    def __init__(self, *turns):
        self.turns, self.confirmed, self.asked = list(turns), [], 0

    def messages(self):
        return [message for some in self.turns.pop(0) for message in some] if self.turns else []

    def emit_watermark(self):
        self.asked += 1

    def confirm(self, end):
        self.confirmed.append(end)

    def fileno(self):
        raise AssertionError("nobody waits here")


class Following(unittest.TestCase):
    def setUp(self):
        self.select = truetime_merge.select
        truetime_merge.select = type("NoWait", (), {"select": lambda *_: None})

    def tearDown(self):
        truetime_merge.select = self.select

    def test_only_what_was_given_out_is_confirmed(self):
        first = Scripted([commit(30, end=101), commit(10, end=102), watermark(35, end=103)], [commit(50, end=104)], [watermark(60, end=105)])
        second = Scripted([watermark(20, end=201)], [watermark(40, end=202)], [watermark(60, end=203)])
        given = follow([first, second], every_s=0)
        self.assertEqual(places([next(given)]), [(10, 0)])
        self.assertEqual((first.confirmed, second.confirmed), ([], []))
        self.assertEqual(places([next(given)]), [(30, 0)])
        self.assertEqual((first.confirmed, second.confirmed), ([], [201]))  # 10 was used, but stands behind 30 in the WAL
        self.assertEqual(next(given), Commit(50, 0, []))
        self.assertEqual((first.confirmed, second.confirmed), ([103], [201, 202]))
        self.assertEqual(first.asked, 3)


if __name__ == "__main__":
    unittest.main()
