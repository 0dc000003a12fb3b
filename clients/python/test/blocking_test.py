"""Tests of what is Python's own: owners by name, causes, numbers that are no times, errors that are pickled, threads that share a session,
and what is logged."""
import contextlib
import copy
import errno
import logging
import os
import pathlib
import pickle
import pwd
import socketserver
import struct
import subprocess
import sys
import tempfile
import threading
import time
import unittest
from unittest import mock

sys.path.insert(0, str(pathlib.Path(__file__).resolve().parent.parent))

import truetime  # noqa: E402

ALWAYS = 2**64 - 1


def file_bytes(magic=b"TTS3", boot=None, clock=time.CLOCK_MONOTONIC_RAW, first=(1, 20, 30, ALWAYS, 7, 1, 0, ALWAYS), second=(0,) * 7):
    """A file of one publication by this clock."""
    with open("/proc/sys/kernel/random/boot_id", "rb") as file:
        boot = boot or file.read(36)
    index = (1).to_bytes(8, "little")
    slot = index + struct.pack("<15Q", *first, *second)
    return magic + struct.pack("<IQ", 320, clock) + index + boot + bytes(4) + bytes(128) + slot


class Files(unittest.TestCase):
    def setUp(self):
        folder = tempfile.TemporaryDirectory()
        self.addCleanup(folder.cleanup)
        self.path = os.path.join(folder.name, "time")
        self.write(file_bytes())

    def write(self, content, mode=0o644):
        with open(self.path, "wb") as file:
            file.write(content)
        os.chmod(self.path, mode)

    def refusal(self, owner=None, path=None):
        with self.assertRaises(truetime.Refused) as caught:
            truetime.Client(path or self.path, os.geteuid() if owner is None else owner)
        return caught.exception

    def test_owner_by_name(self):
        with truetime.Client(self.path, pwd.getpwuid(os.geteuid()).pw_name) as client:
            self.assertEqual(client.read().number, 1)
        self.assertIn("its owner is the user", str(self.refusal("nobody")))
        unknown = self.refusal("no-such-user")
        self.assertEqual((unknown.number, type(unknown.__cause__)), (1702, KeyError))
        with self.assertRaises(TypeError):
            truetime.Client(self.path, None)

    def test_causes(self):
        for path, number in (self.path + "x", errno.ENOENT), (os.path.join(self.path, "x"), errno.ENOTDIR):
            refused = self.refusal(path=path)
            self.assertEqual((refused.number, refused.__cause__.errno), (1701, number))
        for content, mode, why in (
            (file_bytes()[:-1], 0o644, "it is no file of 320 bytes"), (file_bytes(), 0o664, "others may write to it"),
            (file_bytes(magic=b"TTS1"), 0o644, "it is of another format, or of another version"),
            (file_bytes(magic=b"TTS2", clock=1), 0o644, "it is of another format, or of another version"),
            (file_bytes(clock=7), 0o644, "it is of another format, or of another version"),
            (file_bytes(boot=b"x" * 36), 0o644, "it is of another boot, or of another clock"),
        ):
            self.write(content, mode)
            refused = self.refusal()
            self.assertEqual((refused.number, str(refused).partition("clock: ")[2]), (1702, why))

    def test_the_clock_is_that_of_the_file(self):
        first, second = (1000, 5, 15, 6000, 7, 1, 200, 7000), (500_000, 7000, 8000, 1400, 600_000, 700_000, 0)
        raw, slewed = time.CLOCK_MONOTONIC_RAW, time.CLOCK_MONOTONIC
        for mapped in (True, False):
            self.write(file_bytes(first=first, second=second))
            client = truetime.Client(self.path, os.geteuid(), mapped)
            for epoch, (clock, other) in enumerate([(raw, slewed), (slewed, raw), (raw, slewed), (raw, slewed), (slewed, raw)]):
                with open(self.path + ".new", "wb") as file:
                    file.write(file_bytes(clock=clock, first=(*first[:4], epoch, *first[5:]), second=second))
                os.replace(self.path + ".new", self.path)
                client._next_look_ns = 0
                for shown, beside, wanted in (
                    (10**9, 10**9, 1708), (6000, 3000, (5004, 5016, True)), (6001, 3000, (5004, 5018, False)), (7000, 3000, (6003, 6017, False)),
                    (7001, 3000, 1708), (999, 3000, 802), (6000, 10**9, (5004, 5016, True)),
                ):
                    with mock.patch("truetime.readers.time.clock_gettime_ns", {clock: shown, other: beside}.__getitem__):
                        try:
                            now = client.now()
                            came = now.earliest_ns, now.latest_ns, now.fresh, now.epoch
                            self.assertEqual(came, (*wanted, epoch), (mapped, shown))
                        except truetime.Refused as refused:
                            self.assertEqual(refused.number, wanted, (mapped, epoch, shown))
                self.assertEqual(client.read()[-1], clock)
            client.close()

    def test_what_no_daemon_writes(self):
        good = [1000, 5, 15, 200, 600_000, 700_000, 0]
        for place, number in [(0, truetime.MAX_TIME_NS), (2, truetime.MAX_TIME_NS), (3, 100_000), (4, ALWAYS), (4, 0), (5, ALWAYS), (5, 0)]:
            self.write(file_bytes(second=(*good[:place], number, *good[place + 1:])))
            with truetime.Client(self.path, os.geteuid()) as client:
                self.assertEqual(client.read(), (1, 20, 30, ALWAYS, ALWAYS, 7, 1, 0, time.CLOCK_MONOTONIC_RAW))
        for place, number in [(0, truetime.MAX_TIME_NS + 1), (1, 16), (2, truetime.MAX_TIME_NS + 1), (3, 100_001), (6, 1)]:
            self.write(file_bytes(second=(*good[:place], number, *good[place + 1:])))
            with truetime.Client(self.path, os.geteuid()) as client, self.assertRaises(truetime.Refused) as caught:
                client.read()
            self.assertEqual(caught.exception.number, 1703)

    def test_limits_of_stampers(self):
        for limits in {"ahead_ns": -1}, {"ahead_ns": truetime.MAX_AHEAD_NS + 1}, {"grid_ns": 0}, {"grid_ns": truetime.MAX_GRID_NS + 1}:
            with self.assertRaises(ValueError):
                truetime.Stamper(None, **limits)
        truetime.Stamper(None, ahead_ns=truetime.MAX_AHEAD_NS, grid_ns=truetime.MAX_GRID_NS)

    def test_floats_are_no_times(self):
        with truetime.Client(self.path, os.geteuid()) as client:
            self.assertRaises(TypeError, truetime.Stamper, client, 0.0)
            self.assertRaises(TypeError, truetime.Stamper, client, 0, 1e18)
            self.assertRaises(TypeError, truetime.Stamper, client, ahead_ns=1e9)
            self.assertRaises(TypeError, truetime.Stamper, client, grid_ns=1000.0)
            stamper = truetime.Stamper(client, 1_796_000_000_000_000_000)
            first = stamper.stamp().stamp_ns
            for call in (
                stamper.stamp, stamper.extend, stamper.rise_above, stamper.is_past, stamper.left_ns, stamper.wait_past,
                truetime.PendingTable(stamper).begin, lambda t_ns: stamper.stamp_at(client.now(), t_ns),
            ):
                self.assertRaises(TypeError, call, float(first) + 5e8)
            self.assertEqual([stamper.stamp().stamp_ns for _ in range(3)], [first + 1, first + 2, first + 3])

    def test_endless_waits(self):
        with truetime.Client(self.path, os.geteuid()) as client:
            table = truetime.PendingTable(truetime.Stamper(client))
            stamp_ns = table.begin()
            threading.Timer(0.1, table.written, (stamp_ns,)).start()
            self.assertTrue(table.make_readable(stamp_ns, float("inf")))

    def test_a_closed_client_refuses(self):
        for mapped in (True, False):
            client = truetime.Client(self.path, os.geteuid(), mapped)
            client.close()
            client.close()
            with self.assertRaises(truetime.Refused) as caught:
                client.now()
            self.assertEqual(caught.exception.number, 1701)


class Errors(unittest.TestCase):
    def test_errors_are_pickled(self):
        for error in (
            truetime.Refused(1824), truetime.Refused(1702, ": others may write to it"), truetime.CommitPending(3, 77),
            truetime.SessionLost(ConnectionResetError(104, "reset"), 3, 77, True),
        ):
            for again in (copy.copy(error), pickle.loads(pickle.dumps(error)), pickle.loads(pickle.dumps(copy.deepcopy(error)))):
                self.assertEqual((type(again), str(again), repr(again.__cause__)), (type(error), str(error), repr(error.__cause__)))
                for name in "number", "commit", "stamp_ns", "had_lease":
                    self.assertEqual(getattr(again, name, None), getattr(error, name, None))

    def test_refusals_have_names(self):
        self.assertEqual(truetime.Refused(1824).number, truetime.Refusal.READING_TOO_WIDE)
        for number in range(1, 65_536):
            is_named = number in truetime.Refusal.__members__.values()
            self.assertEqual(str(truetime.Refused(number)).endswith("see docs/reference/refusals.md"), not is_named)


class Echoing(socketserver.StreamRequestHandler):
    """A session whose replies are made of its lines; a commit is released after the service says so."""

    def handle(self):
        with contextlib.suppress(ConnectionError):
            for line in self.rfile:
                word, *numbers = line.split()
                if word == b"now":
                    return  # it ends
                time.sleep(0.001)
                if word == b"after":
                    self.wfile.write(b"yes\n" if int(numbers[0]) % 2 else b"no\n")
                elif word == b"before":
                    self.wfile.write(b"refused 801\n")
                else:
                    self.server.asked.set()
                    said = b"committed" if self.server.releases.is_set() else b"waiting"
                    self.wfile.write(b"%s %s 77\n" % (said, numbers[0]))


class Sessions(unittest.TestCase):
    def setUp(self):
        self.server = socketserver.ThreadingTCPServer(("127.0.0.1", 0), Echoing)
        self.server.daemon_threads = True
        self.server.releases, self.server.asked = threading.Event(), threading.Event()
        threading.Thread(target=self.server.serve_forever, args=(0.01,), daemon=True).start()
        self.session = truetime.Session(self.server.server_address, 10)
        self.addCleanup(self.server.server_close)
        self.addCleanup(self.server.shutdown)
        self.addCleanup(self.session.close)

    def test_threads_take_turns(self):
        wrong = []

        def ask(odd):
            for number in range(odd, 200, 2):
                if self.session.after(number) != bool(odd):
                    wrong.append(number)

        threads = [threading.Thread(target=ask, args=(number % 2,)) for number in range(6)]
        for thread in threads:
            thread.start()
        for thread in threads:
            thread.join()
        self.assertEqual(wrong, [])

    def test_closing_ends_a_call_of_another_thread(self):
        failed = []

        def commit():
            try:
                self.session.commit()
            except OSError as error:
                failed.append(error)

        thread = threading.Thread(target=commit)
        thread.start()
        self.assertTrue(self.server.asked.wait(10))
        self.session.close()
        thread.join(5)
        self.assertEqual([type(error) for error in failed], [ConnectionError])
        with self.assertRaisesRegex(ConnectionError, "the session is closed"):
            self.session.after(1)

    def test_numbers_that_are_no_times(self):
        for wrong, raised in (1.5, TypeError), (float(10**18), TypeError), ("5", TypeError), (-1, ValueError), (2**64, ValueError):
            for call in self.session.after, self.session.before, self.session.begin, self.session.commit:
                self.assertRaises(raised, call, wrong)
            self.assertRaises(raised, self.session.lease, wrong, 9)
            self.assertRaises(raised, self.session.lease, 5, wrong)
        self.assertFalse(self.server.asked.is_set())
        self.assertTrue(self.session.is_idle)
        self.server.releases.set()
        self.assertEqual(self.session.commit(), 77)

    def test_paths(self):
        with tempfile.TemporaryDirectory() as folder:
            path = pathlib.Path(folder, "socket")
            with socketserver.ThreadingUnixStreamServer(str(path), Echoing) as server:
                server.daemon_threads, server.block_on_close = True, False
                threading.Thread(target=server.serve_forever, args=(0.01,), daemon=True).start()
                for address in path, str(path):
                    with truetime.Session(address, 10) as session:
                        self.assertTrue(session.after(5))
                server.shutdown()

    def test_long_time_outs(self):
        self.server.releases.set()
        for timeout_s in 30 * 86_400, 10**12, float("inf"):
            with truetime.Pool(lambda: truetime.Session(self.server.server_address, timeout_s), 1, timeout_s) as pool:
                self.assertEqual(pool.commit(), 77)

    def test_log(self):
        with self.assertLogs("truetime", logging.DEBUG) as told:
            other = truetime.Session(self.server.server_address, 10)
            self.addCleanup(other.close)
            with self.assertRaises(truetime.Refused):
                other.before(1)
            with self.assertRaises(ConnectionError):
                other.now()
            other.after(1)
            timer = threading.Timer(1.5 * truetime.LONG_WAIT_S, self.server.releases.set)
            timer.start()
            other.commit()
        address = self.server.server_address
        self.assertEqual([(record.levelname, record.getMessage()) for record in told.records], [
            ("DEBUG", f"connected to {address}"),
            ("INFO", "before 1: refused 801: the daemon has published nothing so far, or nothing is published any more"),
            ("WARNING", "the connection failed: the service ended the session"),
            ("INFO", f"connected anew to {address}"),
            ("WARNING", "the commit with timestamp 77 waits for more than 1 s"),
        ])

    def test_nothing_is_printed_without_a_handler(self):
        code = ("import sys, truetime\nsession = truetime.Session(('127.0.0.1', int(sys.argv[1])))\n"
                "try:\n    session.now()\nexcept ConnectionError:\n    pass\n")
        ran = subprocess.run([sys.executable, "-c", code, str(self.server.server_address[1])], capture_output=True, text=True,
                             env={**os.environ, "PYTHONPATH": sys.path[0]}, check=True)
        self.assertEqual(ran.stdout + ran.stderr, "")


if __name__ == "__main__":
    unittest.main()
