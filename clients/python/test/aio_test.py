"""Tests of what truetime.aio.Session has beyond the blocking session: cancellation, tasks that take turns, and closing.

The conversations of both are in tools/suites/clients.py. Run by `python aio_test.py`.
"""
import asyncio
import contextlib
import errno
import os
import pathlib
import socket
import struct
import sys
import tempfile
import time
import unittest

sys.path.insert(0, str(pathlib.Path(__file__).resolve().parent.parent))

from truetime import CommitPending, Interval, Refused, aio  # noqa: E402

LIMIT_S = 8


def descriptors():
    return len(os.listdir("/proc/self/fd"))


class StandIn:
    """Plays the service: each connection has lines, and a reply to each. None as a reply waits for `say`."""

    def __init__(self, *connections):
        self.connections, self.wrong = list(connections), []
        self.heard, self.said = asyncio.Event(), asyncio.Event()

    async def __aenter__(self):
        self.server = await asyncio.start_server(self.play, "127.0.0.1", 0)
        self.session = aio.Session(self.server.sockets[0].getsockname(), LIMIT_S)
        await self.session.__aenter__()
        return self, self.session

    async def __aexit__(self, kind, *_):
        await self.session.close()
        self.server.close()
        await self.server.wait_closed()
        if kind is None and (self.wrong or self.connections):
            raise AssertionError(f"{self.wrong}; connections that did not come: {self.connections}")

    def say(self, reply):
        """Gives the reply for which a line waits."""
        self.late = reply
        self.said.set()

    async def play(self, reader, writer):
        exchanges = self.connections.pop(0) if self.connections else []
        for line, reply in exchanges:
            came = (await reader.readline()).decode()
            if came != f"{line}\n":
                self.wrong.append(f"{came!r} came in place of {line!r}")
                break
            if reply is None:
                self.heard.set()
                await asyncio.wait_for(self.said.wait(), LIMIT_S)
                self.said.clear()
                reply = self.late
            writer.write(reply.encode())
        else:
            with contextlib.suppress(ConnectionError):  # of a client that left
                if rest := await reader.read():
                    self.wrong.append(f"{rest!r} came behind the last line")
        writer.close()


class Cancellation(unittest.IsolatedAsyncioTestCase):
    async def cancelled(self, stand_in, call):
        """Makes a call, and cancels it once its line was heard."""
        task = asyncio.ensure_future(call)
        await asyncio.wait_for(stand_in.heard.wait(), LIMIT_S)
        stand_in.heard.clear()
        task.cancel()
        with self.assertRaises(asyncio.CancelledError):
            await task

    async def test_wait(self):
        for late in ("waiting 1 200\n", "committed 1 200\n", "refused 803\n"):
            again = [] if late.startswith("committed") else [("commit 1 0", "committed 1 200\n")]
            lines = [("commit 1 0", "waiting 1 200\n"), ("commit 1 0", None), *again, ("commit 2 7", "committed 2 300\n")]
            async with StandIn(lines) as (stand_in, session):
                self.assertEqual(await session.begin(), 200)
                await self.cancelled(stand_in, session.wait())
                stand_in.say(late)
                if again:
                    with self.assertRaises(CommitPending) as caught:
                        await session.begin()
                    self.assertEqual((caught.exception.number, caught.exception.commit, caught.exception.stamp_ns), (1104, 1, 200))
                self.assertEqual(await session.wait(), 200)
                self.assertEqual(await session.commit(7), 300)

    async def test_wait_for(self):
        """The reply is late for two calls, of which the second one sends nothing."""
        lines = [("commit 1 0", "waiting 1 200\n"), ("commit 1 0", None), ("now", "now 5 15\n"), ("commit 1 0", "committed 1 200\n")]
        async with StandIn(lines) as (stand_in, session):
            await session.begin()
            for call in session.wait(), session.after(1):
                with self.assertRaises(asyncio.TimeoutError):
                    await asyncio.wait_for(call, 0.05)
            stand_in.say("waiting 1 200\n")
            self.assertEqual(await session.now(), Interval(5, 15))
            self.assertEqual(await session.wait(), 200)

    async def test_between_lines(self):
        """The wait ends while no reply is to come."""
        lines = [("commit 1 0", "waiting 1 200\n"), ("commit 1 0", None), ("now", "now 5 15\n"), ("commit 1 0", "committed 1 200\n")]
        async with StandIn(lines) as (stand_in, session):
            await session.begin()
            pausing, sleep = asyncio.Event(), asyncio.sleep

            async def pause(_):
                pausing.set()
                await sleep(LIMIT_S)

            asyncio.sleep = pause
            try:
                task = asyncio.ensure_future(session.wait())
                stand_in.say("waiting 1 200\n")
                await asyncio.wait_for(pausing.wait(), LIMIT_S)
                task.cancel()
                with self.assertRaises(asyncio.CancelledError):
                    await task
            finally:
                asyncio.sleep = sleep
            self.assertEqual(await session.now(), Interval(5, 15))
            self.assertEqual(await session.wait(), 200)

    async def test_begin(self):
        """A commit that comes later gets no timestamp that was given before it came."""
        lines = [("commit 1 0", None), ("commit 1 0", "waiting 1 200\n"), ("commit 1 0", "committed 1 200\n"), ("commit 2 9", "waiting 2 300\n"),
                 ("commit 2 0", "committed 2 300\n")]
        async with StandIn(lines) as (stand_in, session):
            await self.cancelled(stand_in, session.begin())
            stand_in.say("waiting 1 200\n")
            with self.assertRaises(RuntimeError):
                await session.wait()
            self.assertEqual(await session.commit(9), 300)

    async def test_begin_is_released(self):
        async with StandIn([("commit 1 0", None), ("commit 2 9", "committed 2 300\n")]) as (stand_in, session):
            await self.cancelled(stand_in, session.commit())
            stand_in.say("committed 1 200\n")
            with self.assertRaises(RuntimeError):
                await session.wait()
            self.assertEqual(await session.commit(9), 300)

    async def test_begin_is_refused(self):
        """It may have begun: the service says so of the next one."""
        lines = [("commit 1 0", None), ("commit 2 9", "refused 1104\n"), ("commit 1 0", "committed 1 200\n"), ("commit 2 9", "committed 2 300\n")]
        async with StandIn(lines) as (stand_in, session):
            await self.cancelled(stand_in, session.begin())
            stand_in.say("refused 803\n")
            self.assertEqual(await session.commit(9), 300)

    async def test_lease(self):
        """What the late reply says holds."""
        lines = [("lease 9 5", None), ("lease 5 9", None), ("commit 1 0", "committed 1 7\n")]
        async with StandIn(lines) as (stand_in, session):
            await self.cancelled(stand_in, session.lease(9, 5))
            stand_in.say("refused 101\n")
            with self.assertRaises(Refused) as caught:
                await session.begin()
            self.assertEqual(caught.exception.number, 903)
            await self.cancelled(stand_in, session.lease(5, 9))
            stand_in.say("leased 5 9\n")
            self.assertEqual(await session.commit(), 7)

    async def test_late_reply_is_none(self):
        async with StandIn([("after 5", None)], [("now", "now 5 15\n")]) as (stand_in, session):
            await self.cancelled(stand_in, session.after(5))
            stand_in.say("now 1 2\n")
            with self.assertRaises(ConnectionError):
                await session.now()
            self.assertEqual(await session.now(), Interval(5, 15))

    async def test_no_late_reply(self):
        """The reply that is owed does not come in time."""
        async with StandIn([("now", None)], [("now", "now 5 15\n")]) as (stand_in, session):
            session._timeout_s = 0.2
            await self.cancelled(stand_in, session.now())
            with self.assertRaises(TimeoutError):
                await session.now()
            session._timeout_s = LIMIT_S
            self.assertEqual(await session.now(), Interval(5, 15))
            stand_in.say("now 1 2\n")

    async def test_time_of_a_late_reply(self):
        """The time-out of a reply begins with its line: the call after a cancelled one waits for what is left of it alone."""
        async with StandIn([("now", None)]) as (stand_in, session):
            session._timeout_s, began = 2.5, time.monotonic()
            task = asyncio.ensure_future(session.now())
            await asyncio.wait({task}, timeout=2)
            task.cancel()
            with self.assertRaises(TimeoutError):
                await session.now()
            self.assertLess(time.monotonic() - began, 4)
            stand_in.say("now 1 2\n")


class Tasks(unittest.IsolatedAsyncioTestCase):
    async def test_turns(self):
        """Calls of several tasks take turns, in their order; one that is cancelled before its turn sends nothing."""
        async with StandIn([("after 1", None), ("before 1", "no\n"), ("ask 3", "4\n")]) as (stand_in, session):
            tasks = [asyncio.ensure_future(call) for call in (session.after(1), session.before(1), session.now(), session.ask("ask 3"))]
            await asyncio.wait_for(stand_in.heard.wait(), LIMIT_S)
            tasks[2].cancel()
            stand_in.say("yes\n")
            said = await asyncio.gather(*tasks, return_exceptions=True)
            self.assertEqual([*said[:2], said[3]], [True, False, "4"])
            self.assertIsInstance(said[2], asyncio.CancelledError)

    async def test_unasked(self):
        """What nobody asked for is the reply to no later line."""
        async with StandIn([("now", "now 5 15\n")], [("now", "now 7 9\n")]) as (_, session):
            self.assertEqual(await session.now(), Interval(5, 15))
            session._connection.data_received(b"now 1 2\n")
            self.assertEqual(await session.now(), Interval(7, 9))

    async def test_numbers_that_are_no_times(self):
        async with StandIn([("after 5", "yes\n")]) as (_, session):
            for call in session.after, session.before, session.begin, session.commit:
                for wrong, raised in (1.5, TypeError), (-1, ValueError), (2**64, ValueError):
                    with self.assertRaises(raised):
                        await call(wrong)
            self.assertTrue(await session.after(5))

    async def test_paths(self):
        async def answer(reader, writer):
            await reader.readline()
            writer.write(b"yes\n")
            writer.close()

        with tempfile.TemporaryDirectory() as folder:
            path = pathlib.Path(folder, "socket")
            async with await asyncio.start_unix_server(answer, path):
                for address in path, str(path):
                    async with aio.Session(address, LIMIT_S) as session:
                        self.assertTrue(await session.after(5))

    async def test_long_time_outs(self):
        async with StandIn([("after 5", "yes\n")], []) as (stand_in, session):
            self.assertTrue(await session.after(5))
            address = stand_in.server.sockets[0].getsockname()
            async with aio.Pool(lambda: aio.Session.connect(address, float("inf")), 1, float("inf")) as pool, pool.session() as other:
                self.assertTrue(other.is_idle)

    async def test_places_of_a_pool(self):
        """A task that is cancelled while it waits for a session of a pool, or just as one comes back, leaves its place to others."""
        async with StandIn([], []) as (stand_in, _):
            address = stand_in.server.sockets[0].getsockname()

            async def held():
                async with pool.session() as session:
                    return session

            async with aio.Pool(lambda: aio.Session.connect(address, LIMIT_S), 1, LIMIT_S) as pool:
                for is_late in False, True, False, True:
                    async with pool.session() as first:
                        task = asyncio.ensure_future(held())
                        await asyncio.sleep(0.05)
                        if not is_late:
                            task.cancel()
                            await asyncio.wait({task})
                    if is_late:
                        task.cancel()
                    with self.assertRaises(asyncio.CancelledError):
                        await task
                    self.assertIs(await asyncio.wait_for(held(), 2), first)

    async def test_reset(self):
        async def reset(reader, writer):
            await reader.readline()
            writer.get_extra_info("socket").setsockopt(socket.SOL_SOCKET, socket.SO_LINGER, struct.pack("ii", 1, 0))
            writer.transport.abort()

        server = await asyncio.start_server(reset, "127.0.0.1", 0)
        async with server, aio.Session(server.sockets[0].getsockname(), LIMIT_S) as session:
            with self.assertRaises(ConnectionResetError) as raised:
                await session.now()
            self.assertEqual(raised.exception.errno, errno.ECONNRESET)

    async def test_close(self):
        """Closing ends a call that waits for its reply, and one that waits for its turn; it stays closed."""
        async with StandIn([("now", None)]) as (stand_in, session):
            tasks = [asyncio.ensure_future(session.now()) for _ in range(2)]
            await asyncio.wait_for(stand_in.heard.wait(), LIMIT_S)
            await session.close()
            stand_in.say("now 5 15\n")
            for said in await asyncio.gather(*tasks, return_exceptions=True):
                self.assertIsInstance(said, ConnectionError)
            for call in session.now(), session.wait(), session.begin(), session.lease(1, 2):
                with self.assertRaises(ConnectionError):
                    await call
            await session.close()

    async def test_connecting(self):
        """A session connects by `async with`, by `connect`, and by its first call; nobody may listen."""
        async with StandIn([], [("now", "now 5 15\n")], [("now", "now 7 9\n")]) as (stand_in, _):
            address = stand_in.server.sockets[0].getsockname()
            session = await aio.Session.connect(address, LIMIT_S)
            self.assertEqual(await session.now(), Interval(5, 15))
            await session.close()
            session = aio.Session(address, LIMIT_S)
            self.assertEqual(await session.now(), Interval(7, 9))
            await session.close()
            task = asyncio.ensure_future(aio.Session.connect(address, LIMIT_S))
            await asyncio.sleep(0)
            task.cancel()
            with self.assertRaises(asyncio.CancelledError):
                await task
        for where in address, "/nobody":
            with self.assertRaises(OSError):
                await aio.Session.connect(where, 5)
            with self.assertRaises(OSError):
                await aio.Session(where, 5).now()

    async def test_closed_when_close_is_over(self):
        async with StandIn([], []) as (stand_in, session):
            before = descriptors()
            other = await aio.Session.connect(stand_in.server.sockets[0].getsockname(), LIMIT_S)
            while descriptors() != before + 2:  # both ends are here
                await asyncio.sleep(0.001)
            await other.close()
            self.assertLessEqual(descriptors(), before + 1)

    async def test_nothing_goes_on_behind_a_late_connecting(self):
        """A socket at which as many wait as may: who does not get in within the time-out tries no more."""
        with tempfile.TemporaryDirectory() as room, socket.socket(socket.AF_UNIX) as full, contextlib.ExitStack() as others:
            full.bind(os.path.join(room, "socket"))
            full.listen(0)
            with self.assertRaises(BlockingIOError):
                while True:
                    other = others.enter_context(socket.socket(socket.AF_UNIX))
                    other.setblocking(False)
                    other.connect(full.getsockname())
            for _ in range(3):
                with self.assertRaises(TimeoutError):
                    await aio.Session.connect(full.getsockname(), 0.05)
            await asyncio.sleep(0.05)
            self.assertEqual(asyncio.all_tasks(), {asyncio.current_task()})


if __name__ == "__main__":
    unittest.main()
