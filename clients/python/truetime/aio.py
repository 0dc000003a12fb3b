"""Sessions with the service, for asyncio::

    from truetime import aio

    async with aio.Session(("127.0.0.1", 5601)) as session:
        stamp_ns = await session.begin()   # no other commit of this machine has this timestamp
        ...                                # write and commit locally, under this timestamp
        await session.wait()               # only now may anybody be told of the commit
"""
import asyncio
import contextlib
import socket
import time
from typing import Any, AsyncIterator, Awaitable, Callable, List, Optional, TypeVar, Union, cast

from ._calls import CONNECT_PAUSE_S, TIMEOUT_S, Address, Call, Calls, Interval, Reached, address_of, at_most, has_ended, log, reply_in
from .refusals import SessionLost

__all__ = ["Pool", "Session"]

_T = TypeVar("_T")


class _Connection(asyncio.Protocol):
    """A connection of an asyncio session: the reply to its last line, or why there is none."""

    def __init__(self) -> None:
        self.is_lost: "asyncio.Future[None]" = asyncio.get_running_loop().create_future()
        self._transport: Optional[asyncio.Transport] = None
        self._received = b""
        self._reply: "Optional[asyncio.Future[Union[str, ConnectionError]]]" = None
        self._failed: Optional[ConnectionError] = None

    def send(self, line: str) -> "asyncio.Future[Union[str, ConnectionError]]":
        """Sends a line. Its reply will be in the future, or why there is none."""
        if self._failed or not self._transport:
            raise self._failed or ConnectionError("there is no connection")
        self._received = b""
        self._reply = asyncio.get_running_loop().create_future()
        self._transport.write(line.encode("ascii") + b"\n")
        return self._reply

    def has_ended(self) -> bool:
        """Whether it is of no more use, as far as can be seen before the loop runs again."""
        connection = self._transport and self._transport.get_extra_info("socket")
        return self._failed is not None or connection is None or has_ended(connection.fileno())

    def end(self, failed: ConnectionError) -> None:
        """Ends the connection. The first reason counts."""
        self._failed = self._failed or failed
        if self._reply and not self._reply.done():
            self._reply.set_result(self._failed)
        if self._transport:
            self._transport.abort()

    def connection_made(self, transport: asyncio.BaseTransport) -> None:
        self._transport = cast(asyncio.Transport, transport)
        if self._failed:
            self._transport.abort()

    def data_received(self, data: bytes) -> None:
        self._received += data
        try:
            reply = reply_in(self._received)
        except ConnectionError as failed:
            self.end(failed)
            return
        if not self._reply or self._reply.done():
            self.end(ConnectionError("a reply came to no line"))
        elif reply is not None:
            self._reply.set_result(reply)

    def connection_lost(self, exc: Optional[Exception]) -> None:
        if isinstance(exc, ConnectionError):
            self.end(exc)  # as a blocking session raises it
        else:
            failed = ConnectionError(f"the connection failed: {exc}" if exc else "the service ended the session")
            failed.__cause__ = exc
            self.end(failed)
        if not self.is_lost.done():
            self.is_lost.set_result(None)


class Session:
    """The calls of :class:`truetime.Session`, with the same refusals, errors and rules.

    Calls of several tasks take turns. A session has one commit at a time, so each task that commits wants a session of its
    own, or one of a :class:`Pool`.

    A call that is cancelled, as by :func:`asyncio.wait_for`, leaves the session as it is. If its line was sent, the reply is
    still to come: the next call waits for it, and drops it. The call may have been done:

    - After :meth:`wait`, call :meth:`wait` again. :meth:`begin` raises :class:`truetime.CommitPending` before that.
    - After :meth:`begin` or :meth:`commit`, nobody has the timestamp, and no other commit gets it: the next one has the service
      release that commit first.
    - After :meth:`lease`, the lease is the old one or the new one.
    """

    def __init__(self, address: Address, timeout_s: float = TIMEOUT_S, max_width_ns: Optional[int] = None) -> None:
        """Takes a TCP address, or the path of a Unix socket. ``async with`` connects, or else the first call does.

        ``timeout_s`` is how long connecting, each receiving and the waiting for a release may take, and ``max_width_ns`` is as in
        :class:`truetime.Session`.
        """
        self._address, self._timeout_s = address_of(address), at_most(timeout_s)
        self._calls = Calls(timeout_s, max_width_ns)
        self._is_closed = False
        self._turn: Optional[asyncio.Lock] = None
        self._connection: Optional[_Connection] = None
        # The reply that is still to come, until when, and the call to which it does.
        self._owed: "Optional[tuple[asyncio.Future[Union[str, ConnectionError]], float, Call[Any]]]" = None

    @classmethod
    async def connect(cls, address: Address, timeout_s: float = TIMEOUT_S, max_width_ns: Optional[int] = None) -> "Session":
        """A session that is connected. Close it in the end."""
        return await cls(address, timeout_s, max_width_ns).__aenter__()

    async def close(self) -> None:
        """Ends the session for good, and a call that is under way, which fails. A commit that is not released then is never
        known as released."""
        self._is_closed = True
        connection = self._connection
        self._drop()
        if connection:
            await asyncio.wait({connection.is_lost})

    @property
    def is_idle(self) -> bool:
        """As :attr:`truetime.Session.is_idle`; nor may a reply be still to come."""
        connection = self._connection
        return connection is not None and not connection.has_ended() and self._owed is None and self._calls.is_idle

    async def __aenter__(self) -> "Session":
        if not self._connection:
            await self._connect()
        return self

    async def __aexit__(self, *_: object) -> None:
        await self.close()

    async def ask(self, line: str) -> str:
        """As :meth:`truetime.Session.ask`."""
        return await self._made(self._calls.ask(line))

    async def now(self) -> Interval:
        """As :meth:`truetime.Session.now`."""
        return await self._made(self._calls.now())

    async def after(self, t_ns: int) -> bool:
        """As :meth:`truetime.Session.after`."""
        return await self._made(self._calls.compare("after", t_ns))

    async def before(self, t_ns: int) -> bool:
        """As :meth:`truetime.Session.before`."""
        return await self._made(self._calls.compare("before", t_ns))

    async def lease(self, lo_ns: int, hi_ns: int) -> None:
        """As :meth:`truetime.Session.lease`."""
        await self._made(self._calls.lease(lo_ns, hi_ns))

    async def begin(self, floor_ns: int = 0) -> int:
        """As :meth:`truetime.Session.begin`."""
        return await self._made(self._calls.begin(floor_ns))

    async def wait(self) -> int:
        """As :meth:`truetime.Session.wait`."""
        return await self._made(self._calls.wait())

    async def commit(self, floor_ns: int = 0) -> int:
        """As :meth:`truetime.Session.commit`."""
        return await self._made(self._calls.commit(floor_ns))

    async def _made(self, call: "Call[_T]") -> _T:
        """What a call gives, once it has its turn and the reply that is owed has come."""
        self._turn = self._turn or asyncio.Lock()
        async with self._turn:
            self._check_open()
            try:
                if self._owed:
                    _, _, cancelled = self._owed
                    self._calls.take_late(cancelled, await self._received())
                self._look()
                step = next(call)
                while True:
                    if isinstance(step, str):
                        step = call.send(await self._exchanged(call, step))
                    elif step is None:
                        self._drop()
                        step = call.send("")
                    else:
                        await asyncio.sleep(step)
                        step = call.send("")
            except StopIteration as done:
                given: _T = done.value
                return given
            except ConnectionError as failed:
                raise self._lost(failed)

    def _look(self) -> None:
        """Gives up a connection that has ended. Raises where that loses what the caller has to make good."""
        if self._connection and self._connection.has_ended():
            failed = self._lost(ConnectionError("the service ended the session"))
            if isinstance(failed, SessionLost):
                raise failed

    async def _exchanged(self, call: "Call[Any]", line: str) -> str:
        give_up = time.monotonic() + self._timeout_s
        connection = self._connection or await self._connect()
        reply = connection.send(line)
        self._owed = reply, give_up, call
        return await self._received()

    async def _received(self) -> str:
        """The reply that is owed. It stays owed where this is cancelled."""
        assert self._owed
        reply, give_up, _ = self._owed
        await asyncio.wait({reply}, timeout=max(give_up - time.monotonic(), 0))
        self._owed = None
        if not reply.done():
            raise self._lost(TimeoutError("no reply in time"))
        received = reply.result()
        if isinstance(received, ConnectionError):
            raise received
        return received

    async def _connect(self) -> _Connection:
        self._check_open()
        connection = _Connection()
        connecting = asyncio.get_running_loop().create_task(_reach(self._address, connection))
        try:
            await asyncio.wait({connecting}, timeout=self._timeout_s)
            if not connecting.done():
                raise TimeoutError("no connection in time")
            connecting.result()
        except BaseException:
            connecting.cancel()
            connection.end(ConnectionError("the connection was given up"))
            raise
        self._connection = connection
        if self._is_closed:  # meanwhile
            self._drop()
        self._check_open()
        self._calls.connected(self._address)
        return connection

    def _check_open(self) -> None:
        if self._is_closed:
            raise ConnectionError("the session is closed")

    def _lost(self, failed: OSError) -> OSError:
        """Gives the connection up; the error that says so."""
        if self._connection and not self._is_closed:
            log.warning("the connection failed: %s", failed)
        error = self._calls.lost(failed)
        self._drop()
        return error

    def _drop(self) -> None:
        """Gives the connection up, and all that belongs to it."""
        if self._connection:
            self._connection.end(ConnectionError("the session is closed"))
        self._connection = self._owed = None
        self._calls.forget()


class Pool:
    """The calls of :class:`truetime.Pool`, with the same rules. It belongs to one event loop."""

    def __init__(self, opened: Callable[[], Awaitable[Session]], size: int = 8, timeout_s: float = TIMEOUT_S) -> None:
        """Takes what gives a session that is connected, as ``lambda: aio.Session.connect(address)``."""
        if size < 1:
            raise ValueError("a pool has one session at least")
        self._opened, self._size, self._timeout_s = opened, size, at_most(timeout_s)
        self._places: Optional[asyncio.Semaphore] = None
        self._idle: List[Session] = []
        self._is_closed = False

    async def close(self) -> None:
        """As :meth:`truetime.Pool.close`."""
        self._is_closed = True
        while self._idle:
            await self._idle.pop().close()

    async def __aenter__(self) -> "Pool":
        return self

    async def __aexit__(self, *_: object) -> None:
        await self.close()

    async def commit(self, floor_ns: int = 0) -> int:
        """As :meth:`truetime.Pool.commit`."""
        async with self.session() as session:
            return await session.commit(floor_ns)

    @contextlib.asynccontextmanager
    async def session(self) -> AsyncIterator[Session]:
        """As :meth:`truetime.Pool.session`, with ``async with``."""
        places = self._places = self._places or asyncio.Semaphore(self._size)
        await self._take_place(places)
        try:
            session = await self._taken()
            try:
                yield session
            finally:
                if self._is_closed or not session.is_idle:
                    await session.close()
                else:
                    self._idle.append(session)
        finally:
            places.release()

    async def _take_place(self, places: asyncio.Semaphore) -> None:
        waiting = asyncio.get_running_loop().create_task(places.acquire())
        try:
            await asyncio.wait({waiting}, timeout=self._timeout_s)
        except asyncio.CancelledError:
            if not waiting.cancel():
                places.release()
            raise
        if waiting.cancel():
            raise TimeoutError("no session is free in time")

    async def _taken(self) -> Session:
        while self._idle and not self._is_closed:
            session = self._idle.pop()
            if session.is_idle:
                return session
            await session.close()
        if self._is_closed:
            raise ConnectionError("the pool is closed")
        return await self._opened()


async def _reach(address: Reached, connection: _Connection) -> None:
    """Connects to the service."""
    loop = asyncio.get_running_loop()
    if isinstance(address, str):
        await loop.create_unix_connection(lambda: connection, sock=await _connected(address))
    else:
        await loop.create_connection(lambda: connection, *address)


async def _connected(path: str) -> socket.socket:
    """A socket that is connected to the one at this path."""
    made = socket.socket(socket.AF_UNIX)
    try:
        made.setblocking(False)
        while True:
            try:
                made.connect(path)
                return made
            except BlockingIOError:  # as many wait there as may, of which asyncio would make a connection
                await asyncio.sleep(CONNECT_PAUSE_S)
    except BaseException:
        made.close()
        raise
