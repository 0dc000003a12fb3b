"""Sessions with the service."""
import contextlib
import socket
import threading
import time
from typing import Optional, TypeVar

from ._calls import CONNECT_PAUSE_S, LINE_BYTES, TIMEOUT_S, Address, Call, Calls, Interval, Reached, address_of, at_most, has_ended, log, reply_in
from .refusals import SessionLost

_T = TypeVar("_T")


class Session:
    """A session with the service: one line and its reply at a time.

    Calls of several threads take turns. A session has one commit at a time, so each thread that commits wants a session of its
    own, or one of a :class:`truetime.Pool`.

    A call raises :class:`Refused` where the service refuses, and an :class:`OSError` where the connection fails:
    :class:`TimeoutError` where no reply came in time, :class:`ConnectionError` where the service ended the session or what
    came is no reply. Nobody knows then whether a commit that was asked for was begun. It is a :class:`SessionLost` where a
    commit of :meth:`begin` was pending or a lease was set.

    The next call after that connects anew, to a new session of the service. So does a call that finds the connection ended
    before its line was sent, as behind a pause, where that loses nothing of the caller's; no line is sent a second time. Nor is
    the lease set again: once :meth:`lease` was called, :meth:`begin` and :meth:`commit` refuse with 903 as long as the
    connection has no lease.

    Times are whole numbers: a float raises :class:`TypeError`, and one below 0 or above 2**64 - 1 :class:`ValueError`; nothing is
    sent then. An exception of a signal handler, as :class:`KeyboardInterrupt`, ends the connection where it comes while a reply is
    awaited: then a commit that was pending and the lease are lost, too.
    """

    def __init__(self, address: Address, timeout_s: float = TIMEOUT_S, max_width_ns: Optional[int] = None) -> None:
        """Connects to a TCP address, or to the Unix socket at a path.

        ``timeout_s`` is how long connecting, sending, each receiving and the waiting for a release may take. Connecting anew is
        part of the sending and receiving that follow it. One of more than 23 days counts as 23 days.

        Readings wider than ``max_width_ns`` are refused with 1824, also where the machine allows them: :meth:`now` looks at each,
        :meth:`after` and :meth:`before` compare with one of that, and before a commit begins one is asked for.
        """
        self._address, self._timeout_s = address_of(address), at_most(timeout_s)
        self._calls = Calls(timeout_s, max_width_ns)
        self._is_closed = False
        self._turn, self._is_busy = threading.RLock(), False
        self._socket: Optional[socket.socket] = None
        self._connect()

    def close(self) -> None:
        """Ends the session for good, and a call of another thread that is under way, which fails. A commit that is not released
        then is never known as released."""
        self._is_closed = True
        connection = self._socket
        if connection:
            with contextlib.suppress(OSError):
                connection.shutdown(socket.SHUT_RDWR)
        with self._turn:
            self._drop()

    @property
    def is_idle(self) -> bool:
        """Whether it is connected, as far as can be seen, and no commit of it is pending."""
        connection = self._socket
        return connection is not None and not has_ended(connection.fileno()) and self._calls.is_idle

    def __enter__(self) -> "Session":
        return self

    def __exit__(self, *_: object) -> None:
        self.close()

    def ask(self, line: str) -> str:
        """Sends one line and gives its reply, both without the line feed. Raises nothing for ``refused N``.

        Begin no commit and set no lease by it: the other calls do not know of that. Raises :class:`ValueError` where the line
        has more than 64 bytes, or a byte that is no printable ASCII.
        """
        return self._made(self._calls.ask(line))

    def now(self) -> Interval:
        """The time now."""
        return self._made(self._calls.now())

    def after(self, t_ns: int) -> bool:
        """Whether time ``t_ns`` has surely passed."""
        return self._made(self._calls.compare("after", t_ns))

    def before(self, t_ns: int) -> bool:
        """Whether time ``t_ns`` has surely not arrived."""
        return self._made(self._calls.compare("before", t_ns))

    def lease(self, lo_ns: int, hi_ns: int) -> None:
        """Sets the lease: timestamps of commits that begin from now on lie from ``lo_ns`` to ``hi_ns``, both included.

        Refuses with 101 and 102, and then the lease is what it was; where there was none, :meth:`begin` and :meth:`commit` refuse with
        903 until one is set.
        """
        self._made(self._calls.lease(lo_ns, hi_ns))

    def begin(self, floor_ns: int = 0) -> int:
        """Begins a commit and gives its timestamp, no less than ``floor_ns``.

        One commit at a time: raises :class:`truetime.CommitPending` before the release of the last one that was begun by this.
        One that :meth:`commit` left pending is ended first, as that says. Refuses with 903 where the lease is over or was lost
        with its connection: set it again. After another refusal begin again, with the same floor: one that began all the same
        is ended first, too.
        """
        return self._made(self._calls.begin(floor_ns))

    def wait(self) -> int:
        """Waits until the timestamp of the commit has surely passed, and gives it.

        Raises :class:`TimeoutError` where that takes longer than the time-out; as after a refusal, the commit still waits
        then, and may be waited for again. Raises :class:`RuntimeError` where no commit was begun, or the connection of the
        last one failed.
        """
        return self._made(self._calls.wait())

    def commit(self, floor_ns: int = 0) -> int:
        """Begins a commit, waits for its release, and gives its timestamp, with the errors of :meth:`begin` and :meth:`wait`.

        Where it fails while it waits, the commit stays pending, and nobody has its timestamp. :meth:`wait` goes on with it; the
        next :meth:`commit` or :meth:`begin` waits for its release first, and then begins another one.
        """
        return self._made(self._calls.commit(floor_ns))

    def _made(self, call: "Call[_T]") -> _T:
        """What a call gives, once it has its turn."""
        with self._turn:
            if self._is_busy:
                raise RuntimeError("a call of this thread is under way")
            self._is_busy = True
            try:
                return self._made_in_turn(call)
            finally:
                self._is_busy = False

    def _made_in_turn(self, call: "Call[_T]") -> _T:
        self._check_open()
        self._look()
        try:
            step = next(call)
            while True:
                if isinstance(step, str):
                    step = call.send(self._exchanged(step))
                elif step is None:
                    self._drop()
                    step = call.send("")
                else:
                    time.sleep(step)
                    step = call.send("")
        except StopIteration as done:
            given: _T = done.value
            return given
        except ConnectionError as failed:
            raise self._lost(failed)

    def _check_open(self) -> None:
        if self._is_closed:
            raise ConnectionError("the session is closed")

    def _look(self) -> None:
        """Gives up a connection that has ended. Raises where that loses what the caller has to make good."""
        if self._socket and has_ended(self._socket.fileno()):
            failed = self._lost(ConnectionError("the service ended the session"))
            if isinstance(failed, SessionLost):
                raise failed

    def _exchanged(self, line: str) -> str:
        """Sends a line, and gives its reply. Without a reply the connection is given up."""
        give_up = time.monotonic() + self._timeout_s
        is_new = self._socket is None
        connection = self._socket or self._connect()
        try:
            if is_new:  # connecting took some of the time
                connection.settimeout(max(give_up - time.monotonic(), 0.001))
            connection.sendall(line.encode("ascii") + b"\n")
            received, reply = b"", None
            while reply is None:
                piece = connection.recv(LINE_BYTES + 1 - len(received))
                if not piece:
                    raise ConnectionError("the service ended the session")
                received += piece
                reply = reply_in(received)
            if is_new:
                connection.settimeout(self._timeout_s)
            return reply
        except socket.timeout:
            late = self._lost(TimeoutError("no reply in time"))
            raise late from late.__cause__
        except OSError as failed:
            raise self._lost(failed)
        except BaseException:
            self._drop()
            raise

    def _connect(self) -> socket.socket:
        self._check_open()
        try:
            self._socket = _connected(self._address, self._timeout_s)
        except socket.timeout as failed:
            raise TimeoutError("no connection in time") from failed
        self._calls.connected(self._address)
        return self._socket

    def _lost(self, failed: OSError) -> OSError:
        """Gives the connection up; the error that says so."""
        if self._is_closed:
            failed = ConnectionError("the session is closed")
        elif self._socket:
            log.warning("the connection failed: %s", failed)
        error = self._calls.lost(failed)
        self._drop()
        return error

    def _drop(self) -> None:
        """Gives the connection up, and all that belongs to it."""
        if self._socket:
            self._socket.close()
        self._socket = None
        self._calls.forget()


def _connected(address: Reached, timeout_s: float) -> socket.socket:
    if not isinstance(address, str):
        made = socket.create_connection(address, timeout_s)
        made.setsockopt(socket.IPPROTO_TCP, socket.TCP_NODELAY, 1)
        return made
    made, end = socket.socket(socket.AF_UNIX), time.monotonic() + timeout_s
    try:
        made.settimeout(timeout_s)
        while True:
            try:
                made.connect(address)
                return made
            except BlockingIOError:  # as many wait there as may
                if time.monotonic() >= end:
                    raise socket.timeout from None
                time.sleep(CONNECT_PAUSE_S)
    except BaseException:
        made.close()
        raise
