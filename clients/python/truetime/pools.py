"""Sessions for many threads."""
import contextlib
import threading
from typing import Callable, Iterator, List

from ._calls import TIMEOUT_S, at_most
from .sessions import Session


class Pool:
    """Sessions with one machine, for the threads of a program::

        with truetime.Pool(lambda: truetime.Session(("127.0.0.1", 5601)), size=16) as pool:
            with pool.session() as session:
                stamp_ns = session.begin()
                ...                         # write and commit locally, under this timestamp
                session.wait()

    A session is opened when none is idle, and handed out again only where its connection has not ended and none of its commits
    is pending. One that comes back otherwise is closed: nobody else gets its commit.
    """

    def __init__(self, opened: Callable[[], Session], size: int = 8, timeout_s: float = TIMEOUT_S) -> None:
        """Takes what opens a session, and sets its lease where commits have one. No session is opened so far.

        ``size`` is how many sessions there are at most, and ``timeout_s`` how long a thread waits for one.
        """
        if size < 1:
            raise ValueError("a pool has one session at least")
        self._opened, self._timeout_s = opened, at_most(timeout_s)
        self._places = threading.BoundedSemaphore(size)
        self._idle: List[Session] = []
        self._is_closed = False
        self._lock = threading.Lock()

    def close(self) -> None:
        """Closes the sessions that are idle, and each other one when it comes back. Calls raise :class:`ConnectionError` then."""
        with self._lock:
            self._is_closed = True
            idle, self._idle = self._idle, []
        for session in idle:
            session.close()

    def __enter__(self) -> "Pool":
        return self

    def __exit__(self, *_: object) -> None:
        self.close()

    def commit(self, floor_ns: int = 0) -> int:
        """As :meth:`truetime.Session.commit`, by a session of the pool, with the errors of :meth:`session`."""
        with self.session() as session:
            return session.commit(floor_ns)

    @contextlib.contextmanager
    def session(self) -> Iterator[Session]:
        """A session that nobody else has until the block ends.

        Raises :class:`TimeoutError` where none is free in time, and the errors of opening one. A commit that is pending when the
        block ends is never known as released.
        """
        if not self._places.acquire(timeout=self._timeout_s):
            raise TimeoutError("no session is free in time")
        try:
            session = self._taken()
            try:
                yield session
            finally:
                self._take_back(session)
        finally:
            self._places.release()

    def _taken(self) -> Session:
        """The idle session that was used last, or a new one."""
        while True:
            with self._lock:
                if self._is_closed:
                    raise ConnectionError("the pool is closed")
                session = self._idle.pop() if self._idle else None
            if session is None:
                return self._opened()
            if session.is_idle:
                return session
            session.close()

    def _take_back(self, session: Session) -> None:
        is_kept = session.is_idle
        with self._lock:
            is_kept = is_kept and not self._is_closed
            if is_kept:
                self._idle.append(session)
        if not is_kept:
            session.close()
