"""The commits of a process that are begun and not written, for snapshots."""
import threading
import time
from typing import Callable, Dict, Optional

from .stampers import Stamper


class PendingTable:
    """The commits of one stamper from their stamps until they are written, so that snapshots hold all that they have to.

    A database begins each commit by :meth:`begin`, writes it under its stamp, says so by :meth:`written`, and tells nobody before
    :meth:`release`; :meth:`commit` does all of that. A snapshot at a time that :meth:`make_readable` or :meth:`watermark` gave holds
    every commit with a stamp up to it, and no later one gets such a stamp. Any number of threads may use one table; no stamp of the
    stamper may be taken past it.
    """

    def __init__(self, stamper: Stamper) -> None:
        """A table of no commits."""
        self._stamper = stamper
        # The stamps of commits that are not written. They rise.
        self._unwritten: Dict[int, None] = {}
        self._changed = threading.Condition(threading.Lock())

    def begin(self, floor_ns: int = 0) -> int:
        """Begins a commit: its stamp, as :meth:`Stamper.stamp` gives it, with its refusals. It has to be ended by :meth:`written` or
        :meth:`give_up`."""
        with self._changed:
            stamp_ns = self._stamper.stamp(floor_ns).stamp_ns
            self._unwritten[stamp_ns] = None
            return stamp_ns

    def written(self, stamp_ns: int) -> None:
        """Says that a commit is written: who reads under its stamp sees it from now on. Raises :class:`ValueError` where no commit
        with this stamp is pending."""
        self._end(stamp_ns)

    def give_up(self, stamp_ns: int) -> None:
        """Says that a commit is never written. Raises :class:`ValueError` where no commit with this stamp is pending."""
        self._end(stamp_ns)

    def release(self, stamp_ns: int, timeout_s: Optional[float] = None) -> bool:
        """Waits until the stamp of a commit that is written has surely passed: only then may anybody be told. As
        :meth:`Stamper.wait_past`. Raises :class:`ValueError` where it is not written."""
        with self._changed:
            if stamp_ns in self._unwritten:
                raise ValueError("the commit is not written")
        return self._stamper.wait_past(stamp_ns, timeout_s)

    def commit(self, write: Callable[[int], None], floor_ns: int = 0) -> int:
        """Begins a commit, has it written under its stamp, and waits until that has surely passed: its stamp.

        Where ``write`` raises, the commit counts as ended: it has to be written by then, or never to be. Where that is not known, as
        behind a lost connection to the database, call :meth:`begin`, and end it once it is.

        Refuses as :meth:`begin` does, and then ``write`` was not called; or as :meth:`Stamper.wait_past` does, as while the masters
        are away, and then the commit is written and not released: call :meth:`release` with the stamp that ``write`` was given.
        """
        stamp_ns = self.begin(floor_ns)
        try:
            write(stamp_ns)
        finally:
            self._end(stamp_ns)
        self._stamper.wait_past(stamp_ns)
        return stamp_ns

    def watermark(self) -> Optional[int]:
        """The greatest time that has surely passed and up to which all commits are written; None where there is none. Refuses as
        :meth:`Client.now`."""
        with self._changed:
            # Whoever begins a commit behind this reading gets a stamp that is no less than its earliest.
            bound_ns = min(self._stamper.client.now().earliest_ns, self._least())
        return bound_ns - 1 if bound_ns else None

    def make_readable(self, t_ns: int, timeout_s: Optional[float] = None) -> bool:
        """Waits until a time has surely passed and all commits up to it are written; False where it has not at the end of the
        time-out. Refuses as :meth:`Client.now`."""
        deadline = None if timeout_s is None else time.monotonic() + timeout_s
        if not self._stamper.wait_past(t_ns, timeout_s):
            return False
        with self._changed:
            left_s = None if deadline is None else max(deadline - time.monotonic(), 0)
            return self._changed.wait_for(lambda: self._least() > t_ns, left_s and min(left_s, threading.TIMEOUT_MAX))

    def _least(self) -> int:
        return next(iter(self._unwritten), 2**64)

    def _end(self, stamp_ns: int) -> None:
        with self._changed:
            if stamp_ns not in self._unwritten:
                raise ValueError("no commit with this stamp is pending")
            del self._unwritten[stamp_ns]
            self._changed.notify_all()
