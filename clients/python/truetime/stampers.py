"""Timestamps for commits, given in this process by a reader."""
import operator
import threading
import time
from typing import NamedTuple, Union

from .readers import Client, Reading
from .refusals import MAX_TIME_NS, Refused

#: The most that a floor may lie ahead of the latest of a reading, in nanoseconds: ten seconds.
MAX_AHEAD_NS = 10_000_000_000
#: How far it may, unless a stamper says otherwise: a second, as for sessions.
AHEAD_NS = 1_000_000_000
#: The widest grid.
MAX_GRID_NS = 1_000_000_000
#: The longest sleep of a stamper before a new reading.
_LONGEST_SLEEP_NS = 50_000_000


class Stamp(NamedTuple):
    """A timestamp, and the reading by which it was given: ``latest_ns <= stamp_ns``."""

    stamp_ns: int
    earliest_ns: int
    latest_ns: int
    #: False where the daemon is late or gone: stamps are right, and waits grow longer until the daemon is back.
    fresh: bool
    #: The daemon's life.
    epoch: int


class Stamper:
    """Gives the timestamps of one lease. Any number of threads may use one stamper.

    One lease, one stamper. A stamper knows of no other one: two stampers, also the two that a fork leaves, or a stamper and
    the sessions of the machine, give equal stamps and stamps out of order, unless their leases have no time in common. The
    setting ``stampers`` of the machine keeps its sessions out of an interval.

    A stamper keeps nothing on disk. After a restart open it with a new lease, or with the old one and, until the first stamp
    is given, a floor above the greatest stamp in the log; where that is refused with 902, the log or the time is wrong.
    """

    def __init__(
        self,
        client: Client,
        lease_lo_ns: int = 0,
        lease_hi_ns: int = MAX_TIME_NS,
        *,
        ahead_ns: int = AHEAD_NS,
        grid_ns: int = 1,
    ) -> None:
        """Opens a stamper over an open client, with a lease of all times from the one to the other.

        A floor may lie ``ahead_ns`` ahead of the latest, ten seconds at most: it moves all later stamps, too. Stamps are multiples
        of ``grid_ns``, a second at most: 1,000 where a database keeps microseconds. Refuses with 101 and 102; other numbers raise
        :class:`ValueError`. All times are whole numbers: a float, which has no room for one, raises :class:`TypeError` in each call.
        """
        lease_lo_ns, lease_hi_ns = operator.index(lease_lo_ns), operator.index(lease_hi_ns)
        ahead_ns, grid_ns = operator.index(ahead_ns), operator.index(grid_ns)
        if lease_hi_ns < lease_lo_ns:
            raise Refused(101)
        if lease_hi_ns > MAX_TIME_NS:
            raise Refused(102)
        if not (0 <= ahead_ns <= MAX_AHEAD_NS and 1 <= grid_ns <= MAX_GRID_NS):
            raise ValueError("ahead_ns is up to ten seconds, and grid_ns from 1 to a second")
        self._client = client
        self._lease_lo_ns, self._lease_hi_ns = lease_lo_ns, lease_hi_ns
        self._ahead_ns, self._grid_ns = ahead_ns, grid_ns
        # The least time above all stamps given: 0, or one more than the last.
        self._least_free_ns = 0
        self._lock = threading.Lock()

    @property
    def client(self) -> Client:
        """The reader."""
        return self._client

    def extend(self, lease_hi_ns: int) -> None:
        """Has the lease end later, while other threads stamp. It never ends earlier by this. Refuses with 102."""
        lease_hi_ns = operator.index(lease_hi_ns)
        if lease_hi_ns > MAX_TIME_NS:
            raise Refused(102)
        with self._lock:
            self._lease_hi_ns = max(self._lease_hi_ns, lease_hi_ns)

    def rise_above(self, t_ns: int) -> None:
        """Has all stamps from now on be above this time, as above the greatest in a log. Refuses with 102."""
        t_ns = operator.index(t_ns)
        if t_ns > MAX_TIME_NS:
            raise Refused(102)
        with self._lock:
            self._least_free_ns = max(self._least_free_ns, t_ns + 1)

    def stamp(self, floor_ns: int = 0) -> Stamp:
        """Gives the least stamp on the grid that is no less than the latest of a reading taken in this call, ``floor_ns`` and the
        beginning of the lease, and above every stamp before of this stamper.

        Refuses as :meth:`Client.now`, and then, in this order, with 902 where the floor is too far ahead, 901 where there is no
        such stamp up to the greatest time, and 903 where it is above the end of the lease. No stamp is used up then.
        """
        reading = self._client.now()
        return Stamp(self.stamp_at(reading, floor_ns), reading.earliest_ns, reading.latest_ns, reading.fresh, reading.epoch)

    def stamp_at(self, reading: Reading, floor_ns: int) -> int:
        """The stamp by a reading, which has to be taken after the commit has arrived: ``stamp`` takes it itself.

        Refuses with 902, 901 and 903.
        """
        floor_ns = operator.index(floor_ns)
        if floor_ns > reading.latest_ns + self._ahead_ns:
            raise Refused(902)
        with self._lock:
            stamp_ns = max(reading.latest_ns, floor_ns, self._lease_lo_ns, self._least_free_ns)
            stamp_ns += -stamp_ns % self._grid_ns
            if stamp_ns > MAX_TIME_NS:
                raise Refused(901)
            if stamp_ns > self._lease_hi_ns:
                raise Refused(903)
            self._least_free_ns = stamp_ns + 1
        return stamp_ns

    def is_past(self, stamp_ns: int) -> bool:
        """Whether a stamp, of any stamper, has surely passed: it is below the earliest of a reading taken in this call.

        Refuses as :meth:`Client.now`.
        """
        return self._client.now().after(operator.index(stamp_ns))

    def left_ns(self, stamp_ns: int) -> int:
        """One step of :meth:`wait_past`, for who has to look at something else meanwhile: 0 where a stamp has surely passed, or else
        how long to sleep before the next look, at most 50 milliseconds. Refuses as :meth:`Client.now`."""
        stamp_ns, now = operator.index(stamp_ns), self._client.now()
        return 0 if now.after(stamp_ns) else min(stamp_ns - now.earliest_ns + 1, _LONGEST_SLEEP_NS)

    def wait_past(self, stamp_ns: int, timeout_s: Union[float, None] = None) -> bool:
        """Sleeps until a stamp has surely passed; False where it has not at the end of the time-out.

        A reading is taken at once, and after each sleep, which is as long as the stamp is ahead of the earliest, but at most 50
        milliseconds, since a new publication may be narrower. Refuses as :meth:`Client.now`; then it may be called again.
        """
        deadline = None if timeout_s is None else time.monotonic() + timeout_s
        while True:
            pause_s = self.left_ns(stamp_ns) / 1e9
            if not pause_s:
                return True
            if deadline is not None:
                left_s = deadline - time.monotonic()
                if left_s <= 0:
                    return False
                pause_s = min(pause_s, left_s)
            time.sleep(pause_s)
