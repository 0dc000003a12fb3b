"""Refusals and what all modules of the package know."""
import enum
from typing import Any

#: The greatest time and the greatest clock reading, in nanoseconds.
MAX_TIME_NS = 4_000_000_000_000_000_000

_MEANINGS = {
    1: "the service is out of memory",
    101: "the ends of the lease are out of order",
    102: "the end of the lease is above the greatest time",
    801: "the daemon has published nothing so far, or nothing is published any more",
    802: "the clock is below that of the publication, or above the greatest time",
    803: "the clock gave no reading",
    901: "no stamp is left up to the greatest time",
    902: "the floor is too far ahead of the latest",
    903: "the lease is over, or was lost with its connection: set it again",
    1001: "as many commits are pending as may",
    1002: "a commit with this id is pending or was released",
    1003: "another commit has this timestamp",
    1101: "the service knows no such line",
    1102: "the line has more than 64 bytes",
    1103: "a later commit has begun in this session",
    1104: "the last commit is not known as released",
    1701: "the file cannot be opened, mapped or read",
    1702: "not such a file, or of another owner, writable by others, of another boot or another clock",
    1703: "no daemon wrote what stands there",
    1704: "another publication came during each of the tries",
    1708: "the clock is past the last reading at which the publication may be used",
    1710: "the file gives nothing by CLOCK_MONOTONIC",
    1821: "the floor, or the lower end of the lease, is further ahead than the machine allows",
    1822: "the commit is pending no more: its connection broke, or the machine ends",
    1823: "the machine knows that an assumption of the service is broken",
    1824: "the reading is wider than the machine allows, or than max_width of this client",
}


class Refusal(enum.IntEnum):
    """The numbers of refusals, as ``refused.number == Refusal.READING_TOO_WIDE``. The text of a :class:`Refused` says what each means."""

    OUT_OF_MEMORY = 1
    LEASE_BACKWARDS = 101
    LEASE_PAST_MAX = 102
    NOTHING = 801
    CLOCK_BACK = 802
    CLOCK_FAILED = 803
    USED_UP = 901
    FLOOR_TOO_FAR = 902
    LEASE_OVER = 903
    TOO_MANY_COMMITS = 1001
    ID_USED = 1002
    STAMP_USED = 1003
    NO_LINE = 1101
    LINE_TOO_LONG = 1102
    COMMIT_PASSED = 1103
    COMMIT_PENDING = 1104
    NO_FILE = 1701
    OTHER_FILE = 1702
    NO_SLOT = 1703
    BUSY = 1704
    TOO_WIDE = 1708
    NO_SLEWED = 1710
    FLOOR_ABOVE_CAP = 1821
    COMMIT_GONE = 1822
    BROKEN = 1823
    READING_TOO_WIDE = 1824


class Refused(Exception):
    """A refusal; ``number`` says which: :class:`Refusal` has their names."""

    def __init__(self, number: int, more: str = "") -> None:
        super().__init__(f"refused {number}: {_MEANINGS.get(number, 'see docs/reference/refusals.md')}{more}")
        self.number = number
        self._more = more

    def __reduce__(self) -> "tuple[Any, ...]":
        return type(self), (self.number, self._more), self.__dict__


class CommitPending(Refused):
    """The refusal 1104 of a session: a commit whose timestamp ``begin`` gave is not known as released. ``wait`` for it.

    ``commit`` is its number in the session, ``stamp_ns`` its timestamp.
    """

    def __init__(self, commit: int, stamp_ns: int) -> None:
        super().__init__(1104, f": call wait() for commit {commit}, whose timestamp is {stamp_ns}")
        self.commit, self.stamp_ns = commit, stamp_ns

    def __reduce__(self) -> "tuple[Any, ...]":
        return type(self), (self.commit, self.stamp_ns), self.__dict__


class SessionLost(ConnectionError):
    """The connection of a session failed, and took along what its caller has to make good. ``__cause__`` says how it failed.

    ``stamp_ns`` is the timestamp of the commit of ``begin`` that was pending, and ``commit`` its number in that session; both
    are 0 where there was none. It is never known as released: begin it again, or give it up. ``had_lease`` says whether the
    session had a lease: a new one has none until it is set again.
    """

    def __init__(self, failed: OSError, commit: int, stamp_ns: int, had_lease: bool) -> None:
        said = [str(failed)]
        if commit:
            said.append(f"commit {commit}, whose timestamp is {stamp_ns}, was pending: begin it again, or give it up")
        if had_lease:
            said.append("the lease has to be set again")
        super().__init__("; ".join(said))
        self.commit, self.stamp_ns, self.had_lease = commit, stamp_ns, had_lease
        self._failed = self.__cause__ = failed

    def __reduce__(self) -> "tuple[Any, ...]":
        return type(self), (self._failed, self.commit, self.stamp_ns, self.had_lease), self.__dict__
