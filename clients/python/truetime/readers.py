"""The reader of the file in which a daemon shares its last publication."""
import mmap
import operator
import os
import pwd
import stat
import struct
import sys
import threading
import time
from typing import NamedTuple, Optional, Union

from .refusals import MAX_TIME_NS, Refused

#: The greatest drift of a clock, in parts per million.
MAX_DRIFT_PPM = 100_000

_BYTES = 320
_INDEX_AT = 16
_SLOTS_AT = (64, 192)
_TRIES = 1000
_HEAD = b"TTS3\x40\1\0\0"
# The clocks that a file may have, by their numbers in Linux, which are those of Python.
_CLOCKS = (time.CLOCK_MONOTONIC, time.CLOCK_MONOTONIC_RAW)
_LOWEST_BITS = 0x0101010101010101
# "@" makes CPython copy each number as one word of eight bytes; "<" or "=" would copy it byte by byte.
_WORD = struct.Struct("@Q")
_SLOT = struct.Struct("@16Q")
# The time from one look at the path to the next.
_LOOK_NS = 1_000_000_000


class Reading(NamedTuple):
    """What is known of the true time: it lies from ``earliest_ns`` to ``latest_ns``, both included."""

    earliest_ns: int
    latest_ns: int
    #: The daemon's life, and the number in it of the publication that was read.
    epoch: int
    number: int
    #: False where the daemon is late or gone: the interval is right, and widens until the daemon is back.
    fresh: bool

    def after(self, t_ns: int) -> bool:
        """Whether time ``t_ns`` has surely passed."""
        return t_ns < self.earliest_ns

    def before(self, t_ns: int) -> bool:
        """Whether time ``t_ns`` has surely not arrived."""
        return t_ns > self.latest_ns


class Publication(NamedTuple):
    """What the daemon published."""

    #: The machine's clock at the fusion: that of ``clock_id``, as all readings here.
    clock_ns: int
    #: The interval that held the true time then.
    lo_ns: int
    hi_ns: int
    #: The last clock reading at which a newer publication is not overdue.
    valid_until_ns: int
    #: The last clock reading at which it may be used. 2^64 - 1: there is no limit. 0: nothing is published any more.
    usable_until_ns: int
    epoch: int
    number: int
    #: How far the clock may drift.
    drift_ppm: int
    #: Which clock it is: ``time.CLOCK_MONOTONIC`` or ``time.CLOCK_MONOTONIC_RAW``.
    clock_id: int = time.CLOCK_MONOTONIC

    def read_at(self, clock_ns: int) -> Reading:
        """The reading of this publication at a clock reading. Refuses with 802 and 1708."""
        if clock_ns < self.clock_ns or clock_ns > MAX_TIME_NS:
            raise Refused(802)
        if clock_ns > self.usable_until_ns:
            raise Refused(1708)
        elapsed = clock_ns - self.clock_ns
        widening = (elapsed * self.drift_ppm + 999_999) // 1_000_000
        return Reading(
            min(self.lo_ns + elapsed - widening, MAX_TIME_NS),
            min(self.hi_ns + elapsed + widening, MAX_TIME_NS),
            self.epoch,
            self.number,
            clock_ns <= self.valid_until_ns,
        )


class _Opened:
    """A file that is open. It is unmapped or closed with the last reference, that of a call that reads it."""

    __slots__ = ("mapped", "number", "clock_id", "_key")

    def __init__(self, path: str, owner: int, is_mapped: bool) -> None:
        self.mapped: Optional[mmap.mmap] = None
        self.number = -1
        self.number, found, self.clock_id = _opened(path, owner)
        self._key = found.st_dev, found.st_ino
        if is_mapped:
            try:
                self.mapped = mmap.mmap(self.number, _BYTES, mmap.MAP_SHARED, mmap.PROT_READ)
            except (OSError, ValueError) as failed:  # a ValueError where it has become shorter
                raise Refused(1701) from failed
            finally:
                self._close_number()

    def __del__(self) -> None:
        self._close_number()

    def close(self) -> None:
        if self.mapped is not None:
            self.mapped.close()
        self._close_number()

    def _close_number(self) -> None:
        number, self.number = self.number, -1
        if number >= 0:
            os.close(number)

    def is_at(self, path: str) -> bool:
        """Whether it is the file at this path, as far as can be seen."""
        try:
            found = os.lstat(path)
        except OSError:
            return True
        return (found.st_dev, found.st_ino) == self._key

    def copied(self) -> "tuple[int, tuple[int, ...], int]":
        """The same as ``_copied`` of a file that is not mapped."""
        try:
            (index,) = _WORD.unpack(os.pread(self.number, _WORD.size, _INDEX_AT))
            slot = _SLOT.unpack(os.pread(self.number, _SLOT.size, _slot_at(index)))
            return index, slot, _WORD.unpack(os.pread(self.number, _WORD.size, _INDEX_AT))[0]
        except (OSError, struct.error) as failed:  # a struct.error where it has become shorter
            raise Refused(1701) from failed


class Client:
    """A file of a daemon. Any number of threads may use one client.

    A call that would refuse, or give a reading that is not ``fresh``, looks at the path, at most once a second. Where another file is
    there, as behind a restart, the client opens that by the same rules, and answers by it.
    """

    def __init__(self, path: str, owner: Union[int, str], mapped: bool = True, max_width_ns: Optional[int] = None) -> None:
        """Opens the file at this path, which the user ``owner``, a name or a number, has to own. Refuses with 1701 and 1702.

        Where it is not ``mapped``, each call reads it; a mapped one keeps a descriptor, too. What the system said is the cause of a 1701, and the text of a 1702 says
        what the file is not.

        Readings wider than ``max_width_ns`` are refused with 1824, and so the timestamps by them; the machine's own max_width need not be
        set.
        """
        self._opened: Optional[_Opened] = None
        if sys.byteorder != "little" or _WORD.size != 8:
            raise Refused(1702, ": this machine is not of 64 bits, or big-endian")
        self._path, self._owner, self._is_mapped = _path_from_root(path), _user_of(owner), mapped
        self._max_width_ns = MAX_TIME_NS if max_width_ns is None else max_width_ns
        self._next_look_ns = 0
        self._looking = threading.Lock()
        self._opened = _Opened(self._path, self._owner, mapped)

    def close(self) -> None:
        """Unmaps or closes the file. Calls refuse with 1701 then."""
        with self._looking:
            opened, self._opened = self._opened, None
        if opened is not None:
            opened.close()

    def __enter__(self) -> "Client":
        return self

    def __exit__(self, *_: object) -> None:
        self.close()

    def read(self) -> Publication:
        """The last publication. Refuses with 801, 1704 and 1703, then with 801 where nothing is published any more, and with 1701 where it
        is not mapped and has become shorter."""
        try:
            return self._read()
        except Refused:
            if not self._is_renewed():
                raise
        return self._read()

    def now(self) -> Reading:
        """The time now. Refuses as ``read``, and with 803, 802 and 1708, and with 1824 where it is wider than ``max_width_ns``."""
        try:
            reading = self._now()
            if reading.fresh or not self._is_renewed():
                return reading
        except Refused:
            if not self._is_renewed():
                raise
        return self._now()

    def _now(self) -> Reading:
        """``now`` by the file that is open."""
        published = self._read()
        # The clock is read after the publication, so it is not below that of the publication.
        try:
            clock_ns = time.clock_gettime_ns(published.clock_id)
        except OSError as failed:
            raise Refused(803) from failed
        now = published.read_at(clock_ns)
        if now.latest_ns - now.earliest_ns > self._max_width_ns:
            raise Refused(1824)
        return now

    def _read(self) -> Publication:
        """``read`` by the file that is open."""
        opened = self._opened
        if opened is None:
            raise Refused(1701, ": the client is closed")
        mapped = opened.mapped
        for _ in range(_TRIES):
            index, word, again = opened.copied() if mapped is None else _copied(mapped)
            if again != index:
                continue
            if index == 0:
                raise Refused(801)
            published = Publication(word[1], word[2], word[3], word[4], word[8], word[5], word[6], word[7], opened.clock_id)
            if not _is_slot(index, word):
                raise Refused(1703)
            if published.usable_until_ns == 0:
                raise Refused(801)
            return published
        raise Refused(1704)

    def _is_renewed(self) -> bool:
        """Looks at the path, unless it was looked at within a second, and takes another file that is there, where it passes the checks of
        opening one. Whether it did."""
        if not self._looking.acquire(blocking=False):
            return False
        try:
            now_ns = time.monotonic_ns()
            if self._opened is None or now_ns < self._next_look_ns:
                return False
            self._next_look_ns = now_ns + _LOOK_NS
            if self._opened.is_at(self._path):
                return False
            self._opened = _Opened(self._path, self._owner, self._is_mapped)
            return True
        except Refused:
            return False
        finally:
            self._looking.release()


def _copied(mapped: mmap.mmap) -> "tuple[int, tuple[int, ...], int]":
    """The index, the slot that is current at it, and the index again."""
    (index,) = _WORD.unpack_from(mapped, _INDEX_AT)
    slot = _SLOT.unpack_from(mapped, _slot_at(index))
    return index, slot, _WORD.unpack_from(mapped, _INDEX_AT)[0]


def _is_slot(index: int, word: "tuple[int, ...]") -> bool:
    """Whether a daemon may have written this slot for this index."""
    # The second base, by CLOCK_MONOTONIC, is for who cannot read the clock of the file: it has to be one, and is not read.
    echo, clock, lo, hi, _, _, _, drift, _, slewed, slewed_lo, slewed_hi, slewed_drift, _, _, zero = word
    return (
        echo == index
        and clock <= MAX_TIME_NS
        and lo <= hi <= MAX_TIME_NS
        and drift <= MAX_DRIFT_PPM
        and slewed <= MAX_TIME_NS
        and slewed_lo <= slewed_hi <= MAX_TIME_NS
        and slewed_drift <= MAX_DRIFT_PPM
        and zero == 0
    )


def _slot_at(index: int) -> int:
    # The publication's count is odd where an odd number of the eight bytes of the index are odd.
    return _SLOTS_AT[bin(index & _LOWEST_BITS).count("1") & 1]


def _path_from_root(path: str) -> str:
    """A path that does not begin at the root is one from here, also where the process goes elsewhere."""
    path = os.fsdecode(path)
    try:
        return path if os.path.isabs(path) else os.path.join(os.getcwd(), path)
    except OSError:
        return path


def _user_of(owner: Union[int, str]) -> int:
    """The number of a user."""
    if not isinstance(owner, str):
        return operator.index(owner)
    try:
        return pwd.getpwnam(owner).pw_uid
    except KeyError as unknown:
        raise Refused(1702, f": there is no user {owner}") from unknown


def _opened(path: str, owner: int) -> "tuple[int, os.stat_result, int]":
    """The descriptor of the file at this path, where it is such a file, what it is, and its clock."""
    try:
        file = os.open(path, os.O_RDONLY | os.O_CLOEXEC | os.O_NOFOLLOW | os.O_NONBLOCK)
    except OSError as failed:
        raise Refused(1701) from failed
    try:
        found = os.fstat(file)
        fault, clock_id = _fault_of(file, found, owner)
    except OSError as failed:
        os.close(file)
        raise Refused(1701) from failed
    if fault:
        os.close(file)
        raise Refused(1702, f": {fault}")
    return file, found, clock_id


def _fault_of(file: int, found: os.stat_result, owner: int) -> "tuple[str, int]":
    """Which of the checks an open file does not pass; nothing where it passes all, and its clock."""
    if not stat.S_ISREG(found.st_mode) or found.st_size != _BYTES:
        return f"it is no file of {_BYTES} bytes", 0
    if found.st_uid != owner:
        return f"its owner is the user {found.st_uid}, not {owner}", 0
    if found.st_mode & (stat.S_IWGRP | stat.S_IWOTH):
        return "others may write to it", 0
    head = os.pread(file, 64, 0)
    clock_id = int.from_bytes(head[8:16], "little")
    if head[:8] != _HEAD or clock_id not in _CLOCKS or head[60:] != bytes(4):
        return "it is of another format, or of another version", 0
    return "" if _is_same_clock(head[24:60]) else "it is of another boot, or of another clock", clock_id


def _is_same_clock(boot: bytes) -> bool:
    """Whether both clocks are here what they are to the daemon: the same boot, and no time namespace that shifts them."""
    try:
        with open("/proc/sys/kernel/random/boot_id", "rb") as file:
            if file.read(36) != boot:
                return False
    except OSError:
        return False
    try:
        with open("/proc/self/timens_offsets", encoding="ascii") as file:
            return file.readline().split() == ["monotonic", "0", "0"]
    except FileNotFoundError:
        return True  # a kernel without time namespaces
    except OSError:
        return False
