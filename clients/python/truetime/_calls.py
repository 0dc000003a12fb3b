"""The rules of sessions, which the blocking session and that for asyncio share."""
import logging
import operator
import os
import re
import select
import time
from typing import Generator, NamedTuple, Optional, Tuple, TypeVar, Union

from .refusals import MAX_TIME_NS, CommitPending, Refused, SessionLost

#: How long a session waits for one reply, and for a commit to be released.
TIMEOUT_S = 30.0
#: The longest time-out: the system's waits take no longer one.
_LONGEST_S = 2_000_000.0
#: The most bytes of a line and of a reply, without the line feed.
LINE_BYTES = 64
#: The pause before a line is sent again.
_PAUSE_S = 0.001
#: How long a commit waits before that is told.
LONG_WAIT_S = 1.0
#: What sessions tell: that they connected (debug), or did so anew (info), that a connection failed and that a commit waits for long
#: (warning), and what is refused (info).
log = logging.getLogger("truetime")
#: The pause before connecting again to a Unix socket at which as many wait as may.
CONNECT_PAUSE_S = 0.005
#: The refusals that say of the line of a pending commit that the service knows of no such one, and of the first line of a
#: commit that it was not begun. Another one may also come of the step that would have released it.
_NOT_PENDING = (1103, 1104, 1822)
_NOT_BEGUN = (901, 902, 903, 1001, 1002, 1003, 1104, 1821)
_LINE = re.compile("[ -~]{0,64}")
_NUMBER = re.compile("0|[1-9][0-9]{0,18}")

#: A TCP address, or the path of a Unix socket.
Address = Union[Tuple[str, int], str, "os.PathLike[str]"]
#: The same, where a path is a text.
Reached = Union[Tuple[str, int], str]

_T = TypeVar("_T")
#: A call without its connection: it gives a line to send, and is sent its reply, or it gives a pause in seconds, or None where
#: the connection is to be given up.
Call = Generator[Union[str, float, None], str, _T]


class Interval(NamedTuple):
    """The true time lies from ``earliest_ns`` to ``latest_ns``, both included."""

    earliest_ns: int
    latest_ns: int


class Calls:
    """The calls of a session, and what it keeps, without its connection."""

    def __init__(self, timeout_s: float, max_width_ns: Optional[int]) -> None:
        self._timeout_s, self._max_width_ns = at_most(timeout_s), max_width_ns
        # Whether a lease was ever asked for: then no commit begins without one.
        self._wants_lease = False
        self._was_connected = False
        self.forget()

    def forget(self) -> None:
        """Forgets what belongs to a connection."""
        # The last commit that may have begun, counted from 1; its timestamp, or 0; and what is known of it: "waiting",
        # "committed", "unsure" where its first line was refused, "" where none was begun.
        self._number = 0
        self._stamp_ns = 0
        self._state = ""
        # The last commit for which a caller may wait: another one where a call was cancelled; and whether begin gave its
        # timestamp.
        self._told = 0
        self._is_given = False
        self._is_leased = False

    @property
    def _is_kept(self) -> bool:
        """Whether a commit is pending whose timestamp a caller has."""
        return self._state == "waiting" and self._is_given and self._told == self._number

    def connected(self, address: Reached) -> None:
        """Tells that a connection was made."""
        if self._was_connected:
            log.info("connected anew to %s", address)
        else:
            log.debug("connected to %s", address)
        self._was_connected = True

    @property
    def is_idle(self) -> bool:
        """Whether no commit is pending or unsure."""
        return self._state in ("", "committed")

    def lost(self, failed: OSError) -> OSError:
        """Forgets what belongs to a connection that failed; the error that says so."""
        commit, stamp_ns = (self._number, self._stamp_ns) if self._is_kept else (0, 0)
        had_lease = self._is_leased
        self.forget()
        return SessionLost(failed, commit, stamp_ns, had_lease) if commit or had_lease else failed

    def ask(self, line: str) -> "Call[str]":
        if not _LINE.fullmatch(line):
            raise ValueError(f"not a line: {line!r}")
        reply = yield line
        if not _LINE.fullmatch(reply):
            raise not_a_reply(line, reply)
        return reply

    def now(self) -> "Call[Interval]":
        _, (earliest_ns, latest_ns) = yield from self._answered("now", {"now": 2})
        if earliest_ns > latest_ns:
            raise not_a_reply("now", f"{earliest_ns} {latest_ns}")
        if self._max_width_ns is not None and latest_ns - earliest_ns > self._max_width_ns:
            raise Refused(1824)
        return Interval(earliest_ns, latest_ns)

    def compare(self, word: str, t_ns: int) -> "Call[bool]":
        t_ns = _time(t_ns)
        if self._max_width_ns is not None:
            now = yield from self.now()
            return t_ns < now.earliest_ns if word == "after" else t_ns > now.latest_ns
        said, _ = yield from self._answered(f"{word} {t_ns}", {"yes": 0, "no": 0})
        return said == "yes"

    def lease(self, lo_ns: int, hi_ns: int) -> "Call[None]":
        lo_ns, hi_ns = _time(lo_ns), _time(hi_ns)
        self._wants_lease = True
        line = f"lease {lo_ns} {hi_ns}"
        _, numbers = yield from self._answered(line, {"leased": 2})
        if numbers != [lo_ns, hi_ns]:
            raise not_a_reply(line, f"leased {numbers}")
        self._is_leased = True

    def begin(self, floor_ns: int) -> "Call[int]":
        yield from self._begin(floor_ns, self._give_up())
        self._is_given = True
        return self._stamp_ns

    def wait(self) -> "Call[int]":
        if not self._state or self._told != self._number:
            raise RuntimeError("no commit was begun")
        yield from self._release(self._give_up())
        return self._stamp_ns

    def commit(self, floor_ns: int) -> "Call[int]":
        give_up = self._give_up()
        yield from self._begin(floor_ns, give_up)
        yield from self._release(give_up)
        return self._stamp_ns

    def take_late(self, call: "Call[object]", reply: str) -> None:
        """Takes the reply that is owed to a call that was cancelled. Nobody has the timestamp that it may give."""
        told = self._told
        try:
            call.send(reply)
        except (StopIteration, TimeoutError, Refused):
            pass
        finally:
            call.close()
            self._told = told

    def _give_up(self) -> float:
        return time.monotonic() + self._timeout_s

    def _begin(self, floor_ns: int, give_up: float) -> "Call[None]":
        """Begins a commit for which a caller may wait."""
        floor_ns = _time(floor_ns)
        if self._is_kept:
            raise CommitPending(self._number, self._stamp_ns)
        if self._max_width_ns is not None:
            yield from self.now()
        self._told, is_unsure = 0, self._state == "unsure"
        yield from self._end(give_up)
        try:
            yield from self._send_first(floor_ns)
        except Refused as refused:
            if refused.number != 1104 or not is_unsure:
                raise
            self._state = "waiting"  # it began, though it was refused
            yield from self._end(give_up)
            yield from self._send_first(floor_ns)
        self._told, self._is_given = self._number, False

    def _end(self, give_up: float) -> "Call[None]":
        """Waits for the release of a commit whose timestamp nobody has: it may be too early for the one that begins now."""
        try:
            yield from self._release(give_up)
        except Refused as refused:
            if refused.number not in _NOT_PENDING:
                raise

    def _send_first(self, floor_ns: int) -> "Call[None]":
        """Sends the first line of the next commit."""
        if self._wants_lease and not self._is_leased:
            raise Refused(903)
        number, self._state = self._number + 1, ""
        try:
            yield from self._send_commit(number, floor_ns)
        except Refused as refused:
            if refused.number not in _NOT_BEGUN:
                self._number, self._stamp_ns, self._state = number, 0, "unsure"
            raise

    def _release(self, give_up: float) -> "Call[None]":
        """Sends the line of the last commit until it is released. One of which the service does not know is forgotten, with the
        connection."""
        began, is_told = time.monotonic(), False
        while self._state == "waiting":
            try:
                yield from self._send_commit(self._number, 0)
            except Refused as refused:
                if refused.number in _NOT_PENDING:
                    yield None
                raise
            if self._state == "waiting":
                now = time.monotonic()
                if now > give_up:
                    raise TimeoutError("the commit is not released in time")
                if now - began > LONG_WAIT_S and not is_told:
                    is_told = True
                    log.warning("the commit with timestamp %d waits for more than %g s", self._stamp_ns, LONG_WAIT_S)
                yield _PAUSE_S

    def _send_commit(self, number: int, floor_ns: int) -> "Call[None]":
        """Sends the line of a commit. The timestamp of one that has none so far has to be at least ``floor_ns``."""
        line = f"commit {number} {floor_ns}"
        word, (echo, stamp_ns) = yield from self._answered(line, {"waiting": 2, "committed": 2})
        is_right = self._stamp_ns in (0, stamp_ns) if number == self._number else stamp_ns >= floor_ns
        if echo != number or not is_right:
            raise not_a_reply(line, f"{word} {echo} {stamp_ns}")
        self._number, self._stamp_ns, self._state = number, stamp_ns, word

    def _answered(self, line: str, words: "dict[str, int]") -> "Call[tuple[str, list[int]]]":
        """The reply as a word and its numbers; each word that is wanted has so many."""
        reply = yield from self.ask(line)
        word, *texts = reply.split(" ")
        if not all(map(_NUMBER.fullmatch, texts)):
            raise not_a_reply(line, reply)
        numbers = [int(text) for text in texts]
        if word == "refused" and len(numbers) == 1 and 1 <= numbers[0] <= 65_535:
            refused = Refused(numbers[0])
            log.info("%s: %s", line, refused)
            raise refused
        if words.get(word) != len(numbers) or any(number > MAX_TIME_NS for number in numbers):
            raise not_a_reply(line, reply)
        return word, numbers


def address_of(address: Address) -> Reached:
    """An address whose path is a text."""
    return os.fspath(address) if isinstance(address, os.PathLike) else address


def at_most(timeout_s: float) -> float:
    """A time-out as the system's waits take it."""
    return min(timeout_s, _LONGEST_S)


def _time(t_ns: int) -> int:
    """A time that may be sent: a float is none, since it has no room for one."""
    t_ns = operator.index(t_ns)
    if not 0 <= t_ns < 2**64:
        raise ValueError("a time is from 0 to 2**64 - 1")
    return t_ns


def has_ended(connection: int) -> bool:
    """Whether a connection, by its descriptor, is of no more use before a line: its end is there to be received, or what nobody
    asked for."""
    looking = select.poll()
    looking.register(connection, select.POLLIN)
    return bool(looking.poll(0))


def reply_in(received: bytes) -> Optional[str]:
    """The reply that was received, without its line feed, once it is whole."""
    if received.endswith(b"\n"):
        return received[:-1].decode("latin-1")
    if len(received) > LINE_BYTES:
        raise ConnectionError("the reply is too long")
    return None


def not_a_reply(line: str, reply: str) -> ConnectionError:
    return ConnectionError(f"not a reply to {line!r}: {reply!r}")
