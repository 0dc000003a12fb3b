"""Tests the readers and sessions of clients/: each is compiled without a warning, gives the answers that are wanted for the same
vectors, slots and files, mapped and not, a file that becomes shorter, and the same conversations with a stand-in for the service, and the C
reader is put beside a writer that never pauses, also with the compiler's checks of addresses, undefined behaviour and threads. The cases
of stampers are in clients_of_stampers.py, those of what is opened and closed in clients_of_openings.py, how long each of them waits in
clients_of_waits.py, the words of errors and invalid arguments in clients_of_errors.py, and programs that commit in a loop in
clients_of_loops.py. Sessions are put beside a machine that is killed and started again, too. Go has tests of its own,
which are run in each way in which it is built, with checks of races, and beside a machine, and Python has some for asyncio.

The readers run beside writers for 10 seconds, or as many as --seconds says. A language whose compiler is not here is left out, with a line
that says so. Everything is built in a temporary folder.
"""
import contextlib
import glob
import os
import random
import re
import shutil
import signal
import socket
import subprocess
import sys
import tempfile
import threading
import time
from concurrent.futures import ThreadPoolExecutor

from harness.program import WARNINGS, in_top, run, write
from harness.shared_file import (FILE_BYTES, INDEX_AT, MONOTONIC, NO_LIMIT, RAW, SLOT_BYTES, WORDS, boot_id, file_of, file_of_version_1,
                                 file_of_version_2, index_number, is_odd, of_another_boot)
from harness.suite import Suite

suite = Suite(__name__, again=1, never=("torn", "stamp", "reading"))
CLIENTS, GO = in_top("clients"), in_top("clients/go/truetime")
MAX, SECOND = 4_000_000_000_000_000_000, 1_000_000_000
MAX_DRIFT = 100_000


def knows_raw(name):
    """Whether the readers of a language read CLOCK_MONOTONIC_RAW. The others read the second base of a file by it, by CLOCK_MONOTONIC."""
    return name not in ("Java", "Go")


def clock_shows(clock):
    """A clock, in nanoseconds."""
    return time.clock_gettime_ns({MONOTONIC: time.CLOCK_MONOTONIC, RAW: time.CLOCK_MONOTONIC_RAW}[clock])


def reading_at(clock, lo, hi, drift, usable, now):
    """What a publication is worth at a clock reading, by whole numbers of any size."""
    if now < clock or now > MAX:
        return "refused 802"
    if now > usable:
        return "refused 1708"
    elapsed = now - clock
    widening = -(-elapsed * drift // 1_000_000)
    return f"{min(lo + elapsed - widening, MAX)} {min(hi + elapsed + widening, MAX)}"


# Worked out by hand: publication (clock, lo, hi, drift, until when it is usable), clock reading, reading.
BY_HAND = [
    ((0, 0, 0, 0, NO_LIMIT, 0), "0 0"),
    ((1000, 5, 15, 200, NO_LIMIT, 1000), "5 15"),
    ((1000, 5, 15, 200, NO_LIMIT, 6000), "5004 5016"),
    ((1000, 5, 15, 200, NO_LIMIT, 999), "refused 802"),
    ((50, 45, 55, 200, NO_LIMIT, 30000000050), "29994000045 30006000055"),
    ((0, 0, 0, 1, NO_LIMIT, 1), "0 2"),
    ((0, 0, 0, 1, NO_LIMIT, 1000000), "999999 1000001"),
    ((0, 0, 0, 1, NO_LIMIT, 1000001), "999999 1000003"),
    ((0, 0, 0, 100000, NO_LIMIT, 10), "9 11"),
    ((0, 0, 0, 100000, NO_LIMIT, 11), "9 13"),
    ((0, 0, 0, 100000, NO_LIMIT, MAX), f"3600000000000000000 {MAX}"),
    # Below 2^46 or 2^47 readers multiply at once, and above by parts; a product passes 2^63 and 2^64 at the last two.
    ((0, 0, 0, 100000, NO_LIMIT, 70368744177663), "63331869759896 77405618595430"),
    ((0, 0, 0, 100000, NO_LIMIT, 70368744177664), "63331869759897 77405618595431"),
    ((0, 0, 0, 100000, NO_LIMIT, 140737488355327), "126663739519794 154811237190860"),
    ((0, 0, 0, 100000, NO_LIMIT, 140737488355328), "126663739519795 154811237190861"),
    ((0, 0, 0, 100000, NO_LIMIT, 140737488355331), "126663739519797 154811237190865"),
    ((0, 0, 0, 100000, NO_LIMIT, 92233720368548), "83010348331693 101457092405403"),
    ((0, 0, 0, 100000, NO_LIMIT, 184467440737096), "166020696663386 202914184810806"),
    ((0, MAX, MAX, 100000, NO_LIMIT, MAX), f"{MAX} {MAX}"),
    ((MAX, MAX, MAX, 100000, NO_LIMIT, MAX), f"{MAX} {MAX}"),
    ((0, 0, MAX, 0, NO_LIMIT, MAX + 1), "refused 802"),
    ((0, 0, MAX, 0, NO_LIMIT, 2**64 - 1), "refused 802"),
    ((0, 1, 2, 0, NO_LIMIT, MAX), f"{MAX} {MAX}"),
    ((0, 1, 2, 0, NO_LIMIT, MAX - 2), f"{MAX - 1} {MAX}"),
    ((1000, 5, 15, 200, 6000, 6000), "5004 5016"),
    ((1000, 5, 15, 200, 5999, 6000), "refused 1708"),
    ((1000, 5, 15, 200, 1, 999), "refused 802"),
    ((1000, 5, 15, 200, 1, 1000), "refused 1708"),
    ((0, 0, MAX, 0, MAX, MAX + 1), "refused 802"),
    ((0, 0, MAX, 0, MAX - 1, MAX), "refused 1708"),
    ((0, 0, MAX, 0, 2**63, MAX), f"{MAX} {MAX}"),
]


def vectors(seed, number):
    """Vectors at and near the edges, and anywhere between."""
    chance = random.Random(seed)

    def a_time():
        return chance.choice([chance.randrange(10**chance.randrange(1, 19)), chance.randrange(MAX + 1), MAX - chance.randrange(10**6), 0])

    for _ in range(number):
        lo, hi = sorted((a_time(), a_time()))
        clock = a_time()
        now = chance.choice([a_time(), min(clock + a_time(), MAX), clock, clock + 1, max(clock, 1) - 1, MAX + 1])
        drift = chance.choice([0, 1, 200, 99_999, 100_000, chance.randrange(100_001)])
        usable = chance.choice([NO_LIMIT, NO_LIMIT, now, now + 1, max(now, 1) - 1, a_time(), chance.randrange(2**64)])
        yield clock, lo, hi, drift, usable, now


def whole_vectors(tried):
    """Each of these vectors with what a reading hands on, and what has to be said of all of it: until when the publication is no late one, its
    life and number, and a time that is compared."""
    chance = random.Random(3)
    for numbers in tried:
        answer, now = reading_at(*numbers), numbers[5]
        valid = chance.choice([now, now + 1, max(now, 1) - 1, 0, NO_LIMIT, chance.randrange(2**64)])
        valid, epoch, number = min(valid, NO_LIMIT), chance.randrange(2**64), chance.randrange(2**64)
        ends = [int(end) for end in answer.split()] if not answer.startswith("refused") else [0, 0]
        t = max(chance.choice(ends) + chance.choice([-1, 0, 1]), 0)
        if not answer.startswith("refused"):
            is_so = [now <= valid, t < ends[0], t > ends[1]]
            answer += f" {epoch} {number} {'fresh' if is_so[0] else 'stale'} {' '.join('yes' if one else 'no' for one in is_so[1:])}"
        yield (*numbers, valid, epoch, number, t), answer


def is_base(clock, lo, hi, drift):
    """Whether a daemon writes such a clock reading, span and drift."""
    return clock <= MAX and lo <= hi <= MAX and drift <= MAX_DRIFT


def said_of_slot(file_clock, index, slot, is_raw_known, shown):
    """What is said of the slot that is current at this index, in a file by this clock, where the clocks show this: the number of the clock that
    is read, and the reading. By docs/FORMATS.md, section 11."""
    echo, clock, lo, hi, fresh, epoch, number, drift, usable, clock_2, lo_2, hi_2, drift_2, fresh_2, usable_2, zero = slot
    if index == 0:
        return "refused 801"
    if echo != index or not is_base(clock, lo, hi, drift) or not is_base(clock_2, lo_2, hi_2, drift_2) or zero != 0:
        return "refused 1703"
    if usable == 0:
        return "refused 801"
    if file_clock == RAW and not is_raw_known:
        if usable_2 == 0:
            return "refused 1710"
        file_clock, clock, lo, hi, drift, fresh, usable = MONOTONIC, clock_2, lo_2, hi_2, drift_2, fresh_2, usable_2
    now = shown[file_clock]
    answer = reading_at(clock, lo, hi, drift, usable, now)
    return answer if answer.startswith("refused") else f"{file_clock} {answer} {epoch} {number} {'fresh' if now <= fresh else 'stale'}"


# Worked out by hand: the clock of a file, what is in its slot in place of what GOOD_SLOT has, what CLOCK_MONOTONIC and CLOCK_MONOTONIC_RAW show,
# and what is said by who knows both, and by who knows the first of them alone.
GOOD_SLOT = (1, 1000, 5, 15, 6000, 7, 9, 200, 7000, 500_000, 2000, 3000, 1000, 510_000, 520_000, 0)
EACH_1703 = [{0: 2}, {0: 257}, {1: MAX + 1}, {1: NO_LIMIT}, {2: 16}, {3: MAX + 1}, {7: 100_001}, {9: MAX + 1}, {9: NO_LIMIT}, {10: 3001}, {11: MAX + 1},
             {12: 100_001}, {12: NO_LIMIT}, {15: 1}, {15: 2**63}, {8: 0, 15: 1}, {14: 0, 15: 1}, {8: 0, 9: MAX + 1}, {14: 0, 12: 100_001}]
SLOTS_BY_HAND = [
    (MONOTONIC, {}, (1000, 0), "1 5 15 7 9 fresh", "1 5 15 7 9 fresh"),
    (MONOTONIC, {}, (6000, 0), "1 5004 5016 7 9 fresh", "1 5004 5016 7 9 fresh"),
    (MONOTONIC, {}, (6001, 0), "1 5004 5018 7 9 stale", "1 5004 5018 7 9 stale"),
    (MONOTONIC, {}, (7000, 0), "1 6003 6017 7 9 stale", "1 6003 6017 7 9 stale"),
    (MONOTONIC, {}, (7001, 6000), "refused 1708", "refused 1708"),
    (MONOTONIC, {}, (999, 6000), "refused 802", "refused 802"),
    (MONOTONIC, {place: 0 for place in range(9, 15)}, (1000, 0), "1 5 15 7 9 fresh", "1 5 15 7 9 fresh"),
    (MONOTONIC, {14: 0}, (1000, 0), "1 5 15 7 9 fresh", "1 5 15 7 9 fresh"),
    (RAW, {}, (500_000, 1000), "4 5 15 7 9 fresh", "1 2000 3000 7 9 fresh"),
    (RAW, {}, (510_000, 6000), "4 5004 5016 7 9 fresh", "1 11990 13010 7 9 fresh"),
    (RAW, {}, (510_001, 6001), "4 5004 5018 7 9 stale", "1 11990 13012 7 9 stale"),
    (RAW, {}, (520_000, 7000), "4 6003 6017 7 9 stale", "1 21980 23020 7 9 stale"),
    (RAW, {}, (520_001, 7001), "refused 1708", "refused 1708"),
    (RAW, {}, (499_999, 999), "refused 802", "refused 802"),
    (RAW, {}, (520_001, 1000), "4 5 15 7 9 fresh", "refused 1708"),
    (RAW, {}, (500_000, 999), "refused 802", "1 2000 3000 7 9 fresh"),
    (RAW, {}, (MAX + 1, MAX + 1), "refused 802", "refused 802"),
    (RAW, {8: NO_LIMIT, 14: NO_LIMIT}, (MAX + 1, NO_LIMIT), "refused 802", "refused 802"),
    (RAW, {9: MAX, 11: MAX, 12: 100_000, 14: MAX}, (MAX, 1000), "4 5 15 7 9 fresh", f"1 2000 {MAX} 7 9 stale"),
    (RAW, {9: 0, 10: 0, 11: 0, 12: 100_000}, (11, 1000), "4 5 15 7 9 fresh", "1 9 13 7 9 fresh"),
    (RAW, {13: 0}, (500_000, 1000), "4 5 15 7 9 fresh", "1 2000 3000 7 9 stale"),
    (RAW, {4: 0}, (500_000, 1000), "4 5 15 7 9 stale", "1 2000 3000 7 9 fresh"),
    # Where there is no second base that is said first, whatever the clock shows.
    (RAW, {14: 0}, (500_000, 1000), "4 5 15 7 9 fresh", "refused 1710"),
    (RAW, {14: 0}, (499_999, 999), "refused 802", "refused 1710"),
    (RAW, {14: 0}, (MAX + 1, 7001), "refused 1708", "refused 1710"),
    (RAW, {place: 0 for place in range(9, 15)}, (0, 7000), "4 6003 6017 7 9 stale", "refused 1710"),
    # And before that, that nothing is published any more.
    (MONOTONIC, {8: 0}, (1000, 0), "refused 801", "refused 801"),
    (RAW, {8: 0}, (500_000, 1000), "refused 801", "refused 801"),
    (RAW, {8: 0, 14: 0}, (0, 0), "refused 801", "refused 801"),
    *((clock, changed, shown, "refused 1703", "refused 1703") for clock, shown in ((MONOTONIC, (1000, 0)), (RAW, (500_000, 1000)), (RAW, (0, 0)))
      for changed in EACH_1703),
]


def slots(seed, number):
    """Slots and what the clocks show, at and near the edges: the index, the words of the slot, and a reading of each clock."""
    chance = random.Random(seed)

    def a_time():
        return chance.choice([chance.randrange(10**chance.randrange(1, 19)), chance.randrange(MAX + 1), MAX, 0])

    def near(time_ns):
        return min(max(time_ns + chance.choice([-1, 0, 0, 0, 1, chance.randrange(10**9)]), 0), NO_LIMIT)

    for _ in range(number):
        bases, shown = [], []
        for _ in range(2):
            lo, hi = sorted((a_time(), a_time()))
            clock = a_time()
            now = near(clock)
            fresh, usable = (chance.choice([near(now), near(now), NO_LIMIT, a_time(), chance.randrange(2**64)]) for _ in range(2))
            bases.append((clock, lo, hi, chance.choice([0, 1, 200, MAX_DRIFT, chance.randrange(MAX_DRIFT + 1)]), fresh, usable))
            shown.append(chance.choice([now, now, now, now, near(fresh), near(usable), MAX, MAX + 1, a_time()]))
        (clock, lo, hi, drift, fresh, usable), (clock_2, lo_2, hi_2, drift_2, fresh_2, usable_2) = bases
        index = chance.choice([1, 2, 257, index_number(chance.randrange(1, 2**64))])
        slot = [index, clock, lo, hi, fresh, chance.randrange(2**64), chance.randrange(2**64), drift, usable, clock_2, lo_2, hi_2, drift_2, fresh_2, usable_2, 0]
        if chance.random() < 0.15:
            slot[14] = 0
        if chance.random() < 0.05:
            slot[8] = 0
        if chance.random() < 0.25:
            place = chance.choice([0, 1, 2, 3, 7, 9, 10, 11, 12, 15])
            slot[place] = {0: index ^ 1 << chance.randrange(64), 2: slot[3] + 1, 7: MAX_DRIFT + 1, 10: slot[11] + 1, 12: MAX_DRIFT + 1,
                           15: 1 << chance.randrange(64)}.get(place, chance.choice([MAX + 1, NO_LIMIT]))
        yield 0 if chance.random() < 0.02 else index, slot, (shown[1], shown[0])


def files():
    """Files, how their modes are, and what a reader says of them, or what one says that knows CLOCK_MONOTONIC_RAW, and one that does not."""
    boot = boot_id()
    good, second = (10, 20, 30, 2**64 - 1, 2**64 - 3, 7, 2**64 - 2, 100_000), (11, 21, 31, 99_999, 2**64 - 5, 2**64 - 7)
    said = "published 10 20 30 18446744073709551615 18446744073709551613 7 18446744073709551614 100000"
    either = said, "published 11 21 31 18446744073709551611 18446744073709551609 7 18446744073709551614 99999"
    for count in (1, 2, 3, 255, 256, 257, 511, 512, 65_535, 65_536, 65_537, 2**32 - 1, 2**32, 2**56, 2**64 - 1):
        yield f"count {count}", file_of(count, good, boot, RAW, second), 0o644, either
    yield "by CLOCK_MONOTONIC", file_of(1, good, boot, MONOTONIC), 0o644, said
    yield "by CLOCK_MONOTONIC, with a second base", file_of(1, good, boot, MONOTONIC, second), 0o644, said
    yield "without a second base", file_of(1, good, boot, RAW, (0,) * 6), 0o644, (said, "refused 1710")
    yield "a second base that may not be used", file_of(1, good, boot, RAW, (*second[:5], 0)), 0o644, (said, "refused 1710")
    yield "one for the first reading alone", file_of(1, good, boot, RAW, (0, 21, 31, 0, 0, 1)), 0o644, (said, "published 0 21 31 0 1 7 18446744073709551614 0")
    edge = (MAX, MAX, MAX, MAX_DRIFT, 0, NO_LIMIT)
    yield "a second base at the edges", file_of(1, good, boot, RAW, edge), 0o644, (
        said, f"published {MAX} {MAX} {MAX} 0 {NO_LIMIT} 7 18446744073709551614 100000")
    for clock in (MONOTONIC, RAW):
        for place, number in (0, MAX + 1), (1, 32), (2, MAX + 1), (3, MAX_DRIFT + 1):
            bad = (*second[:place], number, *second[place + 1:])
            yield f"a second base with {number}, by clock {clock}", file_of(1, good, boot, clock, bad), 0o644, "refused 1703"
            yield f"no second base with {number}, by clock {clock}", file_of(1, good, boot, clock, (*bad[:5], 0)), 0o644, "refused 1703"
    yield "nothing published", file_of(0, good, boot), 0o644, "refused 801"
    yield "nothing published, by CLOCK_MONOTONIC", file_of(0, good, boot, MONOTONIC), 0o644, "refused 801"
    yield "another format", file_of(1, good, boot, at={3: ord("4")}), 0o644, "refused 1702"
    yield "version 1", file_of_version_1(boot), 0o644, "refused 1702"
    yield "version 2", file_of_version_2(boot), 0o644, "refused 1702"
    yield "another length in the head", file_of(1, good, boot, at={4: 0x41}), 0o644, "refused 1702"
    for clock in (0, 2, 3, 5, 6, 7, 8, 11, 260):
        yield f"clock {clock}", file_of(1, good, boot, clock), 0o644, "refused 1702"
    for clock in (MONOTONIC, RAW):
        yield f"clock {clock}, and more", file_of(1, good, boot, clock, at={15: 1}), 0o644, "refused 1702"
    yield "another boot", of_another_boot(file_of(1, good, boot)), 0o644, "refused 1702"
    yield "no zeros behind the boot", file_of(1, good, boot, at={63: 1}), 0o644, "refused 1702"
    yield "too short", file_of(1, good, boot, length=FILE_BYTES - 1), 0o644, "refused 1702"
    yield "too long", file_of(1, good, boot, more=b"\0"), 0o644, "refused 1702"
    yield "empty", b"", 0o644, "refused 1702"
    yield "writable by the group", file_of(1, good, boot), 0o664, "refused 1702"
    yield "writable by others", file_of(1, good, boot), 0o646, "refused 1702"
    yield "a slot of another index", file_of(1, good, boot, at={192: 2}), 0o644, "refused 1703"
    yield "no zero behind the numbers", file_of(1, good, boot, at={192 + 120: 1}), 0o644, "refused 1703"
    yield "no zero at the end of the slot", file_of(1, good, boot, at={319: 1}), 0o644, "refused 1703"
    yield "the same, by CLOCK_MONOTONIC", file_of(1, good, boot, MONOTONIC, at={319: 1}), 0o644, "refused 1703"
    yield "no zero in the other slot", file_of(1, good, boot, at={191: 1}), 0o644, said
    yield "nothing any more", file_of(1, (10, 20, 30, 40, 0, 7, 8, 200), boot), 0o644, "refused 801"
    yield "nothing any more, with a second base", file_of(1, (10, 20, 30, 40, 0, 7, 8, 200), boot, RAW, second), 0o644, "refused 801"
    yield "nothing any more, in a bad slot", file_of(1, (10, 20, 30, 40, 0, 7, 8, 100_001), boot), 0o644, "refused 1703"
    yield "usable at the first reading alone", file_of(1, (0, 20, 30, 40, 1, 7, 8, 200), boot), 0o644, "published 0 20 30 40 1 7 8 200"
    edge = (MAX, MAX, MAX, 0, 2**64 - 1, 0, 0, 0)
    yield "the greatest times", file_of(1, edge, boot), 0o644, f"published {MAX} {MAX} {MAX} 0 18446744073709551615 0 0 0"
    for name, bad in [("a clock past the greatest time", (MAX + 1, 0, 0, 0, 1, 0, 0, 0)), ("ends out of order", (0, 2, 1, 0, 1, 0, 0, 0)),
                      ("an end past the greatest time", (0, 0, MAX + 1, 0, 1, 0, 0, 0)), ("a drift too great", (0, 0, 0, 0, 1, 0, 0, 100_001))]:
        yield name, file_of(1, bad, boot, RAW, second), 0o644, "refused 1703"
        yield f"{name}, by CLOCK_MONOTONIC", file_of(1, bad, boot, MONOTONIC), 0o644, "refused 1703"


# Of a session whose greatest width is 10: what is narrow enough, and what is not.
NARROW, WIDE = ("now", "now 5 15\n"), ("now", "now 5 16\n")

SILENT, CLOSED, AGAIN, LATE, LATE_S = "(silent)", "(closed)", "(again)", "(late)", 3
# In place of a line and its reply: the client connects anew.
ANEW = ("(anew)", "")

# Sessions, worked out by hand: the time-out in milliseconds, or text of that and a greatest width, and the calls of the client. Each has the lines that it sends, with the
# reply that the stand-in service gives to each, and what the client says of it, with the number and the timestamp of the commit that an
# error carries. A reply comes in pieces that `|` cuts and ends with
# `\n`, or with CLOSED, the end of the connection; SILENT never comes; LATE is a pause; one that begins with AGAIN comes as often as its
# line does.
SESSIONS = {
    "readings": (20_000, [
        ("now", [("now", "now 5 15\n")], "5 15"),
        ("now", [("now", f"now 0 {MAX}\n")], f"0 {MAX}"),
        ("now", [("now", f"now {MAX} {MAX}\n")], f"{MAX} {MAX}"),
        ("after 4", [("after 4", "yes\n")], "yes"),
        ("after 5", [("after 5", "no\n")], "no"),
        ("before 16", [("before 16", "yes\n")], "yes"),
        (f"before {MAX}", [(f"before {MAX}", "no\n")], "no"),
        ("ask now", [("now", "now 5 15\n")], "now 5 15"),
        ("ask commit 1", [("commit 1", "refused 1101\n")], "refused 1101"),
        (f"ask {'x' * 64}", [("x" * 64, "refused 1101\n")], "refused 1101"),
        (f"ask {'x' * 65}", [], "invalid"),
    ]),
    "commits": (20_000, [
        ("wait", [], "invalid"),
        ("begin 0", [("commit 1 0", "waiting 1 200\n")], "200"),
        ("begin 0", [], "refused 1104 1 200"),
        ("after 200", [("after 200", "no\n")], "no"),
        ("wait", [("commit 1 0", "waiting 1 200\n"), ("commit 1 0", "waiting 1 200\n"), ("commit 1 0", "committed 1 200\n")], "200"),
        ("wait", [], "200"),
        ("commit 300", [("commit 2 300", "committed 2 300\n")], "300"),
        ("commit 7", [("commit 3 7", "waiting 3 301\n"), ("commit 3 0", "committed 3 301\n")], "301"),
        (f"commit {MAX}", [(f"commit 4 {MAX}", f"waiting 4 {MAX}\n"), ("commit 4 0", f"committed 4 {MAX}\n")], str(MAX)),
    ]),
    "refusals": (20_000, [
        ("now", [("now", "refused 801\n")], "refused 801"),
        ("after 1", [("after 1", "refused 803\n")], "refused 803"),
        ("before 1", [("before 1", "refused 802\n")], "refused 802"),
        ("begin 99", [("commit 1 99", "refused 902\n")], "refused 902"),
        ("wait", [], "invalid"),
        ("begin 9", [("commit 1 9", "waiting 1 20\n")], "20"),
        ("wait", [("commit 1 0", "refused 801\n")], "refused 801"),
        ("wait", [("commit 1 0", "committed 1 20\n")], "20"),
        ("commit 5", [("commit 2 5", "refused 1001\n")], "refused 1001"),
        ("wait", [], "invalid"),
        ("commit 5", [("commit 2 5", "waiting 2 30\n"), ("commit 2 0", "refused 803\n")], "refused 803"),
        ("wait", [("commit 2 0", "committed 2 30\n")], "30"),
        ("now", [("now", "refused 65535\n")], "refused 65535"),
        ("now", [("now", "refused 1\n")], "refused 1"),
    ]),
    "a greatest width": ("20000 10", [
        ("now", [NARROW], "5 15"), ("now", [WIDE], "refused 1824"), ("now", [("now", f"now 0 {MAX}\n")], "refused 1824"),
        ("after 4", [NARROW], "yes"), ("after 5", [NARROW], "no"), ("before 16", [NARROW], "yes"), ("before 15", [NARROW], "no"),
        ("after 4", [WIDE], "refused 1824"), ("before 17", [WIDE], "refused 1824"), ("after 4", [("now", "refused 801\n")], "refused 801"),
        ("begin 0", [WIDE], "refused 1824"),
        ("wait", [], "invalid"),
        ("begin 0", [("now", "refused 803\n")], "refused 803"),
        ("begin 0", [NARROW, ("commit 1 0", "waiting 1 200\n")], "200"),
        ("begin 0", [], "refused 1104 1 200"),
        ("wait", [("commit 1 0", "committed 1 200\n")], "200"),
        ("commit 0", [WIDE], "refused 1824"),
        ("commit 7", [NARROW, ("commit 2 7", "waiting 2 201\n"), ("commit 2 0", "committed 2 201\n")], "201"),
        ("ask now", [WIDE], "now 5 16"),
        ("lease 300 400", [("lease 300 400", "leased 300 400\n")], "leased 300 400"),
        ("commit 0", [("now", CLOSED)], "failed lease"),
    ]),
    "no width at all": ("20000 0", [
        ("now", [("now", "now 5 5\n")], "5 5"), ("now", [("now", "now 5 6\n")], "refused 1824"),
        ("commit 0", [("now", "now 5 5\n"), ("commit 1 0", "committed 1 200\n")], "200"),
    ]),
    "replies in pieces": (20_000, [
        ("now", [("now", "n|ow |5 1|5|\n")], "5 15"),
        ("before 3", [("before 3", "no|\n")], "no"),
        ("commit 0", [("commit 1 0", "waiting| 1 20|0\n"), ("commit 1 0", "c|ommitted 1 200|\n")], "200"),
        ("now", [("now", "refu|sed 8|03\n")], "refused 803"),
    ]),
    "leases": (20_000, [
        ("lease 300 400", [("lease 300 400", "leased 300 400\n")], "leased 300 400"),
        ("begin 0", [("commit 1 0", "waiting 1 300\n")], "300"),
        ("lease 500 400", [("lease 500 400", "refused 101\n")], "refused 101"),
        (f"lease 0 {MAX + 1}", [(f"lease 0 {MAX + 1}", "refused 102\n")], "refused 102"),
        ("wait", [("commit 1 0", "committed 1 300\n")], "300"),
        ("begin 0", [("commit 2 0", "refused 903\n")], "refused 903"),
        ("begin 0", [("commit 2 0", "refused 1821\n")], "refused 1821"),
        (f"lease 0 {MAX}", [(f"lease 0 {MAX}", f"leased 0 {MAX}\n")], f"leased 0 {MAX}"),
        ("commit 0", [("commit 2 0", "committed 2 401\n")], "401"),
    ]),
    # A session that asked for a lease begins nothing without one: what is refused here is never sent.
    "the first lease is refused": (20_000, [
        ("lease 9 5", [("lease 9 5", "refused 101\n")], "refused 101"),
        ("begin 0", [], "refused 903"),
        ("commit 0", [], "refused 903"),
        ("now", [("now", "now 5 15\n")], "5 15"),
        ("lease 5 9", [("lease 5 9", "leased 5 9\n")], "leased 5 9"),
        ("begin 0", [("commit 1 0", "waiting 1 9\n")], "9"),
    ]),
    # Behind a failure the next call connects anew. Each line that comes is that of a call made then.
    "no reply in time": (1000, [
        ("now", [("now", SILENT)], "timed out"),
        ("wait", [], "invalid"),
        ("now", [ANEW, ("now", "now 5 15\n")], "5 15"),
        ("begin 0", [("commit 1 0", SILENT)], "timed out"),
        ("wait", [], "invalid"),
        ("begin 7", [ANEW, ("commit 1 7", "waiting 1 200\n")], "200"),
        ("wait", [("commit 1 0", SILENT)], "timed out 1 200"),
        ("wait", [], "invalid"),
        ("after 9", [ANEW, ("after 9", "no\n")], "no"),
    ]),
    "a late reply": (2000, [
        ("now", [("now", f"{LATE}|now 1 2\n")], "timed out"),
        ("now", [ANEW, ("now", "now 5 15\n")], "5 15"),
        ("after 4", [("after 4", "yes\n")], "yes"),
    ]),
    "half a reply in time": (100, [
        ("begin 0", [("commit 1 0", "waiting 1| 2")], "timed out"),
        ("wait", [], "invalid"),
        ("ask now", [ANEW, ("now", "now 5 15\n")], "now 5 15"),
    ]),
    "not released in time": (600, [  # less than after what a long wait is told, also with the 0.3 s that Go adds
        ("begin 0", [("commit 1 0", "waiting 1 200\n")], "200"),
        ("wait", [("commit 1 0", AGAIN + "waiting 1 200\n")], "timed out"),
        ("now", [("now", "now 5 15\n")], "5 15"),
        ("wait", [("commit 1 0", "committed 1 200\n")], "200"),
    ]),
    "closed": (20_000, [
        ("now", [("now", CLOSED)], "failed"),
        ("after 1", [ANEW, ("after 1", CLOSED)], "failed"),
        ("commit 3", [ANEW, ("commit 1 3", CLOSED)], "failed"),
        ("wait", [], "invalid"),
        ("commit 4", [ANEW, ("commit 1 4", "waiting 1 200\n"), ("commit 1 0", CLOSED)], "failed"),
        ("wait", [], "invalid"),
        ("ask now", [ANEW, ("now", CLOSED)], "failed"),
        ("commit 5", [ANEW, ("commit 1 5", "waiting 1 300\n"), ("commit 1 0", "committed 1 300\n")], "300"),
    ]),
    "closed within a reply": (20_000, [
        ("now", [("now", "now 5 15|" + CLOSED)], "failed"),
        ("before 1", [ANEW, ("before 1", "no\n")], "no"),
    ]),
    "closed while a commit waits": (20_000, [
        ("begin 0", [("commit 1 0", "waiting 1 200\n")], "200"),
        ("wait", [("commit 1 0", "waiting 1 200\n"), ("commit 1 0", CLOSED)], "failed 1 200"),
        ("wait", [], "invalid"),
        ("now", [ANEW, ("now", "now 5 15\n")], "5 15"),
        ("wait", [], "invalid"),
        ("begin 9", [("commit 1 9", "waiting 1 300\n")], "300"),
        ("wait", [("commit 1 0", "committed 1 300\n")], "300"),
    ]),
    "closed behind a release": (20_000, [
        ("commit 0", [("commit 1 0", "committed 1 200\n")], "200"),
        ("now", [("now", CLOSED)], "failed"),
        ("wait", [], "invalid"),
        ("begin 0", [ANEW, ("commit 1 0", "waiting 1 300\n")], "300"),
    ]),
    "a lease is lost": (20_000, [
        ("lease 300 400", [("lease 300 400", "leased 300 400\n")], "leased 300 400"),
        ("begin 0", [("commit 1 0", "waiting 1 300\n")], "300"),
        ("wait", [("commit 1 0", CLOSED)], "failed 1 300 lease"),
        ("begin 0", [], "refused 903"),
        ("commit 0", [], "refused 903"),
        ("now", [ANEW, ("now", "now 5 15\n")], "5 15"),
        ("begin 0", [], "refused 903"),
        ("lease 400 300", [("lease 400 300", "refused 101\n")], "refused 101"),
        ("begin 0", [], "refused 903"),
        ("lease 301 400", [("lease 301 400", "leased 301 400\n")], "leased 301 400"),
        ("begin 0", [("commit 1 0", "waiting 1 301\n")], "301"),
        ("wait", [("commit 1 0", "committed 1 301\n")], "301"),
    ]),
    "a lease is not answered": (1000, [
        ("lease 300 400", [("lease 300 400", SILENT)], "timed out"),
        ("begin 0", [], "refused 903"),
        ("after 1", [ANEW, ("after 1", "yes\n")], "yes"),
        ("commit 0", [], "refused 903"),
        ("lease 300 400", [("lease 300 400", CLOSED)], "failed"),
        ("lease 300 400", [ANEW, ("lease 300 400", "leased 300 400\n")], "leased 300 400"),
        ("commit 0", [("commit 1 0", "committed 1 300\n")], "300"),
    ]),
    "closed for good": (20_000, [
        ("begin 0", [("commit 1 0", "waiting 1 200\n")], "200"),
        ("close", [], "closed"),
        *((call, [], "failed") for call in ("now", "after 1", "before 1", "begin 0", "wait", "commit 0", "lease 5 9", "ask now")),
    ]),
}
# A call, its line, and what is no reply to it: the call fails, and the next one connects anew.
NO_REPLIES = [
    ("now", "now", [
        "\n", "hello\n", "NOW 5 15\n", "now\n", "now 5\n", "now 5 15 25\n", "now5 15\n", "now  5 15\n", "now 5 15 \n", " now 5 15\n",
        "now 05 15\n", "now +5 15\n", "now -5 15\n", "now 5 15\r\n", "now 5 15\0\n", "now 5 1\xb2\n", "now 15 5\n",
        f"now 5 {MAX + 1}\n", f"now 5 {2**64 + 15}\n", f"now 5 {'9' * 30}\n", "yes\n", "waiting 1 200\n", "now 5 15\nnow 5 15\n", "x" * 64 + "\n", "x" * 65 + "\n", "x" * 65, "x" * 1000,
        "refused\n", "refused 0\n", "refused 65536\n", "refused 0801\n", "refused 801 1\n", "refused -1\n", "refused yes\n",
    ]),
    ("after 5", "after 5", ["yes 1\n", "true\n", "yesno\n", "no \n", "now 5 15\n"]),
    ("before 5", "before 5", ["yes 1\n", "0\n"]),
    ("begin 100", "commit 1 100", [
        "waiting 1 99\n", "committed 1 99\n", "waiting 0 200\n", "waiting 2 200\n", "waiting 1\n", "committed 1 -200\n", "yes\n",
    ]),
    ("commit 0", "commit 1 0", [f"waiting 1 {MAX + 1}\n", "released 1 200\n"]),
    ("ask now", "now", ["now 5 1\xb2\n", "now 5 15\t\n", "now 5 15\0\n", "no\nno\n", "x" * 65 + "\n"]),
    ("lease 5 9", "lease 5 9", ["leased\n", "leased 5\n", "leased 5 8\n", "leased 6 9\n", "leased 5 9 \n", "leased 05 9\n", "waiting 5 9\n", "yes\n"]),
]
WRONG_RELEASES = ["committed 1 201\n", "committed 1 199\n", "committed 2 200\n", "waiting 1 201\n", "no\n"]


def conversations():
    """All sessions: a name, the time-out, and the calls."""
    for name, (timeout, calls) in SESSIONS.items():
        yield name, timeout, calls
    for call, line, replies in NO_REPLIES:
        for reply in replies:
            yield f"{call}: {reply[:70]!r}", 20_000, [
                (call, [(line, reply)], "failed"), ("wait", [], "invalid"), ("now", [ANEW, ("now", "now 7 9\n")], "7 9")]
    for reply in WRONG_RELEASES:
        begun = ("begin 0", [("commit 1 0", "waiting 1 200\n")], "200")
        yield f"wait: {reply!r}", 20_000, [
            begun, ("wait", [("commit 1 0", reply)], "failed 1 200"), ("wait", [], "invalid"), ("now", [ANEW, ("now", "now 7 9\n")], "7 9")]


def connections(calls):
    """The lines and replies of a conversation, for each connection."""
    played = [[]]
    for exchange in (exchange for _, exchanges, _ in calls for exchange in exchanges):
        if exchange == ANEW:
            played.append([])
        else:
            played[-1].append(exchange)
    return played


def play(one, lines, exchanges):
    """Plays the service on one connection; what came otherwise than it should, or nothing."""
    came = lines.readline()
    for line, reply in exchanges:
        if came != f"{line}\n".encode():
            return f"{came!r} came in place of {line!r}"
        while came == f"{line}\n".encode():
            for piece in reply.replace(AGAIN, "").split("|"):
                if piece == CLOSED:
                    return None
                if piece == LATE:
                    time.sleep(LATE_S)
                elif piece != SILENT:
                    one.sendall(piece.encode("latin-1"))
                    time.sleep(0.005 if "|" in reply else 0)
            came = lines.readline()
            if AGAIN not in reply:
                break
    return f"{came!r} came behind the last line" if came else None


def serve(listener, wrong):
    """A stand-in for the service: it plays each connection of each session. No line may come that is not among those of the session."""
    for name, exchanges in ((name, exchanges) for name, _, calls in conversations() for exchanges in connections(calls)):
        try:
            one, _ = listener.accept()
            with one, one.makefile("rb") as lines:
                one.settimeout(30)
                if listener.family == socket.AF_INET:
                    one.setsockopt(socket.IPPROTO_TCP, socket.TCP_NODELAY, 1)
                said = play(one, lines, exchanges)
        except ConnectionError:
            continue  # the client closed it before it had read all
        except OSError as failed:
            said = str(failed)
        if said:
            wrong.append(f"{name}: {said}")


def said_of(words, calls):
    """What a probe says of the calls of sessions, by lines."""
    ran = run([*words, "session"], "".join(f"{call}\n" for call in calls).encode("latin-1"), 60, stderr=subprocess.STDOUT)
    return ran.out.decode("latin-1").splitlines() + [f"status {ran.status}"] * (ran.status != 0)


def try_sessions(trial, name, words):
    """The conversations of a probe, over TCP and over a Unix socket."""
    wrong, tried, room = [], 0, trial.room
    with socket.socket() as tcp, socket.socket(socket.AF_UNIX) as unix, socket.socket() as nobody:
        nobody.bind(("127.0.0.1", 0))
        tcp.bind(("127.0.0.1", 0))
        port = tcp.getsockname()[1]
        unix.bind(os.path.join(room, f"{port}.socket"))
        for listener, address in ((tcp, f"tcp {port}"), (unix, f"unix {unix.getsockname()}")):
            listener.settimeout(30)
            listener.listen()
            service = threading.Thread(target=serve, args=(listener, wrong))
            service.start()
            calls, wanted = [], []
            for what, timeout, played in conversations():
                tried += 1
                calls += [f"open {address} {timeout}", *(call for call, _, _ in played), "close"]
                wanted += [(what, "open"), *((f"{what}: {call}", said) for call, _, said in played), (what, "closed")]
            said = said_of(words, calls)
            wrong += [f"{what}: {a!r} in place of {b!r}" for a, (what, b) in zip(said, wanted) if a != b]
            wrong += [f"{len(said)} answers in place of {len(wanted)}"] * (len(said) != len(wanted))
            service.join(1)
            while service.is_alive():  # the probe ended early: the sessions that are left find a connection that was closed
                with socket.socket(listener.family) as nothing:
                    nothing.connect(listener.getsockname())
                service.join(0.01)
        said = said_of(words, [f"open tcp {nobody.getsockname()[1]} 1000", f"open unix {room}/nobody 1000"])
        wrong += [f"nobody listens: {said}"] * (said != ["failed", "failed"])
    for what in wrong:
        trial.check(name, False, what)
    trial.note(f"{name}: {tried} sessions, {len(wrong)} wrong")


def build_c(room, compiler, name, *flags):
    """Compiles the probe, or the stress test, of the C reader; no answer where the compiler is not here."""
    if not is_here(compiler, name):
        return None
    made = os.path.join(room, name)
    subprocess.run([compiler, *WARNINGS, "-O2", *flags, "-o", made], check=True)
    return made


def is_here(program, what):
    """Whether a compiler is here; what stays out without it is printed."""
    if shutil.which(program) is None:
        print(f"clients: {what} is left out: {program} is not here", flush=True)
    return shutil.which(program) is not None


def java_sources():
    """What Java's package has, with its tests."""
    return sorted(glob.glob(os.path.join(CLIENTS, "java/src/*/java/io/truetime/*.java")))


# Where Debian's librust-tokio-dev puts what it has.
REGISTRY = "/usr/share/cargo/registry"


def has_tokio():
    """Whether tokio for Rust is here, as Debian has it."""
    return bool(glob.glob(f"{REGISTRY}/tokio-1.*"))


def registry_for_cargo(room):
    """The words by which cargo fetches nothing: tokio is Debian's, or where that is not here an empty one, for crates that do not use it."""
    registry = REGISTRY
    if not has_tokio():
        registry = os.path.join(room, "registry")
        os.makedirs(os.path.join(registry, "tokio-1.24.2", "src"), exist_ok=True)
        for name, text in [("Cargo.toml", '[package]\nname = "tokio"\nversion = "1.24.2"\n\n[features]\nnet = []\nrt = []\ntime = []\n'),
                           ("src/lib.rs", ""), (".cargo-checksum.json", '{"files": {}}')]:
            write(os.path.join(registry, "tokio-1.24.2", name), text.encode())
    return ["--offline", "--config", 'source.crates-io.replace-with="here"', "--config", f'source.here.directory="{registry}"']


def build_with_tokio(room, rust, made):
    """Compiles the probe of Rust with its session for tokio, where that is here."""
    if not has_tokio():
        print("clients: Rust tokio is left out: librust-tokio-dev is not here", flush=True)
    elif is_here("cargo", "Rust tokio"):
        copy = shutil.copytree(rust, os.path.join(room, "rust-tokio"), ignore=shutil.ignore_patterns("target", "Cargo.lock"))
        env = {**os.environ, "CARGO_TARGET_DIR": os.path.join(copy, "target"), "RUSTFLAGS": "-D warnings", "CARGO_PROFILE_DEV_DEBUG": "0"}
        words = ["cargo", "build", "-q", *registry_for_cargo(room), "--features", "tokio", "--example", "probe"]
        subprocess.run(words, cwd=copy, env=env, check=True)
        shutil.copy(os.path.join(copy, "target/debug/examples/probe"), made)


def probes(room):
    """The probe of each language, as the words that start it."""
    source = os.path.join(CLIENTS, "c", "test", "probe.c")
    for compiler in ("gcc", "clang"):
        made = build_c(room, compiler, f"probe-{compiler}", "-std=c11", "-D_POSIX_C_SOURCE=200809L", "-pthread", source)
        if made:
            yield f"C by {compiler}", [made]
    made = build_c(room, "g++", "probe-g++", "-std=c++17", "-pthread", "-x", "c++", source)
    if made:
        yield "C++ by g++", [made]
    yield "Python", [sys.executable, "-W", "error", os.path.join(CLIENTS, "python", "test", "probe.py")]
    if is_here("rustc", "Rust"):
        rust = os.path.join(CLIENTS, "rust")
        flags = ["--edition", "2021", "-O", "-D", "warnings"]
        subprocess.run(["rustc", *flags, "--crate-type", "lib", "--crate-name", "truetime", f"{rust}/src/lib.rs", "--out-dir", room], check=True)
        made = os.path.join(room, "probe-rust")
        subprocess.run(["rustc", *flags, f"{rust}/examples/probe.rs", "--extern", f"truetime={room}/libtruetime.rlib", "-o", made], check=True)
        build_with_tokio(room, rust, f"{made}-tokio")
        yield "Rust", [made]
    if is_here("javac", "Java"):
        subprocess.run(["javac", "-Xlint:all", "-Werror", "-d", room, *java_sources()], check=True)
        yield "Java", ["java", "-Xshare:auto", "-cp", room, "io.truetime.Probe"]
    if has_go():
        made = os.path.join(room, "probe-go")
        subprocess.run(["go", "build", "-o", made, "./internal/probe"], cwd=GO, env=go_in(room), check=True)
        yield "Go", [made]


def session_probes(languages):
    """The probes of all kinds of sessions."""
    for name, words in languages:
        yield name, words
        if name == "Python":
            yield "Python asyncio", [*words, "asyncio"]
        if name == "Rust" and os.path.exists(f"{words[0]}-tokio"):
            yield "Rust tokio", [f"{words[0]}-tokio", "tokio"]


def has_go():
    """Whether there is a Go that is new enough."""
    if not is_here("go", "Go"):
        return False
    with open(os.path.join(GO, "go.mod"), encoding="utf-8") as file:
        wanted = next(line.split()[1] for line in file if line.startswith("go "))
    version = subprocess.run(["go", "version"], env={**os.environ, "GOTOOLCHAIN": "local"}, capture_output=True, text=True, check=True).stdout
    found = re.search(r"\bgo(\d+)\.(\d+)", version)
    if found and [int(part) for part in found.groups()] < [int(part) for part in wanted.split(".")]:
        print(f"clients: Go is left out: {found[0]} is here, and {wanted} is wanted")
        return False
    return True


def go_in(room, **more):
    """The environment of Go: nothing is fetched, and nothing is kept outside of this folder."""
    kept = {name: os.path.join(room, name.lower()) for name in ("HOME", "GOCACHE", "GOPATH")}
    fixed = {"GOFLAGS": "-mod=readonly -buildvcs=false", "GOTOOLCHAIN": "local", "GOPROXY": "off", "GOSUMDB": "off", "GOENV": "off", "GOWORK": "off"}
    return {**os.environ, "TMPDIR": room, **kept, **fixed, **more}


def go(room, seconds, *words, **more):
    """Runs Go; its status and output, or no status where that takes longer."""
    pipes = {"stdout": subprocess.PIPE, "stderr": subprocess.STDOUT, "text": True, "start_new_session": True}
    with subprocess.Popen(["go", *words], cwd=GO, env=go_in(room, **more), **pipes) as started:
        try:
            said, _ = started.communicate(timeout=max(seconds, 0.1))
        except subprocess.TimeoutExpired:
            os.killpg(started.pid, signal.SIGKILL)
            return None, started.communicate()[0]
    return started.returncode, said


# There a reader fails with an error of its own, as the test with the tag truetime_nofile shows.
OTHER_SYSTEMS = ("darwin", "windows")
# The ways in which Go's tests are run. What is built for checks of races is not optimized, which takes less time.
GO_TESTS = [
    ("its tests", ["-vet=all", "./..."]),
    ("with a clock by system calls", ["-tags=truetime_syscall", "-run=Clock|Now|Refus", "."]),
    ("as on other systems", ["-tags=truetime_nofile", "-run=Unsupported|Example", "."]),
    ("its tests with checks of races", ["-race", "-vet=off", "-gcflags=all=-N -l -dwarf=false", "-ldflags=-w", "."]),
]


def machine_for_go(trial):
    """A machine for Go's tests, as the environment that names it."""
    machine = trial.fleet({"A": trial.masters(3)}, poll="200ms")["A"]
    host, port = machine.address
    return {"TRUETIME_ADDRESS": f"{host}:{port}", "TRUETIME_SOCKET": machine.path("socket"), "TRUETIME_FILE": machine.path("shared")}


@suite.case(programs=("go",))
def tests_of_go(trial):
    """The tests of Go. All of it takes two minutes at most; checks of races and builds that take longer are left out."""
    if not any(name == "Go" for name, _ in trial.shared):
        return
    room, named, end = trial.room, machine_for_go(trial), time.monotonic() + 120
    if shutil.which("gofmt"):
        for name in run(["gofmt", "-l", GO], seconds=60).said.split():
            yield f"Go: gofmt writes {name} otherwise"
    _, here = go(room, 60, "list", "-tags=truetime_nofile", "-f={{.GoFiles}}", ".")
    for system in OTHER_SYSTEMS:
        _, there = go(room, 60, "list", "-f={{.GoFiles}}", ".", GOOS=system)
        if there != here or "shared_other.go" not in there:
            yield f"Go: on {system} other files are built than are tested here: {there}"
    for what, words in GO_TESTS:
        began = time.monotonic()
        status, said = go(room, end - began, "test", "-v", "-timeout=60s", *words, **named)
        if "-race" in words and (status is None or said.startswith("go: -race")):
            trial.note(f"Go: {what}: left out: {said.splitlines()[0] if status else 'no time is left'}")
            continue
        passed = said.count("\n--- PASS: ") + said.startswith("--- PASS: ")
        trial.holds(status == 0, f"Go: {what}:\n{said}")
        trial.note(f"Go: {what}: {passed} passed, {int(status != 0)} wrong, {time.monotonic() - began:.1f} seconds")
    for system in OTHER_SYSTEMS:
        status, said = go(room, end - time.monotonic(), "build", ".", GOOS=system, CGO_ENABLED="0")
        trial.holds(status in (0, None), f"Go: for {system}:\n{said}")
        trial.note(f"Go: for {system}: {'left out: no time is left' if status is None else f'built, {int(status != 0)} wrong'}")


@suite.case()
def tests_of_c(trial):
    """The tests of C: what conversations and files do not show."""
    source = os.path.join(CLIENTS, "c", "test", "unit.c")
    for compiler, *flags in ("gcc", "-std=c11", "-D_POSIX_C_SOURCE=200809L"), ("clang", "-std=gnu11"), ("g++", "-std=c++17", "-x", "c++"):
        made = build_c(trial.room, compiler, f"unit-{compiler}", *flags, "-pthread", source)
        if made:
            ran = run([made, trial.room], seconds=60)
            trial.check(compiler, ran.status == 0, ran.said + ran.error)


@suite.case()
def tests_of_python(trial):
    """The tests of Python, for asyncio and without: what conversations and files do not show."""
    for name in "aio_test.py", "blocking_test.py":
        ran = run([sys.executable, "-X", "dev", "-W", "error", os.path.join(CLIENTS, "python", "test", name)], seconds=120)
        passed = re.search(r"^Ran (\d+) tests", ran.error, re.MULTILINE)
        trial.holds(ran.status == 0 and passed, ran.said + ran.error)
        trial.note(f"Python: {name}: {passed[1] if passed else 0} tests, {int(ran.status != 0)} wrong")


class Reader:
    """A probe that answers line by line: its reader of a file that is not mapped, which reads again and again, or what else is named."""

    def __init__(self, words, what="files"):
        self.probe = subprocess.Popen([*words, what], stdin=subprocess.PIPE, stdout=subprocess.PIPE, text=True, bufsize=1)
        self.late = threading.Timer(150, self.probe.kill)  # where it hangs
        self.late.start()

    def __enter__(self):
        return self

    def __exit__(self, *_):
        self.probe.communicate(timeout=60)
        self.late.cancel()

    def say(self, line):
        """What it says of this line; a probe that has ended says nothing."""
        with contextlib.suppress(BrokenPipeError):
            self.probe.stdin.write(f"{line}\n")
        return self.probe.stdout.readline().strip()


def said_by(name, answer):
    """What a language says where it depends on whether it knows CLOCK_MONOTONIC_RAW."""
    return answer if isinstance(answer, str) else answer[not knows_raw(name)]


def said_of_file(words, reader, path):
    """What the reader of a mapped file says of this one, and that of one that is not mapped."""
    return [run([*words, "open", path], seconds=60).said.strip(), reader.say(f"open {path}")]


def try_files(trial, name, words, reader, path):
    """Files, good and bad, and what is no file; their number."""
    tried = 0
    for what, content, mode, answer in files():
        answer = said_by(name, answer)
        with open(path, "wb") as file:
            file.write(content)
        os.chmod(path, mode)
        said = said_of_file(words, reader, path)
        os.remove(path)
        tried += 1
        trial.check(name, said == [answer, answer], f"{what}: {said} in place of {answer!r}")
    if os.geteuid() == 0:
        with open(path, "wb") as file:
            file.write(next(files())[1])
        os.chmod(path, 0o644)
        for what, owner, wanted in ("another owner", 65_534, "refused 1702"), ("the owner again", 0, "published 1"):
            os.chown(path, owner, 65_534)
            said = said_of_file(words, reader, path)
            tried += 1
            trial.check(name, all(one.startswith(wanted) for one in said), f"{what}: {said} in place of {wanted!r}")
        os.remove(path)
    for what, make, remove in [("no file", lambda _: None, lambda _: None), ("a link", lambda at: os.symlink("/proc/self/stat", at), os.remove),
                               ("a folder", os.mkdir, os.rmdir), ("a FIFO", os.mkfifo, os.remove)]:
        make(path)
        said = said_of_file(words, reader, path)
        remove(path)
        tried += 1
        trial.check(name, set(said) <= {"refused 1701", "refused 1702"}, f"{what}: {said}")
    return tried


def try_shrinking(trial, name, reader, path):
    """A file that becomes shorter after it was opened, and is whole again; the number of lengths. The count is odd, so the last 128 bytes
    are the slot that is read."""
    whole = next(content for what, content, *_ in files() if what == "count 1")
    with open(path, "wb") as file:
        file.write(whole)
    os.chmod(path, 0o644)
    good, lengths = reader.say(f"open {path}"), (319, 264, 193, 192, 191, 64, 24, 23, 17, 16, 15, 1, 0)
    for length in lengths:
        os.truncate(path, length)
        shorter = reader.say("again")
        with open(path, "r+b") as file:
            file.write(whole)
        again = reader.say("again")
        trial.check(name, good.startswith("published ") and (shorter, again) == ("refused 1701", good),
                    f"{length} bytes: {shorter!r}, then {again!r}, and {good!r} at first")
    os.remove(path)
    return len(lengths)


def try_slots(trial, name, reader, path, boot):
    """Slots by the clocks that they have, mapped and not; their number."""
    tried = 0
    for clock in (MONOTONIC, RAW):
        by_hand = [(GOOD_SLOT[0], [changed.get(place, word) for place, word in enumerate(GOOD_SLOT)], shown, answer[not knows_raw(name)])
                   for of, changed, shown, *answer in SLOTS_BY_HAND if of == clock]
        by_chance = [(*each, said_of_slot(clock, *each[:2], knows_raw(name), {MONOTONIC: each[2][0], RAW: each[2][1]})) for each in slots(clock, 1000)]
        with open(path, "wb") as file:
            file.write(file_of(0, None, boot, clock))
        os.chmod(path, 0o644)
        with open(path, "r+b", buffering=0) as file:
            for way in ("map", "open"):
                os.pwrite(file.fileno(), bytes(8), INDEX_AT)
                trial.equal(f"{name}: {way}", reader.say(f"{way} {path}"), "refused 801")
                for index, slot, shown, answer in by_hand + by_chance:
                    # The other slot has what no daemon writes.
                    current, other = WORDS.pack(*slot), b"\xff" * SLOT_BYTES
                    whole = index.to_bytes(8, "little") + boot + bytes(4) + (other + current if is_odd(index) else current + other)
                    os.pwrite(file.fileno(), whole, INDEX_AT)
                    said = reader.say(f"at {shown[0]} {shown[1]}")
                    trial.check(name, said == answer, f"{way}, clock {clock}, index {index}, {slot} at {shown}: {said!r} in place of {answer!r}")
                    tried += 1
        os.remove(path)
    return tried


@suite.shares
def languages(trial):
    """The probes of all languages."""
    yield list(probes(trial.room))


@suite.case()
def readers(trial):
    """Ageing by vectors, files and files that become shorter, in each language."""
    tried, wanted = zip(*whole_vectors([numbers for numbers, _ in BY_HAND] + list(vectors(1, 20_000))))
    lines = "".join(" ".join(map(str, numbers)) + "\n" for numbers in tried)
    for numbers, answer in BY_HAND:
        trial.check("by hand", answer == reading_at(*numbers), f"{numbers}: {answer} by hand, and {reading_at(*numbers)}")
    for clock, changed, shown, *answers in SLOTS_BY_HAND:
        slot = [changed.get(place, word) for place, word in enumerate(GOOD_SLOT)]
        model = [said_of_slot(clock, 1, slot, is_known, {MONOTONIC: shown[0], RAW: shown[1]}) for is_known in (True, False)]
        trial.check("by hand", answers == model, f"{clock} {changed} {shown}: {answers} by hand, and {model}")
    boot = boot_id()
    for name, words in trial.shared:
        before = len(trial.result.wrong)
        answers = run([*words, "vectors"], lines.encode(), 300).said.splitlines()
        trial.check(name, len(answers) == len(wanted), f"{len(answers)} answers to {len(wanted)} vectors")
        for numbers, came, answer in zip(tried, answers, wanted):
            trial.check(name, came == answer, f"{numbers}: {came} in place of {answer}")
        with Reader(words) as reader:
            path = os.path.join(trial.room, "time")
            files_tried, lengths = try_files(trial, name, words, reader, path), try_shrinking(trial, name, reader, path)
            slots_tried = try_slots(trial, name, reader, path, boot)
        trial.note(f"{name}: {len(wanted)} vectors, {slots_tried} slots, {files_tried} files, each mapped and not, {lengths} shorter ones, "
                   f"{len(trial.result.wrong) - before} wrong")


# Runs a command in a time namespace that shifts the clock by a nanosecond, which unshare does not.
SHIFTED = """import ctypes, subprocess, sys
if ctypes.CDLL(None).unshare(0x80) == 0:
    with open("/proc/self/timens_offsets", "w", encoding="ascii") as file:
        file.write("monotonic 0 1")
    sys.exit(subprocess.call(sys.argv[1:]))
"""


@suite.case(root=True, programs=("unshare",))
def time_namespaces(trial):
    """A file whose clock the reader's time namespace shifts is refused; one that shifts nothing does not matter."""
    apart = ["unshare", "--time", "--fork"]
    if run([*apart, "true"]).status != 0:
        trial.note("time namespaces are not tried: there are none here")
        return
    path = os.path.join(trial.room, "shifted")
    _, content, mode, answer = next(files())
    with open(path, "wb") as file:
        file.write(content)
    os.chmod(path, mode)
    for name, words in trial.shared:
        for offset, wanted in ([], said_by(name, answer)), (["--monotonic", "-1"], "refused 1702"), (["--monotonic", "1000"], "refused 1702"):
            said = run([*apart, *offset, *words, "open", path], seconds=60).said.strip()
            trial.check(name, said == wanted, f"{offset}: {said} in place of {wanted!r}")
        said = run([sys.executable, "-c", SHIFTED, *words, "open", path], seconds=60).said.strip()
        trial.check(name, said == "refused 1702", f"a nanosecond: {said} in place of 'refused 1702'")
    trial.note(f"time namespaces: {len(trial.shared)} languages, {len(trial.result.wrong)} wrong")


def try_at_once(trial, call, *words):
    """Tries each kind of session by this call. They wait more than they compute, so all of them run at once."""
    tried = list(session_probes(trial.shared))
    with ThreadPoolExecutor() as pool:
        list(pool.map(lambda probe: call(trial, *probe, *words), tried))
    trial.note(f"{len(tried)} kinds of sessions; {len(trial.result.wrong)} wrong")


@suite.case()
def sessions(trial):
    """Conversations in each language."""
    try_at_once(trial, try_sessions)


def try_restarts(trial, name, words, machine):
    """A session with a machine that is killed while a commit waits, stays away, and is started again: twice, as a lease goes with it."""
    here = time.time_ns
    with Reader(words, "session") as session:
        def say(call):
            said = session.say(call)
            trial.check(name, said, f"{call}: the probe has ended")
            return said

        def wants(call, wanted):
            said = say(call)
            trial.check(name, said == wanted, f"{call}: {said!r} in place of {wanted!r}")

        wants(f"open tcp {machine.address[1]} 10000", "open")
        for lease in ([], [f"lease 0 {MAX}"]):
            for call in lease:
                wants(call, f"leased 0 {MAX}")
            before = here()
            stamp = int(say(f"begin {before + SECOND // 2}"))
            trial.check(name, before + SECOND // 2 <= stamp, f"{stamp} for a commit of {before}")
            machine.kill()
            wants("wait", f"failed 2 {stamp} lease" if lease else f"failed 1 {stamp}")
            wants("wait", "invalid")
            wants("now", "failed")
            wants("begin 0", "refused 903" if lease else "failed")
            machine.start()
            machine.wait_until_ready()
            wants("wait", "invalid")
            wants("after 1", "yes")
            for call in lease:
                wants("begin 0", "refused 903")
                wants(call, f"leased 0 {MAX}")
            later = int(say("commit 0"))
            trial.check(name, before < later < here(), f"{later} is no timestamp of a commit from {before} to {here()}")
        wants("close", "closed")
        wants("now", "failed")


@suite.case()
def restarts(trial):
    """Sessions with a machine that is killed and started again."""
    machine = trial.fleet({"A": trial.masters(3)}, poll="100ms")["A"]
    probes_tried = list(session_probes(trial.shared))
    for probe in probes_tried:
        try_restarts(trial, *probe, machine)
    trial.note(f"{len(probes_tried)} kinds of sessions, {2 * len(probes_tried)} restarts of a machine, {len(trial.result.wrong)} wrong")


WAYS = ("pwrite", "pieces", "stores", "bytes", "killed")


@suite.case()
def stress(trial):
    """The C reader beside writers."""
    flags = ["-std=gnu11", "-pthread", os.path.join(CLIENTS, "c", "test", "stress.c")]
    made = build_c(trial.room, os.environ.get("CC", "gcc"), "stress", *flags)
    if not made:
        return
    with tempfile.TemporaryDirectory(dir="/dev/shm" if os.path.isdir("/dev/shm") else None) as folder:
        path = os.path.join(folder, "time")
        for way in WAYS:
            reads, left = 100_000, (trial.options.seconds or 10) / 5
            while left > 0:
                ran = run([made, path, way, "3", str(reads)], seconds=600)
                trial.holds(ran.status == 0, ran.said + ran.error)
                left -= max(reads / 2_000_000, 0.2)
        trial.note(f"the C reader beside writers of five kinds: {len(trial.result.wrong)} runs wrong; the last one: {ran.said.strip()}")
        for checks in ("address,undefined", "thread"):
            try:
                made = build_c(trial.room, "gcc", f"stress-{checks}", f"-fsanitize={checks}", "-fno-sanitize-recover=all", *flags)
            except subprocess.CalledProcessError:
                trial.note(f"the C reader is not tried with checks of {checks}: gcc has no library for them here")
                continue
            checked = [run([made, path, way, "3", "20000"], seconds=600) for way in WAYS if made]
            for ran in checked:
                trial.holds(ran.status == 0, ran.said + ran.error)
            trial.note(f"the same with checks of {checks}: {len(checked)} runs, {sum(ran.status != 0 for ran in checked)} wrong")
