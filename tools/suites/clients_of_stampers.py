"""Cases of the suite `clients`: stampers, in each language whose probe has one.

`PROBE stamper` reads lines, and answers each at once:

    row LAST LO HI FLOOR LEASE_LO LEASE_HI
        `stamp N`, or `refused N`: what a stamper with this lease, whose last stamp is LAST, or none where that is 0, says to a floor by the
        reading [LO, HI]. `wrong` where its last stamp is not N after that, or is another one after a refusal
    row LAST LO HI FLOOR LEASE_LO LEASE_HI AHEAD GRID
        the same, where a floor may lie AHEAD above HI, and stamps are multiples of GRID; not in Go and Rust, whose call is private
    open PATH LEASE_LO LEASE_HI
        opens the file, mapped, and a stamper over it, in place of those before: `open`, or `refused N`
    stamp FLOOR
        `stamp N EARLIEST LATEST fresh|stale EPOCH`, or `refused N`
    past T
        `yes`, `no`, or `refused N`: whether this stamp has surely passed
    wait T MILLISECONDS
        the same, after a wait of at most so long
    threads THREADS EACH FLOOR
        so many threads, which begin together, each take so many stamps with this floor. When all have ended, for each thread from 0 on, each
        of its stamps in its order: the thread's number and a blank before what `stamp` says. Then `end`

What `row` has to say is what the proved rule says (`stamp_of` of crates/tt_stamp/specs/Stamp.antt, and `stamp_on` of
crates/tt_stamp_rows/specs/Grid.antt): the program of --stamps, tt_stamp_rows, answers the same lines by it. Rows that were worked out by hand
are a check of that program, too. What `stamp` says over a file is a row, too, since it names its reading.
"""
import contextlib
import itertools
import os
import random
import subprocess
import tempfile
import threading
import time

from harness.program import run
from harness.shared_file import INDEX_AT, MONOTONIC, NO_LIMIT, RAW, boot_id, empty_file, index_of, slot_at, slot_of
from suites.clients import CLIENTS, MAX, Reader, build_c, clock_shows, java_sources, knows_raw, suite

AHEAD, SECOND = 10_000_000_000, 1_000_000_000


# Worked out by hand: the last stamp, the reading, the floor, the lease, and the answer.
BY_HAND = [
    ((0, 0, 0, 0, 0, MAX), "stamp 0"),
    ((0, 100, 200, 0, 0, MAX), "stamp 200"),
    ((199, 100, 200, 0, 0, MAX), "stamp 200"),
    ((200, 100, 200, 0, 0, MAX), "stamp 201"),
    ((0, 100, 200, 300, 0, MAX), "stamp 300"),
    ((300, 100, 200, 300, 0, MAX), "stamp 301"),
    ((0, 100, 200, 0, 400, MAX), "stamp 400"),
    ((0, 100, 200, 300, 0, 300), "stamp 300"),
    ((300, 100, 200, 300, 0, 300), "refused 903"),
    ((0, 100, 200, 0, 0, 199), "refused 903"),
    ((0, 100, 200, 10_000_000_200, 0, MAX), "stamp 10000000200"),
    ((0, 100, 200, 10_000_000_201, 0, MAX), "refused 902"),
    ((0, 100, 200, 10_000_000_200, 0, 10), "refused 903"),
    ((0, 100, 200, 10_000_000_201, 0, 10), "refused 902"),
    ((MAX, 100, 200, 10_000_000_201, 0, 10), "refused 902"),
    ((0, 0, 0, NO_LIMIT, 0, MAX), "refused 902"),
    ((0, 0, MAX, 0, 0, MAX), f"stamp {MAX}"),
    ((0, MAX, MAX, MAX, MAX, MAX), f"stamp {MAX}"),
    ((0, 0, MAX, MAX + 1, 0, MAX), "refused 901"),
    ((0, 0, MAX, MAX + AHEAD, 0, MAX), "refused 901"),
    ((0, 0, MAX, MAX + AHEAD + 1, 0, MAX), "refused 902"),
    ((MAX - 1, 0, 0, 0, 0, MAX), f"stamp {MAX}"),
    ((MAX, 0, 0, 0, 0, MAX), "refused 901"),
    ((MAX, 0, 0, 0, 0, 0), "refused 901"),
    ((MAX - 1, 0, 0, 0, 0, MAX - 1), "refused 903"),
    ((0, 0, 0, 0, MAX, MAX), f"stamp {MAX}"),
]

# The same, with how far a floor may be ahead, and the grid.
ON_GRIDS_BY_HAND = [
    ((0, 100, 200, 0, 0, MAX, SECOND, 1), "stamp 200"),
    ((0, 100, 200, 0, 0, MAX, SECOND, 1000), "stamp 1000"),
    ((0, 100, 1000, 0, 0, MAX, SECOND, 1000), "stamp 1000"),
    ((999, 100, 200, 0, 0, MAX, SECOND, 1000), "stamp 1000"),
    ((1000, 100, 200, 0, 0, MAX, SECOND, 1000), "stamp 2000"),
    ((0, 100, 200, 1001, 0, MAX, SECOND, 1000), "stamp 2000"),
    ((0, 100, 200, 0, 2001, MAX, SECOND, 1000), "stamp 3000"),
    ((0, 100, 200, 0, 2001, 2999, SECOND, 1000), "refused 903"),
    ((0, 100, 200, 0, 2001, 3000, SECOND, 1000), "stamp 3000"),
    ((0, 100, 200, 200, 0, MAX, 0, 1), "stamp 200"),
    ((0, 100, 200, 201, 0, MAX, 0, 1), "refused 902"),
    ((0, 100, 200, 1_000_000_200, 0, MAX, SECOND, 1), "stamp 1000000200"),
    ((0, 100, 200, 1_000_000_201, 0, MAX, SECOND, 1), "refused 902"),
    ((0, 100, 200, 700, 0, MAX, 500, 1000), "stamp 1000"),
    ((MAX - 1, 0, 0, 0, 0, MAX, SECOND, 1000), f"stamp {MAX}"),
    ((MAX - 1, 0, 0, 0, 0, MAX, SECOND, 7), "refused 901"),
    ((0, 0, MAX - 4, 0, 0, MAX, SECOND, 7), f"stamp {MAX - 4}"),
    ((MAX - 1, 0, 0, 0, 0, MAX - 1, SECOND, 1000), "refused 903"),
    ((MAX - 1, 0, 0, 0, 0, MAX - 1, SECOND, 7), "refused 901"),
    ((0, 0, 0, 0, 0, MAX, 0, SECOND), "stamp 0"),
    ((0, 0, 1, 0, 0, MAX, 0, SECOND), "stamp 1000000000"),
    ((0, 0, MAX, MAX + AHEAD, 0, MAX, AHEAD, 1000), "refused 901"),
    ((0, 0, MAX, MAX + AHEAD + 1, 0, MAX, AHEAD, 1000), "refused 902"),
]


def corners():
    """Each of these last stamps, readings, leases and floors with each other."""
    middle = 10**18
    leases = [(0, MAX), (0, 0), (MAX, MAX), (middle, middle), (middle - 1, middle + 1), (0, middle), (middle + 1, MAX)]
    readings = [(0, 0), (0, MAX), (MAX, MAX), (MAX - 1, MAX - 1), (middle - 9, middle), (0, middle + 1), (middle - 1, middle - 1)]
    for (lease_lo, lease_hi), (lo, hi) in itertools.product(leases, readings):
        lasts = {0, 1, hi - 1, hi, hi + 1, lease_lo, lease_lo - 1, lease_hi - 1, lease_hi, lease_hi + 1, MAX - 1, MAX}
        floors = {0, 1, hi - 1, hi, hi + 1, hi + AHEAD - 1, hi + AHEAD, hi + AHEAD + 1, lease_lo, lease_hi, lease_hi + 1, MAX, MAX + 1, 2**63,
                  NO_LIMIT}
        for last, floor in itertools.product(sorted(lasts), sorted(floors)):
            if 0 <= last <= MAX and 0 <= floor:
                yield last, lo, hi, floor, lease_lo, lease_hi


def vectors(seed, number):
    """Rows whose numbers are mostly near each other, near an edge or near a bound."""
    chance = random.Random(seed)

    def a_time():
        return chance.choice([chance.randrange(10**chance.randrange(1, 19)), chance.randrange(MAX + 1), MAX - chance.randrange(10**6)])

    def near(time_ns):
        step = chance.choice([0, 1, 2, chance.randrange(100), chance.randrange(2 * AHEAD), AHEAD, AHEAD + 1])
        return min(max(time_ns + chance.choice([-step, step]), 0), MAX)

    for _ in range(number):
        lo, hi = sorted((near(middle := a_time()), near(middle)))
        lease = sorted(chance.choice([(0, MAX), (near(hi), near(hi)), (near(hi), MAX), (0, near(hi)), (a_time(), a_time())]))
        last = chance.choice([0, near(hi), near(lease[0]), near(lease[1]), a_time()])
        floor = chance.choice([0, near(hi), hi + AHEAD, hi + AHEAD + 1, near(last), near(lease[1]), chance.randrange(2**64)])
        yield last, lo, hi, floor, *lease


def on_grids(seed, number):
    """Rows with a limit and a grid, whose numbers are often at an edge of these."""
    chance = random.Random(seed)
    for last, lo, hi, floor, *lease in vectors(seed, number):
        ahead = chance.choice([0, 1, SECOND, AHEAD, chance.randrange(AHEAD + 1)])
        grid = chance.choice([1, 2, 1000, 10**6, SECOND, chance.randrange(1, SECOND + 1)])
        floor = min(chance.choice([floor, hi + ahead, hi + ahead + 1, hi // grid * grid, hi // grid * grid + 1]), NO_LIMIT)
        last = chance.choice([last, hi // grid * grid, max(hi // grid * grid - 1, 0)])
        if chance.random() < 0.3:
            lease[1] = min(max((hi // grid + 1) * grid - chance.randrange(2), lease[0]), MAX)
        yield last, lo, hi, floor, *lease, ahead, grid


# Leases whose ends are none, and what a stamper says to them.
NO_LEASES = [((1, 0), "refused 101"), ((MAX, 0), "refused 101"), ((MAX + 1, MAX), "refused 101"), ((NO_LIMIT, 0), "refused 101"),
             ((0, MAX + 1), "refused 102")]
# Lines that are no rows for tt_stamp_rows: in their form, or by a last stamp or a reading that there cannot be.
NO_ROWS = ["\n", "row\n", "row 0 0 0 0 0\n", "row 0 0 0 0 0 0 0\n", "row 0 0 0 0 0 0", "row 0 0 0 0 0 00\n", "row 0 0 0 0 0 -1\n", "0 0 0 0 0 0\n",
           f"row 0 0 0 {NO_LIMIT + 1} 0 0\n", f"row {MAX + 1} 0 0 0 0 0\n", "row 0 1 0 0 0 0\n", f"row 0 0 {MAX + 1} 0 0 0\n",
           "row 0 0 0 0 0 0 0 0\n", f"row 0 0 0 0 0 0 0 {SECOND + 1}\n", f"row 0 0 0 0 0 0 {AHEAD + 1} 1\n", "row 0 0 0 0 0 0 0 1 1\n",
           f"row {MAX + 1} 0 0 0 0 0 0 1\n", "table 0\n", "begin 1 0 0\n", "begin 0 0\n", "watermark\n", "readable 0\n", "release 0\n", "written\n"]


def lines_of(rows):
    """The lines that ask these rows."""
    return "".join("row " + " ".join(map(str, numbers)) + "\n" for numbers in rows).encode()


def rows_and_answers(trial):
    """The rows to try, each with what a stamper has to say to it."""
    worked = BY_HAND + ON_GRIDS_BY_HAND
    if not trial.options.stamps:
        trial.note("only the rows by hand are tried: --stamps names no program, and tt_stamp_rows is not built here")
        return worked
    by_hand = [*worked, *(((0, 0, 0, 0, *lease, *limits), answer) for lease, answer in NO_LEASES for limits in ((), (0, 1)))]
    rows = [*(numbers for numbers, _ in by_hand), *corners(), *vectors(2, 10_000), *on_grids(4, 5_000)]
    ran = run([trial.options.stamps], lines_of(rows), 60)
    answers = ran.said.splitlines()
    trial.check("tt_stamp_rows", ran.status == 0 and len(answers) == len(rows), f"status {ran.status}, {len(answers)} answers: {ran.error}")
    for (numbers, answer), came in zip(by_hand, answers):
        trial.check("tt_stamp_rows", came == answer, f"row {numbers}: {came} in place of {answer}")
    for answer in "stamp ", "refused 901", "refused 902", "refused 903":
        number = sum(other.startswith(answer) for other in answers)
        trial.check("tt_stamp_rows", number > 500, f"only {number} rows with {answer}")
    for line in NO_ROWS:
        ran = run([trial.options.stamps], lines_of([BY_HAND[0][0]]) + line.encode(), 60)
        trial.check("tt_stamp_rows", ran.answer == ("stamp 0\n", 1) and "line 2 " in ran.error, f"{line!r}: {ran.answer} {ran.error.strip()}")
    return worked + list(zip(rows, answers))[len(by_hand):]


def try_rows(trial, name, words, tried):
    """The rule, row by row; the number of rows."""
    if name in ("Go", "Rust"):
        tried = [(numbers, answer) for numbers, answer in tried if len(numbers) == 6]
    answers = run([*words, "stamper"], lines_of(numbers for numbers, _ in tried), 300).said.splitlines()
    trial.check(name, len(answers) == len(tried), f"{len(answers)} answers to {len(tried)} rows")
    for (numbers, answer), came in zip(tried, answers):
        trial.check(name, came == answer, f"row {numbers}: {came} in place of {answer}")
    for lease, answer in NO_LEASES:
        came = run([*words, "stamper"], lines_of([(0, 0, 0, 0, *lease)]), 60).said.strip()
        trial.check(name, came == answer, f"lease {lease}: {came} in place of {answer}")
    return len(tried)


class Shared:
    """A file of a daemon by CLOCK_MONOTONIC_RAW that is written in place, for one language. The true time is that of the clock which its readers
    read, and `offset` more. The base by the other clock is none that they may read: it gives no reading yet."""
    offset = 10**18
    OTHER = (MAX, 1, 2)

    def __init__(self, path, name):
        self.reads = RAW if knows_raw(name) else MONOTONIC
        self.nothing = empty_file(boot_id(), RAW)
        with contextlib.suppress(FileNotFoundError):
            os.remove(path)
        self.file, self.count = os.open(path, os.O_RDWR | os.O_CREAT | os.O_EXCL, 0o644), 0
        os.fchmod(self.file, 0o644)
        self.clear()

    def __enter__(self):
        return self

    def __exit__(self, *_):
        os.close(self.file)

    def now(self):
        """The true time."""
        return self.clock() + self.offset

    def clock(self):
        """The clock that is read."""
        return clock_shows(self.reads)

    def clear(self):
        """Nothing was published."""
        os.pwrite(self.file, self.nothing, 0)
        self.count = 0

    def publish(self, early=0, late=0, ahead=0, clock=None, until=NO_LIMIT, usable=NO_LIMIT, epoch=7, drift=0):
        """Publishes the true time, which is `ahead` of what it is else, with these errors. Where it may be used no more, no base may."""
        clock = self.clock() if clock is None else clock
        self.count += 1
        middle = clock + self.offset + ahead
        span = (clock, middle - early, middle + late)
        first, second = (span, self.OTHER) if self.reads == RAW else (self.OTHER, span)
        slot = slot_of(self.count, (*first, until, usable, epoch, self.count, drift), (*second, drift, until, usable))
        self.put(slot)

    def put(self, slot):
        """Writes the slot of the last publication, and then the index."""
        os.pwrite(self.file, slot, slot_at(self.count))
        os.pwrite(self.file, index_of(self.count), INDEX_AT)

    def withdraw(self):
        """Has the file give nothing by CLOCK_MONOTONIC, until it is published again."""
        self.count += 1
        slot = slot_of(self.count, (*self.OTHER, NO_LIMIT, NO_LIMIT, 7, self.count, 0))
        self.put(slot)


def try_refusals(said, shared, path):
    """What a stamper says where there is no reading: the reading's refusal, whatever else is asked for. What is wrong."""
    for what, answer in (path + ".none", "refused 1701"), (os.path.dirname(path), "refused 1702"):
        yield f"open {what}", said(f"open {what} 0 {MAX}"), answer
    yield "open", said(f"open {path} 0 {MAX}"), "open"
    hour = 3600 * SECOND
    for what, change, answer in [
            ("nothing published", shared.clear, "refused 801"),
            ("nothing any more", lambda: shared.publish(usable=0), "refused 801"),
            ("a drift too great", lambda: shared.publish(drift=100_001), "refused 1703"),
            ("a clock below that of the publication", lambda: shared.publish(clock=shared.clock() + hour), "refused 802"),
            ("the same, and not usable", lambda: shared.publish(clock=shared.clock() + hour, usable=1), "refused 802"),
            ("not usable any more", lambda: shared.publish(usable=shared.clock()), "refused 1708")]:
        change()
        for line in ("stamp 0", f"stamp {NO_LIMIT}", "past 0", f"past {MAX}", "wait 0 1000", f"wait {MAX} 1000"):
            yield f"{what}: {line}", said(line), answer


def try_stamps(said, shared, path):
    """Stamps of one stamper after the other; what it said, and what it has to."""
    def stamp(floor):
        word, *numbers = said(f"stamp {floor}").split()
        return [int(number) if number.isdigit() else number for number in numbers] if word == "stamp" else [word, *numbers]

    yield "open", said(f"open {path} 0 {MAX} {AHEAD} 1"), "open"
    shared.publish(early=300, late=500, until=1, epoch=NO_LIMIT)
    begun = shared.now()
    given, earliest, latest, fresh, epoch = stamp(0)
    yield "of a stale publication", (given == latest, latest - earliest, fresh, epoch), (True, 800, "stale", NO_LIMIT)
    yield "by a reading of the call", begun <= latest - 500 <= shared.now(), True
    shared.publish(early=300, late=500, epoch=8)
    floor = shared.now() + 5 * SECOND
    for asked, answer in (floor, floor), (0, floor + 1), (floor + 9, floor + 9):
        yield f"floor {asked}", stamp(asked)[::3], [answer, "fresh"]
    yield "floor too far", stamp(shared.now() + 600 * SECOND), ["refused", "902"]
    yield "nothing is used up", stamp(floor)[::4], [floor + 10, 8]
    low = shared.now() + 3 * SECOND
    yield "open with a lease", said(f"open {path} {low} {low + 1}"), "open"
    for answer in [low], [low + 1], ["refused"], ["refused"]:
        yield "within a lease", stamp(0)[:1], answer
    yield "over", said("stamp 0"), "refused 903"
    yield "over, and the floor too far", said(f"stamp {NO_LIMIT}"), "refused 902"
    yield "open at the end of time", said(f"open {path} {MAX} {MAX}"), "open"
    yield "the greatest time", stamp(0)[:1], [MAX]
    yield "used up", said("stamp 0"), "refused 901"


def try_limits(said, shared, path):
    """What a stamper has beside the rule: how far a floor may be ahead, a grid, a lease that is extended, what stamps are above, and a wait by
    steps."""
    def stamp(floor):
        return said(f"stamp {floor}").split(" ")[:2]

    shared.publish(early=300, late=500)
    yield "open as it comes", said(f"open {path} 0 {MAX}"), "open"
    yield "a floor two seconds ahead", said(f"stamp {shared.now() + 2 * SECOND}"), "refused 902"
    floor = shared.now() + 9 * SECOND // 10
    yield "a floor less than a second ahead", stamp(floor), ["stamp", str(floor)]
    yield "open with a limit of three seconds", said(f"open {path} 0 {MAX} {3 * SECOND} 1"), "open"
    yield "a floor four seconds ahead", said(f"stamp {shared.now() + 4 * SECOND}"), "refused 902"
    floor = shared.now() + 2 * SECOND
    yield "a floor two seconds ahead of three", stamp(floor), ["stamp", str(floor)]
    # The grid.
    yield "open with a grid", said(f"open {path} 0 {MAX} {AHEAD} 1000"), "open"
    floor = (shared.now() + 5 * SECOND) // 1000 * 1000
    for asked, answer in (floor + 1, floor + 1000), (0, floor + 2000), (floor + 3000, floor + 3000), (floor + 3999, floor + 4000):
        yield f"floor {asked - floor}", stamp(asked), ["stamp", str(answer)]
    low = floor + 60 * SECOND
    for lo, hi, answer in (low + 1, low + 999, "refused 903"), (low - 999, low, f"stamp {low}"), (MAX - 999, MAX, f"stamp {MAX}"):
        yield f"open {lo - low} {hi - low}", said(f"open {path} {lo} {hi} {AHEAD} 1000"), "open"
        yield f"within {lo - low} {hi - low}", " ".join(stamp(0)), answer
    # The lease.
    yield "open with a lease", said(f"open {path} {low} {low + 1}"), "open"
    for line, answer in [("stamp 0", f"stamp {low}"), (f"extend {low - 9}", "extended"), ("stamp 0", f"stamp {low + 1}"), ("stamp 0", "refused 903"),
                         (f"extend {low + 3}", "extended"), (f"extend {low + 2}", "extended"), ("stamp 0", f"stamp {low + 2}"),
                         ("stamp 0", f"stamp {low + 3}"), ("stamp 0", "refused 903"), (f"extend {MAX + 1}", "refused 102"), ("stamp 0", "refused 903"),
                         (f"extend {MAX}", "extended"), (f"above {low + 99}", "risen"), ("stamp 0", f"stamp {low + 100}"), (f"above {low + 99}", "risen"),
                         ("stamp 0", f"stamp {low + 101}"), (f"above {MAX + 1}", "refused 102"), ("stamp 0", f"stamp {low + 102}"),
                         (f"above {MAX}", "risen"), ("stamp 0", "refused 901")]:
        yield line, " ".join(said(line).split(" ")[:2]), answer
    # The step of a wait.
    yield "what has passed", said("left 0"), "0"
    yield "what is far ahead", (said(f"left {shared.now() + 60 * SECOND}"), said(f"left {NO_LIMIT}")), ("50000000", "50000000")
    left = int(said(f"left {shared.now() + SECOND // 25}"))
    yield "what is less than 50 ms ahead", left == 0 or left <= SECOND // 25 + 301, True
    shared.publish(clock=(clock := shared.clock()), ahead=MAX - shared.offset - clock)
    yield "the greatest time", (said(f"left {MAX}"), said(f"left {MAX - 1}")), ("1", "0")
    shared.clear()
    yield "nothing published", said("left 0"), "refused 801"


def stamped_on_grids(said, shared, path):
    """Stamps over a file, by stampers with limits and grids; what was said, and a row for each reading by which it may have been."""
    chance = random.Random(5)
    for number in range(60):
        at_end, base = number % 4 == 3, shared.now()
        if at_end:  # each reading is of the greatest time alone
            shared.publish(clock=(clock := shared.clock()), ahead=MAX - shared.offset - clock)
            base = MAX
        else:
            shared.publish(early=300, late=500)
        grid = chance.choice([1, 2, 1000, 1000, 10**6, chance.randrange(1, SECOND + 1)])
        limits = (chance.choice([0, 1, SECOND, AHEAD, chance.randrange(AHEAD + 1)]), grid)
        low = chance.choice([0, base, (base // grid - 1) * grid, base + chance.randrange(SECOND)])
        lease = (min(low, MAX), min(chance.choice([MAX, low + chance.randrange(3 * grid), low + chance.randrange(9 * SECOND)]), MAX))
        said(f"open {path} {lease[0]} {lease[1]} {limits[0]} {limits[1]}")
        last = 0
        if chance.random() < 0.4:
            last = min(base - base % grid + chance.randrange(-2, 9) * grid + chance.randrange(-1, 2), MAX)
            said(f"above {last}")
        for _ in range(5):
            floor = max(chance.choice([0, base + limits[0] + chance.randrange(-1, 2), base + chance.randrange(AHEAD), last + 3 * grid, last]), 0)
            readings = [MAX if at_end else shared.now() + 500]
            came = said(f"stamp {floor}").split(" ")
            readings.append(MAX if at_end else shared.now() + 500)
            if came[0] == "stamp" and readings[0] <= int(came[3]) <= readings[1]:
                readings = [int(came[3])]
            yield " ".join(came[:2]), [(last, 0, latest, floor, *lease, *limits) for latest in readings]
            last = int(came[1]) if came[0] == "stamp" else last


def try_grids(trial, name, said, shared, path):
    """Stamps over a file beside the rule; their number."""
    tried = list(stamped_on_grids(said, shared, path))
    rows = [row for _, possible in tried for row in possible]
    if not trial.options.stamps:
        return 0
    answers = iter(run([trial.options.stamps], lines_of(rows), 60).said.splitlines())
    for came, possible in tried:
        right = [next(answers, "nothing") for _ in possible]
        trial.check(name, came in right, f"rows {possible}: {came} in place of {' or '.join(right)}")
    for answer in "stamp ", "refused 902", "refused 903":
        trial.check(name, sum(came.startswith(answer) for came, _ in tried) > 20, f"few answers {answer}")
    return len(tried)


def timed(said, line, least_ms, most_ms, more_ms=1000):
    """What is said to a line, and whether it took so long. The host may be busy, so it may take a second more, or as much as is named."""
    began = time.monotonic()
    answer, took_ms = said(line), 1000 * (time.monotonic() - began)
    return f"{answer} {'in time' if least_ms <= took_ms <= most_ms + more_ms else f'after {took_ms} ms'}"


def try_waits(said, shared, path):
    """Waits; what was said, and what has to be."""
    yield "open", said(f"open {path} 0 {MAX}"), "open"
    shared.publish(early=1000, late=1000)
    now = shared.now()
    yield "below the earliest", said(f"past {now - 1002}"), "yes"
    yield "ahead", said(f"past {now + 60 * SECOND}"), "no"
    yield "the greatest number", said(f"past {NO_LIMIT}"), "no"
    shared.publish(early=60 * SECOND, late=60 * SECOND)
    yield "within the reading", (said(f"past {now}"), said(f"wait {now} 10")), ("no", "no")
    shared.publish(clock=(clock := shared.clock()), ahead=MAX - shared.offset - clock)
    yield "the greatest time, which is the earliest", (said(f"past {MAX}"), said(f"past {MAX - 1}")), ("no", "yes")
    yield "the same, after a wait", (said(f"wait {MAX} 10"), said(f"wait {MAX - 1} 10")), ("no", "yes")
    shared.publish(early=1000, late=1000)
    yield "passed", timed(said, f"wait {now - 1002} 0", 0, 0), "yes in time"
    yield "a time-out of 0", timed(said, f"wait {now + 60 * SECOND} 0", 0, 0), "no in time"
    yield "a time-out", timed(said, f"wait {NO_LIMIT} 120", 119, 120), "no in time"
    for ahead_ms in 1, 30, 130:
        stamp = shared.now() + ahead_ms * SECOND // 1000
        yield f"{ahead_ms} ms", timed(said, f"wait {stamp} 60000", 0, ahead_ms), "yes in time"
        yield f"{ahead_ms} ms have passed", shared.now() > stamp + 1000, True
    for what, change, answer in [("no publication any more", lambda: shared.publish(usable=0), "refused 801 in time"),
                                 ("a narrower publication", lambda: shared.publish(ahead=90 * SECOND), "yes in time")]:
        for _ in range(9):  # a sleep is at most 50 milliseconds; the host may be busy
            shared.publish(early=1000, late=1000)
            later = threading.Timer(0.1, change)
            later.start()
            came = timed(said, f"wait {shared.now() + 60 * SECOND} 10000", 0, 150, 60)
            later.join()
            if came == answer:
                break
        yield what, came, answer


def try_withdrawals(said, shared, path):
    """A file that gives nothing by CLOCK_MONOTONIC for a while: who reads that clock alone stamps nothing, and a wait lasts until there is
    something again, or for as long as it may. What was said, and what has to be."""
    shared.publish()
    yield "open", said(f"open {path} 0 {MAX}"), "open"
    stamp = int(said("stamp 0").split()[1])
    shared.withdraw()
    if shared.reads == RAW:  # the base by the raw clock is as it was: none that gives a reading yet
        for line in "stamp 0", "past 0", "left 0", f"wait {stamp} 100":
            yield line, said(line), "refused 802"
        return
    for line in "stamp 0", "past 0", "left 0":
        yield line, said(line), "refused 1710"
    for ms in 0, 30, 120:
        yield f"nothing for {ms} ms", timed(said, f"wait {stamp} {ms}", ms, ms), "no in time"
    later = threading.Timer(0.12, shared.publish)
    later.start()
    yield "something again", timed(said, f"wait {stamp} 60000", 119, 180), "yes in time"
    later.join()
    yield "a stamp behind that", said("stamp 0").split()[0], "stamp"


@suite.case()
def stampers(trial):
    """Stampers by rows, and over files."""
    tried = rows_and_answers(trial)
    for name, words in trial.shared:
        before, checks, path = len(trial.result.wrong), 0, os.path.join(trial.room, "stamped")
        rows = try_rows(trial, name, words, tried)
        with Shared(path, name) as shared, Reader(words, "stamper") as probe:
            late = threading.Timer(120, probe.probe.kill)
            late.start()
            each_of = (try_refusals, try_stamps, try_limits, try_waits, try_withdrawals)
            for what, came, answer in (each for some in each_of for each in some(probe.say, shared, path)):
                checks += 1
                trial.check(name, came == answer, f"{what}: {came} in place of {answer}")
            checks += try_grids(trial, name, probe.say, shared, path)
            late.cancel()
        trial.note(f"{name}: {rows} rows, {checks} answers over files, {len(trial.result.wrong) - before} wrong")


THREADS, EACH, WIDTH = 8, 10_000, 500_000


@contextlib.contextmanager
def publishing(path, name):
    """Publishes about 10,000 times a second, in life after life, while the block lasts."""
    over = threading.Event()

    def publish_on():
        chance = random.Random(3)
        while not over.wait(0.00005):
            early, late, until = chance.randrange(WIDTH), chance.randrange(WIDTH), shared.clock() + SECOND
            shared.publish(early, late, drift=200, epoch=1 + shared.count // 1000, until=until)

    with Shared(path, name) as shared:
        shared.publish(WIDTH, WIDTH, drift=200, epoch=1)
        writer = threading.Thread(target=publish_on)
        writer.start()
        try:
            yield shared
        finally:
            over.set()
            writer.join()


def stamps_of(words, path, lease, floor, shared):
    """The stamps of the probe's threads, by thread; how many stamps were refused with each number; and what is wrong."""
    threads, refused, wrong, begun = [[] for _ in range(THREADS)], {}, [], shared.now()
    ran = run([*words, "stamper"], f"open {path} {lease[0]} {lease[1]} {AHEAD} 1\nthreads {THREADS} {EACH} {floor}\n".encode(), 120)
    said, ended = ran.said.splitlines(), shared.now()
    if ran.status != 0 or said[:1] != ["open"] or said[-1:] != ["end"] or len(said) != THREADS * EACH + 2:
        return threads, refused, [f"status {ran.status}, and {len(said)} lines, the last one {said[-1:]}: {ran.error[:1000]}"]
    for line in said[1:-1]:
        number, word, *numbers = line.split()
        if word == "refused":
            refused[line.split(" ", 1)[1]] = refused.get(line.split(" ", 1)[1], 0) + 1
            continue
        stamp, earliest, latest, epoch = (int(numbers[place]) for place in (0, 1, 2, 4))
        threads[int(number)].append(stamp)
        if not earliest <= latest <= stamp or not begun <= latest <= ended + 2 * WIDTH or not 1 <= epoch <= 1 + shared.count // 1000:
            wrong.append(f"not by a reading of the call: {line}")
    return threads, refused, wrong


def out_of_order(threads):
    """What is wrong with the order of these stamps."""
    together = sorted(stamp for thread in threads for stamp in thread)
    equal = sum(one == other for one, other in zip(together, together[1:]))
    falling = sum(one >= other for thread in threads for one, other in zip(thread, thread[1:]))
    return [f"{equal} stamps are equal"] * (equal > 0) + [f"{falling} stamps are not above the thread's last"] * (falling > 0)


def race(trial, name, words, path):
    """Threads that stamp by their readings, and threads that stamp from one floor on, until the lease is over."""
    with publishing(path, name) as shared:
        threads, refused, wrong = stamps_of(words, path, (0, MAX), 0, shared)
        trial.equal(name, [*wrong[:5], *out_of_order(threads), *refused.items()], [])
        turns = sorted((stamp, number) for number, thread in enumerate(threads) for stamp in thread)
        turns = sum(one[1] != other[1] for one, other in zip(turns, turns[1:]))
        floor, wanted = shared.now() + 8 * SECOND, THREADS * EACH * 3 // 4
        threads, refused, wrong = stamps_of(words, path, (0, floor + wanted - 1), floor, shared)
        given = sorted(stamp for thread in threads for stamp in thread)
        trial.equal(name, [*wrong[:5], *out_of_order(threads)], [])
        trial.check(name, given == list(range(floor, floor + wanted)), f"{len(given)} stamps, and the {wanted} from {floor} on are wanted")
        trial.equal(name, refused, {"refused 903": THREADS * EACH - wanted})
        trial.note(f"{name}: {2 * THREADS * EACH} calls of {THREADS} threads beside {shared.count} publications; the next stamp was another "
                   f"thread's {turns} times")


@suite.case()
def stampers_stress(trial):
    """Threads that share one stamper, beside a writer."""
    with tempfile.TemporaryDirectory(dir="/dev/shm" if os.path.isdir("/dev/shm") else None) as folder:
        path = os.path.join(folder, "time")
        for name, words in trial.shared:
            race(trial, name, words, path)
        flags = ["-std=c11", "-D_POSIX_C_SOURCE=200809L", "-pthread", "-fno-sanitize-recover=all", os.path.join(CLIENTS, "c", "test", "probe.c")]
        for checks in ("address,undefined", "thread"):
            try:
                made = build_c(trial.room, "gcc", f"probe-{checks}", f"-fsanitize={checks}", *flags)
            except subprocess.CalledProcessError:
                trial.note(f"the C stamper is not tried with checks of {checks}: gcc has no library for them here")
                continue
            if made:
                race(trial, f"C with checks of {checks}", [made], path)


@suite.case(programs=("javac", "java"))
def tests_of_java(trial):
    """The unit tests of Java, of the stamper and of what is Java's own. Those in Rust and Go run with the other tests of these."""
    made = run(["javac", "-Xlint:all", "-Werror", "-d", trial.room, *java_sources()], seconds=120)
    trial.check("Java", made.status == 0, f"javac said {made.error}")
    for name in "StamperTest", "ClientTest":
        told = run(["java", "-cp", trial.room, f"io.truetime.{name}"], seconds=120)
        trial.check(f"Java: {name}", told.status == 0, told.said + told.error)


@suite.case(root=True, programs=("unshare",))
def clock_of_readers(trial):
    """The clock is none that counts the time in which the host slept: a time namespace sets that one ahead here, and leaves the others as they
    are."""
    apart = ["unshare", "--time", "--boottime", "1000", "--fork"]
    if run([*apart, "true"]).status != 0:
        trial.note("the clock is not tried: there are no time namespaces here")
        return
    path = os.path.join(trial.room, "clock")
    for name, words in trial.shared:
        with Shared(path, name) as shared:
            shared.publish()
            begun = shared.now()
            said = run([*apart, *words, "stamper"], f"open {path} 0 {MAX}\nstamp 0\n".encode(), 60).said.split()
            is_right = said[:2] == ["open", "stamp"] and begun <= int(said[2]) <= shared.now()
            trial.check(name, is_right, f"{said} from {begun} on")
