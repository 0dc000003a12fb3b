"""What the reader answers, for the tests: as ../../c/test/probe.c. `probe.py asyncio` is the same for sessions of truetime.aio."""
import asyncio
import contextlib
import gc
import inspect
import os
import pathlib
import sys
import threading
import time

sys.path.insert(0, str(pathlib.Path(__file__).resolve().parent.parent))

import truetime  # noqa: E402
from truetime import aio  # noqa: E402


def answer(lines):
    for line in lines:
        clock, lo, hi, drift, usable, now, valid, epoch, number, t = map(int, line.split())
        try:
            reading = truetime.Publication(clock, lo, hi, valid, usable, epoch, number, drift).read_at(now)
            print(reading.earliest_ns, reading.latest_ns, reading.epoch, reading.number, "fresh" if reading.fresh else "stale",
                  *("yes" if is_so else "no" for is_so in (reading.after(t), reading.before(t))))
        except truetime.Refused as refused:
            print("refused", refused.number)


def open_file(path):
    try:
        with truetime.Client(path, os.geteuid()) as client:
            print("published", *client.read()[:8])
    except truetime.Refused as refused:
        print("refused", refused.number)


def read_at(client, monotonic, raw):
    """The reading of a file where the clocks show these, behind the number of the clock that is read."""
    published = client.read()
    reading = published.read_at(raw if published.clock_id == time.CLOCK_MONOTONIC_RAW else monotonic)
    return (published.clock_id, *reading[:4], "fresh" if reading.fresh else "stale")


def try_files(lines):
    client = None
    for line in lines:
        name, _, path = line.rstrip("\n").partition(" ")
        try:
            if name == "at":
                print(*read_at(client, *map(int, path.split())), flush=True)
                continue
            if name in ("open", "map"):
                if client:
                    client.close()
                client = truetime.Client(path, os.geteuid(), mapped=name == "map")
            print("published", *client.read()[:8], flush=True)
        except truetime.Refused as refused:
            print("refused", refused.number, flush=True)


def opened(kind, address, *words):
    """A session of this kind that is connected."""
    return kind.connect(address, *words) if kind is aio.Session else kind(address, *words)


def call_session(session, name, rest):
    """Makes a call of either kind of session, and gives what it gives."""
    if name in ("close", "ask"):
        return getattr(session, name)(*[rest] * (name == "ask"))
    return getattr(session, name)(*map(int, rest.split()))


def said_of_call(name, rest, given):
    """What is printed of what a call gave."""
    if name in ("open", "close"):
        return {"open": "open", "close": "closed"}[name]
    if name == "lease":
        return f"leased {rest}"
    if isinstance(given, bool):
        return "yes" if given else "no"
    return f"{given.earliest_ns} {given.latest_ns}" if name == "now" else given


def said_of_error(error):
    """What is printed of an error of a call, with what it carries."""
    if isinstance(error, truetime.CommitPending):
        return f"refused {error.number} {error.commit} {error.stamp_ns}"
    if isinstance(error, truetime.Refused):
        return f"refused {error.number}"
    if not isinstance(error, OSError):
        return "invalid"
    name = "timed out" if isinstance(error, TimeoutError) or isinstance(error.__cause__, TimeoutError) else "failed"
    if isinstance(error, truetime.SessionLost):
        name += f" {error.commit} {error.stamp_ns}" * bool(error.commit) + " lease" * error.had_lease
    return name


def try_sessions(kind, calls):
    session, last, loop = None, None, asyncio.new_event_loop()
    for call in calls:
        name, _, rest = call.rstrip("\n").partition(" ")
        if name == "told":
            print(last, flush=True)
            continue
        try:
            if name == "open":
                network, where, milliseconds, *width = rest.split(" ")
                given = opened(kind, where if network == "unix" else ("127.0.0.1", int(where)), int(milliseconds) / 1000, *map(int, width))
            else:
                given = call_session(session, name, rest)
            given = loop.run_until_complete(given) if inspect.isawaitable(given) else given
            session = given if name == "open" else session
            print(said_of_call(name, rest, given), flush=True)
        except (truetime.Refused, OSError, RuntimeError, ValueError) as error:
            last = str(error)
            print(said_of_error(error), flush=True)
    loop.close()


def answer_row(numbers):
    last, lo, hi, floor, lease_lo, lease_hi, *limits = numbers
    ahead, grid = limits or (truetime.MAX_AHEAD_NS, 1)
    with_last = truetime.Stamper(None, lease_lo, lease_hi, ahead_ns=ahead, grid_ns=grid)
    with_last._least_free_ns = last + 1 if last else 0
    before = with_last._least_free_ns
    try:
        stamp = with_last.stamp_at(truetime.Reading(lo, hi, 0, 0, True), floor)
    except truetime.Refused as refused:
        return f"refused {refused.number}" if with_last._least_free_ns == before else "wrong"
    return f"stamp {stamp}" if with_last._least_free_ns == stamp + 1 else "wrong"


def said_of(given):
    return f"stamp {given.stamp_ns} {given.earliest_ns} {given.latest_ns} {'fresh' if given.fresh else 'stale'} {given.epoch}"


def stamp_in_threads(stamper, threads, each, floor):
    """Stamps of so many threads, which begin together; the lines of each one behind those of the last."""
    begin, said = threading.Barrier(threads), [[] for _ in range(threads)]

    def stamp_on(mine):
        begin.wait()
        for _ in range(each):
            try:
                mine.append(stamper.stamp(floor))
            except truetime.Refused as refused:
                mine.append(refused.number)

    running = [threading.Thread(target=stamp_on, args=(mine,)) for mine in said]
    for thread in running:
        thread.start()
    for thread in running:
        thread.join()
    for number, mine in enumerate(said):
        for given in mine:
            yield f"{number} " + (f"refused {given}" if isinstance(given, int) else said_of(given))
    yield "end"


def call_stamper(stamper, name, rest):
    """Makes a call of a stamper; the lines that it gives."""
    if name == "row":
        return [answer_row(map(int, rest.split()))]
    if name == "stamp":
        return [said_of(stamper.stamp(int(rest)))]
    if name == "extend":
        stamper.extend(int(rest))
        return ["extended"]
    if name == "above":
        stamper.rise_above(int(rest))
        return ["risen"]
    if name == "left":
        return [stamper.left_ns(int(rest))]
    if name == "past":
        return ["yes" if stamper.is_past(int(rest)) else "no"]
    if name == "wait":
        stamp, milliseconds = map(int, rest.split())
        return ["yes" if stamper.wait_past(stamp, milliseconds / 1000) else "no"]
    return stamp_in_threads(stamper, *map(int, rest.split()))


def try_stampers(lines):
    client = stamper = None
    for line in lines:
        name, _, rest = line.rstrip("\n").partition(" ")
        try:
            if name == "open":
                path, lease_lo, lease_hi, *more = rest.split(" ")
                client = truetime.Client(path, os.geteuid())
                limits = dict(zip(("ahead_ns", "grid_ns"), map(int, more)))
                stamper = truetime.Stamper(client, int(lease_lo), int(lease_hi), **limits)
                print("open", flush=True)
            else:
                print(*call_stamper(stamper, name, rest), sep="\n", flush=True)
        except truetime.Refused as refused:
            print("refused", refused.number, flush=True)


def watch_in_threads(table, threads, each):
    """So many commits in each of so many threads, and a reader that takes snapshots at the watermark beside them: each has to have all that is
    written up to it in the end."""
    log, snapshots, over = [], [], threading.Event()

    def commit_on():
        for _ in range(each):
            stamp = table.begin()
            log.append(stamp)
            table.written(stamp)

    def read_on():
        while not over.is_set():
            watermark = table.watermark()
            snapshots.append((watermark, sum(stamp <= watermark for stamp in log[:])))

    reader, running = threading.Thread(target=read_on), [threading.Thread(target=commit_on) for _ in range(threads)]
    for thread in reader, *running:
        thread.start()
    for thread in running:
        thread.join()
    over.set()
    reader.join()
    torn = sum(seen != sum(stamp <= watermark for stamp in log) for watermark, seen in snapshots[:: max(len(snapshots) // 100, 1)])
    return f"{len(log)} stamps, {len(set(log))} different, {'some' if snapshots else 'no'} snapshots, {torn} torn"


def call_table(table, name, words):
    """Makes a call of a table of pending commits; the line that it gives."""
    numbers = [int(word) for word in words]
    if name == "threads":
        return watch_in_threads(table, *numbers)
    if name in ("release", "readable"):
        wait = table.release if name == "release" else table.make_readable
        return "yes" if wait(numbers[0], numbers[1] / 1000) else "no"
    if name == "watermark":
        watermark = table.watermark()
        return "none" if watermark is None else watermark
    if name == "begin":
        return f"begun {table.begin(*numbers)}"
    (table.written if name == "written" else table.give_up)(*numbers)
    return "ended"


def try_tables(lines):
    table = None
    for line in lines:
        name, *words = line.split()
        try:
            if name == "open":
                client = truetime.Client(words[0], os.geteuid())
                table = truetime.PendingTable(truetime.Stamper(client, ahead_ns=truetime.MAX_AHEAD_NS))
                print("open", flush=True)
            else:
                print(call_table(table, name, words), flush=True)
        except truetime.Refused as refused:
            print("refused", refused.number, flush=True)
        except ValueError:
            print("invalid", flush=True)


def commit_in_threads(pool, threads, each, is_alone):
    """So many commits in each of so many threads; what they gave."""
    given = []

    def commit_on():
        with pool.session() if is_alone else contextlib.nullcontext(pool) as by:
            for _ in range(each):
                try:
                    given.append(by.commit())
                except (truetime.Refused, OSError):
                    given.append(0)

    running = [threading.Thread(target=commit_on) for _ in range(threads)]
    for thread in running:
        thread.start()
    for thread in running:
        thread.join()
    return given


async def commit_in_tasks(pool, tasks, each, is_alone):
    """So many commits in each of so many tasks; what they gave."""
    async def commit(by):
        try:
            return await by.commit()
        except (truetime.Refused, OSError):
            return 0

    async def commit_on():
        async with contextlib.AsyncExitStack() as stack:
            by = await stack.enter_async_context(pool.session()) if is_alone else pool
            return [await commit(by) for _ in range(each)]

    return [stamp for given in await asyncio.gather(*(commit_on() for _ in range(tasks))) for stamp in given]


class PoolOf:
    """A pool of either kind, and what is out of it."""

    def __init__(self, loop, words):
        network, where, size, milliseconds = words
        address, timeout_s = where if network == "unix" else ("127.0.0.1", int(where)), int(milliseconds) / 1000
        self.loop, self.out = loop, []
        if loop:
            self.pool = aio.Pool(lambda: aio.Session.connect(address, timeout_s), int(size), timeout_s)
        else:
            self.pool = truetime.Pool(lambda: truetime.Session(address, timeout_s), int(size), timeout_s)

    def made(self, given):
        return self.loop.run_until_complete(given) if inspect.isawaitable(given) else given

    def hold(self):
        lent = self.pool.session()
        self.out.append((lent, self.made(lent.__aenter__() if self.loop else lent.__enter__())))
        return "held"

    def begin(self):
        return self.made(self.out[-1][1].begin())

    def free(self):
        while self.out:
            lent, _ = self.out.pop()
            self.made(lent.__aexit__(None, None, None) if self.loop else lent.__exit__(None, None, None))
        return "freed"

    def alone(self, threads, each):
        return self.commits(threads, each, True)

    def commits(self, threads, each, is_alone=False):
        commit = commit_in_tasks if self.loop else commit_in_threads
        given = self.made(commit(self.pool, int(threads), int(each), is_alone))
        stamps = [stamp for stamp in given if stamp]
        return f"{len(stamps)} stamps, {len(set(stamps))} different, {len(given) - len(stamps)} errors"

    def close(self):
        self.made(self.pool.close())
        return "closed"


def try_pools(loop, lines):
    pool = None
    for line in lines:
        name, *words = line.split()
        try:
            if name == "open":
                pool = PoolOf(loop, words)
            print("open" if name == "open" else getattr(pool, name)(*words), flush=True)
        except (truetime.Refused, OSError) as error:
            print(said_of_error(error), flush=True)
    if loop:
        loop.close()


QUESTIONS = 3


class Opening:
    """A reader, one with a stamper, or a session, and how many questions it answered."""

    def __init__(self, loop, kind, where, timeout_s):
        self.loop = loop
        address = where if kind == "unix" else ("127.0.0.1", int(where)) if kind == "tcp" else None
        if address and loop:
            self.opened = loop.run_until_complete(aio.Session.connect(address, timeout_s))
        elif address:
            self.opened = truetime.Session(address, timeout_s)
        else:
            self.opened = truetime.Client(where, os.geteuid(), mapped=kind != "unmapped")
        self.ask = truetime.Stamper(self.opened).stamp if kind == "stamper" else self.opened.now
        self.answers = sum(map(self.answer, range(QUESTIONS)))

    def made(self, given):
        return self.loop.run_until_complete(given) if inspect.isawaitable(given) else given

    def answer(self, _):
        try:
            return bool(self.made(self.ask()))
        except (truetime.Refused, OSError):
            return False

    def close(self):
        self.made(self.opened.close())


def try_openings(loop, lines):
    opened = []
    for line in lines:
        name, *words = line.split()
        if name == "open":
            kind, where, number, milliseconds = words
            opened = []
            for _ in range(int(number)):
                try:
                    opened.append(Opening(loop, kind, where, int(milliseconds) / 1000))
                except (truetime.Refused, OSError):
                    pass
            print(len(opened), "opened,", sum(one.answers for one in opened), "answers", flush=True)
        elif name == "close":
            for one in opened:
                one.close()
            print("closed", flush=True)
        else:
            gc.collect()
            print("rested", flush=True)
    if loop:
        loop.close()


class Rereading:
    """Threads that read again and again, and what they saw."""

    def __init__(self, client, count):
        self.client, self.over, self.epochs, self.torn, self.refused = client, False, set(), 0, 0
        self.threads = [threading.Thread(target=self.reread) for _ in range(count)]
        for thread in self.threads:
            thread.start()

    def reread(self):
        while not self.over:
            try:
                now = self.client.now()
            except truetime.Refused:
                self.refused += 1
                continue
            self.epochs.add(now.epoch)
            self.torn += now.latest_ns - now.earliest_ns != now.epoch

    def end(self):
        self.over = True
        for thread in self.threads:
            thread.join()
        return " ".join(map(str, sorted(self.epochs))) + f" seen, {self.torn} torn, {self.refused} refused"


def try_renewals(lines):
    client = stamper = running = None
    for line in lines:
        name, *words = line.split()
        said = "rested"
        try:
            if name == "open":
                client = truetime.Client(words[1], os.geteuid(), words[0] == "mapped", *map(int, words[2:]))
                stamper, said = truetime.Stamper(client), "open"
            elif name == "stamp":
                said = stamper.stamp().stamp_ns
            elif name == "now":
                now = client.now()
                said = f"{now.epoch} {now.latest_ns - now.earliest_ns} {'fresh' if now.fresh else 'stale'}"
            elif name == "threads":
                running, said = Rereading(client, int(words[0])), "started"
            elif name == "end":
                said = running.end()
            elif name == "close":
                client.close()
                said = "closed"
            else:
                gc.collect()
            print(said, flush=True)
        except truetime.Refused as refused:
            print("refused", refused.number, flush=True)


if sys.argv[1:] == ["vectors"]:
    answer(sys.stdin)
elif len(sys.argv) == 3 and sys.argv[1] == "open":
    open_file(sys.argv[2])
elif sys.argv[1:] == ["files"]:
    try_files(sys.stdin)
elif sys.argv[1:] == ["session"]:
    try_sessions(truetime.Session, sys.stdin)
elif sys.argv[1:] == ["asyncio", "session"]:
    try_sessions(aio.Session, sys.stdin)
elif sys.argv[1:] == ["stamper"]:
    try_stampers(sys.stdin)
elif sys.argv[1:] == ["pending"]:
    try_tables(sys.stdin)
elif sys.argv[1:] == ["pool"]:
    try_pools(None, sys.stdin)
elif sys.argv[1:] == ["asyncio", "pool"]:
    try_pools(asyncio.new_event_loop(), sys.stdin)
elif sys.argv[1:] == ["openings"]:
    try_openings(None, sys.stdin)
elif sys.argv[1:] == ["asyncio", "openings"]:
    try_openings(asyncio.new_event_loop(), sys.stdin)
elif sys.argv[1:] == ["renewals"]:
    try_renewals(sys.stdin)
else:
    sys.exit("usage: probe.py vectors | probe.py open PATH | probe.py files | probe.py [asyncio] session | probe.py stamper | probe.py pending | "
             "probe.py [asyncio] pool | probe.py [asyncio] openings | probe.py renewals")
