"""Scenarios of the suite `breaks`: clocks that stand still, jump or run fast, hosts that sleep, and guests that are disrupted."""
import contextlib
import os
import random
import re
import signal
import socket
import time

from harness.faults import Spoils, disrupt, honest, page
from harness.processes import SECOND, raw_ns, truetime
from harness.program import read, read_text, run, write
from harness.users import is_closed_within
from suites.breaks import suite
from suites.breaks_world import MILLISECOND, Pair, World
from suites.wiring_checks import eventually

# Rates by which a clock stands still, is 1 % fast, a fifth of that, and 8.3 % slow.
STANDS, FAST, LESS_FAST, SLOW = -1_000_000, 10_000, 2_000, -83_000


def between_rounds(world):
    """Returns just after a round, so that a turn of the clock that is told of now comes before the next one."""
    source = world.sources[0]
    seen = len(source.times_of(0))
    eventually(lambda: len(source.times_of(0)) > seen, pause_s=0.001)
    time.sleep(0.01)


def pause(world, seconds):
    """The machine and its clock stand still, as those of a guest that is paused, and no source answers until a quarter of a second later;
    when the machine went on, and when the sources did, since 1970."""
    world.node.running.send_signal(signal.SIGSTOP)
    world.spoils.turn(STANDS)
    time.sleep(seconds)
    for source in world.sources:
        source.is_silent = True
    world.spoils.turn()
    went_on = time.time_ns()
    world.node.running.send_signal(signal.SIGCONT)
    time.sleep(0.25)
    answered = time.time_ns()
    for source in world.sources:
        source.is_silent = False
    return went_on, answered


def orders(trial, worlds, began, until):
    """Commits of all machines are in order, but for those that are under way between these times."""
    history = [commit for users in worlds for commit in users.commits]
    kept = [commit for commit in history if commit[1] < began or commit[0] > until]
    trial.note(f"{trial.judge(history)} of {len(history)} commits are out of order, {len(history) - len(kept)} of them during the break")
    if wrong := trial.judge(kept):
        yield f"{wrong} of {len(kept)} commits before and after it are out of order"
    if not any(commit[0] > until for commit in kept):
        yield "there is no commit after it"


def paused(trial, seconds, silenced=0):
    """Wrong readings until the first round that is answered, and never more, also where so many sources are silent from then on."""
    world = World(trial)
    other = trial.running_node(world.sources, "B", machine=1, poll="25ms", wait="50ms")
    users = trial.keep(Pair(other))
    time.sleep(0.3)
    began = time.time_ns()
    went_on, answered = pause(world, seconds)
    line = world.line("assumption_broken", answered)
    ended, _ = world.end(line["time"] if line else answered)
    first = eventually(lambda: next((got for got in world.users.readings if got.before >= ended), None))
    for source in world.sources[len(world.sources) - silenced:]:
        source.is_silent = True
    yield from world.breaks("assumption_broken", answered, 1, went_on)
    yield from world.has_evidence(0, SECOND)
    yield from world.goes_on_rightly(1.5)
    if users.wrong():
        yield f"a machine whose clock went on gave {users.wrong()[0]}"
    yield from orders(trial, (world.users, users), began, first.after if first else time.time_ns())


@suite.case()
def guest_paused_for_2_s(trial):
    yield from paused(trial, 2)


@suite.case()
def guest_paused_for_10_s(trial):
    yield from paused(trial, 10)


@suite.case()
def guest_paused_and_two_sources_silent(trial):
    """Two of three, as soon as the new life has published."""
    yield from paused(trial, 10, 2)


@suite.case()
def clock_stands(trial):
    """For two seconds, while the machine goes on: it is noticed by the next round, again in each life that begins meanwhile, and not any more
    once the clock goes on."""
    world = World(trial, poll="300ms")
    between_rounds(world)
    since = world.spoils.turn(STANDS)
    line = world.line("assumption_broken", since)
    if not line:
        yield "the log says no assumption_broken"
        return
    if (rounds := world.rounds(since, line["time"])) > 1:
        yield f"it was noticed in round {rounds}"
    time.sleep(max(0, since + 2 * SECOND - time.time_ns()) / SECOND)
    yield from world.recovers(world.spoils.turn() + SECOND)
    trial.note(f"{len(world.unit.ends)} lives ended in 2 seconds; {len(world.users.wrong())} readings were wrong")
    yield from world.was_right_until(since)


@suite.case()
def clock_jumps_ahead(trial):
    """By a second."""
    world = World(trial, poll="100ms")
    between_rounds(world)
    since = world.spoils.turn(jump_ns=SECOND)
    yield from world.breaks("assumption_broken", since, 1)
    yield from world.has_evidence(SECOND, 2 * SECOND)
    yield from world.goes_on_rightly()


def show(world, since, until):
    """Whether two publications of this time, one behind the other, show that the clock is fast: by what it gained they are narrow."""
    kept = {}
    with world.node.client() as client:
        while time.time_ns() < until and not world.unit.ends:
            with contextlib.suppress(truetime.Refused):
                one = client.read()
                if one.number not in kept and time.time_ns() > since + SECOND // 5:
                    kept[one.number] = one
            time.sleep(0.005)
    for number, one in kept.items():
        if other := kept.get(number + 1):
            gained = (other.clock_ns - one.clock_ns) * FAST // 1_000_000
            if gained > 2 * (one.hi_ns - one.lo_ns + other.hi_ns - other.lo_ns):
                return True
    return False


@suite.case()
def clock_runs_fast(trial):
    """By 1 %, 50 times the drift. Narrow masters are a fiftieth of a millisecond wide, and it gains one in a round: it is noticed soon, or, where
    answers are late, before two narrow publications show it."""
    masters = [trial.master(source, uncertainty=10_000) for source in range(3)]
    world = World(trial, masters, poll="100ms")
    since = world.spoils.turn(FAST)
    is_shown = show(world, since, since + 4 * SECOND)
    line = world.line("assumption_broken", since)
    took = (line["time"] - since) / SECOND if line else 0
    trial.note(f"it was noticed {took:.2f} seconds later")
    if not line or took > 0.5 and is_shown:
        yield f"it was noticed {took:.2f} seconds later: {line}"
    elif world.end(line["time"])[1] != 3:
        yield f"the life ended with status {world.end(line['time'])[1]}"
    yield from world.recovers(world.spoils.turn())
    yield from world.was_right_until(since)


@suite.case()
def clock_fast_within_the_width(trial):
    """By 0.2 %, ten times the drift, where masters are wide: no round is out of the last one, and only the rate in the status shows it."""
    world = World(trial)
    world.spoils.turn(LESS_FAST)
    yield from world.rises('source_clock_rate_ratio{source="0"}', 0.0015, 20)
    yield from world.goes_on_rightly()


@suite.case()
def clock_slow_by_what_the_drift_covers(trial):
    """It loses 8.3 % of true time, which is 9.05 % of what it shows itself. Where `drift` covers that no reading is wrong and nothing breaks; where it
    has the first number alone readings are, until the next round."""
    masters = [trial.master(source, uncertainty=10_000) for source in range(3)]
    world = World(trial, masters, poll="1s", drift=90_910)
    other = trial.node(masters, "B", poll="1s", drift=83_333, on_break="warn", socket=os.path.join(trial.room, "B", "socket"))
    other.environment = world.spoils.environment
    other.run()
    other.wait_until_ready()
    users = trial.keep(Pair(other))
    since = world.spoils.turn(SLOW)
    time.sleep(3)
    if world.unit.ends or world.users.wrong() or world.node.said("assumption_broken"):
        yield f"by a drift that covers it {len(world.users.wrong())} readings were wrong, and lives ended so: {world.unit.ends}"
    trial.note(f"{len(users.wrong())} of {len(users.readings)} readings were wrong by the other drift")
    if not users.wrong() or users.wrong()[0].after < since or not other.said("assumption_broken"):
        yield f"by the other drift {len(users.wrong())} readings were wrong, and the log has {other.said('assumption_broken')}"
    yield from world.goes_on_rightly()


@suite.case()
def clock_past_its_greatest(trial):
    """It comes to 4 * 10^18 nanoseconds, above which it counts as one that cannot be read: rounds are given up, a session is told 803, a new one is
    closed, and the machine stays."""
    spoils, node = Spoils(trial.room), trial.node(trial.scripts(*[honest] * 3), poll="100ms")
    spoils.tell("course", f"{raw_ns()} {4 * 10**18 - 3 * SECOND} 0\n")
    node.environment = spoils.environment
    node.run()
    node.wait_until_ready()
    with truetime.Session(node.address, 5) as session:
        session.now()
        eventually(lambda: node.said("clock_back"))
        refused = []
        for _ in range(3):
            try:
                refused.append(session.now())
            except truetime.Refused as error:
                refused.append(error.number)
            time.sleep(0.2)
    if refused != [803] * 3 or not node.said("clock_back"):
        yield f"past it a session has {refused}, and the log {node.end_of_log()}"
    with socket.create_connection(node.address, 5) as door:
        if not is_closed_within(door, 1):
            yield "past it a new session is served"
    yield from node.ends()


# Sleep.

def sleeps(world, ns):
    """The host sleeps for so long: CLOCK_BOOTTIME is ahead of CLOCK_MONOTONIC; when it has, since 1970."""
    since = time.time_ns()
    world.spoils.tell("boot", str(ns))
    return since


def is_seen(trial, ns):
    """A sleep of so long is seen in the next round, and is never told to be longer."""
    world = World(trial, poll="300ms")
    between_rounds(world)
    since = sleeps(world, ns)
    yield from world.breaks("host_slept", since, 1)
    slept = int((world.line("host_slept", since) or {}).get("slept_ns", 0))
    trial.note(f"the log tells of {slept} ns")
    if not ns - MILLISECOND < slept <= ns:
        yield f"it slept for {slept} ns by the log"
    yield from world.goes_on_rightly()


@suite.case()
def host_sleeps(trial):
    """For 1.5 seconds."""
    yield from is_seen(trial, 1500 * MILLISECOND)


@suite.case()
def host_sleeps_for_a_millisecond(trial):
    yield from is_seen(trial, MILLISECOND)


@suite.case()
def host_sleeps_and_is_warned_of(trial):
    """The status adds up how long it slept."""
    world = World(trial, on_break="warn")
    for number in (1, 2):
        since = sleeps(world, number * 400 * MILLISECOND)
        if number == 1 and not world.line("host_slept", since):
            yield "the log does not say host_slept"
        yield from world.rises("slept_seconds_total", number * 0.399)
    yield from world.goes_on_rightly()
    if world.number("slept_seconds_total") > 0.8:
        yield f"it slept for {world.number('slept_seconds_total')} seconds by the status"


@suite.case()
def machine_stopped(trial):
    """Ten times for up to a quarter of a second, somewhere in a round, while clocks go on: no break is noticed, and none is there."""
    world, chance = World(trial), random.Random(trial.seed())
    for _ in range(10):
        time.sleep(chance.uniform(0, 0.1))
        world.node.running.send_signal(signal.SIGSTOP)
        time.sleep(chance.uniform(0, 0.25))
        world.node.running.send_signal(signal.SIGCONT)
    yield from world.goes_on_rightly()
    if world.unit.ends or world.users.wrong():
        yield f"lives ended so: {world.unit.ends}; {len(world.users.wrong())} readings were wrong"
    if world.number("slept_seconds_total") != 0 or world.number("assumption_breaks_total") != 0:
        yield f"it slept for {world.number('slept_seconds_total')} seconds"


@suite.case(root=True, programs=("unshare",))
def boot_of_a_time_namespace(trial):
    """Where CLOCK_BOOTTIME is an hour ahead in it, the host has not slept. Where it is behind CLOCK_MONOTONIC it says nothing of sleep, and the log
    says so once."""
    apart = ["unshare", "--time", "--fork", "--kill-child"]
    if run([*apart, "true"]).status != 0:
        trial.note("there are no time namespaces here")
        return
    for clock, unseen in (("boottime", 0), ("monotonic", 1)):
        node = trial.node(trial.masters(3), clock)
        node.run([*apart, f"--{clock}", "3600"])
        node.wait_until_ready()
        time.sleep(1)
        yield from node.answers()
        if len(node.said("sleep_unseen")) != unseen or node.said("host_slept"):
            yield f"where {clock} is ahead the log says {node.end_of_log()}"
        node.kill()


# Guests.

@suite.case()
def fifo_as_counter(trial):
    """A FIFO is not waited for: the machine goes on without a counter."""
    path = os.path.join(trial.room, "vmclock0")
    os.mkfifo(path)
    node = trial.node(trial.masters(3), vmclock=path)
    node.run()
    yield from node.publishes_within(2)
    yield from node.goes_on()
    yield from node.answers()


@suite.case()
def guest_disrupted(trial):
    """Its counter changes: it rises, and it falls, as where an older snapshot was put back."""
    path = os.path.join(trial.room, "vmclock0")
    write(path, page(7))
    world = World(trial, vmclock=path)
    if world.line("guest_disrupted", seconds=0):
        yield "it was disrupted from the beginning"
    yield from world.breaks("guest_disrupted", disrupt(path, 8), 2)
    yield from world.breaks("guest_disrupted", disrupt(path, 3), 2)
    yield from world.goes_on_rightly()


@suite.case()
def breaks_in_a_row(trial):
    """Each start after one pauses twice as long as the one before."""
    path = os.path.join(trial.room, "vmclock0")
    write(path, page(1))
    world = World(trial, vmclock=path)
    paused = []
    for marker in range(2, 6):
        since = disrupt(path, marker)
        told = world.line("guest_disrupted", since)
        pause = world.line("start_paused", since)
        paused.append(int(pause["pause_ns"]) if pause else None)
        ended, status = world.end(since)
        if not told or status != 3:
            yield f"break {marker - 1}: status {status}, {told}"
            return
        first = eventually(lambda end=ended: next((got for got in world.users.readings if got.before > end), None))
        trial.note(f"after break {marker - 1} the next reading comes {first and (first.after - ended) / MILLISECOND:.0f} ms after the end")
        time.sleep(0.3)
        if (told := world.number("broken_lives_total")) != marker - 1:
            yield f"after break {marker - 1} the status tells of {told} lives that ended so"
    if paused != [SECOND // 10 << number for number in range(4)]:
        yield f"the starts paused for {paused} ns"
    text = read(world.node.path("state/break"))
    if not (record := re.fullmatch(rb"tt-break 3 4 \d+ 4 (\d+) 3\n", text)) or not since <= int(record[1]) <= time.time_ns():
        yield f"state/break has {text!r}, and the last break came behind {since}"


def pause_of(trial, name, record):
    """How long a start pauses that finds this record of a break, by its log."""
    node = trial.node(trial.masters(3), name)
    write(node.path("state/break"), record)
    node.run()
    line = eventually(lambda: node.said("start_paused") or node.said("first_publication"))
    node.kill()
    return line and int(line[0].get("pause_ns", 0))


@suite.case()
def records_of_breaks(trial):
    """The pause is half a minute at most. There is none after a minute, after a start of the host, and where the file has another text."""
    now = raw_ns()
    wanted = [(1, now, 100_000_000), (9, now, 25_600_000_000), (10, now, 30_000_000_000), (2**64 - 1, now, 30_000_000_000),
              (1, max(now - 40 * SECOND, 0), 100_000_000), (1, max(now - 61 * SECOND, 0), 0), (1, now + 3600 * SECOND, 0)]
    for number, (breaks, clock, pause) in enumerate(wanted):
        if (seen := pause_of(trial, f"{number}", b"tt-break 2 %d %d 5\n" % (breaks, clock))) != pause:
            yield f"after {breaks} breaks, the last one at {clock} and now at {now}, it pauses for {seen} ns"
    for name, record in (("first", b"tt-break 1 2 %d\n"), ("third", b"tt-break 3 2 %d 5 1 1\n")):
        if (pause := pause_of(trial, name, record % now)) != 200_000_000:
            yield f"after the record {record % now!r} it pauses for {pause} ns"
    if pause := pause_of(trial, "other", b"tt-break 4 1 %d 5\n" % now):
        yield f"after another text it pauses for {pause} ns"


def told_of(trial, name, record):
    """What the status tells of breaks before, where a start finds this record: its lives, and the lines of the last one."""
    node = trial.node(trial.masters(3), name)
    write(node.path("state/break"), record)
    node.run()
    node.wait_until_ready()
    number = eventually(lambda: node.status()["truetime_epoch"]) and node.status()["truetime_broken_lives_total"]
    lines = [line for line in read_text(node.path("status")).splitlines() if line.startswith("truetime_last_break")]
    node.kill()
    return number, lines


@suite.case()
def records_of_all_versions(trial):
    """What was counted stays so, however long ago it was, and by records of older versions. When and why is told as far as the record has it."""
    at, time_line = 1_700_000_000_123_456_789, 'truetime_last_break_timestamp_seconds{machine="0"} 1700000000.123456789'
    event = 'truetime_last_break_info{machine="0",event="%s"} 1'
    for name, record, lives, lines in (
            ("v1", b"tt-break 1 3 1\n", 3, []), ("v2", b"tt-break 2 1 1 5\n", 5, []),
            ("unmet", b"tt-break 3 1 1 6 %d 1\n" % at, 6, [time_line, event % "assumption_broken"]),
            ("slept", b"tt-break 3 1 1 7 %d 2\n" % at, 7, [time_line, event % "host_slept"]),
            ("disrupted", b"tt-break 3 1 1 8 %d 3\n" % at, 8, [time_line, event % "guest_disrupted"]),
            ("newer", b"tt-break 3 1 1 9 %d 4\n" % at, 9, [time_line]),
            ("none", b"tt-break 4 1 1 9 %d 1\n" % at, 0, []), ("short", b"tt-break 3 1 1 9 %d\n" % at, 0, [])):
        if (told := told_of(trial, name, record)) != (lives, lines):
            yield f"after {record!r} the status tells {told}, and {(lives, lines)} is wanted"
