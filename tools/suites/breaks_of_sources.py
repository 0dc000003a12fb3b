"""Scenarios of the suite `breaks`: sources that are silent or lie together, and fleets that break at once."""
import time

from harness.processes import SECOND
from suites.breaks import suite
from suites.breaks_world import BROKEN, MILLISECOND, Pair, Source, World
from suites.wiring_checks import eventually

# Half the width of an answer, and three rounds none of which is answered.
UNCERTAINTY, THREE_ROUNDS_S = MILLISECOND, 3 * 0.075


@suite.case()
def all_sources_silent(trial):
    """Nothing is wrong, readings widen, and the status, the log and the shared file say that nobody answers."""
    world = World(trial)
    ages = {name: world.number(name) for name in ("newest_answer_age_seconds", "needed_answer_age_seconds")}
    width, stale = world.number("width_seconds"), world.number("rounds_stale_total")
    if any(age is None or age > 0.3 for age in ages.values()) or stale:
        yield f"at first the ages are {ages}, {stale} rounds are stale"
    if not eventually(lambda: not world.read_shared()[1]):
        yield "`ttd read` says stale from the beginning"
    for source in world.sources:
        source.is_silent = True
    since, calls = time.time_ns(), []

    def says_stale():
        began, is_stale = time.time_ns(), world.read_shared()[1]
        calls.append((began, time.time_ns()))
        return is_stale

    if not eventually(says_stale):
        yield "`ttd read` does not say stale"
    took, longest = (calls[-1][0] - since) / SECOND, max(end - began for began, end in calls) / SECOND
    trial.note(f"`ttd read` says stale {took:.2f} seconds after the last answer, and takes {longest:.2f} at most")
    if took > THREE_ROUNDS_S + 0.2 + 2 * longest:
        yield f"`ttd read` says stale {took:.2f} seconds after the last answer"
    for name, age in ages.items():
        yield from world.rises(name, age + 1)
    yield from world.rises("width_seconds", width + 200e-6)  # in half a second by the drift
    yield from world.rises("rounds_stale_total", 3)
    if not world.line("sources_stale", since):
        yield "the log does not say sources_stale"
    yield from world.goes_on_rightly()
    for source in world.sources:
        source.is_silent = False
    if not eventually(lambda: not world.read_shared()[1]) or not eventually(lambda: world.number("needed_answer_age_seconds") < 0.3):
        yield "it is stale though all answer again"


def lie(sources, ahead):
    """These sources are so far ahead from now on."""
    for source in sources:
        source.ahead = ahead
    return time.time_ns()


@suite.case()
def f_sources_lie(trial):
    """One of three, by a second: a suspect and no break."""
    world = World(trial)
    lie(world.sources[:1], SECOND)
    if not world.line("source_suspect"):
        yield "the log does not say source_suspect"
    yield from world.goes_on_rightly()


@suite.case()
def more_than_f_lie_by_more_than_the_width(trial):
    """Two of three, by a second. In the next life both still lie, and their time is what the machine shows: nobody can know."""
    world = World(trial)
    lie(world.sources[:1], SECOND)
    since = lie(world.sources[1:2], SECOND)
    line = world.line("assumption_broken", since)
    if not line or world.rounds(since, line["time"]) > 2:
        yield f"it was noticed by {line}"
        return
    trial.note(f"it was noticed in round {world.rounds(since, line['time'])}")
    yield from world.has_evidence(0, SECOND // 2)
    yield from world.recovers(lie(world.sources, 0))
    yield from world.was_right_until(since)


@suite.case()
def more_than_f_lie_by_less_than_the_width(trial):
    """Two of three, by one and a half of their uncertainty: readings are wrong, and nobody can know."""
    world = World(trial)
    since = lie(world.sources[:2], UNCERTAINTY * 3 // 2)
    time.sleep(1)
    later = sum(got.before > since for got in world.users.readings)
    trial.note(f"{len(world.users.wrong())} of {later} readings were wrong, and nothing was noticed")
    if world.unit.ends or world.line("assumption_broken", seconds=0):
        yield "it was noticed: what is tried here is another thing than what it is to be"


# Fleets.

class Fleet:
    """Three machines over the same sources, each with its unit and its clients."""

    def __init__(self, trial, sources, **settings):
        self.nodes = [trial.node(sources, f"{number}", machine=number, poll="25ms", wait="50ms", **settings) for number in range(3)]
        self.units = [trial.unit_of(node) for node in self.nodes]
        self.users = [trial.keep(Pair(node)) for node in self.nodes]
        time.sleep(0.4)

    def all_break(self, since, number):
        """Each of them has ended so often by a break."""
        for at, unit in enumerate(self.units):
            ends = eventually(lambda unit=unit: len(ends := [end for end in unit.ends if end[0] >= since]) >= number and ends, 5)
            if not ends or any(status != BROKEN for _, status in ends):
                yield f"the lives of machine {at} ended so: {unit.ends}"

    def come_back(self, offset, seconds):
        """Within so many seconds each shows a time that is so far ahead, and goes on."""
        since = time.time_ns()
        for at, users in enumerate(self.users):
            got = eventually(lambda users=users: self.last_of(users, since, offset), seconds)
            if not got:
                yield f"machine {at} does not come back; its last reading was {users.readings[-1]}"
        ends = [len(unit.ends) for unit in self.units]
        time.sleep(0.5)
        if [len(unit.ends) for unit in self.units] != ends:
            yield "they break again though the sources agree"

    @staticmethod
    def last_of(users, since, offset):
        """The last reading, where it was asked for after this time and is right but for the offset."""
        last = users.readings[-1]
        return last if last.before > since and last.earliest - offset <= last.after and last.before <= last.latest - offset else None


@suite.case()
def fleet_under_one_source(trial):
    """It steps by a second, and back: each machine breaks twice and comes back by itself."""
    source = trial.keep(Source())
    fleet = Fleet(trial, [source], faulty=0)
    for number, offset in enumerate((SECOND, 0), 1):
        since = lie([source], offset)
        yield from fleet.all_break(since, 1)
        yield from fleet.come_back(offset, 2)
        trial.note(f"after step {number} the lives that ended are {[len(unit.ends) for unit in fleet.units]}")


@suite.case()
def fleet_under_a_leap_second(trial):
    """All masters are a second behind from some moment of 0.4 seconds on, one after the other, as by a leap second that is not smeared."""
    sources = [trial.keep(Source()) for _ in range(3)]
    fleet = Fleet(trial, sources)
    since = time.time_ns()
    for source in sources:
        lie([source], -SECOND)
        time.sleep(0.2)
    yield from fleet.all_break(since, 1)
    yield from fleet.come_back(-SECOND, 3)
    trial.note(f"the lives that ended are {[len(unit.ends) for unit in fleet.units]}")
