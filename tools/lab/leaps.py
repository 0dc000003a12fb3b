"""A leap second that servers of NTP announce under a whole fleet, on the eve of a New Year or of a July by clocks of its own."""
import calendar
import os
import sys
import time
import typing

from harness.processes import SECOND, Fault, truetime
from harness.program import in_top
from harness.users import reading_of
from lab import hosts
from lab.clocks import OwnClock, Receivers, compile_clock
from lab.fleet import Fleet
from lab.masters import RECEIVER, NtpMaster
from lab.servers import PORT, Chronyd, no_chronyd
from lab.services import KeyFile, Machine, Source, wait_until
from lab.shard_runs import judge, merge, stamps_outside
from lab.sharded import BACK_S, Break
from lab.units import BROKEN, Units, UnitMachine
from lab.users import Commits, Users, rows_of, table

INSERTED, NEAR = 1, 2406
#: What each server does with the leap second, and how wrong its oscillator is. That which ignores it steps once its receiver tells of it.
SERVERS = (("step", 30.0), ("step", -25.0), ("step", 10.0), ("slew", -15.0), ("ignore", 20.0))
#: How long before the leap second the fleet begins, and how long before it masters have to be silent; until that is told, and behind all.
BEGUN_S, SILENT_S, TOLD_S, BEHIND_S = 110, 60, 3.0, 10.0
FEW_READINGS, FEW_TIMES = 1000, 20
EVERY = "500ms"
Say = typing.Callable[[str], None]


def missing() -> str:
    """Why it cannot run here, or nothing."""
    return hosts.missing() or no_chronyd()


def next_leap(since: float) -> int:
    """The next end of a June or a December, in seconds since 1970."""
    year = time.gmtime(since).tm_year
    ends = (calendar.timegm((year + more, month, 1, 0, 0, 0)) for more in (0, 1) for month in (1, 7))
    return next(end for end in ends if end > since + BEGUN_S)


class Announced(NtpMaster):
    """A master over the chronyd of its host, whose receiver announces a leap second."""

    def __init__(self, host: hosts.Host, source: int, keys: KeyFile, ahead_ns: int):
        mode, rate = SERVERS[source]
        lines = [RECEIVER, "maxclockerror 30", "makestep 0.1 -1", f"leapsecmode {mode}"]
        self.server = host.lab.keep(Chronyd(host, f"chronyd-{host.name}", lines, rate, ahead_ns))
        self.server.receivers[0].leap = INSERTED
        super().__init__(host, source, [f"127.0.0.1:{PORT}"], keys, every=EVERY)

    def behave(self, offset: int, *acts: str) -> None:
        """It is as right as its server."""


class Leap(Fleet):
    """A fleet whose masters all ask a chronyd of their own host. Its time is ahead of this host's, so that a leap second comes soon."""
    shifts_s = dict.fromkeys("abc", 0)

    def build(self) -> None:
        super().build()
        self.clock_library, self.receivers = compile_clock(self), self.keep(Receivers())
        self.leap_ns = next_leap(time.time()) * SECOND
        self.ahead_ns = self.leap_ns - BEGUN_S * SECOND - time.time_ns()
        self.clock = OwnClock(os.path.join(self.room, "true-clock"), self.clock_library, ahead_ns=self.ahead_ns)
        self.broken = Break("a leap second", "abc", self.leap_ns - SECOND)
        self.wrong: list[str] = []

    def now_ns(self) -> int:
        """The true time of the fleet."""
        return time.time_ns() + self.clock.ahead_ns()

    def to_leap_s(self) -> float:
        return (self.leap_ns - self.now_ns()) / SECOND

    def master(self, source: int, keys: KeyFile) -> Announced:
        return Announced(self.hosts[f"m{source}"], source, keys, self.ahead_ns)

    def machine(self, name: str, number: int, sources: list[Source], settings: dict) -> Machine:
        return UnitMachine(self.hosts[name], number, sources, self.key_files[name], **settings)

    def start(self) -> None:
        self.start_masters()
        for master in self.masters:
            master.server.wait_until_synchronised()
        self.start_machines()
        self.units = self.keep(Units(self.machines.values()))

    def start_users(self, seconds: float, sessions: int = 2, stampers: int = 1, pause_ms: int = 20) -> Users:
        """Users, who see the true time of the fleet."""
        users = self.keep(Users(self, self.keep(Commits(self.program, os.path.join(self.room, "history"))), self.broken.covers))
        users.begin("before")
        for machine in self.machines.values():
            for program in ([], [sys.executable, "-B", "-m", "lab.python_users"]):
                users.start(machine, seconds, sessions, stampers, pause_ms, program, cwd=in_top("tools"), env=self.clock.environment)
        return users

    def leap(self) -> None:
        """The second has been inserted: the true time is one second behind what it would be, and receivers tell so, and announce none."""
        self.clock.step(-SECOND)
        for receiver in self.receivers.all:
            receiver.ahead_s, receiver.leap = receiver.ahead_s - 1, 0

    def is_right(self, name: str) -> bool:
        try:
            with truetime.Session(self.machines[name].address, 5) as session:
                return not reading_of(session, self.now_ns).is_wrong
        except (OSError, truetime.Refused):
            return False

    def answered(self) -> list[int]:
        return [master.of_all("answers_total") for master in self.masters]

    def wait(self, holds: typing.Callable[[], object], seconds: float, what: str) -> float:
        """Returns once this holds: after how many seconds. Where it does not come to hold in time, that is wrong."""
        try:
            return wait_until(holds, seconds, what)
        except Fault as fault:
            self.wrong.append(str(fault))
            return seconds


def silences(fleet: Leap) -> typing.Iterator[float]:
    """How long before the leap second each master said that it is silent for it."""
    for master in fleet.masters:
        moments = [fields["time"] for fields in master.said("master_silent") if fields["number"] == str(NEAR)]
        yield (fleet.leap_ns - fleet.ahead_ns - moments[0]) / SECOND if moments else 0.0


def go_through(fleet: Leap, users: Users, say: Say) -> None:
    """Waits for the leap second, and until the fleet has come back."""
    time.sleep(max(0.0, fleet.to_leap_s() - SILENT_S + TOLD_S))
    users.begin("masters are silent")
    silent, before = list(silences(fleet)), fleet.answered()
    say(f"silent {', '.join(f'{seconds:.1f}' for seconds in silent)} s before the leap second")
    if any(not SILENT_S - TOLD_S < seconds < SILENT_S + 1 for seconds in silent):
        fleet.wrong.append(f"masters are silent {silent} s before the leap second")
    time.sleep(max(0.0, fleet.to_leap_s() - 1))
    if (after := fleet.answered()) != before:
        fleet.wrong.append(f"masters answer before a leap second: {before}, then {after}")
    time.sleep(max(0.0, fleet.to_leap_s()))
    fleet.leap()
    users.begin("behind")
    answered = fleet.wait(lambda: all(map(int.__gt__, fleet.answered(), after)), BACK_S, "not all masters answer behind a leap second")
    ended = {end.host for end in list(fleet.units.ends)}
    right = fleet.wait(lambda: all(map(fleet.is_right, fleet.machines)), BACK_S, "not all machines are right behind a leap second")
    fleet.broken.until = fleet.now_ns()
    say(f"all masters answer {answered:.1f} s behind it, all machines are right {right:.1f} s later; noticed by {', '.join(sorted(ended))}")
    time.sleep(BEHIND_S)


def judged(fleet: Leap, users: Users, say: Say) -> typing.Iterator[str]:
    """What was wrong with what users saw, but for what was under way from the leap second on until all machines were right again."""
    ends = [since for since, _ in users.marks[1:]] + [time.time_ns()]
    for (since, name), until in zip(users.marks, ends):
        users.phases[name].seconds += (until - since) / SECOND
    say(table(rows_of(users.phases, ("excused", ))))
    kept = merge([os.path.join(fleet.room, "history")], os.path.join(fleet.room, "kept"), [fleet.broken])
    whole, outside = judge(fleet.program, kept), stamps_outside(kept)
    say(f"all but those under way at the leap second: {whole}; {outside} stamps outside of their commit")
    if whole.violations or whole.equal_stamps or outside:
        yield f"{whole.violations} commits out of order, {whole.equal_stamps} stamps twice, {outside} outside of their commit"
    for name, phase in users.phases.items():
        if min(phase.readings, phase.commits * FEW_TIMES) < FEW_READINGS:
            yield f"{name}: {phase.readings} readings and {phase.commits} commits are few"
    yield from users.wrong


def tell(program: str, say: Say, seed: int = 1) -> list[str]:
    """What was wrong as a leap second came over a fleet."""
    with Leap(program, seed) as fleet:
        fleet.start()
        if fleet.to_leap_s() < SILENT_S + TOLD_S:
            return [f"it took too long to start: {fleet.to_leap_s():.0f} s are left"]
        users = fleet.start_users(fleet.to_leap_s() + BEHIND_S)
        go_through(fleet, users, say)
        fleet.wrong += [*users.wait(), *judged(fleet, users, say)]
        for end in fleet.units.ends:
            if end.status != BROKEN:
                fleet.wrong.append(f"the machine of {end.host} ended with status {end.status}: {fleet.machines[end.host].end_of_log()[-300:]}")
        fleet.wrong += [f"{process.name} ended with status {process.running.returncode}: {process.end_of_log()[-300:]}"
                        for master in fleet.masters for process in (master, master.server) if process.has_ended()]
        return fleet.wrong
