"""How wide readings are whose masters stand on servers of stratum 1 across a wire, and how long commits wait by them, beside what chronyd claims on
the same host."""
import collections
import statistics
import time
import typing

from harness.ntp import Refused
from harness.processes import truetime
from harness.users import reading_of
from lab.masters import RECEIVER, SOURCES, Masters, ahead_of_others, microseconds
from lab.users import table

#: A machine's settings, the defaults but for these, and how often masters ask: the goals are for these. The second one is how much wider a reading
#: becomes until the next round, twice the drift of `poll` and the round: 0.1 ms and what that takes.
SETTINGS = {"poll": None, "wait": None, "faulty": 2}
EVERY = "200ms"
GOAL_NS, GROWTH_NS = 600_000, 250_000
NAMES = [f"s{number}" for number in range(SOURCES)]
LOOK_S = 0.005


class Widths(Masters):
    """Five hosts with a chronyd of stratum 1 each, and a host m with five masters over them, a machine over these, and a chronyd over the same
    five servers."""
    names = [*NAMES, "m"]

    def start_all(self, every: str, **settings) -> None:
        servers = [self.chronyd(name, RECEIVER, "maxclockerror 30", rate=5 * place) for place, name in enumerate(NAMES)]
        for server in servers:
            server.wait_until_synchronised()
        self.own = self.chronyd("m", *self.server_lines(*NAMES), rate=-20)
        for name in NAMES:
            self.master("m", self.at(name), every=every)
        self.reader = self.machine("m", **{**SETTINGS, **settings})
        self.own.wait_until_synchronised()

    def look(self, seconds: float) -> dict[str, list[int]]:
        """For so long, what was seen: the width of a publication when it is new, that of the last reading before the next, how much wider that is, how
        long a commit waits, and what chronyd claims both ways, by `chronyc tracking` and by its replies; how many readings were wrong; and how long a
        question to that chronyd takes."""
        seen, end, number, last = collections.defaultdict(list), time.monotonic() + seconds, 0, 0
        with self.reader.client() as client, truetime.Session(self.reader.address, 5) as session:
            while time.monotonic() < end:
                got = reading_of(client)
                now = got.now
                seen["wrong"] += [1] if got.is_wrong else []
                if now.number != number:
                    seen["new"].append(now.latest_ns - now.earliest_ns)
                    seen["old"] += [last] if number else []
                    self.look_at_chronyd(seen)
                    self.commit(session, seen)
                number, last = now.number, now.latest_ns - now.earliest_ns
                time.sleep(LOOK_S)
        return seen

    @staticmethod
    def commit(session: truetime.Session, seen: dict[str, list[int]]) -> None:
        before = time.monotonic_ns()
        session.commit()
        seen["commit"].append(time.monotonic_ns() - before)

    def look_at_chronyd(self, seen: dict[str, list[int]]) -> None:
        try:
            seen["tracking"].append(2 * self.own.root_distance_ns())
            before = time.monotonic_ns()
            seen["reply"].append(2 * self.own.reply().distance_ns)
            seen["question"].append(time.monotonic_ns() - before)
        except (OSError, Refused):
            return


def tell(program: str, seconds: float, say: typing.Callable[[str], None], every: str = EVERY, most=statistics.median,
         goal_ns: int = GOAL_NS, **settings) -> list[str]:
    """Measures so long; what was wrong. The goals are for the median of the widths just after a round, and of those just before the next, or for
    what `most` makes of them. On a slow or busy host the first is three times the least question, where that is more."""
    with Widths(program) as lab, ahead_of_others():
        lab.start_all(every, **settings)
        time.sleep(2)
        seen = lab.look(seconds)
        wrong = list(lab.ended())
    rows = [("width, us", "least", "median", "greatest")]
    for name, key in (("a reading just after a round", "new"), ("a reading just before the next", "old"), ("a commit's wait", "commit"),
                      ("chronyd on the same host, by chronyc tracking", "tracking"), ("chronyd on the same host, by its replies", "reply"),
                      ("a question of this process to it", "question")):
        if seen[key]:
            rows.append((name, *(microseconds(call(seen[key])) for call in (min, statistics.median, max))))
    say(f"five masters that ask stratum 1 across a wire every {every}; {settings or 'the default of poll'}, f = 2\n{table(rows)}")
    if seen["wrong"]:
        wrong.append(f"{len(seen['wrong'])} readings are wrong")
    if not seen["old"]:
        return [*wrong, "no publication was seen"]
    if (width := most(seen["new"])) > (goal_ns := max(goal_ns, 3 * min(seen["question"], default=0))):
        wrong.append(f"a reading just after a round is {microseconds(width)} us wide, more than {microseconds(goal_ns)}")
    if (grown := most(seen["old"]) - width) > GROWTH_NS:
        wrong.append(f"a reading just before a round is wider by {microseconds(grown)} us, more than {microseconds(GROWTH_NS)}")
    return wrong
