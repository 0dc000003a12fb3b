"""Runs masters over servers of NTP: chronyd and ntpsec of stratum 1 to 3, on hosts that are network namespaces, whose clocks have oscillators of
their own (tools/lab). All cases run at once.

- A machine over five masters, each on the host of a server of its own: for half a minute, or as many seconds as --seconds says, oscillators
  wander and jump, receivers are lost, wires cut, and servers and masters started again, by the seed. Each reading has to hold a time between
  two looks at the host's clock around it, and no commit may be out of order.
- A server comes to be unsynchronised, one's oscillator jumps between two polls, one says RATE, DENY or RSTR, one announces a leap second,
  one shares keys: its master is silent, asks less, or is a suspect, as it should, and readings are right.
- Readings of a machine whose masters stand on stratum 1 across a wire are at most 0.6 ms wide just after a round, and at most 0.25 ms wider just
  before the next, at real-time priority.
- The files and commands of docs/MASTERS.md run as they are written there.
- Three servers of five that lie make readings wrong, which the judge sees.
"""
from harness.suite import Suite, seeds, wrong_in
from lab import documented_masters, master_runs, widths
from lab.servers import missing
from lab.upsets import UPSETS

suite = Suite(__name__, at_once=10, longest_s=120, again=1, quick=False, beside_s=43)
RUN_S, WIDTH_S = 30, 10


@suite.case(missing=missing)
def strata(trial):
    with master_runs.Upset(trial.program, seed=trial.seed()) as lab:
        yield from master_runs.Run(lab, trial.options.seconds or RUN_S, trial.note).whole()


@suite.case(missing=missing)
def as_documented(trial):
    yield from documented_masters.tell(trial.program, trial.note)


@suite.case(missing=missing)
def width(trial):
    """The least width; the goal, 0.6 ms, is for a quiet host and an optimized program (`tools/masters width`). One without proofs is none."""
    goal_ns = 3_000_000 if trial.program.endswith(".unproved") else 1_000_000
    yield from widths.tell(trial.program, WIDTH_S, trial.note, most=min, goal_ns=goal_ns)


@suite.case(missing=missing)
def lies_that_are_seen(trial):
    trial.holds(master_runs.control(trial.program, trial.note), "what is wrong was not seen")


def case_of(call):
    """A case of an upset."""
    def upset(trial):
        yield from call(trial.program, trial.note)
    upset.__name__ = call.__name__
    return suite.case(missing=missing)(upset)


for one in UPSETS.values():
    case_of(one)


@suite.last_line
def last_line(results):
    return f"{seeds(results)}{wrong_in(results)} wrong"
