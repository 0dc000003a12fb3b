"""Runs the time service across hosts: five masters, three machines, and a host without keys that sees each packet and forges answers.

Hosts are network namespaces that a router joins (tools/lab), and the machines' clocks are shifted and run at rates of their own. It goes on for a
minute, or as many seconds as --seconds says, by the seed, in phases: nothing is done, up to two masters lie, packets are late, by direction, or are
lost, come twice, spoilt or in another order, machines are cut from masters, one way or both, machines and masters are killed, clocks change
their rates, or all of it. Sessions on each machine's host read and commit, and a stamper on the one whose clock is not shifted. Each reading has to
hold a time between two looks at the real-time clock around it, each stamp to lie between them, no commit may be out of order (`ttd judge`), no
stamp may come twice, each machine has to count what the forger sent, no master may answer it, no process may end, and memory has to be that of a
fresh start in the end.

Then the same for a fleet with shards: two of its masters stand on chronyd, etcd elects the leaders of two shards, agents of these and users in C, Go
and Python stamp by its machines, processes are killed and stopped, disks are full, pipes for logs are full or closed, clients close half of their
connection, and once a clock runs wild, a host sleeps, and three masters step by a second. That has to be noticed, and wrong readings may come until
then alone; stamps have to rise with the terms of their shard.

Then a key is rolled over, one is revoked, and a host goes from open to sealed polls; nobody may be without a reading meanwhile but by the
start of a machine. A master waits for its address, and an answer from another address is told of. The fleet of docs/OPERATING.md, five masters
and sixty machines, runs as it is written there, and so does the smallest fleet, one of whose servers then lies. With --long the controls of `tools/fleet
control` are run, too: they have to be wrong; and a leap second that chronyd announces comes over a whole fleet: masters are silent from a minute
before it, nobody reads wrongly till then, and the fleet comes back by itself.

What was wrong is tried once more, since steps have their time and the host may be busy; but no wrong reading, order or stamp.
"""
from harness.suite import Suite, seeds, wrong_in
from lab import addresses, chronied, controls, documented, documented_smallest, leaps, rollover, sharded, takeovers
from lab.fleet import Fleet
from lab.hosts import missing
from lab.runs import Run
from lab.shard_runs import ShardRun

suite = Suite(__name__, again=1, never=("the reading", "out of order", "stamps"), quick=False, beside_s=190)


@suite.case(missing=missing)
def across_hosts(trial):
    seconds = trial.options.seconds or 60
    with Fleet(trial.program, trial.seed(), "mixed") as fleet:
        yield from Run(fleet, seconds, trial.note).whole()


@suite.case(missing=sharded.missing)
def shards_that_move(trial):
    seconds = trial.options.seconds or 60
    with sharded.Sharded(trial.program, trial.seed()) as fleet:
        yield from ShardRun(fleet, seconds, trial.note).whole()


@suite.case(missing=missing)
def keys_rolled_over(trial):
    yield from rollover.tell_all(trial.program, trial.note)


@suite.case(missing=missing)
def addresses_of_masters(trial):
    addresses.tell_all(trial.program, trial.note)


@suite.case(missing=chronied.missing)
def as_documented(trial):
    yield from documented.tell(trial.program, trial.room, trial.note)


@suite.case(missing=chronied.missing)
def smallest_as_documented(trial):
    yield from documented_smallest.tell(trial.program, trial.note)


@suite.case(missing=missing, long=True)
def faults_that_are_seen(trial):
    trial.holds(controls.tell_all(trial.program, trial.note), "what is wrong was not seen")


@suite.case(missing=sharded.missing, long=True)
def terms_that_cross(trial):
    trial.holds(takeovers.crossing(trial.program, trial.note), "stamps of leaders without spans were not seen to cross")


@suite.case(missing=leaps.missing, long=True)
def leap_second(trial):
    yield from leaps.tell(trial.program, trial.note)


@suite.last_line
def last_line(results):
    return f"{seeds(results)}{wrong_in(results)} wrong"
