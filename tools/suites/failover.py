"""Tries the shard whose leader moves, of demo/failover: its tests in Go, with --long also with checks of races, and demo/failover/run
for 30 seconds, or as many as --seconds says, by seed 1 where no other --seed is given.
"""
import re
import subprocess

from harness.program import in_top, run
from harness.suite import Suite, wrong_in
from suites.clients import go_in, has_go

suite = Suite(__name__, quick=False, beside_s=49)
FOLDER = in_top("demo/failover")
# On a machine that is slow for a while etcd may answer too late, or a control's leaders follow each other too late for the judge to see
# anything. Then the run is made once more, and after that it is noted: no fault of the service was seen, and none could be.
TRIES = 2
# What is built for checks of races is not optimized, which takes less time.
RACES = ["-race", "-vet=off", "-gcflags=all=-N -l -dwarf=false", "-ldflags=-w"]


@suite.shares
def environment(trial):
    """The environment of Go, which keeps what it has built for the next case."""
    yield go_in(trial.room)


def go(trial, *words):
    return run(["go", *words], seconds=240, cwd=FOLDER, env=trial.shared, stderr=subprocess.STDOUT)


@suite.case(programs=("go", "gofmt"))
def tests(trial):
    if has_go():
        trial.equal("gofmt", run(["gofmt", "-l", FOLDER], seconds=60).said, "")
        ran = go(trial, "test", "-vet=all", ".")
        trial.check("tests", ran.status == 0, f"status {ran.status}: {ran.said}")


@suite.case(programs=("go", "gcc"), long=True)
def races(trial):
    if has_go():
        ran = go(trial, "test", *RACES, ".")
        trial.check("tests with checks of races", ran.status == 0, f"status {ran.status}: {ran.said}")


@suite.case(programs=("go", "etcd"))
def shards(trial):
    if not has_go():
        return
    seconds, seed = trial.options.seconds or 30, 1 if trial.options.seed is None else trial.options.seed
    go(trial, "build", "-o", "/dev/null", ".")
    words = [in_top("demo/failover/run"), "--seconds", str(seconds), "--seed", str(seed), trial.program]
    for _ in range(TRIES):
        ran = run(words, seconds=seconds + 120, env=trial.shared, stderr=subprocess.STDOUT)
        *table, trial.result.last = ran.said.strip().splitlines() or [""]
        print("\n".join(table))
        is_wrong = re.search("not as expected: [12]", trial.result.last)
        if ran.status == 0 or is_wrong:
            break
        trial.note(f"status {ran.status}, and no fault of the service was seen: {trial.result.last}")
    trial.holds(not is_wrong, f"status {ran.status}: {trial.result.last}")


@suite.last_line
def last_line(results):
    said = [result.last.removeprefix("failover: ") for result in results if result.last]
    return "; ".join([*said, f"{wrong_in(results)} wrong"])
