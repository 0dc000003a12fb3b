"""Runs the shipped turns of machines, masters and sessions over a network, clocks and disks that a seed makes, in one thread.

The program of tests/simulation judges each turn by the true time, which it knows. Fresh seeds are run for half a minute, by as many processes as
there are processors; the digests of all events of some fixed seeds are equal in two runs; and of some wrong bodies, one that is drawn is planted,
and found. No process grows. What is told as `seed N` can be run again: `simulation --seed N`, and `--until K` stops before its event K.
"""
import contextlib
import os
import random
import re
import secrets
import subprocess
import tempfile
import time
from concurrent.futures import ThreadPoolExecutor

from harness.program import in_top, read, run
from harness.suite import Suite, total

suite = Suite(__name__, longest_s=900)

# The wrong bodies and wirings that were tried, each with what came of it. Their edits stand in crates/ or beside this list.
LIST = "tests/simulation/plants/list"
# The first of the seeds whose digests are compared, and how many these are.
FIRST, COUNT = 1, 40
# The most memory of a process, in kilobytes: three times what it has after its first world.
MOST = 8_000
FAILED = re.compile(r"seed \d+ wrong: .*")
DONE = re.compile(r"worlds (\d+) rounds (\d+) lines (\d+) commits (\d+) lives (\d+) wrong 0")


def planted() -> list[str]:
    """The edits that were found within seconds."""
    names = [line.split()[2] for line in read(LIST).decode().splitlines() if line.startswith("found ")]
    return [next(filter(os.path.exists, (in_top(f"{folder}/{name}.edit") for folder in ("crates", "tests/simulation/plants")))) for name in names]


def build(trial, name, *edits):
    """The program, with these edits planted; None where it is not built."""
    program = f"{trial.room}/{name}"
    built = run([in_top("tools/build_texts"), in_top("tests/simulation"), program, "-O1", *edits], seconds=800, stderr=subprocess.STDOUT)
    trial.holds(built.status == 0, f"tests/simulation is not built: status {built.status}: {built.said}")
    return program if built.status == 0 else None


def watched(words, seconds):
    """Runs a command: its output, its status, and the most memory that it had, in kilobytes."""
    most = 0
    with tempfile.TemporaryFile() as out, subprocess.Popen(words, stdout=out, stderr=subprocess.STDOUT) as running:
        end = time.monotonic() + seconds
        while running.poll() is None:
            with contextlib.suppress(OSError, ValueError, IndexError):
                most = int(re.findall(r"VmHWM:\s+(\d+)", read(f"/proc/{running.pid}/status").decode())[0])
            if time.monotonic() > end:
                running.kill()
            time.sleep(0.2)
        out.seek(0)
        return out.read().decode(errors="replace").splitlines(), running.returncode, most


def fresh(trial, program):
    """Worlds of fresh seeds, in as many processes as there are processors."""
    seconds, lanes = int(trial.options.seconds or 30), len(os.sched_getaffinity(0))
    with ThreadPoolExecutor(lanes) as pool:
        runs = list(pool.map(lambda _: watched([program, "--seconds", str(seconds)], seconds + 60), range(lanes)))
    for said, status, most in runs:
        done = DONE.fullmatch(said[-1]) if said else None
        failed = next(filter(FAILED.fullmatch, said), None) or next((line for line in said[::-1] if line.startswith("seed ")), "no seed is told")
        trial.holds(status == 0 and done, f"status {status}: {failed}: " + " | ".join(said[-105:]))
        trial.holds(most <= MOST, f"a process grew to {most} kB")
        if done:
            trial.count(**dict(zip(("worlds", "rounds", "lines", "commits", "lives"), map(int, done.groups()))))


def twice(trial, program):
    """The same seeds give the same events."""
    one, other = (run([program, "--digests", str(FIRST), str(COUNT)], seconds=120) for _ in range(2))
    said = one.out.decode(errors="replace").splitlines()
    trial.holds(one.status == other.status == 0 and len(said) == COUNT, f"status {one.status}: {' | '.join(said[-105:])}")
    trial.holds(one.out == other.out, "two runs of the same seeds differ")


def stops(trial, program):
    """A run that stops before an event has the events before it."""
    said = run([program, "--seed", str(FIRST), "--until", "500"], seconds=60).out.decode(errors="replace").splitlines()
    numbers = [int(line.split(" ", 1)[0]) for line in said if line[:1].isdigit()]
    trial.holds(numbers == list(range(400, 500)), f"{numbers[:1]} to {numbers[-1:]}, and 400 to 499 are wanted")


@suite.case(programs=("rt",))
def seeds_of_the_day(trial):
    if program := build(trial, "simulation"):
        fresh(trial, program)
        twice(trial, program)
        stops(trial, program)


@suite.case(programs=("rt",))
def a_wrong_body_is_found(trial):
    seed = secrets.randbits(32) if trial.options.seed is None else trial.options.seed
    trial.result.seed = seed
    edit = random.Random(seed).choice(planted())
    name = os.path.relpath(edit, in_top(""))
    program = build(trial, "planted", edit)
    if program is None:
        return
    ran = run([program, "--seconds", "60"], seconds=120)
    said = [line for line in ran.said.splitlines() if line.startswith("seed ")]
    # A body may also end the program, as by an index that is out of bounds: in the world that was told last.
    is_found = ran.status == 1 and said and FAILED.fullmatch(said[-1]) or ran.status is not None and ran.status < 0
    trial.holds(is_found, f"{name} is not found in a minute: status {ran.status}: {ran.out[-200:]!r}")
    if is_found:
        trial.note(f"{name}: status {ran.status}: {said[-1] if said else 'no seed is told'}")


@suite.last_line
def told(results):
    return (f"{total(results, 'worlds')} worlds, {total(results, 'rounds')} rounds, {total(results, 'lines')} lines of sessions, "
            f"{sum(len(result.wrong) for result in results)} wrong")
