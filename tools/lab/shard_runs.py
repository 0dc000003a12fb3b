"""A fleet with shards under faults, as long as is wanted, and what was wrong in it."""
import functools
import os
import subprocess
import time
import typing

from harness.processes import Fault, truetime
from harness.program import read, read_text, run
from lab.runs import Run
from lab.services import Master, wait_until
from lab.sharded import ONCE, PHASES, Break, Sharded
from lab.units import ServedMaster

#: How many commits a second of all users there have to be, and how many terms of each shard.
FEW_COMMITS, FEW_TERMS = 20, 2
ANSWERS, LOOKED_S = "truetime_master_answers_total", 20.0


class Judged(typing.NamedTuple):
    """What the judge says of a history."""
    commits: int
    violations: int
    equal_stamps: int
    term_violations: int

    def __str__(self) -> str:
        return (f"{self.commits:,} commits, {self.violations} out of order, {self.equal_stamps} stamps twice, "
                f"{self.term_violations} not above an earlier term's")


def merge(paths: typing.Iterable[str], target: str, breaks: typing.Sequence[Break] = ()) -> str:
    """Writes the commits of these files to another one, but for those that were under way while an assumption was broken."""
    spans = [(broken.since, broken.until) for broken in breaks]
    with open(target, "w", encoding="ascii") as merged:
        for path in paths:
            with open(path, encoding="ascii") as file:
                for line in file:
                    began, ended = map(int, line.split(maxsplit=3)[1:3])
                    if not any(began <= until and ended >= since for since, until in spans):
                        merged.write(line)
    return target


def judge(program: str, path: str) -> Judged:
    """Has the program judge a file of commits."""
    with open(path, "rb") as file:
        judged = subprocess.run([program, "judge"], stdin=file, capture_output=True, text=True, timeout=1200, check=False)
    if judged.returncode not in (0, 3):
        raise Fault(f"the judge ends with status {judged.returncode}: {judged.stdout}{judged.stderr}")
    said = dict(line.split(" ", 1) for line in judged.stdout.splitlines())
    return Judged(*(int(said.get(name, 0)) for name in Judged._fields))


def stamps_outside(path: str) -> int:
    """How many stamps of a file of commits do not lie between the beginning and the end of theirs."""
    with open(path, encoding="ascii") as file:
        commits = (map(int, line.split(maxsplit=4)[1:4]) for line in file)
        return sum(not began <= stamp < ended for began, ended, stamp in commits)


def terms_in(path: str) -> int:
    """How many terms the commits of a shard have."""
    return len({line.split()[5] for line in read_text(path).splitlines()})


def await_answers(master: Master | ServedMaster) -> None:
    """Returns once a master that has just been started has written that it answers."""
    since = time.time()
    wait_until(lambda: os.path.getmtime(master.status_path) > since and master.sum_of(ANSWERS), LOOKED_S, f"{master.name}: no answers")


class ShardRun(Run):
    """A run of a fleet with shards."""
    fleet: Sharded
    phases, once = PHASES, ONCE
    columns, more_s = (*Run.columns, "excused"), 6.0
    few_unopened = 0.02  # lives are short, and each begins to count anew

    def start(self) -> None:
        super().start()
        self.fleet.start_shard_users()

    def look(self, phase) -> None:
        super().look(phase)
        self.fleet.go_on()

    def judge_commits(self) -> None:
        """All commits together, and the terms of both shards, also those while an assumption was broken."""
        fleet, room = self.fleet, self.fleet.room
        missing = [shard.end() for shard in fleet.shards]
        for agent in fleet.agents:
            agent.kill()
        shards = [shard.history for shard in fleet.shards]
        kept = merge([os.path.join(room, "history"), *shards], os.path.join(room, "kept"), fleet.breaks)
        whole = judge(fleet.program, kept)
        of_shards = judge(fleet.program, merge(shards, os.path.join(room, "of-shards")))
        terms = [terms_in(path) for path in shards]
        self.say(f"all but those under way while an assumption was broken: {whole}")
        self.say(f"shards 1 and 2: {of_shards.commits:,} commits, {' and '.join(map(str, terms))} terms, {of_shards.term_violations} stamps not "
                 f"above an earlier term's, {of_shards.equal_stamps} twice, {sum(missing)} acknowledged commits that a replica lacks")
        found = {"stamps lie outside of their commits": stamps_outside(kept), "commits are out of order": whole.violations,
                 "stamps were given twice": whole.equal_stamps, "stamps are not above an earlier term's": of_shards.term_violations,
                 "acknowledged commits are lost": sum(missing)}
        self.wrong += [f"{number} {what}" for what, number in found.items() if number]
        if whole.commits < FEW_COMMITS * self.seconds or min(terms) < FEW_TERMS:
            self.wrong.append(f"{whole.commits} commits and {terms} terms are few")

    def tell(self) -> None:
        super().tell()
        for broken in self.fleet.breaks:
            noticed = " and ".join(f"{seconds:.2f}" for seconds in broken.noticed_s) or "never"
            self.say(f"{broken.what} on {', '.join(broken.hosts)}: noticed after {noticed} s, right again after "
                     f"{(broken.until - broken.since) / 1e9:.1f} s")

    def judge_epochs(self) -> None:
        """Each life of a machine has a greater epoch than those before, which its status tells."""
        for machine in self.fleet.machines.values():
            epochs = [int(fields["epoch"]) for fields in machine.said("started")]
            self.say(f"{machine.name}: {len(epochs)} lives with a log, epochs {epochs[0]} to {epochs[-1]}")
            self.wrong += [f"{machine.name}: epoch {second} behind {first}" for first, second in zip(epochs, epochs[1:]) if second <= first]
            if (told := machine.sum_of("truetime_epoch")) != epochs[-1]:
                self.wrong.append(f"{machine.name}: its status tells of the epoch {told}, and its log of {epochs[-1]}")

    def judge_evidence(self) -> None:
        """What a machine leaves proves how its last round, and both of a break, were fused."""
        for machine in self.fleet.machines.values():
            for path in filter(os.path.isfile, (machine.path("evidence") + end for end in ("", ".break-1", ".break-2"))):
                checked = run([self.fleet.program, "check"], read(path))
                if checked.status != 0:
                    self.wrong.append(f"{machine.name}: {os.path.basename(path)} proves nothing: {checked.said}{checked.error}")

    def judge_memory(self) -> None:
        super().judge_memory()
        self.judge_epochs()
        self.judge_evidence()
        for master in self.fleet.masters:
            self.judge_memory_of(master, master.name, functools.partial(await_answers, master))
