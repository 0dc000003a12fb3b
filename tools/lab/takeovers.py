"""How long a shard has no commit when the host of its leader is killed, or etcd's leader; and leaders that stamp without spans."""
import base64
import json
import statistics
import subprocess
import time
import typing

from harness.processes import SECOND, Fault
from harness.program import read_text
from lab.fleet import SOURCES, Fleet, key_number
from lab.services import Machine, Master, Source
from lab.shard_runs import judge, terms_in
from lab.sharded import ASKING, MEMBERS, Sharded
from lab.shards import CLIENTS, TTL_S, Etcd, Shard, ask, build
from lab.users import table

#: A leader's host is back in service within etcd's lease, the rest of the span, and so long.
MORE_S = 0.2
#: How often each member of etcd is asked for a span, and how long it may take.
ASKED, ANSWER_S = 5, 2.0
READY_S, LEAST_PAUSE_S, MOST_PAUSE_S = 20.0, 1.0, 2.0
#: The control: masters of the machine b, which reads that wide, and how often leaders move.
WIDE_NS, WIDE_POLLS, MOVES = SECOND, 5711, 8
Say = typing.Callable[[str], None]


class Killed(typing.NamedTuple):
    """What was killed when, since 1970, for which shard, and after how many seconds at most there has to be a commit."""
    what: str
    shard: Shard
    moment: int
    bound_s: float


def rest_of_span_s(shard: Shard) -> float:
    """How far the span that was recorded last for a shard reaches ahead."""
    key = base64.b64encode(f"shard/{shard.number}/span".encode()).decode()
    for member in shard.etcd.members * ASKED:
        said = ask(shard.asking, f"{member.host.at(CLIENTS)}/v3/kv/range", json.dumps({"key": key}).encode(), ANSWER_S)
        for pair in json.loads(said or "{}").get("kvs", ()):
            return max(0.0, (int(base64.b64decode(pair["value"]).split()[0]) - time.time_ns()) / SECOND)
    raise Fault("no member of etcd answers")


def kill_host(fleet: Sharded, shard: Shard) -> Killed:
    """Kills the host of the leader, whose machine and agents are started again when there is a commit."""
    leader = shard.await_leader()
    processes, rest_s, moment = fleet.host_of(leader), rest_of_span_s(shard), time.time_ns()
    for process in processes:
        process.kill()
    shard.await_commit()
    for process in processes:
        process.start()
    fleet.machines[leader.host.name].wait_until_ready(READY_S)
    return Killed("the leader's host", shard, moment, TTL_S + rest_s + MORE_S)


def kill_member(fleet: Sharded) -> float:
    """Kills the leader of etcd; after how many seconds another member leads."""
    member, began = fleet.etcd.leader(), time.monotonic()
    member.kill()
    fleet.etcd.leader(but=member)
    took = time.monotonic() - began
    for shard in fleet.shards:
        shard.await_commit()
    member.start()
    return took


def gap_s(killed: Killed, until: int, ended: list[int]) -> float:
    """How long after it was killed the shard's users were told of a commit again: behind the longest time without one."""
    inside = [killed.moment, *(moment for moment in ended if killed.moment < moment <= until)]
    _, end = max(((after - before, after) for before, after in zip(inside, inside[1:])), default=(0, until))
    return (end - killed.moment) / SECOND


def tell(program: str, times: int, say: Say) -> list[str]:
    """Kills each so many times; what was wrong."""
    with Sharded(program) as fleet:
        fleet.start_masters()
        fleet.start_machines()
        fleet.start_shard_users()
        killed, elections, members = list[Killed](), list[float](), list[Killed]()
        for turn in range(times):
            time.sleep(fleet.chance.uniform(LEAST_PAUSE_S, MOST_PAUSE_S))
            killed.append(kill_host(fleet, fleet.shards[turn % 2]))
        for turn in range(times):
            time.sleep(fleet.chance.uniform(LEAST_PAUSE_S, MOST_PAUSE_S))
            members += [Killed("etcd's leader", shard, time.time_ns(), 0) for shard in fleet.shards]
            elections.append(kill_member(fleet))
        last = time.time_ns()
        lost = sum(shard.end() for shard in fleet.shards)
        return [*judged(fleet, lost), *shown(killed, members, elections, last, say)]


def judged(fleet: Sharded, lost: int) -> typing.Iterator[str]:
    """What is wrong with the commits of each shard."""
    for shard in fleet.shards:
        found = judge(fleet.program, shard.history)
        if found.violations or found.equal_stamps or found.term_violations:
            yield f"shard {shard.number}: {found}"
    if lost:
        yield f"{lost} acknowledged commits are lost"


def shown(killed: list[Killed], members: list[Killed], elections: list[float], last: int, say: Say) -> typing.Iterator[str]:
    """Shows the table; what is wrong where a shard is late."""
    ends = {shard: sorted(int(line.split()[2]) for line in read_text(shard.history).splitlines()) for shard in {one.shard for one in killed}}
    moments = [one.moment for one in [*killed, *members]] + [last]

    def gap_of(one: Killed) -> float:
        return gap_s(one, next(moment for moment in moments if moment > one.moment + SECOND // 10), ends[one.shard])

    gaps, of_members = [gap_of(one) for one in killed], [gap_of(one) for one in members]
    rows = [("killed", "times", "median, ms", "longest, ms")]
    for name, numbers in (("the leader's host: a commit again", gaps), ("- TTL, rest of the span and 200 ms", [one.bound_s for one in killed]),
                          ("etcd's leader: another member leads", elections), ("- a commit again", of_members)):
        rows.append((name, str(len(numbers)), f"{statistics.median(numbers) * 1000:.0f}", f"{max(numbers) * 1000:.0f}"))
    say(table(rows))
    late = sum(gap > one.bound_s for gap, one in zip(gaps, killed))
    say(f"{late} of {len(gaps)} later than that")
    if statistics.median(gaps) > statistics.median(one.bound_s for one in killed):
        yield "the median is later than TTL, rest of the span and 200 ms"


class Crossing(Fleet):
    """A fleet whose machine b asks masters of its own, which are wide."""
    shifts_s = {"a": 0, "b": 0}
    others = {**Fleet.others, ASKING: Sharded.others[ASKING]}
    turning = ("a", )

    def machine(self, name: str, number: int, sources: list[Source], settings: dict) -> Machine:
        if name == "b":
            wide = [self.wide(source) for source in range(SOURCES)]
            sources = [Source(master.address, (key_number(number, master.source), )) for master in wide]
        return super().machine(name, number, sources, settings)

    def wide(self, source: int) -> Master:
        host = self.hosts[f"m{source}"]
        return self.keep(Master(host, source, WIDE_NS, self.keys[source], listen=host.at(WIDE_POLLS), name=f"wide-{source}"))


def crossing(program: str, say: Say) -> bool:
    """Leaders stamp without spans, and move in order between a machine that reads wide and one that reads narrow: whether that was seen."""
    with Crossing(program) as fleet:
        fleet.start_masters()
        fleet.start_machines(max_width=None)
        etcd = Etcd([fleet.hosts[name] for name in MEMBERS], fleet.hosts[ASKING])
        etcd.leader()
        shard = Shard(etcd, build(fleet.room), 3, list(fleet.machines.values()), False, ["-no-spans"])
        shard.await_commit()
        shard.start_users(100, "2s", "5s")
        for _ in range(MOVES):
            time.sleep(MOST_PAUSE_S)
            leader = shard.await_leader()
            leader.terminate()
            shard.await_commit()
            try:
                leader.running.wait(READY_S)
            except subprocess.TimeoutExpired as late:
                raise Fault(f"{leader.name} does not end") from late
            leader.start()
        shard.end()
        found = judge(program, shard.history)
        say(f"control: leaders without spans: {found}, in {terms_in(shard.history)} terms")
        return found.term_violations > 0
