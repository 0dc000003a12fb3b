"""A fleet under two shards whose leaders move on etcd, with two masters over servers of NTP, and what is done to all of that."""
import contextlib
import dataclasses
import functools
import os
import subprocess
import sys
import time
import typing

from harness.processes import SECOND, Fault, truetime
from harness.program import in_top, read
from harness.users import reading_of
from lab import hosts, rollover
from lab.clocks import Receivers, compile_clock
from lab.disks import Disk
from lab.fleet import ACTS, Fleet, key_number
from lab.pipes import HalfClosed, Pipe
from lab.router import Way
from lab.servers import no_chronyd
from lab.services import SESSIONS, KeyFile, Machine, Master, OnHost, Source, wait_until
from lab.shards import Etcd, Other, Shard, build, is_stopped, stop
from lab.units import BROKEN, DISK, ServedMaster, Units, UnitMachine
from lab.users import Commits, Users

SERVED = {3: 30.0, 4: -25.0}
MEMBERS = ("m0", "m1", "m2")
ASKING = "u"
#: The machine whose clock turns and whose host sleeps, and that with a small disk.
TURNING, SMALL_DISK = "c", "b"
#: How fast a clock runs wild: so much that a round is out of the last one, and more where the host is so busy that readings are wide.
WILD_PPM, STANDS_PPM = (100_000, 1_000_000), -1_000_000
SLEEP_S, TWO_LIE_S, WILD_S = 1.0, 1.5, 3.0
#: By how much a server's clock may be off that is honest.
SLIGHT_NS = 500_000
#: How long something stands still or is down, how soon a break has to be noticed, and how soon all has to be back: a start behind some breaks in a
#: row pauses up to half a minute.
LEAST_STOP_S, MOST_STOP_S, NOTICED_S, BACK_S = 0.2, 2.2, 30.0, 60.0
#: How soon a client is answered that closed its half, how soon a machine says what it cannot write, and how soon it shares its time again, which
#: it tries at least every half a minute; how often that is looked at, and how often where all else waits for it.
ANSWERED_S, SAID_S, SHARED_S, WAIT_S, LOOK_S = 25.0, 45, 60.0, 0.1, 0.02
UNWRITTEN = ("status_unwritten", "evidence_unwritten")
NEXT_KEY = 100
FOREVER = 2**64


@functools.cache
def missing() -> str:
    """Why it cannot run here, or nothing."""
    return hosts.missing() or hosts.unable(("go", "etcd", "setpriv")) or no_chronyd()


@dataclasses.dataclass
class Break:
    """An assumption that is broken on these hosts from one time to another since 1970, and how soon each machine had noticed, each time."""
    what: str
    hosts: typing.Sequence[str]
    since: int
    until: int = FOREVER
    noticed_s: list[float] = dataclasses.field(default_factory=list)

    def covers(self, host: str, began: int, ended: int) -> bool:
        return host in self.hosts and began <= self.until and ended >= self.since


class Sharded(Fleet):
    """A fleet whose masters m3 and m4 ask chronyd on their hosts; members of etcd on m0, m1 and m2; agents of shard 1, by sessions, on a, b and c,
    and of shard 2, by stampers, on a and b, since a program in Go does not see how the clock of c turns; the users of shards on u."""
    shifts_s = dict.fromkeys("abc", 0)
    others = {**Fleet.others, ASKING: ["10.77.0.30"]}
    turning = (TURNING, )

    def __init__(self, program: str, seed: int = 1):
        super().__init__(program, seed)
        self.breaks: list[Break] = []
        self.wrong: list[str] = []
        #: What is done later, and when.
        self.later: list[tuple[float, typing.Callable[[], None]]] = []
        #: The lives of machines that have to share their time again by some moment.
        self.sharing: list[tuple[UnitMachine, subprocess.Popen, float]] = []
        self.slept_ns, self.key, self.shards = 0, key_number(0, 0), list[Shard]()
        self.users_of: dict[str, list[subprocess.Popen]] = {}

    def build(self) -> None:
        super().build()
        self.clock_library, self.receivers = compile_clock(self), self.keep(Receivers())
        self.state_disk = Disk(self, os.path.join(self.room, SMALL_DISK, "state"), 64, "700")
        self.disks = {name: Disk(self, os.path.join(self.room, name, DISK), 128, "755") for name in self.shifts_s}

    # What is started.

    def master(self, source: int, keys: KeyFile) -> Master | ServedMaster:
        return ServedMaster(self.hosts[f"m{source}"], source, keys, SERVED[source]) if source in SERVED else super().master(source, keys)

    def machine(self, name: str, number: int, sources: list[Source], settings: dict) -> Machine:
        return UnitMachine(self.hosts[name], number, sources, self.key_files[name], **settings, evidence=self.disks[name].path("evidence"))

    def start_machines(self, **settings) -> None:
        """Starts machines and their units, etcd, and both shards, each with a leader."""
        super().start_machines(**settings)
        self.units = self.keep(Units(self.machines.values()))
        self.failover, asking = build(self.room), self.hosts[ASKING]
        self.etcd = Etcd([self.hosts[name] for name in MEMBERS], asking)
        self.etcd.leader()
        machines = list(self.machines.values())
        self.shards = [Shard(self.etcd, self.failover, 1, machines, True),
                       Shard(self.etcd, self.failover, 2, machines[:2], False)]
        for shard in self.shards:
            shard.await_commit()

    def start_shard_users(self) -> None:
        """Starts the users of shards, which end with their input: later than what is forked from this process, and would keep that open."""
        for shard in self.shards:
            shard.start_users(3, "40ms")

    def start_users(self, seconds: float, sessions: int = 2, stampers: int = 1, pause_ms: int = 20) -> Users:
        history = self.keep(Commits(self.program, os.path.join(self.room, "history")))
        users = self.keep(Users(self, history, self.is_excused))
        users.begin("start")
        in_python = [sys.executable, "-B", "-m", "lab.python_users"]
        for name, machine in self.machines.items():
            users.start(machine, seconds, sessions, stampers, pause_ms)
            users.start(machine, seconds, sessions, 0 if name in self.turning else stampers, pause_ms, in_python, cwd=in_top("tools"))
            self.users_of[name] = users.running[-2:]
        return users

    @property
    def served(self) -> list[ServedMaster]:
        return [master for master in self.masters if isinstance(master, ServedMaster)]

    @property
    def agents(self) -> list[Other]:
        return [agent for shard in self.shards for agent in shard.agents.values()]

    def ended(self) -> typing.Iterator[str]:
        """What ended on its own, but for machines that noticed a break."""
        for child, name in ((self.router.child, "router"), (self.forger and self.forger.child, "forger")):
            if child and not child.process.is_alive():
                yield f"the {name} has ended"
        others = [process for process in (*self.etcd.members, *self.agents, *(shard.users for shard in self.shards)) if process]
        down = [*self.down, *(process for process in others if process.is_down or process.ended_by_pipe())]
        for process in [*self.masters, *(master.server for master in self.served), *others]:
            if process.has_ended() and process not in down:
                yield f"{process.name} ended with status {process.running.returncode}: {process.end_of_log()[-300:]}"
        for end in self.units.ends:
            if end.status != BROKEN or not self.is_excused(end.host, end.moment, end.moment):
                yield f"the machine of {end.host} ended with status {end.status} at {end.moment}: {self.machines[end.host].end_of_log()[-300:]}"
        yield from self.wrong

    # Breaks.

    def is_excused(self, host: str, began: int, ended: int) -> bool:
        """Whether an assumption was broken on a host between these times."""
        return any(broken.covers(host, began, ended) for broken in self.breaks)

    @contextlib.contextmanager
    def broken(self, what: str, names: typing.Sequence[str]) -> typing.Iterator[Break]:
        """An assumption is broken on these hosts until the block has ended, their machines, which nobody helps, are right again, and no earlier
        life's time stands in their shared files."""
        self.await_right(names, f"{what}: not right before")
        self.breaks.append(Break(what, names, time.time_ns()))
        yield self.breaks[-1]
        self.await_right(names, f"{what}: not right again")
        machines = [self.machines[name] for name in names]
        self.wait(lambda: all(machine.shared_life() in (0, machine.life()) for machine in machines), SHARED_S, f"{what}: still shared")
        self.breaks[-1].until = time.time_ns()

    def await_right(self, names: typing.Sequence[str], what: str) -> None:
        self.wait(lambda: all(self.reads(name) == "right" for name in names), BACK_S, what)

    def reads(self, name: str) -> str:
        """Whether a machine gives a right or a wrong time now; nothing where it gives none."""
        try:
            with truetime.Session(self.machines[name].address, 5) as session:
                return "wrong" if reading_of(session).is_wrong else "right"
        except (OSError, truetime.Refused):
            return ""

    def noticed(self, broken: Break, since: int = 0) -> dict[str, int]:
        """When the machine of each host ended by it first since it began, or since another time."""
        ends = [end for end in list(self.units.ends) if end.status == BROKEN and end.moment >= (since or broken.since)]
        return {end.host: end.moment for end in reversed(ends) if end.host in broken.hosts}

    def await_notice(self, broken: Break, since: int = 0) -> None:
        self.wait(lambda: set(self.noticed(broken, since)) == set(broken.hosts), NOTICED_S, f"{broken.what}: not noticed")
        broken.noticed_s.append((max(self.noticed(broken, since).values(), default=FOREVER) - (since or broken.since)) / SECOND)

    def wait(self, holds: typing.Callable[[], object], seconds: float, what: str) -> None:
        """Returns once this holds. Where it does not come to hold in time, that is wrong."""
        try:
            wait_until(holds, seconds, what)
        except Fault as fault:
            self.wrong.append(str(fault))

    def run_wild(self) -> None:
        """The clock of c runs far faster than its drift allows, until its machine has noticed."""
        clock, machine = self.hosts[TURNING].clock, self.machines[TURNING]
        with self.broken("a clock far beyond its drift", TURNING) as broken:
            for rate in WILD_PPM:
                clock.run_by(rate)
                with contextlib.suppress(Fault):
                    wait_until(lambda: self.noticed(broken), WILD_S, "not yet")
                    break
            self.await_notice(broken)
            clock.run_by(0)
            machine.restart()  # a life that began meanwhile may be right by chance, and not be yet

    def sleep(self) -> None:
        """The host c is suspended: its processes and its clock stand still, and CLOCK_BOOTTIME goes on."""
        clock, agents = self.hosts[TURNING].clock, [agent for agent in self.agents if agent.host.name == TURNING]
        with self.broken("a suspended host", TURNING) as broken:
            go_on = [stop(running) for running in (*(agent.running for agent in agents), *self.users_of[TURNING], self.machines[TURNING].running)]
            clock.run_by(STANDS_PPM)
            time.sleep(SLEEP_S)
            clock.run_by(0)
            self.slept_ns += clock.turns[-1][0] - clock.turns[-2][0]
            clock.tell("boot", str(self.slept_ns))
            since = time.time_ns()
            for call in go_on:
                call()
            self.await_notice(broken, since)

    def step_all(self) -> None:
        """One bad master, or one leap second, for all machines at once."""
        self.chance.choice((self.leap, self.turn_bad))()

    def leap(self) -> None:
        """Three of the five masters step back by a second at once, and later forth again."""
        with self.broken("a second at three masters", "abc") as broken:
            self.step(broken, self.masters[:3], -SECOND)

    def turn_bad(self) -> None:
        """Two masters are a second ahead, as they may be. Then it is three. A server whose clock is still off by an earlier lie would be a fourth:
        then nothing is done, which is counted."""
        try:
            wait_until(lambda: all(abs(master.server.clock.ahead_ns()) < SLIGHT_NS for master in self.served), BACK_S, "a server is still off")
        except Fault:
            self.did["leave_bad_out"] += 1
            return
        for master in self.masters[:2]:
            master.behave(SECOND)
        time.sleep(TWO_LIE_S)
        with self.broken("one bad master more than may be", "abc") as broken:
            self.step(broken, self.masters[2:3], SECOND)
        for master in self.masters[:2]:
            master.behave(self.honest_offset())

    def step(self, broken: Break, masters: typing.Sequence[Master], offset: int) -> None:
        """Masters of all machines step, until all follow them, and step back: all machines break twice, and come back by themselves."""
        for master in masters:
            master.behave(offset)
        self.await_notice(broken)
        self.wait(lambda: all(self.reads(name) == "wrong" for name in self.machines), BACK_S, "no reading by masters that stepped")
        since = time.time_ns()
        for master in masters:
            master.behave(self.honest_offset())
        self.await_notice(broken, since)

    # What is done to processes, and ends after a while.

    def after_a_while(self, call: typing.Callable[[], None]) -> None:
        self.later.append((time.monotonic() + self.chance.uniform(LEAST_STOP_S, MOST_STOP_S), call))

    def go_on(self, is_end: bool = False) -> None:
        """Does what was put off until now, or all of it, and what that puts off."""
        while due := [put_off for put_off in self.later if is_end or put_off[0] <= time.monotonic()]:
            self.later = [put_off for put_off in self.later if put_off not in due]
            for _, call in due:
                call()
            time.sleep(LOOK_S)
        self.sharing = [awaited for awaited in self.sharing if self.is_awaited(*awaited)]

    def heal(self) -> None:
        self.go_on(is_end=True)
        super().heal()

    def kill(self, *processes: OnHost) -> None:
        for process in processes:
            process.kill()
            self.after_a_while(process.start)

    def stop(self, *processes: OnHost) -> None:
        for process in processes:
            self.after_a_while(stop(process.running))

    def agent(self) -> Other:
        """An agent that leads a shard, or another one where none says so."""
        shard = self.chance.choice(self.shards)
        return shard.leader() or self.chance.choice(list(shard.agents.values()))

    def host_of(self, agent: Other) -> list[OnHost]:
        """The machine and the agents of the host of an agent."""
        return [self.machines[agent.host.name], *(other for other in self.agents if other.host is agent.host)]

    def kill_agent(self) -> None:
        self.kill(self.agent())

    def stop_agent(self) -> None:
        self.stop(self.agent())

    def end_agent(self) -> None:
        """It ends in order, and gives up its leadership."""
        agent = self.agent()
        agent.terminate()
        self.after_a_while(agent.restart)

    def kill_host(self) -> None:
        self.kill(*self.host_of(self.agent()))

    def stop_host(self) -> None:
        self.stop(*self.host_of(self.agent()))

    def kill_member(self) -> None:
        self.kill(self.chance.choice(self.etcd.members))

    def stop_member(self) -> None:
        self.stop(self.chance.choice(self.etcd.members))

    def stop_machine(self) -> None:
        self.stop(self.chance.choice(list(self.machines.values())))

    def stop_master(self) -> None:
        self.stop(self.chance.choice(self.masters))

    def cut_members(self) -> None:
        """A member of etcd is cut from the others, one way or both."""
        one, *others = self.chance.sample(MEMBERS, len(MEMBERS))
        ends = [[one], others]
        self.chance.shuffle(ends)
        self.router.set(*ends, Way(cut=True))
        if self.chance.random() < 0.5:
            self.router.set(*reversed(ends), Way(cut=True))

    # What is done to files and keys.

    def give_pipe(self, process: OnHost) -> Pipe:
        """What a process prints goes to a pipe from a new start on."""
        process.pipe = Pipe(process.log)
        process.restart()
        return process.pipe

    def take_pipe(self, process: OnHost, pipe: Pipe, running: subprocess.Popen) -> None:
        """A machine or a master that lives on without a reader of its log goes on with its work."""
        if self.lives_on(process, running) and not is_stopped(running) and not isinstance(process, Other):
            since = time.time()
            self.wait(lambda: is_at_work(process, since), ANSWERED_S, f"{process.name} does nothing without a reader of its log")
        process.pipe = None
        process.restart()
        pipe.close()

    def spoil_pipe(self, process: OnHost, pipe: Pipe, is_full: bool) -> None:
        pipe.spoil(is_full)
        self.after_a_while(functools.partial(self.take_pipe, process, pipe, process.running))

    def close_pipe(self) -> None:
        """A machine, a master or an agent prints to a pipe that nobody reads any more from some moment on."""
        self.lose_reader(is_full=False)

    def fill_pipe(self) -> None:
        """A machine, a master or an agent prints to a pipe that is full from some moment on."""
        self.lose_reader(is_full=True)

    def lose_reader(self, is_full: bool) -> None:
        process = self.chance.choice(self.chance.choice((list(self.machines.values()), self.masters, self.agents)))
        self.after_a_while(functools.partial(self.spoil_pipe, process, self.give_pipe(process), is_full))

    def close_half(self) -> None:
        """A client of a machine and one of an agent say behind what they ask that they will ask no more. The machine answers that."""
        machine, (listens, _, port) = self.chance.choice(list(self.machines.values())), self.agent().listens.partition(":")
        address, running = self.chance.choice((machine.address, ("127.0.0.1", SESSIONS))), machine.running
        with contextlib.suppress(OSError), hosts.inside(machine.host.space):  # it may be down
            self.await_answer(machine, running, HalfClosed(address, b"now\nnow\n"), time.monotonic() + ANSWERED_S)
        with contextlib.suppress(OSError), hosts.inside(self.hosts[ASKING].space):
            client = HalfClosed((listens, int(port)), b"PUT /keys/half HTTP/1.0\r\nContent-Length: 1\r\n\r\n1")
            self.after_a_while(client.close)

    def await_answer(self, machine: UnitMachine, running: subprocess.Popen, client: HalfClosed, last: float) -> None:
        """Both lines of a client that has closed its half are answered, and the connection ends, where the machine lives on."""
        client.look()
        is_answered = client.is_over and client.answer.count(b"\n") == 2
        if not is_answered and self.lives_on(machine, running) and time.monotonic() < last:
            self.later.append((time.monotonic() + WAIT_S, functools.partial(self.await_answer, machine, running, client, last)))
            return
        client.close()
        if not is_answered and self.lives_on(machine, running):
            self.wrong.append(f"{machine.name}: a client that closed its half has {client.answer!r}, and the end {client.is_over}")

    @staticmethod
    def lives_on(process: OnHost, running: subprocess.Popen) -> bool:
        """Whether a process is still in this life."""
        return process.running is running and running.poll() is None

    def fill_state(self) -> None:
        """The machine on the small disk is started again while that is full. Where it ends, its epoch has to stand as it was."""
        machine, epoch = self.machines[SMALL_DISK], self.state_disk.path("epoch")
        with machine.lock:
            machine.kill()
            before = read(epoch)
            self.state_disk.fill()
            machine.start()
            with contextlib.suppress(subprocess.TimeoutExpired):
                machine.running.wait(1)
            if machine.has_ended() and read(epoch) != before:
                self.wrong.append(f"the epoch {before} became {read(epoch)} on a full disk")
            self.state_disk.free()
            machine.restart()

    def fill_disk(self) -> None:
        """There is no room for a machine's status, evidence and shared file for a while. It may be started there without that file, and is where
        the same life has told of that before: it tells again after 10 seconds."""
        name, machine = self.chance.choice(list(self.machines.items()))
        disk, since, unwritten = self.disks[name], time.time_ns(), UNWRITTEN
        if disk.is_full:
            return
        with machine.lock:
            if self.chance.random() < 0.5 or disk.life is machine.running:
                machine.kill()
                with contextlib.suppress(FileNotFoundError):
                    os.remove(machine.path("shared"))
                unwritten = (*UNWRITTEN, "sharing_ended")
            disk.fill()
            machine.start()
            disk.life = machine.running
            self.after_a_while(functools.partial(self.free_disk, machine, machine.running, since, unwritten))

    def free_disk(self, machine: UnitMachine, running: subprocess.Popen, since: int, unwritten: typing.Sequence[str]) -> None:
        """Where it lives on with a log, it says what it could not write, the status alone where too few masters may answer; and when there is room
        again it shares its time again. A draft that a life before has left makes room for the shared file as it is removed."""
        disk, lives_on = self.disks[machine.host.name], self.lives_on(machine, running)
        if not self.router.is_plain or self.unplugged or self.down or any(master.lies for master in self.masters):
            unwritten = unwritten[:1]
        if machine.shared_life() == machine.life():
            unwritten = [event for event in unwritten if event != "sharing_ended"]
        if lives_on and not machine.pipe and (unsaid := [event for event in unwritten if not machine.said_since(event, since)]):
            if time.time_ns() < since + SAID_S * SECOND:
                disk.fill()
                self.later.append((time.monotonic() + WAIT_S, functools.partial(self.free_disk, machine, running, since, unwritten)))
                return
            self.wrong.append(f"{machine.name} does not say {' and '.join(unsaid)} on a full disk")
        disk.free()
        if lives_on:
            self.sharing.append((machine, running, time.monotonic() + SHARED_S))

    def is_awaited(self, machine: UnitMachine, running: subprocess.Popen, last: float) -> bool:
        """Whether a life goes on that does not share its time yet."""
        if not self.lives_on(machine, running) or machine.sum_of("truetime_sharing"):
            return False
        if time.monotonic() > last:
            self.wrong.append(f"{machine.name} does not share its time, though there is room again")
            return False
        return True

    def rotate_key(self) -> None:
        """The key of a and m0 is rolled over."""
        old, self.key = self.key, self.key + NEXT_KEY
        try:
            rollover.replace_key(Quickly(self, {}, lambda _: None), self, old, self.key, is_revoked=False, soon_s=BACK_S)
        except Fault as fault:
            self.wrong.append(f"the key {old} is not rolled over: {fault}")


def is_at_work(process: OnHost, since: float) -> bool:
    """Whether a machine answers, or a master has written its status since then."""
    if not isinstance(process, Machine):
        return os.path.getmtime(process.status_path) > since
    with contextlib.suppress(OSError), truetime.Session(process.address, 5) as session:
        with contextlib.suppress(truetime.Refused):
            session.now()
        return True
    return False


class Quickly(rollover.Steps):
    """Steps one right after the other."""

    @contextlib.contextmanager
    def step(self, what: str, restarts: str = "") -> typing.Iterator[None]:
        yield


#: What is done again and again in each phase, and once as it begins.
PHASES = {
    "quiet": (),
    "liars": ("lie", "lie", "be_honest"),
    "ways": ("delay", "lose", "cut", "unplug", "cut_members", "heal"),
    "kills": ("kill_machine", "kill_master", "kill_agent", "kill_host", "kill_member", "end_agent"),
    "stops": ("stop_machine", "stop_master", "stop_agent", "stop_host", "stop_member"),
    "clocks": ("turn_clock", ),
    "files": ("close_pipe", "fill_pipe", "close_half", "fill_state", "fill_disk", "end_agent"),
    "keys": (),
    "wild clock": (),
    "sleep": (),
    "steps": (),
    "everything": (*ACTS, "kill_agent", "stop_agent", "end_agent", "kill_host", "stop_host", "kill_member", "stop_member", "stop_machine",
                   "stop_master", "cut_members", "close_pipe", "fill_pipe", "close_half", "fill_state", "fill_disk"),
}
ONCE = {"keys": "rotate_key", "wild clock": "run_wild", "sleep": "sleep", "steps": "step_all"}
