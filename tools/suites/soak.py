"""Runs the time service under faults, and judges all that its clients saw by the real-time clock.

It goes on for a minute, or as many seconds as --seconds says; --number of its clients are in Python, 8 where it is left out. The same seed
makes the same faults. Five masters run on loopback, of which two may lie, and two machines. A relay between them loses, delays, repeats,
reorders and spoils packets. Clients in Python and C read and commit on both machines, over TCP, the Unix sockets and the shared
files, over which those in C take stamps, too. All the while, by the seed,

- a machine or a master is killed and started again, or is stopped for up to five seconds;
- a master begins to lie, or is honest again, within its uncertainty;
- strangers flood a machine or a master with packets;
- clients say nothing or half a line, never read, send a byte a second, or connect 1,000 times;
- a second process is started with a machine's configuration; and the disk under an epoch is full, where a tmpfs can be mounted.

Each reading has to hold a time between two looks at the real-time clock around it, each stamp to lie between them, no commit may be out
of order (`ttd judge`), no stamp and no epoch of a machine may come twice, each client has to have an answer or a closed
connection, and memory, descriptors and threads have to be those of a fresh start in the end.
"""
import collections
import contextlib
import errno
import os
import random
import signal
import socket
import subprocess
import threading
import time
from concurrent.futures import ProcessPoolExecutor, ThreadPoolExecutor

from harness.program import WARNINGS, compile_c, read, read_text, run
from harness.relay import Relay
from harness.suite import Suite, seeds, wrong_in
from harness.users import come_in_turn, never_read, places_for, read_shared, say_nothing, send_slowly, use

suite = Suite(__name__, quick=False, beside_s=67)
SOURCES, LIARS = 5, 2
UNCERTAINTY = 1_000_000
IDLE_S, LONGEST_STOP_S = 5, 5
# A commit may wait for a stop, then as long again, since an answer that came across the stop is as wide, and then for one more stop.
TIMEOUT_S = 5 * LONGEST_STOP_S
# A life that has heard of a liar whose packet was spoiled, and not yet of each honest source, may have a right reading that is years wide:
# a stamp by it would have all later ones wait as long. So no wider reading is used.
MAX_WIDTH = "1s"
# The users of a machine in C: sessions, over TCP and the Unix socket, stampers over the shared file, the pause behind each commit, and who gives the
# stamps of sessions.
SESSIONS, STAMPERS, PAUSE_MS, OF_SESSIONS = 2, 1, 5, "0"


def plan_of(chance, seconds, liars):
    """The faults: when each comes, its name, and its numbers."""
    now = 1.0
    while now < seconds - LONGEST_STOP_S:
        name = chance.choice(list(Faults.ALL))
        yield now, name, chance.randrange(2), chance.randrange(SOURCES), chance.choice(liars), chance.random(), chance.randrange(2**32)
        now += chance.uniform(0.1, 1.0)


class Faults:
    """What is done to the service. Each fault has a machine, a source, a liar, and numbers of its own."""

    def __init__(self, masters, machines, disk, threads):
        self.masters, self.machines, self.disk, self.threads = masters, machines, disk, threads
        self.tasks, self.timers, self.counts, self.wrong = [], [], collections.Counter(), []

    def do(self, name, machine, source, liar, part, seed):
        self.counts[name] += 1
        Faults.ALL[name](self, self.machines[machine], source, liar, part, random.Random(seed))

    def end(self):
        """Waits for the bad clients, and lets all go on that was stopped; what is wrong."""
        for timer in self.timers:
            timer.join()
        return self.wrong + [fault for task in self.tasks for fault in task.result()]

    def kill_machine(self, machine, *_):
        machine.restart()

    def kill_master(self, _, source, *__):
        self.masters[source].restart()

    def stop(self, process, part):
        running = process.running
        running.send_signal(signal.SIGSTOP)
        timer = threading.Timer(part * LONGEST_STOP_S, running.send_signal, [signal.SIGCONT])
        timer.start()
        self.timers.append(timer)

    def stop_machine(self, machine, _, __, part, ___):
        self.stop(machine, part)

    def stop_master(self, _, source, __, part, ___):
        self.stop(self.masters[source], part)

    def lie(self, _, __, liar, ___, chance):
        size = 10 ** chance.randrange(4, 12)
        self.masters[liar].restart_with(chance.choice((-1, 1)) * chance.randrange(size))

    def be_honest(self, _, source, __, ___, chance):
        """Off by half of its uncertainty at most: the rest is for the host's clock."""
        self.masters[source].restart_with(chance.randrange(-UNCERTAINTY // 2, UNCERTAINTY // 2))

    def flood(self, machine, source, __, ___, chance):
        """Packets of strangers for a master, and for the machine where it asks from."""
        targets = [("127.0.0.1", int(self.masters[source].address.split(":")[1])),
                   *(channel.machine for channel in machine.channels if channel.machine)]
        with socket.socket(socket.AF_INET, socket.SOCK_DGRAM) as door:
            for _ in range(1000):
                head = chance.choice((b"TTP1\2", b"TTP2\2", b"TTP2\1", b"", b"TTP"))
                with contextlib.suppress(OSError):
                    door.sendto(head + chance.randbytes(chance.choice((0, 11, 19, 35, 60, 1000))), chance.choice(targets))

    def visit(self, call, *words):
        self.tasks.append(self.threads.submit(call, *words))

    def say_nothing(self, machine, _, __, part, ___):
        self.visit(say_nothing, machine.address, IDLE_S + 2 * LONGEST_STOP_S, b"" if part < 0.5 else b"commit 1")

    def never_read(self, machine, *_):
        self.visit(never_read, machine.address, 10 + 2 * LONGEST_STOP_S)

    def send_slowly(self, machine, *_):
        self.visit(send_slowly, machine.address, TIMEOUT_S)

    def connect_often(self, machine, *_):
        self.visit(lambda: come_in_turn(machine.address, 1000, TIMEOUT_S).wrong)

    def start_a_second(self, machine, *_):
        """A second process with the same configuration has to end at once, with a refusal, while the first one runs."""
        first, second = machine.running, run([machine.program, *machine.words], seconds=10, stderr=subprocess.STDOUT)
        if second.status is None:
            self.wrong.append("a second process with the same configuration does not end")
        if second.status == 0 and first.poll() is None:
            self.wrong.append(f"a second process ran beside the first: {second.said}")
        try:
            with socket.socket(socket.AF_UNIX) as door:
                door.connect(machine.path("socket"))
        except OSError as fault:
            self.wrong.append(f"a second process took the socket of the first: {fault}")

    def fill_disk(self, *_):
        """Starts the machine on the small disk again while that is full. Where it ends, its epoch has to stand as it was."""
        if not self.disk:
            return
        machine, fill, epoch = self.machines[0], os.path.join(self.disk, "fill"), os.path.join(self.disk, "epoch")
        machine.kill()
        before = read(epoch)
        with open(fill, "wb", buffering=0) as file:
            try:
                while file.write(bytes(512)):
                    pass
            except OSError as fault:
                if fault.errno != errno.ENOSPC:
                    raise
        machine.start()
        with contextlib.suppress(subprocess.TimeoutExpired):
            machine.running.wait(1)
        if machine.running.poll() is not None and read(epoch) != before:
            self.wrong.append(f"the epoch {before} became {read(epoch)} on a full disk")
        os.remove(fill)
        machine.restart()

    ALL = {call.__name__: call for call in (kill_machine, kill_master, stop_machine, stop_master, lie, be_honest, flood, say_nothing, never_read,
                                            send_slowly, connect_often, start_a_second, fill_disk)}


def mount_small_disk(trial):
    """Mounts a tmpfs of 64 KiB, until the case ends; its place, where that can be done."""
    place = os.path.join(trial.room, "disk")
    os.mkdir(place)
    if run(["mount", "-t", "tmpfs", "-o", "size=64k", "none", place]).status != 0:
        trial.note("no disk will be full: a tmpfs cannot be mounted")
        return None
    trial.processes.callback(subprocess.run, ["umount", place], check=True)
    return place


class Clients:
    """The good clients: sessions in Python, readers of the shared files, and clients in C."""

    def __init__(self, processes, room, machines, end, seconds, seed, number):
        pause_s = min(0.02, seconds / 200_000)
        self.sessions = [processes.submit(use, places_for(client, machines), seed + client, end, TIMEOUT_S, pause_s) for client in range(number)]
        self.sessions += [processes.submit(read_shared, machine.path("shared"), end) for machine in machines]
        self.made, self.in_c = compile_c("users", room, *WARNINGS, "-std=gnu11", "-pthread"), {}
        for machine in machines:
            words = [self.made, str(int(end - time.monotonic())), str(machine.address[1]), machine.path("socket"), machine.path("shared"),
                     str(SESSIONS), str(STAMPERS), str(PAUSE_MS), OF_SESSIONS]
            with open(f"{self.made}-{machine.name}", "wb") as said:
                self.in_c[machine.name] = subprocess.Popen(words, stdout=said)

    def end(self, trial):
        """The commits of all as the machine, began, ended and stamp, and what is wrong."""
        commits, wrong, readings, lost, refused = [], [], 0, 0, collections.Counter()
        for client in self.sessions:
            seen = client.result()
            commits += seen.commits
            wrong += seen.wrong
            readings, lost, refused = readings + seen.readings, lost + seen.lost, refused + seen.refused
        for name, client in self.in_c.items():
            client.wait(60)
            for word, *rest in map(str.split, read_text(f"{self.made}-{name}").splitlines()):
                if word == "commit":
                    commits.append((name if rest[3] == OF_SESSIONS else f"{name}, stamper {rest[3]}", *map(int, rest[:3])))
                elif word == "seen":
                    readings, lost = readings + int(rest[1]), lost + int(rest[3])
                else:
                    wrong.append("C: " + " ".join(rest))
        trial.note(f"{readings} readings, {len(commits)} commits, {lost} sessions lost, refused {dict(refused)}")
        return commits, wrong


def repeated(commits):
    """The stamps that a machine gave twice."""
    counts = collections.Counter((machine, stamp) for machine, _, _, stamp in commits)
    return [f"machine {machine} gave the stamp {stamp} {number} times" for (machine, stamp), number in counts.items() if number > 1]


def judge_machine(trial, machine):
    """Compares what a machine holds with what it holds after a new start, and looks at its epochs; what is wrong."""
    used = machine.resources()
    machine.restart()
    machine.use_all_workers()
    said, is_more = machine.keeps_more(machine.resources(), used)
    epochs = [int(fields["epoch"]) for fields in machine.said("started")]
    trial.note(f"{said} before that; {len(epochs)} lives, epochs {epochs[0]} to {epochs[-1]}")
    trial.holds(not is_more, f"machine {machine.name} keeps memory, descriptors or threads")
    return [f"machine {machine.name}: epoch {second} behind {first}" for first, second in zip(epochs, epochs[1:]) if second <= first]


def start_all(trial, relay, liars, chance):
    """The masters, and the machines, each with ways of its own to the masters."""
    disk, masters, machines = mount_small_disk(trial), [trial.master(source, 0, UNCERTAINTY) for source in range(SOURCES)], []
    for place, (name, state) in enumerate({"A": {"state": disk} if disk else {}, "B": {}}.items()):
        channels = [relay.channel(master.address, source in liars, chance.random()) for source, master in enumerate(masters)]
        machines.append(trial.machine(name, place, [channel.address for channel in channels], poll="100ms", idle=f"{IDLE_S}s", max_width=MAX_WIDTH,
                                      **state))
        machines[-1].channels = channels
    for machine in machines:
        machine.use_all_workers()
    return disk, masters, machines


@suite.case()
def all_faults(trial):
    seconds, seed, number = trial.options.seconds or 60, trial.seed(), trial.options.number or 8
    chance = random.Random(seed)
    liars = chance.sample(range(SOURCES), LIARS)
    with Relay() as relay:
        disk, masters, machines = start_all(trial, relay, liars, chance)
        begun = time.monotonic()
        with ProcessPoolExecutor(number + 2) as processes, ThreadPoolExecutor(64) as threads:
            clients = Clients(processes, trial.room, machines, begun + seconds, seconds, seed, number)
            faults = Faults(masters, machines, disk, threads)
            for at, *fault in plan_of(chance, seconds, liars):
                time.sleep(max(0, begun + at - time.monotonic()))
                faults.do(*fault)
            yield from faults.end()
            commits, wrong = clients.end(trial)
        trial.note(", ".join(f"{name} {number}" for name, number in sorted(faults.counts.items())))
        yield from [*wrong, *repeated(commits)]
        if violations := trial.judge([commit[1:] for commit in commits]):
            yield f"{violations} commits are out of order"
        if len(commits) < 10 * seconds:
            yield f"{len(commits)} commits are few"
        for machine in machines:
            yield from judge_machine(trial, machine)


@suite.last_line
def last_line(results):
    return f"{seeds(results)}{wrong_in(results)} wrong"
