"""Runs the time service as processes, with clients, and tries what its users rely on.

The clients run for 20 seconds, or as many as --seconds says. Three masters, one of them a second ahead, and two machines run on loopback. All the while

- twelve clients read and commit on both machines, over TCP and the Unix sockets: each reading has to hold a time between two looks at
  the real-time clock around it, each stamp has to lie between the looks around its commit, and the judge has to find no commit out of order;
- one machine is killed and started again five times, and each life has to have a greater epoch than those before;
- 200 clients come in turn, and three bad ones: one says nothing, one never reads, one sends a byte a second;
- `ttd read`, `ttd ask` and the readers of clients/ have to say the same of a publication;
- status and log have to name the master that is ahead, `tools/ask_master` has to show how far, and each socket has to be at 127.0.0.1.

Then all masters stand still for 1.3 seconds, and may leave no trace in later rounds; and a client of each worker breaks off during its
commit wait, and the next client has to be served at once. A session's lease has to hold for its stamps alone. Memory, descriptors and
threads have to be those of the beginning, and a machine has to end within a second of the end of its input, with sessions open.
"""
import collections
import contextlib
import os
import signal
import socket
import subprocess
import time
from concurrent.futures import ProcessPoolExecutor, ThreadPoolExecutor

from harness.faults import reset
from harness.processes import SECOND, WORKERS, raw_ns, truetime
from harness.program import in_top, read, run as run_once
from harness.shared_file import index_in, slots_in
from harness.suite import Suite
from harness.users import come_in_turn, latest_of, never_read, places_for, reply_to, say_nothing, send_slowly, use
from suites.clients import probes

suite = Suite(__name__)
CLIENTS, KILLS, IN_TURN = 12, 5, 200
# 127.0.0.1, as the kernel writes it on a machine whose lowest byte comes first.
LOOPBACK = "0100007F"
#: Who reads by CLOCK_MONOTONIC: the second base of a publication.
BY_MONOTONIC = "Java", "Go"
#: How many fields of a publication readers show: all but its clock.
SHOWN = 8


# Readers of the shared file, and the commands that read.

def compare_readers(trial, readers, machine, end):
    """Lets every reader read the file while it is written, and once while the machine stands still; what is wrong. A reader is its name,
    the words that start it, and whether it gives the publication or a reading."""
    wrong, compared = [], collections.Counter()
    with machine.client() as client:
        while time.monotonic() < end:
            for reader in readers:
                before, after, fault = compare(reader, machine, client)
                if after.number <= before.number + 1:  # else it may have read one between them
                    compared[reader[0]] += 1
                    wrong += fault
        machine.running.send_signal(signal.SIGSTOP)
        for reader in readers:
            wrong += compare(reader, machine, client)[2]
        machine.running.send_signal(signal.SIGCONT)
    trial.note(f"readers compared, {', '.join(f'{name} {number}' for name, number in compared.items())}, and each once more")
    return wrong


def compare(reader, machine, client):
    """The publications before and after this reader reads, and what is wrong if there was none between them."""
    name, words, gives_publication = reader
    path = machine.path("shared")
    published = (lambda: by_second_base(path)) if name in BY_MONOTONIC else client.read
    before, began = published(), raw_ns()
    said = run([*words, path])
    ended, after = raw_ns(), published()
    fits = is_publication if gives_publication else is_reading
    if any(fits(said, published, began, ended) for published in (before, after)):
        return before, after, []
    return before, after, [f"{name}: {said!r} from {began} to {ended}, between {before} and {after}"]


def by_second_base(path):
    """The last publication of a file, as readers by CLOCK_MONOTONIC have it."""
    while True:
        whole = read(path)
        for slot in slots_in(whole):
            if slot.index == index_in(whole) == index_in(read(path)):
                return truetime.Publication(slot.second_clock, slot.second_lo, slot.second_hi, slot.second_until, slot.second_usable, slot.epoch,
                                            slot.number, slot.second_drift)


def is_publication(said, published, *_):
    return said == " ".join(map(str, ("published", *published[:SHOWN])))


def is_reading(said, published, began, ended):
    """Whether it is the publication's reading at some moment from the beginning to the end."""
    first, last = (published.read_at(max(moment, published.clock_ns)) for moment in (began, ended))
    words = said.split()
    return (len(words) == 3 and words[0] == "now" and first.earliest_ns <= int(words[1]) <= last.earliest_ns
            and first.latest_ns <= int(words[2]) <= last.latest_ns)


def run(words, status=0):
    ran = run_once(words)
    return ran.said.strip() if ran.status == status else f"status {ran.status}: {ran.said}{ran.error}"


def ask(program, machine):
    """The command `ask`; what is wrong."""
    address, before = f"127.0.0.1:{machine.address[1]}", time.time_ns()
    now, commit = (run([program, "ask", address, *words]).split() for words in (["now"], ["commit", "1", "0"]))
    after, wrong = time.time_ns(), []
    if not (len(now) == 3 and now[0] == "now" and int(now[1]) <= after and before <= int(now[2])):
        wrong.append(f"ask now: {now}")
    if not (len(commit) == 3 and commit[:2] == ["committed", "1"] and before <= int(commit[2]) <= after):
        wrong.append(f"ask commit 1 0: {commit}")
    if "status" in (said := run([program, "ask", "127.0.0.1:1", "now"], 4)):
        wrong.append(f"ask where nobody listens: {said}")
    return wrong


# The machines.

class World:
    """The masters, and two machines over them: one that is killed, and one that is kept."""
    offsets = 0, 0, SECOND

    def __init__(self, trial):
        self.masters = [trial.master(source, offset) for source, offset in enumerate(self.offsets)]
        self.killed, self.kept = trial.fleet(dict.fromkeys("AB", self.masters), poll="200ms", idle="3s").values()
        for machine in (self.killed, self.kept):
            machine.use_all_workers()
        self.before = {machine: machine.resources() for machine in (self.killed, self.kept)}


@suite.shares
def world(trial):
    yield World(trial)


def kill_again_and_again(trial, machine, end):
    """Kills the machine and starts it again; what is wrong."""
    lives = [int(fields["epoch"]) for fields in machine.said("started")]
    for left in range(KILLS, 0, -1):
        time.sleep(max(0, (end - time.monotonic()) / (left + 0.5)))
        machine.restart()
        machine.wait_until_ready()
    time.sleep(0.5)  # the line of the last start may be written after the first answer
    epochs = [int(fields["epoch"]) for fields in machine.said("started")]
    wrong = [] if len(epochs) == len(lives) + KILLS else [f"{len(epochs)} lives are in the log"]
    wrong += [f"epoch {second} behind epoch {first}" for first, second in zip(epochs, epochs[1:]) if second <= first]
    if (epoch := machine.status()["truetime_epoch"]) != epochs[-1]:
        wrong.append(f"epoch {epoch} in the status, {epochs[-1]} in the log")
    trial.note(f"epochs {' '.join(map(str, epochs))}")
    return wrong


@suite.case()
def clients(trial):
    """All that use the service at once, while one machine is killed again and again."""
    killed, kept = trial.shared.killed, trial.shared.kept
    readers = [*((name, [*words, "open"], True) for name, words in probes(trial.room)), ("ttd read", [trial.program, "read"], False)]
    end = time.monotonic() + (trial.options.seconds or 20)
    with ProcessPoolExecutor(CLIENTS) as processes, ThreadPoolExecutor() as threads:
        users = [processes.submit(use, places_for(number, (killed, kept)), number, end, 5) for number in range(CLIENTS)]
        visitors = threads.submit(come_in_turn, kept.address, IN_TURN, 5)
        tasks = [threads.submit(call, kept.address, 20) for call in (say_nothing, never_read, send_slowly)]
        tasks += [threads.submit(compare_readers, trial, readers, kept, end), threads.submit(ask, trial.program, kept)]
        yield from kill_again_and_again(trial, killed, end)
        for task in tasks:
            yield from task.result()
        seen = [user.result() for user in users]
    yield from visitors.result().wrong
    if visitors.result().readings < IN_TURN:
        yield "a client that came in turn was not served"
    yield from judge_users(trial, seen)


def judge_users(trial, seen):
    """What is wrong with what the clients saw."""
    history = [commit[1:] for one in seen for commit in one.commits]
    refused = sum((one.refused for one in seen), collections.Counter())
    trial.note(f"{sum(one.readings for one in seen)} readings, {len(history)} commits, {sum(one.lost for one in seen)} sessions lost, "
               f"refused {dict(refused)}")
    for one in seen:
        yield from one.wrong
    if violations := trial.judge(history):
        yield f"{violations} commits are out of order"
    if not all(one.readings and one.commits for one in seen):
        yield "a client has not read or not committed"


@suite.case()
def liar(trial):
    """The status and the log have to name the master that is a second ahead."""
    machine = trial.shared.kept
    status, suspects = machine.status(), {fields["source"] for fields in machine.said("source_suspect")}
    numbers = [status[f"truetime_sources{kind}"] for kind in ("", "_known")]
    numbers += [status[f'truetime_source_suspect{{source="{source}"}}'] for source in range(3)]
    trial.equal("sources, known, each suspect, and those in the log", (numbers, suspects), ([3, 3, 0, 0, 1], {"2"}))


@suite.case()
def ask_master(trial):
    """`tools/ask_master` has to give an interval that holds the time by which the master is off."""
    for source, (master, offset) in enumerate(zip(trial.shared.masters, World.offsets)):
        before, words = time.time_ns() + offset, [in_top("tools/ask_master"), master.address]
        low, high, ahead, took = map(int, run([*words, str(source)]).split())
        if not (before <= high and low <= time.time_ns() + offset and abs(ahead - offset) <= took + (high - low) // 2 and took < SECOND):
            yield f"source {source}: {low} {high} {ahead} {took}"
        if "timed out" not in (said := run([*words, str(source + 1)], 1)) and "status" in said:
            yield f"another source than {source}: {said}"


@suite.case()
def addresses(trial):
    """Each socket of the service has an address of the loopback."""
    addresses = {}
    for table in ("tcp", "tcp6", "udp", "udp6"):
        with contextlib.suppress(FileNotFoundError), open(f"/proc/net/{table}", encoding="ascii") as file:
            for fields in map(str.split, list(file)[1:]):
                addresses[f"socket:[{fields[9]}]"] = table, fields[1].split(":")[0]
    for process in (*trial.shared.masters, trial.shared.killed, trial.shared.kept):
        folder, seen = f"/proc/{process.running.pid}/fd", 0
        for name in os.listdir(folder):
            with contextlib.suppress(FileNotFoundError):
                table, address = addresses.get(os.readlink(os.path.join(folder, name)), ("", ""))
                seen += address == LOOPBACK
                if table and (table[3:] or address != LOOPBACK):
                    yield f"{process.name} has a socket of {table} at {address}"
        if not seen:
            yield f"{process.name} has no socket of the loopback"


@suite.case()
def masters_that_stand_still(trial):
    """All of them do, for a while. Their late answers may not count in later rounds, nor widen them."""
    machine = trial.shared.kept
    width = machine.status()["truetime_width_seconds"]
    for number in (signal.SIGSTOP, signal.SIGCONT):
        for master in trial.shared.masters:
            master.running.send_signal(number)
        time.sleep(1.3)
    looks = [machine.status()]
    time.sleep(1)
    looks.append(machine.status())
    refused, later = ([look[f"truetime_{name}"] for look in looks] for name in ("answers_refused_total", "width_seconds"))
    trial.note(f"masters stood still: width {width}, then {later[0]} and {later[1]}; answers refused {refused[0]}, then {refused[1]}")
    is_mended = refused[0] == refused[1] and 100 * (later[1] - width) <= 1
    trial.holds(is_mended, f"machine {machine.name} has not recovered")


@suite.case()
def leases(trial):
    """Leases of sessions. A refused lease changes nothing, and a lease holds for its session alone."""
    machine = trial.shared.kept
    with truetime.Session(machine.address, 5) as one, truetime.Session(machine.address, 5) as other:
        # A span that ends before it begins, one past the greatest time, and one that is over.
        lines = ["lease 7 6", f"lease 0 {2**64 - 1}", "lease 0 1", "commit 1 0", "lease 1 0", "commit 1 0"]
        wanted = ["refused 101", "refused 102", "leased 0 1", "refused 903", "refused 101", "refused 903"]
        # One that begins too far ahead, by the setting of a second, and one that begins in half a second.
        far = time.time_ns() + 60 * SECOND
        replies = [reply_to(one, line) for line in (*lines, f"lease {far} {far + SECOND}", "commit 1 0")]
        latest = latest_of(one)
        lo, hi = latest + SECOND // 2, latest + SECOND
        replies.append(reply_to(one, f"lease {lo} {hi}"))
        wanted += [f"leased {far} {far + SECOND}", "refused 1821", f"leased {lo} {hi}"]
        free, bound = (int(reply_to(session, "commit 1 0").split()[2]) for session in (other, one))
    trial.equal("leases", replies, wanted)
    trial.holds(latest <= free < lo <= bound <= hi,
                f"after the latest {latest}, the stamps {free} without a lease and {bound} in the lease {lo} to {hi}")
    trial.note(f"{len(replies)} replies to leases of sessions, and one stamp within a lease")


@suite.case()
def leaving_in_the_wait(trial):
    """A client of each worker breaks off during its commit wait. The next client is to be served at once. Later stamps are above their floors."""
    machine = trial.shared.kept
    with truetime.Session(machine.address, 5) as session:
        floor = session.now().latest_ns + SECOND * 9 // 10
    doors = [socket.create_connection(machine.address) for _ in range(WORKERS // 2)]
    for door in doors:
        door.sendall(f"commit 1 {floor}\n".encode())
    time.sleep(0.1)
    for door in doors:
        reset(door)
    began = time.monotonic()
    with truetime.Session(machine.address, 5) as session:
        session.now()
    took = time.monotonic() - began
    trial.note(f"served {took:.3f} seconds after all clients had broken off in their waits")
    trial.holds(took < 0.4, f"a worker was free only {took:.2f} seconds after its client had broken off")


@suite.case()
def resources(trial):
    """Memory, descriptors and threads are those of the beginning."""
    time.sleep(0.5)
    for machine, before in trial.shared.before.items():
        said, is_more = machine.keeps_more(before, machine.resources())
        trial.note(said)
        trial.holds(not is_more, f"machine {machine.name} keeps memory, descriptors or threads")


@suite.case()
def end(trial):
    """The end of the input of the machine, with sessions open."""
    machine = trial.shared.kept
    sessions = [truetime.Session(machine.address, 5) for _ in range(4)]
    for session in sessions:
        session.now()
    with machine.client() as client:
        began = time.monotonic()
        machine.running.stdin.close()
        try:
            status = machine.running.wait(10)
        except subprocess.TimeoutExpired:
            yield "the machine does not end with its input"
            return
        took = time.monotonic() - began
        if client.now().fresh:
            yield "the shared file is fresh after the end"
    trial.note(f"ended {took:.2f} seconds after its input")
    for session in sessions:
        session.close()
    if took > 1 or status != 0 or not machine.said("ended"):
        yield f"the end took {took:.2f} seconds, with status {status}:\n{machine.end_of_log()}"
