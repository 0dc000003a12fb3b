"""Opens many sessions on a machine of the time service at once.

- 2,000 on four workers, which have room for 1,280: a new one takes the place of the one that has been silent for longest, of those without a
  pending commit and without replies to take, and nobody else is closed. 10,000 on 32 workers: each answers, soon, and takes little memory; in
  the end all is as before.
- A new one comes to the worker that has the fewest, also after others have left, and of 300 at once none is forgotten.
- Sessions of one worker do not wait for each other: not for commits that wait, nor for a client that sends urgent bytes or reads nothing, and
  that loses no reply.
- Lines that come in pieces, or before the client closes its side, are answered. A client is let go after `idle` without a whole line.
- A machine with 500 sessions ends soon. One session more than there are workers is served at once, and so are those behind it.
- Where a call of the system fails, as the cases in sessions_of_failures.py say, nobody is left without a reply and without an end.

How long something takes is printed. The bounds leave room for a busy host, and to some is added for how long machine and users could run
and had no processor; where one was passed, the case is tried once more alone.
"""
import contextlib
import itertools
import os
import re
import resource
import selectors
import signal
import socket
import statistics
import subprocess
import time

from harness.faults import reset
from harness.processes import SECOND, WORKERS, free_port
from harness.suite import Suite
from harness.trial import Trial
from harness.users import is_closed_within

#: How many sessions a worker has at most, as docs/FORMATS.md says.
MOST = 320
MANY = 10_000
#: How many descriptors `MANY` sessions take, with what else is open, here and in the machine.
DESCRIPTORS = 11_000
MILLISECOND = SECOND // 1000


class Machines(Trial):
    """Machines, each with room for many descriptors."""

    def running_node(self, masters, name="A", **settings):
        _, most = resource.getrlimit(resource.RLIMIT_NOFILE)
        resource.setrlimit(resource.RLIMIT_NOFILE, (most, most))  # the machine has it from here
        return super().running_node(masters, name, **{"socket": None, "floor_ahead": "10s", **settings})

    def node_of_two(self):
        """A machine with one worker for each of two addresses."""
        return self.running_node(self.masters(3), workers=2, socket=os.path.join(self.room, "A", "socket"))


suite = Suite(__name__, Machines, at_once=4, longest_s=120, again=1)


@suite.last_line
def last_line(results):
    return f"{len(results)} scenarios, {sum(bool(result.wrong) for result in results)} wrong"


class Door:
    """A connection, which sends lines and has their replies."""

    def __init__(self, doors, address, seconds=5.0):
        is_unix = isinstance(address, str)
        self.door = doors.enter_context(socket.socket(socket.AF_UNIX if is_unix else socket.AF_INET))
        self.door.settimeout(seconds)
        self.door.connect(address)
        if not is_unix:
            self.door.setsockopt(socket.IPPROTO_TCP, socket.TCP_NODELAY, 1)
        self.came = b""

    def send(self, text):
        self.door.sendall(text)

    def reply(self):
        """The next line; "" at the end."""
        while b"\n" not in self.came:
            if not (more := self.door.recv(65536)):
                return ""
            self.came += more
        line, _, self.came = self.came.partition(b"\n")
        return line.decode()

    def ask(self, line):
        self.send(f"{line}\n".encode())
        return self.reply()

    def now(self):
        """What is wrong with a reading, or nothing; and how many nanoseconds it took."""
        before, began = time.time_ns(), time.monotonic_ns()
        word, *ends = self.ask("now").split()
        took, after = time.monotonic_ns() - began, time.time_ns()
        if word != "now" or len(ends) != 2 or int(ends[0]) > after or int(ends[1]) < before:
            return f"the reading {word} {ends} between {before} and {after}", took
        return "", took

    def is_open(self):
        """Whether it has its reply, and is not closed."""
        try:
            return not self.now()[0]
        except (OSError, ValueError):
            return False


def wrong_in(doors):
    """What is wrong with a reading of each of these, and how long they took, in nanoseconds."""
    readings = [door.now() for door in doors]
    return [what for what, _ in readings if what][:3], sorted(took for _, took in readings)


def median_and_tail(took):
    """The median, and what 99 of 100 are within."""
    return statistics.median(took), took[len(took) * 99 // 100]


def in_us(times):
    return " and ".join(f"{took / 1000:.0f}" for took in times)


# Many sessions.

@suite.case()
def the_most_silent_makes_room(trial):
    node = trial.running_node(trial.masters(3), workers=4)
    with contextlib.ExitStack() as stack:
        doors = [Door(stack, node.address) for _ in range(4 * MOST)]
        if lost := sum(not door.is_open() for door in doors):
            yield f"{lost} of {len(doors)} are not served"
        # The four with commits and the four behind them are the most silent: the commits stay pending for all of this, unless the host is busy.
        floor = time.time_ns() + 9 * SECOND
        for number, door in enumerate(doors[4:12], 4):
            if (said := door.ask(f"commit 1 {floor}" if number < 8 else "now")).split()[0] != ("waiting" if number < 8 else "now"):
                yield f"session {number} has the reply {said!r}"
        for door in doors[:4] + doors[12:]:
            door.now()
        yield from node.comes_to("sessions_open", 4 * MOST, 1)
        one_more = Door(stack, node.address)
        if what := one_more.now()[0]:
            yield what
        closed = [number for number, door in enumerate(doors[:12]) if is_closed_within(door.door, 0.01)]
        if len(closed) != 1 or not 8 <= closed[0] < 12:
            yield f"of the first twelve {closed} were closed, and one of those from 8 to 11 is wanted"
        left = [door for number, door in enumerate(doors) if number not in closed and not 4 <= number < 8] + [one_more]
        if lost := sum(not door.is_open() for door in left):
            yield f"{lost} others were closed"
        yield from node.comes_to("sessions_open", 4 * MOST, 1)
        # They share the workers evenly: each is open until it has had its first line.
        more = [Door(stack, node.address) for _ in range(2000 - 4 * MOST - 1)]
        if lost := sum(not door.is_open() for door in more):
            yield f"{lost} of {len(more)} new sessions were closed, though others were silent for longer"
        open_now = sum(door.is_open() for door in left + more)
        if time.time_ns() >= floor:
            trial.note("the host was too busy to see that pending commits keep their sessions")
            return
        if open_now != 4 * MOST - 4:
            yield f"{open_now} of 2,000 sessions are open beside four with commits, and {4 * MOST - 4} are wanted"
        for number, door in enumerate(doors[4:8]):
            if not door.ask("now").startswith("now "):
                yield f"session {number + 4}, whose commit is pending, is closed"


@suite.case()
def who_reads_nothing_keeps_its_place(trial):
    """In a full worker, here of the Unix socket, no session makes room that has replies to take, though it has been silent for longest."""
    node = trial.node_of_two()
    lines = b"now\n" * 20_000  # more replies than the system keeps
    with contextlib.ExitStack() as stack:
        first = Door(stack, node.path("socket"))
        first.send(lines)
        give_up = time.monotonic() + 30
        while idle_cost(node) > SECOND // 10 and time.monotonic() < give_up:
            pass  # it goes on with lines until their replies wait
        doors = [Door(stack, node.path("socket")) for _ in range(MOST - 1)]
        yield from wrong_in(doors)[0]
        yield from wrong_in([Door(stack, node.path("socket"))])[0]
        if (closed := [number for number, door in enumerate(doors[:3]) if is_closed_within(door.door, 0.05)]) != [0]:
            yield f"of the three behind it {closed} were closed, and the first one is wanted"
        first.door.shutdown(socket.SHUT_WR)
        if (replies := sum(1 for _ in iter(first.reply, ""))) != 20_000:
            yield f"it has {replies} replies to 20,000 lines"


@suite.case()
def the_worker_with_the_fewest(trial):
    """It has the next session. Those that have left do not count."""
    node = trial.running_node(trial.masters(3), workers=4, poll="20ms", wait="20ms")
    yield from node.comes_to("sessions_total", 1, 1)  # that of the start
    with contextlib.ExitStack() as stack:
        yield from wrong_in([Door(stack, node.address)])[0]
        for _ in range(3):
            yield from node.comes_to("sessions_open", 1, 1)
            with contextlib.ExitStack() as leaves:
                yield from wrong_in([Door(leaves, node.address) for _ in range(3)])[0]
                yield from node.comes_to("workers_busy", 4, 1)


@suite.case()
def more_than_may_wait(trial):
    """Of 300 that come while the only worker waits for another one 256 wait for it, and the others once it has taken these. A status is not always of
    that moment."""
    node = trial.running_node(trial.masters(3), workers=2, socket=os.path.join(trial.room, "A", "socket"), poll="20ms", wait="20ms")
    with contextlib.ExitStack() as stack:
        first = Door(stack, node.path("socket"))
        for _ in range(4):
            with contextlib.ExitStack() as leaves:
                first.now()
                doors = [first] + [Door(leaves, node.path("socket")) for _ in range(300)]
                end, most = time.monotonic() + 0.25, 0
                while time.monotonic() < end:
                    most = max(most, (node.status_or_none() or {}).get("truetime_connections_waiting", 0))
                if most > 256:
                    yield f"{most} wait"
                yield from node.comes_to("sessions_open", 301, 2)
                yield from wrong_in(doors)[0]
            yield from node.comes_to("sessions_open", 1, 2)


@suite.case(programs=("prlimit",))
def more_than_may_wait_within_few_descriptors(trial):
    """So it is where 200 descriptors leave each of two workers room for 12 that wait: 30 have come before it looks, also on a busy host."""
    node = trial.node(trial.masters(3), workers=2)
    node.run(["prlimit", "--nofile=200:200"])
    node.wait_until_ready()
    for address in (node.address, node.path("socket")) * 2:
        yield from node.comes_to("sessions_open", 0, 2)
        with contextlib.ExitStack() as stack:
            first = Door(stack, address)
            first.now()
            doors = [first] + [Door(stack, address) for _ in range(30)]
            yield from node.comes_to("sessions_open", 31, 2)
            yield from wrong_in(doors)[0]


@suite.case(quiet=True, programs=("prlimit",))
def more_than_may_wait_beside_the_socket(trial):
    """While more have come at the address than may wait, one that comes at the Unix socket is served at once, in one of four tries at least."""
    node, took = trial.node(trial.masters(3), workers=2), []
    node.run(["prlimit", "--nofile=200:200"])
    node.wait_until_ready()
    for _ in range(4):
        yield from node.comes_to("sessions_open", 0, 2)
        with contextlib.ExitStack() as stack:
            Door(stack, node.address).now()  # its worker waits for it alone from here on
            for _ in range(30):
                Door(stack, node.address)
            began = time.monotonic_ns()
            yield from wrong_in([Door(stack, node.path("socket"))])[0]
            took.append(time.monotonic_ns() - began)
    if min(took) > 60 * MILLISECOND:
        yield f"it is served after {in_us(took)} us"


@suite.case(quiet=True)
def first_come_first_served(trial):
    """Those that come while their worker waits for another one are served in the order in which they came, in one of three tries at least."""
    node = trial.node_of_two()
    for address in (node.address, node.path("socket")):
        tries = []
        while len(tries) < 3 and not any(times == sorted(times) for times in tries):
            with contextlib.ExitStack() as stack:
                yield from wrong_in([Door(stack, address)])[0]
                doors = []
                for _ in range(20):
                    doors.append(Door(stack, address))
                    doors[-1].send(b"now\n")
                tries.append([int(door.reply().split()[1]) for door in doors])
            yield from node.comes_to("sessions_open", 0, 1)
        if not any(times == sorted(times) for times in tries):
            yield f"at {address} they have the readings {tries[-1]}"


def measure(doors, rounds):
    """The least median and tail of a line over some rounds, and what is wrong."""
    found, wrong = [], []
    for _ in range(rounds):
        faults, took = wrong_in(doors)
        wrong += faults
        found.append(median_and_tail(took))
    return tuple(map(min, zip(*found))), wrong


def measure_beside(doors, others, times):
    """The least median and tail of a line, those of a neighbour, and what is wrong. On a busy host it goes on for some rounds, until a line takes
    at most so many times as long as the neighbour's, and its tail ten milliseconds more."""
    for rounds in range(3, 16, 3):
        then, wrong = measure(doors, rounds)
        beside, faults = measure(others, rounds)
        if wrong or faults or (then[0] <= times * beside[0] and then[1] <= times * beside[1] + 10 * MILLISECOND):
            break
    return then, beside, wrong + faults


@suite.case(quiet=True, missing=lambda: "" if resource.getrlimit(resource.RLIMIT_NOFILE)[1] >= DESCRIPTORS else
            f"it wants {DESCRIPTORS} descriptors (ulimit -Hn)")
def ten_thousand(trial):
    """Little memory and little time for each; and nothing of them is left. On a busy host it takes over a minute to open them."""
    masters = trial.masters(3)
    node, neighbour = (trial.running_node(masters, name, workers=WORKERS, idle="600s") for name in "AB")
    with contextlib.ExitStack() as stack:
        few = [Door(stack, node.address) for _ in range(WORKERS)]
        others = [Door(stack, neighbour.address) for _ in range(WORKERS)] * 16
        wrong, _ = wrong_in(few)
        yield from wrong
        few_memory, _, _ = node.resources()
        began = time.monotonic()
        doors = few + [Door(stack, node.address) for _ in range(MANY - WORKERS)]
        wrong, _ = wrong_in(doors)
        yield from wrong
        took = time.monotonic() - began
        yield from node.comes_to("sessions_open", MANY, 2)
        then, beside, wrong = measure_beside(doors[::MANY // 500], others, 4)
        yield from wrong
        memory, descriptors, _ = node.resources()
        of_one = (memory - few_memory) * 1024 / (MANY - WORKERS)
        trial.note(f"{MANY} sessions, opened and asked in {took:.1f} s; a line takes {in_us(then)} us (median, 99th percentile), and "
                   f"{in_us(beside)} with {WORKERS}; {of_one:.0f} bytes of memory each, {memory} KiB in all")
        if of_one > 4096:
            yield f"{of_one:.0f} bytes of memory for each session"
        if descriptors < MANY:
            yield f"{descriptors} descriptors"
        if then[0] > 4 * beside[0] or then[1] > 4 * beside[1] + 10 * MILLISECOND:
            yield f"a line takes {in_us(then)} us with {MANY} sessions, and {in_us(beside)} with {WORKERS}"
        if not (idle := idle_cost(node)) < SECOND // 5:
            yield f"{idle // MILLISECOND} ms of processor time in a second in which no line comes"
        for door in doors:
            reset(door.door)
    yield from node.comes_to("sessions_open", 0, 3)
    yield from node.comes_to("workers_busy", 0, 1)
    with contextlib.ExitStack() as stack:
        doors = [Door(stack, node.address) for _ in range(WORKERS)]
        others = [Door(stack, neighbour.address) for _ in range(WORKERS)] * 16
        again, beside, wrong = measure_beside(doors * 16, others, 3)
        yield from wrong
        left = node.resources()
        trial.note(f"after them a line takes {in_us(again)} us, and {left[0]} KiB are in use")
        if left[1] > descriptors - MANY + WORKERS:
            yield f"{left[1]} descriptors are left, of which {WORKERS} are of sessions"
        if again[0] > 3 * beside[0]:
            yield f"a line takes {in_us(again)} us after them, and {in_us(beside)} at a neighbour"
    yield from node.answers()


def idle_cost(node):
    """The processor time of a second, in nanoseconds."""
    before = node.processor_ns()
    time.sleep(1)
    return node.processor_ns() - before


@suite.case(quiet=True)
def one_more_than_workers(trial):
    """It is served soon though each worker waits for one session alone, and then all are served at once."""
    node = trial.running_node(trial.masters(3), workers=WORKERS)
    with contextlib.ExitStack() as stack:
        doors = [Door(stack, node.address) for _ in range(WORKERS)]
        for _ in range(3):
            wrong, _ = wrong_in(doors)
            yield from wrong
            time.sleep(0.1)
        one_more, before = Door(stack, node.address), node.held_up_ns()
        what, first = one_more.now()
        took = sorted(one_more.now()[1] for _ in range(200))
        wrong, of_others = wrong_in(doors * 4)
        held_up = node.held_up_ns() - before
        yield from [what, *wrong] if what else wrong
        trial.note(f"its first line took {first / MILLISECOND:.0f} ms, others {in_us(median_and_tail(took))} us (median, 99th percentile), those of others "
                   f"{in_us(median_and_tail(of_others))}")
        if first > 300 * MILLISECOND + held_up or max(median_and_tail(took)[1], median_and_tail(of_others)[1]) > 10 * MILLISECOND + held_up:
            yield f"its first line took {first // MILLISECOND} ms, others up to {took[-1] // MILLISECOND} ms, those of others {of_others[-1] // MILLISECOND} ms"


@suite.case(quiet=True)
def a_worker_that_is_shared(trial):
    """While as many sessions are open as there are workers, after more were, a new one need not wait until another has sent something."""
    node = trial.node_of_two()
    for address in (node.address, node.path("socket")):
        with contextlib.ExitStack() as stack:
            first, took = Door(stack, address), []
            for _ in range(4):
                wrong, _ = wrong_in([first])  # a worker that is not shared waits for it again from here on
                with contextlib.ExitStack() as leaves:
                    what, nanoseconds = Door(leaves, address).now()
                    yield from [what, *wrong] if what else wrong
                    took.append(nanoseconds)
                    time.sleep(0.03)
                yield from node.comes_to("sessions_open", 1, 1)
            if max(took[1:]) > 150 * MILLISECOND:
                yield f"at {address} new sessions were answered after {in_us(took)} us, and all but the first one are to be at once"
        yield from node.comes_to("sessions_open", 0, 1)


# One worker.

@suite.case(quiet=True)
def commits_wait_side_by_side(trial):
    """A hundred on one worker take about as long as one, and another session is answered meanwhile."""
    node = trial.running_node([trial.master(source, 0, 100_000_000) for source in range(3)], workers=1)
    with contextlib.ExitStack() as stack:
        doors, other = [Door(stack, node.address) for _ in range(100)], Door(stack, node.address)
        alone, before = released(doors[:1], other)[1], node.held_up_ns()
        stamps, took, of_other = released(doors, other)
        held_up = node.held_up_ns() - before
        trial.note(f"one commit took {alone:.3f} s, {len(doors)} at once {took:.3f} s; a line of another session meanwhile "
                   f"{in_us(median_and_tail(of_other))} us (median, 99th percentile)")
        if len(set(stamps)) != len(doors):
            yield f"{len(set(stamps))} stamps of {len(doors)} commits"
        if alone < 0.1 or took > 1.5 * alone + 0.5 + held_up / SECOND:
            yield f"{len(doors)} commits took {took:.2f} seconds, and one alone {alone:.2f}"
        if statistics.median(of_other) > 10 * MILLISECOND + usual(held_up, of_other) or of_other[-1] > 200 * MILLISECOND + held_up:
            yield f"a line took {in_us(median_and_tail(of_other))} us meanwhile, and at most {of_other[-1] // MILLISECOND} ms"


def usual(held_up, took):
    """By how much the median of these may be greater where the host is busy: four times as much as each was held up, if all were alike."""
    return 4 * held_up // len(took)


def released(doors, other):
    """Commits on all of these, each asked for again as long as it waits: the stamps, how long it took, and how long lines of the other took
    meanwhile."""
    stamps, of_other, began = [], [], time.monotonic()
    with selectors.DefaultSelector() as selector:
        for door in doors:
            selector.register(door.door, selectors.EVENT_READ, door)
            door.send(b"commit 1 0\n")
        while len(stamps) < len(doors) and time.monotonic() < began + 20:
            for key, _ in selector.select(0.005):
                word, _, stamp = key.data.reply().split()
                if word == "committed":
                    stamps.append(int(stamp))
                else:
                    key.data.send(b"commit 1 0\n")
            of_other.append(other.now()[1])
    return stamps, time.monotonic() - began, sorted(of_other)


@suite.case(quiet=True)
def commits_with_far_floors(trial):
    """While it waits a line is answered after about 50 milliseconds, where its session is alone and where it is not, and takes little processor
    time. One that is cut, and many behind one another, keep nobody waiting, and a session whose client is gone is ended."""
    node = trial.running_node(trial.masters(3), workers=1)
    for others in (0, 3):
        with contextlib.ExitStack() as stack:
            yield from node.comes_to("sessions_open", 0, 1)
            for _ in range(others):
                Door(stack, node.address).now()
            door, line = Door(stack, node.address), f"commit 1 {time.time_ns() + 9 * SECOND}"
            door.ask(line)
            first, before = time.monotonic_ns(), node.processor_ns()
            for _ in range(3):
                began = time.monotonic()
                said, took = door.ask(line).split()[0], time.monotonic() - began
                if said != "waiting" or not 0.02 <= took <= 0.2:
                    yield f"beside {others} others a line is answered by {said!r} after {took:.3f} seconds"
            worked, passed = node.processor_ns() - before, time.monotonic_ns() - first
            if worked > passed // 3:
                yield f"beside {others} others {worked // MILLISECOND} ms of processor time in {passed // MILLISECOND} ms in which a line waits"
            other, worst = Door(stack, node.address), []
            for _ in range(2):
                for piece in (line[:1], f"{line[1:]}\n{line}\n"):
                    door.send(piece.encode())
                    time.sleep(0.005)
                worst.append(max(other.now()[1] for _ in range(30) if not time.sleep(0.004)))
                door.reply()
                door.reply()
            if min(worst) > 20 * MILLISECOND:
                yield f"beside {others} others a line of another session takes {in_us(worst)} us behind two that wait, one of them in two pieces"
            door.send(f"{line}\n".encode() * 100)
            time.sleep(0.02)
            what, took = Door(stack, node.address).now()
            if what or took > 300 * MILLISECOND:
                yield f"{what} a new session is answered after {took // MILLISECOND} ms"
            reset(door.door)
            yield from node.comes_to("commits_waiting", 0, 1)
            yield from node.comes_to("sessions_open", others + 2, 1)


@suite.case(programs=("ss",))
def kernel_memory_of_who_reads_nothing(trial):
    """The kernel keeps at most 64 KiB of a session over TCP that sends lines and reads no reply, each way together."""
    node, sessions = trial.running_node(trial.masters(3), workers=2), 40
    with contextlib.ExitStack() as stack:
        doors = [stack.enter_context(socket.socket()) for _ in range(sessions)]
        for door in doors:
            door.setsockopt(socket.SOL_SOCKET, socket.SO_RCVBUF, 2304)
            door.connect(node.address)
            door.setblocking(False)
        for _ in range(40):
            for door in doors:
                with contextlib.suppress(BlockingIOError):
                    door.send(b"now\n" * 4096)
            time.sleep(0.02)
        ran = subprocess.run(["ss", "-tmnH", "state", "established", f"( sport = :{node.address[1]} )"], capture_output=True, text=True, check=True)
        kept = [int(got) + int(sent) for got, sent in re.findall(r"skmem:\(r(\d+),.*?,w(\d+),", ran.stdout)]
        trial.note(f"the kernel keeps {max(kept, default=0) // 1024} KiB of a session at most, {sum(kept) // 1024} KiB of {len(kept)}")
        if len(kept) < sessions or sum(kept) < sessions * 4096 or max(kept) > 65536:
            yield f"of {len(kept)} sessions it keeps {sum(kept)} bytes, of one {max(kept, default=0)}"


@suite.case(quiet=True)
def many_that_read_nothing(trial):
    """Of one worker, whose sockets fill together: no line of another session waits until each of them has waited."""
    node, sessions = trial.running_node(trial.masters(3), workers=1), 150
    with contextlib.ExitStack() as stack:
        other, doors = Door(stack, node.address), [stack.enter_context(socket.socket()) for _ in range(sessions)]
        for door in doors:
            door.setsockopt(socket.SOL_SOCKET, socket.SO_RCVBUF, 2304)
            door.connect(node.address)
            door.setblocking(False)
        took, sent, longest = [], 0, 0
        for _ in range(60):
            for door in doors:
                with contextlib.suppress(BlockingIOError):
                    sent += door.send(b"\n" * 2048)
            before = node.held_up_ns()
            what, nanoseconds = other.now()
            longest = max(longest, nanoseconds + before - node.held_up_ns())
            took.append(nanoseconds)
            if what:
                yield what
        took.sort()
        trial.note(f"beside {sessions} that send {sent // sessions} lines each and read nothing a line takes {in_us(median_and_tail(took))} us (median, 99th "
                   f"percentile), at most {longest // MILLISECOND} ms but for want of a processor")
        # A write that waits for a millisecond takes four at least: 150 of them are over half a second. A program without proofs takes about as
        # long for the lines alone.
        if longest > 100 * MILLISECOND and not trial.program.endswith(".unproved"):
            yield f"a line takes {longest // MILLISECOND} ms beside {sessions} that read nothing, but for want of a processor"


@suite.case(quiet=True)
def a_client_that_reads_nothing(trial):
    """It does not keep its worker, and has all its replies once it reads."""
    node = trial.running_node(trial.masters(3), workers=1)
    with contextlib.ExitStack() as stack:
        other = Door(stack, node.address)
        door = stack.enter_context(socket.socket())
        door.setsockopt(socket.SOL_SOCKET, socket.SO_RCVBUF, 4096)
        door.connect(node.address)
        door.setblocking(False)
        lines, sent, took, began, before = b"now\n" * 4096, 0, [], time.time_ns(), node.held_up_ns()
        end = time.monotonic() + 1.5
        while time.monotonic() < end:
            with contextlib.suppress(BlockingIOError):
                sent += door.send(lines[sent % 4:])
            what, nanoseconds = other.now()
            took.append(nanoseconds)
            if what:
                yield what
        took.sort()
        held_up = node.held_up_ns() - before
        time.sleep(0.3)  # nothing more is taken of it now
        before = node.held_up_ns()
        wrong, later = wrong_in([other] * 100)
        held_later = node.held_up_ns() - before
        yield from wrong
        door.setblocking(True)
        door.settimeout(10)
        door.shutdown(socket.SHUT_WR)  # a part of a line at the end has no reply
        replies = door.makefile("rb").read()
        trial.note(f"{sent // 4} lines; a line of another session took {in_us(median_and_tail(took))} us (median, 99th percentile) meanwhile, and "
                   f"{in_us(median_and_tail(later))} later")
        readings = replies.decode().splitlines()
        if sent < 4000 or len(readings) != sent // 4 or not replies.endswith(b"\n"):
            yield f"{sent // 4} lines have {len(readings)} replies"
        yield from other_replies(readings, began, time.time_ns())
        if (statistics.median(took) > 5 * MILLISECOND + usual(held_up, took) or took[-1] > 100 * MILLISECOND + held_up
                or statistics.median(later) > 2 * MILLISECOND + usual(held_later, later)):
            yield (f"a line of another session took {in_us(median_and_tail(took))} us, and at most {took[-1] // MILLISECOND} ms; and "
                   f"{in_us(median_and_tail(later))} us where nothing more was taken of the client that reads nothing")


@suite.case(quiet=True)
def urgent_bytes(trial):
    """Who sends them keeps its session, and holds no other one of its worker up: of the Unix socket they make a connection ready that has no bytes."""
    node = trial.node_of_two()
    for address in (node.address, node.path("socket")):
        with contextlib.ExitStack() as stack:
            other, *doors = (Door(stack, address) for _ in range(4))
            yield from wrong_in([other, *doors])[0]
            took = []
            for _ in range(9):
                for door in doors:
                    with contextlib.suppress(OSError):  # a kernel may have none for Unix sockets
                        door.door.send(b"n", socket.MSG_OOB)
                what, nanoseconds = other.now()
                took.append(nanoseconds)
                if what:
                    yield what
            took.sort()
            trial.note(f"beside urgent bytes at {address} a line takes {in_us(median_and_tail(took))} us (median, 99th percentile)")
            if took[0] > 150 * MILLISECOND:  # a read that waits does so for 200
                yield f"a line takes {in_us(took)} us beside sessions of {address} that send urgent bytes"
            yield from wrong_in(doors)[0]


def other_replies(replies, began, ended):
    """The first of these that is no reading of a time in between."""
    for number, reply in enumerate(replies):
        word, *ends = reply.split()
        if word != "now" or len(ends) != 2 or not int(ends[0]) <= int(ends[1]) or int(ends[0]) > ended or int(ends[1]) < began:
            yield f"reply {number} is {reply!r} between {began} and {ended}"
            return


# Lines in pieces.

@suite.case()
def all_replies_and_then_the_end(trial):
    """Of a client that sends many lines at once, and of one that closes its side behind them, where it is alone and where it is not, also behind
    a commit. That is refused to nobody who closed its side within `idle`."""
    node, words = trial.running_node(trial.masters(3), workers=1), {b"now": {"now"}, b"commit": {"waiting", "committed", "refused"}}
    for others, closes in itertools.product((0, 5), (False, True)):
        with contextlib.ExitStack() as stack:
            for _ in range(others):
                Door(stack, node.address).now()
            later = b"commit 1 %d\n" % (time.time_ns() + SECOND // 4)
            for lines in (b"now\n" * 1000, b"now\ncommit 1 0\n" + b"now\n" * 300, b"commit 1 0\n" * 20, later * 6, b"now\nno"):
                door = Door(stack, node.address)
                door.send(lines)
                wanted = [words[line.split()[0]] for line in lines.splitlines(keepends=True) if line.endswith(b"\n")]
                if closes:
                    door.door.shutdown(socket.SHUT_WR)
                replies = list(iter(door.reply, "")) if closes else [door.reply() for _ in wanted]
                is_right = len(replies) == len(wanted) and all(reply.split()[0] in word for reply, word in zip(replies, wanted))
                if not is_right or "refused 1822" in replies:
                    yield f"{lines[:30]}.. beside {others} others has {len(replies)} replies: {replies[:3]} .. {replies[-3:]}"
        yield from node.comes_to("sessions_open", 0, 1)


@suite.case()
def lines_in_pieces(trial):
    """Single bytes, and lines that are cut amid a commit, of several sessions of one worker in turn."""
    node = trial.running_node(trial.masters(3), workers=1)
    for number in (1, 7):
        with contextlib.ExitStack() as stack:
            doors = [Door(stack, node.address) for _ in range(number)]
            for byte in b"now\ncommit 1 0\nnow\n":
                for door in doors:
                    door.send(bytes([byte]))
                time.sleep(0.002)
            for door in doors:
                words = [door.reply().split()[0] for _ in range(3)]
                if words not in (["now", "waiting", "now"], ["now", "committed", "now"]):
                    yield f"of {number} sessions: {words} of single bytes"
            for at in range(1, 23):
                lines = b"now\ncommit 2 0\ncommit 2 0\nnow\n"
                for door in doors:
                    door.send(lines[:at])
                time.sleep(0.002)
                for door in doors:
                    door.send(lines[at:])
                for door in doors:
                    words = [door.reply().split()[0] for _ in range(4)]
                    said = words[-1], set(words[1:3]) <= {"waiting", "committed", "refused"}, words[0]
                    if said != ("now", True, "now"):
                        yield f"of {number} sessions: {words} where the lines are cut at {at}"
                    while door.ask("commit 2 0").startswith("waiting"):
                        pass


@suite.case()
def a_machine_that_is_stopped(trial):
    """And goes on at once: that interrupts what waits. Nobody is closed, neither a session alone nor several of one worker, whether silent, in
    the midst of a line or with a commit that waits; so it is of who looks at its pages and asks its masters, and of new ones."""
    masters, port = trial.masters(3), free_port(socket.SOCK_STREAM)
    node = trial.running_node(masters, workers=1, poll="200ms", http=f"127.0.0.1:{port}")
    for number in (1, 3):
        with contextlib.ExitStack() as stack:
            doors = [Door(stack, node.address) for _ in range(number)]
            page = Door(stack, ("127.0.0.1", port))
            page.send(b"GET /health HTTP/1.1\r\n")
            for door, words in zip(doors, (b"", b"no", f"commit 1 {time.time_ns() + SECOND}\n".encode())):
                door.send(words)
            for sent in 20 * (signal.SIGSTOP, signal.SIGCONT):
                for process in (*masters, node):
                    process.running.send_signal(sent)
                time.sleep(0.02)  # the first of two signals at once would be lost
            for door, words, wanted in zip(doors, (b"now\n", b"w\n", b"commit 1 0\n"), ("now", "now", "waiting committed")):
                door.send(words)
                said = door.reply().split()[:1]
                if said[:1] != wanted.split()[:1]:
                    yield f"of {number} sessions one has {said} in place of {wanted}"
            page.send(b"\r\n")
            if not page.reply().startswith("HTTP/1.1 200"):
                yield f"beside {number} sessions the page is not there"
            if wrong := Door(stack, node.address).now()[0]:
                yield f"a new session beside {number}: {wrong}"


@suite.case()
def requests_of_http(trial):
    """A session whose first line is that of a request ends behind its refusal, and no line of its body is heard, also where it comes in pieces:
    a commit there holds nobody's commit up. Another first line that is refused, or such a line later, ends no session."""
    node = trial.running_node(trial.masters(3), workers=1)
    body = b"Host: 127.0.0.1:5601\r\nContent-Type: text/plain\r\n\r\ncommit 1 %d\nnow\n"
    firsts = ((b"POST / HTTP/1.1\r\n", "1101"), (b"GET /now HTTP/1.0\n", "1101"), (b"PRI * HTTP/2.0\r\n", "1101"),
              (b"POST /%s HTTP/1.1\r\n" % (b"a" * 700), "1102"))
    with contextlib.ExitStack() as stack:
        other = Door(stack, node.address)
        for number, ((first, refusal), piece) in enumerate(itertools.product(firsts, (4096, 1))):
            door, text = Door(stack, node.address), first + body % (time.time_ns() + 9 * SECOND)
            with contextlib.suppress(OSError):
                for at in range(0, len(text), piece):
                    door.send(text[at:at + piece])
                    if piece == 1:
                        time.sleep(0.0005)
            replies = []
            with contextlib.suppress(OSError):
                while reply := door.reply():
                    replies.append(reply)
            if replies != [f"refused {refusal}"]:
                yield f"{first[:40]} in pieces of {piece} has the replies {replies}"
            if not is_closed_within(door.door, 1):
                yield f"{first[:40]} in pieces of {piece} ends no session"
            began = time.monotonic()
            while not (said := other.ask(f"commit {number + 1} 0")).startswith("committed"):
                if not said.startswith("waiting") or time.monotonic() > began + 3:
                    yield f"behind {first[:40]} in pieces of {piece} a commit of another has {said!r} after {time.monotonic() - began} s"
                    break
        # What came behind the line is taken, so that the connection ends and is not broken off.
        with socket.create_connection(node.address, 5) as door:
            door.sendall(b"POST / HTTP/1.1\r\n" + b"a" * 6000)
            said = b"".join(iter(lambda: door.recv(100), b""))
            time.sleep(0.1)
            if (said, error := door.getsockopt(socket.SOL_SOCKET, socket.SO_ERROR)) != (b"refused 1101\n", 0):
                yield f"a line with a long body has {said!r}, and its connection ends with the error {error}"
        for lines in (b"nonsense\nnow\n", b"GET /now\nnow\n", b"now HTTP/1.1 \nnow\n", b"HTTP/1.1\nnow\n", b"now\nGET / HTTP/1.1\r\nnow\n", b"\nGET / HTTP/1.1\nnow\n"):
            door = Door(stack, node.address)
            door.send(lines)
            words = [door.reply().split()[0] for _ in range(lines.count(b"\n"))]
            if words.count("refused") < 1 or words[-1] != "now" or not door.is_open():
                yield f"{lines} has the replies {words}"


# Clients that say nothing, and the end.

@suite.case()
def silent_clients_are_let_go(trial):
    """After `idle` without a whole line, where they are alone and where they are not, also where nobody else of their worker sends anything; one that
    sends lines stays."""
    for workers in (1, 8):
        folder = os.path.join(trial.room, "AB"[workers > 1])
        node = trial.running_node(trial.masters(3), "AB"[workers > 1], workers=2 * workers, socket=os.path.join(folder, "socket"), idle="1s")
        with contextlib.ExitStack() as stack:
            silent, partial, steady = (Door(stack, node.address) for _ in range(3))
            one, other = (Door(stack, node.path("socket")) for _ in range(2))
            began, ends = time.monotonic(), {}
            steady.now()
            while time.monotonic() < began + 3.2:
                time.sleep(0.05)
                for name, door, text in (("silent", silent, b""), ("partial", partial, b"n"), ("first of two", one, b""), ("second of two", other, b"")):
                    if name not in ends:
                        with contextlib.suppress(OSError):
                            door.send(text)
                        if is_closed_within(door.door, 0.01):
                            ends[name] = time.monotonic() - began
                if what := steady.now()[0]:
                    yield what
            for name in ("silent", "partial", "first of two", "second of two"):
                if not 0.95 <= ends.get(name, 0) <= 2.8:
                    yield f"with {workers} workers the {name} client was let go after {ends.get(name)} seconds, and idle is one"
            if not steady.is_open():
                yield "the client that sends lines is let go"


@suite.case(quiet=True)
def end_with_many_sessions(trial):
    """Some commits are pending, some lines are held back, and some clients read nothing."""
    node = trial.running_node(trial.masters(3), workers=8)
    with contextlib.ExitStack() as stack:
        doors = [Door(stack, node.address) for _ in range(500)]
        far = time.time_ns() + 9 * SECOND
        for number, door in enumerate(doors):
            door.send((b"now\n", b"commit 1 %d\n" % far, b"commit 1 %d\n" % far * 50, b"no", b"now\n" * 5000)[number % 5])
        time.sleep(0.3)
        yield from node.ends(2)
        if lost := sum(not is_closed_within(door.door, 1) for door in doors):
            yield f"{lost} connections are open behind the end"
