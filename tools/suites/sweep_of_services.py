"""The services for the suite `sweep`: lives of `serve` and `master`, and runs of `ask` and `read`, in each of which calls of one kind fail.

`serve` has clients over TCP and its Unix socket, each with readings, commits and a lease, then readers of its shared file, and is ended by the
end of its input; `serve again` begins with the files of a life that was killed. Where one call fails, the start may refuse by a number that
docs/reference/refusals.md has for it, with its status; else the life has to go on: a client may be told of the failure or lose its connection, and is
served when it comes again; publications have to come, each reading has to hold the time, no commit may be out of order, and the end has to be in
order, with the epoch and the shared file as they should be. Where a kind of call fails for good, nothing may be wrong, and the end is the same;
where a signal ends a call, no client may know of it.
"""
import collections
import contextlib
import dataclasses
import os
import random
import re
import shutil
import signal
import socket
import struct
import subprocess
import tempfile
import time
from concurrent.futures import ProcessPoolExecutor

from harness import wire
from harness.processes import Fault, Machine, Service, truetime
from harness.program import read, run as run_once
from harness.users import Seen

# How many run at once, how long one may take, and after how long no more is begun, in seconds.
AT_ONCE, LONGEST_S, ALL_S = 8, 10, 18
# Where there are more calls of a kind than the first number, so many of the first ones are tried, so many of the last, and so many between
# them by chance. The first allocations of a second life are those of the first.
MOST_ALLOCATIONS, MOST_AGAIN, MOST_OTHERS = (150, 60, 50, 30), (0, 0, 90, 0), (40, 20, 5, 15)
# How often a kind of call fails for good, from a call on by chance, and how often a signal ends a call of each of these kinds.
LASTING, LASTING_ALLOCATIONS, SIGNALS = 4, 20, 4
ENDED_BY_SIGNALS = "FAIL_RECV", "FAIL_SEND", "FAIL_RECVFROM", "FAIL_SENDTO", "FAIL_ACCEPT4", "FAIL_EPOLL_WAIT", "FAIL_POLL"
UNCERTAINTY, SOURCE, POLLS = 1_000_000, 5, 4
LEASE = "0 4000000000000000000"
COUNT = struct.Struct("24sQ")
LOG_LINE = re.compile(rb"time=[-0-9]{10}T[:0-9]{8}\.[0-9]{9}Z level=(info|warn|error) event=[a-z_]+( [a-z_]+=[0-9]+| text=\"[^\"]+\"| address=[^ ]+)*\Z|ttd: ")
DEVICES = {803, 1501, 1604, 1605, 1701, 1807, 1808, 1809, 1811, 1812, 1830}

# What may be refused at the start where a call of this kind fails. Memory that a thread wants may show as 1816.
SERVE = {
    "REFUSE": {1, 1816}, "FAIL_READ": {1604, 1811}, "FAIL_WRITE": {1812}, "FAIL_OPEN": {1604, 1811, 1812},
    "FAIL_STATX": {1604, 1809, 1811, 1812}, "FAIL_MKDIR": {1812}, "FAIL_FLOCK": {1812}, "FAIL_FSYNC": {1812}, "FAIL_RENAME": {1812},
    "FAIL_UNLINK": {1809, 1812}, "FAIL_SOCKET": {1807, 1808, 1809}, "FAIL_BIND": {1807, 1808, 1809}, "FAIL_LISTEN": {1807, 1809},
    "FAIL_CONNECT": {1809}, "FAIL_SETSOCKOPT": {1807}, "FAIL_GETSOCKNAME": {1808}, "FAIL_IOCTL": {1807, 1808, 1809}, "FAIL_EPOLL_CREATE1": {1807, 1808},
    "FAIL_EPOLL_CTL": {1807, 1808, 1809}, "FAIL_EVENTFD": {1807, 1808}, "FAIL_PTHREAD_CREATE": {1816},
}
MASTER = {"REFUSE": {1, 1816}, "FAIL_OPEN": {1604}, "FAIL_SOCKET": {1501}, "FAIL_BIND": {1501}, "FAIL_GETSOCKNAME": {1501},
          "FAIL_SETSOCKOPT": {1501}, "FAIL_PTHREAD_CREATE": {1816}}
ASK = {"REFUSE": {1}, "FAIL_READ": {1604}, "FAIL_OPEN": {1604}, "FAIL_WRITE": (), "else": {1501}}
CHECK = {"REFUSE": {1}, "FAIL_WRITE": (), "FAIL_OPEN": {1604, 1811, 1812}, "FAIL_STATX": {1604, 1809, 1811, 1812}, "FAIL_READ": {1604, 1811},
         "else": {1604}}
READ = {"REFUSE": {1}, "FAIL_OPEN": {1604, 1701}, "FAIL_CLOCK_GETTIME": {803}, "FAIL_WRITE": (), "else": {1701}}
# What a client of a life may be told, beside 801 before the first publication.
TOLD = {"REFUSE": {1}, "FAIL_CLOCK_GETTIME": {803}}
# Where it is not known that the Unix socket is its own, or it cannot be removed, it stays.
SOCKET_STAYS = "FAIL_STATX", "FAIL_UNLINK"


class Counts:
    """The file in which fail_calls.c counts the calls of a process. It is in memory: none waits for a disk."""

    def __init__(self):
        self.file = os.memfd_create("count")
        self.path = f"/proc/{os.getpid()}/fd/{self.file}"

    def begin(self):
        os.pwrite(self.file, bytes(COUNT.size * 64), 0)

    def read(self):
        """How many calls there were of each kind."""
        records = COUNT.iter_unpack(os.pread(self.file, COUNT.size * 64, 0))
        return {name.rstrip(b"\0").decode(): calls for name, calls in records if name[0]}

    def close(self):
        os.close(self.file)


def status_of(number):
    """The status of the program behind `refused N`."""
    return 1 if number == 1 else 4 if number in DEVICES else 2


@dataclasses.dataclass
class Place:
    """The program, the library before it and the room, where a machine and masters are that live through all of it, the files of an earlier
    life, what `serve --check` says of the machine, and when nothing more is begun."""
    program: str
    library: str
    room: str
    masters: list
    address: str = ""
    socket: str = ""
    shared: str = ""
    earlier: str = ""
    outline: bytes = b""
    until: float = float("inf")


@dataclasses.dataclass
class Outcome:
    """What came of a life or a run in which the call of this kind failed that has this number, or all from there on (+), or a signal
    ended it (!)."""
    service: str
    kind: str
    number: str
    counts: dict = dataclasses.field(default_factory=dict)  # the calls of each kind
    told: str = ""
    wrong: list = dataclasses.field(default_factory=list)
    late: list = dataclasses.field(default_factory=list)  # what a busy host may have caused
    seen: Seen = dataclasses.field(default_factory=Seen)

    def is_lasting(self):
        return self.number.endswith("+")

    def is_ended_by_signal(self):
        return self.number.endswith("!")

    def keep_refusal(self, number, allowed, status, errors):
        """It refused with this number; these are allowed by the kind of call that failed."""
        self.told = f"refused {number}"
        allowed = () if self.is_ended_by_signal() else allowed.get(self.kind, allowed.get("else", ()))
        if number not in allowed and (self.kind, number) != ("FAIL_WRITE", 1605):
            self.wrong.append(f"refused {number}")
        if status != status_of(number):
            self.wrong.append(f"status {status} behind refused {number}")
        # Where writing fails for good, the sentence stays out.
        if b"ttd: refused %d: " % number not in errors and not (self.is_lasting() and self.kind == "FAIL_WRITE"):
            self.wrong.append(f"standard error is {errors[-200:]!r} behind refused {number}")


class Trying:
    """A process in which calls of a kind fail, in a room of its own."""

    def __init__(self, place, outcome, room):
        self.place, self.outcome, self.room, self.counts = place, outcome, room, Counts()
        self.output, self.errors = (os.path.join(room, name) for name in ("output", "errors"))

    def close(self):
        self.counts.close()

    def start(self, words, given):
        self.counts.begin()
        told = dict(os.environ, LD_PRELOAD=self.place.library, COUNT=self.counts.path, **{self.outcome.kind: self.outcome.number})
        with open(self.output, "wb") as output, open(self.errors, "wb") as errors:
            return subprocess.Popen([self.place.program, *words], stdin=given, stdout=output, stderr=errors, env=told)

    def written(self):
        """What it wrote to standard output and error. Its calls are counted then."""
        self.outcome.counts = self.counts.read()
        return read(self.output), read(self.errors)

    def look_at_refusal(self, allowed, status, output, errors):
        found = re.fullmatch(rb"(?:refused ([0-9]+)\n)?", output)
        if found and status >= 0:
            # 1605 cannot be written.
            self.outcome.keep_refusal(int(found[1] or 1605), allowed, status, errors)
        else:
            self.outcome.wrong.append(f"status {status}, {output[:80]!r} and {errors[-200:]!r}")

    def look_at_log(self, errors):
        self.outcome.wrong += [f"in the log: {line!r}" for line in errors.splitlines() if not LOG_LINE.match(line)]


class Life(Machine):
    """A life of `serve`, in a folder of its own, or in one with the files of an earlier life."""

    def __init__(self, trying):
        self.trying, self.outcome, self.seen = trying, trying.outcome, trying.outcome.seen
        # Who only binds a port keeps it from others, and not from the machine.
        self.port = socket.socket()
        self.port.setsockopt(socket.SOL_SOCKET, socket.SO_REUSEADDR, 1)
        self.port.bind(("127.0.0.1", 0))
        self.give_up, self.last, self.has_served = time.monotonic() + LONGEST_S, (0, 0), False
        # The text of the epoch before and after the start.
        self.epochs = b"", b"tt-epoch 1 1\n"
        settings = {"listen": "%s:%d" % self.port.getsockname(), "poll": "20ms", "wait": "100ms", "workers": 2,
                    "max_width": "1s", "evidence": os.path.join(trying.room, "A", "evidence")}
        super().__init__(Service(trying.place.program, trying.room), "A", 0, trying.place.masters, settings)
        self.address = self.port.getsockname()

    def start(self):
        if self.outcome.service == "serve again":
            self.epochs = (b"tt-epoch 1 1\n", b"tt-epoch 1 2\n")
            for name in ("shared", "state/epoch"):
                shutil.copy(os.path.join(self.trying.place.earlier, name), self.path(name))
            with socket.socket(socket.AF_UNIX) as door:
                door.bind(self.path("socket"))
        self.running = self.trying.start(self.words, subprocess.PIPE)

    def close(self):
        super().kill()
        self.port.close()

    def run(self):
        """Lets clients use it, and ends it."""
        for address in (self.address, self.path("socket")):
            self.repeat(lambda: self.use(address), f"no answer at {address}")
        self.repeat(self.publishes, "no fresh publications")
        self.repeat(self.is_read, "no reading by ttd read")
        is_early = self.running.poll() is not None
        self.running.stdin.close()
        try:
            self.look_at_end(self.running.wait(LONGEST_S), is_early)
        except subprocess.TimeoutExpired:
            self.outcome.late.append("it does not end with its input")

    def repeat(self, act, fault):
        """Does this until it goes well, or the machine has ended. Where calls fail for good, it need not go well."""
        tries = 0
        while self.running.poll() is None and time.monotonic() < self.give_up:
            with contextlib.suppress(ConnectionRefusedError):
                if act():
                    return
                tries += 1
            if self.outcome.is_lasting() and tries > 2:
                return
            time.sleep(0.003)
        if self.running.poll() is None:
            self.outcome.late.append(fault)

    def use(self, address):
        """Whether a session goes well. One in which a call fails is lost or refused."""
        if isinstance(address, str) and not os.path.exists(address):
            raise ConnectionRefusedError
        try:
            with truetime.Session(address, 0.2 if self.outcome.is_lasting() else LONGEST_S) as session:
                self.seen.read(session)
                self.has_served = True
                self.seen.commit(session, "A")
                said = session.ask(f"lease {LEASE}")
                if said != f"leased {LEASE}":
                    self.outcome.wrong.append(f"the reply {said} to a lease")
                self.seen.commit(session, "A")
                self.seen.read(session)
                return True
        except truetime.Refused as refused:
            self.seen.refused[refused.number] += 1
            if refused.number not in TOLD.get(self.outcome.kind, ()) and refused.number != 801:
                self.outcome.wrong.append(f"a client was told {refused.number}")
        except ConnectionRefusedError:
            raise
        except OSError as lost:
            self.seen.lost += 1
            self.outcome.wrong += ["a client was lost"] if self.outcome.is_ended_by_signal() else []
            if isinstance(lost.__cause__ or lost, TimeoutError) and not self.outcome.is_lasting():
                self.outcome.wrong.append(f"a client waited {LONGEST_S} s for a reply: {lost}")
        return False

    def read_shared(self):
        """A reading of the shared file, which may not go back; None where there is none so far."""
        try:
            with truetime.Client(self.path("shared"), os.geteuid(), mapped=False) as client:
                now = self.seen.read(client)
        except truetime.Refused as refused:
            self.outcome.wrong += [] if refused.number in (801, 1701) else [f"the shared file gives {refused.number}"]
            return None
        if (now.epoch, now.number) < self.last:
            self.outcome.wrong.append(f"publication {now.epoch} {now.number} behind {self.last}")
        self.last = now.epoch, now.number
        return now

    def publishes(self):
        """Whether the third publication of this life is in the shared file, and fresh."""
        now = self.read_shared()
        return now and b"tt-epoch 1 %d\n" % now.epoch == self.epochs[1] and now.number >= 3 and now.fresh

    def is_read(self):
        """Whether `ttd read` reads the shared file."""
        before = time.time_ns()
        done = run_once([self.program, "read", self.path("shared")], seconds=LONGEST_S)
        if self.last == (0, 0) and done[:2] in ((b"refused 801\n", 2), (b"refused 1701\n", 4)):
            return False
        if done.status != 0 or not is_reply(done.out, b"now", before, time.time_ns()):
            self.outcome.wrong.append(f"ttd read: {done}")
        return True

    def look_at_end(self, status, is_early):
        """The end was a refusal of the start, or in order. Where standard input cannot be read, it has ended."""
        output, errors = self.trying.written()
        if status != 0:
            self.trying.look_at_refusal(SERVE, status, output, errors)
            self.outcome.wrong += ["it refused after it had served"] if self.has_served else []
        else:
            self.outcome.told = "ended" if is_early else "went on"
            if output or is_early and self.outcome.kind != "FAIL_READ":
                self.outcome.wrong.append(f"it {self.outcome.told} and wrote {output[:80]!r}")
            if not self.read_shared() and self.last != (0, 0):
                self.outcome.wrong.append("the shared file gives no reading behind the end")
        self.trying.look_at_log(errors)
        self.look_at_files()

    def look_at_files(self):
        """The epoch is that of the last life or of this one, and the Unix socket is gone."""
        epoch = b""
        with contextlib.suppress(FileNotFoundError):
            epoch = read(self.path("state/epoch"))
        if epoch not in self.epochs or self.outcome.told == "went on" and epoch != self.epochs[1]:
            self.outcome.wrong.append(f"the epoch is {epoch!r}")
        if os.path.exists(self.path("socket")) and self.outcome.kind not in SOCKET_STAYS:
            if self.outcome.service == "serve" or self.outcome.told == "went on":
                self.outcome.wrong.append("the Unix socket is still there")


def live(trying):
    """A life of `serve`."""
    with contextlib.closing(Life(trying)) as life:
        life.run()
    trying.outcome.wrong += trying.outcome.seen.wrong


def udp_port(process):
    """The port of the UDP socket of a process, or None."""
    with contextlib.suppress(OSError):
        folder = f"/proc/{process.pid}/fd"
        sockets = {os.readlink(os.path.join(folder, name)) for name in os.listdir(folder)}
        with open("/proc/net/udp", encoding="ascii") as table:
            for fields in map(str.split, list(table)[1:]):
                if f"socket:[{fields[9]}]" in sockets:
                    return int(fields[1].split(":")[1], 16)
    return None


def live_as_master(trying):
    """A life of `master`: each of its answers has to be right, and it has to go on."""
    words = ["master", "--source", str(SOURCE), "--listen", "127.0.0.1:0", "--uncertainty", str(UNCERTAINTY)]
    outcome, give_up = trying.outcome, time.monotonic() + LONGEST_S
    running, answers = trying.start(words, subprocess.DEVNULL), 0
    try:
        with socket.socket(socket.AF_INET, socket.SOCK_DGRAM) as door:
            while (port := udp_port(running)) is None and running.poll() is None and time.monotonic() < give_up:
                time.sleep(0.002)
            door.connect(("127.0.0.1", port or 9))
            door.settimeout(0.05)
            polls = {}
            while answers < POLLS and running.poll() is None and time.monotonic() < give_up and not (outcome.is_lasting() and len(polls) > 2 * POLLS):
                nonce = random.getrandbits(63) + 1
                polls[nonce] = time.time_ns()
                with contextlib.suppress(OSError):
                    door.send(wire.Poll(source=SOURCE, nonce=nonce).packet)
                    answers += is_answer(door.recv(64), polls, outcome)
        # Its log is written by another thread.
        give_up = min(give_up, time.monotonic() + 0.2)
        while running.poll() is None and not os.path.getsize(trying.errors) and time.monotonic() < give_up:
            time.sleep(0.002)
    finally:
        running.kill()
        status = running.wait()
    output, errors = trying.written()
    if status != -signal.SIGKILL:
        trying.look_at_refusal(MASTER, status, output, errors)
    else:
        outcome.told = "went on"
        outcome.wrong += [f"it wrote {output[:80]!r}"] if output else []
        outcome.late += ["no answers"] if answers < POLLS and not outcome.is_lasting() else []
    trying.look_at_log(errors)


def is_answer(packet, polls, outcome):
    """Whether a packet is the answer to one of these polls, each sent at some time. Any other is wrong."""
    after, head = time.time_ns(), wire.poll_in(packet) if len(packet) == wire.ANSWER_BYTES else None
    sent = polls.pop(head.nonce, None) if head else None
    is_right = sent is not None and head == wire.Poll(kind=wire.ANSWERS, source=SOURCE, nonce=head.nonce)
    low, high = wire.ends_in(packet) if is_right else (0, 0)
    if not is_right or high - low != 2 * UNCERTAINTY or low > after or high < sent:
        outcome.wrong.append(f"the answer {packet!r}")
    return is_right


# The words, the lines that are asked or written, the status where nothing fails, and what may be refused.
RUNS = {
    "serve --check": (lambda place: ["serve", "--check", os.path.join(place.earlier, "node.toml")], None, 0, CHECK),
    "ask over TCP": (lambda place: ["ask", place.address, "now"], [b"now"], 0, ASK),
    "ask over a Unix socket": (lambda place: ["ask", place.socket], [b"now", b"commit 1 0", b"lease 7 6"], 2, ASK),
    "read": (lambda place: ["read", place.shared], [b"now"], 0, READ),
}


def is_reply(reply, line, before, after):
    """Whether a line of the output is the reply to a line, between two times; a line that asks nothing is the output."""
    words = reply.split()
    if line == b"now":
        return len(words) == 3 and words[0] == b"now" and int(words[1]) <= after and int(words[2]) >= before
    if line == b"commit 1 0":
        return len(words) == 3 and words[:2] == [b"committed", b"1"] and before <= int(words[2]) < after
    return reply == (b"refused 101\n" if line == b"lease 7 6" else line + b"\n")


def run(trying):
    """A run of `ask` or `read`: it answers as ever, or after some replies it refuses."""
    words, lines, wanted, allowed = RUNS[trying.outcome.service]
    lines = lines or trying.place.outline.splitlines()
    outcome, before = trying.outcome, time.time_ns()
    running = trying.start(words(trying.place), subprocess.PIPE)
    try:
        running.communicate(b"\n".join(lines) + b"\n", LONGEST_S)
    except subprocess.TimeoutExpired:
        outcome.late.append("it does not end")
        return
    finally:
        running.kill()
        status = running.wait()
    (output, errors), after = trying.written(), time.time_ns()
    # Of a folder that can't be looked at there is a warning, and of limits that can't be read no line.
    replies = [line for line in output.splitlines(keepends=True) if not line.startswith(b"warning ")]
    lines = [line for line in lines if not line.startswith(b"limit ") or line + b"\n" in replies]
    right = 0
    while right < min(len(replies), len(lines)) and is_reply(replies[right], lines[right], before, after):
        right += 1
    if right == len(lines) == len(replies) and status == wanted:
        outcome.told = "went on"
    else:
        trying.look_at_refusal(allowed, status, b"".join(replies[right:]), errors)


LIVES = {"serve": live, "serve again": live, "master": live_as_master, **dict.fromkeys(RUNS, run)}


def attempt(place, service, kind, number):
    """A life or a run in which calls fail; what came of it, or nothing where there is no time left."""
    if time.monotonic() > place.until:
        return None
    outcome = Outcome(service, kind, number)
    with tempfile.TemporaryDirectory(dir=place.room) as room, contextlib.closing(Trying(place, outcome, room)) as trying:
        try:
            LIVES[service](trying)
        except (Fault, OSError, subprocess.SubprocessError) as fault:
            outcome.late.append(repr(fault))
    return outcome


def numbers(count, bounds, chance):
    """Which of so many calls fail, each in turn."""
    most, first, last, between = bounds
    if count <= most:
        return list(range(1, count + 1))
    sample = chance.sample(range(first + 1, count - last + 1), between)
    return sorted([*range(1, first + 1), *sample, *range(count - last + 1, count + 1)])


def plan(plain, chance):
    """Which calls are to fail: a service, a kind, a number and, where they fail for good, a +."""
    for service, outcome in plain.items():
        yield service, "SHORT", "1"
        for kind, count in outcome.counts.items():
            is_memory = kind == "REFUSE"
            bounds = MOST_OTHERS if not is_memory else MOST_AGAIN if service == "serve again" else MOST_ALLOCATIONS
            for number in numbers(count, bounds, chance):
                yield service, kind, str(number)
            if service in ("serve", "master"):
                for number in chance.sample(range(1, count + 1), min(count, LASTING_ALLOCATIONS if is_memory else LASTING)):
                    yield service, kind, f"{number}+"
            if kind in ENDED_BY_SIGNALS:
                for number in chance.sample(range(1, count + 1), min(count, SIGNALS)):
                    yield service, kind, f"{number}!"


def what_came(outcomes):
    """How many refused, went on or ended, and how many are wrong, as text."""
    came = collections.Counter(outcome.told.split(" ")[0] for outcome in outcomes)
    refused, went_on, ended = came["refused"], came["went"], came["ended"]
    by_input = f", {ended} ended as their input could not be read" if ended else ""
    return f"{refused} refused, {went_on} went on{by_input}; {sum(bool(outcome.wrong) for outcome in outcomes)} wrong"


def tell(trial, service, counts, outcomes):
    """Notes what came of the lives or runs of a service, which makes so many calls of each kind."""
    kinds = ", ".join(f"{kind.removeprefix('FAIL_').lower()} {count}" for kind, count in counts.items() if count and kind != "REFUSE")
    single = [outcome for outcome in outcomes if outcome.number.isdigit()]
    for what, chosen in (
            (f"{counts['REFUSE']} allocations, of which were tried", [outcome for outcome in single if outcome.kind == "REFUSE"]),
            (f"{kinds}: of these were tried, and byte by byte", [outcome for outcome in single if outcome.kind != "REFUSE"]),
            ("one of these and all behind it fail", [outcome for outcome in outcomes if outcome.is_lasting()]),
            ("a signal ends one of these", [outcome for outcome in outcomes if outcome.is_ended_by_signal()])):
        if chosen:
            trial.note(f"{service}: {what}: {len(chosen)}: {what_came(chosen)}")


def try_plain(place, service):
    """A life or a run in which nothing fails."""
    outcome = attempt(place, service, "NONE", "0")
    if outcome.wrong or outcome.late or outcome.told != "went on":
        raise Fault(f"{service} where nothing fails: {outcome}")
    return outcome


def try_all(trial, place, seed, until):
    """Tries all services."""
    chance = random.Random(seed)
    plain = {service: try_plain(place, service) for service in LIVES}
    for service, allowed in ("serve again", SERVE), ("master", MASTER):
        if missing := [kind for kind in allowed if not plain[service].counts[kind]]:
            raise Fault(f"{service}: fail_calls.c sees no {' and no '.join(missing)}")
    planned = list(plan(plain, chance))
    chance.shuffle(planned)
    place.until = until
    with ProcessPoolExecutor(AT_ONCE) as pool:
        outcomes = [outcome for outcome in pool.map(attempt, *zip(*((place, *planned_one) for planned_one in planned))) if outcome]
    # The host may have been busy.
    place.until = float("inf")
    late = [outcome for outcome in outcomes if outcome.late and not outcome.wrong]
    for outcome in late:
        outcomes.remove(outcome)
        outcomes.append(attempt(place, outcome.service, outcome.kind, outcome.number))
        outcomes[-1].wrong += outcomes[-1].late
    for service, outcome in plain.items():
        tell(trial, service, outcome.counts, [other for other in outcomes if other.service == service])
    for outcome in outcomes:
        trial.check(f"{outcome.service}: {outcome.kind}={outcome.number}: {outcome.told}", not outcome.wrong, "; ".join(outcome.wrong))
    tell_all(trial, outcomes, len(planned) - len(outcomes), late)


def tell_all(trial, outcomes, left_out, late):
    """Notes what the clients of all lives saw, and judges their commits."""
    seen = [outcome.seen for outcome in outcomes]
    commits = [commit[1:] for one in seen for commit in one.commits]
    violations, refused = trial.judge(commits), sum(sum(one.refused.values()) for one in seen)
    trial.holds(not violations, f"{violations} commits are out of order")
    trial.note(f"{sum(one.readings for one in seen)} readings, {len(commits)} commits, {violations} of them out of order; {refused} calls "
               f"of clients refused, {sum(one.lost for one in seen)} lost; {len(late)} tried once more, {left_out} left out, since there was no time")


def begin(service, library):
    """The place for all lives and runs."""
    masters = [service.master(source).address for source in range(3)]
    machine = service.fleet({"kept": masters})["kept"]
    machine.kill()
    earlier = shutil.copytree(machine.folder, os.path.join(service.room, "earlier"), ignore=shutil.ignore_patterns("socket"))
    machine.restart()
    machine.wait_until_ready()
    check = subprocess.run([service.program, "serve", "--check", machine.path("node.toml")], capture_output=True, check=True)
    return Place(service.program, library, service.room, masters, "%s:%d" % machine.address, machine.path("socket"), machine.path("shared"),
                 earlier, check.stdout)


def sweep_services(trial, library):
    """Lets calls of the services fail. Where nothing fails and yet it does not go well, another program may have taken a port: once it is
    begun anew."""
    until, seed = time.monotonic() + ALL_S, trial.seed()
    for is_last in (False, True):
        with tempfile.TemporaryDirectory() as room, Service(trial.program, room) as service:
            try:
                return try_all(trial, begin(service, library), seed, until)
            except Fault as fault:
                trial.note(str(fault))
                trial.holds(not is_last, str(fault))
    return None
