"""What can go wrong round a machine of the time service: masters that lie, floods, networks, pipes and files."""
import contextlib
import ctypes
import fcntl
import multiprocessing
import os
import resource
import socket
import struct
import subprocess
import threading
import time

from harness import wire
from harness.processes import Fault, Machine, raw_ns, truetime
from harness.program import compile_c, read_text, write
from harness.responder import Responder

NOBODY = 65534
FIN_WAIT1 = 4  # of the kernel's states of TCP
POLL_S, WAIT_S = 0.1, 0.1


def of_threads(process, name):
    """What the kernel says of each thread of a process in the file of this name."""
    tasks = f"/proc/{process}/task"
    return [read_text(f"{tasks}/{task}/{name}") for task in os.listdir(tasks)]


def held_up_ns(process):
    """For how long the threads of a process could run so far, and had no processor."""
    return sum(int(text.split()[1]) for text in of_threads(process, "schedstat"))


class Node(Machine):
    """A machine that a scenario starts in a way of its own."""
    #: Its environment, where that is not the one of this process.
    environment = None

    def start(self):
        """It is started by `run`."""

    def run(self, prefix=(), **how):
        """Starts it behind these words, with these arguments of Popen."""
        self.began = time.monotonic()
        with open(self.log, "ab") as log:
            how = {"stdin": subprocess.PIPE, "stdout": log, "stderr": log, "env": self.environment, **how}
            self.running = subprocess.Popen([*prefix, self.program, *self.words], **how)

    def again(self):
        self.kill()
        self.run()
        self.wait_until_ready()

    # What it should do, whatever happens. Each gives what is wrong.

    def number(self):
        """The number of the last publication in the shared file."""
        with self.client() as client:
            return client.read().number

    def goes_on(self, seconds=1.0):
        """It publishes each round."""
        try:
            before, first = self.number(), self.status_or_none()
            time.sleep(seconds)
            made, last = self.number() - before, self.status_or_none()
        except truetime.Refused as refused:
            yield f"no publications: {refused}"
            return
        if made < seconds / (POLL_S + WAIT_S) / 2:
            yield f"{made} publications in {seconds} seconds"
        if first and last:
            rounds, published = (last[f"truetime_{name}_total"] - first[f"truetime_{name}_total"] for name in ("rounds", "publications"))
            if published < rounds - 1:
                yield f"{published} publications in {rounds} rounds"

    def publishes_within(self, seconds):
        """It publishes soon after its start."""
        while time.monotonic() < self.began + 10 and self.running.poll() is None:
            with contextlib.suppress(truetime.Refused):
                self.number()
                took = time.monotonic() - self.began
                if took > seconds:
                    yield f"the first publication came after {took:.1f} seconds"
                return
            time.sleep(0.01)
        yield f"nothing is published in 10 seconds: {self.end_of_log()[-200:]!r}"

    def answers(self, address=None):
        """A client has the time."""
        try:
            with truetime.Session(address or self.address, 2) as session:
                session.now()
        except (OSError, truetime.Refused) as fault:
            yield f"no answer to a client: {fault or type(fault).__name__}"

    def ends(self, seconds=1.0):
        """It ends within a second of the end of its input."""
        began = time.monotonic()
        self.running.stdin.close()
        try:
            status = self.running.wait(seconds + 4)
        except subprocess.TimeoutExpired:
            yield f"no end {seconds + 4:.0f} seconds after its input"
            return
        if (took := time.monotonic() - began) > seconds:
            yield f"the end took {took:.1f} seconds"
        if status != 0:
            yield f"it ended with status {status}"

    def hears(self, *sources):
        """The log calls none of these sources silent."""
        silent = {int(fields["source"]) for fields in self.said("source_silent")}.intersection(sources)
        if silent:
            yield f"silent are {sorted(silent)}, which answer"

    def serves(self):
        """All of it, and then the end."""
        yield from self.publishes_within(2)
        yield from self.goes_on()
        yield from self.answers()
        yield from self.ends()

    def status_or_none(self):
        try:
            return self.status() if os.path.isfile(self.path("status")) else None
        except (OSError, ValueError):
            return None

    def comes_to(self, name, value, seconds):
        """This number of the status comes to this value."""
        end, seen = time.monotonic() + seconds, None
        while time.monotonic() < end:
            seen = (self.status_or_none() or {}).get(f"truetime_{name}")
            if seen == value:
                return
            time.sleep(0.02)
        yield f"{name} is {seen} after {seconds} seconds, and {value} is wanted"

    def processor_ns(self):
        """The processor time of all its threads."""
        return sum(int(text.split()[0]) for text in self.of_threads("schedstat"))

    def held_up_ns(self):
        """For how long its threads and this process could run so far, and had no processor."""
        return held_up_ns(self.running.pid) + int(read_text("/proc/self/schedstat").split()[1])

    def wakes(self):
        """How often its threads have waited for something, and gone on."""
        return sum(int(line.split()[1]) for text in self.of_threads("status") for line in text.splitlines()
                   if line.startswith("voluntary_ctxt_switches:"))

    def of_threads(self, name):
        """What the kernel says of each of its threads in the file of this name."""
        return of_threads(self.running.pid, name)

    def allow_no_more_descriptors(self):
        """By its soft limit. The limits before, which may be set again."""
        before = resource.prlimit(self.running.pid, resource.RLIMIT_NOFILE)
        resource.prlimit(self.running.pid, resource.RLIMIT_NOFILE, (len(os.listdir(f"/proc/{self.running.pid}/fd")), before[1]))
        return before


# Masters.

class FakeMaster(Responder):
    """A master of this script. Its acts are for one poll each, the last one for all further ones. It keeps each poll with its time since 1970, and
    from where the last one came; what is none is strange."""

    def __init__(self, *acts, host="127.0.0.1"):
        self.acts, self.polls, self.times, self.strange, self.machine = acts, [], [], [], None
        super().__init__(host)

    def take(self, packet, sender):
        if len(packet) == wire.REQUEST.size and packet.startswith(wire.MAGIC):
            self.act(packet, sender)
        else:
            self.strange.append(packet)

    def act(self, poll, sender):
        """Does what is due with a poll."""
        self.times.append(time.time_ns())
        self.polls.append(wire.poll_in(poll))
        self.machine = sender
        self.acts[min(len(self.polls), len(self.acts)) - 1](self, poll)

    def send(self, packet):
        self.send_to(packet, self.machine)

    def answer(self, poll, ahead_ns=0, **changed):
        """Answers a poll."""
        self.send(answer(poll, ahead_ns, **changed))


def answer(poll, ahead_ns=0, **changed):
    """The answer to a poll by this host's clock, or by one that is so far ahead of it, with these fields changed."""
    now = time.time_ns() + ahead_ns
    return wire.answer_to(poll, now - 1_000_000, now + 1_000_000, **changed)


def silent(*_):
    """No answer."""


def honest(fake, poll):
    fake.answer(poll)


def late(seconds):
    """It answers so late."""
    def act(fake, poll):
        time.sleep(seconds)
        fake.answer(poll)
    return act


def junk(fake, _):
    """60 packets, none of them an answer."""
    for number in range(60):
        fake.send(os.urandom(number % 3 * 20))


def junk_then_answer(fake, poll):
    junk(fake, poll)
    fake.answer(poll)


def forged_then_answer(fake, poll):
    """An answer that is refused, and the true one 10 ms later."""
    fake.answer(poll, nonce=wire.poll_in(poll).nonce + 1)
    time.sleep(0.01)
    fake.answer(poll)


def empty_packets(fake, _):
    """From the first poll on 4,000 empty packets a second, and no answer."""
    if len(fake.polls) == 1:
        threading.Thread(target=send_empty, args=(fake,), daemon=True).start()


def send_empty(fake):
    due = time.monotonic()
    while not fake.ended:
        for _ in range(8):
            fake.send(b"")
        due += 0.002
        time.sleep(max(0, due - time.monotonic()))


# Calls.

class Spoils:
    """A folder of files that spoil the calls of programs, as tools/spoil_calls.c says, and the clocks that these see: that of machines, and
    CLOCK_MONOTONIC, which goes with it but where it is slewed."""
    #: A turn of a clock is told so long before it comes, so that no program has seen a later time by then.
    AHEAD_NS = 30_000_000

    def __init__(self, room):
        self.folder, self.turns = os.path.join(room, "spoil"), {"course": [], "slew": []}
        os.mkdir(self.folder)
        library = compile_c("spoil_calls", room, "-Wall", "-Wextra", "-Wshadow", "-Wconversion", "-Werror", "-shared", "-fPIC")
        self.environment = dict(os.environ, LD_PRELOAD=library, SPOIL=self.folder)

    def path(self, kind):
        return os.path.join(self.folder, kind)

    def tell(self, kind, text=""):
        """Calls of this kind are spoiled from now on, by this text."""
        draft = os.path.join(self.folder, f"{kind}.new")
        write(draft, text.encode())
        os.rename(draft, self.path(kind))

    @contextlib.contextmanager
    def spoiled(self, kind, text=""):
        """Calls of this kind are spoiled as long as this lasts, by this text."""
        self.tell(kind, text)
        try:
            yield
        finally:
            os.remove(self.path(kind))

    def shown(self, now, kind="course"):
        """What a clock shows by its turns of this kind when that of this process shows `now`."""
        since, shown, rate = next((turn for turn in reversed(self.turns[kind]) if turn[0] <= now), (now, now, 0))
        return shown + (now - since) + (now - since) * rate // 1_000_000

    def turn(self, rate=0, jump_ns=0, kind="course"):
        """Lets the clock jump, and then run by so many parts per million faster; the time since 1970 at which it does."""
        since = raw_ns() + self.AHEAD_NS
        self.turns[kind].append((since, self.shown(since, kind) + jump_ns, rate))
        self.tell(kind, "".join("%d %d %d\n" % turn for turn in self.turns[kind]))
        while (left := since - raw_ns()) > 0:
            time.sleep(left / 1e9)
        return time.time_ns() - (raw_ns() - since)

    def slew(self, rate):
        """Lets CLOCK_MONOTONIC run by so many parts per million faster than the clock of machines; the time since 1970 at which it does."""
        return self.turn(rate, kind="slew")


# Guests.

def page(marker):
    """The page of a vmclock device of the kernel, as its vmclock-abi.h has it."""
    return struct.pack("<IIHBBIQ", 0x4b4c4356, 4096, 1, 0, 0, 0, marker).ljust(4096, b"\0")


def disrupt(path, marker):
    """A guest is disrupted: its counter changes in place."""
    with open(path, "r+b") as file:
        file.seek(16)
        file.write(struct.pack("<Q", marker))
    return time.time_ns()


# Networks.

#: What setns is told of a network.
NEW_NETWORK = 0x40000000


class Network:
    """A network namespace with a loopback of its own. No packet leaves it, and it goes with the process that holds it."""

    def __init__(self):
        self.holder = subprocess.Popen(["unshare", "--net", "sleep", "600"])
        self.enter = ["nsenter", f"--net=/proc/{self.holder.pid}/ns/net"]
        end, own = time.monotonic() + 2, os.readlink("/proc/self/ns/net")
        while os.readlink(f"/proc/{self.holder.pid}/ns/net") == own and time.monotonic() < end:
            time.sleep(0.01)
        self.do("ip", "link", "set", "lo", "up")
        # Rules come before the table of local addresses.
        self.do("ip", "rule", "add", "pref", "100", "lookup", "local")
        self.do("ip", "rule", "del", "pref", "0")

    def close(self):
        self.holder.kill()
        self.holder.wait()

    def inside(self, call):
        """What a call gives that is made in the network, as a socket, which stays there."""
        made = []

        def enter():
            with open(f"/proc/{self.holder.pid}/ns/net", "rb") as network:
                if ctypes.CDLL(None).setns(network.fileno(), NEW_NETWORK) == 0:  # of this thread alone
                    made.append(call())

        thread = threading.Thread(target=enter)
        thread.start()
        thread.join()
        if not made:
            raise Fault("the network cannot be entered")
        return made[0]

    def do(self, *words):
        ran = subprocess.run([*self.enter, *words], capture_output=True, text=True, check=False)
        if ran.returncode != 0:
            raise Fault(f"{' '.join(words)}: {ran.stderr.strip()}")

    def refuse(self, master, kind):
        """No packet to this master has a route: `unreachable` (ENETUNREACH), `prohibit` (EACCES) or `blackhole` (EINVAL)."""
        self.do("ip", "rule", "add", "pref", "10", "ipproto", "udp", "dport", master.address.split(":")[1], kind)

    def drop(self, master):
        """A firewall drops each packet to this master (EPERM)."""
        self.do("nft", "add table inet faults; add chain inet faults out { type filter hook output priority 0; }; "
                f"add rule inet faults out udp dport {master.address.split(':')[1]} drop")


def flood(port, size, pause_s, ended):
    """Packets of so many bytes to a port, with a pause behind each 50 of them."""
    with socket.socket(socket.AF_INET, socket.SOCK_DGRAM) as door:
        door.connect(("127.0.0.1", port))
        packet = bytes(size)
        while not ended.is_set():
            for _ in range(50):
                with contextlib.suppress(OSError):
                    door.send(packet)
            if pause_s:
                time.sleep(pause_s)


@contextlib.contextmanager
def flooded(port, *sizes, pause_s=0):
    """While this lasts, a process for each of these sizes floods the port with packets of so many bytes."""
    ended = multiprocessing.Event()
    processes = [multiprocessing.Process(target=flood, args=(port, size, pause_s, ended)) for size in sizes]
    for process in processes:
        process.start()
    try:
        yield
    finally:
        ended.set()
        for process in processes:
            process.join()


def send_from_port_0(port, packet, number):
    """Sends a packet to a port of the loopback so many times, from UDP port 0."""
    with socket.socket(socket.AF_INET, socket.SOCK_RAW, socket.IPPROTO_UDP) as door:
        for _ in range(number):
            door.sendto(struct.pack(">4H", 0, port, 8 + len(packet), 0) + packet, ("127.0.0.1", 0))


class Answerer:
    """A service for one client after the other, in this script: `act` has the connection and the first line."""

    def __init__(self, act):
        self.door = socket.create_server(("127.0.0.1", 0))
        self.address = "127.0.0.1:%d" % self.door.getsockname()[1]
        self.act = act
        threading.Thread(target=self.run, daemon=True).start()

    def run(self):
        with contextlib.suppress(OSError):
            while True:
                one, _ = self.door.accept()
                with one, one.makefile("rb") as lines, contextlib.suppress(OSError):
                    for line in lines:
                        self.act(one, line)

    def close(self):
        with contextlib.suppress(OSError):
            self.door.shutdown(socket.SHUT_RDWR)
        self.door.close()


# Pipes and files.

def full_pipe():
    """The reading and the writing end of a pipe that takes no byte more."""
    reading, writing = os.pipe()
    os.set_blocking(writing, False)
    with contextlib.suppress(BlockingIOError):
        while True:
            os.write(writing, bytes(512))
    os.set_blocking(writing, True)
    return reading, writing


@contextlib.contextmanager
def as_nobody():
    """As another user, where this one is root."""
    os.setegid(NOBODY)
    os.seteuid(NOBODY)
    try:
        yield
    finally:
        os.seteuid(0)
        os.setegid(0)


def hold_lock(path):
    """Locks the file, for as long as the number is open that this gives; None where that cannot be."""
    try:
        number = os.open(path, os.O_RDONLY)
    except OSError:
        return None
    try:
        fcntl.flock(number, fcntl.LOCK_EX | fcntl.LOCK_NB)
    except OSError:
        os.close(number)
        return None
    return number


def reset(door):
    """Closes a connection at once, also where a file is over it, so that the other side is told of a reset."""
    door.setsockopt(socket.SOL_SOCKET, socket.SO_LINGER, struct.pack("ii", 1, 0))
    os.close(door.detach())


def end_connection(door):
    """Closes a connection in order, once the other side's kernel has taken its end."""
    give_up = time.monotonic() + 10
    with door:
        door.shutdown(socket.SHUT_WR)
        while door.getsockopt(socket.IPPROTO_TCP, socket.TCP_INFO, 1)[0] == FIN_WAIT1 and time.monotonic() < give_up:
            time.sleep(0.001)


@contextlib.contextmanager
def filled(door):
    """Lets as many wait at a listener as may, until one more does not get in."""
    with contextlib.ExitStack() as clients:
        with contextlib.suppress(BlockingIOError, TimeoutError):
            while True:
                client = clients.enter_context(socket.socket(door.family))
                client.settimeout(0.1)
                client.connect(door.getsockname())
        yield


@contextlib.contextmanager
def full_listener(path):
    """A listener at a Unix socket, which never accepts and whose backlog is full."""
    with socket.socket(socket.AF_UNIX) as door:
        door.bind(path)
        door.listen(0)
        with filled(door):
            yield
