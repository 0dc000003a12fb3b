"""Cases of the suite `clients`: a program that commits in a loop, takes note of each error and goes on, in each language.

`commit` has to succeed again, whatever ended the one before: a refusal while it waited, a connection that broke, a machine that was started
again, a session that was closed since it was idle. No timestamp is below one that was given before, and no further commit begins in a session
while one is pending there.
"""
import contextlib
import signal
import socket
import threading
import time
from concurrent.futures import ThreadPoolExecutor

from harness.faults import end_connection, filled
from suites.clients import MAX, SECOND, Reader, session_probes, suite, try_at_once
from suites.clients_of_openings import Answering, Listening
from suites.clients_of_waits import wants

PAUSE_S = 0.05


class Loop:
    """A probe that commits again and again."""

    def __init__(self, trial, name, probe):
        self.trial, self.name, self.probe, self.last, self.stamps = trial, name, probe, 0, set()

    def wants(self, line, wanted):
        wants(self.trial, self.name, self.probe.say, line, wanted)

    def commits(self, floor=0):
        """Commits once: nothing where that succeeds, or the error. A timestamp has to be above the last one."""
        said = self.probe.say(f"commit {floor}")
        if not said.isdecimal():
            return said
        self.trial.check(self.name, int(said) > max(self.last, floor - 1), f"timestamp {said} behind {self.last}, with floor {floor}")
        self.last = int(said)
        self.stamps.add(self.last)
        return ""

    def goes_on(self, errors, seconds=10):
        """Commits until that succeeds. Until then each error has to be one of these."""
        give_up = time.monotonic() + seconds
        while (said := self.commits()) and time.monotonic() < give_up:
            self.trial.check(self.name, said in errors, f"{said!r} in place of one of {errors}")
            if said not in errors:
                break
            time.sleep(PAUSE_S)
        self.trial.check(self.name, not said, f"it does not go on: {said!r}")

    def keeps_on(self, times=3):
        """Commits so often, each time with success."""
        for _ in range(times):
            self.trial.equal(self.name, self.commits(), "")


@contextlib.contextmanager
def loop_at(address, trial, name, words):
    """A loop whose session is open."""
    with Reader(words, "session") as probe:
        loop = Loop(trial, name, probe)
        loop.wants(f"open {address} 10000", "open")
        yield loop
        loop.wants("close", "closed")


@contextlib.contextmanager
def loops_at(address, trial):
    """A loop for each kind of session."""
    with contextlib.ExitStack() as stack:
        yield [stack.enter_context(loop_at(address, trial, *probe)) for probe in session_probes(trial.shared)]


def at_once(loops, call):
    """Makes the same call of all loops at once, as they mostly wait; what each gives."""
    with ThreadPoolExecutor(len(loops)) as pool:
        return list(pool.map(call, loops))


def note(trial, opened):
    trial.note(f"{len(opened)} kinds of sessions; {len(trial.result.wrong)} wrong")


# A stand-in for the service.

ENDS, BEGINS = "(ends)", "(begins)"


class Scripted(Listening):
    """A service whose sessions go by the rules, but for what a script says of the first lines of all of them: a reply, `(ends)`, or both. A
    refusal with `(begins)` is of a commit that begins all the same."""

    def __init__(self, script=()):
        self.script, self.stamp, self.open, self.wrong, self.refused = list(script), 0, [], [], set()
        self.has_ended = threading.Event()  # no session is about to
        self.has_ended.set()
        super().__init__(Ruled)

    def end_sessions(self):
        for connection in self.open:
            with contextlib.suppress(OSError):
                connection.shutdown(socket.SHUT_RDWR)


class Ruled(Answering):
    """A session of it. The server keeps lines that do not fit what is pending, and the timestamps of commits whose first line was refused."""

    def handle(self):
        last, stamp, is_pending, is_known = 0, 0, False, True
        self.server.open.append(self.connection)
        for line in self.rfile:
            number, floor = map(int, line.split()[1:])
            is_other = number > last and is_pending
            scripted = self.server.script.pop(0) if self.server.script and not is_other else ""
            if (is_other and is_known) or number < last:
                self.server.wrong.append(line.decode().strip())
            if is_other:
                word = "refused 1104"
            elif number > last and ("refused" not in scripted or BEGINS in scripted):
                self.server.stamp = max(self.server.stamp + 1000, floor)
                last, stamp, is_pending, is_known = number, self.server.stamp, True, BEGINS not in scripted
                word = f"waiting {number} {stamp}"
                self.server.refused |= set() if is_known else {stamp}
            else:
                word, is_pending = f"committed {number} {stamp}", is_pending and "refused" in scripted
            if ENDS in scripted:
                self.server.has_ended.clear()
            if scripted != ENDS:
                self.wfile.write(f"{scripted.replace(ENDS, '').replace(BEGINS, '').strip() or word}\n".encode())
            if ENDS in scripted:
                self.connection.shutdown(socket.SHUT_RDWR)
                self.server.has_ended.set()
                return


# What the service says of the first lines, where that is not by the rules, and what the loop says of its first commits.
SCRIPTS = {
    "refused while it waits": (["", "refused 1824"], ["refused 1824"]),
    "refused while it waits, and ended": (["", f"refused 1824 {ENDS}"], ["refused 1824"]),
    "refused twice": (["", "refused 1824", "refused 1823"], ["refused 1824", "refused 1823"]),
    "pending no more": (["", "refused 1824", "refused 1822"], ["refused 1824"]),
    "pending no more while it waits": (["", "refused 1822"], ["refused 1822"]),
    "another commit is the last": (["", "refused 1824", "refused 1103"], ["refused 1824"]),
    "refused at once": (["refused 1824"], ["refused 1824"]),
    "refused, and begun": ([f"refused 1824 {BEGINS}"], ["refused 1824"]),
    "refused and begun, and refused": ([f"refused 1824 {BEGINS}", "refused 1824"], ["refused 1824"] * 2),
    "ended while it waits": (["", ENDS], ["failed"]),
    "ended at once": ([ENDS], ["failed"]),
    "ended behind a refusal, and then while it waits": (["", f"refused 801 {ENDS}", "", ENDS], ["refused 801", "failed"]),
    "ended behind a reply": (["", f"{ENDS} committed 1 1000"], [""]),
}


def try_script(trial, name, words, what):
    """A loop whose first commits end so, and all further ones well."""
    script, said = SCRIPTS[what]
    with Scripted(script) as server, loop_at(f"tcp {server.server_address[1]}", trial, f"{name}: {what}", words) as loop:
        for wanted in said:
            trial.equal(loop.name, loop.commits(), wanted)
            server.has_ended.wait(10)
        loop.keeps_on()
        trial.equal(f"{loop.name}: lines that do not fit", server.wrong, [])
        trial.equal(f"{loop.name}: timestamps of other commits", server.refused & loop.stamps, set())


@suite.case()
def loops_through_replies(trial):
    """A loop of commits beside a service that refuses or ends the session at each step of a commit."""
    probes = list(session_probes(trial.shared))
    with ThreadPoolExecutor() as pool:
        list(pool.map(lambda tried: try_script(trial, *tried[0], tried[1]), [(probe, what) for probe in probes for what in SCRIPTS]))
    trial.note(f"{len(probes)} kinds of sessions, {len(SCRIPTS)} conversations each; {len(trial.result.wrong)} wrong")


def try_begun(loop, server):
    """A commit that a user has begun, whose timestamp is known: it stays until it was waited for, or its connection broke."""
    stamp = loop.probe.say("begin 0")
    for call in ("commit 0", "begin 0"):
        loop.wants(call, f"refused 1104 1 {stamp}")
    loop.wants("wait", stamp)
    stamp = loop.probe.say("begin 0")
    server.end_sessions()
    loop.wants("commit 0", f"failed 2 {stamp}")
    loop.wants("wait", "invalid")
    # The service knows of it no more.
    loop.probe.say("begin 0")
    server.script = ["refused 1822"]
    loop.wants("wait", "refused 1822")
    loop.wants("wait", "invalid")
    loop.keeps_on()
    # What one commit left pending is nothing to wait for once another one was wanted.
    server.script = ["", "refused 1824", "refused 1823"]
    loop.wants("commit 0", "refused 1824")
    loop.wants("commit 0", "refused 1823")
    loop.wants("wait", "invalid")
    loop.keeps_on()


@suite.case()
def commits_that_were_begun(trial):
    """`commit` leaves a commit of `begin` to its user, with its timestamp and its number in the error."""
    for probe in session_probes(trial.shared):
        with Scripted() as server, loop_at(f"tcp {server.server_address[1]}", trial, *probe) as loop:
            try_begun(loop, server)
            trial.equal(f"{loop.name}: lines that do not fit", server.wrong, [])


def tell_slow_connection(name, words):
    """A session that has ended, and whose next connection takes a second: SYN is sent again then. No reply comes there. What the call gives,
    and how long it takes, in seconds."""
    with socket.socket() as listener, Reader(words, "session") as probe:
        listener.bind(("127.0.0.1", 0))
        listener.listen(0)
        if (opened := probe.say(f"open tcp {listener.getsockname()[1]} 1600")) != "open":
            return opened, 0
        end_connection(listener.accept()[0])
        with filled(listener):
            began = time.monotonic()
            probe.probe.stdin.write("now\n")
            time.sleep(0.3)
        listener.setblocking(False)
        with contextlib.suppress(BlockingIOError):
            while True:
                listener.accept()[0].close()
        said = probe.probe.stdout.readline().strip()
        took = time.monotonic() - began
        return said if probe.say("close") == "closed" else "not closed", took


def try_slow_connection(trial, name, words):
    """It takes no longer than the time-out, in one of two tries on a busy host."""
    for _ in range(2):
        said, took = tell_slow_connection(name, words)
        if said == "timed out" and 1.5 <= took <= 2.2:
            break
    trial.equal(f"{name}: no reply on a new connection", said, "timed out")
    trial.between(f"{name}: in seconds", 1.5, took, 2.2)


def said_behind_slow_connection(trial, name, words):
    """A session that has ended, whose next connection takes a second, and a reply there that takes another one: what the calls give."""
    with socket.socket() as listener, Reader(words, "session") as probe:
        listener.bind(("127.0.0.1", 0))
        listener.listen(0)
        wants(trial, name, probe.say, f"open tcp {listener.getsockname()[1]} 1800", "open")
        end_connection(listener.accept()[0])
        listener.settimeout(10)
        with filled(listener):
            probe.probe.stdin.write("now\n")
            time.sleep(0.3)
        came = b""
        while came != b"now\n":  # the others have left
            one, _ = listener.accept()
            one.settimeout(10)
            with contextlib.suppress(OSError):
                came = one.recv(100)
        said = []
        for pause_s, reply in (0, b"now 5 15\n"), (1.2, b"now 7 9\n"):
            time.sleep(pause_s)
            with one.dup() as door, contextlib.suppress(OSError):  # it may have given up
                door.sendall(reply)
            said.append(probe.probe.stdout.readline().strip())
            probe.probe.stdin.write("close\n" if pause_s else "now\n")
        one.close()
        return said + [probe.probe.stdout.readline().strip()]


def try_behind_slow_connection(trial, name, words):
    """The reply has the whole time-out, in one of two tries on a busy host."""
    for _ in range(2):
        said = said_behind_slow_connection(trial, name, words)
        if said == ["5 15", "7 9", "closed"]:
            return
    trial.equal(f"{name}: a slow connection, and a slow reply behind it", said, ["5 15", "7 9", "closed"])


@suite.case()
def whole_time_out_behind_a_slow_connection(trial):
    """What connecting anew takes off the time-out of one call it takes off no later one."""
    try_at_once(trial, try_behind_slow_connection)


@suite.case()
def time_of_connecting_anew(trial):
    """Connecting anew makes no call longer than its time-out."""
    try_at_once(trial, try_slow_connection)


# Beside a machine.

def begin_late(loop):
    """Commits with a floor that is ahead, so that it waits when something happens; the error."""
    return loop.commits(time.time_ns() + 3 * SECOND)


@contextlib.contextmanager
def in_the_midst(opened, errors, seconds=0.4):
    """Lets all loops wait for a commit; the block is made meanwhile. It has to end by one of these errors."""
    with ThreadPoolExecutor(1) as pool:
        said = pool.submit(at_once, opened, begin_late)
        time.sleep(seconds)
        yield
        for loop, error in zip(opened, said.result()):
            loop.trial.check(loop.name, error in errors, f"in the midst of a commit: {error!r} in place of one of {errors}")


@suite.case()
def loops_through_widening(trial):
    """A loop of commits while the masters stand still, until readings are wider than may be, and behind that."""
    masters = trial.masters(3)
    machine = trial.fleet({"A": masters}, poll="50ms", max_width="300ms", drift=100_000, floor_ahead="10s")["A"]
    with loops_at(f"tcp {machine.address[1]}", trial) as opened:
        at_once(opened, Loop.keeps_on)
        with in_the_midst(opened, ["refused 1824"]):
            for master in masters:
                master.running.send_signal(signal.SIGSTOP)
        for said in at_once(opened, Loop.commits):
            trial.equal("while readings are too wide", said, "refused 1824")
        for master in masters:
            master.running.send_signal(signal.SIGCONT)
        at_once(opened, lambda loop: loop.goes_on(["refused 1824"]))
        at_once(opened, Loop.keeps_on)
        note(trial, opened)


@suite.case()
def loops_through_restarts(trial):
    """A loop of commits while a machine is killed, stays away, and is started again at its address."""
    machine = trial.fleet({"A": trial.masters(3)}, poll="100ms", floor_ahead="10s")["A"]
    with loops_at(f"tcp {machine.address[1]}", trial) as opened:
        at_once(opened, Loop.keeps_on)
        for _ in range(2):
            with in_the_midst(opened, ["failed"]):
                machine.kill()
            for said in at_once(opened, Loop.commits):
                trial.equal("while it is away", said, "failed")
            machine.start()
            at_once(opened, lambda loop: loop.goes_on(["failed", "refused 801"]))
            at_once(opened, Loop.keeps_on)
        # One that was restarted while nothing was asked.
        machine.restart()
        machine.wait_until_ready()
        at_once(opened, Loop.keeps_on)
        note(trial, opened)


IDLE_S = 3


def try_idleness(loop):
    """A session that is closed again and again, since it was silent for a second."""
    loop.keeps_on(2)
    for call in (lambda: loop.keeps_on(1), lambda: loop.wants("after 1", "yes"), lambda: loop.wants(f"before {MAX}", "yes")):
        time.sleep(IDLE_S)
        call()
    stamp = loop.probe.say("begin 0")
    time.sleep(IDLE_S)
    loop.wants("commit 0", f"failed 1 {stamp}")
    loop.keeps_on(2)
    loop.wants(f"lease 0 {MAX}", f"leased 0 {MAX}")
    time.sleep(IDLE_S)
    loop.wants("commit 0", "failed lease")
    loop.wants("commit 0", "refused 903")
    loop.wants(f"lease 0 {MAX}", f"leased 0 {MAX}")
    loop.keeps_on(2)


@suite.case()
def loops_through_idle_times(trial):
    """A session that the machine closes since it is idle: its next call succeeds, unless a commit of `begin` or a lease is lost by that."""
    machine = trial.fleet({"A": trial.masters(3)}, poll="100ms", idle="1s")["A"]
    with loops_at(f"tcp {machine.address[1]}", trial) as by_tcp, loops_at(f"unix {machine.path('socket')}", trial) as by_path:
        at_once([*by_tcp, *by_path], try_idleness)
        note(trial, [*by_tcp, *by_path])
