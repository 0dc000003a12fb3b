"""Cases of the suite `clients`: no wait is longer than it has to be, in each language.

A wait is judged by a sleep of the same length beside it, which this process makes with a question to the same probe. The host may be busy, so
one of many tries has to be short enough; where none is, the shortest of the waits counts against the shortest of the sleeps. No wait ends
early.
"""
import contextlib
import os
import signal
import socket
import statistics
import threading
import time
from concurrent.futures import ThreadPoolExecutor

from harness.faults import filled
from suites.clients import MAX, Reader, session_probes, suite, try_at_once
from suites.clients_of_openings import Answering, Listening
from suites.clients_of_stampers import Shared

# How much longer than a sleep a wait may be, and how often that is tried.
MORE, TRIES = 1.5, 40
MS = 1_000_000


def tried(length_ms, call, question):
    """The shortest of these calls, and of sleeps of that length with a question, in milliseconds: of as many tries as it takes."""
    shortest, beside = 10**9, 10**9
    for _ in range(TRIES):
        began = time.monotonic()
        call()
        called = time.monotonic()
        time.sleep(length_ms / 1000)
        question()
        shortest, beside = min(shortest, 1000 * (called - began)), min(beside, 1000 * (time.monotonic() - called))
        if shortest <= MORE * length_ms:
            break
    return shortest, beside


def judge(trial, what, length_ms, call, question, least_ms=None):
    """Tries a call that has to take so long, or at least that much of it, and no longer."""
    shortest, beside = tried(length_ms, call, question)
    least_ms = length_ms if least_ms is None else least_ms
    is_right = least_ms <= shortest <= MORE * max(length_ms, beside if beside < 10**9 else 0)
    trial.check(what, is_right, f"{shortest:.1f} ms, beside a sleep of {length_ms} ms that took {beside:.1f}")


def judge_usual(trial, what, length_ms, call):
    """The same of a call that may be over at once where the host is busy: half of five take no longer than half of five sleeps, in one of three
    tries. How long the longest call takes, in milliseconds."""
    longest = 0
    for _ in range(3):
        calls, sleeps = [], []
        for _ in range(5):
            began = time.monotonic()
            call()
            called = time.monotonic()
            time.sleep(length_ms / 1000)
            calls.append(1000 * (called - began))
            longest = max(longest, calls[-1])
            sleeps.append(1000 * (time.monotonic() - called))
        usual, beside = statistics.median(calls), statistics.median(sleeps)
        if usual <= MORE * beside:
            break
    trial.check(what, usual <= MORE * beside, f"{usual:.1f} ms, beside a sleep of {length_ms} ms that took {beside:.1f}")
    return longest


def wants(trial, what, say, line, wanted):
    said = say(line)
    trial.check(what, said == wanted, f"{line}: {said!r} in place of {wanted!r}")


def stamp_and_wait(trial, what, say):
    """A commit that waits for its own stamp."""
    stamp = say("stamp 0").split()[1]
    wants(trial, what, say, f"wait {stamp} 60000", "yes")


def wait_ahead(trial, what, say, shared, ahead_ms):
    """A wait for a stamp that is so far ahead of the earliest."""
    wants(trial, what, say, f"wait {shared.now() + ahead_ms * MS} 60000", "yes")


def wait_for_publication(trial, what, say, shared, after_ms):
    """A wait that is over by a publication that comes so long after its beginning."""
    shared.publish()
    stamp = shared.now() + 60_000 * MS
    later = threading.Timer(after_ms / 1000, lambda: shared.publish(ahead=90_000 * MS))
    later.start()
    wants(trial, what, say, f"wait {stamp} 10000", "yes")
    later.join()


def try_stamper(trial, name, words):
    """The waits of a stamper."""
    path = os.path.join(trial.room, "waits")
    with Shared(path, name) as shared, Reader(words, "stamper") as probe:
        late = threading.Timer(120, probe.probe.kill)
        late.start()
        say = probe.say
        wants(trial, name, say, f"open {path} 0 {MAX}", "open")
        shared.publish()
        for _ in range(200):  # until a runtime has compiled what it runs often
            say("past 0")

        def question():
            say("past 0")

        for width_ms in 4, 10, 30:
            what = f"{name}: a commit, where readings are {width_ms} ms wide"
            shared.publish(early=width_ms * MS // 2, late=width_ms * MS // 2)
            judge(trial, what, width_ms, lambda what=what: stamp_and_wait(trial, what, say), question)
        shared.publish()
        for ahead_ms in 5, 20, 70:
            what = f"{name}: {ahead_ms} ms ahead"
            judge(trial, what, ahead_ms, lambda what=what, ahead_ms=ahead_ms: wait_ahead(trial, what, say, shared, ahead_ms), question)
        for timeout_ms in 5, 20, 70:
            what = f"{name}: a time-out of {timeout_ms} ms"
            judge(trial, what, timeout_ms, lambda what=what, ms=timeout_ms: wants(trial, what, say, f"wait {MAX} {ms}", "no"), question)
        what = f"{name}: what has passed"
        judge(trial, what, 5, lambda: wants(trial, what, say, f"wait {shared.now() - MS} 60000", "yes"), question, 0)
        what_later = f"{name}: a new publication"
        # A stamper looks each 50 milliseconds: it is over at the end of the first sleep, and not before.
        longest = judge_usual(trial, what_later, 50, lambda: wait_for_publication(trial, what_later, say, shared, 10))
        trial.check(f"{what_later}, before the sleep is over", longest >= 45, f"no wait lasts longer than {longest:.1f} ms")
        late.cancel()


@suite.case()
def waits_of_stampers(trial):
    """Commit waits are as long as readings are wide, others as long as the stamp is ahead or the time-out."""
    for name, words in trial.shared:
        before = len(trial.result.wrong)
        try_stamper(trial, name, words)
        trial.note(f"{name}: {len(trial.result.wrong) - before} wrong")


# Sessions.

class Releasing(Answering):
    """A session whose commits are released 30 milliseconds after they began, but for the one that `never` names. It keeps how long a line came
    after the reply to the same one: from the third time on, since a wait begins with a line."""
    wait_s = 0.03

    def handle(self):
        begun, told = {}, {}
        for line in self.rfile:
            number, now = line.split()[1], time.monotonic()
            if number in told and number != self.server.never:
                self.server.pauses.append(1000 * (now - told[number]))
            is_over = now > begun.get(number, now) + self.wait_s and number != self.server.never
            if number in begun:
                told[number] = time.monotonic()
            begun.setdefault(number, now)
            self.wfile.write(b"%s %s 200\n" % (b"committed" if is_over else b"waiting", number))


TIMEOUT_MS = 150
# What the system may take off a time-out, since it counts in ticks.
TICK_MS = 11
# How much longer than a reply the probe in Go lets a wait take: the one is the session's time-out, the other that of the wait's context.
GO_WAITS_LONGER_MS = 300
COMMITS = 5


def shortest_sleep_ms(sleeps):
    """The shortest of so many sleeps of a millisecond, in milliseconds."""
    began = [time.monotonic()]
    for _ in range(sleeps):
        time.sleep(0.001)
        began.append(time.monotonic())
    return 1000 * min(later - earlier for earlier, later in zip(began, began[1:]))


def try_pauses(trial, what, say, releasing):
    """Commits that wait, whose lines come a millisecond behind the reply before."""
    for _ in range(COMMITS):
        wants(trial, what, say, "commit 0", "200")
    pauses, beside = sorted(releasing.pauses), shortest_sleep_ms(20)
    trial.check(what, len(pauses) >= COMMITS // 2 and 0.95 <= pauses[0] <= 3 * beside,
                f"{len(pauses)} lines came again, after {pauses[:3]} ms at the soonest, beside a sleep that took {beside:.1f}")


def try_session(trial, name, words, silent, full):
    """The waits of a session: of its time-outs, and between its lines."""
    with Listening(Releasing) as releasing, Reader(words, "session") as probe:
        late = threading.Timer(120, probe.probe.kill)
        late.start()
        releasing.pauses, releasing.never, say = [], b"%d" % (COMMITS + 1), probe.say
        wants(trial, name, say, f"open tcp {releasing.server_address[1]} {TIMEOUT_MS}", "open")
        try_pauses(trial, f"{name}: lines of a wait", say, releasing)
        wants(trial, name, say, "begin 0", "200")
        ways = {"no release in time": "wait", "no reply in time": "now", "no connection in time": f"open tcp {full} {TIMEOUT_MS}"}
        for what, line in ways.items():
            if line == "now":
                wants(trial, name, say, "close", "closed")
                wants(trial, name, say, f"open tcp {silent} {TIMEOUT_MS}", "open")
            what, longest_ms = f"{name}: {what}", TIMEOUT_MS + (GO_WAITS_LONGER_MS if line == "wait" and name.startswith("Go") else 0)
            judge(trial, what, longest_ms, lambda what=what, line=line: wants(trial, what, say, line, "timed out"), lambda: None,
                  longest_ms - TICK_MS)
        late.cancel()


class Slow(Answering):
    """A session that answers each line a tenth of a second later."""

    def handle(self):
        for _ in self.rfile:
            time.sleep(0.1)
            self.wfile.write(self.reply)


@suite.case()
def signals(trial):
    """A signal that has a handler, and comes while a session of C or C++ waits for its reply, ends no call."""
    with Listening(Slow) as slow:
        for name, words in session_probes(trial.shared):
            if name.startswith("C"):
                with Reader(words, "session") as probe:
                    lines = [(f"open tcp {slow.server_address[1]} 30000", "open"), *[("signal", "signal"), ("now", "5 15")] * 4, ("close", "closed")]
                    for line, wanted in lines:
                        wants(trial, name, probe.say, line, wanted)


class Silent(Answering):
    """A session without replies."""
    reply = b""


@contextlib.contextmanager
def interrupted(probe):
    """Stops a probe and lets it go on again each 5 milliseconds: that interrupts what waits with a time-out, as signals do."""
    ended = threading.Event()

    def interrupt():
        while not ended.wait(0.005):
            for number in signal.SIGSTOP, signal.SIGCONT:
                probe.send_signal(number)

    thread = threading.Thread(target=interrupt)
    thread.start()
    try:
        yield
    finally:
        ended.set()
        thread.join()
        probe.send_signal(signal.SIGCONT)


def let_all_in(full):
    """Lets in those that wait, and one more."""
    full.settimeout(10)
    with contextlib.suppress(OSError):
        for _ in range(3):
            full.accept()


def try_interrupted(trial, name, words, silent):
    """The waits of a session that is interrupted again and again: for a reply and for a connection that do not come, and for one that does."""
    with full_socket() as full, Reader(words, "session") as probe:
        late = threading.Timer(60, probe.probe.kill)
        late.start()
        for what, opened, line in [("no reply", silent, "now"), ("no connection", None, f"open tcp {full.getsockname()[1]} 200")]:
            if opened:
                wants(trial, name, probe.say, f"open tcp {opened} 200", "open")
            with interrupted(probe.probe):
                began = time.monotonic()
                wants(trial, f"{name}: {what}", probe.say, line, "timed out")
                trial.between(f"{name}: {what}, in ms", 190, 1000 * (time.monotonic() - began), 2000)
        let_in = threading.Timer(0.2, let_all_in, [full])
        let_in.start()
        with interrupted(probe.probe):
            wants(trial, f"{name}: a connection", probe.say, f"open tcp {full.getsockname()[1]} 20000", "open")
        let_in.join()
        late.cancel()


@suite.case()
def signals_that_come_often(trial):
    """Signals that come more often than a time-out make no wait of C, C++ and Rust longer, and no connection fail."""
    with Listening(Silent) as silent:
        for name, words in session_probes(trial.shared):
            if name.startswith(("C", "Rust")):
                try_interrupted(trial, name, words, silent.server_address[1])


class OneByOne(Answering):
    """A session that answers its first line after 1.2 seconds, and the others after 0.8 seconds."""

    def handle(self):
        for number, _ in enumerate(self.rfile):
            time.sleep(0.8 if number else 1.2)
            self.wfile.write(self.reply)


def try_whole_again(trial, name, words, address):
    """A reply that comes late in a call that is interrupted again and again, and one of the next call, which has the whole time-out again."""
    with Reader(words, "session") as probe:
        wants(trial, name, probe.say, f"open tcp {address} 1600", "open")
        with interrupted(probe.probe):
            wants(trial, f"{name}: a late reply between signals", probe.say, "now", "5 15")
        wants(trial, f"{name}: a reply behind these signals", probe.say, "now", "5 15")


@suite.case()
def whole_time_out_behind_signals(trial):
    """What signals take off the time-out of one call of C, C++ and Rust they take off no later one."""
    probes = [probe for probe in session_probes(trial.shared) if probe[0].startswith(("C", "Rust"))]
    with Listening(OneByOne) as late, ThreadPoolExecutor() as pool:
        list(pool.map(lambda probe: try_whole_again(trial, *probe, late.server_address[1]), probes))


@suite.case()
def interrupts(trial):
    """A thread of Java that is interrupted while it waits for a release is told, and still counts as interrupted."""
    with Listening(Releasing) as releasing:
        releasing.pauses, releasing.never = [], b"1"
        for name, words in session_probes(trial.shared):
            if name == "Java":
                with Reader(words, "session") as probe:
                    for _ in range(5):  # some come while it sends a line, and most while it pauses
                        lines = [(f"open tcp {releasing.server_address[1]} 30000", "open"), ("begin 0", "200"), ("interrupt", "interrupt"),
                                 ("wait", "failed"), ("interrupted", "yes")]
                        for line, wanted in lines:
                            said = probe.say(line).removesuffix(" 1 200")  # it fails by its connection where it sends a line
                            trial.check(name, said == wanted, f"{line}: {said!r} in place of {wanted!r}")


@contextlib.contextmanager
def full_socket(address=("127.0.0.1", 0)):
    """A socket that lets nobody in any more: one of TCP, or one at a path."""
    family = socket.AF_UNIX if isinstance(address, str) else socket.AF_INET
    with socket.socket(family) as full:
        full.bind(address)
        full.listen(0)
        with filled(full):
            yield full


def try_full_path(trial, name, words, path):
    """Connecting at the path of a socket that lets nobody in."""
    what = f"{name}: no connection in time at a socket"
    with Reader(words, "session") as probe:
        late = threading.Timer(60, probe.probe.kill)
        late.start()
        judge(trial, what, TIMEOUT_MS, lambda: wants(trial, what, probe.say, f"open unix {path} {TIMEOUT_MS}", "timed out"), lambda: None,
              TIMEOUT_MS - TICK_MS)
        late.cancel()


@suite.case()
def waits_at_full_paths(trial):
    """The time-out of C, C++, Python and Go is that of connecting to a Unix socket, too. In Rust and Java that has none."""
    path = os.path.join(trial.room, "full")
    with full_socket(path):
        for name, words in session_probes(trial.shared):
            if name.startswith(("C", "Python", "Go")):
                try_full_path(trial, name, words, path)


@suite.case()
def waits_of_sessions(trial):
    """Time-outs of connecting, of a reply and of a release are no longer than was said, and a commit is asked for each millisecond."""
    with Listening(Silent) as silent, full_socket() as full:
        try_at_once(trial, try_session, silent.server_address[1], full.getsockname()[1])
