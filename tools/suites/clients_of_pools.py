"""Cases of the suite `clients`: pools of sessions, in each language that has them.

`PROBE pool` reads lines, and answers each:

    open NETWORK WHERE SIZE MILLISECONDS
        makes a pool of so many sessions at a port of this host (`tcp`) or at the path of a socket (`unix`); the time-out is that of its
        sessions and of the wait for one
    commits THREADS EACH
        commits so often in each of so many threads, without a floor: `N stamps, N different, N errors`
    alone THREADS EACH
        the same, where each thread keeps one session for all of its commits
    hold
        takes a session out of the pool, and keeps it: `held`
    begin
        begins a commit in the session that was taken last: its timestamp
    free
        gives back all that are out: `freed`
    close
        closes the pool: `closed`

C has no pool: a program keeps `tt_session`s in a list of its own.
"""
import contextlib
import socket
import threading
import time

from harness.processes import free_port
from suites.clients import Reader, session_probes, suite
from suites.clients_of_openings import Answering, Listening
from suites.clients_of_waits import wants

# Who has a pool.
POOLED = {"Python", "Python asyncio", "Rust", "Java", "Go"}
SIZE, THREADS, EACH = 4, 16, 10
SHORT_MS = 200


class Counted(Listening):
    """A stand-in for the service that keeps how many sessions were opened and are open, and the most that were open at once. Where it `refuses`, it
    does so once, at the first line of a commit."""

    def __init__(self, port=0):
        self.lock, self.open, self.opened, self.most, self.stamp, self.wrong = threading.Lock(), [], 0, 0, 1000, []
        self.refuses = False
        super().__init__(Releasing, ("127.0.0.1", port))

    def end_sessions(self):
        """Ends all sessions; they are gone for their clients then."""
        with self.lock:
            ended, self.open = self.open, []
        for connection in ended:
            with contextlib.suppress(OSError):
                connection.shutdown(socket.SHUT_RDWR)

    def comes_to(self, wanted, seconds=10):
        """Whether so many sessions are open, sooner or later."""
        give_up = time.monotonic() + seconds
        while len(self.open) != wanted and time.monotonic() < give_up:
            time.sleep(0.01)
        return len(self.open) == wanted


class Releasing(Answering):
    """A session that releases each commit at its second line. A further commit may not begin before that."""

    def setup(self):
        super().setup()
        with self.server.lock:
            self.server.open.append(self.connection)
            self.server.opened += 1
            self.server.most = max(self.server.most, len(self.server.open))

    def handle(self):
        last, stamp, is_pending = 0, 0, False
        with contextlib.suppress(ConnectionError):
            for line in self.rfile:
                number = int(line.split()[1])
                if self.server.refuses:
                    self.server.refuses = False
                    self.wfile.write(b"refused 801\n")
                    continue
                if number == last:
                    is_pending = False
                elif is_pending or number != last + 1:
                    self.server.wrong.append(line.decode().strip())
                else:
                    with self.server.lock:
                        self.server.stamp += 1
                        last, stamp, is_pending = number, self.server.stamp, True
                self.wfile.write(f"{'waiting' if is_pending else 'committed'} {number} {stamp}\n".encode())

    def finish(self):
        with self.server.lock, contextlib.suppress(ValueError):
            self.server.open.remove(self.connection)
        with contextlib.suppress(OSError):
            super().finish()


def pool_probes(trial):
    """The probes that have a pool."""
    found = [(name, words) for name, words in session_probes(trial.shared) if name in POOLED]
    trial.note(f"pools: {', '.join(name for name, _ in found)}")
    return found


def try_pool(trial, name, probe, server):
    """A pool of four sessions beside a stand-in."""
    def said(line, wanted):
        wants(trial, name, probe.say, line, wanted)

    all_went_well = f"{THREADS * EACH} stamps, {THREADS * EACH} different, 0 errors"
    said(f"open tcp {server.server_address[1]} {SIZE} 10000", "open")
    trial.equal(f"{name}: sessions of a new pool", server.opened, 0)
    # One thread after the other has one session, and many threads have as many as there may be.
    said("commits 1 5", "5 stamps, 5 different, 0 errors")
    said("alone 1 5", "5 stamps, 5 different, 0 errors")
    trial.equal(f"{name}: sessions of one thread", server.opened, 1)
    said(f"commits {THREADS} {EACH}", all_went_well)
    trial.between(f"{name}: sessions of {THREADS} threads", 2, server.most, SIZE)
    # What has ended meanwhile is found before it is used.
    server.end_sessions()
    time.sleep(0.05)
    said(f"commits {THREADS} {EACH}", all_went_well)
    # What is out is nobody else's, and what comes back with a pending commit is closed.
    for _ in range(SIZE - 1):
        said("hold", "held")
    said("commits 2 3", "6 stamps, 6 different, 0 errors")
    said("free", "freed")
    before = server.opened
    said("hold", "held")
    trial.equal(f"{name}: sessions that came back are used again", server.opened, before)
    said("begin", str(server.stamp + 1))
    opened = len(server.open)
    said("free", "freed")
    trial.check(f"{name}: one that comes back with a pending commit", server.comes_to(opened - 1), f"{len(server.open)} are open of {opened}")
    # Nor is one used again whose commit was refused, and may have begun all the same.
    opened, server.refuses = len(server.open), True
    said("commits 1 1", "0 stamps, 0 different, 1 errors")
    trial.check(f"{name}: one that comes back behind a refusal", server.comes_to(opened - 1), f"{len(server.open)} are open of {opened}")
    said(f"commits {THREADS} {EACH}", all_went_well)
    # One that is out when the pool is closed stays with who has it, and is closed then. Nobody gets another one.
    said("hold", "held")
    said("close", "closed")
    trial.check(f"{name}: idle ones are closed with the pool", server.comes_to(1), f"{len(server.open)} are open")
    said("begin", str(server.stamp + 1))
    said("free", "freed")
    trial.check(f"{name}: all are closed with the pool", server.comes_to(0), f"{len(server.open)} are open")
    said("commits 2 2", "0 stamps, 0 different, 4 errors")
    said("hold", "failed")
    trial.equal(f"{name}: lines that do not fit", server.wrong, [])


def try_full_pool(trial, name, probe, server):
    """A pool all of whose sessions are out: who wants one waits as long as the time-out says."""
    def said(line, wanted):
        wants(trial, name, probe.say, line, wanted)

    said(f"open tcp {server.server_address[1]} 2 {SHORT_MS}", "open")
    said("hold", "held")
    said("hold", "held")
    began = time.monotonic()
    said("hold", "timed out")
    trial.between(f"{name}: milliseconds without a session", SHORT_MS - 10, 1000 * (time.monotonic() - began), 20_000)
    said("commits 3 1", "0 stamps, 0 different, 3 errors")
    said("free", "freed")
    said("commits 3 1", "3 stamps, 3 different, 0 errors")
    trial.equal(f"{name}: sessions", server.opened, 2)
    said("close", "closed")


def try_pool_of_nobody(trial, name, probe, _):
    """A pool of one session at a port where nobody listens until later: an opening that fails takes no place."""
    port = free_port(socket.SOCK_STREAM)
    wants(trial, name, probe.say, f"open tcp {port} 1 2000", "open")
    wants(trial, name, probe.say, "commits 1 3", "0 stamps, 0 different, 3 errors")
    with Counted(port) as later:
        wants(trial, name, probe.say, "commits 2 3", "6 stamps, 6 different, 0 errors")
        trial.equal(f"{name}: sessions once somebody listens", later.opened, 1)
        wants(trial, name, probe.say, "close", "closed")


@suite.case()
def pools(trial):
    """Pools beside a stand-in: how many sessions there are, and which of them are used again."""
    for name, words in pool_probes(trial):
        for attempt in (try_pool, try_full_pool, try_pool_of_nobody):
            with Counted() as server, Reader(words, "pool") as probe:
                attempt(trial, name, probe, server)


@suite.case()
def pools_of_machines(trial):
    """Pools beside a machine that is started again, over TCP and a Unix socket: all timestamps differ, and rise over its lives."""
    machine = trial.fleet({"A": trial.masters(3)}, poll="100ms")["A"]
    for name, words in pool_probes(trial):
        for address in f"tcp {machine.address[1]}", f"unix {machine.path('socket')}":
            with Reader(words, "pool") as probe:
                wants(trial, name, probe.say, f"open {address} {SIZE} 10000", "open")
                for _ in range(2):
                    wants(trial, name, probe.say, "commits 8 3", "24 stamps, 24 different, 0 errors")
                    machine.restart()
                    machine.wait_until_ready()
                wants(trial, name, probe.say, "commits 8 3", "24 stamps, 24 different, 0 errors")
                wants(trial, name, probe.say, "close", "closed")


@suite.case()
def rates_of_pools(trial):
    """Commits a second by a pool with a session for each of 1, 8 and 64 threads, and by threads that keep theirs: told, not judged."""
    machine = trial.fleet({"A": trial.masters(3)}, poll="20ms")["A"]
    for name, words in pool_probes(trial):
        rates = {"commits": [], "alone": []}
        for threads in 1, 8, 64:
            with Reader(words, "pool") as probe:
                each = max(64 // threads, 4)
                wants(trial, name, probe.say, f"open unix {machine.path('socket')} {threads} 20000", "open")
                probe.say(f"commits {threads} 1")
                for way, told in rates.items():
                    began = time.monotonic()
                    wants(trial, name, probe.say, f"{way} {threads} {each}", f"{threads * each} stamps, {threads * each} different, 0 errors")
                    told.append(f"{threads * each / (time.monotonic() - began):.0f}")
                wants(trial, name, probe.say, "close", "closed")
        trial.note(f"{name}: commits a second at 1, 8 and 64 threads: {' '.join(rates['commits'])} by a pool, {' '.join(rates['alone'])} by sessions")
