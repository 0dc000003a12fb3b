"""Scenarios of the suite `wiring`: a master over servers of NTP of a script. Each of its options, of the numbers of its status and of the lines
of its log is what its name says. What a reply says is worked out in harness/ntp.py, apart from the program."""
import contextlib
import itertools
import os
import socket
import threading
import time

from harness.faults import Network, Spoils
from harness.metrics import faults_in, numbers_in
from harness.ntp import PACKET, SHORT, FakeServer, Key, Says, kiss, nonce_in, request_of, stamp_of
from harness.processes import SECOND
from harness.program import read_text, write
from harness.wire import ANSWER_BYTES, REQUEST, Poll, answer_to, ends_in
from suites.wiring import suite
from suites.wiring_checks import OF_MASTERS, eventually, number_of
from suites.wiring_of_masters import EPOCH, MACHINE, Asked, Spoiled

OFTEN = "100ms"
#: What an answer may be wider than it has to be, and how late something may come: the host may be busy.
SLACK_NS, SOON_S, MS = 100_000_000, 15.0, 1_000_000
#: Between two polls of those that come all the while.
PAUSE_S = 0.05
DAY_S, NOON_S = 86_400, 43_200


class Polls(threading.Thread):
    """Polls a master again and again, since one on the host of its server asks that when it is polled."""

    def __init__(self, over):
        super().__init__(daemon=True)
        self.over, self.ended = over, threading.Event()
        self.start()

    def run(self):
        with socket.socket(socket.AF_INET, socket.SOCK_DGRAM) as door:
            door.connect(self.over.door.getpeername())
            while not self.ended.wait(PAUSE_S):
                with contextlib.suppress(OSError):
                    door.send(Poll(machine=MACHINE, source=self.over.source, epoch=EPOCH).packet)

    def close(self):
        self.ended.set()
        self.join()


class Over(Asked):
    """A master over servers, with a status, and a client of it."""
    number = 0

    def __init__(self, trial, servers, *flags, source=2, **options):
        Over.number += 1
        self.path = os.path.join(trial.room, f"status-{Over.number}")
        super().__init__(trial, source, *flags, ntp=[server.address for server in servers], status=[self.path], **options)
        trial.logs(self.process, "master_started", source=source, seconds=SOON_S)

    def polled(self, trial):
        """It is polled all the while."""
        trial.keep(Polls(self))
        return self

    def span(self, seconds=1.0):
        """The interval of its answer, and the real-time clock before and after; or nothing."""
        packet, before, after = self.poll(seconds)
        if not packet or packet[:REQUEST.size] != self.head() or len(packet) != ANSWER_BYTES:
            return None
        return *ends_in(packet), before, after

    def holds(self, ahead_ns=0, width_ns=None):
        """Whether it comes to answer an interval that holds the host's clock and so much more, about so wide."""
        def look():
            if not (span := self.span()):
                return False
            low, high, before, after = span
            is_right = low <= after + ahead_ns and before + ahead_ns <= high
            return is_right and (width_ns is None or width_ns <= high - low <= width_ns + SLACK_NS)
        return eventually(look, SOON_S, 0.05)

    def numbers(self):
        """Its status by the names of OF_MASTERS, those of servers as lists."""
        eventually(lambda: os.path.exists(self.path), SOON_S)
        text = read_text(self.path)
        found, numbers = {}, numbers_in(text.replace(f'{{source="{self.source}",', "{").replace(f'{{source="{self.source}"}}', ""))
        for name, line in OF_MASTERS.items():
            if "%d" in line:
                servers = [line % server for server in range(16) if line % server in numbers]
                found[name] = [number_of(numbers, sample) for sample in servers]
            else:
                found[name] = number_of(numbers, line)
        return found

    def comes_to(self, trial, seconds=SOON_S, **wanted):
        """Its status comes to have these numbers, all of them at once; all that it has then."""
        seen = [dict.fromkeys(wanted)]

        def look():
            seen.append(self.numbers())
            return all(seen[-1][name] == value for name, value in wanted.items())

        eventually(look, seconds, 0.05)
        for name, value in wanted.items():
            trial.equal(f"master {name}", seen[-1][name], value)
        return seen[-1]

    def is_silent(self, polls=3):
        return all(self.span(0.3) is None for _ in range(polls))


def tells_silence(trial, over, number):
    """Its log says why it is silent. Where a first reply was late, that was told, and nothing more of the kind for ten seconds."""
    trial.logs(over.process, "master_silent", SOON_S)
    told = {line["number"] for line in over.process.said("master_silent")}
    trial.check("log master_silent", str(number) in told or told == {"2402"}, f"no {number}, only {told}")


def servers_of(trial, *says):
    """Servers on loopback, each with what it says."""
    return [trial.keep(FakeServer(one)) for one in says]


def at_noon(**fields):
    """What a server says whose clock shows noon, so that no leap second is near."""
    return Says(ahead_ns=(NOON_S - time.time_ns() // SECOND % DAY_S) * SECOND, **fields)


def radius_ns(delay=0, dispersion=0):
    """What a server claims, without what is below a millisecond."""
    return (delay / 2 + dispersion) * SECOND / SHORT


@suite.case()
def servers_of_masters(trial):
    """It answers what its server says, and nothing of its host's clock."""
    for ahead_ns, delay, dispersion in ((0, 0, 655), (7 * SECOND, 6554, 0), (-9 * SECOND, 655, 13107)):
        server, = servers_of(trial, Says(ahead_ns=ahead_ns, delay=delay, dispersion=dispersion))
        over = Over(trial, [server], every=[OFTEN])
        trial.check("option ntp", over.holds(ahead_ns, 2 * radius_ns(delay, dispersion)), f"{over.span()} of a server {ahead_ns} ns ahead")
    server, = servers_of(trial, Says(elsewhere=Says(ahead_ns=30 * SECOND)))
    trial.check("option ntp", Over(trial, [server], every=[OFTEN]).holds(), "it takes what another address says")
    server, = servers_of(trial, Says(strays=10))
    trial.check("option ntp", Over(trial, [server], every=[OFTEN]).holds(), "ten packets before a reply hide it")
    server = trial.keep(FakeServer(host="::1"))
    trial.check("option ntp", Over(trial, [server], every=[OFTEN]).holds(), "no answer by a server at an address of IPv6")
    ran = trial.command("master", "--source", "0", "--listen", "127.0.0.1:1", "--ntp", "127.0.0.1:123", "--uncertainty", "5")
    trial.equal("option ntp", ran.status, 2)
    spoils = Spoils(trial.room)
    spoils.tell("random")
    ran = trial.command("master", "--source", "0", "--listen", "127.0.0.1:1", "--ntp", server.address, env=spoils.environment)
    trial.equal("option ntp", ran.answer, ("refused 1829\n", 4))


@suite.case()
def nonces_of_masters(trial):
    """Each request has 64 random bits of its own. Who saw one can't reply to the next: what lies in the socket before a request is no reply to it,
    be it a time, or a word that ends all requests."""
    server, = servers_of(trial, Says())
    over = Over(trial, [server], every=["500ms"]).polled(trial)
    eventually(lambda: len(server.requests) > 4, SOON_S)
    nonces = [nonce_in(request) for request in server.requests]
    near = [(one, other) for place, one in enumerate(nonces) for other in nonces[:place] if abs(one - other) < 2**32]
    trial.check("option ntp", len(nonces) > 4 and not near and 0 not in nonces, f"the nonces {nonces} are near to one another")
    # By chance one of 64 bits is the same in 40 requests once in 8,000 million times.
    other, = servers_of(trial, Says())
    quick = Over(trial, [other])
    eventually(lambda: quick.poll(0.1) and len(other.requests) >= 40, SOON_S)
    nonces, zeros, ones = [nonce_in(request) for request in other.requests], 2**64 - 1, 0
    for nonce in nonces:
        zeros, ones = zeros & nonce, ones | nonce
    trial.equal("option ntp", (len(nonces) >= 40, zeros, ones), (True, 0, 2**64 - 1))
    for lie in (Says(ahead_ns=3600 * SECOND), kiss("DENY")):
        asked = len(server.requests)
        eventually(lambda asked=asked: len(server.requests) > asked, SOON_S)
        seen = server.requests[-1]
        for guess in range(-1, 4):
            request = request_of((nonce_in(seen) + guess) % 2**64)
            server.door.sendto(FakeServer.reply_to(request, lie), server.client)
        replies = over.numbers()["server_replies_total"][0]
        over.comes_to(trial, server_silence=[0])
        trial.check("option ntp", eventually(lambda replies=replies: over.numbers()["server_replies_total"][0] > replies + 1, SOON_S), "no further reply is taken")
        trial.check("option ntp", over.holds(), f"{over.span()} after replies that nobody asked for")


@suite.case()
def strangers_of_masters(trial):
    """Packets of strangers to the socket by which a server is asked cost no reply, and packets of the server's address that lie there cost none."""
    server, = servers_of(trial, Says())
    over = Over(trial, [server], every=["400ms"]).polled(trial)
    trial.check("option ntp", over.holds(), "no answer")
    for door in (trial.keep(socket.socket(socket.AF_INET, socket.SOCK_DGRAM)), server.door):
        before = over.numbers()
        for _ in range(4):
            asked = len(server.requests)
            eventually(lambda asked=asked: len(server.requests) > asked, SOON_S)
            time.sleep(0.05)  # The reply has come, or comes too late.
            for _ in range(300):
                door.sendto(b"x", server.client)
        eventually(lambda asked=asked: len(server.requests) > asked + 4, SOON_S)
        after = over.numbers()
        asked, taken = (after[name][0] - before[name][0] for name in ("server_requests_total", "server_replies_total"))
        trial.check("option ntp", asked >= 5 and taken >= asked - 2, f"of {asked} requests {taken} replies were taken")


@suite.case()
def silent_servers_of_masters(trial):
    """A server on the master's host that is silent, or whose port is closed, costs the polls nothing: they are answered by what is known. Where
    each poll waited for it, 200 polls that come at once took a second."""
    server, = servers_of(trial, Says())
    over = Over(trial, [server])
    for name, silence in (("silent", lambda: setattr(server, "says", Says(silent=True))), ("closed", server.close)):
        trial.check("option ntp", over.holds(), "no answer")
        silence()
        time.sleep(0.2)
        sent, last = time.monotonic(), 0.0
        for _ in range(200):
            over.nonce += 1
            over.door.send(Poll(machine=MACHINE, source=over.source, nonce=over.nonce, epoch=EPOCH).packet)
        answered = 0
        with contextlib.suppress(OSError):
            over.door.settimeout(3)
            while answered < 200:
                over.door.recv(100)
                answered, last = answered + 1, time.monotonic() - sent
        trial.check("option ntp", answered >= 199 and last < 0.6, f"a server that is {name}: {answered} of 200 polls are answered, the last after {last:.2f} s")


def sleeps_for(trial, ns):
    """A master whose host slept for so long drops what its server said, asks it at once, and says so; while the server is silent, so is the master."""
    spoils = Spoils(trial.room)
    server, = servers_of(trial, Says())
    over = Over(trial, [server], every=["60s"])
    over.process.kill()
    process = trial.keep(Spoiled(trial, spoils, over.process.words))
    trial.check("option ntp", over.holds(), "no answer")
    asked = len(server.requests)
    spoils.tell("boot", str(ns))
    trial.check("option ntp", over.holds(), "no answer after a sleep")
    # Once, where no reply is late.
    trial.between("requests behind a sleep", asked + 1, len(server.requests), asked + 3)
    trial.between("log host_slept", ns - MS + 1, int(trial.logs(process, "host_slept").get("slept_ns", 0)), ns)
    server.says = Says(silent=True)
    spoils.tell("boot", str(2 * ns))
    trial.check("option ntp", over.is_silent(), "it answers by what its server said before a sleep")


@suite.case()
def sleep_of_masters(trial):
    """For 0.8 seconds."""
    sleeps_for(trial, 800 * MS)


@suite.case()
def sleep_of_masters_for_a_millisecond(trial):
    sleeps_for(trial, MS)


class Elsewhere(Over):
    """A master over a server on another host, in a network of its own, whose calls are spoiled. It asks its server by itself, and has no client."""

    def __init__(self, trial, network, spoils, server, **options):
        self.path, self.source, self.nonce = os.path.join(trial.room, "status"), 2, 0
        words = ["master", "--source", "2", "--listen", "127.0.0.1:5701", "--ntp", server.address, "--status", self.path]
        self.process = trial.keep(Spoiled(trial, spoils, [*words, *(f"--{name}={value}" for name, value in options.items())], network.enter))
        self.door = trial.keep(network.inside(lambda: socket.socket(socket.AF_INET, socket.SOCK_DGRAM)))
        self.door.connect(("127.0.0.1", 5701))
        trial.logs(self.process, "master_started", SOON_S)


@suite.case(root=True, programs=("unshare", "nsenter", "ip"))
def servers_on_other_hosts(trial):
    """A server on another host is asked without a poll, and by itself once the host slept. A reply to a request from before a sleep gives no time,
    also where the master was polled meanwhile."""
    network, spoils = trial.keep(Network()), Spoils(trial.room)
    network.do("ip", "addr", "add", "10.77.0.1/32", "dev", "lo")
    server = trial.keep(network.inside(lambda: FakeServer(host="10.77.0.1", port=5123)))
    over = Elsewhere(trial, network, spoils, server, every="60s")
    trial.check("option ntp", eventually(lambda: server.requests, SOON_S), "it is not asked without a poll")
    trial.check("option ntp", over.holds(), "no answer")
    slept_ms = [0]

    def sleep():
        slept_ms[0] += 800
        spoils.tell("boot", str(slept_ms[0] * 1_000_000))

    for _ in range(2):
        asked = len(server.requests)
        sleep()
        is_asked = eventually(lambda asked=asked: len(server.requests) > asked, SOON_S)
        trial.check("option ntp", is_asked, "it is not asked anew after a sleep, without a poll")
    trial.logs(over.process, "host_slept", SOON_S)
    seen = []

    def sleep_and_reply(request):
        server.says = Says(silent=True)
        sleep()
        seen.append(over.span(0.3))  # the master is told of the sleep by a poll, too
        return FakeServer.reply_to(request, Says())

    # A reply that comes too late is not taken either, so it is tried a few times.
    for _ in range(3):
        server.says = Says()
        sleep()
        trial.check("option ntp", over.holds(), "no answer after a sleep")
        before, server.says = len(seen), Says(packet=sleep_and_reply)
        sleep()
        trial.check("option ntp", eventually(lambda before=before: len(seen) > before, SOON_S), "it is not asked anew after a sleep")
        time.sleep(0.2)
        trial.equal("option ntp", (seen[-1:], over.span(0.3)), ([None], None))


@suite.case()
def sleep_within_a_request(trial):
    """A reply that comes after the host slept, to a request from before that, gives no time. A master tries again."""
    spoils = Spoils(trial.room)
    server, = servers_of(trial, Says())
    over = Over(trial, [server], every=["60s"])
    over.process.kill()
    trial.keep(Spoiled(trial, spoils, over.process.words))
    trial.check("option ntp", over.holds(), "no answer")
    slept_ms = [0]

    def sleep(_=None):
        slept_ms[0] += 800
        spoils.tell("boot", str(slept_ms[0] * 1_000_000))

    def sleep_and_reply(request):
        sleep()
        return FakeServer.reply_to(request, Says())

    # A reply that comes too late is not taken either, so it is tried a few times.
    tries = 0
    for _ in range(40):
        sleep()
        if over.span(0.3) is not None:
            continue  # on a busy host it saw the sleep before the poll, and has asked already
        tries += 1  # it drops what it knew, and asks at the next poll
        if tries > 8:
            break
        asked, server.says = len(server.requests), Says(packet=sleep_and_reply)
        span = over.span(0.5)
        is_asked = eventually(lambda asked=asked: len(server.requests) > asked, SOON_S)
        server.says = Says()
        trial.check("option ntp", is_asked and span is None, f"{span}, by a reply that came after a sleep")
    trial.check("option ntp", tries > 0, "it answers each poll behind a sleep")
    trial.check("option ntp", over.holds(), "no answer after a sleep")


@suite.case()
def sockets_of_masters(trial):
    """A server is asked from one port as long as it replies, and from another one after four requests without a reply."""
    server, = servers_of(trial, Says())
    over = Over(trial, [server], every=["200ms"]).polled(trial)
    trial.check("option ntp", over.holds(), "no answer")
    eventually(lambda: over.numbers()["server_replies_total"][0] > 4, SOON_S)
    server.says = Says(silent=True)
    eventually(lambda asked=len(server.requests): len(server.requests) > asked, SOON_S)
    before = len(server.requests)
    for _ in range(3):
        first, asked = server.client, len(server.requests)
        trial.check("option ntp", eventually(lambda first=first: server.client != first, SOON_S),
                    f"{len(server.requests) - asked} requests without a reply come from port {first[1] if first else None}")
    runs = [len(list(same)) for _, same in itertools.groupby(server.ports[before:])]
    trial.check("option ntp", 4 in runs[1:-1], f"{runs[1:-1]} requests without a reply come from new ports, and 4 are wanted")
    server.says = Says()
    trial.check("option ntp", over.holds(), "no answer once the server replies again")


@suite.case()
def margins_of_masters(trial):
    """An answer is wider by twice the margin, and by no more."""
    server, = servers_of(trial, Says())
    plain, wide = (Over(trial, [server], every=[OFTEN], margin=[margin]) for margin in (0, 1_234_567_890))
    widths = {}
    for name, over in (("plain", plain), ("wide", wide)):
        spans = [over.span() for _ in range(30) if time.sleep(0.05) is None]
        widths[name] = min((span[1] - span[0] for span in spans if span), default=-1)
    trial.between("option margin", 2 * 1_234_567_890 - 20_000_000, widths["wide"] - widths["plain"], 2 * 1_234_567_890 + 20_000_000)


@suite.case()
def drifts_of_masters(trial):
    """An answer grows by twice the drift, which is 200 parts per million where none is given, once its server is silent."""
    for given, rate in ((["50000"], 50_000), ([], 200)):
        server, = servers_of(trial, Says())
        over = Over(trial, [server], every=["1s"], drift=given)
        trial.check("option drift", over.holds(), "no answer")
        server.says = Says(silent=True)
        time.sleep(0.1)
        first, began = over.span(), time.time_ns()
        time.sleep(3)
        then, ended = over.span(), time.time_ns()
        if not first or not then:
            trial.check("option drift", False, "no answer")
            continue
        grown = (then[1] - then[0]) - (first[1] - first[0])
        trial.between("option drift", 2 * rate * (then[2] - began) // 10**6 - 10, grown, 2 * rate * (ended - first[2]) // 10**6 + 10)


@suite.case()
def requests_of_masters(trial):
    """A server is asked so often; one on loopback at each poll, where nothing is said, and not between polls. Others are asked by themselves
    (tools/lab/upsets.py)."""
    server, = servers_of(trial, Says())
    Over(trial, [server], every=["400ms"]).polled(trial)
    eventually(lambda: len(server.times) > 8, SOON_S)
    gaps = sorted(after - before for before, after in zip(server.times, server.times[1:]))
    trial.check("option every", len(gaps) > 6 and 0.39 < gaps[len(gaps) // 2] < 0.6 and gaps[0] > 0.3, f"requests are {gaps} apart")
    first, second = servers_of(trial, Says(), Says())
    over = Over(trial, [first])
    Over(trial, [second])
    trial.check("option every", over.holds(), "no answer")
    before, quiet = len(first.requests), len(second.requests)
    for _ in range(10):
        over.poll()
        time.sleep(0.02)
    trial.between("option every", 8, len(first.requests) - before, 10)
    time.sleep(1)
    trial.between("option every", quiet, len(second.requests), quiet + 1)


@suite.case()
def ages_of_masters(trial):
    """A master whose server is not heard is silent once the reply is so old, says why, and answers again."""
    server, = servers_of(trial, Says())
    over = Over(trial, [server], every=["200ms"], max_age=["2s"])
    trial.check("option max-age", over.holds(), "no answer")
    server.says = Says(silent=True)
    last = began = time.monotonic()
    while time.monotonic() < began + SOON_S and over.span(0.3):
        last = time.monotonic()
        time.sleep(0.05)
    trial.between("option max-age", 1.6, last - began, 3.0)
    tells_silence(trial, over, 2403)
    # A busy host may have kept a reply back before: that was over, too.
    told = len(over.process.said("server_answers"))
    trial.logs(over.process, "server_silent", SOON_S, server=0, address=server.address)
    seen = over.comes_to(trial, server_silence=[2403], server_width_seconds=[None])
    trial.equal("log server_answers", len(over.process.said("server_answers")), told)
    trial.between("master server_age_seconds", 2 * SECOND, seen["server_age_seconds"][0], 20 * SECOND)
    server.says = Says()
    trial.check("option max-age", over.holds(), "no answer after the server was heard again")
    trial.logs(over.process, "master_answers", SOON_S)
    trial.logs(over.process, "server_answers", SOON_S, server=0, address=server.address)
    trial.check("log server_answers", eventually(lambda: len(over.process.said("server_answers")) == told + 1, SOON_S), "it is not told that it answers again")
    seen = over.polled(trial).comes_to(trial, server_silence=[0])
    trial.between("master server_age_seconds", 0, seen["server_age_seconds"][0], SECOND)
    trial.check("master unanswered_2403", (seen["unanswered_2403"] or 0) > 0, "no poll is counted")


@suite.case()
def local_references(trial):
    """A server that follows its own clock is refused, or taken with --local."""
    server, = servers_of(trial, Says(reference=0x7F7F0101))
    refused, taken = Over(trial, [server], every=[OFTEN]), Over(trial, [server], "--local", every=[OFTEN])
    trial.check("option local", taken.holds(), "it is refused with --local")
    trial.check("option local", refused.is_silent(), "it is taken without --local")
    trial.logs(refused.process, "server_refused", SOON_S, server=0, number=2313)
    tells_silence(trial, refused, 2404)
    polls = refused.numbers()["unanswered_2402"]
    refused.comes_to(trial, server_silence=[2404], server_replies_total=[0], unanswered_2404=refused.nonce - polls)


@suite.case()
def faulty_servers(trial):
    """Of three servers one may lie, or two, or none may; where they disagree it is silent."""
    servers = servers_of(trial, Says(), Says(ahead_ns=20 * SECOND), Says())
    for faulty in (["1"], []):
        over = Over(trial, servers, every=[OFTEN], faulty=faulty).polled(trial)
        if faulty:
            trial.check("option faulty", over.holds(0, 0), f"{over.span()} with one liar of three")
            continue
        eventually(lambda over=over: over.numbers()["server_silence"] == [0, 0, 0], SOON_S)
        trial.check("option faulty", over.is_silent(), "an answer where one server lies and none may")
        tells_silence(trial, over, 2407)
        trial.check("master unanswered_2407", eventually(lambda over=over: over.numbers()["unanswered_2407"] >= 3, SOON_S), "none are counted")
    servers = servers_of(trial, Says(), Says(silent=True), Says(silent=True))
    over = Over(trial, servers, every=[OFTEN], faulty=["1"])
    polls = trial.keep(Polls(over))
    over.comes_to(trial, server_silence=[0, 2402, 2402])
    trial.check("option faulty", over.is_silent(), "an answer where one server of three is heard")
    polls.close()
    time.sleep(1.2)
    before = over.numbers()["unanswered_2402"]
    trial.check("option faulty", over.is_silent(3), "an answer where one server of three is heard")
    seen = over.comes_to(trial, unanswered_2402=before + 3)
    trial.equal("master server_replies_total", seen["server_replies_total"][1:], [0, 0])


@suite.case()
def keys_of_servers(trial):
    """Requests have the code of the key, and so have the replies that are taken."""
    keys = [Key(7, "sha1", bytes(range(20))), Key(9, "sha256", bytes(range(40, 72)))]
    path = os.path.join(trial.room, "ntp-keys")
    write(path, f"# keys\n{keys[0].line()}\n{keys[1].line()}\n".encode())
    os.chmod(path, 0o600)
    for key in keys:
        server, = servers_of(trial, Says(key=key))
        over = Over(trial, [server], every=[OFTEN], ntp_key=[key.number], ntp_keys=[path])
        trial.check("option ntp-keys", over.holds(), f"no answer under the key {key.kind}")
        request = server.requests[-1] if server.requests else b""
        trial.check("option ntp-key", request[PACKET.size:] == key.code(request[:PACKET.size]), f"the request {request.hex(' ', 8)}")
        over.polled(trial)
        server.says = Says(key=key._replace(secret=b"another"), ahead_ns=50 * SECOND)
        before = over.numbers()["server_refused_total"][0]
        is_counted = eventually(lambda: over.numbers()["server_refused_total"][0] > before + 1, SOON_S)
        trial.check("option ntp-key", is_counted, "replies under another key are not counted")
        trial.check("option ntp-key", over.holds(), "a reply under another key was taken")
    server, = servers_of(trial, Says())
    over = Over(trial, [server], every=[OFTEN], ntp_key=["7"], ntp_keys=[path]).polled(trial)
    trial.check("option ntp-key", eventually(lambda: len(server.requests) > 2, SOON_S) and over.is_silent(), "a reply without a code was taken")


@suite.case()
def widths_of_masters(trial):
    """The status has the width of the last answer and of the widest; a line tells of one that is wider than it should be."""
    server, = servers_of(trial, Says(dispersion=SHORT // 10))
    over = Over(trial, [server], every=[OFTEN], warn_width=[100_000_000])
    narrow = Over(trial, [server], every=[OFTEN], warn_width=[900_000_000])
    trial.check("option warn-width", over.holds() and narrow.holds(), "no answer")
    line = trial.logs(over.process, "width_above", SOON_S, limit_ns=100_000_000)
    trial.between("log width_above", 200_000_000, int(line.get("width_ns", 0)), 200_000_000 + SLACK_NS)
    span = eventually(over.span, SOON_S)
    width = span[1] - span[0] if span else None
    seen = over.comes_to(trial, width=width)
    trial.between("master server_root_distance_seconds", 100_000_000, seen["server_root_distance_seconds"][0], 100_000_000 + SLACK_NS)
    trial.between("master server_width_seconds", 200_000_000, seen["server_width_seconds"][0], 200_000_000 + 3 * SLACK_NS)
    trial.equal("option warn-width", narrow.process.said("width_above"), [])
    stated = Asked(trial, 4, uncertainty=[1_000_000], warn_width=[1_000])
    trial.logs(stated.process, "master_started", SOON_S)
    trial.check("option warn-width", stated.poll()[0], "no answer by the host's clock")
    trial.logs(stated.process, "width_above", SOON_S, width_ns=2_000_000, limit_ns=1_000)
    over.comes_to(trial, width_max=None)
    spans = [over.span() for _ in range(4)]
    widest = max(span[1] - span[0] for span in spans if span)
    trial.check("master width_max", eventually(lambda: over.numbers()["width_max"] == widest, 3), f"not {widest}: {over.numbers()['width_max']}")
    trial.equal("log width_in_bounds", (over.process.said("width_in_bounds"), narrow.process.said("width_in_bounds")), ([], []))
    server.says = Says()
    is_over = eventually(lambda: over.span(0.3) and over.process.said("width_in_bounds"), SOON_S)
    trial.check("log width_in_bounds", is_over, "it is not told of a master")
    trial.logs(over.process, "width_in_bounds")
    trial.equal("option status", faults_in(read_text(over.path)), [])


@suite.case()
def counts_of_masters(trial):
    """The status tells of each server what it said, and counts requests, replies, and polls by why they were not answered."""
    says = [at_noon(stratum=3, leap=1), at_noon(stratum=5, leap=2), at_noon(stratum=1)]
    servers = servers_of(trial, *says)
    over = Over(trial, servers, every=["1s"], faulty=["1"]).polled(trial)
    over.comes_to(trial, server_stratum=[3, 5, 1], server_leap=[1, 2, 0], server_silence=[0, 0, 0], server_kisses_total=[0, 0, 0])

    looks = []

    def look():
        """Each request is counted, and since some look the reply to each of two: on a busy host one before that may have come too late."""
        sent = [len(server.requests) for server in servers]
        seen = over.numbers()
        if seen["server_requests_total"] != sent:
            return False
        taken = [reply + refused for reply, refused in zip(seen["server_replies_total"], seen["server_refused_total"])]
        looks.append((sent, taken))
        return any(all(now - then == came - came_then >= 2 for now, came, then, came_then in zip(sent, taken, *before)) for before in looks)
    trial.check("master server_requests_total", eventually(look, SOON_S, 0.02), f"{over.numbers()}, {[len(server.requests) for server in servers]}")
    for name, least in (("server_replies_total", 4), ("server_width_seconds", 1_000_000)):
        is_seen = eventually(lambda name=name, least=least: all(number >= least for number in over.numbers()[name]), SOON_S)
        trial.check(f"master {name}", is_seen, f"{over.numbers()[name]}")
    for packet, number, times in ((b"no poll", 301, 2), (Poll(machine=MACHINE, source=5, epoch=EPOCH).packet, 302, 3),
                                  (answer_to(Poll(machine=MACHINE, source=2, epoch=EPOCH).packet, 1, 2), 303, 4)):
        for _ in range(times):
            over.door.send(packet)
        over.comes_to(trial, **{f"unanswered_{number}": times})
    before = over.numbers()["server_refused_total"][0]
    servers[0].says = Says(leap=3)
    trial.check("master server_refused_total", eventually(lambda: over.numbers()["server_refused_total"][0] > before + 1, SOON_S), "not counted")
    over.comes_to(trial, server_silence=[2404, 0, 0])


@suite.case()
def kisses_of_servers(trial):
    """RATE doubles the pause; DENY and RSTR end the requests."""
    server, = servers_of(trial, kiss("RATE"))
    over = Over(trial, [server], every=["200ms"]).polled(trial)
    eventually(lambda: len(server.times) >= 5, SOON_S)
    gaps = [after - before for before, after in zip(server.times, server.times[1:])]
    # A reply that comes too late is not heard, and does not double the pause.
    trial.check("master server_kisses_total", gaps and gaps[-1] > 0.75, f"requests are {gaps} apart")
    eventually(lambda: over.numbers()["server_kisses_total"][0] >= 2, SOON_S)
    trial.between("master server_kisses_total", 2, over.numbers()["server_kisses_total"][0], len(server.times))
    for code in ("DENY", "RSTR"):
        server, = servers_of(trial, Says())
        over = Over(trial, [server], every=[OFTEN])
        trial.check("option ntp", over.holds(), "no answer")
        server.says = kiss(code)
        over.polled(trial).comes_to(trial, server_silence=[2405], server_kisses_total=[1])
        before = len(server.requests)
        trial.check("master unanswered_2405", over.is_silent(), f"an answer after {code}")
        trial.check("master unanswered_2405", eventually(lambda over=over: over.numbers()["unanswered_2405"] >= 3, SOON_S), "not counted")
        trial.equal("master server_requests_total", len(server.requests), before)


@suite.case()
def leap_seconds_of_servers(trial):
    """From a minute before a leap second until the server has stepped it is silent."""
    to_midnight = (DAY_S - time.time_ns() // SECOND % DAY_S) * SECOND
    server, = servers_of(trial, Says(leap=1, ahead_ns=to_midnight - 50 * SECOND))
    over = Over(trial, [server], every=[OFTEN]).polled(trial)
    over.comes_to(trial, server_silence=[2406])
    trial.check("master unanswered_2406", over.is_silent(), "an answer 50 s before a leap second")
    trial.check("master unanswered_2406", eventually(lambda: over.numbers()["unanswered_2406"] >= 3, SOON_S), "not counted")
    server.says = Says(leap=0, ahead_ns=to_midnight + 20 * SECOND)
    trial.check("master unanswered_2406", over.holds(to_midnight + 20 * SECOND), "no answer after the leap second")


@suite.case()
def refusals_of_servers(trial):
    """The log names the second of two servers, and why its reply is refused. What is no reply of the server to the request is counted, and
    awaited on."""
    later = stamp_of(time.time_ns() + 3600 * SECOND)
    refused = {2307: kiss("RATE"), 2308: kiss("DENY"), 2309: kiss("RSTR"), 2310: kiss("INIT"), 2311: Says(leap=3), 2312: Says(stratum=16),
               2314: Says(changed={"shown": 0}), 2315: Says(changed={"came": later}), 2316: Says(changed={"set": later}),
               2317: Says(dispersion=2 * SHORT)}
    strange = [Says(packet=lambda _: bytes(47)), Says(changed={"version": 3}), Says(changed={"mode": 3}), Says(changed={"origin": 5})]
    made = {number: Over(trial, servers_of(trial, Says(), says), every=[OFTEN]).polled(trial) for number, says in refused.items()}
    passed = [Over(trial, servers_of(trial, says), every=[OFTEN]).polled(trial) for says in strange]
    for number, over in made.items():
        trial.logs(over.process, "server_refused", SOON_S, server=1, number=number)
        trial.check("option ntp", over.is_silent(1), f"an answer by a reply that is refused by {number}")
    for over in passed:
        is_counted = eventually(lambda over=over: over.numbers()["server_refused_total"][0] > 1, SOON_S)
        trial.check("master server_refused_total", is_counted, "what is no reply is not counted")
        trial.equal("master server_silence", over.numbers()["server_silence"], [2402])
        trial.equal("log server_refused", over.process.said("server_refused"), [])


@suite.case()
def steps_of_clocks(trial):
    """A step of the real-time clock against the monotonic one is told of, and the master is silent from then on."""
    spoils, path = Spoils(trial.room), os.path.join(trial.room, "status")
    asked = Asked(trial, 1, uncertainty=[5])
    asked.process.kill()
    words = ["master", "--source", "1", "--listen", asked.address, "--uncertainty", "5", "--status", path]
    process = trial.keep(Spoiled(trial, spoils, words))
    trial.check("option uncertainty", eventually(lambda: asked.poll(0.3)[0], SOON_S), "no answer")
    spoils.turn(jump_ns=3 * SECOND)
    trial.check("master unanswered_2408", eventually(lambda: asked.poll(0.3)[0] is None, SOON_S), "it answers after a step")
    trial.logs(process, "clock_stepped", SOON_S)
    trial.check("master unanswered_2408", all(asked.poll(0.2)[0] is None for _ in range(3)), "it answers again")
    counted = f'truetime_master_unanswered_total{{source="1",number="2408"}} '
    is_counted = eventually(lambda: int(read_text(path).partition(counted)[2].partition("\n")[0] or 0) >= 3, SOON_S)
    trial.check("master unanswered_2408", is_counted, "polls are not counted")
