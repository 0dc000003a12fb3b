"""Scenarios of the suite `wiring`: each setting of a machine has its effect."""
import contextlib
import os
import re
import resource
import shutil
import socket
import statistics
import subprocess
import time
from concurrent.futures import ThreadPoolExecutor

from harness.faults import NOBODY, honest, late, silent
from harness.processes import SECOND, free_port, raw_ns, truetime
from harness.program import read, run, write
from harness.users import is_closed_within, latest_of, never_read, reply_to
from suites.wiring import suite
from suites.wiring_checks import eventually, lies, published, status_of

MILLISECOND = SECOND // 1000
# The greatest drift, which shows soonest.
DRIFT = 100_000
# The ranges and defaults that the help of a command tells of its options, in order. That they hold is proved, or seen in other scenarios.
IN_HELP = {
    "age": {"drift": "100000 200"},
    "twin": {"event": "0"},
    "master": {
        "source": "0 15", "offset": "0", "tai-offset": "100", "ntp": "16", "faulty": "0", "margin": "0", "every": "1ms 86400s 64s 1ms", "drift": "100000 200",
        "max-age": "1ms 86400s 1024s", "ntp-key": "4294967295", "log": "text",
    },
    "ask": {"retry": "100 9999 50"},
    "top": {"columns": "40 300"},
    "key": {"id": "4294967295"},
}
# The other numbers in the help of a command: refusals and bounds, in order.
NUMBERS_IN_HELP = {
    "": "1048576 1604 1605 1501 1502 304 1601 1603",
    "age": "500 900 30000000900 30994000000 31006001401 1602 201 208 405 402",
    "fuse": "1603 501 502 16 503 504",
    "check": "1603 606 501 503 601 605",
    "run": "1603 1301 1302 1303 1304 1305 4096",
    "trace": "10 50 45 55",
    "twin": "1603 1301 1305 1401 1402",
    "live": "1604 1605 1501 1502 304 1603 1301 1305 1302 1303 802 804",
    "judge": "1603",
    "master": "256 0600 0400 200 503 2401 2407 1601 1805 2211 2212 2213 0600 0400 2214 2216 1604 1603 2411 2414 1829 1831 1501 1830 1816",
    "serve": "1048576 1601 1604 1603 1801 1806 1810 1817 1818 1825 1826 1807 "
             "1816 1807 1809 1811 1812 1819 1828 1829 1831 1830 2211 2216 1827",
    "ask": "801 10000 128 30 1601 1805 1501 1604",
    "read": "1601 801 802 803 1701 1702 1703 1704 1708",
    "top": "80 64 1601 40 300 1805 1603 1604 1801 1828 1803 1501 2601 2602",
    "key": "32 1601 1829",
}


@suite.case()
def numbers_in_help(trial):
    """The help of each command tells the ranges and defaults of its options and no others, and the refusals and bounds that it has."""
    commands = re.findall(r"^  ([a-z]+) ", run([trial.program, "--help"]).said.split("\nOptions:")[0], re.MULTILINE)
    options, numbers = {}, {}
    for command in ["", *sorted({*commands} - {"help"})]:
        said = run([trial.program, *command.split(), "--help"]).said.replace("127.0.0.1", "")
        for option, text in re.findall(r"^ +--([a-z-]+) <\S+> +(.*)", said, re.MULTILINE):
            if found := re.findall(r"(?<![\w.])\d+(?:ms|s)?(?![\w.])|(?<=default: )[a-z]+", text):
                options.setdefault(command, {})[option] = " ".join(found)
        lines = [line for line in said.splitlines() if not re.match(r" +(-\w, )?--|.*\| *ttd |  (ttd|echo|printf) ", line)]
        if found := re.findall(r"(?<![\w.:])\d{2,}(?!\w|\.\d)", "\n".join(lines)):
            numbers[command] = " ".join(found)
    trial.equal("help of options", options, IN_HELP)
    trial.equal("help", numbers, NUMBERS_IN_HELP)


@suite.case()
def lease(trial):
    """It begins in two seconds and is over after its first stamp."""
    lo = time.time_ns() + 2 * SECOND
    node = trial.running_node(trial.scripts(honest), lease_lo=lo, lease_hi=lo + 1000)
    with truetime.Session(node.address, 10) as session:
        trial.equal("setting lease_lo", reply_to(session, "commit 1 0"), f"committed 1 {lo}")
        trial.equal("setting lease_hi", reply_to(session, "commit 2 0"), "refused 903")


@suite.case()
def stampers(trial):
    """No stamp lies in their interval: before it there are stamps, in it none, and behind it those from its end on."""
    lo = time.time_ns() + 3 * SECOND
    node = trial.running_node(trial.scripts(honest), stampers=[lo, lo + 2 * SECOND], floor_ahead="10s")
    with truetime.Session(node.address, 10) as session:
        before = session.commit()
        trial.check("setting stampers", before < lo, f"the stamp {before} lies in the interval from {lo} on")
        trial.equal("setting stampers", reply_to(session, f"commit 1000 {lo}"), "refused 903")
        trial.equal("setting stampers", reply_to(session, f"commit 1000 {lo + 2 * SECOND}"), "refused 903")
        trial.equal("setting stampers", reply_to(session, f"lease {lo} {lo + 2 * SECOND + 5}"), f"leased {lo} {lo + 2 * SECOND + 5}")
        trial.equal("setting stampers", reply_to(session, "commit 1000 0"), "refused 903")
        behind = lo + 2 * SECOND + 1
        trial.equal("setting stampers", reply_to(session, f"commit 1000 {behind}"), f"committed 1000 {behind}")
    node = trial.running_node(trial.scripts(honest), "B", stampers=[0, 4 * 10**18])
    with truetime.Session(node.address, 10) as session:
        trial.equal("setting stampers", reply_to(session, "commit 1 0"), "refused 903")


def commits_until(end_ns, commit):
    """What is committed until then: when each commit began and ended, and its stamp. Where the lease is over it is tried again."""
    seen = []
    while time.time_ns() < end_ns:
        began = time.monotonic_ns()
        try:
            stamp = commit()
        except truetime.Refused as refused:
            if refused.number != 903:
                raise
            time.sleep(0.01)
        else:
            seen.append((began, time.monotonic_ns(), stamp))
    return seen


def commits_by_session(end_ns, machine):
    with truetime.Session(machine.address, 10) as session:
        return commits_until(end_ns, session.commit)


def commits_by_stamper(end_ns, stamper):
    def commit():
        stamp = stamper.stamp().stamp_ns
        stamper.wait_past(stamp)
        return stamp
    return commits_until(end_ns, commit)


@suite.case()
def stampers_beside_sessions(trial):
    """Threads commit by a stamper with the interval as its lease, by sessions of its machine, and by sessions of another one."""
    lo = time.time_ns() + 4 * SECOND
    hi, end = lo + SECOND, lo + 2 * SECOND
    node = trial.running_node(trial.scripts(honest), stampers=[lo, hi])
    other = trial.running_node(trial.scripts(honest), "B")
    time.sleep(max(0, (lo - time.time_ns()) / SECOND - 1))
    with node.client() as client, ThreadPoolExecutor(8) as pool:
        stamper = truetime.Stamper(client, lo, hi)
        stamped = [pool.submit(commits_by_stamper, end, stamper) for _ in range(4)]
        served, elsewhere = ([pool.submit(commits_by_session, end, machine) for _ in range(2)] for machine in (node, other))
    stamped, served, elsewhere = ([commit for thread in threads for commit in thread.result()] for threads in (stamped, served, elsewhere))
    sides = [sum(stamp < lo for *_, stamp in served), sum(stamp > hi for *_, stamp in served)]
    trial.check("setting stampers", stamped and all(lo <= stamp <= hi for *_, stamp in stamped), "a stamper's stamp lies outside its lease")
    trial.check("setting stampers", all(sides) and sum(sides) == len(served), f"{sides} of {len(served)} stamps lie before and behind it")
    trial.equal("setting stampers: different stamps", len({stamp for *_, stamp in stamped + served}), len(stamped + served))
    trial.equal("setting stampers: out of order", trial.judge(stamped + served + elsewhere), 0)


@suite.case()
def floor_ahead(trial):
    """Beyond it a floor and a lease are refused, and within it a floor is taken."""
    node = trial.running_node(trial.scripts(honest), floor_ahead="300ms")
    with truetime.Session(node.address, 10) as session:
        beyond = latest_of(session) + 900 * MILLISECOND
        trial.equal("setting floor_ahead", reply_to(session, f"commit 1 {beyond}"), "refused 1821")
        within = latest_of(session) + 200 * MILLISECOND
        trial.equal("setting floor_ahead", reply_to(session, f"commit 1 {within}"), f"committed 1 {within}")
        beyond = latest_of(session) + 900 * MILLISECOND
        replies = [reply_to(session, line) for line in (f"lease {beyond} {beyond + SECOND}", "commit 2 0")]
        trial.equal("setting floor_ahead", replies, [f"leased {beyond} {beyond + SECOND}", "refused 1821"])


def fits(node, session):
    """Whether a reading of the session is that of the publication in the shared file at some moment while it was made, a tenth of a second
    after the publication or more."""
    before, began = published(node), raw_ns()
    earliest, latest = map(int, reply_to(session, "now").split()[1:])
    ended, after = raw_ns(), published(node)
    elapsed = (earliest + latest - before.lo_ns - before.hi_ns) // 2
    clock = before.clock_ns + elapsed
    if before != after or not began <= clock <= ended or elapsed < SECOND // 10:
        return False
    return before.read_at(clock)[:2] == (earliest, latest)


@suite.case()
def drift(trial):
    """It widens old statements, readings of sessions, and those of the shared file. The master answers once."""
    node = trial.running_node(trial.scripts([honest, silent]), drift=DRIFT, poll="600ms", wait="200ms")
    first = published(node)
    with truetime.Session(node.address, 10) as session:
        trial.check("setting drift", eventually(lambda: fits(node, session), 4), "no reading of a session is that of the shared file")
    later = published(node, first.number + 2)
    grown = (later.hi_ns - later.lo_ns) - (first.hi_ns - first.lo_ns)
    wanted = 2 * DRIFT * (later.clock_ns - first.clock_ns) // 1_000_000
    trial.between("setting drift", wanted - 10, grown, wanted + 10)
    trial.equal("shared drift_ppm", later.drift_ppm, DRIFT)


def say_nothing(_door):
    """Nothing is sent."""


def send_slowly(door):
    """A line of which a byte comes each quarter of a second."""
    with contextlib.suppress(OSError):
        for _ in range(24):
            if is_closed_within(door, 0.25):
                return
            door.sendall(b"n")


@suite.case()
def idle(trial):
    """Clients that say nothing, send slowly, or never read are let go then, and neither at once nor much later."""
    # A worker looks at its clients once a second: an `idle` of no more would look like none at all.
    node = trial.running_node(trial.scripts(honest), idle="1600ms", floor_ahead="10s")
    for act in (say_nothing, send_slowly):
        with socket.create_connection(node.address, 5) as door:
            began = time.monotonic()
            act(door)
            closed = is_closed_within(door, 6)
            took = time.monotonic() - began
            trial.check("setting idle", closed and 1.5 <= took <= 5, f"{act.__doc__} Closed {closed} after {took:.1f} seconds")
    began = time.monotonic()
    wrong = never_read(node.address, 10)
    took = time.monotonic() - began
    trial.check("setting idle", not wrong and took >= 1.5, f"a client that never reads: {wrong} after {took:.1f} seconds")


def ask_at(doors, address):
    """A connection that has asked for the time."""
    door = doors.enter_context(socket.socket(socket.AF_UNIX if isinstance(address, str) else socket.AF_INET))
    door.settimeout(5)
    door.connect(address)
    door.sendall(b"now\n")
    return door


def has_reply(door, seconds):
    door.settimeout(seconds)
    try:
        return door.recv(100).startswith(b"now ")
    except TimeoutError:
        return False


@suite.case()
def workers(trial):
    """Of five, three serve `listen` and two `socket`: one more client at each shares a worker."""
    node = trial.running_node(trial.scripts(honest), workers=5)
    trial.numbers(node, sessions=1)  # that of the start has left
    with contextlib.ExitStack() as doors:
        sessions = 0
        for name, address, number, busy in (("listen", node.address, 4, 3), ("socket", node.path("socket"), 3, 5)):
            served = [ask_at(doors, address) for _ in range(number)]
            trial.equal(f"setting {name}", sum(has_reply(door, 5) for door in served), number)
            sessions += number
            status = trial.numbers(node, waiting=0, busy=busy, sessions_open=sessions, workers=5)
            trial.equal("setting workers", status["busy"], busy)
    trial.numbers(node, waiting=0, busy=0, sessions_open=0)


@suite.case()
def max_width(trial):
    """A reading is refused once it is wider: the master answers once. The shared file says until when it may be used."""
    node = trial.running_node(trial.scripts([honest, silent]), max_width="400ms", drift=DRIFT, poll="50ms", wait="150ms")
    widest, shared = 0, published(node)
    for at, is_narrow in ((shared.usable_until_ns, True), (shared.usable_until_ns + 1, False)):
        reading = shared._replace(usable_until_ns=2**64 - 1).read_at(at)
        trial.equal("shared usable_until_ns", reading.latest_ns - reading.earliest_ns <= 400 * MILLISECOND, is_narrow)
    with truetime.Session(node.address, 10) as session:
        while (reply := session.ask("now")).startswith("now "):
            earliest, latest = map(int, reply.split()[1:])
            widest = max(widest, latest - earliest)
        trial.equal("setting max_width", (reply, session.ask("commit 1 0")), ("refused 1824",) * 2)
    trial.between("setting max_width", 300 * MILLISECOND, widest, 400 * MILLISECOND)
    said = trial.command("read", node.path("shared"))
    trial.equal("setting max_width", said.answer, ("refused 1708\n", 2))


@suite.case()
def slewing(trial):
    """CLOCK_MONOTONIC goes faster than `slew` allows, then slower, and between these as it may. By `clock = "monotonic"` nothing is compared."""
    node, spoils = trial.spoilable(trial.scripts(honest), slew=10_000, poll="400ms", wait="50ms")
    trial.numbers(node, withdrawn=0, withdrawals=0)
    for number, (wrong, allowed) in enumerate(((15_000, 7_000), (-15_000, -7_000)), 1):
        for rate, withdrawn in ((wrong, 1), (allowed, 0)):
            spoils.slew(rate)
            trial.numbers(node, withdrawn=withdrawn, withdrawals=number)
            # The system's own clock is slewed, too, and a look at both clocks may last a while.
            near = eventually(lambda: abs(status_of(node)["slewed_rate"] - rate * 1000) < 1_000_000)
            trial.check("status slewed_rate", near, f"it is {status_of(node)['slewed_rate']} at {rate} parts per million")
    line = trial.logs(node, "slew_too_fast", slew_ppm=10_000)
    trial.check("setting slew", 10_000 < float(line.get("rate_ppm", 0)) < 16_000, f"{line}")
    trial.logs(node, "slew_in_bounds")
    other, spoils = trial.spoilable(trial.scripts(honest), "B", clock="monotonic", slew=0, poll="100ms", wait="50ms", on_break="warn")
    spoils.slew(50_000)
    rounds = status_of(other)["rounds"]
    eventually(lambda: status_of(other)["rounds"] > rounds + 5)
    status = trial.numbers(other, withdrawn=0, withdrawals=0)
    trial.equal("setting clock", (status["slewed_rate"], other.said("slew_too_fast")), (None, []))
    for machine, clock in (node, time.CLOCK_MONOTONIC_RAW), (other, time.CLOCK_MONOTONIC):
        trial.equal("shared clock_id", published(machine).clock_id, clock)


def pause_between(times):
    """The median of the last three times between polls, in seconds."""
    return statistics.median((second - first) / SECOND for first, second in zip(times[-4:], times[-3:]))


@suite.case()
def polls(trial):
    """What masters see: the machine, each its own source, the epoch of each life, and a poll each 0.3 seconds."""
    masters = trial.scripts(*[honest] * 3)
    node = trial.running_node(masters, machine=5, poll="300ms", wait="3s", faulty=0)
    for epoch in (1, 2):
        known = len(masters[0].polls)
        eventually(lambda: len(masters[0].polls) >= known + 6, 10)
        seen = [master.polls[known:] for master in masters]
        trial.equal("setting machine", {poll.machine for polls in seen for poll in polls}, {5})
        trial.equal("setting masters", [{poll.source for poll in polls} for polls in seen], [{0}, {1}, {2}])
        trial.equal("setting state", {poll.epoch for polls in seen for poll in polls}, {epoch})
        trial.between("setting poll", 0.29, pause_between(masters[0].times), 0.9)
        if epoch == 1:
            nonces = [poll.nonce for master in masters for poll in master.polls]
            trial.equal("setting masters", len(set(nonces) - {0}), len(nonces))
            node.kill()
            time.sleep(0.1)
            node.run()


@suite.case()
def first_rounds(trial):
    """They follow each other quickly until the first publication, and clients are served as soon as that is made."""
    masters = trial.scripts([*[silent] * 3, honest])
    node = trial.node(masters, poll="3600s", wait="50ms")
    node.run()
    with eventually(lambda: truetime.Session(node.address, 10)) as session:
        trial.equal("the first answer", session.ask("now").split()[0], "now")
    trial.between("the first answer", 0.1, time.monotonic() - node.began, 1.7)
    time.sleep(0.4)
    trial.equal("setting poll", len(masters[0].polls), 4)


@suite.case()
def wait(trial):
    """With a silent master a round lasts so long, and one that answers after more than half of it is heard."""
    masters = trial.scripts(honest, late(0.4), silent)
    node = trial.node(masters, poll="50ms", wait="700ms")
    node.run()
    eventually(lambda: len(masters[2].polls) >= 5, 10)
    trial.between("setting wait", 0.7, pause_between(masters[2].times), 1.6)
    trial.equal("setting wait", {line["source"] for line in node.said("source_silent")}, {"2"})


# How many of five masters may be faulty, how many lie, and whether there is a fusion.
FAULTY = [(None, 2, True), (1, 2, False), (1, 1, True), (0, 1, False)]


@suite.case()
def faulty(trial):
    """More than so many liars leave nothing to fuse."""
    good, liars = trial.scripts(*[honest] * 5), trial.scripts(lies(5 * SECOND), lies(-7 * SECOND))
    nodes = [trial.node([*good[lying:], *liars[:lying]], f"{number}", faulty=most, wait="2s")
             for number, (most, lying, _) in enumerate(FAULTY)]
    for node in nodes:
        node.run()
    for node, (most, lying, is_fused) in zip(nodes, FAULTY):
        status = eventually(lambda node=node: (seen := status_of(node))["rounds"] >= 5 and seen) or {}
        fusions = [bool(status.get(name)) for name in ("publications", "fusions_504")]
        trial.check("setting faulty", fusions == [is_fused, not is_fused], f"{most} of 5, and {lying} lie: {status}")


@suite.case()
def files(trial):
    """Each is where its setting says, and nothing else is there."""
    node = trial.running_node(trial.scripts(honest), "A", socket=None, shared=None, status=None)
    trial.equal("setting state", sorted(os.listdir(node.folder)), ["node.toml", "state"])
    trial.equal("setting state", read(node.path("state/epoch")), b"tt-epoch 1 1\n")
    places = {name: os.path.join(trial.room, f"other-{name}") for name in ("state", "socket", "shared", "status", "evidence")}
    os.mkdir(places["state"])
    node = trial.node(trial.scripts(honest), "B", listen="127.0.0.1:0", **places)
    node.run()
    port = int(trial.logs(node, "started").get("port", 0))
    for name, address in (("listen", ("127.0.0.1", port)), ("socket", places["socket"])):
        with truetime.Session(address, 5) as session:
            trial.equal(f"setting {name}", session.ask("now").split()[0], "now")
    with truetime.Client(places["shared"], os.geteuid()) as client:
        trial.check("setting shared", client.read().number, "nothing is there")
    for name in ("status", "evidence"):
        trial.check(f"setting {name}", eventually(lambda name=name: os.path.getsize(places[name])), "nothing is there")
    trial.equal("setting state", read(os.path.join(places["state"], "epoch")), b"tt-epoch 1 1\n")
    trial.equal("setting state", sorted(os.listdir(node.folder)), ["node.toml", "state"])
    trial.equal("setting state", os.listdir(node.path("state")), [])
    node = trial.node(trial.scripts(honest), "C", **{name: name for name in places})
    node.run(cwd=node.folder)
    trial.check("setting shared", published(node), "nothing is there, and its path is relative")
    for name in ("status", "evidence"):
        trial.check(f"setting {name}", eventually(lambda name=name: os.path.getsize(node.path(name))), "nothing is there, and its path is relative")
    there = {"node.toml", "shared.lock", *places}
    trial.equal("setting state", set(os.listdir(node.folder)) - {"status.new", "evidence.new"}, there)
    epoch = published(node).epoch
    node.kill()
    node.run(cwd=node.folder)
    trial.check("setting shared", eventually(lambda: published(node).epoch > epoch), "the next life does not write it")
    trial.equal("setting shared", set(os.listdir(node.folder)) - {"status.new", "evidence.new"}, there)


@suite.case()
def end_of_input(trial):
    """It ends a machine that is told so, and no other."""
    for name, is_told in (("A", True), ("B", False)):
        node = trial.node(trial.scripts(honest), name)
        if not is_told:
            node.words.remove("--until-eof")
        node.run(stdin=subprocess.DEVNULL)
        if is_told:
            trial.check("--until-eof", eventually(lambda: node.running.poll() is not None), "it goes on")
        else:
            node.wait_until_ready()
            time.sleep(0.4)
            trial.check("--until-eof", node.running.poll() is None, "it ends without being told")
    # What comes before the end of the input is no end.
    node = trial.running_node(trial.scripts(honest), "C")
    for _ in range(2):
        os.write(node.running.stdin.fileno(), b"now\n" * 200)
        time.sleep(0.3)
    trial.check("--until-eof", node.running.poll() is None, "it ends with bytes of its input")
    for what in node.ends():
        trial.check("--until-eof", False, what)


@contextlib.contextmanager
def descriptors_up_to(number):
    """What is started meanwhile may have so many descriptors."""
    before = resource.getrlimit(resource.RLIMIT_NOFILE)
    resource.setrlimit(resource.RLIMIT_NOFILE, (number, before[1]))
    try:
        yield
    finally:
        resource.setrlimit(resource.RLIMIT_NOFILE, before)


def connect_many(doors, address, number):
    """So many connections, each of which is there once it is the machine's, or its kernel's."""
    for _ in range(number):
        door = doors.enter_context(socket.socket(socket.AF_UNIX if isinstance(address, str) else socket.AF_INET))
        door.settimeout(5)
        door.connect(address)


@suite.case()
def descriptors(trial):
    """Clients take what they can of a machine that may have 200: its four workers have 16 sessions each, and 64 descriptors and its own are left,
    so that it goes on with its files and its looks. A machine that may have more than it wants has all sessions."""
    with descriptors_up_to(200):
        node = trial.running_node(trial.scripts(honest), poll="50ms", wait="20ms", floor_ahead="10s", evidence=f"{trial.room}/evidence")
    trial.logs(node, "descriptors", limit=200, needed=32 + 64 + 4 * (3 + 320 + 107 + 1), sessions=64)
    trial.numbers(node, sleep_unseen=0)
    most, rounds = 0, status_of(node)["rounds"]
    with contextlib.ExitStack() as doors:
        for address in (node.address, node.path("socket")) * 3:
            connect_many(doors, address, 60)
            most = max(most, len(os.listdir(f"/proc/{node.running.pid}/fd")))
        trial.check("log descriptors", most <= 200 - 64, f"{most} descriptors are open")
        trial.numbers(node, sessions_open=64)
        trial.check("status rounds", eventually(lambda: status_of(node)["rounds"] > rounds + 20), "they do not go on")
        trial.equal("shared number", eventually(lambda: published(node).number > rounds + 20), True)
        trial.equal("log descriptors", reply_to(doors.enter_context(truetime.Session(node.address, 5)), "now").split()[0], "now")
    for event in ("not_accepted", "status_unwritten", "evidence_unwritten", "sleep_unseen", "sharing_ended"):
        trial.equal(f"log {event}", node.said(event), [])


@suite.case()
def outline(trial):
    """What `--check` says of settings none of which is a default."""
    ports = [free_port(socket.SOCK_DGRAM) for _ in range(4)]
    masters = [f"127.0.0.1:{port}" for port in ports]
    node = trial.node(masters, machine=6, faulty=0, workers=7, drift=321, poll="31ms", wait="32ms", floor_ahead="33ms", idle="34s",
                      lease_lo=35, lease_hi=36, stampers=[38, 39], on_break="warn", max_width="37ms", evidence="evidence", vmclock="vmclock",
                      http="10.0.0.1:40", clock="monotonic", slew=41)
    growth = 2 * -(-63_000_000 * 321 // 1_000_000)
    widths = [f"width {trip} {trip + -(-trip * 321 // 1_000_000) + growth}" for trip in (100_000, 1_000_000, 10_000_000, 100_000_000)]
    # A clock that loses 320,896 parts of a billion loses 321 parts of a million of what it shows, and so does one that gains 321,103.
    numbers = {"faulty": 0, "workers": 7, "drift": 321, "rates": "320896 321103", "clock": "monotonic", "slew": 41, "poll": 31_000_000,
               "wait": 32_000_000, "floor_ahead": 33_000_000, "idle": 34 * SECOND, "lease": "35 36",
               "stampers": "38 39", "on_break": "warn", "max_width": 37_000_000, "growth": growth, "threads": 15, "memory": 4_194_304 + 7 * 131_072, "descriptors": 32 + 64 + 7 * (3 + 320 + 107 + 1)}
    lines = ["machine 6", f"listen 127.0.0.1:{node.address[1]}", "http 10.0.0.1:40", *(f"master {master}" for master in masters),
             *(f"{name} {value}" for name, value in numbers.items()),
             *(f"{name} {node.path(name)}" for name in ("state", "socket", "shared", "status")), "evidence evidence", "vmclock vmclock",
             "limit 200 49"]
    place = lines.index("threads 15")
    lines[place:place] = widths
    with descriptors_up_to(200):
        said, status = trial.command("serve", "--check", node.path("node.toml")).answer
    trial.equal("--check", (status, said.splitlines()), (0, lines))


# What is found at a start and refused: what is done in the folder of the machine, more settings, the number with the status, and a line of
# standard error, in which HERE is the folder.
KEY = "ab" * 32
SEALED = {"keys": "keys", "masters": [{"address": "127.0.0.1:5701", "key": [7]}]}
NO_KEYS = "keys: the file of keys can't be read: No such file or directory (os error 2)"
NO_LOCK = "ttd: HERE/state/lock: the lock of the epoch can't be opened: not a regular file"
NO_SOCKET = "ttd: HERE/socket: what is at the path of the Unix socket is not a socket"
FOUND = [
    ({}, SEALED, 2211, 4, NO_KEYS), ({"keys/a": b""}, SEALED, 2211, 4, "keys: the file of keys can't be read: not a regular file"),
    ({"keys": (0o644, f"7 {KEY}\n")}, SEALED, 2212, 2, "keys: the mode of the file of keys is neither 0600 nor 0400"),
    ({"keys": (0o600, f"# {'a' * 65_536}\n")}, SEALED, 2214, 2, "keys: the file of keys is too long"),
    ({"keys": (0o600, f"\n7 {KEY[2:]}\n")}, SEALED, 2215, 2, "keys:2: line 2 is not a key"),
    ({"keys": (0o400, f"7 {KEY}\n7 {KEY}\n")}, SEALED, 2216, 2, "keys:2: the key in line 2 has the number of an earlier one"),
    ({"keys": (0o600, f"8 {KEY}\n")}, SEALED, 1827, 2, "ttd: keys: no key has the number 7, which 127.0.0.1:5701 has in the settings"),
    ({"flat": b""}, {"state": "flat"}, 1812, 4, "ttd: flat: the folder of the epoch can't be used: not a folder"),
    ({"state/lock/a": b""}, {}, 1812, 4, NO_LOCK),
    ({"socket": b"keep"}, {}, 1819, 2, NO_SOCKET), ({"socket/a": b""}, {}, 1819, 2, NO_SOCKET),
    ({"at": b""}, {"socket": "at/socket"}, 1809, 4, "ttd: at/socket: the Unix socket can't be listened at: Not a directory (os error 20)"),
    ({"state/epoch/a": b""}, {}, 1811, 4, "ttd: HERE/state/epoch: the epoch can't be read: not a regular file"),
    ({"state/epoch": b"tt-epoch 2 7\n"}, {}, 1813, 2, "ttd: HERE/state/epoch: the file is not an epoch file"),
    ({"state/epoch": b"tt-epoch 1 18446744073709551615\n"}, {}, 1814, 2, "ttd: HERE/state/epoch: no epoch is left"),
    # The first of them is refused.
    ({"flat": b"", "socket": b"keep"}, {**SEALED, "state": "flat"}, 2211, 4, NO_KEYS),
    ({"state/lock/a": b"", "socket": b"keep"}, {}, 1812, 4, NO_LOCK), ({"state/epoch": b"", "socket": b"keep"}, {}, 1819, 2, NO_SOCKET),
]


def contents_of(folder):
    """Each file below a folder with its mode and its bytes."""
    return {path: (os.stat(path).st_mode, read(path)) for root, _, names in os.walk(folder) for path in (os.path.join(root, name) for name in names)}


def put(folder, name, what):
    """Writes a file, with a mode or not, and makes its folder."""
    mode, content = what if isinstance(what, tuple) else (0o644, what)
    path = os.path.join(folder, name)
    os.makedirs(os.path.dirname(path), exist_ok=True)
    write(path, content.encode() if isinstance(content, str) else content)
    os.chmod(path, mode)


@suite.case()
def found(trial):
    """`--check` refuses what a start refuses of the files that it finds, with the same number and for the same reason, and changes nothing."""
    for place, (files, settings, number, status, line) in enumerate(FOUND):
        settings = dict(settings)
        node = trial.node(settings.pop("masters", ["127.0.0.1:5701"]), f"found-{place}", **settings)
        for name, what in files.items():
            put(node.folder, name, what)
        before = contents_of(node.folder)
        for words in (["--check"], ["--until-eof"]):
            ran = trial.command("serve", node.path("node.toml"), *words, cwd=node.folder)
            trial.equal(f"{words[0]} with {sorted(files)}", ran.answer, (f"refused {number}\n", status))
            said = line.replace("HERE", node.folder)
            trial.check(f"refusal {number}", said in ran.error.splitlines(), f"{ran.error!r} has no line {said!r}")
            if words == ["--check"]:
                trial.check("--check", contents_of(node.folder) == before, f"it changes files with {sorted(files)}")


@suite.case()
def found_beside_machine(trial):
    """While the machine runs, `--check` with its settings refuses nothing and changes nothing, and names the folders that are missing."""
    node = trial.running_node(trial.scripts(honest))
    epoch = read(node.path("state/epoch"))
    ran = trial.command("serve", "--check", node.path("node.toml"), cwd=node.folder)
    trial.equal("--check", (ran.status, ran.error, [line for line in ran.said.splitlines() if line.startswith("warning")]), (0, "", []))
    trial.equal("--check", read(node.path("state/epoch")), epoch)
    other = trial.node(["127.0.0.1:5701"], "B", status="none/status", shared="node.toml/time")
    before = contents_of(other.folder)
    ran = trial.command("serve", "--check", other.path("node.toml"), cwd=other.folder)
    trial.equal("--check", [line for line in ran.said.splitlines() if line.startswith("warning")],
                ["warning shared node.toml: it is not a folder", "warning status none: there is no such folder"])
    trial.equal("--check", (ran.status, contents_of(other.folder)), (0, before))
    other = trial.node(["127.0.0.1:5701"], "D", evidence="nowhere/evidence")
    ran = trial.command("serve", "--check", other.path("node.toml"), cwd=other.folder)
    warned = [line for line in ran.said.splitlines() if line.startswith("warning")]
    trial.equal("--check", warned, ["warning evidence nowhere: there is no such folder"])
    in_root = trial.node(["127.0.0.1:5701"], "C", status="/status")
    warned = [line for line in trial.command("serve", "--check", in_root.path("node.toml")).said.splitlines() if line.startswith("warning")]
    trial.equal("--check", warned, [] if os.access("/", os.W_OK) else ["warning status /: this user may not write it"])


@suite.case(root=True)
def found_by_another_user(trial):
    """`--check` warns of the folders that the user who calls it may not write, and of no other one."""
    node = trial.node(["127.0.0.1:5701"], status="of-root/status", shared="own/time", state="own/state")
    for folder, user in (("of-root", 0), ("own", NOBODY)):
        os.mkdir(node.path(folder))
        os.chown(node.path(folder), user, user)
    for path in (trial.room, node.folder):
        os.chmod(path, 0o755)
    shutil.copy(trial.program, os.path.join(trial.room, "ttd"))
    words = [os.path.join(trial.room, "ttd"), "serve", "--check", node.path("node.toml")]
    ran = run(words, cwd=node.folder, user=NOBODY, group=NOBODY, extra_groups=[])
    warned = [line for line in ran.said.splitlines() if line.startswith("warning")]
    trial.equal("--check", warned, [f"warning {what}: this user may not write it" for what in (f"socket {node.folder}", "status of-root")])


# The keys that have to be there, each with a value as a file writes it.
NEEDED = {"machine": "0", "masters": '["127.0.0.1:1"]', "listen": '"127.0.0.1:0"', "state": '"state"'}

# What the values of some keys have to be.
TIMES = "a whole number from 0 to 4000000000000000000"
ENDS = "two whole numbers from 0 to 4000000000000000000 in brackets, the first at most the second"
LENGTH = "a whole number and ns, us, ms or s in quotes, from"
HERE = 'an address of this host, as "127.0.0.1:7001"'
OPEN = f"{HERE}, with a port from 1"
PATH = "a path in quotes, not empty"
ADDRESSES = "from 1 to 16 addresses of this host in brackets, each with a port from 1; a master outside it stands in [[master]], with a key"
TABLES = "from 1 to 16 tables [[master]], each with address, and key where there is one"
PLACE = 'an address of one host and a port from 1, as "10.1.0.1:5701", or a name and a port; without a key an address of this host'
NUMBERS = "a whole number from 0 to 4294967295, or from 1 to 4 different ones in brackets"
# What is said of a master, a path and the lists that have more than one purpose.
TWIN = "a master before it has this address as well"
BOTH = "there is [[master]] as well, and one of the two is enough"
SHARED = "the path, its draft or its lock has another purpose as well"
# More addresses than a machine takes, as a file writes them.
MANY = "[" + ", ".join(f'"127.0.0.1:{port}"' for port in range(1, 18)) + "]"

# What a file has besides, or (if it is empty) has not, the number that refuses it, and what is said of the first key that is named.
REFUSED = [
    ({"machine": "8"}, 1804, "machine: 8: a whole number from 0 to 7"),
    ({"machine": "-1"}, 1804, "machine: -1: a whole number from 0 to 7"),
    ({"machine": "1.5"}, 1804, "machine: 1.5: a whole number from 0 to 7"),
    ({"machine": '"8"'}, 1804, 'machine: "8": a whole number from 0 to 7'),
    ({"machine": ""}, 1803, "machine: missing: a whole number from 0 to 7"),
    ({"masters": ""}, 1803, f"masters: missing: {ADDRESSES}"),
    ({"masters": "3"}, 1804, f"masters: 3: {ADDRESSES}"),
    ({"masters": "[]"}, 1804, f"masters: []: {ADDRESSES}"),
    ({"masters": MANY}, 1804, f"masters: {MANY[:80]}..: {ADDRESSES}"),
    ({"masters": '["127.0.0.1:1", 2]'}, 1804, f"masters: 2: {ADDRESSES}"),
    ({"masters": '["127.0.0.1:1", "127.0.0.1:02"]'}, 1805, f'masters: "127.0.0.1:02": {ADDRESSES}'),
    ({"masters": '["127.0.0.1:1", "10.1.0.1:1"]'}, 1805, f'masters: "10.1.0.1:1": {ADDRESSES}'),
    ({"masters": '["[::1]:1", "[::]:1"]'}, 1804, f'masters: "[::]:1": {ADDRESSES}'),
    ({"masters": '["[::ffff:127.0.0.1]:1"]'}, 1804, f'masters: "[::ffff:127.0.0.1]:1": {ADDRESSES}'),
    ({"masters": '["127.0.0.1:1", "127.0.0.1:0"]'}, 1804, f'masters: "127.0.0.1:0": {ADDRESSES}'),
    ({"masters": '["127.0.0.1:1", "127.0.0.1:2", "127.0.0.1:1"]'}, 1818, f'masters: "127.0.0.1:1": {TWIN}'),
    ({"master": '[{address = "127.0.0.1:2"}]'}, 1825, f'masters: ["127.0.0.1:1"]: {BOTH}'),
    ({"masters": "", "master": "3"}, 1804, f"master: 3: {TABLES}"),
    ({"masters": "", "master": "[]"}, 1804, f"master: []: {TABLES}"),
    ({"masters": "", "master": '["127.0.0.1:1"]'}, 1804, f'master: "127.0.0.1:1": {TABLES}'),
    ({"keys": '""'}, 1804, f'keys: "": {PATH}, needed where a master has a key'),
    ({"keys": "7"}, 1804, f"keys: 7: {PATH}, needed where a master has a key"),
    ({"keys": '"a"', "status": '"a.lock"'}, 1817, f'keys: "a": {SHARED}'),
    ({"faulty": "1"}, 1806, "faulty: 1: at most 0 of 1 masters"),
    ({"workers": "0"}, 1804, "workers: 0: a whole number from 1 to 32"),
    ({"workers": "33"}, 1804, "workers: 33: a whole number from 1 to 32"),
    ({"workers": "1", "socket": '"socket"'}, 1810, "workers: 1: at least 2, since socket takes one of its own"),
    ({"drift": "100001"}, 1804, "drift: 100001: a whole number from 0 to 100000"),
    ({"clock": '"Raw"'}, 1804, 'clock: "Raw": "raw" or "monotonic"'),
    ({"clock": "4"}, 1804, 'clock: 4: "raw" or "monotonic"'),
    ({"slew": "90001"}, 1804, "slew: 90001: a whole number from 0 to 90000"),
    ({"poll": '"0.5s"'}, 1804, f'poll: "0.5s": {LENGTH} 1ms to 3600s'),
    ({"poll": "5"}, 1804, f"poll: 5: {LENGTH} 1ms to 3600s"),
    ({"poll": '"999us"'}, 1804, f'poll: "999us": {LENGTH} 1ms to 3600s'),
    ({"poll": '"3601s"'}, 1804, f'poll: "3601s": {LENGTH} 1ms to 3600s'),
    ({"wait": '"11s"'}, 1804, f'wait: "11s": {LENGTH} 1ms to 10s'),
    ({"floor_ahead": '"11s"'}, 1804, f'floor_ahead: "11s": {LENGTH} 0s to 10s'),
    ({"idle": '"999ms"'}, 1804, f'idle: "999ms": {LENGTH} 1s to 86400s'),
    ({"idle": '"86401s"'}, 1804, f'idle: "86401s": {LENGTH} 1s to 86400s'),
    ({"lease_lo": "4000000000000000001"}, 1804, f"lease_lo: 4000000000000000001: {TIMES}"),
    ({"lease_lo": "36", "lease_hi": "35"}, 1804, f"lease_hi: 35: {TIMES}, at least lease_lo"),
    ({"stampers": "5"}, 1804, f"stampers: 5: {ENDS}"),
    ({"stampers": '"5-6"'}, 1804, f'stampers: "5-6": {ENDS}'),
    ({"stampers": "[]"}, 1804, f"stampers: []: {ENDS}"),
    ({"stampers": "[5]"}, 1804, f"stampers: [5]: {ENDS}"),
    ({"stampers": "[5, 6, 7]"}, 1804, f"stampers: [5, 6, 7]: {ENDS}"),
    ({"stampers": '[5, "6"]'}, 1804, f'stampers: [5, "6"]: {ENDS}'),
    ({"stampers": '[5, "6\\n"]'}, 1804, f'stampers: [5, """ 6 """]: {ENDS}'),
    ({"stampers": "[[5, 6]]"}, 1804, f"stampers: [[5, 6]]: {ENDS}"),
    ({"stampers": "[-1, 6]"}, 1804, f"stampers: [-1, 6]: {ENDS}"),
    ({"stampers": "[5, 4000000000000000001]"}, 1804, f"stampers: [5, 4000000000000000001]: {ENDS}"),
    ({"stampers": "[5, 4]"}, 1804, f"stampers: [5, 4]: {ENDS}"),
    ({"stampers": "[5, 4]", "lease_lo": "36", "lease_hi": "35"}, 1804, f"lease_hi: 35: {TIMES}, at least lease_lo"),
    ({"stampers": "[5, 4]", "listen": '"10.0.0.1:1"'}, 1804, f"stampers: [5, 4]: {ENDS}"),
    ({"listen": '"10.0.0.1:1"'}, 1805, f'listen: "10.0.0.1:1": {HERE}'),
    ({"http": '"localhost:1"'}, 1805, f'http: "localhost:1": {OPEN}'),
    ({"http": '"10.0.0.1:01"'}, 1805, f'http: "10.0.0.1:01": {OPEN}'),
    ({"http": '"10.0.0.1:0"'}, 1804, f'http: "10.0.0.1:0": {OPEN}'),
    ({"http": '"127.0.0.1:0"'}, 1804, f'http: "127.0.0.1:0": {OPEN}'),
    ({"http": "7001"}, 1804, f"http: 7001: {OPEN}"),
    ({"http": '"127.0.0.1:0"', "log": '"Json"'}, 1804, f'http: "127.0.0.1:0": {OPEN}'),
    ({"listen": '"10.0.0.1:1"', "http": '"127.0.0.1:0"'}, 1805, f'listen: "10.0.0.1:1": {HERE}'),
    ({"log": '"Json"'}, 1804, 'log: "Json": "text" or "json"'),
    ({"on_break": '"End"'}, 1804, 'on_break: "End": "end", "warn" or "stay"'),
    ({"max_width": '"3601s"'}, 1804, f'max_width: "3601s": {LENGTH} 0s to 3600s'),
    ({"max_width": "5"}, 1804, f"max_width: 5: {LENGTH} 0s to 3600s"),
    ({"state": '""'}, 1804, f'state: "": {PATH}'),
    ({"socket": "7"}, 1804, f"socket: 7: {PATH}, of at most 107 bytes"),
    ({"socket": f'"{"s" * 108}"'}, 1804, f'socket: "{"s" * 79}..: {PATH}, of at most 107 bytes'),
    ({"shared": '["a"]'}, 1804, f'shared: ["a"]: {PATH}'),
    ({"status": '"./state/epoch\\n"', "shared": '"state/epoch\\n"'}, 1817, f'status: "./state/epoch\\n": {SHARED}'),
    ({"evidence": '""'}, 1804, f'evidence: "": {PATH}'),
    ({"evidence": '"a"', "status": '"a.break-2"'}, 1817, f'evidence: "a": {SHARED}'),
    ({"vmclock": '""'}, 1804, f'vmclock: "": {PATH}'),
    ({"vmclock": "7"}, 1804, f"vmclock: 7: {PATH}"),
    ({"keys": '"state/epoch"'}, 1817, f'keys: "state/epoch": {SHARED}'),
    ({"lisen": "1"}, 1802, "lisen: unknown key; did you mean listen?"),
    ({"drfit": "1"}, 1802, "drfit: unknown key; did you mean drift?"),
    ({"lease-lo": "1"}, 1802, "lease-lo: unknown key; did you mean lease_lo?"),
    ({"stamper": "[5, 6]"}, 1802, "stamper: unknown key; did you mean stampers?"),
    ({"port": "1"}, 1802, "port: unknown key"),
    # It differs from `drift` in two of five letters, and in three.
    ({"drxyt": "1"}, 1802, "drxyt: unknown key; did you mean drift?"),
    ({"dxyzt": "1"}, 1802, "dxyzt: unknown key"),
    ({'"a b"': "1"}, 1802, '"a b": unknown key'),
    ({"idle": "= 1"}, 1801, "not TOML: "),
]


# The tables of masters behind the keys that have to be there, the number that refuses them, the line of the tables, counted from 1, and what
# is said.
REFUSED_TABLES = [
    (["[[master]]", "key = 1"], 1803, 1, f"address: missing: {PLACE}"),
    (["[[master]]", "address = 3"], 1804, 2, f"address: 3: {PLACE}"),
    (["[[master]]", 'address = "10.1.0.1"', "key = 1"], 1804, 2, f'address: "10.1.0.1": {PLACE}'),
    (["[[master]]", 'address = "clock.9:1"', "key = 1"], 1804, 2, f'address: "clock.9:1": {PLACE}'),
    (["[[master]]", 'address = "010.1.0.1:1"', "key = 1"], 1804, 2, f'address: "010.1.0.1:1": {PLACE}'),
    (["[[master]]", 'address = "[FD00::1]:1"', "key = 1"], 1804, 2, f'address: "[FD00::1]:1": {PLACE}'),
    (["[[master]]", 'address = "a_b.example:1"', "key = 1"], 1804, 2, f'address: "a_b.example:1": {PLACE}'),
    (["[[master]]", 'address = "0.0.0.0:1"', "key = 1"], 1804, 2, f'address: "0.0.0.0:1": {PLACE}'),
    (["[[master]]", 'address = "a.b:1"', "key = []"], 1804, 3, f"key: []: {NUMBERS}"),
    (["[[master]]", 'address = "10.1.0.1:0"', "key = 1"], 1804, 2, f'address: "10.1.0.1:0": {PLACE}'),
    (["[[master]]", "key = 1", 'address = "[ff02::1]:1"'], 1804, 3, f'address: "[ff02::1]:1": {PLACE}'),
    (["[[master]]", 'address = "10.1.0.1:1"'], 1805, 2, f'address: "10.1.0.1:1": {PLACE}'),
    (["[[master]]", 'address = "127.0.0.1:1"', "[[master]]", 'address = "a.b:1"'], 1805, 4, f'address: "a.b:1": {PLACE}'),
    (["[[master]]", 'address = "a.b:1"', "key = -1"], 1804, 3, f"key: -1: {NUMBERS}"),
    (["[[master]]", 'address = "a.b:1"', "key = 4294967296"], 1804, 3, f"key: 4294967296: {NUMBERS}"),
    (["[[master]]", 'address = "a.b:1"', 'key = "1"'], 1804, 3, f'key: "1": {NUMBERS}'),
    (["[[master]]", 'address = "a.b:1"', "key = [1, 1]"], 1804, 3, f"key: [1, 1]: {NUMBERS}"),
    (["[[master]]", 'address = "a.b:1"', "key = [1, 2, 3, 4, 5]"], 1804, 3, f"key: [1, 2, 3, 4, 5]: {NUMBERS}"),
    (["[[master]]", 'addres = "a.b:1"'], 1802, 2, "addres: unknown key; did you mean address?"),
    (["[[master]]", 'address = "127.0.0.1:1"', "[[master]]", "port = 1"], 1802, 4, "port: unknown key"),
    (["[[master]]", 'address = "[::1]:1"', "[[master]]", 'address = "[::1]:1"'], 1818, 4, f'address: "[::1]:1": {TWIN}'),
    (["[[master]]", 'address = "a.b:1"', "key = [7, 8]", "[[master]]", 'address = "a.b:2"', "key = [9, 8]"], 1826, 6,
     "key: [9, 8]: a master before it has one of these keys as well"),
    (["[[master]]", 'address = "a.b:1"', "key = 1"], 1803, None, f"keys: missing: {PATH}, needed where a master has a key"),
    (['master = [{address = "10.1.0.1:1"}]'], 1805, 1, f'address: "10.1.0.1:1": {PLACE}'),
]


@suite.case()
def refused_tables(trial):
    """What is said of tables of masters that are refused, and at which line."""
    path = os.path.join(trial.room, "node.toml")
    head = [f"{key} = {value}" for key, value in NEEDED.items() if key != "masters"]
    for tables, number, line, message in REFUSED_TABLES:
        is_refused(trial, path, [*head, *tables], number, None if line is None else len(head) + line - 1, message)


def is_refused(trial, path, lines, number, place, message):
    """`--check` refuses these lines with the number, and says this of the line with this place, or of the file."""
    write(path, "".join(f"{line}\n" for line in lines).encode())
    ran = trial.command("serve", "--check", path)
    trial.equal("--check", ran.answer, (f"refused {number}\n", 2))
    shown, wanted = ran.error.split("\n")[0], f"{path if place is None else f'{path}:{place + 1}'}: {message}"
    is_right = shown.startswith(wanted) if number == 1801 else shown == wanted
    trial.check("--check", is_right, f"{shown!r} is said, and not {wanted!r}")


@suite.case()
def refused(trial):
    """What is said of settings that are refused: the line, the key, the value, and what would be right."""
    path = os.path.join(trial.room, "node.toml")
    for changed, number, message in REFUSED:
        lines = {key: value for key, value in (NEEDED | changed).items() if value}
        key = "idle" if number == 1801 else message.split(": ")[0]
        is_refused(trial, path, [f"{name} = {value}" for name, value in lines.items()], number, list(lines).index(key) if key in lines else None, message)
    rest = [f"{name} = {value}" for name, value in NEEDED.items() if name != "machine"]
    for quoted in ("'machine' = 8", '"machine" = 8'):
        is_refused(trial, path, [*rest, quoted], 1804, len(rest), "machine: 8: a whole number from 0 to 7")
    for content, line in ((b"#" * 1_048_577, "it is longer than 1048576 bytes"), (b"# \xe9\n", "it is not UTF-8")):
        write(path, content)
        ran = trial.command("serve", "--check", path)
        trial.equal("--check", (ran.answer, ran.error.splitlines()[0]), (("refused 1603\n", 2), f"ttd: {path}: {line}"))
