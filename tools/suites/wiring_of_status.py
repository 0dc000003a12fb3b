"""Scenarios of the suite `wiring`: each number of the status and of the shared file is that of what was done, and so are the lines of the log
that tell of rounds."""
import contextlib
import os
import resource
import socket
import subprocess
import sys
import time
from concurrent.futures import ThreadPoolExecutor

from harness.faults import disrupt, honest, late, page, reset, silent
from harness.metrics import faults_in
from harness.processes import SECOND, free_port, raw_ns, truetime
from harness.program import read_text, write
from harness.users import latest_of
from suites.breaks_world import claim_of, is_valid
from suites.wiring import suite
from suites.wiring_checks import (
    BUCKETS, REASONS, UNREACHED, eventually, forges, lies, look_at_form, names_of, other, published, runs, spans, status_of)
from suites.wiring_of_pages import get

# How many sessions a worker has at most.
MOST_SESSIONS = 320

# The epoch of the life before, and the times of the rounds.
EPOCH = 41
POLL_S, WAIT_S = 0.3, 0.6

# The packets that are refused, each by the number behind it.
REFUSED = [
    [lambda poll: b"x", lambda poll: poll[:-1], lambda poll: b""],  # 404
    [other(machine=1)], [other(source=1)], [lambda poll: poll],  # 405
    [other(nonce=1)],  # 406
    [other(epoch=1)],  # 407
]

# What seven masters do, three of which may be faulty, poll for poll: in two rounds too few answer, in three nothing meets, and then two
# lie, one is silent, and the first one sends what is refused.
TOO_FEW, NO_POINT, SILENT, LIARS = 2, 3, 6, {4, 5}


def acts_of(source):
    """What this master does, poll for poll."""
    if source == SILENT:
        return [silent]
    first = [honest if source in LIARS else silent] * TOO_FEW + [lies(source * 10 * SECOND)] * NO_POINT
    if source in LIARS:
        return [*first, lies(source * 10 * SECOND)]
    return [*first, *([honest, *(forges(*packets) for packets in REFUSED)] if source == 0 else ()), honest]


@suite.case()
def rounds(trial):
    """Rounds by what became of them."""
    masters = trial.scripts(*(acts_of(source) for source in range(7)))
    node = trial.node(masters, poll=f"{POLL_S * 1000:.0f}ms", wait=f"{WAIT_S * 1000:.0f}ms", machine=3)
    write(node.path("state/epoch"), b"tt-epoch 1 %d\n" % EPOCH)
    node.run()
    trial.logs(node, "started", machine=3, epoch=EPOCH + 1, port=node.address[1])
    made = TOO_FEW + NO_POINT + 1 + len(REFUSED)
    eventually(lambda: len(masters[0].polls) > made, 15)
    nothing = """waiting unserved left_out sessions lines lines_refused breaks slept sleep_unseen withdrawn withdrawals busy sessions_open
              commits_waiting commits_released""".split()
    wanted = {"epoch": EPOCH + 1, "sources": 7, "known": 6, "suspect": [int(source in LIARS) for source in range(7)],
              "answers_refused": sum(map(len, REFUSED)), "fusions_701": TOO_FEW, "fusions_504": NO_POINT, "rounds_stale": TOO_FEW,
              "sharing": 1, "workers": 4, "refused": [0] * 7, "unsent": [0] * 7, **dict.fromkeys(nothing, 0)}
    seen = {}

    def look():
        """Whether all is as wanted, looked at in a pause between two rounds."""
        polls, status, shared = len(masters[0].polls), status_of(node), published(node)
        since_s = (time.time_ns() - masters[0].times[-1]) / SECOND
        if not WAIT_S < since_s < WAIT_S + POLL_S or polls < len(masters[0].polls):
            return False
        silent_in = [polls if source == SILENT else 0 if source in LIARS else TOO_FEW for source in range(7)]
        accepted = [polls - rounds for rounds in silent_in]
        wanted.update(silent=silent_in, accepted=accepted, answers=sum(accepted), rounds=polls, publications=polls - TOO_FEW - NO_POINT)
        seen.update(status, shared=shared)
        return all(status[name] == value for name, value in wanted.items())

    eventually(look, 4)
    for name, value in wanted.items():
        trial.equal(f"status {name}", seen.get(name), value)
    trial.between("status fusion_age", 0, seen["fusion_age"], SECOND // 2)
    width = seen["shared"].hi_ns - seen["shared"].lo_ns
    trial.between("status width", width, seen["width"], width + SECOND // 1000)
    trial.equal("shared number", seen["shared"].number, wanted["publications"])
    trial.equal("shared epoch", seen["shared"].epoch, EPOCH + 1)
    said = subprocess.run([trial.program, "--version"], capture_output=True, text=True, check=True).stdout
    numbers = [name for name in node.status() if not name.startswith(tuple(BUCKETS.values()))]
    trial.equal("status build_info", numbers, names_of([master.address for master in masters], said.strip().partition(" ")[2]))
    look_at_form(trial, node)
    trial.logs(node, "answers_refused", count=len(REFUSED[0]))
    for number in (701, 504):
        trial.logs(node, "fusion_refused", number=number)
    over = trial.logs(node, "fusion_published")
    trial.check("log fusion_published", over.get("time", 0) > max(line["time"] for line in node.said("fusion_refused")), "it comes before its trouble")
    trial.equal("log fusion_published", len(node.said("fusion_published")), 1)
    for event, sources in (("source_silent", {0, 1, 2, 3, SILENT}), ("source_suspect", LIARS)):
        trial.logs(node, event)
        trial.equal(f"log {event}", {int(line["source"]) for line in node.said(event)}, sources)
    trial.logs(node, "first_publication")


@suite.case()
def first_publication(trial):
    """Its width is that of the shared file, whose other numbers are those of the fusion; the end is in the log and in the file."""
    before = raw_ns(), time.time_ns()
    node = trial.node(trial.scripts(*[honest] * 3), poll="700ms", wait="400ms")
    node.run()
    shared, after = published(node), (raw_ns(), time.time_ns())
    trial.equal("shared number", shared.number, 1)
    trial.between("log started", before[1], int(trial.logs(node, "started").get("time", 0)), time.time_ns())
    trial.logs(node, "first_publication", width_ns=shared.hi_ns - shared.lo_ns)
    trial.between("shared clock_ns", before[0], shared.clock_ns, after[0])
    trial.between("shared lo_ns", before[1] - SECOND, shared.lo_ns, after[1])
    trial.between("shared hi_ns", before[1], shared.hi_ns, after[1] + SECOND)
    periods, fresh = 3 * 1100 * SECOND // 1000, [shared.valid_until_ns - shared.clock_ns]
    trial.equal("shared usable_until_ns", shared.usable_until_ns, 2**64 - 1)
    for number in (2, 4):
        later = published(node, number)
        trial.between("shared number", number, later and later.number, number + 1)
        fresh.append(later.valid_until_ns - later.clock_ns)
    trial.between("shared valid_until_ns", periods - SECOND // 10, max(fresh), periods)
    began = raw_ns()
    for fault in node.ends(5):
        trial.check("log ended", False, fault)
    ended = published(node)
    trial.between("shared valid_until_ns", began, ended.valid_until_ns, raw_ns())
    trial.check("setting socket", not os.path.exists(node.path("socket")), "it is there after the end")
    trial.logs(node, "ended")


@suite.case(quiet=True)
def refused_sources(trial):
    """Sources whose answers are all refused, each for another reason, are not accepted, and are silent where the host is busy alone."""
    packets = {"404": lambda _: b"x", "405": other(source=1), "406": other(nonce=1), "407": other(epoch=1)}
    acts = [lambda fake, poll, packet=packet: fake.send(packet(poll)) for packet in packets.values()]
    node = trial.node(trial.scripts(*acts[:2], honest, *acts[2:]), poll="200ms", wait="100ms")
    node.run()
    places, seen = dict(zip(packets, (0, 1, 3, 4))), []

    def look():
        status = status_of(node)
        rounds, names = status["rounds"], ["accepted", "refused", "silent", *(f"refused_{number}" for number in UNREACHED + REASONS)]
        heard = [rounds - late for late in status["silent"]]
        wanted = {"accepted": [0, 0, heard[2], 0, 0], "refused": [*heard[:2], 0, *heard[3:]], "silent": status["silent"],
                  **dict.fromkeys(names[3:], [0] * 5),
                  **{f"refused_{number}": [heard[source] * (place == source) for source in range(5)] for number, place in places.items()}}
        seen.append({name: status[name] for name in names})
        return min(heard) > max(3, rounds // 2) and seen[-1] == wanted

    is_right = eventually(look)
    for name in ("refused", *(f"refused_{number}" for number in REASONS)):
        trial.check(f"status {name}", is_right, f"{seen[-3:]}")


@suite.case()
def ages(trial):
    """One source answers always, one no more, and one never. The machine wants two of them."""
    masters = trial.scripts(honest, [honest] * 4 + [silent], silent)
    node = trial.node(masters, poll="150ms", wait="50ms")
    node.run()
    eventually(lambda: len(masters[1].times) > 11)
    seen = []

    def look():
        """Whether the ages are those when the status was written; its rounds are those since the second source was fresh."""
        written, status = os.stat(node.path("status")).st_mtime_ns, status_of(node)
        seen.append([status["age"], (status["newest"], status["needed"]), written - masters[1].times[3]])
        first, second, third = status["age"]
        return (third is None and first < SECOND // 4 and abs(second - seen[-1][2]) < SECOND // 3
                and (status["newest"], status["needed"]) == (first, second))

    is_right = eventually(look)
    for name in ("age", "newest", "needed"):
        trial.check(f"status {name}", is_right, f"the ages of sources, the newest and the needed, and that of the second are {seen[-3:]}")
    # Publications go on, and are fresh for three periods behind the last answer of the second source.
    last, shown = masters[1].times[3] + raw_ns() - time.time_ns(), published(node)
    trial.between("shared valid_until_ns", SECOND * 55 // 100, shown.valid_until_ns - last, SECOND * 11 // 10)
    before = status_of(node)
    time.sleep(1)
    after = status_of(node)
    trial.between("status rounds_stale", 1, after["rounds_stale"], len(masters[1].times) - 5)
    trial.equal("status rounds_stale", after["rounds_stale"] - before["rounds_stale"], after["rounds"] - before["rounds"])
    trial.logs(node, "sources_stale", answered=1, needed=2)


@suite.case()
def stale_before_a_publication(trial):
    """Rounds in which too few sources answer are counted from the start, and are told of once something is published alone."""
    node = trial.node(trial.scripts(honest, silent, silent), poll="50ms", wait="20ms")
    node.run()
    trial.check("status rounds_stale", eventually(lambda: status_of(node)["rounds_stale"] >= 5), "they are not counted")
    trial.numbers(node, publications=0)
    trial.equal("log sources_stale", node.said("sources_stale"), [])


@suite.case()
def sources_that_fall_silent_at_once(trial):
    """Of five sources, two of which may be faulty, three answer no more: two have answered, which are fewer than are needed. Then one answers again."""
    masters = trial.scripts(honest, honest, *[[honest] * 4 + [silent] for _ in range(3)])
    node = trial.running_node(masters, poll="100ms", wait="50ms")
    trial.logs(node, "sources_stale", answered=2, needed=3)
    trial.equal("log sources_fresh", node.said("sources_fresh"), [])
    masters[3].acts = [honest]
    trial.logs(node, "sources_fresh")
    rounds = status_of(node)["rounds"]
    eventually(lambda: status_of(node)["rounds"] > rounds + 4)
    trial.equal("log sources_fresh", len(node.said("sources_fresh")), 1)


# How late sources answer, and by how much more a round trip may be seen, in seconds.
DELAYS, MORE = [0.012, 0.06, 0.12], 0.04


@suite.case(quiet=True)
def round_trips(trial):
    """Each source answers late by a time of its own. What a round adds to the histogram are the trips that the status then has of each."""
    node, seen = trial.running_node(trial.scripts(*map(late, DELAYS)), poll="50ms", wait="3s"), []

    def look():
        status = status_of(node)
        if not seen or status["rounds"] > seen[-1]["rounds"]:
            seen.append(status)
        return sum(after["rounds"] - before["rounds"] == 1 for before, after in zip(seen, seen[1:])) > 5 and all(map(is_near, range(3)))

    def is_near(source):
        return any(DELAYS[source] * SECOND <= status["round_trip"][source] <= (DELAYS[source] + MORE) * SECOND for status in seen)

    eventually(look, 12)
    for source, delay in enumerate(DELAYS):
        trips = [status["round_trip"][source] for status in seen]
        trial.check("status round_trip", min(trips) >= delay * SECOND and is_near(source), f"source {source}: {trips}, and {delay} s is wanted")
    compared = 0
    for before, after in zip(seen, seen[1:]):
        trial.equal("status answers", after["answers"], sum(after["accepted"]))
        if after["rounds"] - before["rounds"] == 1 and after["answers"] - before["answers"] == len(DELAYS):
            compared += 1
            trial.equal("status round_trips", after["round_trips"] - before["round_trips"], sum(after["round_trip"]))
            trial.equal("status answer_buckets", [number - before["answer_buckets"][bound] for bound, number in after["answer_buckets"].items()],
                        [sum(trip <= bound for trip in after["round_trip"]) for bound in after["answer_buckets"]])
    trial.check("status round_trips", compared > 1, f"{compared} rounds were seen one after the other")


@suite.case()
def trips_of_silent_sources(trial):
    """The histogram of round trips has one entry for each accepted answer, also where a source falls silent."""
    node = trial.node(trial.scripts(honest, honest, [honest, honest, silent]), poll="100ms", wait="50ms")
    node.run()
    node.wait_until_ready()
    status = eventually(lambda: (seen := status_of(node))["rounds"] > 8 and seen) or status_of(node)
    trial.equal("status answers", status["answers"], sum(status["accepted"]))


@suite.case(quiet=True)
def widths(trial):
    """The one source is 200 ms wide: each publication is that wide, and wider by no more than the round trip."""
    node = trial.running_node(trial.scripts(spans(100_000_000, 100_000_000)), poll="50ms")
    status = eventually(lambda: (seen := status_of(node))["publications"] > 5 and seen) or status_of(node)
    number = status["publications"]
    trial.equal("status widths_counted", status["widths_counted"], number)
    trial.between("status widths", number * SECOND // 5, status["widths"], number * SECOND // 4)
    trial.equal("status width_buckets", list(status["width_buckets"].values()), [0] * 10 + [number] * 2)
    trial.equal("status width_buckets", list(status["width_buckets"]), [
        100_000, 250_000, 500_000, SECOND // 1000, SECOND // 400, SECOND // 200, SECOND // 100, SECOND // 40, SECOND // 20, SECOND // 10,
        SECOND, 10 * SECOND])


# How far the spans of sources reach below and above this host's clock, and by how much the ends that are seen may differ, in milliseconds.
SPANS, NEAR = [(100, 100), (300, 500), (200, 200)], 20


@suite.case(quiet=True)
def spans_of_sources(trial):
    """Of three sources, one of which may be faulty, the fused span is that of the third one."""
    node = trial.running_node(trial.scripts(*(spans(low * 1_000_000, high * 1_000_000) for low, high in SPANS)))
    status = eventually(lambda: (seen := status_of(node))["publications"] > 2 and seen) or status_of(node)
    for (low, high), lower, upper in zip(SPANS, status["lower"], status["upper"]):
        trial.between("status lower", SPANS[2][0] - low - NEAR, lower and lower / 1e6, SPANS[2][0] - low + NEAR)
        trial.between("status upper", high - SPANS[2][1] - NEAR, upper and upper / 1e6, high - SPANS[2][1] + NEAR)


# By how much the clocks of sources run fast, in parts per million.
RATES = [0, 20_000, 0, -10_000, 0]


@suite.case(quiet=True)
def rates(trial):
    """Two of five sources run fast and slow: the machine's clock loses and gains as much, within an error that shrinks."""
    masters = trial.scripts(*map(runs, RATES))
    node = trial.running_node(masters, poll="50ms", wait="50ms")
    wanted, seen = [-fast * 1000 for fast in RATES], []

    def look():
        status = status_of(node)
        seen.append((status["rate"], status["rate_error"]))
        return all(None not in (rate, error) and error < SECOND // 500 and abs(rate - right) <= error + SECOND // 10_000
                   for rate, error, right in zip(*seen[-1], wanted))

    is_right = eventually(look, 15)
    for name in ("rate", "rate_error"):
        trial.check(f"status {name}", is_right, f"the rates and their errors are {seen[-1]}, and {wanted} is wanted")
    rate_errors = [max(errors) for _, errors in seen if None not in errors]
    trial.check("status rate_error", len(rate_errors) > 1 and rate_errors[-1] < rate_errors[0], f"the greatest errors were {rate_errors}")
    # A source that falls silent keeps the rate of its last answers.
    masters[0].acts = [silent]
    before = eventually(lambda: (status := status_of(node))["silent"][0] > 1 and status)
    trial.check("status rate", eventually(lambda: status_of(node)["silent"][0] > before["silent"][0] + 5), "it is not silent")
    for name in ("rate", "rate_error"):
        trial.equal(f"status {name}", status_of(node)[name][0], before[name][0])


@suite.case()
def no_more_fusions(trial):
    """The age grows with the time since the last one."""
    node = trial.running_node(trial.scripts(*([honest, honest, lies(ahead)] for ahead in (0, 10 * SECOND, -10 * SECOND))), wait="3s")
    eventually(lambda: status_of(node)["fusions_504"] > 0)
    shared = published(node)
    time.sleep(1.2)
    seen = []

    def look():
        """Whether the age is that by the clock at which the status was written."""
        written = raw_ns() - time.time_ns() + os.stat(node.path("status")).st_mtime_ns
        seen.append((status_of(node)["fusion_age"], written - shared.clock_ns))
        return seen[-1][0] > SECOND and abs(seen[-1][0] - seen[-1][1]) < SECOND // 10

    eventually(look)
    age, wanted = seen[-1]
    trial.between("status fusion_age", max(SECOND, wanted - SECOND // 3), age, wanted + SECOND // 3)
    trial.numbers(node, publications=shared.number)
    status = status_of(node)
    width = shared.hi_ns - shared.lo_ns
    grown = 2 * 200 * status["fusion_age"] // 1_000_000
    trial.between("status width", width + grown - 1000, status["width"], width + grown + 1000)


# Lines of a client, and how their replies begin.
LINES = [("now", "now "), ("after 0", "yes"), ("before 0", "no"), ("commit 5 0", "waiting 5 "), ("commit 4 0", "refused 1103"),
         ("commit 5 0", "committed 5 "), ("nonsense", "refused 1101"), ("lease 7 6", "refused 101"),
         ("lease 0 4000000000000000001", "refused 102"), ("commit 6 2000000000000000000", "refused 1821"), ("lease 0 1", "leased 0 1"),
         ("commit 6 0", "refused 903"), ("now", "now ")]


@suite.case()
def sessions_and_lines(trial):
    """Lines are counted once they are answered, sessions once they have ended."""
    node = trial.node(trial.scripts(honest), poll="50ms")
    node.run()
    published(node)
    with contextlib.ExitStack() as doors:
        sessions = [doors.enter_context(truetime.Session(where, 5)) for where in (node.address, node.path("socket")) * 2]
        replies, more = [], 0
        for line, begin in LINES:
            replies.append(sessions[0].ask(line))
            while begin.startswith("committed") and replies[-1].startswith("waiting") and more < 100:  # on a busy host it waits for longer
                replies[-1], more = sessions[0].ask(line), more + 1
        wrong = [reply for reply, (_, begin) in zip(replies, LINES) if not reply.startswith(begin)]
        trial.equal("status lines", wrong, [])
        for session in sessions[1:]:
            session.ask("now")
        lines, refused = len(LINES) + more + 3, sum(begin.startswith("refused") for _, begin in LINES)
        trial.numbers(node, lines=lines, lines_refused=refused, sessions=0)
    trial.numbers(node, lines=lines, lines_refused=refused, sessions=4)


def segments_to(door):
    """How many segments with data this connection has received (`tcpi_data_segs_in`)."""
    return int.from_bytes(door.getsockopt(socket.IPPROTO_TCP, socket.TCP_INFO, 160)[152:156], sys.byteorder)


@suite.case()
def lines_in_pieces(trial):
    """The replies to 16 lines that come together are sent together, and those behind a commit behind the reply to it. Each line and each refusal is
    counted, also where a client takes the replies late, so that writes take a part of them."""
    node = trial.node(trial.scripts(honest), poll="50ms", workers=2)
    node.run()
    published(node)
    pair, pairs = b"now\nnonsense\n", 60_000
    with socket.create_connection(node.address, 10) as door, door.makefile("rb") as replies:
        door.sendall(pair * 8)
        words = [replies.readline().split()[0] for _ in range(16)]
        trial.equal("segments of 16 replies", segments_to(door), 1)
        trial.numbers(node, lines=16, lines_refused=8)
        door.sendall(b"now\ncommit 1 0\nnow\nnow\n")
        trial.equal("replies beside a commit", [replies.readline().split()[0] for _ in range(4)], [b"now", b"waiting", b"now", b"now"])
        trial.equal("segments of replies beside a commit", segments_to(door), 3)
        with ThreadPoolExecutor(1) as pool:
            sent = pool.submit(door.sendall, pair * pairs)
            time.sleep(1)
            words += [replies.readline().split()[0] for _ in range(2 * pairs)]
            sent.result()
    trial.equal("replies in order", words == [b"now", b"refused"] * (8 + pairs), True)
    trial.numbers(node, lines=20 + 2 * pairs, lines_refused=8 + pairs, sessions=1)


@suite.case()
def replies_in_pieces(trial):
    """Where a connection takes seven bytes at a time, all of each reply comes, and in order, of clients that are alone on their worker and of
    others. Each line is counted once. So it is with a page."""
    port = free_port(socket.SOCK_STREAM)
    node, spoils = trial.spoilable(trial.scripts(honest), workers=2, http=f"127.0.0.1:{port}")
    first = trial.numbers(node, sessions=1)
    spoils.tell("few")
    pair, before = ("now\nnonsense\n", ["now", "refused"]), time.time_ns() - SECOND
    with contextlib.ExitStack() as doors:
        for address in (node.address, node.path("socket")) * 2:
            door = doors.enter_context(socket.socket(socket.AF_UNIX if isinstance(address, str) else socket.AF_INET))
            door.settimeout(2)
            door.connect(address)
            replies = doors.enter_context(door.makefile())
            for lines, words in (pair, (pair[0] * 8, pair[1] * 8), ("now\ncommit 1 0\nnow\n", ["now", "waiting", "now"])):
                door.sendall(lines.encode())
                came = [replies.readline() for _ in words]
                readings = [map(int, line.split()[1:]) for line in came if line.startswith("now ")]
                is_right = all(before <= low <= high <= time.time_ns() + SECOND for low, high in readings)
                said = [line.split()[0].replace("committed", "waiting") for line in came]
                trial.check("status lines", is_right and said == words, f"the replies are {came}")
        trial.numbers(node, lines=first["lines"] + 84, lines_refused=first["lines_refused"] + 36, sessions_open=4)
    for path in ("/metrics", "/nothing", "/metrics"):
        answer = get(port, path)
        trial.equal("setting http", (path, int(answer.fields["Content-Length"])), (path, len(answer.text)))
        trial.equal("setting http", faults_in(answer.text) if path == "/metrics" else [], [])


@suite.case()
def nothing_published(trial):
    """No master answers: there is no width and no age, and clients get 801. Nothing is shared where nothing is to be."""
    masters = trial.scripts(silent, silent)
    node = trial.node(masters, shared=None)
    node.run()
    with eventually(lambda: truetime.Session(node.address, 10)) as session:
        trial.equal("status publications", session.ask("now"), "refused 801")
    trial.between("the first answer", 1.9, time.monotonic() - node.began, 6)
    none = dict.fromkeys(("width", "fusion_age", "newest", "needed"), None)
    of_sources = dict.fromkeys(("age", "round_trip", "lower", "upper", "rate", "rate_error"), [None, None])
    trial.numbers(node, lines=1, lines_refused=1, sessions=1, sources=2, known=0, suspect=[0, 0], publications=0, fusions_504=0, sharing=0,
                  **none, **of_sources)
    seen = []

    def look():
        status, polls = status_of(node), len(masters[0].polls)
        seen.append((status["rounds"], status["fusions_701"], status["rounds_stale"], polls))
        return seen[-1] == (polls,) * 4

    trial.check("status rounds", eventually(look, 4), f"rounds, those with 701, stale ones, and polls are {seen[-3:]}")


@suite.case()
def shared_between_publications(trial):
    """A machine that publishes nothing for longer than a write of its shared file may last still says that it shares: no write lasts."""
    node = trial.node(trial.scripts(silent), poll="100ms", wait="50ms")
    node.run()
    trial.check("status rounds", eventually(lambda: status_of(node)["rounds"] > 15), "they do not go on")
    trial.numbers(node, publications=0, sharing=1)
    trial.equal("log sharing_ended", node.said("sharing_ended"), [])


@suite.case()
def connections_unserved_of_the_socket(trial):
    """A connection of the Unix socket that finds no place is counted as one of the address is: of the sessions for which few descriptors are
    enough, each waits for a commit."""
    before = resource.getrlimit(resource.RLIMIT_NOFILE)
    resource.setrlimit(resource.RLIMIT_NOFILE, (150, before[1]))
    try:
        node = trial.running_node(trial.scripts(honest), workers=2, poll="50ms", floor_ahead="10s")
    finally:
        resource.setrlimit(resource.RLIMIT_NOFILE, before)
    room = int(trial.logs(node, "descriptors", limit=150)["sessions"]) // 2
    with contextlib.ExitStack() as stack:
        for number in range(1, room + 3):
            door = stack.enter_context(socket.socket(socket.AF_UNIX))
            door.settimeout(5)
            door.connect(node.path("socket"))
            said = b""
            with contextlib.suppress(OSError):  # one that finds no place may be closed already
                door.sendall(b"commit 1 %d\n" % (time.time_ns() + 9 * SECOND))
                said = door.recv(64)
            trial.equal("status unserved", (number, said[:7]), (number, b"waiting" if number <= room else b""))
        trial.numbers(node, unserved=2, sessions_open=room)


def ends_of_waits(session, latest, number):
    """Releases a commit whose floor is a quarter of a second ahead, and some that have none; how long each took, in nanoseconds."""
    took = []
    for floor in (latest + SECOND // 4, *[0] * (number - 1)):
        began = time.monotonic_ns()
        session.commit(floor)
        took.append(time.monotonic_ns() - began)
    return took


@suite.case()
def connections_waiting(trial):
    """At each address a second connection waits until its only worker no longer waits for what the first one sends: for a fifth of a second at
    most. It is no open session so far. All is so again once they have left. On a busy host a status is seldom of that time."""
    node = trial.running_node(trial.scripts(honest), workers=2, poll="20ms", wait="20ms")

    def waits(address):
        eventually(lambda: status_of(node)["sessions_open"] == 0)
        with truetime.Session(address, 5) as session:
            session.now()
            with socket.socket(socket.AF_UNIX if isinstance(address, str) else socket.AF_INET) as door:
                door.connect(address)
                return eventually(lambda: [status_of(node)[name] for name in ("waiting", "sessions_open", "busy")] == [1, 1, 1], 0.2, 0.002)
    for address in (node.address, node.path("socket")) * 2:
        seen = []
        while len(seen) < 12 and seen.count(True) < 2:
            seen.append(waits(address))
        trial.check("status waiting", seen.count(True) > 1, f"at {address} one that waits beside one session is counted in {seen}")
    trial.numbers(node, waiting=0, busy=0)


@suite.case()
def connections_unserved(trial):
    """A worker that has no memory for one more session closes its connection, and so does one whose sessions all wait for a commit. Each is
    counted. It serves new sessions once there is room."""
    node = trial.running_node(trial.scripts(honest), workers=1, socket=None, poll="50ms", floor_ahead="10s")
    pid = node.running.pid
    with contextlib.ExitStack() as stack:
        doors, closed = [], 0

        def opens(line):
            """Whether a new session answers."""
            door = stack.enter_context(socket.create_connection(node.address, 5))
            with contextlib.suppress(OSError):
                door.sendall(line)
                if door.recv(64):
                    doors.append(door)
                    return True
            return False

        trial.numbers(node, unserved=0)
        limits = resource.prlimit(pid, resource.RLIMIT_DATA)
        has, = (int(line.split()[1]) * 1024 for line in read_text(f"/proc/{pid}/status").splitlines() if line.startswith("VmData:"))
        resource.prlimit(pid, resource.RLIMIT_DATA, (has, limits[1]))
        while len(doors) < MOST_SESSIONS and closed < 3:
            closed += not opens(b"now\n")
        resource.prlimit(pid, resource.RLIMIT_DATA, limits)
        trial.equal("sessions without memory that are closed", closed, 3)
        trial.numbers(node, unserved=3, sessions_open=len(doors))
        while doors:
            doors.pop().close()
        eventually(lambda: status_of(node)["sessions_open"] == 0)
        line = b"commit 1 %d\n" % (time.time_ns() + 9 * SECOND)
        trial.equal("sessions with a commit", [opens(line) for _ in range(MOST_SESSIONS)], [True] * MOST_SESSIONS)
        trial.equal("one more beside them", opens(b"now\n"), False)
        trial.numbers(node, unserved=4, sessions_open=MOST_SESSIONS)
        reset(doors.pop())
        eventually(lambda: status_of(node)["sessions_open"] == MOST_SESSIONS - 1)
        trial.equal("one in the place of one that left", opens(b"now\n"), True)
        trial.numbers(node, unserved=4)


@suite.case()
def commits(trial):
    """Three wait for a floor that is far ahead, and are counted as long as they do; five are released, and one of them waited for long."""
    node = trial.running_node(trial.scripts(honest), workers=6, socket=None, poll="50ms", floor_ahead="10s")
    with truetime.Session(node.address, 10) as session:
        latest = latest_of(session)
        trial.numbers(node, busy=1, sessions_open=1, workers=6, commits_waiting=0)
        doors = [socket.create_connection(node.address, 5) for _ in range(3)]
        for door in doors:
            door.sendall(b"commit 1 %d\n" % (latest + 9 * SECOND))
        trial.numbers(node, busy=4, sessions_open=4, commits_waiting=3, commits_released=0)
        for door in doors:
            reset(door)
        trial.numbers(node, busy=1, sessions_open=1, commits_waiting=0, commits_released=0)
        took = ends_of_waits(session, latest_of(session), 5)
        status = trial.numbers(node, commits_released=5, commits_waiting=0)
    trial.between("status commits_waited", SECOND // 4 - SECOND // 50, status["commits_waited"], sum(took))
    for bound, counted in status["commit_buckets"].items():
        surely = sum(wait <= bound for wait in took)
        perhaps = 5 - (bound < SECOND // 5)
        trial.between("status commit_buckets", surely, counted, perhaps)
    trial.check("status commit_buckets", 0 < len(status["commit_buckets"]), "there are none")


@suite.case()
def nothing_is_kept(trial):
    """A machine has as many descriptors and threads as before, and no more memory, once sessions have ended in each way, pages were asked for in whole
    and in part, its shared file was removed, and its socket for polls failed. No thread works where little is to be done: also of a session that is
    alone again, for which its worker may wait."""
    port, path = free_port(socket.SOCK_STREAM), os.path.join(trial.room, "vmclock0")
    write(path, page(1))
    node, spoils = trial.spoilable(trial.scripts(honest), http=f"127.0.0.1:{port}", evidence=f"{trial.room}/evidence", on_break="warn", vmclock=path,
                                   poll="200ms", wait="50ms", floor_ahead="10s")
    lines = b"now\n", b"commit 1 0\nnow\n", b"no", b"GET / HTTP/1.1\r\n\r\n", b"commit 1 %d\n" % (time.time_ns() + 9 * SECOND)

    def live():
        with contextlib.ExitStack() as doors:
            for number in range(60):
                for address in (node.address, node.path("socket"), ("127.0.0.1", port)):
                    door = doors.enter_context(socket.socket(socket.AF_UNIX if isinstance(address, str) else socket.AF_INET))
                    door.settimeout(5)
                    with contextlib.suppress(OSError):
                        door.connect(address)
                        door.sendall(lines[number % 5])
                        if number % 4 == 1:
                            door.shutdown(socket.SHUT_WR)
                    if number % 4 == 2:
                        reset(door)
            # One that takes no reply, and leaves once nothing more is taken of it.
            door = doors.enter_context(socket.socket(socket.AF_UNIX))
            door.settimeout(0.3)
            door.connect(node.path("socket"))
            with contextlib.suppress(OSError):
                while door.send(b"now\n" * 1000):
                    pass
            door.close()
            for place in ("/metrics", "/evidence", "/health", "/nothing") * 5:
                get(port, place)
            with contextlib.suppress(OSError):
                os.remove(node.path("shared"))
            with spoils.spoiled("receive"):
                time.sleep(0.4)
        trial.numbers(node, sessions_open=0, busy=0, commits_waiting=0, waiting=0, sharing=1)
        with truetime.Session(node.address, 5) as session:
            session.now()
        time.sleep(2.2)  # a page has two seconds in all

    live()
    before = node.resources()
    live()
    said, is_more = node.keeps_more(before, node.resources())
    trial.check("resources", not is_more, said)
    with contextlib.ExitStack() as doors:
        kept = [doors.enter_context(truetime.Session(address, 5)) for address in (node.address, node.path("socket"))]
        with contextlib.ExitStack() as others:
            for session in [others.enter_context(truetime.Session(address, 5)) for address in (node.address, node.path("socket")) * 4] + kept:
                session.now()
        eventually(lambda: status_of(node)["sessions_open"] == 2)
        for session in kept:
            session.now()
        time.sleep(0.3)
        began = spent_by_threads(node)
        time.sleep(1.5)
        most = max(nanoseconds - began.get(task, 0) for task, nanoseconds in spent_by_threads(node).items())
    trial.between("processor time of a thread", 0, most, SECOND // 10)


def spent_by_threads(node):
    """The processor time of each of its threads."""
    tasks = f"/proc/{node.running.pid}/task"
    return {task: int(read_text(f"{tasks}/{task}/schedstat").split()[0]) for task in os.listdir(tasks)}


@suite.case()
def breaks(trial):
    """By `on_break = "warn"` each sign of a break is counted: two disruptions, a sleep, and a step of the one source."""
    path = os.path.join(trial.room, "vmclock0")
    write(path, page(1))
    masters = trial.scripts(honest)
    evidence = os.path.join(trial.room, "evidence")
    node, spoils = trial.spoilable(masters, on_break="warn", vmclock=path, poll="100ms", wait="100ms", evidence=evidence)
    trial.numbers(node, breaks=0, slept=0)
    for number, marker in enumerate((2, 3), 1):
        disrupt(path, marker)
        trial.numbers(node, breaks=number)
    trial.check("setting vmclock", trial.logs(node, "guest_disrupted"), "it is not read")
    # It counts also while the counter can't be read.
    os.remove(path)
    rounds = status_of(node)["rounds"]
    eventually(lambda: status_of(node)["rounds"] > rounds + 1)
    trial.numbers(node, breaks=2)
    write(f"{path}.new", page(9))
    os.rename(f"{path}.new", path)
    trial.numbers(node, breaks=3)
    spoils.tell("boot", str(800_000_000))
    status = trial.numbers(node, breaks=4)
    trial.between("status slept", SECOND * 799 // 1000, status["slept"], SECOND * 8 // 10)
    trial.between("log host_slept", SECOND * 799 // 1000, int(trial.logs(node, "host_slept").get("slept_ns", 0)), SECOND * 8 // 10)
    before = claim_of(evidence)
    masters[0].acts = [lies(5 * SECOND)]
    line = trial.logs(node, "assumption_broken")
    trial.numbers(node, breaks=5)
    kept = [f"{evidence}.break-{number}" for number in (1, 2)]
    is_valid_evidence = eventually(lambda: all(os.path.exists(name) and is_valid(trial.program, name) for name in kept))
    trial.check("setting evidence", is_valid_evidence, "that of a break that is warned of is not there")
    if is_valid_evidence:
        # They are those of the last publication before it, and of the one that does not meet it.
        earlier, later = map(claim_of, kept)
        trial.check("setting evidence", before[0] <= earlier[0] <= later[0] - 4 * SECOND, f"{earlier} and {later} behind {before}")
    lower, upper, last_lower, last_upper = (int(line.get(f"{name}_ns", 0)) for name in ("lower", "upper", "last_lower", "last_upper"))
    trial.between("log assumption_broken", 4 * SECOND, lower - last_upper, 5 * SECOND)
    trial.between("log assumption_broken", 2_000_000, upper - lower, SECOND)
    trial.between("log assumption_broken", 2_000_000, last_upper - last_lower, SECOND)
    trial.between("log assumption_broken", 0, raw_ns() - int(line.get("clock_ns", 0)), 10 * SECOND)
    trial.check("setting on_break", node.running.poll() is None, "it has ended")
