"""Scenarios of the suite `wiring`: for how long is waited, by the list in wiring_checks.py; what is synced before it is renamed; modes, and addresses.

tools/note_calls.c notes for how long a command asks the system to wait, so that nobody waits as long here. What is compared with readings of the
clock sees one that tools/spoil_calls.c moves on.
"""
import contextlib
import os
import re
import resource
import shutil
import socket
import stat
import subprocess
import time

from harness.faults import Answerer, Spoils, disrupt, full_pipe, honest, page, silent
from harness.notes import Notes
from harness.ntp import FakeServer
from harness.processes import SECOND, Process, free_port, truetime
from harness.program import read_text, write
from suites.wiring import suite
from suites.wiring_checks import HERE, TIMES as TIMES_OF_ALL, TIMES_OF_OTHERS, eventually, lies, places_of, status_of
from suites.wiring_of_masters import Spoiled
from suites.wiring_of_pages import get, with_pages
from suites.wiring_of_seals import FIRST, keys_at, polls_at, scripted, table

MILLISECOND = SECOND // 1000
TIMES = TIMES_OF_ALL | TIMES_OF_OTHERS


class Noted(Process):
    """A command whose calls are noted, behind these words."""

    def __init__(self, trial, name, words, prefix=()):
        self.notes, self.prefix = Notes(trial.room, name), prefix
        super().__init__(trial, name, words)

    def start(self):
        with open(self.log, "ab") as log:
            self.running = subprocess.Popen([*self.prefix, self.program, *self.words], stdin=subprocess.PIPE, stdout=log, stderr=log,
                                            env=self.notes.environment)


def waits_for(trial, notes, kind, *names, others=()):
    """Something of this kind comes to be waited for as long as these names of the list say, and never for another time but within these bounds."""
    wanted = {TIMES[name] for name in names}

    def strange():
        return [wait for wait in notes.waits(kind) if wait not in wanted and not any(low <= wait <= high for low, high in others)]

    eventually(lambda: wanted.issubset(notes.waits(kind)))
    for name in names:
        trial.check(f"time {name}", TIMES[name] in notes.waits(kind) and not strange(), f"{kind} {notes.waits(kind)}, and {TIMES[name]} is wanted")


def is_near(trial, name, waits):
    """The longest wait for a connection is as long, less what went by."""
    longest = max(waits, default=0)
    trial.check(f"time {name}", TIMES[name] - SECOND <= longest <= TIMES[name], f"{waits}, and {TIMES[name]} is wanted")


@suite.case()
def waits_of_machines(trial):
    """Its connections, its rounds, its pages and its threads, with a dead source, and a session more than a worker waits for alone."""
    node, port = with_pages(trial, trial.scripts(honest, honest, silent), wait="30ms", poll="70ms", workers=2)
    notes = Notes(trial.room, "machine")
    node.environment = notes.environment
    node.run()
    node.wait_until_ready()
    with contextlib.ExitStack() as doors:
        for _ in range(2):
            doors.enter_context(truetime.Session(node.address, 5)).now()
        get(port, "/metrics")
        # What went by since the start is left out of the wait for the first publication.
        waits_for(trial, notes, "poll", "look", others=[(1, 30 * MILLISECOND), (TIMES["look"] + MILLISECOND, TIMES["first"])])
    is_near(trial, "first", notes.waits("poll"))
    trial.check("time write", notes.calls().count(["nodelay"]) >= 2, "a reply waits for others to be sent with")
    waits_for(trial, notes, "receive", "read")
    waits_for(trial, notes, "send", "write")

    def of_pages():
        return sum(words[0] == "poll" and TIMES["page look"] * 3 // 4 <= int(words[1]) <= TIMES["page look"] for words in notes.calls())
    before = of_pages()
    with socket.create_connection(("127.0.0.1", port), 10) as door:
        began = time.monotonic_ns()
        door.recv(1)
        trial.between("time page", TIMES["page"] - SECOND // 10, time.monotonic_ns() - began, TIMES["page"] + SECOND)
    trial.check("time page look", eventually(lambda: of_pages() > before), "the pages look at no status meanwhile")
    waits_for(trial, notes, "park", "records", others=[(70 * MILLISECOND, 70 * MILLISECOND)])


@suite.case()
def waits_for_the_only_session(trial):
    """A worker whose only session need not share it waits for its bytes alone, and for no descriptors between two lines: also again once more
    sessions than it may have were open, and two were turned away."""
    before = resource.getrlimit(resource.RLIMIT_NOFILE)
    resource.setrlimit(resource.RLIMIT_NOFILE, (150, before[1]))
    try:
        node, notes = trial.node(trial.scripts(honest), workers=2, poll="200ms", floor_ahead="10s"), Notes(trial.room, "machine")
        node.environment = notes.environment
        node.run()
        node.wait_until_ready()
    finally:
        resource.setrlimit(resource.RLIMIT_NOFILE, before)
    room = int(trial.logs(node, "descriptors", limit=150)["sessions"]) // 2
    for number, address in enumerate((node.address, node.path("socket")), 1):
        with contextlib.ExitStack() as stack:
            for _ in range(room + 2):
                door = stack.enter_context(socket.socket(socket.AF_UNIX if isinstance(address, str) else socket.AF_INET))
                door.settimeout(5)
                door.connect(address)
                with contextlib.suppress(OSError):
                    door.sendall(b"commit 1 %d\n" % (time.time_ns() + 9 * SECOND))
                    door.recv(64)
        trial.numbers(node, unserved=2 * number, sessions_open=0)
        with truetime.Session(address, 5) as session:
            for _ in range(3):
                session.now()
            time.sleep(0.3)
            waits = sum(words[0] == "poll" for words in notes.calls())
            for _ in range(100):
                session.now()
            waits = sum(words[0] == "poll" for words in notes.calls()) - waits
        trial.between(f"waits for descriptors at {address} while 100 lines come", 0, waits, 50)


@suite.case()
def waits_at_the_end(trial):
    """Where standard error takes no line, a machine looks for a fifth of a second whether it does, and then ends all the same."""
    node, notes = trial.node(trial.scripts(honest)), Notes(trial.room, "machine")
    node.environment = notes.environment
    reading, writing = full_pipe()
    node.run(stderr=writing)
    node.wait_until_ready()
    for what in node.ends(2):
        trial.check("time end look", False, what)
    waits_for(trial, notes, "sleep", "end look")
    looks = sum(words[0] == "sleep" for words in notes.calls())
    trial.between("time end look", 2, looks, SECOND // 5 // TIMES["end look"])
    for door in (reading, writing):
        os.close(door)


@suite.case()
def ends_once_its_last_is_shared(trial):
    """A machine whose shared file hangs at its end waits a fifth of a second for it, and then ends all the same. Where no write lasts any more it
    ends as soon as in a life in which none did. The shortest of five ends counts each time: the host may be busy."""
    node, spoils = trial.spoilable(trial.scripts(honest), poll="20ms", wait="300ms")

    def end():
        """How long it takes to end, in milliseconds."""
        began = time.monotonic()
        node.running.stdin.close()
        node.running.wait(20)
        return 1000 * (time.monotonic() - began)

    def end_behind_a_write():
        with spoils.spoiled("writing"):
            time.sleep(0.2)
        time.sleep(0.2)
        return end()

    def end_in_a_write():
        with spoils.spoiled("writing"):
            time.sleep(0.2)
            return end()

    def shortest(call):
        took = []
        for _ in range(5):
            if node.running.poll() is not None:
                node.run()
                node.wait_until_ready()
            took.append(call())
        return min(took)

    plain, behind, within = map(shortest, (end, end_behind_a_write, end_in_a_write))
    trial.between("time end look: milliseconds of an end while a write lasts", 185, within, 2000)
    trial.check("time end look", behind < plain + 100, f"it ends within {behind} ms behind writes that lasted, and within {plain} in other lives")


@suite.case()
def ends_once_all_is_written(trial):
    """A machine whose lines, status and evidence are written waits for nothing more at its end, in one of five lives at least: the host may be busy."""
    node, took = trial.node(trial.scripts(honest), evidence=f"{trial.room}/evidence"), []
    for _ in range(5):
        node.run()
        node.wait_until_ready()
        eventually(lambda: os.path.exists(node.path("status")) and os.path.exists(f"{trial.room}/evidence"))
        node.running.stdin.close()
        node.running.wait(20)
        took.append(time.time_ns() - int(node.said("ended")[-1]["time"]))
    trial.check("time end look", min(took) < 150 * MILLISECOND, f"it ends {took} ns after it says so")


@suite.case()
def ends_once_nothing_is_left(trial):
    """No end waits for a status that was left out, nor for one that could not be written: in one of five lives at least, as above."""
    node, spoils = trial.spoilable(trial.scripts(honest), poll="20ms")
    for what in ("left_out", "status_unwritten"):
        took = []
        for number in range(1, 6):
            if node.running.poll() is not None:
                os.remove(node.path("status"))
                node.run()
                node.wait_until_ready()
            if what == "left_out":
                with spoils.spoiled("rename"):
                    time.sleep(0.2)
                trial.check("status left_out", eventually(lambda: status_of(node)["left_out"] > 0), "no status is left out")
            else:
                eventually(lambda: os.makedirs(node.path("status.new/kept")) or True, pause_s=0.001)
                is_told = eventually(lambda number=number: len(node.said(what)) == number)
                trial.check("log status_unwritten", is_told, f"it is told {len(node.said(what))} times in {number} lives")
                shutil.rmtree(node.path("status.new"), ignore_errors=True)
                eventually(lambda: os.path.exists(node.path("status")))
            node.running.stdin.close()
            node.running.wait(20)
            took.append(time.time_ns() - int(node.said("ended")[-1]["time"]))
        trial.check("time end look", min(took) < 150 * MILLISECOND, f"behind {what} it ends {took} ns after it says so")


@suite.case()
def waits_of_names(trial):
    """A machine looks each second whether a name is to be looked up."""
    host = socket.getaddrinfo("localhost", 0, type=socket.SOCK_DGRAM)[0][4][0]
    local = scripted(trial, {7: FIRST}, honest, host=host)
    node, notes = trial.node([table(local, 7, "localhost")], keys=keys_at(trial), poll="70ms", wait="30ms"), Notes(trial.room, "machine")
    node.environment = notes.environment
    node.run()
    trial.logs(node, "source_resolved", source=0, address=local.address)
    time.sleep(0.5)
    waits_for(trial, notes, "park", "records", others=[(70 * MILLISECOND, 70 * MILLISECOND), (TIMES["quick round"], TIMES["quick round"])])


def named_by_one(trial):
    """A machine whose first master is silent and has a name; its spoiled calls, and how often that name was looked up."""
    silent_one = {"address": f"localhost:{free_port(socket.SOCK_DGRAM)}", "key": 7}
    spoils, node = Spoils(trial.room), trial.node([silent_one, *({"address": master.address} for master in trial.scripts(honest, honest))],
                                                  keys=keys_at(trial), on_break="warn", faulty=1)
    node.environment = spoils.environment
    spoils.tell("lookups")
    return node, spoils, lambda: len(read_text(spoils.path("lookups")))


@suite.case()
def minute_between_failed_lookups(trial):
    """A name without an address is looked up again a minute later, too."""
    node, spoils, looks = named_by_one(trial)
    spoils.tell("addresses", 64 * "x")  # no server of names is asked for a part of 64 letters
    node.run()
    trial.check("time lookup", eventually(looks), "its name is not looked up")
    time.sleep(3.5)  # it looks each second whether one is due
    trial.equal("time lookup", looks(), 1)
    spoils.turn(jump_ns=61 * SECOND)
    trial.check("time lookup", eventually(lambda: looks() == 2), f"{looks()} lookups in more than a minute")


@suite.case()
def name_that_is_found_again(trial):
    """A name that has no address for a while, and then the one that it had: the log tells of either."""
    node, spoils, looks = named_by_one(trial)
    spoils.tell("addresses", "127.0.0.1")
    node.run()
    trial.logs(node, "source_resolved", source=0)
    spoils.tell("addresses", 64 * "x")
    spoils.turn(jump_ns=61 * SECOND)
    trial.logs(node, "source_unresolved", source=0)
    trial.equal("log source_resolved", len(node.said("source_resolved")), 1)
    spoils.tell("addresses", "127.0.0.1")
    spoils.turn(jump_ns=61 * SECOND)
    again = eventually(lambda: len(lines := node.said("source_resolved")) == 2 and lines) or [{}]
    trial.equal("log source_resolved", (looks(), again[0].get("address")), (3, again[-1].get("address")))


@suite.case()
def minute_between_lookups(trial):
    """The name of a silent master is looked up again a minute after its last lookup ended, however long that took. An address that it had is no news."""
    node, spoils, looks = named_by_one(trial)
    spoils.tell("addresses", "127.0.0.1")
    with spoils.spoiled("lookup"):
        node.run()
        trial.check("time lookup", eventually(looks), "its name is not looked up")
        spoils.turn(jump_ns=70 * SECOND)
    trial.logs(node, "source_resolved", source=0)
    time.sleep(2.5)  # it looks each second whether one is due
    trial.equal("time lookup", looks(), 1)
    spoils.turn(jump_ns=61 * SECOND)
    trial.check("time lookup", eventually(lambda: looks() == 2), f"{looks()} lookups in more than two minutes")
    rounds = status_of(node)["rounds"]
    eventually(lambda: status_of(node)["rounds"] > rounds + 3)
    trial.equal("log source_resolved", len(node.said("source_resolved")), 1)


@suite.case()
def address_behind_a_lookup(trial):
    """A lookup that finds the addresses of a silent master once more leaves its place among them: behind the second the third is asked, and not the
    first."""
    node, spoils, looks = named_by_one(trial)
    hosts = [f"127.0.0.{number}" for number in (2, 3, 4)]
    spoils.tell("addresses", " ".join(hosts))
    with contextlib.ExitStack() as stack:
        doors = [stack.enter_context(socket.socket(socket.AF_INET, socket.SOCK_DGRAM)) for _ in hosts]
        port = int(re.search(r'"localhost:(\d+)"', read_text(node.path("node.toml"))).group(1))
        for door, host in zip(doors, hosts):
            door.bind((host, port))
            door.setblocking(False)
        node.run()
        trial.check("time lookup", eventually(lambda: polls_at(doors[1]), 10), "the second address is not asked")
        spoils.turn(jump_ns=61 * SECOND)
        polls_at(doors[0])
        trial.check("time lookup", eventually(lambda: looks() == 2), f"{looks()} lookups in more than a minute")
        trial.check("time lookup", eventually(lambda: polls_at(doors[2]), 8), "the third address is not asked")
        trial.equal("polls at the first address behind a lookup", polls_at(doors[0]), 0)


@suite.case()
def lookup_without_an_address_that_is_reached(trial):
    """Where a host has no IPv6, a lookup that finds such an address alone is told of, and leaves those that are known: they are asked in turn."""
    node, spoils, looks = named_by_one(trial)
    spoils.tell("six")
    spoils.tell("addresses", "127.0.0.2 127.0.0.3")
    port = int(re.search(r'"localhost:(\d+)"', read_text(node.path("node.toml"))).group(1))
    with contextlib.ExitStack() as stack:
        doors = [stack.enter_context(socket.socket(socket.AF_INET, socket.SOCK_DGRAM)) for _ in range(2)]
        for door, host in zip(doors, ("127.0.0.2", "127.0.0.3")):
            door.bind((host, port))
            door.setblocking(False)
        node.run()
        trial.check("time lookup", eventually(lambda: polls_at(doors[1]), 10), "the second address is not asked")
        spoils.tell("addresses", "::1")
        spoils.turn(jump_ns=61 * SECOND)
        trial.check("time lookup", eventually(lambda: looks() == 2), f"{looks()} lookups in more than a minute")
        trial.logs(node, "source_unresolved", source=0)
        for door in doors:
            polls_at(door)
        for door in doors:
            trial.check("time lookup", eventually(lambda door=door: polls_at(door), 8), "an address that is known is not asked any more")


@suite.case()
def replies_at_once(trial):
    """No reply over TCP waits for others to be sent with."""
    node, notes = trial.node(trial.scripts(honest)), Notes(trial.room, "machine")
    node.environment = notes.environment
    node.run()
    node.wait_until_ready()
    before = notes.calls().count(["nodelay"])
    for opened in range(1, 4):
        with truetime.Session(node.address, 5) as session:
            session.now()
            trial.equal("sessions at once", notes.calls().count(["nodelay"]) - before, opened)


@suite.case()
def waits_for_the_address_of_a_master(trial):
    """A master whose address does not come tries again behind one second, then two, and so on."""
    words = ["master", "--source", "0", "--listen", "198.51.100.1:7001", "--uncertainty", "5", "--keys", keys_at(trial)]
    notes = trial.keep(Noted(trial, "master-away", words)).notes
    eventually(lambda: len(notes.waits("sleep")) > 1, 10)
    trial.equal("time master address", notes.waits("sleep")[:2], [SECOND, 2 * SECOND])


@suite.case()
def waits_before_a_publication(trial):
    """Rounds follow each other quickly for two seconds where nobody answers, however long `poll` is, and then no more."""
    node, notes = trial.node(trial.scripts(silent), wait="20ms", poll="1300ms"), Notes(trial.room, "machine")
    node.environment = notes.environment
    node.run()
    waits_for(trial, notes, "park", "quick round", "records", others=[(1300 * MILLISECOND, 1300 * MILLISECOND)])
    trial.check("time quick round", eventually(lambda: 1300 * MILLISECOND in notes.waits("park")), f"{notes.waits('park')}")


@suite.case()
def waits_of_commands(trial):
    """`ask` of a machine that has published nothing, and `top` of one that has."""
    service = trial.keep(Answerer(lambda door, _: door.sendall(b"refused 801\n")))
    ask = trial.keep(Noted(trial, "ask", ["ask", service.address, "now", "--retry", "2"]))
    ask.running.wait(20)
    waits_for(trial, ask.notes, "send", "ask link")
    waits_for(trial, ask.notes, "receive", "ask read")
    waits_for(trial, ask.notes, "sleep", "ask again")
    is_near(trial, "ask link", ask.notes.waits("poll"))
    trial.equal("time ask again", sum(words[0] == "sleep" for words in ask.notes.calls()), 2)
    trial.check("time ask link", ["nodelay"] in ask.notes.calls(), "a line waits for others to be sent with")
    node, port = with_pages(trial, trial.scripts(honest))
    node.run()
    node.wait_until_ready()
    top = trial.keep(Noted(trial, "top", ["top", f"127.0.0.1:{port}"]))
    waits_for(trial, top.notes, "sleep", "top again")
    waits_for(trial, top.notes, "receive", "top link")
    waits_for(trial, top.notes, "send", "top link")
    is_near(trial, "top link", top.notes.waits("poll"))


@suite.case()
def pause_of_masters_that_fail(trial):
    """A master that can receive no packet tries again a tenth of a second later."""
    spoils, notes = Spoils(trial.room), Notes(trial.room, "failing")
    spoils.environment |= {"LD_PRELOAD": f"{spoils.environment['LD_PRELOAD']}:{notes.environment['LD_PRELOAD']}", "NOTES": notes.path}
    words = ["master", "--source", "0", "--listen", f"127.0.0.1:{free_port(socket.SOCK_DGRAM)}", "--uncertainty", "5"]
    process = trial.keep(Spoiled(trial, spoils, words))
    trial.logs(process, "master_started")
    with spoils.spoiled("receive"):
        trial.logs(process, "master_failed")
        waits_for(trial, notes, "sleep", "master fails")


@suite.case()
def waits_of_masters(trial):
    """One by the clock of its host, and one by a server of its host."""
    server = trial.keep(FakeServer())
    for name, more in (("stated", ["--uncertainty", "5"]), ("near", ["--ntp", server.address])):
        words = ["master", "--source", "0", "--listen", f"127.0.0.1:{free_port(socket.SOCK_DGRAM)}", "--status", os.path.join(trial.room, name), *more]
        notes = trial.keep(Noted(trial, f"master-{name}", words)).notes
        waits_for(trial, notes, "receive", "packet", *(["near reply"] if name == "near" else []))
        waits_for(trial, notes, "park", "records")


@suite.case(root=True, programs=("unshare",))
def waits_of_masters_of_other_hosts(trial):
    """Servers on other hosts, from a network without a route: no packet leaves it. Each is asked at once, and about a minute later."""
    status = os.path.join(trial.room, "status")
    words = ["master", "--source", "0", "--listen", "127.0.0.1:1", "--ntp", "192.0.2.1:123", "--ntp", "192.0.2.2:123", "--status", status]
    started = trial.keep(Noted(trial, "master", words, ("unshare", "--net")))
    waits_for(trial, started.notes, "receive", "far reply", "packet")
    waits_for(trial, started.notes, "sleep", "far look", others=[(1, TIMES["far look"])])
    asked = [f'truetime_master_server_requests_total{{source="0",server="{server}"}} 1' for server in range(2)]
    eventually(lambda: set(asked) <= set(read_text(status).splitlines()))
    trial.equal("master server_requests_total", [line for line in read_text(status).splitlines() if line.startswith(asked[0].split("{")[0] + "{")], asked)
    silent_ones = eventually(lambda: len(lines := started.said("server_silent")) == 2 and lines) or []
    trial.equal("log server_silent", sorted(line["server"] for line in silent_ones), ["0", "1"])


# What is compared with readings of the clock.

@suite.case()
def longest_session(trial):
    """It lasts a day, whatever it says meanwhile, and not longer."""
    node, spoils = trial.spoilable(trial.scripts(honest), idle="86400s", on_break="warn", workers=2, poll="50ms")
    with socket.create_connection(node.address, 5) as door, door.makefile("rb") as replies:
        def reply():
            with contextlib.suppress(OSError):
                door.sendall(b"now\n")
                return replies.readline()
            return b""

        trial.check("time session", reply().startswith(b"now "), "no reply")
        spoils.turn(jump_ns=TIMES["session"] - 60 * SECOND)
        time.sleep(1.5)
        trial.check("time session", reply().startswith(b"now "), "it ends a minute before it is a day old")
        spoils.turn(jump_ns=70 * SECOND)
        door.settimeout(6)
        ended = None
        with contextlib.suppress(OSError):
            ended = replies.readline()
        trial.equal("time session", ended, b"")


@suite.case()
def slow_publications(trial):
    """One that lasts a second longer than `wait` is told of within a second more, and one that is made within `wait` never is, however long the pauses
    before and behind it."""
    quick = trial.running_node(trial.scripts(honest, honest, silent), "E", poll="3s", wait="900ms")
    spoiled = [trial.spoilable(trial.scripts(honest), name, wait="50ms", poll="50ms") for name in "BCD"]
    with contextlib.ExitStack() as stack:
        for _, spoils in spoiled:
            stack.enter_context(spoils.spoiled("sending"))
        for node, _ in spoiled:
            lasted = int(trial.logs(node, "publication_slow").get("lasted_ns", 0))
            least = TIMES["slow"] + 50 * MILLISECOND
            trial.between("time slow", least, lasted, least + TIMES["records"] + SECOND)
    trial.check("time slow", eventually(lambda: quick.status()["truetime_rounds_total"] >= 3, 12), "its rounds do not go on")
    trial.equal("time slow", quick.said("publication_slow"), [])


# Addresses and files.

@suite.case()
def addresses(trial):
    """All sockets of a machine whose masters are on its host are at 127.0.0.1, and so is that of a master: no other host reaches them."""
    node, _ = with_pages(trial, trial.scripts(honest), machine=1)
    node.run()
    node.wait_until_ready()
    trial.equal("setting listen", places_of(node), [HERE])
    master = trial.process("master", "--source", "0", "--listen", f"127.0.0.1:{free_port(socket.SOCK_DGRAM)}", "--uncertainty", "5")
    trial.logs(master, "master_started")
    trial.equal("option listen", places_of(master), [HERE])


@suite.case()
def synced_files(trial):
    """Each draft of what has to last is synced before it is renamed, and the folder of the epoch behind that: a loss of power takes no epoch back."""
    vmclock = os.path.join(trial.room, "vmclock0")
    write(vmclock, page(1))
    node, notes = trial.node(trial.scripts(honest), vmclock=vmclock), Notes(trial.room, "machine")
    node.environment = notes.environment
    node.run()
    node.wait_until_ready()
    eventually(lambda: os.path.exists(node.path("shared")) and os.path.exists(node.path("status")))
    disrupt(vmclock, 2)
    trial.equal("setting on_break", node.running.wait(20), 3)
    calls = [tuple(words) for words in notes.calls() if words[0] in ("open", "fsync", "fdatasync", "rename")]
    for name in ("state/epoch", "state/break", "shared"):
        path = node.path(name)
        seen = [call for call in calls if call[0] != "open" and call[1] == f"{path}.new"]
        trial.equal(f"sync of {name}", seen, [("fsync", f"{path}.new"), ("rename", f"{path}.new", path)])
    renamed = ("rename", node.path("state/epoch.new"), node.path("state/epoch"))
    behind = calls[calls.index(renamed):] if renamed in calls else []
    # Nothing of the life is made before its epoch is there to stay.
    trial.check("sync of state", ("fsync", node.path("state")) in behind[:3], f"behind the epoch come {behind[:3]}")
    status = node.path("status")
    trial.check("sync of status", ("rename", f"{status}.new", status) in calls and ("open", status) not in calls, "it is written in its place")


# The modes of what a machine makes, where the umask takes nothing.
MODES = {"state": 0o700, "state/epoch": 0o600, "state/lock": 0o600, "folder": 0o755, "folder/shared": 0o644, "folder/shared.lock": 0o600,
         "status": 0o644, "evidence": 0o644, "socket": 0o777}
# Those of what it makes beside these at a break.
AT_A_BREAK = {"state/break": 0o600, "evidence.break-1": 0o644, "evidence.break-2": 0o644}


def modes_of(node, names):
    """The mode of each that is there; that of one that is another user's is nothing."""
    facts = {name: os.lstat(node.path(name)) for name in names if os.path.lexists(node.path(name))}
    return {name: stat.S_IMODE(fact.st_mode) if (fact.st_uid, fact.st_gid) == (os.geteuid(), os.getegid()) else None for name, fact in facts.items()}


@suite.case()
def modes_of_files(trial):
    """Each file, folder and socket has its owner and its mode, less what the umask takes, in two lives, the first of which ends by a break."""
    for name, umask in (("A", 0), ("B", 0o077)):
        folder, masters = os.path.join(trial.room, name), trial.scripts(honest)
        node = trial.node(masters, name, shared=os.path.join(folder, "folder/shared"), evidence=os.path.join(folder, "evidence"))
        os.rmdir(node.path("state"))
        wanted = {path: mode & ~umask for path, mode in MODES.items()}
        for life in range(2):
            if life:  # locks that anybody could hold
                for lock in ("state/lock", "folder/shared.lock"):
                    os.chmod(node.path(lock), 0o666)
            node.run(umask=umask)
            node.wait_until_ready()
            eventually(lambda node=node, wanted=wanted: modes_of(node, wanted) == wanted)
            trial.equal("setting state", modes_of(node, wanted), wanted)
            trial.equal("log state_loose", [node.said(f"{what}_loose") for what in ("state", "epoch", "shared")], [[], [], []])
            masters[0].acts = [lies(5 * SECOND)]
            eventually(lambda node=node: node.running.poll() is not None)
            made = {path: mode & ~umask for path, mode in AT_A_BREAK.items()}
            trial.equal("setting evidence", modes_of(node, made), made)
            masters[0].acts = [honest]
