"""Scenarios of the suite `breaks`: `on_break`, `max_width`, the evidence of each round, and time namespaces."""
import contextlib
import os
import re
import socket
import threading
import time

from harness.faults import Spoils, disrupt, page
from harness.processes import SECOND, truetime
from harness.program import read, write
from suites.breaks import suite
from suites.breaks_of_clocks import between_rounds
from suites.breaks_world import BROKEN, World, claim_of, is_valid
from suites.wiring_checks import eventually, published


@suite.case()
def warned(trial):
    """By `on_break = "warn"` the machine logs and counts each break, and goes on in the same life."""
    world = World(trial, on_break="warn", poll="100ms")
    if world.number("assumption_breaks_total") != 0:
        yield f"{world.number('assumption_breaks_total')} breaks before the first"
    for number in (1, 2):
        between_rounds(world)
        since = world.spoils.turn(jump_ns=SECOND)
        yield from world.rises("assumption_breaks_total", number - 1)
        if number == 1 and (not (line := world.line("assumption_broken", since)) or world.rounds(since, line["time"]) > 1):
            yield f"it was noticed by {line}"
        yield from world.goes_on_rightly()
    if world.number("assumption_breaks_total") != 2:
        yield f"{world.number('assumption_breaks_total')} breaks are counted, and there were 2"


@suite.case()
def stays_down(trial):
    """By `on_break = "stay"` a break ends the machine with status 2, after which a unit starts nothing; somebody who starts it has a life more."""
    path = os.path.join(trial.room, "vmclock0")
    write(path, page(1))
    world = World(trial, vmclock=path, on_break="stay")
    since = disrupt(path, 2)
    ended, status = world.end(since)
    if not ended or status != 2:
        yield f"it ends with status {status}"
    if not (line := world.line("guest_disrupted", since)) or line["level"] != "error":
        yield f"it was told by {line}"
    if "by on_break the machine stays down" not in world.node.end_of_log():
        yield "standard error does not say that it stays down"
    time.sleep(1)
    if wrong := world.users.wrong():
        yield f"{len(wrong)} wrong readings"
    if late := [got for got in world.users.readings if got.before > ended]:
        yield f"{len(late)} readings behind its end"
    if not re.fullmatch(rb"tt-break 3 1 \d+ 1 \d+ 3\n", text := read(world.node.path("state/break"))):
        yield f"state/break has {text!r}"
    world.node.running.stdin.close()
    world.node.run()
    world.node.wait_until_ready()
    yield from world.goes_on_rightly()
    if (told := world.number("broken_lives_total")) != 1:
        yield f"its status tells of {told} lives that ended so"


class Asking(threading.Thread):
    """A session that asks for the time as often as it can, until it has no reading: when it asked, and what it was told in the end."""

    def __init__(self, door):
        super().__init__(daemon=True)
        self.door, self.asked, self.told = door, [], b""
        self.start()

    def run(self):
        with contextlib.suppress(OSError):
            while True:
                before = time.time_ns()
                self.door.sendall(b"now\n")
                self.told = self.door.recv(100)
                if not self.told.startswith(b"now "):
                    return
                self.asked.append(before)
        self.told = b""


@suite.case()
def nothing_after_a_break(trial):
    """Sessions that ask on, wait for a commit or come later have no reading, stamp or release, and readers of the shared file have 801. Nobody
    starts the machine again."""
    path = os.path.join(trial.room, "vmclock0")
    write(path, page(1))
    node = trial.node(trial.masters(3), vmclock=path, floor_ahead="10s", workers=6)
    node.words.remove("--until-eof")
    node.run()
    node.wait_until_ready()
    with contextlib.ExitStack() as doors:
        waiting, door = (doors.enter_context(socket.create_connection(node.address, 5)) for _ in range(2))
        line = b"commit 1 %d\n" % (time.time_ns() + 5 * SECOND)
        waiting.sendall(line)
        if not (begun := waiting.recv(100)).startswith(b"waiting 1 "):
            yield f"a commit is answered {begun}"
        asking = Asking(door)
        time.sleep(0.3)
        disrupt(path, 2)
        asking.join(5)
        replies = [asking.told, b""]
        with contextlib.suppress(OSError):
            waiting.sendall(line)
            replies[1] = waiting.recv(100)
    if set(replies) - {b"", b"refused 1823\n"} or not asking.asked:
        yield f"after {len(asking.asked)} readings sessions get {replies}"
    ended, told = eventually(lambda: node.running.poll() is not None), node.said("guest_disrupted")
    if not told or not ended or node.running.returncode != BROKEN:
        yield f"it ended with status {node.running.returncode}"
    elif late := sum(at > told[0]["time"] for at in asking.asked):
        yield f"{late} readings were given after it was told"
    if (said := trial.command("read", node.path("shared")).answer) != ("refused 801\n", 2):
        yield f"`ttd read` gives {said}"
    if not node.said("ended"):
        yield "it did not end in order"


@suite.case()
def nothing_once_it_breaks(trial):
    """Sessions have no reading, stamp or release as soon as the shared file has none, also while the line of the log is still under way: old sessions
    and one that comes then."""
    path = os.path.join(trial.room, "vmclock0")
    write(path, page(1))
    spoils, node = Spoils(trial.room), trial.node(trial.masters(3), vmclock=path, floor_ahead="10s", workers=6)
    node.environment = spoils.environment
    node.run()
    node.wait_until_ready()
    time.sleep(0.3)
    with contextlib.ExitStack() as doors:
        waiting, other = (doors.enter_context(socket.create_connection(node.address, 5)) for _ in range(2))
        line = b"commit 1 %d\n" % (time.time_ns() + 5 * SECOND)
        for door, text, begin in ((waiting, line, b"waiting 1 "), (other, b"now\n", b"now ")):
            door.sendall(text)
            if not (reply := door.recv(100)).startswith(begin):
                yield f"{text} is answered {reply}"
        with spoils.spoiled("telling"):
            disrupt(path, 2)
            if not eventually(lambda: trial.command("read", node.path("shared")).answer == ("refused 801\n", 2)):
                yield "`ttd read` has a reading"
            new = doors.enter_context(socket.create_connection(node.address, 5))
            replies = []
            for door, text in ((waiting, line), (other, b"now\n"), (other, b"commit 2 0\n"), (new, b"now\n")):
                door.sendall(text)
                replies.append(door.recv(100))
            if replies != [b"refused 1823\n"] * 4:
                yield f"sessions get {replies}"
            if node.said("guest_disrupted") or node.running.poll() is not None:
                yield "it was told before"
    if eventually(node.running.poll) != BROKEN:
        yield f"it ended with status {node.running.returncode}"


@suite.case()
def ends_before_its_input(trial):
    """A machine that ends with its input ends by a break though that is open."""
    path = os.path.join(trial.room, "vmclock0")
    write(path, page(1))
    node = trial.running_node(trial.masters(3), vmclock=path)
    time.sleep(0.3)
    disrupt(path, 2)
    if not eventually(lambda: node.running.poll() is not None) or node.running.returncode != BROKEN:
        yield f"it ended with status {node.running.returncode}"


# Widths.

@suite.case()
def wider_than_max_width(trial):
    """Masters are two milliseconds wide, and readings may be one: sessions and readers of the shared file are refused."""
    node = trial.node(trial.masters(3), max_width="1ms")
    node.run()
    yield from node.publishes_within(2)
    for address in (node.address, node.path("socket")):
        with truetime.Session(address, 5) as session:
            replies = [session.ask(line) for line in ("now", "after 0", "before 0", "commit 1 0")]
        if replies != ["refused 1824"] * 4:
            yield f"sessions get {replies}"
    said = trial.command("read", node.path("shared")).answer
    if said != ("refused 1708\n", 2):
        yield f"`ttd read` gives {said}"


@suite.case()
def wider_than_max_width_later(trial):
    """Once all masters are dead, readings widen by 40 microseconds in 0.1 seconds, up to the limit and no further."""
    masters = trial.masters(3)
    node = trial.running_node(masters, max_width="4ms", drift=2000)
    yield from node.answers()
    for master in masters:
        master.kill()
    widest, began = 0, time.monotonic()
    with truetime.Session(node.address, 5) as session:
        while (reply := session.ask("now")).startswith("now ") and time.monotonic() < began + 5:
            earliest, latest = map(int, reply.split()[1:])
            widest = max(widest, latest - earliest)
            time.sleep(0.01)
    trial.note(f"the widest reading had {widest} ns, {time.monotonic() - began:.2f} seconds after the last answer: {reply}")
    if reply != "refused 1824" or widest > 4_000_000:
        yield f"after {widest} ns came {reply}"
    if (said := trial.command("read", node.path("shared")).answer) != ("refused 1708\n", 2):
        yield f"`ttd read` gives {said}"


@suite.case()
def narrower_than_max_width(trial):
    node = trial.running_node(trial.masters(3), max_width="1s")
    yield from node.goes_on()
    yield from node.answers()
    if not (said := trial.command("read", node.path("shared")).said).startswith("now "):
        yield f"`ttd read` gives {said}"


# Evidence.

@suite.case()
def evidence_of_each_round(trial):
    """It is valid, and comes to have the interval that is published, before the next one is."""
    world, kept, compared = World(trial, poll="400ms"), os.path.join(trial.room, "kept"), set()

    def look():
        """Whether it is that of the last publication, one that was not yet compared."""
        before = published(world.node)
        write(kept, read(world.node.path("evidence")))
        if not is_valid(trial.program, kept):
            trial.wrong(f"at publication {before.number} it is not valid")
        if published(world.node) != before or claim_of(kept) != (before.lo_ns, before.hi_ns) or before.number in compared:
            return False
        compared.add(before.number)
        return True

    if not all(eventually(look, 3) for _ in range(5)):
        yield f"at publication {published(world.node)} its interval is {claim_of(kept)}"
    trial.note(f"it was that of the publications {sorted(compared)}")


# Time namespaces, of which a real one is a scenario of the suite `faults`.

@suite.case()
def offsets_of_a_time_namespace(trial):
    """The machine says that it shares nothing, and serves its sessions all the same."""
    node, spoils = trial.node(trial.masters(3)), Spoils(trial.room)
    spoils.tell("timens", "monotonic           5         0\nboottime            0         0\n")
    node.environment = spoils.environment
    node.run()
    node.wait_until_ready()
    line = eventually(lambda: node.said("sharing_ended"))
    if not line or line[0]["number"] != "1702":
        yield f"the log says {line}"
    if os.path.exists(node.path("shared")):
        yield "there is a shared file"
    yield from node.comes_to("sharing", 0, 2)
    yield from node.answers()


@suite.case()
def kernel_without_time_namespaces(trial):
    """It has no file of their offsets: the clock is that of the host, so the machine shares, and readers read."""
    node, spoils = trial.node(trial.masters(3)), Spoils(trial.room)
    spoils.tell("no-timens")
    node.environment = spoils.environment
    node.run()
    node.wait_until_ready()
    yield from node.comes_to("sharing", 1, 2)
    if not (said := trial.command("read", node.path("shared"), env=spoils.environment).said).startswith("now "):
        yield f"`ttd read` gives {said}"
