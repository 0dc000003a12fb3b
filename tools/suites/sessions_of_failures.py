"""Cases of the suite `sessions` in which a call of the system fails while a worker serves its sessions, as tools/spoil_calls.c says: each reading
of the clock round a commit that waits, the clock for good, memory, what a worker waits with.

A client has its replies then, or a refusal, or the end of its connection, and soon: it is never left without any. Behind the failure a line costs the
machine as many readings of the clock as before, which says that nothing is left of what failed.
"""
import contextlib
import fcntl
import itertools
import os
import socket
import struct
import subprocess
import termios
import time

from harness.faults import Spoils, reset
from harness.processes import SECOND
from harness.users import is_closed_within
from suites.sessions import MOST, Door, suite

#: A line that a worker hears is answered within so many seconds, the longest wait of a commit's line, a twentieth, and those of a busy host among
#: them. Who is forgotten is answered within a second at best, when the worker looks after its sessions.
SOON_S = 0.6
#: A worker that waits reads the clock less often in a second.
RARE = 200
#: How often lines are tried where one came late, and how many readings of the clock there are round a line that is held, and a few.
TRIES, READINGS = 3, 14
#: The status of an end by a break.
BROKEN = 3
#: Of so many pairs of lines the system does not keep all replies.
PAIRS = 1500


def spoilable(trial, name="A", **settings):
    """A machine with one worker for each address, whose daemon rests behind its first round, and what spoils its calls."""
    folder = os.path.join(trial.room, name)
    settings = {"workers": 2, "socket": os.path.join(folder, "socket"), "poll": "3600s", "wait": "300ms", **settings}
    node, spoils = trial.node(trial.masters(3), name, **settings), Spoils(os.path.join(trial.room, name))
    node.environment = spoils.environment
    node.run()
    node.wait_until_ready()
    return node, spoils


def readings_of_a_line(node, spoils, lines=50):
    """How many readings of the clock a line takes of a session that is alone, which are more while another one has not ended yet: the least of some
    tries, to a tenth."""
    found = []
    for tries in range(TRIES):
        time.sleep(0.1 * tries)
        with contextlib.ExitStack() as stack:
            door = Door(stack, node.address)
            for _ in range(5):
                door.ask("now")
            spoils.tell("readings")
            for _ in range(lines):
                door.ask("now")
            found.append(os.path.getsize(spoils.path("readings")) / lines)
    return min(found)


@contextlib.contextmanager
def leaves_nothing(node, spoils):
    """What is wrong once this has been: lines that take more readings of the clock than before."""
    wrong, before = [], readings_of_a_line(node, spoils)
    yield wrong
    if (after := readings_of_a_line(node, spoils)) > before + 0.5:
        wrong.append(f"a line takes {after:.1f} readings of the clock, and {before:.1f} before")


def told(door, line):
    """The first word of the reply to a line, with the number of a refusal, or `closed`, or `nothing`; and after how many seconds it came."""
    began = time.monotonic()
    try:
        words = door.ask(line).split()
        said = " ".join(words[:2] if words[:1] == ["refused"] else words[:1]) or "closed"
    except TimeoutError:
        said = "nothing"
    except OSError:
        said = "closed"
    return said, time.monotonic() - began


def far_commit():
    return f"commit 1 {time.time_ns() + 9 * SECOND}"


def lines_round_failures(node, spoils):
    """What a line of a pending commit is told, the next one, which is held while a reading of the clock fails, each in turn, and one behind that; and
    how many seconds the slowest took, less those for which machine and client had no processor."""
    with contextlib.ExitStack() as stack:
        door, line = Door(stack, node.address), far_commit()
        for number in range(READINGS):
            before, replies = node.held_up_ns(), [told(door, line)]
            with spoils.spoiled("unread", "." * number + "x."):
                replies.append(told(door, line))
            replies.append(told(door, "now"))
            yield number, [said for said, _ in replies], max(took for _, took in replies) - (node.held_up_ns() - before) / SECOND


@suite.case()
def a_reading_of_the_clock_that_fails(trial):
    """Each in turn while a line of a commit is held: no line is without a reply, or late."""
    node, spoils = spoilable(trial, floor_ahead="10s")
    refused = 0
    for _ in range(TRIES):
        late = []
        for number, words, took in lines_round_failures(node, spoils):
            refused += "refused 803" in words
            if words not in (["waiting", "waiting", "now"], ["waiting", "refused 803", "now"], ["waiting", "waiting", "refused 803"]):
                yield f"where reading {number} fails the replies are {words}"
                return
            late += [f"where reading {number} fails a line takes {took:.2f} s"] if took > SOON_S else []
        if refused and not late:
            break
    yield from late
    if not refused:
        yield "no reading that failed was told of"


@suite.case()
def a_clock_that_fails_for_good(trial):
    """From each reading in turn on while a line of a commit is held: it has its reply or a refusal nevertheless, and its session goes on once the clock
    is back. A new connection is closed meanwhile, and nothing of it is left."""
    node, spoils = spoilable(trial, floor_ahead="10s")
    with leaves_nothing(node, spoils) as wrong:
        for number in range(READINGS):
            with contextlib.ExitStack() as stack:
                door, line = Door(stack, node.address), far_commit()
                said = [told(door, line)[0]]
                with spoils.spoiled("unread", "." * number + "x"):
                    said.append(told(door, line)[0])
                    if number == 0 and not all(is_closed_within(Door(stack, node.address).door, 2) for _ in range(3)):
                        yield "a connection that comes where the clock fails is not closed"
                said.append(told(door, "now")[0])
            if said not in (["waiting", "waiting", "now"], ["waiting", "refused 803", "now"]):
                yield f"where the clock fails from reading {number} on lines are told {said}"
                return
    yield from wrong


@suite.case()
def a_session_that_ends_while_a_line_is_held(trial):
    """Many lines of a commit came longer than `idle` ago, and are held one after the other: nothing of them is left."""
    node, spoils = spoilable(trial, floor_ahead="10s", idle="1s")
    with leaves_nothing(node, spoils) as wrong, contextlib.ExitStack() as stack:
        door = Door(stack, node.address)
        door.send(f"{far_commit()}\n".encode() + b"commit 1 0\n" * 40)
        if not is_closed_within(door.door, 5):
            yield "the session goes on"
    yield from wrong


@suite.case()
def a_session_that_begins_while_readings_fail(trial):
    """It has its time from then on, though the worker's last reading behind its first line is one from before it came: only the second and the fourth
    reading from then on go well, of its begin and of its line."""
    node, spoils = spoilable(trial, idle="1s")
    with contextlib.ExitStack() as stack:
        told(Door(stack, node.address), "now")
    time.sleep(1.2)
    with contextlib.ExitStack() as stack:
        with spoils.spoiled("unread", "x.x."):
            door = Door(stack, node.address)
            said = [told(door, "now")[0]]
        time.sleep(0.4)  # the worker has looked after its sessions
        said.append(told(door, "now")[0])
    if said not in (["now", "now"], ["refused 803", "now"], ["closed", "closed"]):
        yield f"lines of a session are told {said}"


def lines_without_memory(node, spoils, number, pause):
    """So many lines of a commit while there is no memory: from when they are sent, or a pause behind that."""
    with contextlib.ExitStack() as stack:
        door, other, line = Door(stack, node.address), Door(stack, node.address), f"{far_commit()}\n".encode()
        told(other, "now")
        said = [told(door, line.decode().strip())[0]]
        door.send(line * number if pause else b"")
        time.sleep(pause)
        with spoils.spoiled("memory"):
            door.send(b"" if pause else line * number)
            with contextlib.suppress(TimeoutError, OSError):
                said += [door.reply().split(" ")[0] for _ in range(number)]
            if told(other, "now")[0] not in ("now", "refused 1", "closed"):
                yield "another session has no reply where there is no memory"
        replies = [word for word in said if word]
        if replies[0] != "waiting" or set(replies) - {"waiting"} or (len(replies) <= number and not is_closed_within(door.door, 2)):
            yield f"{number} lines of a commit have the replies {said[1:]} where there is no memory, and the session is not ended"
        reset(door.door)


@suite.case()
def memory_that_fails_while_a_line_is_held(trial):
    """A session whose line, or those behind it, can't be held is ended: its client has all replies, or a front of them and the end."""
    node, spoils = spoilable(trial, floor_ahead="10s")
    with leaves_nothing(node, spoils) as wrong:
        for number, pause in itertools.product((1, 4), (0, 0.02)):
            yield from lines_without_memory(node, spoils, number, pause)
    yield from wrong


@suite.case()
def connections_that_cannot_be_watched(trial):
    """Each is closed at once, and keeps no place of a worker: as many as it has places for come, and then one that is served."""
    node, spoils = spoilable(trial)
    with leaves_nothing(node, spoils) as wrong:
        with spoils.spoiled("watch"):
            for number in range(MOST):
                with contextlib.ExitStack() as stack:
                    if not is_closed_within(Door(stack, node.address).door, 2):
                        yield f"connection {number} is not closed, and cannot be watched"
                        return
        with contextlib.ExitStack() as stack:
            if (said := told(Door(stack, node.address), "now")[0]) != "now":
                yield f"behind {MOST} that were closed a session is told {said}"
    yield from wrong


def numbered(number):
    """Two lines, which a worker hears one after the other, and their replies."""
    return b"lease 0 %d\nc\n" % number, b"leased 0 %d\nrefused 1101\n" % number


def fill(door, text):
    """Sends lines as long as they are taken, until the replies that wait for their reader get no more; how many bytes were sent."""
    sent, waiting, since, end = 0, 0, time.monotonic(), time.monotonic() + 5
    door.setblocking(False)
    while time.monotonic() < min(since + 0.15, end) or not waiting and time.monotonic() < end:
        with contextlib.suppress(BlockingIOError, BrokenPipeError):
            sent += door.send(text[sent:sent + 65536])
        now_waiting = struct.unpack("i", fcntl.ioctl(door, termios.FIONREAD, bytes(4)))[0]
        if now_waiting != waiting:
            waiting, since = now_waiting, time.monotonic()
        time.sleep(0.005)
    door.settimeout(5)
    return sent


def replies_of(door):
    """What comes of a door until its end, or until nothing more has come for five seconds; and whether it has ended."""
    came = b""
    try:
        while part := door.recv(65536):
            came += part
    except TimeoutError:
        return came, False
    except OSError:
        pass
    return came, True


@suite.case()
def replies_that_nobody_reads(trial):
    """Each stands behind the one before it once they are read, where the client is alone and where it is not. Where there is no memory for them its
    session is ended: no reply is left out."""
    node, spoils = spoilable(trial)
    text, wanted = (b"".join(parts) for parts in zip(*map(numbered, range(PAIRS))))
    for fails, others in ((False, 0), (False, 1), (True, 0)):
        with contextlib.ExitStack() as stack:
            for _ in range(others):
                told(Door(stack, node.path("socket")), "now")
            door = Door(stack, node.path("socket")).door
            with spoils.spoiled("memory") if fails else contextlib.nullcontext():
                sent = fill(door, text)
            with contextlib.suppress(OSError):
                door.sendall(text[sent:])
                door.shutdown(socket.SHUT_WR)
            came, has_ended = replies_of(door)
            if not wanted.startswith(came) or not has_ended or came != wanted and not fails:
                yield f"{len(came)} bytes of {len(wanted)} came{', where there is no memory,' if fails else ''} {'and the end' if has_ended else 'and no end'}"


def readings_in_a_second(spoils):
    """How often the clock is read while no line comes."""
    spoils.tell("readings")
    began = time.monotonic()
    time.sleep(0.5)
    return os.path.getsize(spoils.path("readings")) / (time.monotonic() - began)


@suite.case()
def who_leaves_its_replies(trial):
    """A client that is gone before it has all its replies, alone and not, leaves no session and no work behind."""
    node, spoils = spoilable(trial)
    text, _ = (b"".join(parts) for parts in zip(*map(numbered, range(PAIRS))))
    for others in (0, 1):
        with contextlib.ExitStack() as stack:
            for _ in range(others):
                told(Door(stack, node.path("socket")), "now")
            door = Door(stack, node.path("socket")).door
            fill(door, text)
            door.close()
            time.sleep(0.1)
            if (often := readings_in_a_second(spoils)) > RARE:
                yield f"{often:.0f} readings of the clock in a second behind it, beside {others} others"


@suite.case()
def waits_that_fail(trial):
    """A worker that can't wait for its sessions rests instead, and has a reply to each line in the end."""
    node, spoils = spoilable(trial)
    with contextlib.ExitStack() as stack:
        doors = [Door(stack, node.address) for _ in range(2)]
        for door in doors:
            told(door, "now")
        with spoils.spoiled("events"):
            for door in doors:
                door.send(b"now\n")
            if (often := readings_in_a_second(spoils)) > RARE:
                yield f"{often:.0f} readings of the clock in a second in which nothing can be waited for"
        if said := {reply for door in doors if (reply := door.reply().split()[0]) != "now"}:
            yield f"behind it lines are told {said}"


@suite.case(quiet=True)
def ends_beside_urgent_bytes(trial):
    """Sessions of the Unix socket that have sent one each hold up neither an end in order nor one by a break. Reads that wait, each for a fifth of a
    second, would for 13 seconds."""
    for name in ("in order", "by a break"):
        node, spoils = spoilable(trial, name.replace(" ", "-"), poll="100ms")
        with contextlib.ExitStack() as stack:
            doors = [Door(stack, node.path("socket")) for _ in range(64)]
            for door in doors:
                told(door, "now")
            if name == "by a break":
                spoils.turn(jump_ns=SECOND)
            for door in doors:
                with contextlib.suppress(OSError):  # a kernel may have none for Unix sockets, and the break may have come
                    door.door.send(b"n", socket.MSG_OOB)
            if name == "in order":
                yield from node.ends()
                continue
            began = time.monotonic()
            try:
                status = node.running.wait(20)
            except subprocess.TimeoutExpired:
                status = None
            if (took := time.monotonic() - began) > 1 or status != BROKEN:
                yield f"it ended by a break after {took:.1f} seconds, with status {status}"
