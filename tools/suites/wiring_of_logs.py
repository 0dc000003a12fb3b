"""Scenarios of the suite `wiring`: each kind of line of the log, and the numbers of the status that rise when something fails."""
import contextlib
import errno
import itertools
import os
import re
import resource
import select
import shutil
import signal
import socket
import time
import types

from harness.faults import Spoils, disrupt, full_pipe, hold_lock, honest, late, page, silent
from harness.processes import SECOND, fields_of, free_port, truetime
from harness.program import read, read_text, write
from harness.shared_file import of_another_boot, slots_in
from suites.breaks_world import is_valid
from suites.wiring import suite
from suites.wiring_checks import HERE, eventually, lies, places_of, published, status_of
from suites.wiring_of_masters import Spoiled

# A kind of line of which none was to be written for so long begins anew: its first pause, and as long again, and a second.
QUIET_AGAIN = 21 * SECOND


@suite.case()
def loose_files(trial):
    """A start finds what others may write."""
    node = trial.running_node(trial.scripts(honest))
    trial.logs(node, "started", epoch=1)
    trial.has_form("setting log", node, "text")
    for event in ("state_loose", "epoch_loose", "shared_loose"):
        trial.equal(f"log {event}", node.said(event), [])
    for epoch, (event, name) in enumerate((("state_loose", "state"), ("epoch_loose", "state/epoch"), ("shared_loose", "shared")), 2):
        mode = os.stat(node.path(name)).st_mode
        os.chmod(node.path(name), mode | 0o022)
        node.again()
        trial.logs(node, event)
        trial.logs(node, "started", epoch=epoch)
        os.chmod(node.path(name), mode)
    trial.equal("log started", [line["epoch"] for line in node.said("started")], ["1", "2", "3", "4"])
    for event in ("state_loose", "epoch_loose", "shared_loose"):
        trial.equal(f"log {event}", len(node.said(event)), 1)


@suite.case()
def shared_file_that_fails(trial):
    """Its folder is there only later, its lock is held for a while, and it is removed. It is tried again a pause between rounds later at first,
    however long a round waits."""
    place = os.path.join(trial.room, "place")
    write(place, b"")
    node = trial.node(trial.scripts(honest), "A", shared=os.path.join(place, "shared"), wait="10s")
    node.run()
    trial.logs(node, "sharing_ended", number=1701)
    trial.numbers(node, sharing=0)
    os.remove(place)
    trial.logs(node, "sharing_resumed", 7)
    trial.numbers(node, sharing=1)
    node = trial.node(trial.scripts(honest), "B")
    write(node.path("shared.lock"), b"")
    held = hold_lock(node.path("shared.lock"))
    node.run()
    trial.logs(node, "sharing_ended", number=1707)
    os.close(held)
    trial.logs(node, "sharing_resumed", 10)
    node = trial.running_node(trial.scripts(honest), "C")
    published(node)
    os.remove(node.path("shared"))
    trial.logs(node, "sharing_ended", number=1705)
    trial.logs(node, "sharing_resumed", 10)
    os.remove(node.path("shared"))
    trial.logs(node, "sharing_ended", number=1705)
    trial.logs(node, "sharing_resumed", 10)
    node = trial.running_node(trial.scripts(honest), "D")
    published(node)

    def put_folder():
        with contextlib.suppress(FileNotFoundError):
            os.remove(node.path("shared"))
        os.mkdir(node.path("shared"))
        return True

    # The file may just be made again.
    eventually(put_folder)
    trial.logs(node, "sharing_ended", number=1705)
    trial.numbers(node, sharing=0)
    os.rmdir(node.path("shared"))
    trial.logs(node, "sharing_resumed", 10)
    trial.numbers(node, sharing=1)


@suite.case()
def shared_files_that_cannot_be_used(trial):
    """Each says why."""
    node = trial.running_node(trial.scripts(honest))
    published(node)
    with open(node.path("shared"), "rb") as file:
        whole = file.read()
    for content, says in ((None, "it can't be opened or read: No such file or directory"), (whole[:-1], "it has not the 320 bytes"),
                          (whole + b"0", "it has not the 320 bytes"), (b"TTS1" + whole[4:], "it does not begin as a shared file does"),
                          (of_another_boot(whole), "it is of another boot"), (whole[:8] + b"\2" + whole[9:], "it does not begin as a shared file does")):
        path = os.path.join(trial.room, "other")
        if content is not None:
            write(path, content)
        ran = trial.command("read", path)
        trial.equal("read", ran.answer, ("refused 1701\n", 4) if content is None else ("refused 1702\n", 2))
        trial.check("read", ran.error.startswith(f"ttd: {path}: {says}"), f"{says}: {ran.error}")


@suite.case()
def status_that_fails(trial):
    """A folder lies where it is written, and later does not."""
    node = trial.running_node(trial.scripts(honest))
    trial.numbers(node, sharing=1)
    # The draft of a status may just be there.
    eventually(lambda: os.makedirs(node.path("status.new/kept")) or True)
    trial.logs(node, "status_unwritten", errno=errno.EISDIR)
    time.sleep(0.5)
    trial.equal("log status_written", node.said("status_written"), [])
    shutil.rmtree(node.path("status.new"), ignore_errors=True)
    trial.logs(node, "status_written")
    rounds = status_of(node)["rounds"]
    trial.check("status rounds", eventually(lambda: status_of(node)["rounds"] > rounds), "it stays as it was")


@suite.case()
def evidence_that_fails(trial):
    """A folder lies where it is written, and later does not."""
    path = os.path.join(trial.room, "evidence")
    masters = trial.scripts(honest)
    node = trial.running_node(masters, evidence=path)
    trial.check("setting evidence", eventually(lambda: is_valid(trial.program, path)), "nothing valid is there")
    eventually(lambda: os.makedirs(f"{path}.new/kept") or True)
    trial.logs(node, "evidence_unwritten", errno=errno.EISDIR)
    time.sleep(0.5)
    trial.equal("log evidence_written", node.said("evidence_written"), [])
    shutil.rmtree(f"{path}.new", ignore_errors=True)
    trial.logs(node, "evidence_written")
    before = read(path)
    trial.check("setting evidence", eventually(lambda: read(path) != before), "it stays as it was")
    # Of a break the later one is still written.
    os.makedirs(f"{path}.break-1.new/kept")
    masters[0].acts = [lies(5 * SECOND)]
    eventually(lambda: node.running.poll() is not None)
    is_there = os.path.exists(f"{path}.break-2") and is_valid(trial.program, f"{path}.break-2")
    trial.check("setting evidence", is_there, "behind a break the later one is not there where the one before can't be written")
    # A machine that could write all before says so of the earlier one alone.
    masters, other = trial.scripts(honest), os.path.join(trial.room, "other")
    node = trial.running_node(masters, "B", evidence=other)
    trial.check("setting evidence", eventually(lambda: is_valid(trial.program, other)), "nothing valid is there")
    os.makedirs(f"{other}.break-1.new/kept")
    masters[0].acts = [lies(5 * SECOND)]
    trial.logs(node, "evidence_unwritten", errno=errno.EISDIR)


@suite.case()
def sleep_that_is_not_seen(trial):
    """CLOCK_BOOTTIME cannot be read, then it can, and the host sleeps twice; and then it cannot be read again."""
    spoils, node = Spoils(trial.room), trial.node(trial.scripts(honest), on_break="warn")
    spoils.tell("no-boot")
    node.environment = spoils.environment
    node.run()
    trial.logs(node, "sleep_unseen")
    time.sleep(0.5)
    trial.equal("log sleep_unseen", len(node.said("sleep_unseen")), 1)
    trial.numbers(node, sleep_unseen=1, slept=0, breaks=0)
    # It can be read again, and then it cannot. Of one kind a line comes each ten seconds.
    trial.equal("log sleep_seen", node.said("sleep_seen"), [])
    os.remove(spoils.path("no-boot"))
    trial.numbers(node, sleep_unseen=0, slept=0, breaks=0)
    trial.logs(node, "sleep_seen")

    def sleeps(number):
        """The host sleeps for four fifths of a second once more, and the log tells of that alone."""
        spoils.tell("boot", str(number * 800_000_000))
        lines = eventually(lambda: len(lines := node.said("host_slept")) == number and lines) or [{}]
        trial.between("log host_slept", SECOND * 799 // 1000, int(lines[-1].get("slept_ns", 0)), SECOND * 8 // 10)

    sleeps(1)
    time.sleep(10.2)
    sleeps(2)
    trial.equal("log sleep_unseen", len(node.said("sleep_unseen")), 1)
    spoils.tell("no-boot")
    trial.check("log sleep_unseen", eventually(lambda: len(node.said("sleep_unseen")) == 2), "it is not said a second time")
    trial.between("status slept", SECOND * 1598 // 1000, trial.numbers(node, sleep_unseen=1, breaks=2)["slept"], SECOND * 16 // 10)
    # It sleeps while nobody sees it: that shows once the clock can be read again.
    spoils.tell("boot", str(3 * 800_000_000))
    os.remove(spoils.path("no-boot"))
    trial.between("status slept", SECOND * 2397 // 1000, trial.numbers(node, sleep_unseen=0, breaks=3)["slept"], SECOND * 24 // 10)


@suite.case()
def sources_that_answer_again(trial):
    """One is silent in two rounds, one sends what is refused in one, and the third one answers always: each line that says that one answers again comes
    behind the round in which it does, once."""
    masters = trial.scripts([honest, honest, silent, silent, honest], [honest, lambda fake, poll: fake.send(poll[:-1]), honest], honest)
    node = trial.running_node(masters, poll="50ms", wait="100ms")
    for source in (0, 1):
        trial.logs(node, "source_answers", source=source)
    trial.logs(node, "source_silent", source=0)
    eventually(lambda: len(masters[0].polls) > 12)
    told = sorted((int(line["source"]), line["time"] >= masters[int(line["source"])].times[again]) for again, source in ((4, 0), (2, 1))
                  for line in node.said("source_answers") if line["source"] == str(source))
    trial.equal("log source_answers", (told, len(node.said("source_answers"))), ([(0, True), (1, True)], 2))


@suite.case()
def clocks_that_fail(trial):
    """The clock goes back for a while, and the log says so; and that rounds end without a fault again, with the first one behind it, once."""
    node, spoils = trial.spoilable(trial.scripts(*[honest] * 3), poll="50ms", wait="50ms")
    trial.equal("log rounds_resumed", node.said("rounds_resumed"), [])
    with spoils.spoiled("clock"):
        trial.logs(node, "clock_back")
        time.sleep(0.5)
        trial.equal("log rounds_resumed", node.said("rounds_resumed"), [])
    over = trial.logs(node, "rounds_resumed")
    trial.check("log rounds_resumed", over.get("time", 0) > node.said("clock_back")[0]["time"], "it comes before its trouble")
    rounds = status_of(node)["rounds"]
    eventually(lambda: status_of(node)["rounds"] > rounds + 4)
    trial.equal("log rounds_resumed", (len(node.said("rounds_resumed")), node.said("fusion_published")), (1, []))


@suite.case()
def sources_that_agree_again(trial):
    """Of five sources, two of which may be faulty, one lies for a while, and another one always: the log says that the one agrees again, once."""
    masters = trial.scripts(honest, [honest, honest, *[lies(10 * SECOND)] * 3, honest], honest, lies(20 * SECOND), honest)
    node = trial.running_node(masters, poll="50ms", wait="100ms")
    over = trial.logs(node, "source_agrees", source=1, address=masters[1].address)
    begun = [line for line in node.said("source_suspect") if line["source"] == "1"]
    trial.check("log source_agrees", begun and begun[0]["time"] < over.get("time", 0) and over.get("time", 0) >= masters[1].times[5], f"{over}, {begun}")
    eventually(lambda: len(masters[0].polls) > 14)
    trial.equal("log source_agrees", [line["source"] for line in node.said("source_agrees")], ["1"])
    trial.logs(node, "source_suspect", source=3)


@suite.case()
def readings_that_widen(trial):
    """No master answers until readings are wider than `max_width`: then sessions are refused, and the log says so before the next round; and that it is
    over, once they answer again."""
    masters = trial.scripts(honest)
    node = trial.running_node(masters, max_width="100ms", drift=100_000, poll="50ms", wait="50ms")
    time.sleep(0.5)
    trial.equal("log width_above", node.said("width_above"), [])
    masters[0].acts = [silent]
    line = trial.logs(node, "width_above", limit_ns=100_000_000)
    trial.between("log width_above", 100_000_000, int(line.get("width_ns", 0)), 160_000_000)
    with truetime.Session(node.address, 2) as session:
        trial.equal("log width_above", session.ask("now"), "refused 1824")
        time.sleep(0.5)
        trial.equal("log width_in_bounds", node.said("width_in_bounds"), [])
        masters[0].acts = [honest]
        trial.logs(node, "width_in_bounds")
        trial.check("log width_in_bounds", session.ask("now").startswith("now "), "readings are refused behind it")
    time.sleep(0.5)
    trial.equal("log width_in_bounds", (len(node.said("width_above")), len(node.said("width_in_bounds"))), (1, 1))


@suite.case()
def machine_that_stands_still(trial):
    """It is stopped for less than ten rounds and a second, and then for longer, in a pause between rounds of half a second and in a round."""
    masters = trial.scripts(honest)
    node = trial.running_node(masters, poll="50ms", wait="50ms")
    for stopped_s, lines in ((1.0, 0), (2.6, 1)):
        time.sleep(0.3)
        node.running.send_signal(signal.SIGSTOP)
        began = time.monotonic_ns()
        time.sleep(stopped_s)
        node.running.send_signal(signal.SIGCONT)
        for line in eventually(lambda: node.said("stood_still"), 2 if lines else 0.6) or []:
            trial.between("log stood_still", stopped_s, int(line["lasted_ns"]) / SECOND, (time.monotonic_ns() - began) / SECOND + 0.2)
        trial.equal("log stood_still", len(node.said("stood_still")), lines)
    trial.logs(node, "stood_still")


@suite.case()
def starts_after_breaks(trial):
    """Lives end by a disruption, with the status 3, and starts pause."""
    path = os.path.join(trial.room, "vmclock0")
    write(path, page(1))
    node = trial.node(trial.scripts(honest), vmclock=path)
    node.words.remove("--until-eof")
    counted, broke, ended = [], 0, 0
    for breaks, pause_ns in ((0, 0), (1, SECOND // 10), (2, SECOND // 5)):
        node.run()
        node.wait_until_ready()
        told = trial.numbers(node, broken_lives=breaks, last_break_info=1 if breaks else None)
        trial.check("status last_break", broke <= told["last_break"] <= ended if breaks else told["last_break"] is None, f"after {breaks} breaks, the last from {broke} to {ended}, it is {told['last_break']}")
        trial.equal("log start_paused", len(node.said("start_paused")), breaks)
        if breaks:
            trial.logs(node, "start_paused", breaks=breaks, pause_ns=pause_ns)
            trial.between("log start_paused", pause_ns / SECOND, time.monotonic() - node.began, pause_ns / SECOND + 2)
        time.sleep(0.3)  # the counter is read for the first time behind the first round
        broke = disrupt(path, breaks + 2)
        trial.equal("setting on_break", eventually(node.running.poll), 3)
        ended = time.time_ns()
        # The last status counts it, where it was written before the end, and the shared file has the number of the last publication.
        status = status_of(node)
        counted.append(status["breaks"])
        [(epoch, number)] = withdrawn_in(node)
        trial.equal("shared epoch", epoch, breaks + 1)
        if status["breaks"]:
            trial.between("shared number", status["publications"] - 1, number, status["publications"])
    trial.check("status breaks", set(counted) <= {0, 1} and 1 in counted, f"it is {counted} at the ends of three lives")
    trial.equal("log guest_disrupted", len(node.said("guest_disrupted")), 3)


def withdrawn_in(node):
    """The epoch and the number of each publication in its shared file by which nothing is published any more."""
    return [(slot.epoch, slot.number) for slot in slots_in(read(node.path("shared"))) if slot.index and slot.usable == 0]


@suite.case()
def signs_within_the_first_round(trial):
    """What the host shows is looked at before the first poll: it is noticed behind the first round that the host slept within it, and that a guest was
    disrupted."""
    path, masters = os.path.join(trial.room, "vmclock0"), trial.scripts(silent)
    write(path, page(1))
    spoils, node = Spoils(trial.room), trial.node(masters, on_break="warn", vmclock=path, wait="2s")
    node.environment = spoils.environment
    node.run()
    eventually(lambda: masters[0].polls, pause_s=0.005)
    spoils.tell("boot", str(800_000_000))
    disrupt(path, 2)
    trial.between("log host_slept", SECOND * 799 // 1000, int(trial.logs(node, "host_slept").get("slept_ns", 0)), SECOND * 8 // 10)
    trial.logs(node, "guest_disrupted")
    trial.numbers(node, breaks=2)


@suite.case()
def no_descriptors(trial):
    """None is left for a connection. Rounds go on, and a client that took them and left again leaves nothing: that the host sleeps is seen."""
    masters = trial.scripts(honest)
    spoils, node = Spoils(trial.room), trial.node(masters, on_break="warn")
    node.environment = spoils.environment
    node.run()
    node.wait_until_ready()
    limits = node.allow_no_more_descriptors()
    with socket.create_connection(node.address, 5):
        trial.logs(node, "not_accepted", errno=errno.EMFILE)
        polls = len(masters[0].polls)
        trial.check("log not_accepted", eventually(lambda: len(masters[0].polls) > polls + 2), "its rounds do not go on")
    trial.equal("log sleep_unseen", node.said("sleep_unseen"), [])
    resource.prlimit(node.running.pid, resource.RLIMIT_NOFILE, limits)
    spoils.tell("boot", str(800_000_000))
    trial.between("log host_slept", SECOND * 799 // 1000, int(trial.logs(node, "host_slept").get("slept_ns", 0)), SECOND * 8 // 10)


@suite.case()
def left_out_lines(trial):
    """Within ten seconds of a line those of its kind are counted, and the next one tells how many there were. Of what came once no line comes later."""
    masters = trial.scripts(honest, silent, honest)
    node, spoils = trial.spoilable(masters, poll="200ms", log="json")
    with spoils.spoiled(f"send-{masters[2].address.split(':')[1]}"):
        trial.logs(node, "source_unsent", source=2)
    with socket.socket(socket.AF_INET, socket.SOCK_DGRAM) as door:
        door.sendto(b"x" * 60, masters[0].machine)
        trial.logs(node, "stranger")
    published(node)
    os.remove(node.path("shared"))
    trial.logs(node, "sharing_ended", number=1705)
    trial.logs(node, "sharing_resumed")
    once, over = ("stranger", "sharing_ended", "sharing_resumed"), time.monotonic()

    def look():
        lines = [line for line in node.said("source_silent") if line["source"] == "1"]
        return lines if len(lines) > 1 else None

    lines = eventually(look, 18, 0.2) or [{}]
    first, last = (int(lines[at].get("time", 0)) for at in (0, -1))
    # The second one may have waited, since the last poll before ten seconds were over.
    trial.between("log source_silent", 9 * SECOND, last - first, 14 * SECOND)
    polls = sum(first <= moment <= last for moment in masters[1].times)
    trial.between("log source_silent", polls - 2, int(lines[-1].get("left_out", -9)), polls + 1)
    trial.has_form("setting log", node, "json")
    time.sleep(max(0.0, over + 10.7 - time.monotonic()))
    for event in once:
        trial.equal(f"log {event}", len(node.said(event)), 1)


def all_silent(trial, **settings):
    """A machine whose masters never answer, so that nothing breaks as its clock jumps; the masters, the machine, and what spoils its calls."""
    masters, spoils = trial.scripts(*[silent] * 3), Spoils(trial.room)
    node = trial.node(masters, poll="20ms", wait="20ms", **settings)
    node.environment = spoils.environment
    node.run()
    return masters, node, spoils


@suite.case()
def lines_that_are_repeated(trial):
    """What lasts is told after ten seconds, and then each time after twice as long; what was told twice as late as that, after ten seconds again."""
    masters, node, spoils = all_silent(trial)

    def said():
        return [line for line in node.said("source_silent") if line["source"] == "1"]

    trial.logs(node, "source_silent", source=1, address=masters[1].address)
    told = 1
    for jump_s, more in ((4, 0), (8, 1), (11, 0), (10, 1), (25, 0), (20, 1), (170, 1), (11, 1), (5, 0)):
        spoils.turn(jump_ns=jump_s * SECOND)
        told += more
        eventually(lambda: len(said()) >= told, 3)
        time.sleep(0 if more else 1.3)
        trial.equal("log source_silent", (jump_s, len(said())), (jump_s, told))


@suite.case()
def lines_that_wait(trial):
    """A line that was left out comes once the pause is over, if none of its kind came since, with its own time and without itself in its count."""
    masters, node, spoils = all_silent(trial)
    eventually(lambda: masters[0].machine)
    with socket.socket(socket.AF_INET, socket.SOCK_DGRAM) as door:
        for _ in range(3):
            door.sendto(b"x" * 60, masters[0].machine)
            time.sleep(0.3)
    first = trial.logs(node, "stranger")
    over = time.time_ns()
    time.sleep(1.3)
    trial.equal("log stranger", len(node.said("stranger")), 1)
    spoils.turn(jump_ns=11 * SECOND)
    last = (eventually(lambda: len(lines := node.said("stranger")) > 1 and lines, 3) or [{}])[-1]
    trial.equal("log stranger", (last.get("left_out"), last.get("address")), ("1", first.get("address")))
    trial.between("log stranger", first.get("time", 0) + SECOND // 2, last.get("time", 0), over)
    spoils.turn(jump_ns=700 * SECOND)
    time.sleep(1.3)
    trial.equal("log stranger", len(node.said("stranger")), 2)


# The priority of each level.
PRIORITIES = {"error": "<3>", "warn": "<4>", "info": "<6>"}


def streams_of(path):
    """What JOURNAL_STREAM may be for an empty file that is made at a path, and whether it names that."""
    write(path, b"")
    device, inode = os.stat(path).st_dev, os.stat(path).st_ino
    return {f"{device}:{inode}": True, f"{device}:{inode + 1}": False, f"{device}:0{inode}": False, f"{device + 1}:{inode}": False, "": False, None: False}


def environment_of(stream):
    """The environment of this process with this JOURNAL_STREAM, if any."""
    return {name: value for name, value in os.environ.items() if name != "JOURNAL_STREAM"} | ({} if stream is None else {"JOURNAL_STREAM": stream})


def begins(trial, process, is_journal):
    """Each line of a log begins with its priority, or none does, for the levels that it has."""
    found = re.findall(r'^(<[0-9]>)?(?:time=|\{"time")[^\n]*?level(?:=|":")([a-z]+)', read_text(process.log), re.MULTILINE)
    wrong = {(mark, level) for mark, level in found if mark != (PRIORITIES[level] if is_journal else "")}
    trial.equal("setting log", (process.name, len(found), wrong), (process.name, read_text(process.log).count("\n"), set()))
    return {level for _, level in found}


@suite.case()
def priorities_of_a_journal(trial):
    """Each line of a machine begins with its priority, in both forms, where JOURNAL_STREAM names the file of standard error, and else none does."""
    for form, place in itertools.product(("text", "json"), range(6)):
        guest = os.path.join(trial.room, f"vmclock-{form}-{place}")
        write(guest, page(1))
        node = trial.node(trial.scripts(honest, silent, honest), f"{form}-{place}", log=form, on_break="warn", vmclock=guest)
        stream, is_journal = list(streams_of(node.log).items())[place]
        node.environment = environment_of(stream)
        node.run()
        node.wait_until_ready()
        disrupt(guest, 2)
        eventually(lambda node=node: "guest_disrupted" in read_text(node.log))
        trial.equal("setting log", begins(trial, node, is_journal), {"info", "warn", "error"})
        node.kill()


@suite.case()
def priorities_of_masters(trial):
    """Each line of a master begins with its priority where JOURNAL_STREAM names the file of standard error, and else none does."""
    for place in range(6):
        name = f"master-of-a-journal-{place}"
        stream, is_journal = list(streams_of(os.path.join(trial.room, f"{name}.log")).items())[place]
        words = ["master", "--source", "1", "--listen", f"127.0.0.1:{free_port(socket.SOCK_DGRAM)}", "--uncertainty", "5"]
        process = trial.keep(Spoiled(trial, types.SimpleNamespace(environment=environment_of(stream)), words, name=name))
        eventually(lambda process=process: "\n" in read_text(process.log))
        trial.equal("option log", begins(trial, process, is_journal), {"info"})


# How many lines wait at most behind the one that is being written, and how many come of each window of ten seconds in which 16 sources are silent.
LINES_THAT_WAIT, LINES_OF_A_WINDOW, WINDOWS = 256, 17, 20


@suite.case()
def standard_error_that_takes_nothing(trial):
    """Of what it does not take 256 lines wait behind one, and more are left out and counted, by a clock that is moved on. Each line has the time at
    which it was handed over, and the next one of its kind says how many there would have been before it."""
    masters = trial.scripts(*[silent] * 16)
    spoils, node = Spoils(trial.room), trial.node(masters, poll="20ms", wait="20ms")
    node.environment = spoils.environment
    reading, writing = full_pipe()
    node.run(stderr=writing)
    os.close(writing)

    def goes_round():
        polls = len(masters[0].polls)
        eventually(lambda: len(masters[0].polls) > polls + 2, pause_s=0.005)

    goes_round()
    for _ in range(WINDOWS - 1):
        spoils.turn(jump_ns=QUIET_AGAIN)
        goes_round()
    # Before them come the lines of the descriptors and of the start.
    lost = 2 + WINDOWS * LINES_OF_A_WINDOW - 1 - LINES_THAT_WAIT
    # Where the host is busy a status may be left out, too.
    eventually(lambda: status_of(node)["left_out"] >= lost, 3)
    trial.between("status left_out", lost, status_of(node)["left_out"], lost + 100)
    drained, came = time.time_ns(), b""

    def take(number, more=0):
        """Reads until more than so many lines have come, and more than so many of source 0; all lines, and these."""
        nonlocal came
        end = time.monotonic() + 8
        while True:
            lines = [fields for fields in map(fields_of, came.lstrip(b"\0").decode().splitlines(keepends=True)) if fields]
            ours = [line for line in lines if line["event"] == "source_silent" and line["source"] == "0"]
            if len(lines) > number and len(ours) > more or time.monotonic() > end:
                return lines, ours
            if select.select([reading], [], [], 0.1)[0]:
                came += os.read(reading, 65536)

    lines, ours = take(LINES_THAT_WAIT)
    later = [line for line in lines[:1 + LINES_THAT_WAIT] if line["time"] > drained]
    trial.equal("log source_silent", (len(lines) > LINES_THAT_WAIT, later), (True, []))
    low = len(masters[0].polls)
    spoils.turn(jump_ns=QUIET_AGAIN)
    _, ours = take(LINES_THAT_WAIT, len(ours))
    told = sum(1 + int(line.get("left_out", 0)) for line in ours)
    trial.between("log source_silent", low - 2, told, len(masters[0].polls))
    os.close(reading)


@suite.case()
def calls_that_fail(trial):
    """No packet goes to one master; then none is received; then the clock goes back."""
    masters = trial.scripts(*[honest] * 3)
    node, spoils = trial.spoilable(masters)
    with spoils.spoiled(f"send-{masters[1].address.split(':')[1]}"):
        trial.logs(node, "source_unsent", source=1)
        time.sleep(1)
    time.sleep(0.3)
    unsent = len(masters[0].polls) - len(masters[1].polls)
    trial.between("status unsent", max(1, unsent - 1), status_of(node)["unsent"][1], unsent + 1)
    trial.equal("log source_unsent", {line["source"] for line in node.said("source_unsent")}, {"1"})
    with spoils.spoiled("receive"):
        trial.logs(node, "round_failed", number=1501)
        trial.logs(node, "socket_renewed", number=1501, pause_ns=SECOND // 10)
        trial.equal("log rounds_resumed", node.said("rounds_resumed"), [])
    trial.logs(node, "rounds_resumed")
    with spoils.spoiled("clock"):
        trial.logs(node, "clock_back")
    first = node.resources()[1]
    rounds = status_of(node)["rounds"]
    trial.check("status rounds", eventually(lambda: status_of(node)["rounds"] > rounds + 1), "no rounds once the clock is right again")
    masters = trial.scripts(late(0.05))
    spoils, node = Spoils(node.folder), trial.node(masters, "B", poll="3s", wait="5s")
    node.environment = spoils.environment
    with spoils.spoiled("receive"):
        node.run()
        # The socket is made anew a tenth of a second later, and then each time twice as long behind the time before, whatever `poll` is.
        trial.logs(node, "socket_renewed", number=1501, pause_ns=SECOND // 10)
        time.sleep(1)
        trial.between("log socket_renewed", 3, len(masters[0].polls), 6)
        spoils.turn(jump_ns=QUIET_AGAIN)
        lines = eventually(lambda: len(lines := node.said("socket_renewed")) > 1 and lines, 8) or [{}]
        wanted = min(SECOND // 10 << 1 + int(lines[-1].get("left_out", 0)), 5 * SECOND)
        trial.equal("log socket_renewed", int(lines[-1].get("pause_ns", 0)), wanted)
    trial.logs(node, "first_publication", 12)
    trial.between("status round_trip", 0, eventually(lambda: status_of(node)["round_trip"][0]), SECOND)
    trial.equal("setting listen", places_of(node), [HERE])
    trial.equal("descriptors behind renewals", eventually(lambda: node.resources()[1] == first) and first, first)


@suite.case()
def calls_that_last(trial):
    """A rename of the status and of the evidence lasts for a second, and then sending a poll lasts until it is logged: a second more than `wait`."""
    masters = trial.scripts(*[honest] * 3)
    node, spoils = trial.spoilable(masters, poll="50ms", wait="3s", evidence=f"{trial.room}/evidence")
    trial.numbers(node, left_out=0)
    with spoils.spoiled("rename"):
        time.sleep(0.1)
        begun = len(masters[0].polls)
        time.sleep(1)
        made = len(masters[0].polls) - begun
    status = eventually(lambda: (seen := status_of(node))["left_out"] > 0 and seen) or status_of(node)
    trial.between("status left_out", max(1, 2 * made - 6), status["left_out"], 2 * made + 24)
    with spoils.spoiled("sending"):
        line = trial.logs(node, "publication_slow", 12)
    trial.between("log publication_slow", 4 * SECOND, int(line.get("lasted_ns", 0)), 12 * SECOND)
