"""Scenarios of the suite `faults`: sources that cannot be reached, lie or flood, how long a round waits for them, and masters that are flooded."""
import collections
import contextlib
import signal
import socket
import statistics
import subprocess
import time

from harness.faults import (Network, empty_packets, flooded, forged_then_answer, held_up_ns, honest, junk, junk_then_answer, late, send_from_port_0,
                             silent)
from harness.processes import free_port
from harness.program import read_text
from harness.wire import Poll, poll_in
from suites.faults import suite

IN_NETWORK = {"root": True, "programs": ("ip", "unshare", "nsenter")}


def start_in_network(trial, number):
    """A network, masters in it, and a machine that is not started yet."""
    network = trial.keep(Network())
    masters = []
    for source in range(number):
        master = trial.master(source)
        master.kill()
        with open(master.log, "ab") as log:
            master.running = subprocess.Popen([*network.enter, master.program, *master.words], stdin=subprocess.PIPE, stdout=log, stderr=log)
        masters.append(master)
    return network, masters, trial.node(masters, listen=f"127.0.0.1:{free_port(socket.SOCK_STREAM)}")


def lives_without(node, network, lost, heard):
    """The machine in this network does all that it should, and tells of the sources that are lost alone."""
    node.run(network.enter)
    yield from node.publishes_within(2)
    yield from node.goes_on()
    yield from node.answers(node.path("socket"))
    yield from node.hears(*heard)
    told = {int(fields["source"]) for event in ("source_silent", "source_unsent") for fields in node.said(event)}
    if not told.issuperset(lost):
        yield f"the log names {sorted(told)}, and {lost} cannot be reached"
    if node.said("round_failed"):
        yield "the log says round_failed"


@suite.case(**IN_NETWORK)
def no_route_to_one_of_three(trial):
    network, masters, node = start_in_network(trial, 3)
    network.refuse(masters[2], "unreachable")
    yield from lives_without(node, network, [2], [0, 1])


@suite.case(**IN_NETWORK)
def no_route_to_two_of_five(trial):
    network, masters, node = start_in_network(trial, 5)
    network.refuse(masters[0], "prohibit")
    network.refuse(masters[3], "blackhole")
    yield from lives_without(node, network, [0, 3], [1, 2, 4])


@suite.case(root=True, programs=("ip", "unshare", "nsenter", "nft"))
def firewall_before_two_of_five(trial):
    network, masters, node = start_in_network(trial, 5)
    network.drop(masters[1])
    network.drop(masters[4])
    yield from lives_without(node, network, [1, 4], [0, 2, 3])


@suite.case(**IN_NETWORK)
def interface_down(trial):
    """For 1.5 seconds no packet can be sent at all. Then all goes on."""
    network, masters, node = start_in_network(trial, 3)
    node.run(network.enter)
    yield from node.publishes_within(2)
    network.do("ip", "link", "set", "lo", "down")
    time.sleep(1.5)
    network.do("ip", "link", "set", "lo", "up")
    time.sleep(0.5)
    yield from node.goes_on()


def lost_of(port):
    """How many packets to a port of the loopback found its socket full."""
    rows = [line.split() for line in read_text("/proc/net/udp").splitlines()[1:]]
    return sum(int(row[-1]) for row in rows if row[1].endswith(f":{port:04X}"))


def publishes(node, number, part=0.0, seconds=12, sources=range(3), port=None):
    """It comes to publish so often more, each round, and each of these is accepted in such a part of its rounds. A busy host takes its time,
    and lets the socket of the polls overflow, if its port is given: then no part is wanted."""
    while not (before := node.status_or_none()):
        time.sleep(0.02)
    began, held_up, lost = time.monotonic_ns(), node.held_up_ns(), lost_of(port) if port else 0
    end, more = time.monotonic() + seconds, collections.Counter()
    while more["truetime_publications_total"] < number and time.monotonic() < end:
        time.sleep(0.1)
        if now := node.status_or_none():
            more = collections.Counter({name: value - before[name] for name, value in now.items() if name.endswith("_total") or "accepted" in name})
    made, rounds = more["truetime_publications_total"], more["truetime_rounds_total"]
    if made < max(number, rounds - 1):
        yield f"{made} publications in {rounds} rounds and {seconds} seconds"
    heard = [more[f'truetime_source_rounds_total{{source="{source}",outcome="accepted"}}'] for source in sources]
    is_busy = node.held_up_ns() - held_up > (time.monotonic_ns() - began) // 20
    if min(heard) < int(rounds * part) and not (is_busy and port and lost_of(port) > lost):
        yield f"the sources are heard in {heard} of {rounds} rounds"


@suite.case(root=True, programs=("ss",))
def poll_socket_is_aborted(trial):
    """The kernel ends the socket of the polls (ECONNABORTED), again and again."""
    masters = trial.scripts(*[honest] * 3)
    node = trial.running_node(masters)
    for _ in range(3):
        subprocess.run(["ss", "-K", "-u", "-a", "src", f"127.0.0.1:{masters[0].machine[1]}"], capture_output=True, check=True)
        time.sleep(0.3)
    yield from publishes(node, 5, 0.5)


@suite.case()
def port_closed_and_process_stopped(trial):
    masters = trial.masters(5)
    masters[1].kill()
    masters[3].running.send_signal(signal.SIGSTOP)
    node = trial.node(masters)
    node.run()
    yield from node.serves()
    yield from node.hears(0, 2, 4)
    if (told := {fields["source"] for fields in node.said("source_silent")}) != {"1", "3"}:
        yield f"the log calls {sorted(told)} silent, and 1 and 3 are"


def floods(trial, *acts):
    """Sources 0 and 1 lie, and those behind them are honest and 10 ms away."""
    masters = trial.scripts(*acts, *[late(0.01)] * 3)
    node = trial.node(masters)
    node.run()
    yield from node.publishes_within(1)
    yield from publishes(node, 10, 0.5, sources=(2, 3, 4))
    yield from node.answers()


@suite.case()
def junk_from_two_of_five(trial):
    """60 packets to each poll from f masters."""
    yield from floods(trial, junk, junk_then_answer)


@suite.case()
def empty_packets_from_two_of_five(trial):
    """4,000 empty packets a second from one of them, and junk from the other."""
    yield from floods(trial, empty_packets, junk)


@suite.case()
def strangers_flood_the_machine(trial):
    """With 10,000 empty packets and 10,000 of an answer's length a second all sources are heard. With as many as go, answers are lost
    before the machine sees them, and it publishes and serves all the same."""
    masters = trial.scripts(*[late(0.01)] * 3)
    node = trial.running_node(masters)
    with flooded(masters[0].machine[1], 0, 40, pause_s=0.005):
        yield from publishes(node, 8, 0.5, port=masters[0].machine[1])
    with flooded(masters[0].machine[1], 0, 40):
        yield from publishes(node, 4)
        yield from node.answers()


@suite.case()
def forged_before_true(trial):
    """An answer that is refused does not end the wait for the true one: with f = 0 all have to be heard."""
    masters = trial.scripts(forged_then_answer, honest, forged_then_answer)
    node = trial.node(masters, faulty=0)
    node.run()
    yield from node.publishes_within(1)
    yield from node.goes_on()
    yield from node.hears(0, 1, 2)
    if (status := node.status_or_none()) and status["truetime_answers_refused_total"] == 0:
        yield "no answer was refused"


def exact(trial, wait_ms):
    """With one source dead, a round lasts as long as `wait` says: the median of 20, or on a busy host the third shortest, is within 5 ms, and
    within as much more as the machine could run in a round and had no processor."""
    masters = trial.scripts(honest, honest, silent)
    node = trial.node(masters, wait=f"{wait_ms}ms", poll="1ms")
    node.run()
    end = time.monotonic() + 25 * wait_ms / 1000 * 3
    while len(masters[2].times) < 22 and time.monotonic() < end:
        time.sleep(0.01)
    came, held_up_ms = masters[2].times[1:22], node.held_up_ns() / len(masters[2].times) / 1e6 if masters[2].times else 0
    lengths = [(second - first) / 1e6 - 1 for first, second in zip(came, came[1:])]
    if len(lengths) < 20:
        yield f"{len(lengths)} rounds in {25 * wait_ms * 3 / 1000:.0f} seconds"
        return
    median, short = statistics.median(lengths), sorted(lengths)[2]
    trial.note(f"a round lasts {median:.1f} ms, and {short:.1f} where it is short")
    if median < wait_ms - 5 or min(median, short) > wait_ms + 5 + held_up_ms:
        yield f"a round lasts {median:.1f} ms, {short:.1f} where it is short, {held_up_ms:.1f} of it without a processor, and wait is {wait_ms}"


@suite.case(quiet=True)
def wait_is_50_ms(trial):
    yield from exact(trial, 50)


@suite.case(quiet=True)
def wait_is_250_ms(trial):
    yield from exact(trial, 250)


@suite.case(quiet=True)
def all_have_answered(trial):
    """Then a round ends at once, also where `wait` is long."""
    masters = trial.scripts(*[honest] * 3)
    node = trial.running_node(masters, wait="5s", poll="10ms")
    before, began = len(masters[0].times), time.monotonic()
    while len(masters[0].times) < before + 30 and time.monotonic() < began + 6:
        time.sleep(0.01)
    if (rounds := len(masters[0].times) - before) < 30:
        yield f"{rounds} rounds in six seconds, with a pause of 10 ms"


@suite.case(quiet=True)
def idle_cost(trial):
    """How often a machine with 16 masters wakes, and its processor time: a poll a second, no client; one of the masters is dead, or none.

    Answers that come one by one may wake it once each. The processor time depends on the host and on what else that does: docs/SPEED.md has
    that of a quiet one. On a busy host a round may take as much as one of a machine that makes nine a second."""
    masters = trial.masters(16)
    dead = f"127.0.0.1:{free_port(socket.SOCK_DGRAM)}"
    nodes = {"one is dead": trial.running_node([*masters[:15], dead], "A", poll="1s", wait=None, workers=None),
             "all alive": trial.running_node(masters, "B", poll="1s", wait=None, workers=None)}
    quick = trial.running_node(masters, "C", poll="100ms", workers=None)
    time.sleep(1)
    before, seconds = {name: (node.wakes(), node.processor_ns()) for name, node in nodes.items()}, 6
    first = quick.processor_ns(), quick.status()["truetime_rounds_total"]
    time.sleep(seconds)
    of_round = (quick.processor_ns() - first[0]) / max(1, quick.status()["truetime_rounds_total"] - first[1]) / 1e6
    trial.note(f"a round of one that makes many takes {of_round:.2f} ms of processor time")
    for name, node in nodes.items():
        wakes, cost = (node.wakes() - before[name][0]) / seconds, (node.processor_ns() - before[name][1]) / seconds / 1e6
        trial.note(f"{wakes:.1f} wakes and {cost:.2f} ms of processor time a second where {name}")
        if wakes > 40 or cost > max(5, 2 * of_round):
            yield f"{wakes:.1f} wakes and {cost:.2f} ms of processor time a second where {name}, and 40 and 5 are the most"


# Masters.

def poll_master(door, port, nonce):
    """The seconds that an answer to an honest poll took, or nothing where none came in 0.2 seconds."""
    began = time.monotonic()
    door.sendto(Poll(nonce=nonce).packet, ("127.0.0.1", port))
    while time.monotonic() < began + 0.2:
        with contextlib.suppress(TimeoutError):
            if poll_in(door.recv(64)).nonce == nonce:
                return time.monotonic() - began
    return None


@contextlib.contextmanager
def polling(port):
    """A socket for polls of a master that answers."""
    with socket.socket(socket.AF_INET, socket.SOCK_DGRAM) as door:
        door.settimeout(0.2)
        while poll_master(door, port, 1) is None:
            pass
        yield door


@suite.case(root=True)
def packets_from_port_0(trial):
    """They cannot be answered, and cost nothing."""
    master = trial.master(0)
    port = int(master.address.split(":")[1])
    with polling(port) as door:
        request = Poll(nonce=7).packet
        slow = []
        for nonce in range(2, 12):
            send_from_port_0(port, request, 3)
            took = poll_master(door, port, nonce)
            slow += [took] if took is None or took > 0.05 else []
    if slow:
        yield f"{len(slow)} of 10 polls behind a packet from port 0 were answered late or never"


def flood_master(trial, size):
    """Honest polls are answered while packets of this size come as fast as they go: half of them, less the part of the time in which the master
    could run and had no processor."""
    master = trial.master(0)
    port = int(master.address.split(":")[1])
    with polling(port) as door:
        with flooded(port, size, size):
            time.sleep(0.2)
            began, nonce, took, held_up = time.monotonic(), 1, [], held_up_ns(master.running.pid)
            while time.monotonic() < began + 2 or len(took) < 60 and time.monotonic() < began + 12:
                nonce += 1
                took.append(poll_master(door, port, nonce))
            running = 1 - (held_up_ns(master.running.pid) - held_up) / 1e9 / (time.monotonic() - began)
    answered = [one for one in took if one is not None]
    trial.note(f"{len(answered)} of {len(took)} polls answered, {1000 * statistics.median(answered or [0]):.2f} ms each")
    if len(answered) < len(took) * 0.5 * running or len(answered) < 30 * running:
        yield f"{len(answered)} of {len(took)} polls are answered by a master that runs in {running:.2f} of the time"


@suite.case()
def master_under_empty_packets(trial):
    yield from flood_master(trial, 0)


@suite.case()
def master_under_packets_of_64_bytes(trial):
    if trial.program.endswith(".unproved"):
        trial.note("packets of 64 bytes come faster than a program without proofs reads them, and are left out")
        return
    yield from flood_master(trial, 64)
