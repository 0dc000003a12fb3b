"""Scenarios of the suite `faults`: the end and the start of a machine, its clients, and the command `ask`."""
import contextlib
import os
import socket
import subprocess
import time

from harness.faults import Answerer, Spoils, full_listener, reset
from harness.processes import SECOND, free_port, truetime
from suites.faults import suite

# The end.

def waiting_node(trial):
    """A machine whose workers wait for clients, at both doors."""
    node = trial.running_node(trial.masters(3))
    for address in (node.address, node.path("socket")):
        with truetime.Session(address, 2) as session:
            session.now()
    time.sleep(0.3)
    return node


@suite.case()
def end_plain(trial):
    node = waiting_node(trial)
    yield from node.ends()
    if not node.said("ended"):
        yield "the log does not say ended"


@suite.case()
def end_with_socket_removed(trial):
    node = waiting_node(trial)
    os.remove(node.path("socket"))
    yield from node.ends()


@suite.case()
def end_with_no_descriptor_left(trial):
    node = trial.running_node(trial.masters(3))
    with contextlib.ExitStack() as doors:
        for _ in range(2):
            doors.enter_context(truetime.Session(node.address, 2)).now()
        node.allow_no_more_descriptors()
        for _ in range(3):
            doors.enter_context(socket.create_connection(node.address, 2))
        before = node.processor_ns()
        yield from node.goes_on()
        if (spent := node.processor_ns() - before) > SECOND // 5:
            yield f"{spent // 1_000_000} ms of processor time in a second"
        yield from node.ends()


@suite.case()
def end_with_a_foreign_listener(trial):
    """It stands at the path of the socket, which was removed, with a full backlog; and it stays."""
    node = waiting_node(trial)
    os.remove(node.path("socket"))
    with full_listener(node.path("socket")):
        yield from node.ends()
        if not os.path.exists(node.path("socket")):
            yield "the foreign socket is gone"


def far_floor(address):
    with truetime.Session(address, 2) as session:
        return session.now().latest_ns + 9 * SECOND


@suite.case()
def end_with_all_workers_busy(trial):
    """Commits wait for a far floor, others are idle, and each worker has more sessions than one."""
    node = trial.running_node(trial.masters(3), workers=8, floor_ahead="10s")
    floor = far_floor(node.address)
    with contextlib.ExitStack() as doors:
        for number in range(4):
            one = doors.enter_context(socket.create_connection(node.address, 2))
            one.sendall(f"commit 1 {floor}\n".encode() if number % 2 else b"")
            other = doors.enter_context(socket.socket(socket.AF_UNIX))
            other.connect(node.path("socket"))
            other.sendall(f"commit 1 {floor}\n".encode() if number % 2 else b"no")
        for _ in range(6):
            doors.enter_context(socket.create_connection(node.address, 2)).sendall(b"now\n")
        time.sleep(0.3)
        yield from node.ends()


@suite.case()
def end_with_dead_masters(trial):
    """With a long wait, before and after clients are served."""
    for name, seconds in (("A", 0.3), ("B", 2.6)):
        node = trial.node([f"127.0.0.1:{free_port(socket.SOCK_DGRAM)}"], name, wait="5s")
        node.run()
        time.sleep(seconds)
        for fault in node.ends():
            yield f"{seconds} seconds after the start: {fault}"


@suite.case()
def end_within_a_long_pause(trial):
    """The end does not wait for the next round, nor for an answer within one, nor for a session that says nothing."""
    nodes = [trial.running_node(trial.masters(3), "A", poll="3600s"), trial.node([f"127.0.0.1:{free_port(socket.SOCK_DGRAM)}"], "B", wait="10s")]
    nodes[1].run()
    with truetime.Session(nodes[0].address, 2) as session:
        session.now()
        time.sleep(0.5)
        for node in nodes:
            yield from node.ends(2)


# The start.

@suite.case(quiet=True)
def start_with_dead_masters(trial):
    """Clients get 801 two seconds after the start, however long `wait` is."""
    node = trial.node([f"127.0.0.1:{free_port(socket.SOCK_DGRAM)}"], wait="5s")
    node.run()
    for where in (node.address, node.path("socket")):
        try:
            while node.running.poll() is None:
                with contextlib.suppress(ConnectionRefusedError, FileNotFoundError), truetime.Session(where, 15) as session:
                    said = session.ask("now")
                    break
                time.sleep(0.01)
            took = time.monotonic() - node.began
        except OSError as fault:
            said, took = str(fault), 15
        if said != "refused 801" or not 2 <= took <= 2.6:
            yield f"{said!r} {took:.1f} seconds after the start"
    trial.note(f"801 came {took:.2f} seconds after the start")


# Clients.

def next_is_served(trial, address, seconds, what):
    """The next client has its answer within these seconds."""
    began = time.monotonic()
    try:
        with truetime.Session(address, 12) as session:
            session.now()
    except (OSError, truetime.Refused) as fault:
        yield f"{what}: {fault}"
        return
    took = time.monotonic() - began
    trial.note(f"{what}: the next one was served {took:.3f} seconds later")
    if took > seconds:
        yield f"{what}: the next one was served {took:.2f} seconds later"


@suite.case(quiet=True)
def broken_connection_with_bytes_unread(trial):
    """A client of the one worker has a commit that waits and more lines behind it, and breaks off."""
    node = trial.running_node(trial.masters(3), workers=1, socket=None, floor_ahead="10s")
    floor = far_floor(node.address)
    door = socket.create_connection(node.address, 2)
    door.sendall(f"commit 1 {floor}\n".encode() + b"now\n" * 5000)
    time.sleep(0.3)
    reset(door)
    yield from next_is_served(trial, node.address, 0.2, "after a reset")


@suite.case(quiet=True)
def gone_from_the_unix_socket_with_bytes_unread(trial):
    """As many clients as there are workers have commits that wait and more lines behind them, and are gone: nobody can have their replies."""
    node = trial.running_node(trial.masters(3), workers=2, floor_ahead="10s")
    floor = far_floor(node.address)
    doors = [socket.socket(socket.AF_UNIX) for _ in range(2)]
    for door in doors:
        door.connect(node.path("socket"))
        door.sendall(f"commit 1 {floor}\n".encode() + b"now\n" * 5000)
    time.sleep(0.3)
    for door in doors:
        door.close()
    yield from next_is_served(trial, node.path("socket"), 0.2, "after they were closed")


@suite.case()
def two_lines_and_a_closed_side(trial):
    """A client that closes its sending side has the replies to its lines, over TCP and the Unix socket."""
    node = trial.running_node(trial.masters(3))
    for address in (node.address, node.path("socket")):
        family = socket.AF_UNIX if isinstance(address, str) else socket.AF_INET
        for _ in range(20):
            with socket.socket(family) as door:
                door.settimeout(2)
                door.connect(address)
                door.sendall(b"now\ncommit 1 0\nnow\n")
                door.shutdown(socket.SHUT_WR)
                replies = door.makefile("rb").read().splitlines()
            if [reply.split()[0] for reply in replies] not in ([b"now", b"committed", b"now"], [b"now", b"waiting", b"now"]):
                yield f"the replies are {replies}"
                break


@suite.case(quiet=True)
def commit_of_a_half_closed_client(trial):
    """It lasts at most `idle`, also where many lines come behind it."""
    for name, behind in (("A", b""), ("B", b"now\n" * 5000)):
        node = trial.running_node(trial.masters(3), name, workers=1, socket=None, floor_ahead="10s", idle="1s")
        floor = far_floor(node.address)
        with socket.create_connection(node.address, 2) as door:
            door.sendall(f"commit 1 {floor}\n".encode() + behind)
            door.shutdown(socket.SHUT_WR)
            yield from next_is_served(trial, node.address, 2, f"with {len(behind)} bytes behind it")
        yield from node.ends()


@suite.case()
def pending_commits_of_a_half_closed_client(trial):
    """A commit that is asked for again and again is refused by 1822 once `idle` is over, also where its client was still there when it was first asked
    for. Each such line waits for a twentieth of a second. On a busy host a line may take so long that the session ends with it."""
    node = trial.running_node(trial.masters(3), workers=1, socket=None, floor_ahead="10s", idle="1s")
    for first in (False, True):
        for _ in range(4):
            line, replies = f"commit 1 {far_floor(node.address)}\n".encode(), b""
            with socket.create_connection(node.address, 8) as door:
                if first:
                    door.sendall(line)
                    replies = door.recv(100)
                    time.sleep(0.1)
                door.sendall(line * 100)
                door.shutdown(socket.SHUT_WR)
                with contextlib.suppress(OSError):
                    while part := door.recv(65536):
                        replies += part
            words = [b" ".join(line.split()[:2]) for line in replies.splitlines()]
            waiting, refused = words.count(b"waiting 1"), words.count(b"refused 1822")
            if waiting > 26 or words != [b"waiting 1"] * waiting + [b"refused 1822"] * refused:
                yield f"{waiting} replies are waiting, and behind them are {words[waiting:][:3]}, {len(words)} in all"
            if refused:
                break
        else:
            yield f"none is refused where {'a line' if first else 'nothing'} was answered before the client closed its side"


@suite.case()
def more_clients_than_workers(trial):
    """They are served as long as others stay, and share the workers evenly."""
    node = trial.running_node(trial.masters(3), workers=2, socket=None)
    with contextlib.ExitStack() as doors:
        for number in range(7):
            door = doors.enter_context(socket.create_connection(node.address, 2))
            door.sendall(b"now\n")
            if not door.recv(100).startswith(b"now "):
                yield f"client {number} has no reply"
        yield from node.comes_to("sessions_open", 7, 1)
        yield from node.comes_to("workers_busy", 2, 1)
    yield from node.comes_to("sessions_open", 0, 1)
    yield from node.comes_to("workers_busy", 0, 1)


# The command `ask`.

def ask_of(trial, act, *words, **how):
    """What `ask` makes of a service that does this with a line, and how long it took."""
    service, began = trial.keep(Answerer(act)), time.monotonic()
    ran = trial.command("ask", service.address, *words, **how)
    return ran.status, ran.said, ran.error, time.monotonic() - began


@suite.case()
def ask_of_a_slow_service(trial):
    """A reply that comes byte for byte is waited for until 30 seconds are over in all, by a clock that is moved on meanwhile."""
    spoils, waited = Spoils(trial.room), []

    def drip(door, _):
        spoils.turn(jump_ns=27 * SECOND)
        for _ in range(10):
            door.sendall(b"n")
            time.sleep(0.1)
        waited.append(True)
        spoils.turn(jump_ns=3 * SECOND)
        for _ in range(100):
            door.sendall(b"n")
            time.sleep(0.1)

    status, said, error, took = ask_of(trial, drip, "now", env=spoils.environment)
    if not waited:
        yield "it is given up before 30 seconds are over"
    if status != 4 or took > 8 or "no whole reply within 30 seconds" not in error:
        yield f"status {status} after {took:.1f} seconds, {said!r} and {error!r}"


@suite.case()
def ask_of_a_service_without_an_end(trial):
    """10,000 bytes without a line feed are no reply."""
    status, said, _, took = ask_of(trial, lambda door, _: door.sendall(b"n" * 10_000), "now")
    if status != 4 or took > 1:
        yield f"status {status} after {took:.1f} seconds, {said[:40]!r}"


def cut(door, _):
    """Closes the connection amid a reply."""
    door.sendall(b"now 5 1")
    door.shutdown(socket.SHUT_RDWR)


@suite.case()
def ask_without_a_reply(trial):
    """Standard error says why there is none, behind the address: each cause has a sentence of its own."""
    closed = "the connection was closed before a whole reply"
    for act, sentence in ((lambda door, _: door.shutdown(socket.SHUT_RDWR), closed), (cut, closed),
                          (lambda door, _: reset(door), "the connection failed before a whole reply"),
                          (lambda door, _: door.sendall(b"n" * 128 + b"\n"), "the reply has more than 128 bytes")):
        service = trial.keep(Answerer(act))
        ran, line = trial.command("ask", service.address, "now"), f"ttd: {service.address}: {sentence}"
        if ran.answer != ("refused 1501\n", 4) or line not in ran.error.splitlines():
            yield f"{ran.answer} and {ran.error!r}, and {line!r} is wanted"
    status, said, _, _ = ask_of(trial, lambda door, _: door.sendall(b"n" * 127 + b"\n"), "now")
    if (status, said) != (0, "n" * 127 + "\n"):
        yield f"status {status} and {said!r} of a reply of 128 bytes"


# What a service sends that is no text, and what is printed of it.
STRANGE = {b"now \x1b]0;evil\x07\x1b[2J 1\n": "now \\x1b]0;evil\\x07\\x1b[2J 1\n", b"\xff\xfe\n": "\\xff\\xfe\n",
           b"\x00 ~\x7f\x80\r\t\\\n": "\\x00 ~\\x7f\\x80\\x0d\\x09\\\n", b"\xc2\x9b2J\n": "\\xc2\\x9b2J\n"}


@suite.case()
def ask_of_a_service_that_controls_terminals(trial):
    """Bytes that are not printable are escaped."""
    for sent, wanted in STRANGE.items():
        status, said, _, _ = ask_of(trial, lambda door, _, sent=sent: door.sendall(sent), "now")
        if (status, said) != (0, wanted):
            yield f"{sent!r}: status {status}, {said!r} in place of {wanted!r}"


@suite.case()
def ask_where_nothing_listens(trial):
    """The address or the path, the system's reason, and a question are on standard error."""
    port = free_port(socket.SOCK_STREAM)
    for address, reason in ((f"127.0.0.1:{port}", "Connection refused (os error 111)"),
                            (os.path.join(trial.room, "nowhere"), "No such file or directory (os error 2)")):
        ran, line = trial.command("ask", address, "now"), f"ttd: nothing answers at {address}: {reason}; does the machine run?"
        if ran.answer != ("refused 1501\n", 4) or line not in ran.error.splitlines():
            yield f"{ran.answer} and {ran.error!r}, and {line!r} is wanted"


@suite.case()
def ask_that_cannot_print(trial):
    """Its standard output is closed, or full."""
    service = trial.keep(Answerer(lambda door, _: door.sendall(b"now 5 15\n")))
    for redirection in (">&-", ">/dev/full"):
        for words in (["ask", service.address, "now"], ["key"]):
            ran = subprocess.run(["sh", "-c", f'exec "$@" {redirection}', "sh", trial.program, *words], timeout=10,
                                 stdin=subprocess.DEVNULL, stderr=subprocess.PIPE, check=False)
            if (ran.returncode, ran.stderr) != (4, b"ttd: refused 1605: writing failed (ttd explain 1605)\n"):
                yield f"{words[0]}: status {ran.returncode} with {redirection}, and {ran.stderr!r}"


@suite.case()
def lines_of_ask(trial):
    """Each line of an argument is sent, one of 255 bytes as it is. Where standard input cannot be read, that is said."""
    lines = []

    def answer(door, line):
        lines.append(line)
        door.sendall(b"yes\n")

    longest = "x" * 255
    status, said, error, _ = ask_of(trial, answer, f"after 1\nbefore 2\n{longest}")
    if (status, said, error, lines) != (0, 3 * "yes\n", "", [b"after 1\n", b"before 2\n", f"{longest}\n".encode()]):
        yield f"status {status}, {said!r} and {error!r} to {lines}"
    service = trial.keep(Answerer(answer))
    lines.clear()
    ran = trial.command("ask", service.address, given=b"after 1\nbefore 2")
    if (ran.answer, lines) != (("yes\nyes\n", 0), [b"after 1\n", b"before 2\n"]):
        yield f"{ran.answer} to {lines}, and the last line has no end"
    folder = os.open("/", os.O_RDONLY)
    ran = subprocess.run([trial.program, "ask", service.address], stdin=folder, capture_output=True, text=True, timeout=10, check=False)
    os.close(folder)
    if (ran.stdout, ran.returncode) != ("refused 1604\n", 4) or "ttd: standard input can't be read\n" not in ran.stderr:
        yield f"from a folder: status {ran.returncode}, {ran.stdout!r} and {ran.stderr!r}"


@suite.case()
def ask_that_is_refused(trial):
    """The reply is printed, a sentence is on standard error, and the status is 2."""
    for number, why in ((801, "too few of its sources have answered"), (903, "lease"), (1101, "not a request"), (1821, "floor"), (1824, "max_width")):
        status, said, error, _ = ask_of(trial, lambda door, _, number=number: door.sendall(b"refused %d\n" % number), "now", "--retry", "1")
        if status != 2 or said != f"refused {number}\n" or not error.startswith(f"ttd: refused {number}: ") or why not in error:
            yield f"status {status}, {said!r} and {error!r}"


@suite.case()
def ask_that_waits(trial):
    """A commit that is never released has status 5 after all tries, which are 10,000."""
    lines = []

    def wait(door, line):
        lines.append(line)
        door.sendall(b"waiting 1 200\n")

    status, said, _, _ = ask_of(trial, wait, "commit", "1", "0", seconds=25)
    if (status, said, len(lines), set(lines)) != (5, "waiting 1 200\n", 10_000, {b"commit 1 0\n"}):
        yield f"status {status}, {said!r} after {len(lines)} lines, the first one {lines[:1]}"


@suite.case()
def ask_at_a_unix_socket(trial):
    node = trial.running_node(trial.masters(3))
    for words, wanted in ((["now"], "now "), (["commit", "1", "0"], "committed 1 ")):
        said, status = trial.command("ask", node.path("socket"), *words).answer
        if status != 0 or not said.startswith(wanted):
            yield f"status {status}, {said!r}"
    said, status = trial.command("ask", os.path.join(trial.room, "nobody"), "now").answer
    if (status, said) != (4, "refused 1501\n"):
        yield f"where no socket is: status {status}, {said!r}"
