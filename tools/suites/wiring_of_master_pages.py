"""Scenarios of the suite `wiring`: what a master answers over HTTP."""
import contextlib
import os
import re
import socket
import sys
import time

from harness.faults import Network, Spoils
from harness.metrics import faults_in
from harness.ntp import Says
from harness.processes import SECOND, free_port
from harness.program import read_text, run
from suites.wiring import suite
from suites.wiring_checks import eventually, put_keys
from suites.wiring_of_masters import OLD, Asked, Spoiled, is_answered
from suites.wiring_of_ntp import SOON_S, Over, servers_of
from suites.wiring_of_pages import ASK, METRICS, PLAIN, ask, comes_to, get, has_ended, reasons_of

NAME = "option http"
PLACES = 8


def with_pages(trial, source, *flags, **options):
    """A client of a master that gives pages, and the port of them."""
    port = free_port(socket.SOCK_STREAM)
    asked = Asked(trial, source, *flags, http=[f"127.0.0.1:{port}"], **options)
    trial.logs(asked.process, "master_started")
    return asked, port


def shows(trial, port, line):
    """Its status comes to have this line."""
    seen = eventually(lambda: re.search(f"^{re.escape(line)}$", get(port, "/metrics").text, re.MULTILINE), SOON_S)
    trial.check(NAME, seen, f"no {line} among {get(port, '/metrics').text!r}")


@suite.case()
def pages_of_masters(trial):
    """Without a file of its status: its counts after polls, and the same forms as those of a machine."""
    asked, port = with_pages(trial, 4, uncertainty=[5])
    for _ in range(3):
        asked.poll()
    shows(trial, port, 'truetime_master_answers_total{source="4",key="none"} 3')
    shows(trial, port, 'truetime_master_width_seconds{source="4"} 0.000000010')
    answer = get(port, "/metrics?a=/health")
    wanted = {"Content-Type": METRICS, "Content-Length": str(len(answer.text)), "Connection": "close"}
    trial.equal(NAME, (answer.words, answer.fields), ("200 OK", wanted))
    trial.equal(NAME, [fault for fault in faults_in(answer.text) if not fault.startswith("truetime_master_server_")], [])
    comes_to(trial, port, None, name=NAME)
    trial.equal(NAME, get(port, "/").words, "200 OK")
    head = ask(port, b"HEAD /metrics HTTP/1.0\r\n\r\n")
    trial.equal(NAME, (head.words, head.fields["Content-Type"], int(head.fields["Content-Length"]) > 0, head.text), ("200 OK", METRICS, True, ""))
    for request, words in ((b"GET /evidence HTTP/1.1\r\n\r\n", "404 Not Found"), (b"GET /metrics/ HTTP/1.1\r\n\r\n", "404 Not Found"),
                           (b"POST /metrics HTTP/1.1\r\n\r\n", "405 Method Not Allowed"), (b"GET /metrics\r\n\r\n", "400 Bad Request"),
                           (b"GET /health HTTP/1.1\r\nA: " + b"a" * 4096 + b"\r\n\r\n", "431 Request Header Fields Too Large")):
        answer = ask(port, request)
        trial.equal(NAME, (request[:30], answer.words, answer.fields["Content-Type"]), (request[:30], words, PLAIN))


@suite.case()
def pages_of_masters_with_keys(trial):
    """Its counts by key; and the file of its status has the same as its page."""
    keys, status = os.path.join(trial.room, "keys"), os.path.join(trial.room, "status")
    put_keys(keys, f"7 {OLD.hex()}")
    asked, port = with_pages(trial, 3, uncertainty=[5], keys=[keys], status=[status])
    trial.check(NAME, is_answered(asked, 7, OLD, 5), "no answer under its key")
    shows(trial, port, 'truetime_master_answers_total{source="3",key="7"} 1')
    shows(trial, port, 'truetime_master_keys{source="3"} 1')
    comes_to(trial, port, None, name=NAME)
    trial.check(NAME, eventually(lambda: get(port, "/metrics").text == read_text(status)), "the page is not what the file is")


@suite.case()
def health_of_masters(trial):
    """It is well while it answers polls, though nobody polls it: not before its server was heard, nor after its last reply was too old, which it
    says by a number of its own, as in its log."""
    server, = servers_of(trial, Says(silent=True))
    port = free_port(socket.SOCK_STREAM)
    over = Over(trial, [server], every=["200ms"], max_age=["2s"], http=[f"127.0.0.1:{port}"])
    comes_to(trial, port, ["2402"], SOON_S, NAME)
    server.says = Says()
    comes_to(trial, port, None, SOON_S, NAME)
    trial.logs(over.process, "master_answers", SOON_S)
    server.says = Says(silent=True)
    comes_to(trial, port, ["2403"], SOON_S, NAME)
    trial.equal(NAME, over.span(0.3), None)
    server.says = Says()
    comes_to(trial, port, None, SOON_S, NAME)
    trial.check(NAME, over.holds(), "no answer")


@suite.case()
def health_of_masters_after_a_step(trial):
    """Its clock was stepped, and it answers no poll from then on."""
    spoils, port = Spoils(trial.room), free_port(socket.SOCK_STREAM)
    listen = f"127.0.0.1:{free_port(socket.SOCK_DGRAM)}"
    trial.keep(Spoiled(trial, spoils, ["master", "--source", "1", "--listen", listen, "--uncertainty", "5", "--http", f"127.0.0.1:{port}"]))
    eventually(lambda: socket.create_connection(("127.0.0.1", port), 1).close() is None)
    comes_to(trial, port, None, SOON_S, NAME)
    spoils.turn(jump_ns=3 * SECOND)
    comes_to(trial, port, ["clock_stepped"], SOON_S, NAME)


@suite.case()
def masters_that_stand_still(trial):
    """Sending an answer lasts: after ten seconds its status is old, and the pages still say so."""
    spoils, port = Spoils(trial.room), free_port(socket.SOCK_STREAM)
    asked = Asked(trial, 1, uncertainty=[5])
    asked.process.kill()
    words = ["master", "--source", "1", "--listen", asked.address, "--uncertainty", "5", "--http", f"127.0.0.1:{port}"]
    trial.keep(Spoiled(trial, spoils, words))
    trial.check(NAME, eventually(lambda: asked.poll(0.3)[0], SOON_S), "no answer")
    comes_to(trial, port, None, name=NAME)
    with spoils.spoiled("sending"):
        asked.poll(0.1)
        began = time.monotonic()
        comes_to(trial, port, ["status_old"], 20, NAME)
        trial.between("for how long a status of a master is new", 7, time.monotonic() - began, 15)
    comes_to(trial, port, None, name=NAME)


@suite.case(quiet=True)
def polls_beside_slow_readers(trial):
    """All places are taken by clients that ask for a page and read nothing, or send nothing: each poll is answered soon, under a key as without."""
    keys = os.path.join(trial.room, "keys")
    put_keys(keys, f"7 {OLD.hex()}")
    for options in ({}, {"keys": [keys]}):
        asked, port = with_pages(trial, 5, uncertainty=[5], **options)
        answered = (lambda asked=asked: is_answered(asked, 7, OLD, 1)) if options else (lambda asked=asked: asked.poll(1)[0] is not None)
        trial.check(NAME, eventually(answered), "no answer")
        with contextlib.ExitStack() as stack:
            doors = [stack.enter_context(socket.create_connection(("127.0.0.1", port), 5)) for _ in range(PLACES + 4)]
            for door in doors[::2]:
                with contextlib.suppress(OSError):
                    door.sendall(b"GET /metrics HTTP/1.1\r\n\r\n")
            took = []
            for _ in range(50):
                began = time.monotonic()
                trial.check(NAME, answered(), "a poll is not answered")
                took.append(time.monotonic() - began)
            trial.between("seconds until a poll is answered beside readers of pages", 0, sorted(took)[-3], 0.1)
            trial.equal(NAME, reasons_of(get(port, "/health")), None)
            trial.check(NAME, eventually(lambda: all(map(has_ended, doors[1::2]))), "a client that sends nothing is served on")
        asked.process.kill()


@suite.case()
def addresses_of_pages_of_masters(trial):
    """One that is taken is refused, and so is what is no address with a port."""
    words = ["master", "--source", "1", "--listen", "127.0.0.1:0", "--uncertainty", "5", "--http"]
    with socket.create_server(("127.0.0.1", 0)) as door:
        address = f"127.0.0.1:{door.getsockname()[1]}"
        ran = trial.command(*words, address)
    trial.equal(NAME, ran.answer, ("refused 1830\n", 4))
    line = f"ttd: {address}: the address for pages can't be listened at: Address already in use (os error 98)"
    trial.check("refusal 1830", line in ran.error.splitlines(), f"{ran.error!r} has no line {line!r}")
    for given in ("127.0.0.1:0", "127.0.0.1", "localhost:9561", "9561", "127.0.0.1:09561", "[::1]:65536", ""):
        ran = trial.command(*words, given)
        trial.equal(f"{NAME} {given}", ran.answer, ("refused 1601\n", 2))
        trial.check(NAME, f"invalid value '{given}' for '--http <ADDRESS:PORT>'" in ran.error, ran.error)


@suite.case(root=True, programs=("ip", "unshare", "nsenter"))
def pages_of_masters_beyond_loopback(trial):
    """Pages at an address of the host are given to others too; those at loopback are not."""
    network, spoils = trial.keep(Network()), Spoils(trial.room)
    network.do("ip", "address", "add", "10.9.8.7/32", "dev", "lo")
    for host, port, is_reached in (("0.0.0.0", 9571, True), ("10.9.8.7", 9572, True), ("127.0.0.1", 9573, False)):
        words = ["master", "--source", "1", "--listen", f"127.0.0.1:{port}", "--uncertainty", "5", "--http", f"{host}:{port}"]
        process = trial.keep(Spoiled(trial, spoils, words, network.enter, f"at-{port}"))
        trial.logs(process, "master_started")
        for inside in ({"127.0.0.1"} if host == "127.0.0.1" else {"10.9.8.7"}) | {"10.9.8.7"}:
            ran = run([*network.enter, sys.executable, "-c", ASK, f"{inside}:{port}"])
            trial.equal(NAME, (host, inside, ran.said == "200\n"), (host, inside, is_reached or inside == "127.0.0.1"))
