"""Scenarios of the suite `wiring`: what a machine answers over HTTP."""
import contextlib
import os
import resource
import shutil
import socket
import sys
import time
import typing
from decimal import Decimal

from harness.faults import Network, Spoils, disrupt, honest, page, silent
from harness.metrics import faults_in, numbers_in
from harness.processes import free_port, truetime
from harness.program import read_text, run, write
from harness.users import reading_of
from suites.wiring import suite
from suites.wiring_checks import TIMES, eventually, published, spans

ROUNDS = "truetime_rounds_total"
PLAIN = "text/plain; charset=utf-8"
METRICS = "text/plain; version=0.0.4; charset=utf-8"


class Answer(typing.NamedTuple):
    """An answer: the words behind its version, its fields, and its text."""
    words: str
    fields: dict
    text: str


def ask(port, request, seconds=5.0):
    """What a machine answers to these bytes, up to the end of the connection."""
    with socket.create_connection(("127.0.0.1", port), seconds) as door:
        door.sendall(request)
        return answer_of(door)


def answer_of(door):
    """The answer that comes there, up to the end of the connection. One that is not whole is an error."""
    taken = b"".join(iter(lambda: door.recv(65536), b""))
    head, end, text = taken.decode().partition("\r\n\r\n")
    version, _, words = head.split("\r\n")[0].partition(" ")
    if not end or version != "HTTP/1.1":
        raise ValueError(f"no answer: {taken!r}")
    return Answer(words, dict(line.split(": ", 1) for line in head.split("\r\n")[1:]), text)


def get(port, path):
    return ask(port, f"GET {path} HTTP/1.1\r\nHost: here\r\n\r\n".encode())


def with_pages(trial, masters, **settings):
    """A machine that gives pages, not yet started, and the port of them."""
    port = free_port(socket.SOCK_STREAM)
    return trial.node(masters, http=f"127.0.0.1:{port}", **settings), port


def reasons_of(answer):
    """For which reasons a machine is not well, by the words before the colons; None where it is well."""
    if (answer.words, answer.text) == ("200 OK", "ok\n"):
        return None
    if answer.words != "503 Service Unavailable":
        raise ValueError(f"{answer}")
    return [line.partition(":")[0] for line in answer.text.splitlines()]


def comes_to(trial, port, wanted, seconds=6.0, name="setting http"):
    """Its health comes to be that."""
    seen = []

    def look():
        seen.append(reasons_of(get(port, "/health")))
        return seen[-1] == wanted

    trial.check(name, eventually(look, seconds), f"the health is {seen[-1:]}, and {wanted} is wanted")


@suite.case()
def pages(trial):
    """They are what the files are, and each has the fields that say how long it is."""
    # Paths without a folder are in that in which it was started.
    node, port = with_pages(trial, trial.scripts(honest), evidence="evidence", shared="shared", poll="300ms")
    node.run(cwd=node.folder)
    node.wait_until_ready()
    trial.check("setting shared", published(node), "it is not in the folder in which the machine was started")
    for path, name, kind in (("/metrics", "status", METRICS), ("/evidence", "evidence", PLAIN)):
        seen = {}

        def look():
            seen["page"], seen["file"] = get(port, path), read_text(node.path(name))
            return seen["page"].text == seen["file"]

        trial.check("setting http", eventually(look), f"at {path} is {seen.get('page')}, and in the file {seen.get('file')!r}")
        answer = seen["page"]
        wanted = {"Content-Type": kind, "Content-Length": str(len(answer.text)), "Connection": "close"}
        trial.equal("setting http", (answer.words, answer.fields), ("200 OK", wanted))
        trial.equal("setting http", get(port, f"{path}?a=/health").words, "200 OK")
    text = get(port, "/metrics").text
    trial.equal("setting http", faults_in(text), [])
    if shutil.which("promtool"):
        ran = run(["promtool", "check", "metrics"], text.encode())
        trial.equal("setting http", ran.said + ran.error, "")
    trial.equal("setting http", run([trial.program, "check"], get(port, "/evidence").text.encode()).answer, ("valid\n", 0))
    head = ask(port, b"HEAD /evidence HTTP/1.0\r\n\r\n")
    trial.equal("setting http", (head.words, head.fields | {"Content-Length": "0"}, head.text),
                ("200 OK", {"Content-Type": PLAIN, "Content-Length": "0", "Connection": "close"}, ""))
    trial.check("setting http", int(head.fields["Content-Length"]) > 0, "the length is that of nothing")
    comes_to(trial, port, None)


@suite.case()
def pages_without_files(trial):
    """A machine whose settings name no file for status and evidence gives both."""
    node, port = with_pages(trial, trial.scripts(honest), status=None, workers=5)
    node.run()
    node.wait_until_ready()
    trial.equal("setting http", node.look_at_resources()[2], 5 + 7 - 1)
    answer = eventually(lambda: (seen := get(port, "/metrics")).words == "200 OK" and seen)
    trial.check("setting http", answer and 'truetime_publications_total{machine="0"} ' in answer.text, f"the status is {answer}")
    answer = eventually(lambda: (seen := get(port, "/evidence")).words == "200 OK" and seen)
    trial.check("setting http", answer and answer.text.startswith("faulty 0\nspan "), f"the evidence is {answer}")
    trial.check("setting http", not os.path.exists(node.path("status")), "there is a file")


@suite.case()
def other_requests(trial):
    """What is no page, no method and no request."""
    node, port = with_pages(trial, trial.scripts(honest))
    node.run()
    eventually(lambda: get(port, "/metrics").words == "200 OK")
    for request, words in [
            (b"GET // HTTP/1.1\r\n\r\n", "404 Not Found"), (b"GET /metrics/ HTTP/1.1\r\n\r\n", "404 Not Found"),
            (b"GET /Health HTTP/1.1\r\n\r\n", "404 Not Found"), (b"HEAD /a?/health HTTP/1.1\r\n\r\n", "404 Not Found"),
            (b"HEAD /?/health HTTP/1.1\r\n\r\n", "200 OK"),
            (b"GET http://127.0.0.1/metrics HTTP/1.1\r\n\r\n", "404 Not Found"),
            (b"POST /metrics HTTP/1.1\r\nContent-Length: 2\r\n\r\nhi", "405 Method Not Allowed"),
            (b"get /metrics HTTP/1.1\r\n\r\n", "405 Method Not Allowed"), (b"DELETE /nothing HTTP/1.1\r\n\r\n", "405 Method Not Allowed"),
            (b"GET /metrics HTTP/2.0\r\n\r\n", "400 Bad Request"), (b"GET /metrics\r\n\r\n", "400 Bad Request"),
            (b"\x16\x03\x01\x02\x00\x01\x00", "400 Bad Request"), (b"GET /health HTTP/1.1\r\na b: c\r\n\r\n", "400 Bad Request"),
            (b"GET /health HTTP/1.1\r\nA: " + b"a" * 4096 + b"\r\n\r\n", "431 Request Header Fields Too Large"),
            (b"GET /health HTTP/1.1\r\n" + b"A: a\r\n" * 65 + b"\r\n", "431 Request Header Fields Too Large"),
            (b"GET /metrics HTTP/1.1\r\n" + b"A: a\r\n" * 64 + b"\r\n", "200 OK"),
            (b"\r\nGET /metrics HTTP/1.1\n\n", "200 OK")]:
        answer = ask(port, request)
        trial.equal("setting http", (request[:40], answer.words), (request[:40], words))
        trial.equal("setting http", answer.fields.get("Allow"), "GET, HEAD" if words.startswith("405") else None)
        trial.equal("setting http", (request[:40], answer.text == ""), (request[:40], request.startswith(b"HEAD")))
    with socket.create_connection(("127.0.0.1", port), 5) as door:
        door.sendall(b"POST /metrics HTTP/1.1\r\nContent-Length: 5000\r\n\r\n")
        for _ in range(10):  # its body, which is taken and not read
            time.sleep(0.02)
            door.sendall(b"a" * 500)
        trial.equal("setting http", answer_of(door).words, "405 Method Not Allowed")


@suite.case(quiet=True)
def clients_that_take_their_time(trial):
    """One that sends nothing, one that sends a byte now and then, and one that takes nothing keep no other away, and end after two seconds."""
    node, port = with_pages(trial, trial.scripts(honest))
    node.run()
    node.wait_until_ready()
    for given in (b"", b"GET /metr", b"GET /metrics HTTP/1.1\r\n\r\n"):
        with socket.create_connection(("127.0.0.1", port), 5) as door:
            began = time.monotonic()
            with contextlib.suppress(OSError):
                door.sendall(given)
            trial.equal("setting http", get(port, "/nothing").words, "404 Not Found")
            trial.between("setting http", 0, time.monotonic() - began, 0.5)
    with socket.create_connection(("127.0.0.1", port), 5) as door:
        began, gone = time.monotonic(), None
        for byte in b"GET /metrics HTTP/1.1\r\nHost: here\r\n":
            try:
                door.sendall(bytes([byte]))
            except OSError:
                gone = time.monotonic() - began
                break
            time.sleep(0.1)
        trial.between("setting http", 1.9, gone, 3.0)
    comes_to(trial, port, None)


@suite.case(quiet=True)
def clients_that_come_behind_others(trial):
    """A client that sends nothing ends two seconds after it came, also where one that came later has the place of one that came before it."""
    node, port = with_pages(trial, trial.scripts(honest))
    node.run()
    node.wait_until_ready()
    for _ in range(3):  # the host may be busy
        with contextlib.ExitStack() as stack:
            first = socket.create_connection(("127.0.0.1", port), 5)
            time.sleep(0.9)
            second = stack.enter_context(socket.create_connection(("127.0.0.1", port), 5))
            began = time.monotonic()
            first.close()
            time.sleep(0.8)
            stack.enter_context(socket.create_connection(("127.0.0.1", port), 5))
            with contextlib.suppress(ConnectionError):
                second.recv(1)
            took = time.monotonic() - began
        if took < 2.5:
            break
    trial.between("seconds of a client that sends nothing", 1.9, took, 2.5)


@suite.case(quiet=True)
def five_hundred_slow_clients(trial):
    """They send a byte now and then. Three times one more has its answer soon. Eight of them at most are served at a time, each for two
    seconds in all, and the others are closed at once."""
    node, port = with_pages(trial, trial.scripts(honest))
    node.run()
    node.wait_until_ready()
    comes_to(trial, port, None)
    for _ in range(3):
        with contextlib.ExitStack() as stack:
            doors = [stack.enter_context(socket.socket()) for _ in range(500)]
            for door in doors:
                door.settimeout(5)
                door.connect(("127.0.0.1", port))
            began = time.monotonic()
            trial.equal("setting http", reasons_of(get(port, "/health")), None)
            trial.between("setting http", 0, time.monotonic() - began, 1)
            time.sleep(0.2)
            still = [door for door in doors if not has_ended(door)]
            trial.between("slow clients that are served at a time", 7, len(still), 8)
            while still and time.monotonic() < began + 6:
                last = time.monotonic() - began
                still = [door for door in still if not has_ended(door)]
                time.sleep(0.1)
            trial.between("for how long a slow client is served", 1.5, last, 2.6)


@suite.case()
def client_that_makes_room(trial):
    """Where one more comes than are served at a time, the one that came before all others is closed, and no other."""
    node, port = with_pages(trial, trial.scripts(honest))
    node.run()
    comes_to(trial, port, None)
    time.sleep(0.1)
    with contextlib.ExitStack() as stack:
        doors = []
        for _ in range(9):
            doors.append(stack.enter_context(socket.create_connection(("127.0.0.1", port), 5)))
            time.sleep(0.02)
        trial.check("setting http", eventually(lambda: any(map(has_ended, doors)), 1.5), "none is closed")
        trial.equal("setting http", [has_ended(door) for door in doors], [True] + [False] * 8)


@suite.case()
def pages_without_descriptors(trial):
    """A client that comes where no descriptor is left is served once there is one, though nobody comes behind it: a tenth of a second later. The best
    of three counts: the host may be busy."""
    node, port = with_pages(trial, trial.scripts(honest), poll="50ms")
    node.run()
    comes_to(trial, port, None)
    pid, took = node.running.pid, []
    limits = resource.prlimit(pid, resource.RLIMIT_NOFILE)
    for _ in range(3):
        time.sleep(0.1)
        resource.prlimit(pid, resource.RLIMIT_NOFILE, (len(os.listdir(f"/proc/{pid}/fd")), limits[1]))
        with socket.create_connection(("127.0.0.1", port), 5) as door:
            door.sendall(b"GET /health HTTP/1.1\r\nHost: here\r\n\r\n")
            time.sleep(0.5)
            resource.prlimit(pid, resource.RLIMIT_NOFILE, limits)
            began = time.monotonic()
            trial.equal("setting http", reasons_of(answer_of(door)), None)
            took.append(time.monotonic() - began)
    trial.between("setting http", 0, min(took), 0.3)


def has_ended(door):
    """Whether this connection is closed. If not, it is given one more byte of a request."""
    door.setblocking(False)
    try:
        if door.recv(1) == b"":
            return True
        raise ValueError("a slow client has an answer")
    except BlockingIOError:
        with contextlib.suppress(OSError):
            door.send(b"G")
        return False
    except OSError:
        return True


@suite.case()
def pages_before_a_publication(trial):
    """Clients get 801, and so does who asks whether the machine is well."""
    node, port = with_pages(trial, trial.scripts(silent))
    node.run()
    comes_to(trial, port, ["801", "sources_stale"])
    trial.equal("setting http", get(port, "/evidence").words, "404 Not Found")


@suite.case()
def readings_too_wide(trial):
    """Masters are 200 ms wide, and readings may be 100."""
    node, port = with_pages(trial, trial.scripts(spans(100_000_000, 100_000_000)), max_width="100ms")
    node.run()
    comes_to(trial, port, ["1824"])


@suite.case()
def sources_that_end(trial):
    """Once no master answers any more the machine is not well, and before it was."""
    masters = trial.scripts([honest, honest, honest, honest, silent])
    node, port = with_pages(trial, masters, poll="200ms", wait="100ms")
    node.run()
    comes_to(trial, port, None)
    comes_to(trial, port, ["sources_stale"])


@suite.case()
def sources_are_old_after_three_rounds(trial):
    """A round lasts a tenth of a second, and nine tenths where masters are silent."""
    node, port = with_pages(trial, trial.scripts([honest, honest, silent]), poll="100ms", wait="900ms")
    node.run()
    node.wait_until_ready()
    looks, began = [], time.monotonic()
    while time.monotonic() < began + 8 and not (looks and looks[-1][1]):
        before, reasons, after = get(port, "/metrics"), reasons_of(get(port, "/health")), get(port, "/metrics")
        age = age_in(before.text)
        if before.text == after.text and age is not None:
            looks.append((age, bool(reasons)))
        time.sleep(0.02)
    trial.check("setting http", any(is_old for _, is_old in looks), "its sources never were too old")
    trial.check("setting http", all(is_old == (age > 3.0) for age, is_old in looks), f"it says so at other ages than three seconds: {looks[-3:]}")


@suite.case()
def page_of_one_that_falls_silent(trial):
    """The page for people calls a source silent once its last answer is older than three rounds, by the status that it draws."""
    node, port = with_pages(trial, trial.scripts(honest, honest, [honest, honest, silent]), poll="400ms", wait="200ms")
    node.run()
    node.wait_until_ready()
    looks = []

    def look():
        before, drawn, after = (get(port, path).text for path in ("/metrics", "/", "/metrics"))
        age = numbers_in(before).get('truetime_source_answer_age_seconds{source="2"}')
        if before == after and age is not None:
            looks.append((age, '<tr class="source silent"' in drawn))
        return age is not None and age > 5

    eventually(look, 15)
    trial.check("setting http", {is_silent for _, is_silent in looks} == {False, True}, f"it never, or always, is silent: {looks[-3:]}")
    trial.check("setting http", all(is_silent == (age > Decimal("1.8")) for age, is_silent in looks), f"it is so at other ages than 1.8 s: {looks}")


def age_in(text):
    """How long ago n - f sources had answered, by a status, in seconds; None where they never did."""
    lines = [line.split() for line in text.splitlines() if line.startswith("truetime_needed_answer_age_seconds{")]
    return float(lines[0][1]) if lines and lines[0][1] != "NaN" else None


@suite.case()
def broken_assumption(trial):
    """With `on_break = "warn"` a machine that has noticed a break goes on, and is not well."""
    path = os.path.join(trial.room, "vmclock0")
    write(path, page(1))
    node, port = with_pages(trial, trial.scripts(honest), on_break="warn", vmclock=path)
    node.run()
    comes_to(trial, port, None)
    disrupt(path, 2)
    comes_to(trial, port, ["1823"])


@suite.case()
def shared_file_that_hangs(trial):
    """A write of it lasts. Rounds and sessions go on, and log, status and health say it while it lasts. Then the file has the newest publication.
    A machine ends while one lasts."""
    port = free_port(socket.SOCK_STREAM)
    node, spoils = trial.spoilable(trial.scripts(honest), http=f"127.0.0.1:{port}", poll="50ms", wait="100ms")
    comes_to(trial, port, None)
    trial.numbers(node, sharing=1)
    with node.client() as client:
        hung = time.monotonic_ns()
        with spoils.spoiled("writing"):
            time.sleep(0.3)
            written, began = client.read().number, node.status()
            trial.logs(node, "sharing_ended", number=1709)
            trial.between("time hang", TIMES["hang"], time.monotonic_ns() - hung, 4 * TIMES["hang"])
            trial.numbers(node, sharing=0)
            comes_to(trial, port, ["sharing_ended"])
            with truetime.Session(node.address, 5) as session:
                got = reading_of(session)
            trial.check("setting shared", not got.is_wrong, str(got))
            made = {name: node.status()[f"truetime_{name}_total"] - began[f"truetime_{name}_total"] for name in ("rounds", "publications")}
            trial.check("setting shared", min(made.values()) >= 5, f"{made} while a write lasts")
            trial.equal("shared number", client.read().number, written)
            trial.check("shared valid_until_ns", not client.now().fresh, "the file is fresh")
        trial.logs(node, "sharing_resumed")
        trial.numbers(node, sharing=1)
        comes_to(trial, port, None)
        trial.check("shared number", client.read().number > written + made["publications"], f"the file has {client.read().number} behind {written}")
        trial.check("shared valid_until_ns", client.now().fresh, "the file is not fresh")
    time.sleep(10.2)  # of one kind a line comes each ten seconds
    trial.equal("log sharing_resumed", len(node.said("sharing_resumed")), 1)
    with spoils.spoiled("writing"):
        trial.check("log sharing_ended", eventually(lambda: len(node.said("sharing_ended")) == 2), "it is not said a second time")
        for what in node.ends():
            trial.check("setting shared", False, what)
    trial.equal("log ended", len(node.said("ended")), 1)
    node, port = with_pages(trial, trial.scripts(honest), name="B", shared=None)
    node.run()
    comes_to(trial, port, None)
    trial.numbers(node, sharing=0)


@suite.case()
def shared_file_that_hangs_at_the_start(trial):
    """The first write of it lasts: that is said as of a later one, and readings go on."""
    spoils, node = Spoils(trial.room), trial.node(trial.scripts(honest), poll="50ms", wait="100ms")
    node.environment = spoils.environment
    with spoils.spoiled("writing"):
        node.run()
        trial.logs(node, "first_publication")
        trial.logs(node, "sharing_ended", number=1709)
        trial.numbers(node, sharing=0)
    trial.logs(node, "sharing_resumed")
    trial.numbers(node, sharing=1)


@suite.case()
def rounds_that_stand_still(trial):
    """Sending a poll lasts: the status is as it was, and grows old. Once the rounds go on, the machine is well again."""
    port = free_port(socket.SOCK_STREAM)
    node, spoils = trial.spoilable(trial.scripts(honest), http=f"127.0.0.1:{port}", poll="50ms", wait="100ms")
    comes_to(trial, port, None)
    with spoils.spoiled("sending"):
        comes_to(trial, port, ["status_old"])
        trial.check("setting http", node.running.poll() is None, "it has ended")
    comes_to(trial, port, None)


@suite.case()
def port_of_pages_in_use(trial):
    """It is refused before an epoch is taken."""
    node, port = with_pages(trial, trial.scripts(honest))
    with socket.create_server(("127.0.0.1", port)):
        ran = trial.command("serve", node.path("node.toml"), "--until-eof")
    trial.equal("setting http", ran.answer, ("refused 1830\n", 4))
    line = f"ttd: 127.0.0.1:{port}: the address for pages can't be listened at: Address already in use (os error 98)"
    trial.check("refusal 1830", line in ran.error.splitlines(), f"{ran.error!r} has no line {line!r}")
    trial.equal("setting http", os.listdir(node.path("state")), [])


# Asks for the page for people at this address, and prints the status.
ASK = "import sys, urllib.request; print(urllib.request.urlopen(f'http://{sys.argv[1]}/', timeout=5).status)"


@suite.case(root=True, programs=("ip", "unshare", "nsenter"))
def pages_beyond_loopback(trial):
    """Pages at an address of the host, or at all of them, are given to others too. Those at loopback are not, and sessions are at loopback alone."""
    network = trial.keep(Network())
    network.do("ip", "address", "add", "10.9.8.7/32", "dev", "lo")
    for host, is_reached in (("0.0.0.0", True), ("10.9.8.7", True), ("127.0.0.1", False)):
        node = trial.node(trial.scripts(silent), name=f"at {host}", http=f"{host}:9560", listen="127.0.0.1:9561")
        node.run(network.enter)
        inside = "127.0.0.1" if host == "127.0.0.1" else "10.9.8.7"
        reached = eventually(lambda inside=inside: run([*network.enter, sys.executable, "-c", ASK, f"{inside}:9560"]).said == "200\n")
        trial.check("setting http", reached, f"{host} does not answer at {inside}")
        for port, wanted in ((9560, is_reached), (9561, False)):
            ran = run([*network.enter, sys.executable, "-c", ASK, f"10.9.8.7:{port}"])
            trial.equal("setting http", (host, port, ran.said == "200\n", "refused" in ran.error), (host, port, wanted, not wanted))
        node.kill()


@suite.case()
def first_look_after_rounds(trial):
    """A page that nobody asked for meanwhile shows the newest status, and is well."""
    node, port = with_pages(trial, trial.scripts(honest), evidence="evidence", poll="100ms", wait="100ms")
    node.run(cwd=node.folder)
    node.wait_until_ready()
    for path in ("/metrics", "/health"):
        # A status may be three seconds old by the limit of this machine.
        time.sleep(3.5)
        before, seen, after = node.status()[ROUNDS], get(port, path), node.status()[ROUNDS]
        trial.equal("setting http", (path, seen.words), (path, "200 OK"))
        if path == "/metrics":
            trial.between("setting http", before - 1, numbers_in(seen.text)[ROUNDS], after + 1)
    seen, known = [], set()
    for _ in range(3):
        # The page has it before the file.
        eventually(lambda: read_text(node.path("evidence")) not in known)
        seen.append(get(port, "/evidence").text)
        known |= {seen[-1], read_text(node.path("evidence"))}
    trial.equal("setting http", len(set(seen)), 3)


@suite.case()
def first_look_at_rounds_that_stand_still(trial):
    """Nobody asks before the rounds stand still, and the status is old all the same."""
    port = free_port(socket.SOCK_STREAM)
    node, spoils = trial.spoilable(trial.scripts(honest), http=f"127.0.0.1:{port}", poll="50ms", wait="100ms")
    time.sleep(2)
    with spoils.spoiled("sending"):
        time.sleep(4)
        trial.equal("setting http", reasons_of(get(port, "/health")), ["status_old"])
