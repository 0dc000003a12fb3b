"""Cases of the suite `clients`: what a client opens it closes, in each language.

`PROBE openings` reads lines, and answers each at once:

    open KIND WHERE COUNT MILLISECONDS
        opens so many, one after the other, and keeps them: a reader (`mapped`, `unmapped`) or one with a stamper (`stamper`) of the file at a
        path, or a session with this time-out at a port of this host (`tcp`) or at the path of a socket (`unix`). Each that was opened is asked
        for the time, or for a stamp, three times. `N opened, N answers`
    close
        closes all of these, and keeps what was closed
    rest
        runs the language's collector, where it has one, and then says `rested`

Meanwhile the descriptors and the mappings of the probe are looked at from outside.
"""
import collections
import contextlib
import ctypes
import os
import re
import socket
import socketserver
import threading
import time
from concurrent.futures import ThreadPoolExecutor

from harness.faults import reset
from harness.shared_file import RAW, boot_id, empty_file, file_of, file_of_version_1, of_another_boot
from suites.clients import Reader, session_probes, suite

COUNT, QUESTIONS = 100, 3
# How many of what connects anew with each question.
FEW = 20
# The time-out of a session without replies.
SHORT_MS = 20
# What keeps a descriptor beside a mapping: mmap of Python does.
KEEPS_DESCRIPTORS = {"Python"}
# Who has sessions alone.
ASYNCHRONOUS = {"Python asyncio", "Rust tokio"}
# What marks no descriptor as its own alone: the runtime closes them in a child.
UNMARKED = {"Java"}
#: The bit of a descriptor that a child does not get, as /proc shows it.
CLOSED_IN_CHILDREN = 0o2000000
#: The call of Linux that gives a copy of a descriptor of another process.
PIDFD_GETFD = 438


class Answering(socketserver.StreamRequestHandler):
    """A session that answers each line."""
    reply = b"now 5 15\n"

    def handle(self):
        with contextlib.suppress(ConnectionError):
            for _ in self.rfile:
                self.wfile.write(self.reply)


class Babbling(Answering):
    """A session whose replies are none."""
    reply = b"hello\n"


class Silent(Answering):
    """A session without replies."""
    reply = b""


class Closing(socketserver.BaseRequestHandler):
    """A session that ends at once."""


class Listening(socketserver.ThreadingTCPServer):
    """A stand-in for the service, as long as a block lasts."""
    daemon_threads, request_queue_size = True, 1000

    def __init__(self, handler, address=("127.0.0.1", 0)):
        self.address_family = socket.AF_UNIX if isinstance(address, str) else socket.AF_INET
        super().__init__(address, handler)
        threading.Thread(target=self.serve_forever, args=(0.02,), daemon=True).start()

    def server_bind(self):
        self.socket.bind(self.server_address)
        self.server_address = self.socket.getsockname()

    def __exit__(self, *words):
        self.shutdown()
        super().__exit__(*words)


def files_in(room):
    """Files by what they are: the first one is good."""
    boot = boot_id()
    always = 2**64 - 1
    good = file_of(1, (0, 10**9, 10**9 + 10, always, always, 7, 1, 0), boot)
    for name, content, mode in [("good", good, 0o644), ("nothing published", empty_file(boot, RAW), 0o644),
                                ("version 1", file_of_version_1(boot), 0o644), ("too short", good[:-1], 0o644), ("empty", b"", 0o644),
                                ("writable by others", good, 0o646), ("another boot", of_another_boot(good), 0o644)]:
        path = os.path.join(room, name.replace(" ", "-"))
        with open(path, "wb") as file:
            file.write(content)
        os.chmod(path, mode)
        yield name, path
    os.symlink(os.path.join(room, "good"), os.path.join(room, "link"))
    yield "a link", os.path.join(room, "link")
    yield "a folder", room
    yield "no file", os.path.join(room, "none")


@contextlib.contextmanager
def stand_ins(room):
    """Services by what they are, each with the line's kind and place; how many are opened of it, the time-out in milliseconds, whether
    that goes well, and whether it answers."""
    with contextlib.ExitStack() as stack:
        nobody = stack.enter_context(socket.socket())
        nobody.bind(("127.0.0.1", 0))
        path = os.path.join(room, "socket")
        stack.enter_context(Listening(Answering, path))
        ports = {handler: stack.enter_context(Listening(handler)).server_address[1] for handler in (Answering, Babbling, Silent, Closing)}
        with open(os.path.join(room, "no-socket"), "wb"):
            pass
        yield [
            ("a session", "tcp", ports[Answering], COUNT, 10_000, True, True),
            ("one at a socket", "unix", path, COUNT, 10_000, True, True),
            ("replies that are none", "tcp", ports[Babbling], FEW, 10_000, True, False),
            ("one that is ended", "tcp", ports[Closing], FEW, 10_000, True, False),
            ("no reply in time", "tcp", ports[Silent], 10, SHORT_MS, True, False),
            ("a refused connection", "tcp", nobody.getsockname()[1], COUNT, 10_000, False, False),
            ("no socket there", "unix", os.path.join(room, "no-socket"), COUNT, 10_000, False, False),
            ("nothing there", "unix", os.path.join(room, "nothing"), COUNT, 10_000, False, False),
        ]


def openings_of_files(room):
    """The same of files. The last one is good, with a stamper."""
    (name, good), *bad = files_in(room)
    for kind in ("mapped", "unmapped", "stamper"):
        yield f"{name}, {kind}", kind, good, COUNT, 0, True, True
        for what, path in bad:
            yield f"{what}, {kind}", kind, path, COUNT, 0, what == "nothing published", False


class Look(dict):
    """The descriptors of a process, each with what it is, and whether a child gets it; and its mappings of shared files."""

    def __init__(self, process, path):
        super().__init__()
        self.mapped, self.marked = collections.Counter(), set()
        for name in os.listdir(f"/proc/{process}/fd"):
            with contextlib.suppress(FileNotFoundError):  # it is closed meanwhile
                target = os.readlink(f"/proc/{process}/fd/{name}")
                if target.startswith("/sys/"):  # what a runtime looks at now and then
                    continue
                self[name] = target.partition(":")[0]
                with open(f"/proc/{process}/fdinfo/{name}", encoding="ascii") as file:
                    flags = next(int(line.split()[1], 8) for line in file if line.startswith("flags:"))
                if flags & CLOSED_IN_CHILDREN:
                    self.marked.add(name)
        with open(f"/proc/{process}/maps", encoding="utf-8") as file:
            self.mapped.update(words[1] for words in map(str.split, file) if words[5:] == [path])

    @property
    def open(self):
        """How many descriptors there are of each kind of thing."""
        return collections.Counter(self.values())


def sends_at_once(process, number):
    """Whether a connection of TCP of another process has TCP_NODELAY, so that no line waits for others to be sent with; nothing where that can't
    be seen here."""
    with open(os.pidfd_open(process), "rb") as of_process:
        copy = ctypes.CDLL(None, use_errno=True).syscall(PIDFD_GETFD, of_process.fileno(), int(number), 0)
    if copy < 0:
        return None
    with socket.socket(fileno=copy) as connection:
        return bool(connection.getsockopt(socket.IPPROTO_TCP, socket.TCP_NODELAY)) if connection.family != socket.AF_UNIX else None


def try_openings(trial, name, probe, opening, impatient):
    """Opens what is named, looks, closes it and looks again."""
    what, kind, where, count, timeout_ms, is_opened, is_answered = opening
    process, path = probe.probe.pid, os.path.realpath(str(where))

    def look_once_closed(wanted):
        """What is there behind a close. A collector, which some need more than once, may unmap what was mapped, and no more."""
        by_collector = kind in ("mapped", "stamper")
        for _ in range(150 if probe not in impatient else 2):
            said = probe.say("rest") if by_collector else "rested"
            look = Look(process, path)
            if said != "rested" or not (look.open - wanted or look.mapped):
                break
            time.sleep(0.02)
        else:
            impatient.add(probe)  # which leaves more
        trial.equal(f"{name}: {what}", said if by_collector else probe.say("rest"), "rested")
        return look

    for _ in range(150):  # a collector may still have what was mapped before
        before = Look(process, path)
        if not before.mapped or probe.say("rest") != "rested":
            break
        time.sleep(0.02)
    said = probe.say(f"open {kind} {where} {count} {timeout_ms}")
    if timeout_ms == SHORT_MS:  # which is that of connecting, too
        said = re.sub(r"^\d+", str(count), said)
    trial.equal(f"{name}: {what}", said, f"{count * is_opened} opened, {count * is_answered * QUESTIONS} answers")
    during = Look(process, path)
    added = during.keys() - before.keys()
    if is_opened and kind not in ("tcp", "unix"):
        of_file = sum(during[number] == path for number in added)
        trial.equal(f"{name}: {what}: descriptors of the file", of_file, count * (kind == "unmapped" or name in KEEPS_DESCRIPTORS))
        trial.equal(f"{name}: {what}: mappings of it", dict(during.mapped), {} if kind == "unmapped" else {"r--s": count})
    if not is_opened:
        trial.equal(f"{name}: {what}: open where nothing was opened", (dict(during.open - before.open), dict(during.mapped)), ({}, {}))
    if is_answered and kind in ("tcp", "unix"):
        trial.equal(f"{name}: {what}: sockets", (during.open - before.open)["socket"], count)
        slow = [number for number in added if during[number] == "socket" and sends_at_once(process, number) is False]
        trial.equal(f"{name}: {what}: lines that wait for others", slow, [])
    if name not in UNMARKED:
        trial.equal(f"{name}: {what}: descriptors that children get", sorted(during[number] for number in added - during.marked), [])
    for turn in ("close", "close"):  # what is closed may be closed again
        trial.equal(f"{name}: {what}", probe.say(turn), "closed")
        after = look_once_closed(before.open)
        trial.equal(f"{name}: {what}: left open", dict(after.open - before.open), {})
        trial.equal(f"{name}: {what}: closed beside", dict(before.open - after.open), {})
        trial.equal(f"{name}: {what}: left mapped", dict(after.mapped), {})


@contextlib.contextmanager
def time_limit(probe):
    """Kills a probe that takes too long."""
    late = threading.Timer(100, probe.probe.kill)
    late.start()
    try:
        yield
    finally:
        late.cancel()


def try_all(trial, name, words, openings):
    """Opens and closes each of these by a probe; their number."""
    openings = [opening for opening in openings if opening[1] in ("tcp", "unix") or name not in ASYNCHRONOUS]
    with Reader(words, "openings") as probe, time_limit(probe):
        for opening in openings:  # the first time some runtimes open what they keep
            if opening[5] and opening[4] != SHORT_MS:
                probe.say("open {1} {2} {3} {4}".format(*opening))
                probe.say("close")
        impatient = set()
        for opening in openings:
            if probe.say("rest") == "":
                trial.check(name, False, f"{opening[0]}: the probe has ended, or the one before took too long")
                break
            try_openings(trial, name, probe, opening, impatient)
    return len(openings)


@suite.case()
def openings(trial):
    """Readers, stampers and sessions, a hundred times each, also such as fail: descriptors and mappings are as before."""
    with stand_ins(trial.room) as sessions, ThreadPoolExecutor() as pool:
        wanted = [*openings_of_files(trial.room), *sessions]
        tried = sum(pool.map(lambda probe: try_all(trial, *probe, wanted), session_probes(trial.shared)))
    trial.note(f"{tried} things to open, most of them {COUNT} times; {len(trial.result.wrong)} wrong")


def end(one):
    """Ends a connection: first its replies, and then all of it."""
    with contextlib.suppress(OSError):
        one.shutdown(socket.SHUT_WR)
    reset(one)


def try_ended(trial, name, words, room):
    """A session whose connection ends before the next line, over TCP and over a Unix socket."""
    path = os.path.join(room, f"ended-{name.replace(' ', '-')}")
    with socket.socket() as tcp, socket.socket(socket.AF_UNIX) as unix, Reader(words, "session") as probe:
        tcp.bind(("127.0.0.1", 0))
        unix.bind(path)
        for listener, address in ((tcp, f"tcp {tcp.getsockname()[1]}"), (unix, f"unix {path}")):
            listener.settimeout(10)
            listener.listen()
            trial.equal(f"{name}: {address[:4]}", probe.say(f"open {address} 10000"), "open")
            if listener is unix:  # it takes no line any more, which is seen by sending it alone
                with listener.accept()[0] as deaf:
                    deaf.shutdown(socket.SHUT_RD)
                    trial.equal(f"{name}: a line that can't be sent", probe.say("now"), "failed")
                probe.probe.stdin.write("now\n")
                one, _ = listener.accept()
                trial.equal(f"{name}: the line behind it", one.recv(100), b"now\n")
                one.sendall(b"now 5 15\n")
                trial.equal(f"{name}: behind it", probe.probe.stdout.readline().strip(), "5 15")
                end(one)
            else:
                end(listener.accept()[0])
            for turn in ("once", "twice"):
                time.sleep(0.05)
                probe.probe.stdin.write("now\n")
                one, _ = listener.accept()
                trial.equal(f"{name}: the next line", one.recv(100), b"now\n")
                one.sendall(b"now 5 15\n")
                trial.equal(f"{name}: a call on a connection that has ended, {turn}, {address[:4]}", probe.probe.stdout.readline().strip(), "5 15")
                end(one)
            trial.equal(f"{name}: close", probe.say("close"), "closed")


@suite.case()
def ended_sessions(trial):
    """A session whose connection has ended connects anew by the next call; nothing else ends by that."""
    probes = list(session_probes(trial.shared))
    for name, words in probes:
        try:
            try_ended(trial, name, words, trial.room)
        except OSError as fault:
            trial.check(name, False, f"it does not come back: {fault}")
    trial.note(f"{len(probes)} kinds of sessions; {len(trial.result.wrong)} wrong")
