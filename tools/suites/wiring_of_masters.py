"""Scenarios of the suite `wiring`: each option and each act of `master` has its effect, and its log; and the lines of `key`."""
import contextlib
import os
import re
import socket
import subprocess
import time

from harness.faults import Spoils
from harness.metrics import faults_in
from harness.processes import SECOND, Process, free_port
from harness.program import WARNINGS, compile_c, read_text, write
from harness.wire import ANSWER_BYTES, ANSWERS, REQUEST, SPAN, Poll, ends_in, first_version, sealed
from suites.wiring import suite
from suites.wiring_checks import eventually, put_keys

# The source, the offset and the uncertainty.
OPTIONS = [(0, 0, 1_000), (3, 5 * SECOND, 123_456_789), (15, -7 * SECOND, 0)]
MACHINE, EPOCH = 6, 9
GARBAGE = b"\xff" * 40


class Asked:
    """A client of a master, which makes its polls with nonces of its own."""

    def __init__(self, trial, source, *flags, **options):
        self.source, self.nonce = source, 0
        self.address = f"127.0.0.1:{free_port(socket.SOCK_DGRAM)}"
        self.process = trial.process("master", "--source", str(source), "--listen", self.address,
                                     *(f"--{name.replace('_', '-')}={value}" for name, values in options.items() for value in values), *flags)
        self.door = trial.keep(socket.socket(socket.AF_INET, socket.SOCK_DGRAM))
        self.door.connect(("127.0.0.1", int(self.address.split(":")[1])))

    def poll(self, seconds=5, source=None):
        """The packet that comes back, or nothing; and the real-time clock before and after."""
        self.nonce += 1
        poll = Poll(machine=MACHINE, source=self.source if source is None else source, nonce=self.nonce, epoch=EPOCH).packet
        before = time.time_ns()
        self.door.settimeout(seconds)
        with contextlib.suppress(OSError):
            self.door.send(poll)
            return self.door.recv(100), before, time.time_ns()
        return None, before, time.time_ns()

    def head(self):
        return Poll(kind=ANSWERS, machine=MACHINE, source=self.source, nonce=self.nonce, epoch=EPOCH).packet


def is_span(asked, packet, before, after, ahead, uncertainty):
    """Whether it is the answer to the last poll with the span of a clock that is so far ahead."""
    if not packet or packet[:REQUEST.size] != asked.head() or len(packet) != ANSWER_BYTES:
        return False
    low, high = ends_in(packet)
    return high - low == 2 * uncertainty and before + ahead <= (low + high) // 2 <= after + ahead


@suite.case()
def options_of_masters(trial):
    """It answers polls of its source alone, with its clock and twice its uncertainty."""
    for source, offset, uncertainty in OPTIONS:
        asked = Asked(trial, source, uncertainty=[uncertainty], offset=[offset])
        trial.logs(asked.process, "master_started", source=source, port=asked.address.split(":")[1])
        packet, before, after = asked.poll()
        trial.equal("option source", (packet or b"")[:REQUEST.size], asked.head())
        trial.check("option listen", packet, "no answer at its address")
        low, high = ends_in(packet) if packet and len(packet) == ANSWER_BYTES else (0, 0)
        trial.equal("option uncertainty", high - low, 2 * uncertainty)
        trial.between("option offset", before, (low + high) // 2 - offset, after)
        packet, _, _ = asked.poll(0.3, source=(source + 1) % 16)
        trial.equal("option source", packet, None)


# What a master does in turn, with its word on the command line, and how far its answer is ahead, or the packet, or nothing. None of them
# for a poll stands for the last act, which goes on.
ACTS = [("honest", 0), ("ahead 7000000000", 7 * SECOND), ("behind 9000000000", -9 * SECOND), ("silent", None), ("garbage", GARBAGE),
        ("repeat", GARBAGE), ("honest", 0), ("repeat", "last"), ("ahead 3000000000", 3 * SECOND), (None, 3 * SECOND), (None, 3 * SECOND)]


@suite.case()
def acts_of_masters(trial):
    """One for each poll in turn, and none for what is no poll of its source."""
    asked = Asked(trial, 2, uncertainty=[5], act=[word for word, _ in ACTS if word])
    trial.logs(asked.process, "master_started")
    last = None
    for number, (word, wanted) in enumerate(ACTS):
        asked.door.send(b"no poll")
        packet, before, after = asked.poll(0.3 if wanted is None else 5)
        if isinstance(wanted, int):
            is_right = is_span(asked, packet, before, after, wanted, 5)
        else:
            is_right = packet == (last if wanted == "last" else wanted)
        name = f"act {word.split()[0]}" if word else "option act"
        trial.check(name, is_right, f"{packet and packet.hex(' ', 8)} to poll {number}")
        last = packet or last


@suite.case()
def formats_of_polls(trial):
    """Each poll is answered in its own format, by a master and by one with acts. What is no poll takes no act, and the last act goes on."""
    asked = Asked(trial, 3, uncertainty=[7])
    acting = Asked(trial, 1, uncertainty=[7], act=["honest", "honest", "silent", "garbage"])
    trial.logs(asked.process, "master_started")
    trial.logs(acting.process, "master_started")

    def poll(one, change, seconds=5.0):
        """What comes back to a poll that is changed so; and whether it is the answer to it."""
        one.nonce += 1
        before = time.time_ns()
        one.door.settimeout(seconds)
        with contextlib.suppress(OSError):
            one.door.send(change(Poll(machine=MACHINE, source=one.source, nonce=one.nonce, epoch=EPOCH).packet))
            packet = one.door.recv(100)
            low, high = SPAN.unpack(packet[-SPAN.size:])
            is_near = high - low == 14 and before <= low + 7 <= time.time_ns()
            return packet, is_near and packet == change(one.head() + SPAN.pack(low, high))
        return None, False

    for change in (first_version, bytes, first_version):
        packet, is_right = poll(asked, change)
        trial.check("option source", is_right, f"{packet and packet.hex(' ', 8)} to a poll in the format of {change.__name__}")
    wanted = [(first_version, True), (bytes, True), (first_version, None), (bytes, GARBAGE), (first_version, GARBAGE[:32])]
    for number, (change, answer) in enumerate(wanted):
        acting.door.send(b"not a message")
        packet, is_right = poll(acting, change, 0.3 if answer is None else 5)
        trial.check("option act", is_right if answer is True else packet == answer, f"{packet and packet.hex(' ', 8)} to poll {number}")


@suite.case()
def logs_of_masters(trial):
    """In either form."""
    for form in ("text", "json"):
        asked = Asked(trial, 4, uncertainty=[5], log=[form])
        trial.logs(asked.process, "master_started", source=4)
        trial.has_form("option log", asked.process, form)


@suite.case()
def master_without_time(trial):
    """Its clock would show a time before 1970, and nothing is answered."""
    status = os.path.join(trial.room, "status")
    asked = Asked(trial, 1, uncertainty=[5], offset=[-2_000_000_000 * SECOND], status=[status])
    trial.logs(asked.process, "master_started")
    trial.equal("option offset", asked.poll(0.3)[0], None)
    trial.logs(asked.process, "master_silent", number=2401)
    wanted = r'^truetime_master_unanswered_total\{source="1",number="2401"\} 1$'
    trial.check("master unanswered_2401", eventually(lambda: re.search(wanted, read_text(status), re.MULTILINE)), "the poll is not counted")


@suite.case()
def master_whose_address_is_taken(trial):
    """It is refused, and standard error has the address and the system's reason."""
    with socket.socket(socket.AF_INET, socket.SOCK_DGRAM) as door:
        door.bind(("127.0.0.1", 0))
        address = f"127.0.0.1:{door.getsockname()[1]}"
        ran = trial.command("master", "--source", "1", "--listen", address, "--uncertainty", "5")
    trial.equal("option listen", ran.answer, ("refused 1501\n", 4))
    line = f"ttd: refused 1501: no socket can be had at {address}: Address already in use (os error 98) (ttd explain 1501)"
    trial.check("option listen", line in ran.error.splitlines(), f"{ran.error!r} has no line {line!r}")


class Spoiled(Process):
    """A master whose calls are spoiled."""

    def __init__(self, trial, spoils, words, prefix=(), name="spoiled"):
        self.environment, self.prefix = spoils.environment, prefix
        super().__init__(trial, name, words)

    def start(self):
        with open(self.log, "ab") as log:
            self.running = subprocess.Popen([*self.prefix, self.program, *self.words], stdin=subprocess.PIPE, stdout=log, stderr=log,
                                            env=self.environment)


@suite.case()
def master_without_socket(trial):
    """No packet can be received for a while; it goes on then."""
    spoils = Spoils(trial.room)
    asked = Asked(trial, 1, uncertainty=[5])
    asked.process.kill()
    process = trial.keep(Spoiled(trial, spoils, ["master", "--source", "1", "--listen", asked.address, "--uncertainty", "5"]))
    trial.check("option listen", eventually(lambda: asked.poll(0.3)[0]), "no answer")
    with spoils.spoiled("receive"):
        trial.logs(process, "master_failed")
        trial.equal("log master_resumed", process.said("master_resumed"), [])
    trial.check("option listen", eventually(lambda: asked.poll(0.3)[0], 10), "no answer once packets are received again")
    trial.logs(process, "master_resumed")


class OnDevice(Asked):
    """A client of a master whose hardware clock is a file, which says how far it is ahead of the real-time clock."""

    def __init__(self, trial, name, ahead, tai_offset, uncertainty):
        self.source, self.nonce, self.path = 2, 0, os.path.join(trial.room, name)
        self.address = f"127.0.0.1:{free_port(socket.SOCK_DGRAM)}"
        self.shows(ahead)
        self.environment = dict(os.environ, LD_PRELOAD=compile_c("device_clock", trial.room, *WARNINGS, "-shared", "-fPIC"))
        words = ["master", "--source=2", f"--listen={self.address}", f"--phc={self.path}", f"--tai-offset={tai_offset}", f"--uncertainty={uncertainty}"]
        self.process = trial.keep(Spoiled(trial, self, words, name=f"{name}-master"))
        self.door = trial.keep(socket.socket(socket.AF_INET, socket.SOCK_DGRAM))
        self.door.connect(("127.0.0.1", int(self.address.split(":")[1])))
        trial.logs(self.process, "master_started", source=2)

    def shows(self, ahead):
        write(self.path, f"{ahead}\n".encode())


@suite.case()
def hardware_clocks(trial):
    """A master answers what the clock of an open device shows, less what TAI is ahead, and its uncertainty both ways. It is silent while the clock
    can't be read, and for ever once it was stepped."""
    uncertainty = SECOND // 10
    for name, ahead, tai_offset in (("utc", 0, 0), ("tai", 0, 36)):
        asked = OnDevice(trial, name, ahead, tai_offset, uncertainty)
        trial.check("option tai-offset", is_span(asked, *asked.poll(), -tai_offset * SECOND, uncertainty), f"another answer by {tai_offset} seconds")
    asked = OnDevice(trial, "ptp", 37 * SECOND, 37, uncertainty)
    trial.check("option phc", is_span(asked, *asked.poll(), 0, uncertainty), "another answer")
    asked.shows("")
    trial.equal("option phc", asked.poll(0.3)[0], None)
    trial.logs(asked.process, "master_silent", number=2401)
    asked.shows(37 * SECOND + uncertainty)
    trial.check("option phc", is_span(asked, *asked.poll(), uncertainty, uncertainty), "no answer once the clock can be read")
    for ahead in (38 * SECOND, 37 * SECOND):
        asked.shows(ahead)
        trial.equal("option phc", asked.poll(0.3)[0], None)
    trial.logs(asked.process, "clock_stepped")


@suite.case()
def clocks_of_other_files(trial):
    """A file that is no clock is opened, and nothing is answered."""
    asked = Asked(trial, 1, uncertainty=[5], phc=["/dev/null"], tai_offset=[37])
    trial.logs(asked.process, "master_started")
    trial.equal("option phc", asked.poll(0.3)[0], None)
    trial.logs(asked.process, "master_silent", number=2401)


def is_answered(asked, number, key, seconds=0.3):
    """Whether a poll under this key has an answer under it."""
    asked.nonce += 1
    poll = Poll(machine=MACHINE, source=asked.source, nonce=asked.nonce, epoch=EPOCH).packet
    before = time.time_ns()
    asked.door.settimeout(seconds)
    with contextlib.suppress(OSError):
        asked.door.send(sealed(poll, number, key))
        packet = asked.door.recv(100)
        answer = packet[:ANSWER_BYTES]
        return packet == sealed(answer, number, key) and is_span(asked, answer, before, time.time_ns(), 0, 5)
    return False


OLD, NEW, OTHER = bytes(range(32)), bytes(range(100, 132)), bytes(range(200, 232))


@suite.case()
def polls_that_do_not_open(trial):
    """They are logged once a second and at most once in ten, with how many there were so far. What is refused of a file of keys is logged once as
    long as the file stays as it is."""
    keys = os.path.join(trial.room, "keys")
    put_keys(keys, f"7 {OLD.hex()} host-a")
    asked = Asked(trial, 3, uncertainty=[5], keys=[keys])
    trial.logs(asked.process, "master_started")
    trial.check("option keys", is_answered(asked, 7, OLD, 5), "no answer under its key")
    for number, key in ((7, OTHER), (9, OLD)):
        trial.check("option keys", not is_answered(asked, number, key, 0.1), "an answer")
    trial.equal("option keys", asked.poll(0.1)[0], None)
    trial.between("log polls_unopened", 1, int(trial.logs(asked.process, "polls_unopened").get("count", 0)), 3)
    put_keys(keys, f"7 {OLD.hex()} host-a", "8 00")
    trial.logs(asked.process, "keys_refused", number=2215, line=2)
    time.sleep(10.5)
    trial.equal("log keys_refused", len(asked.process.said("keys_refused")), 1)
    trial.logs(asked.process, "polls_unopened", count=3)
    trial.check("option keys", not is_answered(asked, 7, OTHER, 0.1), "an answer")


@suite.case()
def keys_that_are_refused_again(trial):
    """A second error in the file of keys within ten seconds is told once these are over."""
    keys, spoils = os.path.join(trial.room, "keys"), Spoils(trial.room)
    put_keys(keys, f"7 {OLD.hex()}")
    address = f"127.0.0.1:{free_port(socket.SOCK_DGRAM)}"
    process = trial.keep(Spoiled(trial, spoils, ["master", "--source", "1", "--listen", address, "--uncertainty", "5", "--keys", keys]))
    trial.logs(process, "master_started")
    put_keys(keys, f"7 {OLD.hex()}", "8 00")
    trial.logs(process, "keys_refused", number=2215, line=2)
    put_keys(keys, f"7 {OLD.hex()}")
    trial.logs(process, "keys_read", keys=1)
    put_keys(keys, f"7 {OLD.hex()}", f"8 {NEW.hex()}", "9 00")
    time.sleep(2.5)
    trial.equal("log keys_refused", len(process.said("keys_refused")), 1)
    spoils.turn(jump_ns=11 * SECOND)
    trial.equal("log keys_refused", trial.logs(process, "keys_refused", number=2215, line=3).get("left_out"), None)


@suite.case()
def keys_of_masters(trial):
    """It answers what is sealed under a key of its file, and takes the keys over as the file changes."""
    keys, status = os.path.join(trial.room, "keys"), os.path.join(trial.room, "status")
    put_keys(keys, f"7 {OLD.hex()} host-a", "# no more")
    asked = Asked(trial, 3, uncertainty=[5], keys=[keys], status=[status])
    trial.logs(asked.process, "master_started")
    trial.check("option keys", is_answered(asked, 7, OLD, 5), "no answer under its key")
    trial.equal("option keys", asked.poll(0.3)[0], None)
    trial.check("option keys", not is_answered(asked, 7, OTHER), "an answer to a tag of another key")
    trial.check("option keys", not is_answered(asked, 9, OLD), "an answer to the number of no key")
    put_keys(keys, f"7 {OLD.hex()} host-a", f"8 {NEW.hex()} host-a")
    trial.logs(asked.process, "keys_read", keys=2)
    trial.check("option keys", is_answered(asked, 8, NEW, 5) and is_answered(asked, 7, OLD, 5), "no answer under one of two keys")
    trial.check("option status", 'truetime_master_keys_refused_total{source="3"} 0\n' in read_text(status), "a file was refused before any")
    put_keys(keys, f"8 {NEW.hex()} host-a", "9 00")
    trial.logs(asked.process, "keys_refused", number=2215, line=2)
    trial.check("option keys", is_answered(asked, 7, OLD, 5), "no answer under a key that stays")
    put_keys(keys, f"8 {NEW.hex()} host-a")
    trial.check("option keys", eventually(lambda: not is_answered(asked, 7, OLD)), "an answer under a key that was dropped")
    trial.check("option keys", is_answered(asked, 8, NEW, 5), "no answer under the key that is left")
    wanted = [r'truetime_master_keys\{source="3"\} 1', r'truetime_master_keys_refused_total\{source="3"\} 1', r'truetime_master_answers_total\{source="3",key="8"\} 2',
              r'truetime_master_answers_total\{source="3",key="none"\} 0', r'truetime_master_dropped_total\{source="3",number="2201"\} 0',
              r'truetime_master_dropped_total\{source="3",number="2202"\} [1-9][0-9]*', r'truetime_master_dropped_total\{source="3",number="2203"\} 1']
    for line in wanted:
        trial.check("option status", eventually(lambda line=line: re.search(f"^{line}$", read_text(status), re.MULTILINE)), f"no {line}")
    trial.equal("option status", [fault for fault in faults_in(read_text(status)) if not fault.startswith("truetime_master_server_")], [])


@suite.case()
def texts_of_keys(trial):
    """Comments and empty lines are skipped, a name is for the reader alone, the last line need not end, and a line of `key` is one."""
    keys, made = os.path.join(trial.room, "keys"), trial.command("key", "--id", "9").said
    write(keys, f"# keys of host a\n\n7 {OLD.hex()} master-0\n{made}4294967295 {NEW.hex()}".encode())
    os.chmod(keys, 0o600)
    asked = Asked(trial, 3, uncertainty=[5], keys=[keys])
    trial.logs(asked.process, "master_started")
    for number, key in ((7, OLD), (9, bytes.fromhex(made.split()[1])), (4294967295, NEW)):
        trial.check("option keys", is_answered(asked, number, key, 5), f"no answer under the key {number}")


def write_in_place(path, key, *times):
    """Writes another key over the only one of a file, which has these times then, in nanoseconds."""
    with open(path, "r+b", buffering=0) as file:
        file.write(f"7 {key.hex()}".encode())
    os.utime(path, ns=times)


@suite.case()
def keys_written_in_place(trial):
    """A file of keys that is as long as before, and was written in its place in the same second, is read again, and so is one whose mode alone
    is another one."""
    keys, second = os.path.join(trial.room, "keys"), time.time_ns() // SECOND * SECOND
    put_keys(keys, f"7 {OLD.hex()}")
    os.utime(keys, ns=(second, second + 1))
    asked = Asked(trial, 3, uncertainty=[5], keys=[keys])
    trial.logs(asked.process, "master_started")
    trial.check("option keys", is_answered(asked, 7, OLD, 5), "no answer under its key")
    time.sleep(1.1)
    write_in_place(keys, NEW, second, second + 2)
    trial.logs(asked.process, "keys_read", keys=1)
    trial.check("option keys", is_answered(asked, 7, NEW, 5), "no answer under the key that was written")
    trial.check("option keys", not is_answered(asked, 7, OLD), "an answer under the key before")
    os.chmod(keys, 0o644)
    trial.logs(asked.process, "keys_refused", number=2212, line=0)
    trial.check("option keys", is_answered(asked, 7, NEW, 5), "no answer under a key that stays")


@suite.case()
def keys_of_the_same_times(trial):
    """A file of keys that was written in its place and has the length and the times of the one before is read anew."""
    keys = os.path.join(trial.room, "keys")
    put_keys(keys, f"7 {OLD.hex()}")
    os.utime(keys, (1, 1))
    asked = Asked(trial, 3, uncertainty=[5], keys=[keys])
    trial.logs(asked.process, "master_started")
    trial.check("option keys", is_answered(asked, 7, OLD, 5), "no answer under its key")
    time.sleep(1.1)
    write_in_place(keys, NEW, SECOND, SECOND)
    trial.logs(asked.process, "keys_read", keys=1)
    trial.check("option keys", not is_answered(asked, 7, OLD), "an answer under the key before")
    trial.check("option keys", is_answered(asked, 7, NEW, 5), "no answer under the key that was written")
    os.utime(keys)
    time.sleep(2.5)
    trial.equal("log keys_read", len(asked.process.said("keys_read")), 1)


@suite.case()
def status_of_open_masters(trial):
    """A master without keys counts its answers as not sealed."""
    status = os.path.join(trial.room, "status")
    asked = Asked(trial, 4, uncertainty=[5], status=[status])
    trial.logs(asked.process, "master_started")
    for _ in range(3):
        asked.poll()
    wanted = r'^truetime_master_answers_total\{source="4",key="none"\} 3$'
    trial.check("option status", eventually(lambda: re.search(wanted, read_text(status), re.MULTILINE)), "three answers are not shown")
    trial.equal("log master_answers, where it was never silent", asked.process.said("master_answers"), [])


@suite.case()
def address_of_masters(trial):
    """An address that is not up is awaited, and said, with the pause until it is tried again, which doubles each time."""
    keys, spoils = os.path.join(trial.room, "keys"), Spoils(trial.room)
    put_keys(keys, f"7 {OLD.hex()}")
    words = ["master", "--source", "1", "--listen", "198.51.100.1:7001", "--uncertainty", "5", "--keys", keys]
    waiting = trial.keep(Spoiled(trial, spoils, words))
    trial.logs(waiting, "address_awaited", pause_ns=SECOND)
    trial.equal("option listen", waiting.running.poll(), None)
    spoils.turn(jump_ns=11 * SECOND)  # no further line comes within ten seconds of the first
    pauses = eventually(lambda: len(lines := waiting.said("address_awaited")) > 1 and [int(line["pause_ns"]) // SECOND for line in lines], 10)
    trial.check("log address_awaited", pauses and pauses[1] in (2, 4, 8), f"its pauses are {pauses} seconds")


@suite.case()
def lines_of_keys(trial):
    """Each has other bytes, and without `--id` another number, which tells nothing of the bytes."""
    lines = [trial.command("key", "--id", "7", "--name", "host-a").said for _ in range(2)]
    for line in lines:
        trial.check("option id", re.fullmatch(r"7 [0-9a-f]{64} host-a\n", line), line)
    trial.check("option name", lines[0] != lines[1], "the same bytes twice")
    drawn = [trial.command("key").said for _ in range(2)]
    for line in drawn:
        trial.check("option id", re.fullmatch(r"(0|[1-9][0-9]{0,9}) [0-9a-f]{64}\n", line), line)
    trial.check("option id", drawn[0].split()[0] != drawn[1].split()[0], "the same number twice")
    spoils = Spoils(trial.room)
    spoils.tell("random")
    for words in ([], ["--id", "7"], ["--id", "7", "--name", "host-a"]):
        trial.equal("option id", trial.command("key", *words, env=spoils.environment).answer, ("refused 1829\n", 4))
    # By chance 57 windows of 4 bytes, either way round, have that number once in 38 million times.
    for number, digits in map(str.split, drawn):
        told = [at for at in range(29) if int(number) in [int.from_bytes(bytes.fromhex(digits)[at:at + 4], order) for order in ("big", "little")]]
        trial.equal("option id", told, [])
