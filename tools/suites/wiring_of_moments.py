"""Scenarios of the suite `wiring`: what a master answers to the nanosecond, since its monotonic clock stands still, and moves where it is told.
Packets of chronyd and ntpsec are as these sent them; what they say was worked out by hand, or by harness/ntp.py."""
import os
import socket
import time

from harness.faults import Spoils
from harness.metrics import numbers_in
from harness.ntp import LONG, PACKET, FakeServer, Key, Says, kiss, reply_in, stamp_of
from harness.processes import SECOND, free_port, raw_ns
from harness.program import read_text, write
from harness.wire import ANSWER_BYTES, REQUEST, SPAN, ends_in
from suites.wiring import suite
from suites.wiring_checks import eventually, number_of
from suites.wiring_of_masters import Asked, Spoiled

SOON_S, MS = 15.0, 1_000_000
#: The end of 2026, where a leap second is announced, and a time of 2027.
MIDNIGHT, LATER = 1_798_761_600 * SECOND, 1_800_000_000 * SECOND


class Still(Spoils):
    """A clock that stands still, and moves where it is told."""

    def __init__(self, room):
        super().__init__(room)
        self.shown_ns = raw_ns()
        self.move(0)

    def move(self, by_ns):
        self.shown_ns += by_ns
        self.tell("course", f"{raw_ns() - SECOND} {self.shown_ns} -1000000\n")

    def ahead(self, by_ns):
        """CLOCK_MONOTONIC is so far ahead of where this clock would have it, from now on."""
        since = raw_ns() - SECOND
        self.tell("slew", f"{since} {since + by_ns} 0\n")

    def date(self, nanoseconds):
        """The real-time clock shows this from now on."""
        self.tell("date", f"{nanoseconds}\n")


class Timed(Asked):
    """A master whose clocks stand still."""
    number = 0

    def __init__(self, trial, clock, *flags, **options):
        Timed.number += 1
        self.source, self.nonce, self.clock, self.path = 2, 0, clock, os.path.join(trial.room, f"status-{Timed.number}")
        self.address = f"127.0.0.1:{free_port(socket.SOCK_DGRAM)}"
        words = ["master", "--source=2", f"--listen={self.address}", f"--status={self.path}", *flags]
        words += [f"--{name.replace('_', '-')}={value}" for name, values in options.items() for value in values]
        self.process = trial.keep(Spoiled(trial, clock, words, name=f"timed-{Timed.number}"))
        self.door = trial.keep(socket.socket(socket.AF_INET, socket.SOCK_DGRAM))
        self.door.connect(("127.0.0.1", int(self.address.split(":")[1])))
        trial.logs(self.process, "master_started", source=2, seconds=SOON_S)


class Over(Timed):
    """One over servers, without a drift and a margin where none are given."""

    def __init__(self, trial, clock, servers, *flags, **options):
        super().__init__(trial, clock, *flags, **{"drift": [0], "margin": [0], "ntp": [server.address for server in servers], **options})

    def ends(self, move_ns=0, seconds=0.3):
        """The ends of its answer to a poll once the clock has moved so far, or nothing."""
        self.clock.move(move_ns)
        packet, _, _ = self.poll(seconds)
        is_answer = packet and packet[:REQUEST.size] == self.head() and len(packet) == ANSWER_BYTES
        return ends_in(packet) if is_answer else None

    def comes_to(self, ends, move_ns=SECOND):
        """Whether it comes to answer this; before each poll the clock moves so far. A reply of a busy host may come too late."""
        return eventually(lambda: self.ends(move_ns) == ends, SOON_S, 0)

    def is_silent(self, move_ns):
        """Whether it does not answer a poll once the clock has moved so far."""
        return self.ends(move_ns, 0.15) is None

    def refuses(self, number):
        """Whether it comes to tell that a reply is refused by this number; a kind of line that was quiet for twenty seconds comes again."""
        def look():
            self.ends(21 * SECOND)
            return eventually(lambda: str(number) in [line["number"] for line in self.process.said("server_refused")], 0.2)
        return eventually(look, SOON_S)

    def number_of(self, name):
        """A number of its first server in its status, which is of the last second of its clock."""
        text = read_text(self.path) if os.path.exists(self.path) else ""
        return number_of(numbers_in(text), f'truetime_master_server_{name}{{source="2",server="0"}}')

    def tells(self, **wanted):
        """Whether its status comes to have these numbers of its first server; a poll a second later brings a new one."""
        return eventually(lambda: all(self.number_of(name) == value for name, value in wanted.items()) or self.ends(SECOND) and None)


def server_of(trial, says):
    return trial.keep(FakeServer(says))


def plays(packet):
    """It sends this packet as the reply to any request."""
    return Says(packet=lambda request: packet[:24] + request[40:48] + packet[32:48])


def shows(nanoseconds, first=0x24, radius=1):
    """A reply of stratum 1 without delay, whose clock shows this time, with this first byte, and so many more units of dispersion. Its
    radius is 98,305 parts of 2^-32 seconds, between 22,888 and 22,889 ns, and 65,536 parts for each further unit."""
    stamp = stamp_of(nanoseconds)
    return PACKET.pack(first, 1, 0, -32, 0, radius - 1, 0, stamp, 0, stamp, stamp)


def said_by(packet):
    """The ends of what a reply says, as harness/ntp.py has them."""
    reply = reply_in(packet, PACKET.unpack(packet)[8], 0, 0)
    return reply.low, reply.high


#: What a request has in front of its nonce.
HEAD = b"\x23" + bytes(39)
#: Replies, and the ends and the stratum of what they say, or the number that refuses them: chronyd of stratum 1, of 2, of 2 with a way back
#: of 8 ms, of 3, and not set; ntpsec that says RATE, and INIT.
SAID = [
    ("240100e7000000010000000147505300eeb2c4bcd591d971fab8c964dc6da404eeb2c4c0c0dbc5bbeeb2c4c0c0de2558",
     (1_795_704_384_753_343_870, 1_795_704_384_753_435_484, 1)),
    ("240200e700000003000000020a4d010beeb2c4bfcdbac28d23703d4ce67bcd64eeb2c4c0c0e50e4deeb2c4c0c0e6e7ce",
     (1_795_704_384_753_447_014, 1_795_704_384_753_599_662, 2)),
    ("240200e700000224000000020a4d0101eeb2c4c05f0bec29a4cdadb9313ddc3deeb2c4c0bff23da1eeb2c4c0bff43482",
     (1_795_704_384_745_585_680, 1_795_704_384_754_054_369, 2)),
    ("240300e700000005000000030a4d010ceeb2c4bfd0be685baee90b7edb939d76eeb2c4c0c0f48205eeb2c4c0c0f6311a",
     (1_795_704_384_753_649_747, 1_795_704_384_753_863_431, 3)),
    ("e40000e700010000000100000000000000000000000000009c82274399021e85eeb2c4c0c0ec986deeb2c4c0c0eea514", 2311),
    ("e40000000000000000000000524154450000000000000000ef08028011828688ef08028011828688ef08028011828688", 2307),
    ("e40000e80000000000000002494e495400000000000000006f741ab4354969a9eeb2c4efc8678f04eeb2c4efcf5ba921", 2310),
]
#: chronyd that follows its own clock alone.
LOCAL = "240100e700000000000000007f7f0101eeb2c49763e308ceb10cc10837a3fcfaeeb2c4c0c0ca6a73eeb2c4c0c0cdef78"
LOCAL_ENDS = (1_795_704_384_753_119_407, 1_795_704_384_753_165_244)


@suite.case()
def replies_of_servers(trial):
    """A master answers exactly what the reply of a server says, and refuses it by its number."""
    server, clock = server_of(trial, Says(silent=True)), Still(trial.room)
    over = Over(trial, clock, [server])
    for digits, wanted in SAID:
        server.says = plays(bytes.fromhex(digits))
        if isinstance(wanted, int):
            trial.check("log server_refused", over.refuses(wanted), f"{digits} is not refused by {wanted}")
            continue
        low, high, stratum = wanted
        trial.check("option ntp", over.comes_to((low, high)), f"{over.ends()} by the reply {digits}")
        trial.equal("option ntp", said_by(bytes.fromhex(digits)), (low, high))
        is_told = over.tells(stratum=stratum, root_distance_seconds=(high - low) // 2)
        trial.check("master server_root_distance_seconds", is_told, f"{over.number_of('root_distance_seconds')}, and half of {high - low} is wanted")
    trial.equal("option ntp", {(request[:40], len(request)) for request in server.requests}, {(HEAD, PACKET.size)})
    local = server_of(trial, plays(bytes.fromhex(LOCAL)))
    trial.check("option local", Over(trial, clock, [local], "--local").comes_to(LOCAL_ENDS), "it says something else with --local")
    trial.check("option local", Over(trial, clock, [local]).refuses(2313), "it is not refused without --local")


@suite.case()
def eras_of_servers(trial):
    """Timestamps are read from the first moment of 2024 on: beyond 7 February 2036, 06:28:15, where they begin anew, and up to the greatest time."""
    server, clock = server_of(trial, Says(silent=True)), Still(trial.room)
    over = Over(trial, clock, [server])
    for seconds, stamp in ((1_704_067_200, 3_913_056_000), (2_085_978_495, 4_294_967_295), (2_085_978_496, 0)):
        packet = PACKET.pack(0x24, 1, 0, -32, 0, 0, 0, stamp * LONG, 0, stamp * LONG, stamp * LONG + 1)
        server.says = plays(packet)
        ends = seconds * SECOND - 22_889, seconds * SECOND + 22_889
        trial.check("option ntp", over.comes_to(ends), f"{over.ends()} by the timestamp {stamp}, and {ends} is wanted")
    server.says = plays(shows(4_000_000_000 * SECOND))
    trial.check("log server_refused", over.refuses(2318), "a reply past the greatest time is taken")
    trial.equal("option ntp", over.ends(), None)


@suite.case()
def ages_of_replies(trial):
    """A reply asked for a millisecond before it came, and 990 before the poll, at 200 parts per million and with a margin of a microsecond; that
    CLOCK_MONOTONIC is slewed meanwhile changes nothing. Where the clock shows less than when it came, nothing is said."""
    digits = SAID[0][0]
    clock = Still(trial.room)

    def reply(request):
        clock.move(MS)
        return plays(bytes.fromhex(digits)).packet(request)

    server = server_of(trial, Says(packet=reply))
    over = Over(trial, clock, [server], drift=[200], margin=[1_000], every=["1000s"], max_age=["1000s"])
    came = (1_795_704_384_753_342_870, 1_795_704_384_754_436_684)
    trial.check("option margin", over.comes_to(came, 1001 * SECOND), f"{over.ends()} as the reply comes, and {came} is wanted")
    server.says = Says(silent=True)
    clock.ahead(82 * MS)
    aged = (1_795_704_385_742_145_070, 1_795_704_385_743_634_484)
    trial.equal("option drift", over.ends(989 * MS, 3), aged)
    trial.equal("option max-age", over.ends(-989 * MS, 3), came)
    trial.check("master unanswered_2401", over.is_silent(-1), "an answer at a reading before that at which the reply came")
    trial.logs(over.process, "master_silent", SOON_S, number=2401)
    # As old as it may be, and a nanosecond older.
    trial.check("option max-age", over.ends(1 + 1000 * SECOND - MS, 3), "no answer by a reply of 1,000 seconds")
    is_told = eventually(lambda: over.number_of("age_seconds") == 1000 * SECOND)
    trial.check("master server_age_seconds", is_told, f"{over.number_of('age_seconds')}, and 1,000 s are wanted")
    trial.check("option max-age", over.is_silent(1), "an answer by an older reply")


@suite.case()
def pauses_of_requests(trial):
    """A server is asked a pause after the request before, to the nanosecond; after RATE twice that, from when it came, and what is known stays."""
    packet, clock = shows(LATER), Still(trial.room)
    server = server_of(trial, plays(packet))
    over = Over(trial, clock, [server], every=["10s"])
    low, high = said_by(packet)

    def asks(move_ns, is_wanted):
        """Whether a poll brings a request once the clock has moved so far."""
        before = len(server.requests)
        over.ends(move_ns)
        return bool(eventually(lambda: len(server.requests) > before, 1 if is_wanted else 0.1)) == is_wanted

    for _ in range(2):
        trial.check("option every", over.comes_to((low, high), 10 * SECOND), f"{over.ends()} by a reply")
        trial.check("option every", asks(10 * SECOND - 1, False), "a request before the pause has passed")
        trial.check("option every", asks(1, True), "no request once it has")
    trial.check("option every", over.comes_to((low, high), 10 * SECOND), f"{over.ends()} by a reply")
    server.says, known = kiss("RATE"), clock.shown_ns
    is_told = eventually(lambda: over.ends(10 * SECOND) and eventually(lambda: over.process.said("server_refused"), 2), SOON_S)
    trial.check("log server_refused", is_told, "RATE is not told")
    trial.check("option every", asks(20 * SECOND - 1, False), "a request before twice the pause has passed")
    passed = clock.shown_ns - known
    trial.equal("option every", over.ends(0, 3), (low + passed, high + passed))
    trial.check("option every", asks(1, True), "no request once it has")


@suite.case()
def eve_of_leap_seconds(trial):
    """A master is silent from a minute before a leap second that its server announced, to the nanosecond, and replies are put off until one from
    behind it announces none."""
    announced = shows(MIDNIGHT - 120 * SECOND, 0x64)
    low, high = said_by(announced)
    server = server_of(trial, plays(announced))
    over = Over(trial, Still(trial.room), [server], every=["1s"])
    trial.check("master unanswered_2406", over.comes_to((low, high)), f"{over.ends()} two minutes before the leap second")
    server.says = Says(silent=True)
    left = MIDNIGHT - 60 * SECOND - high
    trial.equal("master unanswered_2406", over.ends(left - 1, 3), (low + left - 1, MIDNIGHT - 60 * SECOND - 1))
    trial.check("master unanswered_2406", over.is_silent(1), "an answer a minute before the leap second")
    trial.logs(over.process, "master_silent", SOON_S, number=2406)
    for seconds, first in ((-30, 0x64), (-1, 0x24), (0, 0x24), (2, 0x64)):
        server.says = plays(shows(MIDNIGHT + seconds * SECOND, first))
        is_silent = over.is_silent(SECOND) and over.is_silent(SECOND)
        trial.check("master unanswered_2406", is_silent, f"an answer by a reply {seconds} seconds behind the leap second")
    behind = shows(MIDNIGHT + SECOND)
    server.says = plays(behind)
    trial.check("master unanswered_2406", over.comes_to(said_by(behind)), f"{over.ends()} behind the leap second")
    server.says = Says(silent=True)
    over.ends(SECOND)
    is_counted = eventually(lambda: (over.number_of("replies_total"), over.number_of("leap")) == (2, 0))
    trial.check("master server_replies_total", is_counted, f"{over.number_of('replies_total')} replies were taken, and 2 are wanted")


@suite.case()
def servers_that_differ(trial):
    """Of three servers one is silent: where one may be wrong it is the hull of the others, and silence where none may. Of two it is what both say,
    and silence where they do not meet. The servers' clocks move with the master's, so what is known ages to what they say."""
    clock = Still(trial.room)

    def moved():
        return clock.shown_ns // SECOND * SECOND

    def ticks(ahead_ns):
        """A server whose clock is so far ahead."""
        return server_of(trial, Says(packet=lambda request: plays(shows(LATER + moved() + ahead_ns)).packet(request)))

    clock.move(-clock.shown_ns % SECOND)
    (low, high), (later, latest) = (said_by(shows(LATER + ahead)) for ahead in (0, 30_000))
    first, second, apart, silent = ticks(0), ticks(30_000), ticks(60_000), server_of(trial, Says(silent=True))
    for servers, faulty, wanted in (([first, silent, second], 1, (low, latest)), ([first, second], 0, (later, high))):
        over = Over(trial, clock, servers, faulty=[faulty])
        is_right = eventually(lambda over=over, wanted=wanted: over.ends(SECOND) == tuple(end + moved() for end in wanted), SOON_S, 0)
        trial.check("option faulty", is_right, f"{over.ends()} with {faulty} that may be wrong; {wanted} and {moved()} is wanted")
    for servers, number in (([first, silent, second], 2402), ([first, apart], 2407)):
        over = Over(trial, clock, servers)
        is_told = eventually(lambda over=over, number=number: not over.ends(21 * SECOND) and any(
            line["number"] == str(number) for line in over.process.said("master_silent")), SOON_S, 0.1)
        trial.check("option faulty", is_told, f"no silence {number}")


#: Keys of NTP; those that a file has in each form; and replies of chronyd under the first two, which follows its own clock, with their ends.
KEYS = [Key(1, "sha1", bytes(range(20))), Key(70_000, "sha256", bytes(range(0x64, 0x84))), Key(8, "sha256", b"defghijk"), Key(6, "sha1", b"plain")]
KEY_FILE = (b"# keys\n1 SHA1 HEX:000102030405060708090a0b0c0d0e0f10111213\n\n 2\tMD5 secret\r\n70000 sha256 HEX:6465666768696A6B6C6D6E6F70717273"
            b"7475767778797a7b7c7d7e7f80818283\n8\t SHA256\tASCII:defghijk \r\n3 SHA1 abc def\n4 SHA1 HEX:0\n5 SHA1\n0 SHA1 HEX:00\n9 SHA1 HEX:\n"
            b"10 SHA1 HEX:" + b"00" * 65 + b"\n1 SHA1 other\n6 sha1 plain")
KEY_REFUSALS = {2: 2413, 3: 2412, 4: 2414, 5: 2412, 0: 2414, 9: 2414, 10: 2414, 7: 2411}
KEYED = [
    ("240300e700000000000000007f7f0101eeb4019b3225b0010102030405060708eeb4019c73b0e7b5eeb4019c73b5b39c000000019e7dc3ea7f93c7c896a51befb59fb88d3a5bc918",
     (1_795_785_500_451_968_378, 1_795_785_500_452_014_215)),
    ("240300e700000000000000007f7f0101eeb4019b3225b001f1f2f3f4f5f6f7f8eeb4019c73c3d079eeb4019c73c54ed0000111705b7690e345b2062d60217195dc1e4097e40257ec",
     (1_795_785_500_452_206_511, 1_795_785_500_452_252_348)),
]


def under(key, packet):
    """It sends this packet under this key as the reply to any request."""
    def reply_to(request):
        reply = plays(packet).packet(request)
        return reply + key.code(reply)
    return Says(packet=reply_to)


@suite.case()
def keys_of_replies(trial):
    """Each form of a key in chrony's file. What comes under it is read as without it."""
    path, clock, plain = os.path.join(trial.room, "ntp-keys"), Still(trial.room), shows(LATER)
    write(path, KEY_FILE)
    for key, (digits, _) in zip(KEYS, KEYED):
        trial.equal("option ntp-key", key.code(bytes.fromhex(digits)[:48]), bytes.fromhex(digits)[48:])
    packets = [*((bytes.fromhex(digits)[:48], ends) for digits, ends in KEYED), *[(plain, said_by(plain))] * 2]
    for key, (packet, ends) in zip(KEYS, packets):
        server = server_of(trial, under(key, packet))
        over = Over(trial, clock, [server], "--local", ntp_key=[key.number], ntp_keys=[path])
        trial.check("option ntp-keys", over.comes_to(ends), f"{over.ends()} under the key {key.number}, and {ends} is wanted")
        wrong = [request for request in server.requests if request[:40] != HEAD or request[48:] != key.code(request[:48])]
        trial.equal("option ntp-key", (len(server.requests) > 0, wrong), (True, []))


@suite.case()
def replies_under_other_keys(trial):
    """What comes under another number, with another code, under another key, or with none, is counted, and is no reply."""
    path, plain = os.path.join(trial.room, "ntp-keys"), shows(LATER)
    write(path, KEY_FILE)
    server = server_of(trial, Says(silent=True))
    over = Over(trial, Still(trial.room), [server], ntp_key=[1], ntp_keys=[path])
    for says in (under(KEYS[0]._replace(number=70_000), plain), under(KEYS[0]._replace(secret=bytes(20)), plain), under(KEYS[3], plain), plays(plain)):
        server.says, before = says, over.number_of("refused_total") or 0
        is_counted = eventually(lambda before=before: over.is_silent(SECOND) and (over.number_of("refused_total") or 0) > before, SOON_S)
        trial.check("option ntp-key", is_counted, "what is no reply under the key is not counted, or is taken")
    for number, refusal in KEY_REFUSALS.items():
        ran = trial.command("master", "--source", "0", "--listen", "127.0.0.1:0", "--ntp", server.address, "--ntp-key", str(number), "--ntp-keys", path)
        trial.equal("option ntp-keys", ran.answer, (f"refused {refusal}\n", 2))


@suite.case()
def steps_and_slews(trial):
    """A master over the host's clock answers what that shows, and the uncertainty both ways, cut at 0. A change against CLOCK_MONOTONIC of 500
    parts per million and two nanoseconds is no step, one more is, and then it is silent, also where the clock comes back."""
    clock = Still(trial.room)
    clock.date(LATER)
    over, shown = Timed(trial, clock, uncertainty=[500], drift=[1000]), LATER
    for passed, changed, answers in ((0, 2, True), (SECOND, 500_002, True), (SECOND, -500_002, True), (4 * SECOND, 2_000_002, True),
                                     (SECOND, 500_003, False), (SECOND, -500_003, False)):
        shown += passed + changed
        clock.date(shown)
        clock.move(passed)
        packet, _, _ = over.poll(3 if answers else 0.3)
        wanted = over.head() + SPAN.pack(shown - 500, shown + 500) if answers else None
        trial.check("master unanswered_2408", packet == wanted, f"{packet and packet.hex(' ', 8)} where the clock changed by {changed} ns in {passed}")
    trial.logs(over.process, "clock_stepped", SOON_S)
    clock.date(3 * SECOND)
    early = Timed(trial, clock, uncertainty=[SECOND], offset=[-2_000_000_007])
    trial.equal("option offset", (early.poll()[0] or b"")[REQUEST.size:], SPAN.pack(0, 2 * SECOND - 7))


@suite.case()
def slews_of_stated_clocks(trial):
    """A master over the host's clock takes it as an NTP daemon slews it, CLOCK_MONOTONIC alike, by 83,333 parts per million. What it stated is broken by
    what twice the uncertainty and the drift do not explain, since any poll before; and then it is silent, also where the clock comes back."""
    clock = Still(trial.room)
    clock.date(LATER)
    over, shown, slewed = Timed(trial, clock, uncertainty=[MS], drift=[200]), LATER, 0
    for passed, changed, answers in ((0, 0, True), (24 * MS, 1_999_992, True), (24 * MS, -1_999_992, True), (SECOND, 2_200_002, True),
                                     (SECOND, 200_002, True), (SECOND, 200_003, False), (SECOND, -MS, False)):
        shown, slewed = shown + passed + changed, slewed + changed
        clock.date(shown)
        clock.ahead(slewed)
        clock.move(passed)
        packet, _, _ = over.poll(3 if answers else 0.3)
        wanted = over.head() + SPAN.pack(shown - MS, shown + MS) if answers else None
        trial.check("master unanswered_2408", packet == wanted, f"{packet and packet.hex(' ', 8)} where the clock changed by {changed} ns in {passed}")
    trial.logs(over.process, "clock_stepped", SOON_S)
