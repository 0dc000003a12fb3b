"""NTP as a client and as a server of a script: what a reply says, worked out apart from the program, and servers that say what they are told."""
import contextlib
import dataclasses
import hashlib
import secrets
import socket
import struct
import time
import typing

from harness.processes import SECOND
from harness.responder import Responder

#: First byte, stratum, poll, precision; root delay, root dispersion, reference; when the clock was set, origin, receive, transmit.
PACKET = struct.Struct(">BBbbIIIQQQQ")
UNIX_EPOCH, PIVOT_S = 2_208_988_800, 1_704_067_200
CLIENT, SERVER, UNSET = 3, 4, 3
#: The part of a second that stands in a field of 16 and of 32 binary places.
SHORT, LONG = 1 << 16, 1 << 32
LOCAL, SHORTEST = 0x7F7F01, -20
DIGEST_BYTES = 20


class Refused(Exception):
    """A reply that gives no time."""


class Key(typing.NamedTuple):
    """A symmetric key: its number, `sha1` or `sha256`, and its bytes."""
    number: int
    kind: str
    secret: bytes

    def code(self, packet: bytes) -> bytes:
        """What stands behind a packet."""
        return struct.pack(">I", self.number) + hashlib.new(self.kind, self.secret + packet).digest()[:DIGEST_BYTES]

    def line(self) -> str:
        """The line of a file of keys, as chrony has it."""
        return f"{self.number} {self.kind.upper()} HEX:{self.secret.hex().upper()}"


def stamp_of(nanoseconds: int) -> int:
    """A timestamp of this time since 1970, of any era."""
    return ((UNIX_EPOCH << 32) + (nanoseconds << 32) // SECOND) % (1 << 64)


def parts_of(stamp: int) -> int:
    """A timestamp in parts of 2^-32 seconds since 1970, of the era from 2024 on."""
    return (PIVOT_S << 32) + (stamp - ((PIVOT_S + UNIX_EPOCH) << 32)) % (1 << 64)


@dataclasses.dataclass(frozen=True)
class Reply:
    """What a server said, and this host's clock around that. Its clock was wrong by at most the radius when it showed `shown`; both in parts
    of 2^-32 seconds."""
    leap: int
    stratum: int
    delay: int
    dispersion: int
    precision: int
    reference: int
    shown: int
    before: int
    after: int

    @property
    def radius(self) -> int:
        """Half the root delay, the root dispersion, one unit more each, and the precision."""
        return (self.delay + 1 << 15) + (self.dispersion + 1 << 16) + (1 << max(0, 32 + self.precision))

    @property
    def distance_ns(self) -> int:
        return -(-self.radius * SECOND >> 32)

    @property
    def low(self) -> int:
        return (self.shown - self.radius) * SECOND >> 32

    @property
    def high(self) -> int:
        return -(-(self.shown + self.radius) * SECOND >> 32)

    @property
    def is_right(self) -> bool:
        """Whether it holds a time between both looks at this host's clock."""
        return self.low <= self.after and self.before <= self.high


def reply_in(packet: bytes, origin: int, before: int, after: int) -> Reply:
    """The reply in a packet without a code behind it."""
    if len(packet) != PACKET.size:
        raise Refused(f"{len(packet)} bytes")
    first, stratum, _, precision, delay, dispersion, reference, _, its_origin, came, shown = PACKET.unpack(packet)
    if first & 7 != SERVER or its_origin != origin:
        raise Refused("no reply to this request")
    if stratum == 0 or first >> 6 == UNSET or stratum >= 16 or shown == 0 or parts_of(shown) < parts_of(came):
        raise Refused(f"leap {first >> 6}, stratum {stratum}, {reference.to_bytes(4, 'big')!r}")
    return Reply(first >> 6, stratum, delay, dispersion, precision, reference, parts_of(shown), before, after)


def request_of(nonce: int) -> bytes:
    """A client's request, which says nothing but this in the place of its own time."""
    return PACKET.pack(4 << 3 | CLIENT, 0, 0, 0, 0, 0, 0, 0, 0, 0, nonce)


def nonce_in(request: bytes) -> int:
    """What a request has in the place of its own time."""
    return PACKET.unpack(request[:PACKET.size])[-1]


def ask(address: str, port: int = 123, seconds: float = 1.0) -> Reply:
    """Asks a server once."""
    origin = secrets.randbits(64)
    with socket.socket(socket.AF_INET, socket.SOCK_DGRAM) as door:
        door.settimeout(seconds)
        door.connect((address, port))
        before = time.time_ns()
        door.send(request_of(origin))
        packet = door.recv(1024)
        return reply_in(packet, origin, before, time.time_ns())


@dataclasses.dataclass
class Says:
    """What a server says from now on. Its time is that of this host, and `ahead_ns` more; its root delay and dispersion are in parts of 2^-16 s."""
    leap: int = 0
    stratum: int = 2
    delay: int = 0
    dispersion: int = SHORT // 1000
    precision: int = SHORTEST
    reference: int = 0x0A000001
    ahead_ns: int = 0
    #: Fields that stand in the reply whatever they should be: `origin`, `came`, `shown`, `set`, `poll`, `version`, `mode`.
    changed: dict[str, int] = dataclasses.field(default_factory=dict)
    #: Nothing is said, or this in place of a reply, made of the request.
    silent: bool = False
    packet: typing.Callable[[bytes], bytes] | None = None
    key: Key | None = None
    #: What comes from another address before the reply.
    elsewhere: typing.Optional["Says"] = None
    #: How many packets come before the reply that are none.
    strays: int = 0


def kiss(code: str) -> Says:
    """It says no time but a word: RATE, DENY, RSTR."""
    return Says(leap=UNSET, stratum=0, reference=int.from_bytes(code.encode(), "big"))


class FakeServer(Responder):
    """A server of NTP that says what it is told, and keeps the requests: their bytes, and the monotonic clock when each came."""

    def __init__(self, says: Says | None = None, host: str = "127.0.0.1", port: int | None = None):
        self.says = says or Says()
        self.requests: list[bytes] = []
        self.times: list[float] = []
        #: The port from which each request came, and the address that asked last.
        self.ports: list[int] = []
        self.client: tuple[str, int] | None = None
        super().__init__(host, port)

    def take(self, packet: bytes, sender: tuple) -> None:
        if len(packet) < PACKET.size:
            return
        self.client = sender
        self.ports.append(sender[1])
        self.requests.append(packet)
        self.times.append(time.monotonic())
        if self.says.elsewhere:
            with contextlib.suppress(OSError), socket.socket(socket.AF_INET, socket.SOCK_DGRAM) as other:
                other.sendto(self.reply_to(packet, self.says.elsewhere), sender)
        for _ in range(self.says.strays):
            self.send_to(bytes(PACKET.size - 1), sender)
        if reply := self.reply_to(packet, self.says):
            self.send_to(reply, sender)

    @staticmethod
    def reply_to(request: bytes, says: Says) -> bytes:
        """The packet that it sends, or nothing."""
        if says.silent:
            return b""
        if says.packet:
            return says.packet(request)
        now = stamp_of(time.time_ns() + says.ahead_ns)
        fields = {"version": 4, "mode": SERVER, "poll": 6, "set": (now - 4 * LONG) % (1 << 64), "origin": nonce_in(request), "came": now, "shown": now,
                  **says.changed}
        packet = PACKET.pack(says.leap << 6 | fields["version"] << 3 | fields["mode"], says.stratum, fields["poll"], says.precision, says.delay,
                             says.dispersion, says.reference, fields["set"], fields["origin"], fields["came"], fields["shown"])
        return packet + (says.key.code(packet) if says.key else b"")
