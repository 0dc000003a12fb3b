"""A host that is no master and has no key, but sees each packet of the others, and sends packets with any address.

It answers each poll in the name of its master, before the master does, and sends more at a rate of its own. KINDS says what, UNOPENED which of it no
machine opens.
"""
import collections
import random
import secrets
import select
import socket
import time
import typing

from harness.wire import ANSWER_BYTES, NUMBER, REQUEST, TAG_BYTES, answer_to, poll_in, request_in, sealed
from lab.hosts import DEVICE, Host, bytes_of, inside
from lab.packets import Datagram, datagram_in, packet_of, spoiled
from lab.router import FORKED, Child
from lab.services import POLLS

ETH_IPV4, ETH_IPV6 = 0x0800, 0x86DD
#: How far its answers are ahead of the true time.
AHEAD_NS = 5_000_000_000
#: How far the nonces of its own polls are ahead.
TOMORROW = 2**40
MOST_KEPT = 2000
Pair = tuple[bytes, bytes]


class Forger:
    """The process, from the outside. With the secrets of all keys it can answer as the masters do, and does nothing else."""

    def __init__(self, host: Host, machines: typing.Iterable[str], rate: float, seed: int, keys: dict[int, bytes] | None = None):
        self.sent = FORKED.Array("Q", len(KINDS), lock=False)
        #: How many of its polls without an envelope a master has answered.
        self.answered = FORKED.Value("Q", lock=False)
        self.child = Child(Forging(host, [bytes_of(address) for address in machines], rate, seed, keys, self.sent, self.answered).run)

    def close(self) -> None:
        self.child.close()

    def counts(self) -> dict[str, int]:
        """How many packets of each kind it has sent."""
        return dict(zip(KINDS, self.sent))


class Forging:
    """The process, from the inside."""

    def __init__(self, host: Host, machines: list[bytes], rate: float, seed: int, keys: dict[int, bytes] | None, sent, answered):
        self.space, self.own_addresses = host.space, [bytes_of(address) for address in host.addresses]
        self.machines, self.pause, self.keys = set(machines), 1 / rate, keys
        self.sent, self.answered = sent, answered
        self.chance, self.own = random.Random(seed), secrets.token_bytes(32)
        #: The last poll of each machine to each master, and answers seen.
        self.polls: dict[Pair, Datagram] = {}
        self.answers: collections.deque[Datagram] = collections.deque(maxlen=MOST_KEPT)
        #: The first bytes of the answers to its own polls.
        self.wanted: collections.deque[bytes] = collections.deque(maxlen=MOST_KEPT)

    def run(self) -> None:
        with inside(self.space):
            self.door = socket.socket(socket.AF_PACKET, socket.SOCK_RAW, socket.htons(3))  # packets of all protocols
        self.door.bind((DEVICE, 3))
        due = time.monotonic()
        while True:
            if select.select([self.door], [], [], max(0, due - time.monotonic()))[0]:
                packet, (_, _, kind, *_) = self.door.recvfrom(65536)
                if kind != socket.PACKET_OUTGOING and (datagram := datagram_in(packet)):
                    self.see(datagram)
            if time.monotonic() >= due:
                due = max(due + self.pause, time.monotonic())
                if not self.keys and self.polls:
                    self.forge(self.chance.choice(list(KINDS)), self.chance.choice(list(self.polls.values())))

    def see(self, datagram: Datagram) -> None:
        if datagram.source in self.machines and datagram.target_port == POLLS:
            self.polls[datagram.source, datagram.target] = datagram
            self.forge("with its key" if self.keys else self.chance.choice(AT_ONCE), datagram)
        elif datagram.target in self.machines and datagram.source_port == POLLS:
            self.answers.append(datagram)
            self.answered.value += datagram.payload[:REQUEST.size] in self.wanted

    def forge(self, kind: str, poll: Datagram) -> None:
        """Sends a packet of this kind, once it has seen an answer."""
        if self.answers and (datagram := KINDS[kind](self, poll)):
            protocol = ETH_IPV4 if len(datagram.target) == 4 else ETH_IPV6
            self.door.sendto(packet_of(datagram), (DEVICE, protocol))
            self.sent[list(KINDS).index(kind)] += 1

    def lie(self, poll: Datagram, nonces_ahead: int = 0) -> bytes:
        """An answer to a poll, or to one that is foretold, without an envelope."""
        now = time.time_ns() + AHEAD_NS
        return answer_to(poll.payload, now - 1000, now + 1000, nonce=(poll_in(poll.payload).nonce + nonces_ahead) % 2**64)

    # What it sends.

    def bare(self, poll: Datagram) -> Datagram:
        return back(poll, self.lie(poll))

    def with_any_tag(self, poll: Datagram) -> Datagram:
        return back(poll, self.lie(poll) + NUMBER.pack(number_in(poll)) + self.chance.randbytes(TAG_BYTES))

    def with_own_key(self, poll: Datagram) -> Datagram:
        return back(poll, sealed(self.lie(poll), number_in(poll), self.own))

    def foretold(self, poll: Datagram) -> Datagram:
        return back(poll, sealed(self.lie(poll, self.chance.randrange(1, 50)), number_in(poll), self.own))

    def foretold_bare(self, poll: Datagram) -> Datagram:
        return back(poll, self.lie(poll, self.chance.randrange(1, 50)))

    def with_its_key(self, poll: Datagram) -> Datagram | None:
        number = number_in(poll)
        secret = (self.keys or {}).get(number)
        return secret and back(poll, sealed(self.lie(poll), number, secret))

    def copied(self, poll: Datagram) -> Datagram:
        return self.chance.choice(self.answers)

    def moved(self, poll: Datagram) -> Datagram | None:
        """An answer to another machine, or of another master."""
        copy = self.chance.choice(self.answers)
        same = copy.source == poll.target and copy.target == poll.source
        return None if same or len(copy.payload) <= ANSWER_BYTES else back(poll, copy.payload)

    def spoiled(self, poll: Datagram) -> Datagram:
        copy = self.chance.choice(self.answers)
        return copy._replace(payload=spoiled(copy.payload, self.chance))

    def spliced(self, poll: Datagram) -> Datagram:
        """The envelope of an old answer round a new message."""
        return back(poll, self.lie(poll) + self.chance.choice(self.answers).payload[ANSWER_BYTES:])

    def own_name(self, poll: Datagram) -> Datagram:
        """An answer in its own name."""
        address = next(address for address in self.own_addresses if len(address) == len(poll.source))
        return back(poll, self.lie(poll))._replace(source=address)

    def poll_spoiled(self, poll: Datagram) -> Datagram:
        return poll._replace(payload=spoiled(poll.payload, self.chance))

    def poll_bare(self, poll: Datagram) -> Datagram:
        """A poll that comes in time, without an envelope: who answered it would answer tomorrow's today."""
        head = poll_in(poll.payload)
        request = head._replace(nonce=(head.nonce + TOMORROW) % 2**64).packet
        self.wanted.append(answer_to(request, 0, 0)[:REQUEST.size])
        return poll._replace(payload=request)

    def poll_copied(self, poll: Datagram) -> Datagram:
        return poll

    def noise(self, poll: Datagram) -> Datagram:
        return back(poll, self.chance.randbytes(self.chance.randrange(100)))


def back(poll: Datagram, payload: bytes) -> Datagram:
    """A packet in the name of the master that was asked."""
    return Datagram(poll.target, poll.target_port, poll.source, poll.source_port, payload)


def number_in(poll: Datagram) -> int:
    """The number of the key of a poll."""
    return request_in(poll.payload)[1]


CALLS = (Forging.bare, Forging.with_any_tag, Forging.with_own_key, Forging.foretold, Forging.foretold_bare, Forging.copied, Forging.moved,
         Forging.spoiled, Forging.spliced, Forging.noise, Forging.own_name, Forging.poll_spoiled, Forging.poll_bare, Forging.poll_copied,
         Forging.with_its_key)
KINDS = {call.__name__.replace("_", " "): call for call in CALLS}
#: What answers a poll before its master does.
AT_ONCE = ("bare", "with any tag", "with own key", "spliced")
#: What no machine opens.
UNOPENED = ("bare", "with any tag", "with own key", "foretold", "foretold bare", "moved", "spoiled", "spliced", "noise")
