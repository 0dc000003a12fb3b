"""Polls, their answers and their envelopes as bytes, as sections 1 and 2 of docs/FORMATS.md have them."""
import hmac
import struct
import typing

REQUEST, SPAN, NUMBER = struct.Struct(">4s4BQQ"), struct.Struct(">QQ"), struct.Struct(">I")
ANSWER_BYTES, TAG_BYTES = REQUEST.size + SPAN.size, 16
MAGIC, ASKS, ANSWERS = b"TTP2", 1, 2


class Poll(typing.NamedTuple):
    """What a request says. An answer to it says the same but for the kind, and then the ends of a span."""
    magic: bytes = MAGIC
    kind: int = ASKS
    machine: int = 0
    source: int = 0
    zero: int = 0
    nonce: int = 1
    epoch: int = 1

    @property
    def packet(self) -> bytes:
        return REQUEST.pack(*self)


def poll_in(packet: bytes) -> Poll:
    """What a request, or an answer, says at its beginning."""
    return Poll(*REQUEST.unpack_from(packet))


def answer_to(request: bytes, low: int, high: int, **changed) -> bytes:
    """The answer to a request, with these fields changed."""
    return poll_in(request)._replace(**{"kind": ANSWERS, **changed}).packet + SPAN.pack(low, high)


def ends_in(answer: bytes) -> tuple[int, int]:
    """The ends of the span of an answer."""
    return SPAN.unpack(answer[REQUEST.size:])


def first_version(packet: bytes) -> bytes:
    """A request, or an answer, as TTP1 has it: without the epoch."""
    return b"TTP1" + packet[4:16] + packet[REQUEST.size:]


def sealed(message: bytes, number: int, key: bytes) -> bytes:
    """The envelope of a message."""
    body = message + NUMBER.pack(number)
    return body + hmac.digest(key, body, "sha256")[:TAG_BYTES]


def request_in(envelope: bytes) -> tuple[bytes, int]:
    """The request in an envelope, and the number of its key; 0 where the envelope ends before that."""
    number, = NUMBER.unpack(envelope[REQUEST.size:][:NUMBER.size].ljust(NUMBER.size, b"\0"))
    return envelope[:REQUEST.size], number
