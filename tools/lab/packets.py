"""IPv4 and IPv6 packets of UDP as bytes."""
import random
import struct
import typing

UDP = 17


class Datagram(typing.NamedTuple):
    """A packet of UDP: its addresses, of 4 or 16 bytes, its ports, and what it carries."""
    source: bytes
    source_port: int
    target: bytes
    target_port: int
    payload: bytes


def ends_of(packet: bytes) -> tuple[bytes, bytes]:
    """The source and the target of an IP packet."""
    return (packet[12:16], packet[16:20]) if packet[0] >> 4 == 4 else (packet[8:24], packet[24:40])


def datagram_in(packet: bytes) -> Datagram | None:
    """The datagram in an IP packet, if it has one."""
    is_four = packet[0] >> 4 == 4
    head = (packet[0] & 15) * 4 if is_four else 40
    if len(packet) < head + 8 or packet[9 if is_four else 6] != UDP:
        return None
    source_port, target_port, length = struct.unpack_from(">HHH", packet, head)
    source, target = ends_of(packet)
    return Datagram(source, source_port, target, target_port, packet[head + 8:head + length])


def checksum(content: bytes) -> int:
    """The complement of the sum of all words, in one's complement."""
    content += bytes(len(content) % 2)
    total = sum(struct.unpack(f">{len(content) // 2}H", content))
    while total >> 16:
        total = (total & 0xFFFF) + (total >> 16)
    return ~total & 0xFFFF


def packet_of(datagram: Datagram) -> bytes:
    """The IP packet of a datagram, with its checksums."""
    source, source_port, target, target_port, payload = datagram
    length = 8 + len(payload)
    udp = struct.pack(">4H", source_port, target_port, length, 0) + payload
    udp = udp[:6] + struct.pack(">H", checksum(source + target + struct.pack(">II", UDP, length) + udp) or 0xFFFF) + udp[8:]
    if len(source) == 16:
        return struct.pack(">IHBB16s16s", 6 << 28, length, UDP, 64, source, target) + udp
    head = struct.pack(">BBHHHBBH4s4s", 0x45, 0, 20 + length, 0, 0, 64, UDP, 0, source, target)
    return head[:10] + struct.pack(">H", checksum(head)) + head[12:] + udp


def spoiled(payload: bytes, chance: random.Random) -> bytes:
    """The same bytes but for one."""
    if not payload:
        return payload
    place = chance.randrange(len(payload))
    return payload[:place] + bytes([payload[place] ^ chance.randrange(1, 256)]) + payload[place + 1:]
