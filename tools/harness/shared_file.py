"""A shared file as bytes, as section 11 of docs/FORMATS.md has it, and as earlier versions had it."""
import struct
import typing

#: The clocks of a file, by their numbers in Linux: CLOCK_MONOTONIC and CLOCK_MONOTONIC_RAW.
MONOTONIC, RAW = 1, 4
NO_LIMIT = 2**64 - 1
#: The magic, the length, the clock, the index and the boot, before two slots.
HEAD, WORDS = struct.Struct("<4sIQ8s36s4x"), struct.Struct("<16Q")
SLOT_BYTES, INDEX_AT = WORDS.size, 16
FILE_BYTES = HEAD.size + 2 * SLOT_BYTES


class Slot(typing.NamedTuple):
    """The words of a slot: its index, the publication by the clock of the file, and the second base, by CLOCK_MONOTONIC."""
    index: int
    clock: int
    lo: int
    hi: int
    until: int
    epoch: int
    number: int
    drift: int
    usable: int
    second_clock: int = 0
    second_lo: int = 0
    second_hi: int = 0
    second_drift: int = 0
    second_until: int = 0
    second_usable: int = 0
    zero: int = 0


def boot_id() -> bytes:
    """The boot of this host."""
    with open("/proc/sys/kernel/random/boot_id", "rb") as file:
        return file.read(36)


def index_of(count: int) -> bytes:
    """The index behind so many publications."""
    digits = [count >> 8 * place & 0xFF for place in range(8)] + [0]
    return bytes((digits[place] - digits[place + 1]) % 256 for place in range(8))


def index_number(count: int) -> int:
    """The same as a number."""
    return int.from_bytes(index_of(count), "little")


def is_odd(index: int) -> bool:
    """Whether a count of this index is odd, so that slot 1 is current."""
    return sum(byte & 1 for byte in index.to_bytes(8, "little")) % 2 == 1


def slot_at(count: int) -> int:
    """Where the slot of so many publications stands."""
    return HEAD.size + SLOT_BYTES * (count % 2)


def slot_of(count: int, publication: tuple, second: tuple = (0,) * 6) -> bytes:
    """The bytes of a slot, with a second base: its clock, the ends of its span, its drift, and until when it is fresh, and usable."""
    clock, lo, hi, until, usable, epoch, number, drift = publication
    return WORDS.pack(*Slot(index_number(count), clock, lo, hi, until, epoch, number, drift, usable, *second))


def slots_in(content: bytes) -> list[Slot]:
    """Both slots of a file."""
    return [Slot(*words) for words in WORDS.iter_unpack(content[HEAD.size:FILE_BYTES])]


def index_in(content: bytes) -> int:
    """The index of a file."""
    return int.from_bytes(content[INDEX_AT:INDEX_AT + 8], "little")


def second_of(publication: tuple) -> tuple:
    """A second base with the same numbers."""
    clock, lo, hi, until, usable, _, _, drift = publication
    return clock, lo, hi, drift, until, usable


def head_of(boot: bytes, clock: int, index: bytes = bytes(8), magic: bytes = b"TTS3", length: int = FILE_BYTES) -> bytes:
    """What stands before the slots, or, with zeros behind it, a file in which nothing was published."""
    return HEAD.pack(magic, length, clock, index, boot)


def empty_file(boot: bytes, clock: int, magic: bytes = b"TTS3", length: int = FILE_BYTES) -> bytes:
    """A file of this boot, clock and version in which nothing was published."""
    return head_of(boot, clock, magic=magic, length=length).ljust(length, b"\0")


def file_of(count: int, publication: tuple | None, boot: bytes, clock: int = RAW, second: tuple | None = None, **changes) -> bytes:
    """The bytes of a file by this clock, whose last publication this is; `changes` puts other bytes at a place. A file by CLOCK_MONOTONIC_RAW has a
    second base with the same numbers, where nothing else is said."""
    each = [bytes(SLOT_BYTES), bytes(SLOT_BYTES)]
    if count > 0:
        second = second or (second_of(publication) if clock == RAW else (0,) * 6)
        each[count % 2] = slot_of(count, publication, second)
    whole = bytearray(head_of(boot, clock, index_of(count)) + each[0] + each[1])
    for place, byte in changes.get("at", {}).items():
        whole[place] = byte
    return bytes(whole[: changes.get("length", len(whole))]) + changes.get("more", b"")


def file_of_version_1(boot: bytes) -> bytes:
    """A file as version 1 of the format has it."""
    index = index_of(1)
    return head_of(boot, MONOTONIC, index, b"TTS1", 192) + bytes(64) + index + struct.pack("<7Q", 10, 20, 30, 40, 7, 1, 200)


def file_of_version_2(boot: bytes) -> bytes:
    """A file as version 2 of the format has it."""
    index = index_of(1)
    return (head_of(boot, MONOTONIC, index, b"TTS2") + bytes(SLOT_BYTES)
            + index + struct.pack("<8Q", 10, 20, 30, 40, 7, 1, 200, NO_LIMIT) + bytes(56))


def of_another_boot(content: bytes) -> bytes:
    """The same file, but for its boot."""
    return content[:24] + bytes([content[24] ^ 1]) + content[25:]
