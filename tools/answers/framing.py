"""What the scripts share on segments and envelopes (docs/RULES.md 2, 3 and 4): the two checks, the bytes of a segment, and what an envelope's bytes say."""
import collections
import zlib

from expected import NEGATIVE, Refused, take_counted, take_number

# Segments.

HEADER_CHECK, COMPRESSED = 2, 3

FORMS = ("short", "long")
LARGEST = 131071
TRAILER = 4
# Of a header's number: its bytes, the bit that says self-contained, and the unused ones.
NUMBER = {"short": 3, "long": 5}
CONTAINED = {"short": 17, "long": 34}
UNUSED = {"short": range(18, 24), "long": range(35, 40)}


def crc24(data):
    register = 0x875060
    for byte in data:
        register ^= byte << 16
        for _ in range(8):
            register <<= 1
            if register & 1 << 24:
                register ^= 0x1974F0B
    return register


def crc32(data):
    return zlib.crc32(b"\xfa\x2d\x55\xca" + data)


# A header's number with its check, right whatever the number says.
def checked(form, number):
    front = number.to_bytes(NUMBER[form], "little")
    return front + crc24(front).to_bytes(3, "little")


def number_of(form, length, contained, before_compression=0):
    return length | before_compression << 17 | contained << CONTAINED[form]


def header(form, length, contained, before_compression=0, unused=0):
    return checked(form, number_of(form, length, contained, before_compression) | unused << CONTAINED[form] + 1)


def header_length(form):
    return NUMBER[form] + 3


def segment_length(form, n):
    return header_length(form) + n + TRAILER


def trailer(payload):
    return crc32(payload).to_bytes(TRAILER, "little")


# The payload's length and whether it is self-contained, as a whole header says (3.2, 3.3; 6.5 for the order).
def header_fields(form, data):
    number = int.from_bytes(data[: NUMBER[form]], "little")
    if data != checked(form, number):
        raise Refused(HEADER_CHECK)
    if form == "long" and number >> 17 & LARGEST:
        raise Refused(COMPRESSED)
    return number & LARGEST, number >> CONTAINED[form] & 1


# Envelopes.

VERSION, OPCODE, ID_CUT = 9, 10, 11

VERSIONS = (3, 4, 5)
OPCODES = [opcode for opcode in range(0x11) if opcode != 0x04]
COMPRESSION, TRACING, WARNING = 0x01, 0x02, 0x08
FLAGS = 0x1F


class Incomplete(Exception):
    pass


# The whole length (4.10, up to the version).
def whole_length(data):
    if len(data) < 9:
        raise Incomplete
    declared, _ = take_number("int", data, 5)
    if declared < 0:
        raise Refused(NEGATIVE)
    if len(data) < 9 + declared:
        raise Incomplete
    if data[0] % 128 not in VERSIONS:
        raise Refused(VERSION)
    return 9 + declared


# The whole length, what the header says in words, whether there is a tracing id, the flags, the number of warnings and where they begin, and where the body
# handed back begins.
Envelope = collections.namedtuple("Envelope", "size head traced flags warnings first body")


# The reading of the envelope at the front of some bytes (4.10, 4.11).
def read_envelope(data):
    data = data[: whole_length(data)]
    response, flags, opcode = data[0] >= 128, data[1] & FLAGS, data[4]
    if opcode not in OPCODES:
        raise Refused(OPCODE)
    traced = response and flags & TRACING
    if traced and len(data) < 9 + 16:
        raise Refused(ID_CUT)
    count, first = 0, 9 + 16 if traced else 9
    if flags & WARNING:
        count, first = take_number("short", data, first)
    at = first
    for _ in range(count):
        _, at = take_counted("string", data, at)
    stream = int.from_bytes(data[2:4], "big", signed=True)
    head = f"{data[0] % 128} {'rsp' if response else 'req'} {flags:02x} {stream} {opcode:02x}"
    return Envelope(len(data), head, traced, flags, count, first, at)


# For cases.

P5 = bytes.fromhex("050000010500000000")
P6 = bytes.fromhex("8500ffff0c00000000")
P12 = bytes.fromhex("85080001020000000500010001") + b"A"


# The bytes of an envelope, right or wrong; its length is that of the body where none is given.
def bytes_of(first, flags, body, opcode=0x08, stream=1, length=None):
    declared = len(body) if length is None else length
    return bytes([first, flags]) + stream.to_bytes(2, "big", signed=True) + bytes([opcode]) + declared.to_bytes(4, "big", signed=True) + body


def flipped(data, bit):
    data = bytearray(data)
    data[bit // 8] ^= 1 << bit % 8
    return bytes(data)


# The examples of 13 hold here too.
assert header("short", LARGEST, False) == bytes.fromhex("ffff013891fe")
assert header("long", 5, True) == bytes.fromhex("0500000004e4ab8e")
assert header("short", 0, True) + trailer(b"") == bytes.fromhex("0000026a36c4d37e7744")
assert crc24(b"123456789") == 0x4B3F02 and crc32(b"123456789") == 0xE2A261A7
