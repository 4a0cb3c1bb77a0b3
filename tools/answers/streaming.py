"""What the scripts share on streams (docs/RULES.md 6, 9 and 10): what a whole stream means, and streams for cases."""
import itertools

from expected import Refused, list_of, spell_lengths
from framing import *

# What a stream means.

INADMISSIBLE, TOO_LONG, PAYLOAD_CHECK, UNEXPECTED, NO_ROOM = 1, 4, 5, 6, 7

# The lengths that may be lent (6.2).
SEGMENTS = range(12, 131083 + 1)
REASSEMBLIES = range(9, 1048576 + 1)


# A stream that stands there whole, read from its first byte to its last; nothing here knows of pieces.
#
# `answers` has for each answer the bytes of an envelope with its reading, or the number of a leftover with none. `taken` are the bytes up to the end, and that is `refused`, the number, or `held`,
# the bytes of the unfinished segment and the pending ones (6.11). `segment` and `reassembly` are what the two buffers hold then, and were ee throughout before.
class Meaning:
    def __init__(self, form, segment, reassembly, stream):
        self.form, self.stream = form, stream
        self.segment, self.reassembly = bytearray(b"\xee" * segment), bytearray(b"\xee" * reassembly)
        self.answers, self.taken, self.pending = [], 0, b""
        self.refused, self.held = None, None
        try:
            if segment not in SEGMENTS or reassembly not in REASSEMBLIES:
                raise Refused(INADMISSIBLE)
            start = 0
            while start is not None:
                start = self.read_segment(start)
        except Refused as why:
            self.refused = why.args[0]

    # The bytes of the segment at hand up to a place, which are then in the segment buffer (6.4). None if the stream ends before.
    def take(self, start, end):
        self.taken = min(end, len(self.stream))
        self.segment[: self.taken - start] = self.stream[start : self.taken]
        if self.taken < end:
            self.held = self.stream[start:], self.pending
            return None
        return self.stream[start:end]

    # Where the next segment starts; None at the stream's end (6.5, 6.6).
    def read_segment(self, start):
        first = start + header_length(self.form)
        front = self.take(start, first)
        if front is None:
            return None
        length, contained = header_fields(self.form, front)
        end = start + segment_length(self.form, length)
        if end - start > len(self.segment):
            raise Refused(TOO_LONG)
        whole = self.take(start, end)
        if whole is None:
            return None
        payload = whole[first - start :][:length]
        if whole[-TRAILER:] != trailer(payload):
            raise Refused(PAYLOAD_CHECK)
        if contained:
            self.read_alone(payload)
        else:
            self.read_joined(payload)
        return end

    # 6.8
    def read_alone(self, payload):
        if self.pending:
            raise Refused(UNEXPECTED)
        rest = self.read_envelopes(payload)
        if rest:
            self.answers.append((len(rest), None))

    # 6.9
    def read_joined(self, payload):
        end = len(self.pending) + len(payload)
        if end > len(self.reassembly):
            raise Refused(NO_ROOM)
        self.reassembly[len(self.pending) : end] = payload
        self.pending = self.read_envelopes(self.pending + payload)
        self.reassembly[: len(self.pending)] = self.pending

    # The bytes behind the last whole envelope (6.7).
    def read_envelopes(self, data):
        while True:
            try:
                envelope = read_envelope(data)
            except Incomplete:
                return data
            self.answers.append((data[: envelope.size], envelope))
            data = data[envelope.size :]


# For cases.


def alone(form, payload):
    return header(form, len(payload), True) + payload + trailer(payload)


def part(form, payload):
    return header(form, len(payload), False) + payload + trailer(payload)


def envelope(version=5, response=0, flags=0, stream=1, opcode=5, body=b"", declared=None):
    declared = len(body) if declared is None else declared
    front = bytes([version | response << 7, flags]) + stream.to_bytes(2, "big", signed=True) + bytes([opcode])
    return front + declared.to_bytes(4, "big", signed=True) + body


def damaged(data, at):
    return flipped(data, 8 * at)


# Each refusal of an envelope (4.10), by the envelope that gives it.
FAULTS = {
    8: [envelope(declared=-1), envelope(declared=-(2**31)), envelope(version=6, opcode=4, declared=-1)],
    9: [envelope(version=6, opcode=4), envelope(version=2), envelope(version=0, response=1), envelope(version=127)],
    10: [envelope(opcode=4), envelope(opcode=0x11), envelope(response=1, flags=2, opcode=0xFF)],
    11: [envelope(response=1, flags=2, body=bytes(15)), envelope(response=1, flags=0x0A), envelope(version=4, response=1, flags=2, body=b"\x01")],
    12: [
        envelope(flags=8),
        envelope(flags=8, body=b"\x00"),
        envelope(flags=8, body=b"\x00\x01"),
        envelope(response=1, flags=8, body=b"\x00\x02\x00\x01A\x00\x02B"),
        envelope(response=1, flags=0x0A, body=bytes(17)),
    ],
    13: [
        envelope(flags=8, body=b"\x00\x01\x00\x01\xff"),
        envelope(response=1, flags=8, body=b"\x00\x02\x00\x02\xc0\x80\x00\x01"),
        P12[:-1] + b"\xff",
    ],
}

GOOD = [
    P5,
    P6,
    P12,
    envelope(flags=1),
    envelope(version=3, flags=0xE4, stream=-32768, opcode=0, body=b"ab"),
    envelope(version=4, response=1, flags=2, stream=32767, opcode=8, body=bytes(range(16)) + b"x"),
    envelope(response=1, flags=0x0A, stream=-2, opcode=0x10, body=bytes(range(16)) + list_of([b"", "é".encode()]) + b"tail"),
    envelope(flags=2, body=b"no id"),
    envelope(flags=8, body=list_of([b"w"])),
    envelope(response=1, flags=0x1F, opcode=8, body=bytes(16) + list_of([])),
]


# A stream in pieces, empty ones among them.
def cuts(random, n):
    lengths = []
    while sum(lengths) < n:
        lengths.append(random.choice((0, 1, 1, 2, 3, 5, 8, 13, 21, 34)))
    return spell_lengths(lengths)


# Every refusal but 1 by streams that come to it, in buffers of 60 and 34 bytes.
def refusal_streams(form):
    first = header_length(form)
    for at in range(first):
        yield damaged(header(form, 3, True), at) + b"abc"
    if form == "long":
        for before, contained in itertools.product((1, 3, 65536, LARGEST), (True, False)):
            yield header(form, 3, contained, before) + b"abc"
        yield damaged(header(form, 3, True, 3), 7)
        yield header(form, LARGEST, True, 3)
    for n in (60 - first - 3, 61 - first - 4, 65536, LARGEST):
        yield header(form, n, True) + bytes(4)
        yield header(form, n, False) + bytes(4)
    for at in (first, first + 4, first + 8, first + 9, first + 12):
        yield damaged(alone(form, P5), at) + b"z"
        yield damaged(part(form, P5), at) + b"z"
    yield part(form, P5[:2]) + alone(form, b"")
    yield part(form, P5 + b"x") + alone(form, P5)
    yield part(form, P5[:2]) + damaged(alone(form, P5), first)
    yield part(form, P5[:8]) + part(form, bytes(27))
    yield part(form, P5 + P5[:8]) + part(form, b"\x00" + bytes(26))
    yield part(form, P5 + bytes(26))
    for number, faults in FAULTS.items():
        for fault in faults:
            yield alone(form, P6 + fault + b"tail")
            yield part(form, fault[:5]) + part(form, fault[5:])
        yield part(form, P5 + P6[:7]) + part(form, P6[7:] + faults[0][:9])
        yield alone(form, faults[0][:8])


# Envelopes, packed or in pieces, now and then damaged; leftovers; rests that stay pending.
def random_stream(random, form):
    stream = b""
    for _ in range(random.randrange(1, 5)):
        faulty = random.random() < 0.08
        envelopes = [random.choice(GOOD) for _ in range(random.randrange(3))]
        envelopes += [random.choice(random.choice(list(FAULTS.values())))] * faulty
        random.shuffle(envelopes)
        data = b"".join(envelopes)
        if random.random() < 0.45:
            data += random.choice((b"", b"", P6[: random.randrange(9)], bytes(3)))
            stream += alone(form, data)
            continue
        data += random.choice((b"", b"", b"", P5[: random.randrange(1, 9)]))
        while True:
            n = random.randrange(len(data) + 1) if random.random() < 0.7 else len(data)
            stream += part(form, data[:n])
            data = data[n:]
            if not data:
                break
    if random.random() < 0.12:
        stream = flipped(stream, random.randrange(8 * len(stream)))
    if random.random() < 0.15:
        stream = stream[: random.randrange(len(stream))]
    return stream
