"""What the scripts share that ask the Rust original: the cases of host/stored/segments that it can judge, and its answers in the words of
those. The Rust has no room that ends and no refusals, so a case for it has the short form and room enough."""
import random
import subprocess

from expected import spell, unspell

LARGEST = 131071
ROOM = 131200
AROUND = 10


class Original:
    def __init__(self, oracle):
        try:
            self.process = subprocess.Popen([oracle, "lines"], stdin=subprocess.PIPE, stdout=subprocess.PIPE, text=True)
        except OSError as error:
            raise SystemExit(f"{oracle}, which has to be the Rust original with its harness, can't be started: {error.strerror}") from None

    # A command is answered by a line, and that by a line of a single dot.
    def ask(self, command):
        try:
            self.process.stdin.write(command + "\n")
            self.process.stdin.flush()
        except BrokenPipeError:
            raise SystemExit(f"{self.process.args[0]} ended and did not take: {command[:200]}") from None
        answer, end = self.process.stdout.readline(), self.process.stdout.readline()
        if answer.startswith(("PANIC", "unknown")) or end != ".\n":
            raise SystemExit(f"{command[:200]}: {answer}{end}")
        return answer.rstrip("\n")

    # The writer after a call. The Rust says of it only whether it has envelopes.
    def writer(self, so_far):
        if self.ask("has") != ("true" if so_far else "false"):
            raise SystemExit(f"the Rust has another payload so far than {so_far}")
        return f"short {so_far}"

    def pack(self, room, envelopes):
        said, so_far = [], 0
        for envelope in envelopes:
            if self.ask(f"canfit {len(envelope)}") == "true":
                self.ask(f"add {envelope.hex() or '-'}")
                so_far += len(envelope)
                said.append(f"wrote {len(envelope)} {len(envelope)} {self.writer(so_far)}")
            else:
                said.append(f"refused 16 {self.writer(so_far)}")
        segment = bytes.fromhex(self.ask("fin").split()[1])
        self.ask("reset")
        said.append(f"wrote {len(segment)} 0 {self.writer(0)} holds {filled(segment, room)}")
        return "; ".join(said)

    def split(self, room, envelope):
        said, start = [], 0
        while True:
            _, taken, segment = self.ask(f"piece {envelope[start:].hex() or '-'}").split()
            segment = bytes.fromhex(segment)
            self.ask("reset")
            said.append(f"wrote {len(segment)} {taken} {self.writer(0)} holds {filled(segment, room)}")
            start += int(taken)
            if start >= len(envelope):
                return "; ".join(said)

    def answer(self, line):
        name, _, room, *words = line.split(" ")
        self.ask("wnew short")
        parts = [unspell(word) for word in words]
        return self.pack(int(room), parts) if name == "pack" else self.split(int(room), parts[0])


# The output that a case lends is ee where nothing is written.
def filled(segment, room):
    return spell(segment + b"\xee" * (room - len(segment)))


# Bytes that a line can spell, however many: short ones of any kind, long ones in runs.
def some_bytes(rng, n):
    if n <= 64 and rng.random() < 0.8:
        return rng.randbytes(n)
    ends = sorted(rng.randrange(n + 1) for _ in range(rng.randrange(12)))
    edges = [0, *ends, n]
    return b"".join(rng.randbytes(1) * (end - start) for start, end in zip(edges, edges[1:]))


# Of these lengths, those that go in: each that fits, by rule 8.2.
def payload(lengths):
    so_far = 0
    for n in lengths:
        so_far += n if so_far + n <= LARGEST else 0
    return so_far


def room_for(rng, n):
    return min(ROOM, n + AROUND + rng.choice((0, 0, 1, 2, rng.randrange(60))))


# Lengths whose sum is near the largest payload: below it, at it or above.
def near_largest(rng):
    total = LARGEST + rng.randrange(-3, 4)
    cuts = sorted(rng.randrange(total + 1) for _ in range(rng.randrange(5)))
    lengths = [end - start for start, end in zip([0, *cuts], [*cuts, total])]
    return lengths + [rng.randrange(4) for _ in range(rng.randrange(3))]


def pack_case(rng, is_long):
    lengths = near_largest(rng) if is_long else [rng.choice((rng.randrange(4), rng.randrange(10), rng.randrange(40))) for _ in range(rng.randrange(9))]
    words = [spell(some_bytes(rng, n)) for n in lengths]
    return " ".join(["pack", "short", str(room_for(rng, payload(lengths))), *words])


def split_case(rng, is_long):
    n = rng.choice((LARGEST, 2 * LARGEST)) + rng.randrange(-3, 58) if is_long else rng.randrange(65)
    return f"split short {room_for(rng, min(n, LARGEST))} {spell(some_bytes(rng, n))}"


# Long ones are a part in so many.
def random_cases(seed, n, long_part):
    rng = random.Random(seed)
    for k in range(n):
        kind = rng.choice((pack_case, pack_case, split_case))
        yield kind(rng, k % long_part == 0)
