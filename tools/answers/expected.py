"""What the scripts expected-* share: how a case is spelt, the notations of docs/RULES.md (5, 7) that more than one reads or writes, and how a
script is run."""
import itertools
import sys

MAX = 2**64 - 1


# A byte string is spelt as items: a byte in hexadecimal, and how often it stands there if that is more than once.
def spell(data):
    runs = ((byte, len(list(run))) for byte, run in itertools.groupby(data))
    return ",".join(f"{byte:02x}" if n == 1 else f"{byte:02x}*{n}" for byte, n in runs) or "-"


def spell_lengths(lengths):
    runs = ((length, len(list(run))) for length, run in itertools.groupby(lengths))
    return ",".join(f"{length}" if n == 1 else f"{length}*{n}" for length, n in runs) or "-"


def items(word, base):
    for item in word.split(",") if word != "-" else []:
        value, _, times = item.partition("*")
        yield int(value, base), int(times or 1)


def unspell(word):
    return b"".join(bytes([byte]) * n for byte, n in items(word, 16))


def unspell_lengths(word):
    return [length for length, n in items(word, 10) for _ in range(n)]


# The notations.

PAST_END, NEGATIVE, NOT_UTF8, TOO_SHORT, NOT_WRITABLE = 12, 8, 13, 14, 15

# Each number: its length, and whether it is signed.
NUMBERS = {"byte": (1, False), "short": (2, False), "int": (4, True), "long": (8, True)}


class Refused(Exception):
    pass


def is_text(data):
    try:
        data.decode("utf-8", "strict")
    except UnicodeDecodeError:
        return False
    return True


# n bytes at a position, and the position behind them.
def take(data, at, n):
    if at + n > len(data):
        raise Refused(PAST_END)
    return data[at : at + n], at + n


def take_number(name, data, at):
    size, signed = NUMBERS[name]
    part, end = take(data, at, size)
    return int.from_bytes(part, "big", signed=signed), end


# Where a text or a byte string starts and ends; no start for null.
def take_counted(name, data, at):
    if name == "uuid":
        return at, take(data, at, 16)[1]
    count, start = take_number("int" if name in ("longstring", "bytes") else "short", data, at)
    if count < 0 and name == "bytes":
        return None, start
    if count < 0:
        raise Refused(NEGATIVE)
    part, end = take(data, start, count)
    if name in ("string", "longstring") and not is_text(part):
        raise Refused(NOT_UTF8)
    return start, end


# The texts of a list as they are shown, the first twenty of them, and how the walk along them ends.
def walk(data, left, at, show):
    said = ""
    for met in range(left):
        try:
            start, at = take_counted("string", data, at)
        except Refused as why:
            return f"{said} refused {why.args[0]}"
        if met < 20:
            said += f" {show(start, at)}"
        if met == 20:
            said += " ..."
    return f"{said} end {at}"


def counted(data, size):
    if len(data) > (2**16 - 1 if size == 2 else 2**31 - 1):
        raise Refused(NOT_WRITABLE)
    return len(data).to_bytes(size, "big") + data


def counted_text(data, size):
    written = counted(data, size)
    if not is_text(data):
        raise Refused(NOT_UTF8)
    return written


def listed(text, lengths):
    if len(lengths) > 65535 or max(lengths, default=0) > 65535 or sum(lengths) != len(text):
        raise Refused(NOT_WRITABLE)
    ends = list(itertools.accumulate(lengths))
    texts = [text[end - length : end] for end, length in zip(ends, lengths)]
    return len(texts).to_bytes(2, "big") + b"".join(counted_text(each, 2) for each in texts)


# For cases.

MIXED = "a\0é\u07ff\u0800€\ud7ff\ue000\ufeff\ufffd\uffff\U00010000😀\U0010ffff~".encode()


def string(text):
    return len(text).to_bytes(2, "big") + text


def list_of(texts):
    return len(texts).to_bytes(2, "big") + b"".join(string(text) for text in texts)


# A script is asked for its cases, or for the answers to the cases on standard input.
def run(usage, cases, answer):
    if sys.argv[1:] == ["cases"]:
        lines = (" ".join(spell(word) if isinstance(word, bytes) else str(word) for word in case) for case in cases())
        print("\n".join(dict.fromkeys(lines)))
    elif sys.argv[1:] == ["answers"]:
        for line in sys.stdin:
            print(answer(line.rstrip("\n")))
    else:
        sys.exit(usage)
