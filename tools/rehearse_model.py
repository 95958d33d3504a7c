#!/usr/bin/env python3
"""Says what the program `rehearse` has to print, from the rules of the field, the code and the denials alone.

    python3 tools/rehearse_model.py RATE FIELD [BLOCKS] < crates/rehearse/stdin > crates/rehearse/stdout

Nothing here is taken from the library: products of field elements go by shift and exclusive or, check bytes by long division, and a
block is judged by trying every place and every pair of places for what long division leaves.
"""

import re
import sys

LINES, WORDS, STREAM = 212, 1440, 1436
PACKETS, BASIC, DATA, BLOCK = 678, 219, 220, 224
STARTS = {0: (50, 313), 1: (59, 372), 2: (59, 372), 3: (50, 313)}
NUMBERS = {"off": 2, "wide": 3, "type": 4, "empty": 5, "mark": 6, "held": 7}


# The field of 256 elements and the code.


def times(a, b):
    product = 0
    while b:
        if b & 1:
            product ^= a
        b >>= 1
        a <<= 1
        if a & 0x100:
            a ^= 0x11D
    return product


TIMES = [[times(a, b) for b in range(256)] for a in range(256)]


def product_of(left, right):
    out = [0] * (len(left) + len(right) - 1)
    for i, a in enumerate(left):
        for j, b in enumerate(right):
            out[i + j] ^= TIMES[a][b]
    return out


GENERATOR = [1]
for root in (1, 2, 4, 8):
    GENERATOR = product_of(GENERATOR, [1, root])
assert GENERATOR == [0x01, 0x0F, 0x36, 0x78, 0x40]


def remainder(word):
    """What long division by the generator leaves: four coefficients, the highest first."""
    rest = list(word)
    for i in range(len(rest) - 4):
        factor = rest[i]
        if factor:
            for k in range(5):
                rest[i + k] ^= TIMES[factor][GENERATOR[k]]
    return tuple(rest[-4:])


def coded(basic):
    data = list(basic) + [0]
    return data + list(remainder(data + [0] * 4))


# What an error of 1 at each place leaves; that of an error e is e times as much.
TRACE = [remainder([1 if k == j else 0 for k in range(BLOCK)]) for j in range(BLOCK)]


# Which place each single error betrays, by what it leaves.
SINGLE = {tuple(TIMES[e][t] for t in TRACE[j]): j for j in range(BLOCK) for e in range(1, 256)}
assert len(SINGLE) == BLOCK * 255


def verdict(block):
    """The places at which the one coded block within two differs, or None."""
    rest = remainder(block)
    if not any(rest):
        return []
    if rest in SINGLE:
        return [SINGLE[rest]]
    for second in range(BLOCK):
        for error in range(1, 256):
            left = tuple(r ^ TIMES[error][t] for r, t in zip(rest, TRACE[second]))
            if left in SINGLE:
                return sorted([SINGLE[left], second])
    return None


# The field on its frame.


def ten_bits(byte):
    odd = bin(byte).count("1") % 2
    return byte | odd << 8 | (1 - odd) << 9


def place_of(packet, channel, j):
    q = 448 * packet + 2 * j + (1 - channel)
    return q // STREAM, 2 + q % STREAM


def names():
    for packet in range(PACKETS):
        for channel in (1, 0):
            yield packet, channel


def sample(packet, channel):
    return [(31 * packet + 17 * channel + j) % 256 for j in range(BASIC)]


def mark(line):
    return ten_bits(0xFE if line == 0 else 0xFD)


class Frame:
    """625 lines, numbered from 1, seen through the window of a field."""

    def __init__(self, rate, field):
        self.start = STARTS[rate][field]
        self.words = {line: [0] * WORDS for line in range(1, 626)}

    def line(self, line):
        return self.words[self.start + line]

    def lay(self, blocks):
        for line in range(LINES):
            words = self.line(line)
            words[:] = [ten_bits(0)] * WORDS
            words[0] = ten_bits(0x48)
            words[1] = mark(line)
        for packet, channel in names():
            for j, byte in enumerate(coded(blocks[packet, channel])):
                line, word = place_of(packet, channel, j)
                self.line(line)[word] = ten_bits(byte)

    def write(self, line, word, value):
        if line >= LINES or word >= WORDS:
            return "off", "carrier", line, word
        if value > 1023:
            return "wide", "carrier", line, word
        self.line(line)[word] = value
        return None


class Receiver:
    def __init__(self):
        self.taken = {}

    def offer(self, frame, line):
        if line >= LINES:
            return "off", "field", line, 0
        if line in self.taken:
            return "held", "field", line, 0
        words = frame.line(line)
        if words[0] != 0x248:
            return "type", "line", line, 0
        if words[1] == 0x200:
            return "empty", "line", line, 1
        if words[1] != mark(line):
            return "mark", "line", line, 1
        self.taken[line] = [word & 0xFF for word in words[2:2 + STREAM]]
        return None

    def ask(self, packet, channel):
        block = []
        for j in range(BLOCK):
            line, word = place_of(packet, channel, j)
            if line not in self.taken:
                return "missing", line
            block.append(self.taken[line][word - 2])
        return "given", verdict(block)


# The script and the report.


def number(text, limit):
    if re.fullmatch(rb"[0-9]+", text):
        value = int(text, 10)
    elif re.fullmatch(rb"0x[0-9A-Fa-f]+", text):
        value = int(text[2:], 16)
    else:
        raise ValueError("not a number")
    if value >= limit:
        raise ValueError("a number that does not fit")
    return value


def steps_of(line):
    if line.startswith(b"#"):
        return []
    words = [word for word in re.split(rb"[ \t\r\f]+", line) if word]
    if not words:
        return []
    if words[0] == b"write" and len(words) == 4:
        return [("write", number(words[1], 1 << 64), number(words[2], 1 << 64), number(words[3], 1 << 16))]
    if words == [b"offer", b"all"]:
        return [("offer", line) for line in range(LINES)]
    if words[0] == b"offer" and len(words) == 2:
        return [("offer", number(words[1], 1 << 64))]
    raise ValueError("not a command")


def script(text):
    steps = []
    for count, line in enumerate(text.split(b"\n"), 1):
        try:
            steps += steps_of(line)
        except ValueError as wrong:
            sys.exit("script line %d: %s" % (count, wrong))
    return steps


def report(rate, field, blocks, steps):
    frame, receiver = Frame(rate, field), Receiver()
    frame.lay(blocks)
    for count, step in enumerate(steps):
        denial = frame.write(*step[1:]) if step[0] == "write" else receiver.offer(frame, step[1])
        if denial:
            reason, layer, first, second = denial
            yield "step %d denied %d %s %s %d %d" % (count, NUMBERS[reason], reason, layer, first, second)
    tally = {"clean": 0, "mended": 0, "missing": 0, "lost": 0}
    mended = 0
    for packet, channel in names():
        kind, told = receiver.ask(packet, channel)
        if kind == "missing":
            fate = "missing %d" % told
        elif told is None:
            fate = "lost"
        elif told:
            fate = "mended " + " ".join(map(str, told))
            mended += len(told)
        else:
            fate = "clean"
        tally[fate.split()[0]] += 1
        if fate != "clean":
            yield "block %d %d %s" % (packet, channel, fate)
    counts = ", ".join("%d %s" % (tally[kind], kind) for kind in ("clean", "mended", "missing", "lost"))
    yield "%d blocks: %s, %d bytes mended" % (2 * PACKETS, counts, mended)


def main():
    rate, field = int(sys.argv[1]), int(sys.argv[2])
    if len(sys.argv) > 3:
        with open(sys.argv[3], "rb") as file:
            stream = file.read()
        assert len(stream) == 2 * PACKETS * BASIC
        blocks = {name: stream[BASIC * i:BASIC * i + BASIC] for i, name in enumerate(names())}
    else:
        blocks = {name: sample(*name) for name in names()}
    for line in report(rate, field, blocks, script(sys.stdin.buffer.read())):
        print(line)


main()
