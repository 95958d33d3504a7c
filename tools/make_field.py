#!/usr/bin/env python3
"""Writes to standard output what the program field_words must print.

    python3 tools/make_field.py > crates/field_words/stdout

The words of a field follow docs/FIELD.md and docs/SENDER.md, the check bytes docs/CODE.md. Nothing here is taken from the library
under test: field elements are multiplied by shift and exclusive or, the check bytes are what long division by the generator leaves,
and the parity of a byte is counted bit by bit.

Byte j of the basic block of packet p from channel c is (31 p + 17 c + j) mod 256. The same field is told of four carriers:

    sheet         212 lines, from line 0
    strip         212 lines, from line 0, packed
    window-0-0    the first field of rate 0, in a frame of lines 1 to 625
    window-2-1    the second field of rate 2, in another such frame

For each carrier there is a line `NAME LINE A B` for each line of the field. A and B are running sums over its words: A begins
with 1 and adds each word, B begins with 0 and adds each new A, both modulo 65521. All words of a frame are 5 before, so two more
lines tell the sums over all words of the frame, and over those of the lines that the window does not show. Of the sheet, four lines are
printed in full, each after a line `NAME LINE words`.
"""

MODULUS = 65521
PACKETS = 678
BASIC = 219
LINES = 212
WORDS = 1440
FRAME = range(1, 626)
BEFORE = 5
FULL_LINES = [0, 3, 112, 211]
WORDS_TO_A_ROW = 24

# The line of the frame that is line 0 of the field.
WINDOWS = [("window-0-0", 50), ("window-2-1", 372)]


def times(a, b):
    """The product of two elements modulo X^8+X^4+X^3+X^2+1."""
    product = 0
    for bit in range(8):
        if b >> bit & 1:
            product ^= a << bit
    for bit in range(14, 7, -1):
        if product >> bit & 1:
            product ^= 0x11D << bit - 8
    return product


def generator():
    """(X + 1)(X + alpha)(X + alpha^2)(X + alpha^3), highest coefficient first."""
    product = [1]
    root = 1
    for _ in range(4):
        by_x = product + [0]
        by_root = [0] + [times(c, root) for c in product]
        product = [x ^ y for x, y in zip(by_x, by_root)]
        root = times(root, 2)
    return product


GENERATOR = generator()
assert GENERATOR == [0x01, 0x0F, 0x36, 0x78, 0x40]


def coded(basic):
    """The coded block of a basic block: its bytes, a reserved 0, and what division leaves."""
    data = basic + [0]
    rest = data + [0] * 4
    for i in range(len(data)):
        lead = rest[i]
        for k, c in enumerate(GENERATOR):
            rest[i + k] ^= times(lead, c)
    assert not any(rest[:-4])
    return data + rest[-4:]


assert coded([0] * 218 + [1])[220:] == [0x63, 0x57, 0xD2, 0xE7]


def sent(byte):
    """The ten-bit word of a byte."""
    odd = 0
    for bit in range(8):
        odd ^= byte >> bit & 1
    return byte | odd << 8 | (1 - odd) << 9


def field():
    """The words of the field, line by line."""
    stream = []
    for p in range(PACKETS):
        even = coded([(31 * p + 17 * 1 + j) % 256 for j in range(BASIC)])
        odd = coded([(31 * p + 17 * 0 + j) % 256 for j in range(BASIC)])
        for e, o in zip(even, odd):
            stream += [e, o]
    words = [sent(byte) for byte in stream]
    lines = []
    for line in range(LINES):
        body = words[1436 * line : 1436 * (line + 1)]
        body += [0x200] * (1436 - len(body))
        lines.append([0x248, 0x1FE if line == 0 else 0x1FD] + body + [0x200, 0x200])
    assert lines[211][749] == words[-1]
    return lines


def sums(words):
    a, b = 1, 0
    for word in words:
        a = (a + word) % MODULUS
        b = (b + a) % MODULUS
    return "%d %d" % (a, b)


def tell_lines(name, lines):
    for number, words in enumerate(lines):
        assert len(words) == WORDS
        print(name, number, sums(words))


def tell_in_full(name, lines):
    for number in FULL_LINES:
        print(name, number, "words")
        for start in range(0, WORDS, WORDS_TO_A_ROW):
            print(" ".join("%03x" % word for word in lines[number][start : start + WORDS_TO_A_ROW]))


def tell_frame(name, lines, first):
    frame = []
    outside = []
    for number in FRAME:
        if first <= number < first + LINES:
            frame += lines[number - first]
        else:
            frame += [BEFORE] * WORDS
            outside += [BEFORE] * WORDS
    print(name, "frame", sums(frame))
    print(name, "outside", sums(outside))


def main():
    lines = field()
    tell_lines("sheet", lines)
    tell_in_full("sheet", lines)
    tell_lines("strip", lines)
    for name, first in WINDOWS:
        tell_lines(name, lines)
        tell_frame(name, lines, first)


main()
