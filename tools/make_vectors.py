#!/usr/bin/env python3
"""Writes the test vectors of the two codes to standard output, one case to a line.

    python3 tools/make_vectors.py > crates/vectors/stdin

    checks DATA CHECKS      220 data bytes, and the 4 check bytes that libfec gives them
    label DATA LABEL        11 digits, and the 15 of the finished label
    block BYTES VERDICT     224 bytes, and what mending them must answer
    digits DIGITS VERDICT   15 digits, and what mending them must answer

Bytes are two hexadecimal digits each, label digits one each. A verdict is `clean`, `mended P`, `mended P Q` or `lost`, with
places in decimal, rising. The first symbol has place 0.

Nothing here is taken from the library under test. The check bytes come from Debian's libfec (package libfec-dev; only its
encoder is used). The verdicts come from trying every place and every pair of places, so no decoder has a part in them.
The random seed is fixed: the same file comes out each time.
"""

import ctypes
import random
import sys
from itertools import combinations

rng = random.Random(20240917)


def multiply(a, b, modulus, bits):
    """The product of two field elements, by shift and add."""
    product = 0
    while b:
        if b & 1:
            product ^= a
        b >>= 1
        a <<= 1
        if a >> bits:
            a ^= modulus
    return product


class Code:
    """The code of `length` symbols, `length` - 4 of them data, whose generator has the roots alpha^0 to alpha^3."""

    def __init__(self, bits, modulus, length):
        self.size = 1 << bits
        self.length = length
        self.times = [[multiply(a, b, modulus, bits) for b in range(self.size)] for a in range(self.size)]
        self.inverse = [0] + [row.index(1) for row in self.times[1:]]
        self.alpha = [1]
        while len(self.alpha) < self.size - 1:
            self.alpha.append(multiply(self.alpha[-1], 2, modulus, bits))
        assert len(set(self.alpha)) == self.size - 1 and multiply(self.alpha[-1], 2, modulus, bits) == 1
        self.generator = [1]
        for i in range(4):
            by_x = self.generator + [0]
            by_root = [0] + [self.times[c][self.alpha[i]] for c in self.generator]
            self.generator = [x ^ y for x, y in zip(by_x, by_root)]

    def remainder(self, word):
        """What is left of a polynomial, highest coefficient first, after long division by the generator."""
        rest = list(word)
        for i in range(len(rest) - 4):
            lead = rest[i]
            if lead:
                for j, c in enumerate(self.generator):
                    rest[i + j] ^= self.times[lead][c]
        assert not any(rest[:-4])
        return rest[-4:]

    def finished(self, data):
        """The data and its four check symbols."""
        assert len(data) == self.length - 4
        return list(data) + self.remainder(list(data) + [0] * 4)

    def syndromes(self, word):
        """The values at alpha^0 to alpha^3, term by term."""
        values = []
        for i in range(4):
            value = 0
            for j, c in enumerate(word):
                value ^= self.times[c][self.alpha[i * (len(word) - 1 - j) % (self.size - 1)]]
            values.append(value)
        return values

    def solutions(self, word):
        """Every change of at most two symbols that makes the word a coded one, found by trying all places and pairs of places."""
        times, n = self.times, self.length
        s0, s1, s2, s3 = self.syndromes(word)
        found = []
        if not (s0 or s1 or s2 or s3):
            found.append({})
        x = [self.alpha[n - 1 - j] for j in range(n)]
        square = [times[a][a] for a in x]
        cube = [times[a][b] for a, b in zip(x, square)]
        for i in range(n):
            if s0 and times[s0][x[i]] == s1 and times[s0][square[i]] == s2 and times[s0][cube[i]] == s3:
                found.append({i: s0})
        for i in range(n):
            s0_times_xi = times[s0][x[i]]
            for j in range(i + 1, n):
                # The two values from the first two equations.
                ej = times[s0_times_xi ^ s1][self.inverse[x[i] ^ x[j]]]
                ei = s0 ^ ej
                # The other two equations.
                if ei and ej and times[ei][square[i]] ^ times[ej][square[j]] == s2 and times[ei][cube[i]] ^ times[ej][cube[j]] == s3:
                    found.append({i: ei, j: ej})
        return found

    def checks_with_syndromes(self, wanted):
        """The four check symbols of the word that has these syndromes and zeros elsewhere."""
        rows = [[self.alpha[i * (3 - j) % (self.size - 1)] for j in range(4)] + [wanted[i]] for i in range(4)]
        for k in range(4):
            lead = next(r for r in range(k, 4) if rows[r][k])
            rows[k], rows[lead] = rows[lead], rows[k]
            scale = self.inverse[rows[k][k]]
            rows[k] = [self.times[scale][v] for v in rows[k]]
            for r in range(4):
                if r != k:
                    factor = rows[r][k]
                    rows[r] = [v ^ self.times[factor][w] for v, w in zip(rows[r], rows[k])]
        checks = [row[4] for row in rows]
        assert self.syndromes(checks) == list(wanted)
        return checks


BLOCKS = Code(8, 0x11D, 224)
LABELS = Code(4, 0x13, 15)


# libfec's encoder for blocks.

fec = ctypes.CDLL("libfec.so.0")
fec.init_rs_char.restype = ctypes.c_void_p
fec.init_rs_char.argtypes = [ctypes.c_int] * 6
fec.encode_rs_char.restype = None
fec.encode_rs_char.argtypes = [ctypes.c_void_p, ctypes.c_char_p, ctypes.c_char_p]
fec_code = fec.init_rs_char(8, 0x11D, 0, 1, 4, 31)
assert fec_code


def libfec_checks(data):
    assert len(data) == 220
    checks = ctypes.create_string_buffer(4)
    fec.encode_rs_char(fec_code, bytes(data), checks)
    return list(checks.raw)


def coded_block(data):
    return list(data) + libfec_checks(data)


# Making cases.


def nonzero(code):
    return rng.randrange(1, code.size)


def random_data(code):
    data = [rng.randrange(code.size) for _ in range(code.length - 4)]
    if code is BLOCKS and rng.random() < 0.8:
        data[219] = 0
    return data


def sparse_data(code):
    data = [0] * (code.length - 4)
    for place in rng.sample(range(len(data)), rng.choice([1, 1, 2, 3])):
        data[place] = nonzero(code)
    return data


def coded(code):
    data = rng.choice([random_data, random_data, random_data, sparse_data])(code)
    return coded_block(data) if code is BLOCKS else code.finished(data)


def plus(word, errors):
    """The word with the errors, place to value, added."""
    word = list(word)
    for place, value in errors.items():
        word[place] ^= value
    return word


def at(code, *places):
    return {place: nonzero(code) for place in places}


def at_random(code, count):
    return at(code, *rng.sample(range(code.length), count))


def with_checks(code, word, checks):
    """The word with these four added to its check symbols."""
    return plus(word, {code.length - 4 + i: c for i, c in enumerate(checks)})


def damaged(code, errors):
    """A coded word with these errors, and the places that mending must name: none are known past two errors."""
    places = sorted(errors) if len(errors) <= 2 else None
    return plus(coded(code), errors), places


def received(code, scale):
    """Words to mend, each with the places that mending must name where they are known; `scale` sets how many of each kind."""
    n = code.length
    data = n - 4

    yield [0] * n, []
    yield [code.size - 1] * n, None
    for _ in range(scale):
        yield coded(code), []

    # One error: at both ends, around the last data symbol, in each check symbol, anywhere.
    for place in [0, 1, data - 2, data - 1, data, data + 1, data + 2, data + 3]:
        yield damaged(code, at(code, place))
    for place in [0, n - 1]:
        yield plus([0] * n, at(code, place)), [place]
    for _ in range(scale):
        yield damaged(code, at_random(code, 1))

    # Two errors: at both ends, adjacent, across the border of the checks, both in the checks, of one value, anywhere.
    for pair in [(0, 1), (0, n - 1), (n - 2, n - 1), (data - 1, data), (0, data - 1), (0, data)]:
        yield damaged(code, at(code, *pair))
    for pair in combinations(range(data, n), 2):
        yield damaged(code, at(code, *pair))
    for _ in range(scale // 2):
        place = rng.randrange(n - 1)
        yield damaged(code, at(code, place, place + 1))
    for _ in range(scale // 2):
        value = nonzero(code)
        yield damaged(code, {place: value for place in rng.sample(range(n), 2)})
    for _ in range(scale * 2):
        yield damaged(code, at_random(code, 2))

    # More errors than can be mended, and words with no code behind them.
    for count in [3, 4]:
        for _ in range(scale * 3 // 2):
            yield damaged(code, at_random(code, count))
    for _ in range(scale):
        yield damaged(code, at_random(code, rng.randrange(5, n + 1)))
    for _ in range(scale // 2):
        yield [rng.randrange(code.size) for _ in range(n)], None

    # Some of the five symbols of a lightest coded word: with four or three, mending adds the others.
    for count in [4, 4, 4, 3, 3, 3, 2]:
        start = rng.randrange(n - 4)
        factor = nonzero(code)
        light = {start + i: code.times[factor][c] for i, c in enumerate(code.generator)}
        kept = set(rng.sample(sorted(light), count))
        word = plus(coded(code), {place: light[place] for place in kept})
        yield word, sorted(kept if count <= 2 else set(light) - kept)

    # Chosen syndromes, with zeros where a decoder divides.
    a, b, c = (nonzero(code) for _ in range(3))
    times, inverse = code.times, code.inverse
    for wanted in [
        (0, 0, 0, a), (0, 0, a, 0), (0, a, 0, 0), (a, 0, 0, 0),
        (0, 0, a, b), (0, a, 0, b), (a, 0, 0, b), (0, a, b, 0), (a, 0, b, 0), (a, b, 0, 0),
        (0, a, b, c), (a, 0, b, c), (a, b, 0, c), (a, b, c, 0),
        (a, a, a, a), (a, a, a, b), (a, a, b, b), (a, a, b, a),
        # As one error leaves some of them, but not all.
        (a, b, times[times[b][b]][inverse[a]], c),
        (a, b, c, times[times[c][c]][inverse[b]]),
        (a, b, c, times[times[b][c]][inverse[a]]),
    ]:
        yield with_checks(code, coded(code), code.checks_with_syndromes(wanted)), None


def beyond_the_start(code):
    """Blocks as errors at powers past the first byte would leave them: one, one with an error inside, and two."""
    powers = range(code.length, code.size - 1)

    def image(power):
        return code.remainder([nonzero(code)] + [0] * power)

    for power in powers:
        yield with_checks(code, coded(code), image(power))
    for power in powers:
        yield plus(with_checks(code, coded(code), image(power)), at_random(code, 1))
    for _ in range(6):
        p, q = rng.sample(powers, 2)
        yield with_checks(code, with_checks(code, coded(code), image(p)), image(q))


# Verdicts.


def verdict_words(places):
    if places is None:
        return "lost"
    return " ".join(["mended"] + [str(p) for p in places]) if places else "clean"


def block_verdict(block):
    found = BLOCKS.solutions(block)
    assert len(found) <= 1
    if not found:
        return "lost"
    mended = plus(block, found[0])
    assert libfec_checks(mended[:220]) == mended[220:]
    return verdict_words(sorted(found[0]))


def label_patterns():
    """What every change of at most two digits leaves after division, and the places that it changes."""
    patterns = {(0, 0, 0, 0): []}
    single = {}
    for place in range(15):
        for value in range(1, 16):
            single[place, value] = tuple(LABELS.remainder([0] * place + [value] + [0] * (14 - place)))
    for (place, _), rest in single.items():
        assert rest not in patterns
        patterns[rest] = [place]
    for ((p, _), left), ((q, _), right) in combinations(single.items(), 2):
        if p != q:
            rest = tuple(x ^ y for x, y in zip(left, right))
            assert rest not in patterns
            patterns[rest] = sorted([p, q])
    assert len(patterns) == 1 + 15 * 15 + 105 * 225
    return patterns


PATTERNS = label_patterns()


def digits_verdict(digits):
    verdict = verdict_words(PATTERNS.get(tuple(LABELS.remainder(digits))))
    found = LABELS.solutions(digits)
    assert len(found) <= 1 and verdict == verdict_words(sorted(found[0]) if found else None)
    return verdict


# The file.


def hex_bytes(block):
    return bytes(block).hex()


def hex_digits(digits):
    return "".join("%x" % d for d in digits)


def checks_lines():
    cases = [[0] * 220, [255] * 220, list(range(220))]
    for place in [0, 1, 218, 219]:
        cases.append([1 if i == place else 0 for i in range(220)])
    cases += [random_data(BLOCKS) for _ in range(35)]
    cases += [sparse_data(BLOCKS) for _ in range(18)]
    for data in cases:
        checks = libfec_checks(data)
        # Long division agrees.
        assert BLOCKS.finished(data)[220:] == checks
        yield "checks %s %s" % (hex_bytes(data), hex_bytes(checks))


def label_lines():
    cases = [list(range(1, 12)), [0] * 10 + [1], [0] * 11, [15] * 11, [1] + [0] * 10]
    cases += [random_data(LABELS) for _ in range(25)]
    cases += [sparse_data(LABELS) for _ in range(10)]
    for data in cases:
        label = LABELS.finished(data)
        assert not any(LABELS.syndromes(label))
        yield "label %s %s" % (hex_digits(data), hex_digits(label))
    # The published example of this code, and the generator.
    assert LABELS.finished(range(1, 12))[11:] == [3, 3, 12, 12]
    assert LABELS.finished([0] * 10 + [1])[11:] == [15, 3, 1, 12]


def block_lines():
    for block, places in received(BLOCKS, 14):
        verdict = block_verdict(block)
        assert places is None or verdict == verdict_words(places)
        yield "block %s %s" % (hex_bytes(block), verdict)
    for block in beyond_the_start(BLOCKS):
        # The full code has one answer within two symbols, and it lies outside.
        verdict = block_verdict(block)
        assert verdict == "lost"
        yield "block %s %s" % (hex_bytes(block), verdict)


def digits_lines():
    known = [([0] * 12 + [1] * 3, None)]
    assert digits_verdict(known[0][0]) == "lost"
    for digits, places in known + list(received(LABELS, 21)):
        verdict = digits_verdict(digits)
        assert places is None or verdict == verdict_words(places)
        yield "digits %s %s" % (hex_digits(digits), verdict)


def main():
    for lines in [checks_lines(), label_lines(), block_lines(), digits_lines()]:
        for line in lines:
            sys.stdout.write(line + "\n")


main()
