#!/usr/bin/env python3
"""Writes the blocks of the test vectors as one stream, and the lines that `verdicts` has to write of it.

    python3 tools/make_blocks.py

Reads crates/vectors/stdin; writes tests/blocks.bin, which ends with seven bytes of an unfinished block, and tests/blocks.txt.
"""

stream = b""
lines = []
with open("crates/vectors/stdin") as vectors:
    for line in vectors:
        kind, fields = line.rstrip("\n").split(" ", 1)
        if kind == "block":
            block, verdict = fields.split(" ", 1)
            lines.append("%d %s" % (len(lines), verdict))
            stream += bytes.fromhex(block)
lines.append("%d short 7" % len(lines))
stream += bytes(range(1, 8))
with open("tests/blocks.bin", "wb") as file:
    file.write(stream)
with open("tests/blocks.txt", "w") as file:
    file.write("\n".join(lines) + "\n")
