#!/usr/bin/env python3
"""Prints PowerPC code of a mix of instructions for the measurements of docs/PERFORMANCE.md: instruction_mix.py NUMBER COUNT FORM.

Words are picked by a linear congruential generator that begins with NUMBER: additions, moves, masks, multiplications, stores,
loads and forward branches over random registers; the last of the COUNT words is a return. FORM says what is printed: `bytes`,
the words in big order; `words`, the words in hex with a space between; `entry`, the entry that the code is analysed from, one
cell a line; `state`, the same with single numbers.
"""
import sys

KINDS = [0x38000000, 0x7C000214, 0x5400003E, 0x7C000278, 0x7C0001D6, 0x90000000, 0x80000000, 0x41820008]
NOP, RETURN = 0x60000000, 0x4E800020
BASE = 0x00010000
LINES = {
    "entry": ["pc %08x" % BASE, "gpr[3] any", "cr[2] any", "spr[LR] fffffffc"],
    "state": ["pc %08x" % BASE, "spr[LR] fffffffc"],
}


def words(number, count):
    x, out = number, []
    for i in range(count - 1):
        x = (1664525 * x + 1013904223) % 2**32
        p, q, r, m = x >> 24 & 31, x >> 19 & 31, x >> 14 & 31, x >> 4 & 0x3FF
        kind = x >> 29
        word = KINDS[kind]
        if kind == 0:
            word += (p << 21) + (q << 16) + m
        elif kind in (5, 6):
            word += (p << 21) + 4 * m
        elif kind == 7:
            word = word if i + 2 < count else NOP
        else:
            word += (p << 21) + (q << 16) + (r << 11)
        out.append(word)
    return out + [RETURN]


def main(number, count, form):
    if form in LINES:
        print("\n".join(LINES[form]))
    elif form == "words":
        print(" ".join("%08x" % word for word in words(number, count)))
    else:
        sys.stdout.buffer.write(b"".join(word.to_bytes(4, "big") for word in words(number, count)))


if __name__ == "__main__":
    main(int(sys.argv[1]), int(sys.argv[2]), sys.argv[3])
