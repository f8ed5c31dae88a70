#!/usr/bin/env python3
"""Prints the two tables of crates/strip_test/src/rows.rt: for each byte of a strip's bits, the whole operations at its front, as bits + 16 x pixels
+ 256 x index (crates/decode/specs/Look.antt says what they are; the proof computes each row again)."""


def look(second, bits):
    """Bits, pixels and whether an index ends them; an operation that is cut, and a run, are left."""
    if not bits:
        return 0, 0, 0
    if bits[0] == 0:
        return after(1, look(second, bits[1:]))
    if len(bits) > 1 and bits[1] == 0:
        return 0, 1, 1
    size = 5 if second else 3
    if len(bits) < size or (second and bits[2:5] == [0, 0, 1]):
        return 0, 0, 0
    return after(size, look(second, bits[size:]))


def after(size, rest):
    return size + rest[0], 1 + rest[1], rest[2]


for name, second in (("FIRST", False), ("SECOND", True)):
    print(name)
    for byte in range(256):
        bits, pixels, index = look(second, [byte >> k & 1 for k in range(8)])
        print("    %d," % (bits + 16 * pixels + 256 * index))
