#!/usr/bin/env python3
"""Writes crates/vectors/stdout: what the bodies of the program `vectors` must read to.

A plain decoder, written from document 01 ("Strips of pixels", "Strips of masks") with change request 5, and not from the Rattle code. Run
it from the repository's top folder: `python3 tools/vectors.py`.
"""


class Refused(Exception):
    pass


def bits_of(body):
    return [byte >> k & 1 for byte in body for k in range(8)]


class Bits:
    def __init__(self, body):
        self.left = bits_of(body)

    def take(self, n):
        if len(self.left) < n:
            raise Refused(7)
        value = sum(bit << k for k, bit in enumerate(self.left[:n]))
        self.left = self.left[n:]
        return value


FAMILIES = {  # first code: (subtracted, second method, vertical)
    0x0E: (0x0A, False, True), 0x18: (0x14, False, False), 0x22: (0x1E, False, True), 0x2C: (0x28, False, False),
    0x40: (0x3C, True, False), 0x54: (0x50, True, False), 0x68: (0x64, True, False), 0x7C: (0x78, True, False),
}


def pixels(h, body):
    if not body:
        raise Refused(7)
    code = body[0]
    family = next((v for k, v in FAMILIES.items() if k <= code <= k + 4), None)
    if code != 1 and family is None:
        raise Refused(6)
    if code == 1:
        if len(body) < 1 + 8 * h:
            raise Refused(7)
        return list(body[1:1 + 8 * h])
    if len(body) < 2:
        raise Refused(7)
    less, second, vertical = family
    made = operations(body[1], Bits(body[2:]), code - less, second, 8 * h)
    if not vertical:
        return made
    rows = [0] * (8 * h)
    for i, colour in enumerate(made):
        rows[i % h * 8 + i // h] = colour
    return rows


def operations(colour, bits, width, second, total):
    made, step = [colour], 1
    while len(made) < total:
        count = 1
        if bits.take(1) == 0:
            pass
        elif bits.take(1) == 0:
            colour, step = bits.take(width), 1
        elif second:
            d = bits.take(3)
            if d == 4:
                count = bits.take(8) or 256
            else:
                colour = (colour + d - 4) % 256
        else:
            if bits.take(1):
                step = -step
            colour = (colour - step) % 256
        if len(made) + count > total:
            raise Refused(8)
        made += [colour] * count
    return made


def rows(h, body):
    made, at = [], 0
    while len(made) < h:
        if at >= len(body):
            raise Refused(7)
        op = body[at]
        at += 1
        count = op if op < 0x80 else op - 0x80
        if len(made) + count > h:
            raise Refused(8)
        need = op if op < 0x80 else 1
        if op >= 0x80:
            if at >= len(body):
                raise Refused(7)
            made += [body[at]] * count
        else:
            for k in range(count):
                if at + k >= len(body):
                    raise Refused(7)
                made.append(body[at + k])
        at += need
    return made


def packed(made):
    """The body of one mask strip, by the writing rule."""
    out, y = b"", 0
    while y < len(made):
        run = next((n for n in range(1, 128) if y + n == len(made) or n == 127 or made[y + n] != made[y]))
        if run >= 2:
            out, y = out + bytes([0x80 + run, made[y]]), y + run
            continue
        n = 1
        while n < 127 and y + n < len(made) and not (y + n + 1 < len(made) and made[y + n] == made[y + n + 1]):
            n += 1
        out, y = out + bytes([n]) + bytes(made[y:y + n]), y + n
    return out


def rewritten(h, body):
    """A whole ZP01 block of one strip."""
    again = packed(rows(h, body))
    return b"ZP01" + (10 + len(again)).to_bytes(4, "big") + (10).to_bytes(2, "little") + again


def line(read, h, text):
    try:
        return bytes(read(h, bytes.fromhex(text))).hex() + "\n"
    except Refused as number:
        return "refused %s\n" % number


WORKED = [(rows, 6, "830003010203"), (pixels, 2, "1C05B6970000"), (pixels, 2, "110580FC00"), (pixels, 2, "1B0580FC00"),
          (pixels, 2, "4410633600"), (pixels, 1, "44020300"), (pixels, 1, "1C05"), (pixels, 1, "1C0500"), (rows, 6, "8700"),
          (pixels, 2, "44106336E407"), (pixels, 33, "440513203F00"), (pixels, 32, "44051300"), (pixels, 1, "010102030405060708")]
SOURCE_000 = "85000F010D030D00402004488460804004028300020205" "8F00010485000501201102" "01FF009600"
BODY = "7FA53C965BE10F2DC378994217D4BB6601FE8D335AC629709EE714AB4D82F33865DA0CB15F9621"


def main():
    out = "".join(line(*case) for case in WORKED)
    out += line(rows, 200, SOURCE_000) + line(rewritten, 200, SOURCE_000)
    out += "".join(line(pixels, 3, "%02X" % code + BODY) for code in range(256))
    open("crates/vectors/stdout", "w").write(out)


main()
