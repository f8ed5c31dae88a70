#!/usr/bin/env python3
"""What host/check-pictures asks of pictures: a second reading of PNGs, and pixels counted. A PPM is read as `./show` writes it; what is made of it
goes to standard output: `picture.py png FILE`, and so on, a function of this file and its arguments.
"""
import struct
import sys
import zlib


def read_ppm(path):
    head, rows = open(path, "rb").read().split(b"\n255\n", 1)
    magic, size = head.split(b"\n")
    w, h = map(int, size.split())
    assert magic == b"P6" and len(rows) == 3 * w * h
    return w, h, rows


def write_ppm(w, h, rows):
    sys.stdout.buffer.write(b"P6\n%d %d\n255\n" % (w, h) + rows)


def pixels(path):
    w, h, rows = read_ppm(path)
    return w, [tuple(rows[3 * i:3 * i + 3]) for i in range(w * h)]


def png(path):
    """The picture of a PNG that has no chunks but the needed ones, 8 bits of red, green and blue, and no filters."""
    data, chunks = open(path, "rb").read(), []
    assert data[:8] == b"\x89PNG\r\n\x1a\n"
    at = 8
    while at < len(data):
        size, = struct.unpack_from(">I", data, at)
        tag, payload, (crc,) = data[at + 4:at + 8], data[at + 8:at + 8 + size], struct.unpack_from(">I", data, at + 8 + size)
        assert crc == zlib.crc32(tag + payload)
        chunks.append((tag, payload))
        at += 12 + size
    w, h, *kind = struct.unpack(">IIBBBBB", chunks[0][1])
    body = zlib.decompress(b"".join(payload for tag, payload in chunks if tag == b"IDAT"))
    rows = [body[y * (3 * w + 1):(y + 1) * (3 * w + 1)] for y in range(h)]
    assert {tag for tag, _ in chunks[1:-1]} == {b"IDAT"} and chunks[0][0] == b"IHDR" and chunks[-1] == (b"IEND", b"")
    assert kind == [8, 2, 0, 0, 0] and len(body) == h * (3 * w + 1) and all(row[0] == 0 for row in rows)
    write_ppm(w, h, b"".join(row[1:] for row in rows))


def scaled(path, n):
    w, h, rows = read_ppm(path)
    n = int(n)
    wide = [b"".join(rows[3 * (y * w + x):3 * (y * w + x) + 3] * n for x in range(w)) for y in range(h)]
    write_ppm(n * w, n * h, b"".join(row * n for row in wide))


def part(path, left, top, w, h):
    across, _, rows = read_ppm(path)
    left, top, w, h = map(int, (left, top, w, h))
    write_ppm(w, h, b"".join(rows[3 * (y * across + left):3 * (y * across + left + w)] for y in range(top, top + h)))


def beside(*paths):
    read = [read_ppm(path) for path in paths]
    rows = [(b"\xff" * 24).join(rows[3 * w * y:3 * w * (y + 1)] for w, _, rows in read) for y in range(read[0][1])]
    write_ppm(len(rows[0]) // 3, len(rows), b"".join(rows))


def places(one, other):
    """The numbers of the pixels that differ, and the second picture's colours there."""
    for i, (a, b) in enumerate(zip(pixels(one)[1], pixels(other)[1])):
        if a != b:
            print(i, *b)


def planes(all_path, *single):
    """Where one plane hides, the colour is that plane's; where several do, one of theirs; elsewhere black. Each plane's colour is seen."""
    tints = [(127, 20, 20), (20, 55, 127), (20, 110, 30), (105, 30, 127)]
    hidden, seen = [pixels(path)[1] for path in single], set()
    for i, colour in enumerate(pixels(all_path)[1]):
        allowed = [tints[k] for k, plane in enumerate(hidden) if plane[i] != (0, 0, 0)]
        assert colour in (allowed or [(0, 0, 0)]), (i, colour, allowed)
        seen.update([colour])
    assert seen - {(0, 0, 0)} == {tints[k] for k, plane in enumerate(hidden) if set(plane) != {(0, 0, 0)}}, seen


{f.__name__: f for f in (png, scaled, part, beside, places, planes)}[sys.argv[1]](*sys.argv[2:])
