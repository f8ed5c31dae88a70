"""What the scripts of the painted rooms share: ramps of colours, pictures with two planes, and the blocks of a room. Pictures and planes are
written by the project's own writers, through host/write. These make opaque strips only (code 1C); a strip with a pixel of the room's
transparent index gets the transparent code of the same bits (30). In a background that hides nothing: all its pixels are painted.
"""
import os
import struct
import subprocess
import sys

sys.dont_write_bytecode = True
from make import block, imhd, obcd, rmhd, rmim  # noqa: E402

BAYER = ((0, 8, 2, 10), (12, 4, 14, 6), (3, 11, 1, 9), (15, 7, 13, 5))


def between(colours, count):
    """`count` colours at equal steps along the list of colours."""
    made = []
    for k in range(count):
        at = k * (len(colours) - 1) / max(1, count - 1)
        i = min(int(at), max(0, len(colours) - 2))
        low, high = colours[i], colours[min(i + 1, len(colours) - 1)]
        made.append(tuple(round(a + (b - a) * (at - i)) for a, b in zip(low, high)))
    return made


def noise(x, y, seed=0):
    """A fixed number from 0 to 1 for a place."""
    n = (x * 374761393 + y * 668265263 + seed * 974634777) & 0xFFFFFFFF
    n = (n ^ n >> 13) * 1274126177 & 0xFFFFFFFF
    return ((n ^ n >> 16) & 1023) / 1023


def dither(x, y):
    """From 0 to 1 in a fixed pattern: a share of it is below that share."""
    return (BAYER[y % 4][x % 4] + 0.5) / 16


class Palette:
    """Ramps of colours, one behind the other: name, count of colours, colours between which the others are set."""

    def __init__(self, ramps):
        self.where, self.colours = {}, []
        for name, count, stops in ramps:
            self.where[name] = (len(self.colours), count)
            self.colours += between(stops, count)

    def bytes(self):
        """The file that ./show reads, and the payload of a CLUT."""
        return bytes(v for colour in self.colours for v in colour).ljust(768, b"\0")

    def shade(self, name, light, x=None, y=0):
        """The colour of a ramp for a light from 0 to 1; with a place, between two colours as a fixed pattern decides."""
        start, count = self.where[name]
        at = max(0.0, min(1.0, light)) * (count - 1)
        return start + min(count - 1, int(at + (0.5 if x is None else dither(x, y))))


class Picture:
    """Rows of colours, and the same places in planes 1 and 2."""

    def __init__(self, w, h, colour=0):
        self.w, self.h = w, h
        self.rows = [bytearray([colour] * w) for _ in range(h)]
        self.planes = [[bytearray(w // 8) for _ in range(h)] for _ in range(2)]

    def put(self, x, y, colour, planes=()):
        x, y = int(x), int(y)
        if 0 <= x < self.w and 0 <= y < self.h:
            self.rows[y][x] = colour
            for k in planes:
                self.planes[k - 1][y][x // 8] |= 0x80 >> x % 8

    def fill(self, box, colour_at, planes=()):
        """Every pixel of the box (left, top, right, bottom) that colour_at(x, y) gives a colour for. Answers the picture."""
        left, top, right, bottom = box
        for y in range(top, bottom):
            for x in range(left, right):
                colour = colour_at(x, y)
                if colour is not None:
                    self.put(x, y, colour, planes)
        return self

    def line(self, x0, y0, x1, y1, colour, planes=()):
        steps = int(max(abs(x1 - x0), abs(y1 - y0), 1))
        for k in range(steps + 1):
            self.put(round(x0 + (x1 - x0) * k / steps), round(y0 + (y1 - y0) * k / steps), colour, planes)

    def letters(self, left, top, rows, colours, planes=()):
        """A small picture in text: each letter a colour, other signs nothing. Answers the picture."""
        return self.fill((left, top, left + len(rows[0]), top + len(rows)), lambda x, y: colours.get(rows[y - top][x - left]), planes)


def written(rows, *words):
    """One block from host/write."""
    done = subprocess.run(["target/host/write"] + [str(word) for word in words], input=b"".join(rows), stdout=subprocess.PIPE, check=True)
    return done.stdout


def smap(p, clear):
    made = bytearray(written(p.rows, "smap", p.w, p.h))
    for s in range(p.w // 8):
        if any(clear in row[8 * s:8 * s + 8] for row in p.rows):
            made[struct.unpack_from("<I", made, 8 + 4 * s)[0]] = 0x30
    return bytes(made)


def image(p, strips):
    """The blocks of a picture: strips(p), and the planes that are not all zero."""
    planes = b"".join(written(p.planes[k], "plane", p.w, p.h, k + 1) for k in range(2) if any(map(any, p.planes[k])))
    return strips(p) + planes


def room(w, h, picture, kinds, first, clear, palette, head=b""):
    """A room of two planes. Of each object: name, picture of a state, states, strip position, size in strips, what else its header has. Their
    ids count from `first`; `head` are blocks behind RMHD, and behind them the palette's CLUT."""
    images, objects = b"", b""
    for number, (name, draw, states, (x, y), (strips, rows), rest) in enumerate(kinds, first):
        bodies = b"".join(block(b"IM%02d" % s, image(draw(s), lambda p: smap(p, clear))) for s in range(1, states + 1))
        images += block(b"OBIM", imhd(number, states, 8 * x, 8 * y, 8 * strips, 8 * rows) + bodies)
        objects += obcd(number, name, x=x, y=y, w=strips, h=rows, **rest)
    return block(b"ROOM", rmhd(w, h, len(kinds)) + head + block(b"CLUT", palette.bytes()) + rmim(2, picture) + images + objects)


def stop(script, why):
    sys.stderr.write("%s: %s\n" % (script, why))
    sys.exit(2)


def main(script, words, make_files):
    """Writes what make_files() makes, names and bytes, into the folder that the words name, or into rooms."""
    folder = (words + ["rooms"])[0]
    if not os.path.isfile("rooms/" + script):
        stop(script, "run it from the repository's top folder: python3 rooms/%s [FOLDER]" % script)
    if len(words) > 1 or not os.path.isdir(folder):
        stop(script, "usage: python3 rooms/%s [FOLDER]; the folder is there already" % script)
    subprocess.run(["make", "-s", "write"], stdout=subprocess.DEVNULL, check=True)
    for name, made in make_files():
        if len(made) > 65536:
            stop(script, "%s has %d bytes, more than ./list reads" % (name, len(made)))
        open("%s/%s" % (folder, name), "wb").write(made)
