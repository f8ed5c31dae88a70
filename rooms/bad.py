#!/usr/bin/env python3
"""Makes the rooms of rooms/bad: small ones, each wrong in one place that a person could get wrong. rooms/bad/expected says what ./check must tell
of each of them; it is written by hand, from the layout that this file gives them.

Run it from the repository's top folder: `python3 rooms/bad.py [FOLDER]`; FOLDER stands for rooms/bad.
"""
import os
import sys

sys.dont_write_bytecode = True
from make import block, bits, cdhd, coded, imhd, obcd, packed, plane, rmhd, smap  # noqa: E402

W, H = 24, 6
# The good room has 435 bytes: RMHD at 8, RMIM at 22 with RMIH at 30 and IM00 at 40. IM00 has SMAP at 48, with bodies at 20, 30 and 40 of it, ZP01 at
# 102 and ZP02 at 127. OBIM follows at 143, with IMHD at 151, IM01 at 175 (SMAP at 183, ZP01 at 213) and IM02 at 232 (SMAP at 240, ZP01 at 270);
# another OBIM at 289, with IMHD at 297 and IM01 at 321; OBCD at 351 (CDHD at 359, OBNA at 380) and at 393.


def slope(first, w, h):
    """The values of a strip by rows: each row is a colour brighter than the one before, and its right half than its left."""
    return [first + y + x // 4 for y in range(h) for x in range(w)]


# Three keeps, `111`, five times seven keeps and `110`, three keeps: 59 bits, so 10 bytes.
LEFT, MIDDLE = coded(slope(40, 8, H)), coded(slope(60, 8, H))
# Code 44: nine keeps, then a run of 38: 9 + 13 bits, so 5 bytes. Nine unused bytes follow.
RUN = b"\x44\x50" + bits(*[(0, 1)] * 9, (3, 2), (4, 3), (38, 8)) + bytes(9)
STRIPS = (LEFT, MIDDLE, RUN)
FIRST = (packed([0, 0, 0, 0, 255, 255]), None, packed([1, 2, 3, 4, 5, 6]))
SECOND = (None, b"\x86\xf0", None)


def picture(strips=STRIPS, first=FIRST, second=SECOND):
    return smap(strips) + plane(1, first) + plane(2, second)


# The lamp: 16 by 4, two states with a plane. A strip has 39 bits, so 7 bytes.
LAMP = coded(slope(90, 8, 4))
GLOW = (b"\x84\x3c", b"\x04\x18\x3c\x3c\x18")


def lamp(state, strips=(LAMP, LAMP), rows=GLOW):
    return block(b"IM%02d" % state, (smap(strips) if strips else b"") + plane(1, rows))


DOOR = block(b"IM01", smap([LEFT]))
IMAGES = block(b"OBIM", imhd(1, 2, 8, 0, 16, 4) + lamp(1) + lamp(2)) + block(b"OBIM", imhd(2, 1, 16, 0, 8, H) + DOOR)
OBJECTS = obcd(1, b"lamp", x=1, w=2) + obcd(2, b"door", x=2)


def room(head=None, planes=2, image=None, images=IMAGES, objects=OBJECTS):
    rmih = block(b"RMIH", bytes([planes, 0]))
    rmim = block(b"RMIM", rmih + block(b"IM00", picture() if image is None else image))
    return block(b"ROOM", (head or rmhd(W, H, 2)) + rmim + images + objects)


def lamps(first, second, **header):
    """The images with other states of the lamp, or another header."""
    fields = {"images": 2, "x": 8, "y": 0, "w": 16, "h": 4, **header}
    return block(b"OBIM", imhd(1, **fields) + first + second) + block(b"OBIM", imhd(2, 1, 16, 0, 8, H) + DOOR)


def with_offset(made, at, value):
    """The block with another byte in place of an offset's lowest."""
    return made[:at] + bytes([value]) + made[at + 1:]


def passing():
    """The name of the lamp says one byte more than its OBCD has."""
    name = b"OBNA\0\0\0\x0e" + b"lamp\0"
    return room(objects=block(b"OBCD", cdhd(1, x=1, w=2) + name) + obcd(2, b"door", x=2))


def nested():
    """Palettes of a nested picture, one level too deep."""
    inner = block(b"IM01", block(b"IM02", block(b"IM03", block(b"IM04", block(b"CLUT", bytes(3))))))
    return room(images=IMAGES + block(b"OBIM", imhd(3) + inner))


def rooms():
    """Name and bytes; the number that each is refused with stands first, or that of a draw for the rooms of image-."""
    # 1
    yield "cut-file", room()[:-20]
    yield "name-passes-its-object", passing()
    yield "depth-7", nested()
    # 2
    yield "no-smap", room(image=plane(1, FIRST) + plane(2, SECOND))
    yield "no-cdhd", room(objects=obcd(1, b"lamp", x=1, w=2) + block(b"OBCD", block(b"OBNA", b"door\0")))
    # 3
    yield "width-20", room(head=rmhd(20, H, 2))
    yield "planes-5", room(planes=5)
    # 5
    yield "offset-falls", room(image=with_offset(picture(), 16, 25))
    yield "plane-table-short", room(image=smap(STRIPS) + plane(1, FIRST) + plane(2, (None, None)))
    # 6
    yield "code-13", room(image=picture((LEFT, b"\x13" + MIDDLE[1:], RUN)))
    # 7
    yield "strip-cut", room(image=picture((LEFT, MIDDLE[:5], RUN)))
    yield "run-number-cut", room(image=smap((LEFT, MIDDLE, RUN[:4])))
    yield "plane-cut", room(image=picture(first=(FIRST[0], None, FIRST[2][:5])))
    # 8
    yield "run-past-the-strip", room(image=picture((LEFT, MIDDLE, b"\x44\x50" + bits(*[(0, 1)] * 9, (3, 2), (4, 3), (39, 8)))))
    yield "rows-past-the-strip", room(image=picture(second=(None, b"\x87\xf0", None)))
    # The objects' images alone: 2, 5, 7, 8, and 12 at every place.
    yield "image-no-smap", room(images=lamps(lamp(1), lamp(2, strips=None)))
    yield "image-too-narrow", room(images=lamps(lamp(1, (LAMP,), (GLOW[0],)), lamp(2)))
    yield "image-strip-cut", room(images=lamps(lamp(1), lamp(2, (LAMP, LAMP[:4]))))
    yield "image-rows-past-the-strip", room(images=lamps(lamp(1, rows=(GLOW[0], b"\x02\x18\x3c\x83\x18")), lamp(2)))
    yield "image-width-12", room(images=lamps(lamp(1), lamp(2), w=12))


def main(words):
    folder = (words + ["rooms/bad"])[0]
    if len(words) > 1 or not os.path.isdir(folder):
        sys.stderr.write("bad.py: usage: python3 rooms/bad.py [FOLDER]; the folder is there already\n")
        sys.exit(2)
    for name, made in rooms():
        open("%s/%s.room" % (folder, name), "wb").write(made)


if __name__ == "__main__":
    main(sys.argv[1:])
