#!/usr/bin/env python3
"""Makes rooms/harbour.room and rooms/harbour.pal: a harbour at dusk, 320 x 144, two planes, six objects with images, and the palette in a CLUT
block of the room and as a file. And version B of the room, rooms/harbour-b.room, for ./compare: a crate stands elsewhere, the sign is
repainted, the rope hides less, two objects have changed, and some strips of the background that are alike have other codes.

Run it from the repository's top folder: `python3 rooms/harbour.py [FOLDER]`; FOLDER stands for rooms. rooms/paint.py has what it paints and
writes with.
"""
import math
import struct
import sys

sys.dont_write_bytecode = True
import paint  # noqa: E402
from make import block, raw, table, with_runs  # noqa: E402
from paint import Picture, dither, noise  # noqa: E402

W, H = 320, 144
HORIZON, QUAY = 74, 100
CLEAR = 255
MOON_AT = (62, 26)

RAMPS = (  # name, count of colours, colours between which the others are set
    ("BLACK", 1, ((4, 4, 10),)),
    ("SKY", 28, ((12, 14, 44), (38, 32, 88), (104, 56, 112), (214, 108, 92), (252, 186, 118))),
    ("SEA", 16, ((8, 16, 40), (22, 50, 90), (96, 96, 130), (214, 150, 128))),
    ("WOOD", 16, ((22, 13, 14), (80, 48, 32), (146, 94, 56), (208, 158, 102))),
    ("STONE", 12, ((22, 24, 36), (78, 80, 94), (150, 150, 150))),
    ("PLASTER", 12, ((52, 42, 58), (132, 106, 96), (214, 182, 142))),
    ("ROOF", 10, ((32, 16, 28), (108, 46, 44), (172, 88, 62))),
    ("GLOW", 14, ((96, 44, 24), (232, 150, 52), (255, 242, 176))),
    ("MOON", 8, ((170, 156, 150), (255, 250, 226))),
    ("SAIL", 10, ((58, 50, 72), (150, 136, 140), (232, 216, 190))),
    ("MOSS", 6, ((14, 26, 28), (62, 94, 62))),
    ("IRON", 8, ((10, 10, 16), (112, 114, 124))),
    ("FISH", 6, ((60, 84, 104), (206, 222, 216))),
)
PALETTE = paint.Palette(RAMPS)
shade = PALETTE.shade

def sky(p):
    def colour(x, y):
        glow = max(0, 1 - math.dist((x, y), MOON_AT) / 46)
        streak = 0.07 * max(0, math.sin(y * 0.55 + 3 * math.sin(x * 0.02))) if 30 < y else 0
        return shade("SKY", (y / HORIZON) ** 1.5 * 0.95 + 0.16 * glow ** 2 + streak, x, y)
    p.fill((0, 0, W, HORIZON), colour)
    for k in range(70):
        x, y = int(noise(k, 1) * W), int(noise(k, 2) ** 1.4 * 46)
        if math.dist((x, y), MOON_AT) > 20:
            p.put(x, y, shade("MOON", noise(k, 3)))


def moon(p):
    craters = ((58, 22, 3), (66, 28, 4), (60, 32, 2), (68, 20, 2))

    def colour(x, y):
        if math.dist((x, y), MOON_AT) > 12:
            return None
        dark = any(math.dist((x, y), c[:2]) < c[2] for c in craters)
        return shade("MOON", 1 - math.dist((x, y), (58, 22)) / 26 - 0.3 * dark, x, y)
    p.fill((48, 12, 78, 42), colour)


def hills(p):
    def top(x):
        return HORIZON - 7 - 5 * math.sin(x * 0.021 + 0.4) - 3 * math.sin(x * 0.06) - noise(x // 3, 9) * 1.2
    p.fill((0, 50, W, HORIZON), lambda x, y: shade("SKY", 0.20 + 0.10 * (y - top(x)) / 14, x, y) if y >= top(x) else None)
    for k in range(14):
        p.put(10 + int(noise(k, 20) * 80), HORIZON - 2 - int(noise(k, 21) * 4), shade("GLOW", 0.7))
    p.fill((40, 46, 44, 66), lambda x, y: shade(("ROOF", "SAIL")[y // 5 % 2], 0.8 - (x - 40) * 0.2))
    p.fill((39, 42, 45, 46), lambda x, y: shade("GLOW", 1.0))
    p.fill((38, 40, 46, 42), lambda x, y: shade("ROOF", 0.5))


def sea(p):
    def colour(x, y):
        deep = (y - HORIZON) / (QUAY - HORIZON)
        wave = 0.10 * (noise((x + 5 * y) // (4 + int(5 * deep)), y) - 0.5)
        lane = abs(x - MOON_AT[0] + 3 * math.sin(y * 1.3)) / (4 + 14 * deep)
        if lane < 1 and noise(x // 3, y, 5) > 0.25 + 0.5 * lane:
            return shade("MOON", 0.9 - 0.7 * lane)
        return shade("SEA", 0.85 * (1 - deep) ** 2 + 0.16 + wave, x, y)
    p.fill((0, HORIZON, W, QUAY), colour)


def hull(p):
    def colour(x, y):
        rise = 10 * max(0, (104 - x) / 16) ** 2 + (12 if x > 164 else 0)
        deck, low = 78 - rise, 98
        left = 88 + max(0, (y - 70)) * 0.45
        if y < deck or y > low or x < left or x > 186 - max(0, y - 84) * 0.4:
            return None
        if y - deck < 2 or (x > 164 and y in (77, 78)):
            return shade("WOOD", 0.85)
        if y in (86, 87):
            return shade("PLASTER", 0.8)
        return shade("WOOD", 0.46 - (y - deck) * 0.014 - 0.10 * (y % 3 == 0) + 0.06 * noise(x // 5, y // 3), x, y)
    p.fill((84, 56, 190, 99), colour)
    for x in range(106, 162, 10):
        p.fill((x, 81, x + 4, 85), lambda x, y: shade("BLACK", 0))
        p.fill((x + 1, 82, x + 3, 84), lambda x, y: shade("GLOW", 0.35))
    for x in range(168, 184, 5):
        p.fill((x, 70, x + 3, 75), lambda x, y: shade("GLOW", 0.55 + 0.1 * (y - 70)))
    p.line(90, 68, 66, 56, shade("WOOD", 0.5))
    p.line(90, 69, 66, 57, shade("WOOD", 0.25))


def mast(p, x, top, yards):
    for k in range(2):
        p.line(x + k, top, x + k, 78, shade("WOOD", 0.45 - 0.25 * k))
    for y, half in yards:
        p.line(x - half, y, x + half + 1, y, shade("WOOD", 0.3))
        for sx in range(x - half + 1, x + half + 1):
            depth = 2 + round(1.6 * abs(math.sin((sx - x) * math.pi / 7)))
            for k in range(depth):
                p.put(sx, y + 1 + k, shade("SAIL", 0.85 - 0.22 * k - 0.012 * (sx - x)))
    for k in range(7):
        p.put(x - 1 - k, top + 1 + (k > 3), shade("ROOF", 0.9))
        p.put(x - 1 - k, top + 2 + (k > 3), shade("ROOF", 0.7))


def ship(p):
    rope = shade("IRON", 0.1)
    for x0, y0, x1, y1 in ((67, 56, 112, 22), (74, 60, 112, 38), (112, 22, 140, 14), (140, 14, 168, 26), (168, 26, 184, 64)):
        p.line(x0, y0, x1, y1, rope)
    hull(p)
    for x, top in ((112, 20), (140, 10), (168, 24)):
        for foot in (-12, -7, 8, 13):
            p.line(x, top + 10, x + foot, 77 if x < 160 else 67, rope)
    mast(p, 112, 18, ((30, 13), (48, 17)))
    mast(p, 140, 8, ((20, 13), (40, 18)))
    mast(p, 168, 22, ((34, 11),))


def quay(p):
    edges = (100, 104, 109, 115, 122, 130, 139, 150)

    def colour(x, y):
        k = next(k for k in range(7) if y < edges[k + 1])
        joint = (x + 37 * k * k) % (50 + 9 * k)
        if y == edges[k] or joint == 0:
            return shade("WOOD", 0.06)
        grain = 0.12 * noise((x + 11 * k) // 9, y, 7) + 0.05 * noise(x, y, 8)
        warm = 0.22 * max(0, 1 - math.dist((x, 2 * y), (240, 214)) / 70)
        edge = 0.12 if y == edges[k] + 1 else 0
        plank = 0.1 * noise((x + 37 * k * k) // (50 + 9 * k), k, 4)
        return shade("WOOD", 0.30 + grain + warm + edge - plank, x, y)
    p.fill((0, QUAY, W, H), colour)


def wall(p):
    def plaster(x, y):
        lamplight = 0.3 * max(0, 1 - math.dist((x, y), (214, 56)) / 46)
        return shade("PLASTER", 0.42 + 0.10 * noise(x // 4, y // 3) + lamplight - (y < 26) * 0.2, x, y)

    def stone(x, y):
        k = (y - 88) // 5
        return shade("STONE", 0.15 if (y - 88) % 5 == 4 or (x + 7 * k) % 14 == 0 else 0.42 + 0.25 * noise((x + 7 * k) // 14, k), x, y)
    p.fill((204, 18, W, 104), plaster)
    p.fill((202, 88, W, 104), stone)
    for box in ((204, 18, 208, 88), (260, 18, 264, 88), (312, 18, 316, 88), (204, 44, W, 47), (204, 24, W, 27)):
        p.fill(box, lambda x, y: shade("WOOD", 0.22 + 0.15 * noise(x, y // 5), x, y))
    for x in range(264, 290):
        p.fill((x, 27 + (x - 264) * 17 // 26, x + 1, 30 + (x - 264) * 17 // 26), lambda x, y: shade("WOOD", 0.25))


def roof(p):
    def tiles(x, y):
        edge = 214 - (y * 16) // 22
        if x < edge:
            return None
        k = y // 4
        if y % 4 == 3 or (x + 3 * k) % 7 == 0:
            return shade("ROOF", 0.12)
        return shade("ROOF", 0.42 + 0.35 * noise((x + 3 * k) // 7, k) - 0.1 * (y % 4), x, y)
    p.fill((190, 0, W, 20), tiles)
    p.fill((198, 20, W, 23), lambda x, y: shade("WOOD", 0.12))


LETTERS = {"I": ("111", "010", "010", "010", "010", "010", "111"),
           "N": ("10001", "11001", "11001", "10101", "10011", "10011", "10001"),
           "B": ("1110", "1001", "1001", "1110", "1001", "1001", "1110"),
           "A": ("01110", "10001", "10001", "11111", "10001", "10001", "10001"),
           "R": ("1110", "1001", "1001", "1110", "1100", "1010", "1001")}


def sign(p, word):
    p.fill((225, 30, 257, 42), lambda x, y: shade("WOOD", 0.15 if x in (225, 256) or y in (30, 41) else 0.62 + 0.1 * noise(x // 4, y)))
    left = 232
    for letter in (LETTERS[name] for name in word):
        for y, row in enumerate(letter):
            for x, bit in enumerate(row):
                if bit == "1":
                    p.put(left + x, 32 + y, shade("WOOD", 0.0))
        left += len(letter[0]) + 3


def doorway(p):
    p.fill((221, 46, 259, 104), lambda x, y: shade("WOOD", 0.30 + 0.12 * noise(x, y // 7)))
    p.fill((224, 48, 256, 104), lambda x, y: shade("BLACK", 0))
    p.fill((269, 45, 307, 83), lambda x, y: shade("WOOD", 0.32 + 0.1 * noise(x // 6, y)))
    p.fill((272, 48, 304, 80), lambda x, y: shade("BLACK", 0))
    p.fill((266, 82, 310, 85), lambda x, y: shade("STONE", 0.6))


def crate(p, left, top, size, planes):
    def colour(x, y):
        u, v = x - left, y - top
        if u in (0, size - 1) or v in (0, size - 1):
            return shade("WOOD", 0.05)
        if u < 4 or v < 4 or u >= size - 4 or v >= size - 4 or abs(u - v) < 2:
            return shade("WOOD", 0.66 - 0.25 * u / size + 0.1 * noise(x // 3, y), x, y)
        return shade("WOOD", 0.34 + 0.12 * noise(x, y // 4) - 0.2 * (u % 5 == 0), x, y)
    p.fill((left, top, left + size, top + size), colour, planes)


def post(p, left, top):
    def colour(x, y):
        u = x - left
        if u in (0, 9) or y == top:
            return shade("WOOD", 0.03)
        return shade("WOOD" if y > top + 4 else "MOSS", (0.62 if y > top + 4 else 1.0) - 0.055 * u + 0.1 * noise(x, y // 6), x, y)
    p.fill((left, top, left + 10, H), colour, (1, 2))
    for y in range(top + 12, top + 21, 3):
        p.fill((left - 1, y, left + 11, y + 2), lambda x, y: shade("PLASTER", 0.85 - 0.05 * (x - left) - 0.3 * (y % 2)), (1, 2))


def rope(p, x0, x1, y, sag):
    for x in range(x0, x1):
        t = (x - x0) / (x1 - x0)
        low = y + round(sag * 4 * t * (1 - t))
        p.put(x, low, shade("PLASTER", 0.95 - 0.5 * (x % 3 == 0)), (1, 2))
        p.put(x, low + 1, shade("PLASTER", 0.45), (1, 2))


def background(word="INN", upper_crate=(12, 64)):
    p = Picture(W, H)
    for part in (sky, moon, hills, sea, ship, quay, wall, roof):
        part(p)
    sign(p, word)
    doorway(p)
    crate(p, 4, 86, 30, (1,))
    crate(p, 34, 92, 24, (1,))
    crate(p, *upper_crate, 22, (1,))
    post(p, 74, 104)
    post(p, 150, 104)
    rope(p, 84, 150, 118, 14)
    rope(p, 0, 74, 118, 10)
    return p


def background_b():
    """The upper crate stands at the wall, the sign has another word, and the foot of a post, in strip 19, is no longer in plane 2."""
    p = background("BAR", (284, 92))
    for row in p.planes[1][120:]:
        row[19] = 0
    return p


def door(state):
    p = Picture(32, 56)

    def closed(x, y):
        if y in (8, 9, 44, 45) and x < 24:
            return shade("IRON", 0.55)
        if math.dist((x, y), (26, 30)) < 2.6:
            return shade("IRON", 0.9)
        return shade("WOOD", 0.08 if x % 8 == 7 else 0.42 + 0.16 * noise(x, y // 6) - 0.015 * (x % 8), x, y)

    def opened(x, y):
        if x < 7:
            return shade("WOOD", 0.1 if x == 6 else 0.30 + 0.12 * noise(x, y // 6), x, y + x)
        if y > 44:
            return shade("WOOD", 0.55 + 0.1 * ((x - 7) // 5 % 2), x, y)
        if math.dist((x, y), (19, 21)) < 4.3 or math.hypot((x - 19) / 7.5, (y - 46) / 20) < 1:
            return shade("WOOD", 0.08)
        return shade("GLOW", 0.92 - math.dist((x, y), (20, 12)) / 44, x, y)
    p.fill((0, 0, 32, 56), closed if state == 1 else opened)
    return p


def barrel(state):
    p = Picture(24, 32, CLEAR)

    def colour(x, y):
        half = 8.5 + 3 * math.sin((y - 3) / 28 * math.pi)
        u = (x + 0.5 - 12) / half
        lid = ((x + 0.5 - 12) / 8.5) ** 2 + ((y - 3) / 3) ** 2
        if lid <= 1:
            return shade("WOOD", 0.8 - 0.1 * (x % 4 == 0)) if state == 1 else shade("BLACK", 0)
        if abs(u) > 1 or y < 3 or y > 29 + 2 * (1 - u * u):
            return None
        if y in (8, 9, 23, 24):
            return shade("IRON", 0.8 - 0.5 * abs(u + 0.3))
        return shade("WOOD", 0.66 - 0.5 * abs(u + 0.3) - 0.12 * (x % 4 == 0), x, y)
    p.fill((0, 0, 24, 32), colour, (1,))
    return p


def fish(state):
    p = Picture(24, 16, CLEAR)

    def colour(x, y):
        tail = y < 7 and (3 - y) * 1.3 <= abs(x - 10) <= 1 + (6 - y) * 1.1
        body = y >= 6 and math.hypot((x - 10) / 4, (y - 13) / 8) < 1
        return shade("FISH", 0.9 - 0.12 * abs(x - 9), x, y) if (tail or body) and y < 13 else None
    p.fill((0, 0, 24, 16), colour, (1,))
    return p


def lamp(state):
    p = Picture(16, 24, CLEAR)

    def colour(x, y):
        far = math.dist((x, y), (7.5, 13))
        if y in (3, 4) and x < 9 or (x in (7, 8) and 4 < y < 8):
            return shade("IRON", 0.3)
        if (y in (8, 18) and 3 < x < 12) or (x in (4, 11) and 8 < y < 18):
            return shade("IRON", 0.5)
        if 4 < x < 11 and 8 < y < 18:
            return shade("GLOW", 1.15 - far / 7) if state == 2 else shade("STONE", 0.3, x, y)
        if state == 2 and far < 8 and dither(x, y) < 1.1 - far / 8:
            return shade("GLOW", 0.95 - far / 14)
        return None
    p.fill((0, 0, 16, 24), colour)
    return p


def window(state):
    p = Picture(32, 32)

    def colour(x, y):
        if x in (0, 15, 16, 31) or y in (0, 15, 31):
            return shade("WOOD", 0.18)
        if state == 1:
            return shade("STONE", 0.55, x, y) if (x + y) % 16 in (3, 4, 6) else shade("SEA", 0.12 + y / 150, x, y)
        if math.dist((x, y), (11, 13)) < 4.5 or math.hypot((x - 11) / 8, (y - 31) / 13) < 1:
            return shade("ROOF", 0.1)
        return shade("GLOW", 0.9 - math.dist((x, y), (22, 10)) / 40, x, y)
    p.fill((0, 0, 32, 32), colour)
    return p


# w white, g grey, k black, o orange
SITTING = (
    "................", "................", "................", "................",
    "....wwww........", "...wwkww........", ".oowwwww........", "....wwwww.......",
    "....wwwwwww.....", "....wwwggggg....", ".....wwggggggk..", "......wwwgggkkk.",
    ".......wwww.....", "........o.o.....", "........o.o.....", ".......oo.oo....",
)
FLYING = (
    "................", "gg............gg", ".ggg........ggg.", "..gggg....gggg..",
    "...ggggg.ggggg..", "....ggggwgggg...", "..wwwwwwwwww....", ".wkwwwwwwwwwkk..",
    "oowwwwwwwwwkkk..", "....wwwwww......",
)


def gull(state):
    colours = {"w": shade("SAIL", 1.0), "g": shade("SAIL", 0.5), "k": shade("BLACK", 0), "o": shade("GLOW", 0.45)}
    return Picture(16, 16, CLEAR).letters(0, 0, SITTING if state == 1 else FLYING, colours)


OBJECTS = (  # name, picture of a state, states, strip position, size in strips, what else the header has
    (b"door@@@@", door, 2, (28, 6), (4, 7), dict(walk=(240, 110), direction=3)),
    (b"barrel", barrel, 2, (22, 10), (3, 4), dict(walk=(166, 114), direction=1)),
    (b"fish@@@@@@", fish, 1, (22, 9), (3, 2), dict(walk=(166, 114), parent=2, flags=0x80)),
    (b"lamp", lamp, 2, (26, 5), (2, 3), dict(walk=(216, 112), direction=3)),
    (b"window", window, 2, (34, 6), (4, 4), dict(walk=(288, 112), direction=3)),
    (b"gull", gull, 2, (9, 11), (2, 2), dict(walk=(-25, 130))),
)


def smap(p):
    return paint.smap(p, CLEAR)


def recoded(p, other):
    """The same strips as smap's; some of those that the other picture has too in other codes, raw (01) or with runs (44)."""
    made = smap(p)
    ends = list(struct.unpack_from("<%dI" % (p.w // 8), made, 8)) + [len(made)]
    bodies = [made[ends[s]:ends[s + 1]] for s in range(p.w // 8)]
    for s, code in [(s, with_runs) for s in range(0, p.w // 8, 3)] + [(s, raw) for s in range(1, p.w // 8, 6)]:
        strip = [row[8 * s:8 * s + 8] for row in p.rows]
        if strip == [row[8 * s:8 * s + 8] for row in other.rows]:
            bodies[s] = code(b"".join(strip))
    return block(b"SMAP", table(4, bodies))


def room(p, strips=smap, kinds=OBJECTS):
    return paint.room(W, H, paint.image(p, strips), kinds, 201, CLEAR, PALETTE)


def room_b(a):
    """Version B: its background, a keg in place of the barrel, and a gull that is looked at from nearer."""
    kinds = list(OBJECTS)
    kinds[1] = (b"keg@@@", *OBJECTS[1][1:])
    kinds[5] = (*OBJECTS[5][:5], dict(walk=(60, 126)))
    return room(background_b(), lambda p: recoded(p, a), kinds)


def files():
    a = background()
    return ("harbour.room", room(a)), ("harbour-b.room", room_b(a)), ("harbour.pal", PALETTE.bytes())


if __name__ == "__main__":
    paint.main("harbour.py", sys.argv[1:], files)
