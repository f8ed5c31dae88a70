#!/usr/bin/env python3
"""Makes rooms/winter.room and rooms/winter.pal: a snowed-in cottage at night, 320 x 144, two planes, four objects with images, and the palette
in a CLUT block of the room and as a file. Its snow is colour 255, so the room has a transparent index of its own, 7, in a TRNS block. In
the background 7 is the ink, and painted.

Run it from the repository's top folder: `python3 rooms/winter.py [FOLDER]`; FOLDER stands for rooms. rooms/paint.py has what it paints and
writes with.
"""
import math
import sys

sys.dont_write_bytecode = True
import paint  # noqa: E402
from make import block  # noqa: E402
from paint import Picture, dither, noise  # noqa: E402

W, H = 320, 144
CLEAR, INK, SNOW = 7, 7, 255
MOON_AT = (236, 24)

RAMPS = (  # name, count of colours, colours between which the others are set; gaps, so that the greys of a room without a palette tell too
    ("COAL", 7, ((12, 12, 20), (70, 70, 86))),
    ("INK", 1, ((16, 16, 34),)),
    ("GAP", 24, ((0, 0, 0),)),
    ("FIR", 8, ((12, 26, 44), (26, 58, 66), (64, 104, 104))),
    ("NIGHT", 18, ((14, 18, 52), (30, 40, 96), (72, 84, 150), (150, 140, 186), (226, 186, 190))),
    ("RED", 6, ((84, 16, 32), (214, 58, 54))),
    ("WOOD", 12, ((30, 20, 24), (92, 60, 48), (164, 118, 82))),
    ("GAP", 44, ((0, 0, 0),)),
    ("ALP", 8, ((70, 82, 140), (150, 160, 204), (226, 220, 232))),
    ("CARROT", 4, ((150, 70, 20), (250, 160, 60))),
    ("GAP", 48, ((0, 0, 0),)),
    ("ICE", 8, ((84, 116, 168), (150, 188, 220), (214, 236, 248))),
    ("GAP", 44, ((0, 0, 0),)),
    ("GLOW", 12, ((120, 60, 36), (238, 166, 70), (255, 246, 196))),
    ("SNOW", 12, ((92, 108, 168), (158, 178, 222), (216, 228, 246), (255, 255, 255))),
)
PALETTE = paint.Palette(RAMPS)
shade = PALETTE.shade


def sky(p):
    def night(x, y):
        far = math.dist((x, y), MOON_AT)
        if far < 11:
            return shade("GLOW", 1 - 0.16 * any(math.dist((x, y), spot[:2]) < spot[2] for spot in ((232, 20, 3), (240, 28, 4), (241, 18, 2))))
        return shade("NIGHT", (y / 80) ** 1.5 * 0.8 + 0.28 * max(0, 1 - far / 54) ** 2, x, y)

    def alps(x, y):
        peaks = ((40, 44, 0.55), (112, 34, 0.6), (168, 46, 0.7), (206, 38, 0.62), (276, 46, 0.5), (330, 36, 0.6))
        top, peak = min((py + s * abs(x - px) + 2 * noise(x // 2, 3), px) for px, py, s in peaks)
        lit = x > peak + 3 * math.sin(y * 0.5) + 2 * noise(y, 5)
        return shade("ALP", (0.72 if lit else 0.3) - 0.011 * (y - top) + 0.2 * (y > 66)) if y >= top else None
    p.fill((0, 0, W, 90), night)
    p.fill((0, 28, W, 90), alps)


def fir(p, x0, top, foot, half, planes=()):
    tiers = max(3, (foot - top) // 11)

    def colour(x, y):
        t = (y - top) / (foot - top)
        part = t * tiers % 1
        u = (x + 0.5 - x0) / (half * (0.10 + 0.9 * t) * (0.62 + 0.38 * part) + 0.8)
        if abs(u) > 1 + 0.12 * noise(x, y):
            return None
        if part < 0.5 + 0.25 * noise(x // 2, y // 2, 4) - 0.25 * abs(u) and noise(x // 3, int(t * tiers)) > 0.25:
            return SNOW if u > -0.2 else shade("SNOW", 0.62)
        return shade("FIR", 0.55 + 0.35 * u - 0.5 * (part < 0.12) + 0.12 * noise(x // 2, y, 6))
    p.fill((x0 - 2, foot, x0 + 2, foot + 4), lambda x, y: INK, planes)
    p.fill((x0 - half - 2, top, x0 + half + 3, foot), colour, planes)


def ground(p):
    def colour(x, y):
        dune = math.sin(x * 0.021 + y * 0.16 + 1.3 * math.sin(x * 0.013)) + 0.5 * math.sin(x * 0.05 - y * 0.21)
        path = max(0, 1 - abs(x - 42 - 0.022 * (y - 98) ** 2 - 3 * math.sin(y * 0.3)) / 9) if y > 98 else 0
        snow = y >= 82 - 3 * math.sin(x * 0.018 + 0.6) - 1.5 * math.sin(x * 0.05)
        return shade("SNOW", 0.98 + 0.2 * dune - 0.45 * path * noise(x // 3, y // 2), x, y) if snow else None

    def pond(x, y):
        far = math.hypot((x - 150) / 50, (y - 128) / 10) + 0.04 * math.sin(x * 0.3)
        shine = (x + 2 * y) % 47 in (0, 1, 2, 9) and noise(x // 9, y, 8) > 0.4
        if far > 1:
            return shade("SNOW", 0.55) if far < 1.1 and y < 128 else None
        return shade("ICE", 1.0 if shine else 0.25 + 0.5 * (y - 118) / 20 + 0.1 * noise(x // 8, y), x, y)
    p.fill((0, 76, W, H), colour)
    p.fill((92, 114, 208, 140), pond)


def wall(p):
    def logs(x, y):
        edge = x in (24, 111) or (y - 62) % 6 == 5
        return INK if edge else shade("WOOD", 0.55 - 0.07 * ((y - 62) % 6) + 0.16 * noise(x // 6, (y - 62) // 6), x, y)
    p.fill((24, 56, 112, 101), logs)
    p.fill((32, 68, 54, 101), lambda x, y: shade("WOOD", 0.16))
    p.fill((34, 70, 52, 101), lambda x, y: INK if x % 6 == 3 else shade("RED", 0.45 - 0.02 * (x - 34), x, y))
    p.fill((48, 85, 50, 88), lambda x, y: shade("GLOW", 0.7))
    p.fill((61, 69, 91, 98), lambda x, y: shade("WOOD", 0.7))
    p.fill((64, 72, 88, 96), lambda x, y: INK)
    p.fill((60, 96, 92, 99), lambda x, y: SNOW)


def roof(p):
    def snow(x, y):
        low = 62 + 2 * math.sin(x * 0.35) + 1.5 * math.sin(x * 0.13)
        inside = 34 + 1.2 * math.sin(x * 0.1) <= y <= low and 14 + (64 - y) * 0.62 <= x <= 122 - (64 - y) * 0.62
        light = 1.04 - 0.5 * max(0, (y - low + 8) / 8) ** 2 - 0.012 * max(0, 64 - x + 0.5 * (48 - y))
        return shade("SNOW", light, x, y) if inside else None

    def smoke(x, y):
        k = (20 - y) / 4.6
        return shade("ALP", 0.5 - 0.06 * k, x, y) if abs(x - 96 - 4 * k - math.sin(y)) < 2 + k and dither(x, y) < 0.8 - 0.14 * k else None
    p.fill((88, 0, 130, 21), smoke)
    p.fill((90, 24, 100, 50), lambda x, y: INK if y % 4 == 3 or (x + y // 4 * 3) % 6 == 0 else shade("RED", 0.25 + 0.2 * noise(x // 6, y // 4)))
    p.fill((89, 21, 101, 25), lambda x, y: SNOW if y > 21 or 90 < x < 99 else None)
    p.fill((12, 30, 124, 68), snow)
    for x in range(20, 118, 3):
        p.fill((x, 62, x + 1, 66 + int(5 * noise(x, 17))), lambda x, y: shade("ICE", 0.9 - 0.06 * (y - 62)))


def front(p):
    """A fence, the snow before it, and its shadow on the snow behind it."""
    def rise(x):
        return 146 - 32 / (1 + math.exp((232 - x) / 14)) + 2 * math.sin(x * 0.08)

    def bank(x, y):
        return shade("SNOW", 0.9 - 0.018 * (y - rise(x)) - 0.1 * math.sin(x * 0.05 + y * 0.1), x, y) if y >= rise(x) else None
    for y in (96, 106):
        p.fill((214, y, W, y + 4), lambda x, y: INK if y % 10 == 9 else shade("WOOD", 0.45 + 0.1 * noise(x // 7, y), x, y), (1,))
    for left in range(216, W, 20):
        p.fill((left, 90, left + 6, 116), lambda x, y: INK if x in (left, left + 5) else shade("WOOD", 0.6 - 0.08 * (x - left), x, y), (1,))
        p.fill((left - 1, 87, left + 7, 92), lambda x, y: SNOW if y > 87 or left < x < left + 5 else None, (1,))
    p.fill((180, 100, W, H), lambda x, y: shade("SNOW", 0.55 + 0.05 * (rise(x) - y), x, y) if 0 < rise(x) - y < 7 else None)
    p.fill((180, 100, W, H), bank, (1, 2))


def background():
    p = Picture(W, H)
    sky(p)
    for k in range(40):
        foot = 80 + int(4 * noise(k, 12))
        fir(p, int(k * 8.4 + 5 * noise(k, 11)), foot - 18 - int(12 * noise(k, 13)), foot, 6)
    for part in (ground, wall, roof):
        part(p)
    fir(p, 296, 14, 112, 26, (1,))
    front(p)
    for k in range(130):
        p.put(noise(k, 31) * W, noise(k, 32) * H, SNOW)
    return p


def snowman(state):
    p, arm, coal, lift = Picture(32, 48, CLEAR), shade("WOOD", 0.4), shade("COAL", 0.3), 5 * (state - 1)

    def colour(x, y):
        for cy, r in ((15, 6.5), (26, 8.5), (39, 10.5)):
            if math.dist((x + 0.5, y + 0.5), (16, cy)) < r:
                light = 1.12 - 0.10 * math.dist((x, y), (16 - r * 0.3, cy - r * 0.4)) ** 2 / r
                return SNOW if light > 0.85 else shade("SNOW", light, x, y)
        return None
    p.fill((0, 0, 32, 48), colour, (1,))
    for line in ((8, 24, 1, 19), (3, 20, 1, 23), (24, 24, 30, 17) if state == 1 else (23, 23, 26, 4)):
        p.line(*line, arm)
    for x, y in ((14, 13), (18, 13), (16, 24), (16, 28), (16, 36)):
        p.fill((x, y, x + 2, y + 2), lambda x, y: coal)
    p.line(17, 16, 11, 17, shade("CARROT", 0.7))
    p.fill((10, 19, 22, 22), lambda x, y: shade("RED", 0.9 - 0.05 * (x - 10)), (1,))
    p.fill((19, 22, 22, 30), lambda x, y: shade("RED", 0.6 + 0.2 * (y % 2)), (1,))
    p.fill((9 + lift, 8 - lift, 24 + lift, 10 - lift), lambda x, y: coal, (1,))
    p.fill((12 + lift, 0, 21 + lift, 8 - lift), lambda x, y: coal if y < 6 - lift else shade("RED", 0.7), (1,))
    return p


def lamp(state):
    def colour(x, y):
        u, far = abs(x - 11.5), math.dist((x, y), (11.5, 13))
        if 2 <= y < 7 and u < 1.3 * y - 1.6 or y > 52 and u < 2 * (y - 51):
            return SNOW
        if y == 7 and u < 6 or y in (8, 19) and u < 5 or y > 19 and u < 1:
            return shade("COAL", 0.7 if x == 11 else 0.2)
        if 8 < y < 19 and u < 5 - (y - 8) / 6:
            return shade("COAL", 0.4) if u > 4 - (y - 8) / 6 else shade("GLOW", 1.1 - far / 12) if state == 2 else shade("ICE", 0.3, x, y)
        return shade("GLOW", 0.95 - far / 18) if state == 2 and dither(x, y) < 1.05 - far / 11 else None
    return Picture(24, 56, CLEAR).fill((0, 0, 24, 56), colour)


def window(state):
    def colour(x, y):
        if x in (11, 12) or y == 11:
            return shade("WOOD", 0.5)
        if y + 2 * noise(x // 2, 41) > 21 or x + y < 5:
            return SNOW
        glint = (x - y) % 17 in (2, 3, 5)
        return shade("NIGHT", 0.1 + y / 60 + 0.3 * glint, x, y) if state == 1 else shade("GLOW", 1 - math.dist((x, y), (14, 9)) / 22, x, y)
    return Picture(24, 24).fill((0, 0, 24, 24), colour)


HARE = (  # w snow, s its shadow, k black, r red
    ".....s..s.......", "....sws.ws......", "....sws.ws......", "....swwsws......", ".....swwws......", "....swwwwws.....", "...swkwwwwws....",
    "...rwwwwwwws....", "...swwwwwwwss...", "....sswwwwwwwss.", ".....swwwwwwwwss", ".....swwwwwwwwws", "....swwswwwwwwws", "....swswwwwwwwws",
    "...swwsswwwsswws", "...ssssssssssss.",
)


def hare(state):
    colours = {"w": SNOW, "s": shade("SNOW", 0.35), "k": shade("COAL", 0), "r": shade("RED", 1)}
    return Picture(16, 16, CLEAR).letters(0, 0, HARE if state == 1 else [row[::-1] for row in HARE], colours)


OBJECTS = (  # name, picture of a state, states, strip position, size in strips, what else the header has
    (b"snowman@", snowman, 2, (22, 8), (4, 6), dict(walk=(170, 114), direction=0)),
    (b"lamp", lamp, 2, (16, 6), (3, 7), dict(walk=(124, 110), direction=0)),
    (b"window", window, 2, (8, 9), (3, 3), dict(walk=(76, 108), direction=2)),
    (b"hare@@@@", hare, 2, (9, 14), (2, 2), dict(walk=(-25, 130))),
)


def files():
    picture = paint.image(background(), lambda p: paint.smap(p, CLEAR))
    room = paint.room(W, H, picture, OBJECTS, 301, CLEAR, PALETTE, block(b"TRNS", bytes([CLEAR, 0])))
    return ("winter.room", room), ("winter.pal", PALETTE.bytes())


if __name__ == "__main__":
    paint.main("winter.py", sys.argv[1:], files)
