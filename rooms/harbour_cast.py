#!/usr/bin/env python3
"""Makes rooms/harbour.pictures and rooms/harbour.cast: the pictures of a cast for the harbour, one behind the other, and the list that
`./show --cast` reads. The two gulls share one picture. The list is not in painting order: the library finds it.

Run it from the repository's top folder: `python3 rooms/harbour_cast.py [FOLDER]`; FOLDER stands for rooms. rooms/harbour.py has the colours
and the gull, rooms/paint.py what it paints and writes with.
"""
import math
import sys

sys.dont_write_bytecode = True
import paint  # noqa: E402
from harbour import CLEAR, gull, shade  # noqa: E402
from paint import Picture  # noqa: E402

TALL = 48  # a figure's parts are told in 48ths of its height, from its upper left corner


def oval(x, y, across, down):
    """Whether a place lies in an ellipse around (x, y)."""
    return lambda u, v: ((u - x) / across) ** 2 + ((v - y) / down) ** 2 <= 1


def cut(top, bottom, upper, lower):
    """Whether a place lies between two rows and two slanting sides: (left, right) at the upper row and at the lower."""
    def holds(u, v):
        t = (v - top) / (bottom - top)
        return 0 <= t < 1 and all((a + (b - a) * t - u) * side <= 0 for a, b, side in zip(upper, lower, (1, -1)))
    return holds


def limb(x0, y0, x1, y1, half):
    """Whether a place lies at most `half` away from the line between two places."""
    def holds(u, v):
        dx, dy = x1 - x0, y1 - y0
        t = max(0, min(1, ((u - x0) * dx + (v - y0) * dy) / (dx * dx + dy * dy)))
        return math.dist((u, v), (x0 + t * dx, y0 + t * dy)) <= half
    return holds


SKIN, HAIR = ("PLASTER", 0.82), ("WOOD", 0.12)

# Each part: where it is, its ramp of colours and how light it is. A later part lies over an earlier one.
FISHERMAN = (
    (limb(9, 36, 8, 44, 2.9), "WOOD", 0.16), (limb(16, 36, 17, 44, 2.9), "WOOD", 0.20),
    (oval(7.5, 46, 4.4, 2.0), "WOOD", 0.12), (oval(18, 46, 4.4, 2.0), "WOOD", 0.14),
    (cut(15, 37, (6, 19), (4, 21.5)), "GLOW", 0.50), (cut(18, 37, (12, 13), (12, 13)), "GLOW", 0.18),
    (limb(6.5, 18, 4, 28, 2.6), "GLOW", 0.42), (limb(18.5, 18, 21.5, 27, 2.6), "GLOW", 0.60),
    (oval(3.8, 30, 2.1, 2.1), *SKIN), (oval(22, 29, 2.1, 2.1), *SKIN),
    (oval(12.5, 9.5, 4.6, 5.6), *SKIN), (cut(11, 17.5, (7.8, 17.2), (10.4, 14.6)), "SAIL", 0.66),
    (oval(11, 9, 0.7, 0.8), "BLACK", 0), (oval(14.6, 9, 0.7, 0.8), "BLACK", 0),
    (oval(12.5, 4.4, 5.2, 4.2), "GLOW", 0.56), (cut(5.4, 7.4, (4.6, 20.4), (3.4, 21.6)), "GLOW", 0.40),
)
WOMAN = (
    (oval(9.5, 46, 2.8, 1.8), "WOOD", 0.10), (oval(15, 46, 2.8, 1.8), "WOOD", 0.12),
    (cut(24, 46, (8, 17), (3, 21.5)), "ROOF", 0.56), (cut(26, 45, (10, 15.4), (7.4, 17.6)), "SAIL", 0.62),
    (cut(14.5, 25, (7, 18), (8.4, 16.6)), "ROOF", 0.46), (cut(14.5, 18, (10, 15), (12, 13)), *SKIN),
    (limb(7, 17, 5, 25, 2.0), "ROOF", 0.40), (limb(18, 17, 20.4, 23, 2.0), "ROOF", 0.60),
    (oval(5, 27, 1.8, 1.8), *SKIN), (oval(20.6, 25, 1.8, 1.8), *SKIN),
    (cut(27, 33, (16.6, 24.6), (17.6, 23.6)), "WOOD", 0.66), (limb(17, 27, 24, 27, 0.8), "WOOD", 0.86),
    (oval(18.6, 25.8, 1.5, 1.3), "FISH", 0.9), (oval(22.6, 26, 1.5, 1.3), "FISH", 0.7),
    (oval(12.3, 9, 5.6, 6.4), *HAIR), (oval(12.6, 9.8, 4.0, 5.0), *SKIN), (cut(3, 6.6, (8.4, 16.4), (8, 17)), "WOOD", 0.20),
    (oval(11, 9.4, 0.7, 0.8), "BLACK", 0), (oval(14.4, 9.4, 0.7, 0.8), "BLACK", 0), (oval(12.7, 12.4, 1.2, 0.5), "ROOF", 0.5),
)
SAILOR = (
    (limb(9, 32, 8.5, 44, 2.7), "SAIL", 0.56), (limb(15.6, 32, 16, 44, 2.7), "SAIL", 0.66),
    (oval(8, 46, 3.4, 1.8), "BLACK", 0), (oval(16.6, 46, 3.4, 1.8), "BLACK", 0),
    (cut(15, 33, (6.6, 18.4), (7.6, 17.4)), "SAIL", 0.82),
    *((cut(y, y + 1.6, (6.6, 18.4), (6.6, 18.4)), "SEA", 0.36) for y in (17.5, 20.9, 24.3, 27.7, 31.1)),
    (limb(6.6, 18, 3.4, 24, 2.2), "SAIL", 0.70), (limb(18.4, 18, 22, 12, 2.2), "SAIL", 0.86), (limb(22, 12, 22.4, 6, 1.8), *SKIN),
    (oval(22.6, 4.4, 2.0, 2.2), *SKIN), (limb(3.4, 24, 6, 29, 1.8), *SKIN),
    (oval(12.5, 9.6, 4.4, 5.4), *SKIN), (cut(4, 7, (8, 17), (8, 17)), *HAIR),
    (oval(11, 9.2, 0.7, 0.8), "BLACK", 0), (oval(14.6, 9.2, 0.7, 0.8), "BLACK", 0), (cut(11.6, 12.8, (11, 14.6), (11.6, 14)), "ROOF", 0.25),
    (oval(12.5, 3.6, 4.8, 2.4), "SAIL", 0.95), (cut(4.2, 5.6, (8, 17), (8, 17)), "SEA", 0.30),
    (cut(14.6, 17.6, (9, 16), (11.6, 13.4)), "SEA", 0.40),
)
CAPTAIN = (
    (limb(9.4, 34, 9, 43, 2.5), "SAIL", 0.60), (limb(15.6, 34, 16, 43, 2.5), "SAIL", 0.72),
    (cut(39, 46, (6.2, 12), (6.2, 12)), "BLACK", 0), (cut(39, 46, (13, 18.8), (13, 18.8)), "IRON", 0.12),
    (oval(8, 46, 3.8, 1.8), "BLACK", 0), (oval(17.4, 46, 3.8, 1.8), "IRON", 0.12),
    (cut(14.6, 38, (5.6, 19.4), (4, 21)), "SEA", 0.33), (cut(15, 30, (10.4, 14.6), (12, 13)), "SAIL", 0.92),
    (cut(14.6, 24, (8.4, 10.6), (10.8, 12.2)), "SEA", 0.50), (cut(14.6, 24, (14.4, 16.6), (12.8, 14.2)), "SEA", 0.54),
    *((oval(x, y, 0.8, 0.8), "GLOW", 0.8) for x in (9, 16) for y in (26, 29.4, 32.8)),
    (limb(6, 17.4, 3.2, 28, 2.5), "SEA", 0.26), (limb(19, 17.4, 21.8, 28, 2.5), "SEA", 0.42),
    (cut(26.4, 28, (0.6, 6), (0.6, 6)), "GLOW", 0.62), (cut(26.4, 28, (19.2, 24.6), (19.2, 24.6)), "GLOW", 0.74),
    (oval(3, 30, 2.0, 2.0), *SKIN), (oval(22, 30, 2.0, 2.0), *SKIN),
    (oval(6.4, 15.8, 2.4, 1.2), "GLOW", 0.62), (oval(18.6, 15.8, 2.4, 1.2), "GLOW", 0.80),
    (oval(12.5, 9.4, 4.6, 5.4), *SKIN), (oval(12.5, 13, 4.4, 3.6), "STONE", 0.85), (oval(12.5, 11.6, 1.6, 0.7), "ROOF", 0.35),
    (oval(10.8, 8.6, 0.7, 0.8), "BLACK", 0), (oval(14.4, 8.6, 0.7, 0.8), "BLACK", 0),
    (oval(12.5, 3.4, 6.6, 2.8), "SEA", 0.30), (cut(4, 5.6, (7.6, 17.4), (7.6, 17.4)), "GLOW", 0.70),
    (cut(5.6, 7, (7, 18), (8, 17)), "BLACK", 0),
)


def edged(p):
    """The same picture with a dark pixel beside each that it has: a figure stands out from what is behind it."""
    made = Picture(p.w, p.h, CLEAR)

    def colour(x, y):
        near = ((x - 1, y), (x + 1, y), (x, y - 1), (x, y + 1))
        beside = any(0 <= a < p.w and 0 <= b < p.h and p.rows[b][a] != CLEAR for a, b in near)
        return p.rows[y][x] if p.rows[y][x] != CLEAR else shade("BLACK", 0) if beside else None
    return made.fill((0, 0, p.w, p.h), colour)


def figure(parts, height):
    """A standing figure, lit from the inn at its right."""
    unit = height / TALL
    p = Picture(math.ceil(26 * unit), height, CLEAR)
    for holds, ramp, light in parts:
        def colour(x, y):
            u, v = (x + 0.5) / unit, (y + 0.5) / unit
            return shade(ramp, light + 0.014 * (u - 12.5) - 0.003 * (v - 20), x, y) if holds(u, v) else None
        p.fill((0, 0, p.w, p.h), colour)
    return edged(p)


PICTURES = (("captain", lambda: figure(CAPTAIN, 58)), ("sailor", lambda: figure(SAILOR, 46)), ("woman", lambda: figure(WOMAN, 48)),
            ("fisherman", lambda: figure(FISHERMAN, 52)), ("gull", lambda: gull(1)))

CAST = (  # id, y of the feet, left, clip level, picture, what it does
    (1, 149, 128, 0, "captain", "before every plane: rope and post are behind him"),
    (3, 138, 113, 2, "fisherman", "behind the rope, before the woman"),
    (2, 108, 36, 1, "sailor", "half hidden behind the crates"),
    (5, 140, 40, 0, "gull", "at the same y as the other: the lower id is painted first"),
    (4, 130, 98, 2, "woman", "behind the rope"),
    (6, 140, 48, 0, "gull", "with the picture of the other"),
)


def files():
    pictures, placed = b"", {}
    for name, draw in PICTURES:
        p = draw()
        placed[name] = (p.w, p.h, len(pictures))
        pictures += b"".join(p.rows)
    lines = ["# The harbour's cast: ./show rooms/harbour.room rooms/harbour.calls --cast rooms/harbour.cast -o cast.png",
             "pictures harbour.pictures", "#     ID   Y LEFT TOP WIDTH HEIGHT CLIP START"]
    for number, y, left, clip, name, what in CAST:
        w, h, start = placed[name]
        lines.append("actor %2d %3d %4d %3d %5d %6d %4d %5d   # %s, %s" % (number, y, left, y + 1 - h, w, h, clip, start, name, what))
    return ("harbour.pictures", pictures), ("harbour.cast", "\n".join(lines + [""]).encode())


if __name__ == "__main__":
    paint.main("harbour_cast.py", sys.argv[1:], files)
