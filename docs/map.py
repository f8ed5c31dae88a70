#!/usr/bin/env python3
"""Draws docs/architecture.svg: the crates of crates.txt in their layers, and the way of a draw that docs/ARCHITECTURE.md tells.

    docs/map.py             writes the picture
    docs/map.py --check     says whether the picture is what it would write (status 1 where it isn't)

A layer is a comment `# NAME: TEXT` of crates.txt with the crates under it. The way is the numbered table of docs/ARCHITECTURE.md, a function
`crate::module::function` a row; a function that the crate's sources do not have is told, and nothing is drawn.
"""
import os
import re
import sys

TOP = os.path.join(os.path.dirname(os.path.abspath(__file__)), "..")
PICTURE = os.path.join(TOP, "docs", "architecture.svg")
LEFT, BOX, HIGH, GAP, COLUMNS, RIGHT = 210, 132, 46, 14, 7, 200  # text before the boxes, a box's sides, the gap, columns, text behind
COLOURS = ["#e8eef7", "#e6f3ec", "#f6efe2", "#f7e8e8", "#efe9f6", "#e9f4f6", "#f1f1ec"]
WAY = "#b3261e"
# A crate's row and column in its layer, so that the way of a draw crosses few boxes, and what it is about.
BOXES = {
    "refusal": (0, 4, "why it is refused"),
    "number": (0, 0, "numbers in bytes"), "bits": (0, 1, "a body's bits"), "grid": (0, 2, "rows of surfaces"), "cells": (0, 3, "eight at a time"),
    "block": (0, 0, "the block tree"), "table": (0, 1, "strip tables"), "decode": (0, 2, "a strip's pixels"),
    "strip_test": (1, 2, "a strip's test"), "strip": (0, 3, "codes, operations"),
    "plane": (0, 4, "a mask strip's rows"), "strip_writer": (0, 5, "writes a body"),
    "block_writer": (0, 6, "writes SMAP, ZP"), "room": (0, 0, "the whole test"), "image": (0, 1, "objects' images"),
    "load": (1, 3, "loads a room"), "compare": (1, 4, "two rooms compared"),
    "objects": (0, 6, "headers, names"), "object_list": (0, 5, "rows of objects"), "play": (0, 0, "draw, hide, back"),
    "verdict": (0, 1, "tests of images"), "session": (0, 2, "plan of a step"), "stored": (0, 3, "a session's bytes"),
    "repaint": (0, 4, "strips painted"), "layers": (0, 5, "strip of an image"), "point": (0, 6, "object at a point"),
    "replay": (1, 2, "a history again"), "scene": (1, 5, "what a session is"), "climb": (1, 6, "parents that open"),
    "actor": (0, 3, "hidden, stamp"), "cast": (0, 4, "a whole cast"), "limbs": (0, 5, "ticks of limbs"), "costume": (0, 6, "starts"),
    "kildegrom": (0, 0, "the C archive"), "call_list": (0, 1, "calls in bytes"), "demands": (0, 2, "demands' pages"),
    "answers": (0, 3, "answers as numbers"),
    "listing": (0, 0, "a room as text"), "list_room": (0, 1, "./list"), "player": (0, 2, "./play"),
    "list_test": (0, 3, "test of ./list"), "vectors": (0, 4, "test of strips"), "input": (0, 5, "a file's bytes"),
}


def stop(why):
    sys.stderr.write("map.py: %s\n" % why)
    sys.exit(1)


def read(name):
    with open(os.path.join(TOP, name), encoding="utf-8") as file:
        return file.read()


def layers():
    """The layers of crates.txt, lowest first: name, text, crates."""
    found = []
    for line in read("crates.txt").split("\n"):
        heading, crate = re.match(r"# ([a-z]+): (.+)", line), re.match(r"([a-z_]+)[^#:]*:", line)
        if heading:
            found.append((heading.group(1), heading.group(2), []))
        elif crate:
            found[-1][2].append(crate.group(1))
    crates = {crate for layer in found for crate in layer[2]}
    if crates != set(BOXES):
        stop("crates.txt and the boxes differ: %s" % ", ".join(sorted(crates ^ set(BOXES))))
    return found


def way():
    """The crates that a draw passes, in order."""
    steps = re.findall(r"^\| \d+ \| `(\w+)::(?:(\w+)::)?(\w+)`", read("docs/ARCHITECTURE.md"), re.M)
    for crate, module, function in steps:
        if not re.search(r"\bfn %s\b" % function, read("crates/%s/src/%s.rt" % (crate, module or "lib"))):
            stop("no function %s::%s::%s" % (crate, module or "lib", function))
    return [crate for crate, _, _ in steps]


def text(x, y, size, words, more=""):
    words = words.replace("&", "&amp;").replace("<", "&lt;")
    return '<text x="%d" y="%d" font-size="%s"%s>%s</text>' % (x, y, size, more, words)


def lines_of(words, most):
    """Words on lines of at most so many characters."""
    lines = [""]
    for word in words.split():
        if len(lines[-1]) + 1 + len(word) > most:
            lines.append("")
        lines[-1] = (lines[-1] + " " + word).strip()
    return lines


def placed(found):
    """The bands, highest layer first, and where each crate's box stands."""
    bands, spots, y = [], {}, 16
    handed = dict(re.findall(r"^\| (\w+) \|[^|]*\| ([^|]*) \|$", read("docs/ARCHITECTURE.md"), re.M))
    for (name, words, crates), colour in zip(reversed(found), COLOURS):
        rows = 1 + max(BOXES[crate][0] for crate in crates)
        high = max(rows * (HIGH + GAP) + GAP, 98)
        bands.append((name, words, handed[name], y, high, colour))
        for crate in crates:
            row, column, _ = BOXES[crate]
            spots[crate] = (LEFT + column * (BOX + GAP), y + GAP + row * (HIGH + GAP))
        y += high + 8
    return bands, spots, y


def band(name, words, handed, y, high, colour):
    right = LEFT + COLUMNS * (BOX + GAP)
    parts = ['<rect x="8" y="%d" width="%d" height="%d" rx="6" fill="%s"/>' % (y, right + RIGHT - 8, high, colour)]
    parts.append(text(20, y + 24, 15, name, ' font-weight="bold"'))
    parts += [text(20, y + 42 + 13 * i, 11, line, ' fill="#333"') for i, line in enumerate(lines_of(words, 30))]
    parts.append('<path d="M%d,%d v-8 h-4 l7,-8 l7,8 h-4 v8 z" fill="#555"/>' % (right + 5, y + 22))
    return parts + [text(right + 24, y + 20 + 13 * i, 11, line) for i, line in enumerate(lines_of(handed, 26))]


def box(crate, x, y, steps):
    edge = WAY if steps else "#666"
    parts = ['<rect x="%d" y="%d" width="%d" height="%d" rx="4" fill="#fff" stroke="%s"/>' % (x, y, BOX, HIGH, edge)]
    parts.append(text(x + 8, y + 19, 13, crate, ' font-weight="bold"'))
    parts.append(text(x + 8, y + 36, 11, BOXES[crate][2]))
    if steps:
        parts.append(text(x + BOX - 6, y + 16, 11, " ".join(map(str, steps)), ' text-anchor="end" font-weight="bold" fill="%s"' % WAY))
    return parts


def arrow(one, other):
    """From box to box, straight, behind both."""
    (x1, y1), (x2, y2) = one, other
    down = y2 >= y1
    points = (x1 + BOX / 2, y1 + (HIGH if down else 0), x2 + BOX / 2, y2 + (0 if down else HIGH))
    if y1 == y2:
        points = (x1 + (BOX if x2 > x1 else 0), y1 + HIGH / 2, x2 + (0 if x2 > x1 else BOX), y2 + HIGH / 2)
    return '<line x1="%d" y1="%d" x2="%d" y2="%d" stroke="%s" stroke-width="1.4" opacity="0.55" marker-end="url(#tip)"/>' % (points + (WAY,))


def drawn():
    bands, spots, high = placed(layers())
    passed = way()
    steps = {crate: [i + 1 for i, name in enumerate(passed) if name == crate] for crate in spots}
    wide = LEFT + COLUMNS * (BOX + GAP) + RIGHT + 8
    out = ['<svg xmlns="http://www.w3.org/2000/svg" width="%d" height="%d" viewBox="0 0 %d %d" font-family="sans-serif">' % (wide, high, wide, high)]
    out.append('<title>Kildegrom: the crates in their layers, and the way of a draw (docs/ARCHITECTURE.md)</title>')
    out.append('<defs><marker id="tip" markerWidth="8" markerHeight="8" refX="7" refY="3" orient="auto">'
               '<path d="M0,0 L7,3 L0,6 z" fill="%s"/></marker></defs>' % WAY)
    out.append('<rect width="%d" height="%d" fill="#fff"/>' % (wide, high))
    for each in bands:
        out += band(*each)
    for one, other in zip(passed, passed[1:]):
        if one != other:
            out.append(arrow(spots[one], spots[other]))
    for crate, (x, y) in spots.items():
        out += box(crate, x, y, steps[crate])
    return "\n".join(out + ["</svg>", ""])


def main(words):
    if words not in ([], ["--check"]):
        sys.exit(__doc__)
    picture = drawn()
    if words:
        if not os.path.exists(PICTURE) or read("docs/architecture.svg") != picture:
            stop("docs/architecture.svg is not what crates.txt and docs/ARCHITECTURE.md say: run docs/map.py")
        return
    with open(PICTURE, "w", encoding="utf-8") as file:
        file.write(picture)


if __name__ == "__main__":
    main(sys.argv[1:])
