#!/usr/bin/env python3
"""Makes the sample rooms cellar.room, raw.room and runs.room, the latter two with the pictures that they must give, and the rooms that the
program list_test lists, with what their listings must be.

Run it from the repository's top folder: `python3 rooms/make.py`. The numbers that it expects are written down here from document 01 and
change requests 5 and 9, case by case; nothing of the Rattle code is asked.
"""
import os
import struct

TESTS = "crates/list_test"


def block(tag, payload=b""):
    return tag + struct.pack(">I", 8 + len(payload)) + payload


def bits(*fields):
    """Fields (value, count) low bit first, from bit 0 of each byte up; the last byte padded with zeros."""
    out, n, at = bytearray(), 0, 0
    for value, count in fields:
        n |= value << at
        at += count
    for i in range((at + 7) // 8):
        out.append(n >> (8 * i) & 255)
    return bytes(out)


def flat(h, colour):
    """A strip of one colour, code 1C."""
    return bytes([0x1C, colour]) + bits(*[(0, 1)] * (8 * h - 1))


def raw(values):
    """A strip of code 01: the pixels follow the code."""
    return bytes([0x01, *values])


def run(n, keeps=0):
    """A strip of code 44 with a run of n after its first pixel, then so many keeps."""
    return b"\x44\5" + bits((3, 2), (4, 3), (n, 8), *[(0, 1)] * keeps)


def table(size, bodies, first=None):
    """Offsets and bodies; a body of None is an offset of 0."""
    form = {4: "<I", 2: "<H"}[size]
    at = 8 + size * len(bodies) if first is None else first
    offsets, rest = b"", b""
    for body in bodies:
        if body is None:
            offsets += struct.pack(form, 0)
        else:
            offsets += struct.pack(form, at)
            at += len(body)
            rest += body
    return offsets + rest


def smap(bodies):
    return block(b"SMAP", table(4, bodies))


def plane(k, bodies):
    return block(b"ZP0%d" % k, table(2, bodies))


def cdhd(number, x=0, y=0, w=1, h=1, flags=0, parent=0, walk=(0, 0), direction=0):
    return block(b"CDHD", struct.pack("<HBBBBBBhhB", number, x, y, w, h, flags, parent, *walk, direction))


def imhd(number, images=1, x=0, y=0, w=8, h=2):
    return block(b"IMHD", struct.pack("<HHBBHHHHH", number, images, 0, 0, 0, x, y, w, h))


def obcd(number, name=None, **fields):
    return block(b"OBCD", cdhd(number, **fields) + (b"" if name is None else block(b"OBNA", name + b"\0")))


def rmhd(w, h, objects=0):
    return block(b"RMHD", struct.pack("<HHH", w, h, objects))


def rmim(planes, picture):
    return block(b"RMIM", block(b"RMIH", struct.pack("<H", planes)) + block(b"IM00", picture))


def room(w=16, h=2, planes=0, picture=None, rest=b"", head=None, image=None):
    picture = smap([flat(h, 5)] * (w // 8)) if picture is None else picture
    return block(b"ROOM", (rmhd(w, h) if head is None else head) + (rmim(planes, picture) if image is None else image) + rest)


def listed(w, h, planes, lines=()):
    out = "room %d %d planes %d objects %d\n" % (w, h, planes, len(lines))
    for k, line in enumerate(lines, 1):
        out += "object %d %s\n" % (k, line)
    return out


GOOD = smap([flat(2, 5), flat(2, 9)])
DOOR = "id 7 box 0 0 8 8 walk -25 40"
LISTED = room(planes=1, rest=obcd(7, b"door@@", walk=(-25, 40)))


def cases():
    """Name, room, and what the listing must be: a text, or the number of the refusal."""
    yield "listed", LISTED, listed(16, 2, 1, [DOOR])
    yield "two_objects", room(rest=obcd(300, x=255, y=255, w=255, h=255, walk=(-32768, 32767)) + obcd(0)), listed(
        16, 2, 0, ["id 300 box 2040 2040 2040 2040 walk -32768 32767", "id 0 box 0 0 8 8 walk 0 0"])
    yield "widest", room(1024, 200, 4, smap([raw(bytes(1600))] * 10 + [flat(200, k) for k in range(118)])), listed(1024, 200, 4)
    yield "narrowest", room(8, 1), listed(8, 1, 0)
    yield "plane_missing", room(planes=4, picture=GOOD + plane(2, [None, b"\x82\xff"])), listed(16, 2, 4)
    yield "plane_all_zero", room(planes=1, picture=GOOD + plane(1, [None, None])), listed(16, 2, 1)
    yield "zero_counts", room(planes=1, picture=GOOD + plane(1, [b"\x00\x80\x33\x82\x01", None])), listed(16, 2, 1)
    yield "plane_above_n", room(planes=1, picture=GOOD + plane(2, [b"\xff", b"\xff"])), listed(16, 2, 1)
    yield "unused_bytes", room(picture=smap([flat(2, 5) + b"rest", flat(2, 9) + b"rest"])), listed(16, 2, 0)
    yield "raw_strip", room(picture=smap([flat(2, 5), raw(range(16))])), listed(16, 2, 0)
    yield "run_to_the_end", room(picture=smap([flat(2, 5), run(15)])), listed(16, 2, 0)
    yield "run_of_1", room(8, 1, picture=smap([run(1, 6)])), listed(8, 1, 0)
    yield "run_of_0", room(8, 33, picture=smap([run(0, 7)])), listed(8, 33, 0)
    yield "orphan_image", room(rest=block(b"OBIM", imhd(9))), listed(16, 2, 0)
    yield "other_tags", room(rest=block(b"XXXX", b"abc")), listed(16, 2, 0)
    yield "room_in_room", room(rest=block(b"ROOM", obcd(5))), listed(16, 2, 0)
    yield "depth_6", room(rest=block(b"OBIM", imhd(9) + block(b"IM01", block(b"IM02", block(b"IM03", block(b"XXXX")))))), listed(16, 2, 0)
    yield "index", room(rest=block(b"TRNS", b"\7\0")), listed(16, 2, 0)
    yield "second_index_empty", room(rest=block(b"TRNS", b"\7") + block(b"TRNS")), listed(16, 2, 0)
    yield "index_below", room(rest=block(b"OBIM", imhd(9) + block(b"TRNS"))), listed(16, 2, 0)
    yield "objects_128", room(rest=b"".join(obcd(k) for k in range(128))), listed(
        16, 2, 0, ["id %d box 0 0 8 8 walk 0 0" % k for k in range(128)])

    yield "empty", b"", 1
    yield "seven_bytes", b"ROOM\0\0\0", 1
    yield "another_tag", block(b"ROOF", LISTED[8:]), 1
    yield "cut", LISTED[:-1], 1
    yield "bytes_after", LISTED + b"\0", 1
    yield "size_7", room(rest=b"XXXX\0\0\0\7"), 1
    yield "passes_parent", room(rest=b"XXXX\0\0\0\x09"), 1
    yield "not_filled", room(rest=b"\0\0\0"), 1
    yield "not_filled_below", room(rest=block(b"OBIM", imhd(9) + b"\0")), 1
    yield "depth_7", room(rest=block(b"OBIM", imhd(9) + block(b"IM01", block(b"IM02", block(b"IM03", block(b"IM04", block(b"IM05"))))))), 1
    yield "leaf_at_depth_7", room(rest=block(b"OBIM", imhd(9) + block(b"IM01", block(b"IM02", block(b"IM03", block(b"IM04", block(b"XXXX"))))))), 1

    yield "no_rmhd", room(head=b""), 2
    yield "first_rmhd_short", room(head=block(b"RMHD", b"\x10\0\2\0") + rmhd(16, 2)), 2
    yield "no_rmim", room(image=b""), 2
    yield "no_rmih", room(image=block(b"RMIM", block(b"IM00", GOOD))), 2
    yield "rmih_short", room(image=block(b"RMIM", block(b"RMIH", b"\0") + block(b"IM00", GOOD))), 2
    yield "no_im00", room(image=block(b"RMIM", block(b"RMIH", b"\0\0") + block(b"IM01", GOOD))), 2
    yield "no_smap", room(picture=plane(1, [None, None])), 2
    yield "no_cdhd", room(rest=block(b"OBCD")), 2
    yield "cdhd_12_bytes", room(rest=block(b"OBCD", block(b"CDHD", bytes(12)))), 2
    yield "no_imhd", room(rest=block(b"OBIM")), 2
    yield "imhd_15_bytes", room(rest=block(b"OBIM", block(b"IMHD", bytes(15)))), 2
    yield "index_empty", room(rest=block(b"TRNS")), 2
    yield "first_index_empty", room(rest=block(b"TRNS") + block(b"TRNS", b"\7")), 2
    yield "index_before_three", room(head=rmhd(12, 2), rest=block(b"TRNS")), 2
    yield "two_before_three", room(rest=b"".join(obcd(k) for k in range(128)) + block(b"OBCD")), 2

    yield "width_12", room(head=rmhd(12, 2)), 3
    yield "width_0", room(head=rmhd(0, 2)), 3
    yield "width_1032", room(head=rmhd(1032, 2)), 3
    yield "height_0", room(head=rmhd(16, 0)), 3
    yield "height_201", room(head=rmhd(16, 201)), 3
    yield "planes_5", room(planes=5), 3
    yield "objects_129", room(rest=b"".join(obcd(k) for k in range(129))), 3
    yield "three_before_five", room(planes=5, picture=block(b"SMAP")), 3

    yield "no_table", room(picture=block(b"SMAP", bytes(7))), 5
    yield "table_alone", room(picture=block(b"SMAP", struct.pack("<II", 16, 17))), 5
    yield "offset_in_table", room(picture=block(b"SMAP", struct.pack("<II", 15, 20) + flat(2, 5) * 2)), 5
    yield "offset_at_end", room(picture=block(b"SMAP", struct.pack("<II", 16, 20) + flat(2, 5))), 5
    yield "offsets_equal", room(picture=block(b"SMAP", struct.pack("<II", 16, 16) + flat(2, 5))), 5
    yield "offsets_fall", room(picture=block(b"SMAP", struct.pack("<II", 20, 16) + flat(2, 5) * 2)), 5
    yield "plane_no_table", room(planes=1, picture=GOOD + block(b"ZP01", bytes(3))), 5
    yield "plane_offsets_fall", room(planes=1, picture=GOOD + block(b"ZP01", struct.pack("<HH", 14, 12) + b"\x82\1\x82\1")), 5
    yield "five_before_six", room(picture=block(b"SMAP", struct.pack("<II", 16, 99) + b"\2\2\2\2")), 5

    yield "code_0", room(picture=smap([b"\0\0\0\0", flat(2, 5)])), 6
    yield "code_13", room(picture=smap([flat(2, 5), b"\x13\0\0\0"])), 6
    yield "code_alone", room(picture=smap([flat(2, 5), b"\x13"])), 6
    yield "six_before_plane_five", room(planes=1, picture=smap([flat(2, 5), b"\xff\0"]) + block(b"ZP01")), 6

    yield "colour_missing", room(picture=smap([flat(2, 5), b"\x1c"])), 7
    yield "bits_missing", room(picture=smap([flat(2, 5), b"\x1c\5\0"])), 7
    yield "raw_short", room(picture=smap([flat(2, 5), raw(range(15))])), 7
    yield "raw_code_alone", room(picture=smap([flat(2, 5), raw([])])), 7
    yield "leftmost_first", room(picture=smap([b"\x1c\5", b"\2"])), 7
    yield "rows_missing", room(planes=1, picture=GOOD + plane(1, [None, b"\2\1"])), 7
    yield "run_byte_missing", room(planes=1, picture=GOOD + plane(1, [None, b"\x82"])), 7
    yield "number_before_run", room(picture=smap([flat(2, 5), b"\x44\5" + bits((3, 2), (4, 3), (7, 3))])), 7

    yield "run_passes_end", room(picture=smap([flat(2, 5), run(16)])), 8
    yield "run_of_0_passes", room(8, 32, picture=smap([run(0, 8)])), 8
    yield "mask_run_passes", room(planes=1, picture=GOOD + plane(1, [None, b"\x83"])), 8
    yield "mask_literal_passes", room(planes=2, picture=GOOD + plane(1, [None, b"\2\1\1"]) + plane(2, [b"\1\1\2\1\1", None])), 8


def sample():
    """A 320 x 144 room with a plane, a door, a barrel and a window: a gradient sky over a floor, a wall of planks."""
    w, h = 320, 144
    pixels = [[min(255, 40 + y // 3 + (x // 16) % 2 * 2) if y < 96 else 120 + (x * 7 + y * 13) // 9 % 24 for x in range(w)] for y in range(h)]
    mask = [bytes(255 if 88 <= y < 96 else (0x3C if s in (4, 30) and y >= 40 else 0) for s in range(w // 8)) for y in range(h)]
    picture = smap([coded([pixels[y][8 * s + c] for y in range(h) for c in range(8)]) for s in range(w // 8)])
    picture += plane(1, [packed([mask[y][s] for y in range(h)]) for s in range(w // 8)])
    objects = obcd(101, b"door@@@@", x=10, y=5, w=4, h=7, walk=(96, 120), direction=2)
    objects += obcd(102, b"barrel", x=24, y=9, w=3, h=4, parent=1, flags=0x80, walk=(180, 124))
    objects += obcd(103, b"window", x=30, y=3, w=5, h=3, walk=(-25, 110))
    images = b""
    for number, x, y, iw, ih, base in ((101, 80, 40, 32, 56, 200), (102, 192, 72, 24, 32, 220)):
        body = b""
        for state in (1, 2):
            strips = [coded([base + state * 5 + (yy // 4) % 3 for yy in range(ih) for _ in range(8)]) for _ in range(iw // 8)]
            body += block(b"IM0%d" % state, smap(strips) + plane(1, [packed([0xFF if state == 1 else 0x81] * ih)] * (iw // 8)))
        images += block(b"OBIM", imhd(number, 2, x, y, iw, ih) + body)
    return block(b"ROOM", rmhd(w, h, 3) + rmim(1, picture) + images + objects)


def coded(values):
    """One strip in code 1C, as document 01's writing rule makes it."""
    colour, step, fields = values[0], 1, []
    for v in values[1:]:
        if v == colour:
            fields.append((0, 1))
        elif v == (colour - step) % 256:
            fields.append((3, 3))
        elif v == (colour + step) % 256:
            fields.append((7, 3))
            step = -step % 256
        else:
            fields += [(1, 2), (v, 8)]
            step = 1
        colour = v
    return bytes([0x1C, values[0]]) + bits(*fields)


def with_runs(values):
    """One strip in code 44: a run of up to 255 where its 13 bits are fewer than those of keeps, else keeps, changes of -4 to 3, new indexes."""
    colour, fields, i = values[0], [], 1
    while i < len(values):
        same = next((n for n, v in enumerate(values[i:i + 255]) if v != colour), len(values[i:i + 255]))
        change = (values[i] - colour + 4) % 256
        if same > 13:
            fields += [(3, 2), (4, 3), (same, 8)]
        elif same:
            fields.append((0, 1))
        elif change < 8:
            fields += [(3, 2), (change, 3)]
        else:
            fields += [(1, 2), (values[i], 8)]
        i += same if same > 13 else 1
        colour = values[i - 1]
    return bytes([0x44, values[0]]) + bits(*fields)


def packed(rows):
    """The rows of one mask strip, as document 01's writing rule makes them; None where all are zero."""
    if not any(rows):
        return None
    out, y = b"", 0
    while y < len(rows):
        run = 1
        while y + run < len(rows) and rows[y + run] == rows[y] and run < 127:
            run += 1
        if run >= 2:
            out += bytes([0x80 + run, rows[y]])
            y += run
            continue
        n = 1
        while y + n < len(rows) and n < 127 and not (y + n + 1 < len(rows) and rows[y + n] == rows[y + n + 1]):
            n += 1
        out += bytes([n]) + bytes(rows[y:y + n])
        y += n
    return out


def grain(x, y):
    """A pixel of the picture whose strips are raw: a slope with a grain that no run is found in."""
    return 16 + (x + y) // 2 + (x * 29 + y * 53) % 97


def rings(x, y):
    """A pixel of the picture whose strips have runs: rings around two points on a flat ground."""
    for cx, cy, colour in ((20, 24, 150), (58, 40, 60)):
        ring = ((x - cx) ** 2 + (y - cy) ** 2) // 72
        if ring < 6:
            return colour + 3 * ring if ring % 2 else colour + 40 + ring
    return 12


def write_strips_room(name, pixel, body):
    """A room of a background alone, and the picture that ./show must make of it: without a palette, colour n is grey n."""
    w, h = 80, 56
    pixels = [[pixel(x, y) for x in range(w)] for y in range(h)]
    strips = [body([v for row in pixels for v in row[x:x + 8]]) for x in range(0, w, 8)]
    open("rooms/%s.room" % name, "wb").write(room(w, h, picture=smap(strips)))
    open("rooms/%s.ppm" % name, "wb").write(b"P6\n%d %d\n255\n" % (w, h) + bytes(v for row in pixels for v in row for _ in range(3)))


def main():
    os.makedirs(TESTS + "/data", exist_ok=True)
    for old in os.listdir(TESTS + "/data"):
        os.remove(TESTS + "/data/" + old)
    names, expected = [], ""
    for name, data, answer in cases():
        open("%s/data/%s" % (TESTS, name), "wb").write(data)
        names.append(name)
        expected += name + "\n" + (answer if isinstance(answer, str) else "refused %d\n" % answer)
    open(TESTS + "/stdin", "w").write("".join(n + "\n" for n in names))
    open(TESTS + "/stdout", "w").write(expected)
    open("crates/list_room/stdin", "wb").write(LISTED)
    open("crates/list_room/stdout", "w").write(listed(16, 2, 1, [DOOR]))
    open("rooms/cellar.room", "wb").write(sample())
    write_strips_room("raw", grain, raw)
    write_strips_room("runs", rings, with_runs)


if __name__ == "__main__":
    main()
