#!/usr/bin/env python3
"""Holds python/kildegrom.py against the header, the programs and plain readings in Python: `python3 python/test_kildegrom.py`, or `python3 -m
unittest` in python/. It needs target/shared (`make shared`) and the programs ./list, ./play, ./show and ./compare, which build themselves; or
those whose names start as the environment's KILDEGROM_PROGRAMS says: `/usr/local/bin/kildegrom-`, which start sooner.
"""
import array
import glob
import os
import random
import re
import shutil
import struct
import subprocess
import sys
import tempfile
import threading
import unittest
import unittest.mock
import zlib

sys.dont_write_bytecode = True
TOP = os.path.dirname(os.path.dirname(os.path.abspath(__file__)))
sys.path.insert(0, os.path.join(TOP, "python"))
import kildegrom  # noqa: E402
from kildegrom import Actor, Call, Refused, Room  # noqa: E402

PROGRAMS = os.environ.get("KILDEGROM_PROGRAMS", "./")
ROOMS = sorted(glob.glob(os.path.join(TOP, "rooms", "*.room")))
LISTS = sorted(glob.glob(os.path.join(TOP, "rooms", "*.calls")))


def run(command, *words, **more):
    """A program of the repository: its status, its output and what it says."""
    if command.startswith("./"):
        command = PROGRAMS + command[2:]
    done = subprocess.run([command, *words], cwd=TOP, stdin=subprocess.DEVNULL, stdout=subprocess.PIPE, stderr=subprocess.PIPE, check=False, **more)
    return done.returncode, done.stdout, done.stderr.decode()


def read(*names):
    with open(os.path.join(TOP, *names), "rb") as file:
        return file.read()


def sample(name):
    return Room.open(os.path.join(TOP, "rooms", name))


def good_rooms():
    """The sample rooms that load, by their paths."""
    for path in ROOMS:
        try:
            yield path, Room.open(path)
        except Refused:
            pass


def block(tag, payload):
    return tag + struct.pack(">I", 8 + len(payload)) + payload


def built_room(width, height, rows, planes=(), rest=b""):
    """A room with a background and planes that the writers wrote."""
    picture = kildegrom.write_smap(rows, width, height)
    picture += b"".join(kildegrom.write_plane(plane, width, height, k) for k, plane in enumerate(planes, 1))
    image = block(b"RMIH", struct.pack("<H", len(planes))) + block(b"IM00", picture)
    return block(b"ROOM", block(b"RMHD", struct.pack("<HHH", width, height, 0)) + rest + block(b"RMIM", image))


def state_of(room):
    return room.session, room.pixels, room.masks


def cdhd(number):
    """The header of an object of this id."""
    return block(b"CDHD", struct.pack("<HBBBBBBhhB", number, 1, 2, 3, 4, 0x80, 0, -25, 40, 2))


def listed_room(images, tags):
    """A room of two objects, of which the first has an image of this numImages with the blocks IM0 and each of these letters."""
    blocks = b"".join(block(b"IM0" + letter.encode(), b"") for letter in tags)
    image = block(b"OBIM", blocks + block(b"IMHD", struct.pack("<8H", 7, images, 0, 0, 0, 0, 0, 0)))
    return built_room(8, 1, bytes(8), rest=image + block(b"OBCD", cdhd(7)) + block(b"OBCD", cdhd(8)))


def single(room, item):
    """An object as kg_header and kg_name tell it, the states taken from the listing."""
    header = kildegrom._buffer(16)
    number, name = item.number, kildegrom._call("kg_name", room.data, item.number)
    kildegrom._accept(kildegrom._call("kg_header", room.data, header, number))
    kildegrom._accept(kildegrom._call("kg_name_number", room.data, number))
    text = room.data[name & 0xFFFFFFFF:][:name >> 32]
    fields = struct.unpack("<HBBBBBBhhB3x", bytes(header))
    box = kildegrom.Box(*(8 * part for part in fields[1:5]))
    return kildegrom.Object(number, fields[0], text, box, fields[7:9], fields[6], fields[5], fields[9], item.states)


def drawable(room, number):
    """The states of an object whose draw isn't refused with 11. 20 is no state, nor is 0."""
    states = []
    for state in range(21):
        try:
            room.draw(number, state)
            room.back()
        except Refused as refused:
            if refused.number == 11:
                continue
        states.append(state)
    return tuple(states)


class Scratch(unittest.TestCase):
    """A folder for a test's files."""

    def setUp(self):
        self.folder = tempfile.mkdtemp()
        self.addCleanup(shutil.rmtree, self.folder)

    def file(self, name, data):
        path = os.path.join(self.folder, name)
        with open(path, "wb") as file:
            file.write(data)
        return path

    def refused(self, number, function, *words, **more):
        with self.assertRaises(Refused) as caught:
            function(*words, **more)
        self.assertEqual(caught.exception.number, number)
        return caught.exception


class Header(unittest.TestCase):
    """What the module repeats of include/kildegrom.h."""

    header = read("include", "kildegrom.h").decode()

    def test_texts(self):
        _, lines, _ = run("tools/refusal")
        texts = dict(kildegrom.REFUSALS)
        texts[0] = "accepted"
        self.assertEqual(["%d %s" % item for item in sorted(texts.items())], lines.decode().splitlines())

    def test_version(self):
        self.assertIn('KG_VERSION_TEXT "%s"' % kildegrom.VERSION, self.header)

    def test_sizes(self):
        for name in ("RECORD_SIZE", "HEADER_SIZE", "SESSION_SIZE", "LIMBS_SIZE", "ROW_SIZE", "DIFFERENCE_SIZE", "MAX_ROOM", "MAX_WIDTH", "MAX_HEIGHT"):
            self.assertRegex(self.header, r"\bKG_%s = %d\b" % (name, getattr(kildegrom, name)))
        self.assertEqual(kildegrom.MAX_DIFFERENCES, kildegrom.MAX_WIDTH // 8 * kildegrom.DIFFERENCE_SIZE)
        self.assertRegex(self.header, r"KG_MAX_OBJECTS = %d\b" % (kildegrom.MAX_ROWS // kildegrom.ROW_SIZE))
        self.assertRegex(self.header, r"KG_WEST = 0, KG_EAST = 1, KG_SOUTH = 2, KG_NORTH = 3")
        self.assertEqual((kildegrom.WEST, kildegrom.EAST, kildegrom.SOUTH, kildegrom.NORTH), (0, 1, 2, 3))

    def test_calls(self):
        letters = {"size_t": "", "uint32_t": "u", "int32_t": "i", "uint8_t": "c"}
        declared = {}
        for answer, name, words in re.findall(r"^uint(\d\d)_t (kg_\w+)\(([^)]*)\);", self.header, re.M):
            types = [re.sub(r"\bconst |\w+$", "", word.strip()) for word in " ".join(words.split()).split(",")]
            declared[name] = ("u" + answer, "".join("b" if "*" in word else letters[word.strip()] for word in types))
        self.assertEqual(declared, kildegrom._CALLS)

    def test_actor(self):
        fields = re.search(r"struct kg_actor \{(.*?)\};", self.header, re.S).group(1)
        names = re.findall(r"^ +u?int32_t (\w+);", fields, re.M)
        self.assertEqual(tuple(names), Actor._fields)


class Listing(Scratch):
    def test_rooms(self):
        for path in ROOMS:
            status, listed, _ = run("./list", path)
            done = run(sys.executable, "python/kildegrom.py", path)
            self.assertEqual(done[:2], (status, listed), path)

    def test_wrong_rooms(self):
        room = read("rooms", "cellar.room")
        rooms = [room[:100], b"", b"ROOM", room.replace(b"RMHD", b"RMHX", 1), room.replace(b"SMAP", b"SMAX", 1), room + b"x", b"\0" * 70000]
        for number, data in enumerate(rooms):
            path = self.file("wrong", data)
            status, listed, said = run("./list", path)
            got, lines, reason = run(sys.executable, "python/kildegrom.py", path)
            self.assertEqual((got, lines), (status, listed), number)
            if len(data) <= 65536:
                self.assertEqual(reason, said.replace("list:", "kildegrom:", 1))

    def test_longest(self):
        self.refused(1, Room, b"\0" * (kildegrom.MAX_ROOM + 1))
        self.refused(1, Room.open, self.file("long", b"\0" * (kildegrom.MAX_ROOM + 5)))
        self.refused(1, Room.open, "/dev/zero")
        rest = kildegrom.MAX_ROOM - len(built_room(8, 1, bytes(8))) - 8
        largest = built_room(8, 1, bytes(8), rest=block(b"XXXX", bytes(rest)))
        self.assertEqual(len(largest), kildegrom.MAX_ROOM)
        self.assertEqual(Room.open(self.file("largest", largest)).width, 8)
        self.refused(1, Room.open, self.file("larger", largest + b"x"))

    def test_program_words(self):
        for words in ([], ["a", "b"], ["--help"]):
            status, out, said = run(sys.executable, "python/kildegrom.py", *words)
            self.assertEqual((status, out, said), (2, b"", "usage: python3 -m kildegrom ROOM\n"))
        status, out, said = run(sys.executable, "python/kildegrom.py", os.path.join(self.folder, "missing"))
        self.assertEqual((status, out), (2, b""))
        self.assertIn("No such file", said)

    def test_objects(self):
        door, barrel, window = sample("cellar.room").objects
        self.assertEqual((door.number, door.id, door.name, door.text), (1, 101, b"door@@@@", "door"))
        self.assertEqual((door.box, door.walk, door.direction), ((80, 40, 32, 56), (96, 120), 2))
        self.assertEqual((barrel.parent, barrel.flags, barrel.text), (1, 0x80, "barrel"))
        self.assertEqual((window.walk, window.box.width), ((-25, 110), 40))
        self.assertEqual(door._replace(name=b"a\x81@\nb@").text, "a?@?b")
        self.assertEqual(door._replace(name=b"@@").text, "")
        self.assertEqual(door._replace(name=b"@a@").text, "@a")

    def test_single_calls(self):
        for path, room in good_rooms():
            for item in room.objects:
                self.assertEqual(item, single(room, item), path)
                self.assertEqual(item.states, drawable(room, item.number), path)
            self.assertEqual(room.objects, [single(room, item) for item in room.objects])
            self.assertEqual(kildegrom._call("kg_header", room.data, kildegrom._buffer(16), len(room.objects) + 1), 11)

    def test_states(self):
        self.assertEqual([item.states for item in sample("cellar.room").objects], [(1, 2), (1, 2), ()])
        for images, tags, states in ((0, "123", ()), (2, "123", (1, 2)), (9, "918", (1, 8, 9)), (256, "3", (3,)), (65535, ":0/A", ())):
            item, other = Room(listed_room(images, tags)).objects
            self.assertEqual((item.states, other.states), (states, ()), (images, tags))

    def test_names(self):
        texts = [b"cup@@", b"", b"\0", b"\0late", b"key\0rest", bytes(range(1, 256)), b"n" * 70000]
        objects = b"".join(block(b"OBCD", cdhd(number) + block(b"OBNA", text)) for number, text in enumerate(texts))
        room = Room(built_room(8, 1, bytes(8), rest=objects + block(b"OBCD", cdhd(9))))
        self.assertEqual([item.name for item in room.objects], [text.split(b"\0")[0] for text in texts] + [b""])
        starts = [kildegrom._u32(room._rows, 32 * number + 16) for number in range(8)]
        self.assertEqual(starts, [kildegrom._call("kg_name", room.data, number) & 0xFFFFFFFF for number in range(1, 9)])
        self.assertEqual(([start > 0 for start in starts], starts[1] + 8 + 21 + 8), ([True] * 7 + [False], starts[2]))

    def test_many_objects(self):
        for count in (0, 1, 128):
            room = Room(built_room(8, 1, bytes(8), rest=b"".join(block(b"OBCD", cdhd(number)) for number in range(count))))
            self.assertEqual([item.id for item in room.objects], list(range(count)))
            self.assertEqual(len(room.listing()), count + 1)
        self.refused(3, Room, built_room(8, 1, bytes(8), rest=block(b"OBCD", cdhd(1)) * 129))

    def test_objects_stay(self):
        room = sample("cellar.room")
        before = room.objects
        room.draw(1, 2, at=(0, 0))
        room.objects.clear()
        self.assertEqual(room.objects, before)

    def test_one_call(self):
        with unittest.mock.patch.object(kildegrom, "_call", wraps=kildegrom._call) as made:
            room = sample("cellar.room")
            self.assertEqual((len(room.objects), len(room.listing())), (3, 4))
        self.assertEqual([call.args[0] for call in made.call_args_list], ["kg_list", "kg_load"])

    def test_short_buffers(self):
        data = read("rooms", "cellar.room")
        for record_size, rows_size, number in ((16, 96, 0), (15, 96, 4), (16, 95, 4), (0, 0, 4), (17, 97, 0)):
            record, rows = kildegrom._buffer(record_size), kildegrom._buffer(rows_size)
            self.assertEqual(kildegrom._call("kg_list", data, record, rows), number)
            if number != 0:
                self.assertEqual((bytes(record), bytes(rows)), (bytes(record_size), bytes(rows_size)))

    def test_fields(self):
        room = sample("winter.room")
        self.assertEqual((room.width, room.height, room.transparent), (320, 144, 7))
        self.assertEqual(sample("cellar.room").transparent, 255)
        self.assertEqual(repr(sample("cellar.room")), "<Room 320 x 144, 1 planes, 3 objects, 0 steps>")


class Playing(Scratch):
    def played(self, path, text):
        """What ./play prints of a list, and what the module makes of it."""
        calls = self.file("calls", text)
        status, printed, _ = run("./play", path, calls)
        self.assertEqual(status, 0)
        room = Room.open(path)
        numbers = kildegrom.play(room, text)
        lines = ["call %d: %d" % item for item in enumerate(numbers, 1)]
        lines.append("pixels %08x masks %08x" % (zlib.adler32(room.pixels), zlib.adler32(room.masks)))
        self.assertEqual(printed.decode().splitlines(), lines)
        return room, numbers

    def test_sample_lists(self):
        self.assertTrue(LISTS)
        for path in LISTS:
            with open(path, "rb") as file:
                self.played(path.replace(".calls", ".room"), file.read())

    def test_random_lists(self):
        chance = random.Random(6)
        for name in ("cellar", "harbour", "winter"):
            path = os.path.join(TOP, "rooms", name + ".room")
            calls = [self.random_call(chance) for _ in range(400)]
            _, numbers = self.played(path, "\n".join(map(str, calls)).encode())
            self.assertTrue({0, 11, 12} <= set(numbers), set(numbers))

    @staticmethod
    def random_call(chance):
        kind = chance.choice(["draw", "draw", "draw at", "hide", "back"])
        number, state = chance.randrange(1, 7), chance.randrange(1, 3)
        if kind == "back":
            return Call("back")
        if kind == "hide":
            return Call("hide", number)
        return Call("draw", number, state, (chance.randrange(40), chance.randrange(18)) if kind == "draw at" else None)

    def test_forms_of_a_list(self):
        want = [Call("draw", 1, 2), Call("draw", 1, 2, (3, 4)), Call("hide", 5), Call("back")]
        text = "\ufeff# calls\r\n draw 1\t2 # a comment\r\ndraw 01 2 at 3 4\n\nhide 5\nback"
        self.assertEqual(kildegrom.read_calls(text), want)
        self.assertEqual(kildegrom.read_calls(text.encode()), want)
        self.assertEqual(kildegrom.read_calls(text.split("\n")), want)
        self.assertEqual(kildegrom.read_calls(line + "\n" for line in text.split("\n")), want)
        self.assertEqual(kildegrom.read_calls(want), want)
        self.assertEqual(kildegrom.read_calls([str(call) for call in want]), want)
        self.assertEqual(kildegrom.read_calls([]), [])
        for wrong in (5, None, [5], [["back"]]):
            self.assertRaises(TypeError, kildegrom.read_calls, wrong)

    def test_wrong_lines(self):
        lists = ["jump 1", "draw", "draw 1", "draw 1 x", "draw 1 2 3", "draw 1 2 at", "draw 1 2 at 3", "draw 1 2 at 3 4 5", "draw 1 2 to 3 4", "hide",
                 "hide 1 2", "hide -1", "hide 4294967296", "hide 00000000000004294967295\nhide +1", "back 1", "back\n\n#\nhide \u00e4", "hide 1\0", "hide\v1",
                 "b" * 41, "b" * 40, "hide " + "9" * 5000, "Draw 1 2", "hide 1.0", "back\rback", "back\r\nhide\r\n"]
        for text in lists:
            path = self.file("calls", text.encode())
            status, _, said = run("tools/calls", path)
            self.assertEqual(status, 2, text)
            room = sample("cellar.room")
            before = state_of(room)
            with self.assertRaises(kildegrom.WrongCall) as caught:
                kildegrom.play(room, "draw 1 1\n" + text)
            self.assertEqual(state_of(room), before)
            self.assertEqual("%s:%d: %s\n" % (path, caught.exception.line - 1, caught.exception.why), said)
            self.assertEqual(str(caught.exception), "line %d: %s" % (caught.exception.line, caught.exception.why))


class Steps(Scratch):
    def test_session(self):
        room = sample("cellar.room")
        self.assertEqual((room.steps, room.shown, room.position(1), room.state(1)), ([], [], None, 0))
        room.draw(1, 1)
        room.draw(2, 1, at=(5, 5))
        room.draw(2, 2)
        self.assertEqual(room.steps, [Call("draw", 1, 1), Call("draw", 2, 1, (5, 5)), Call("draw", 2, 2)])
        self.assertEqual(room.shown, [(1, 1), (2, 2)])
        self.assertEqual((room.position(1), room.position(2), room.state(1), room.state(2)), (None, (5, 5), 1, 2))
        room.hide(1)
        self.assertEqual((room.steps[-1], room.shown, room.state(1)), (Call("hide", 1), [(2, 2)], 0))
        room.draw(2, 1, at=(6, 4))
        self.assertEqual(room.position(2), (6, 4))
        room.back()
        self.assertEqual(room.position(2), (5, 5))

    def test_back_restores(self):
        room = sample("harbour.room")
        seen = []
        for call in kildegrom.read_calls(read("rooms", "harbour.calls")):
            before = (room.pixels, room.masks, room.steps, room.shown)
            if call.kind != "back" and kildegrom.play(room, [call]) == [0]:
                seen.append(before)
        self.assertTrue(seen)
        while seen:
            room.back()
            self.assertEqual((room.pixels, room.masks, room.steps, room.shown), seen.pop())
        self.refused(13, room.back)

    def test_refusals_change_nothing(self):
        room = sample("cellar.room")
        room.draw(1, 1)
        before = state_of(room)
        for number, words in ((11, (0, 1)), (11, (4, 1)), (11, (1, 0)), (11, (1, 3)), (11, (2 ** 32 - 1, 1)), (11, (3, 1)),
                              (12, (1, 1, (40, 0))), (12, (1, 1, (0, 2 ** 32 - 1)))):
            error = self.refused(number, room.draw, *words)
            self.assertEqual(str(error), "refused %d: %s" % (number, kildegrom.REFUSALS[number]))
            self.assertEqual(error.text, kildegrom.REFUSALS[number])
        self.refused(11, room.hide, 2)
        self.refused(14, room.object_at, 320, 0)
        self.refused(14, room.hidden, 1, 0, 144)
        self.assertEqual(state_of(room), before)
        room.back()
        before = state_of(room)
        self.refused(13, room.back)
        self.assertEqual(state_of(room), before)

    def test_full_history(self):
        room = sample("cellar.room")
        for step in range(64):
            room.draw(1 + step % 2, 1)
        before = state_of(room)
        self.refused(10, room.draw, 1, 1)
        self.refused(10, room.hide, 1)
        self.assertEqual(state_of(room), before)
        self.assertEqual(len(room.steps), 64)
        room.back()
        room.hide(1)

    def test_wrong_arguments(self):
        room = sample("cellar.room")
        before = state_of(room)
        for error, words in ((TypeError, ("1", 1)), (TypeError, (1.0, 1)), (TypeError, (None, 1)), (ValueError, (-1, 1)), (ValueError, (1, 2 ** 32)),
                             (TypeError, (1, 1, 5)), (TypeError, (1, 1, (5,))), (TypeError, (1, 1, (5, 5, 5))), (TypeError, (1, 1, ("5", 5))),
                             (ValueError, (1, 1, (-1, 5)))):
            self.assertRaises(error, room.draw, *words)
        self.assertRaises(TypeError, room.hide, b"1")
        self.assertRaises(ValueError, room.hide, -1)
        self.assertRaises(TypeError, room.position, "1")
        self.assertRaises(ValueError, room._number_of, Call("jump", 1))
        self.assertRaises(TypeError, room.object_at, 1.5, 0)
        for flags in (b"", b"\0\0", b"\0\0\0\0"):
            self.assertRaises(ValueError, room.object_at, 0, 0, flags)
        for flags in ("\0\0\0", 3, [0, 0, 0]):
            self.assertRaises(TypeError, room.object_at, 0, 0, flags)
        self.assertEqual(state_of(room), before)
        for data in ("text", 5, None, [1, 2]):
            self.assertRaises(TypeError, Room, data)
        self.assertRaises(OSError, Room.open, os.path.join(self.folder, "missing"))

    def test_kinds_of_bytes(self):
        data = read("rooms", "cellar.room")
        kept = bytearray(data)
        rooms = [Room(data), Room(kept), Room(memoryview(data)), Room(array.array("B", data))]
        kept[:] = bytes(len(kept))  # the room has bytes of its own
        for room in rooms:
            room.draw(1, 1)
            self.assertEqual((room.data, room.pixels), (data, rooms[0].pixels))

    def test_threads(self):
        room = sample("cellar.room")
        before = room.pixels

        def work():
            for _ in range(50):
                room.draw(1, 1)
                room.back()
        threads = [threading.Thread(target=work) for _ in range(4)]
        for thread in threads:
            thread.start()
        for thread in threads:
            thread.join()
        self.assertEqual((room.steps, room.pixels), ([], before))


class Points(Scratch):
    def test_objects(self):
        room = sample("cellar.room")
        door, barrel, window = room.objects
        for item in (door, window):
            x, y, width, height = item.box
            for point in ((x, y), (x + width - 1, y + height - 1)):
                self.assertEqual(room.object_at(*point), item.number)
            for point in ((x - 1, y), (x, y - 1), (x + width, y), (x, y + height)):
                self.assertEqual(room.object_at(*point), 0)
        self.assertEqual(room.object_at(barrel.box.x, barrel.box.y), 0)
        room.draw(1, 1)
        self.assertEqual(room.object_at(barrel.box.x, barrel.box.y), 2)
        self.assertEqual(room.object_at(barrel.box.x, barrel.box.y, b"\0\1\0"), 0)
        self.assertEqual(room.object_at(barrel.box.x, barrel.box.y, bytearray(b"\1\0\1")), 2)
        room.draw(1, 1, at=(0, 0))
        self.assertEqual((room.object_at(0, 0), room.object_at(door.box.x, door.box.y)), (1, 0))

    def test_outside(self):
        room = sample("cellar.room")
        for point in ((320, 0), (0, 144), (-1, 0), (0, -1), (2 ** 32, 0), (0, 2 ** 70), (-2 ** 32, 0)):
            self.refused(14, room.object_at, *point)
            self.refused(14, room.hidden, 0, *point)

    def test_hidden(self):
        room = sample("harbour.room")
        chance = random.Random(3)
        for _ in range(2000):
            clip, x, y = chance.randrange(4), chance.randrange(320), chance.randrange(144)
            self.assertIs(room.hidden(clip, x, y), bit(room, clip, x, y))


def bit(room, clip, x, y):
    """Whether a plane's bit is set, by the layout of the masks."""
    if clip == 0 or clip > room.planes:
        return False
    return room.masks[((clip - 1) * room.height + y) * (room.width // 8) + x // 8] >> (7 - x % 8) & 1 == 1


class Pictures(Scratch):
    def shown(self, *words):
        status, picture, said = run("./show", *words)
        self.assertEqual((status, said), (0, ""))
        return picture

    def test_ppm(self):
        for path, room in good_rooms():
            self.assertEqual(room.ppm(), self.shown(path), path)

    def test_palette_and_calls(self):
        for name in ("harbour", "winter"):
            palette = read("rooms", name + ".pal")
            room = sample(name + ".room")
            kildegrom.play(room, read("rooms", name + ".calls"))
            words = ["rooms/%s.%s" % (name, end) for end in ("room", "calls", "pal")]
            self.assertEqual(room.ppm(palette), self.shown(words[0], words[1], "--palette", words[2]))
            colours = [palette[3 * pixel:3 * pixel + 3] for pixel in room.pixels]
            self.assertEqual(room.rgb(bytearray(palette)), b"".join(colours))

    def test_own_palette(self):
        rows = bytes(range(256))
        colours, others = bytes((7 * i + 3) % 256 for i in range(768)), bytes(768)
        own, short = block(b"CLUT", colours), block(b"CLUT", colours[:767])
        inner = block(b"ROOM", block(b"CLUT", others))
        for rest, palette in ((own, colours), (b"", None), (own + block(b"CLUT", others), colours), (short + own, None), (inner, None),
                              (inner + own, colours), (block(b"CLUT", colours + b"x"), None)):
            data = built_room(32, 8, rows, rest=rest)
            room = Room(data)
            self.assertEqual(room.palette, palette)
            self.assertEqual(room.rgb(), kildegrom.GREYS if palette is None else palette)
            self.assertEqual(room.rgb(kildegrom.GREYS), kildegrom.GREYS)
            self.assertEqual(room.ppm(), self.shown(self.file("own.room", data)))

    def test_wrong_palette(self):
        room = sample("cellar.room")
        for palette in (b"", bytes(767), bytes(769)):
            self.assertRaises(ValueError, room.rgb, palette)
        self.assertRaises(TypeError, room.ppm, "grey")


class Comparing(Scratch):
    def test_lines(self):
        for a in ROOMS:
            for b in ("rooms/harbour.room", "rooms/cellar.room"):
                status, lines, said = run("./compare", a, b)
                try:
                    found = kildegrom.compare(read(a), read(b))
                except Refused as error:
                    self.assertEqual(status, 2)
                    self.assertIn(str(error), said)
                    continue
                self.assertEqual((status, said), (1 if found else 0, ""))
                want = [line for line in lines.decode().splitlines() if line.startswith(("strip", "total"))]
                self.assertEqual(self.lines(found, 40), want)

    @staticmethod
    def lines(found, strips):
        def planes(numbers):
            return " ".join(map(str, numbers)) or "none"
        total = (len(found), strips, sum(place.pixels for place in found), planes(sorted({k for place in found for k in place.planes})))
        return ["strip %d pixels %d planes %s" % (place.strip, place.pixels, planes(place.planes)) for place in found] + [
            "total strips %d of %d pixels %d planes %s" % total]

    def test_rooms(self):
        a, b = sample("harbour.room"), sample("harbour-b.room")
        found = kildegrom.compare(a, b)
        self.assertTrue(found)
        a.draw(1, 1)
        self.assertEqual(kildegrom.compare(a, b.data), found)
        self.assertEqual(kildegrom.compare(a, a), [])

    def test_planes(self):
        rows, none, some = bytes(128), bytes(16), bytes(15) + b"\1"
        for k in range(1, 5):
            planes = [some if plane == k else none for plane in range(1, 5)]
            a, b = built_room(16, 8, rows, planes), built_room(16, 8, rows)
            self.assertEqual(kildegrom.compare(a, b), [kildegrom.Difference(1, 0, (k,))])
            self.assertEqual(kildegrom.compare(b, Room(a)), [(1, 0, (k,))])

    def test_refused(self):
        self.refused(16, kildegrom.compare, sample("cellar.room"), built_room(8, 1, bytes(8)))
        self.refused(1, kildegrom.compare, sample("cellar.room"), b"")
        self.assertRaises(TypeError, kildegrom.compare, sample("cellar.room"), "rooms/cellar.room")


class Writing(Scratch):
    def test_read_back(self):
        chance = random.Random(9)
        for width, height, planes in ((8, 1, 0), (16, 2, 1), (320, 144, 4), (1024, 200, 2), (8, 200, 4), (1024, 1, 1)):
            rows = bytes(chance.choice((5, 6, 7, 200, 255)) for _ in range(width * height))
            masks = [bytes(chance.choice((0, 0, 255, 3)) for _ in range(width // 8 * height)) for _ in range(planes)]
            room = Room(built_room(width, height, rows, masks))
            self.assertEqual((room.width, room.height, room.planes), (width, height, planes))
            self.assertEqual((room.pixels, room.masks, room.objects), (rows, b"".join(masks), []))
            self.assertEqual((room.object_at(width - 1, height - 1), room.hidden(0, 0, 0)), (0, False))

    def test_worst_rows(self):
        chance = random.Random(4)
        for width, height in ((8, 200), (1024, 7), (64, 64)):
            rows = bytes(chance.randrange(256) for _ in range(width * height))
            mask = bytes(chance.randrange(256) for _ in range(width // 8 * height))
            room = Room(built_room(width, height, rows, [mask]))
            self.assertEqual((room.pixels, room.masks), (rows, mask))

    def test_refused(self):
        for width, height in ((0, 0), (0, 5), (8, 0), (12, 2), (1032, 1), (8, 201)):
            self.refused(3, kildegrom.write_smap, bytes(width * height), width, height)
            self.refused(3, kildegrom.write_plane, bytes(width // 8 * height), width, height, 1)
        for k in (0, 5, 2 ** 32 - 1):
            self.refused(3, kildegrom.write_plane, bytes(2), 8, 2, k)

    def test_sizes_that_need_no_memory(self):
        with unittest.mock.patch.object(kildegrom, "_buffer", wraps=kildegrom._buffer) as made:
            self.refused(3, kildegrom.write_smap, b"", 2 ** 32 - 8, 0)
            self.refused(3, kildegrom.write_plane, b"", 2 ** 32 - 8, 0, 1)
        self.assertEqual(made.call_args_list, [unittest.mock.call(8)] * 2)

    def test_wrong_arguments(self):
        for size in (0, 15, 17):
            self.assertRaises(ValueError, kildegrom.write_smap, bytes(size), 8, 2)
            self.assertRaises(ValueError, kildegrom.write_plane, bytes(size), 64, 2, 1)
        self.assertRaises(TypeError, kildegrom.write_smap, [0] * 16, 8, 2)
        self.assertRaises(ValueError, kildegrom.write_smap, bytes(16), -8, -2)
        self.assertRaises(TypeError, kildegrom.write_plane, bytes(2), 8, 2, "1")


def stamped(room, pixels, picture, size, place, clip, clear):
    """A stamp by a plain reading."""
    made = bytearray(pixels)
    for row in range(size[1]):
        for column in range(size[0]):
            x, y, colour = place[0] + column, place[1] + row, picture[row * size[0] + column]
            if 0 <= x < room.width and 0 <= y < room.height and colour != clear and not bit(room, clip, x, y):
                made[y * room.width + x] = colour
    return bytes(made)


class Actors(Scratch):
    def setUp(self):
        super().setUp()
        self.room = sample("harbour.room")
        self.room.draw(1, 1)

    def test_stamps(self):
        chance = random.Random(5)
        frame, want = self.room.frame(), self.room.pixels
        for _ in range(60):
            size = (chance.randrange(1, 40), chance.randrange(1, 40))
            place = (chance.randrange(-40, 330), chance.randrange(-40, 150))
            picture = bytes(chance.choice((0, 9, 255)) for _ in range(size[0] * size[1]))
            clip, clear = chance.randrange(4), chance.choice((None, 0, 9, 255))
            frame.stamp(picture, *size, *place, clip=clip, clear=clear)
            want = stamped(self.room, want, picture, size, place, clip, self.room.transparent if clear is None else clear)
            self.assertEqual(frame.pixels, want)
        self.assertNotEqual(frame.pixels, self.room.pixels)

    def test_frames(self):
        frame = self.room.frame()
        before = self.room.pixels
        self.assertEqual(frame.palette, self.room.palette)
        self.room.back()
        self.assertEqual(frame.pixels, before)
        frame.stamp(b"\7", 1, 1, 0, 0)
        self.assertEqual((frame.pixels[0], frame.pixels[1:]), (7, before[1:]))
        self.assertEqual(frame.ppm()[:15], b"P6\n320 144\n255\n")
        self.assertEqual(frame.rgb(kildegrom.GREYS), b"".join(bytes([pixel] * 3) for pixel in frame.pixels))
        self.assertEqual(frame.rgb(), frame.rgb(self.room.palette))

    def test_transparent(self):
        winter = sample("winter.room")
        frame = winter.frame()
        frame.stamp(b"\7\xff", 2, 1, 0, 0)
        self.assertEqual(frame.pixels, winter.pixels[:1] + b"\xff" + winter.pixels[2:])
        frame = winter.frame()
        frame.cast([Actor(1, 1, 0, 0, 2, 1)], b"\7\xff")
        self.assertEqual(frame.pixels, winter.pixels[:1] + b"\xff" + winter.pixels[2:])
        frame.cast([Actor(1, 1, 0, 0, 2, 1)], b"\7\xff", clear=255)
        self.assertEqual(frame.pixels, b"\7\xff" + winter.pixels[2:])

    def test_casts(self):
        chance = random.Random(8)
        pictures = bytes(chance.choice((1, 2, 3, 255)) for _ in range(4000))
        for count in (0, 1, 5, 32):
            cast = [Actor(chance.randrange(4), chance.randrange(-2, 3), chance.randrange(-9, 320), chance.randrange(-9, 144), chance.randrange(1, 20),
                          chance.randrange(1, 20), chance.randrange(4), chance.randrange(3600)) for _ in range(count)]
            frame, want = self.room.frame(), self.room.pixels
            painted = sorted(cast, key=lambda actor: (actor.y, actor.id))
            self.assertEqual(frame.cast(cast, pictures), painted)
            for actor in painted:
                size = (actor.width, actor.height)
                want = stamped(self.room, want, pictures[actor.start:actor.start + size[0] * size[1]], size, (actor.left, actor.top), actor.clip, 255)
            self.assertEqual(frame.pixels, want)

    def test_harbour_cast(self):
        lines = [line.split("#")[0].split() for line in read("rooms", "harbour.cast").decode().splitlines()]
        actors = [tuple(map(int, words[1:])) for words in lines if words[:1] == ["actor"]]
        room = sample("harbour.room")
        kildegrom.play(room, read("rooms", "harbour.calls"))
        frame = room.frame()
        frame.cast(actors, read("rooms", "harbour.pictures"))
        words = ("rooms/harbour.room", "rooms/harbour.calls", "--cast", "rooms/harbour.cast", "--palette", "rooms/harbour.pal")
        self.assertEqual(frame.ppm(read("rooms", "harbour.pal")), run("./show", *words)[1])

    def test_refused(self):
        frame = self.room.frame()
        before = frame.pixels
        self.refused(3, frame.stamp, b"", 0, 1, 0, 0)
        self.refused(3, frame.stamp, bytes(129), 129, 1, 0, 0)
        one = Actor(1, 1, 0, 0, 4, 4)
        self.refused(18, frame.cast, [one] * 33, bytes(16))
        self.refused(3, frame.cast, [one, one._replace(width=0)], bytes(16))
        self.refused(4, frame.cast, [one], bytes(15))
        self.refused(4, frame.cast, [one._replace(start=2 ** 32 - 1)], bytes(16))
        self.assertEqual(frame.pixels, before)

    def test_wrong_arguments(self):
        frame = self.room.frame()
        before = frame.pixels
        for error, words in ((ValueError, (bytes(3), 2, 2, 0, 0)), (ValueError, (bytes(5), 2, 2, 0, 0)), (TypeError, ("abcd", 2, 2, 0, 0)),
                             (ValueError, (bytes(4), 2, 2, 2 ** 31, 0)), (ValueError, (bytes(4), 2, 2, 0, -2 ** 31 - 1)), (TypeError, (bytes(4), 2, 2, 0.5, 0)),
                             (ValueError, (bytes(4), 2, 2, 0, 0, -1)), (ValueError, (bytes(4), 2, 2, 0, 0, 0, 256)), (ValueError, (b"", -1, 0, 0, 0))):
            self.assertRaises(error, frame.stamp, *words)
        one = Actor(1, 1, 0, 0, 1, 1)
        for error, actors in ((TypeError, [one[:5]]), (TypeError, [one + (9,)]), (TypeError, [5]), (ValueError, [one._replace(id=-1)]),
                              (ValueError, [one._replace(y=2 ** 31)]), (TypeError, [one._replace(left="0")]), (TypeError, 5)):
            self.assertRaises(error, frame.cast, actors, bytes(16))
        self.assertRaises(TypeError, frame.cast, [one], "pictures")
        self.assertEqual(frame.pixels, before)


class Costumes(Scratch):
    payload = bytes([8, 0, 0x00, 0x80, 0, 0, 1, 0, 0x11, 0x79])  # one record for limb 0, a window of two bytes: picture 11, then stop

    def test_limbs(self):
        costume = kildegrom.Costume(self.payload, 0, 1, 14)
        self.assertEqual((costume.picture(0), costume.limbs), (None, bytes(256)))
        self.assertIs(costume.start(0, kildegrom.WEST), True)
        self.assertIsNone(costume.picture(0))
        costume.tick()
        self.assertEqual(costume.picture(0), 0x11)
        costume.tick()
        self.assertIsNone(costume.picture(0))
        self.assertIsNone(costume.picture(15))

    def test_refused(self):
        costume = kildegrom.Costume(self.payload, 0, 1, 14)
        self.refused(15, costume.start, 0, kildegrom.EAST)
        self.refused(15, costume.start, 244, kildegrom.WEST)
        self.refused(15, costume.picture, 16)
        self.refused(15, kildegrom.Costume(b"", 0, 1, 14).start, 0, 0)
        self.assertEqual(costume.limbs, bytes(256))

    def test_not_defined(self):
        self.assertIs(kildegrom.Costume(bytes(10), 0, 1, 14).start(0, kildegrom.WEST), False)

    def test_arguments(self):
        self.assertRaises(TypeError, kildegrom.Costume, "bytes", 0, 1, 14)
        self.assertRaises(ValueError, kildegrom.Costume, b"", -1, 1, 14)
        self.assertRaises(TypeError, kildegrom.Costume(b"", 0, 1, 14).picture, None)
        self.assertEqual([kildegrom.costume_direction(k) for k in (0, 1, 2, 3, 4)], [kildegrom.EAST, kildegrom.WEST, kildegrom.NORTH, kildegrom.SOUTH, 4])


class Library(Scratch):
    """How the library is found, in an interpreter of its own each time."""

    def listed(self, module, **environment):
        clean = {name: value for name, value in os.environ.items() if name != "KILDEGROM_LIBRARY"}
        return run(sys.executable, "-B", module, "rooms/cellar.room", env={**clean, **environment})

    def copied(self, *folders):
        """The module in another folder."""
        folder = os.path.join(self.folder, *folders)
        os.makedirs(folder)
        return shutil.copy(os.path.join(TOP, "python", "kildegrom.py"), folder)

    def test_installed(self):
        module = self.copied("a prefix", "share", "kildegrom", "python")
        os.makedirs(os.path.join(self.folder, "a prefix", "lib"))
        shutil.copy(os.path.join(TOP, "target", "shared", kildegrom.LIBRARY), os.path.join(self.folder, "a prefix", "lib"))
        self.assertEqual(self.listed(module)[:2], run("./list")[:2])

    def test_named(self):
        named = os.path.join(TOP, "target", "shared", "libkildegrom.so")
        self.assertEqual(self.listed(self.copied("elsewhere"), KILDEGROM_LIBRARY=named)[:2], run("./list")[:2])

    def test_wrong(self):
        for name in (os.path.join(self.folder, "missing.so"), self.file("text.so", b"no library")):
            status, out, said = self.listed("python/kildegrom.py", KILDEGROM_LIBRARY=name)
            self.assertEqual((status, out), (2, b""))
            self.assertIn(name, said)
        status, _, said = self.listed("python/kildegrom.py", KILDEGROM_LIBRARY="libc.so.6")
        self.assertEqual((status, said), (2, "kildegrom: libc.so.6 has no kg_record: it is not Kildegrom %s\n" % kildegrom.VERSION))

    def test_missing(self):
        if kildegrom.ctypes.util.find_library("kildegrom"):
            self.skipTest("the system has a library")
        status, _, said = self.listed(self.copied("elsewhere"))
        self.assertEqual(status, 2)
        self.assertIn("make shared", said)
        self.assertIn("KILDEGROM_LIBRARY", said)


if __name__ == "__main__":
    unittest.main()
