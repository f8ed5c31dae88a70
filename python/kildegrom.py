"""Kildegrom from Python: the proved C library that reads, paints, compares and writes SCUMM v5 room blocks.

    import kildegrom

    room = kildegrom.Room.open("rooms/cellar.room")
    room.draw(1, 1)                      # object 1 in state 1 where it last was
    room.draw(1, 2, at=(3, 1))           # in state 2 at strip position (3, 1), which is pixel (24, 8)
    room.back()                          # takes the newest step back
    open("cellar.ppm", "wb").write(room.ppm())

A call that the library refuses raises Refused, with the refusal's number and text, and changes nothing. A wrong argument (of another type, out
of its range, bytes of a wrong length) raises TypeError or ValueError before the library is called. What a call does is said, and proved, of
the functions of include/kildegrom.h; this module lends them buffers of the sizes that the header names and copies what comes out.

The library is the file that the environment's KILDEGROM_LIBRARY names; else the one that was installed with this module; else
target/shared of the repository; else the one that the system finds. It is loaded at the first call, and called with the interpreter's lock
held, so that threads may share a room. `python3 -m kildegrom ROOM` lists a room as ./list does. Python 3.8 or later, nothing else.
"""
import ctypes
import ctypes.util
import functools
import operator
import os
import re
import sys
from typing import NamedTuple, Optional, Tuple

__all__ = [
    "Actor", "Box", "Call", "Costume", "Difference", "Entry", "Frame", "Object", "Refused", "Room", "WrongCall", "compare", "costume_direction",
    "play", "read_calls", "write_plane", "write_smap", "EAST", "GREYS", "NORTH", "REFUSALS", "SOUTH", "VERSION", "WEST",
]

VERSION = "0.1.0"
LIBRARY = "libkildegrom.so." + VERSION.split(".", maxsplit=1)[0]

#: The refusals' numbers and texts, as include/kildegrom.h has them.
REFUSALS = {
    1: "not one ROOM block filling the slice, or a block of it is wrong",
    2: "a needed block is missing or too short",
    3: "width, height, planes, object count or a picture's size is out of range",
    4: "a lent buffer is too short",
    5: "a strip table doesn't fit its block, or an offset is wrong",
    6: "unknown strip code",
    7: "strip bytes run out",
    8: "an operation passes the end of the strip",
    9: "the session isn't one that this room gives",
    10: "the history holds 64 steps",
    11: "no such object, image state or shown entry",
    12: "the place isn't allowed",
    13: "nothing to take back",
    14: "the point is outside the room",
    15: "an animation number, record, window or limb state is wrong",
    16: "the two rooms differ in width or height",
    18: "a cast has more than 32 actors",
}

#: The palette of a room that has none of its own: 256 greys.
GREYS = bytes(level for level in range(256) for _ in range(3))

#: The directions as Costume.start counts them.
WEST, EAST, SOUTH, NORTH = range(4)

# The sizes of what is lent, named as in the header.
RECORD_SIZE, HEADER_SIZE, SESSION_SIZE, LIMBS_SIZE, ROW_SIZE, DIFFERENCE_SIZE = 16, 16, 450, 256, 32, 8
MAX_ROOM, MAX_WIDTH, MAX_HEIGHT, MAX_ROWS, MAX_DIFFERENCES = 1048576, 1024, 200, 4096, 1024
PALETTE_SIZE = 768

_U32 = 0xFFFFFFFF


class Refused(Exception):
    """A call that the library refused: its `number` and `text`. Nothing has changed."""

    def __init__(self, number):
        super().__init__(number)
        self.number = number
        self.text = REFUSALS.get(number, "unknown number")

    def __str__(self):
        return "refused %d: %s" % (self.number, self.text)


class WrongCall(ValueError):
    """A line of a list that is no call: its number in the list, `line`, and `why`, as tools/calls says it."""

    def __init__(self, line, why):
        super().__init__(line, why)
        self.line = line
        self.why = why

    def __str__(self):
        return "line %d: %s" % (self.line, self.why)


# ---- The library ----

class _Actor(ctypes.Structure):
    """struct kg_actor."""
    _fields_ = [(name, ctypes.c_int32 if name in ("y", "left", "top") else ctypes.c_uint32)
                for name in ("id", "y", "left", "top", "width", "height", "clip", "start")]


# What each call answers, and what it is given: b a buffer and its length, u a u32, i an i32, c a byte.
_CALLS = {
    "kg_record": ("u32", "bb"),
    "kg_load": ("u32", "bbbb"),
    "kg_draw_last": ("u32", "bbbbuu"),
    "kg_draw_at": ("u32", "bbbbuuuu"),
    "kg_hide": ("u32", "bbbbu"),
    "kg_take_back": ("u32", "bbbb"),
    "kg_object_at": ("u64", "bbbuu"),
    "kg_list": ("u32", "bbb"),
    "kg_header": ("u32", "bbu"),
    "kg_name": ("u64", "bu"),
    "kg_name_number": ("u32", "bu"),
    "kg_hidden": ("u64", "buuuuuu"),
    "kg_stamp": ("u32", "bbbuuuuuiiuc"),
    "kg_cast": ("u32", "bbbbuuuc"),
    "kg_start": ("u64", "bbuuuuu"),
    "kg_tick": ("u32", "bbu"),
    "kg_limb_draws": ("u64", "bu"),
    "kg_compare": ("u64", "bbb"),
    "kg_write_smap": ("u64", "bbuu"),
    "kg_write_plane": ("u64", "bbuuu"),
}
_ANSWERS = {"u32": ctypes.c_uint32, "u64": ctypes.c_uint64}
_WORDS = {
    "b": (ctypes.c_void_p, ctypes.c_size_t), "u": (ctypes.c_uint32,), "i": (ctypes.c_int32,), "c": (ctypes.c_uint8,),
}


def _places():
    """Where the library may stand: files that are there, or the name that the system finds."""
    here = os.path.dirname(os.path.realpath(__file__))
    if here.endswith(os.path.join("share", "kildegrom", "python")):
        yield os.path.join(os.path.dirname(os.path.dirname(os.path.dirname(here))), "lib", LIBRARY)
    yield os.path.join(os.path.dirname(here), "target", "shared", LIBRARY)
    found = ctypes.util.find_library("kildegrom")
    if found:
        yield found


def _opened():
    named = os.environ.get("KILDEGROM_LIBRARY")
    if named:
        return ctypes.PyDLL(named)
    for place in _places():
        if not os.path.isabs(place) or os.path.exists(place):
            return ctypes.PyDLL(place)
    raise OSError("%s is not found: `make shared` in Kildegrom's repository builds it, or name the file in KILDEGROM_LIBRARY" % LIBRARY)


@functools.lru_cache(maxsize=None)
def _library():
    library = _opened()
    for name, (answer, words) in _CALLS.items():
        try:
            function = getattr(library, name)
        except AttributeError:
            raise OSError("%s has no %s: it is not Kildegrom %s" % (library._name, name, VERSION)) from None
        function.restype = _ANSWERS[answer]
        function.argtypes = [kind for word in words for kind in _WORDS[word]]
    return library


def _call(name, *words):
    """The answer of a call. A buffer among the words is lent with its length; the words are checked already."""
    lent = []
    for word in words:
        lent += (word,) if isinstance(word, int) else (word, len(word))
    return getattr(_library(), name)(*lent)


def _accept(number):
    if number != 0:
        raise Refused(number)


def _value(answer):
    """The value of an answer of two parts, where the number says that the call is accepted."""
    _accept(answer & _U32)
    return answer >> 32


def _buffer(size):
    return (ctypes.c_uint8 * size)()


# ---- Arguments ----

def _int(value, what):
    try:
        return operator.index(value)
    except TypeError:
        raise TypeError("%s: an int is needed, not %s" % (what, type(value).__name__)) from None


def _number(value, what, low=0, high=_U32):
    """The value as an int in its range: ctypes would cut it to 32 bits without a word."""
    number = _int(value, what)
    if not low <= number <= high:
        raise ValueError("%s: %d is not %d to %d" % (what, number, low, high))
    return number


def _signed(value, what):
    return _number(value, what, -0x80000000, 0x7FFFFFFF)


def _point(value, what):
    """A coordinate of a point. Every int that is no u32 lies outside every room, as the largest u32 does."""
    number = _int(value, what)
    return number if 0 <= number <= _U32 else _U32


def _pair(value, what):
    try:
        a, b = value
    except (TypeError, ValueError):
        raise TypeError("%s: two numbers (a, b) are needed" % what) from None
    return _number(a, what), _number(b, what)


def _bytes(value, what, size=None):
    """The bytes of any object that has some (bytes, bytearray, memoryview, array), of that size where one is named."""
    try:
        taken = value if type(value) is bytes else memoryview(value).tobytes()
    except TypeError:
        raise TypeError("%s: bytes are needed, not %s" % (what, type(value).__name__)) from None
    if size is not None and len(taken) != size:
        raise ValueError("%s: %d bytes are needed, not %d" % (what, size, len(taken)))
    return taken


def _room_bytes(room):
    return room.data if isinstance(room, Room) else _bytes(room, "room")


# ---- What rooms hold ----

def _u16(data, at):
    return data[at] | data[at + 1] << 8


def _u32(data, at):
    return _u16(data, at) | _u16(data, at + 2) << 16


def _i16(data, at):
    return (_u16(data, at) ^ 0x8000) - 0x8000


class Box(NamedTuple):
    """A box in pixels: its upper left corner and its size."""
    x: int
    y: int
    width: int
    height: int


class Object(NamedTuple):
    """An object of a room, as its header, its name and its image say it."""
    number: int             #: from 1
    id: int                 #: the id that pairs it with its image
    name: bytes             #: as the room has it, without the closing NUL; empty where it has none
    box: Box                #: its place before any step; position() tells where it was drawn to
    walk: Tuple[int, int]   #: where an actor stands to use it
    parent: int             #: the number of the object that contains it, 0 for none
    flags: int              #: bit 0x80: the parent's state must not be 0; without it, it must be 0
    direction: int          #: where the actor then looks: E 0, W 1, N 2, S 3 (costume_direction)
    states: Tuple[int, ...]  #: the states that can be drawn, of 1 to 9: a draw of any other is refused with 11, and one of these only for its
                             #: place (12) or its image (2 and 5 to 8), which isn't tested before the draw

    @property
    def text(self):
        """The name to read: without the `@` that fill it up at its end, `?` for what is no printable ASCII."""
        return "".join(chr(byte) if 32 <= byte < 127 else "?" for byte in self.name.rstrip(b"@"))


class Entry(NamedTuple):
    """An object that is shown, and its state."""
    object: int
    state: int


class Call(NamedTuple):
    """A call of a list, or a step of a history: `draw`, `hide` or `back`. As a text it is the list's line."""
    kind: str
    object: int = 0
    state: int = 0
    at: Optional[Tuple[int, int]] = None   #: the strip position of a draw that names one

    def __str__(self):
        if self.kind == "draw":
            return "draw %d %d" % (self.object, self.state) + (" at %d %d" % self.at if self.at is not None else "")
        return "hide %d" % self.object if self.kind == "hide" else self.kind


class Difference(NamedTuple):
    """A strip in which two rooms differ."""
    strip: int                #: from 0: pixel columns 8 * strip to 8 * strip + 7
    pixels: int               #: how many of its pixels differ
    planes: Tuple[int, ...]   #: the planes in which a row of it differs


class Actor(NamedTuple):
    """An actor of a cast."""
    id: int           #: of two actors with the same y the lower id is painted first
    y: int            #: the y of its feet: the smaller one stands farther back and is painted first
    left: int         #: where its picture's upper left corner goes
    top: int
    width: int        #: its picture's size
    height: int
    clip: int = 0     #: the plane that hides it; 0 for none
    start: int = 0    #: where its picture starts in the lent pictures: width * height bytes by rows


class _Picture:
    """What a room and a frame share: `pixels` of `width` by `height`, in colours."""

    def rgb(self, palette=None):
        """The pixels as red, green and blue bytes. A palette has 768 bytes; without one it is the room's own, or greys where it has none."""
        if palette is None:
            colours = GREYS if self.palette is None else self.palette
        else:
            colours = _bytes(palette, "palette", PALETTE_SIZE)
        pixels = self.pixels
        made = bytearray(3 * len(pixels))
        for part in range(3):
            made[part::3] = pixels.translate(colours[part::3])
        return bytes(made)

    def ppm(self, palette=None):
        """The same as a whole PPM file (P6)."""
        return b"P6\n%d %d\n255\n" % (self.width, self.height) + self.rgb(palette)


class Room(_Picture):
    """A room, loaded: Room(bytes), or Room.open(path). Refusals 1 to 8.

    data                     the room's bytes
    width, height            its size in pixels; the width is a multiple of 8
    planes                   how many mask planes it has
    transparent              its transparent colour
    palette                  the 768 bytes of its own palette, where the first CLUT block directly in ROOM has so many; else None. It is read
                             here, as ./show reads it: the library knows no palettes
    """

    def __init__(self, data):
        self.data = _bytes(data, "room")
        record, rows = _buffer(RECORD_SIZE), _buffer(MAX_ROWS)
        _accept(_call("kg_list", self.data, record, rows))
        self.width, self.height, self.planes, self._count = (_u16(record, at) for at in (0, 2, 4, 6))
        self.transparent = record[8]
        self._rows = bytes(rows[:ROW_SIZE * self._count])
        self._session = _buffer(SESSION_SIZE)
        self._pixels = _buffer(self.width * self.height)
        self._masks = _buffer(self.planes * (self.width // 8) * self.height)
        _accept(self._step("kg_load"))
        self.palette = self._palette()

    @classmethod
    def open(cls, path):
        """The room of a file. A file that can't be read raises OSError."""
        with open(path, "rb") as file:
            return cls(file.read(MAX_ROOM + 1))  # one byte more than a room may have: a longer file is refused, not cut

    def __repr__(self):
        return "<Room %d x %d, %d planes, %d objects, %d steps>" % (self.width, self.height, self.planes, self._count, self._session[0])

    def _palette(self):
        at = 8
        while at < len(self.data):  # the room is accepted: its blocks fill it, each of 8 bytes or more
            tag, size = self.data[at:at + 4], int.from_bytes(self.data[at + 4:at + 8], "big")
            if tag == b"CLUT":
                return self.data[at + 8:at + size] if size == 8 + PALETTE_SIZE else None
            at += size
        return None

    # -- what is painted --

    @property
    def pixels(self):
        """The pixels' colours, width * height bytes by rows."""
        return bytes(self._pixels)

    @property
    def masks(self):
        """The planes' bits: plane k, row y, strip s is byte ((k - 1) * height + y) * (width // 8) + s; bit 7 is the leftmost pixel."""
        return bytes(self._masks)

    def frame(self):
        """A copy of pixels and masks as they are now, on which actors are painted."""
        return Frame(self)

    # -- steps --

    def _step(self, name, *numbers):
        return _call(name, self.data, self._session, self._pixels, self._masks, *numbers)

    def _number_of(self, call):
        """The number of a call of a list."""
        if call.kind == "back":
            return self._step("kg_take_back")
        number = _number(call.object, "object")
        if call.kind == "hide":
            return self._step("kg_hide", number)
        if call.kind != "draw":
            raise ValueError("kind: %r is not draw, hide or back" % (call.kind,))
        state = _number(call.state, "state")
        if call.at is None:
            return self._step("kg_draw_last", number, state)
        return self._step("kg_draw_at", number, state, *_pair(call.at, "at"))

    def draw(self, object, state, at=None):
        """Draws an object, counted from 1, in a state: where it last was, or at the strip position (a, b), which is pixel (8a, 8b).
        Refusals 2 and 5 to 8 for its image, 10 to 12."""
        _accept(self._number_of(Call("draw", object, state, at)))

    def hide(self, object):
        """Hides an object that is shown. Refusals 10 and 11."""
        _accept(self._number_of(Call("hide", object)))

    def back(self):
        """Takes the newest step back. Refusal 13."""
        _accept(self._number_of(Call("back")))

    @property
    def session(self):
        """The history and the shown list as the library keeps them (docs/LAYOUTS.md)."""
        return bytes(self._session)

    @property
    def steps(self):
        """The history as a list of Call, the oldest first."""
        return [self._step_at(2 + 5 * i) for i in range(self._session[0])]

    def _step_at(self, at):
        kind, number, state, a, b = self._session[at:at + 5]
        return Call("hide", number) if kind == 0 else Call("draw", number, state, None if kind == 1 else (a, b))

    @property
    def shown(self):
        """The objects that are shown as a list of Entry; the one that is painted first comes first."""
        return [Entry(*self._session[322 + 2 * i:324 + 2 * i]) for i in range(self._session[1])]

    def state(self, object):
        """The state that an object is shown in, 0 where it isn't shown."""
        number = _number(object, "object")
        return next((entry.state for entry in self.shown if entry.object == number), 0)

    def position(self, object):
        """An object's newest strip position (a, b) in the history, None where it has none: then its box stands where `objects` has it."""
        number = _number(object, "object")
        return next((step.at for step in reversed(self.steps) if step.object == number and step.at is not None), None)

    # -- objects --

    @property
    def objects(self):
        """The room's objects as a list of Object, as they were when the room was loaded: steps don't change them."""
        return list(self._objects)

    @functools.cached_property
    def _objects(self):
        return tuple(self._object(number) for number in range(1, self._count + 1))

    def _object(self, number):
        row = self._rows[ROW_SIZE * (number - 1):ROW_SIZE * number]
        start, length, states = _u32(row, 16), _u32(row, 20), _u16(row, 24)
        return Object(number=number, id=_u16(row, 0), name=self.data[start:start + length], box=Box(*(8 * part for part in row[2:6])),
                      walk=(_i16(row, 8), _i16(row, 10)), parent=row[7], flags=row[6], direction=row[12],
                      states=tuple(state for state in range(1, 10) if states >> (state - 1) & 1))

    def object_at(self, x, y, flags=None):
        """The number of the object under a point, 0 for none: the lowest-numbered one whose box holds the point, whose byte in `flags` is 0 and
        whose containers are all in the state that their contents ask for. `flags` has a byte for each object; without it all are 0.
        Refusal 14."""
        lent = bytes(self._count) if flags is None else _bytes(flags, "flags", self._count)
        return _value(_call("kg_object_at", self.data, self._session, lent, _point(x, "x"), _point(y, "y")))

    def hidden(self, clip, x, y):
        """Whether an actor's pixel at (x, y) is hidden at a clip level; 0 and one above the planes hide nothing. Refusal 14."""
        size = (self.width, self.height, self.planes)
        return _value(_call("kg_hidden", self._masks, *size, _number(clip, "clip"), _point(x, "x"), _point(y, "y"))) == 1

    def listing(self):
        """The lines that ./list prints of the room."""
        lines = ["room %d %d planes %d objects %d" % (self.width, self.height, self.planes, self._count)]
        return lines + ["object %d id %d box %d %d %d %d walk %d %d" % (item.number, item.id, *item.box, *item.walk) for item in self._objects]


class Frame(_Picture):
    """A copy of a room's pixels for actors, made by Room.frame(). Later steps of the room don't change it."""

    def __init__(self, room):
        self.width, self.height, self.planes = room.width, room.height, room.planes
        self.transparent, self.palette = room.transparent, room.palette
        self._pixels = type(room._pixels).from_buffer_copy(room._pixels)
        self._masks = room.masks

    @property
    def pixels(self):
        """The frame's colours, width * height bytes by rows."""
        return bytes(self._pixels)

    def _clear(self, clear):
        return self.transparent if clear is None else _number(clear, "clear", 0, 255)

    def stamp(self, picture, width, height, x, y, clip=0, clear=None):
        """Stamps a picture of width * height bytes, its upper left corner at (x, y), behind the plane that `clip` names. The colour `clear`, the
        room's transparent one where none is named, is not painted. Refusal 3."""
        size = (_number(width, "width"), _number(height, "height"))
        place = (_signed(x, "x"), _signed(y, "y"))
        lent = _bytes(picture, "picture", size[0] * size[1])
        _accept(_call("kg_stamp", self._pixels, self._masks, lent, self.width, self.height, self.planes, *size, *place, _number(clip, "clip"),
                      self._clear(clear)))

    def cast(self, actors, pictures, clear=None):
        """Paints actors, back to front, and answers them as a list in that order. Refusals 18; 3 and 4 for the first bad actor."""
        taken = [self._actor(actor) for actor in actors]
        listed = (_Actor * len(taken))(*taken)
        _accept(_call("kg_cast", listed, self._pixels, self._masks, _bytes(pictures, "pictures"), self.width, self.height, self.planes,
                      self._clear(clear)))
        return [Actor(*(getattr(actor, name) for name in Actor._fields)) for actor in listed]

    @staticmethod
    def _actor(actor):
        words = zip(_Actor._fields_, Actor(*actor))
        return _Actor(*(_signed(word, name) if kind is ctypes.c_int32 else _number(word, name) for (name, kind), word in words))


# ---- Lists of calls ----

_FORMS = {
    "draw": ("draw OBJECT STATE [at A B]", ("OBJECT", "STATE", "at", "A", "B")),
    "hide": ("hide OBJECT", ("OBJECT",)),
    "back": ("back", ()),
}


def _text_of(calls):
    """The bytes of a list of calls: a text, or lines, of which each may be a Call."""
    def encoded(text):
        return text.encode("utf-8", "replace") if isinstance(text, str) else _bytes(text, "calls")
    if isinstance(calls, str) or not hasattr(calls, "__iter__") or isinstance(calls, (bytes, bytearray, memoryview)):
        return encoded(calls)
    lines = (encoded(str(line) if isinstance(line, Call) else line) for line in calls)
    return b"".join(line if line.endswith(b"\n") else line + b"\n" for line in lines)


def _quoted(word):
    return '"%s"' % (word[:40] + "..." if len(word) > 40 else word)


def _why_wrong(words):
    """Why the words of a line are no call, as tools/calls says it; None where they are one."""
    if words[0] not in _FORMS:
        return "%s is no call: the calls are draw OBJECT STATE [at A B], hide OBJECT, back" % _quoted(words[0])
    form, want = _FORMS[words[0]]
    if words[0] == "draw" and len(words) <= 3:
        want = want[:2]
    for place, need in enumerate(want, 1):
        if place == len(words):
            return "%s: %s is missing" % (form, need)
        if need == "at" and words[place] != "at":
            return '%s: %s is not "at"' % (form, _quoted(words[place]))
        if need != "at" and not _is_u32(words[place]):
            return "%s: %s is not 0 to 4294967295" % (form, _quoted(words[place]))
    if len(words) > len(want) + 1:
        return "%s: %s is one word too many" % (form, _quoted(words[len(want) + 1]))
    return None


def _is_u32(word):
    digits = word.lstrip("0")
    return word.isdigit() and len(digits) <= 10 and int(digits or "0") <= _U32


def read_calls(calls):
    """The calls of a list as ./play reads it, as a list of Call: a text, bytes, or lines; a line is `draw OBJECT STATE`, `draw OBJECT STATE at A B`,
    `hide OBJECT` or `back`, and `#` starts a comment. The first line that is none of these raises WrongCall."""
    text = _text_of(calls)
    read = []
    for number, line in enumerate((text[3:] if text.startswith(b"\xef\xbb\xbf") else text).split(b"\n"), 1):
        line = line[:-1] if line.endswith(b"\r") else line
        words = re.sub(rb"[^ -~\t]", b"?", line.split(b"#", 1)[0]).decode("ascii").split()
        why = _why_wrong(words) if words else None
        if why is not None:
            raise WrongCall(number, why)
        if words:
            numbers = [int(word) for word in words[1:] if word != "at"]
            read.append(Call(words[0], *numbers[:2], at=tuple(numbers[2:])) if len(numbers) == 4 else Call(words[0], *numbers))
    return read


def play(room, calls):
    """Makes the calls of a list (read_calls) on a room: each one's number, 0 where it is accepted. A refused call changes nothing, and the
    list goes on. A list with a wrong line raises WrongCall, and none of it is made."""
    return [room._number_of(call) for call in read_calls(calls)]


# ---- Two rooms, and writing ----

def compare(a, b):
    """The strips in which two rooms (Room, or bytes) differ by what they decode to, as a list of Difference from left to right. Steps that
    were made on them don't count. Refusals 1 to 8 for a, then for b, then 16."""
    places = _buffer(MAX_DIFFERENCES)
    count = _value(_call("kg_compare", _room_bytes(a), _room_bytes(b), places))
    return [_difference(places, DIFFERENCE_SIZE * i) for i in range(count)]


def _difference(places, at):
    planes = tuple(k for k in range(1, 5) if places[at + 4] >> (k - 1) & 1)
    return Difference(_u16(places, at), _u16(places, at + 2), planes)


def _written(name, rows, out_size, *words):
    """The block that a writer makes."""
    out = _buffer(out_size)
    length = _value(_call(name, rows, out, *words))
    return bytes(out[:length])


def _strips(width, height):
    """The strips and rows for which a writer needs room: none where it refuses the size, so that no such size asks for memory."""
    return (width // 8, height) if width <= MAX_WIDTH and height <= MAX_HEIGHT else (0, 0)


def write_smap(rows, width, height):
    """The SMAP block of a background of width * height bytes. Refusal 3."""
    size = (_number(width, "width"), _number(height, "height"))
    lent = _bytes(rows, "rows", size[0] * size[1])
    strips, high = _strips(*size)
    return _written("kg_write_smap", lent, 8 + strips * (10 * high + 5), *size)


def write_plane(rows, width, height, k):
    """The block ZP0k, k 1 to 4, of a plane of (width // 8) * height bytes. Refusal 3."""
    size = (_number(width, "width"), _number(height, "height"))
    lent = _bytes(rows, "rows", (size[0] // 8) * size[1])
    strips, high = _strips(*size)
    return _written("kg_write_plane", lent, 8 + strips * (2 + high + (high + 2) // 3), *size, _number(k, "k"))


# ---- Costumes ----

def costume_direction(direction):
    """The direction for Costume.start of an object's direction, which counts E 0, W 1, N 2, S 3. One above 3 stays, and start refuses it."""
    number = _number(direction, "direction")
    return number ^ 1 if number < 4 else number


class Costume:
    """A costume's bytes and its 16 limbs, idle at first. `table` is the byte at which the table of `count` offsets stands, `command` the
    stored command offset."""

    def __init__(self, payload, table, count, command):
        self._payload = _bytes(payload, "payload")
        self._table, self._count = _number(table, "table"), _number(count, "count")
        self._command = _number(command, "command")
        self._limbs = _buffer(LIMBS_SIZE)

    @property
    def limbs(self):
        """The limbs' 256 bytes (docs/LAYOUTS.md)."""
        return bytes(self._limbs)

    def start(self, chore, direction):
        """Starts an animation, 0 to 243, in a direction: True, or False where it is not defined and nothing changed. Refusal 15."""
        words = (self._table, self._count, self._command, _number(chore, "chore"), _number(direction, "direction"))
        return _value(_call("kg_start", self._payload, self._limbs, *words)) == 1

    def tick(self):
        """One tick of all limbs. Refusal 15."""
        _accept(_call("kg_tick", self._payload, self._limbs, self._command))

    def picture(self, limb):
        """The picture that limb 0 to 15 draws, None where it draws none. Refusal 15."""
        value = _value(_call("kg_limb_draws", self._limbs, _number(limb, "limb")))
        return value - 256 if value >= 256 else None


# ---- As a program ----

def main(words):
    """Lists a room: python3 -m kildegrom ROOM. Status 0; 1 the room is refused; 2 wrong usage, or a file that can't be read."""
    if len(words) != 1 or words[0].startswith("-"):
        print("usage: python3 -m kildegrom ROOM", file=sys.stderr)
        return 2
    try:
        room = Room.open(words[0])
    except Refused as refused:
        print("refused %d" % refused.number)
        print("kildegrom: %s: %s" % (words[0], refused), file=sys.stderr)
        return 1
    except OSError as error:
        print("kildegrom: %s" % error, file=sys.stderr)
        return 2
    print("\n".join(room.listing()))
    return 0


if __name__ == "__main__":
    sys.exit(main(sys.argv[1:]))
