#!/usr/bin/env python3
"""Sessions by chance for host/check-scene: `python3 wander.py COUNT FOLDER` writes, for each seed from 1 to COUNT, two files.

FOLDER/SEED/script has some 60 lines of keys and pointer moves. FOLDER/SEED/ends has three lines: the room at the start, the room that the window
shows at the end, and the options with which ./show paints it the same. Only the overlays and the scale are followed here; which steps stand, the
window tells with the list that it saves.
"""
import os
import random
import sys

PAIR = ["rooms/harbour.room", "rooms/harbour-b.room"]
MIXED = ["rooms/winter.room", "rooms/harbour.room", "rooms/cellar.room"]
KEYS = "1 1 2 2 3 9 h h Tab Tab Shift+Tab Escape Left Right Up Down Left Right Up Down Backspace Ctrl+Z u i t F1 [ ]".split()
TINTS = ["", "--plane 1", "--plane 2", "--all-planes"]


class Session:
    def __init__(self, seed, folder):
        self.chance = random.Random(seed)
        self.folder = folder
        self.rooms = MIXED if seed % 4 == 3 else PAIR
        self.start = self.room = self.rooms[0]
        self.on = {"b": False, "g": False, "n": False, "a": False}
        self.tint, self.scale = 0, 1 + seed % 3
        self.lines = ["key " + "- " * 5 + "+ " * (self.scale - 1)]

    def place(self):
        return "%d %d" % (self.chance.randint(-40, 360), self.chance.randint(-40, 190))

    def keys(self):
        self.lines.append("key " + " ".join(self.chance.choice(KEYS) for _ in range(self.chance.randint(1, 6))))

    def toggle(self):
        key = self.chance.choice("bgna")
        self.on[key] = not self.on[key]
        self.lines.append("key " + key)

    def next_tint(self):
        if self.rooms is MIXED:  # they differ in how many planes they have
            return
        self.tint = (self.tint + 1) % 4
        self.lines.append("key p")

    def change_scale(self):
        key = self.chance.choice("+-")
        self.scale = min(6, self.scale + 1) if key == "+" else max(1, self.scale - 1)
        self.lines.append("key " + key)

    def point(self):
        word = self.chance.choice(["click", "click", "move", "drag", "drag", "drag", "Shift+drag"])
        self.lines.append(" ".join([word, self.place()] + ([self.place()] if word.endswith("drag") else [])))

    def replace(self):
        self.room = self.chance.choice([room for room in self.rooms if room != self.room])
        self.lines.append("replace " + self.room)

    def write(self):
        key = self.chance.choice(["S", "P"])
        self.lines.append("%s %s/between\nkey Ctrl+%s" % ("save" if key == "S" else "picture", self.folder, key))

    def go(self):
        doings = [self.keys] * 10 + [self.point] * 10 + [self.toggle] * 2 + [self.next_tint, self.change_scale, self.replace, self.write]
        while len(self.lines) < 60:
            self.chance.choice(doings)()
        if self.on["a"]:
            self.lines.append("key a")
        self.lines.append("picture {0}/got.png\nkey Ctrl+P\nsave {0}/saved\nkey Ctrl+S".format(self.folder))

    def options(self):
        words = [option for key, option in (("b", "--boxes"), ("g", "--grid"), ("n", "--names")) if self.on[key]]
        return " ".join(words + ["--scale %d" % self.scale, TINTS[self.tint]])


def write_session(seed, folder):
    os.makedirs(folder)
    session = Session(seed, folder)
    session.go()
    with open(folder + "/script", "w") as script:
        script.write("\n".join(session.lines) + "\n")
    with open(folder + "/ends", "w") as ends:
        print(session.start, session.room, session.options(), sep="\n", file=ends)


def main():
    for seed in range(1, int(sys.argv[1]) + 1):
        write_session(seed, "%s/%d" % (sys.argv[2], seed))


if __name__ == "__main__":
    main()
