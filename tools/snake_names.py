#!/usr/bin/env python3
"""Respells the repository's own definitions, lemmas, constructors and fields as today's Rattle spells names.

usage: snake_names.py [--table] [ROOT]      ROOT: the top of the repository (this folder by default), as port.py left it

    afterLoad         -> after_load            a word with a hump
    list-stop         -> list_stop             a dash stays where it joins two names of definitions, as in take-up_to
    getD-upTo         -> get_or-up_to          the older library's words inside lemma names too
    x′                -> x'
    ground            -> base                  a tactic's word, which rt ci refuses in a clause or a definition

and the names of OVER, which would read badly. Types and facts keep their capitals. It reads which names the .antt files below crates/ declare
(lemma files and specs; what a function's own folder declares goes with its old form) and turns those alone, as whole words: in .antt and .rt files,
in must-fail edits, and in the pages of PAGES. A new name that stands anywhere already is not taken: the old one then keeps its dash, or gets _lem.
--table prints the table and writes nothing.
"""

import glob
import os
import re
import sys

WORD = re.compile(r"[^\s(){}\[\].;,@\"«»`:|*<>=/#&$!?]+")
DECLARED = re.compile(r"^ *(?:(?:unfoldable|abbrev|opaque) )*(?:pub )?(?:(?:data|record|ruleset) )?([^\s(){}:;=,.«»\"]+)(?: [^=\n]*?)? : ", re.M)
TACTICS = {"ground": "base"}
GIVEN = {"getD": "get_or", "upTo": "up_to", "eqZ": "eq_z", "ltZ": "lt_z"}
OVER = {
    "is_IsBody": "is_body",
    "scT": "table_scene",
    "aOf": "place_a",
    "bOf": "place_b",
    "withA": "outcome_by_a",
    "with_b": "outcome_by_b",
    "isOff": "is_different",
    "pixelsOff": "pixels_differing",
    "planeOff": "plane_differs",
    "planesOff": "planes_differing",
    "foundOff": "found_differ",
    "stripsOff": "strips_differing",
    "imTest": "smap_and_planes_test",
    "orMissing": "when_found",
    "orAbsent": "block_or_absent",
    "orRefused": "room_when_passed",
    "ifRead": "when_passed",
    "askedIf": "asked_when_passed",
    "anIndex": "index_row",
    "oneTo": "concat_to",
    "inSizes": "sizes_inside",
    "sumsSum": "sum_of_sums",
    "bytesSum": "sum_of_bytes",
    "bytesBy": "bytes_needed",
    "groundOf": "base_of",
    "bare-ground": "bare_base",
    "session-ground": "session_base",
    "ground-there": "base_there",
    "ground-same": "base_same",
    "ground-is": "base_is",
    "ground-kept": "base_kept",
}
# a lemma that has the name of a definition which its file imports
THERE = {"crates/demands/proofs/StripReads.antt": {"run_op": "op_of-run_head"}}
# names of std that a dash joins to ours
STD = set(
    "length take drop set sets map reverse append replicate get_or slice_index add sub mul div mod pow eq ne le lt leb ltb eqb cond not and or suc zero nil cons max min subst sum bits".split()
)
PAGES = ["docs/*.md", "docs/changes/*.md", "README.md", "CHANGELOG.md", "host/README.md"]


def humps(part):
    if part in GIVEN:
        return GIVEN[part]
    if not part or not part[0].islower():
        return part
    part = re.sub(r"(?<=[a-z0-9])([A-Z])(?=[a-z])", lambda m: "_" + m[1].lower(), part)
    return re.sub(r"(?<=[a-z0-9])([A-Z]+)", lambda m: "_" + m[1].lower(), part)


def respelled(name, known):
    name = name.replace("′", "'").replace("″", "''")
    parts = [humps(p) for p in name.split("-")]
    if len(parts) == 1 or not all(parts):
        return "-".join(parts)
    groups, i = [], 0
    while i < len(parts):
        for n in range(len(parts) - i, 0, -1):
            word = "_".join(parts[i : i + n])
            if n == 1 or word in known:
                groups.append(word)
                i += n
                break
    out = groups[0]
    for left, right in zip(groups, groups[1:]):
        bare = left.split("_")[-1] if left not in known else left
        joins = (left in known or bare in known or not left[0].islower()) and (right in known or not right[0].islower())
        out += ("-" if joins else "_") + right
    return out


def read(path):
    with open(path, encoding="utf-8") as f:
        return f.read()


def main(argv):
    show = "--table" in argv
    argv = [a for a in argv if a != "--table"]
    root = argv[0] if argv else "."
    here = lambda g: sorted(glob.glob(os.path.join(root, g), recursive=True))
    specs, laws = here("crates/*/specs/**/*.antt"), here("crates/*/proofs/*.antt")
    every = [p for g in ("crates/*/specs/**/*.antt", "crates/*/proofs/**/*.antt", "crates/*/src/**/*.rt", "crates/*/must-fail/**/*") for p in here(g) if os.path.isfile(p)]
    texts = {p: read(p) for p in every}
    pages = {p: read(p) for g in PAGES for p in here(g)}
    code = {p: re.sub(r"--[^\n]*", "", t) for p, t in texts.items() if p.endswith(".antt")}
    words = set()
    for t in code.values():
        words |= set(WORD.findall(t))
    declared, defined = set(), set()
    for p in specs + laws:
        for m in DECLARED.finditer(code[p]):
            declared.add(m[1])
            if p in specs and "-" not in m[1]:
                defined.add(m[1])
    # constructors and fields that share a line with others, and local names with humps
    for t in code.values():
        for w in WORD.findall(t):
            if "-" not in w and re.fullmatch(r"[a-z]\w*[A-Z]\w*['′]*", w):
                declared.add(w)
    # what the kit declares keeps its name, and so does what is named like it
    own = {os.path.basename(os.path.dirname(os.path.dirname(p))) for p in here("crates/*/src/*.rt")}
    foreign = set()
    for t in code.values():
        for m in re.finditer(r"(?:pub )?use ([^\s{]+)\.\{([^}]*)\}", t):
            if not (m[1].startswith("Rattle.") and m[1].split(".")[1] in own):
                foreign |= {x.strip().split(" as ")[0] for x in m[2].split(",")}
    declared -= foreign
    known = STD | {OVER.get(d, humps(d)) for d in defined}
    table = {}
    for old in sorted(declared):
        new = OVER.get(old) or respelled(old, known)
        if new != old:
            table[old] = new
    # a new name must be free: in the words that stand, and among the new ones
    taken, clash = {}, []
    for old in sorted(table, key=lambda o: ("-" in o, o)):
        new = table[old]
        if "-" in old and (new in words or new in taken):
            clash.append(f"{old} keeps its dash: {new} is taken")
            del table[old]
            continue
        taken[new] = old
    if show:
        for old, new in sorted(table.items()):
            print(f"{old}\t{new}")
        return 0

    def outside(t, sign):
        out = []
        for line in t.split("\n"):
            head, mark, tail = line.partition(sign)
            out.append(WORD.sub(lambda m: TACTICS.get(m[0], m[0]), head) + mark + tail)
        return "\n".join(out)

    for name, over in THERE.items():
        p = os.path.join(root, name)
        if p in texts and "runOp" in texts[p]:
            texts[p] = WORD.sub(lambda m: over.get(m[0], m[0]), texts[p])
    now = {table.get(d, d) for d in declared} | {table.get(w, w) for w in words}

    def page(word):
        """A name in a page, which may be as it was before port.py: today's name, where one is spelled so."""
        if word in table:
            return table[word]
        if word in words or not re.search(r"[a-z][A-Z]|[a-z]-[a-z]", word):
            return word
        for new in (OVER.get(word), respelled(word, known), OVER.get(humps(word).replace("-", "_")), humps(word).replace("-", "_")):
            if new and new in now:
                return new
        return word

    turned = 0
    for p, t in {**texts, **pages}.items():
        if p in pages:
            spans = lambda m: WORD.sub(lambda w: page(w[0]), m[0])
            new = re.sub(r"`[^`\n]+`", spans, t)
        else:
            new = WORD.sub(lambda m: table.get(m[0], m[0]), t)
        if p.endswith(".antt"):
            new = outside(new, "--")
        if new != t:
            with open(p, "w", encoding="utf-8") as f:
                f.write(new)
            turned += 1
    for c in clash:
        print("look: " + c)
    print(f"{len(table)} names, {turned} files, {len(clash)} kept")
    return 0


if __name__ == "__main__":
    raise SystemExit(main(sys.argv[1:]))
