#!/usr/bin/env python3
"""Brings the repository's own names to today's spelling: definitions, fields and lemmas in snake case, facts in camel case.

usage: tools/port-names.py [--look]    at the top of the repository, once, after the kit's port.py; --look changes nothing

Types, modules and facts begin with a capital and stay. A name joined by dashes is turned part by part.
"""
import glob
import os
import re
import sys

# Names that a rule of letters alone would get wrong.
OWN = {"rightCase": "RightCase", "nineFF": "nine_ff", "getD": "get_or", "is_IsLeaf": "is_IsLeaf"}
# Lemmas that would fall together with a definition's new name keep their dash.
DASHED = {
    "all_read": ["theory/specs/Lock"],
    "at_key": ["read_leaf/specs/Touch", "read_leaf/proofs/Blocks"],
    "below_of": ["label/proofs/Signed"],
    "first_block": ["theory/specs/Kept", "table/proofs/Notes"],
    "no_bytes": ["write_passes/specs/Regions", "write_passes/specs/Put"],
    "piece_bytes": ["theory/specs/Bytes"],
    "place_found": ["write_bytes/proofs/Values"] + ["write_bytes/proofs/value/%s/Proof" % f for f in ("part", "word", "number")],
    "text_in": ["theory/specs/" + f for f in ("Fits", "Back", "Cells", "Bodies")],
    "written_out": ["theory/specs/Literals"],
}
# A file of specs/ must not be named as the generated module of contracts.
MOVED = {"crates/read_leaf/specs/Contracts.antt": "crates/read_leaf/specs/Promises.antt"}
PATHS = [("read_leaf.specs.Contracts.", "read_leaf.specs.Promises."), ("pub mod Contracts", "pub mod Promises")]
WORD = r"[\w'₀-₉-]+"
CAMEL = re.compile(r"(?<![\w'-])" + WORD)


def part(p):
    if p in OWN:
        return OWN[p]
    if not re.match(r"[a-z]", p) or not re.search(r"[a-z0-9][A-Z]", p):
        return p
    return re.sub(r"(?<=[a-z0-9])([A-Z]+)", lambda m: "_" + m[1].lower(), p)


def turn(word):
    return "-".join(part(p) for p in word.split("-"))


def texts():
    for pattern in ("crates/*/specs/*.antt", "crates/*/proofs/**/*.antt", "crates/*/src/*.rt"):
        yield from sorted(glob.glob(pattern, recursive=True))


def outside(text):
    """The names that a file imports from elsewhere than this repository: they are not ours to turn."""
    names = set()
    for m in re.finditer(r"^(?:pub |ghost )*use ([\w.·'+-]+)\.\{([^}]*)\}", text, re.M):
        if m[1].startswith(("Rattle.std", "borrow", "native", "denote", "mathlib", "Prim", "lib.")):
            names |= {n.split(" as ")[0].strip() for n in m[2].split(",")}
    return names


def main():
    look = "--look" in sys.argv
    seen, theirs = {}, set()
    for path in texts():
        with open(path, encoding="utf-8") as f:
            text = f.read()
        theirs |= {n for n in outside(text) if turn(n) != n}
    for path in texts():
        with open(path, encoding="utf-8") as f:
            text = f.read()

        here = path[len("crates/") : -len(".antt")]
        dashed = {n for n, files in DASHED.items() if here in files}

        def one(m):
            if m[0] in dashed:
                return m[0].replace("_", "-")
            if m[0] in theirs:
                return m[0]
            new = turn(m[0])
            if new != m[0]:
                seen.setdefault(m[0], [new, 0])[1] += 1
            return new

        new = CAMEL.sub(one, text)
        for old, now in PATHS:
            new = new.replace(old, now)
        if new != text and not look:
            with open(path, "w", encoding="utf-8") as f:
                f.write(new)
    for old, now in MOVED.items():
        if not look and os.path.exists(old):
            os.rename(old, now)
    for old in sorted(seen):
        print(old, seen[old][0], seen[old][1])
    for n in sorted(theirs):
        print("left:", n)


main()
