#!/usr/bin/env python3
"""Writes this repository's own names as today's Rattle spells them.

usage: python3 tools/todays_names.py        at the top of the repository; it rewrites files in place, and a second run changes nothing

Definitions, lemmas and local names of specs/ and proofs/ get snake case: blockBytes becomes block_bytes.
Names of src/ are in snake case already, so a name in camel case stands only in clauses, specs/, proofs/, edits and pages.
A dash joins two names, and each is turned alone. Types and modules keep their capital.
The crate hex becomes hexadecimal, since Rattle has a library named hex.
At last rt fmt lays out each crate.
"""

import glob
import os
import re
import subprocess

CAMEL = re.compile(r"(?<![\w'])[a-z][a-z0-9_]*[A-Z][\w']*")
QUOTED = re.compile(r'b?"(?:[^"\\]|\\.)*"|b?\'(?:[^\'\\]|\\.)\'')
# Names that were in snake case before this script ran, and stand in pages as they were before.
EARLIER = (
    "allBelow bitAnd bitOr bitXor bitsOf blockAt blockBits byteAt byteOf bytesOf cutTo heldOf inGroups inTurn inWords isNumber isOf lowBits"
    " noBlock numberOf placeOf restOf shiftsAt sizeOf slotAt upTo wordAt wordBytes wordSize wordsOf"
).split()
# Names of the library, which stay.
LIBRARY = ["elem_Fits"]
# Lemmas whose name a definition of the same file would get: (folder, lemma, its new name).
APART = [
    ("crates/close/proofs/", "held_bytes", "Bytes-held"),
    ("crates/same/proofs/is_well_formed/", "by_length", "by_length-is"),
]


def snake(name):
    name = re.sub(r"([a-z0-9])([A-Z])", r"\1_\2", name)
    return re.sub(r"([A-Z])([A-Z][a-z])", r"\1_\2", name).lower()


def turned(text, names=None):
    def one(m):
        name = m.group()
        return snake(name) if name not in LIBRARY and (names is None or name in names) else name

    return CAMEL.sub(one, text)


def turned_outside_quotes(text):
    out, at = [], 0
    for m in QUOTED.finditer(text):
        out += [turned(text[at : m.start()]), m.group()]
        at = m.end()
    return "".join(out + [turned(text[at:])])


def of_hex(path, text):
    if path == "crates.txt":
        return re.sub(r"(?m)^([^#\n]*)", lambda m: re.sub(r"\bhex\b", "hexadecimal", m.group()), text)
    if path.endswith((".rt", ".antt")):
        text = re.sub(r"\bRattle\.hex\b", "Rattle.hexadecimal", text)
        return re.sub(r"(?<![\w:])hex::", "hexadecimal::", text)
    return text


def paths(*patterns):
    # docs/PORT.md has the names of before beside those of today.
    return sorted({p for it in patterns for p in glob.glob(it, recursive=True) if "/out/" not in p and p != "docs/PORT.md"})


def read(path):
    with open(path, encoding="utf-8") as f:
        return f.read()


def main():
    if os.path.isdir("crates/hex"):
        subprocess.run(["git", "mv", "crates/hex", "crates/hexadecimal"], check=True)
    logic = paths("crates/*/specs/**/*.antt", "crates/*/proofs/**/*.antt")
    names = set(EARLIER) | {m.group() for p in logic for m in CAMEL.finditer(read(p))}
    for p in logic + paths("crates/*/src/*.rt", "crates/*/must-fail/*.edit", "README.md", "docs/*.md", "crates.txt"):
        old = read(p)
        new = of_hex(p, old)
        for folder, lemma, to in APART:
            if p.startswith(folder) and any(snake(m.group()) == lemma for m in CAMEL.finditer(old)):
                new = re.sub(rf"(?<![\w'-]){lemma}(?![\w'-])", to, new)
        if p.endswith(".antt"):
            new = turned(new)
        elif p.endswith((".rt", ".edit")):
            new = turned_outside_quotes(new)
        elif p != "crates.txt":
            new = turned(new, names)
        if new != old:
            with open(p, "w", encoding="utf-8") as f:
                f.write(new)
            print(p)
    for crate in paths("crates/*/src"):
        subprocess.run(["rt", "fmt"], cwd=os.path.dirname(crate), check=True, stdout=subprocess.DEVNULL)


if __name__ == "__main__":
    main()
