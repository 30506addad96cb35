#!/usr/bin/env python3
"""Brings the words of specs/ and proofs/ to the toolchain's spelling: snake case for words, camel case for types.

Run once at the top, after the toolchain's own script. It renames every word that the repository declares in
lower camel case (`itemOrder` becomes `item_order`), the one fact that was spelled as a word (`byteNames` becomes
`ByteNames`), and the fields of records in specs/ that are written with dashes (`put-in` becomes `put_in`). In a
Rust file it touches ghost text alone: `ghost` lines, clauses and comments; Rust's own names are in snake case
already, so a lower camel word there is always a word of specs/. Texts in quotes stay.
"""
import glob
import re

WORD = re.compile(r"[A-Za-z_][A-Za-z0-9_'′]*(?:-[A-Za-z0-9_'′≡≢≤]+)*")
FACTS = {"byteNames": "ByteNames"}
# names that the toolchain makes or that stand in its library
KEPT = {"cases_Bool"}


def snake(word):
    return re.sub(r"(?<=[a-z0-9])([A-Z])", lambda m: "_" + m.group(1).lower(), word)


def is_camel(word):
    return re.match(r"^[a-z][a-z0-9]*(?:[A-Z]|_[A-Z])", word) is not None or (
        re.match(r"^[a-z][A-Za-z0-9]*[A-Z]", word) is not None
    )


def respelled(part):
    if part in FACTS:
        return FACTS[part]
    if part in KEPT or not is_camel(part):
        return part
    return snake(part)


def fields(paths):
    """The dashed fields of records in specs/."""
    found = set()
    for path in paths:
        inside = False
        for line in open(path):
            if re.match(r"(pub )?record ", line):
                inside = True
            elif inside and re.match(r"\S", line) and not line.startswith("--"):
                inside = False
            m = re.match(r"  (?:pub )?([a-z][a-z0-9]*(?:-[a-z0-9]+)+) :", line)
            if inside and m:
                found.add(m.group(1))
    return found


def main():
    specs = glob.glob("crates/*/specs/**/*.antt", recursive=True)
    dashed = fields(specs)
    seen = {}

    def word(m):
        old = m.group(0)
        if old in dashed:
            new = old.replace("-", "_")
        else:
            # a word of the library or a made name may stand on either side of a dash
            new = "-".join(respelled(part) for part in old.split("-"))
        if new != old:
            seen[old] = new
        return new

    quoted = re.compile(r'("(?:[^"\\\n]|\\.)*")')
    for path in specs + glob.glob("crates/*/proofs/**/*.antt", recursive=True) + glob.glob("crates/*/src/**/*.rt", recursive=True):
        text = open(path).read()
        parts = quoted.split(text)
        new = "".join(part if i % 2 else WORD.sub(word, part) for i, part in enumerate(parts))
        if new != text:
            open(path, "w").write(new)
    for old in sorted(seen):
        print(old, seen[old])


main()
