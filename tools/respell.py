#!/usr/bin/env python3
"""Brings the repository's own definitions and lemmas to snake case, in crates/: dayOf becomes day_of.

usage: tools/respell.py [FOLDER]

It was run once, right after the toolchain's script that turns an older spelling, and stays as the record of which name
became which: any name that begins in lower case and has a capital behind a lower-case letter or a digit has them parted
by `_`. Types keep their capitals, strings and numbers stay as they are. A lemma that would then have the name of its
definition gets `_lem` first. A second run changes nothing.
"""

import os
import re
import sys

WORD = re.compile(r"(?<![\w])[a-z_][\w]*")
PART = re.compile(r"(?<=[a-z0-9])([A-Z])")
STRING = re.compile(r'b?"(?:\\.|[^"\\])*"')
# Lemmas of a name that a definition comes to have: the file, the lemma.
LEMMAS = [
    ("crates/text/proofs/Reading.antt", "is_digit"),
    ("crates/text/proofs/RoundTrip.antt", "is_digit"),
    ("crates/date_lines/proofs/Laws.antt", "is_digit"),
    ("crates/names/proofs/Laws.antt", "the_number"),
    ("crates/values/proofs/Readings.antt", "no_number"),
]


def respelled(word):
    return PART.sub(lambda it: "_" + it[1].lower(), word)


def turned(text):
    """The text with its names turned, but for what stands in strings."""
    out, at = [], 0
    for it in STRING.finditer(text):
        out += [WORD.sub(lambda w: respelled(w[0]), text[at : it.start()]), it[0]]
        at = it.end()
    return "".join(out) + WORD.sub(lambda w: respelled(w[0]), text[at:])


def files(top):
    for folder, folders, names in os.walk(os.path.join(top, "crates")):
        folders[:] = sorted(it for it in folders if it != "out")
        for name in sorted(names):
            if name.endswith((".rt", ".antt", ".edit")):
                yield os.path.join(folder, name)


def main():
    top = sys.argv[1] if len(sys.argv) > 1 else "."
    lemmas = {}
    for path, lemma in LEMMAS:
        lemmas.setdefault(os.path.join(top, path), []).append(lemma)
    for path in files(top):
        with open(path, encoding="utf-8") as f:
            text = f.read()
        new = text
        if any(PART.search(it[0]) for it in WORD.finditer(text)):
            for lemma in lemmas.get(path, []):
                new = re.sub(rf"(?<![\w'.-]){lemma}(?![\w'-])", lemma + "_lem", new)
            new = "\n".join(turned(line) for line in new.split("\n"))
        if new != text:
            with open(path, "w", encoding="utf-8") as f:
                f.write(new)


if __name__ == "__main__":
    main()
