#!/usr/bin/env python3
"""Spells the definitions and lemmas of this repository as today's Rattle does: words in snake case.

usage: python3 tools/respell.py [TOP]     run once, behind the kit's port.py, at the top of the repository

A word that begins with a small letter and has a capital inside, as partitionOf, becomes partition_of. A dash still
joins two names, and each is respelled by itself. Names of src/ have that spelling already. A lemma that would then
have the name of the definition that it is about gets _lem.
"""

import os
import re
import sys

WORD = re.compile(r"(?<![\w'-])[A-Za-z_][\w'-]*")

# Aliases of one file, and a letter behind one letter.
KEEPS = {"listN", "eF", "eL"}

# File, old, new: lemmas that would have the name of their definition, and the files that cite them.
LEMMAS = [
    ("crates/model/proofs/Lookup.antt", "compared_at", "compared_at_lem"),
    ("crates/model/proofs/PutLines.antt", "number_past", "number_past_lem"),
    ("crates/model/proofs/Answering.antt", "answers_with", "answers_with_lem"),
    ("crates/model/proofs/AnsweringOnce.antt", "answers_with", "answers_with_lem"),
    ("crates/history/proofs/Telling.antt", "answers_with", "answers_with_lem"),
    ("crates/history/proofs/TextLines.antt", "answers_with", "answers_with_lem"),
]


def respelled(name):
    def part(text):
        if text in KEEPS or not re.match(r"[a-z][a-z0-9]", text):
            return text
        text = {"getD": "get_or"}.get(text, text)
        return re.sub(r"(?<=[a-z0-9])[A-Z]", lambda m: "_" + m[0].lower(), text)

    return "-".join(part(it) for it in name.split("-"))


def files_below(top):
    for folder, dirs, files in os.walk(top):
        dirs[:] = sorted(it for it in dirs if it not in ("out", "target", ".git"))
        for name in sorted(files):
            yield os.path.join(folder, name)


def main():
    os.chdir(sys.argv[1] if len(sys.argv) > 1 else ".")
    for path, old, new in LEMMAS:
        with open(path, encoding="utf-8") as f:
            text = f.read()
        with open(path, "w", encoding="utf-8") as f:
            f.write(re.sub(rf"(?<![\w'-]){old}(?![\w'-])", new, text))
    turned = {}
    for path in files_below("crates"):
        if not path.endswith((".antt", ".rt")):
            continue
        with open(path, encoding="utf-8") as f:
            text = f.read()

        def turn(m):
            new = respelled(m[0])
            if new != m[0]:
                turned[m[0]] = new
            return new

        new = WORD.sub(turn, text)
        if new != text:
            with open(path, "w", encoding="utf-8") as f:
                f.write(new)
    for old in sorted(turned):
        print(old, turned[old], sep="\t")


if __name__ == "__main__":
    main()
