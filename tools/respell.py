#!/usr/bin/env python3
"""Gives the repository's own definitions and lemmas the names of respell.tsv: snake case, with a dash only where a name of a list's function is joined to another.

usage: python3 tools/respell.py [FOLDER]     once, after the kit's own port script; FOLDER is the checkout, this one if none is named

Whole words turn, in specs/ and proofs/ and in the sources of each crate; texts in quotes stay, and so do the names of Rust's functions, which no row has.
"""

import os
import re
import sys

HERE = os.path.dirname(os.path.realpath(__file__))
WORD = re.compile(r'"(?:[^"\\\n]|\\.)*"' + r"|[^\s(){}\[\];,.:λ\"«»⌜⌝|`]+")
# a lemma of the crate text that shares its old name with a field of the crate envelope
OTHER = [("text/proofs/Named.antt", "rest-at", "rest_from"), ("address_names/proofs/names/goes_by_names/Answers.antt", "rest-at", "rest_from")]


def main(root):
    with open(os.path.join(HERE, "respell.tsv"), encoding="utf-8") as f:
        table = dict(line.rstrip("\n").split("\t") for line in f)
    crates = os.path.join(root, "crates")
    for folder, inner, files in os.walk(crates):
        inner[:] = sorted(d for d in inner if d not in ("out", "must-fail", "data"))
        for name in sorted(files):
            if not name.endswith((".rt", ".antt")):
                continue
            path = os.path.join(folder, name)
            with open(path, encoding="utf-8") as f:
                text = f.read()
            rows = table | {old: new for place, old, new in OTHER if os.path.relpath(path, crates) == place}
            turned = WORD.sub(lambda m: rows.get(m[0], m[0]), text)
            if turned != text:
                with open(path, "w", encoding="utf-8") as f:
                    f.write(turned)


if __name__ == "__main__":
    main(sys.argv[1] if len(sys.argv) > 1 else os.path.dirname(HERE))
