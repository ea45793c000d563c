#!/usr/bin/env python3
"""Brings the repository's own definitions and lemmas to today's spelling: words in snake case (`readNumber` is `read_number`,
`◌orElse◌` is `◌or_else◌`, `orElse-turned` is `or_else-turned`). A dash that joins two names stays, as do types and modules.

usage: python3 tools/respell.py [FOLDER]     once, behind /opt/rattle/port/port.py, at the top of the checkout (or of FOLDER)

It turns each word of an .antt or .edit file below crates/, and in a .rt file each word that some .antt file declares. Texts in quotation
marks stay, and so do words that begin with a capital. It prints how many words were turned.
"""

import os
import re
import sys

# a text in quotation marks, a byte or character literal, or a word as antt divides them
PIECE = re.compile(r"""(?P<text>b?"(?:[^"\\\n]|\\.)*"|b?'(?:[^'\\\n]|\\.)')|(?P<word>[^\s(){}\[\].;,"`λ@:]+)""")
# a part of a word (parts are joined by dashes and holes) that is snake case but for its humps
HUMPS = re.compile(r"^[a-z][a-z0-9]*(?:_[a-z0-9]+)*[A-Z]")


def turned_part(part):
    if not HUMPS.match(part):
        return part
    return re.sub(r"(?<=[a-z0-9])[A-Z]", lambda m: "_" + m.group().lower(), part)


def turned_word(word):
    return "".join(turned_part(p) for p in re.split("([-◌])", word))


def turned(text, known=None):
    """The text with its words turned, those of `known` alone if that is given; and how many were."""
    n = 0

    def one(m):
        nonlocal n
        word = m.group("word")
        if word is None or (known is not None and word not in known):
            return m.group()
        new = turned_word(word)
        n += new != word
        return new

    return PIECE.sub(one, text), n


def files(root, endings):
    for folder, dirs, names in os.walk(os.path.join(root, "crates")):
        dirs[:] = sorted(d for d in dirs if d != "out")
        for name in sorted(names):
            if name.endswith(endings):
                yield os.path.join(folder, name)


def read(path):
    with open(path, encoding="utf-8") as f:
        return f.read()


def main():
    root = sys.argv[1] if len(sys.argv) > 1 else "."
    known = {m.group("word") for p in files(root, (".antt",)) for m in PIECE.finditer(read(p)) if m.group("word")}
    total = 0
    for path in files(root, (".antt", ".rt", ".edit")):
        old = read(path)
        new, n = turned(old, known if path.endswith(".rt") else None)
        total += n
        if new != old:
            with open(path, "w", encoding="utf-8") as f:
                f.write(new)
    print(f"{total} words turned")


if __name__ == "__main__":
    main()
