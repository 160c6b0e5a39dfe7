#!/usr/bin/env python3
"""Makes crates/samples/specs/Bytes.antt anew from the sources of document 01's examples:  python3 tools/mksamples.py [--check]

The examples are tests/layout/pNN.did and pNN-WHICH.did, in the order of their names; pNN becomes the antt name pN. With --check
nothing is written: it says whether the file is what the sources make.
"""

import os
import re
import sys

import antt_bytes
import mkbook

HERE = os.path.dirname(os.path.abspath(__file__))
FOLDER = os.path.join(HERE, "..", "tests", "layout")
TARGET = os.path.join(HERE, "..", "crates", "samples", "specs", "Bytes.antt")
EXAMPLE = re.compile(r"p0*(?P<number>[1-9][0-9]*)(?P<which>-[a-z]+)?\.did")

HEAD = """\
-- The bytes of document 01's examples, each made of the source in tests/layout that its comment names. Do not edit:
-- `python3 tools/mksamples.py` makes this file anew. Definitions; assumes nothing.
use Rattle.std.specs.Prelude.{List, [], ◌∷◌, ℕ}
"""


def sample(source, name, data):
    return f"\n-- {source}, {len(data)} bytes\nunfoldable pub {name} : List ℕ\n{name} =\n{antt_bytes.literal(data, 4)}\n"


def made():
    """The whole file."""
    parts = [HEAD]
    for source in sorted(os.listdir(FOLDER)):
        match = EXAMPLE.fullmatch(source)
        if match:
            with open(os.path.join(FOLDER, source), encoding="utf-8") as file:
                parts.append(sample(source, f"p{match['number']}{match['which'] or ''}", mkbook.book(file.read())))
    return "".join(parts)


def main():
    if sys.argv[1:] not in ([], ["--check"]):
        sys.exit("usage: python3 tools/mksamples.py [--check]")
    text = made()
    if not sys.argv[1:]:
        with open(TARGET, "w", encoding="utf-8") as file:
            file.write(text)
        return
    with open(TARGET, encoding="utf-8") as file:
        if file.read() != text:
            sys.exit("crates/samples/specs/Bytes.antt is not what the sources make: run tools/mksamples.py")


if __name__ == "__main__":
    main()
