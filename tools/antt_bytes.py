#!/usr/bin/env python3
"""Prints a book as an antt list of bytes:  python3 tools/antt_bytes.py BOOK-OR-SOURCE.did [INDENT]

Lines are at most 120 columns wide and indented by INDENT blanks, 2 if none is given.
"""

import sys
import textwrap

import mkbook


def literal(data, indent=2, width=120):
    blanks = " " * indent
    words = [f"{byte}_∷" for byte in data] + ["[]"]  # a byte and its ∷ stay on one line
    return textwrap.fill(" ".join(words), width, initial_indent=blanks, subsequent_indent=blanks,
                         break_long_words=False, break_on_hyphens=False).replace("_", " ")


def main():
    if len(sys.argv) not in (2, 3):
        sys.exit("usage: python3 tools/antt_bytes.py BOOK-OR-SOURCE.did [INDENT]")
    path, indent = sys.argv[1], int(sys.argv[2]) if len(sys.argv) == 3 else 2
    with open(path, "rb") as file:
        data = file.read()
    print(literal(mkbook.book(data.decode()) if path.endswith(".did") else data, indent))


if __name__ == "__main__":
    main()
