#!/usr/bin/env python3
"""Writes what the programs are run on and must write:  python3 tools/mkgate.py [--check]

    crates/answer_batch/stdin, stdout     the stored list (docs/TESTING.md), with the outcome of every question and the tally
    crates/list/stdin, stdout             P1 and its list
    crates/values/stdin, stdout           a book with odd names, and how many values its definitions have
    crates/uses_report/stdin, stdout      another, and how many uses they have
    crates/methods/stdin, args, stdout    P1, `-` and some names, and the methods that change with these

Books come from the sources by tools/mkbook.py. What the programs must write comes from the sources' first lines and
from tools/layout.py and tools/answers.py, which read the bytes by the papers alone, and never from the programs;
oracle/replay.sh makes the lines of answer_batch anew from the Rust. With --check nothing is written: each file is said
to be current or not, and the exit status is 1 if one is not.
"""

import functools
import os
import sys

import answers
import mkbatch
import mkbook
import replay

ROOT = os.path.join(os.path.dirname(os.path.abspath(__file__)), "..")
SOURCES = os.path.join(ROOT, "tests", "layout")
CHECK_SOURCES = os.path.join(ROOT, "tests", "check")
LIST_SOURCES = os.path.join(ROOT, "tests", "list")
LIMITS_SOURCES = os.path.join(ROOT, "tests", "limits")
REPLAYED = ("list", "check", "layout", "random", "limits")  # of equal books under equal limits that of the first folder is taken


@functools.cache
def replayed():
    """The stored list: name, text, book, limits and outcomes of each record. A name is the folder's and the record's own. What the source
    of an equal book says must agree too."""
    answered, found = {}, []
    for folder in REPLAYED:
        for source, text in mkbatch.sources(os.path.join(ROOT, "tests", folder)):
            book = bytes(mkbook.book(text))
            for name, limits in mkbatch.asked_under(source, text):
                outcomes = mkbatch.agreed(text, book, limits, answered.get((book, limits)))
                if (book, limits) not in answered:
                    answered[book, limits] = outcomes
                    found.append((f"{folder}/{name}", text, book, limits, outcomes))
    return sorted(found, key=lambda record: record[0].encode())


def answer_batch():
    """The records and lines of the stored list, and the tally."""
    records = b"".join(mkbatch.record(name, book, limits) for name, _, book, limits, _ in replayed())
    return records, "".join(replay.printed((name, outcomes) for name, _, _, _, outcomes in replayed()))


def files():
    """Each file with its contents."""
    def book(folder, name):
        with open(os.path.join(folder, name), encoding="utf-8") as file:
            return bytes(mkbook.book(file.read()))

    p1, valued, used = book(SOURCES, "p01.did"), book(LIST_SOURCES, "values-names.did"), book(LIST_SOURCES, "use-counts-names.did")
    # The first and the last name are each used by a method alone, and by one together; a fourth method uses neither, and the book has no z.
    changed, names = book(LIST_SOURCES, "methods-two.did"), ["a", "z", "b"]
    records, lines = answer_batch()
    return {
        "crates/answer_batch/stdin": records,
        "crates/answer_batch/stdout": lines.encode(),
        "crates/list/stdin": p1,
        "crates/list/stdout": answers.listing(p1).encode(),
        "crates/values/stdin": valued,
        "crates/values/stdout": answers.valuing(valued).encode(),
        "crates/uses_report/stdin": used,
        "crates/uses_report/stdout": answers.reporting(used).encode(),
        "crates/methods/stdin": changed,
        "crates/methods/args": "".join(f"{word}\n" for word in ["-", *names]).encode(),
        "crates/methods/stdout": answers.naming(changed, [name.encode() for name in names]).encode(),
    }


def is_current(path, data):
    try:
        with open(path, "rb") as file:
            return file.read() == data
    except FileNotFoundError:
        return False


def main():
    if sys.argv[1:] not in ([], ["--check"]):
        sys.exit("usage: python3 tools/mkgate.py [--check]")
    checks, stale = bool(sys.argv[1:]), 0
    for name, data in files().items():
        path = os.path.join(ROOT, name)
        current = is_current(path, data)
        stale += not current
        print(f"{name}: {'current' if current else 'not current' if checks else 'written'}")
        if not current and not checks:
            os.makedirs(os.path.dirname(path), exist_ok=True)
            with open(path, "wb") as file:
                file.write(data)
    sys.exit(1 if checks and stale else 0)


if __name__ == "__main__":
    main()
