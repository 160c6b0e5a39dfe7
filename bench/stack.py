#!/usr/bin/env python3
"""Measures the stack that the built programs need:  python3 bench/stack.py [PROGRAM ..]

For each program (all if none is named) and each book of its own, a small one and the deepest and largest, prints the least
limit on the stack, in KiB, under which the program writes what is right; then the most of a program's books. What is right
comes from tools/layout.py, tools/answers.py and the sources, never from the program. What a deep book takes more than a
small one is the library's own stack. `tools/build.sh` builds the programs. Addresses are not randomized, so that runs agree.
"""

import os
import resource
import subprocess
import sys

sys.path.append(os.path.join(os.path.dirname(os.path.abspath(__file__)), "..", "tools"))

import answers
import mkbatch
import mkbook
import replay
from mkgate import CHECK_SOURCES, LIST_SOURCES, ROOT, SOURCES

MOST = 8192  # the limit that a system sets by itself
NESTED = ("length-smallest", "limit-nested-4096", "limit-nested-kinds", "kind-27-deepest")


def is_large(name):
    return name == "p01" or name.startswith("large-") or name in NESTED


def answer_lines(name, text, book):
    return "".join(replay.printed([(name, mkbatch.agreed(text, book))]))


def of_batch(lines):
    """Arguments, input and output of a program that reads records."""
    return lambda name, text, book: ([], mkbatch.record(name, book), lines(name, text, book))


def of_book(lines):
    """Of a program that reads a book."""
    return lambda name, text, book: ([], book, lines(book))


def of_names(lines):
    """Of a program that reads a book and is asked for names: for all that the book has, but for those that no argument can be."""
    def run(name, text, book):
        names = [name for name in answers.Book(book).names if b"\0" not in name]
        return ["-", *names], book, lines(book, names)
    return run


# Of each program: the folders of its books, and its arguments, input and output.
PROGRAMS = {
    "list": ([LIST_SOURCES, CHECK_SOURCES], of_book(answers.listing)),
    "values": ([LIST_SOURCES, CHECK_SOURCES], of_book(answers.valuing)),
    "uses_report": ([LIST_SOURCES, CHECK_SOURCES], of_book(answers.reporting)),
    "methods": ([LIST_SOURCES, CHECK_SOURCES], of_names(answers.naming)),
    "answer_batch": ([SOURCES, CHECK_SOURCES, LIST_SOURCES], of_batch(answer_lines)),
}


def output(path, arguments, data, kib):
    def limit():
        resource.setrlimit(resource.RLIMIT_STACK, (kib * 1024, kib * 1024))
    done = subprocess.run(["setarch", "-R", path, *arguments], input=data, capture_output=True, preexec_fn=limit, env={})
    return None if done.returncode else done.stdout  # what was stopped has written nothing, which may be right


def least(path, arguments, data, right):
    """By halving: the program works under `high` and fails under `low`."""
    if output(path, arguments, data, MOST) != right:
        return None
    low, high = 16, MOST
    while high - low > 1:
        middle = (low + high) // 2
        if output(path, arguments, data, middle) == right:
            high = middle
        else:
            low = middle
    return high


def measure(program):
    folders, run = PROGRAMS[program]
    path, found = os.path.join(ROOT, "target", "bin", program), {}
    if not os.path.exists(path):
        print(f"{program}: not built, `tools/build.sh {program}` builds it")
        return
    for folder in folders:
        for name, text in mkbatch.sources(folder):
            source = f"{os.path.basename(folder)}/{name}"
            if is_large(name):
                arguments, data, right = run(name, text, bytes(mkbook.book(text)))
                found[source] = least(path, arguments, data, right.encode())
                print(f"{program} {source}:", f"{found[source]} KiB" if found[source] else f"wrong under {MOST} KiB")
    if all(found.values()):
        print(f"{program}, most: {max(found.values())} KiB, {max(found, key=found.get)}")


def main():
    unknown = set(sys.argv[1:]) - set(PROGRAMS)
    if unknown:
        sys.exit(f"usage: python3 bench/stack.py [PROGRAM ..], of {' '.join(PROGRAMS)}")
    for program in sys.argv[1:] or PROGRAMS:
        measure(program)


if __name__ == "__main__":
    main()
