#!/usr/bin/env python3
"""The stored list of books with the Rust's answers, crates/answer_batch/stdin and stdout. docs/TESTING.md says how it was made.

    python3 tools/replay.py answer < BATCH              what answer_batch has to print of a batch, by tools/answers.py
    python3 tools/replay.py join BATCH RUST > EXPECTED  the same by `oracle answer`: the Rust's lines, and those of tools/answers.py
                                                        where the Rust has none; tells on standard error how many and which
"""

import collections
import re
import struct
import sys

import answers


def records(data):
    """The names, books and limits of a batch."""
    at = 0
    while at < len(data):
        name = data[at + 1:at + 1 + data[at]].decode()
        at += 1 + data[at]
        *limits, size = struct.unpack_from("<4I", data, at)
        yield name, data[at + 16:at + 16 + size], answers.Limits(*limits)
        at += 16 + size


def parted(line):
    """A line without its source's name: the question, and the outcome."""
    word, rest = line.split(" ", 1)
    end = rest.index('"', 1) + 1 if rest[0] == '"' else 0  # a quoted name has no quotation mark inside
    return (f"{word} {rest[:end]}", rest[end + 1:]) if end else (word, rest)


def short_of(question):
    """The same question with too short a list."""
    word, *name = question.split(" ", 1)
    return " ".join([f"{word}-short", *name])


def lines(name, outcomes):
    """The lines of a book."""
    return [f"{name} {question} {outcome}\n" for question, outcome in outcomes.items()]


def printed(books):
    """The lines of books, of each its name and outcomes, and the tally."""
    tally = answers.Tally()
    for name, outcomes in books:
        for question, outcome in outcomes.items():
            tally.add(question, outcome)
        yield from lines(name, outcomes)
    yield from tally.lines()


def answered(data):
    """What tools/answers.py says of each book of a batch."""
    for name, book, limits in records(data):
        yield name, answers.outcomes(book, limits)


def whose(question, theirs):
    """Whose line `oracle answer` prints: the Rust's, or the oracle's own, by the paper."""
    word, outcome = question.split(" ")[0], theirs[question]
    if theirs["layout"] == "refused 1 -":
        return "the oracle's own, layout broken"
    if word in ("layout", "name"):
        return "the oracle's own, its reader of books"
    if outcome.startswith(("refused 24 ", "refused 18 ")):
        return f"the oracle's own, {outcome.split(' ')[1]}"
    if word.endswith("-short") or outcome == "refused 16 -":
        return "the oracle's own, 16"
    if word in ("marks-outside", "marks-highest") and theirs["marks"].startswith("given"):
        return "the oracle's own, 3 for a number outside"
    if word in ("alias", *answers.INNER) and outcome.startswith("given"):
        return "the oracle's own, the names crossed"
    if word == "values" and outcome.startswith("given"):
        return "the oracle's own, how many values"
    return "the Rust's"


def joined(data, rust, told):
    """What the Rust says of each book, and tools/answers.py where it says nothing. Counts in `told` the lines by whose they are, and
    those of the others on which tools/answers.py says something else."""
    left = iter(rust.splitlines())
    line = next(left, None)
    for name, book, limits in records(data):
        theirs, ours, found = {}, answers.outcomes(book, limits), {}
        while line is not None and line.startswith(name + " "):
            question, outcome = parted(line[len(name) + 1:])
            theirs[question] = outcome
            line = next(left, None)
        for question, outcome in theirs.items():
            if outcome.startswith("unanswered "):
                why, *names = re.findall(r'"[^"]*"|[^" ]+', outcome)[1:]
                asked = {question: f"unanswered {why}" for question in (question, short_of(question)) if question in ours}
                found |= {question: ours[question] for question in asked}
                if not set(names) <= set(re.findall(r'"[^"]*"', ours[question])):  # those that the Rust gives all the same
                    told["tools/answers.py says something else"][f"{name} {question}"] += 1
            else:
                found[question] = outcome
                asked = {question: whose(question, theirs)}
                if ours.get(question) != outcome:
                    told["tools/answers.py says something else"][f"{name} {question}"] += 1
            for question, which in asked.items():
                told[which][question.split(" ")[0]] += 1
        if found.keys() != ours.keys():
            told["tools/answers.py has other questions"][name] += 1
        yield name, found
    if line is not None:
        sys.exit(f"the Rust's lines go on after the last book: {line}")


def main():
    if sys.argv[1:] == ["answer"]:
        sys.stdout.writelines(printed(answered(sys.stdin.buffer.read())))
    elif sys.argv[1:2] == ["join"] and len(sys.argv) == 4:
        with open(sys.argv[2], "rb") as batch, open(sys.argv[3], encoding="utf-8") as rust:
            data, text = batch.read(), rust.read()
        told = collections.defaultdict(collections.Counter)
        sys.stdout.writelines(printed(joined(data, text, told)))
        for which, words in sorted(told.items()):
            counts = ", ".join(f"{word} {count}" for word, count in words.items())
            print(f"{which}: {sum(words.values())} lines: {counts}", file=sys.stderr)
    else:
        sys.exit(__doc__.strip())


if __name__ == "__main__":
    main()
