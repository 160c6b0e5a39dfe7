#!/usr/bin/env python3
"""What a book has, for the stored list (docs/TESTING.md):

    python3 tools/shapes.py                        every shape and outcome with the sources of the list that have it
    python3 tools/shapes.py choose BATCH FOLDER    the books of a batch of `oracle generate` that have what the list lacks, written as
                                                   sources; fewest and smallest first

A book within its limits and without repeated labels has each shape below; and if it passes and has an actor, each two of those marked *
together. A book with repeated labels has the shape of the first of them. Books are chosen under document 01's figures.
"""

import functools
import itertools
import os
import re
import sys

import answers
import layout
import mkbook
import mkgate
import replay

ROLE = ("main", "a type import", "a service import", "an init file")
KIND = ("leaf",) * 18 + ("name", "opt", "vec", "record", "variant", "func", "service", "class", "args")
MODE = (None, "oneway", "query", "composite_query")
LABEL = (None, "number", "name", "unnamed")


def places(tree, place):
    """Each node of a tree with where it stands."""
    yield tree, place
    for index, kid in enumerate(tree.kids):
        if tree.kind == answers.FUNC:
            below = "func argument" if index < tree.value % 65536 else "func result"
        elif tree.kind == answers.SERVICE:
            below = "method"
        elif tree.kind == answers.CLASS:
            below = "class argument" if index + 1 < len(tree.kids) else "class service"
        else:
            below = "init argument" if tree.kind == answers.ARGS else KIND[tree.kind]
        yield from places(kid, below)


def of_names(names):
    numbers = [layout.label_number(name) for name in names]
    if len(set(numbers)) < len(numbers):
        yield "two names of one hash"
    for name in names:
        if not name:
            yield "the empty name"
        elif len(name) == 255:
            yield "a name of 255 bytes"
        if set(name) & set(b'"\\'):
            yield "a name with a quote or a backslash"
        if any(byte < 0x20 or byte == 0x7F for byte in name):
            yield "a name with a control byte"
        try:
            if not name.decode().isascii():
                yield "a name outside ASCII"
        except UnicodeDecodeError:
            yield "a name outside UTF-8"


def all_places(book):
    """Each node of a book with where it stands."""
    trees = [(row.type, f"definition of {ROLE[book.files[row.file].role]}") for row in book.definitions]
    trees += [(file.type, f"actor of {ROLE[file.role]}") for file in book.files if file.type and file.role != answers.INIT]
    trees += [(file.type, "init argument list") for file in book.files if file.role == answers.INIT]
    for root, place in trees:
        yield from places(root, place)


def of_trees(book):
    for tree, where in all_places(book):
        yield f"{KIND[tree.kind]} as {where}"
        if tree.kind < answers.NAME:
            yield f"{layout.LEAVES[tree.kind]}"
        if tree.kind in (answers.RECORD, answers.VARIANT):
            yield from (f"label {LABEL[kid.label_kind]} in a {KIND[tree.kind]}" for kid in tree.kids)
        if tree.kind == answers.FUNC:
            modes = answers.modes_of(tree)
            yield f"{len(modes)} modes" if len(modes) > 1 else f"mode {MODE[modes[0]] if modes else 'none'}"
        if not tree.kids and tree.kind > answers.NAME:
            yield f"{KIND[tree.kind]} without children"


def of_repeat(book):
    """Where the child that is refused has the label of an earlier one, and how both are labelled."""
    later = answers.repeated(book)
    tree, where = next((tree, where) for tree, where in all_places(book) if any(kid is later for kid in tree.kids))
    label = answers.label_of(book.names, tree, later)
    first = next(kid for kid in tree.kids if answers.label_of(book.names, tree, kid) == label)
    other = "another " if first.label_kind == later.label_kind and first.label != later.label else ""
    yield f"a repeat in a {KIND[tree.kind]} as {where}"
    yield f"a {KIND[tree.kind]}'s {LABEL[first.label_kind]} again as {other}{LABEL[later.label_kind]}"


def of_files(book):
    roles = [file.role for file in book.files]
    yield "files " + ", ".join(ROLE[role] for role in sorted(set(roles)))
    main = book.files[0].type
    yield f"main has {KIND[main.kind] if main else 'no actor'} *"
    for role in (answers.TYPE_IMPORT, answers.SERVICE_IMPORT):
        if roles.count(role):
            yield f"{ROLE[role]} *"
        if roles.count(role) > 1:
            yield f"two {ROLE[role][2:]}s *"
    if any(file.role == answers.TYPE_IMPORT and file.type for file in book.files):
        yield "a type import with an actor *"
    if answers.INIT in roles:
        yield "an init file *"
        own, others = ({row.name for row in book.definitions if (roles[row.file] == answers.INIT) == is_init} for is_init in (True, False))
        if own & others:
            yield "a name defined in the init file and in another *"
    for role in sorted({roles[row.file] for row in book.definitions}):
        yield f"definitions of {ROLE[role]} *"
    if len({file.name for file in book.files}) < len(roles):
        yield "two files of one name"


def of_outcomes(outcomes):
    for question, outcome in outcomes.items():
        word, said = question.split(" ")[0], outcome.split(" ")
        if said[0] == "given":
            entries = int(said[1])
            yield f"{word} given {entries if entries < 2 else 'more'}" + (" *" if entries and word in ("marks", "empty", "init") else "")
            if word == "uses":
                yield from ("uses of a class argument *" for use in said[2:] if use.startswith("65535."))
                yield from ("uses of a result" for use in said[2:] if use.split(".")[1] == "1")
        elif said[0] == "refused":
            yield f"{word} refused {said[1]}"
        else:
            yield f"{word} {said[0]}"


def of_definitions(book, outcomes):
    """Of a book that passes and has an actor."""
    env, actor = answers.check(book)
    listed = answers.definition_list(book)
    if set(env) - set(listed):
        yield "an unreached definition *"
    methods = answers.alias_end(env, answers.below_class(actor)).kids
    if any(method.kind == answers.NAME for method in methods):
        yield "a method by a name *"
    inside = [node for method in methods for node in answers.nodes(method)[1:]]
    for kind in (answers.FUNC, answers.SERVICE):
        if any(node.kind == kind for node in inside):
            yield f"a {KIND[kind]} inside a method's {KIND[answers.FUNC]} *"
    if outcomes["marks"] != outcomes["marks-back"]:
        yield "other marks backwards *"
    if outcomes["list"] != outcomes["draft"]:
        yield "a draft that lists otherwise *"
    if listed != sorted(listed):
        yield "a list that is not ascending *"


def shapes(data, outcomes=None):
    """All that a book has."""
    try:
        book = answers.Book(data)
    except answers.Refused:
        return {"broken " + rule for rule, _ in layout.faults(data)}
    outcomes = outcomes or answers.outcomes(data)
    if outcomes["check"] == "refused 24 -":  # nothing was looked at
        return set(of_outcomes(outcomes))
    if outcomes["check"].startswith("refused 18 "):  # nothing but labels was
        return {*of_repeat(book), *of_outcomes(outcomes)}
    found = {*of_names(book.names), *of_trees(book), *of_files(book), *of_outcomes(outcomes)}
    refused = outcomes["check"].split(" ")[1] if outcomes["check"] != "passed" else None
    roles = {file.role for file in book.files}
    found |= {f"check refused {refused}, with {ROLE[role]}" for role in roles if refused and role}
    if outcomes["list"].startswith("given"):
        found |= set(of_definitions(book, outcomes))
        marked = sorted(shape for shape in found if shape.endswith(" *"))
        found |= {f"{one} and {other}" for one, other in itertools.combinations(marked, 2)}
    return found


def folded(line, width=150):
    """A line of a source in lines that are not too long, broken outside of names."""
    lines = [""]
    for word in re.findall(r'(?:"[^"]*"|[^ "])+', line):
        if lines[-1].strip() and len(lines[-1]) + 1 + len(word) > width:
            lines.append("   ")
        lines[-1] += (" " if lines[-1] else "") + word
    return "\n".join(lines) + "\n"


def choose(batch, folder, most=2_000):
    """Writes the books that have what the list and those chosen before lack."""
    has, candidates = shown().keys(), []
    for name, book, _ in replay.records(batch):
        if len(book) <= most and not layout.faults(book):
            lacking = shapes(book) - has
            if lacking:
                candidates.append([lacking, name, book])
    while True:
        candidates = [candidate for candidate in candidates if candidate[0]]
        if not candidates:
            return
        best = max(candidates, key=lambda candidate: (len(candidate[0]) / (300 + len(candidate[2])), candidate[1]))
        lacking, name, book = set(best[0]), best[1], best[2]
        first = min(lacking, key=lambda shape: (" and " in shape, shape)).replace(" *", "")
        what = f"the first with {first}" + (f", and {len(lacking) - 1} more such" if len(lacking) > 1 else "")
        print(f"{name}: {what}")
        text = "".join(folded(line) for line in layout.text(book).splitlines())
        assert bytes(mkbook.book(text)) == book
        with open(os.path.join(folder, f"{name}.did"), "w", encoding="utf-8") as file:
            file.write(f"// random {name}: {what}\n{text}")
        for candidate in candidates:
            candidate[0] -= lacking


@functools.cache
def shown():
    """Each shape with the sources of the list that have it."""
    found = {}
    for name, _, book, _, outcomes in mkgate.replayed():
        for shape in shapes(book, outcomes):
            found.setdefault(shape, []).append(name)
    return found


def main():
    if sys.argv[1:2] == ["choose"] and len(sys.argv) == 4:
        with open(sys.argv[2], "rb") as batch:
            choose(batch.read(), sys.argv[3])
    elif len(sys.argv) == 1:
        for shape, sources in sorted(shown().items()):
            print(f"{shape}: {' '.join(sources)}")
    else:
        sys.exit(__doc__.strip())


if __name__ == "__main__":
    main()
