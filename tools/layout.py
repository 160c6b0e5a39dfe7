#!/usr/bin/env python3
"""Reads a declaration book by document 01, section "The book", and prints it:  python3 tools/layout.py BOOK

A whole book is printed as a source that tools/mkbook.py turns into the same bytes. For a broken one the line
`refused 1 -` is printed and on standard error each rule that it breaks. This is a second reading of the paper
for the tests: it shares nothing with mkbook.py. It goes on after a broken rule where it can, so that a test can
tell whether a book breaks one rule alone.
"""

import re
import struct
import sys
from collections import namedtuple

sys.setrecursionlimit(1 << 16)

Node = namedtuple("Node", "kind label_kind size value label")
Definition = namedtuple("Definition", "name file root zero")
File = namedtuple("File", "name role root zero")
Book = namedtuple("Book", "names nodes definitions files")

# The rules, by the words that a fault is given under.
RULES = {
    "length": "at least the table of contents, at most 65,536 bytes",
    "limit": "at most 1,024 names, 4,096 nodes, 512 definitions; 1 to 16 files",
    "offset": "the bodies follow the table of contents in order without gaps, the names fill theirs",
    "end": "the bodies end the book",
    "names": "names are strictly ascending by bytes",
    "kind": "kinds are 0 to 26",
    "size": "a size is at least 1; children do not run past their parent, nor a tree past the nodes",
    "children": "kinds 0 to 18 have none, 19 and 20 one, 25 at least one",
    "label": "label kinds 1, 2, 3 in record and variant, 2 in service, else 0 and label 0; names are in the table",
    "value": "a name number in the table for 18, arguments and modes for 23, else 0",
    "definition": "name and file are in their tables, the last field is 0, file numbers never fall",
    "file": "the name is in the table, the last field is 0",
    "role": "role 0 first and nowhere else, 3 at most once and last, none above",
    "init": "the root of role 3 is there and of kind 26, which stands nowhere else",
    "trees": "trees lie end to end, the definitions' in order, then the files', and nothing is left over",
}
NO_ROOT = 65535


class Stop(Exception):
    """What comes after a fault cannot be read."""


class Reader:
    """With `packed` the bodies are read where they must lie, else where the table of contents says."""

    def __init__(self, data, packed=False):
        self.data, self.packed, self.faults, self.book = data, packed, [], None
        try:
            self.read()
        except Stop:
            pass

    def check(self, kept, rule, text):
        assert rule in RULES
        if not kept:
            self.faults.append((rule, text))
        return kept

    def need(self, kept, rule, text):
        if not self.check(kept, rule, text):
            raise Stop

    def read(self):
        size = len(self.data)
        self.need(size >= 32, "length", f"{size} bytes hold no table of contents")
        self.check(size <= 65536, "length", f"{size} bytes")
        toc = struct.unpack("<8I", self.data[:32])
        self.offsets, counts = toc[0::2], toc[1::2]
        for part, count, limit in zip(Book._fields, counts, (1024, 4096, 512, 16)):
            self.check(count <= limit, "limit", f"{count} {part}")
        self.check(counts[3] > 0, "limit", "no files")

        self.end = 32  # of what has been read
        names = self.names(counts[0])
        nodes = self.rows(1, counts[1], "<BBHII", Node)
        definitions = self.rows(2, counts[2], "<4H", Definition)
        files = self.rows(3, counts[3], "<4H", File)
        self.check(self.end == size, "end", f"the files end at {self.end}, the book at {size}")

        self.book = Book(names, nodes, definitions, files)
        self.order()
        self.definitions()
        self.files()
        self.trees()

    def start(self, part):
        """Where a body starts."""
        self.check(self.offsets[part] == self.end, "offset",
                   f"{Book._fields[part]} at {self.offsets[part]}, not at {self.end}")
        return self.end if self.packed else self.offsets[part]

    def names(self, count):
        at, found = self.start(0), []
        for _ in range(count):
            self.inside(at + 1)
            length = self.data[at]
            self.inside(at + 1 + length)
            found.append(self.data[at + 1:at + 1 + length])
            at += 1 + length
        self.end = at
        return found

    def rows(self, part, count, form, row):
        start = self.start(part)
        self.end = start + count * struct.calcsize(form)
        self.inside(self.end)
        return [row(*fields) for fields in struct.iter_unpack(form, self.data[start:self.end])]

    def inside(self, end):
        if end > len(self.data):
            if not any(rule == "limit" for rule, _ in self.faults):
                self.check(False, "end", f"the book ends at {len(self.data)}, before {end}")
            raise Stop

    def order(self):
        names = self.book.names
        for place in range(1, len(names)):
            self.check(names[place - 1] < names[place], "names", f"name {place} does not come after the one before")

    def definitions(self):
        before = 0
        for place, row in enumerate(self.book.definitions):
            where = f"definition {place}"
            self.check(row.name < len(self.book.names), "definition", f"{where}: name {row.name}")
            self.check(row.file < len(self.book.files), "definition", f"{where}: file {row.file}")
            self.check(row.zero == 0, "definition", f"{where}: last field {row.zero}")
            self.check(before <= row.file, "definition", f"{where}: file {row.file} after {before}")
            before = row.file

    def files(self):
        last = len(self.book.files) - 1
        for place, row in enumerate(self.book.files):
            where = f"file {place}"
            self.check(row.name < len(self.book.names), "file", f"{where}: name {row.name}")
            self.check(row.zero == 0, "file", f"{where}: last field {row.zero}")
            self.check(row.role <= 3, "role", f"{where}: role {row.role}")
            self.check((row.role == 0) == (place == 0), "role", f"{where}: role {row.role}")
            self.check(row.role != 3 or place == last, "role", f"{where}: role 3 is not last")
            self.check(row.role != 3 or row.root != NO_ROOT, "init", f"{where}: role 3 without a root")

    def trees(self):
        """Each tree is read where it must lie, whatever root its row gives."""
        roots = [(f"definition {place}", row.root, False) for place, row in enumerate(self.book.definitions)]
        roots += [(f"file {place}", row.root, row.role == 3) for place, row in enumerate(self.book.files)
                  if row.root != NO_ROOT]
        at, count = 0, len(self.book.nodes)
        for where, root, is_init in roots:
            self.check(root == at, "trees", f"{where}: root {root}, not {at}")
            self.need(at < count, "trees", f"{where}: no nodes are left")
            size = self.book.nodes[at].size
            self.need(size > 0, "size", f"node {at}: size 0")
            self.need(at + size <= count, "size", f"node {at}: size {size} runs past the nodes")
            is_list = self.book.nodes[at].kind == 26
            self.check(is_list or not is_init, "init", f"{where}: role 3 with another root")
            self.check(is_init or not is_list, "init", f"{where}: a root of kind 26")
            self.tree(at, at + size)
            at += size
        self.check(at == count, "trees", f"nodes {at} to {count - 1} are in no tree")

    def tree(self, root, end):
        parents = {root: None}
        for at in range(root, end):  # a node comes after its parent, so it is in `parents`
            children = self.children(at)
            if children is None:
                return
            parents.update((child, at) for child in children)
            self.node(at, len(children))
            self.label(at, parents[at])
            self.check(at == root or self.book.nodes[at].kind != 26, "init", f"node {at}: kind 26 below a root")

    def children(self, at):
        """The children's places, None where they do not fill their parent."""
        end, child, found = at + self.book.nodes[at].size, at + 1, []
        while child < end:
            size = self.book.nodes[child].size
            if not self.check(size > 0, "size", f"node {child}: size 0"):
                return None
            if not self.check(child + size <= end, "size", f"node {child}: size {size} runs past its parent"):
                return None
            found.append(child)
            child += size
        return found

    def node(self, at, children):
        node, where = self.book.nodes[at], f"node {at}"
        has = f"{where}: kind {node.kind} has {children} children"
        self.check(node.kind <= 26, "kind", f"{where}: kind {node.kind}")
        if node.kind <= 18:
            self.check(children == 0, "children", has)
        if node.kind in (19, 20):
            self.check(children == 1, "children", has)
        if node.kind == 25:
            self.check(children >= 1, "children", has)
        if node.kind == 18:
            self.check(node.value < len(self.book.names), "value", f"{where}: name {node.value}")
        elif node.kind == 23:
            arguments, digits = node.value % 65536, digits_of(node)
            self.check(arguments <= children, "value", f"{where}: {arguments} arguments, {children} children")
            self.check(digits == mode_digits(digits), "value", f"{where}: a mode after a 0")
        else:
            self.check(node.value == 0, "value", f"{where}: value {node.value}")

    def label(self, at, parent):
        node = self.book.nodes[at]
        parent_kind = None if parent is None else self.book.nodes[parent].kind
        where = f"node {at}: label kind {node.label_kind}, label {node.label}"
        if parent_kind in (21, 22):
            self.check(node.label_kind in (1, 2, 3), "label", where)
        elif parent_kind == 24:
            self.check(node.label_kind == 2, "label", where)
        else:
            self.check(node.label_kind == 0 and node.label == 0, "label", where)
        if parent_kind in (21, 22, 24) and node.label_kind == 2:
            self.check(node.label < len(self.book.names), "label", f"{where}: no such name")


def digits_of(node):
    """The eight base-4 digits of a function's modes, lowest first."""
    return [node.value >> 16 + 2 * place & 3 for place in range(8)]


def mode_digits(digits):
    """The digits before the first 0, and zeros after."""
    modes = digits[:digits.index(0)] if 0 in digits else digits
    return modes + [0] * (8 - len(modes))


def faults(data, packed=False):
    """The rules that a book breaks, each with what was found; none for a whole book."""
    return Reader(data, packed).faults


# Printing

LEAVES = ("null bool nat int nat8 nat16 nat32 nat64 int8 int16 int32 int64 "
          "float32 float64 text reserved empty principal").split()
WORDS = set(LEAVES) | set("blob opt vec record variant func service class args unnamed repeat nest type file names "
                          "oneway query composite_query import".split())
MODES = (None, "oneway", "query", "composite_query")
ROLES = ("main", "type", "service", "init")


def quoted(name):
    return '"' + "".join(chr(byte) if 0x20 <= byte <= 0x7E and byte not in b'"\\' else f"\\{byte:02x}"
                         for byte in name) + '"'


def spelled(name):
    plain = re.fullmatch(rb"[A-Za-z_][A-Za-z0-9_]*", name)
    return name.decode() if plain and name.decode() not in WORDS else quoted(name)


def label_number(name):
    return sum(byte * pow(223, len(name) - 1 - place, 2**32) for place, byte in enumerate(name)) % 2**32


class Printer:
    """A whole book as text."""

    def __init__(self, book):
        self.book = book

    def program(self):
        lines, book = [], self.book
        unused = [name for name, used in zip(book.names, self.used()) if not used]
        if unused:
            lines.append("names " + " ".join(quoted(name) for name in unused) + ";")
        for place, file in enumerate(book.files):
            if len(book.files) > 1 or book.names[file.name] != b"":
                lines.append(f"file {quoted(book.names[file.name])} {ROLES[file.role]}")
            lines += [f"type {spelled(book.names[row.name])} = {self.type(row.root)};"
                      for row in book.definitions if row.file == place]
            if file.root != NO_ROOT:
                is_list = book.nodes[file.root].kind == 26
                lines.append(self.type(file.root) if is_list else "service : " + self.actor(file.root))
        return "\n".join(lines) + "\n"

    def used(self):
        used = [False] * len(self.book.names)
        for row in self.book.definitions + self.book.files:
            used[row.name] = True
        for node in self.book.nodes:
            if node.kind == 18:
                used[node.value] = True
            if node.label_kind == 2:
                used[node.label] = True
        return used

    def children(self, at):
        found, child = [], at + 1
        while child < at + self.book.nodes[at].size:
            found.append(child)
            child += self.book.nodes[child].size
        return found

    def type(self, at):
        node, below = self.book.nodes[at], self.children(at)
        if node.kind < 18:
            return LEAVES[node.kind]
        if node.kind == 18:
            return spelled(self.book.names[node.value])
        if node.kind in (19, 20):
            return ("opt ", "vec ")[node.kind - 19] + self.type(below[0])
        if node.kind in (21, 22):
            return ("record", "variant")[node.kind - 21] + braces(self.fields(below, node.kind == 21))
        if node.kind == 23:
            return "func " + self.function(at)
        if node.kind == 24:
            return "service " + self.methods(at)
        if node.kind == 25:
            return "class " + self.actor(at)
        return "args " + self.tuple(below)

    def tuple(self, places):
        return "(" + ", ".join(self.type(at) for at in places) + ")"

    def function(self, at):
        node, below = self.book.nodes[at], self.children(at)
        arguments = node.value % 65536
        modes = "".join(" " + MODES[digit] for digit in digits_of(node) if digit)
        return self.tuple(below[:arguments]) + " -> " + self.tuple(below[arguments:]) + modes

    def methods(self, at):
        def method(child):
            is_function = self.book.nodes[child].kind == 23
            text = self.function(child) if is_function else self.type(child)
            return spelled(self.book.names[self.book.nodes[child].label]) + " : " + text
        return braces([method(child) for child in self.children(at)]).lstrip()

    def actor(self, at):
        kind, below = self.book.nodes[at].kind, self.children(at)
        if kind == 24:
            return self.methods(at)
        if kind == 25:
            return self.tuple(below[:-1]) + " -> " + self.actor(below[-1])
        return self.type(at)

    def fields(self, places, is_record):
        found, following = [], 0
        for at in places:
            node = self.book.nodes[at]
            name = self.book.names[node.label] if node.label_kind == 2 else b""
            if is_record and node.label_kind == 3 and node.label == following:
                found.append(self.type(at))
            else:
                label = (None, str(node.label), spelled(name), f"unnamed {node.label}")[node.label_kind]
                found.append(label + " : " + self.type(at))
            following = 1 + (label_number(name) if node.label_kind == 2 else node.label)
        return found


def braces(items):
    return " { " + "; ".join(items) + " }" if items else " {}"


def text(data):
    """A whole book as a source for mkbook.py."""
    return Printer(Reader(data).book).program()


def main():
    if len(sys.argv) != 2:
        sys.exit("usage: python3 tools/layout.py BOOK")
    with open(sys.argv[1], "rb") as file:
        data = file.read()
    found = faults(data)
    for rule, what in found:
        print(f"{rule}: {what}", file=sys.stderr)
    sys.stdout.write("refused 1 -\n" if found else text(data))
    sys.exit(1 if found else 0)


if __name__ == "__main__":
    main()
