#!/usr/bin/env python3
r"""Makes a declaration book from a readable source:  python3 tools/mkbook.py SOURCE > BOOK

The source is Candid text, with what a raw book may hold beyond Candid, and damage for tests.
Nothing is judged here: whatever can be written down is encoded as it stands.

    type NAME = TYPE;                  a definition
    service : ACTOR                    the file's actor, `service ID : ACTOR` likewise
    args (TYPE, ..)                    an init file's argument list
    file TEXT ROLE                     starts a file; ROLE is main, type, service, init or a number.
                                       Without any: one main file, named by the empty name.
    names TEXT TEXT ..                 names that nothing else mentions
    names = TEXT TEXT ..               the whole name table as it stands here, neither sorted nor completed
    repeat N { .. }                    the tokens between the braces N times, at any place; a run of # in them is
                                       the number of the round from 0, padded with 0 to the run's length, and a run
                                       with +N after it that number plus N; #*N%M is that number times N, modulo M,
                                       not padded
    nest N { A .. | B .. } { C .. }    A N times, C, then B N times: N things, each inside the one before. A run of # is
                                       as above, and in a B that of the A that it closes

    TYPE    null bool nat .. principal, blob, NAME, opt TYPE, vec TYPE, record { FIELD; .. },
            variant { FIELD; .. }, func FUNC, service { METHOD; .. }, class ACTOR, args (TYPE, ..)
    FUNC    (TYPE, ..) -> (TYPE, ..) MODE ..       MODE is oneway, query or composite_query, eight at most;
                                                   `x : TYPE` among the arguments says no more than TYPE
    ACTOR   { METHOD; .. }, TYPE or a class: (TYPE, ..) -> ACTOR
    METHOD  NAME : FUNC  or  NAME : TYPE
    FIELD   LABEL : TYPE; in a record TYPE alone is unnamed, its number follows the label before it, from 0;
            in a variant LABEL alone has the type null
    LABEL   a number, NAME, or `unnamed` and a number
    NAME    an identifier, or TEXT where it is none or means something else
    TEXT    "..", where \hh is a byte in hex and \" and \\ stand for " and \; TEXT * N and TEXT + TEXT
    numbers are decimal or 0x.., with _ between digits; // and /* */ are comments

The names are collected, sorted by bytes and numbered. Definitions, fields and methods keep their order.
Damage stands after the source and is done in its order, that to rows before that to bytes:

    patch nodes[3].size = 2            also += and -=; nodes have kind labelkind size value label,
    patch definitions[0].file = 7      definitions have name file root zero,
    patch files[0].role = 4            files have name role root zero
    drop nodes[3]                      takes a row away; the others keep their numbers
    patch toc.nodes.offset += 12       the table of contents: offset and count of the four parts
    patch bytes 40 = 255 0             bytes from place 40 on
    insert nodes 0 0                   bytes before a part (or before a place), as laid out so far
    cut nodes 4                        takes 4 bytes away there
    append 0                           bytes after the end
    truncate 1                         takes 1 byte away from the end
    keep 31                            takes all away but the first 31
"""

import re
import struct
import sys
from dataclasses import astuple, dataclass

sys.setrecursionlimit(1 << 16)

PRIMITIVES = ("null bool nat int nat8 nat16 nat32 nat64 int8 int16 int32 int64 "
              "float32 float64 text reserved empty principal").split()
NAME, OPT, VEC, RECORD, VARIANT, FUNC, SERVICE, CLASS, ARGS = range(18, 27)
NO_LABEL, NUMBER, NAMED, UNNAMED = range(4)
MODES = {"oneway": 1, "query": 2, "composite_query": 3}
ROLES = {"main": 0, "type": 1, "service": 2, "init": 3}
DAMAGE = ("patch", "drop", "insert", "cut", "append", "truncate", "keep")
PARTS = ("names", "nodes", "definitions", "files")
NO_ROOT = 65535


@dataclass
class Node:
    kind: int
    labelkind: int
    size: int
    value: int  # the bytes of a name until the names are numbered; so are label and the rows' names
    label: int


@dataclass
class Definition:
    name: int
    file: int
    root: int
    zero: int = 0


@dataclass
class File:
    name: int
    role: int
    root: int = NO_ROOT
    zero: int = 0


class SourceError(Exception):
    pass


# Tokens

TOKEN = re.compile(r'(?P<skip>\s+|//[^\n]*|/\*.*?\*/)|"(?:[^"\\]|\\.)*"|->|[+-]=|\w*#\*\d+%\d+|\w*#+\+\d+|[\w#]+|[{}()\[\]:;,.=*+|-]',
                   re.S | re.A)


def tokens(text):
    """The tokens of a source, repeats written out."""
    found, at = [], 0
    while at < len(text):
        match = TOKEN.match(text, at)
        if not match:
            raise SourceError(f"line {text.count(chr(10), 0, at) + 1}: cannot read {text[at]!r}")
        if not match["skip"]:
            found.append(match[0])
        at = match.end()
    return repeated(iter(found), None)


def repeated(stream, closing):
    """The tokens up to the closing brace of a repeat, or all, with the repeats and nests among them written out."""
    out, depth = [], 0
    for token in stream:
        if token == "repeat":
            count, body = counted(stream)
            for turn in range(count):
                out += numbered(body, turn)
            continue
        if token == "nest":
            count, body = counted(stream)
            bar = body.index("|") if "|" in body else len(body)
            for turn in range(count):
                out += numbered(body[:bar], turn)
            out += braced(stream)
            for turn in reversed(range(count)):
                out += numbered(body[bar + 1:], turn)
            continue
        if token == closing and depth == 0:
            return out
        depth += (token == "{") - (token == "}")
        out.append(token)
    return out


def counted(stream):
    """A number and the tokens in the braces after it."""
    return number(next(stream)), braced(stream)


def braced(stream):
    if next(stream, "") != "{":
        raise SourceError("{ expected after repeat or nest")
    return repeated(stream, "}")


def numbered(body, turn):
    def written(run):
        return str(turn * int(run[1]) % int(run[2])) if run[1] else str(turn + int(run[4] or 0)).zfill(len(run[3]))
    return [re.sub(r"#\*(\d+)%(\d+)|(#+)(?:\+(\d+))?", written, word) for word in body]


def number(token):
    plain = token.replace("_", "")
    return int(plain[2:], 16) if plain[:2] == "0x" else int(plain)


def unquoted(token):
    """The bytes of a quoted text."""
    parts = re.split(r'\\([0-9a-fA-F]{2}|["\\])', token[1:-1])
    return b"".join(part.encode() if place % 2 == 0 or part in '"\\' else bytes.fromhex(part)
                    for place, part in enumerate(parts) if part)


def label_number(name):
    result = 0
    for byte in name:
        result = (result * 223 + byte) % 2**32
    return result


# The source

class Source:
    """Reads tokens to rows. Trees are written down in preorder as they are met."""

    def __init__(self, words):
        self.words, self.at = words, 0
        self.extra, self.table = [], None
        self.definitions, self.files = [], []
        self.bodies, self.actors = [], []  # the nodes of definitions and of files
        self.rows = None  # the one of the two that is written to

    # tokens

    def peek(self, ahead=0):
        place = self.at + ahead
        return self.words[place] if place < len(self.words) else ""

    def next(self):
        self.at += 1
        return self.words[self.at - 1] if self.at <= len(self.words) else ""

    def take(self, word):
        if self.peek() == word:
            self.at += 1
            return True
        return False

    def expect(self, word):
        if not self.take(word):
            self.fail(f"{word} expected")

    def fail(self, message):
        near = " ".join(self.words[max(0, self.at - 4):self.at + 4])
        raise SourceError(f"{message} near: {near}")

    def text(self):
        whole = b""
        while True:
            if self.peek()[:1] != '"':
                self.fail("text expected")
            part = unquoted(self.next())
            whole += part * number(self.next()) if self.take("*") else part
            if not self.take("+"):
                return whole

    def texts(self):
        found = []
        while self.peek()[:1] == '"':
            found.append(self.text())
        self.take(";")
        return found

    def name(self):
        if self.peek()[:1] == '"':
            return self.text()
        if not re.match("[A-Za-z_]", self.peek()):
            self.fail("name expected")
        return self.next().encode()

    def items(self, opening, between, closing, item):
        self.expect(opening)
        count = 0
        while not self.take(closing):
            item()
            count += 1
            if self.peek() != closing:
                self.expect(between)
        return count

    # the file level

    def program(self):
        while self.at < len(self.words) and self.peek() not in DAMAGE:
            if self.take("file"):
                self.file()
            elif self.take("names"):
                if self.take("="):
                    self.table = self.texts()
                else:
                    self.extra += self.texts()
            elif self.take("type"):
                self.definition()
            elif self.peek() in ("service", "args"):
                self.actor()
            elif not self.take(";"):
                self.fail("file, names, type, service, args or damage expected")
        self.last_file()

    def file(self):
        name, role = self.text(), self.next()
        self.files.append(File(name, ROLES[role] if role in ROLES else number(role)))
        self.take(";")

    def last_file(self):
        if not self.files:
            self.files.append(File(b"", ROLES["main"]))
        return self.files[-1]

    def definition(self):
        self.last_file()
        self.rows = self.bodies
        self.definitions.append(Definition(self.name(), len(self.files) - 1, len(self.rows)))
        self.expect("=")
        self.type()

    def actor(self):
        self.rows = self.actors
        self.last_file().root = len(self.rows)
        if self.peek() == "args":
            return self.type()
        self.next()
        if self.peek() != ":":
            self.next()
        self.expect(":")
        self.actor_type()

    # types

    def type(self, label=(NO_LABEL, 0)):
        word = self.next()
        if word in PRIMITIVES:
            self.tree(PRIMITIVES.index(word), label)
        elif word == "blob":
            self.tree(VEC, label, lambda: self.tree(PRIMITIVES.index("nat8")))
        elif word in ("opt", "vec"):
            self.tree(OPT if word == "opt" else VEC, label, self.type)
        elif word in ("record", "variant"):
            self.fields(word == "record", label)
        elif word == "func":
            self.function(label)
        elif word == "service":
            self.service(label)
        elif word == "class":
            self.actor_type(label)
        elif word == "args":
            self.tree(ARGS, label, self.arguments)
        else:
            self.at -= 1
            self.tree(NAME, label, value=self.name())

    def open(self, kind, label, value=0):
        self.rows.append(Node(kind, label[0], len(self.rows), value, label[1]))
        return self.rows[-1]

    def close(self, node):
        """Size held the node's own place so far."""
        node.size = len(self.rows) - node.size

    def tree(self, kind, label=(NO_LABEL, 0), below=lambda: None, value=0):
        node = self.open(kind, label, value)
        below()
        self.close(node)

    def arguments(self):
        return self.items("(", ",", ")", self.argument)

    def argument(self):
        if self.peek(1) == ":":
            self.at += 2
        self.type()

    def function(self, label):
        node = self.open(FUNC, label)
        node.value = self.arguments()
        self.expect("->")
        self.arguments()
        place = 0
        while self.peek() in MODES:
            if place == 8:
                self.fail("more than eight modes")
            node.value += MODES[self.next()] << 16 + 2 * place
            place += 1
        self.close(node)

    def service(self, label):
        self.tree(SERVICE, label, lambda: self.items("{", ";", "}", self.method))

    def method(self):
        label = NAMED, self.name()
        self.expect(":")
        self.function(label) if self.peek() == "(" else self.type(label)

    def actor_type(self, label=(NO_LABEL, 0)):
        if self.peek() == "{":
            self.service(label)
        elif self.peek() == "(":
            node = self.open(CLASS, label)
            self.arguments()
            self.expect("->")
            self.actor_type()
            self.close(node)
        else:
            self.type(label)

    def fields(self, is_record, label):
        following = 0

        def field():
            nonlocal following
            start = self.at
            field_label = self.label()
            if field_label and self.take(":"):
                self.type(field_label)
            elif is_record:
                self.at = start
                field_label = UNNAMED, following
                self.type(field_label)
            elif field_label:
                self.tree(PRIMITIVES.index("null"), field_label)
            else:
                self.fail("label expected")
            value = field_label[1]
            following = 1 + (label_number(value) if isinstance(value, bytes) else value)

        self.tree(RECORD if is_record else VARIANT, label, lambda: self.items("{", ";", "}", field))

    def label(self):
        if self.peek().isdigit() or self.peek()[:2] == "0x":
            return NUMBER, number(self.next())
        if self.peek() == "unnamed" and self.peek(1).isdigit():
            self.next()
            return UNNAMED, number(self.next())
        if re.match('["A-Za-z_]', self.peek()):
            return NAMED, self.name()
        return None

    # rows and bytes

    def rows_of_book(self):
        """The four parts, with numbers for names and nodes."""
        for file in self.files:
            if file.root != NO_ROOT:
                file.root += len(self.bodies)
        nodes = self.bodies + self.actors
        fields = [(row, field) for row in nodes + self.definitions + self.files
                  for field in ("name", "value", "label") if isinstance(getattr(row, field, 0), bytes)]
        names = self.table
        if names is None:
            names = sorted({getattr(row, field) for row, field in fields} | set(self.extra))
        numbers = {name: place for place, name in reversed(list(enumerate(names)))}
        for row, field in fields:
            setattr(row, field, numbers[getattr(row, field)])
        return {"names": names, "nodes": nodes, "definitions": self.definitions, "files": self.files}

    def damage(self, parts):
        """Does the damage and gives the bytes."""
        book = None
        while self.at < len(self.words):
            word = self.next()
            if word in ("patch", "drop") and self.peek(1) == "[":
                if book is not None:
                    self.fail("damage to rows comes before damage to bytes")
                rows, place = self.row(parts)
                if word == "drop":
                    del rows[place]
                else:
                    self.expect(".")
                    field = self.next()
                    setattr(rows[place], field, self.changed(getattr(rows[place], field)))
                continue
            book = encoded(parts) if book is None else book
            if word == "patch" and self.take("toc"):
                place = self.toc_place()
                book[place:place + 4] = struct.pack("<I", self.changed(*struct.unpack_from("<I", book, place)))
            elif word == "patch" and self.take("bytes"):
                place = number(self.next())
                self.expect("=")
                new = self.bytes()
                book[place:place + len(new)] = new
            elif word == "insert":
                place = self.place(parts)
                book[place:place] = self.bytes()
            elif word == "cut":
                place = self.place(parts)
                del book[place:place + number(self.next())]
            elif word == "append":
                book += self.bytes()
            elif word == "truncate":
                del book[len(book) - number(self.next()):]
            elif word == "keep":
                del book[number(self.next()):]
            elif word != ";":
                self.fail("damage expected")
        return bytes(encoded(parts) if book is None else book)

    def row(self, parts):
        rows = parts[self.next()]
        self.expect("[")
        place = number(self.next())
        self.expect("]")
        if place >= len(rows):
            self.fail("no such row")
        return rows, place

    def changed(self, old):
        sign, value = self.next(), number(self.next())
        return {"=": value, "+=": old + value, "-=": old - value}[sign]

    def toc_place(self):
        self.expect(".")
        part = PARTS.index(self.next())
        self.expect(".")
        return 8 * part + {"offset": 0, "count": 4}[self.next()]

    def place(self, parts):
        word = self.next()
        return starts(parts)[PARTS.index(word)] if word in PARTS else number(word)

    def bytes(self):
        found = []
        while self.peek().isdigit() or self.peek()[:2] == "0x":
            found.append(number(self.next()))
        return bytes(found)


def bodies(parts):
    return (b"".join(bytes([len(name)]) + name for name in parts["names"]),
            b"".join(struct.pack("<BBHII", *astuple(node)) for node in parts["nodes"]),
            b"".join(struct.pack("<4H", *astuple(row)) for row in parts["definitions"]),
            b"".join(struct.pack("<4H", *astuple(row)) for row in parts["files"]))


def starts(parts):
    """Where each of the four bodies starts."""
    at = [32]
    for body in bodies(parts)[:3]:
        at.append(at[-1] + len(body))
    return at


def encoded(parts):
    counts = [len(parts[part]) for part in PARTS]
    toc = [struct.pack("<II", *row) for row in zip(starts(parts), counts)]
    return bytearray(b"".join(toc) + b"".join(bodies(parts)))


def book(text, damaged=True):
    """The book's bytes of a source, with or without its damage."""
    source = Source(tokens(text))
    try:
        source.program()
        parts = source.rows_of_book()
        return source.damage(parts) if damaged else bytes(encoded(parts))
    except (ValueError, KeyError, AttributeError, struct.error) as error:
        source.fail(f"{type(error).__name__}: {error}")


def name(text):
    """The bytes of a NAME."""
    source = Source(tokens(text))
    found = source.name()
    if source.at < len(source.words):
        source.fail("a name alone expected")
    return found


def main():
    if len(sys.argv) != 2:
        sys.exit("usage: python3 tools/mkbook.py SOURCE > BOOK")
    try:
        with open(sys.argv[1], encoding="utf-8") as file:
            sys.stdout.buffer.write(book(file.read()))
    except SourceError as error:
        sys.exit(f"{sys.argv[1]}: {error}")


if __name__ == "__main__":
    main()
