#!/usr/bin/env python3
"""Tests the tools and the sources in tests/layout, tests/check, tests/list, tests/random and tests/limits:  python3 tools/test_tools.py"""

import collections
import os
import re
import subprocess
import sys
import tempfile
import unittest
from random import Random

HERE = os.path.dirname(os.path.abspath(__file__))
sys.path.append(os.path.join(HERE, "..", "bench"))

import answers
import antt_bytes
import benchbooks
import layout
import mkbatch
import mkbook
import mkgate
import plot
import replay
import shapes

FOLDER = os.path.join(HERE, "..", "tests", "layout")
SOURCES = dict(mkbatch.sources(FOLDER))
BOOKS = {name: mkbook.book(text) for name, text in SOURCES.items()}
FINE = [name for name, text in SOURCES.items() if not mkbatch.broken_rules(text)]
BROKEN = [name for name in SOURCES if name not in FINE]
CHECK_FOLDER = os.path.join(HERE, "..", "tests", "check")
CHECK_SOURCES = dict(mkbatch.sources(CHECK_FOLDER))
CHECK_BOOKS = {name: mkbook.book(text) for name, text in CHECK_SOURCES.items()}
LIST_FOLDER = os.path.join(HERE, "..", "tests", "list")
LIST_SOURCES = dict(mkbatch.sources(LIST_FOLDER))
LIST_BOOKS = {name: mkbook.book(text) for name, text in LIST_SOURCES.items()}
LIMITS_FOLDER = os.path.join(HERE, "..", "tests", "limits")
LIMITS_SOURCES = dict(mkbatch.sources(LIMITS_FOLDER))
LIMITS_BOOKS = {name: mkbook.book(text) for name, text in LIMITS_SOURCES.items()}
with open(os.path.join(HERE, "..", "bench", "uses-most.did"), encoding="utf-8") as uses_most:
    MOST_USES = mkbook.book(uses_most.read())
NAMED = {2, 3, 7, 9, 12, 13, 14}  # the check's refusals that name something
NAMELESS = {4, 5, 6, 8, 10}  # those that do not; 18 names a label that is spelled
SHORT = {f"{row.word}-short" for row in answers.QUESTIONS if row.again}
QUESTIONS = {*answers.ROWS, *SHORT}
FULL = (1024, 4096, 512)  # document 01's figures of names, nodes and definitions
OVER = "refused 24 -"


class Encoding(unittest.TestCase):
    """Books laid out by hand, from the paper alone."""

    def laid_out(self, source, *rows):
        self.assertEqual(mkbook.book(source).hex(" "), " ".join(rows))

    def test_smallest(self):
        self.laid_out("",
                      "20 00 00 00 01 00 00 00", "21 00 00 00 00 00 00 00",
                      "21 00 00 00 00 00 00 00", "21 00 00 00 01 00 00 00",
                      "00",
                      "00 00 00 00 ff ff 00 00")

    def test_p4(self):
        self.laid_out(SOURCES["p04"],
                      "20 00 00 00 02 00 00 00", "23 00 00 00 02 00 00 00",
                      "3b 00 00 00 01 00 00 00", "43 00 00 00 01 00 00 00",
                      "00", "01 61",
                      "13 00 02 00 00 00 00 00 00 00 00 00",
                      "12 00 01 00 01 00 00 00 00 00 00 00",
                      "01 00 00 00 00 00 00 00",
                      "00 00 00 00 ff ff 00 00")

    def test_all_parts(self):
        source = r'''
            file "m" main
            type f = func (x : text, f) -> (nat) query oneway;
            service : (bool) -> { "\00\"" : f }
            file "i" init
            type v = variant { 7; i : record { empty; 0xff : int; null } };
            args (blob)'''
        self.laid_out(source,
                      "20 00 00 00 05 00 00 00", "2b 00 00 00 11 00 00 00",
                      "f7 00 00 00 02 00 00 00", "07 01 00 00 02 00 00 00",
                      "02 00 22", "01 66", "01 69", "01 6d", "01 76",
                      "17 00 04 00 02 00 06 00 00 00 00 00",  # func: 2 arguments, mode digits 2 and 1
                      "0e 00 01 00 00 00 00 00 00 00 00 00",
                      "12 00 01 00 01 00 00 00 00 00 00 00",
                      "02 00 01 00 00 00 00 00 00 00 00 00",
                      "16 00 06 00 00 00 00 00 00 00 00 00",  # variant
                      "00 01 01 00 00 00 00 00 07 00 00 00",
                      "15 02 04 00 00 00 00 00 02 00 00 00",  # record
                      "10 03 01 00 00 00 00 00 00 00 00 00",
                      "03 01 01 00 00 00 00 00 ff 00 00 00",
                      "00 03 01 00 00 00 00 00 00 01 00 00",
                      "19 00 04 00 00 00 00 00 00 00 00 00",  # class
                      "01 00 01 00 00 00 00 00 00 00 00 00",
                      "18 00 02 00 00 00 00 00 00 00 00 00",  # service
                      "12 02 01 00 01 00 00 00 00 00 00 00",
                      "1a 00 03 00 00 00 00 00 00 00 00 00",  # init argument list
                      "14 00 02 00 00 00 00 00 00 00 00 00",
                      "04 00 01 00 00 00 00 00 00 00 00 00",
                      "01 00 00 00 00 00 00 00", "04 00 01 00 04 00 00 00",
                      "03 00 00 00 0a 00 00 00", "02 00 03 00 0e 00 00 00")

    def test_damage(self):
        whole = mkbook.book("type a = nat;")
        for damage, book in {
            "patch nodes[0].size = 2": whole[:37] + b"\x02" + whole[38:],
            "patch definitions[0].zero += 256": whole[:53] + b"\x00\x01" + whole[55:],
            "patch toc.nodes.offset -= 1": whole[:8] + b"\x22" + whole[9:],
            "patch bytes 40 = 255 0xfe": whole[:40] + b"\xff\xfe" + whole[42:],
            "insert nodes 1 2": whole[:35] + b"\x01\x02" + whole[35:],
            "cut files 3": whole[:55] + whole[58:],
            "append 00 255": whole + b"\x00\xff",
            "truncate 1": whole[:-1],
            "keep 31": whole[:31],
            "repeat 2 { append # }": whole + b"\x00\x01",
            "nest 2 { append 1# | append 2# } { append 3 }": whole + bytes([10, 11, 3, 21, 20]),
            "repeat 4 { append #*3%7 2#*100%7 }": whole + bytes([0, 20, 3, 22, 6, 24, 2, 26]),
            "repeat 3 { append #+7 1##+9 }": whole + bytes([7, 109, 8, 110, 9, 111]),
        }.items():
            self.assertEqual(mkbook.book("type a = nat; " + damage), book, damage)
        for nonsense in ("type a = ;", "type a", "service : {", "patch nodes[1].size = 0", "patch nodes[0].age = 0",
                         "append 0 patch nodes[0].size = 0", "patch nodes[0].kind = 256", "rubbish", "nest 2 { append 1 }"):
            with self.assertRaises(mkbook.SourceError, msg=nonsense):
                mkbook.book("type a = nat; " + nonsense)


class Sources(unittest.TestCase):

    def test_verdicts(self):
        """What a source says of itself is what the second reader finds: each rule that is said to be broken, alone."""
        for name, text in SOURCES.items():
            said = mkbatch.broken_rules(text)
            self.assertLessEqual(said, set(layout.RULES), name)
            stated, packed = ({rule for rule, _ in layout.faults(BOOKS[name], packed)} for packed in (False, True))
            self.assertEqual(bool(stated), bool(packed), name)
            self.assertIn(said, (stated, packed), name)

    def test_damage_alone_breaks(self):
        for name in BROKEN:
            if any(word in mkbook.tokens(SOURCES[name]) for word in mkbook.DAMAGE):
                self.assertEqual(layout.faults(mkbook.book(SOURCES[name], damaged=False)), [], name)

    def test_every_rule_is_broken_and_books_differ(self):
        self.assertEqual({rule for name in BROKEN for rule in mkbatch.broken_rules(SOURCES[name])}, set(layout.RULES))
        broken = [BOOKS[name] for name in BROKEN]
        self.assertEqual(len(broken), len(set(broken)))

    def test_round_trip(self):
        for name in FINE:
            self.assertEqual(mkbook.book(layout.text(BOOKS[name])), BOOKS[name], name)
        for name in FINE:
            if name.startswith("p"):
                self.assertEqual(layout.text(BOOKS[name]), SOURCES[name].split("\n", 1)[1], name)

    def test_every_change_and_cut(self):
        """Each has a verdict, and whatever is whole is what its own text encodes to."""
        whole = 0
        for name in ("length-smallest", "p04", "p05", "p09-import", "role-0123"):
            book = BOOKS[name]
            for place in range(len(book)):
                self.assertNotEqual(layout.faults(book[:place]), [])
                for value in set(range(256)) - {book[place]}:
                    changed = book[:place] + bytes([value]) + book[place + 1:]
                    if not layout.faults(changed):
                        whole += 1
                        self.assertEqual(mkbook.book(layout.text(changed)), changed)
                    self.assertEqual(not layout.faults(changed), not layout.faults(changed, packed=True))
        self.assertGreater(whole, 0)


class CheckSources(unittest.TestCase):

    def test_layouts(self):
        """No layout is broken, nothing is damaged, and a book's own text is the same book."""
        for name, book in CHECK_BOOKS.items():
            self.assertEqual(layout.faults(book), [], name)
            self.assertEqual(mkbook.book(CHECK_SOURCES[name], damaged=False), book, name)
            self.assertEqual(mkbook.book(layout.text(book)), book, name)

    def test_verdicts(self):
        """Each refusal of the check is said, with a name where its row has one: a file's, a method's or any of the table."""
        said = set()
        for name, text in CHECK_SOURCES.items():
            number, named = mkbatch.verdict(text)
            book = layout.Reader(CHECK_BOOKS[name]).book
            said.add(number)
            if number == 18:
                self.assertIn(named, [None, *(book.names[node.label] for node in book.nodes if node.label_kind == 2)], name)
                continue
            self.assertEqual(named is not None, number in NAMED, name)
            if number in (12, 13):
                self.assertIn(named, [book.names[file.name] for file in book.files if file.role == 2], name)
            elif number in (9, 14):
                self.assertIn(named, [book.names[node.label] for node in book.nodes if node.label_kind == 2], name)
            elif number in (2, 7):
                self.assertIn(named, [book.names[row.name] for row in book.definitions], name)
            elif number == 3:
                self.assertIn(named, [book.names[node.value] for node in book.nodes if node.kind == 18], name)
        self.assertEqual(said, {None, 18} | NAMED | NAMELESS)

    def test_books_differ(self):
        self.assertEqual(len(CHECK_BOOKS), len(set(CHECK_BOOKS.values())))

    def test_examples(self):
        """Document 01's examples are those of tests/layout."""
        examples = [name for name in SOURCES if name.startswith("p")]
        self.assertEqual(examples, [name for name in CHECK_SOURCES if name.startswith("p") and name[1].isdigit()])
        for name in examples:
            self.assertEqual(CHECK_BOOKS[name], BOOKS[name], name)

    def test_limits(self):
        """The largest: 512 definitions, 16 files, 1,024 names, 4,000 nodes each inside the one before."""
        books = {name: layout.Reader(book).book for name, book in CHECK_BOOKS.items() if name.startswith("large-")}
        for part, most in (("names", 1024), ("definitions", 512), ("files", 16)):
            self.assertEqual(max(len(getattr(book, part)) for book in books.values()), most)
        for name, book in books.items():
            if name.startswith("large-nested-"):
                self.assertGreaterEqual(len(book.nodes), 4001, name)

    def test_first_lines(self):
        for line, found in {
            "// passes: x\n": (None, None),
            "// refused 4 -: x\n": (4, None),
            "// refused 3 z: x\n": (3, b"z"),
            '// refused 3 "": x: y\n': (3, b""),
            '// refused 14 "\\00\\"a: b": x\n': (14, b'\x00"a: b'),
            '// refused 3 "n" * 3: x\n': (3, b"nnn"),
        }.items():
            self.assertEqual(mkbatch.verdict(line), found, line)
        for line in ("// passes\n", "// refused 4: x\n", "// refused - -: x\n", "// fine: x\n", "// refused 3 z y: x\n"):
            with self.assertRaises(mkbook.SourceError, msg=line):
                mkbatch.verdict(line)
        for text, check, init in (
            ("// passes: x\n", "passed", "passed"),
            ('// passes: x\n// init refused 11 b: x\nfile "i" init\nargs ()\n', "passed", 'refused 11 "b"'),
            ("// refused 10 -: x\n", "refused 10 -", "refused 10 -"),
            ('// refused 3 "\\"\\ff": x\n', 'refused 3 "\\22\\ff"', 'refused 3 "\\22\\ff"'),
        ):
            self.assertEqual(mkbatch.claims(text, b""), {"check": check, "init-check": init}, text)
        for text in ('// passes: x\nfile "i" init\nargs ()\n', "// passes: x\n// init passes: there is no init file\n"):
            with self.assertRaises(mkbook.SourceError, msg=text):
                mkbatch.claims(text, b"")


def asked(question, book, *lent):
    """An outcome: the entries, or a refusal's number and name number."""
    try:
        return question(book, *lent)
    except answers.Refused as refusal:
        return refusal.number, refusal.name


class Answers(unittest.TestCase):
    """The second reading of the check and the questions."""

    def test_check(self):
        """Its check and init check say what the sources in tests/check say of themselves."""
        for name, text in CHECK_SOURCES.items():
            book = answers.Book(CHECK_BOOKS[name])

            def verdict(question):
                try:
                    question(book)
                    return None, None
                except answers.Refused as refusal:
                    return refusal.number, None if refusal.name is None else book.names[refusal.name]

            self.assertEqual(verdict(answers.check), mkbatch.verdict(text), name)
            self.assertEqual(verdict(answers.init_check), mkbatch.init_verdict(text), name)

    def test_p1(self):
        self.assertEqual(answers.listing(BOOKS["p01"]), 'list 2 marked 1\n1 - "pair"\n2 r "tree"\n')
        self.assertEqual(answers.listing(BOOKS["p03"]), 'refused 7 "a"\n')
        self.assertEqual(answers.listing(BOOKS["p04"]), "refused 17 -\n")
        self.assertEqual(answers.listing(BOOKS["p01"][:31]), "refused 1 -\n")

    def test_marks_over_any_list(self):
        """A name is marked exactly if a place of the list has it in its body and no place before lists it."""
        book = answers.Book(BOOKS["p01"])
        pair, spare, tree = (book.names.index(name) for name in (b"pair", b"spare", b"tree"))
        for lent, marked in {
            (): [], (pair, tree): [tree], (tree, pair): [pair], (pair,): [tree], (tree,): [pair], (spare,): [],
            (pair, pair): [tree], (tree, pair, tree): [pair], (spare, pair, tree, spare): [tree],
        }.items():
            self.assertEqual(answers.marks(book, lent), marked, lent)
        put, outside = book.names.index(b"put"), len(book.names)
        self.assertEqual(asked(answers.marks, book, [pair, put, outside]), (3, put))
        self.assertEqual(asked(answers.marks, book, [outside, put]), (3, outside))
        self.assertEqual(asked(answers.marks, book, [65535]), (3, 65535))
        self.assertEqual(asked(answers.marks, answers.Book(BOOKS["p03"]), [65535]), (7, 1))

    def test_projection_of_any_list(self):
        book = answers.Book(mkbook.book("service : { n : () -> (); m : () -> (); o : () -> () }"))  # the names are "" m n o
        for names, outcome in {
            (): [], (1,): [1], (2,): [0], (2, 1): [0, 1], (1, 2): [0, 1], (3, 1): [1, 2], (3, 2, 1): [0, 1, 2],
            (1, 1): (15, 1), (2, 2, 0): (15, 0), (2, 1, 2, 3, 3): (15, 2), (65535,): (15, 65535), (65535, 4): (15, 4),
        }.items():
            self.assertEqual(asked(answers.project, book, names), outcome, names)
        self.assertEqual(answers.uses(book, 65535), [])
        self.assertEqual(asked(answers.project, answers.Book(LIST_BOOKS["project-repeated"]), [65535]), (18, 1))

    def test_references(self):
        """Document 01, References: listed is what is reachable; each circle has a marked one and each marked one a circle."""
        passed = 0
        for data in [*CHECK_BOOKS.values(), *LIST_BOOKS.values()]:
            book = None if layout.faults(data) else answers.Book(data)
            if book is None or isinstance(asked(answers.definition_list, book), tuple):
                continue
            passed += 1
            env, actor = answers.check(book)
            refers = {name: references(tree) for name, tree in env.items()}
            listed = answers.definition_list(book)
            self.assertEqual(len(listed), len(set(listed)))
            self.assertEqual(set(listed), reached(refers, references(actor)))
            marked = set(answers.marks(book, listed))
            for name in marked:
                self.assertIn(name, reached(refers, refers[name]))
            left = {name: refers[name] - marked for name in set(listed) - marked}
            for name in left:
                self.assertNotIn(name, reached(left, left[name]))
            places = {name: place for place, name in enumerate(listed)}
            for name in listed:  # a definition comes after those it refers to, but for circles
                for other in refers[name]:
                    self.assertTrue(places[other] < places[name] or name in reached(refers, {other}))
            self.assertLessEqual(set(answers.chase_def_use(book)), set(listed))
        self.assertGreater(passed, 150)

    def test_numbered(self):
        """By hand, what c/build.sh tries. Names: "" fork leaf pair put spare tree; a b c d init m main; "" r s t; "" a b c d m; "" f m000 m001 ..;
        "" a m; "" a b; "" n0000 .. \\ff; a000 .. a510 head m; a b c d init main."""
        p1 = {"check": "passed", "init-check": "passed", "list": "given 2 3 6", "marks": "given 1 6", "init": "given 0",
              "draft": "given 2 3 6", "empty": "given 0", "values": "given many", "use-counts": "given 2 1 1", "methods": "given 1 0",
              "uses": "given 1 0.0.0", "alias": "given 1 6", "project": "given 1 0"}
        short, circle = "refused 16 needs", "refused 7 1"
        books = LIST_BOOKS | {"uses-most": MOST_USES}
        for (name, *asked), right in {
            ("p01", 6, 4, 4096): p1,
            ("p01", 5, 6, 4096): p1 | {"uses": "given 0", "alias": "given 1 5", "project": "refused 15 6"},
            ("p01", 1024, 1024, 4096): p1 | {"methods": "given 0", "uses": "given 0", "alias": "refused 3 1024", "values": "refused 3 1024",
                                             "project": "refused 15 1024"},
            ("p01", 65535, 65535, 4096): p1 | {"methods": "given 0", "uses": "given 0", "alias": "refused 3 65535", "values": "refused 3 65535",
                                               "project": "refused 15 65535"},
            ("p01", 3, 65535, 1): {"methods": "given 1 0"}, ("p01", 5, 4, 0): {"methods": "given 0"},
            ("p01", 6, 4, 3): p1,
            ("p01", 6, 4, 2): p1 | {"uses": f"{short} 1"},
            ("p01", 6, 4, 1): p1 | {"list": f"{short} 2", "draft": f"{short} 2", "use-counts": f"{short} 2", "uses": f"{short} 1"},
            ("p01", 6, 4, 0): p1 | {"list": f"{short} 2", "draft": f"{short} 2", "use-counts": f"{short} 2", "methods": f"{short} 1",
                                    "marks": f"{short} 1", "uses": f"{short} 1", "project": f"{short} 1"},
            ("init-own", 0, 5, 4096): {"init": "given 3 3 2 1", "draft": "given 1 0", "marks": "given 0", "empty": "given 0",
                                       "values": "given many", "uses": "given 1 0.0.0", "alias": "given 1 0", "project": "given 1 0"},
            ("p11-empty", 1, 1, 4096): {"init": "given 0", "draft": "refused 17 -", "marks": "given 0", "empty": "given 3 1 2 3",
                                        "values": "given 0", "uses": "refused 17 -", "alias": "given 1 1", "project": "refused 17 -"},
            ("class-arguments", 2, 5, 4096): {"init": "given 0", "draft": "given 4 4 2 3 1", "marks": "given 0", "empty": "given 0",
                                              "uses": "given 1 65535.0.1", "project": "given 1 0"},
            ("uses-most", 1, 3, 4096): {"init": "given 0", "draft": "given 1 1", "marks": "given 1 1", "empty": "given 0",
                                        "use-counts": "given 1 3143680", "uses": f"{short} 4097", "project": "given 1 3"},
            ("p10", 0, 0, 0): {"list": "given 0", "use-counts": "given 0"},
            ("p04", 0, 0, 0): {"list": "refused 17 -", "use-counts": "refused 17 -"},
            ("methods-two", 1, 2, 3): {"methods": "given 3 0 1 2"}, ("methods-two", 2, 1, 2): {"methods": f"{short} 3"},
            ("methods-two", 1, 1, 2): {"methods": "given 2 0 2"}, ("methods-two", 4, 2, 2): {"methods": "given 2 1 2"},
            ("methods-two", 65535, 2, 1): {"methods": f"{short} 2"}, ("methods-class", 1, 2, 0): {"methods": "given 0"},
            ("methods-no-actor", 0, 65535, 0): {"methods": "refused 17 -"},
            ("large-methods-1024", 1023, 1022, 1): {"methods": "given 1 1023"}, ("large-methods-1024", 0, 1, 1023): {"methods": f"{short} 1024"},
            ("large-methods-1024", 1, 1022, 1024): {"methods": "given 1024 " + " ".join(map(str, range(1024)))},
            ("uses-function", 1, 4, 3): {"use-counts": "given 3 1 1 0", "uses": "given 1 0.0.0"},
            ("uses-function", 1, 4, 2): {"use-counts": f"{short} 3", "uses": f"{short} 1"},
            ("large-use-counts-65536", 1, 0, 4): {"use-counts": "given 4 65536 65535 65535 0", "uses": f"{short} 4097"},
            ("large-use-counts-65536", 1, 0, 3): {"use-counts": f"{short} 4"},
            ("large-circle", 0, 512, 512): {"use-counts": "given 512" + 512 * " 1"},
            ("large-circle", 0, 512, 511): {"use-counts": f"{short} 512"},
            ("alias-2", 1, 1, 0): {"list": "refused 17 -", "empty": "given 0", "uses": "refused 17 -", "alias": "given 2 2"},
            ("alias-2", 2, 1, 0): {"alias": "given 1 2"},
            ("alias-2", 0, 1, 0): {"alias": "refused 3 0"},
            ("alias-2", 3, 1, 0): {"alias": "refused 3 3"},
            ("large-alias-names", 0, 0, 0): {"alias": "given 2 1023"},
            ("large-alias-names", 1023, 0, 0): {"alias": "given 1 1023"},
            ("large-chain", 511, 512, 4096): {"alias": "given 512 510", "project": "given 1 0"},
            ("large-chain", 0, 512, 4096): {"alias": "given 511 510"},
            ("large-chain", 512, 512, 4096): {"alias": "refused 3 512"},
            ("alias-init", 0, 0, 0): {"alias": "given 2 1"},
            ("alias-init", 2, 0, 0): {"alias": "refused 3 2"},
            ("values-opts", 1, 1, 0): {"values": "given 34", "alias": "given 1 1", "uses": "refused 17 -", "empty": "given 0"},
            ("values-fixed", 1, 1, 0): {"values": "given 1"},
            ("values-fixed", 4, 1, 0): {"values": "given 65536"},
            ("values-fixed", 8, 1, 0): {"values": "given 0", "empty": f"{short} 1"},
            ("values-endless", 10, 1, 0): {"values": "given many"},
            ("values-most-product", 3, 1, 4096): {"values": "given 4294967295"},
            ("values-most-product", 6, 1, 4096): {"values": "given many"},
            ("values-most-opt", 1, 1, 4096): {"values": "given 4294967294"},
            ("values-most-opt", 2, 1, 4096): {"values": "given 4294967295"},
            ("values-most-opt", 3, 1, 4096): {"values": "given many"},
            ("values-no-circle", 1, 1, 4096): {"values": "given 1"},
            ("values-no-circle", 3, 1, 4096): {"values": "given 0", "empty": "given 2 3 6"},
            ("values-names", 0, 1, 4096): {"values": "given 2", "alias": "given 4 4"},
            ("values-unbound", 5, 4, 4096): {"values": "refused 3 5", "project": "given 1 0"},
            ("values-unbound", 1024, 4, 4096): {"values": "refused 3 1024"},
            ("values-unbound", 65535, 4, 4096): {"values": "refused 3 65535"},
            ("values-init", 1, 1, 4096): {"values": "refused 3 1", "init": "given 2 0 1"},
            ("values-check-first", 65535, 1, 4096): {"values": "refused 10 -"},
            ("values-check-names", 65535, 1, 4096): {"values": "refused 3 0"},
            ("values-repeat", 65535, 1, 4096): {"values": "refused 18 2"},
            ("large-values-chain", 512, 0, 0): {"values": "given 513", "alias": "given 1 512"},
            ("repeat-every-question", 6, 4, 4096): dict.fromkeys(p1, "refused 18 7"),
            ("repeat-none", 65535, 65535, 0): dict.fromkeys(p1, "refused 18 -"),
            ("p03", 2, 1, 4096): dict.fromkeys(p1, circle) | {"draft": "refused 17 -"},
        }.items():
            found = dict(line.split(" ", 1) for line in answers.numbered(books[name], *asked))
            self.assertEqual({word: found.get(word) for word in right}, right, (name, *asked))
        self.assertEqual(answers.numbered(b"", 0, 0, 4096), [f"{word} refused 1 -" for word in found])

    def test_numbered_limits(self):
        """P1 has 7 names, 10 nodes and 3 definitions. A limit too small is told before a name outside the table and a list too short."""
        words = "check init-check list marks init draft empty values use-counts methods uses alias project".split()
        for asked in ((6, 4, 4096), (65535, 65535, 4096), (6, 4, 0)):
            full = answers.numbered(LIST_BOOKS["p01"], *asked)
            for limits in ((7, 10, 3), (7, 4096, 512), (1024, 10, 512), (1024, 4096, 3), (1025, 4097, 513), (2**32 - 1,) * 3):
                self.assertEqual(answers.numbered(LIST_BOOKS["p01"], *asked, limits), full, limits)
            for limits in ((6, 10, 3), (7, 9, 3), (7, 10, 2), (0, 4096, 512), (1024, 0, 512), (1024, 4096, 0), (0, 0, 0)):
                self.assertEqual(answers.numbered(LIST_BOOKS["p01"], *asked, limits), [f"{word} {OVER}" for word in words], limits)
        for limits in ((0, 0, 0), (2**32 - 1,) * 3):
            self.assertEqual(answers.numbered(b"", 0, 0, 4096, limits), [f"{word} refused 1 -" for word in words])

    def test_command(self):
        """Limits are told after NAME, METHOD and PLACES."""
        def printed(*arguments):
            return subprocess.run([sys.executable, os.path.join(HERE, "answers.py"), os.path.join(LIST_FOLDER, "p01.did"), *arguments],
                                  check=True, capture_output=True, text=True).stdout.splitlines()

        full = answers.numbered(LIST_BOOKS["p01"], 6, 4, 2)
        self.assertEqual(printed("6", "4", "2"), full)
        self.assertEqual(printed("6", "4", "2", "7", "10", "3"), full)
        for limits in (("6", "10", "3"), ("7", "9", "3"), ("7", "10", "2")):
            self.assertEqual({line.split(" ", 1)[1] for line in printed("6", "4", "2", *limits)}, {OVER})
        self.assertEqual(printed(), [f"{question} {outcome}" for question, outcome in answers.outcomes(LIST_BOOKS["p01"]).items()])
        for arguments in (["6"], ["6", "4"], ["6", "4", "2", "7"], ["6", "4", "2", "7", "10"], ["6", "4", "2", "7", "10", "3", "1"]):
            with self.assertRaises(subprocess.CalledProcessError, msg=arguments):
                printed(*arguments)


def references(tree):
    return {node.value for node in answers.nodes(tree) if node.kind == answers.NAME}


def reached(refers, start):
    """The names that can be reached from some."""
    found, left = set(), list(start)
    while left:
        name = left.pop()
        if name not in found:
            found.add(name)
            left += refers[name]
    return found


def checked(books):
    """Those that pass."""
    for data in books:
        book = None if layout.faults(data) else answers.Book(data)
        if book and not isinstance(asked(answers.check, book)[0], int):
            yield book


def random_books(count, leaves, kinds, most=5, deepest=3):
    """Books of up to so many definitions, of such leaves and kinds."""
    random = Random(4)

    def tree(depth):
        kind = random.choice(kinds) if depth and random.random() < 0.6 else random.choice(leaves)
        if kind not in ("opt", "vec", "record", "variant"):
            return random.choice("abcde"[:names]) if kind == "name" else kind
        inner = [tree(depth - 1) for _ in range(1 if kind in ("opt", "vec") else random.choice((0, 1, 1, 2, 2, 3)))]
        return f"{kind} {inner[0]}" if kind in ("opt", "vec") else f"{kind} {{ {'; '.join(f'{place} : {kid}' for place, kid in enumerate(inner))} }}"

    for _ in range(count):
        names = random.randint(1, most)
        yield mkbook.book(" ".join(f"type {name} = {tree(deepest)};" for name in "abcde"[:names]))


class Emptiness(unittest.TestCase):
    """Request 4 of document 02: a definition is empty exactly if no value of finite height is of it."""

    def empties(self, source):
        book = answers.Book(mkbook.book(source))
        return " ".join(book.names[name].decode() for name in answers.emptiness(book))

    def test_by_hand(self):
        """Each rule alone and at its edges."""
        for source, right in {
            # empty has none, every other leaf has one
            "type e = empty;": "e", 'type e = empty; type a = "text"; type "text" = "empty"; type "empty" = text;': "e",
            " ".join(f"type a{kind} = {leaf};" for kind, leaf in enumerate(layout.LEAVES)): "a16",
            # a record if some field has none
            "type a = record {};": "", "type a = record { empty };": "a", "type a = record { empty; nat };": "a",
            "type a = record { nat; empty };": "a", "type a = record { nat; empty; text };": "a", "type a = record { nat; text };": "",
            "type a = record { empty; empty };": "a",
            "type a = record { e; nat }; type e = empty;": "a e", "type a = record { nat; e }; type e = empty;": "a e",
            "type a = record { record { record { empty } } };": "a", "type a = record { record {}; record { record {} } };": "",
            # a variant if every case has none, also with no case
            "type a = variant {};": "a", "type a = variant { x : empty };": "a", "type a = variant { x : empty; y : empty };": "a",
            "type a = variant { x };": "", "type a = variant { x : empty; y };": "", "type a = variant { x; y : empty };": "",
            "type a = variant { x : empty; y : nat; z : empty };": "", "type a = variant { x : e; y : e }; type e = variant {};": "a e",
            "type a = variant { x : variant {}; y : variant { z : variant {} } };": "a",
            "type a = variant { x : variant { y : variant { z } } };": "",
            # one inside the other
            "type a = record { variant {} };": "a", "type a = variant { x : record {} };": "", "type a = record { variant { x : empty; y } };": "",
            "type a = variant { x : record { empty }; y : record { nat; empty } };": "a",
            "type a = variant { x : record { empty }; y : record { nat } };": "",
            "type a = record { x : variant { y : record { z : empty } }; nat };": "a",
            "type a = record { x : variant { y : record { z : empty }; w : record { z : nat } }; nat };": "",
            # a name as its definition
            "type a = b; type b = empty;": "a b", "type a = b; type b = nat;": "",
            "type a = b; type b = c; type c = d; type d = record { d };": "a b c d",
            "type d = b; type c = variant {}; type b = a; type a = c;": "a b c d",
            # all else has one
            "type a = opt empty; type b = vec empty; type c = func (empty) -> (empty); type d = service { m : (empty) -> (empty) };": "",
            "type a = opt a; type b = vec b; type c = func (c) -> (c); type d = service { m : (d) -> (d) };": "",
            "type a = record { opt a; vec b; func (a) -> (b); service { m : (b) -> (a) } }; type b = variant { x : opt b };": "",
            "type a = record { opt e; vec e; func (e) -> (e); service { m : f } }; type e = empty; type f = func (e) -> (e);": "e",
            "type a = opt variant {}; type b = opt opt record { a; b; empty };": "",
            # circles, with and without a way out
            "type a = record { a };": "a", "type a = record { record { a } };": "a", "type a = variant { x : a };": "a",
            "type a = variant { x : a; y : a };": "a", "type a = variant { x : a; y };": "", "type a = variant { y; x : a };": "",
            "type a = record { opt a; a };": "a", "type a = record { opt a; opt a };": "", "type a = variant { x : a; y : opt a };": "",
            "type a = record { b }; type b = variant { x : a };": "a b", "type a = record { b }; type b = variant { x : a; y : b };": "a b",
            "type a = record { b }; type b = variant { x : a; y : c }; type c = record {};": "",
            "type a = record { b }; type b = variant { x : a; y : c }; type c = record { b };": "a b c",
            "type a = record { b }; type b = variant { x : a; y : c }; type c = record { opt b };": "",
            "type a = record { b }; type b = record { opt a }; type c = record { d }; type d = record { c; opt d };": "c d",
            "type a = record { nat; variant { x : record { nat; a }; y : a } };": "a",
            "type a = record { nat; variant { x : record { nat; a }; y : nat } };": "",
            "type z = variant { x : z; y : record { z; y } }; type y = variant { x : y; z : x }; type x = nat;": "z",
            "type z = variant { x : z; y : record { y; x } }; type y = variant { x : y; z : x }; type x = nat;": "",
            # P11
            "type r = record { r }; type s = record { t }; type t = r;": "r s t", "type o = record { p }; type p = opt o;": "",
        }.items():
            self.assertEqual(self.empties(source), right, source)
            self.assertEqual(self.empties("".join(reversed(re.split("(?<=;) (?=type)", source)))), right, source)  # definitions in the other order

    def test_files(self):
        """Definitions of main and of imports, reached or not, with and without an actor; the init file's are not read."""
        body = "record { x : e }; type e = empty"
        for source, right in {
            f'file "m" main type a = {body};': "a e", f'file "m" main type a = {body}; service : {{}}': "a e",
            f'file "m" main service : {{}} file "i" type type a = {body};': "a e",
            f'file "m" main file "i" service type a = {body}; service : {{}}': "a e",
            f'file "m" main service : {{}} file "i" init type a = {body}; args (a)': "",
            f'file "m" main type a = {body}; file "i" init type a = {body}; args (a)': "a e",
            'file "m" main type a = b; file "i" service type c = empty; service : {} file "j" type type b = variant { x : c };': "a b c",
            'file "m" main type a = b; type b = nat; file "i" init type b = nat; type c = empty; args (empty)': "",
        }.items():
            self.assertEqual(self.empties(source), right, source)

    def test_refused(self):
        """What the check refuses, 1, 24 and 18 come first, whatever is empty."""
        empty = "type a = empty; type b = variant {}; type c = record { c };"
        for source, outcome in {
            empty: 'given 3 "a" "b" "c"', empty + "type a = nat;": 'refused 2 "a"', empty + "type d = z;": 'refused 3 "z"',
            empty + "type d = class () -> {};": "refused 4 -", empty + "type d = d;": 'refused 7 "d"',
            empty + "type d = service { m : a };": "refused 8 -",
            empty + "service : { m : b }": 'refused 9 "m"', empty + "service : a": "refused 10 -", empty + "truncate 1": "refused 1 -",
            empty + "type d = variant { x : a; x : b };": 'refused 18 "x"',
        }.items():
            found = answers.outcomes(mkbook.book(source))
            self.assertEqual(found["empty"], outcome, source)
            self.assertEqual("empty-short" in found, source == empty, source)
        self.assertEqual(answers.outcomes(mkbook.book(empty))["empty-short"], "needs 3 refused 16 -")
        self.assertEqual(answers.outcomes(mkbook.book(empty), (1024, 4096, 2))["empty"], OVER)

    def test_deep(self):
        """Nested and chained as far as there is room; what a chain's last is decides, and is found last."""
        chain = " ".join(f"a{place:03}" for place in range(511)) + " head"
        for around, empty in {
            "nest 4095 { record { | } }": True, "nest 4095 { variant { x : | } }": True, "nest 1365 { record { nat; variant { x : | } } }": True,
            "nest 4095 { opt | }": False, "nest 2000 { variant { x : | ; y : empty } }": True, "nest 2000 { variant { x : | ; y : nat } }": False,
        }.items():
            self.assertEqual(self.empties(f"type a = {around} {{ empty }};"), "a" if empty else "", around)
            self.assertEqual(self.empties(f"type a = {around} {{ nat }};"), "", around)
        for step in ("a###", "record { a### }", "variant { x : a### }", "record { nat; a###; a### }", "variant { x : empty; y : a### }",
                     "record { variant { x : a### } }"):
            for last, right in {"empty": chain, "variant {}": chain, "record { head }": chain, "nat": ""}.items():
                self.assertEqual(self.empties(f"type head repeat 511 {{ = {step}; type a### }} = {last};"), right, (step, last))
        for last, right in {"empty": chain, "opt head": ""}.items():
            self.assertEqual(self.empties(f"type head nest 511 {{ | = record {{ a### }}; type a### }} {{}} = {last};"), right, last)

    def of_checked(self, books):
        """What the check makes of those that pass, with the names that are empty."""
        for book in checked(books):
            yield answers.check(book)[0], answers.emptiness(book)

    def test_by_search(self):
        """A least value crosses no name twice on one way down, so it is found by going down without coming back to a name."""
        def found(env, tree, above=frozenset()):
            if tree.kind == answers.NAME:
                return tree.value not in above and found(env, env[tree.value], above | {tree.value})
            if tree.kind == answers.RECORD:
                return all(found(env, kid, above) for kid in tree.kids)
            if tree.kind == answers.VARIANT:
                return any(found(env, kid, above) for kid in tree.kids)
            return tree.kind != 16

        stored = [book for name, book in LIST_BOOKS.items() if not name.startswith("large-")]
        tried = some = 0
        made = random_books(3000, ("name", "name", "name", "empty", "nat"), ("opt", *("record", "variant") * 3))
        for env, empties in self.of_checked([*stored, *made]):
            self.assertEqual(empties, [name for name in sorted(env) if not found(env, answers.Tree(answers.NAME, 0, 0, name, []))])
            tried, some = tried + 1, some + bool(empties and len(empties) < len(env))
        self.assertGreater(tried, 1500)
        self.assertGreater(some, 500)

    def test_of_the_rust(self):
        """By `is_empty` of type_env.rs, arm by arm: the same names where each definition is a name, has a value whatever names have, or is a record
        of such fields, as in all books without variant and empty whose record fields are names or primitives; elsewhere its names are among ours."""
        tried = collections.Counter()
        books = [*CHECK_BOOKS.values(), *LIST_BOOKS.values(), *random_books(2000, ("name", "name", "nat"), ("opt", *("record",) * 4)),
                 *random_books(1000, ("name", "name", "empty", "nat"), ("opt", "record", "variant"))]
        for env, empties in self.of_checked(books):
            judged = {}

            def is_empty(name):
                if name not in judged:
                    judged[name], tree = None, env[name]
                    fields = tree.kids if tree.kind == answers.RECORD else [tree]
                    judged[name] = any(is_empty(field.value) for field in fields if field.kind == answers.NAME)
                elif judged[name] is None:
                    judged[name] = True
                return judged[name]

            def is_name_or_has_value(tree):
                return tree.kind == answers.NAME or answers.has_value(answers.nodes(tree)[::-1], ())

            by_names = all(is_name_or_has_value(tree) or tree.kind == answers.RECORD and all(map(is_name_or_has_value, tree.kids))
                           for tree in env.values())
            every = [node for tree in env.values() for node in answers.nodes(tree)]
            is_plain = all(node.kind not in (answers.EMPTY, answers.VARIANT) for node in every) and all(
                kid.kind <= answers.NAME for node in every if node.kind == answers.RECORD for kid in node.kids)
            theirs = [name for name in sorted(env) if is_empty(name)]
            self.assertTrue(by_names or not is_plain)
            if by_names:
                self.assertEqual(theirs, empties)
            self.assertLessEqual(set(theirs), set(empties))
            tried["plain" if is_plain else "by names" if by_names else "among" if theirs else "none among"] += 1
            tried["ours alone"] += theirs != empties
        self.assertGreater(min(tried.values()), 150, tried)


class Values(unittest.TestCase):
    """Request 13 of document 02: how many values of finite height a definition has."""

    MOST = 4294967295
    FACTORS = ("variant { x; y; z }", "opt opt opt bool", "opt record { bool; bool; bool; bool }", "opt nat8")  # 3, 5, 17 and 257: 65,535 together

    def values(self, source):
        book = answers.Book(mkbook.book(source))
        return " ".join(f"{book.names[name].decode()}:{number}" for name, number in answers.all_values(book))

    def test_by_hand(self):
        """Each rule alone and at its edges."""
        for source, right in {
            # leaves, functions and services
            " ".join(f"type {leaf}_ = {leaf};" for leaf in layout.LEAVES):
                "bool_:2 empty_:0 float32_:many float64_:many int16_:65536 int32_:many int64_:many int8_:256 int_:many nat16_:65536 nat32_:many "
                "nat64_:many nat8_:256 nat_:many null_:1 principal_:many reserved_:1 text_:many",
            "type f = func () -> (); type g = func (empty) -> (empty); type s = service {}; type t = service { m : g };":
                "f:many g:many s:many t:many",
            # opt one more than its content
            "type a = opt null; type b = opt bool; type c = opt empty; type d = opt nat16; type e = opt text;": "a:2 b:3 c:1 d:65537 e:many",
            "type a = opt opt opt empty; type b = opt opt record { bool; bool };": "a:3 b:6", "type a = nest 32 { opt | } { bool };": "a:34",
            "type a = opt variant {}; type b = opt record { text; empty };": "a:1 b:1",
            # records multiply
            "type a = record {}; type b = record { null }; type c = record { bool }; type d = record { bool; bool; bool };": "a:1 b:1 c:2 d:8",
            "type a = record { nat8; nat16; reserved };": "a:16777216", "type a = record { opt bool; variant { x; y; z } };": "a:9",
            "type a = record { record {}; record { record { bool } } };": "a:2", "type a = record { null; null; bool };": "a:2",
            "type a = record { text; empty }; type b = record { empty; text }; type c = record { bool; empty; nat };": "a:0 b:0 c:0",
            "type a = record { text; null }; type b = record { null; bool; vec nat };": "a:many b:many",
            "type a = record { e; a }; type b = record { opt b; e }; type e = variant {};": "a:0 b:0 e:0",
            # variants add
            "type a = variant {}; type b = variant { x }; type c = variant { x; y; z };": "a:0 b:1 c:3",
            "type a = variant { x : bool; y : nat8; z : null; w : empty };": "a:259", "type a = variant { x : empty };": "a:0",
            "type a = variant { x : variant { x; y }; y : variant { x; y } };": "a:4", "type a = variant { x : text; y };": "a:many",
            "type a = variant { x : record { text; empty }; y };": "a:1", "type a = variant { x : bool; y : bool };": "a:4",
            # a vec of a valueless type 1, of any other many
            "type a = vec empty; type b = vec null; type c = vec record { empty }; type d = vec record {}; type e = blob;":
                "a:1 b:many c:1 d:many e:many",
            "type a = vec e; type b = vec vec e; type c = opt vec e; type e = variant { x : e };": "a:1 b:many c:2 e:0",
            "type a = vec a; type b = vec record { b }; type c = record { vec c }; type d = opt vec reserved;": "a:many b:many c:many d:many",
            # a name as its definition
            "type a = b; type b = c; type c = bool;": "a:2 b:2 c:2", "type a = record { b; b }; type b = variant { x; y; z };": "a:9 b:3",
            "type a = b; type b = empty; type c = d; type d = text;": "a:0 b:0 c:many d:many",
            # circles make many
            "type a = opt a; type b = variant { x : b; y };": "a:many b:many", "type a = variant { y; x : a };": "a:many",
            "type a = record { opt a };": "a:many", "type a = record { b }; type b = opt a;": "a:many b:many",
            "type a = opt b; type b = record { c; bool }; type c = variant { x : a; y };": "a:many b:many c:many",
            "type a = opt b; type b = opt b; type c = variant { x : d }; type d = record { a };": "a:many b:many c:many d:many",
            "type a = variant { x : a; y : a; z };": "a:many", "type a = opt variant { x : record { a } };": "a:many",
            "type a = b; type b = opt c; type c = a; type d = bool;": "a:many b:many c:many d:2",
            # circles through parts without value do not
            "type a = opt record { a; c }; type c = record { c };": "a:1 c:0", "type a = variant { x : record { a; empty }; y };": "a:1",
            "type a = variant { x : record { b; e }; y : bool }; type b = opt a; type e = variant {};": "a:2 b:3 e:0",
            "type a = record { a }; type b = variant { x : b }; type c = record { d }; type d = variant { x : c };": "a:0 b:0 c:0 d:0",
            "type a = vec record { a; empty };": "a:1", "type a = variant { x : record { record { a; nat8 }; variant {} }; y; z };": "a:2",
            "type a = opt record { b; record { empty } }; type b = opt record { a; text; d }; type d = record { a; d };": "a:1 b:1 d:0",
            "type a = record { vec e; bool }; type e = record { opt a; e };": "a:2 e:0",
            "type a = vec record { b; empty }; type b = opt a;": "a:1 b:2",
        }.items():
            self.assertEqual(self.values(source), right, source)
            self.assertEqual(self.values("".join(reversed(re.split("(?<=;) (?=type)", source)))), right, source)  # definitions in the other order

    def test_bound(self):
        """4,294,967,295 is a number still, and one more is many, however it is made."""
        most = f"record {{ {'; '.join(self.FACTORS)}; opt nat16 }}"
        for around, right in {
            "{}": self.MOST, "record {{ {}; null; reserved }}": self.MOST, "record {{ {}; opt variant {{}}; vec empty }}": self.MOST,
            "variant {{ x : {}; y : empty }}": self.MOST, "variant {{ x : {}; y }}": "many", "variant {{ x; y : {} }}": "many", "opt {}": "many",
            "record {{ {}; bool }}": "many", "record {{ {}; text }}": "many", "record {{ {}; empty }}": 0, "opt record {{ {}; empty }}": 1,
            "vec {}": "many", "variant {{ x : {}; y : vec empty }}": "many",
        }.items():
            for inner in (most, "b"):
                self.assertEqual(self.values(f"type a = {around.format(inner)}; type b = {most};"), f"a:{right} b:{self.MOST}", (around, inner))
        for around, right in {"{}": "many", "record {{ {} }}": "many", "variant {{ x : {} }}": "many", "opt {}": "many", "record {{ {}; empty }}": 0,
                              "vec record {{ {}; empty }}": 1}.items():
            self.assertEqual(self.values(f"type a = {around.format('record { nat16; nat16 }')};"), f"a:{right}", around)
        # 65,536 times 65,535, with 65,534, 65,535 and 65,536 more
        large, last = f"record {{ nat16; {'; '.join(self.FACTORS)} }}", f"record {{ {'; '.join(self.FACTORS)} }}"
        fewer = "variant { x : record { nat8; variant { repeat 255 { x#; } } }; y : variant { repeat 254 { x#; } } }"
        for more, right in ((fewer, self.MOST - 1), (last, self.MOST), (f"{fewer}; z", self.MOST), (f"{last}; z", "many"), ("nat16", "many"),
                            (f"opt {fewer}", self.MOST), (f"opt {last}", "many")):
            self.assertEqual(self.values(f"type a = variant {{ x : {large}; y : {more} }};"), f"a:{right}", more)
            self.assertEqual(self.values(f"type a = variant {{ y : {more}; x : b }}; type b = {large};"), f"a:{right} b:{65536 * 65535}", more)
        below = f"variant {{ x : {large}; y : {fewer} }}"
        for around, right in {"opt {}": self.MOST, "opt opt {}": "many", "variant {{ x : {}; y }}": self.MOST,
                              "variant {{ x : {}; y; z }}": "many"}.items():
            self.assertEqual(self.values(f"type a = {around.format('b')}; type b = {below};"), f"a:{right} b:{self.MOST - 1}", around)

    def test_files(self):
        """Definitions of main and of imports, reached or not, with and without an actor; the init file's are not read."""
        body = "record { x : e; bool }; type e = opt bool"
        for source, right in {
            f'file "m" main type a = {body};': "a:6 e:3", f'file "m" main type a = {body}; service : {{}}': "a:6 e:3",
            f'file "m" main service : {{}} file "i" type type a = {body};': "a:6 e:3",
            f'file "m" main file "i" service type a = {body}; service : {{}}': "a:6 e:3",
            f'file "m" main service : {{}} file "i" init type a = {body}; args (a)': "",
            f'file "m" main type a = {body}; file "i" init type a = {body}; type b = bool; args (a)': "a:6 e:3",
            'file "m" main type a = b; file "i" service type c = empty; service : {} file "j" type type b = variant { x : c; y };': "a:1 b:1 c:0",
            'file "m" main type a = b; type b = nat8; file "i" init type b = nat8; type c = empty; args (empty)': "a:256 b:256",
        }.items():
            self.assertEqual(self.values(source), right, source)

    def test_refused(self):
        """What the check refuses, 1, 24 and 18 come first, whatever is asked; then 3 of a name that no definition of roles 0 to 2 has."""
        fine = "type a = bool; type b = opt a; type c = record { c };"
        for source, outcome in {
            fine: 'given 3 "a" 2 "b" 3 "c" 0', "": "given 0", "names \"x\"": "given 0",
            fine + "type a = nat;": 'refused 2 "a"', fine + "type d = z;": 'refused 3 "z"', fine + 'type d = "";': 'refused 3 ""',
            fine + "type d = class () -> {};": "refused 4 -", fine + "type d = func () -> () query oneway;": "refused 5 -",
            fine + "type d = func () -> (nat) oneway;": "refused 6 -", fine + "type d = d;": 'refused 7 "d"',
            fine + "type d = service { m : a };": "refused 8 -", fine + "service : { m : b }": 'refused 9 "m"', fine + "service : a": "refused 10 -",
            f'file "m" main {fine} file "i" service': 'refused 12 "i"',
            f'file "m" main {fine} file "i" service service : () -> {{}}': 'refused 13 "i"',
            f'file "m" main {fine} service : {{ m : () -> () }} file "i" service service : {{ m : () -> () }}': 'refused 14 "m"',
            fine + "truncate 1": "refused 1 -", fine + "type d = variant { x : a; x : b };": 'refused 18 "x"',
            fine + "type d = variant { x : a; 120 : b };": "refused 18 -",
        }.items():
            found = answers.outcomes(mkbook.book(source))
            self.assertEqual(found["values"], outcome, source)
            is_whole, is_given = outcome != "refused 1 -", outcome.startswith("given")
            for word, number in (("values-outside", 1024), ("values-highest", 65535)):
                self.assertEqual(found.get(word), (f"refused 3 {number}" if is_given else outcome) if is_whole else None, source)
        self.assertEqual(answers.outcomes(mkbook.book(fine), (1024, 4096, 2))["values"], OVER)
        book = answers.Book(mkbook.book(f'file "m" main {fine} service : {{ x : () -> () }} file "i" init type d = bool; args (d)'))
        self.assertEqual(book.names, [b"a", b"b", b"c", b"d", b"i", b"m", b"x"])
        self.assertEqual([asked(answers.values, book, number) for number in (*range(8), 1023, 65535)],
                         [2, 3, 0, *((3, number) for number in (3, 4, 5, 6, 7, 1023, 65535))])
        self.assertEqual([answers.numbered(mkbook.book(fine), number, 0, 0)[7] for number in (0, 1, 2, 3, 4, 65535)],
                         ["values refused 3 0", "values given 2", "values given 3", "values given 0", "values refused 3 4", "values refused 3 65535"])

    def test_program(self):
        """What the program `values` prints."""
        for source, right in {
            'type b = bool; type "\\00\\"" = text; type a = record { b; b }; service : { m : () -> () }': '"\\00\\22" many\n"a" 4\n"b" 2\n',
            "": "", "service : { m : () -> () }": "", "type a = b;": 'refused 3 "b"\n', "type a = record { x : b; x : b };": 'refused 18 "x"\n',
            "type a = bool; truncate 1": "refused 1 -\n",
        }.items():
            self.assertEqual(answers.valuing(mkbook.book(source)), right, source)

    def test_deep(self):
        """Nested and chained as far as there is room; what a chain's last is decides, and is found last."""
        for body, right in {
            "nest 4095 { opt | } { bool }": 4097, "nest 4095 { opt | } { empty }": 4095, "nest 4095 { record { | } } { bool }": 2,
            "nest 4095 { variant { x : | } } { text }": "many", "nest 2047 { record { bool; | } } { bool }": "many",
            "nest 2047 { variant { x; y : | } } { null }": 2048, "nest 1023 { record { record {}; opt | } } { null }": 1024,
            "nest 4095 { vec | } { empty }": "many", "nest 31 { record { bool; | } } { bool }": "many",
            "nest 30 { record { bool; | } } { bool }": 2147483648, "record { repeat 4095 { null; } }": 1,
            "record { repeat 31 { bool; } }": 2147483648, "record { repeat 32 { bool; } }": "many",
            "record { repeat 4000 { null; } bool; }": 2, "record { repeat 4000 { text; } empty; }": 0,
            "variant { repeat 4095 { #; } }": 4095, "variant { repeat 4095 { # : empty; } }": 0,
            "variant { repeat 4095 { # : nat16; } }": 4095 * 65536,
        }.items():
            self.assertEqual(self.values(f"type a = {body};"), f"a:{right}", body)
        for step, last, numbers in (
            ("opt a###", "bool", range(513, 1, -1)), ("a###", "nat8", [256] * 512), ("record { a###; a### }", "null", [1] * 512),
            ("record { a###; a### }", "bool", ["many"] * 507 + [2 ** 2 ** at for at in range(4, -1, -1)]),
            ("variant { x : a###; y : a### }", "null", ["many"] * 480 + [2 ** at for at in range(31, -1, -1)]),
            ("variant { x : a###; y : empty }", "variant {}", [0] * 512), ("record { a###; nat }", "empty", [0] * 512),
            ("opt a###", "opt head", ["many"] * 512), ("record { a### }", "record { head }", [0] * 512),
            ("vec a###", "empty", ["many"] * 510 + [1, 0]),
        ):
            names = [f"a{place:03}" for place in range(511)]
            for source, chain in ((f"type head repeat 511 {{ = {step}; type a### }} = {last};", names),
                                  (f"type head nest 511 {{ | = {step}; type a### }} {{}} = {last};", names[::-1])):
                right = sorted(zip(["head", *chain], numbers, strict=True))
                self.assertEqual(self.values(source), " ".join(f"{name}:{number}" for name, number in right), source)

    def of_height(self, env, tree, height, most, known):
        """The different values of a type up to a height, as values of Python, or None where there are more than `most`. A value is higher than what
        it is made of; of what is endless there are more the higher they are."""
        if tree.kind == answers.NAME:
            return self.of_height(env, env[tree.value], height, most, known)
        at = id(tree), height
        if at in known:
            return known[at]
        leaves = {0: {None}, 1: {False, True}, 15: {"reserved"}, 16: set(), 4: set(range(256)), 8: set(range(-128, 128))}
        if height == 0:
            found = set()
        elif tree.kind in leaves:
            found = leaves[tree.kind]
        elif tree.kind not in (answers.OPT, answers.VEC, answers.RECORD, answers.VARIANT):
            found = set(range(height))
        else:
            parts = [self.of_height(env, kid, height - 1, most, known) for kid in tree.kids]
            if tree.kind == answers.RECORD and set() in parts:
                found = set()
            elif None in parts:
                found = None
            elif tree.kind == answers.OPT:
                found = {(), *((value,) for value in parts[0])}
            elif tree.kind == answers.VEC:
                found = {(value,) * length for value in parts[0] for length in range(height)} | {()}
            elif tree.kind == answers.VARIANT:
                found = {(kid.label, value) for kid, part in zip(tree.kids, parts) for value in part}
            else:
                found = {()}
                for part in parts:
                    found = {(*fields, value) for fields in found for value in part} if len(found) * len(part) <= most else None
                    if found is None:
                        break
        known[at] = None if found is None or len(found) > most else found
        return known[at]

    def test_by_enumeration(self):
        """Of small books all values up to a height are written down, of one above the number of nodes and of twice that. Where there are no more
        then, they are as many as is said; else it is `many`, or more than was written down."""
        tried, most = collections.Counter(), 400
        for book in checked([*random_books(1200, ("name", "name", "empty", "null", "bool"), ("opt", *("record", "variant") * 2), 3, 3),
                             *random_books(600, ("name", "empty", "bool", "reserved", "int8", "text"), ("opt", "vec", "record", "variant"), 3, 2)]):
            env, _ = answers.check(book)
            height, known = book.counts[1] + 1, {}
            for name, number in answers.all_values(book):
                low, high = (self.of_height(env, env[name], up_to, most, known) for up_to in (height, 2 * height))
                if high is None:
                    self.assertTrue(number == "many" or number > most)
                elif low == high:
                    self.assertEqual(number, len(low))
                else:
                    self.assertEqual(number, "many")
                tried["many" if number == "many" else "none" if not number else "larger" if number > most else "some"] += 1
        self.assertGreater(min(tried.values()), 10, tried)

    def test_by_height(self):
        """Of the stored books and of random ones with larger leaves, values of each height are counted, by height alone: a number stands still."""
        def counted(env, height):
            """How many values of so many heights each name has, none of them counted above twice the bound."""
            top, of_leaves = 2 * self.MOST, {0: 1, 1: 2, 4: 256, 5: 65536, 8: 256, 9: 65536, 15: 1, 16: 0}
            rows = [(node, [id(kid) for kid in node.kids]) for tree in env.values() for node in answers.nodes(tree)]
            counts = {id(node): 0 for node, _ in rows}
            for up_to in range(1, height + 1):
                after = {}
                for node, kids in rows:
                    parts = [counts[kid] for kid in kids]
                    if node.kind == answers.RECORD:
                        number = 1
                        for part in sorted(parts):
                            number = min(number * part, top)
                    elif node.kind in (answers.OPT, answers.VARIANT):
                        number = sum(parts) + (node.kind == answers.OPT)
                    elif node.kind == answers.VEC:
                        number = 1 + parts[0] * up_to
                    else:
                        number = of_leaves.get(node.kind, up_to)
                    after[id(node)] = min(number, top) if node.kind != answers.NAME else None
                for node, _ in rows:  # a name is no higher than its definition
                    if node.kind == answers.NAME:
                        after[id(node)] = after[id(answers.alias_end(env, node))]
                counts = after
            return {name: counts[id(answers.alias_end(env, tree))] for name, tree in env.items()}

        tried = collections.Counter()
        stored = [book for name, book in [*LIST_BOOKS.items(), *CHECK_BOOKS.items()] if len(book) < 3000]
        leaves = ("name", "name", "null", "bool", "nat8", "int16", "nat16", "empty")
        for book in checked([*stored, *random_books(700, leaves, ("opt", *("record", "variant") * 4), 5, 3)]):
            env, _ = answers.check(book)
            height = sum(len(answers.nodes(tree)) for tree in env.values()) + 1
            if height > 100:
                continue
            low, high = counted(env, height), counted(env, 2 * height)
            for name, number in answers.all_values(book):
                right = low[name] if low[name] == high[name] <= self.MOST else "many"
                self.assertEqual(number, right)
                tried["many" if number == "many" else "none" if not number else "large" if number > 1000 else "some"] += 1
        self.assertGreater(min(tried.values()), 100, tried)


def random_interfaces(count):
    """Books with seven definitions and an actor: functions and services, by name and written, some of them below a class, some of an import."""
    random = Random(8)

    def tree(depth):
        kind = random.choice(("opt", "record", "func", "service")) if depth and random.random() < 0.4 else random.choice(("name", "name", "nat"))
        if kind == "name":
            return random.choice("aabbccfghs")
        return {"nat": lambda: "nat", "opt": lambda: f"opt {tree(depth - 1)}", "record": lambda: f"record {{ {types(depth, ';')} }}",
                "func": lambda: f"func {function(depth)}", "service": lambda: f"service {{ {methods(depth, 'xyz')} }}"}[kind]()

    def types(depth, between=","):
        return f"{between} ".join(tree(depth - 1) for _ in range(random.choice((0, 1, 1, 2, 3))))

    def function(depth):
        return f"({types(depth)}) -> ({types(depth)})"

    def methods(depth, names):
        some = [name for name in names if random.random() < 0.6]
        return " ".join(f"{name} : {random.choice(('f', 'g', 'h', function(depth), function(depth)))};" for name in some)

    for _ in range(count):
        bodies = {"f": f"func {function(2)}", "g": random.choice(("f", f"func {function(2)}")), "h": random.choice("fg"),
                  "s": f"service {{ {methods(2, 'klmno')} }}", **{name: tree(2) for name in "abc"}}
        rows = [f"type {name} = {body};" for name, body in random.sample([*bodies.items()], len(bodies))]
        actor = random.choice(("s", f"{{ {methods(2, 'klmno')} }}", f"{{ {methods(2, 'klmno')} }}"))
        if random.random() < 0.4:
            actor = f"({types(2)}) -> {actor}"
        split = random.randrange(len(rows)) if random.random() < 0.4 else len(rows)
        more = f'file "i" service {" ".join(rows[split:])} service : {{ {methods(2, "pqr")} }}' if split < len(rows) else ""
        yield mkbook.book(f'file "s" main {" ".join(rows[:split])} service : {actor} {more}')


class UseCounts(unittest.TestCase):
    """Request 8 of document 02: how many uses each listed definition has, and all together."""

    def report(self, source):
        book = answers.Book(mkbook.book(source))
        counts = answers.use_counts(book)
        listed = [book.names[name].decode() for name in answers.definition_list(book)]
        return " ".join([*(f"{name}:{count}" for name, count in zip(listed, counts, strict=True)), f"={sum(counts)}"])

    def test_by_hand(self):
        """Each place alone, and what is no use."""
        for source, right in {
            # nothing listed
            "service : {}": "=0", "service : { m : () -> () }": "=0", "service : () -> {}": "=0", "type a = nat; service : {}": "=0",
            "type a = nat; type f = func (a) -> (a); service : (text) -> { m : (nat) -> (vec nat) }": "=0",
            # a use for each argument and result from which a name is reached, not for each node
            "type a = nat; service : { m : (a) -> () }": "a:1 =1", "type a = nat; service : { m : () -> (a) }": "a:1 =1",
            "type a = nat; service : { m : (a) -> (a) }": "a:2 =2", "type a = nat; service : { m : (a, a) -> () }": "a:2 =2",
            "type a = nat; service : { m : (record { a; a }) -> () }": "a:1 =1",
            "type a = nat; service : { m : (nat, a, vec opt a, record { nat; a }) -> (text, variant { x : a; y }) }": "a:4 =4",
            "type a = nat; service : { m : (a) -> (); n : () -> (a); o : (a) -> (a) }": "a:4 =4",
            "type a = nat; type b = nat; service : { n : (b) -> (); m : (a, b) -> (b) }": "b:3 a:1 =4",
            # the arguments of a class
            "type a = nat; service : (a) -> {}": "a:1 =1", "type a = nat; service : (a) -> { m : (a) -> () }": "a:2 =2",
            "type a = nat; service : (a, opt a) -> { m : (a) -> (a) }": "a:4 =4", "type a = nat; service : () -> { m : (a) -> () }": "a:1 =1",
            "type a = nat; type f = func (a) -> (); service : (f) -> { m : f }": "a:2 f:1 =3",
            # what definitions lead to
            "type a = b; type b = c; type c = nat; service : { m : (a) -> (b); n : (c) -> () }": "c:3 b:2 a:1 =6",
            "type a = record { b; c }; type b = opt c; type c = nat; service : { m : (a, b) -> (c) }": "c:3 b:2 a:1 =6",
            "type a = nat; type b = a; service : { m : (a) -> () }": "a:1 =1",
            # circles
            "type a = opt a; service : { m : (a) -> () }": "a:1 =1", "type a = opt b; type b = opt a; service : { m : (a) -> (b) }": "b:2 a:2 =4",
            "type a = opt a; type b = record { a; b }; service : (b) -> { m : (a) -> () }": "a:2 b:1 =3",
            "type a = opt b; type b = opt c; type c = record { a; d }; type d = nat; service : { m : (d, c) -> (a) }": "d:3 b:2 a:2 c:2 =9",
            # a method's own function, by name or by a chain of names
            "type f = func () -> (); service : { m : f }": "f:0 =0", "type f = func (nat) -> (text); service : { m : f; n : f }": "f:0 =0",
            "type f = func (a) -> (a); type a = nat; service : { m : f; n : f }": "a:4 f:0 =4",
            "type f = func (a, a) -> (); type a = nat; service : { m : f; n : (a) -> (f) }": "a:4 f:1 =5",
            "type g = f; type f = func (a) -> (); type a = nat; service : { m : g; n : f; o : (a) -> () }": "a:3 f:0 g:0 =3",
            "type g = f; type f = func (a) -> (); type a = g; service : { m : g }": "a:1 f:1 g:1 =3",
            "type f = func (f) -> (f); service : { m : f; n : f; o : f }": "f:6 =6",
            # functions and services inside a type: their arguments are no argument of the actor's
            "type a = nat; service : { m : (func (a, a) -> (a)) -> () }": "a:1 =1",
            "type a = nat; type f = func (a) -> (); service : { m : (service { n : (a) -> (a); o : f }) -> () }": "a:1 f:1 =2",
            "type a = nat; type f = func (a, a) -> (a); service : { m : (f) -> () }": "a:1 f:1 =2",
            "type a = nat; type s = service { n : (a, a) -> (a) }; service : { m : (s) -> (s) }": "a:2 s:2 =4",
            "type a = nat; type s = service { n : (a, a) -> (a) }; service : (s) -> { m : () -> () }": "a:1 s:1 =2",
            # an actor by name refers to it, and is no use
            "type s = service { m : (a) -> () }; type a = nat; service : s": "a:1 s:0 =1",
            "type s = service { m : (s) -> (s) }; service : s": "s:2 =2", "type t = s; type s = service { m : (t) -> () }; service : t": "s:1 t:1 =2",
            "type t = s; type s = service {}; service : t": "s:0 t:0 =0",
            "type s = service { m : (s) -> () }; service : (s) -> s": "s:2 =2",
            "type s = service { m : f; n : f }; type f = func (s) -> (); service : s": "f:2 s:2 =4",
        }.items():
            self.assertEqual(self.report(source), right, source)

    def test_files(self):
        """Definitions of main and of imports; the resolved actor, with the methods of service imports and a class's arguments once; an init file
        is not read."""
        for source, right in {
            'file "m" main service : { m : (a) -> () } file "i" type type a = b; type b = nat; service : { n : (b, b) -> () }': "b:1 a:1 =2",
            'file "m" main type a = nat; service : { m : (a) -> () } file "i" service service : { n : (a) -> (a) }': "a:3 =3",
            'file "m" main type a = nat; file "i" service service : { n : (a) -> (a) }': "a:2 =2",
            'file "m" main type a = nat; service : (a, nat, a) -> { m : (a) -> () } file "i" service service : { n : () -> (a) }': "a:4 =4",
            'file "m" main type a = nat; service : (a) -> {} file "i" service service : {} file "j" service service : {}': "a:1 =1",
            'file "m" main type s = service { m : (a) -> () }; type a = nat; service : s file "i" service service : { n : (a) -> () }': "a:2 =2",
            'file "m" main type s = service { m : (a) -> (s) }; type a = nat; service : s file "i" service service : s2 type s2 = s3;'
            ' file "j" type type s3 = service { n : (s3) -> () };': "a:2 s:1 s3:1 =4",
            'file "m" main type f = func (a) -> (a); type a = nat; service : { m : f } file "i" service type g = f; service : { n : g; o : f }':
                "a:6 f:0 g:0 =6",
            'file "m" main type a = nat; service : { m : (a) -> () } file "i" init type b = opt b; args (a, b, record { a; b })': "a:1 =1",
            'file "m" main type a = nat; service : { m : (a) -> () } file "i" init args (z)': "a:1 =1",
        }.items():
            self.assertEqual(self.report(source), right, source)

    def test_refused(self):
        """1, 24 and 18 come first, then what the check refuses, then 17; and 16, which counts definitions, where any is listed."""
        fine, actor = "type a = nat; type b = opt a;", "service : { m : (b, b, b) -> () }"
        for source, outcome in {
            fine + actor: "given 2 3 3 total 6", fine + "service : {}": "given 0 total 0", fine: "refused 17 -", "": "refused 17 -",
            f'file "m" main {fine} file "i" type {actor}': "refused 17 -", fine + "type a = nat;": 'refused 2 "a"',
            fine + actor + "type d = z;": 'refused 3 "z"', fine + "type d = class () -> {};": "refused 4 -",
            fine + "type d = func () -> () query oneway;": "refused 5 -", fine + "type d = func () -> (nat) oneway;": "refused 6 -",
            fine + "type d = d;": 'refused 7 "d"', fine + "type d = service { m : a };": "refused 8 -", fine + "service : { m : b }": 'refused 9 "m"',
            fine + "service : a": "refused 10 -", f'file "m" main {fine} file "i" service': 'refused 12 "i"',
            f'file "m" main {fine} file "i" service service : () -> {{}}': 'refused 13 "i"',
            f'file "m" main {fine} {actor} file "i" service {actor}': 'refused 14 "m"', fine + actor + "truncate 1": "refused 1 -",
            fine + "type d = variant { x : a; x : b };": 'refused 18 "x"', fine + actor + "type d = variant { x : a; 120 : b };": "refused 18 -",
        }.items():
            found = answers.outcomes(mkbook.book(source))
            self.assertEqual(found["use-counts"], outcome, source)
            self.assertEqual(found.get("use-counts-short"), "needs 2 refused 16 -" if outcome.startswith("given 2") else None, source)
            if outcome.startswith("refused"):
                self.assertEqual(found["list"], outcome, source)
        book = mkbook.book(fine + actor)
        for limits, outcome in (((3, 8, 2), OVER), ((4, 7, 2), OVER), ((4, 8, 1), OVER), ((4, 8, 2), "given 2 3 3 total 6")):
            self.assertEqual(answers.outcomes(book, limits)["use-counts"], outcome)
        for places, outcome in {0: "refused 16 needs 2", 1: "refused 16 needs 2", 2: "given 2 3 3", 4096: "given 2 3 3"}.items():
            self.assertIn(f"use-counts {outcome}", answers.numbered(book, 0, 0, places))
        self.assertIn("use-counts given 0", answers.numbered(mkbook.book("service : {}"), 0, 0, 0))
        self.assertIn("use-counts refused 17 -", answers.numbered(mkbook.book(fine), 0, 0, 0))

    def test_program(self):
        """What the program `uses_report` prints."""
        for source, right in {
            SOURCES["p01"]: '"pair" 1\n"tree" 1\ntotal 2\n', "service : { m : () -> () }": "total 0\n", "": "refused 17 -\n",
            'type "\\00\\"" = text; type f = func (repeat 10 { "\\00\\"", }) -> (f); service : { m : f }': '"\\00\\22" 11\n"f" 1\ntotal 12\n',
            "type a = b; service : {}": 'refused 3 "b"\n', "type a = record { x : b; x : b };": 'refused 18 "x"\n',
            "service : {} truncate 1": "refused 1 -\n",
        }.items():
            self.assertEqual(answers.reporting(mkbook.book(source)), right, source)

    def test_large(self):
        """As many arguments, results, methods and definitions as there is room for."""
        for source, right in {
            "type f = func () -> (); service : (repeat 4092 { f, }) -> { m : f; }": "f:4092 =4092",
            "type a = nat; service : { m : (repeat 4093 { a, }) -> () }": "a:4093 =4093",
            "type a = nat; service : { m : (a) -> (repeat 4092 { a, }) }": "a:4093 =4093",
            "type f = func (repeat 3094 { nat, }) -> (); service : { repeat 1000 { m### : f; } }": "f:0 =0",
        }.items():
            self.assertEqual(answers.Book(mkbook.book(source)).counts[1], 4096, source)
            self.assertEqual(self.report(source), right, source)
        # The largest total: 512 definitions, each reachable from every argument of the function of 1,024 methods, which is a method for each name.
        book = answers.Book(mkbook.book(
            "type f = func (repeat 2559 { a000, }) -> (); repeat 510 { type a### = a###+1; } type a510 = f;"
            'service : { "" : f; f : f; repeat 511 { a### : f; m### : f; } }'))
        self.assertEqual(book.counts, [1024, 4096, 512, 1])
        self.assertEqual(answers.use_counts(book), [1024 * 2559] * 512)

    def types_offered(self, book):
        """The class's arguments, then for each method its arguments and results, with where they are."""
        env, actor = answers.check(book)
        actor = answers.alias_end(env, actor)
        found = [((65535, 0, index), tree) for index, tree in enumerate(actor.kids[:-1])] if actor.kind == 25 else []
        for position, method in enumerate(answers.alias_end(env, actor.kids[-1] if actor.kind == 25 else actor).kids):
            function = answers.alias_end(env, method)
            arguments = function.value % 65536
            found += [((position, int(place >= arguments), place - arguments * (place >= arguments)), tree)
                      for place, tree in enumerate(function.kids)]
        return found

    def test_sides(self):
        """Of stored and of random books: a listed definition's number is that of the entries of its uses, which are those of the types that reach
        it; and the sum is that of how many definitions each type reaches."""
        tried, larger = collections.Counter(), 0
        stored = [book for name, book in [*LIST_BOOKS.items(), *CHECK_BOOKS.items()] if len(book) < 3000]
        for book in checked([*stored, *random_interfaces(1500)]):
            env, actor = answers.check(book)
            if actor is None:
                self.assertEqual(asked(answers.use_counts, book), (17, None))
                continue
            refers = {name: references(tree) for name, tree in env.items()}
            reaches = [(place, reached(refers, references(tree))) for place, tree in self.types_offered(book)]
            listed, counts = answers.definition_list(book), answers.use_counts(book)
            self.assertEqual(len(counts), len(listed))
            for name, count in zip(listed, counts):
                self.assertEqual(answers.uses(book, name), [place for place, names in reaches if name in names])
                self.assertEqual(len(answers.uses(book, name)), count)
                tried["none" if not count else "one" if count == 1 else "more"] += 1
            self.assertEqual(sum(counts), sum(len(names) for _, names in reaches))
            self.assertLessEqual(set().union(*(names for _, names in reaches)), set(listed))
            tried["class" if self.types_offered(book)[:1] and self.types_offered(book)[0][0][0] == 65535 else "service"] += 1
            larger += len(set(counts)) > 2
        self.assertGreater(min(tried.values()), 100, tried)
        self.assertGreater(larger, 100)


def sparse_interfaces(count):
    """Books with nine definitions and eight methods that lead to few of them each, some below a class or of an import."""
    random = Random(11)

    def some(often):
        return random.choice("abcdefghi") if random.random() < often else "nat"

    def body(name):
        return f"func ({some(0.7)}) -> ({some(0.2)})" if name in "fg" else random.choice(
            ("nat", f"opt {some(1)}", f"record {{ {some(0.7)}; {some(0.3)} }}", f"service {{ x : f; y : ({some(0.5)}) -> () }}"))

    def method(name):
        return f"{name} : {random.choice('fg') if random.random() < 0.2 else f'({some(0.5)}) -> ({some(0.3)})'};"

    for _ in range(count):
        rows = [f"type {name} = {body(name)};" for name in "abcdefghi"]
        methods = [method(name) for name in "klmnopqr"]
        split = random.choice((4, 8))
        more = f'file "i" service service : {{ {" ".join(methods[split:])} }}' if split < 8 else ""
        arguments = random.choice(("", f"({some(1)}) -> "))
        yield mkbook.book(f'file "s" main {" ".join(rows)} service : {arguments}{{ {" ".join(methods[:split])} }} {more}')


class Methods(unittest.TestCase):
    """Request 10 of document 02: which methods change with some definitions."""

    def changed(self, source):
        """Each name with which a method changes, with the positions."""
        book = answers.Book(mkbook.book(source))
        return " ".join(f"{book.names[name].decode()}:{','.join(map(str, positions))}" for name, positions in answers.all_methods(book))

    def test_by_hand(self):
        """Each name alone."""
        for source, right in {
            # nothing that a method leads to
            "service : {}": "", "service : { m : () -> () }": "", "service : () -> {}": "", "type a = nat; service : {}": "",
            "type a = nat; service : { m : (nat) -> (vec text) }": "", "type m = nat; service : { m : () -> () }": "",
            # arguments and results, each of them, however often
            "type a = nat; service : { m : (a) -> () }": "a:0", "type a = nat; service : { m : () -> (a) }": "a:0",
            "type a = nat; service : { m : (a, a) -> (a) }": "a:0", "type a = nat; service : { m : (nat, text, a) -> () }": "a:0",
            "type a = nat; service : { m : (nat) -> (text, a) }": "a:0", "type a = nat; service : { m : () -> (); n : (a) -> () }": "a:1",
            "type a = nat; service : { m : (a) -> (); n : () -> (); o : () -> (a) }": "a:0,2",
            "type a = nat; type b = nat; service : { z : (b) -> (); m : (a, b) -> (); n : () -> (a) }": "a:1,2 b:0,1",
            "type a = nat; service : { m : (opt vec record { x : a }) -> (); n : () -> (variant { y; z : a }) }": "a:0,1",
            # names on the way, those that come before them, and circles
            "type a = b; type b = c; type c = nat; service : { m : (b) -> (); n : (a) -> (); o : (c) -> () }": "a:1 b:0,1 c:0,1,2",
            "type a = opt a; service : { m : (a) -> (); n : () -> () }": "a:0",
            "type a = opt b; type b = opt a; type c = opt a; service : { m : (a) -> (); n : (c) -> (); o : (b) -> () }": "a:0,1,2 b:0,1,2 c:1",
            # the arguments of a class
            "type a = nat; service : (a) -> { m : () -> () }": "", "type a = nat; service : (a, nat, a) -> { m : () -> (); n : (a) -> () }": "a:1",
            "type a = b; type b = nat; service : (a) -> { m : (b) -> () }": "b:0", "type a = nat; service : () -> { m : (a) -> () }": "a:0",
            "type f = func () -> (); service : (f) -> { m : f }": "",
            # a method's own function, by name or by a chain of names
            "type f = func () -> (); service : { m : f }": "", "type f = func (nat) -> (text); type g = f; service : { m : g; n : f }": "",
            "type f = func (a) -> (); type a = nat; service : { m : f; n : () -> () ; o : f }": "a:0,2",
            "type f = func (f) -> (); service : { m : f; n : () -> () }": "f:0", "type f = func () -> (g); type g = f; service : { m : f; n : g }":
                "f:0,1 g:0,1",
            "type g = f; type f = func (a) -> (); type a = g; service : { m : g }": "a:0 f:0 g:0",
            "type f = func () -> (); service : { m : f; n : (f) -> (); o : () -> (opt f) }": "f:1,2",
            "type f = func () -> (); type g = func (f) -> (); service : { m : f; n : g }": "f:1",
            # functions and services inside
            "type a = nat; service : { m : (func (a) -> ()) -> (); n : (func () -> (a)) -> () }": "a:0,1",
            "type a = nat; type f = func (a) -> (); service : { m : (service { x : f }) -> (); n : () -> (service { x : () -> (a) }) }": "a:0,1 f:0",
            "type s = service { x : f }; type f = func (a) -> (); type a = nat; service : { m : (s) -> (); n : f }": "a:0,1 f:0 s:0",
            "type f = func (service { m : f }) -> (); service : { m : f; n : () -> () }": "f:0",
            "type f = func (service { x : g }) -> (); type g = func () -> (service { y : f }); service : { m : f; n : g }": "f:0,1 g:0,1",
            # an actor by name
            "type s = service { m : (a) -> () }; type a = nat; service : s": "a:0", "type s = t; type t = service { m : () -> () }; service : s": "",
            "type s = service { m : () -> (); n : (s) -> () }; service : s": "s:1",
            "type s = service { m : () -> () }; service : (s) -> s": "",
        }.items():
            self.assertEqual(self.changed(source), right, source)

    def test_files(self):
        """Definitions of main and of imports, and the methods of the resolved actor; an init file is not read."""
        for source, right in {
            'file "m" main service : { m : (a) -> () } file "i" type type a = b; type b = nat; service : { n : (b) -> () }': "a:0 b:0",
            'file "m" main type a = nat; service : { m : () -> (); n : (a) -> () } file "i" service service : { o : () -> (); p : (a) -> () }':
                "a:1,3",
            'file "m" main type a = nat; file "i" service service : { m : () -> (); n : () -> (a) }': "a:1",
            'file "m" main type a = nat; service : (a) -> { m : () -> () } file "i" service service : { n : (a) -> () }': "a:1",
            'file "m" main type a = nat; service : (a) -> {} file "i" service service : {}': "",
            'file "m" main type f = func (a) -> (); type a = nat; service : { m : f } file "i" service type g = f; service : { n : g; o : f }':
                "a:0,1,2",
            'file "m" main type s = service { m : (s) -> () }; service : s file "i" service service : t type t = service { n : (s) -> () };':
                "s:0,1",
            'file "m" main type a = nat; service : { m : (a) -> () } file "i" init type b = opt b; args (a, b)': "a:0",
            'file "m" main service : { m : () -> () } file "i" init type a = nat; args (a)': "",
        }.items():
            self.assertEqual(self.changed(source), right, source)

    def test_lists(self):
        """In any order, as often as they come, with numbers that are no definition's or outside the table, and longer than 65,536."""
        book = answers.Book(mkbook.book(
            "type a = nat; type b = nat; type c = b; service : { m : (a) -> (); n : () -> (); o : (b) -> (); p : (a, c) -> () }"))
        self.assertEqual(book.names, [b"", b"a", b"b", b"c", b"m", b"n", b"o", b"p"])
        for names, right in {
            (): [], (1,): [0, 3], (2,): [2, 3], (3,): [3], (1, 2): [0, 2, 3], (2, 1): [0, 2, 3], (1, 3): [0, 3], (3, 2, 1): [0, 2, 3],
            (2, 2, 2): [2, 3], (1, 2, 1): [0, 2, 3], (0,): [], (4, 5, 6, 7, 0): [], (8,): [], (1024,): [], (65535,): [], (65535, 8, 3, 1024): [3],
            (1024,) * 70000 + (3,): [3], (3,) + (9,) * 70000: [3], tuple(range(65536)) * 2: [0, 2, 3], (65535,) * 100000: [],
        }.items():
            self.assertEqual(answers.methods(book, names), right, names[:5])

    def test_refused(self):
        """1, 24 and 18 come first, then what the check refuses, then 17, also of nothing; and 16, which counts positions, where there are any."""
        fine, actor = "type a = nat; type b = opt a;", "service : { m : (b) -> (); n : () -> (a) }"
        others = ("outside", "highest", "none", "all", "even", "odd")
        for source, outcome in {
            fine + actor: 'given 2 "a" 0 1 "b" 0', fine + "service : {}": "given 0", fine: "refused 17 -", "": "refused 17 -",
            f'file "m" main {fine} file "i" type {actor}': "refused 17 -", fine + "type a = nat;": 'refused 2 "a"',
            fine + actor + "type d = z;": 'refused 3 "z"', fine + "type d = class () -> {};": "refused 4 -",
            fine + "type d = func () -> () query oneway;": "refused 5 -", fine + "type d = func () -> (nat) oneway;": "refused 6 -",
            fine + "type d = d;": 'refused 7 "d"', fine + "type d = service { m : a };": "refused 8 -", fine + "service : { m : b }": 'refused 9 "m"',
            fine + "service : a": "refused 10 -", f'file "m" main {fine} file "i" service': 'refused 12 "i"',
            f'file "m" main {fine} file "i" service service : () -> {{}}': 'refused 13 "i"',
            f'file "m" main {fine} {actor} file "i" service {actor}': 'refused 14 "m"', fine + actor + "truncate 1": "refused 1 -",
            fine + "type d = variant { x : a; x : b };": 'refused 18 "x"', fine + actor + "type d = variant { x : a; 120 : b };": "refused 18 -",
        }.items():
            found = answers.outcomes(mkbook.book(source))
            self.assertEqual(found["methods"], outcome, source)
            self.assertEqual(found.get("methods-all-short"), "needs 2 refused 16 -" if outcome.startswith("given 2") else None, source)
            if outcome.startswith("refused") and outcome != "refused 1 -":
                self.assertEqual({found[f"methods-{asked}"] for asked in others}, {outcome}, source)
        book = mkbook.book(fine + actor)
        for limits, outcome in (((4, 8, 2), OVER), ((5, 7, 2), OVER), ((5, 8, 1), OVER), ((5, 8, 2), "given 2 0 1")):
            self.assertEqual(answers.outcomes(book, limits)["methods-all"], outcome)
        for places, outcome in {0: "refused 16 needs 2", 1: "refused 16 needs 2", 2: "given 2 0 1", 4096: "given 2 0 1"}.items():
            self.assertIn(f"methods {outcome}", answers.numbered(book, 2, 1, places))
        self.assertIn("methods given 1 0", answers.numbered(book, 2, 65535, 1))
        self.assertIn("methods given 0", answers.numbered(book, 0, 65535, 0))
        self.assertIn("methods refused 17 -", answers.numbered(mkbook.book(fine), 1, 2, 0))

    def test_large(self):
        """As many methods and definitions as there can be: all methods of one function, which leads to every definition; each method with a
        definition of its own, of a chain of 512."""
        book = answers.Book(mkbook.book(
            "type f = func (repeat 2559 { a000, }) -> (); repeat 510 { type a### = a###+1; } type a510 = f;"
            'service : { "" : f; f : f; repeat 511 { a### : f; m### : f; } }'))
        self.assertEqual(book.counts, [1024, 4096, 512, 1])
        self.assertEqual(answers.methods(book, [book.names.index(b"a510")]), [*range(1024)])
        self.assertEqual([book.names[name] for name, _ in answers.all_methods(book)], [name for name in book.names if name[:1] in (b"a", b"f")])
        book = answers.Book(mkbook.book(
            'repeat 511 { type a### = opt a###+1; } type a511 = nat; service : { repeat 511 { m### : (a###) -> (); } "" : () -> (a511) }'))
        self.assertEqual(book.counts, [1024, 2048, 512, 1])
        found = dict(answers.all_methods(book))
        self.assertEqual({book.names[name]: positions for name, positions in found.items()},
                         {f"a{name:03}".encode(): [*range(name + 1)] for name in range(512)})
        self.assertEqual(answers.methods(book, [*found]), [*range(512)])

    def test_unions(self):
        """Of stored and of random books: the answer to one name is the methods of its uses but for a class's arguments, and the answer to a list is
        the union of the single ones."""
        random, tried = Random(10), collections.Counter()
        stored = [book for book in [*LIST_BOOKS.values(), *CHECK_BOOKS.values()] if len(book) < 3000]
        for book in checked([*stored, *random_interfaces(700), *sparse_interfaces(700)]):
            if answers.check(book)[1] is None:
                for names in ([], [0], [65535]):
                    self.assertEqual(asked(answers.methods, book, names), (17, None))
                continue
            numbers = [*range(len(book.names)), len(book.names), 1024, 65535]
            single = {name: sorted({method for method, _, _ in answers.uses(book, name)} - {65535}) for name in numbers}
            self.assertEqual([(name, single[name]) for name in numbers if single[name]], answers.all_methods(book))
            for name, positions in single.items():
                self.assertEqual(answers.methods(book, [name]), positions)
                tried["one", min(len(positions), 2), len(answers.uses(book, name)) > len(positions)] += 1
            for some in (numbers, [name for name in numbers if single[name]] or numbers):
                names = random.choices(some, k=random.choice((0, 1, 2, 2, 3, 5, 20)))
                union = sorted(set().union(*(single[name] for name in names)))
                self.assertEqual(answers.methods(book, names), union)
                tried["list", "none" if not union else "of one" if union in (single[name] for name in names) else "of more"] += 1
            self.assertEqual(answers.methods(book, numbers), sorted(set().union(*single.values())))
        self.assertGreater(min(tried.values()), 100, tried)
        self.assertEqual(len(tried), 9, tried)


class Limits(unittest.TestCase):
    """24, by request 14 of document 02: directly after 1 and before all else, in drafts too; layout and name take no limits."""

    def is_over(self, data, limits, what=None):
        """Every line but layout and name is 24; these are as under the full figures, and nothing is asked again with too short a list."""
        full, found = answers.outcomes(data), answers.outcomes(data, limits)
        for question, outcome in found.items():
            self.assertEqual(outcome, full[question] if question in ("layout", "name") else OVER, (what, limits, question))
        self.assertEqual({question.split(" ")[0] for question in found}, set(answers.ROWS), (what, limits))

    def is_within(self, data, limits, what=None):
        self.assertEqual(list(answers.outcomes(data, limits).items()), list(answers.outcomes(data).items()), (what, limits))

    def test_p1(self):
        """7 names, 10 nodes, 3 definitions."""
        book = LIST_BOOKS["p01"]
        self.assertEqual(answers.Book(book).counts, [7, 10, 3, 1])
        for limits in ((7, 10, 3), (8, 10, 3), (7, 11, 3), (7, 10, 4), (7, 4096, 512), (1024, 10, 512), (1024, 4096, 3), FULL):
            self.is_within(book, limits)
        for limits in ((6, 10, 3), (7, 9, 3), (7, 10, 2), (6, 4096, 512), (1024, 9, 512), (1024, 4096, 2), (6, 9, 2),
                       (0, 4096, 512), (1024, 0, 512), (1024, 4096, 0), (0, 0, 0), (1, 2**32 - 1, 2**32 - 1)):
            self.is_over(book, limits)
        self.assertEqual(answers.outcomes(book, (6, 10, 3)) | {"name": None}, {
            "layout": "whole 7 10 3 1", "name": None,
            **{question: OVER for question in (
                "check init-check list marks marks-back marks-outside marks-highest init draft empty values use-counts methods chains lookups "
                "uses-outside alias-outside alias-highest values-outside values-highest project-outside project-highest project-none project-all "
                "project-every methods-outside methods-highest methods-none methods-all methods-even methods-odd").split()},
            **{f'{word} "{name}"': OVER for word in ("uses", "alias", "project", "twice")
               for name in ("", *"fork leaf pair put spare tree".split())}})

    def test_above_the_figures(self):
        """A limit above a figure counts as the figure, so no whole book is over it, and none with more than the figure becomes whole."""
        for limits in ((1025, 4097, 513), (65536, 65536, 65536), (2**32 - 1,) * 3):
            for name in ("limit-all", "limit-names-1024", "limit-nodes-4096", "limit-definitions-512", "p01"):
                self.is_within(BOOKS[name], limits, name)
            for name in ("limit-names-1025", "limit-nodes-4097", "limit-definitions-513"):
                self.assertEqual(answers.outcomes(BOOKS[name], limits), answers.BROKEN, name)
        counted = answers.Book(BOOKS["p01"])
        for place, figure in enumerate(FULL):
            counted.counts = [0, 0, 0, 1]  # what no whole book has, to see the limit itself
            for count, limit, number in ((figure, figure, None), (figure, figure + 1, None), (figure + 1, figure + 1, 24),
                                         (figure + 1, 2**32 - 1, 24), (figure, figure - 1, 24), (1, 0, 24), (0, 0, None)):
                counted.counts[place] = count
                limits = [*FULL]
                limits[place] = limit
                self.assertEqual(asked(answers.within, counted, answers.Limits(*limits)), number and (number, None), (place, count, limit))

    def test_each_count(self):
        """Of many books: 24 exactly if one of the three counts is above its limit, else what is answered under the full figures."""
        tried = 0
        for name in FINE:
            counts = answers.Book(BOOKS[name]).counts[:3]
            if max(counts) > 40:
                continue
            tried += 1
            for place in range(3):
                for change in (-1, 0, 1):
                    for others in (FULL, counts):
                        limits = [*others]
                        limits[place] = counts[place] + change
                        if limits[place] >= 0:
                            (self.is_over if change < 0 else self.is_within)(BOOKS[name], answers.Limits(*limits), name)
        self.assertGreater(tried, 60)

    def test_broken(self):
        """1 whatever the limits are."""
        for name in BROKEN:
            for limits in ((0, 0, 0), (2**32 - 1,) * 3):
                self.assertEqual(answers.outcomes(BOOKS[name], limits), answers.BROKEN, name)

    def test_first(self):
        """Before every other refusal of every question, and before what passes."""
        refused = set()
        for name, book in [*CHECK_BOOKS.items(), *LIST_BOOKS.items()]:
            if name.startswith("large-") or layout.faults(book):
                continue
            refused |= {outcome.split()[1] for outcome in answers.outcomes(book).values() if outcome.startswith("refused")}
            self.is_over(book, (0, 4096, 512), name)  # every whole book has a file's name
        self.assertEqual(refused, {str(number) for number in range(2, 19) if number != 16})

    def test_names_asked(self):
        """Of a book over its limits no name is listed, so that of more than 514 names some alone are asked about."""
        book = mkbook.book('names repeat 512 { "n###" }; type a = nat; service : { m : (a) -> () }')
        full, over = ([question.split(" ")[1] for question in answers.outcomes(book, limits) if question.startswith("uses ")]
                      for limits in (FULL, (0, 0, 0)))
        self.assertEqual(len(full), 515)
        self.assertEqual(over, '"" "a" "m" "n000" "n001" "n002" "n003" "n004" "n504" "n505" "n506" "n507" "n508" "n509" "n510" "n511"'.split())
        book = mkbook.book('names repeat 511 { "n###" }; type a = nat; service : { m : (a) -> () }')
        self.assertEqual(len([question for question in answers.outcomes(book, (0, 0, 0)) if question.startswith("uses ")]), 514)


class Repeats(unittest.TestCase):
    """18, by request 1 of document 02: directly after 1 and 24 and before all else, in drafts too; layout and name refuse nothing."""

    def outcome(self, source, limits=FULL):
        """What every line but layout and name says; these are as they are of any whole book."""
        book = mkbook.book(source)
        found, names = answers.outcomes(book, limits), answers.Book(book).names
        self.assertEqual(found["layout"], " ".join(["whole", *map(str, answers.Book(book).counts)]), source)
        self.assertEqual(found["name"], " ".join([f"given {len(names) + 2}", *map(layout.quoted, [*names, b"", b""])]), source)
        said = {outcome for question, outcome in found.items() if question not in ("layout", "name")}
        self.assertEqual({question.split(" ")[0] for question in found}, set(answers.ROWS), source)
        self.assertEqual(len(said), 1, source)
        return said.pop()

    def test_labels(self):
        """Of a record and a variant, as definition, argument, actor and init argument, with other refusals to come."""
        for fields, named in {
            "x : nat; x : nat": '"x"', "97 : nat; a : nat": '"a"', "a : nat; 97 : nat": "-", "7 : nat; 7 : nat": "-",
            "unnamed 97 : nat; a : nat": '"a"', "a : nat; unnamed 97 : nat": "-", "unnamed 7 : nat; 7 : nat": "-", "7 : nat; unnamed 7 : nat": "-",
            "unnamed 0 : nat; unnamed 0 : nat": "-", 'a : nat; "\\00a" : nat': '"\\00a"', '"\\00a" : nat; a : nat': '"a"',
            "foluv : nat; fisasac : nat": '"fisasac"', "fisasac : nat; foluv : nat": '"foluv"', '"" : nat; 0 : nat': "-", '0 : nat; "" : nat': '""',
            "name : nat; 1224700491 : nat": "-", "1224700491 : nat; name : nat": '"name"', "id : nat; 23515 : nat; id : nat": "-",
            "97 : nat; a : nat; unnamed 97 : nat": '"a"', "a : nat; 97 : nat; a : nat": "-", "x : nat; x : nat; x : nat": '"x"',
            "x : nat; y : nat; y : nat; x : nat": '"y"', "x : nat; y : nat; x : nat; y : nat": '"x"', "b : z; c : z; b : z": '"b"',
            "0 : record { x : nat; x : nat }; 0 : nat": '"x"', "y : nat; y : record { x : nat; x : nat }": '"y"',
            "x : opt vec func () -> (variant { y; y }); x : nat": '"y"', "s : service { m : nat; n : nat; m : nat }; s : nat": '"m"',
            "4294967295 : nat; 0 : nat; 4294967295 : nat": "-", "a : record { 97 : nat; 98 : nat; b : nat }; 97 : nat": '"b"',
        }.items():
            for kind in ("record", "variant"):
                tree = f"{kind} {{ {fields} }}"
                for source in (f"type t = {tree};", f"type t = u; type t = func (z, {tree}) -> () query oneway; type s = service {{ m : t }};",
                               f"service : {tree}", f"service : ({tree}, z) -> z", f"service : {{ m : () -> (z, {tree}) oneway; n : nat }}",
                               f"service : {{ n : {tree} }}", f'file "m" main file "i" type service : class ({tree}) -> z',
                               f'file "m" main service : {{}} file "i" service file "j" service type z = z; service : {tree}',
                               f'file "m" main file "i" init type t = {tree}; args (z)',
                               f'file "m" main type t = nat; file "i" init type t = text; args (z, {tree})'):
                    self.assertEqual(self.outcome(source), f"refused 18 {named}", source)

    def test_methods(self):
        """By name, not by hash."""
        for methods, named in {
            "m : z; m : z": "m", "m : nat; n : nat; m : nat": "m", "m : z; n : z; n : z; m : z": "n", 'a : z; "\\00a" : z; a : z': "a",
            "m : (record { x : z; x : z }) -> (); m : z": "x", "m : z; m : (record { x : z; x : z }) -> ()": "m",
        }.items():
            service = f"{{ {methods} }}"
            for source in (f"type t = service {service};", f"service : {service}", f"service : (z) -> {service}", f"type t = class () -> {service};",
                           f'file "m" main file "i" service service : {service}',
                           f'file "m" main service : {service} file "i" service service : {service}',
                           f'file "m" main service : {{}} file "i" type service : {service}',
                           f'file "m" main file "i" init args (service {service})'):
                self.assertEqual(self.outcome(source), f'refused 18 "{named}"', source)
        for source, outcome in {
            'service : { a : () -> (); "\\00a" : () -> () }': "passed",
            'type s = service { foluv : () -> (); fisasac : () -> () };': "passed",
            'file "m" main service : { a : () -> () } file "i" service service : { "\\00a" : () -> () }': 'refused 14 "\\00a"',
            'file "m" main service : { m : () -> () } file "i" service service : { m : () -> () }': 'refused 14 "m"',
            'file "m" main service : { m : () -> () } file "i" type service : { m : () -> () }': "passed",
        }.items():
            self.assertEqual(answers.outcomes(mkbook.book(source))["check"], outcome, source)

    def test_none(self):
        """Equal labels of different parents, of a parent and a child, and what has no labels."""
        for tree in ("record { x : record { x : nat }; y : record { x : nat } }", "func (nat, nat) -> (nat, nat)", "record { nat; nat; 2 : nat }",
                     "record { 1 : nat; t : nat; 0 : nat }",  # the name t has number 1
                     "record { 97 : variant { a }; b : service { a : () -> (); b : () -> () } }", "service { m : (service { m : () -> () }) -> () }",
                     "variant { 0; 2147483648; 4294967295; 1; 65536 }", "record { b : record { 98 : nat }; c : record { 98 : nat } }"):
            self.assertIsNone(answers.repeated(answers.Book(mkbook.book(f"type t = {tree};"))), tree)
        book = mkbook.book('file "m" main service : (nat, nat) -> { m : () -> () } file "i" init args (nat, nat)')
        self.assertEqual(answers.outcomes(book)["init-check"], "passed")

    def test_order(self):
        """Definitions of every file in their order, then the files' trees."""
        def tree(name):
            return f"record {{ {name} : nat; {name} : nat }}"

        book = f"""file "m" main type z = {tree('a')}; type y = {tree('b')}; service : ({tree('g')}) -> {{ m : ({tree('h')}) -> () }}
                   file "t" type type z = {tree('c')}; service : {tree('i')} file "s" service type x = {tree('d')}; service : {tree('j')}
                   file "i" init type w = {tree('e')}; type v = {tree('f')}; args ({tree('k')}, {tree('l')})"""
        for name in "abcdefghijkl":
            self.assertEqual(self.outcome(book), f'refused 18 "{name}"')
            book = book.replace(tree(name), "nat")
        self.assertEqual(answers.outcomes(mkbook.book(book))["check"], 'refused 2 "z"')

    def test_limits(self):
        """24 before 18, whatever is over; 1 before both."""
        source = "type a = record { x : nat; x : nat };"  # 3 names, 3 nodes, 1 definition
        for limits in (FULL, (3, 3, 1), (3, 4096, 512), (1024, 3, 512), (1024, 4096, 1), (2**32 - 1,) * 3):
            self.assertEqual(self.outcome(source, answers.Limits(*limits)), 'refused 18 "x"', limits)
        for limits in ((2, 3, 1), (3, 2, 1), (3, 3, 0), (0, 4096, 512), (0, 0, 0)):
            self.assertEqual(self.outcome(source, answers.Limits(*limits)), OVER, limits)
        for damage in ("truncate 1", "append 0", "patch nodes[1].label = 3", "patch definitions[0].zero = 1"):
            self.assertEqual(answers.outcomes(mkbook.book(source + damage)), answers.BROKEN, damage)

    def test_lowest(self):
        """Of the stored books, each two siblings compared: the lowest of those nodes that have an earlier one with an equal label."""
        repeats = 0
        for name, data in [*BOOKS.items(), *CHECK_BOOKS.items(), *LIST_BOOKS.items(), *LIMITS_BOOKS.items()]:
            rows = layout.Reader(data).book
            if layout.faults(data) or len(rows.nodes) > 1100:
                continue

            def label(parent, child):
                is_hashed = rows.nodes[parent].kind != 24 and rows.nodes[child].label_kind == 2
                return layout.label_number(rows.names[rows.nodes[child].label]) if is_hashed else rows.nodes[child].label

            later = []
            for parent in range(len(rows.nodes)):
                children = layout.Printer(rows).children(parent) if rows.nodes[parent].kind in (21, 22, 24) else []
                labels = [label(parent, child) for child in children]
                later += [child for place, child in enumerate(children) if labels[place] in labels[:place]]
            node = rows.nodes[min(later)] if later else None
            right = node and (18, node.label if node.label_kind == 2 else None)
            self.assertEqual(asked(answers.distinct, answers.Book(data)), right, name)
            repeats += bool(later)
        self.assertGreater(repeats, 150)


class Chains(unittest.TestCase):
    """Request 3 of document 02: how many names an alias chain crosses."""

    def outcomes(self, source):
        return answers.outcomes(mkbook.book(source))

    def test_alias(self):
        """From the type that is a name, by hand."""
        for source, right in {
            "type a = nat;": {"a": '1 "a"'},
            "type a = b; type b = nat;": {"a": '2 "b"', "b": '1 "b"'},
            "type b = nat; type a = b;": {"a": '2 "b"', "b": '1 "b"'},
            "type b = a; type a = nat;": {"a": '1 "a"', "b": '2 "a"'},
            "type a = c; type b = c; type c = d; type d = func () -> ();": {"a": '3 "d"', "b": '3 "d"', "c": '2 "d"', "d": '1 "d"'},
            "type a = opt b; type b = a; type c = record { c };": {"a": '1 "a"', "b": '2 "a"', "c": '1 "c"'},
            "type a = s; type s = service { m : () -> () }; service : (a) -> a": {"a": '2 "s"', "s": '1 "s"'},
            'file "m" main type a = b; file "i" type type b = c; file "j" service type c = nat; service : {}':
                {"a": '3 "c"', "b": '2 "c"', "c": '1 "c"'},
            'file "m" main type a = nat; file "i" init type b = a; type c = c; args (b)': {"a": '1 "a"'},
            'type "" = "\\22"; type "\\22" = nat;': {"": '2 "\\22"', "\\22": '1 "\\22"'},
        }.items():
            found = self.outcomes(source)
            for question, outcome in found.items():
                word, *name = question.split(" ", 1)
                if word == "alias":
                    name = name[0].strip('"')
                    self.assertEqual(outcome, f"given {right[name]}" if name in right else f'refused 3 "{name}"', (source, name))
            self.assertEqual((found["alias-outside"], found["alias-highest"]), ("refused 3 1024", "refused 3 65535"), source)

    def test_refused(self):
        """What the check refuses, 1, 24 and 18 come before 3, whatever is asked."""
        for source, outcome in {
            "type a = b;": 'refused 3 "b"', "type a = a;": 'refused 7 "a"', "type b = a; type a = a; type a = b;": 'refused 2 "a"',
            "type a = b; type b = nat; service : b": "refused 10 -", "type a = b; type b = class () -> b;": "refused 4 -",
            "type a = b; type b = record { x : z; x : z };": 'refused 18 "x"',
            'file "m" main type a = nat; file "i" service': 'refused 12 "i"',
        }.items():
            found = self.outcomes(source)
            self.assertEqual({found[question] for question in found if question.startswith("alias")}, {outcome}, source)
            self.assertEqual(found["lookups"], outcome, source)
        book = answers.Book(mkbook.book("type a = b; type b = nat;"))
        self.assertEqual([asked(answers.alias, book, number) for number in (0, 1, 2, 3, 1023, 65535)],
                         [(3, 0), (2, 2), (1, 2), (3, 3), (3, 1023), (3, 65535)])

    def test_chains(self):
        """Every end from a body, by hand; of all files' definitions together."""
        for source, right in {
            "": "given 0",
            "type a = nat;": "given 1 ends.0",
            "type a = b; type b = c; type c = opt a;": "given 3 ends.2 ends.1 ends.0",
            "type a = b;": 'given 1 unbound.0 "b"',
            "type a = b; type b = z; type c = a;": 'given 3 unbound.1 "z" unbound.0 "z" unbound.2 "z"',
            "type a = a;": "given 1 circle.1",
            "type a = b; type b = a; type c = b; type d = nat;": "given 4 circle.4 circle.4 circle.4 ends.0",
            "type a = c; type c = class () -> a;": "given 2 ends.1 ends.0",
            'file "m" main type a = c; file "i" init type b = a; type c = nat; args ()': "given 3 ends.1 ends.2 ends.0",
            'file "m" main type a = b; type b = nat; file "i" init type a = b; args ()': 'refused 2 "a"',
            "type b = a; type a = b; type a = nat; type b = nat;": 'refused 2 "a"',
            "type a = record { x : nat; x : nat }; type a = a;": 'refused 18 "x"',
            'file "m" main type a = a; file "i" service': "given 1 circle.1",
            "type a = nat; truncate 1": "refused 1 -",
        }.items():
            self.assertEqual(self.outcomes(source)["chains"], right, source)
        self.assertEqual(answers.outcomes(mkbook.book("type a = a;"), (1, 1, 1))["chains"], OVER)

    def test_lookups(self):
        """Functions and services at the ends, and main's actor below its class."""
        for source, right in {
            "": "given 0", "service : {}": "given 0 actor.0", "service : () -> {}": "given 0 actor.0",
            "type f = g; type g = func () -> (); type t = s; type s = service { m : f }; service : () -> t": "given 4 f.1 f.0 s.1 s.0 actor.2",
            "type a = b; type b = c; type c = variant { x };": "given 3 -.2 -.1 -.0",
            'file "m" main type a = service {}; service : a file "i" service type b = service {}; type c = b; service : c':
                "given 3 s.0 s.0 s.1 actor.1",
            'file "m" main file "i" service type b = service {}; service : b': "given 1 s.0",
            'file "m" main file "i" type type b = service {}; service : b': "given 1 s.0",
            'file "m" main type a = nat; file "i" init type b = a; args (b)': "given 1 -.0",
        }.items():
            self.assertEqual(self.outcomes(source)["lookups"], right, source)

    def test_steps(self):
        """Of the stored books that pass: as many steps as are told, and no fewer, lead from a name to what is no name; there are never more than
        definitions. A body's chain is one name shorter, and the lookups tell the same."""
        longest = tried = 0
        for data in [*CHECK_BOOKS.values(), *LIST_BOOKS.values()]:
            book = None if layout.faults(data) else answers.Book(data)
            if book is None or isinstance(asked(answers.check, book)[0], int):
                continue
            env, _ = answers.check(book)
            looked, actor = answers.lookups(book)
            main = book.definitions_of(answers.MAIN, answers.TYPE_IMPORT, answers.SERVICE_IMPORT)
            self.assertEqual(len(looked), len(main))
            for row, (kind, below) in zip(main, looked):
                count, last = answers.alias(book, row.name)
                self.assertLessEqual(count, len(env))
                self.assertEqual(below, count - 1)
                name = row.name
                for _ in range(count - 1):
                    self.assertEqual(env[name].kind, answers.NAME)
                    name = env[name].value
                self.assertEqual(name, last)
                self.assertNotEqual(env[last].kind, answers.NAME)
                self.assertEqual(kind, {answers.FUNC: "f", answers.SERVICE: "s"}.get(env[last].kind, "-"))
                longest, tried = max(longest, count), tried + 1
            top = book.files[0].type and answers.below_class(book.files[0].type)
            if top is None or top.kind != answers.NAME:
                self.assertEqual(actor, top and ("s", 0))
            else:
                self.assertEqual(actor, ("s", answers.alias(book, top.value)[0]))
        self.assertEqual(longest, 512)
        self.assertGreater(tried, 5000)


class LimitsSources(unittest.TestCase):

    def test_stated(self):
        """What a source states is what the second reading finds."""
        for name, text in LIMITS_SOURCES.items():
            for limits, stated in mkbatch.limited(text).items():
                found = answers.outcomes(LIMITS_BOOKS[name], limits)
                self.assertEqual(stated == "broken", bool(layout.faults(LIMITS_BOOKS[name])), name)
                right = {"broken": "refused 1 -", "over": OVER, "within": answers.outcomes(LIMITS_BOOKS[name])["check"]}[stated]
                self.assertEqual(found["check"], right, (name, limits))

    def test_what_is_there(self):
        """Each limit at a count, one below it and one above; 0 and above the figures; 24 in the place of each early refusal and of what
        passes, 18 too."""
        at, below, above, instead, drafts, values = set(), set(), set(), set(), set(), set()
        for name, text in LIMITS_SOURCES.items():
            full = answers.outcomes(LIMITS_BOOKS[name])
            for limits, stated in mkbatch.limited(text).items():
                values |= {(limit, stated) for limit in limits}
                if stated == "broken":
                    continue
                counts = answers.Book(LIMITS_BOOKS[name]).counts
                spare = [limit - count for limit, count in zip(limits, counts)]
                if stated == "over":
                    instead.add(full["check"].split()[1] if full["check"] != "passed" else "passed")
                    drafts.add(full["draft"].split()[1] if full["draft"].startswith("refused") else "given")
                    below |= {place for place in range(3) if spare[place] == -1 and min(spare[:place] + spare[place + 1:]) >= 0}
                else:
                    at |= {place for place in range(3) if spare[place] == 0}
                    above |= {place for place in range(3) if spare[place] == 1}
        self.assertEqual((at, below, above), ({0, 1, 2},) * 3)
        self.assertEqual(instead, {"passed", "2", "3", "4", "7", "12", "18"})
        self.assertEqual(drafts, {"given", "2", "3", "17", "18"})
        for limit in (1025, 4097, 513, 2**32 - 1):
            self.assertLessEqual({(limit, "within"), (limit, "broken")}, values)
        self.assertLessEqual({(0, stated) for stated in ("within", "over", "broken")}, values)
        for name in LIMITS_SOURCES:
            if name.startswith("repeat-"):
                self.assertEqual(set(mkbatch.limited(LIMITS_SOURCES[name]).values()), {"within", "over"})
                self.assertEqual({outcome.split()[1] for question, outcome in answers.outcomes(LIMITS_BOOKS[name]).items()
                                  if question not in ("layout", "name")}, {"18"}, name)
        self.assertEqual(answers.Book(LIMITS_BOOKS["largest"]).counts, [*FULL, 1])
        self.assertEqual(LIMITS_BOOKS["p01"], LIST_BOOKS["p01"])

    def test_lines(self):
        head = "// limits: x\n"
        for lines, found in {
            "// 7 10 3: within\n": {(7, 10, 3): "within"},
            "// 0 0 0: over\n// 4294967295 0 1: broken\ntype a = nat;\n// 1 1 1: over\n": {(0, 0, 0): "over", (4294967295, 0, 1): "broken"},
        }.items():
            self.assertEqual(mkbatch.limited(head + lines), found, lines)
            self.assertEqual(mkbatch.asked_under("b", head + lines), [("b@" + "-".join(map(str, limits)), limits) for limits in found])
        self.assertEqual(mkbatch.asked_under("b", "// answers: x\n// list: none\n"), [("b", FULL)])
        for text in (head, head + "type a = nat;\n// 1 1 1: over\n", head + "// 1 1: over\n", head + "// 1 1 1 1: over\n", head + "// 1 1 1: above\n",
                     head + "// 1 1 1: within: x\n", head + "// 1 1 1\n", head + "// -1 1 1: over\n", head + "// 4294967296 1 1: within\n",
                     head + "// a remark\n// 1 1 1: over\n", head + "// 1 1 1: over\n// 1 1 1: over\n", "// limits:\n// 1 1 1: over\n",
                     "// 1 1 1: over\n", "// fine: x\n// 1 1 1: over\n"):
            with self.assertRaises(mkbook.SourceError, msg=text):
                mkbatch.limited(text)

    def test_wrong_claims(self):
        p1, broken = LIST_BOOKS["p01"], LIST_BOOKS["broken"]
        for book, line in ((p1, "7 10 3: within"), (p1, "6 10 3: over"), (broken, "7 10 3: broken"), (b"", "0 0 0: broken")):
            text = f"// limits: x\n// {line}\n"
            (name, limits), = mkbatch.asked_under("a", text)
            self.assertEqual(mkbatch.agreed(text, book, limits), answers.outcomes(book, limits), line)
            self.assertEqual(mkbatch.answered("a", text, book), "".join(replay.lines(name, answers.outcomes(book, limits))))
        wrong = [(p1, f"7 10 3: {stated}") for stated in ("over", "broken")] + [(p1, f"6 10 3: {stated}") for stated in ("within", "broken")]
        wrong += [(p1, "7 9 3: within"), (p1, "7 10 2: within")]
        wrong += [(book, line) for book in (broken, b"") for line in ("7 10 3: within", "0 0 0: over")]
        for book, line in wrong:
            text = f"// limits: x\n// {line}\n"
            with self.assertRaises(mkbook.SourceError, msg=line):
                mkbatch.answered("a", text, book)
        found = answers.outcomes(p1)
        for other in (found | {"list-short": None}, found | {"more": "passed"}, found | {"name": "given 0"}):
            with self.assertRaises(mkbook.SourceError):
                mkbatch.agreed("// limits: x\n// 7 10 3: within\n", p1, answers.Limits(7, 10, 3), other)
        found = answers.outcomes(p1, (0, 0, 0))
        for other in (found | {"draft": "given 0"}, found | {"list-short": "needs 2 refused 16 -"}, found | {"layout": OVER}, found | {"name": OVER}):
            with self.assertRaises(mkbook.SourceError):
                mkbatch.agreed("// limits: x\n// 0 0 0: over\n", p1, answers.Limits(0, 0, 0), other)

    def test_command(self):
        """A wrong claim ends tools/mkbatch.py with the source's name, and nothing is written."""
        with tempfile.TemporaryDirectory() as folder:
            for claim, status in (("7 10 3: within", 0), ("7 10 3: over", 1), ("", 1)):
                with open(os.path.join(folder, "a.did"), "w", encoding="utf-8") as file:
                    file.write(f"// limits: x\n// {claim}\n" + layout.text(LIST_BOOKS["p01"]))
                paths = [os.path.join(folder, f"{name}-{status}") for name in ("batch", "expected")]
                run = subprocess.run([sys.executable, os.path.join(HERE, "mkbatch.py"), folder, *paths], capture_output=True, text=True)
                self.assertEqual(run.returncode, status, claim)
                self.assertEqual([os.path.exists(path) for path in paths], [status == 0] * 2)
                self.assertEqual(run.stderr[:len(folder) + 7], f"{folder}/a.did:" if status else "")


class ListSources(unittest.TestCase):

    def test_stated(self):
        """What a source states is what the second reading finds; each question and each refusal is stated somewhere."""
        questions, refusals = set(), set()
        for name, text in LIST_SOURCES.items():
            found = answers.outcomes(LIST_BOOKS[name])
            for question, outcome in mkbatch.stated(text).items():
                self.assertEqual(found.get(question), outcome, f"{name}: {question}")
                questions.add(question.split()[0])
                if outcome.startswith("refused"):
                    refusals.add(int(outcome.split()[1]))
        self.assertEqual(questions, QUESTIONS)
        self.assertEqual(refusals, set(range(1, 19)))

    def test_books_differ(self):
        self.assertEqual(len(LIST_BOOKS), len(set(LIST_BOOKS.values())))

    def test_examples(self):
        for name in SOURCES:
            if name.startswith("p"):
                self.assertEqual(LIST_BOOKS[name], BOOKS[name], name)

    def test_limits(self):
        """The largest: 512 definitions, 16 files, 1,024 names, 4,096 nodes, 4,000 of them each inside the one before."""
        books = {name: layout.Reader(book).book for name, book in LIST_BOOKS.items() if name.startswith("large-")}
        for part, most in (("names", 1024), ("nodes", 4096), ("definitions", 512), ("files", 16)):
            self.assertEqual(max(len(getattr(book, part)) for book in books.values()), most)
        for name, book in books.items():
            if name.startswith("large-nested-"):
                self.assertGreaterEqual(len(book.nodes), 4001, name)
        for data, counts, count in ((MOST_USES, [1024, 4096, 1, 1], 3_143_680), (LIST_BOOKS["large-uses-many"], [34, 4096, 1, 1], 129_984)):
            uses = answers.Book(data)
            self.assertEqual(uses.counts, counts)
            self.assertEqual(len(uses.files[0].type.kids) * len(uses.definitions[0].type.kids), count)

    def test_stated_lines(self):
        head = "// answers: x\n"
        for lines, found in {
            '// list: "b" "a"\n': {"list": 'given 2 "b" "a"'},
            '// list: none\ntype a = nat;\n// marks: "a"\n': {"list": "given 0"},
            '// uses "\\"\\\\\\ff": 0.1.0 65535.0.12\n': {'uses "\\22\\5c\\ff"': "given 2 0.1.0 65535.0.12"},
            '// project "m: n": 0\n// twice "m": refused 15 "m"\n': {'project "m: n"': "given 1 0", 'twice "m"': 'refused 15 "m"'},
            '// draft: refused 17 -\n': {"draft": "refused 17 -"},
            '// empty: nest 2 { | "a#" } {} "n" * 3 + "m"\n': {"empty": 'given 3 "a1" "a0" "nnnm"'},
            '// uses "a": repeat 2 { #.0.0 #.1.1 }\n': {'uses "a"': "given 4 0.0.0 0.1.1 1.0.0 1.1.1"},
            '// check: passes\n// init-check: refused 4 -\n': {"check": "passed", "init-check": "refused 4 -"},
            '// layout: whole 1 0 0 1\n// name: "" "" ""\n': {"layout": "whole 1 0 0 1", "name": 'given 3 "" "" ""'},
            '// uses-short "a": needs 3\n// list-short: needs 1\n':
                {'uses-short "a"': "needs 3 refused 16 -", "list-short": "needs 1 refused 16 -"},
            '// marks-back: none\n// marks-outside: refused 3 1024\n': {"marks-back": "given 0", "marks-outside": "refused 3 1024"},
            '// project-every: refused 15 ""\n': {"project-every": 'refused 15 ""'},
            '// alias "a": 2 "b"\n// alias "b": refused 3 "b"\n': {'alias "a"': 'given 2 "b"', 'alias "b"': 'refused 3 "b"'},
            '// alias-outside: refused 3 1024\n// alias-highest: refused 3 65535\n':
                {"alias-outside": "refused 3 1024", "alias-highest": "refused 3 65535"},
            '// chains: ends.1 circle.2 unbound.0 "b"\n// lookups: f.1 s.0 -.2 actor.3\n':
                {"chains": 'given 3 ends.1 circle.2 unbound.0 "b"', "lookups": "given 3 f.1 s.0 -.2 actor.3"},
            '// chains: nest 2 { | unbound.# "b" } {}\n// lookups: actor.0\n':
                {"chains": 'given 2 unbound.1 "b" unbound.0 "b"', "lookups": "given 0 actor.0"},
            '// chains: none\n// lookups: none\n': {"chains": "given 0", "lookups": "given 0"},
            '// values: "a" 2 "b" many "\\00" 4294967295\n// values-outside: refused 3 1024\n':
                {"values": 'given 3 "a" 2 "b" many "\\00" 4294967295', "values-outside": "refused 3 1024"},
            '// values: repeat 2 { "a#" 1# }\n': {"values": 'given 2 "a0" 10 "a1" 11'}, '// values: none\n': {"values": "given 0"},
            '// use-counts: 3 0 total 3\n// use-counts-short: needs 2\n':
                {"use-counts": "given 2 3 0 total 3", "use-counts-short": "needs 2 refused 16 -"},
            '// use-counts: total 0\n': {"use-counts": "given 0 total 0"},
            '// use-counts: repeat 2 { 1# } total 21\n': {"use-counts": "given 2 10 11 total 21"},
            '// use-counts: refused 17 -\n': {"use-counts": "refused 17 -"},
            '// methods: "a" 0 2 "\\"" 1\n// methods-all: 0 1 2\n// methods-all-short: needs 3\n':
                {"methods": 'given 2 "a" 0 2 "\\22" 1', "methods-all": "given 3 0 1 2", "methods-all-short": "needs 3 refused 16 -"},
            '// methods: repeat 2 { "a#" # 1# }\n// methods-odd: repeat 2 { # }\n':
                {"methods": 'given 2 "a0" 0 10 "a1" 1 11', "methods-odd": "given 2 0 1"},
            '// methods: none\n// methods-none: none\n// methods-even: refused 17 -\n':
                {"methods": "given 0", "methods-none": "given 0", "methods-even": "refused 17 -"},
        }.items():
            self.assertEqual(mkbatch.stated(head + lines), found, lines)
        for text in (head, head + "// uses-short: needs 3\n", head + "// check-short: needs 3\n",
                     head + "type a = nat;\n", head + "// list:\n", head + "// lists: none\n", "// list: none\n",
                     head + "// list: none\n// list: none\n", head + "// uses: none\n", head + "// a remark\n// list: none\n",
                     head + "// methods-short: needs 3\n", head + '// methods "a": 0\n'):
            with self.assertRaises(mkbook.SourceError, msg=text):
                mkbatch.stated(text)
        with self.assertRaises(mkbook.SourceError):
            mkbatch.answered("a", head + '// list: "b"\n', LIST_BOOKS["p01"])

    def test_lines(self):
        self.assertEqual(mkbatch.answered("a", "// answers: x\n// list: none\n", LIST_BOOKS["p10"]), "".join("a " + line for line in (
            "layout whole 2 2 0 1\n", 'name given 4 "" "m" "" ""\n',
            "check passed\n", "init-check passed\n", "list given 0\n", "marks given 0\n", "marks-back given 0\n",
            "marks-outside refused 3 1024\n", "marks-highest refused 3 65535\n", "init given 0\n", "draft given 0\n", "empty given 0\n",
            "values given 0\n", "use-counts given 0 total 0\n", "methods given 0\n", "chains given 0\n", "lookups given 0 actor.0\n",
            'uses "" given 0\n', 'alias "" refused 3 ""\n', 'project "" refused 15 ""\n', 'twice "" refused 15 ""\n',
            'uses "m" given 0\n', 'alias "m" refused 3 "m"\n', 'project "m" given 1 0\n', 'twice "m" refused 15 "m"\n',
            "uses-outside given 0\n", "alias-outside refused 3 1024\n", "alias-highest refused 3 65535\n",
            "values-outside refused 3 1024\n", "values-highest refused 3 65535\n",
            "project-outside refused 15 1024\n", "project-highest refused 15 65535\n", "project-none given 0\n", "project-all given 1 0\n",
            "project-all-short needs 1 refused 16 -\n", 'project-every refused 15 ""\n',
            *(f"methods-{asked} given 0\n" for asked in ("outside", "highest", "none", "all", "even", "odd")))))
        self.assertEqual(replay.lines("a", answers.outcomes(b"")), [
            "a layout refused 1 -\n", 'a name given 2 "" ""\n',
            *(f"a {word} refused 1 -\n" for word in (
                "check init-check list marks marks-back marks-outside marks-highest init draft empty values use-counts methods chains "
                "lookups").split())])

    def test_tally(self):
        """By hand: P10's lines, those of a broken book, and P10's when a limit is passed, and a service of P10's method
        twice. Numbers 19 to 23 have no refusal."""
        lines = list(replay.printed([("a", answers.outcomes(LIST_BOOKS["p10"])), ("b", answers.outcomes(b"")),
                                     ("c", answers.outcomes(LIST_BOOKS["p10"], (2, 1, 0))),
                                     ("d", answers.outcomes(CHECK_BOOKS["order-hash-alone"]))]))
        refused = {1: 16, 3: 8, 15: 6, 16: 1, 18: 39, 24: 39}
        given = {"layout": 3, "name": 4, "check": 1, "init-check": 1, "project": 2}
        words = "layout name check init-check list marks init draft empty values use-counts methods chains lookups uses alias project".split()
        self.assertEqual(lines[-37:], [
            *(f"tally refused {number} {refused.get(number, 0)}\n" for number in (*range(1, 19), 24)),
            *(f"tally given {word} {given.get(word, 0)}\n" for word in words),
            "tally incomplete\n"])
        self.assertFalse(lines[-38].startswith("tally "))
        tally = answers.Tally()
        for question, word in (("marks", "marks"), ("marks-back", "marks"), ("uses-outside", "uses"), ('uses "a"', "uses"),
                               ('twice "-"', "project"), ("project-all", "project"), ("init", "init"), ("name", "name"),
                               ('alias "a"', "alias"), ("alias-highest", "alias"), ("chains", "chains"), ("lookups", "lookups"),
                               ("values", "values"), ("values-outside", "values"), ("values-highest", "values"), ("use-counts", "use-counts"),
                               ("methods", "methods"), ("methods-all", "methods"), ("methods-odd", "methods")):
            before = tally.given[word]
            tally.add(question, "given 1 x")
            tally.add(question, "given 0")
            self.assertEqual(tally.given[word], before + 1, question)
        tally.add('uses-short "refused 4 -"', "needs 5 refused 16 -")
        tally.add('uses "refused 4 -"', OVER)
        self.assertEqual({number: count for number, count in tally.refused.items() if count}, {16: 1, 24: 1})
        for number in range(19, 24):
            with self.assertRaises(KeyError):
                tally.add("check", f"refused {number} -")

    def test_complete(self):
        """A tally is complete if none of its counts is 0, 24's too."""
        tally = answers.Tally()
        for word in answers.ROWS:
            tally.add(word, "given 1 x")
        for number in range(1, 19):
            tally.add("check", f"refused {number} -")
        self.assertEqual(tally.lines()[-1], "tally incomplete\n")
        tally.add("check", OVER)
        self.assertEqual(tally.lines()[-1], "tally complete\n")


class Replay(unittest.TestCase):
    """The stored list, crates/answer_batch/stdin and stdout: docs/TESTING.md."""

    @classmethod
    def setUpClass(cls):
        cls.sources = mkgate.replayed()
        cls.records, cls.lines = mkgate.answer_batch()

    def test_tally(self):
        """Every refusal and every answer with entries is in the list."""
        tally = [line for line in self.lines.splitlines() if line.startswith("tally ")]
        self.assertEqual(len(tally), 19 + 17 + 1)
        self.assertEqual(tally[-1], "tally complete")
        for line in tally[:-1]:
            self.assertGreater(int(line.split()[-1]), 0, line)

    def test_questions(self):
        """Each question is there with each refusal that it can have, and given with entries."""
        found = collections.defaultdict(set)
        for _, _, _, _, outcomes in self.sources:
            for question, outcome in outcomes.items():
                words = outcome.split()
                found[question.split()[0]].add(int(words[1]) if words[0] == "refused" else words[0] if words[1:2] != ["0"] else "none")
        check = {1, 18, 24, *NAMED, *NAMELESS}
        given = {"given", "none"}
        self.assertEqual(found, {
            "layout": {"whole", 1}, "name": {"given"},
            "check": {"passed", *check}, "init-check": {"passed", 11, *check},
            "list": {17, *check, *given}, "marks": {*check, *given}, "marks-back": {*check, *given},
            "marks-outside": check, "marks-highest": check,
            "init": {11, *check, *given}, "draft": {1, 2, 3, 17, 18, 24, *given}, "empty": {*check, *given},
            "values": {*check, *given}, "values-outside": check - {1}, "values-highest": check - {1}, "use-counts": {17, *check, *given},
            "chains": {1, 2, 18, 24, *given}, "lookups": {*check, *given},
            "alias": {"given", *check} - {1}, "alias-outside": check - {1}, "alias-highest": check - {1},
            "uses": {16, 17, *check, *given} - {1}, "project": {15, 17, "given", *check} - {1}, "twice": {15, 17, *check} - {1},
            "uses-outside": {17, "none", *check} - {1}, "project-outside": {15, 17, *check} - {1}, "project-highest": {15, 17, *check} - {1},
            "project-none": {17, "none", *check} - {1},
            "project-all": {17, *check, *given} - {1}, "project-every": {15, 17, "given", *check} - {1}, "methods": {17, *check, *given},
            **{f"methods-{asked}": {17, "none", *check} - {1} for asked in ("outside", "highest", "none")},
            **{f"methods-{asked}": {17, *check, *given} - {1} for asked in ("all", "even", "odd")},
            **{question: {"needs"} for question in SHORT}})

    def test_shapes(self):
        """Every kind stands at every place, and all kinds of files, labels, modes and names are there."""
        found = set(shapes.shown())
        places = ["init argument", "opt", "vec", "record", "variant", "func argument", "func result", "method", "class argument",
                  "class service", *(f"definition of {role}" for role in shapes.ROLE), *(f"actor of {role}" for role in shapes.ROLE[:3])]
        kinds = ["leaf", "name", "opt", "vec", "record", "variant", "func", "service", "class"]
        needed = {f"{kind} as {place}" for kind in kinds for place in places}
        needed |= set(layout.LEAVES) | {f"broken {rule}" for rule in layout.RULES}
        needed |= {f"label {label} in a {kind}" for label in ("number", "name", "unnamed") for kind in ("record", "variant")}
        needed |= {f"{count} modes" for count in range(2, 9)} | {f"mode {mode}" for mode in ("none", "oneway", "query", "composite_query")}
        roles = [[role for place, role in enumerate(shapes.ROLE[1:]) if chosen >> place & 1] for chosen in range(8)]
        needed |= {"files " + ", ".join(["main", *chosen]) for chosen in roles}
        needed |= {f"{kind} without children" for kind in ("record", "variant", "func", "service", "args")}
        needed |= {"the empty name", "a name of 255 bytes", "a name outside ASCII", "a name outside UTF-8", "two names of one hash",
                   "a name with a control byte", "a name with a quote or a backslash", "two files of one name"}
        needed |= {shape + " *" for shape in (
            "a type import with an actor", "an unreached definition", "two service imports", "two type imports", "a func inside a method's func",
            "a service inside a method's func", "a name defined in the init file and in another")}
        needed |= {f"a repeat in a {kind} as {place}" for kind in ("record", "variant", "service") for place in places}
        again = [(first, later) for first in shapes.LABEL[1:] for later in shapes.LABEL[1:]] + [("name", "another name")]
        needed |= {f"a {kind}'s {first} again as {later}" for kind in ("record", "variant") for first, later in again}
        self.assertEqual(needed - found, set())

    def test_sources(self):
        names = [name for name, _, _, _, _ in self.sources]
        self.assertEqual(len(names), len(set(names)))
        self.assertEqual(len({(book, limits) for _, _, book, limits, _ in self.sources}), len(names))
        self.assertEqual([(name, book, limits) for name, _, book, limits, _ in self.sources], list(replay.records(self.records)))
        for folder in ("list", "random", "limits"):
            for name, text in mkbatch.sources(os.path.join(HERE, "..", "tests", folder)):
                for record, _ in mkbatch.asked_under(name, text):
                    self.assertIn(f"{folder}/{record}", names)
                self.assertEqual(mkbatch.is_random(text), folder == "random", name)
                self.assertEqual(mkbatch.is_of_limits(text), folder == "limits", name)
        for name, _, book, limits, _ in self.sources:
            if name.startswith("random/"):
                self.assertEqual(mkbook.book(layout.text(book)), book, name)
            if not name.startswith("limits/"):
                self.assertEqual(limits, FULL, name)
        self.assertLess(len(self.records), 5_550_000)  # a book of 4,096 nodes has 49,000
        self.assertLess(len(self.lines), 8_300_000)

    def test_layouts_and_checks(self):
        """Every book of tests/layout and of tests/check is there, with what its source says of the layout or of the two checks, and with
        every name by its number and nothing for two numbers outside."""
        found = {book: outcomes for _, _, book, limits, outcomes in self.sources if limits == FULL}
        for name, text in SOURCES.items():
            outcomes, reader = found[bytes(BOOKS[name])], layout.Reader(BOOKS[name])
            self.assertEqual(bool(reader.faults), bool(mkbatch.broken_rules(text)), name)
            right = "refused 1 -" if reader.faults else " ".join(["whole", *(str(len(part)) for part in reader.book)])
            self.assertEqual(outcomes["layout"], right, name)
            names = [] if reader.faults else reader.book.names
            self.assertEqual(outcomes["name"], " ".join([f"given {len(names) + 2}", *map(layout.quoted, [*names, b"", b""])]), name)
        for name, text in CHECK_SOURCES.items():
            outcomes = found[bytes(CHECK_BOOKS[name])]
            self.assertTrue(outcomes["layout"].startswith("whole "), name)
            self.assertEqual(outcomes["check"], mkbatch.said(mkbatch.verdict(text)), name)
            self.assertEqual(outcomes["init-check"], mkbatch.said(mkbatch.init_verdict(text)), name)

    def test_asked_names(self):
        """Every name is asked about, but for books with more than 514 names that list none: of them the first and the last eight."""
        some = []
        for name, _, _, _, outcomes in self.sources:
            count = int(outcomes["layout"].split()[1]) if outcomes["layout"] != "refused 1 -" else 0
            asked = [question.split(" ", 1)[1] for question in outcomes if question.startswith("uses ")]
            if len(asked) < count:
                some.append(name)
                self.assertGreater(count, 514)
                self.assertFalse(re.match("given [1-9]", outcomes["list"]), name)
                names = re.findall(r'"[^"]*"', outcomes["name"])[:count]
                self.assertEqual(asked, names[:8] + names[-8:], name)
        self.assertGreater(len(some), 10)

    def test_document(self):
        """docs/TESTING.md has the list's size."""
        with open(os.path.join(HERE, "..", "docs", "TESTING.md"), encoding="utf-8") as file:
            text = file.read()
        self.assertIn(f" {len(self.sources):,} records", text)
        self.assertIn(f"({len({book for _, _, book, _, _ in self.sources}):,} different books)", text)
        self.assertIn(f" {sum(len(outcomes) for _, _, _, _, outcomes in self.sources):,} lines", text)

    def test_sentences(self):
        """Each line that tests/sentences.txt shows for a sentence of the documents is a line of the list, each sentence has one, and each
        refusal and each question is shown."""
        shown_by = []
        with open(os.path.join(HERE, "..", "tests", "sentences.txt"), encoding="utf-8") as file:
            for line in file.read().splitlines():
                if line.startswith("    "):
                    shown_by[-1][1].append(line[4:])
                elif line and not line.startswith("#"):
                    shown_by.append((line, []))
        self.assertGreater(len(shown_by), 100)
        self.assertEqual([sentence for sentence, shown in shown_by if not shown], [])
        lines, shown = set(self.lines.splitlines()), [line for _, shown in shown_by for line in shown]
        self.assertGreater(len(shown), 350)
        self.assertEqual([line for line in shown if line not in lines], [])
        refused = {int(number) for line in shown for number in re.findall(r" refused ([0-9]+) ", line)}
        self.assertEqual(refused, {*range(1, 19), 24})
        self.assertEqual({re.sub(r"^\S+ (\S+) .*", r"\1", line) for line in shown}, QUESTIONS)

    def test_joined(self):
        """The Rust's line where it has one, tools/answers.py's where not, with the line of a list too short."""
        data = mkbatch.record("a", LIST_BOOKS["p01"]) + mkbatch.record("b", LIST_BOOKS["broken"])
        right = list(replay.printed(replay.answered(data)))
        rust = [line for line in right if not line.startswith("tally ")]

        def joined(theirs):
            told = collections.defaultdict(collections.Counter)
            found = list(replay.printed(replay.joined(data, "".join(theirs), told)))
            return found, {which: sum(words.values()) for which, words in told.items()}

        self.assertEqual(joined(rust), (right, {
            "the Rust's": 51, "the oracle's own, the names crossed": 5, "the oracle's own, how many values": 1, "the oracle's own, 16": 8,
            "the oracle's own, 3 for a number outside": 2, "the oracle's own, its reader of books": 2, "the oracle's own, layout broken": 17}))
        silent = [line if not line.startswith("a list ") else "a list unanswered ring\n" for line in rust if " list-short" not in line]
        self.assertEqual(joined(silent)[0], right)
        self.assertEqual(joined(silent)[1]["unanswered ring"], 2)
        other = [line.replace('"pair" "tree"', '"tree" "pair"') for line in rust]
        self.assertEqual(joined(other)[1]["tools/answers.py says something else"], 2)
        with self.assertRaises(SystemExit):
            joined(rust + ["c check passed\n"])

    def test_joined_values(self):
        """Where not all that is empty is so by the Rust, the line is that of tools/answers.py, and each name that the Rust gives has to be in it."""
        data = mkbatch.record("a", LIST_BOOKS["empty-nested-beside"])
        right = list(replay.printed(replay.answered(data)))
        self.assertIn('a empty given 3 "a" "r" "s"\n', right)
        for theirs, others in {"": 0, ' "r" "s"': 0, ' "a" "r" "s"': 0, ' "r" "t"': 1, ' "values"': 1}.items():
            rust = [f"a empty unanswered values{theirs}\n" if line.startswith("a empty ") else line for line in right
                    if not line.startswith(("tally ", "a empty-short "))]
            told = collections.defaultdict(collections.Counter)
            self.assertEqual(list(replay.printed(replay.joined(data, "".join(rust), told))), right, theirs)
            self.assertEqual(told["unanswered values"], {"empty": 1, "empty-short": 1}, theirs)
            self.assertEqual(sum(told["tools/answers.py says something else"].values()), others, theirs)

    def test_joined_repeats(self):
        """18 is no line of the Rust's."""
        data = mkbatch.record("a", CHECK_BOOKS["row-18-record"]) + mkbatch.record("b", CHECK_BOOKS["row-18-number"])
        right = [line for line in replay.printed(replay.answered(data)) if not line.startswith("tally ")]
        told = collections.defaultdict(collections.Counter)
        self.assertEqual([line for line in replay.printed(replay.joined(data, "".join(right), told)) if not line.startswith("tally ")], right)
        self.assertIn('a draft refused 18 "x"\n', right)
        self.assertIn("b draft refused 18 -\n", right)
        self.assertEqual({which: sum(words.values()) for which, words in told.items()}, {
            "the oracle's own, its reader of books": 4, "the oracle's own, 18": 43 + 39})

    def test_joined_limits(self):
        """Each book of a batch is asked under its own limits, and 24 is no line of the Rust's."""
        data = b"".join(mkbatch.record("-".join(map(str, limits)), LIST_BOOKS["p01"], limits) for limits in (FULL, (7, 10, 3), (6, 10, 3)))
        right = list(replay.printed(replay.answered(data)))
        self.assertIn("7-10-3 list given 2 \"pair\" \"tree\"\n", right)
        self.assertIn("6-10-3 list refused 24 -\n", right)
        self.assertIn("tally refused 24 59\n", right)
        told = collections.defaultdict(collections.Counter)
        found = list(replay.printed(replay.joined(data, "".join(line for line in right if not line.startswith("tally ")), told)))
        self.assertEqual(found, right)
        self.assertEqual({which: sum(words.values()) for which, words in told.items()}, {
            "the Rust's": 102, "the oracle's own, the names crossed": 10, "the oracle's own, how many values": 2, "the oracle's own, 16": 16,
            "the oracle's own, 3 for a number outside": 4, "the oracle's own, its reader of books": 6, "the oracle's own, 24": 59})


class Batch(unittest.TestCase):

    def batch(self, folder):
        """The records and the lines that mkbatch.py writes."""
        with tempfile.TemporaryDirectory() as target:
            paths = [os.path.join(target, name) for name in ("batch", "expected")]
            subprocess.run([sys.executable, os.path.join(HERE, "mkbatch.py"), folder, *paths], check=True)
            with open(paths[0], "rb") as batch, open(paths[1], encoding="utf-8") as expected:
                data, lines = batch.read(), expected.read().splitlines()
        return list(replay.records(data)), lines

    def test_record(self):
        """By hand: a length and the name, three limits, a length and the book."""
        record = bytes.fromhex("02 61 62  07 00 00 00  00 10 00 00  ff ff ff ff  03 00 00 00  01 02 03")
        self.assertEqual(mkbatch.record("ab", b"\1\2\3", (7, 4096, 2**32 - 1)), record)
        full = bytes.fromhex("01 63  00 04 00 00  00 10 00 00  00 02 00 00  00 00 00 00")
        self.assertEqual(mkbatch.record("c", b""), full)
        self.assertEqual(list(replay.records(record + full + record)), [
            ("ab", b"\1\2\3", (7, 4096, 2**32 - 1)), ("c", b"", FULL), ("ab", b"\1\2\3", (7, 4096, 2**32 - 1))])
        self.assertEqual(answers.FULL, FULL)
        self.assertEqual(answers.Limits._fields, ("names", "nodes", "definitions"))

    def test_limits_batch(self):
        records, lines = self.batch(LIMITS_FOLDER)
        self.assertEqual({name: (book, limits) for name, book, limits in records}, {
            record: (LIMITS_BOOKS[name], limits) for name, text in LIMITS_SOURCES.items() for record, limits in mkbatch.asked_under(name, text)})
        self.assertIn(("p01@6-4096-512", LIST_BOOKS["p01"], (6, 4096, 512)), records)
        self.assertIn("p01@6-4096-512 check refused 24 -", lines)
        self.assertIn('p01@6-4096-512 name given 9 "" "fork" "leaf" "pair" "put" "spare" "tree" "" ""', lines)
        self.assertIn("p01@7-4096-512 check passed", lines)
        self.assertIn("broken-cut@6-9-2 check refused 1 -", lines)

    def test_check_batch(self):
        records, lines = self.batch(CHECK_FOLDER)
        self.assertEqual({name: book for name, book, _ in records}, CHECK_BOOKS)
        self.assertEqual([name for name, _, _ in records], sorted(CHECK_SOURCES))
        self.assertEqual({limits for _, _, limits in records}, {FULL})
        for word in ("check", "init-check"):
            self.assertEqual([line.split()[0] for line in lines if line.split()[1] == word], sorted(CHECK_SOURCES))
        self.assertIn("p09-import check refused 14 \"\\00a\"", lines)
        self.assertIn("p04 check passed", lines)
        self.assertIn("row-04-definition check refused 4 -", lines)

    def test_answer_batch(self):
        records, lines = self.batch(LIST_FOLDER)
        self.assertEqual({name: book for name, book, _ in records}, LIST_BOOKS)
        self.assertEqual([name for name, _, _ in records], sorted(LIST_SOURCES))
        self.assertIn('p01 list given 2 "pair" "tree"', lines)
        self.assertIn("p11-empty empty given 3 \"r\" \"s\" \"t\"", lines)
        self.assertEqual([line for line in lines if re.fullmatch("tally .* 0|tally incomplete", line)], ["tally refused 24 0", "tally incomplete"])
        self.assertEqual("\n".join(lines) + "\n", "".join(replay.printed(replay.answered(b"".join(
            mkbatch.record(name, book) for name, book, _ in records)))))

    def test_batch(self):
        records, lines = self.batch(FOLDER)
        found = []
        for name, book, _ in records:
            self.assertEqual(book, BOOKS[name])
            if layout.faults(book):
                found.append(f"{name} layout refused 1 -")
            else:
                found.append(" ".join([name, "layout whole"] + [str(len(part)) for part in layout.Reader(book).book]))
        self.assertEqual(found, [line for line in lines if line.split()[1] == "layout"])
        self.assertEqual(sorted(SOURCES), [name for name, _, _ in records])

    def test_gate(self):
        """What the programs are run on and must write is current."""
        for name, data in mkgate.files().items():
            self.assertTrue(mkgate.is_current(os.path.join(HERE, "..", name), data), name)

    def test_antt_bytes(self):
        text = antt_bytes.literal(BOOKS["p01"], 4)
        self.assertTrue(all(len(line) <= 120 and line.startswith("    ") for line in text.split("\n")))
        words = text.split()
        self.assertEqual(words[-1], "[]")
        self.assertEqual(set(words[1::2]), {"∷"})
        self.assertEqual(bytes(map(int, words[:-1:2])), BOOKS["p01"])


class Benchmarks(unittest.TestCase):

    def test_books_are_whole(self):
        for name, text in benchbooks.sources():
            self.assertEqual(layout.faults(bytes(mkbook.book(text))), [], name)

    def test_figures_in_a_document(self):
        text = "a\n<!-- figures: b -->\nold\n<!-- end -->\n<!-- figures: c -->\nkept\n<!-- end -->\n"
        plot.table("b", ["d"], [["e"]])
        with tempfile.TemporaryDirectory() as folder:
            path = os.path.join(folder, "document")
            with open(path, "w", encoding="utf-8") as file:
                file.write(text)
            plot.fill(path)
            with open(path, encoding="utf-8") as file:
                self.assertEqual(file.read(), text.replace("old", "| d |\n|---|\n| e |"))


if __name__ == "__main__":
    unittest.main()
