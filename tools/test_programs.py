#!/usr/bin/env python3
r"""Tests the built programs `list`, `values`, `uses_report` and `methods`:  python3 tools/test_programs.py

`tools/build.sh list values uses_report methods` builds them, and the gate runs each on a book; here they read every book of tests, books at the
limits, bytes that are none, and files that cannot be read or written.
What they must write comes from tools/answers.py, which reads the bytes by the paper alone, and in part from the paper by hand.
Without a program its tests are skipped.
"""

import os
import random
import socket
import struct
import subprocess
import tempfile
import time
import unittest

import answers
import layout
import mkbatch
import mkbook
from mkgate import CHECK_SOURCES, LIMITS_SOURCES, LIST_SOURCES, ROOT, SOURCES

MOST = 65536  # bytes of a book
BROKEN = "refused 1 -\n"


def book_of(*path):
    with open(os.path.join(ROOT, *path), encoding="utf-8") as file:
        return bytes(mkbook.book(file.read()))


def path_of(name):
    return os.path.join(ROOT, "target", "bin", name)


def if_built(name):
    """Skips the tests of a program that is not there."""
    return unittest.skipUnless(os.path.exists(path_of(name)), f"target/bin/{name} is not built: `tools/build.sh {name}` builds it")


class Program:
    """What is asked of each program: `name`, and `right`, what it must write of the bytes of a book. `standard_input` are the arguments for a book that
    is read from there, and `more` what stands behind a file's name."""

    standard_input, more = [], []

    def writes(self, data, expected, what=None):
        found = subprocess.run([path_of(self.name), *self.standard_input, *self.more], input=data, capture_output=True, env={})
        self.assertEqual((found.stdout.decode(), found.stderr, found.returncode), (expected, b"", 0), what)

    def test_nothing(self):
        self.writes(b"", BROKEN)

    def test_every_book(self):
        """The books of tests; each refusal of the check is among them. Under the full figures no book is over its limits, so 24 is not."""
        numbers, answered = set(), 0
        for folder in (SOURCES, CHECK_SOURCES, LIST_SOURCES, LIMITS_SOURCES):
            for name, text in mkbatch.sources(folder):
                book = bytes(mkbook.book(text))
                right = self.right(book)
                self.writes(book, right, f"{folder}/{name}")
                answered += not right.startswith("refused")
                numbers |= {int(right.split()[1])} if right.startswith("refused") else set()
        self.assertEqual(numbers, {*range(1, 11), 12, 13, 14, 18, *self.more_refusals})
        self.assertGreater(answered, 150)

    def test_damaged(self):
        """P1 with each byte changed in turn, and cut at each place."""
        book, chance = book_of("tests", "list", "p01.did"), random.Random(1)
        for place in range(len(book)):
            damaged = bytearray(book)
            damaged[place] ^= chance.randrange(1, 256)
            self.writes(bytes(damaged), self.right(bytes(damaged)), place)
            self.writes(book[:place], BROKEN, place)

    def test_in_pieces(self):
        """Input that comes in pieces is read to its end."""
        book = book_of("tests", "list", "p01.did")
        with subprocess.Popen([path_of(self.name), *self.standard_input, *self.more], stdin=subprocess.PIPE, stdout=subprocess.PIPE, env={}) as run:
            for at in range(0, len(book), 50):
                run.stdin.write(book[at:at + 50])
                run.stdin.flush()
                time.sleep(0.01)
            run.stdin.close()
            self.assertEqual(run.stdout.read().decode(), self.right(book))


    # ---- files, and what fails

    def runs(self, arguments, output, errors, **streams):
        """What is written to standard output and to standard error; the C library's texts are in English here."""
        streams = {"stdin": subprocess.DEVNULL, "stdout": subprocess.PIPE, **streams}
        found = subprocess.run([path_of(self.name), *arguments], env={}, stderr=subprocess.PIPE, **streams)
        self.assertEqual((found.stdout, found.stderr.decode(), found.returncode), (output, errors, 0), arguments)

    def test_file(self):
        """A file that is named is read, whatever stands on standard input."""
        book = book_of("tests", "list", "p01.did")
        with tempfile.TemporaryDirectory() as folder:
            path = os.path.join(folder, "book")
            for data in (book, b"", book + b"\0", book_of("bench", "full.did")):
                with open(path, "wb") as file:
                    file.write(data)
                self.runs([path, *self.more], self.right(data).encode(), "")
            # A name may have 4,095 bytes; what does not fit the program's buffer is not shown.
            long = folder + "/" * (4095 - len(folder) - len("book")) + "book"
            with open(path, "wb") as file:
                file.write(book)
            self.runs([long, *self.more], self.right(book).encode(), "")
            self.runs(["/" + long], b"", f"{self.name}: /{long}: File name too long\n")
            self.runs(["//" + long], b"", f"{self.name}: the file's name: File name too long\n")

    def test_failed_read(self):
        """A failure is told with its reason, nothing is printed, and none is taken for an empty book."""
        with tempfile.TemporaryDirectory() as folder:
            missing = os.path.join(folder, "missing")
            self.runs([missing], b"", f"{self.name}: {missing}: No such file or directory\n")
            self.runs([folder], b"", f"{self.name}: {folder}: Is a directory\n")
            self.runs([os.path.join(folder, "")[:-1] + "/x/y"], b"", f"{self.name}: {folder}/x/y: No such file or directory\n")
            with open(missing, "wb") as write_only:
                self.runs(self.standard_input, b"", f"{self.name}: standard input: Bad file descriptor\n", stdin=write_only)
            descriptor = os.open(folder, os.O_RDONLY)
            self.runs(self.standard_input, b"", f"{self.name}: standard input: Is a directory\n", stdin=descriptor)
            os.close(descriptor)
        self.runs([""], b"", f"{self.name}: : No such file or directory\n")
        found = subprocess.run([path_of(self.name), b"\xff"], env={}, capture_output=True)
        self.assertEqual((found.stdout, found.stderr, found.returncode), (b"", self.name.encode() + b": \xff: Not UTF-8\n", 0))

    def test_usage(self):
        for arguments in (["a", "b"], ["", "", ""]):
            self.runs(arguments, b"", f"usage: {self.name} [FILE]\n")

    def test_read_that_fails_later(self):
        """A failure after the first bytes of a book, even of a whole one, is no end of the input."""
        book = book_of("tests", "list", "p01.did")
        for size in (len(book), 40):
            ours, theirs = socket.socketpair()
            with ours, theirs:
                ours.sendall(book[:size])
                theirs.setsockopt(socket.SOL_SOCKET, socket.SO_RCVTIMEO, struct.pack("ll", 0, 100_000))
                self.runs(self.standard_input, b"", f"{self.name}: standard input: Resource temporarily unavailable\n", stdin=theirs)

    def test_failed_write(self):
        book = os.path.join(ROOT, "crates", self.name, "stdin")
        with open("/dev/full", "wb") as full:
            self.runs([book, *self.more], None, f"{self.name}: standard output: No space left on device\n", stdout=full)
        with open(os.devnull, "rb") as read_only:
            self.runs([book, *self.more], None, f"{self.name}: standard output: Bad file descriptor\n", stdout=read_only)


@if_built("list")
class List(Program, unittest.TestCase):
    name, right, more_refusals = "list", staticmethod(answers.listing), {17}

    def test_p1(self):
        """Document 01's own output."""
        self.writes(book_of("tests", "list", "p01.did"), 'list 2 marked 1\n1 - "pair"\n2 r "tree"\n')

    def test_largest(self):
        """As long as a book may be, with every definition listed, and longer."""
        book = book_of("bench", "full.did")
        self.assertEqual(len(book), MOST)
        right = answers.listing(book)
        self.assertTrue(right.startswith("list 512 marked 1\n"))
        self.writes(book, right)
        for more in (b"\0", b"\xff", b"\0\0", book, b"\0" * 1_000_000):
            self.writes(book + more, BROKEN)
        for fewer in (1, 2, 8, MOST - 32, MOST - 31, MOST - 1):
            self.writes(book[:-fewer], BROKEN)
        self.writes(book_of("tests", "layout", "length-65536.did"), "refused 17 -\n")
        self.writes(book_of("tests", "layout", "length-65537.did"), BROKEN)

    def test_refusals(self):
        for folder, name, refusal in (
            ("check", "p03", '7 "a"'), ("check", "p06", '2 "b"'), ("list", "p04", "17 -"), ("check", "row-04-definition", "4 -"),
            ("check", "p09-import", '14 "\\00a"'), ("list", "broken", "1 -"),
            ("check", "row-18-record", '18 "x"'), ("check", "row-18-number", "18 -"), ("check", "row-18-zero-byte", '18 "\\00a"'),
            ("check", "row-18-type-import-actor", '18 "m"'),
        ):
            self.writes(book_of("tests", folder, name + ".did"), f"refused {refusal}\n", name)

    def test_odd_names(self):
        """Bytes outside 0x20 to 0x7E, the quote and the backslash are a backslash and two digits."""
        source = r'''type "\00\1f\20!\"#[\\]}~\7f\80\ff" = nat; type "" = nat;
                     service : { m : ("\00\1f\20!\"#[\\]}~\7f\80\ff", "") -> () }'''
        self.writes(mkbook.book(source), 'list 2 marked 0\n1 - "\\00\\1f !\\22#[\\5c]}~\\7f\\80\\ff"\n2 - ""\n')
        self.writes(mkbook.book(r'type "a\0a" = "\0d\0a";'), 'refused 3 "\\0d\\0a"\n')
        every = "".join(f"\\{byte:02x}" for byte in range(255))
        self.writes(mkbook.book(f'type "{every}" = opt "{every}"; service : {{ m : ("{every}") -> () }}'),
                    "list 1 marked 1\n1 r " + layout.quoted(bytes(range(255))) + "\n")

    def test_longest_output(self):
        """Long names, three characters for each byte."""
        book = bytes(mkbook.book(r'''repeat 220 { type "\00" * 252 + "###" = nat; }
                                     service : { m : (repeat 220 { "\00" * 252 + "###", }) -> () }'''))
        right = answers.listing(book)
        self.assertTrue(right.startswith("list 220 marked 0\n"))
        self.assertGreater(len(right), 160_000)
        self.writes(book, right)


@if_built("values")
class Values(Program, unittest.TestCase):
    """Request 13 of document 02: a line for each definition, ascending by name."""

    name, right, more_refusals = "values", staticmethod(answers.valuing), set()

    def test_by_hand(self):
        for source, right in {
            "": "", "service : { m : () -> () }": "", "type a = bool;": '"a" 2\n', "type a = opt a;": '"a" many\n',
            "type a = record { text; empty };": '"a" 0\n',
            "type b = a; type a = variant { x; y : nat8 }; type c = vec b;": '"a" 257\n"b" 257\n"c" many\n',
            'file "m" main type b = nat16; file "i" type type a = b; service : a file "j" init type c = bool; args (c)': '"a" 65536\n"b" 65536\n',
        }.items():
            self.writes(mkbook.book(source), right, source)
        self.writes(book_of("tests", "list", "values-most-opt.did"), '"a" 4294967294\n"b" 4294967295\n"c" many\n"d" many\n"e" 65535\n'
                    '"f" 4294901760\n"g" 65534\n"h" 4294967295\n"i" 0\n')

    def test_refusals(self):
        for folder, name, refusal in (
            ("check", "p03", '7 "a"'), ("check", "p06", '2 "b"'), ("check", "row-04-definition", "4 -"), ("check", "p09-import", '14 "\\00a"'),
            ("list", "broken", "1 -"), ("check", "row-18-record", '18 "x"'), ("list", "values-check-first", "10 -"),
            ("list", "values-check-names", '3 ""'),
        ):
            self.writes(book_of("tests", folder, name + ".did"), f"refused {refusal}\n", name)

    def test_odd_names(self):
        """Bytes outside 0x20 to 0x7E, the quote and the backslash are a backslash and two digits."""
        source = r'''type "\00\1f\20!\"#[\\]}~\7f\80\ff" = null; type "" = bool;'''
        self.writes(mkbook.book(source), '"" 2\n"\\00\\1f !\\22#[\\5c]}~\\7f\\80\\ff" 1\n')

    def test_largest(self):
        """As long as a book may be, with as many definitions, and longer."""
        book = book_of("bench", "full.did")
        self.assertEqual(len(book), MOST)
        self.assertEqual(self.right(book).count("\n"), 512)
        self.writes(book, self.right(book))
        self.writes(book + b"\0", BROKEN)
        self.writes(book[:-1], BROKEN)
        right = "".join(f'"{number:03}" 65536\n' for number in range(512))
        self.writes(mkbook.book('repeat 511 { type "###" = "511"; } type "511" = nat16;'), right)

    def test_longest_output(self):
        """Long names, three characters for each byte, with the longest numbers: a book has 65,536 bytes."""
        largest = "record { variant { x; y; z }; opt opt opt bool; opt record { bool; bool; bool; bool }; opt nat8; opt nat16 }"  # 4,294,967,295
        book = bytes(mkbook.book(rf'''repeat 232 {{ type "\00" * 252 + "###" = n; }} type n = {largest};'''))
        right = self.right(book)
        self.assertEqual(right.count(" 4294967295\n"), 233)
        self.assertGreater(len(right), 178_000)
        self.writes(book, right)


@if_built("uses_report")
class UsesReport(Program, unittest.TestCase):
    """Request 8 of document 02: a line for each listed definition, in the order of the list, and then their total."""

    name, right, more_refusals = "uses_report", staticmethod(answers.reporting), {17}

    def test_by_hand(self):
        self.writes(book_of("tests", "list", "p01.did"), '"pair" 1\n"tree" 1\ntotal 2\n')
        for source, right in {
            "service : {}": "total 0\n", "type a = nat; service : { a : () -> () }": "total 0\n",
            "type a = nat; service : { m : (a) -> (a) }": '"a" 2\ntotal 2\n',
            "type a = nat; service : { m : (a, record { a; a }) -> () }": '"a" 2\ntotal 2\n',
            "type a = nat; type f = func (a) -> (); service : { f : f; m : f }": '"a" 2\n"f" 0\ntotal 2\n',
            "type a = opt b; type b = a; type z = nat; service : (z) -> { m : (b) -> (z) }": '"z" 2\n"a" 1\n"b" 1\ntotal 4\n',
            'file "m" main type a = nat; service : { m : (a) -> () } file "i" service type b = a; service : { n : (b) -> () }':
                '"a" 2\n"b" 1\ntotal 3\n',
        }.items():
            self.writes(mkbook.book(source), right, source)

    def test_refusals(self):
        for folder, name, refusal in (
            ("check", "p03", '7 "a"'), ("check", "p06", '2 "b"'), ("list", "p04", "17 -"), ("check", "row-04-definition", "4 -"),
            ("check", "p09-import", '14 "\\00a"'), ("list", "broken", "1 -"), ("check", "row-18-record", '18 "x"'),
        ):
            self.writes(book_of("tests", folder, name + ".did"), f"refused {refusal}\n", name)

    def test_refused_as_list(self):
        """What has no list is refused as the program `list` refuses it."""
        for folder in (SOURCES, CHECK_SOURCES, LIST_SOURCES, LIMITS_SOURCES):
            for name, text in mkbatch.sources(folder):
                book = bytes(mkbook.book(text))
                of_list = answers.listing(book)
                if of_list.startswith("refused"):
                    self.writes(book, of_list, f"{folder}/{name}")

    def test_odd_names(self):
        """Bytes outside 0x20 to 0x7E, the quote and the backslash are a backslash and two digits."""
        source = r'''type "\00\1f\20!\"#[\\]}~\7f\80\ff" = nat; type "" = nat;
                     service : { m : ("\00\1f\20!\"#[\\]}~\7f\80\ff", "") -> ("") }'''
        self.writes(mkbook.book(source), '"\\00\\1f !\\22#[\\5c]}~\\7f\\80\\ff" 1\n"" 2\ntotal 3\n')

    def test_many_uses(self):
        """As many methods as there can be, of a function with as many arguments as there can be then, each of which reaches all 512 definitions."""
        book = mkbook.book('''type "000" = func (repeat 2560 { "001", }) -> (); repeat 510 { type "###+1" = "###+2"; } type "511" = "000";
                              service : { repeat 512 { "###" : "000"; } repeat 511 { "m###" : "000"; } }''')
        right = "".join(f'"{number:03}" 2618880\n' for number in reversed(range(512))) + "total 1340866560\n"
        self.assertEqual(self.right(bytes(book)), right)
        self.writes(bytes(book), right)

    def test_largest(self):
        """As long as a book may be, with every definition listed, and longer."""
        book = book_of("bench", "full.did")
        self.assertEqual(len(book), MOST)
        right = self.right(book)
        self.assertEqual(right.count("\n"), 513)
        self.writes(book, right)
        self.writes(book + b"\0", BROKEN)
        self.writes(book[:-1], BROKEN)
        self.writes(book_of("tests", "layout", "length-65536.did"), "refused 17 -\n")

    def test_longest_output(self):
        """Long names, three characters for each byte."""
        book = bytes(mkbook.book(r'''repeat 220 { type "\00" * 252 + "###" = nat; }
                                     service : { m : (repeat 220 { "\00" * 252 + "###", }) -> () }'''))
        right = self.right(book)
        self.assertEqual(right.count(" 1\n"), 220)
        self.assertGreater(len(right), 160_000)
        self.writes(book, right)


@if_built("methods")
class Methods(Program, unittest.TestCase):
    """Request 10 of document 02: a line for each method that changes with the definitions of the names, in the order of their positions."""

    name, more_refusals = "methods", {17}
    standard_input, more = ["-"], ["tree", "a", "", b"\xff"]

    def right(self, data):
        return answers.naming(data, [b"tree", b"a", b"", b"\xff"])

    def asked(self, data, names, what=None):
        """It writes what is right of a book on standard input; what is right, to be held against what is so by hand."""
        names = [name.encode() if isinstance(name, str) else name for name in names]
        right = answers.naming(data, names)
        found = subprocess.run([path_of(self.name), "-", *names], input=data, capture_output=True, env={})
        self.assertEqual((found.stdout.decode(), found.stderr, found.returncode), (right, b"", 0), what)
        return right

    def test_p1(self):
        p1 = book_of("tests", "list", "p01.did")
        for names, right in (
            (["tree"], '"put"\n'), (["pair"], '"put"\n'), (["spare"], ""), ([], ""), (["put"], ""), (["tre"], ""), (["tree "], ""),
            (["TREE"], ""), (["none", "spare", "tree"], '"put"\n'), (["tree", "tree"], '"put"\n'), (["-"], ""), ([""], ""),
        ):
            self.assertEqual(self.asked(p1, names, names), right, names)

    def test_by_hand(self):
        source = """type a = nat; type b = record { a; c }; type c = opt c; type d = text; type f = func (d) -> (); type unused = f;
                    service : (b) -> { z : (a) -> (); y : (c) -> (b); x : () -> () query; w : f; v : (f) -> ();
                                       u : (record { opt unused }) -> () }"""
        book = bytes(mkbook.book(source))
        for names, right in {
            "": "", "a": "zy", "b": "y", "c": "y", "d": "wvu", "f": "vu", "unused": "u", "a d": "zywvu", "d a": "zywvu", "c c b": "y", "x y z": "",
            "unused unknown a": "zyu", "a b c d f unused": "zywvu",
        }.items():
            positions = [method for method in "zyxwvu" if method in right]
            # a book's methods stand in the order of the source
            self.assertEqual(self.asked(book, names.split(), names), "".join(f'"{method}"\n' for method in positions), names)
        for book, right in {
            'file "m" main type a = nat; service : { m : (a) -> () } file "i" service type b = a; service : { n : (b) -> () }': '"m"\n"n"\n',
            "service : { a : (nat) -> () }": "", "type a = nat; service : (a) -> { m : () -> () }": "",
            "type a = nat; service : { a : () -> (a) }": '"a"\n',
        }.items():
            self.assertEqual(self.asked(bytes(mkbook.book(book)), ["a"], book), right, book)

    def test_every_name(self):
        """Every book of tests, asked for all of its names in another order, twice; and of tests/list for each of its first names alone."""
        chance = random.Random(10)
        for folder in (SOURCES, CHECK_SOURCES, LIST_SOURCES, LIMITS_SOURCES):
            for name, text in mkbatch.sources(folder):
                data = bytes(mkbook.book(text))
                try:
                    names = [name for name in answers.Book(data).names if b"\0" not in name]
                except answers.Refused:
                    names = []
                for one in names[:3] if folder == LIST_SOURCES else []:
                    self.asked(data, [one], (folder, name, one))
                several = 2 * chance.sample(names, min(len(names), 300))
                chance.shuffle(several)
                self.asked(data, several, (folder, name))

    def test_refusals(self):
        """Whatever is asked, and where nothing is."""
        for folder, name, refusal in (
            ("check", "p03", '7 "a"'), ("check", "p06", '2 "b"'), ("list", "p04", "17 -"), ("check", "row-04-definition", "4 -"),
            ("check", "p09-import", '14 "\\00a"'), ("list", "broken", "1 -"), ("check", "row-18-record", '18 "x"'),
        ):
            for names in ([], ["tree"], ["a", "b"]):
                self.assertEqual(self.asked(book_of("tests", folder, name + ".did"), names, name), f"refused {refusal}\n")

    def test_usage(self):
        self.runs([], b"", f"usage: {self.name} FILE [NAME ..]\n")

    def test_file_named(self):
        """`-` is standard input, and `./-` a file."""
        p1 = book_of("tests", "list", "p01.did")
        with tempfile.TemporaryDirectory() as folder:
            path = os.path.join(folder, "-")
            with open(path, "wb") as file:
                file.write(p1)
            self.runs([path, "tree"], b'"put"\n', "")
            self.runs(["-", "tree"], BROKEN.encode(), "")
            self.runs([folder + "/--", "tree"], b"", f"{self.name}: {folder}/--: No such file or directory\n")

    def test_odd_names(self):
        """The bytes of a name are those of the argument; a method's outside 0x20 to 0x7E, the quote and the backslash are a backslash and two digits."""
        source = r'''type "\01\1f\20!\"#[\\]}~\7f\80\ff" = nat; type "" = nat;
                     service : { "\00\1f\20!\"#[\\]}~\7f\80\ff" : ("\01\1f\20!\"#[\\]}~\7f\80\ff") -> (); "" : ("") -> () }'''
        book, odd = bytes(mkbook.book(source)), b'\x01\x1f !"#[\\]}~\x7f\x80\xff'
        self.assertEqual(self.asked(book, [odd]), '"\\00\\1f !\\22#[\\5c]}~\\7f\\80\\ff"\n')
        self.assertEqual(self.asked(book, [""]), '""\n')
        self.assertEqual(self.asked(book, ["", odd]).count("\n"), 2)
        for name in (odd[1:], odd[:-1], odd + b" ", b'"' + odd + b'"', b"\\01", b'""'):
            self.assertEqual(self.asked(book, [name]), "")
        every = bytes(range(1, 256))
        spelled = "".join(f"\\{byte:02x}" for byte in every)
        book = bytes(mkbook.book(f'type "{spelled}" = nat; service : {{ m : ("{spelled}") -> () }}'))
        self.assertEqual(self.asked(book, [every]), '"m"\n')
        self.assertEqual(self.asked(book, [every + b"\x01"]), "")

    def test_zero_byte(self):
        """A name with a zero byte is no argument, and its parts are other names."""
        book = bytes(mkbook.book(r'type "a\00b" = nat; service : { m : ("a\00b") -> () }'))
        for names in ([b"a"], [b"b"], [b"a", b"b"], [b"ab"]):
            self.assertEqual(self.asked(book, names), "")

    def test_many_names(self):
        """However often they are asked, up to 262,144 bytes with one for each name."""
        p1 = book_of("tests", "list", "p01.did")
        self.assertEqual(self.asked(p1, ["tree"] * 20_000), '"put"\n')
        self.assertEqual(self.asked(p1, ["spare"] * 25_000 + ["tree"]), '"put"\n')
        self.assertEqual(self.asked(p1, [""] * 60_000), "")
        self.assertEqual(self.asked(p1, ["x" * 131_071, "y" * 131_066, "tree"][::-1]), '"put"\n')
        for names in (["x" * 131_071, "y" * 131_071, ""], ["x" * 131_071, "y" * 131_067, "tree"], ["tree", "x" * 131_071, "y" * 131_068],
                      ["tree"] * 60_000):
            with self.subTest(len(names)):
                self.runs([os.path.join(ROOT, "crates", "list", "stdin"), *names], b"", f"{self.name}: the names: Argument list too long\n")

    def test_largest(self):
        """As long as a book may be, asked for every definition, and longer."""
        book = book_of("bench", "full.did")
        self.assertEqual(len(book), MOST)
        names = [name for name in answers.Book(book).names if b"\0" not in name]
        self.asked(book, names)
        self.asked(book, names[:1])
        self.writes(book + b"\0", BROKEN)
        self.writes(book[:-1], BROKEN)
        self.writes(book_of("tests", "layout", "length-65536.did"), "refused 17 -\n")

    def test_many_methods(self):
        """A thousand, all of which change; tests/list/large-methods-1024.did has as many as there can be."""
        book = bytes(mkbook.book("type a = nat; service : { repeat 1000 { \"###\" : (a) -> (); } }"))
        self.assertEqual(self.asked(book, ["a"]), "".join(f'"{number:03}"\n' for number in range(1000)))

    def test_longest_output(self):
        """Long names, three characters for each byte."""
        book = bytes(mkbook.book(r'type a = nat; service : { repeat 230 { "\00" * 252 + "###" : (a) -> (); } }'))
        self.assertGreater(len(self.asked(book, ["a"])), 170_000)


if __name__ == "__main__":
    unittest.main()
