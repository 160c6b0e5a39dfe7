#!/usr/bin/env python3
"""Tests tools/calls.py with graphs.py and stacks.py, and by it the crates:  python3 tools/test_calls.py

Small crates and copies of the real ones, into which a recursion is planted, go through `rt check --generated`; modules that the kit does not make,
and machine code, are written here. tools/build.sh must have made the library and the programs: what a copy stands on is not proved again, and the
crates' own table has the stack.
"""

import contextlib
import functools
import io
import multiprocessing
import os
import re
import shutil
import subprocess
import sys
import tempfile
import time
import unittest
from unittest import mock

import calls
import graphs
import stacks

# The circles of the crates.
CIRCLES = [["book::rules::trees"], ["environment::merge::Comparison::same_trees"],
           ["typing::types::Walk::check_type", "typing::types::Walk::check_types"], ["typing::types::Walk::services_fit"]]

# A recursion with its proof, so that crates can stand on it.
DOWN = """
pub fn down(n: u64) -> u64 {
    if 0 < n {
        return down(n / 2);
    }
    n
}
"""
DOWN_PROOF = """use Rattle.low.proofs.+down.Given as goal

abbrev pub decreases-down : goal.decreases-down
decreases-down l = l.n
"""


def write(path, text):
    os.makedirs(os.path.dirname(path), exist_ok=True)
    with open(path, "w", encoding="utf-8") as file:
        file.write(text)


def crate(root, name, source, below="", folders=None):
    """A crate of a small repository, with the proofs that it has in folders `+..`."""
    with open(os.path.join(root, "crates.txt"), "a", encoding="utf-8") as file:
        file.write(f"{name}: {below}\n")
    write(os.path.join(root, "crates", name, "src", "lib.rt"), source)
    for folder, proof in (folders or {}).items():
        write(os.path.join(root, "crates", name, "proofs", folder, "Invariants.antt"), proof)


def told(*arguments):
    """Exit status and output of the tool."""
    with contextlib.redirect_stdout(io.StringIO()) as out, contextlib.redirect_stderr(io.StringIO()) as err:
        status = calls.main(arguments)
    return status, out.getvalue(), err.getvalue()


GENERATED = calls.generated


@functools.cache
def real(name):
    return GENERATED(calls.ROOT, name)


class InFolder(unittest.TestCase):

    def setUp(self):
        folder = tempfile.TemporaryDirectory()
        self.addCleanup(folder.cleanup)
        self.root = folder.name

    def no_loops(self):
        """For crates that have none of those that have to be loops."""
        patch = mock.patch.object(calls, "LOOPS", ())
        patch.start()
        self.addCleanup(patch.stop)

    def is_wrong(self, sentence, *arguments):
        status, out, err = told(self.root, *arguments)
        self.assertEqual((status, out), (2, ""))
        self.assertIn(sentence, err)


class SmallCrates(InFolder):
    """Through the kit."""

    def circles(self):
        with mock.patch.object(calls, "check_proved"):
            graph, path = calls.read(self.root, calls.generated)
        self.assertIsNone(path)
        return calls.circles(graph.calls())

    def has(self, source, *expected):
        self.no_loops()
        crate(self.root, "planted", source)
        self.assertEqual(self.circles(), [[f"planted::{name}" for name in members] for members in expected])

    def test_direct(self):
        self.has(DOWN, ["down"])

    def test_three(self):
        """Of three that call each other, with one that calls them and one that they call."""
        self.has("""
            fn leaf(n: u64) -> u64 { n }
            #[cycle(turn)] fn one(n: u64) -> u64 { if n == 0 { return leaf(n); } two(n / 2) }
            #[cycle(turn)] fn two(n: u64) -> u64 { three(n) }
            #[cycle(turn)] fn three(n: u64) -> u64 { one(n) }
            pub fn start(n: u64) -> u64 { two(n) }
        """, ["one", "three", "two"])

    def test_two_circles(self):
        """One of which calls the other."""
        self.has("""
            #[cycle(turn)] fn one(n: u64) -> u64 { if n == 0 { return three(n); } two(n / 2) }
            #[cycle(turn)] fn two(n: u64) -> u64 { one(n) }
            fn three(n: u64) -> u64 { if n == 0 { return 0; } three(n / 2) }
        """, ["one", "two"], ["three"])

    def test_loop(self):
        self.has("pub fn count(n: u64) -> u64 { let mut i = 0; while i < n { i += 1; } i }")

    def test_diamond(self):
        self.has("""
            fn low(n: u64) -> u64 { n }
            fn left(n: u64) -> u64 { low(n) }
            fn right(n: u64) -> u64 { low(n) }
            pub fn top(n: u64) -> u64 { if n == 0 { return left(n); } right(n) + left(n) }
        """)

    def test_places(self):
        """Calls in every kind of statement."""
        self.has("""
            pub enum Kind { One, Two, Three }
            fn kind_of(n: u64) -> Kind { if n == 0 { return Kind::One; } if n == 1 { return Kind::Three; } Kind::Two }
            fn in_arm(n: u64) -> u64 { match kind_of(n) { Kind::One => 0, Kind::Two => in_arm(n), Kind::Three => 1 } }
            fn in_default(n: u64) -> u64 { match n { 0 => 0, _ => in_default(n) } }
            fn in_else(n: u64) -> u64 { if n == 0 { 0 } else { in_else(n) } }
            fn in_argument(n: u64) -> u64 { if n == 0 { return 0; } in_arm(in_argument(n)) }
            fn in_condition(n: u64) -> bool { if in_condition(n) { return true; } false }
            fn in_loop(n: u64) -> u64 { let mut i = 0; while i < n { i += in_loop(i); } i }
            fn in_while(n: u64) -> bool { while in_while(n) { } true }
            fn at_end(n: u64) { at_end(n); }
        """, *(["at_end"], ["in_argument"], ["in_arm"], ["in_condition"], ["in_default"], ["in_else"], ["in_loop"], ["in_while"]))

    def test_method(self):
        """Of one type, and with a function of none."""
        self.has("""
            #[derive(Clone, Copy)] pub struct Number { pub n: u64 }
            impl Number {
                #[cycle(turn)] pub fn half(self) -> u64 { if self.n == 0 { return 0; } Number::other(self.n / 2) }
                #[cycle(turn)] fn other(n: u64) -> u64 { Number { n: n }.half() }
                #[cycle(both)] pub fn third(self) -> u64 { if self.n == 0 { return 0; } last(self.n / 3) }
            }
            #[cycle(both)] fn last(n: u64) -> u64 { Number { n: n }.third() }
        """, ["Number::half", "Number::other"], ["Number::third", "last"])

    def test_handed_on(self):
        """Through a closure, a function, a method of a bound or an iterator that is handed on, and a pointer."""
        call = "planted::fn::%s+FnOnce::call_once"
        self.no_loops()
        crate(self.root, "planted", """
            pub fn one(n: u64) -> bool { if n == 0 { return true; } Some(n / 2).is_some_and(|m| one(m)) }
            pub fn two(n: u64) -> bool { if n == 0 { return true; } Some(n / 2).is_some_and(two) }
            pub fn three(n: u64) -> u64 { if n == 0 { return 0; } let f: fn(u64) -> u64 = three; f(n / 2) }
            fn each<F: FnOnce(u64) -> bool>(f: F, n: u64) -> bool { f(n) }
            pub fn four(n: u64) -> bool { if n == 0 { return true; } Some(n / 2).is_some_and(|m| each(|k| four(k), m)) }
            pub trait Half { fn half(self) -> u64; }
            impl Half for u64 { #[cycle(five)] fn half(self) -> u64 { if self == 0 { return 0; } five(self / 2) } }
            fn of<T: Half>(t: T) -> u64 { t.half() }
            #[cycle(five)] pub fn five(n: u64) -> u64 { of(n) }
            #[derive(Clone, Copy)] pub struct Down { pub n: u64 }
            impl Iterator for Down {
                type Item = u64;
                #[cycle(six)] fn next(&mut self) -> Option<u64> { if self.n == 0 { return None; } self.n /= 2; Some(six(self.n)) }
            }
            #[cycle(six)] pub fn six(n: u64) -> u64 { let mut t = 0; for m in (Down { n }) { t = m; } t }
        """)
        self.assertEqual(self.circles(), [
            ["planted::DownIterator::next", "planted::six"], ["planted::U64Half::half", "planted::five"],
            ["planted::fn::four::fn::is_some_and::each", call % "four::fn::is_some_and::each", "planted::fn::four::is_some_and",
             call % "four::is_some_and", "planted::four"],
            ["planted::fn::one::is_some_and", call % "one::is_some_and", "planted::one"],
            ["planted::planted++two+FnOnce::call_once", "planted::two"], ["planted::three"]])

    def test_own_impl(self):
        """A method that hands its own impl on, for which the kit has no folder."""
        self.has("""
            #[derive(Clone, Copy)] pub struct A { pub n: u64 }
            impl From<A> for u64 { fn from(a: A) -> u64 { if a.n == 0 { return 0; } A { n: a.n / 2 }.into() } }
            impl Default for A { fn default() -> A { None.unwrap_or_default() } }
            impl Iterator for A {
                type Item = u64;
                fn next(&mut self) -> Option<u64> { if self.n == 0 { return None; } A { n: self.n / 2 }.last() }
            }
        """, ["ADefault::default"], ["AIterator::next"], ["U64FromA::from"])

    def test_other_crate(self):
        """A recursion is found from the crate above, and what falls is told."""
        self.no_loops()
        crate(self.root, "low", DOWN, folders={"+down": DOWN_PROOF})
        crate(self.root, "top", "pub fn start(n: u64) -> u64 { low::down(n) }", "low")
        self.assertEqual(self.circles(), [["low::down"]])
        status, out, _ = told(self.root)
        self.assertEqual(status, 0)
        self.assertIn("| `low::down` | programs alone | `n` |\n", out)
        crate(self.root, "environment", """
            fn helper(n: u64) -> u64 { top::start(n) }
            pub fn alias_end(n: u64) -> u64 { helper(n) }
        """, "low top")
        status, out, _ = told(self.root)
        self.assertEqual(status, 1)
        self.assertIn("\nenvironment::helper -> top::start -> low::down -> low::down\n", out)

    def test_every_function(self):
        """The graph has the functions of the sources, of two types and two modules too, and no other."""
        self.no_loops()
        crate(self.root, "planted", """
            pub mod inner;  // fn of
            impl A { fn at() { } }
            impl B { fn at() { } }
            fn up() { }
        """)
        write(os.path.join(self.root, "crates", "planted", "src", "inner.rt"), "fn up() { }")
        whole = ["A::at", "B::at", "up", "inner::up"]
        for names, sentence in (
            (whole[1:], "planted::at: the sources have 2 and what the kit makes has 1"), (whole[:3], "planted::inner::up: the sources have 1 and"),
            (whole[:2] + whole[3:], "planted::up: the sources have 1 and"), (whole + ["of"], "planted::of: the sources have 0 and"),
            (whole + ["A::eq"], "planted::eq: the sources have 0 and"),
        ):
            with self.subTest(names), mock.patch.object(calls, "generated", lambda *_: codes(*(function(f"planted::{name}") for name in names))):
                self.is_wrong(sentence)
        derived = ["AClone::clone", "APartialEq::eq", "BPartialOrd::partial_cmp", "BOrd::cmp", "inner::CDebug::fmt", "inner::CDefault::default"]
        made = [*whole, *derived, "BIterator::size_hint", "fn::up::map+FnMut::call_mut", "Destruct++none::drop"]
        with mock.patch.object(calls, "generated", lambda *_: codes(*(function(f"planted::{name}", "core::of") for name in made))):
            self.assertEqual(told(self.root)[0], 0)

    def test_methods_elsewhere(self):
        """A method is one of its type's module, wherever the `impl` is."""
        texts = {"a": "struct A<'a> {\n}\nstruct B;\nfn f() { }\n",
                 "a::b": "impl<'a> A<'a> {\n    fn f() { }\n}\nimpl C for B { fn g() { } }\nfn g() { }\n"}
        self.assertEqual(calls.functions_in(texts), {("a", "f"): 2, ("a", "g"): 1, ("a::b", "g"): 1})
        with self.assertRaisesRegex(calls.Wrong, "a::b has methods of A, of which there are several: a, a::c"):
            calls.functions_in({**texts, "a::c": "enum A { }"})

    def test_not_read(self):
        crate(self.root, "planted", "pub fn f() { g(); }")
        self.is_wrong("`rt check --generated` of planted failed")

    def test_named(self):
        source = "pub fn alias_end(n: u64) -> u64 { n }\npub fn no_end() { }\n"
        crate(self.root, "environment", source)
        self.is_wrong("environment::scope::Scope::step has to be a loop and is not there")
        folder = os.path.join(self.root, "crates", "environment", "src")
        write(os.path.join(folder, "lib.rt"), source + "pub mod scope;\n")
        write(os.path.join(folder, "scope.rt"), "#[derive(Clone, Copy)]\npub struct Scope;\nimpl Scope {\n    pub fn step(self, n: u64) -> u64 { n }\n}\n")
        self.is_wrong("environment::scope::Scope::alias_end has to be a loop and is not there")

    def test_crates(self):
        write(os.path.join(self.root, "crates.txt"), "# one:\ntwo:one # with\n\none :\n")
        for name in ("one", "two"):
            os.makedirs(os.path.join(self.root, "crates", name))
        self.assertEqual(list(calls.crates_of(self.root).items()), [("two", ["one"]), ("one", [])])
        os.rmdir(os.path.join(self.root, "crates", "one"))
        self.is_wrong("crates/one is not there")

    def test_error(self):
        """Whatever fails is no recursion."""
        for option in ((), ("--proofs",)):
            self.is_wrong("FileNotFoundError", *option)

    def test_usage(self):
        for arguments in (["--stacks"], ["--proofs", "--docs"], [self.root, self.root]):
            status, out, err = told(*arguments)
            self.assertEqual((status, out, err), (2, "", calls.__doc__.strip() + "\n"))


class Proofs(InFolder):
    """Circles and folders are one to one."""

    def setUp(self):
        super().setUp()
        self.no_loops()

    def test_no_folder(self):
        crate(self.root, "planted", DOWN)
        self.is_wrong("no folder + has a proof of the circle of calls planted::down")

    def test_no_circle(self):
        crate(self.root, "planted", "pub fn down(n: u64) -> u64 { n }", folders={"+down": DOWN_PROOF})
        """The kit refuses that; and so does the tool."""
        self.is_wrong("`planted` has no cycle of calls `+down` for this file to be the proof of")
        with mock.patch.object(calls, "generated", lambda *_: codes(function("planted::down"))):
            self.is_wrong("crates/planted/proofs/+down/Invariants.antt is there, and no circle of calls planted::down")

    def test_other_members(self):
        source = "#[cycle(one)]\nfn one(n: u64) -> u64 { two(n) }\n#[cycle(one)]\nfn two(n: u64) -> u64 { one(n) }"
        crate(self.root, "planted", source, folders={"+one": DOWN_PROOF})
        self.is_wrong("no folder + has a proof of the circle of calls planted::one, planted::two")

    def test_other_module(self):
        crate(self.root, "planted", "pub mod inner;\n" + DOWN, folders={"inner/+down": DOWN_PROOF})
        write(os.path.join(self.root, "crates", "planted", "src", "inner.rt"), DOWN.replace("return down(n / 2)", "return n"))
        made = codes(("+down/Code", ""), ("+down/Code/+down", "use Rattle.planted.specs.contracts.down.Key\n"), function("planted::inner::down"))
        with mock.patch.object(calls, "generated", lambda *_: made):
            self.is_wrong("no folder + has a proof of the circle of calls planted::down")

    def measured(self, *lines):
        one = "#[cycle(both)]\nfn one(rows: &[u8], from: usize,\n    until: usize) -> u64 { two(rows, from) }\n"
        two = "#[cycle(both)]\nfn two(rows: &[u8], n: usize) -> u64 { one(rows, n, n) }\n"
        crate(self.root, "planted", one + two, folders={"+both": "\n".join(lines) + "\n"})

    def test_measures(self):
        """Each parameter by its name, of each member, and not of a loop."""
        self.measured("decreases-two l =", "    length l.rows.now * (row_at l.rows.now l.n).size", "decreases-loop-i l = l.until - l.i",
                      "decreases-one-loop-i l = l.i", "decreases-one l = 2 * (l.until - l.from) + 1")
        status, out, _ = told(self.root)
        self.assertEqual(status, 0)
        self.assertIn("| `planted::one` | programs alone | `2 * (until - from) + 1` |\n"
                      "| with `planted::two` | programs alone | `length rows * (row_at rows n).size` |\n", out)

    def test_measure_of_method(self):
        """A field by its own name, of what the method has."""
        self.assertEqual(calls.in_words("a::A::f", " 2 * (row_at l.self.now.rows.now l.n).size"), "2 * (row_at self.rows n).size")
        self.assertEqual(calls.in_words("a::A::f", " l.a_until - l.self.a.now"), "a_until - self.a")

    def test_measure_of_two_of_one_name(self):
        """A function's is not its method's."""
        path = os.path.join(self.root, "Invariants.antt")
        write(path, "decreases-f l = l.n\ndecreases-A::f l = l.m\n")
        self.assertEqual(list(calls.measures(("a::A::f", "a::f"), path)), ["m", "n"])

    def test_measure_in_other_form(self):
        for line in ("decreases-two x = x.n", "decreases-two = λ l. l.n", "abbrev pub decreases-two : goal.decreases-two"):
            with self.subTest(line):
                self.setUp()
                self.measured("decreases-one l = l.until", line)
                self.is_wrong("decreases-two is stated as this tool does not know", "--proofs")

    def test_measure_in_comment(self):
        path = os.path.join(self.root, "Invariants.antt")
        write(path, "{-\ndecreases-f l = l.n\n-}\ndecreases-f l = l.m\n")
        self.assertEqual(calls.stated(path), {"f": " l.m"})

    def test_by_hand(self):
        crate(self.root, "planted", DOWN)
        write(os.path.join(self.root, "crates", "planted", "proofs", "down", "Proof.antt"), "")
        self.is_wrong("proofs/down has a proof by hand, which may be of a recursion", "--proofs")

    def test_two_folders(self):
        crate(self.root, "planted", DOWN, folders={"+down": DOWN_PROOF, "+again": DOWN_PROOF})
        self.is_wrong("planted::down have two folders +", "--proofs")

    def test_no_parameter(self):
        self.measured("decreases-one l = depth l", "decreases-two l = l.n")
        self.is_wrong("planted::one: the measure has what is no parameter: depth l")

    def test_measure_missing(self):
        self.measured("decreases-one l = l.from")
        self.is_wrong("no folder + has a proof of the circle of calls planted::one, planted::two")

    def test_no_measure(self):
        self.measured("decreases-loop-i l = l.from")
        self.is_wrong("crates/planted/proofs/+both/Invariants.antt states no measure of a function")

    def test_measure_twice(self):
        self.measured("decreases-one l = l.from", "decreases-one l = l.until", "decreases-two l = l.n")
        self.is_wrong("decreases-one is stated twice")

    def test_proofs_alone(self):
        """Without the kit: folders that are the document's, and others; and of a function that has to be a loop."""
        self.measured("decreases-one l = l.until - l.from", "decreases-two l = l.n")
        rows = ["| `planted::one` | the library | `until - from` | 80 |", "| with `planted::two` | the library | `n` | |"]
        for lines, status in (
            (rows, 0), (rows[:1], 1), ([*rows, rows[1]], 1), (rows[::-1], 1), ([rows[0].replace("from", "until"), rows[1]], 1),
            ([rows[0].replace("80", "88"), rows[1]], 0),
        ):
            write(os.path.join(self.root, calls.DOCUMENT), "\n".join([calls.MARK.strip(), "| head |", "|---|", *lines, calls.END]))
            with self.subTest(lines), mock.patch.object(calls, "generated", None):
                got, out, err = told("--proofs", self.root)
                self.assertEqual((got, err, out == ""), (status, "", status == 0), out)
        with mock.patch.object(calls, "LOOPS", ("planted::two",)):
            self.assertEqual(told("--proofs", self.root), (1, "planted::two has to be a loop, and has a proof of a function that reaches itself\n", ""))


def function(name, *callees):
    """A module as the kit makes it, with its path."""
    lines = "".join(f"\npub calls-{callee} :\n    Wired γ code\n" for callee in callees)
    return "/".join(name.split("::")[1:]) + "/Code", f"abbrev pub function : Syntax.Fn\n{lines}"


def codes(*functions):
    return dict(functions)


def member(folder, name, *keys, handed=()):
    """A module of a function in a folder `+..` of the crate a, which calls these of the folder, and hands others on."""
    used = "".join(f"use Rattle.a.specs.contracts.{key}.Key as Key'\n" for key in keys)
    return f"{folder}/Code/+{name}", used + "".join(f'(List.◌∷◌ "{one}" List.[])\n' for one in handed)


class Modules(unittest.TestCase):
    """What the kit makes, and what it does not."""

    def read(self, *functions, name="a", known=()):
        return {one: set(found.named) for one, found in calls.functions_of(codes(*functions), name, dict.fromkeys(known), {"a", "b"}).items()}

    def is_wrong(self, sentence, *functions):
        with self.assertRaisesRegex(calls.Wrong, re.escape(sentence)):
            self.read(*functions)

    def test_read(self):
        found = self.read(function("a::f", "a::m::g", "core::c"), function("a::m::g"), ("f/Code/Mir", "\npub calls-a::f :"), ("n/+h/Code", "\npub calls-core::d :"),
                          member("n/+h", "h", "n.h"))
        self.assertEqual(found, {"a::f": {"a::m::g", "core::c"}, "a::m::g": set(), "a::n::h": {"a::n::h", "core::d"}})

    def test_passed_on(self):
        """A member's own module says where the member is."""
        own, (place, text) = ("h/Code", "use Rattle.a.proofs.+h.Code\n"), function("a::f", "a::h")
        for caller in (text, own[1] + text):
            self.assertEqual(self.read((place, caller), ("+h/Code", ""), member("+h", "h", "h"), own), {"a::f": {"a::h"}, "a::h": {"a::h"}})
        self.is_wrong("a::h is said to be in a.proofs.+h.Code, and is not", function("a::f"), own)

    def test_known(self):
        self.assertEqual(self.read(function("b::f", "a::g"), name="b", known=["a::g"]), {"b::f": {"a::g"}})
        self.is_wrong("a::f calls a::g, which is defined nowhere", function("a::f", "a::g"))

    def test_unknown_calls(self):
        self.is_wrong("a: f has 1 calls, and 0 are read", ("f/Code", "\npub calls-a::f(γ)\n"))
        self.is_wrong("a::h has calls that this tool does not know: a::g", ("+h/Code", ""), member("+h", "h", "g"))
        self.is_wrong("a::h has calls that this tool does not know: a::b::specs::contracts::g", ("+h/Code", ""), ("+h/Code/+h", "use Rattle.b.specs.contracts.g.Key\n"))

    def test_handed_on(self):
        """A function that hands one of its folder on, and one of no folder, and one of the kit's."""
        lines = "\npub calls-a::g :\n\npub calls-core::any :\n"
        found = self.read(("+h/Code", lines), member("+h", "h", handed=["a::k+Fn::call", "a::g", "core::next"]), member("+h", "k+Fn-call", "h"), function("a::g"))
        outside = {"a::g", "core::any"}
        self.assertEqual(found, {"a::h": {"a::k+Fn::call"} | outside, "a::k+Fn::call": {"a::h"} | outside, "a::g": set()})

    def test_own_impl(self):
        """What is in quotes in a function's module or what it is made of; a trait's own body calls none of them."""
        lines, own = ("f/Code", '"a::f" "b::g" "core::f"'), ("f/Code/Mir", '"a::g"')
        self.assertEqual(self.read(lines, own, function("a::g")), {"a::f": {"a::f", "a::g"}, "a::g": set()})
        drop = "a::Destruct++none::drop"
        for callees, handed in (([], set()), ([drop], set()), (["core::last"], {"a::f", "a::g"})):
            place, body = function("a::f", calls.OWN_BODY, *callees)
            found = self.read((place, body + lines[1]), own, function("a::g"), function(drop))
            self.assertEqual(found["a::f"], {calls.OWN_BODY, *callees} | handed)

    def test_no_circle(self):
        """The kit has a folder for functions that call one another; so have they by what is read."""
        self.is_wrong("a: +h is no circle by the calls that are read", ("+h/Code", ""), member("+h", "h"))
        self.is_wrong("a: +h is no circle by the calls that are read", ("+h/Code", ""), member("+h", "h", "h"), member("+h", "k", "h"))

    def test_twice(self):
        one = ("+h/Code", ""), member("+h", "h", "h")
        self.is_wrong("a::h is there twice", *one, ("+g/Code", ""), member("+g", "h", "h"))
        self.is_wrong("a::h is there twice", *one, function("a::h", "core::c"))

    def test_nothing(self):
        self.is_wrong("a: +h has no functions", ("+h/Code", ""))
        self.is_wrong("a has modules and no functions", ("f/Code/Mir", ""))

    def test_through_crates(self):
        """A circle that goes from crate to crate and back."""
        graph = calls.Graph()
        graph.add("a", {"a::f": calls.Function({"b::g"}), "b::g": calls.Function({"b::h"}), "b::h": calls.Function({"a::f", "core::c"})})
        graph.add("b", {"b::i": calls.Function({"b::g"})})
        self.assertEqual((calls.circles(graph.calls()), graph.kit), ([["a::f", "b::g", "b::h"]], {"core::c"}))
        self.assertEqual(graphs.way_round(graph.calls(), {"b::i"}), ["b::i", "b::g", "b::h", "a::f", "b::g"])

    def test_library(self):
        """What exports reaches, and not the kit's."""
        graph = calls.Graph()
        graph.add("a", {"a::f": calls.Function({"core::c"}), "a::g": calls.Function(set())})
        graph.add("exports", {"exports::e": calls.Function({"a::f"})})
        graph.add("list", {"list::main": calls.Function({"a::g"})})
        self.assertEqual(graph.library, {"a::f", "exports::e"})

    def test_who_calls_step(self):
        """It reaches no circle, on which it is or not; who calls it may."""
        for step in calls.STEPS:
            with self.subTest(step):
                graph = {step: set(), "a::loop": {step}, "a::turn": {"a::turn"}, "a::top": {"a::loop", "a::turn"}}
                self.assertIsNone(graphs.way_round(graph, calls.have_to_be_loops(graph)))
                graph["a::loop"].add("a::turn")
                self.assertEqual(graphs.way_round(graph, calls.have_to_be_loops(graph)), ["a::loop", "a::turn", "a::turn"])
                graph.update({"a::loop": {step}, "a::turn": {"a::top"}})
                self.assertEqual(graphs.way_round(graph, calls.have_to_be_loops(graph)), ["a::top", "a::turn", "a::top"])

    def test_deep(self):
        """Longer than the stack of Python allows a recursion."""
        count = 20_000
        names = [f"a::f{number}" for number in range(count)]
        graph = {name: {names[(number + 1) % count]} for number, name in enumerate(names)}
        self.assertEqual(calls.circles(graph), [sorted(names)])
        graph[names[-1]] = set()
        self.assertEqual(calls.circles(graph), [])


LAST_NAME = """
fn last_name(scope: %s, n: usize, k: usize) -> usize {
    if k == 0 {
        return n;
    }"""

# The name after n, in what comes behind.
NEXT_NAME = """    let Some(link) = scope.step(n) else {
        return n;
    };
    let Some(next) = link.next else {
        return n;
    };"""


class Planted(InFolder):
    """A recursion in a copy of the real sources."""

    def copy(self, name):
        """The crate and what it stands on, which is proved, and as it was."""
        patch = mock.patch.object(calls, "generated", lambda root, one: GENERATED(root, one) if one == name else real(one))
        patch.start()
        self.addCleanup(patch.stop)
        crates = calls.crates_of(calls.ROOT)
        needed = graphs.reached({one: set(below) & set(crates) for one, below in crates.items()}, {name})
        write(os.path.join(self.root, "crates.txt"), "".join(f"{one}: {' '.join(below)}\n" for one, below in crates.items() if one in needed))
        for one in needed:
            source = os.path.abspath(os.path.join(calls.ROOT, "crates", one))
            shutil.copytree(source, os.path.join(self.root, "crates", one), ignore=lambda path, _: ["incremental"] if path == f"{source}/out" else [])

    def edit(self, path, change):
        path = os.path.join(self.root, "crates", path)
        with open(path, encoding="utf-8") as file:
            text = file.read()
        self.assertNotEqual(change(text), text)
        write(path, change(text))

    def without_proof(self, path, name):
        """The kit wants the proof of a function that is in a circle, or is no more, nowhere else."""
        for folder, names, _ in os.walk(os.path.join(self.root, "crates", path.split("/")[0], "proofs")):
            if name in names:
                shutil.rmtree(os.path.join(folder, name))
                names.remove(name)

    def plant(self, path, caller, call):
        """A call as the first statement of a function."""
        self.without_proof(path, caller)
        self.edit(path, lambda text: re.sub(rf"(\bfn {caller}\(.*?\n *{{\n)", rf"\1    {call};\n", text, count=1, flags=re.DOTALL))

    def in_cycle(self, path, *names):
        """The kit asks for a word at each of several functions that call one another."""
        for name in names:
            self.without_proof(path, name)
            self.edit(path, lambda text: re.sub(rf"^( *)((pub )?fn {name}\()", r"\1#[cycle(turn)]\n\1\2", text, count=1, flags=re.MULTILINE))

    def last_name(self, module, lines):
        """A recursion along names, with a proof folder as the tool asks for."""
        crate_name, file = module.split("::")
        self.copy(crate_name)
        self.edit(f"{crate_name}/src/{file}.rt", lambda text: text + "\n".join(lines) + "\n")
        folder = os.path.join(self.root, "crates", crate_name, "proofs", file, "+last_name")
        write(os.path.join(folder, "Invariants.antt"), "decreases-last_name l = l.k\n")
        self.goes(f"{module}::last_name", f"{module}::last_name")

    def goes(self, *way):
        status, out, err = told(self.root)
        self.assertEqual((status, out.splitlines()[-1:], err), (1, [" -> ".join(way)], ""))

    def test_nothing_planted(self):
        """The copy is read, up to where the crates above are missing."""
        self.copy("environment")
        self.is_wrong("syntax::actor::Resolver::chase_service has to be a loop and is not there")

    def test_alias_end(self):
        self.copy("environment")
        self.plant("environment/src/scope.rt", "alias_end", "self.alias_end(left, node)")
        self.goes("environment::scope::Scope::alias_end", "environment::scope::Scope::alias_end")
        done = subprocess.run([sys.executable, calls.__file__, self.root], capture_output=True, encoding="utf-8")
        self.assertEqual(done.returncode, 1)
        self.assertIn("environment::scope::Scope::alias_end -> environment::scope::Scope::alias_end", done.stdout)

    def test_find_ends(self):
        """From a function that it calls back to it."""
        self.copy("environment")
        self.plant("environment/src/scope.rt", "note", "let _ = self.find_ends(0, ends)")
        self.in_cycle("environment/src/scope.rt", "find_ends", "note")
        self.goes("environment::scope::Scope::find_ends", "environment::scope::Scope::note", "environment::scope::Scope::find_ends")

    def test_as_func(self):
        self.copy("environment")
        self.plant("environment/src/lib.rt", "look_up", "let _ = as_func(rows, ends, node)")
        self.in_cycle("environment/src/lib.rt", "look_up", "as_func")
        self.goes("environment::as_func", "environment::look_up", "environment::as_func")

    def test_new_function(self):
        """Of the crate of the tables, called by nothing."""
        self.copy("environment")
        self.edit("environment/src/lib.rt", lambda text: text + "fn new_one(n: usize) -> usize {\n    new_one(n)\n}\n")
        self.goes("environment::new_one", "environment::new_one")

    def test_merge(self):
        """The comparison of trees may recurse, with a proof."""
        self.copy("environment")
        self.plant("environment/src/merge.rt", "same_roots", "let _ = self.same_roots(init, main, n)")
        self.is_wrong("no folder + has a proof of the circle of calls environment::merge::Comparison::same_roots")

    def test_renamed(self):
        self.copy("environment")
        self.edit("environment/src/lib.rt", lambda text: text.replace("fn names_crossed", "fn crossed_names"))
        self.without_proof("environment/src/lib.rt", "names_crossed")
        self.is_wrong("environment::names_crossed has to be a loop and is not there")

    def test_follower(self):
        """Whoever calls `step`, wherever it is."""
        for module, scope in (("passed::alias", "Scope"), ("environment::merge", "crate::scope::Scope")):
            with self.subTest(module):
                self.setUp()
                self.last_name(module, [LAST_NAME % scope, NEXT_NAME, "    last_name(scope, next, k - 1)", "}"])

    def test_follower_through_another(self):
        """Each level has another function call `step`, which is a loop."""
        self.last_name("passed::alias", [
            LAST_NAME % "Scope", "    last_name(scope, next_name(scope, n), k - 1)", "}",
            "fn next_name(scope: Scope, n: usize) -> usize {", NEXT_NAME, "    next", "}"])

    def test_between_definitions(self):
        """Where names lead to definitions all is a loop, whether it follows aliases or not."""
        for name in ("analysis", "inhabitants"):
            with self.subTest(name):
                self.setUp()
                self.copy(name)
                self.edit(f"{name}/src/lib.rt", lambda text: text + DOWN)
                self.goes(f"{name}::down", f"{name}::down")

    def test_service(self):
        self.copy("syntax")
        self.plant("syntax/src/actor.rt", "service_at", "let _ = service_at(rows, e, other)")
        self.goes("syntax::actor::Resolver::chase_service", "syntax::actor::service_at", "syntax::actor::service_at")

    def test_other_function(self):
        """What need not be a loop may recurse with a proof; the chase is as before."""
        self.copy("syntax")
        self.plant("syntax/src/actor.rt", "written", "let _ = written(rows, ends, root)")
        self.is_wrong("no folder + has a proof of the circle of calls syntax::actor::written")

    def test_last_crossed(self):
        self.copy("passed")
        self.plant("passed/src/alias.rt", "last_crossed", "last_crossed(scope, n, crossed)")
        self.goes("passed::alias::last_crossed", "passed::alias::last_crossed")

    def test_below(self):
        """In the reader of nodes, without a proof: no crate above is read."""
        self.copy("book")
        self.plant("book/src/read.rt", "half", "Node::at(bytes, at)")
        self.in_cycle("book/src/read.rt", "half", "at")
        self.is_wrong("no folder + has a proof of the circle of calls book::read::Node::at, book::read::half")

    def test_far_below(self):
        """In the reader of nodes, as if the kit made the crates above of it."""
        def made(_, name):
            found = real(name)
            if name == "book":
                place, half = "read/half/Code", found["read/half/Code"]
                found = {**found, place: half.replace("\npub calls-core::int::u16::from_le_bytes :", "\npub calls-book::read::Node::at :")}
                self.assertNotEqual(found[place], half)
            return found

        with mock.patch.object(calls, "generated", made), mock.patch.object(calls, "check_proved"):
            status, out, _ = told()
        self.assertEqual(status, 1)
        self.assertRegex(out, r"\nenvironment::\w+ -> book::read::Node::at -> book::read::half -> book::read::Node::at\n$")


def code(name, *lines):
    """As objdump prints a function: instructions, with `@SYMBOL` where a symbol is put in."""
    text = ["", f"Disassembly of section .text.{name}:", "", f"0000000000000000 <{name}>:"]
    for at, line in enumerate(lines):
        instruction, _, symbol = line.partition(" @")
        text.append(f"   {at:x}:\t{instruction}")
        text += [f"\t\t\t{at:x}: R_X86_64_PLT32\t{symbol}-0x4"] if symbol else []
    return text


class MachineCode(unittest.TestCase):

    def levels(self, *functions, tables=()):
        lines = {"-dr": ["a.o:     file format elf64-x86-64", *(line for one in functions for line in one)], "-r": tables}
        with mock.patch.object(stacks, "objdump", lambda option, path: lines[option]):
            found = stacks.machine_functions("a.o")
            stacks.check_tables("a.o", found)
            return stacks.levels(found, stacks.machine_calls("a.a", found))

    def is_wrong(self, sentence, *functions, tables=()):
        with self.assertRaisesRegex(calls.Wrong, sentence):
            self.levels(*functions, tables=tables)

    def test_frame(self):
        """Saved registers, the frame, the return address; a way out before them is another length."""
        self.assertEqual(self.levels(code("f", "test   %edi,%edi", "jne    3 <f+0x3>", "ret", "push   %rbx", "sub    $0x58,%rsp", "call   0 <f>",
                                          "add    $0x58,%rsp", "pop    %rbx", "ret")), {("f",): 8 + 88 + 8})

    def test_no_circle(self):
        self.assertEqual(self.levels(code("f", "push   %rbx", "call   9 <f+0x9> @g", "call   9 <f+0x9> @memset", "pop    %rbx", "ret"),
                                     code("g", "call   0 <g+0x5> @memcpy", "jmp    0 <g>")), {})

    def test_frame_of_128(self):
        self.assertEqual(self.levels(code("f", "sub    $0xffffffffffffff80,%rsp", "call   0 <f>", "sub    $0x80,%rsp", "call   0 <f>",
                                          "add    $0x80,%rsp", "add    $0xffffffffffffff80,%rsp", "ret")), {("f",): 8})

    def test_longest_way(self):
        """Of f, g, f and of f, h, g, f; by the section's name or the symbol's."""
        self.assertEqual(self.levels(
            code("f", "push   %rbx", "call   9 <f+0x9> @.text.g", "call   9 <f+0x9> @.text.unlikely.h", "pop    %rbx", "ret"),
            code("g", "sub    $0x10,%rsp", "call   9 <g+0x9> @f", "add    $0x10,%rsp", "ret"),
            code("h", "sub    $0x100,%rsp", "call   9 <h+0x9> @g", "add    $0x100,%rsp", "ret")), {("f", "g", "h"): 16 + 24 + 264})

    def test_last_call(self):
        """A jump to a function leaves nothing."""
        self.assertEqual(self.levels(code("f", "push   %rbx", "call   9 <f+0x9> @g", "pop    %rbx", "ret"), code("g", "jmp    9 <g+0x9> @f")),
                         {("f", "g"): 16})

    def test_table(self):
        """A call that only a table of jumps leads to."""
        body = ("push   %rbx", "lea    0x0(%rip),%rax @.rodata.f", "jmp    *%rax", "call   0 <f>", "pop    %rbx", "ret")
        tables = ["RELOCATION RECORDS FOR [.rodata.f]:", "OFFSET           TYPE              VALUE", "0000000000000000 R_X86_64_PC32     .text.f+0x3"]
        self.assertEqual(self.levels(code("f", *body), tables=tables), {("f",): 16})
        other = code("g", "ret")
        self.is_wrong(r"\.rodata\.f points to g", code("f", *body), other, tables=[*tables, "0000000000000004 R_X86_64_PC32     .text.g+0x0"])
        self.assertEqual(self.levels(code("f", "lea    0x0(%rip),%rax @.rodata.g", "ret"), code("g", "call   0 <g+0x5> @f", "ret")), {("f", "g"): 8})

    def test_unknown(self):
        for sentence, lines in (
            ("a call that is not direct", ["call   *%rax"]), ("a call that is not direct", ["call   3 <f+0x3>"]),
            ("f calls qsort, which is no function", ["call   9 <f+0x9> @qsort"]), ("moves the stack", ["and    $0xfffffffffffffff0,%rsp"]),
            ("moves the stack", ["pushf"]), ("moves the stack", ["mov    %rbp,%rsp"]),
            ("moves the stack", ["lea    -0x8(%rsp),%rsp"]), ("moves the stack", ["leave"]),
            ("two lengths", ["push   %rbx", "jmp    0 <f>"]), ("returns with another stack", ["push   %rbx", "ret"]),
            ("goes where no instruction is", ["jmp    77 <f+0x77>"]), ("it is not clear", ["jmp    3 <f+0x3>", "nop", "ret"]),
        ):
            with self.subTest(sentence=sentence, lines=lines):
                self.is_wrong(sentence, code("f", *lines, "call   0 <f>", "ret"))
        self.is_wrong("after its end", code("f", "call   0 <f>"))
        self.is_wrong("an instruction of f has two symbols", code("f", "mov    %rax,%rbx @f") + ["\t\t\t2: R_X86_64_PC32\tg-0x4"])
        self.is_wrong("has no section of its own", code("f", "ret")[:-2] + ["0000000000000000 <g>:"])
        self.is_wrong("objdump says what this tool does not know", ["what"])

    def test_deepest_call(self):
        """Of two calls the one on the longer stack, whichever comes first."""
        self.assertEqual(self.levels(code("f", "push   %rbx", "push   %rax", "call   0 <f>", "pop    %rax", "call   0 <f>", "pop    %rbx", "ret")),
                         {("f",): 24})

    def test_two_tables(self):
        """Jumps by tables with two lengths of the stack; with one, and with another that only the first leads to."""
        one, two = ("jne    3 <f+0x3>", "jmp    *%rax", "nop"), ("push   %rbx", "jmp    *%rax")
        call = ("call   0 <f>", "ret")
        self.is_wrong("it is not clear how long the stack is at 0x5", code("f", *one, *two, *call))
        self.assertEqual(self.levels(code("f", *one, "jmp    *%rax", *call)), {("f",): 8})
        self.is_wrong("it is not clear how long the stack is at 0x3", code("f", "jmp    *%rax", *call, *two))

    def stacks(self, found, *texts):
        """Of objects with these functions."""
        lines = {f"{number}.o": text for number, text in enumerate(texts)}
        with mock.patch.object(stacks, "objdump", lambda option, path: lines[path] if option == "-dr" else []):
            return stacks.stacks("", list(lines), {"a"}, found)

    def test_most(self):
        """Of two objects the one with the longer stack, whichever comes first."""
        long, short = code("a::f", "push   %rbx", "call   0 <a::f>", "pop    %rbx", "ret"), code("a::f", "call   0 <a::f>", "ret")
        for objects in ((long, short), (short, long)):
            self.assertEqual(self.stacks([["a::f"]], *objects), ([16], 2))

    def test_other_circle(self):
        """A circle of the machine code that the graph has not; one by another name, as the compiler makes them; and one of the kit's alone."""
        for name in ("a::f.llvm.12", "a::f::<#0a1b>", "a::f::<#0a1b>.llvm.12"):
            lines = code(name, f"call   0 <{name}>", "ret")
            self.assertEqual(self.stacks([["a::e"], ["a::f", "a::g"]], lines), ([0, 8], 1))
        lines = code("core::f", "call   0 <core::f>", "ret")
        self.assertEqual(self.stacks([["a::e"]], lines), ([0], 1))
        lines = code("a::f.llvm.12", "call   0 <a::f.llvm.12>", "ret")
        with self.assertRaisesRegex(calls.Wrong, "0.o: the machine code has a circle that the graph has not: a::f.llvm.12"):
            self.stacks([["a::e"]], lines)


class Crates(unittest.TestCase):
    """The crates as they are."""

    def setUp(self):
        with open(os.path.join(calls.ROOT, calls.DOCUMENT), encoding="utf-8") as file:
            self.document = file.read()
        self.table = self.document.split(calls.MARK)[1].split(calls.END)[0]

    def test_whole(self):
        """The document's table is the tool's, and has these circles."""
        with mock.patch.object(calls, "generated", lambda root, name: real(name)):
            status, out, err = told("--stack", "--docs")
        self.assertEqual((status, err), (0, ""), out)
        self.assertTrue(out.endswith("\n\n" + self.table))
        self.assertRegex(out, r"functions have to be loops, and reach \d+ others: none of them is on a circle\n")
        row = re.compile(r"\| (with )?`([\w:]+)` \| (?:the library|programs alone) \| `[^`|]+` \| ?(\d*) \|")
        found = [row.fullmatch(line) for line in self.table.splitlines()[2:]]
        self.assertEqual([one[2] for one in found], [name for members in CIRCLES for name in members])
        self.assertEqual([one[2] for one in found if not one[1]], [members[0] for members in CIRCLES])
        self.assertTrue(all((one[3] == "") if one[1] else int(one[3]) >= 8 for one in found))

    def test_loops(self):
        """What has to be a loop is read, and reaches what it is known to reach."""
        with mock.patch.object(calls, "generated", lambda root, name: real(name)):
            graph, path = calls.read(calls.ROOT, calls.generated)
        self.assertIsNone(path)
        found = graph.calls()
        loops = calls.have_to_be_loops(found)
        self.assertLessEqual({*calls.LOOPS, "environment::scope::Scope::follow", "environment::scope::Scope::note", "environment::look_up",
                              "environment::root_of", "passed::alias::last_crossed", "analysis::chase::chase_actor",
                              "analysis::use_counts::count_uses", "analysis::reaching::find_nearest", "analysis::def_use::Searched::methods",
                              "analysis::methods::method_names",
                              "inhabitants::empty::empty_names", "inhabitants::filling::fill", "inhabitants::counting::NodeValues::count"}, loops)
        self.assertNotIn("environment::merge::Comparison::same_trees", loops)
        known = {"book::read::Node::at", "book::read::half", "book::walks::SiblingsIterator::next", "syntax::actor::service_at"}
        self.assertLessEqual(known, calls.reached(found, loops))
        self.assertLessEqual({"exports::ludzepin_check", "list::main", "answer_batch::main", "std_io::io::LibcRuntimePrint::write_all"}, set(found))

    def test_other_document(self):
        """A measure, a row or a number that is not the tool's."""
        with tempfile.TemporaryDirectory() as folder, mock.patch.object(calls, "generated", lambda root, name: real(name)), \
                mock.patch.object(calls, "DOCUMENT", os.path.join(folder, "document")):
            for old, new, options, status in (
                ("", "", ["--stack"], 0), ("| 80 |", "| 81 |", ["--stack"], 1), ("| 80 |", "| 81 |", [], 0),
                ("`a.until - a.at`", "`a.at - a.until`", [], 1), ("::services_fit`", "::services_fits`", [], 1), (calls.MARK, "", [], 2),
            ):
                write(calls.DOCUMENT, self.document.replace(old, new))
                with self.subTest(new):
                    self.assertEqual(told("--docs", *options)[0], status)


def outcome(name):
    """Of a test, by its name: what there is to say if it fails."""
    said = io.StringIO()
    passed = unittest.TextTestRunner(stream=said).run(unittest.defaultTestLoader.loadTestsFromName(name, sys.modules[__name__])).wasSuccessful()
    return "" if passed else said.getvalue()


def side_by_side():
    """Runs the tests in as many processes as there are processors, each with what was read of the crates. The exit status; the output as unittest's."""
    begin = time.monotonic()
    for name in calls.crates_of(calls.ROOT):
        real(name)
    names = [".".join(test.id().split(".")[1:]) for tests in unittest.defaultTestLoader.loadTestsFromModule(sys.modules[__name__]) for test in tests]
    with multiprocessing.get_context("fork").Pool() as pool:
        failed = 0
        for name, said in zip(names, pool.imap(outcome, names)):
            failed += said != ""
            print(f"{said}{name} ... {'FAIL' if said else 'ok'}", file=sys.stderr, flush=True)
    print(f"\nRan {len(names)} tests in {time.monotonic() - begin:.0f} s\n\n{f'FAILED (failures={failed})' if failed else 'OK'}", file=sys.stderr)
    return 1 if failed else 0


if __name__ == "__main__":
    sys.exit(unittest.main() if len(sys.argv) > 1 else side_by_side())
