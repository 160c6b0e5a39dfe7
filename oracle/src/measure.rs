//! The stack of each exported function, and stack and heap of the customer's Rust, on the same books.
//!
//! A call runs on a stack of its own, of which no page is there before. The lowest page that is there afterwards tells what was touched.

use super::*;
use crate::counting::heap_of;
use crate::ours::{Question, Verdict};
use std::arch::asm;
use std::ffi::c_void;

// Stacks

const SIZE: usize = 256 << 20;
const PAGE: usize = 4096;

extern "C" {
    fn mmap(place: *mut c_void, size: usize, protection: i32, flags: i32, file: i32, offset: i64) -> *mut c_void;
    fn madvise(place: *mut c_void, size: usize, advice: i32) -> i32;
    fn mincore(place: *mut c_void, size: usize, pages: *mut u8) -> i32;
}

/// Of x86-64 Linux: readable and writable; private and anonymous; pages no longer needed; no large pages.
const PROTECTION: i32 = 1 | 2;
const FLAGS: i32 = 0x02 | 0x20;
const DONT_NEED: i32 = 4;
const NO_HUGE_PAGES: i32 = 15;

struct Stack(*mut u8);

impl Stack {
    fn new() -> Stack {
        unsafe {
            let place = mmap(std::ptr::null_mut(), SIZE, PROTECTION, FLAGS, -1, 0);
            assert!(place as isize != -1, "no room for a stack");
            // Refused by a system that has no large pages.
            madvise(place, SIZE, NO_HUGE_PAGES);
            Stack(place as *mut u8)
        }
    }

    fn call(&self, mut call: &mut dyn FnMut()) {
        extern "C" fn enter(call: *mut &mut dyn FnMut()) {
            unsafe { (*call)() }
        }
        unsafe {
            asm!(
                "mov r12, rsp",
                "mov rsp, {top}",
                "call {enter}",
                "mov rsp, r12",
                top = in(reg) self.0.add(SIZE),
                enter = in(reg) enter as extern "C" fn(*mut &mut dyn FnMut()),
                inout("rdi") &raw mut call => _,
                out("r12") _,
                clobber_abi("C"),
            )
        }
    }

    /// The bytes from the top down to the lowest that was touched.
    fn touched(&self) -> usize {
        let mut pages = vec![0; SIZE / PAGE];
        unsafe { assert_eq!(mincore(self.0 as *mut c_void, SIZE, pages.as_mut_ptr()), 0) };
        let Some(page) = pages.iter().position(|page| page & 1 != 0) else {
            return 0;
        };
        let lowest = unsafe { std::slice::from_raw_parts(self.0.add(page * PAGE), PAGE) };
        SIZE - page * PAGE - lowest.iter().position(|byte| *byte != 0).unwrap_or(0)
    }

    /// What calls take, the most of all.
    fn taken(&self, calls: &mut dyn FnMut(&Stack)) -> usize {
        unsafe { assert_eq!(madvise(self.0 as *mut c_void, SIZE, DONT_NEED), 0) };
        calls(self);
        self.touched()
    }
}

// Questions

/// Those that are asked with something, by their words; the others are in tables of ours.rs.
const MARKS: &str = "marks";
const USES: &str = "uses";
const ALIAS: &str = "alias";
const NUMBERS: &str = "values";
const PROJECT: &str = "project";
const METHODS: &str = "methods";

/// The words of all questions.
fn words() -> impl Iterator<Item = &'static str> {
    let verdicts = ours::VERDICTS.iter().map(|question| question.0);
    verdicts.chain(ours::OF_BOOK.iter().map(|question| question.0)).chain([NUMBERS, MARKS, USES, ALIAS, PROJECT, METHODS])
}

/// The names that values, uses, alias chains, projection and methods are asked of: so many, the last one, and a number outside the table.
const ASKED: usize = 32;

/// Asks ours, so that nothing but an exported function runs on the stack. Marks are asked over the list, projection also of all methods, and the
/// methods that change also with all names.
fn ask_ours(stack: &Stack, word: &str, bytes: &[u8], names: usize, out: &mut [u16]) {
    let mut ask = |question: Question| {
        stack.call(&mut || {
            black_box(question.ask(bytes, FULL, out));
        })
    };
    let verdict = |check: Verdict| {
        stack.call(&mut || {
            black_box(check(bytes, FULL));
        })
    };
    let each = (0..names).filter(|number| *number < ASKED || number + 1 == names).chain([ours::NAMES]).map(|number| number as u16);
    match word {
        MARKS => {
            let mut list = [0; DEFINITIONS];
            let count = if let Answer::Given(count) = ours::list(bytes, FULL, &mut list) { count } else { 0 };
            ask(Question::Marks(&list[..count]));
        }
        USES => each.for_each(|name| ask(Question::Uses(name))),
        ALIAS => each.for_each(|name| {
            stack.call(&mut || {
                black_box(ours::alias(bytes, FULL, name));
            })
        }),
        NUMBERS => each.for_each(|name| {
            stack.call(&mut || {
                black_box(ours::values(bytes, FULL, name));
            })
        }),
        PROJECT => {
            ask(Question::Project(&offered(bytes)));
            each.for_each(|name| ask(Question::Project(&[name])));
        }
        METHODS => {
            ask(Question::Methods(&(0..names as u16).collect::<Vec<_>>()));
            each.for_each(|name| ask(Question::Methods(&[name])));
        }
        _ => {
            ours::VERDICTS.iter().filter(|question| question.0 == word).for_each(|question| verdict(question.1));
            ours::OF_BOOK.iter().filter(|question| question.0 == word).for_each(|question| ask(question.1));
        }
    }
}

/// The names of the methods in main's service, as the oracle's reader of books finds them.
fn offered(bytes: &[u8]) -> Vec<u16> {
    let book = book::read(bytes);
    let tree = book.as_ref().and_then(|book| book.files[0].tree.as_ref());
    let service = tree.and_then(|tree| if tree.kind == book::CLASS { tree.kids.last() } else { Some(tree) });
    let methods = service.filter(|tree| tree.kind == book::SERVICE).map_or(&[][..], |tree| &tree.kids);
    methods.iter().map(|method| method.label as u16).collect()
}

/// Asks the Rust, as far as it comes. What it makes is dropped within.
fn ask_rust(word: &str, merged: &IDLMergedProg, init: &Option<IDLInitArgs>) -> Option<()> {
    if word.starts_with("init") && init.is_some() {
        return own_init_call(word, init_check(merged, init).ok()?);
    }
    own_call(word, check(merged).ok()?)
}

/// With what it is asked of built within, as in a benchmark.
fn ask_built(word: &str, own: &Texts) -> Option<()> {
    if word == DRAFT {
        return own.draft().ok().map(drop);
    }
    ask_rust(word, &own.merged().ok()?, &own.init())
}

/// Runs on a stack what may not end; tells whether it did.
fn ends(stack: &Stack, run: &mut dyn FnMut() -> Option<()>) -> bool {
    let mut ended = false;
    stack.call(&mut || {
        stacker::begin(SIZE);
        ended = guarded(STEPS, || Ok(run())).is_ok();
    });
    stacker::begin(crate::STACK);
    ended
}

fn measure(name: &str, bytes: &[u8], stack: &Stack, out: &mut [u16]) {
    let book = book::read(bytes);
    let names = book.as_ref().map_or(0, |book| book.names.len());
    let own = book.as_ref().and_then(|book| Some(Texts { book, names: texts(book.names.clone())?, renamed: false }));
    // A book with a repeated label is not asked, nor one with a method ring: its answers come from other functions.
    let own = own.filter(|own| own.book.repeat().is_none() && !has_ring(own.book, false) && !has_ring(own.book, true));
    let nodes = bytes.get(12..16).map_or(0, |count| u32::from_le_bytes(count.try_into().expect("four bytes")));
    for word in words() {
        let ours = stack.taken(&mut |stack| ask_ours(stack, word, bytes, names, out));
        let mut told = ["-", "-", "-"].map(String::from);
        if let Some(own) = &own {
            let mut ended = false;
            let rust = stack.taken(&mut |stack| ended = ends(stack, &mut || ask_built(word, own)));
            if ended {
                let built = heap_of(|| _ = ends(stack, &mut || ask_built(word, own)));
                told = [rust.to_string(), built.to_string(), "-".into()];
                if let (Ok(merged), true) = (own.merged(), word != DRAFT) {
                    let init = own.init();
                    let alone = heap_of(|| _ = ends(stack, &mut || ask_rust(word, &merged, &init)));
                    told[2] = alone.to_string();
                }
            }
        }
        println!("{name}\t{}\t{nodes}\t{word}\t{ours}\t{}", bytes.len(), told.join("\t"));
    }
}

/// Measures the books of a batch.
pub fn run() -> i32 {
    let stack = Stack::new();
    let mut out = vec![0; 3 * 4_200_000];
    println!("book\tbytes\tnodes\tquestion\tour stack\tRust stack\tRust heap\tRust heap alone");
    for Record { name, book, .. } in Batch(&batch()) {
        measure(name, book, &stack, &mut out);
    }
    0
}
