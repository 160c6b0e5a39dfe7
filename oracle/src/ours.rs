//! The reader's exported functions (crates/exports) on slices, and their answers in one form.

use crate::book::Limits;

extern "C" {
    fn ludzepin_check(book: *const u8, bytes: usize, names: u32, nodes: u32, definitions: u32) -> u32;
    fn ludzepin_init_check(book: *const u8, bytes: usize, names: u32, nodes: u32, definitions: u32) -> u32;
    fn ludzepin_list(book: *const u8, bytes: usize, names: u32, nodes: u32, definitions: u32, out: *mut u16, places: usize) -> u32;
    fn ludzepin_init_list(book: *const u8, bytes: usize, names: u32, nodes: u32, definitions: u32, out: *mut u16, places: usize) -> u32;
    fn ludzepin_draft_list(book: *const u8, bytes: usize, names: u32, nodes: u32, definitions: u32, out: *mut u16, places: usize) -> u32;
    fn ludzepin_emptiness(book: *const u8, bytes: usize, names: u32, nodes: u32, definitions: u32, out: *mut u16, places: usize) -> u32;
    fn ludzepin_marks(
        book: *const u8, bytes: usize, names: u32, nodes: u32, definitions: u32,
        list: *const u16, count: usize, out: *mut u16, places: usize,
    ) -> u32;
    fn ludzepin_project(
        book: *const u8, bytes: usize, names: u32, nodes: u32, definitions: u32,
        asked: *const u16, count: usize, out: *mut u16, places: usize,
    ) -> u32;
    fn ludzepin_uses(book: *const u8, bytes: usize, names: u32, nodes: u32, definitions: u32, name: u16, out: *mut u16, numbers: usize) -> u64;
    fn ludzepin_use_counts(book: *const u8, bytes: usize, names: u32, nodes: u32, definitions: u32, out: *mut u32, places: usize) -> u64;
    fn ludzepin_methods(
        book: *const u8, bytes: usize, names: u32, nodes: u32, definitions: u32,
        asked: *const u16, count: usize, out: *mut u16, places: usize,
    ) -> u32;
    fn ludzepin_alias(book: *const u8, bytes: usize, names: u32, nodes: u32, definitions: u32, name: u16) -> u64;
    fn ludzepin_values(book: *const u8, bytes: usize, names: u32, nodes: u32, definitions: u32, name: u16) -> u64;
}

/// The most that a book has.
pub const DEFINITIONS: usize = 512;
pub const NAMES: usize = 1024;
pub const METHODS: usize = 4096;

pub const SHORT: u32 = 16;
pub const OVER_LIMIT: u32 = 24;
pub const NO_NAME: usize = 65535;

/// Entries given, none for a check that is passed; or the number of a refusal and the number of its name, for 16 the entries needed.
#[derive(Clone, Copy, Debug, PartialEq)]
pub enum Answer {
    Given(usize),
    Refused(u32, usize),
}

fn answer(number: u64, low: u64) -> Answer {
    match number {
        0 => Answer::Given(low as usize),
        _ => Answer::Refused(number as u32, low as usize),
    }
}

fn of_half(code: u32) -> Answer {
    answer(code as u64 >> 16, code as u64 & 0xffff)
}

fn of_whole(code: u64) -> Answer {
    answer(code >> 32, code & 0xffff_ffff)
}

/// An empty slice is not read or written, so it has no place.
fn at(list: &[u16]) -> *const u16 {
    if list.is_empty() { std::ptr::null() } else { list.as_ptr() }
}

fn at_mut<T>(list: &mut [T]) -> *mut T {
    if list.is_empty() { std::ptr::null_mut() } else { list.as_mut_ptr() }
}

pub fn check(book: &[u8], [names, nodes, definitions]: Limits) -> Answer {
    of_half(unsafe { ludzepin_check(book.as_ptr(), book.len(), names, nodes, definitions) })
}

pub fn init_check(book: &[u8], [names, nodes, definitions]: Limits) -> Answer {
    of_half(unsafe { ludzepin_init_check(book.as_ptr(), book.len(), names, nodes, definitions) })
}

pub fn list(book: &[u8], limits: Limits, out: &mut [u16]) -> Answer {
    LIST.ask(book, limits, out)
}

/// Three numbers for an entry.
pub fn uses(book: &[u8], limits: Limits, name: u16, out: &mut [u16]) -> Answer {
    Question::Uses(name).ask(book, limits, out)
}

/// The definitions listed; a number in the list for each.
pub fn use_counts(book: &[u8], [names, nodes, definitions]: Limits, out: &mut [u32]) -> Answer {
    of_whole(unsafe { ludzepin_use_counts(book.as_ptr(), book.len(), names, nodes, definitions, at_mut(out), out.len()) })
}

/// What is given is one number, which `crossed` takes apart.
pub fn alias(book: &[u8], [names, nodes, definitions]: Limits, name: u16) -> Answer {
    of_whole(unsafe { ludzepin_alias(book.as_ptr(), book.len(), names, nodes, definitions, name) })
}

/// The names that an alias chain crosses, and the last of them.
pub fn crossed(given: usize) -> (usize, usize) {
    (given >> 16, given & 0xffff)
}

/// More values than any number that is given.
pub const MANY: usize = usize::MAX;

pub fn values(book: &[u8], [names, nodes, definitions]: Limits, name: u16) -> Answer {
    match unsafe { ludzepin_values(book.as_ptr(), book.len(), names, nodes, definitions, name) } {
        u64::MAX => Answer::Given(MANY),
        code => of_whole(code),
    }
}

/// A question with a lent list.
#[derive(Clone, Copy)]
pub enum Question<'a> {
    /// Of a book and nothing else, and answered with names.
    OfBook(unsafe extern "C" fn(*const u8, usize, u32, u32, u32, *mut u16, usize) -> u32),
    Marks(&'a [u16]),
    /// The list is one of 32 bits: each entry is two numbers here, and the first stands where such a list may begin.
    UseCounts,
    Uses(u16),
    Project(&'a [u16]),
    Methods(&'a [u16]),
}

pub type Verdict = fn(&[u8], Limits) -> Answer;

// The questions by their words in a line of answer_batch.

pub const VERDICTS: [(&str, Verdict); 2] = [("check", check), ("init-check", init_check)];

const LIST: Question = Question::OfBook(ludzepin_list);

pub const OF_BOOK: [(&str, Question); 5] = [
    ("list", LIST),
    ("init", Question::OfBook(ludzepin_init_list)),
    ("draft", Question::OfBook(ludzepin_draft_list)),
    ("empty", Question::OfBook(ludzepin_emptiness)),
    ("use-counts", Question::UseCounts),
];

impl Question<'_> {
    pub fn ask(&self, book: &[u8], limits: Limits, out: &mut [u16]) -> Answer {
        let [names, nodes, definitions] = limits;
        let (at_book, bytes, at_out, places) = (book.as_ptr(), book.len(), at_mut(out), out.len());
        unsafe {
            match *self {
                Question::OfBook(ask) => of_half(ask(at_book, bytes, names, nodes, definitions, at_out, places)),
                Question::Marks(list) => {
                    of_half(ludzepin_marks(at_book, bytes, names, nodes, definitions, at(list), list.len(), at_out, places))
                }
                Question::UseCounts => {
                    let (before, whole, _) = out.align_to_mut();
                    assert!(before.is_empty(), "a list of 32 bits");
                    use_counts(book, limits, whole)
                }
                Question::Uses(name) => of_whole(ludzepin_uses(at_book, bytes, names, nodes, definitions, name, at_out, places)),
                Question::Project(asked) => {
                    of_half(ludzepin_project(at_book, bytes, names, nodes, definitions, at(asked), asked.len(), at_out, places))
                }
                Question::Methods(asked) => {
                    of_half(ludzepin_methods(at_book, bytes, names, nodes, definitions, at(asked), asked.len(), at_out, places))
                }
            }
        }
    }

    /// The numbers of an entry.
    pub fn numbers(&self) -> usize {
        match self {
            Question::Uses(_) => 3,
            Question::UseCounts => 2,
            _ => 1,
        }
    }

    /// Entries that there is always room for; in uses those that answer_batch has room for.
    pub fn places(&self) -> usize {
        match self {
            Question::Uses(_) | Question::Project(_) | Question::Methods(_) => METHODS,
            _ => DEFINITIONS,
        }
    }
}
