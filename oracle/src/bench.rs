//! How long the reader's exported functions and the customer's Rust take for the same books, in one process. bench/bench.sh runs it,
//! docs/FIGURES.md says what is compared. The limits are the full ones, whatever a batch says.

#[cfg(counted)]
#[path = "measure.rs"]
pub mod measure;

use super::*;
use crate::book::{Record, FULL};
use crate::ours::{self, Answer, DEFINITIONS, NO_NAME};
use std::hint::black_box;
use std::time::{Duration, Instant};

/// A book is left after this time even if samples are missing, but not with fewer than FEWEST.
const MOST_TIME: Duration = Duration::from_secs(1);
const FEWEST: usize = 5;

/// Numbers in the list that is lent for the uses of a name: enough for the books that are timed.
const USES: usize = 3 << 22;

// What is timed of the Rust

/// The names as the Rust has them. They are taken from the book, which is read without them.
fn texts(names: Vec<Vec<u8>>) -> Option<Vec<String>> {
    names.into_iter().map(|name| String::from_utf8(name).ok()).collect()
}

fn decoded<T>(bytes: &[u8], ask: impl FnOnce(&Texts) -> T) -> Option<T> {
    let mut book = book::read(bytes)?;
    let names = texts(std::mem::take(&mut book.names))?;
    Some(ask(&Texts { book: &book, names, renamed: false }))
}

fn check(merged: &IDLMergedProg) -> crate::Result<Checked> {
    let (env, actor) = typing::check_merged(merged)?;
    Ok(Checked { env, actor })
}

fn built_check(texts: &Texts) -> crate::Result<Checked> {
    check(&texts.merged()?)
}

type InitChecked = (TypeEnv, Vec<Type>);

/// Of a book with an init file.
fn init_check(merged: &IDLMergedProg, init: &Option<IDLInitArgs>) -> crate::Result<InitChecked> {
    let checked = check(merged)?;
    let mut env = TypeEnv::new();
    let args = typing::check_init_args(&mut env, &checked.env, init.as_ref().expect("an init file"))?;
    Ok((env, args))
}

fn list(checked: &Checked) -> Option<Vec<&str>> {
    chase_actor(&checked.env, checked.actor.as_ref()?).ok()
}

fn listed(checked: crate::Result<Checked>) -> usize {
    checked.ok().and_then(|checked| list(&checked).map(|names| black_box(names).len())).unwrap_or_default()
}

/// All rows of `chase_def_use`.
fn uses(checked: &Checked) -> Option<BTreeMap<String, Vec<String>>> {
    chase_def_use(&checked.env, checked.actor.as_ref()?).ok()
}

fn used(checked: crate::Result<Checked>) -> usize {
    checked.ok().and_then(|checked| uses(&checked).map(|rows| black_box(rows).len())).unwrap_or_default()
}

// And of ours

/// The uses of each of these names, from bytes each time; gives the entries of all.
fn our_uses(bytes: &[u8], names: &[u16], out: &mut [u16]) -> usize {
    let of = |name: &u16| match ours::uses(bytes, FULL, *name, out) {
        Answer::Given(count) => count,
        refused => panic!("uses of {name}: {refused:?}"),
    };
    names.iter().map(of).sum()
}

// Timing

struct Question<'a> {
    name: String,
    ask: Box<dyn FnMut() + 'a>,
    /// Entries of the answer, or none.
    entries: Option<usize>,
    calls: u32,
    first: Vec<f64>,
    nanoseconds: Vec<f64>,
}

fn question<'a, T>(name: String, entries: Option<usize>, mut ask: impl FnMut() -> T + 'a) -> Question<'a> {
    let ask = Box::new(move || {
        black_box(ask());
    });
    Question { name, ask, entries, calls: 1, first: Vec::new(), nanoseconds: Vec::new() }
}

impl Question<'_> {
    fn time(&mut self, calls: u32) -> Duration {
        let start = Instant::now();
        for _ in 0..calls {
            (self.ask)();
        }
        start.elapsed()
    }

    /// So many calls that a sample lasts that long.
    fn set_calls(&mut self, length: Duration) {
        while self.time(self.calls) < length {
            self.calls *= 2;
        }
    }

    /// The first call counts apart: another question was asked before, so what it needs may have left the caches.
    fn sample(&mut self) {
        let first = self.time(1);
        let taken = self.time(self.calls);
        self.first.push(first.as_nanos() as f64);
        self.nanoseconds.push(taken.as_nanos() as f64 / self.calls as f64);
    }
}

fn quantile(values: &mut [f64], part: f64) -> f64 {
    values.sort_by(f64::total_cmp);
    values[(part * (values.len() - 1) as f64).round() as usize]
}

/// Samples of all questions in turn, so that what else goes on meets them alike.
fn take(questions: &mut [Question], samples: usize, length: Duration) {
    for question in questions.iter_mut() {
        question.set_calls(length);
    }
    let start = Instant::now();
    for round in 0..samples {
        if round >= FEWEST && start.elapsed() > MOST_TIME {
            break;
        }
        for question in questions.iter_mut() {
            question.sample();
        }
    }
}

// A book

/// The Rust's answer as an exported check gives it; none where it has no answer to compare.
fn verdict_of<T>(outcome: &Found<T>) -> Option<Answer> {
    match outcome {
        Ok(_) => Some(Answer::Given(0)),
        Err(Fail::Refused(number, name)) => Some(Answer::Refused(*number, name.unwrap_or(NO_NAME))),
        Err(Fail::Unanswered(_)) => None,
    }
}

/// Holds our counts of uses against the lengths of the Rust's rows, and our uses of each listed name against its row. Gives these names, and the
/// entries of all.
fn compared_uses(bytes: &[u8], own: &Texts, checked: &Checked, rows: &BTreeMap<String, Vec<String>>) -> (Vec<u16>, usize) {
    let actor = checked.actor.as_ref().expect("an actor");
    let methods = checked.env.as_service(actor).ok().expect("a service");
    let (mut list, mut counts, mut out) = ([0; DEFINITIONS], [0; DEFINITIONS], vec![0; USES]);
    let listed = ours::list(bytes, FULL, &mut list);
    assert_eq!(ours::use_counts(bytes, FULL, &mut counts), listed, "the counts' length");
    let Answer::Given(listed) = listed else {
        panic!("the list");
    };
    let none = vec![];
    for (number, count) in list[..listed].iter().zip(counts) {
        let name = &own.names[*number as usize];
        let row = rows.get(name).unwrap_or(&none);
        assert_eq!(count as usize, row.len(), "the number of uses of {name}");
        assert_eq!(ours::uses(bytes, FULL, *number, &mut out), Answer::Given(row.len()), "the uses of {name}");
        let text = |entry: &[u16]| {
            let method = methods.get(entry[0] as usize).map_or("init", |method| method.0.as_str());
            format!("{method}.{}{}", ["arg", "ret"][entry[1] as usize], entry[2])
        };
        assert!(out.chunks(3).map(text).zip(row).all(|(own, text)| own == *text), "the uses of {name}");
    }
    let entries = counts[..listed].iter().map(|count| *count as usize).sum();
    assert_eq!(rows.values().map(|row| row.len()).sum::<usize>(), entries, "the uses of what is not listed");
    (list[..listed].to_vec(), entries)
}

/// A book as both sides have it before the clock runs.
struct Asked<'a> {
    bytes: &'a [u8],
    own: &'a Texts<'a>,
    found: &'a Found<Checked>,
    merged: Option<&'a IDLMergedProg>,
    init: &'a Option<IDLInitArgs>,
}

impl<'a> Asked<'a> {
    /// A question of ours and of the Rust: with the AST built, with decoding too, and alone.
    fn four<A, B: 'a>(
        &self,
        word: &str,
        entries: Option<usize>,
        ours: impl FnMut() -> A + 'a,
        built: fn(&Texts) -> B,
        alone: fn(&IDLMergedProg, &Option<IDLInitArgs>) -> B,
    ) -> Vec<Question<'a>> {
        let Asked { bytes, own, merged, init, .. } = *self;
        let mut questions = vec![
            question(format!("our {word}"), entries, ours),
            question(format!("Rust {word}"), entries, move || built(black_box(own))),
            question(format!("Rust {word} and decoding"), entries, move || decoded(black_box(bytes), built)),
        ];
        if let Some(merged) = merged {
            let ask = move || alone(black_box(merged), black_box(init));
            questions.push(question(format!("Rust {word} alone"), entries, ask));
        }
        questions
    }

    fn check(&self) -> Vec<Question<'a>> {
        let bytes = self.bytes;
        self.four("check", None, move || ours::check(black_box(bytes), FULL), built_check, |merged, _| check(merged))
    }

    /// Where there is an init file to check.
    fn init_check(&self) -> Vec<Question<'a>> {
        let bytes = self.bytes;
        let (Ok(checked), Some(_)) = (self.found, self.init) else {
            return vec![];
        };
        let (found, unvalidated) = self.own.init_check(&checked.env);
        let (Some(verdict), None) = (verdict_of(&found), unvalidated) else {
            return vec![];
        };
        assert_eq!(ours::init_check(bytes, FULL), verdict, "the init check's answers");
        let built = |texts: &Texts| init_check(&texts.merged()?, &texts.init());
        self.four("init check", None, move || ours::init_check(black_box(bytes), FULL), built, init_check)
    }

    /// Where there is an actor.
    fn list(&self, out: &'a mut [u16; DEFINITIONS]) -> Vec<Question<'a>> {
        let bytes = self.bytes;
        let Some(names) = self.found.as_ref().ok().and_then(list) else {
            return vec![];
        };
        let numbers: Vec<u16> = names.iter().map(|name| self.own.number(name) as u16).collect();
        assert_eq!(ours::list(bytes, FULL, out), Answer::Given(numbers.len()), "the list's length");
        assert_eq!(out[..numbers.len()], numbers[..], "the list");
        let ours = move || ours::list(black_box(bytes), FULL, black_box(&mut out[..]));
        self.four("list", Some(names.len()), ours, |texts| listed(built_check(texts)), |merged, _| listed(check(merged)))
    }

    /// The uses of all names, where there is an actor: ours are counts. And ours of one name after another.
    fn uses(&self, counts: &'a mut [u32; DEFINITIONS], out: &'a mut [u16]) -> Vec<Question<'a>> {
        let bytes = self.bytes;
        let Some((checked, rows)) = self.found.as_ref().ok().and_then(|checked| Some((checked, uses(checked)?))) else {
            return vec![];
        };
        let (names, entries) = compared_uses(bytes, self.own, checked, &rows);
        let ours = move || ours::use_counts(black_box(bytes), FULL, black_box(&mut counts[..]));
        let mut questions =
            self.four("uses", Some(entries), ours, |texts| used(built_check(texts)), |merged, _| used(check(merged)));
        let listed = names.len();
        let each = move || our_uses(black_box(bytes), black_box(&names), black_box(&mut *out));
        questions.push(question("our uses of each".into(), Some(listed), each));
        questions
    }
}

/// The lines of a book, or why there are none: check, init check and list, or uses.
fn lines_of_book(bytes: &[u8], of_uses: bool, samples: usize, length: Duration) -> Result<Vec<String>, &'static str> {
    let book = book::read(bytes).ok_or("broken")?;
    if book.repeat().is_some() {
        return Err("a repeated label");
    }
    let names = texts(book.names.clone()).ok_or("utf-8")?;
    let own = Texts { book: &book, names, renamed: false };
    let (found, unvalidated) = own.check();
    let verdict = verdict_of(&found).ok_or("unanswered")?;
    if unvalidated.is_some() {
        return Err("ring or ladder");
    }
    assert_eq!(ours::check(bytes, FULL), verdict, "the check's answers");
    let (merged, init) = (own.merged().ok(), own.init());
    let asked = Asked { bytes, own: &own, found: &found, merged: merged.as_ref(), init: &init };
    let (mut out, mut counts, mut room) = ([0; DEFINITIONS], [0; DEFINITIONS], vec![0; USES]);
    let mut questions = asked.init_check();
    stacker::grant(u64::MAX);
    if of_uses {
        questions = asked.uses(&mut counts, &mut room);
    } else {
        questions.extend(asked.check().into_iter().chain(asked.list(&mut out)));
    }
    take(&mut questions, samples, length);
    let count = |part: usize| u32::from_le_bytes(bytes[8 * part + 4..8 * part + 8].try_into().expect("four bytes"));
    let refusal = if let Answer::Refused(number, _) = verdict { number } else { 0 };
    let has_init = init.is_some() as u32;
    let told = format!("{}\t{}\t{}\t{}\t{has_init}\t{refusal}", bytes.len(), count(0), count(1), count(2));
    let line = |question: &mut Question| {
        let [least, low, median, high] = [0.0, 0.1, 0.5, 0.9].map(|part| quantile(&mut question.nanoseconds, part));
        let (samples, first) = (question.nanoseconds.len(), quantile(&mut question.first, 0.5));
        let (name, calls) = (&question.name, question.calls);
        let entries = question.entries.map_or("-".into(), |entries| entries.to_string());
        format!("{told}\t{entries}\t{name}\t{calls}\t{samples}\t{least:.0}\t{low:.0}\t{median:.0}\t{high:.0}\t{first:.0}")
    };
    Ok(questions.iter_mut().map(line).collect())
}

fn batch() -> Vec<u8> {
    let mut bytes = Vec::new();
    std::io::stdin().read_to_end(&mut bytes).expect("a batch");
    bytes
}

fn timed(of_uses: bool, samples: u64, length: u64) -> i32 {
    println!("book\tbytes\tnames\tnodes\tdefinitions\tinit\trefusal\tentries\tquestion\tcalls\tsamples\tleast\tlow\tmedian\thigh\tfirst");
    for Record { name, book, .. } in Batch(&batch()) {
        match lines_of_book(book, of_uses, samples as usize, Duration::from_micros(length)) {
            Ok(lines) => lines.iter().for_each(|line| println!("{name}\t{line}")),
            Err(why) => eprintln!("{name}: not timed, {why}"),
        }
    }
    0
}

/// Times check, init check and list of the books of a batch: so many samples of so many microseconds, or of one call if that is longer.
pub fn run(samples: u64, length: u64) -> i32 {
    timed(false, samples, length)
}

/// The same of the uses of all names, and of each.
pub fn run_uses(samples: u64, length: u64) -> i32 {
    timed(true, samples, length)
}
