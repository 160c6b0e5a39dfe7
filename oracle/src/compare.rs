//! Our lines and the Rust's, line by line.

use crate::answer::{OVER_LIMIT, REPEATED, VALUES};
use crate::book::{self, Batch, Book, Limits, Record, Repeat, FULL};
use std::collections::{BTreeMap, BTreeSet, HashSet};
use std::io::Write;
use std::iter::Peekable;
use std::str::Lines;

pub fn file(path: &str) -> Vec<u8> {
    std::fs::read(path).unwrap_or_else(|e| panic!("{path}: {e}"))
}

/// A line of ours or of the Rust's without its source's name: a question, the first word of it, and the outcome.
#[derive(Clone, Copy)]
struct Line<'a> {
    whole: &'a str,
    question: &'a str,
    word: &'a str,
    outcome: &'a str,
}

impl<'a> Line<'a> {
    fn of(whole: &'a str) -> Self {
        let (word, rest) = whole.split_once(' ').unwrap_or((whole, ""));
        // A quoted name has no quotation mark inside.
        let name = rest.strip_prefix('"').and_then(|rest| rest.find('"')).map_or(0, |end| end + 3);
        let outcome = rest.get(name..).unwrap_or_default();
        Line { whole, question: whole[..whole.len() - outcome.len()].trim_end(), word, outcome }
    }

    /// Why it is not compared.
    fn unanswered(&self) -> Option<&'a str> {
        self.outcome.strip_prefix("unanswered ")?.split(' ').next()
    }

    /// The quoted names of its outcome.
    fn names(&self) -> HashSet<&'a str> {
        self.outcome.split('"').skip(1).step_by(2).collect()
    }

    /// The question that this one asks again with too short a list.
    fn asked_before(&self) -> Option<String> {
        self.word.strip_suffix("-short").map(|word| self.question.replacen(self.word, word, 1))
    }
}

/// The lines of the next book.
fn lines_of<'a>(lines: &mut Peekable<Lines<'a>>, name: &str) -> Vec<Line<'a>> {
    let rest = |line: &'a str| line.strip_prefix(name).and_then(|rest| rest.strip_prefix(' '));
    let mut found = Vec::new();
    while let Some(whole) = lines.peek().and_then(|line| rest(line)) {
        found.push(Line::of(whole));
        lines.next();
    }
    found
}

#[derive(Default)]
pub struct Counts {
    books: u64,
    whole: u64,
    passed: u64,
    with_actor: u64,
    under: Under,
    /// Whole books within their limits and with a repeated label, by what it is.
    repeats: BTreeMap<String, u64>,
    lines: u64,
    skipped: BTreeMap<String, u64>,
    books_skipped: BTreeMap<String, u64>,
    values: Values,
    refused: BTreeMap<u32, BTreeMap<String, u64>>,
    entries: BTreeMap<String, (u64, u64)>,
    /// Lines that are the oracle's own, not the Rust's.
    own: BTreeMap<&'static str, u64>,
    largest: usize,
    #[cfg_attr(not(exports), allow(dead_code))]
    exported: u64,
    #[cfg_attr(not(exports), allow(dead_code))]
    calls: u64,
}

/// Whole books under limits.
#[derive(Default)]
struct Under {
    over: u64,
    /// Of these, the books that are over one limit alone, by its place.
    over_one: [u64; 3],
    /// Under full limits, or larger ones.
    within_full: u64,
    within_others: u64,
    /// Of these, the books that have just as many as some limit that is not full.
    at_one: u64,
}

/// Books whose empty names are not compared with the Rust's, but that these are among ours.
#[derive(Default)]
struct Values {
    ours: u64,
    theirs: u64,
    alike: u64,
}

impl Under {
    fn count(&mut self, book: &Book, limits: Limits) {
        let is_less = |place: &usize| limits[*place] < FULL[*place];
        let less: Vec<usize> = (0..limits.len()).filter(is_less).collect();
        match book.over(limits)[..] {
            [] if less.is_empty() => self.within_full += 1,
            [] => {
                self.within_others += 1;
                self.at_one += less.iter().any(|place| book.counts()[*place] == limits[*place]) as u64;
            }
            [place] => {
                self.over += 1;
                self.over_one[place] += 1;
            }
            _ => self.over += 1,
        }
    }
}

/// What a repeat is: a method, or how both fields are labelled.
fn told(Repeat { parent, first, later }: Repeat) -> String {
    let label = |kind: u8| ["", "number", "name", "unnamed"][kind as usize];
    match parent.kind {
        book::SERVICE => "method".into(),
        _ if first.label_kind == later.label_kind && first.label != later.label => "names of one number".into(),
        _ => format!("{} and {}", label(first.label_kind), label(later.label_kind)),
    }
}

pub struct Difference {
    book: Vec<u8>,
    limits: Limits,
    pub name: String,
    ours: String,
    rust: String,
}

impl Counts {
    fn count(&mut self, word: &str, outcome: &str) {
        let words: Vec<&str> = outcome.splitn(3, ' ').collect();
        match words[..] {
            ["needs", _, refusal] => self.count(word, refusal),
            ["given", "0", ..] => self.entries.entry(word.into()).or_default().0 += 1,
            ["given", _, _] => self.entries.entry(word.into()).or_default().1 += 1,
            ["refused", number, _] => {
                let number = number.parse().expect("a number");
                *self.refused.entry(number).or_default().entry(word.into()).or_default() += 1;
            }
            _ => (),
        }
    }
}

/// The lines of answer_batch and the Rust for a batch. What stands after the last book, the tally, is left aside.
pub fn compared(batch: &[u8], ours: &str, rust: &str) -> (Counts, Vec<Difference>) {
    let (mut ours, mut rust) = (ours.lines().peekable(), rust.lines().peekable());
    let mut counts = Counts::default();
    let mut differences: Vec<Difference> = Vec::new();
    for Record { name, limits, book: bytes } in Batch(batch) {
        counts.books += 1;
        counts.largest = counts.largest.max(bytes.len());
        let whole = book::read(bytes);
        counts.whole += whole.is_some() as u64;
        whole.iter().for_each(|book| counts.under.count(book, limits));
        if let Some(repeat) = whole.as_ref().filter(|book| book.is_within(limits)).and_then(|book| book.repeat()) {
            *counts.repeats.entry(told(repeat)).or_default() += 1;
        }
        #[cfg(exports)]
        let exported = crate::exported::said(bytes, limits, whole.as_ref());
        #[cfg(exports)]
        {
            counts.calls += exported.calls;
        }
        let mut differs = |ours: String, rust: String| {
            differences.push(Difference { book: bytes.into(), limits, name: name.into(), ours, rust });
        };
        let said = |line: Line| format!("{name} {}", line.whole);
        let nothing = || String::from("nothing");

        // Lines are matched by their questions, in order. A question that is unanswered is not asked again with too short a list.
        let theirs = lines_of(&mut rust, name);
        let unanswered: HashSet<&str> =
            theirs.iter().filter(|line| line.unanswered().is_some()).map(|line| line.question).collect();
        let mut own = lines_of(&mut ours, name);
        own.retain(|line| !line.asked_before().is_some_and(|before| unanswered.contains(before.as_str())));
        let (mut next, mut passes, mut listed, mut marked, mut skipped_for) = (0, false, false, false, BTreeSet::new());
        for line in theirs {
            let Some(place) = own[next..].iter().position(|own| own.question == line.question) else {
                differs(nothing(), said(line));
                continue;
            };
            own[next..next + place].iter().for_each(|own| differs(said(*own), nothing()));
            let found = own[next + place];
            next += place + 1;
            #[cfg(exports)]
            if let Some(outcome) = exported.to(line.question) {
                // Where the Rust has no answer, what the batch says.
                let right = if line.unanswered().is_some() { found } else { line };
                counts.exported += 1;
                if outcome != right.outcome {
                    differs(format!("{name} {} {outcome}, as exported", line.question), said(right));
                }
            }
            if let Some(why) = line.unanswered() {
                *counts.skipped.entry(why.into()).or_default() += 1;
                skipped_for.insert(why);
                if why == VALUES {
                    let (ours, theirs) = (found.names(), line.names());
                    counts.values.ours += !ours.is_empty() as u64;
                    counts.values.theirs += !theirs.is_empty() as u64;
                    counts.values.alike += (ours == theirs) as u64;
                    if !found.outcome.starts_with("given ") || !theirs.is_subset(&ours) {
                        differs(said(found), said(line));
                    }
                }
                continue;
            }
            counts.lines += 1;
            counts.count(line.word, line.outcome);
            let is_given = line.outcome.starts_with("given");
            passes |= line.word == "check" && line.outcome == "passed";
            listed |= line.word == "list" && is_given;
            marked |= line.word == "marks" && is_given;
            if ["layout", "name"].contains(&line.word) {
                *counts.own.entry("layout and names").or_default() += 1;
            } else if whole.is_none() {
                *counts.own.entry("1 for a broken book").or_default() += 1;
            } else if line.outcome == OVER_LIMIT {
                *counts.own.entry("24 for a book over its limits").or_default() += 1;
            } else if line.outcome.starts_with(REPEATED) {
                *counts.own.entry("18 for a repeated label").or_default() += 1;
            } else if ["marks-outside", "marks-highest"].contains(&line.word) && marked {
                *counts.own.entry("3 for a number outside").or_default() += 1;
            } else if line.word == "values" && is_given {
                *counts.own.entry("how many values").or_default() += 1;
            } else if line.asked_before().is_some() {
                *counts.own.entry("16 for a list too short").or_default() += 1;
            }
            if found.outcome != line.outcome {
                differs(said(found), said(line));
            }
        }
        own[next..].iter().for_each(|own| differs(said(*own), nothing()));
        counts.passed += passes as u64;
        counts.with_actor += (passes && listed) as u64;
        for why in skipped_for {
            *counts.books_skipped.entry(why.into()).or_default() += 1;
        }
    }
    for left in ours.filter(|line| !line.starts_with("tally ")).chain(rust) {
        differences.push(Difference { book: vec![], limits: FULL, name: "the end".into(), ours: left.into(), rust: left.into() });
    }
    (counts, differences)
}

pub fn run(batch: &str, ours: &str, rust: &str, difference: Option<&str>) -> i32 {
    let batch = file(batch);
    let [ours, rust] = [ours, rust].map(|path| String::from_utf8(file(path)).expect("text"));
    let (counts, differences) = compared(&batch, &ours, &rust);
    print(&counts, &differences);
    let Some(smallest) = differences.iter().min_by_key(|difference| difference.book.len()) else {
        return 0;
    };
    let Difference { book, limits, name, ours, rust } = smallest;
    println!("smallest book that differs: {name}, under limits {limits:?}\n  ours: {ours}\n  Rust: {rust}");
    if let Some(path) = difference.filter(|_| !book.is_empty()) {
        std::fs::write(path, Record { name, limits: *limits, book }.bytes()).expect("room");
    }
    1
}

fn print(counts: &Counts, differences: &[Difference]) {
    println!(
        "{} books, {} whole, {} pass the check, {} of them with an actor; the largest has {} bytes",
        counts.books, counts.whole, counts.passed, counts.with_actor, counts.largest
    );
    let Under { over, over_one: [names, nodes, definitions], within_full, within_others, at_one } = counts.under;
    println!("whole books within full limits: {within_full}; within others: {within_others}, {at_one} of them with just as many as a limit");
    println!("over their limits: {over}; over one alone: names {names}, nodes {nodes}, definitions {definitions}");
    let kinds: Vec<String> = counts.repeats.iter().map(|(what, books)| format!("{what} {books}")).collect();
    println!("within their limits and with a repeated label: {} ({})", counts.repeats.values().sum::<u64>(), kinds.join(", "));
    println!("{} lines compared, {} differ", counts.lines, differences.len());
    #[cfg(exports)]
    println!("{} answers of the exported functions compared with the same lines, {} calls", counts.exported, counts.calls);
    for (what, lines) in &counts.own {
        println!("of them the oracle's own, {what}: {lines}");
    }
    for (why, lines) in &counts.skipped {
        let books = counts.books_skipped.get(why).unwrap_or(&0);
        println!("unanswered, {why}: {lines} lines of {books} books");
    }
    let Values { ours, theirs, alike } = counts.values;
    println!("of the books whose empty names are so by values: {ours} have some, {theirs} have some of the Rust's, {alike} have these alone");
    for (number, words) in &counts.refused {
        let words: Vec<String> = words.iter().map(|(word, lines)| format!("{word} {lines}")).collect();
        println!("refused {number}: {}", words.join(", "));
    }
    for (word, (none, some)) in &counts.entries {
        println!("{word}: given {some} times with entries, {none} times without");
    }
    for difference in differences.iter().take(20) {
        println!("differs\n  ours: {}\n  Rust: {}", difference.ours, difference.rust);
    }
}

/// Writes the book of a record, and tells its limits.
pub fn pick(batch: &str, name: &str) -> i32 {
    match Batch(&file(batch)).find(|record| record.name == name) {
        Some(Record { limits, book, .. }) => {
            eprintln!("limits {limits:?}");
            std::io::stdout().write_all(book).map_or(1, |_| 0)
        }
        None => 1,
    }
}
