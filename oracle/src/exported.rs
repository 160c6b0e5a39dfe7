//! What the reader's exported functions say to every question of a book, in the words of answer_batch.
//!
//! Each question is asked with a lent list that is long enough, just long enough, one entry too short and empty. Every time the numbers
//! beyond the result, or all after a refusal, have to be as they were, and those before and after the lent list too. Alias chains and values are
//! asked without one. Lists of names at random are asked for the methods that change with them, which have to be those of the single names. All this
//! is asked under the limits of the book's record; each function is then asked under up to five limits and the largest, which have to agree. The
//! lines `chains` and `lookups` are of functions that are not exported: they have nothing here.

use crate::answer::asked_names;
use crate::book::{quoted, Book, Limits};
use crate::generate::Random;
use crate::ours::{self, Answer, Question, NAMES, NO_NAME, OVER_LIMIT, SHORT};
use std::collections::{BTreeSet, HashMap};

/// Stands in the lent list beforehand and around it; no entry has this number.
const BEFORE: u16 = 40_000;
const AROUND: usize = 8;

const LARGEST: Limits = [u32::MAX; 3];

/// A question about a name is asked with every length of list for the names below this number and for the last one; for the others, of
/// which only large books have any, with a list that is long enough alone.
const EVERY_LENGTH: usize = 16;

/// Names in the longest list that is asked for the methods that change with it: more than 16 bits count.
const LONGEST: usize = 70_000;

pub struct Said<'a> {
    bytes: &'a [u8],
    limits: Limits,
    book: Option<&'a Book>,
    room: Vec<u16>,
    /// As long as the room, and as it was before.
    untouched: Vec<u16>,
    /// Outcomes by question, as in a line of answer_batch.
    lines: HashMap<String, String>,
    pub calls: u64,
}

impl Said<'_> {
    fn name(&self, number: usize) -> String {
        self.book.and_then(|book| book.names.get(number)).map_or_else(|| number.to_string(), |name| quoted(name))
    }

    fn refused(&self, number: u32, low: usize) -> String {
        match (number, low) {
            // These always name a number, even the highest.
            (3 | 15, _) => format!("refused {number} {}", self.name(low)),
            (SHORT, _) | (_, NO_NAME) => format!("refused {number} -"),
            _ => format!("refused {number} {}", self.name(low)),
        }
    }

    fn text(&self, question: Question, answer: Answer, entries: &[u16]) -> String {
        let count = match answer {
            Answer::Given(count) => count,
            Answer::Refused(number, low) => return self.refused(number, low),
        };
        let (mut text, mut total) = (format!("given {count}"), 0);
        for entry in entries.chunks(question.numbers()) {
            text.push(' ');
            match (question, entry) {
                (Question::UseCounts, [low, high]) => {
                    let uses = u32::from(*high) << 16 | u32::from(*low);
                    text += &uses.to_string();
                    total += u64::from(uses);
                }
                (_, [method, kind, index]) => text += &format!("{method}.{kind}.{index}"),
                (Question::Project(_) | Question::Methods(_), _) => text += &entry[0].to_string(),
                _ => text += &self.name(entry[0] as usize),
            }
        }
        if matches!(question, Question::UseCounts) {
            text += &format!(" total {total}");
        }
        text
    }

    /// The answer with so many numbers lent, its entries, and whether all else is as it was.
    fn ask(&mut self, question: Question, numbers: usize) -> (Answer, &[u16], bool) {
        self.ask_under(self.limits, question, numbers)
    }

    fn ask_under(&mut self, limits: Limits, question: Question, numbers: usize) -> (Answer, &[u16], bool) {
        let end = AROUND + numbers;
        if self.room.len() < end + AROUND {
            self.room.resize(end + AROUND, BEFORE);
            self.untouched.resize(end + AROUND, BEFORE);
        }
        let room = &mut self.room[..end + AROUND];
        room.fill(BEFORE);
        let answer = question.ask(self.bytes, limits, &mut room[AROUND..end]);
        self.calls += 1;
        let given = match answer {
            Answer::Given(count) => numbers.min(count * question.numbers()),
            Answer::Refused(..) => 0,
        };
        let (before, rest) = room.split_at(AROUND);
        let (entries, after) = rest.split_at(given);
        let is_kept = *before == self.untouched[..AROUND] && *after == self.untouched[..after.len()];
        (answer, entries, is_kept)
    }

    /// Asks with a list that is empty, or just long enough and too short; gives what is wrong, and the line for one entry too few.
    fn other_lengths(&mut self, question: Question, answer: Answer, entries: &[u16]) -> (&'static str, Option<String>) {
        let numbers = question.numbers();
        let (needed, is_given) = match answer {
            Answer::Given(count @ 1..) => (count, true),
            Answer::Refused(SHORT, needed) => (needed, false),
            _ if self.ask(question, 0) == (answer, &[], true) => return ("", None),
            _ => return (" but not the same with an empty list", None),
        };
        let mut wrong = "";
        let (exact, found, is_kept) = self.ask(question, needed * numbers);
        if exact != Answer::Given(needed) || !is_kept || is_given && found != entries {
            wrong = " but not the same in a list just long enough";
        }
        let one_less = (needed - 1) * numbers;
        for short in [0, needed * numbers - 1] {
            if short != one_less && self.ask(question, short) != (Answer::Refused(SHORT, needed), &[], true) {
                wrong = " but not 16 in a list too short";
            }
        }
        let (short, found, is_kept) = self.ask(question, one_less);
        let found = found.to_vec();
        let mut line = match short {
            Answer::Refused(SHORT, needed) => format!("needs {needed} {}", self.refused(SHORT, NO_NAME)),
            _ => self.text(question, short, &found),
        };
        if !is_kept {
            line += " and more is written";
        }
        (wrong, is_given.then_some(line))
    }

    /// Takes down the answer to a question, and to the same with other lists.
    fn say(&mut self, word: &str, of: &str, question: Question, every_length: bool) -> (Answer, Vec<u16>) {
        let (answer, entries, is_kept) = self.ask(question, question.places() * question.numbers());
        let entries = entries.to_vec();
        let mut line = self.text(question, answer, &entries);
        if !is_kept {
            line += " and more is written";
        }
        if every_length {
            let (wrong, short) = self.other_lengths(question, answer, &entries);
            line += wrong;
            if let Some(short) = short {
                self.lines.insert(format!("{word}-short{of}"), short);
            }
        }
        self.lines.insert(format!("{word}{of}"), line);
        (answer, entries)
    }

    fn make_wrong(&mut self, word: &str, why: &str) {
        if let Some(line) = self.lines.get_mut(word) {
            *line += why;
        }
    }

    /// A question that has no line of its own: if its answer is another, the line of `word` is made wrong.
    fn hold(&mut self, word: &str, question: Question, right: Answer) {
        let (answer, _, is_kept) = self.ask(question, question.places() * question.numbers());
        if answer != right || !is_kept {
            self.make_wrong(word, " but otherwise for another number");
        }
    }

    fn verdict(&mut self, word: &str, answer: Answer) {
        self.calls += 1;
        let line = match answer {
            Answer::Given(0) => "passed".into(),
            Answer::Given(_) => "no verdict".into(),
            Answer::Refused(number, name) => self.refused(number, name),
        };
        self.lines.insert(word.into(), line);
    }

    fn alias(&mut self, question: String, number: usize) -> Answer {
        let answer = self.alias_under(self.limits, number);
        let line = match answer {
            Answer::Given(found) => {
                let (count, last) = ours::crossed(found);
                format!("given {count} {}", self.name(last))
            }
            Answer::Refused(number, low) => self.refused(number, low),
        };
        self.lines.insert(question, line);
        answer
    }

    fn alias_under(&mut self, limits: Limits, number: usize) -> Answer {
        self.calls += 1;
        ours::alias(self.bytes, limits, number as u16)
    }

    fn values_under(&mut self, limits: Limits, number: usize) -> Answer {
        self.calls += 1;
        ours::values(self.bytes, limits, number as u16)
    }

    /// How many values each name has; those without definition are refused with 3, which names them, and left out. What is refused otherwise has to be
    /// so whatever is asked.
    fn values(&mut self, names: usize) {
        let outside = self.values_under(self.limits, NAMES);
        let mut line = match outside {
            Answer::Refused(number, low) if (number, low) != (3, NAMES) => self.refused(number, low),
            _ => {
                let mut entries = Vec::new();
                for number in 0..names {
                    let said = match self.values_under(self.limits, number) {
                        Answer::Refused(3, low) if low == number => continue,
                        Answer::Refused(number, low) => self.refused(number, low),
                        Answer::Given(ours::MANY) => "many".into(),
                        Answer::Given(count) => count.to_string(),
                    };
                    entries.push(format!(" {} {said}", self.name(number)));
                }
                format!("given {}{}", entries.len(), entries.concat())
            }
        };
        if line.starts_with("refused ") && [0, names / 2, names].iter().any(|number| self.values_under(self.limits, *number) != outside) {
            line += " but otherwise for another number";
        }
        self.lines.insert("values".into(), line);
    }

    /// The same of a number that is no name's.
    fn values_outside(&mut self, question: &str, number: usize) -> Answer {
        let answer = self.values_under(self.limits, number);
        let line = match answer {
            Answer::Given(count) => format!("given {count}"),
            Answer::Refused(number, low) => self.refused(number, low),
        };
        self.lines.insert(question.into(), line);
        answer
    }

    /// Numbers outside the book's table other than 1,024, which the lines have; marks, alias chains, values and projection have 65,535 as well.
    fn outside(&self) -> Vec<u16> {
        let names = self.book.map_or(0, |book| book.names.len());
        [names, NO_NAME].into_iter().filter(|number| *number != NAMES).map(|number| number as u16).collect()
    }

    /// Asks for the methods that change with a list of names, in lent lists of every length or in one that is long enough; gives the positions or the
    /// refusal, and what is wrong.
    fn changing(&mut self, asked: &[u16], every_length: bool) -> (Result<Vec<u16>, String>, &'static str) {
        let question = Question::Methods(asked);
        let (answer, entries, is_kept) = self.ask(question, question.places());
        let entries = entries.to_vec();
        let mut wrong = if is_kept { "" } else { " and more is written" };
        if every_length {
            let (more, short) = self.other_lengths(question, answer, &entries);
            let right = (!entries.is_empty()).then(|| format!("needs {} refused {SHORT} -", entries.len()));
            wrong = if !more.is_empty() { more } else if short != right { " but not 16 in a list one too short" } else { wrong };
        }
        match answer {
            Answer::Given(_) => (Ok(entries), wrong),
            Answer::Refused(number, low) => (Err(self.refused(number, low)), wrong),
        }
    }

    /// The methods that change with each name alone; a name with which none does is left out. What is refused has to be so whatever is asked. Lists
    /// of names at random, with repeats and numbers outside the table, have to be answered with the union of these.
    fn methods(&mut self, names: usize) {
        let (nothing, mut wrong) = self.changing(&[], true);
        let (mut single, mut said) = (vec![vec![]; names], Vec::new());
        for number in (0..names).filter(|number| nothing.is_ok() || [0, names / 2, names - 1].contains(number)) {
            let every_length = number < EVERY_LENGTH || number + 1 == names;
            let (found, more) = self.changing(&[number as u16], every_length);
            wrong = if more.is_empty() { wrong } else { more };
            match found {
                Ok(found) if !found.is_empty() => {
                    let positions: String = found.iter().map(|position| format!(" {position}")).collect();
                    said.push(format!(" {}{positions}", self.name(number)));
                    single[number] = found;
                }
                found if found != nothing => wrong = " but otherwise for a name",
                _ => (),
            }
        }
        for asked in self.lists(names) {
            let union: BTreeSet<u16> = asked.iter().filter_map(|number| single.get(*number as usize)).flatten().copied().collect();
            let right = nothing.clone().map(|_| union.into_iter().collect());
            let (found, more) = self.changing(&asked, true);
            wrong = if found != right { " but otherwise for a list" } else if more.is_empty() { wrong } else { more };
        }
        let line = match nothing {
            Ok(found) if found.is_empty() => format!("given {}{}{wrong}", said.len(), said.concat()),
            Ok(_) => "given for nothing".into(),
            Err(refused) => refused + wrong,
        };
        self.lines.insert("methods".into(), line);
    }

    /// Lists of numbers: a few names; as many as there are names, so that some come more than once; these and any numbers; and a long one, of which
    /// the last count.
    fn lists(&self, names: usize) -> [Vec<u16>; 4] {
        let seed = self.bytes.iter().fold(0, |seed: u64, byte| seed.wrapping_mul(31).wrapping_add(u64::from(*byte)));
        let mut random = Random::of(seed, 10);
        let few = 1 + random.below(4);
        let mut list = |count: usize, outside: usize| -> Vec<u16> {
            let mut number = || if random.percent(outside) { random.below(1 << 16) } else { random.below(names + 1) };
            (0..count).map(|_| number() as u16).collect()
        };
        [list(few, 0), list(names, 0), list(2 * names, 30), [vec![NAMES as u16; LONGEST], list(few, 10)].concat()]
    }

    /// Over a list, over it backwards and with a number outside the table after it.
    fn marks(&mut self, list: &[u16]) {
        self.say("marks", "", Question::Marks(list), true);
        let back: Vec<u16> = list.iter().rev().copied().collect();
        self.say("marks-back", "", Question::Marks(&back), true);
        let and = |number: u16| [list, &[number]].concat();
        self.say("marks-highest", "", Question::Marks(&and(NO_NAME as u16)), true);
        let (answer, _) = self.say("marks-outside", "", Question::Marks(&and(NAMES as u16)), true);
        for number in self.outside() {
            let right = match answer {
                Answer::Refused(3, NAMES) => Answer::Refused(3, number as usize),
                _ => answer,
            };
            self.hold("marks-outside", Question::Marks(&and(number)), right);
        }
    }

    /// Answers what is listed.
    fn of_book(&mut self) -> Vec<u16> {
        for (word, check) in ours::VERDICTS {
            self.verdict(word, check(self.bytes, self.limits));
        }
        let mut list = Vec::new();
        for (word, question) in ours::OF_BOOK {
            let (_, entries) = self.say(word, "", question, true);
            if word == "list" {
                list = entries;
            }
        }
        let names = self.book.map_or(0, |book| book.names.len());
        self.values(names);
        self.methods(names);
        self.marks(&list);
        list
    }

    fn of_names(&mut self, names: usize, lists_any: bool) {
        let mut offered = Vec::new();
        for number in asked_names(names, lists_any) {
            let (name, every_length) = (number as u16, number < EVERY_LENGTH || number + 1 == names);
            let of = format!(" {}", self.name(number));
            self.say("uses", &of, Question::Uses(name), every_length);
            self.alias(format!("alias{of}"), number);
            let (answer, _) = self.say("project", &of, Question::Project(&[name]), every_length);
            if matches!(answer, Answer::Given(_)) {
                offered.insert(0, name);
            }
            self.say("twice", &of, Question::Project(&[name, name]), every_length);
        }
        let (answer, _) = self.say("uses-outside", "", Question::Uses(NAMES as u16), true);
        for number in self.outside() {
            self.hold("uses-outside", Question::Uses(number), answer);
        }
        self.alias("alias-highest".into(), NO_NAME);
        let answer = self.alias("alias-outside".into(), NAMES);
        for number in self.outside() {
            let right = match answer {
                Answer::Refused(3, NAMES) => Answer::Refused(3, number as usize),
                _ => answer,
            };
            if self.alias_under(self.limits, number as usize) != right {
                self.make_wrong("alias-outside", " but otherwise for another number");
            }
        }
        self.values_outside("values-highest", NO_NAME);
        let answer = self.values_outside("values-outside", NAMES);
        for number in self.outside() {
            let right = match answer {
                Answer::Refused(3, NAMES) => Answer::Refused(3, number as usize),
                _ => answer,
            };
            if self.values_under(self.limits, number as usize) != right {
                self.make_wrong("values-outside", " but otherwise for another number");
            }
        }
        self.say("project-highest", "", Question::Project(&[NO_NAME as u16]), true);
        let (answer, _) = self.say("project-outside", "", Question::Project(&[NAMES as u16]), true);
        for number in self.outside() {
            let right = match answer {
                Answer::Refused(15, NAMES) => Answer::Refused(15, number as usize),
                _ => answer,
            };
            self.hold("project-outside", Question::Project(&[number]), right);
            // What the book has is taken, and the number is left over.
            self.hold("project-outside", Question::Project(&[&[number], &offered[..]].concat()), right);
        }
        self.say("project-none", "", Question::Project(&[]), true);
        self.say("project-all", "", Question::Project(&offered), true);
        let every: Vec<u16> = (0..names as u16).rev().collect();
        self.say("project-every", "", Question::Project(&every), true);
        self.say("methods-highest", "", Question::Methods(&[NO_NAME as u16]), true);
        let (answer, _) = self.say("methods-outside", "", Question::Methods(&[NAMES as u16]), true);
        for number in self.outside() {
            self.hold("methods-outside", Question::Methods(&[number]), answer);
        }
        self.say("methods-none", "", Question::Methods(&[]), true);
        self.say("methods-all", "", Question::Methods(&every), true);
        let (even, odd): (Vec<u16>, Vec<u16>) = every.iter().partition(|number| *number % 2 == 0);
        let twice: Vec<u16> = even.into_iter().flat_map(|number| [number, number]).collect();
        self.say("methods-even", "", Question::Methods(&twice), true);
        self.say("methods-odd", "", Question::Methods(&odd), true);
    }

    /// The questions about names have no lines in a broken book, so the line of the list is made wrong.
    fn of_broken(&mut self) {
        let of_lists = [Question::Project(&[0]), Question::Project(&[]), Question::Methods(&[0]), Question::Methods(&[])];
        for question in [Question::Uses(0), Question::Uses(NAMES as u16)].into_iter().chain(of_lists) {
            self.hold("list", question, Answer::Refused(1, NO_NAME));
        }
        for number in [0, NAMES, NO_NAME] {
            if self.alias_under(self.limits, number) != Answer::Refused(1, NO_NAME) {
                self.make_wrong("list", " but not 1 for an alias chain");
            }
            if self.values_under(self.limits, number) != Answer::Refused(1, NO_NAME) {
                self.make_wrong("list", " but not 1 for values");
            }
        }
    }

    /// Limits to hold against the largest: the record's; just what the book has; of that one name, node or definition fewer.
    fn others(&self) -> Vec<Limits> {
        let counts = self.book.map_or([0; 3], |book| book.counts());
        let mut others = vec![self.limits, counts];
        for place in 0..counts.len() {
            let mut fewer = counts;
            if fewer[place] > 0 {
                fewer[place] -= 1;
                others.push(fewer);
            }
        }
        others
    }

    /// An answer under some limits: 24 if the book is over them, else the one under the largest, of a broken book too.
    fn hold_under(&mut self, limits: Limits, word: &str, answer: Answer, largest: Answer) {
        let is_over = self.book.is_some_and(|book| !book.is_within(limits));
        let right = if is_over { Answer::Refused(OVER_LIMIT, NO_NAME) } else { largest };
        if answer != right {
            self.make_wrong(word, &format!(" but {answer:?} under limits {limits:?}"));
        }
    }

    /// Asks each function under the largest limits and under others, of the list under the largest. What is asked about names has no line
    /// here, so the line of the list is made wrong.
    fn under_others(&mut self) {
        let others = self.others();
        for (word, check) in ours::VERDICTS {
            let largest = check(self.bytes, LARGEST);
            others.iter().for_each(|limits| self.hold_under(*limits, word, check(self.bytes, *limits), largest));
            self.calls += 1 + others.len() as u64;
        }
        let (_, list) = ours::OF_BOOK[0];
        let list = self.ask_under(LARGEST, list, list.places() * list.numbers()).1.to_vec();
        let names: Vec<u16> = (0..self.book.map_or(0, |book| book.names.len()) as u16).collect();
        let of_lists = [Question::Project(&[]), Question::Project(&names), Question::Methods(&[]), Question::Methods(&names)];
        let of_names = [Question::Uses(0)].into_iter().chain(of_lists).map(|question| ("list", question));
        for (word, question) in ours::OF_BOOK.into_iter().chain([("marks", Question::Marks(&list))]).chain(of_names) {
            let numbers = question.places() * question.numbers();
            let (largest, entries, _) = self.ask_under(LARGEST, question, numbers);
            let entries = entries.to_vec();
            for limits in &others {
                let (answer, found, is_kept) = self.ask_under(*limits, question, numbers);
                if !is_kept || answer == largest && found != entries {
                    self.make_wrong(word, &format!(" but another list under limits {limits:?}"));
                }
                self.hold_under(*limits, word, answer, largest);
            }
        }
        for number in [0, names.len() / 2, names.len(), NO_NAME] {
            let largest = self.alias_under(LARGEST, number);
            for limits in &others {
                let answer = self.alias_under(*limits, number);
                self.hold_under(*limits, "list", answer, largest);
            }
            let largest = self.values_under(LARGEST, number);
            for limits in &others {
                let answer = self.values_under(*limits, number);
                self.hold_under(*limits, "values", answer, largest);
            }
        }
    }

    /// The outcome of a question, as the line of answer_batch has it.
    pub fn to(&self, question: &str) -> Option<&str> {
        self.lines.get(question.trim_end()).map(|line| line.as_str())
    }
}

pub fn said<'a>(bytes: &'a [u8], limits: Limits, book: Option<&'a Book>) -> Said<'a> {
    let mut said = Said { bytes, limits, book, room: Vec::new(), untouched: Vec::new(), lines: HashMap::new(), calls: 0 };
    let list = said.of_book();
    match book {
        Some(book) => said.of_names(book.names.len(), !list.is_empty()),
        None => said.of_broken(),
    }
    said.under_others();
    said
}
