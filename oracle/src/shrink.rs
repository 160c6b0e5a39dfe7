//! A book on which our lines and the Rust's differ, made smaller as long as some line differs: definitions, files, fields,
//! methods, arguments and names are dropped, types become nat or one of their children. Its limits stay, or stay as far from what it has.

use crate::book::{self, Batch, Book, Limits, Node, Record, FULL};
use crate::{answer, compare};
use std::collections::BTreeSet;
use std::io::{Read, Write};
use std::process::{Command, Stdio};

const NAT: u8 = 2;

/// Books that are tried at a time.
const AT_A_TIME: usize = 50;

fn size(node: &Node) -> usize {
    1 + node.kids.iter().map(size).sum::<usize>()
}

#[derive(Clone, Copy)]
enum Edit {
    Definition(usize),
    File(usize),
    Actor(usize),
    /// A node by its tree and its place there, made nat, made its child or without the child.
    Nat(usize, usize),
    Kid(usize, usize, usize),
    Without(usize, usize, usize),
    UnusedNames,
}

/// The edits inside a tree with the number of nodes that each saves. Gives the place after the tree.
fn edits(tree: usize, node: &Node, place: usize, found: &mut Vec<(usize, Edit)>) -> usize {
    let nodes = size(node);
    if node.kind != book::ARGS && node.kind != NAT {
        found.push((nodes - 1, Edit::Nat(tree, place)));
    }
    let mut next = place + 1;
    for (i, kid) in node.kids.iter().enumerate() {
        if node.kind != book::ARGS {
            found.push((nodes - size(kid), Edit::Kid(tree, place, i)));
        }
        if node.kind >= book::RECORD && (node.kind != book::CLASS || i + 1 < node.kids.len()) {
            found.push((size(kid), Edit::Without(tree, place, i)));
        }
        next = edits(tree, kid, next, found);
    }
    next
}

/// The trees of a book: its definitions', then its files'.
fn trees(book: &mut Book) -> impl Iterator<Item = &mut Node> {
    let definitions = book.definitions.iter_mut().map(|row| &mut row.tree);
    definitions.chain(book.files.iter_mut().filter_map(|file| file.tree.as_mut()))
}

/// Most nodes saved first.
fn all_edits(book: &Book) -> Vec<Edit> {
    let mut found = vec![(0, Edit::UnusedNames)];
    found.extend(book.definitions.iter().enumerate().map(|(i, row)| (size(&row.tree), Edit::Definition(i))));
    for (i, file) in book.files.iter().enumerate() {
        let nodes = file.tree.as_ref().map_or(0, size);
        if i > 0 {
            let own = book.definitions.iter().filter(|row| row.file == i);
            found.push((nodes + own.map(|row| size(&row.tree)).sum::<usize>(), Edit::File(i)));
        }
        if file.tree.is_some() && file.role != book::INIT {
            found.push((nodes, Edit::Actor(i)));
        }
    }
    for (i, tree) in trees(&mut book.clone()).enumerate() {
        edits(i, tree, 0, &mut found);
    }
    found.sort_by_key(|(saved, _)| std::cmp::Reverse(*saved));
    found.into_iter().map(|(_, edit)| edit).collect()
}

fn at<'a>(node: &'a mut Node, place: &mut usize) -> Option<&'a mut Node> {
    if *place == 0 {
        return Some(node);
    }
    *place -= 1;
    node.kids.iter_mut().find_map(|kid| at(kid, place))
}

/// Calls `then` with each name number in a tree.
fn each_name(node: &mut Node, then: &mut dyn FnMut(&mut u32)) {
    if node.kind == book::NAME {
        then(&mut node.value);
    }
    if node.label_kind == book::BY_NAME {
        then(&mut node.label);
    }
    node.kids.iter_mut().for_each(|kid| each_name(kid, then));
}

fn without_unused_names(book: &mut Book) {
    let mut used: BTreeSet<usize> = book.definitions.iter().map(|row| row.name).collect();
    used.extend(book.files.iter().map(|file| file.name));
    trees(book).for_each(|tree| {
        each_name(tree, &mut |name| {
            used.insert(*name as usize);
        })
    });
    let number = |name: usize| used.range(..name).count();
    book.definitions.iter_mut().for_each(|row| row.name = number(row.name));
    book.files.iter_mut().for_each(|file| file.name = number(file.name));
    trees(book).for_each(|tree| each_name(tree, &mut |name| *name = number(*name as usize) as u32));
    book.names = used.iter().map(|name| book.names[*name].clone()).collect();
}

fn edited(book: &Book, edit: Edit) -> Book {
    let mut book = book.clone();
    match edit {
        Edit::Definition(i) => {
            book.definitions.remove(i);
        }
        Edit::File(i) => {
            book.files.remove(i);
            book.definitions.retain(|row| row.file != i);
            book.definitions.iter_mut().filter(|row| row.file > i).for_each(|row| row.file -= 1);
        }
        Edit::Actor(i) => book.files[i].tree = None,
        Edit::UnusedNames => without_unused_names(&mut book),
        Edit::Nat(tree, place) | Edit::Kid(tree, place, _) | Edit::Without(tree, place, _) => {
            let mut place = place;
            let node = at(trees(&mut book).nth(tree).expect("a tree"), &mut place).expect("a node");
            match edit {
                Edit::Kid(_, _, i) => {
                    let kid = node.kids.swap_remove(i);
                    *node = Node { label_kind: node.label_kind, label: node.label, ..kid };
                }
                Edit::Without(_, _, i) => {
                    if node.kind == book::FUNC && i < (node.value & 0xffff) as usize {
                        node.value -= 1;
                    }
                    node.kids.remove(i);
                }
                _ => (node.kind, node.value, node.kids) = (NAT, 0, vec![]),
            }
        }
    }
    book
}

fn said(program: &[&str], batch: &[u8]) -> String {
    let piped = Command::new(program[0]).args(&program[1..]).stdin(Stdio::piped()).stdout(Stdio::piped()).spawn();
    let mut child = piped.unwrap_or_else(|e| panic!("{program:?}: {e}"));
    let (mut input, mut text) = (child.stdin.take().expect("a pipe"), String::new());
    std::thread::scope(|scope| {
        scope.spawn(move || input.write_all(batch));
        child.stdout.take().expect("a pipe").read_to_string(&mut text).expect("text");
    });
    child.wait().expect("an end");
    text
}

/// A book and limits.
type Asked = (Book, Limits);

/// The first of some books that differs.
fn first_that_differs(books: &[Asked], answers: &[&str]) -> Option<usize> {
    if books.is_empty() {
        return None;
    }
    let record = |(i, (book, limits)): (usize, &Asked)| Record { name: &i.to_string(), limits: *limits, book: &book.bytes() }.bytes();
    let batch: Vec<u8> = books.iter().enumerate().flat_map(record).collect();
    let mut rust = Vec::new();
    answer::write(&batch, &mut rust);
    let rust = String::from_utf8(rust).expect("text");
    let (_, differences) = compare::compared(&batch, &said(answers, &batch), &rust);
    differences.first().and_then(|difference| difference.name.parse().ok())
}

/// Bytes, and nodes that are not nat: what an edit has to make fewer.
fn measure(book: &Book) -> (usize, usize) {
    let mut others = 0;
    fn count(node: &Node, others: &mut usize) {
        *others += (node.kind != NAT) as usize;
        node.kids.iter().for_each(|kid| count(kid, others));
    }
    trees(&mut book.clone()).for_each(|tree| count(tree, &mut others));
    (book.bytes().len(), others)
}

/// Limits that are as far from what a smaller book has as they were from what the book had.
fn moved(limits: Limits, before: Limits, after: Limits) -> Limits {
    let one = |place: usize| (limits[place] + after[place]).saturating_sub(before[place]);
    [0, 1, 2].map(|place| if limits[place] < FULL[place] { one(place) } else { limits[place] })
}

/// A book made smaller, under the same limits and under moved ones.
fn smaller((book, limits): &Asked, edit: Edit) -> Vec<Asked> {
    let edited = edited(book, edit);
    let moved = moved(*limits, book.counts(), edited.counts());
    if moved == *limits { vec![(edited, moved)] } else { vec![(edited.clone(), *limits), (edited, moved)] }
}

/// Full limits instead of all or of one, where the book differs under these too.
fn with_full_limits((book, limits): Asked, answers: &[&str]) -> Asked {
    let of_one = |place: usize| [0, 1, 2].map(|other| if other == place { FULL[other] } else { limits[other] });
    let others = [FULL, of_one(0), of_one(1), of_one(2)];
    let tried: Vec<Asked> = others.into_iter().filter(|other| *other != limits).map(|other| (book.clone(), other)).collect();
    match first_that_differs(&tried, answers) {
        Some(found) => with_full_limits(tried[found].clone(), answers),
        None => (book, limits),
    }
}

/// Writes the book, and tells its limits.
fn written(bytes: &[u8], limits: Limits) -> i32 {
    eprintln!("under limits {limits:?}");
    std::io::stdout().write_all(bytes).map_or(1, |_| 0)
}

/// Of the first record in a file.
pub fn run(path: &str, answers: &[&str]) -> i32 {
    let batch = compare::file(path);
    let Record { limits, book: bytes, .. } = Batch(&batch).next().expect("a record");
    let Some(book) = book::read(bytes) else {
        return written(bytes, limits);
    };
    let mut asked = with_full_limits((book, limits), answers);
    'smaller: loop {
        let now = measure(&asked.0);
        for some in all_edits(&asked.0).chunks(AT_A_TIME) {
            let mut tried: Vec<Asked> = some.iter().flat_map(|edit| smaller(&asked, *edit)).collect();
            tried.retain(|(book, _)| measure(book) < now);
            if let Some(found) = first_that_differs(&tried, answers) {
                asked = tried.swap_remove(found);
                continue 'smaller;
            }
        }
        return written(&asked.0.bytes(), asked.1);
    }
}
