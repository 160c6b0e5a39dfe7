//! All small books of a few kinds: up to 5 nodes, 2 definitions and 3 names. Each fits the layout.
//!
//! Types are nat, a name, opt, a record of one or two fields, a func of any arguments and results, a service of up to two
//! methods, and a class. Beside main stand up to two imports and an init file. Left out, so that the number stays small:
//! - a sole definition is of `a`; two are of `a` and `b`, in either order, or of `a` twice;
//! - a name is one that the book defines or `m`, which no book does; with an init file, or a type import alone, and two names
//!   defined, only those two;
//! - modes are none and oneway; with main alone and at most one definition, also two modes at once;
//! - a method's type is a func, a name or nat; the class below an actor's top is `class { service {} }`, which nobody opens;
//! - labels are fixed, except with an init file, where they are compared; a lone method is `m`, with a service import also `a`;
//! - labels repeat only with main alone and at most one definition, and with other files and none: two fields in four ways, two
//!   methods; elsewhere the Rust is asked of every book;
//! - an actor is a class, a service, a name or nat; in a book of main alone without definitions, any type of up to 3 nodes; a
//!   type import's, which is ignored, any type;
//! - a main file without an actor counts as a node, except with an init file: its definitions stand beside `service {}` too;
//! - books of more than 3 nodes that are 2 or 12 whatever their trees are; with three files or more, those whose trees are all
//!   of one node are there.
//!
//! More is left out of the parts with a type import or with several files beside main:
//! - `type-import`: the type import has a definition or an actor; where it has an actor, two definitions stand in two files.
//! - `imports`: a type and a service import, in either order, or two service imports. A type import has a definition or an
//!   actor. Two definitions stand in two files, one of them the type import; a sole one in the type import. With two service
//!   imports two stand in these, a sole one anywhere.
//! - `import-init`: a service import and an init file; two definitions stand in two files. Where main has an actor too, there
//!   are up to 6 nodes, since 5 leave little for three files. Or a type import without an actor and an init file, alone or with
//!   a service import before or after the type import: one definition stands in the type import, and one in the init file or
//!   none.
//!
//! The part `sound` has up to 6 nodes of what can pass: no unbound name, oneway only without results, methods of func and
//! names alone, no class below the top, no nat as an actor. It has four shapes: an actor with one definition, with two, with
//! two and a service import; and, without an actor, a definition of main and one of the init file of the same name.
//!
//! The part `values` has what decides whether a definition is empty and how many values it has: main alone without an actor, with one definition or
//! two in either order of up to 6 nodes, or three of up to 5. Types are null, empty, a name that is defined, opt, vec, a record of up to two fields
//! and a variant of up to two cases.
//!
//! Limits are by turns the full ones, the book's own counts and the largest, so that the Rust is asked of every book. Under limits that a
//! book is over, the exported functions alone are asked (exported.rs).

use crate::book::{self, Book, Definition, File, Node, Record, FULL};
use std::io::Write;

const NODES: usize = 5;
const NAMES: [&[u8]; 3] = [b"a", b"b", b"m"];
const A: u32 = 0;
const B: u32 = 1;
const M: u32 = 2;

const NULL: u8 = 0;
const NAT: u8 = 2;
const ONEWAY: u32 = 1;
const QUERY_AND_ONEWAY: u32 = 2 + 4;

/// Label kind and label.
type Label = (u8, u32);

/// The second is the number of the first.
const SPELLINGS: [Label; 3] = [(book::BY_NAME, A), (book::BY_NUMBER, 97), (book::BY_NAME, B)];
const SECOND_FIELD: Label = (book::BY_NUMBER, 98);

/// Two fields of one number.
const REPEATED_FIELDS: [[Label; 2]; 4] = [
    [(book::BY_NAME, A), (book::BY_NAME, A)],
    [(book::BY_NUMBER, 97), (book::BY_NAME, A)],
    [(book::BY_NAME, A), (book::UNNAMED, 97)],
    [(book::UNNAMED, 97), (book::BY_NUMBER, 97)],
];

/// The first only with a service import, where methods of one name clash; the last only where labels repeat.
const METHODS: [&[u32]; 6] = [&[A], &[], &[M], &[A, M], &[M, A], &[M, M]];

fn node(kind: u8, value: u32, kids: &[Node]) -> Node {
    Node { kind, label_kind: 0, value, label: 0, kids: kids.to_vec() }
}

/// The node with these labels on its children.
fn labelled(mut node: Node, labels: &[Label]) -> Node {
    for (kid, (kind, label)) in node.kids.iter_mut().zip(labels) {
        (kid.label_kind, kid.label) = (*kind, *label);
    }
    node
}

/// Trees by their number of nodes.
type Trees = Vec<Vec<Node>>;

/// Each row of trees, one from each of the lists, that has so many nodes together.
fn each(lists: &[&Trees], nodes: usize, row: &mut Vec<Node>, then: &mut dyn FnMut(&[Node])) {
    let Some((first, rest)) = lists.split_first() else {
        if nodes == 0 {
            then(row);
        }
        return;
    };
    for size in 1..=nodes.saturating_sub(rest.len()) {
        for tree in first.get(size).into_iter().flatten() {
            row.push(tree.clone());
            each(rest, nodes - size, row, then);
            row.pop();
        }
    }
}

/// What the trees of some books are made of.
struct Makings<'a> {
    sound: bool,
    /// Nodes of the largest tree.
    largest: usize,
    names: &'a [u32],
    modes: &'a [u32],
    field: &'a [Label],
    /// Whether two fields may have equal labels.
    repeats: bool,
    /// The names of a service's methods.
    methods: &'a [&'a [u32]],
    /// Up to how many nodes an actor is any type.
    any_actor: usize,
}

struct Made {
    types: Trees,
    actors: Trees,
    /// Actors of a type import.
    ignored: Trees,
    /// Init argument lists.
    lists: Trees,
}

impl Makings<'_> {
    fn made(&self) -> Made {
        let none = || -> Trees { vec![vec![]] };
        let (mut types, mut methods, mut tops) = (none(), none(), none());
        let (mut actors, mut ignored, mut lists) = (none(), none(), none());
        for nodes in 1..=self.largest {
            let below = |lists: &[&Trees], then: &mut dyn FnMut(&[Node])| each(lists, nodes - 1, &mut vec![], then);
            let when = |holds: bool, tree: Node| if holds { vec![tree] } else { vec![] };
            let nat = when(nodes == 1, node(NAT, 0, &[]));
            // Where only a func or a service is sound.
            let wrong = if self.sound { vec![] } else { nat.clone() };
            let class = when(nodes == 2 && !self.sound, node(book::CLASS, 0, &[node(book::SERVICE, 0, &[])]));
            let names = if nodes == 1 { self.names } else { &[] };
            let names: Vec<Node> = names.iter().map(|name| node(book::NAME, *name, &[])).collect();

            let mut functions = vec![];
            for count in 0..nodes {
                below(&vec![&types; count], &mut |kids| {
                    for arguments in 0..=count {
                        let modes: &[u32] = if self.sound && arguments < count { &[0] } else { self.modes };
                        let value = |modes: &u32| arguments as u32 + (modes << 16);
                        functions.extend(modes.iter().map(|modes| node(book::FUNC, value(modes), kids)));
                    }
                });
            }
            let mut service = vec![];
            let method = |name| (book::BY_NAME, name);
            for labels in self.methods {
                let labels: Vec<Label> = labels.iter().copied().map(method).collect();
                let found = &mut |kids: &[Node]| service.push(labelled(node(book::SERVICE, 0, kids), &labels));
                below(&vec![&methods; labels.len()], found);
            }
            let mut others = vec![];
            below(&[&types], &mut |kids| {
                others.push(node(book::OPT, 0, kids));
                others.extend(self.field.iter().map(|label| labelled(node(book::RECORD, 0, kids), &[*label])));
            });
            let two = if self.repeats { &REPEATED_FIELDS[..] } else { &[] };
            let two = [&[[self.field[0], SECOND_FIELD]], two].concat();
            below(&[&types, &types], &mut |kids| {
                others.extend(two.iter().map(|labels| labelled(node(book::RECORD, 0, kids), labels)));
            });

            let mut actor = vec![];
            for count in 0..nodes {
                let mut below_class = vec![&types; count];
                below_class.push(&tops);
                below(&below_class, &mut |kids| actor.push(node(book::CLASS, 0, kids)));
            }
            actor.extend([&wrong[..], &names, &service].concat());
            let any = [&actor[..], &functions, &others].concat();
            let mut list = vec![];
            for count in 0..nodes {
                below(&vec![&types; count], &mut |kids| list.push(node(book::ARGS, 0, kids)));
            }
            types.push([&nat[..], &names, &functions, &service, &others, &class].concat());
            tops.push([&wrong[..], &names, &service, &class].concat());
            methods.push([wrong, names, functions].concat());
            actors.push(if nodes <= self.any_actor { any.clone() } else { actor });
            ignored.push(any);
            lists.push(list);
        }
        Made { types, actors, ignored, lists }
    }
}

/// The types of the part `values`.
fn types_of_values(names: &[u32], largest: usize) -> Trees {
    let mut types: Trees = vec![vec![]];
    for nodes in 1..=largest {
        let mut found = vec![];
        if nodes == 1 {
            found.extend([NULL, book::EMPTY].map(|kind| node(kind, 0, &[])));
            found.extend(names.iter().map(|name| node(book::NAME, *name, &[])));
        }
        for count in 0..=2 {
            each(&vec![&types; count], nodes - 1, &mut vec![], &mut |kids| {
                let inside = [book::RECORD, book::VARIANT].map(|kind| node(kind, 0, kids));
                found.extend(inside.map(|tree| labelled(tree, &[SPELLINGS[0], SECOND_FIELD])));
                if count == 1 {
                    found.extend([book::OPT, book::VEC].map(|kind| node(kind, 0, kids)));
                }
            });
        }
        types.push(found);
    }
    types
}

fn values(then: &mut dyn FnMut(Book)) {
    let rows: [&[u32]; 4] = [&[A], &[A, B], &[B, A], &[A, B, M]];
    for names in rows {
        let most = if names.len() == 3 { NODES } else { NODES + 1 };
        let types = types_of_values(names, most + 1 - names.len());
        for nodes in names.len()..=most {
            each(&vec![&types; names.len()], nodes, &mut vec![], &mut |trees| {
                let definition = |(name, tree): (&u32, &Node)| Definition { name: *name as usize, file: 0, tree: tree.clone() };
                let definitions = names.iter().zip(trees).map(definition).collect();
                let files = vec![File { name: A as usize, role: book::MAIN, tree: None }];
                then(Book { names: NAMES.map(|name| name.to_vec()).to_vec(), definitions, files });
            });
        }
    }
}

/// Where the definitions stand and what files there are: the name and the file of each definition, the role of each file and
/// whether it has a tree.
struct Shape<'a> {
    sound: bool,
    definitions: &'a [(u32, usize)],
    files: &'a [(u16, bool)],
}

impl Shape<'_> {
    fn each(&self, then: &mut dyn FnMut(Book)) {
        let (definitions, files) = (self.definitions, self.files);
        let has = |role: u16, tree: bool| files.contains(&(role, tree));
        let has_init = has(book::INIT, true);
        let mut names: Vec<u32> = definitions.iter().map(|(name, _)| *name).collect();
        names.sort();
        names.dedup();
        let lone_type_import = files.len() == 2 && files[1].0 == book::TYPE_IMPORT;
        if !(self.sound || (has_init || lone_type_import) && names.len() == 2) {
            names.push(M);
        }
        let of_init = |file: usize| files[file].0 == book::INIT;
        let twice = matches!(definitions, [one, other] if one.0 == other.0 && of_init(one.1) == of_init(other.1));
        let trees = definitions.len() + files.iter().filter(|file| file.1).count();
        // For what is 2 or 12 whatever the trees are.
        let few = if files.len() > 2 { trees.max(3) } else { 3 };
        let all_three = has_init && files.len() == 3 && files.iter().all(|file| file.1);
        let most = if twice || has(book::SERVICE_IMPORT, false) {
            few
        } else if self.sound || all_three {
            NODES + 1
        } else {
            NODES - (has(book::MAIN, false) && !has_init) as usize
        };
        let alone = files.len() == 1;
        let repeats = !self.sound && definitions.len() < 1 + alone as usize;
        let made = Makings {
            sound: self.sound,
            largest: (most + 1).saturating_sub(trees),
            names: &names,
            modes: if alone && !self.sound && definitions.len() < 2 { &[0, ONEWAY, QUERY_AND_ONEWAY] } else { &[0, ONEWAY] },
            field: if has_init { &SPELLINGS } else { &SPELLINGS[..1] },
            repeats,
            methods: &METHODS[!has(book::SERVICE_IMPORT, true) as usize..METHODS.len() - !repeats as usize],
            any_actor: if alone && definitions.is_empty() { 3 } else { 0 },
        }
        .made();
        let mut lists = vec![&made.types; definitions.len()];
        for (role, _) in files.iter().filter(|file| file.1) {
            lists.push(match *role {
                book::INIT => &made.lists,
                book::TYPE_IMPORT => &made.ignored,
                _ => &made.actors,
            });
        }
        for nodes in lists.len()..=most {
            each(&lists, nodes, &mut vec![], &mut |row| {
                let mut trees = row.iter().cloned();
                let mut tree = || trees.next().expect("a tree");
                let definition = |&(name, file): &(u32, usize)| Definition { name: name as usize, file, tree: tree() };
                let definitions = definitions.iter().map(definition).collect();
                let file = |(place, &(role, has_tree)): (usize, &(u16, bool))| File {
                    name: place % NAMES.len(),
                    role,
                    tree: has_tree.then(&mut tree),
                };
                let files = files.iter().enumerate().map(file).collect();
                then(Book { names: NAMES.map(|name| name.to_vec()).to_vec(), definitions, files });
            });
        }
    }
}

fn shapes(part: &str, then: &mut dyn FnMut(Book)) {
    let (main, no_main, init) = ((book::MAIN, true), (book::MAIN, false), (book::INIT, true));
    let (import, no_import) = ((book::SERVICE_IMPORT, true), (book::SERVICE_IMPORT, false));
    let (ignored, no_ignored) = ((book::TYPE_IMPORT, true), (book::TYPE_IMPORT, false));
    let in_main: [&[(u32, usize)]; 5] = [&[], &[(A, 0)], &[(A, 0), (B, 0)], &[(B, 0), (A, 0)], &[(A, 0), (A, 0)]];
    let in_both: [&[(u32, usize)]; 4] = [&[(A, 1)], &[(A, 0), (A, 1)], &[(A, 0), (B, 1)], &[(B, 0), (A, 1)]];
    let in_init: [&[(u32, usize)]; 3] = [&[(A, 1), (B, 1)], &[(B, 1), (A, 1)], &[(A, 1), (A, 1)]];
    let sole = |file: usize| vec![(A, file)];
    let two = |one: usize, other: usize| {
        let (one, other) = (one.min(other), one.max(other));
        [vec![(A, one), (B, other)], vec![(B, one), (A, other)], vec![(A, one), (A, other)]]
    };
    let mut all = |definitions: &[&[(u32, usize)]], files: &[&[(u16, bool)]]| {
        for definitions in definitions {
            files.iter().for_each(|files| Shape { sound: part == "sound", definitions, files }.each(then));
        }
    };
    // Beside a main file with and without an actor.
    let mut beside = |definitions: &[&[Vec<(u32, usize)>]], others: &[(u16, bool)]| {
        let definitions = definitions.concat();
        let definitions: Vec<&[(u32, usize)]> = definitions.iter().map(|row| &row[..]).collect();
        all(&definitions, &[&[&[no_main], others].concat(), &[&[main], others].concat()]);
    };
    match part {
        "values" => values(then),
        "main" => all(&in_main, &[&[no_main], &[main]]),
        "import" => {
            let files: [&[(u16, bool)]; 4] = [&[no_main, no_import], &[main, no_import], &[no_main, import], &[main, import]];
            all(&[&in_main[..], &in_both].concat(), &files);
        }
        "init" => all(&[&in_main[..], &in_both, &in_init].concat(), &[&[no_main, init], &[main, init]]),
        "sound" => {
            all(&[&[(A, 0)], &[(B, 0), (A, 0)]], &[&[main]]);
            all(&[&[(B, 0), (A, 0)]], &[&[main, import]]);
            all(&[&[(A, 0), (A, 1)]], &[&[no_main, init]]);
        }
        "type-import" => {
            all(&[&in_both[..], &in_init].concat(), &[&[no_main, no_ignored], &[main, no_ignored]]);
            all(&[&in_main[..2], &in_both].concat(), &[&[no_main, ignored], &[main, ignored]]);
        }
        "imports" => {
            for service in [import, no_import] {
                for (of_type, of_service) in [(1, 2), (2, 1)] {
                    let files = |of: (u16, bool)| if of_type == 1 { [of, service] } else { [service, of] };
                    let with_type = [&[sole(of_type)][..], &two(0, of_type), &two(of_type, of_service)].concat();
                    beside(&[&with_type], &files(no_ignored));
                    beside(&[&[vec![]], &with_type], &files(ignored));
                }
                for other in [import, no_import] {
                    beside(&[&[vec![], sole(0), sole(1), sole(2)], &two(1, 2)], &[service, other]);
                }
            }
        }
        "import-init" => {
            for service in [import, no_import] {
                let one = [vec![], sole(0), sole(1), sole(2)];
                beside(&[&one, &two(0, 1), &two(0, 2), &two(1, 2)], &[service, init]);
                beside(&[&[sole(1)], &two(1, 3)], &[no_ignored, service, init]);
                beside(&[&[sole(2)], &two(2, 3)], &[service, no_ignored, init]);
            }
            beside(&[&[sole(1)], &two(1, 2)], &[no_ignored, init]);
        }
        _ => panic!("main, import, init, sound, values, type-import, imports or import-init, not {part}"),
    }
}

pub fn run(part: &str) -> i32 {
    let mut out = std::io::BufWriter::new(std::io::stdout().lock());
    let mut count = 0;
    shapes(part, &mut |book| {
        let (name, bytes) = (format!("{part}-{count}"), book.bytes());
        let limits = [FULL, book.counts(), [u32::MAX; 3]][count % 3];
        if book::read(&bytes).is_none() {
            eprintln!("{name}: not a whole book as generated");
        }
        out.write_all(&Record { name: &name, limits, book: &bytes }.bytes()).expect("room");
        count += 1;
    });
    out.flush().expect("room");
    0
}
