//! Random books from a seed. Book i of a seed is the same whatever the count.
//!
//! Three in four books are planned: definitions, services and actors that pass, and in some of them faults on purpose. The
//! others are wild (whatever the layout allows), sparse (methods lead to few definitions each) or of a special shape: long
//! chains, deep trees, ladders, many uses, wide records. One planned book in six has little but records, variants, names and
//! `empty` in its types, so that many names are empty, and one in six small primitives and few circles, so that many have a
//! number of values. Labels may repeat in one book of eight and in wide ones, so that the Rust is asked of the others. Some
//! are damaged afterwards. Half of them are asked under full limits.

use crate::book::{self, number_of, Book, Definition, File, Limits, Node, Record, FULL};
use candid::idl_hash;
use std::collections::{BTreeMap, BTreeSet, HashMap, HashSet};
use std::io::Write;

pub struct Random(u64);

impl Random {
    pub fn of(seed: u64, index: u64) -> Self {
        let mut random = Random(seed ^ 0x5851_f42d_4c95_7f2d);
        random.0 = random.next() ^ index.wrapping_mul(0x2545_f491_4f6c_dd1d);
        random.next();
        random
    }

    fn next(&mut self) -> u64 {
        self.0 = self.0.wrapping_add(0x9e37_79b9_7f4a_7c15);
        let mut x = self.0;
        x = (x ^ (x >> 30)).wrapping_mul(0xbf58_476d_1ce4_e5b9);
        x = (x ^ (x >> 27)).wrapping_mul(0x94d0_49bb_1331_11eb);
        x ^ (x >> 31)
    }

    pub fn below(&mut self, limit: usize) -> usize {
        (self.next() % limit as u64) as usize
    }

    fn between(&mut self, low: usize, high: usize) -> usize {
        low + self.below(high - low + 1)
    }

    /// True in so many of a hundred cases.
    pub fn percent(&mut self, percent: usize) -> bool {
        self.below(100) < percent
    }

    fn one<'a, T>(&mut self, list: &'a [T]) -> &'a T {
        &list[self.below(list.len())]
    }

    fn shuffle<T>(&mut self, list: &mut [T]) {
        for i in (1..list.len()).rev() {
            list.swap(i, self.below(i + 1));
        }
    }
}

type Name = Vec<u8>;

/// Primitives that have a number of values.
const SMALL: [u8; 10] = [0, 1, 1, 1, 15, 4, 8, 5, 9, 1];

/// Pairs of plain names of one label number.
fn collisions() -> Vec<(Name, Name)> {
    let (mut random, mut seen, mut found) = (Random(1), HashMap::new(), Vec::new());
    while found.len() < 12 {
        let word: String = (0..random.between(5, 7)).map(|_| (b'a' + random.below(26) as u8) as char).collect();
        let number = idl_hash(&word);
        match seen.insert(number, word.clone()) {
            Some(before) if before != word => found.push((before.into_bytes(), word.into_bytes())),
            _ => (),
        }
    }
    found
}

const ODD: [&str; 26] = [
    "",
    "\0",
    "\0a",
    "\0\0a",
    "\0b",
    "\"",
    "\\",
    " ",
    "\n",
    "é",
    "名前",
    "type",
    "service",
    "nat",
    "init",
    "init.arg0",
    "a.ret0",
    "0",
    "-",
    "a b",
    "\u{7f}",
    "Unbound type identifier a",
    "a has cyclic type definition",
    "\u{10ffff}",
    "query",
    "\u{80}",
];

#[derive(Clone)]
struct Row {
    name: Name,
    file: usize,
    tree: Tree,
}

/// A node with its names as bytes.
#[derive(Clone, Debug)]
struct Tree {
    kind: u8,
    label: Label,
    value: Value,
    kids: Vec<Tree>,
}

#[derive(Clone, Debug)]
enum Label {
    None,
    Number(u32),
    Name(Name),
    Unnamed(u32),
}

/// What tells a child from its siblings: a method's name, a field's number.
#[derive(Hash, PartialEq, Eq)]
enum Told {
    Method(Name),
    Field(u32),
}

impl Label {
    fn told(&self, parent: u8) -> Option<Told> {
        match self {
            Label::None => None,
            Label::Name(name) if parent == book::SERVICE => Some(Told::Method(name.clone())),
            Label::Name(name) => Some(Told::Field(number_of(name))),
            Label::Number(number) | Label::Unnamed(number) => Some(Told::Field(*number)),
        }
    }
}

#[derive(Clone, Debug)]
enum Value {
    None,
    Name(Name),
    Func(usize, Vec<u32>),
}

fn leaf(kind: u8) -> Tree {
    tree(kind, vec![])
}

fn tree(kind: u8, kids: Vec<Tree>) -> Tree {
    Tree { kind, label: Label::None, value: Value::None, kids }
}

fn name(name: impl AsRef<[u8]>) -> Tree {
    Tree { kind: book::NAME, label: Label::None, value: Value::Name(name.as_ref().into()), kids: vec![] }
}

fn func(args: Vec<Tree>, rets: Vec<Tree>, modes: Vec<u32>) -> Tree {
    let value = Value::Func(args.len(), modes);
    Tree { kind: book::FUNC, label: Label::None, value, kids: args.into_iter().chain(rets).collect() }
}

impl Tree {
    fn labelled(mut self, label: Label) -> Tree {
        self.label = label;
        self
    }

    fn names(&self, found: &mut BTreeSet<Name>) {
        if let Value::Name(name) = &self.value {
            found.insert(name.clone());
        }
        if let Label::Name(name) = &self.label {
            found.insert(name.clone());
        }
        self.kids.iter().for_each(|kid| kid.names(found));
    }

    fn references(&self, found: &mut BTreeSet<Name>) {
        if let Value::Name(name) = &self.value {
            found.insert(name.clone());
        }
        self.kids.iter().for_each(|kid| kid.references(found));
    }

    fn node(&self, numbers: &BTreeMap<Name, u32>) -> Node {
        let (label_kind, label) = match &self.label {
            Label::None => (0, 0),
            Label::Number(number) => (book::BY_NUMBER, *number),
            Label::Name(name) => (book::BY_NAME, numbers[name]),
            Label::Unnamed(number) => (book::UNNAMED, *number),
        };
        let value = match &self.value {
            Value::None => 0,
            Value::Name(name) => numbers[name],
            Value::Func(args, modes) => {
                let digits = modes.iter().enumerate().map(|(place, mode)| mode << (16 + 2 * place));
                *args as u32 + digits.sum::<u32>()
            }
        };
        let kids = self.kids.iter().map(|kid| kid.node(numbers)).collect();
        Node { kind: self.kind, label_kind, value, label, kids }
    }

    fn any<'a>(&'a mut self, random: &mut Random, wanted: &dyn Fn(&Tree) -> bool) -> Option<&'a mut Tree> {
        fn places(tree: &Tree, wanted: &dyn Fn(&Tree) -> bool) -> usize {
            wanted(tree) as usize + tree.kids.iter().map(|kid| places(kid, wanted)).sum::<usize>()
        }
        fn at<'a>(tree: &'a mut Tree, wanted: &dyn Fn(&Tree) -> bool, left: &mut usize) -> Option<&'a mut Tree> {
            if wanted(tree) {
                if *left == 0 {
                    return Some(tree);
                }
                *left -= 1;
            }
            tree.kids.iter_mut().find_map(|kid| at(kid, wanted, left))
        }
        let count = places(self, wanted);
        if count == 0 {
            return None;
        }
        let mut left = random.below(count);
        at(self, wanted, &mut left)
    }
}

#[derive(Default)]
struct Draft {
    rows: Vec<Row>,
    files: Vec<(Name, u16, Option<Tree>)>,
    extra: Vec<Name>,
}

impl Draft {
    fn book(mut self) -> Book {
        self.rows.sort_by_key(|row| row.file);
        let mut names: BTreeSet<Name> = self.extra.iter().cloned().collect();
        for row in &self.rows {
            names.insert(row.name.clone());
            row.tree.names(&mut names);
        }
        for (name, _, tree) in &self.files {
            names.insert(name.clone());
            tree.iter().for_each(|tree| tree.names(&mut names));
        }
        let numbers: BTreeMap<Name, u32> = names.iter().enumerate().map(|(i, name)| (name.clone(), i as u32)).collect();
        let number = |name: &Name| numbers[name] as usize;
        let of_row = |row: &Row| Definition { name: number(&row.name), file: row.file, tree: row.tree.node(&numbers) };
        let of_file = |(name, role, tree): &(Name, u16, Option<Tree>)| File {
            name: number(name),
            role: *role,
            tree: tree.as_ref().map(|tree| tree.node(&numbers)),
        };
        let (definitions, files) = (self.rows.iter().map(of_row).collect(), self.files.iter().map(of_file).collect());
        Book { names: names.into_iter().collect(), definitions, files }
    }
}

// Faults, each put in on purpose in some of the books

#[derive(Clone, Copy, PartialEq)]
enum Fault {
    Twice,
    Unbound,
    Class,
    Modes,
    Oneway,
    Circle,
    Method,
    Actor,
    Init,
    NoActor,
    ImportedClass,
    Hash,
    InitUnbound,
}

use Fault::*;

const FAULTS: [Fault; 13] =
    [Twice, Unbound, Class, Modes, Oneway, Circle, Method, Actor, Init, NoActor, ImportedClass, Hash, InitUnbound];

#[derive(Clone, Copy, PartialEq)]
enum Sort {
    Data,
    Func,
    Service,
}

struct Gen<'a> {
    random: Random,
    collisions: &'a [(Name, Name)],
    pool: Vec<Name>,
    /// The names that a type may refer to here, and those of functions and of services among them.
    bound: Vec<Name>,
    functions: Vec<Name>,
    services: Vec<Name>,
    faults: Vec<Fault>,
    /// Whether types are made of little but records, variants, names and `empty`.
    hollow: bool,
    /// Whether primitives are small, and most definitions refer to those of higher ranks alone.
    finite: bool,
    /// Whether labels may be as they come, or are made to differ.
    repeats: bool,
    /// Hashes of methods that stand in actors with service imports, where they may not repeat.
    taken: HashSet<u32>,
    apart: bool,
    left: usize,
    plain_services: usize,
}

impl Gen<'_> {
    fn faulty(&mut self, fault: Fault, percent: usize) -> bool {
        self.faults.contains(&fault) && self.random.percent(percent)
    }

    fn word(&mut self) -> Name {
        let size = *self.random.one(&[1, 1, 1, 2, 2, 3, 5, 8]);
        (0..size).map(|_| *self.random.one(b"abcdefghmnrstxyz_019")).collect()
    }

    fn fill_pool(&mut self, size: usize) {
        let odd = if self.random.percent(30) { 40 } else { 5 };
        while self.pool.len() < size {
            let name = match self.random.below(100) {
                n if n < odd => self.random.one(&ODD).as_bytes().to_vec(),
                n if n < odd + 6 => {
                    let (one, other) = self.random.one(self.collisions).clone();
                    self.pool.push(one);
                    other
                }
                n if n < odd + 7 => vec![b'x'; self.random.between(200, 255)],
                _ => self.word(),
            };
            if !self.pool.contains(&name) {
                self.pool.push(name);
            }
        }
        if self.random.percent(2) {
            let names: [&[u8]; 3] = [b"\xff", b"\x80a", b"\xc3"];
            let name = self.random.one(&names).to_vec();
            self.pool.push(name);
        }
    }

    /// A name of the pool, any word where that is empty.
    fn pooled(&mut self) -> Name {
        if self.pool.is_empty() {
            return self.word();
        }
        let pool = std::mem::take(&mut self.pool);
        let name = self.random.one(&pool).clone();
        self.pool = pool;
        name
    }

    /// A leaf; a few kinds are frequent, so that two trees agree now and then.
    fn primitive(&mut self) -> Tree {
        if self.finite && self.random.percent(90) {
            return leaf(*self.random.one(&SMALL));
        }
        leaf(if self.random.percent(40) { *self.random.one(&[2, 2, 14]) } else { self.random.below(18) as u8 })
    }

    fn label(&mut self, place: usize) -> Label {
        match self.random.below(10) {
            0 | 1 => Label::Number(*self.random.one(&[0, 1, 2, 97, 98, 21729, u32::MAX, 1 << 31])),
            2 => Label::Unnamed(self.random.below(4) as u32),
            3 | 4 => Label::Unnamed(place as u32),
            _ => Label::Name(self.pooled()),
        }
    }

    /// Another label for each child that has the label of an earlier one, unless labels may repeat.
    fn set_apart(&mut self, kind: u8, kids: &mut [Tree]) {
        if self.repeats || !matches!(kind, book::RECORD | book::VARIANT | book::SERVICE) {
            return;
        }
        let mut taken: HashSet<Option<Told>> = HashSet::new();
        for (place, kid) in kids.iter_mut().enumerate() {
            let mut tries = 0;
            while !taken.insert(kid.label.told(kind)) {
                kid.label = match (kind, tries) {
                    (book::SERVICE, 0..=7) => Label::Name(self.pooled()),
                    (book::SERVICE, _) => Label::Name([self.word(), self.word()].concat()),
                    (_, 0..=7) => self.label(place),
                    _ => Label::Number(self.random.next() as u32),
                };
                tries += 1;
            }
        }
    }

    /// The same in a whole tree.
    fn set_all_apart(&mut self, tree: &mut Tree) {
        self.set_apart(tree.kind, &mut tree.kids);
        tree.kids.iter_mut().for_each(|kid| self.set_all_apart(kid));
    }

    /// A name, its number or that number unnamed.
    fn spelling(&mut self, name: &Name) -> Label {
        match self.random.below(3) {
            0 => Label::Number(number_of(name)),
            1 => Label::Unnamed(number_of(name)),
            _ => Label::Name(name.clone()),
        }
    }

    /// Gives two children of a node equal labels, and a node with one child a second one.
    fn repeat(&mut self, root: &mut Tree) {
        let is_parent = |tree: &Tree| matches!(tree.kind, book::RECORD | book::VARIANT | book::SERVICE) && !tree.kids.is_empty();
        let Some(parent) = root.any(&mut self.random, &is_parent) else {
            return;
        };
        if parent.kids.len() == 1 {
            let body = if parent.kind == book::SERVICE { func(vec![], vec![], vec![]) } else { leaf(2) };
            parent.kids.insert(self.random.below(2), body.labelled(parent.kids[0].label.clone()));
        }
        let (one, other) = (self.random.below(parent.kids.len()), self.random.between(1, parent.kids.len() - 1));
        let other = (one + other) % parent.kids.len();
        let (first, second) = match self.random.below(8) {
            0..=4 if parent.kind != book::SERVICE => {
                let name = self.pooled();
                (self.spelling(&name), self.spelling(&name))
            }
            5 if parent.kind != book::SERVICE => {
                let (one, other) = self.random.one(self.collisions).clone();
                (Label::Name(one), Label::Name(other))
            }
            _ => (parent.kids[one].label.clone(), parent.kids[one].label.clone()),
        };
        (parent.kids[one].label, parent.kids[other].label) = (first, second);
    }

    /// Puts repeats into some of a book's trees.
    fn put_repeats(&mut self, draft: &mut Draft) {
        for _ in 0..*self.random.one(&[1, 1, 2, 3]) {
            let at = self.random.below(draft.rows.len() + draft.files.len());
            match draft.rows.len() {
                rows if at < rows => self.repeat(&mut draft.rows[at].tree),
                rows => draft.files[at - rows].2.iter_mut().for_each(|tree| self.repeat(tree)),
            }
        }
    }

    fn types(&mut self, most: usize, depth: usize) -> Vec<Tree> {
        let count = *self.random.one(&[0, 1, 1, 1, 2, 2, 3, most]);
        (0..count.min(most)).map(|_| self.typ(depth)).collect()
    }

    fn reference(&mut self) -> Tree {
        if self.faulty(Unbound, 6) || self.bound.is_empty() && self.faults.contains(&Unbound) {
            let unbound = self.pooled();
            return name(&unbound);
        }
        if self.bound.is_empty() {
            return self.primitive();
        }
        let bound = std::mem::take(&mut self.bound);
        let found = name(self.random.one(&bound));
        self.bound = bound;
        found
    }

    fn typ(&mut self, depth: usize) -> Tree {
        self.left = self.left.saturating_sub(1);
        if self.faulty(Class, 2) {
            let (mut kids, last) = (self.types(2, depth + 1), self.typ(depth + 1));
            kids.push(last);
            return tree(book::CLASS, kids);
        }
        if depth > 12 || self.left == 0 {
            return if self.random.percent(50) { self.reference() } else { self.primitive() };
        }
        match self.random.below(100) {
            0..=3 if self.finite => leaf(book::EMPTY),
            4..=39 if self.finite => self.primitive(),
            40..=69 if self.finite => self.reference(),
            70..=76 if self.finite => {
                let kid = self.typ(depth + 1);
                tree(book::OPT, vec![kid])
            }
            0..=7 if self.hollow => leaf(book::EMPTY),
            8..=15 if self.hollow => leaf(2),
            16..=46 if self.hollow => self.reference(),
            47..=91 if self.hollow => self.fields(depth),
            0..=23 => self.primitive(),
            24..=57 => self.reference(),
            58..=71 => {
                let kid = self.typ(depth + 1);
                tree(if self.random.percent(50) { book::OPT } else { book::VEC }, vec![kid])
            }
            72..=91 => self.fields(depth),
            92..=96 => self.function(depth),
            _ => self.service(depth, 3),
        }
    }

    fn fields(&mut self, depth: usize) -> Tree {
        let kind = if self.random.percent(60) { book::RECORD } else { book::VARIANT };
        let kids = self.types(6, depth + 1);
        let mut kids: Vec<Tree> = kids.into_iter().enumerate().map(|(place, kid)| kid.labelled(self.label(place))).collect();
        self.set_apart(kind, &mut kids);
        tree(kind, kids)
    }

    fn function(&mut self, depth: usize) -> Tree {
        let (args, mut rets) = (self.types(5, depth + 1), self.types(4, depth + 1));
        let mut modes = match self.random.below(10) {
            0..=5 => vec![],
            6 | 7 => vec![2],
            8 => vec![3],
            _ => vec![1],
        };
        if modes == [1] && !self.faulty(Oneway, 60) {
            rets.clear();
        }
        if self.faulty(Modes, 20) {
            modes = (0..self.random.between(2, 8)).map(|_| self.random.between(1, 3) as u32).collect();
        }
        func(args, rets, modes)
    }

    fn method_type(&mut self, depth: usize) -> Tree {
        if self.faulty(Method, 15) {
            return self.typ(depth);
        }
        if self.random.percent(50) && !self.functions.is_empty() {
            let functions = std::mem::take(&mut self.functions);
            let found = name(self.random.one(&functions));
            self.functions = functions;
            return found;
        }
        self.function(depth)
    }

    fn service(&mut self, depth: usize, most: usize) -> Tree {
        let count = self.random.between(0, most);
        let mut kids = Vec::new();
        for _ in 0..count {
            let mut method = self.pooled();
            // With service imports, the services of definitions and actors keep apart.
            if self.apart && depth == 0 && !self.faulty(Hash, 40) {
                let mut tries = 0;
                while self.taken.contains(&number_of(&method)) && tries < 30 {
                    method = if tries < 8 { self.pooled() } else { [self.word(), self.word()].concat() };
                    tries += 1;
                }
                self.taken.insert(number_of(&method));
            }
            let method_type = self.method_type(depth + 1);
            kids.push(method_type.labelled(Label::Name(method)));
        }
        self.set_apart(book::SERVICE, &mut kids);
        tree(book::SERVICE, kids)
    }

    /// A service, as it stands or by name; a name is not taken twice with service imports.
    fn service_or_name(&mut self) -> Tree {
        if self.faulty(Actor, 50) {
            return if self.random.percent(50) { self.reference() } else { self.typ(1) };
        }
        if !self.services.is_empty() && self.random.percent(40) {
            let at = self.random.below(self.services.len());
            let found = name(&self.services[at]);
            if self.apart && at < self.plain_services {
                self.services.remove(at);
                self.plain_services -= 1;
            }
            return found;
        }
        let most = *self.random.one(&[1, 2, 3, 4, 6, 10]);
        self.service(0, most)
    }

    fn definitions(&mut self, names: &[Name], file_of: &mut dyn FnMut(&mut Random) -> usize) -> Vec<Row> {
        let mut order: Vec<usize> = (0..names.len()).collect();
        self.random.shuffle(&mut order);
        let mut ends: Vec<(Sort, Option<usize>)> = vec![(Sort::Data, None); names.len()];
        // From the last rank to the first, so that an alias' end is known and is no circle.
        for rank in (0..order.len()).rev() {
            let aliased = rank + 1 < order.len() && self.random.percent(15);
            ends[order[rank]] = if aliased {
                let to = order[self.random.between(rank + 1, order.len() - 1)];
                (ends[to].0, Some(to))
            } else {
                let others = if (self.hollow || self.finite) && self.random.percent(70) { Sort::Data } else { Sort::Func };
                (*self.random.one(&[Sort::Data, Sort::Data, Sort::Data, others, Sort::Service]), None)
            };
        }
        let of = |sort: Sort| (0..names.len()).filter(|i| ends[*i].0 == sort).map(|i| names[i].clone()).collect::<Vec<_>>();
        self.bound = names.to_vec();
        self.functions = of(Sort::Func);
        let mut rows = Vec::new();
        for (i, own) in names.iter().enumerate() {
            if self.finite {
                let rank = order.iter().position(|of_rank| *of_rank == i).expect("a rank");
                let least = if self.random.percent(5) { 0 } else { rank + 1 };
                self.bound = order[least..].iter().map(|of_rank| names[*of_rank].clone()).collect();
            }
            let body = match ends[i] {
                (_, Some(to)) if self.faulty(Circle, 60) => name(&names[self.random.between(0, to)]),
                (_, Some(to)) => name(&names[to]),
                (Sort::Data, _) if self.random.percent(35) => {
                    let fields = self.random.between(1, 4);
                    let kids = (0..fields).map(|i| {
                        let kid = if self.random.percent(60) { self.reference() } else { self.typ(2) };
                        kid.labelled(self.label(i))
                    });
                    let mut kids: Vec<Tree> = kids.collect();
                    self.set_apart(book::RECORD, &mut kids);
                    tree(book::RECORD, kids)
                }
                (Sort::Data, _) => match self.typ(0) {
                    alias if alias.kind == book::NAME && !self.faulty(Circle, 50) => {
                        let kind = if self.hollow { *self.random.one(&[book::RECORD, book::VARIANT]) } else { book::OPT };
                        let label = if self.hollow { self.label(0) } else { Label::None };
                        tree(kind, vec![alias.labelled(label)])
                    }
                    other => other,
                },
                (Sort::Func, _) => self.function(0),
                (Sort::Service, _) => self.service(0, 4),
            };
            rows.push(Row { name: own.clone(), file: file_of(&mut self.random), tree: body });
        }
        self.bound = names.to_vec();
        let plain = (0..names.len()).filter(|i| ends[*i] == (Sort::Service, None)).map(|i| names[i].clone());
        let aliased = (0..names.len()).filter(|i| ends[*i].0 == Sort::Service && ends[*i].1.is_some()).map(|i| names[i].clone());
        self.services = plain.collect();
        self.plain_services = self.services.len();
        if !self.apart || self.random.percent(10) {
            self.services.extend(aliased);
        }
        if self.faulty(Twice, 80) && !rows.is_empty() {
            let mut again = self.random.one(&rows).clone();
            again.file = file_of(&mut self.random);
            if self.random.percent(50) {
                again.tree = self.typ(0);
            }
            let at = self.random.between(0, rows.len());
            rows.insert(at, again);
        }
        rows
    }

    fn planned(&mut self) -> Draft {
        let scale = *self.random.one(&[1, 1, 2, 2, 2, 3, 3, 4]);
        let (most, nodes) = [(0, 0), (3, 20), (8, 60), (20, 200), (50, 700)][scale];
        let pool = self.random.between(2, 3 * scale * scale + 6);
        self.fill_pool(pool);
        self.left = nodes;
        self.hollow = self.random.percent(16);
        self.finite = !self.hollow && self.random.percent(20);
        if self.random.percent(42) {
            self.faults.push(*self.random.one(&FAULTS));
            if self.random.percent(35) {
                self.faults.push(*self.random.one(&FAULTS));
            }
        }
        let wants = |faults: &[Fault], list: &[Fault]| faults.iter().any(|fault| list.contains(fault));
        let imports_wanted = wants(&self.faults, &[NoActor, ImportedClass, Hash]);
        let init_wanted = wants(&self.faults, &[Init, InitUnbound]);
        let mut files: Vec<(Name, u16, Option<Tree>)> = vec![(self.pooled(), book::MAIN, None)];
        if imports_wanted || self.random.percent(35) {
            for _ in 0..*self.random.one(&[1, 1, 2, 3]) {
                let role = if imports_wanted || self.random.percent(60) { book::SERVICE_IMPORT } else { book::TYPE_IMPORT };
                files.push((self.pooled(), role, None));
            }
        }
        let own = files.len();
        self.apart = files.iter().any(|file| file.1 == book::SERVICE_IMPORT);

        let mut names = self.pool.clone();
        self.random.shuffle(&mut names);
        names.truncate(self.random.between(0, most));
        let in_one = self.random.percent(30);
        let rows = self.definitions(&names, &mut |random| if in_one { 0 } else { random.below(own) });

        for place in 0..own {
            files[place].2 = match files[place].1 {
                book::MAIN if self.random.percent(10) => None,
                book::MAIN | book::TYPE_IMPORT => Some(self.actor()),
                _ if self.faulty(NoActor, 60) => None,
                _ if self.faulty(ImportedClass, 60) => Some(if self.random.percent(50) { self.actor() } else { self.typ(0) }),
                _ => Some(self.service_or_name()),
            };
        }
        let mut draft = Draft { rows, files, extra: vec![] };
        if init_wanted || self.random.percent(30) {
            self.init(&mut draft);
        }
        if self.random.percent(30) {
            let pool = self.pool.clone();
            draft.extra = pool.into_iter().filter(|_| self.random.percent(30)).collect();
        }
        draft
    }

    fn actor(&mut self) -> Tree {
        if !self.random.percent(30) {
            return self.service_or_name();
        }
        let mut kids = self.types(3, 2);
        kids.push(self.service_or_name());
        tree(book::CLASS, kids)
    }

    /// An init file: some definitions of main with all that they refer to, perhaps with other labels of the same number,
    /// and some of its own.
    fn init(&mut self, draft: &mut Draft) {
        let file = draft.files.len();
        let mut copied: Vec<Row> = Vec::new();
        if !draft.rows.is_empty() && self.random.percent(75) {
            let mut wanted: Vec<Name> =
                (0..self.random.between(1, 2)).map(|_| self.random.one(&draft.rows).name.clone()).collect();
            while let Some(next) = wanted.pop() {
                if copied.iter().any(|row| row.name == next) {
                    continue;
                }
                if let Some(row) = draft.rows.iter().find(|row| row.name == next) {
                    let mut references = BTreeSet::new();
                    row.tree.references(&mut references);
                    wanted.extend(references);
                    copied.push(Row { name: next, file, tree: row.tree.clone() });
                }
            }
        }
        self.random.shuffle(&mut copied);
        let respelled = self.random.percent(40);
        for row in &mut copied {
            if respelled {
                self.respell(&mut row.tree);
            }
            if self.faulty(Init, 30) {
                self.change(&mut row.tree);
                self.set_all_apart(&mut row.tree);
            }
        }
        let (bound, functions) = (self.bound.clone(), self.functions.clone());
        let fresh: Vec<Name> = self.pool.iter().filter(|name| !bound.contains(name)).cloned().collect();
        let mut fresh = fresh;
        self.random.shuffle(&mut fresh);
        fresh.truncate(self.random.between(0, 4));
        if self.faulty(Init, 30) {
            // A definition of main's name, made anew.
            let again: Vec<Name> = bound.iter().filter(|name| !copied.iter().any(|row| row.name == **name)).cloned().collect();
            fresh.extend(again.into_iter().take(2));
        }
        if self.faulty(InitUnbound, 50) {
            // A name of main's that the init file does not see.
            fresh.extend(self.bound.first().cloned());
        }
        self.left = 40;
        let mut rows = self.definitions(&fresh, &mut |_| file);
        if self.faulty(InitUnbound, 60) && !bound.is_empty() && !rows.is_empty() {
            let at = self.random.below(rows.len());
            rows[at].tree = tree(book::OPT, vec![name(self.random.one(&bound))]);
        }
        rows.extend(copied);
        self.bound.extend(bound);
        self.functions.extend(functions);
        self.left = 30;
        let mut args = tree(book::ARGS, self.types(4, 1));
        if self.faulty(InitUnbound, 40) {
            let unbound = self.pooled();
            args.kids.push(name(&unbound));
        }
        draft.rows.extend(rows);
        draft.files.push((self.pooled(), book::INIT, Some(args)));
    }

    /// Other labels of the same numbers, but not of methods.
    fn respell(&mut self, tree: &mut Tree) {
        let is_service = tree.kind == book::SERVICE;
        for kid in &mut tree.kids {
            if !is_service && self.random.percent(60) {
                let number = match &kid.label {
                    Label::Number(n) | Label::Unnamed(n) => Some(*n),
                    Label::Name(name) => Some(number_of(name)),
                    Label::None => None,
                };
                if let Some(number) = number {
                    kid.label = match self.random.below(3) {
                        0 => Label::Number(number),
                        1 => Label::Unnamed(number),
                        _ if number == 97 => Label::Name(b"a".to_vec()),
                        _ => kid.label.clone(),
                    };
                }
            }
            self.respell(kid);
        }
    }

    /// One small change somewhere in a tree.
    fn change(&mut self, root: &mut Tree) {
        let pooled = self.pooled();
        match self.random.below(7) {
            0 => {
                if let Some(found) = root.any(&mut self.random, &|tree| tree.kind < 18) {
                    found.kind = (found.kind + 1) % 18;
                }
            }
            1 => {
                if let Some(found) = root.any(&mut self.random, &|tree| matches!(tree.label, Label::Name(_))) {
                    found.label = Label::Name(pooled);
                }
            }
            2 => {
                if let Some(found) = root.any(&mut self.random, &|tree| matches!(tree.kind, 21 | 22 | 24) && tree.kids.len() > 1)
                {
                    found.kids.swap(0, 1);
                }
            }
            3 => {
                if let Some(found) = root.any(&mut self.random, &|tree| matches!(tree.kind, 19..=22)) {
                    found.kind = if found.kind < 21 { 39 - found.kind } else { 43 - found.kind };
                }
            }
            4 => {
                if let Some(found) = root.any(&mut self.random, &|tree| tree.kind == book::FUNC) {
                    if let Value::Func(args, modes) = &mut found.value {
                        if modes.is_empty() {
                            modes.push(2);
                        } else if *args > 0 && modes[0] != 1 {
                            *args -= 1;
                        }
                    }
                }
            }
            5 => {
                if let Some(found) =
                    root.any(&mut self.random, &|tree| matches!(tree.kind, 21 | 22 | 24) && !tree.kids.is_empty())
                {
                    found.kids.pop();
                }
            }
            _ => {
                let label = root.label.clone();
                *root = self.typ(1).labelled(label);
            }
        }
    }

    // Whatever the layout allows

    fn wild_tree(&mut self, depth: usize) -> Tree {
        self.left = self.left.saturating_sub(1);
        let deep = depth > 7 || self.left == 0;
        let kind = match self.random.below(100) {
            _ if deep => {
                if self.random.percent(70) {
                    book::NAME
                } else {
                    self.random.below(18) as u8
                }
            }
            0..=11 => self.random.below(18) as u8,
            12..=49 => book::NAME,
            50..=57 => book::OPT,
            58..=61 => book::VEC,
            62..=73 => book::RECORD,
            74..=79 => book::VARIANT,
            80..=89 => book::FUNC,
            90..=98 => book::SERVICE,
            _ => book::CLASS,
        };
        let count = match kind {
            0..=book::NAME => 0,
            book::OPT | book::VEC => 1,
            book::CLASS => self.random.between(1, 3),
            _ => self.random.between(0, 3),
        };
        let mut kids: Vec<Tree> = (0..count).map(|_| self.wild_tree(depth + 1)).collect();
        for (place, kid) in kids.iter_mut().enumerate() {
            kid.label = match kind {
                book::RECORD | book::VARIANT => self.label(place),
                book::SERVICE => {
                    // Nearly always a function, or nothing would pass.
                    let label = Label::Name(self.pooled());
                    if kid.kind != book::FUNC && kid.kind != book::NAME && self.random.percent(85) {
                        *kid = func(vec![], vec![], vec![]);
                    }
                    label
                }
                _ => Label::None,
            };
        }
        self.set_apart(kind, &mut kids);
        match kind {
            book::NAME if self.bound.is_empty() || self.random.percent(1) => {
                let any = self.pooled();
                name(&any)
            }
            book::NAME => self.reference(),
            book::FUNC => {
                let args = self.random.between(0, kids.len());
                let modes = match self.random.below(20) {
                    0..=13 => vec![],
                    14..=16 => vec![2],
                    17 => vec![1],
                    18 => vec![3],
                    _ => vec![1; self.random.between(2, 8)],
                };
                Tree { kind, label: Label::None, value: Value::Func(args, modes), kids }
            }
            _ => tree(kind, kids),
        }
    }

    fn wild(&mut self) -> Draft {
        let pool = self.random.between(1, 6);
        self.fill_pool(pool);
        self.left = *self.random.one(&[4, 8, 16, 40]);
        let mut files: Vec<(Name, u16, Option<Tree>)> = vec![(self.pooled(), book::MAIN, None)];
        for _ in 0..*self.random.one(&[0, 0, 0, 1, 1, 2, 15]) {
            let role = if self.random.percent(50) { book::TYPE_IMPORT } else { book::SERVICE_IMPORT };
            files.push((self.pooled(), role, None));
        }
        if files.len() < 16 && self.random.percent(25) {
            files.push((self.pooled(), book::INIT, None));
        }
        // Mostly all names are defined once.
        let mut names = self.pool.clone();
        self.random.shuffle(&mut names);
        if self.random.percent(40) {
            names.truncate(self.random.between(0, names.len()));
        }
        if self.random.percent(8) {
            names.push(self.pooled());
        }
        self.bound = names.clone();
        let last = files.len() - 1;
        let mut rows = Vec::new();
        for own in names {
            let file = if self.random.percent(50) { 0 } else { self.random.between(0, last) };
            let body = self.wild_tree(0);
            rows.push(Row { name: own.clone(), file, tree: body.clone() });
            if files[last].1 == book::INIT && self.random.percent(30) {
                rows.push(Row { name: own, file: last, tree: body });
            }
        }
        for place in 0..files.len() {
            files[place].2 = match files[place].1 {
                book::INIT => {
                    let count = self.random.between(0, 3);
                    Some(tree(book::ARGS, (0..count).map(|_| self.wild_tree(1)).collect()))
                }
                _ if self.random.percent(12) => None,
                _ if self.random.percent(70) => {
                    let kids = (0..self.random.between(0, 2)).map(|_| {
                        let method = if self.random.percent(70) {
                            func(vec![self.wild_tree(2)], vec![], vec![])
                        } else {
                            self.reference()
                        };
                        method.labelled(Label::Name(self.pooled()))
                    });
                    let mut kids: Vec<Tree> = kids.collect();
                    self.set_apart(book::SERVICE, &mut kids);
                    Some(tree(book::SERVICE, kids))
                }
                _ => Some(self.wild_tree(0)),
            };
        }
        Draft { rows, files, extra: vec![] }
    }

    // Special shapes

    /// A record, a variant or a service of many children in some order, in most cases around the width at which our search for repeats
    /// changes, with or without a repeat.
    fn wide(&mut self) -> Draft {
        let kind = *self.random.one(&[book::RECORD, book::VARIANT, book::SERVICE]);
        let figure = if kind == book::SERVICE { 1000 } else { 4000 };
        let count = match self.random.below(8) {
            0 => self.random.between(2, 16),
            1..=4 => self.random.between(30, 36),
            5 | 6 => self.random.between(17, 200),
            _ => self.random.between(200, figure),
        };
        // Multiples of a step, so that the lowest bits agree in some books; times an odd number they are in no order.
        let (step, odd) = (1u32 << self.random.below(21), self.random.next() as u32 | 1);
        let order = self.random.below(4);
        let number = |i: usize| match order {
            0 => i as u32,
            1 => u32::MAX - i as u32,
            2 => (i as u32).wrapping_mul(odd),
            _ => (i as u32).wrapping_mul(odd).wrapping_mul(step),
        };
        let spelled = if self.random.percent(50) { 0 } else { self.random.below(100) };
        let mut names = 0;
        let mut kids: Vec<Tree> = Vec::new();
        for i in 0..count {
            let own = format!("n{}", number(i)).into_bytes();
            let label = match self.random.below(100) {
                n if kind == book::SERVICE || n < spelled && names < 900 => {
                    names += 1;
                    Label::Name(own)
                }
                n if n % 5 == 0 => Label::Unnamed(number(i)),
                _ => Label::Number(number(i)),
            };
            let body = if kind == book::SERVICE { func(vec![], vec![], vec![]) } else { leaf(2) };
            kids.push(body.labelled(label));
        }
        self.set_apart(kind, &mut kids);
        let mut body = tree(kind, kids);
        if self.random.percent(50) {
            self.repeat(&mut body);
        }
        let rows = vec![Row { name: b"t".to_vec(), file: 0, tree: body }];
        let method = func(vec![name(b"t")], vec![], vec![]).labelled(Label::Name(b"m".to_vec()));
        let actor = if self.random.percent(70) { Some(tree(book::SERVICE, vec![method])) } else { None };
        Draft { rows, files: vec![(b"main".to_vec(), book::MAIN, actor)], extra: vec![] }
    }

    /// The name of one of so many definitions, or in the other cases a primitive.
    fn few(&mut self, count: usize, percent: usize) -> Tree {
        if self.random.percent(percent) { name(format!("t{:02}", self.random.below(count)).as_bytes()) } else { leaf(2) }
    }

    fn function_of_few(&mut self, count: usize) -> Tree {
        func(vec![self.few(count, 50)], if self.random.percent(50) { vec![self.few(count, 40)] } else { vec![] }, vec![])
    }

    /// Definitions that refer to few others and methods that lead to few of them each, so that lists of names have methods that none of them has
    /// alone. Every fourth definition is a function; some are that of methods.
    fn sparse(&mut self) -> Draft {
        let count = self.random.between(4, 14);
        let numbered = |kids: Vec<Tree>| kids.into_iter().enumerate().map(|(i, kid)| kid.labelled(Label::Number(i as u32))).collect();
        let mut rows = Vec::new();
        for i in 0..count {
            let body = match self.random.below(5) {
                _ if i % 4 == 3 => self.function_of_few(count),
                0 | 1 => leaf(2),
                2 => tree(book::OPT, vec![self.few(count, 100)]),
                3 => tree(book::RECORD, numbered(vec![self.few(count, 60), self.few(count, 30)])),
                _ => tree(book::SERVICE, vec![self.function_of_few(count).labelled(Label::Name(b"a".to_vec()))]),
            };
            rows.push(Row { name: format!("t{i:02}").into_bytes(), file: 0, tree: body });
        }
        let mut files = Vec::new();
        for place in 0..*self.random.one(&[1, 1, 2, 3]) {
            let mut kids = Vec::new();
            for i in 0..self.random.between(0, 8) {
                let method = if self.random.percent(20) { name(b"t03") } else { self.function_of_few(count) };
                kids.push(method.labelled(Label::Name(format!("m{place}x{i}").into_bytes())));
            }
            let service = tree(book::SERVICE, kids);
            let is_class = place == 0 && self.random.percent(30);
            let actor = if is_class { tree(book::CLASS, vec![self.few(count, 100), service]) } else { service };
            files.push((b"file".to_vec(), if place == 0 { book::MAIN } else { book::SERVICE_IMPORT }, Some(actor)));
        }
        Draft { rows, files, extra: vec![] }
    }

    fn special(&mut self) -> Draft {
        let main =
            |rows: Vec<Row>, actor: Tree| Draft { rows, files: vec![(b"main".to_vec(), book::MAIN, Some(actor))], extra: vec![] };
        let row = |own: String, tree: Tree| Row { name: own.into_bytes(), file: 0, tree };
        let method = |own: &str, kid: Tree| kid.labelled(Label::Name(own.as_bytes().to_vec()));
        let at = |i: usize| format!("t{i:03}").into_bytes();
        match self.random.below(6) {
            0 => {
                // A chain of aliases or of references, forward or backward, that ends or closes.
                let count = self.random.between(50, 510);
                let closes = self.random.percent(30);
                let wrapped = self.random.below(5);
                let end = if closes { self.random.below(count) } else { count };
                let backward = self.random.percent(50);
                let own = |i: usize| at(if backward { count - i } else { i });
                let mut rows: Vec<Row> = (0..count)
                    .map(|i| {
                        let next = name(&own(if i + 1 == count { end } else { i + 1 }));
                        let body = match wrapped {
                            0 => next,
                            1 => tree(book::OPT, vec![next]),
                            2 => tree(book::VARIANT, vec![next.labelled(Label::Number(0))]),
                            _ => tree(book::RECORD, vec![next.labelled(Label::Number(0))]),
                        };
                        Row { name: own(i), file: 0, tree: body }
                    })
                    .collect();
                let is_empty = wrapped > 1 && self.random.percent(50);
                let last = if is_empty { leaf(book::EMPTY) } else { func(vec![leaf(2)], vec![], vec![]) };
                rows.push(Row { name: own(count), file: 0, tree: last });
                let used = name(&own(0));
                let kid = if wrapped == 0 && !closes { used } else { func(vec![used], vec![], vec![]) };
                main(rows, tree(book::SERVICE, vec![method("m", kid)]))
            }
            1 => {
                // A deep tree.
                let mut body = if self.random.percent(30) { leaf(book::EMPTY) } else { name(b"t") };
                let wraps = [book::VEC, book::RECORD, book::FUNC, book::OPT];
                let kinds = *self.random.one(&[&wraps[..], &[book::RECORD, book::VARIANT]]);
                for _ in 0..self.random.between(100, 3000) {
                    body = match *self.random.one(kinds) {
                        book::FUNC => func(vec![body], vec![], vec![]),
                        kind @ (book::RECORD | book::VARIANT) => tree(kind, vec![body.labelled(Label::Number(1))]),
                        kind => tree(kind, vec![body]),
                    };
                }
                main(vec![row("t".into(), body)], tree(book::SERVICE, vec![method("m", func(vec![name(b"t")], vec![], vec![]))]))
            }
            2 => {
                // A ladder.
                let count = self.random.between(2, 14);
                let mut rows: Vec<Row> = (0..count)
                    .map(|i| {
                        let next = || name(&at(i + 1));
                        let service = tree(book::SERVICE, vec![method("a", next()), method("b", next())]);
                        Row { name: at(i), file: 0, tree: func(vec![service], vec![], vec![]) }
                    })
                    .collect();
                rows.push(Row { name: at(count), file: 0, tree: func(vec![], vec![], vec![]) });
                main(rows, tree(book::SERVICE, vec![method("m", name(&at(0)))]))
            }
            3 => {
                // Many uses: around 4,096.
                let (args, methods) = (self.random.between(60, 66), self.random.between(60, 66));
                let f = func((0..args).map(|_| name(b"t")).collect(), vec![], vec![]);
                let kids = (0..methods).map(|i| method(&format!("m{i}"), name(b"f"))).collect();
                main(vec![row("f".into(), f), row("t".into(), leaf(2))], tree(book::SERVICE, kids))
            }
            4 => {
                // Many definitions that refer to a few others each.
                let count = self.random.between(100, 400);
                let rows = (0..count)
                    .map(|i| {
                        let kind = if self.random.percent(70) { book::RECORD } else { book::VARIANT };
                        let kids = (0..self.random.between(0, 4)).map(|k| {
                            let to = if self.random.percent(80) { self.random.below(count) } else { (i + 1) % count };
                            name(&at(to)).labelled(Label::Number(k as u32))
                        });
                        Row { name: at(i), file: 0, tree: tree(kind, kids.collect()) }
                    })
                    .collect();
                let kids = (0..self.random.between(1, 4)).map(|i| {
                    let t = name(&at(self.random.below(count)));
                    method(&format!("m{i}"), func(vec![t], vec![name(&at(0))], vec![]))
                });
                let kids = kids.collect();
                main(rows, tree(book::SERVICE, kids))
            }
            _ => {
                // Many methods, in main and in imports, a few of one number.
                let mut files: Vec<(Name, u16, Option<Tree>)> = Vec::new();
                let clash = self.random.percent(30);
                for place in 0..self.random.between(1, 4) {
                    let count = self.random.between(0, 60);
                    let kids = (0..count).map(|i| method(&format!("m{place}x{i}"), name(b"f"))).collect();
                    let role = if place == 0 { book::MAIN } else { book::SERVICE_IMPORT };
                    files.push((b"file".to_vec(), role, Some(tree(book::SERVICE, kids))));
                }
                if clash {
                    let (one, other) = self.random.one(self.collisions).clone();
                    for own in [one, other] {
                        let place = self.random.below(files.len());
                        let service = files[place].2.as_mut().expect("a service");
                        let at = self.random.between(0, service.kids.len());
                        service.kids.insert(at, name(b"f").labelled(Label::Name(own)));
                    }
                }
                Draft { rows: vec![row("f".into(), func(vec![leaf(2)], vec![name(b"f")], vec![2]))], files, extra: vec![] }
            }
        }
    }
}

// Damage

fn damaged(mut bytes: Vec<u8>, random: &mut Random) -> Vec<u8> {
    let offset =
        |bytes: &[u8], part: usize| bytes.get(8 * part..8 * part + 2).map_or(32, |b| b[0] as usize + 256 * b[1] as usize);
    for _ in 0..*random.one(&[1, 1, 1, 2, 3]) {
        if bytes.is_empty() {
            break;
        }
        let part = *random.one(&[0, 1, 2, 2, 2, 2, 3, 4]);
        let bounds = [0, 32, offset(&bytes, 1), offset(&bytes, 2), offset(&bytes, 3), bytes.len()];
        let (start, end) = (bounds[part].min(bytes.len()), bounds[part + 1].min(bytes.len()));
        if start >= end {
            continue;
        }
        let at = random.between(start, end - 1);
        match random.below(12) {
            0..=4 => bytes[at] = random.below(28) as u8,
            5 => bytes[at] ^= 1 << random.below(8),
            6 => bytes[at] = random.next() as u8,
            7 => bytes[at] = bytes[at].wrapping_add(if random.percent(50) { 1 } else { 255 }),
            8 => bytes.insert(at, random.below(4) as u8),
            9 => {
                bytes.remove(at);
            }
            10 => bytes.truncate(if random.percent(50) { at } else { bytes.len() - 1 }),
            _ => bytes.swap(at, random.between(start, end - 1)),
        }
    }
    bytes
}

// Limits

/// In half of the cases the full ones; else each around what the book has, or anything.
fn limits(counts: Limits, random: &mut Random) -> Limits {
    let kind = random.below(4);
    let mut limits = FULL;
    for (limit, count) in limits.iter_mut().zip(counts) {
        let figure = *limit;
        *limit = match (kind, random.below(12)) {
            (0 | 1, _) => figure,
            (2, 0..=4) => count,
            (2, 5) => count.saturating_sub(1),
            (2, 6 | 7) => count + 1,
            (2, 8) => 0,
            (2, _) => figure,
            (_, 0..=3) => random.below(2 * count as usize + 2) as u32,
            (_, 4 | 5) => random.below(figure as usize + 1) as u32,
            (_, 6 | 7) => figure - 1 + random.below(3) as u32,
            // What would be small if it were cut to 16 bits.
            (_, 8) => (random.between(1, 65535) << 16 | random.below(16)) as u32,
            (_, 9) => random.next() as u32,
            _ => u32::MAX,
        };
    }
    limits
}

fn fits(bytes: &[u8]) -> bool {
    book::read(bytes).is_some()
}

pub fn run(seed: u64, count: u64, all_damaged: bool) -> i32 {
    let collisions = collisions();
    let mut out = std::io::BufWriter::new(std::io::stdout().lock());
    for index in 0..count {
        let mut gen = Gen {
            random: Random::of(seed, index),
            collisions: &collisions,
            pool: vec![],
            bound: vec![],
            functions: vec![],
            services: vec![],
            faults: vec![],
            hollow: false,
            finite: false,
            repeats: false,
            taken: HashSet::new(),
            apart: false,
            left: 0,
            plain_services: 0,
        };
        // Labels as they come, or made to differ and then two of them equal.
        let (as_they_come, put) = match gen.random.below(16) {
            0 => (true, false),
            1 => (false, true),
            _ => (false, false),
        };
        gen.repeats = as_they_come;
        let mut draft = match gen.random.below(400) {
            0 => gen.special(),
            1..=8 => gen.wide(),
            9..=28 => gen.sparse(),
            29..=104 => gen.wild(),
            _ => gen.planned(),
        };
        if put {
            gen.put_repeats(&mut draft);
        }
        let book = draft.book();
        let mut bytes = book.bytes();
        if !fits(&bytes) {
            eprintln!("{seed}-{index}: not a whole book as generated");
        }
        if all_damaged || gen.random.percent(4) {
            bytes = damaged(bytes, &mut gen.random);
        }
        let limits = limits(book.counts(), &mut gen.random);
        let record = Record { name: &format!("{seed}-{index}"), limits, book: &bytes };
        out.write_all(&record.bytes()).expect("room");
    }
    out.flush().expect("room");
    0
}
