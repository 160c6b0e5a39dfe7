//! Declaration books, read by document 01 ("The book"), and batches of them.

use std::collections::HashMap;

pub const EMPTY: u8 = 16;
pub const NAME: u8 = 18;
pub const OPT: u8 = 19;
pub const VEC: u8 = 20;
pub const RECORD: u8 = 21;
pub const VARIANT: u8 = 22;
pub const FUNC: u8 = 23;
pub const SERVICE: u8 = 24;
pub const CLASS: u8 = 25;
pub const ARGS: u8 = 26;

pub const BY_NUMBER: u8 = 1;
pub const BY_NAME: u8 = 2;
pub const UNNAMED: u8 = 3;

pub const MAIN: u16 = 0;
pub const TYPE_IMPORT: u16 = 1;
pub const SERVICE_IMPORT: u16 = 2;
pub const INIT: u16 = 3;

pub const NO_ROOT: u16 = 65535;

/// The label number of a name.
pub fn number_of(name: &[u8]) -> u32 {
    name.iter().fold(0, |sum, byte| sum.wrapping_mul(223).wrapping_add(*byte as u32))
}

/// The most names, nodes and definitions that the terminal model takes, in this order.
pub type Limits = [u32; 3];

/// Those of document 01, the most that any book has. A larger limit counts as the one here.
pub const FULL: Limits = [1024, 4096, 512];

#[derive(Clone, Debug, PartialEq)]
pub struct Node {
    pub kind: u8,
    pub label_kind: u8,
    pub value: u32,
    pub label: u32,
    pub kids: Vec<Node>,
}

impl Node {
    /// How many it has, itself counted.
    pub fn nodes(&self) -> usize {
        1 + self.kids.iter().map(|kid| kid.nodes()).sum::<usize>()
    }

    pub fn arguments(&self) -> &[Node] {
        &self.kids[..(self.value & 0xffff) as usize]
    }

    pub fn results(&self) -> &[Node] {
        &self.kids[(self.value & 0xffff) as usize..]
    }

    /// Up to the first 0.
    pub fn modes(&self) -> Vec<u32> {
        (0..8).map(|place| self.value >> (16 + 2 * place) & 3).take_while(|digit| *digit != 0).collect()
    }
}

#[derive(Clone)]
pub struct Definition {
    pub name: usize,
    pub file: usize,
    pub tree: Node,
}

#[derive(Clone)]
pub struct File {
    pub name: usize,
    pub role: u16,
    pub tree: Option<Node>,
}

#[derive(Clone)]
pub struct Book {
    pub names: Vec<Vec<u8>>,
    pub definitions: Vec<Definition>,
    pub files: Vec<File>,
}

fn half(bytes: &[u8], at: usize) -> u16 {
    u16::from_le_bytes([bytes[at], bytes[at + 1]])
}

fn word(bytes: &[u8], at: usize) -> u32 {
    u32::from_le_bytes([bytes[at], bytes[at + 1], bytes[at + 2], bytes[at + 3]])
}

/// A tree and the place after it. `parent` is the kind above, `is_list` tells whether this is the root of an init file.
fn tree(rows: &[u8], names: usize, at: usize, end: usize, parent: Option<u8>, is_list: bool) -> Option<(Node, usize)> {
    if at >= end {
        return None;
    }
    let row = &rows[12 * at..12 * at + 12];
    let (kind, label_kind, size, value, label) = (row[0], row[1], half(row, 2) as usize, word(row, 4), word(row, 8));
    if size == 0 || size > end - at || kind > ARGS || (kind == ARGS) != is_list {
        return None;
    }
    let label_fits = match parent {
        Some(RECORD | VARIANT) => match label_kind {
            BY_NUMBER | UNNAMED => true,
            BY_NAME => (label as usize) < names,
            _ => false,
        },
        Some(SERVICE) => label_kind == BY_NAME && (label as usize) < names,
        _ => label_kind == 0 && label == 0,
    };
    if !label_fits {
        return None;
    }
    let (mut kids, mut next) = (Vec::new(), at + 1);
    while next < at + size {
        let (kid, after) = tree(rows, names, next, at + size, Some(kind), false)?;
        kids.push(kid);
        next = after;
    }
    let counted = match kind {
        0..=NAME => kids.is_empty(),
        OPT | VEC => kids.len() == 1,
        CLASS => !kids.is_empty(),
        _ => true,
    };
    let node = Node { kind, label_kind, value, label, kids };
    let valued = match kind {
        NAME => (value as usize) < names,
        FUNC => (value & 0xffff) as usize <= node.kids.len() && value >> 16 >> (2 * node.modes().len()).min(16) == 0,
        _ => value == 0,
    };
    (counted && valued).then_some((node, at + size))
}

/// Two children of one node with equal labels.
pub struct Repeat<'a> {
    pub parent: &'a Node,
    pub first: &'a Node,
    pub later: &'a Node,
}

/// That with the lowest later child: a child comes before what is below it, and that before the next child.
fn repeat<'a>(names: &[Vec<u8>], parent: &'a Node) -> Option<Repeat<'a>> {
    let label = |kid: &Node| match (parent.kind, kid.label_kind) {
        (RECORD | VARIANT, BY_NAME) => Some(number_of(&names[kid.label as usize])),
        (RECORD | VARIANT | SERVICE, _) => Some(kid.label),
        _ => None,
    };
    let mut firsts = HashMap::new();
    for later in &parent.kids {
        if let Some(first) = label(later).and_then(|label| firsts.insert(label, later)) {
            return Some(Repeat { parent, first, later });
        }
        let below = repeat(names, later);
        if below.is_some() {
            return below;
        }
    }
    None
}

/// The book in bytes, none where the layout is broken.
pub fn read(bytes: &[u8]) -> Option<Book> {
    if bytes.len() < 32 || bytes.len() > 65536 {
        return None;
    }
    let offset = |part: usize| word(bytes, 8 * part) as usize;
    let count = |part: usize| word(bytes, 8 * part + 4) as usize;
    if count(0) > 1024 || count(1) > 4096 || count(2) > 512 || count(3) > 16 || count(3) == 0 || offset(0) != 32 {
        return None;
    }
    let (mut names, mut at): (Vec<Vec<u8>>, usize) = (Vec::new(), 32);
    for _ in 0..count(0) {
        let size = *bytes.get(at)? as usize;
        let name = bytes.get(at + 1..at + 1 + size)?.to_vec();
        if names.last().is_some_and(|last| *last >= name) {
            return None;
        }
        names.push(name);
        at += 1 + size;
    }
    let nodes_at = at;
    let definitions_at = nodes_at + 12 * count(1);
    let files_at = definitions_at + 8 * count(2);
    let end = files_at + 8 * count(3);
    if offset(1) != nodes_at || offset(2) != definitions_at || offset(3) != files_at || end != bytes.len() {
        return None;
    }
    let (rows, nodes) = (&bytes[nodes_at..definitions_at], count(1));
    let (mut definitions, mut next): (Vec<Definition>, usize) = (Vec::new(), 0);
    for place in 0..count(2) {
        let at = definitions_at + 8 * place;
        let (name, file, root) = (half(bytes, at) as usize, half(bytes, at + 2) as usize, half(bytes, at + 4));
        let falls = definitions.last().is_some_and(|last| last.file > file);
        if name >= names.len() || file >= count(3) || falls || root as usize != next || half(bytes, at + 6) != 0 {
            return None;
        }
        let (tree, after) = tree(rows, names.len(), next, nodes, None, false)?;
        definitions.push(Definition { name, file, tree });
        next = after;
    }
    let mut files = Vec::new();
    for place in 0..count(3) {
        let at = files_at + 8 * place;
        let (name, role, root) = (half(bytes, at) as usize, half(bytes, at + 2), half(bytes, at + 4));
        let placed = (role == MAIN) == (place == 0) && role <= INIT && (role != INIT || place == count(3) - 1);
        if name >= names.len() || !placed || half(bytes, at + 6) != 0 {
            return None;
        }
        if root == NO_ROOT {
            if role == INIT {
                return None;
            }
            files.push(File { name, role, tree: None });
            continue;
        }
        if root as usize != next {
            return None;
        }
        let (tree, after) = tree(rows, names.len(), next, nodes, None, role == INIT)?;
        files.push(File { name, role, tree: Some(tree) });
        next = after;
    }
    (next == nodes).then_some(Book { names, definitions, files })
}

fn write(node: &Node, out: &mut Vec<u8>) -> u16 {
    let at = out.len();
    out.extend([node.kind, node.label_kind, 0, 0]);
    out.extend(node.value.to_le_bytes());
    out.extend(node.label.to_le_bytes());
    let size = 1 + node.kids.iter().map(|kid| write(kid, out)).sum::<u16>();
    out[at + 2..at + 4].copy_from_slice(&size.to_le_bytes());
    size
}

impl Book {
    /// The book as bytes, whatever the layout says of its parts.
    pub fn bytes(&self) -> Vec<u8> {
        let (mut table, mut nodes, mut definitions, mut files) = (vec![], vec![], vec![], vec![]);
        for name in &self.names {
            table.push(name.len() as u8);
            table.extend(name);
        }
        let halves = |numbers: [usize; 4]| numbers.into_iter().flat_map(|number| (number as u16).to_le_bytes());
        for row in &self.definitions {
            definitions.extend(halves([row.name, row.file, nodes.len() / 12, 0]));
            write(&row.tree, &mut nodes);
        }
        for file in &self.files {
            let root = if file.tree.is_some() { nodes.len() / 12 } else { NO_ROOT as usize };
            files.extend(halves([file.name, file.role as usize, root, 0]));
            file.tree.iter().for_each(|tree| {
                write(tree, &mut nodes);
            });
        }
        let counts = [self.names.len(), nodes.len() / 12, self.definitions.len(), self.files.len()];
        let (mut bytes, mut offset) = (Vec::new(), 32);
        for (part, count) in [&table, &nodes, &definitions, &files].into_iter().zip(counts) {
            bytes.extend((offset as u32).to_le_bytes());
            bytes.extend((count as u32).to_le_bytes());
            offset += part.len();
        }
        [bytes, table, nodes, definitions, files].concat()
    }

    /// In the order of their nodes.
    fn trees(&self) -> impl Iterator<Item = &Node> {
        self.definitions.iter().map(|row| &row.tree).chain(self.files.iter().filter_map(|file| file.tree.as_ref()))
    }

    pub fn nodes(&self) -> usize {
        self.trees().map(|tree| tree.nodes()).sum()
    }

    /// All that is there, used or not, to be held against limits.
    pub fn counts(&self) -> Limits {
        [self.names.len(), self.nodes(), self.definitions.len()].map(|count| count as u32)
    }

    /// The limits that it is over, by their places. One above document 01's figure needs no care: no book has as many.
    pub fn over(&self, limits: Limits) -> Vec<usize> {
        let counts = self.counts();
        (0..counts.len()).filter(|place| counts[*place] > limits[*place]).collect()
    }

    pub fn is_within(&self, limits: Limits) -> bool {
        self.over(limits).is_empty()
    }

    /// Its first repeated label, in any tree; none in most books.
    pub fn repeat(&self) -> Option<Repeat<'_>> {
        self.trees().find_map(|tree| repeat(&self.names, tree))
    }

    pub fn is_of(&self, definition: &Definition, is_init: bool) -> bool {
        (self.files[definition.file].role == INIT) == is_init
    }
}

/// A quoted name, as document 01 prints it.
pub fn quoted(name: &[u8]) -> String {
    let mut text = String::from("\"");
    for byte in name {
        match byte {
            0x20..=0x7e if !b"\"\\".contains(byte) => text.push(*byte as char),
            _ => text += &format!("\\{byte:02x}"),
        }
    }
    text + "\""
}

/// A book, its name and the limits under which it is asked.
#[derive(Clone, Copy)]
pub struct Record<'a> {
    pub name: &'a str,
    pub limits: Limits,
    pub book: &'a [u8],
}

impl Record<'_> {
    /// A length byte and the name, four bytes of each limit, four bytes of length and the book.
    pub fn bytes(&self) -> Vec<u8> {
        let mut bytes = vec![self.name.len() as u8];
        bytes.extend(self.name.as_bytes());
        bytes.extend(self.limits.iter().flat_map(|limit| limit.to_le_bytes()));
        bytes.extend((self.book.len() as u32).to_le_bytes());
        bytes.extend(self.book);
        bytes
    }
}

/// The records of a batch.
pub struct Batch<'a>(pub &'a [u8]);

impl<'a> Iterator for Batch<'a> {
    type Item = Record<'a>;

    fn next(&mut self) -> Option<Self::Item> {
        let (size, rest) = self.0.split_first()?;
        let (name, rest) = rest.split_at(*size as usize);
        let (words, rest) = rest.split_at(16);
        let limits = [0, 4, 8].map(|at| word(words, at));
        let (book, rest) = rest.split_at(word(words, 12) as usize);
        self.0 = rest;
        Some(Record { name: std::str::from_utf8(name).expect("a name"), limits, book })
    }
}
