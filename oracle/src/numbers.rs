//! How many values of finite height definitions have, by request 13 of document 02: the oracle's own, since the Rust has no such question.
//!
//! No circle is looked for, nor what has no value: of each node the values up to a height are counted, from height 0, at which there are none. With
//! N nodes a value that is not higher than N is in each type that has any, and where there are values without end one is higher than N and at
//! most twice as high. So numbers that stand still from N to 2N are right, and the others are many.

use crate::book::{self, Book, Node};
use std::collections::{BTreeMap, HashMap};

/// More than any number that is given: a number of values is cut off here, a type with one part so large has as many.
const MANY: u128 = 1 << 40;
const MOST: u128 = u32::MAX as u128;

struct Row<'a> {
    node: &'a Node,
    /// Places of the nodes inside, of a name that of its definition.
    parts: Vec<usize>,
}

/// A tree's rows in preorder. Answers its place.
fn enter<'a>(node: &'a Node, rows: &mut Vec<Row<'a>>) -> usize {
    let place = rows.len();
    rows.push(Row { node, parts: vec![] });
    let parts = node.kids.iter().map(|kid| enter(kid, rows)).collect();
    rows[place].parts = parts;
    place
}

/// Of the next height: a value is higher than what it is made of.
fn next(rows: &[Row], numbers: &[u128]) -> Vec<u128> {
    let number = |row: &Row| {
        let mut parts = row.parts.iter().map(|place| numbers[*place]);
        match row.node.kind {
            0 | 15 => 1,
            1 => 2,
            4 | 8 => 1 << 8,
            5 | 9 => 1 << 16,
            book::EMPTY => 0,
            book::NAME => parts.sum(),
            book::OPT => 1 + parts.sum::<u128>(),
            book::VARIANT => parts.sum(),
            // A field without value leaves none, however many the others have.
            book::RECORD => parts.try_fold(1, |product: u128, part| (part > 0).then(|| MANY.min(product * part))).unwrap_or(0),
            book::VEC if parts.sum::<u128>() == 0 => 1,
            _ => MANY,
        }
    };
    rows.iter().map(|row| MANY.min(number(row))).collect()
}

/// By name, the definitions of all files but the init file, None for many.
pub fn numbers(book: &Book) -> BTreeMap<usize, Option<u32>> {
    let (mut rows, mut roots) = (vec![], HashMap::new());
    for row in book.definitions.iter().filter(|row| book.is_of(row, false)) {
        roots.insert(row.name, enter(&row.tree, &mut rows));
    }
    for row in rows.iter_mut().filter(|row| row.node.kind == book::NAME) {
        row.parts = roots.get(&(row.node.value as usize)).copied().into_iter().collect();
    }
    let (height, mut now) = (rows.len() + 1, vec![0; rows.len()]);
    let mut low = vec![];
    for up_to in 1..=2 * height {
        let after = next(&rows, &now);
        let is_still = after == now;
        now = after;
        if up_to == height || is_still && up_to < height {
            low = now.clone();
        }
        if is_still {
            break;
        }
    }
    let given = |place: usize| if low[place] == now[place] && now[place] <= MOST { Some(now[place] as u32) } else { None };
    roots.into_iter().map(|(name, place)| (name, given(place))).collect()
}
