//! The Rust's error texts and the rows of document 01's table.

use candid::idl_hash;

/// The rows, with the name that they give, that a text may stand for. There is more than one where a name has words of the
/// texts in it.
pub fn of(text: &str, names: &[String]) -> Vec<(u32, Option<usize>)> {
    let mut found = Vec::new();
    for (number, name) in names.iter().enumerate().filter(|(_, name)| text.contains(name.as_str())) {
        let texts = [
            (2, format!("duplicate binding for {name}")),
            (3, format!("Unbound type identifier {name}")),
            (7, format!("{name} has cyclic type definition")),
            (9, format!("method {name} is a non-function type")),
            (12, format!("Imported service file \"{name}\" has no main service")),
            (13, format!("Imported service file \"{name}\" has a service constructor")),
        ];
        found.extend(texts.iter().filter(|row| row.1 == text).map(|row| (row.0, Some(number))));
        let collides = |rest: &str| {
            let previous = rest.strip_suffix('\'').unwrap_or_default();
            names.iter().any(|other| other == previous && idl_hash(other) == idl_hash(name))
        };
        let later = format!("Duplicate imported method name: label '{name}' hash collision with '");
        if text.strip_prefix(&later).is_some_and(collides) {
            found.push((14, Some(number)));
        }
    }
    let whole = [
        (4, "service constructor not supported"),
        (5, "cannot have more than one mode"),
        (6, "oneway function has non-unit return type"),
        (11, "inconsistent binding"),
        (17, "no actor"),
    ];
    found.extend(whole.iter().filter(|row| row.1 == text).map(|row| (row.0, None)));
    let beginning = [(8, "not a function type: "), (10, "not a service type: ")];
    found.extend(beginning.iter().filter(|row| text.starts_with(row.1)).map(|row| (row.0, None)));
    found
}

/// The asked names that a text says are left over; none if it says something else.
pub fn absent<'a>(text: &str, asked: &'a [String]) -> Vec<&'a str> {
    let mut found = Vec::new();
    let mut rest = text.strip_prefix("methods not found: [").unwrap_or_default();
    while !rest.is_empty() {
        // A quoted text ends where it ends, so at most one of them stands here.
        let Some((name, after)) = asked.iter().find_map(|name| Some((name, rest.strip_prefix(&format!("{name:?}"))?))) else {
            return vec![];
        };
        found.push(name.as_str());
        match after.strip_prefix(", ") {
            Some(next) => rest = next,
            None if after == "]" => return found,
            None => return vec![],
        }
    }
    vec![]
}
