//! Every question of a book, answered by the customer's Rust.

#[cfg(exports)]
#[path = "bench.rs"]
pub mod bench;

use crate::analysis::{chase_actor, chase_def_use, chase_type, chase_types, infer_rec, project_methods};
use crate::book::{self, number_of, quoted, Batch, Book, Limits, Node};
use crate::numbers::numbers;
use crate::rows;
use crate::syntax::{
    Binding, Dec, FuncType, IDLActorType, IDLArgType, IDLInitArgs, IDLMergedProg, IDLProg, IDLType, PrimType, TypeField,
};
use crate::typing;
use candid::types::{Field, FuncMode, Function, Label, Type, TypeEnv, TypeInner};
use std::collections::{BTreeMap, BTreeSet, HashMap, HashSet};
use std::io::{Read, Write};
use std::panic::{catch_unwind, AssertUnwindSafe};
use std::rc::Rc;

/// Steps of `as_func` and its like that a question is granted, and those granted where a method ring is known.
const STEPS: u64 = 10_000_000;
const STEPS_OF_RING: u64 = 4_000;

/// Entries in the list that answer_batch lends for uses.
const MOST_USES: usize = 4096;

/// A book that has more names and lists none is asked about so many of the first and of the last ones alone.
const MOST_NAMES: usize = 514;
const FIRST_AND_LAST: usize = 8;

/// The first and the last number outside every name table. In the Rust each is a text that no name of the book has.
const OUTSIDE: usize = 1024;
const HIGHEST: usize = 65535;

/// Stands for the method in a use by an argument of the actor's class.
const OF_CLASS: usize = 65535;

/// Of every question about a book that is over its limits.
pub const OVER_LIMIT: &str = "refused 24 -";

/// Of every question about a book with a repeated label, which is named after it.
pub const REPEATED: &str = "refused 18 ";

/// Why `empty` is unanswered where what the Rust makes empty is not all that is so: what it makes is told after it.
pub const VALUES: &str = "values";

/// Why there is no result.
#[derive(Clone, PartialEq)]
enum Fail {
    Refused(u32, Option<usize>),
    Unanswered(String),
}

type Found<T> = Result<T, Fail>;

// Trees

fn primitive(kind: u8) -> PrimType {
    use PrimType::*;
    [Null, Bool, Nat, Int, Nat8, Nat16, Nat32, Nat64, Int8, Int16, Int32, Int64, Float32, Float64, Text, Reserved, Empty]
        [kind as usize]
        .clone()
}

/// A book with its names as texts: its own, or others in the same order. Then its named labels are given as their numbers.
struct Texts<'a> {
    book: &'a Book,
    names: Vec<String>,
    renamed: bool,
}

/// Texts for the names of a book where its own are outside UTF-8 or make an error's text ambiguous. The Rust compares
/// names, orders them and, with service imports, hashes methods: the texts are in the same order, and no two of them have
/// one hash, so there are none for a book with service imports and two names of one hash.
fn other_names(book: &Book) -> Option<Vec<String>> {
    let has_imports = book.files.iter().any(|file| file.role == book::SERVICE_IMPORT);
    let numbers: HashSet<u32> = book.names.iter().map(|name| number_of(name)).collect();
    let apart = !has_imports || numbers.len() == book.names.len();
    apart.then(|| (0..book.names.len()).map(|number| format!("n{number:04}")).collect())
}

impl Texts<'_> {
    fn label(&self, node: &Node) -> Label {
        match node.label_kind {
            book::BY_NUMBER => Label::Id(node.label),
            book::BY_NAME if self.renamed => Label::Id(number_of(&self.book.names[node.label as usize])),
            book::BY_NAME => Label::Named(self.names[node.label as usize].clone()),
            _ => Label::Unnamed(node.label),
        }
    }

    fn modes(&self, node: &Node) -> Vec<FuncMode> {
        let mode = |digit| match digit {
            1 => FuncMode::Oneway,
            2 => FuncMode::Query,
            _ => FuncMode::CompositeQuery,
        };
        node.modes().into_iter().map(mode).collect()
    }

    // For the check.

    fn arguments(&self, nodes: &[Node]) -> Vec<IDLArgType> {
        nodes.iter().map(|node| IDLArgType::new(self.ast(node))).collect()
    }

    fn fields(&self, node: &Node) -> Vec<TypeField> {
        let field = |kid| TypeField { label: self.label(kid), typ: self.ast(kid), docs: vec![] };
        node.kids.iter().map(field).collect()
    }

    fn binding(&self, name: usize, tree: &Node) -> Binding {
        Binding { id: self.names[name].clone(), typ: self.ast(tree), docs: vec![] }
    }

    fn ast(&self, node: &Node) -> IDLType {
        match node.kind {
            17 => IDLType::PrincipalT,
            book::NAME => IDLType::VarT(self.names[node.value as usize].clone()),
            book::OPT => IDLType::OptT(Box::new(self.ast(&node.kids[0]))),
            book::VEC => IDLType::VecT(Box::new(self.ast(&node.kids[0]))),
            book::RECORD => IDLType::RecordT(self.fields(node)),
            book::VARIANT => IDLType::VariantT(self.fields(node)),
            book::FUNC => IDLType::FuncT(FuncType {
                modes: self.modes(node),
                args: self.arguments(node.arguments()),
                rets: self.arguments(node.results()),
            }),
            book::SERVICE => IDLType::ServT(node.kids.iter().map(|kid| self.binding(kid.label as usize, kid)).collect()),
            book::CLASS => {
                let (service, arguments) = node.kids.split_last().expect("a child");
                IDLType::ClassT(self.arguments(arguments), Box::new(self.ast(service)))
            }
            kind => IDLType::PrimT(primitive(kind)),
        }
    }

    fn decs(&self, belongs: impl Fn(usize) -> bool) -> Vec<Dec> {
        let of_file = self.book.definitions.iter().filter(|row| belongs(row.file));
        of_file.map(|row| Dec::TypD(self.binding(row.name, &row.tree))).collect()
    }

    fn prog(&self, file: usize) -> IDLProg {
        let actor = self.book.files[file].tree.as_ref();
        IDLProg {
            decs: self.decs(|place| place == file),
            actor: actor.map(|tree| IDLActorType { typ: self.ast(tree), docs: vec![] }),
        }
    }

    /// 12, file by file.
    fn merged(&self) -> crate::Result<IDLMergedProg> {
        let mut merged = IDLMergedProg::new(self.prog(0));
        for (place, file) in self.book.files.iter().enumerate().skip(1) {
            if file.role != book::INIT {
                let name = self.names[file.name].clone();
                merged.merge(file.role == book::SERVICE_IMPORT, name, self.prog(place))?;
            }
        }
        Ok(merged)
    }

    fn init(&self) -> Option<IDLInitArgs> {
        let (place, file) = self.book.files.iter().enumerate().find(|(_, file)| file.role == book::INIT)?;
        let tree = file.tree.as_ref().expect("a list");
        Some(IDLInitArgs { decs: self.decs(|found| found == place), args: self.arguments(&tree.kids) })
    }

    // For drafts.

    fn types(&self, nodes: &[Node]) -> Vec<Type> {
        nodes.iter().map(|node| self.typ(node)).collect()
    }

    fn typ(&self, node: &Node) -> Type {
        let fields = |nodes: &[Node]| nodes.iter().map(|kid| Field { id: Rc::new(self.label(kid)), ty: self.typ(kid) }).collect();
        match node.kind {
            book::NAME => TypeInner::Var(self.names[node.value as usize].clone()),
            book::OPT => TypeInner::Opt(self.typ(&node.kids[0])),
            book::VEC => TypeInner::Vec(self.typ(&node.kids[0])),
            book::RECORD => TypeInner::Record(fields(&node.kids)),
            book::VARIANT => TypeInner::Variant(fields(&node.kids)),
            book::FUNC => TypeInner::Func(Function {
                modes: self.modes(node),
                args: self.types(node.arguments()),
                rets: self.types(node.results()),
            }),
            book::SERVICE => {
                let method = |kid: &Node| (self.names[kid.label as usize].clone(), self.typ(kid));
                TypeInner::Service(node.kids.iter().map(method).collect())
            }
            book::CLASS => {
                let (service, arguments) = node.kids.split_last().expect("a child");
                TypeInner::Class(self.types(arguments), self.typ(service))
            }
            _ => TypeInner::Null, // no name is met in it
        }
        .into()
    }

    // What the Rust says

    fn row(&self, error: impl std::fmt::Display) -> Fail {
        let text = error.to_string();
        if text.starts_with("Recursion limit exceeded") || text.starts_with("Recursion depth overflow") {
            return Fail::Unanswered("depth".into());
        }
        match rows::of(&text, &self.names)[..] {
            [(number, name)] => Fail::Refused(number, name),
            [] => Fail::Unanswered("unknown-text".into()),
            _ => Fail::Unanswered("ambiguous-text".into()),
        }
    }

    /// A name's number, or the one that a text of `outside` is for.
    fn number(&self, name: &str) -> usize {
        let found = self.names.binary_search_by(|found| found.as_str().cmp(name));
        found.unwrap_or_else(|_| name.trim_end_matches('_').parse().expect("a number outside"))
    }

    fn outside(&self, number: usize) -> String {
        let mut text = number.to_string();
        while self.names.contains(&text) {
            text.push('_');
        }
        text
    }

    fn entries(&self, names: &[&str]) -> Vec<String> {
        names.iter().map(|name| named(self.book, self.number(name))).collect()
    }
}

/// Runs what may panic or not end.
fn guarded<T>(steps: u64, run: impl FnOnce() -> Found<T>) -> Found<T> {
    stacker::grant(steps);
    catch_unwind(AssertUnwindSafe(run)).unwrap_or_else(|panic| {
        let why = if panic.is::<stacker::OutOfSteps>() { "steps" } else { "panic" };
        Err(Fail::Unanswered(why.into()))
    })
}

// Method rings, by document 01. They only tell how many steps to grant and what to call an answer that does not come.

fn has_ring<'a>(book: &'a Book, is_init: bool) -> bool {
    let mut bodies: HashMap<u32, &'a Node> = HashMap::new();
    for row in book.definitions.iter().filter(|row| book.is_of(row, is_init)) {
        bodies.entry(row.name as u32).or_insert(&row.tree);
    }
    let end = |mut node: &'a Node| -> Option<*const Node> {
        let mut left = bodies.len() + 1;
        while node.kind == book::NAME {
            node = *bodies.get(&node.value)?;
            left = left.checked_sub(1)?;
        }
        (node.kind == book::FUNC).then_some(node as *const Node)
    };
    // Each function with those that it steps to.
    let mut steps: HashMap<*const Node, Vec<*const Node>> = HashMap::new();
    fn walk<'a>(
        node: &'a Node,
        above: &mut Vec<*const Node>,
        end: &dyn Fn(&'a Node) -> Option<*const Node>,
        steps: &mut HashMap<*const Node, Vec<*const Node>>,
    ) {
        if node.kind == book::FUNC {
            above.push(node);
            steps.entry(node).or_default();
        }
        for kid in &node.kids {
            if node.kind == book::SERVICE {
                if let Some(end) = end(kid) {
                    for function in above.iter() {
                        steps.entry(*function).or_default().push(end);
                    }
                }
            }
            walk(kid, above, end, steps);
        }
        if node.kind == book::FUNC {
            above.pop();
        }
    }
    for row in book.definitions.iter().filter(|row| book.is_of(row, is_init)) {
        walk(&row.tree, &mut Vec::new(), &end, &mut steps);
    }
    // Takes away those that step to none of the others until none is left or all of them do.
    loop {
        let before = steps.len();
        let ending: Vec<_> =
            steps.iter().filter(|(_, to)| !to.iter().any(|to| steps.contains_key(to))).map(|(f, _)| *f).collect();
        for function in ending {
            steps.remove(&function);
        }
        if steps.len() == before {
            return before > 0;
        }
    }
}

// Emptiness, by request 4 of document 02

/// Whether a type has a value of finite height whatever names stand for.
fn has_value(node: &Node) -> bool {
    match node.kind {
        book::EMPTY | book::NAME => false,
        book::RECORD => node.kids.iter().all(has_value),
        book::VARIANT => node.kids.iter().any(has_value),
        _ => true,
    }
}

/// Whether no definition is empty but by a circle of aliases and of record fields that are names, which is all that `replace_empty` sees: each is a
/// name, has a value whatever names stand for, or is a record of such fields.
fn is_empty_by_circles(book: &Book) -> bool {
    let is_seen = |node: &Node| node.kind == book::NAME || has_value(node);
    let mut bodies = book.definitions.iter().filter(|row| book.is_of(row, false)).map(|row| &row.tree);
    bodies.all(|body| is_seen(body) || body.kind == book::RECORD && body.kids.iter().all(is_seen))
}

/// Runs a check, and again without `validate_decs` if it does not end. Also tells why it did not.
fn checked<T>(ring: bool, whole: impl Fn() -> Found<T>, unvalidated: impl Fn() -> Found<T>) -> (Found<T>, Option<String>) {
    let found = guarded(if ring { STEPS_OF_RING } else { STEPS }, whole);
    if !matches!(&found, Err(Fail::Unanswered(why)) if why == "steps") {
        return (found, None);
    }
    let why = if ring { "ring" } else { "ladder" };
    let found = match guarded(STEPS, unvalidated) {
        Ok(found) => Ok(found),
        Err(_) => Err(Fail::Unanswered(why.into())),
    };
    (found, Some(why.into()))
}

// The questions

struct Checked {
    env: TypeEnv,
    actor: Option<Type>,
}

impl Checked {
    fn actor(&self) -> Found<&Type> {
        self.actor.as_ref().ok_or(Fail::Refused(17, None))
    }
}

/// Where a chain of aliases ends.
enum End<'a> {
    Unbound(&'a str),
    Circle,
    Ends(&'a Type),
}

/// The names that a chain crosses, and its end. `rec_find_type` and `trace_type` count none, so `find_type` is asked name by name: a chain that
/// has crossed as many names as there are definitions and meets one more never ends.
fn chain<'a>(env: &'a TypeEnv, mut t: &'a Type) -> (Vec<&'a str>, End<'a>) {
    let mut crossed = Vec::new();
    while let TypeInner::Var(name) = t.as_ref() {
        t = match env.find_type(name) {
            Err(_) => return (crossed, End::Unbound(name)),
            Ok(_) if crossed.len() == env.0.len() => return (crossed, End::Circle),
            Ok(body) => body,
        };
        crossed.push(name.as_str());
    }
    (crossed, End::Ends(t))
}

/// How many names the class arguments of an actor and the arguments and results of its methods lead to, each for itself, added up.
fn led_to(env: &TypeEnv, actor: &Type) -> crate::Result<usize> {
    let actor = env.trace_type(actor)?;
    let mut types = if let TypeInner::Class(args, _) = actor.as_ref() { args.clone() } else { vec![] };
    for (_, method) in env.as_service(&actor)? {
        let function = env.as_func(method)?;
        types.extend(function.args.iter().chain(&function.rets).cloned());
    }
    let mut total = 0;
    for ty in &types {
        let mut names = vec![];
        chase_type(&mut BTreeSet::new(), &mut names, env, ty)?;
        total += names.len();
    }
    Ok(total)
}

/// A type and its methods numbered, so that a use tells which of two methods of one name it is of.
fn numbered(t: &Type) -> Type {
    let types = |list: &[Type]| list.iter().map(numbered).collect();
    let fields = |list: &[Field]| list.iter().map(|f| Field { id: f.id.clone(), ty: numbered(&f.ty) }).collect();
    match t.as_ref() {
        TypeInner::Opt(t) => TypeInner::Opt(numbered(t)),
        TypeInner::Vec(t) => TypeInner::Vec(numbered(t)),
        TypeInner::Record(list) => TypeInner::Record(fields(list)),
        TypeInner::Variant(list) => TypeInner::Variant(fields(list)),
        TypeInner::Func(f) => TypeInner::Func(Function { modes: f.modes.clone(), args: types(&f.args), rets: types(&f.rets) }),
        TypeInner::Service(ms) => {
            TypeInner::Service(ms.iter().enumerate().map(|(i, (_, t))| (i.to_string(), numbered(t))).collect())
        }
        TypeInner::Class(args, t) => TypeInner::Class(types(args), numbered(t)),
        other => other.clone(),
    }
    .into()
}

/// A use of the numbered methods, METHOD.KIND.INDEX, and as the Rust writes it of the methods' own names.
fn use_of(text: &str, methods: &[(String, Type)]) -> (String, String) {
    let (method, place) = text.split_once('.').expect("a use");
    let (kind, index) = match place.strip_prefix("arg") {
        Some(index) => (0, index),
        None => (1, place.strip_prefix("ret").expect("a result")),
    };
    if method == "init" {
        return (format!("{OF_CLASS}.{kind}.{index}"), text.into());
    }
    let own = &methods[method.parse::<usize>().expect("a position")].0;
    (format!("{method}.{kind}.{index}"), format!("{own}.{place}"))
}

/// The uses of each name that has any, METHOD.KIND.INDEX.
type Rows = BTreeMap<String, Vec<String>>;

/// The methods that the entries in the rows of these names are of, each once, ascending. An argument of the actor's class is no method's.
fn methods_of(rows: &Rows, names: &[&str]) -> Vec<String> {
    let entries = names.iter().filter_map(|name| rows.get(*name)).flatten();
    let methods = entries.map(|entry| entry.split('.').next().and_then(|method| method.parse().ok()).expect("a position"));
    let found: BTreeSet<usize> = methods.filter(|method| *method != OF_CLASS).collect();
    found.into_iter().map(|method| method.to_string()).collect()
}

impl Texts<'_> {
    fn uses(&self, checked: &Checked) -> Found<Rows> {
        let actor = checked.actor()?;
        let rust = chase_def_use(&checked.env, actor).map_err(|e| self.row(e))?;
        let env = TypeEnv(checked.env.0.iter().map(|(name, t)| (name.clone(), numbered(t))).collect());
        let found = chase_def_use(&env, &numbered(actor)).map_err(|e| self.row(e))?;
        let methods = checked.env.as_service(actor).map_err(|e| self.row(e))?;
        let mut rows = BTreeMap::new();
        for (name, list) in &found {
            let (numbers, texts): (Vec<_>, Vec<_>) = list.iter().map(|text| use_of(text, methods)).unzip();
            if rust.get(name) != Some(&texts) {
                return Err(Fail::Unanswered("uses-differ".into()));
            }
            rows.insert(name.clone(), numbers);
        }
        if rust.len() != found.len() {
            return Err(Fail::Unanswered("uses-differ".into()));
        }
        Ok(rows)
    }

    /// How many uses each listed name has, the length of its row, and their sum. That has to be what `chase_type` comes to from the other side: how
    /// many names each class argument and each argument and result of a method leads to.
    fn use_counts(&self, checked: &Checked, rows: &Rows) -> Found<(Vec<String>, String)> {
        let (env, actor) = (&checked.env, checked.actor()?);
        let listed = chase_actor(env, actor).map_err(|e| self.row(e))?;
        let counts: Vec<usize> = listed.iter().map(|name| rows.get(*name).map_or(0, |row| row.len())).collect();
        let total: usize = counts.iter().sum();
        let other = led_to(env, actor).map_err(|e| self.row(e))?;
        let mut after = format!(" total {total}");
        if other != total {
            after += &format!(" but {other} from the other side");
        }
        Ok((counts.iter().map(|count| count.to_string()).collect(), after))
    }

    /// The methods that change with each name: those that the entries of its row are of.
    fn methods(&self, rows: &Rows) -> String {
        let mut entries = vec![];
        for (number, name) in self.names.iter().enumerate() {
            let positions = methods_of(rows, &[name]);
            if !positions.is_empty() {
                entries.push(format!(" {} {}", named(self.book, number), positions.join(" ")));
            }
        }
        format!("given {}{}", entries.len(), entries.concat())
    }

    /// A listed name that is unbound is 3 by document 01, before `infer_rec` is asked: it panics there.
    fn marks(&self, checked: &Checked, list: &[&str]) -> Found<Vec<String>> {
        if let Some(unbound) = list.iter().find(|name| !checked.env.0.contains_key(**name)) {
            return Err(Fail::Refused(3, Some(self.number(unbound))));
        }
        let marked = infer_rec(&checked.env, list).map_err(|e| self.row(e))?;
        Ok(self.entries(&marked.into_iter().collect::<Vec<_>>()))
    }

    fn project(&self, checked: &Checked, asked: Vec<String>) -> Found<Vec<String>> {
        let actor = checked.actor()?;
        let projected = match project_methods(&checked.env, &checked.actor, asked.clone()) {
            Ok(projected) => projected,
            Err(e) => {
                let lowest = rows::absent(&e.to_string(), &asked).iter().map(|name| self.number(name)).min();
                return Err(lowest.map_or_else(|| self.row(e), |name| Fail::Refused(15, Some(name))));
            }
        };
        let TypeInner::Service(taken) = projected.as_ref() else {
            return Err(Fail::Unanswered("no-service".into()));
        };
        let methods = checked.env.as_service(actor).map_err(|e| self.row(e))?;
        let place = |t: &Type| methods.iter().position(|(_, own)| Rc::ptr_eq(&own.0, &t.0)).expect("a method");
        Ok(taken.iter().map(|(_, t)| place(t).to_string()).collect())
    }

    /// The names crossed from a type that is a name, and the last of them. `rec_find_type` has to come to the same type.
    fn alias(&self, checked: &Checked, name: &str) -> Found<String> {
        if checked.env.find_type(name).is_err() {
            return Err(Fail::Refused(3, Some(self.number(name))));
        }
        let start: Type = TypeInner::Var(name.into()).into();
        let (crossed, end) = chain(&checked.env, &start);
        let found = checked.env.rec_find_type(name).map_err(|e| self.row(e))?;
        match (crossed.last(), end) {
            (Some(last), End::Ends(end)) if Rc::ptr_eq(&found.0, &end.0) => {
                Ok(format!("given {} {}", crossed.len(), named(self.book, self.number(last))))
            }
            _ => Err(Fail::Unanswered("ends-differ".into())),
        }
    }

    /// The chain from each definition's body, with the definitions of all files as one environment, unchecked.
    fn chains(&self) -> Found<String> {
        let rows = &self.book.definitions;
        let mut env = TypeEnv::new();
        for row in rows {
            if env.0.insert(self.names[row.name].clone(), self.typ(&row.tree)).is_some() {
                return Err(Fail::Refused(2, Some(row.name)));
            }
        }
        let said = |name: usize| {
            let (crossed, end) = chain(&env, &env.0[&self.names[name]]);
            match end {
                End::Ends(_) => format!(" ends.{}", crossed.len()),
                End::Circle => format!(" circle.{}", crossed.len()),
                End::Unbound(name) => format!(" unbound.{} {}", crossed.len(), named(self.book, self.number(name))),
            }
        };
        Ok(format!("given {}{}", rows.len(), rows.iter().map(|row| said(row.name)).collect::<String>()))
    }

    /// What `as_func` and `as_service` find from the body of each definition but the init file's, and from main's actor below its class, with
    /// the names crossed.
    fn lookups(&self, checked: &Checked) -> Found<String> {
        let env = &checked.env;
        let rows: Vec<_> = self.book.definitions.iter().filter(|row| self.book.is_of(row, false)).collect();
        let mut text = format!("given {}", rows.len());
        for row in rows {
            let body = env.find_type(&self.names[row.name]).map_err(|e| self.row(e))?;
            let found = match (env.as_func(body).is_ok(), env.as_service(body).is_ok()) {
                (true, _) => "f",
                (_, true) => "s",
                _ => "-",
            };
            text += &format!(" {found}.{}", chain(env, body).0.len());
        }
        if let Some(tree) = &self.book.files[0].tree {
            let actor = self.typ(tree);
            let below = if let TypeInner::Class(_, service) = actor.as_ref() { service } else { &actor };
            let found = if env.as_service(&actor).is_ok() { "actor" } else { "actor-" };
            text += &format!(" {found}.{}", chain(env, below).0.len());
        }
        Ok(text)
    }

    fn emptiness(&self, checked: &Checked) -> Found<Vec<String>> {
        let mut after = checked.env.clone();
        after.replace_empty().map_err(|e| self.row(e))?;
        let is_empty = |t: &Type| matches!(t.as_ref(), TypeInner::Empty);
        let made = after.0.iter().filter(|(name, t)| is_empty(t) && !is_empty(&checked.env.0[*name]));
        let names = self.entries(&made.map(|(name, _)| name.as_str()).collect::<Vec<_>>());
        if is_empty_by_circles(self.book) {
            Ok(names)
        } else {
            Err(Fail::Unanswered([&[VALUES.into()], &names[..]].concat().join(" ")))
        }
    }

    /// How many values each name has that `find_type` knows: the Rust counts none, so the numbers are the oracle's own.
    fn values(&self, checked: &Checked) -> Found<String> {
        let numbers = numbers(self.book);
        let mut entries = vec![];
        for (number, name) in self.names.iter().enumerate() {
            match (checked.env.find_type(name).is_ok(), numbers.get(&number)) {
                (true, Some(Some(count))) => entries.push(format!(" {} {count}", named(self.book, number))),
                (true, Some(None)) => entries.push(format!(" {} many", named(self.book, number))),
                (false, None) => (),
                _ => return Err(Fail::Unanswered("definitions-differ".into())),
            }
        }
        Ok(format!("given {}{}", entries.len(), entries.concat()))
    }

    /// Those of a text that is no name's.
    fn values_outside(&self, checked: &Checked, name: &str) -> Found<String> {
        match checked.env.find_type(name) {
            Err(_) => Err(Fail::Refused(3, Some(self.number(name)))),
            Ok(_) => Err(Fail::Unanswered("definitions-differ".into())),
        }
    }

    fn draft(&self) -> Found<Vec<String>> {
        let actor = self.book.files[0].tree.as_ref().ok_or(Fail::Refused(17, None))?;
        let mut env = TypeEnv::new();
        for row in self.book.definitions.iter().filter(|row| row.file == 0) {
            if env.0.insert(self.names[row.name].clone(), self.typ(&row.tree)).is_some() {
                return Err(Fail::Refused(2, Some(row.name)));
            }
        }
        let actor = self.typ(actor);
        let found = chase_actor(&env, &actor).map_err(|e| self.row(e))?;
        Ok(self.entries(&found))
    }

    fn check(&self) -> (Found<Checked>, Option<String>) {
        let run = |check: fn(&IDLMergedProg) -> crate::Result<(TypeEnv, Option<Type>)>| -> Found<Checked> {
            let (env, actor) = self.merged().and_then(|merged| check(&merged)).map_err(|e| self.row(e))?;
            Ok(Checked { env, actor })
        };
        checked(has_ring(self.book, false), || run(typing::check_merged), || run(typing::check_merged_unvalidated))
    }

    /// The merged definitions and the init arguments.
    fn init_check(&self, checked_env: &TypeEnv) -> (Found<(TypeEnv, Vec<Type>)>, Option<String>) {
        let Some(prog) = self.init() else {
            return (Ok((checked_env.clone(), vec![])), None);
        };
        type Check = fn(&mut TypeEnv, &TypeEnv, &IDLInitArgs) -> crate::Result<Vec<Type>>;
        let run = |check: Check| -> Found<(TypeEnv, Vec<Type>)> {
            let mut env = TypeEnv::new();
            let fail = match check(&mut env, checked_env, &prog) {
                Ok(args) => return Ok((env, args)),
                Err(e) => self.row(e),
            };
            if fail != Fail::Refused(11, None) {
                return Err(fail);
            }
            let name = typing::differing(checked_env, &prog).map_err(|e| self.row(e))?;
            Err(match name {
                Some(name) => Fail::Refused(11, Some(self.number(&name))),
                None => Fail::Unanswered("no-difference".into()),
            })
        };
        checked(has_ring(self.book, true), || run(typing::check_init_args), || run(typing::check_init_args_unvalidated))
    }
}

// Lines

/// What is named as it is printed: a number outside the table as it is.
fn named(book: &Book, name: usize) -> String {
    book.names.get(name).map_or_else(|| name.to_string(), |name| quoted(name))
}

fn given(book: &Book, outcome: &Found<Vec<String>>) -> String {
    match outcome {
        Ok(entries) => {
            let mut text = format!("given {}", entries.len());
            for entry in entries {
                text.push(' ');
                text += entry;
            }
            text
        }
        Err(fail) => failed(book, fail),
    }
}

fn failed(book: &Book, fail: &Fail) -> String {
    match fail {
        Fail::Refused(number, None) => format!("refused {number} -"),
        Fail::Refused(number, Some(name)) => format!("refused {number} {}", named(book, *name)),
        Fail::Unanswered(why) => format!("unanswered {why}"),
    }
}

fn verdict<T>(book: &Book, outcome: &Found<T>, unvalidated: &[&Option<String>]) -> String {
    match (unvalidated.iter().find_map(|why| why.as_ref()), outcome) {
        (Some(why), _) => format!("unanswered {why}"),
        (None, Ok(_)) => "passed".into(),
        (None, Err(fail)) => failed(book, fail),
    }
}

/// The Rust's own functions for a question on a book that passed, for measuring: what they make is dropped.
#[cfg(counted)]
fn own_call(word: &str, checked: Checked) -> Option<()> {
    let Checked { mut env, actor } = checked;
    match word {
        "list" => chase_actor(&env, actor.as_ref()?).ok().map(drop),
        "marks" => {
            let list = actor.as_ref().and_then(|actor| chase_actor(&env, actor).ok());
            infer_rec(&env, &list.unwrap_or_default()).ok().map(drop)
        }
        "empty" => env.replace_empty().ok(),
        "use-counts" | "methods" | "uses" => chase_def_use(&env, actor.as_ref()?).ok().map(drop),
        "alias" => env.0.keys().try_for_each(|name| env.rec_find_type(name).map(drop)).ok(),
        "project" => {
            let names = env.as_service(actor.as_ref()?).ok()?.iter().map(|method| method.0.clone()).collect();
            project_methods(&env, &actor, names).ok().map(drop)
        }
        _ => None,
    }
}

/// The same for one on the init file's definitions and arguments.
#[cfg(counted)]
fn own_init_call(word: &str, (env, args): (TypeEnv, Vec<Type>)) -> Option<()> {
    if word == "init" { chase_types(&env, &args).ok().map(drop) } else { None }
}

/// Of what a line is asked: of every book, of each name of a whole one, and then of a whole one once.
#[derive(Clone, Copy, PartialEq)]
enum Of {
    Book,
    Name,
    Whole,
}

/// The question that is asked of an unchecked book.
const DRAFT: &str = "draft";

/// The questions that the Rust is asked, in the order of their lines, and whether each is asked again, with one place fewer than the entries
/// that were given.
const QUESTIONS: [(&str, Of, bool); 35] = [
    ("check", Of::Book, false),
    ("init-check", Of::Book, false),
    ("list", Of::Book, true),
    ("marks", Of::Book, true),
    ("marks-back", Of::Book, false),
    ("marks-outside", Of::Book, false),
    ("marks-highest", Of::Book, false),
    ("init", Of::Book, true),
    (DRAFT, Of::Book, true),
    ("empty", Of::Book, true),
    ("values", Of::Book, false),
    ("use-counts", Of::Book, true),
    ("methods", Of::Book, false),
    ("chains", Of::Book, false),
    ("lookups", Of::Book, false),
    ("uses", Of::Name, true),
    ("alias", Of::Name, false),
    ("project", Of::Name, false),
    ("twice", Of::Name, false),
    ("uses-outside", Of::Whole, false),
    ("alias-outside", Of::Whole, false),
    ("alias-highest", Of::Whole, false),
    ("values-outside", Of::Whole, false),
    ("values-highest", Of::Whole, false),
    ("project-outside", Of::Whole, false),
    ("project-highest", Of::Whole, false),
    ("project-none", Of::Whole, false),
    ("project-all", Of::Whole, true),
    ("project-every", Of::Whole, false),
    ("methods-outside", Of::Whole, false),
    ("methods-highest", Of::Whole, false),
    ("methods-none", Of::Whole, false),
    ("methods-all", Of::Whole, true),
    ("methods-even", Of::Whole, false),
    ("methods-odd", Of::Whole, false),
];

fn words(of: Of) -> impl Iterator<Item = String> {
    QUESTIONS.into_iter().filter(move |question| question.1 == of).map(|question| question.0.into())
}

/// The numbers of the names that a book is asked about.
pub fn asked_names(names: usize, lists_any: bool) -> Vec<usize> {
    let is_asked = |number: &usize| {
        lists_any || names <= MOST_NAMES || *number < FIRST_AND_LAST || names - FIRST_AND_LAST <= *number
    };
    (0..names).filter(is_asked).collect()
}

/// A question and its outcome.
type Line = (String, String);

/// What the oracle's own reader says: the layout; every name by its number, then two numbers outside, which have none.
fn lines_of_reader(book: Option<&Book>) -> Vec<Line> {
    let nothing = [vec![], vec![]];
    let names = book.map_or(&[][..], |book| &book.names).iter().chain(&nothing).map(|name| quoted(name)).collect::<Vec<_>>();
    let layout = book.map_or("refused 1 -".into(), |book| {
        format!("whole {} {} {} {}", book.names.len(), book.nodes(), book.definitions.len(), book.files.len())
    });
    vec![("layout".into(), layout), ("name".into(), format!("given {} {}", names.len(), names.join(" ")))]
}

/// The lines of a book under limits. The Rust knows none and leaves repeated labels to its grammar, so that it is asked of books within them
/// and without these alone.
fn lines(bytes: &[u8], limits: Limits) -> Vec<Line> {
    let book = book::read(bytes);
    let mut lines = lines_of_reader(book.as_ref());
    lines.extend(match &book {
        Some(book) if !book.is_within(limits) => all_alike(book, OVER_LIMIT),
        Some(book) => repeated(book).map_or_else(|| lines_of_rust(book), |refusal| all_alike(book, &refusal)),
        None => words(Of::Book).map(|word| (word, "refused 1 -".into())).collect(),
    });
    lines
}

/// The refusal of a book with a repeated label: it names the later one if that is spelled.
fn repeated(book: &Book) -> Option<String> {
    let later = book.repeat()?.later;
    let is_spelled = later.label_kind == book::BY_NAME;
    Some(format!("{REPEATED}{}", if is_spelled { named(book, later.label as usize) } else { "-".into() }))
}

/// One outcome to every question; of names those are asked that are where none is listed.
fn all_alike(book: &Book, outcome: &str) -> Vec<Line> {
    let asked = asked_names(book.names.len(), false).into_iter().map(|number| named(book, number));
    let of_names = asked.flat_map(|name| words(Of::Name).map(move |word| format!("{word} {name}")));
    let questions = words(Of::Book).chain(of_names).chain(words(Of::Whole));
    questions.map(|question| (question, outcome.into())).collect()
}

fn lines_of_rust(book: &Book) -> Vec<Line> {
    let names: Result<Vec<String>, _> = book.names.iter().map(|name| String::from_utf8(name.clone())).collect();
    let found = names.ok().map(|names| lines_of(&Texts { book, names, renamed: false }));
    let is_ambiguous = |lines: &Vec<Line>| lines.iter().any(|line| line.1 == "unanswered ambiguous-text");
    match (found, other_names(book)) {
        (Some(lines), None) => lines,
        (Some(lines), Some(_)) if !is_ambiguous(&lines) => lines,
        (_, Some(names)) => lines_of(&Texts { book, names, renamed: true }),
        (None, None) => all_alike(book, "unanswered utf-8"),
    }
}

/// The lines of a book, as they are said.
struct Saying<'a> {
    book: &'a Book,
    lines: Vec<Line>,
}

impl Saying<'_> {
    fn of(&self, name: Option<usize>) -> String {
        name.map_or(String::new(), |name| format!(" {}", named(self.book, name)))
    }

    /// Says the outcome of a question, and of the same with too short a list: by construction 16 and the entries given.
    fn say(&mut self, word: &str, name: Option<usize>, outcome: Found<Vec<String>>) {
        self.say_with(word, name, outcome.map(|entries| (entries, String::new())));
    }

    /// With what is said after the entries.
    fn say_with(&mut self, word: &str, name: Option<usize>, outcome: Found<(Vec<String>, String)>) {
        let of = self.of(name);
        let after = outcome.as_ref().map_or(String::new(), |found| found.1.clone());
        let outcome = outcome.map(|found| found.0);
        self.lines.push((format!("{word}{of}"), given(self.book, &outcome) + &after));
        let entries = outcome.map_or(0, |entries| entries.len());
        if entries > 0 && QUESTIONS.iter().any(|question| question.0 == word && question.2) {
            self.lines.push((format!("{word}-short{of}"), format!("needs {entries} refused 16 -")));
        }
    }

    /// The same of one that is answered with no list, in its own words.
    fn tell(&mut self, word: &str, name: Option<usize>, outcome: Found<String>) {
        let of = self.of(name);
        self.lines.push((format!("{word}{of}"), outcome.unwrap_or_else(|fail| failed(self.book, &fail))));
    }
}

fn lines_of(texts: &Texts) -> Vec<Line> {
    let book = texts.book;
    let (found, unvalidated) = texts.check();
    let known = found.as_ref().map_err(|fail| fail.clone());
    let (init, init_unvalidated) = match &known {
        Ok(checked) => texts.init_check(&checked.env),
        Err(fail) => (Err(fail.clone()), None),
    };
    let lines = vec![
        ("check".into(), verdict(book, &found, &[&unvalidated])),
        ("init-check".into(), verdict(book, &init, &[&unvalidated, &init_unvalidated])),
    ];
    let mut saying = Saying { book, lines };

    let listed = guarded(STEPS, || {
        let checked = known.clone()?;
        chase_actor(&checked.env, checked.actor()?).map_err(|e| texts.row(e))
    });
    let [outside, highest] = [OUTSIDE, HIGHEST].map(|number| texts.outside(number));
    saying.say("list", None, listed.clone().map(|found| texts.entries(&found)));
    let list = match &listed {
        Ok(list) => Ok(list.clone()),
        Err(Fail::Refused(..)) => Ok(vec![]),
        Err(fail) => Err(fail.clone()),
    };
    let marks = |list: Found<Vec<&str>>| guarded(STEPS, || texts.marks(known.clone()?, &list?));
    saying.say("marks", None, marks(list.clone()));
    saying.say("marks-back", None, marks(list.clone().map(|list| list.into_iter().rev().collect())));
    saying.say("marks-outside", None, marks(list.clone().map(|list| [&list[..], &[&outside]].concat())));
    saying.say("marks-highest", None, marks(list.map(|list| [&list[..], &[&highest]].concat())));
    let init_list = guarded(STEPS, || {
        let (env, args) = init.as_ref().map_err(|fail| fail.clone())?;
        Ok(texts.entries(&chase_types(env, args).map_err(|e| texts.row(e))?))
    });
    saying.say("init", None, init_list);
    saying.say(DRAFT, None, guarded(STEPS, || texts.draft()));
    saying.say("empty", None, guarded(STEPS, || texts.emptiness(known.clone()?)));
    saying.tell("values", None, guarded(STEPS, || texts.values(known.clone()?)));
    let uses = guarded(STEPS, || texts.uses(known.clone()?));
    let use_counts = guarded(STEPS, || texts.use_counts(known.clone()?, uses.as_ref().map_err(|fail| fail.clone())?));
    saying.say_with("use-counts", None, use_counts);
    let rows = uses.as_ref().map_err(|fail| fail.clone());
    saying.tell("methods", None, rows.clone().map(|rows| texts.methods(rows)));
    saying.tell("chains", None, guarded(STEPS, || texts.chains()));
    saying.tell("lookups", None, guarded(STEPS, || texts.lookups(known.clone()?)));

    let uses_of = |name: &str| {
        let row = uses.as_ref().map_err(|fail| fail.clone())?.get(name).cloned().unwrap_or_default();
        if row.len() > MOST_USES {
            Err(Fail::Refused(16, None))
        } else {
            Ok(row)
        }
    };
    let alias = |name: &str| guarded(STEPS, || texts.alias(known.clone()?, name));
    let project = |asked: Vec<String>| guarded(STEPS, || texts.project(known.clone()?, asked));
    let mut projected = Ok(vec![]);
    for number in asked_names(texts.names.len(), listed.as_ref().is_ok_and(|list| !list.is_empty())) {
        let name = &texts.names[number];
        saying.say("uses", Some(number), uses_of(name));
        saying.tell("alias", Some(number), alias(name));
        let once = project(vec![name.clone()]);
        match (&once, &mut projected) {
            (Ok(_), Ok(names)) => names.push(name.clone()),
            (Err(Fail::Unanswered(why)), Ok(_)) => projected = Err(Fail::Unanswered(why.clone())),
            _ => (),
        }
        saying.say("project", Some(number), once);
        saying.say("twice", Some(number), project(vec![name.clone(); 2]));
    }
    saying.say("uses-outside", None, uses_of(&outside));
    saying.tell("alias-outside", None, alias(&outside));
    saying.tell("alias-highest", None, alias(&highest));
    let values_outside = |name: &str| guarded(STEPS, || texts.values_outside(known.clone()?, name));
    saying.tell("values-outside", None, values_outside(&outside));
    saying.tell("values-highest", None, values_outside(&highest));
    saying.say("project-outside", None, project(vec![outside.clone()]));
    saying.say("project-highest", None, project(vec![highest.clone()]));
    saying.say("project-none", None, project(vec![]));
    saying.say("project-all", None, projected.and_then(|names| project(names.into_iter().rev().collect())));
    saying.say("project-every", None, project(texts.names.iter().rev().cloned().collect()));
    let methods = |asked: &[&str]| rows.clone().map(|rows| methods_of(rows, asked));
    let every: Vec<&str> = texts.names.iter().rev().map(|name| name.as_str()).collect();
    let numbered = |odd: usize| texts.names.iter().enumerate().rev().filter(move |name| name.0 % 2 == odd).map(|name| name.1.as_str());
    saying.say("methods-outside", None, methods(&[&outside]));
    saying.say("methods-highest", None, methods(&[&highest]));
    saying.say("methods-none", None, methods(&[]));
    saying.say("methods-all", None, methods(&every));
    saying.say("methods-even", None, methods(&numbered(0).flat_map(|name| [name, name]).collect::<Vec<_>>()));
    saying.say("methods-odd", None, methods(&numbered(1).collect::<Vec<_>>()));
    saying.lines
}

/// The lines of each book of a batch.
pub fn write(batch: &[u8], out: &mut impl Write) {
    for record in Batch(batch) {
        for (question, outcome) in lines(record.book, record.limits) {
            writeln!(out, "{} {question} {outcome}", record.name).expect("room");
        }
    }
}

pub fn run() -> i32 {
    let mut bytes = Vec::new();
    std::io::stdin().read_to_end(&mut bytes).expect("a batch");
    let mut out = std::io::BufWriter::new(std::io::stdout().lock());
    write(&bytes, &mut out);
    out.flush().expect("room");
    0
}
