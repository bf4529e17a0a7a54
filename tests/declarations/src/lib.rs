//! Reads what the library's exports look like from three places, and compares: the Rattle sources, the C header and the declarations
//! of the Rust binding. In the Rattle sources one crate has the structs and the functions, and another exports each of these. Each reader
//! knows the few forms that its file uses, and fails on any other. A state is one array of words in the Rattle sources and has named fields
//! elsewhere, so that it is also compared by its number of words and by where its fields start.

mod header;
mod rattle;
mod rust;
mod tokens;

pub use header::{enumerators, macros, read_header, texts};
pub use rattle::{read_exports, Constants};
pub use rust::{read_ffi, refusals};

use std::collections::BTreeMap;
use std::fmt;

/// A reader's complaint.
pub type Read<T> = Result<T, String>;

/// A type as it crosses: a slice is a pointer and a length, an array has its length worked out.
#[derive(Clone, Debug, PartialEq, Eq)]
pub enum Type {
    /// u8, u16, u32, u64, usize
    Number(String),
    Array(Box<Type>, u64),
    Const(Box<Type>),
    Mut(Box<Type>),
    /// By its name in the Rattle sources.
    Struct(String),
}

impl fmt::Display for Type {
    fn fmt(&self, f: &mut fmt::Formatter<'_>) -> fmt::Result {
        match self {
            Type::Number(name) | Type::Struct(name) => f.write_str(name),
            Type::Array(item, length) => write!(f, "[{item}; {length}]"),
            Type::Const(item) => write!(f, "*const {item}"),
            Type::Mut(item) => write!(f, "*mut {item}"),
        }
    }
}

/// Names with their types, in order: parameters, or fields.
pub type Named = Vec<(String, Type)>;

#[derive(Clone, Debug, PartialEq, Eq)]
pub struct Function {
    pub parameters: Named,
    pub result: Type,
}

/// What one place says of the library.
#[derive(Clone, Debug, Default, PartialEq, Eq)]
pub struct Interface {
    pub functions: BTreeMap<String, Function>,
    pub structs: BTreeMap<String, Named>,
}

impl Interface {
    pub(crate) fn add_function(&mut self, name: String, function: Function) -> Read<()> {
        match self.functions.insert(name.clone(), function) {
            None => Ok(()),
            Some(_) => Err(format!("{name} is declared twice")),
        }
    }

    pub(crate) fn add_struct(&mut self, name: String, fields: Named) -> Read<()> {
        match self.structs.insert(name.clone(), fields) {
            None => Ok(()),
            Some(_) => Err(format!("{name} is declared twice")),
        }
    }
}

/// The structs of the two states, and of a held record in them, which are words of 64 bits and nothing else.
const IN_WORDS: [&str; 3] = ["PairValidator", "HomeValidator", "Held"];

impl Interface {
    /// The same with each state as one array of words, wherever it stands, and without the structs of the states.
    pub fn in_words(&self) -> Read<Interface> {
        let named =
            |named: &Named| -> Read<Named> { named.iter().map(|(name, of)| Ok((name.clone(), self.type_in_words(of)?))).collect() };
        let mut found = Interface::default();
        for (name, function) in &self.functions {
            let (parameters, result) = (named(&function.parameters)?, self.type_in_words(&function.result)?);
            found.add_function(name.clone(), Function { parameters, result })?;
        }
        for (name, fields) in self.structs.iter().filter(|(name, _)| !IN_WORDS.contains(&name.as_str())) {
            found.add_struct(name.clone(), named(fields)?)?;
        }
        Ok(found)
    }

    fn type_in_words(&self, of: &Type) -> Read<Type> {
        let boxed = |of: &Type| self.type_in_words(of).map(Box::new);
        Ok(match of {
            Type::Struct(name) if IN_WORDS.contains(&name.as_str()) => {
                Type::Array(Box::new(Type::Number("u64".to_string())), self.words(of)?)
            }
            Type::Const(item) => Type::Const(boxed(item)?),
            Type::Mut(item) => Type::Mut(boxed(item)?),
            Type::Number(_) | Type::Array(..) | Type::Struct(_) => of.clone(),
        })
    }

    // How many words of 64 bits a type is; all else is an error.
    fn words(&self, of: &Type) -> Read<u64> {
        match of {
            Type::Number(name) if name == "u64" => Ok(1),
            Type::Array(item, length) => Ok(self.words(item)? * length),
            Type::Struct(name) => Ok(self.field_starts(name)?.last().map_or(0, |(_, start)| *start)),
            _ => Err(format!("{of} where a word of 64 bits is wanted")),
        }
    }

    /// The word at which each field of a struct starts, and at last, under no name, the number of its words.
    pub fn field_starts(&self, name: &str) -> Read<Vec<(String, u64)>> {
        let fields = self.structs.get(name).ok_or(format!("unknown struct {name}"))?;
        let (mut starts, mut at) = (Vec::new(), 0);
        for (field, of) in fields {
            starts.push((field.clone(), at));
            at += self.words(of).map_err(|complaint| format!("{name}.{field}: {complaint}"))?;
        }
        starts.push((String::new(), at));
        Ok(starts)
    }
}

/// A place, and what it says.
pub struct Place<'a> {
    pub name: &'a str,
    pub says: &'a Interface,
}

/// Each difference between two places, as a line; none if they say the same.
pub fn differences(a: &Place, b: &Place) -> Vec<String> {
    let mut lines = Vec::new();
    for (name, own, other) in beside(&a.says.functions, &b.says.functions) {
        match (own, other) {
            (Some(own), Some(other)) => {
                compare_named(name, "parameter", (a.name, &own.parameters), (b.name, &other.parameters), &mut lines);
                if own.result != other.result {
                    lines.push(format!("{name}: its result is {} in {} and {} in {}", own.result, a.name, other.result, b.name));
                }
            }
            (own, _) => lines.push(only_in(name, own.is_some(), a, b)),
        }
    }
    for (name, own, other) in beside(&a.says.structs, &b.says.structs) {
        match (own, other) {
            (Some(own), Some(other)) => compare_named(name, "field", (a.name, own), (b.name, other), &mut lines),
            (own, _) => lines.push(only_in(name, own.is_some(), a, b)),
        }
    }
    lines
}

fn only_in(name: &str, in_a: bool, a: &Place, b: &Place) -> String {
    let (there, missing) = if in_a { (a, b) } else { (b, a) };
    format!("{name}: in {}, and missing in {}", there.name, missing.name)
}

// Both maps side by side, each name once.
fn beside<'a, T>(a: &'a BTreeMap<String, T>, b: &'a BTreeMap<String, T>) -> Vec<(&'a str, Option<&'a T>, Option<&'a T>)> {
    let more = b.keys().filter(|name| !a.contains_key(*name));
    a.keys().chain(more).map(|name| (name.as_str(), a.get(name), b.get(name))).collect()
}

fn compare_named(item: &str, what: &str, a: (&str, &Named), b: (&str, &Named), lines: &mut Vec<String>) {
    let shown = |named: Option<&(String, Type)>| match named {
        Some((name, of)) => format!("`{name}: {of}`"),
        None => "none".to_string(),
    };
    for i in 0..a.1.len().max(b.1.len()) {
        let (own, other) = (a.1.get(i), b.1.get(i));
        if own != other {
            lines.push(format!("{item}: {what} {} is {} in {} and {} in {}", i + 1, shown(own), a.0, shown(other), b.0));
        }
    }
}
