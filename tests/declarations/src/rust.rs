//! The Rust binding: `ffi.rs`, and the table of refusals.

use crate::tokens::Tokens;
use crate::{Function, Interface, Named, Read, Type};
use std::collections::BTreeMap;

/// The structs and functions of `ffi.rs`.
pub fn read_ffi(source: &str) -> Read<Interface> {
    let mut tokens = Tokens::of(source);
    let mut found = Interface::default();
    while !tokens.is_done() {
        if tokens.take("# [ repr ( C ) ]") {
            tokens.take("# [ derive ( Clone , Copy ) ]");
            tokens.expect("pub ( crate ) struct")?;
            let name = tokens.word()?;
            tokens.expect("{")?;
            found.add_struct(name, read_named(&mut tokens, "}", "pub ( crate )")?)?;
        } else {
            tokens.expect("extern \"C\" {")?;
            while !tokens.take("}") {
                tokens.expect("pub ( crate ) fn")?;
                let name = tokens.word()?;
                tokens.expect("(")?;
                let parameters = read_named(&mut tokens, ")", "")?;
                tokens.expect("- >")?;
                let result = read_type(&mut tokens)?;
                tokens.expect(";")?;
                found.add_function(name, Function { parameters, result })?;
            }
        }
    }
    Ok(found)
}

fn read_named(tokens: &mut Tokens, end: &str, before: &str) -> Read<Named> {
    let mut named = Named::new();
    while !tokens.take(end) {
        if !before.is_empty() {
            tokens.expect(before)?;
        }
        let name = tokens.word()?;
        tokens.expect(":")?;
        named.push((name, read_type(tokens)?));
        if !tokens.take(",") {
            tokens.expect(end)?;
            break;
        }
    }
    Ok(named)
}

fn read_type(tokens: &mut Tokens) -> Read<Type> {
    if tokens.take("* const") {
        return Ok(Type::Const(Box::new(read_type(tokens)?)));
    }
    if tokens.take("* mut") {
        return Ok(Type::Mut(Box::new(read_type(tokens)?)));
    }
    if tokens.take("[") {
        let item = read_type(tokens)?;
        tokens.expect(";")?;
        let length = tokens.next()?.parse().map_err(|_| "an array's length is no number")?;
        tokens.expect("]")?;
        return Ok(Type::Array(Box::new(item), length));
    }
    let name = tokens.word()?;
    Ok(match name.as_str() {
        "u8" | "u16" | "u32" | "u64" | "usize" => Type::Number(name),
        _ => Type::Struct(name),
    })
}

/// The refusals' texts in `refusal.rs`, by number.
pub fn refusals(source: &str) -> Read<BTreeMap<u64, String>> {
    let mut tokens = Tokens::of(source);
    let mut found = BTreeMap::new();
    while !tokens.is_done() && !tokens.take("refusals ! {") {
        tokens.next()?;
    }
    while !tokens.take("}") {
        let name = tokens.word()?;
        tokens.expect("=")?;
        let number = tokens.next()?.parse().map_err(|_| format!("{name} is no number"))?;
        tokens.expect(",")?;
        found.insert(number, tokens.next()?.trim_matches('"').to_string());
        tokens.expect(",")?;
        tokens.next()?;
        tokens.expect(";")?;
    }
    Ok(found)
}
