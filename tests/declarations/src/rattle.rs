//! The Rattle sources: exports, structs that cross, and the constants in their lengths.

use crate::tokens::Tokens;
use crate::{Function, Interface, Named, Read, Type};
use std::collections::BTreeMap;

/// Constants of type usize by name; those of `impl Ledger` as `Ledger::NAME`, those of a crate as `crate::NAME` where they are used
/// outside of it.
#[derive(Clone, Debug, Default)]
pub struct Constants(BTreeMap<String, u64>);

impl Constants {
    /// Adds those of a source, whose names get `prefix` before them; within the source they go without.
    pub fn read(&mut self, source: &str, prefix: &str) -> Read<()> {
        let mut tokens = Tokens::of(source);
        while !tokens.is_done() {
            if !tokens.take("pub const") {
                tokens.next()?;
                continue;
            }
            let name = format!("{prefix}{}", tokens.word()?);
            if tokens.take(": usize =") {
                let value = self.value(&mut tokens, prefix)?;
                tokens.expect(";")?;
                self.0.insert(name, value);
            }
        }
        Ok(())
    }

    pub fn get(&self, name: &str) -> Option<u64> {
        self.0.get(name).copied()
    }

    // A sum of products of numbers and names.
    fn value(&self, tokens: &mut Tokens, prefix: &str) -> Read<u64> {
        let mut sum = self.product(tokens, prefix)?;
        while tokens.take("+") {
            sum += self.product(tokens, prefix)?;
        }
        Ok(sum)
    }

    fn product(&self, tokens: &mut Tokens, prefix: &str) -> Read<u64> {
        let mut name = tokens.next()?;
        while tokens.take(": :") {
            name = format!("{name}::{}", tokens.word()?);
        }
        let value = match name.parse() {
            Ok(number) => number,
            Err(_) => {
                let own = self.get(&format!("{prefix}{name}"));
                own.or_else(|| self.get(&name)).ok_or(format!("unknown constant {name}"))?
            }
        };
        Ok(if tokens.take("*") { value * self.product(tokens, prefix)? } else { value })
    }
}

/// Adds a source's functions that are declared as exports, and its structs that have C's layout.
pub fn read_exports(source: &str, constants: &Constants, found: &mut Interface) -> Read<()> {
    let mut tokens = Tokens::of(source);
    while !tokens.is_done() {
        if tokens.take("# [ unsafe ( no_mangle ) ]") {
            tokens.expect("pub extern \"C\" fn")?;
            let name = tokens.word()?;
            if tokens.peek() == "<" {
                tokens.skip_group("<", ">")?;
            }
            tokens.expect("(")?;
            let parameters = read_parameters(&mut tokens, constants)?;
            tokens.expect("- >")?;
            let result = read_type(&mut tokens, constants)?;
            found.add_function(name, Function { parameters, result })?;
        } else if tokens.take("# [ repr ( C ) ]") {
            if tokens.take("# [ derive") {
                tokens.skip_group("(", ")")?;
                tokens.expect("]")?;
            }
            tokens.expect("pub struct")?;
            let name = tokens.word()?;
            tokens.expect("{")?;
            found.add_struct(name, read_fields(&mut tokens, constants)?)?;
        } else if tokens.take("extern \"C\"") {
            return Err("an extern \"C\" without #[unsafe(no_mangle)]".to_string());
        } else {
            tokens.next()?;
        }
    }
    Ok(())
}

fn read_fields(tokens: &mut Tokens, constants: &Constants) -> Read<Named> {
    let mut fields = Named::new();
    while !tokens.take("}") {
        tokens.expect("pub")?;
        let name = tokens.word()?;
        tokens.expect(":")?;
        fields.push((name, read_type(tokens, constants)?));
        tokens.expect(",")?;
    }
    Ok(fields)
}

// A slice is a pointer and, under its name with _len, a length; a reference to a struct or an array is a pointer.
fn read_parameters(tokens: &mut Tokens, constants: &Constants) -> Read<Named> {
    let mut parameters = Named::new();
    while !tokens.take(")") {
        tokens.take("mut"); // of a parameter that the body alters: nothing to the caller
        let name = tokens.word()?;
        tokens.expect(":")?;
        if tokens.take("&") {
            if tokens.take("'") {
                tokens.word()?;
            }
            let is_mut = tokens.take("mut");
            let (item, is_slice) = read_referred(tokens, constants)?;
            let item = Box::new(item);
            parameters.push((name.clone(), if is_mut { Type::Mut(item) } else { Type::Const(item) }));
            if is_slice {
                parameters.push((format!("{name}_len"), Type::Number("usize".to_string())));
            }
        } else {
            parameters.push((name, read_type(tokens, constants)?));
        }
        if !tokens.take(",") {
            tokens.expect(")")?;
            break;
        }
    }
    Ok(parameters)
}

// What a reference points at, and whether it is a slice of that.
fn read_referred(tokens: &mut Tokens, constants: &Constants) -> Read<(Type, bool)> {
    if !tokens.take("[") {
        return Ok((read_type(tokens, constants)?, false));
    }
    let item = read_type(tokens, constants)?;
    if tokens.take("]") {
        return Ok((item, true));
    }
    Ok((read_array(tokens, constants, item)?, false))
}

// An array of items, from its `;` on.
fn read_array(tokens: &mut Tokens, constants: &Constants, item: Type) -> Read<Type> {
    tokens.expect(";")?;
    let length = constants.value(tokens, "")?;
    tokens.expect("]")?;
    Ok(Type::Array(Box::new(item), length))
}

fn read_type(tokens: &mut Tokens, constants: &Constants) -> Read<Type> {
    if tokens.take("[") {
        let item = read_type(tokens, constants)?;
        return read_array(tokens, constants, item);
    }
    let name = tokens.word()?;
    Ok(match name.as_str() {
        "u8" | "u16" | "u32" | "u64" | "usize" => Type::Number(name),
        _ => Type::Struct(name),
    })
}
