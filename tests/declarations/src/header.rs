//! The C header.

use crate::tokens::Tokens;
use crate::{Function, Interface, Named, Read, Type};
use std::collections::BTreeMap;

// The structs' names here and in the Rattle sources.
const STRUCTS: [(&str, &str); 18] = [
    ("moatbetony_answer_t", "PlainAnswer"),
    ("moatbetony_held_t", "Held"),
    ("moatbetony_pair_t", "PairValidator"),
    ("moatbetony_home_t", "HomeValidator"),
    ("moatbetony_pair_outcome_t", "PlainPairOutcome"),
    ("moatbetony_pair_figures_t", "PlainPairFigures"),
    ("moatbetony_pair_places_t", "PlainPairPlaces"),
    ("moatbetony_home_outcome_t", "PlainHomeOutcome"),
    ("moatbetony_home_figures_t", "PlainHomeFigures"),
    ("moatbetony_home_places_t", "PlainHomePlaces"),
    ("moatbetony_balance_t", "PlainBalance"),
    ("moatbetony_record_t", "PlainRecord"),
    ("moatbetony_encoded_t", "PlainEncoded"),
    ("moatbetony_charge_t", "PlainCharge"),
    ("moatbetony_part_t", "PlainPart"),
    ("moatbetony_count_t", "PlainCount"),
    ("moatbetony_balances_t", "PlainBalances"),
    ("moatbetony_digest_t", "PlainDigest"),
];

/// The functions and structs that the header declares; its inline functions are no exports.
pub fn read_header(source: &str) -> Read<Interface> {
    let mut tokens = Tokens::of(&without_directives(source));
    let mut found = Interface::default();
    while !tokens.is_done() {
        if tokens.take("extern \"C\" {") || tokens.take("}") || tokens.take("MOATBETONY_MUST_USE") {
            continue;
        }
        if tokens.take("MOATBETONY_ASSERT") {
            tokens.skip_group("(", ")")?;
            tokens.expect(";")?;
        } else if tokens.take("enum") {
            tokens.word()?;
            tokens.skip_group("{", "}")?;
            tokens.expect(";")?;
        } else if tokens.take("static inline") {
            while tokens.peek() != "{" {
                tokens.next()?;
            }
            tokens.skip_group("{", "}")?;
        } else if tokens.take("typedef struct") {
            let (name, fields) = read_struct(&mut tokens)?;
            found.add_struct(name, fields)?;
        } else {
            let result = read_type(&mut tokens)?;
            let name = tokens.word()?;
            let parameters = read_parameters(&mut tokens)?;
            tokens.expect(";")?;
            found.add_function(name, Function { parameters, result })?;
        }
    }
    Ok(found)
}

fn without_directives(source: &str) -> String {
    let mut goes_on = false;
    let mut kept = String::new();
    for line in source.lines() {
        if !goes_on && !line.starts_with('#') {
            kept.push_str(line);
        } else {
            goes_on = line.ends_with('\\');
        }
        kept.push('\n');
    }
    kept
}

fn read_struct(tokens: &mut Tokens) -> Read<(String, Named)> {
    let tag = tokens.word()?;
    tokens.expect("{")?;
    let mut fields = Named::new();
    while !tokens.take("}") {
        let item = read_type(tokens)?;
        let name = tokens.word()?;
        let mut lengths = Vec::new();
        while tokens.take("[") {
            lengths.push(tokens.next()?.parse().map_err(|_| format!("{tag}.{name}: its length is no number"))?);
            tokens.expect("]")?;
        }
        tokens.expect(";")?;
        // The length that stands first is the outermost array's.
        let of = lengths.into_iter().rev().fold(item, |item, length| Type::Array(Box::new(item), length));
        fields.push((name, of));
    }
    let name = tokens.word()?;
    tokens.expect(";")?;
    if name != format!("{tag}_t") {
        return Err(format!("struct {tag} is called {name}"));
    }
    Ok((rattle_name(&name)?, fields))
}

fn rattle_name(name: &str) -> Read<String> {
    let known = STRUCTS.iter().find(|(here, _)| *here == name);
    known.map(|(_, there)| there.to_string()).ok_or(format!("unknown type {name}"))
}

fn read_type(tokens: &mut Tokens) -> Read<Type> {
    let is_const = tokens.take("const");
    let name = tokens.word()?;
    let item = match name.as_str() {
        "uint8_t" | "uint16_t" | "uint32_t" | "uint64_t" => {
            Type::Number(format!("u{}", name.trim_start_matches("uint").trim_end_matches("_t")))
        }
        "size_t" => Type::Number("usize".to_string()),
        _ => Type::Struct(rattle_name(&name)?),
    };
    match (tokens.take("*"), is_const) {
        (false, false) => Ok(item),
        (true, true) => Ok(Type::Const(Box::new(item))),
        (true, false) => Ok(Type::Mut(Box::new(item))),
        (false, true) => Err(format!("a const {name} that is no pointer")),
    }
}

fn read_parameters(tokens: &mut Tokens) -> Read<Named> {
    let mut parameters = Named::new();
    tokens.expect("(")?;
    if tokens.take("void )") {
        return Ok(parameters);
    }
    loop {
        let of = read_type(tokens)?;
        parameters.push((tokens.word()?, of));
        if tokens.take(")") {
            return Ok(parameters);
        }
        tokens.expect(",")?;
    }
}

/// The header's macros that are plain numbers.
pub fn macros(source: &str) -> BTreeMap<String, u64> {
    let number = |line: &str| {
        let mut words = line.strip_prefix("#define ")?.split_whitespace();
        Some((words.next()?.to_string(), words.next()?.parse().ok()?))
    };
    source.lines().filter_map(number).collect()
}

/// The enumerators of all of the header's enums.
pub fn enumerators(source: &str) -> Read<BTreeMap<String, u64>> {
    let mut tokens = Tokens::of(&without_directives(source));
    let mut found = BTreeMap::new();
    while !tokens.is_done() {
        if !tokens.take("enum") {
            tokens.next()?;
            continue;
        }
        tokens.word()?;
        tokens.expect("{")?;
        while !tokens.take("}") {
            let name = tokens.word()?;
            tokens.expect("=")?;
            let value = tokens.next()?.parse().map_err(|_| format!("{name} is no number"))?;
            found.insert(name, value);
            tokens.take(",");
        }
    }
    Ok(found)
}

/// The texts of `moatbetony_refusal_text`, by number.
pub fn texts(source: &str) -> Read<BTreeMap<u64, String>> {
    let numbers = enumerators(source)?;
    let mut tokens = Tokens::of(source);
    let mut found = BTreeMap::new();
    while !tokens.is_done() {
        if tokens.take("case") {
            let name = tokens.word()?;
            tokens.expect(": return")?;
            let number = numbers.get(&name).ok_or(format!("unknown {name}"))?;
            found.insert(*number, tokens.next()?.trim_matches('"').to_string());
        } else {
            tokens.next()?;
        }
    }
    Ok(found)
}
