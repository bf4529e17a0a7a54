//! Header, binding and exports say the same; and every sort of difference between them is found.

use declarations::{differences, enumerators, macros, read_exports, read_ffi, read_header, refusals, texts};
use declarations::{Constants, Interface, Place};
use std::collections::BTreeSet;
use std::fs;
use std::path::{Path, PathBuf};
use std::process::Command;

fn root() -> PathBuf {
    Path::new(env!("CARGO_MANIFEST_DIR")).join("../..")
}

fn source(path: &str) -> String {
    fs::read_to_string(root().join(path)).unwrap_or_else(|error| panic!("{path}: {error}"))
}

const HEADER: &str = "include/moatbetony.h";
const FFI: &str = "bindings/rust/src/ffi.rs";
const EXPORTS: &str = "crates/moatbetony_c/src/lib.rt";
const LIBRARY: &str = "crates/moatbetony/src/lib.rt";
const LEDGERS: &str = "crates/ledgers/src/lib.rt";
const NUMBER_INDEX: &str = "crates/places/src/number_index.rt";
const TABLE: &str = "crates/table/src/lib.rt";
const TARIFFS: &str = "crates/tariffs/src/lib.rt";

// A validator: its name here; the source that has its state's struct, and the one that has the words of its fields, with that crate's name;
// the fields after the records with the constants for the words at which they start, in order, and under no name that for all words.
struct Validator {
    name: &'static str,
    state: &'static str,
    core: &'static str,
    prefix: &'static str,
    fields: &'static [(&'static str, &'static str)],
}

const PAIR: Validator = Validator {
    name: "PairValidator",
    state: "crates/pair_validator/src/lib.rt",
    core: "crates/pair_core/src/lib.rt",
    prefix: "pair_core::",
    fields: &[
        ("balances", "BALANCES_WORD"),
        ("supply", "SUPPLY_WORD"),
        ("accounts", "ACCOUNTS_WORD"),
        ("counts", "COUNTS_WORD"),
        ("rate", "RATE_WORD"),
        ("charge_account", "CHARGE_ACCOUNT_WORD"),
        ("", "WORDS"),
    ],
};

const HOME: Validator = Validator {
    name: "HomeValidator",
    state: "crates/home_validator/src/lib.rt",
    core: "crates/home_core/src/lib.rt",
    prefix: "home_core::",
    fields: &[
        ("balances", "BALANCES_WORD"),
        ("supply", "SUPPLY_WORD"),
        ("pool", "POOL_WORD"),
        ("home_accounts", "HOME_ACCOUNTS_WORD"),
        ("far_accounts", "FAR_ACCOUNTS_WORD"),
        ("count", "COUNT_WORD"),
        ("rate", "RATE_WORD"),
        ("charge_account", "CHARGE_ACCOUNT_WORD"),
        ("", "WORDS"),
    ],
};

// The sources, with one text in one of them replaced, or none.
struct Sources {
    changed: Option<(&'static str, String)>,
}

impl Sources {
    fn as_they_are() -> Sources {
        Sources { changed: None }
    }

    fn with(path: &'static str, from: &str, to: &str) -> Sources {
        let before = source(path);
        assert_eq!(before.matches(from).count(), 1, "{path} has `{from}` once");
        Sources { changed: Some((path, before.replace(from, to))) }
    }

    fn get(&self, path: &str) -> String {
        match &self.changed {
            Some((changed, text)) if *changed == path => text.clone(),
            _ => source(path),
        }
    }

    // Those of all crates, both validators' under their crates' names.
    fn constants(&self) -> Result<Constants, String> {
        let mut constants = Constants::default();
        constants.read(&self.get(LEDGERS), "Ledger::")?;
        constants.read(&self.get(NUMBER_INDEX), "")?;
        constants.read(&self.get(TABLE), "")?;
        for validator in [PAIR, HOME] {
            constants.read(&self.get(validator.core), validator.prefix)?;
        }
        Ok(constants)
    }

    fn exports(&self) -> Result<Interface, String> {
        let constants = self.constants()?;
        let mut found = Interface::default();
        read_exports(&self.get(EXPORTS), &constants, &mut found)?;
        found.structs.extend(self.library()?.structs);
        for validator in [PAIR, HOME] {
            // Its own core's constants go by their names alone too.
            let mut constants = constants.clone();
            constants.read(&self.get(validator.core), "")?;
            read_exports(&self.get(validator.state), &constants, &mut found)?;
        }
        Ok(found)
    }

    // The structs that cross, and the functions that the exports call, each under the name of its export.
    fn library(&self) -> Result<Interface, String> {
        let mut found = Interface::default();
        read_exports(&self.get(LIBRARY), &self.constants()?, &mut found)?;
        Ok(found)
    }

    // Where a validator's fields start in the header, against the Rattle sources' words.
    fn fields_differ(&self, validator: &Validator, header: &Interface) -> Result<Vec<String>, String> {
        let constants = self.constants()?;
        let mut wanted = vec![("records".to_string(), 0)];
        for (field, name) in validator.fields {
            let name = format!("{}{name}", validator.prefix);
            wanted.push((field.to_string(), constants.get(&name).ok_or(format!("unknown constant {name}"))?));
        }
        let starts = header.field_starts(validator.name)?;
        let shown =
            |named: Option<&(String, u64)>| named.map_or("none".to_string(), |(name, start)| format!("`{name}` at {start}"));
        let line = |i: usize| {
            let (own, other) = (shown(wanted.get(i)), shown(starts.get(i)));
            format!("{}: field {} is {own} in the exports and {other} in the header", validator.name, i + 1)
        };
        Ok((0..wanted.len().max(starts.len())).filter(|&i| wanted.get(i) != starts.get(i)).map(line).collect())
    }

    // All that differs, and what could not be read.
    fn complaints(&self) -> Vec<String> {
        let read = || -> Result<Vec<String>, String> {
            let exports = self.exports()?;
            let library = Interface { functions: self.library()?.functions, structs: exports.structs.clone() };
            let header = read_header(&self.get(HEADER))?;
            let ffi = read_ffi(&self.get(FFI))?;
            let fields = [self.fields_differ(&PAIR, &header)?, self.fields_differ(&HOME, &header)?].concat();
            let between =
                differences(&Place { name: "the exports", says: &exports }, &Place { name: "the library", says: &library });
            let (exports, header_in_words) = (exports.in_words()?, header.in_words()?);
            let exports = Place { name: "the exports", says: &exports };
            let header_in_words = Place { name: "the header", says: &header_in_words };
            let header = Place { name: "the header", says: &header };
            let ffi = Place { name: "ffi.rs", says: &ffi };
            Ok([fields, between, differences(&exports, &header_in_words), differences(&header, &ffi)].concat())
        };
        read().unwrap_or_else(|complaint| vec![complaint])
    }
}

#[test]
fn header_binding_and_exports_agree() {
    let complaints = Sources::as_they_are().complaints();
    assert!(complaints.is_empty(), "\n{}", complaints.join("\n"));
    let exports = Sources::as_they_are().exports().expect("the exports");
    assert_eq!(exports.functions.len(), 28);
    assert_eq!(exports.in_words().expect("states of words").structs.len(), 15);
}

#[test]
fn constants_agree() {
    let rattle = Sources::as_they_are().constants().expect("constants");
    let header = macros(&source(HEADER));
    assert_eq!(header.get("MOATBETONY_MAX_ACCOUNTS").copied(), rattle.get("Ledger::ACCOUNTS"));
    assert_eq!(header.get("MOATBETONY_CAPACITY").copied(), rattle.get("Ledger::CAPACITY"));
    let rate = header.get("MOATBETONY_MAX_RATE").expect("the greatest rate");
    assert!(source(TARIFFS).contains(&format!("pub const PARTS: u64 = {rate};")));
    let lib = source("bindings/rust/src/lib.rs");
    let journal = source("bindings/rust/src/journal.rs");
    let number = |text: &str, name: &str| -> Option<u64> {
        let line = text.lines().find(|line| line.starts_with(&format!("pub const {name}:")))?;
        line.split(" = ").nth(1)?.trim_end_matches(';').replace('_', "").parse().ok()
    };
    for (text, name) in [
        (&lib, "STATE_VERSION"),
        (&lib, "RECORD_SIZE"),
        (&lib, "MAX_ACCOUNTS"),
        (&lib, "CAPACITY"),
        (&lib, "MAX_RATE"),
        (&journal, "BLOCK_SIZE"),
        (&journal, "HEADER_SIZE"),
        (&journal, "BALANCE_SIZE"),
        (&journal, "RECORDS_PER_BLOCK"),
        (&journal, "MAX_BLOCKS"),
    ] {
        let here = number(text, name);
        assert!(here.is_some() && here == header.get(&format!("MOATBETONY_{name}")).copied(), "{name}: {here:?}");
    }
    let part = |name: &str| header[&format!("MOATBETONY_VERSION_{name}")];
    let version = part("MAJOR") * 10_000 + part("MINOR") * 100 + part("PATCH");
    assert_eq!(number(&lib, "VERSION"), Some(version));
    let text = format!("{}.{}.{}", part("MAJOR"), part("MINOR"), part("PATCH"));
    assert!(source(HEADER).contains(&format!("#define MOATBETONY_VERSION_TEXT \"{text}\"\n")));
    assert!(source(HEADER).contains(&format!(" * Moatbetony {text}: ")));
    assert!(source("bindings/rust/Cargo.toml").contains(&format!("\nversion = \"{text}\"\n")));
}

#[test]
fn refusals_agree() {
    let header = source(HEADER);
    let numbers: BTreeSet<u64> = enumerators(&header)
        .expect("the header's enums")
        .into_iter()
        .filter(|(name, _)| name.starts_with("MOATBETONY_REFUSED_"))
        .map(|(_, number)| number)
        .collect();
    let mut told = texts(&header).expect("the header's texts");
    assert_eq!(told.remove(&0).as_deref(), Some("no refusal"));
    assert_eq!(told, refusals(&source("bindings/rust/src/refusal.rs")).expect("the table of refusals"));
    assert_eq!(told.keys().copied().collect::<BTreeSet<u64>>(), numbers);
    let listed: BTreeSet<u64> =
        source("docs/REFUSALS.md").lines().filter_map(|line| line.strip_prefix("| ")?.split(' ').next()?.parse().ok()).collect();
    assert_eq!(listed, numbers);
}

// The archive defines the exports as global text, asks for memcpy and memset alone, and has no data that can be written.
#[test]
fn archive_defines_the_exports() {
    let folder = std::env::var_os("MOATBETONY_LIB_DIR").map_or(root().join("target/staticlib"), PathBuf::from);
    let nm = |option: &str| -> Vec<(String, String)> {
        let output = Command::new("nm").arg(option).arg(folder.join("libmoatbetony.a")).output().expect("nm");
        assert!(output.status.success(), "nm {option}: {}", String::from_utf8_lossy(&output.stderr));
        let text = String::from_utf8(output.stdout).expect("text");
        text.lines()
            .filter_map(|line| {
                let mut words = line.split_whitespace().rev();
                Some((words.next()?.to_string(), words.next()?.to_string()))
            })
            .collect()
    };
    let exports = Sources::as_they_are().exports().expect("the exports");
    let wanted: BTreeSet<String> = exports.functions.into_keys().collect();
    let global: Vec<(String, String)> = nm("-g").into_iter().filter(|(_, sort)| sort != "U").collect();
    let text: BTreeSet<String> = global.iter().filter(|(_, sort)| sort == "T").map(|(name, _)| name.clone()).collect();
    assert_eq!(text, wanted);
    assert_eq!(global.len(), wanted.len(), "nothing else is global: {global:?}");
    for (name, sort) in nm("-a") {
        assert!(sort != "U" || name == "memcpy" || name == "memset", "the archive asks for {name}");
        assert!(!"bBdDsSgGCc".contains(&sort), "{name} is data that can be written");
    }
}

// Every call of the binding but the two versions first asks whether archive and crate belong together.
#[test]
fn binding_asks_before_it_calls() {
    let calls = source("bindings/rust/src/calls.rs");
    let bodies: Vec<&str> = calls.split("\npub(crate) fn ").filter(|body| body.contains("ffi::moatbetony_")).collect();
    assert_eq!(bodies.len(), calls.matches("ffi::moatbetony_").count(), "a function has one call");
    let unasked: Vec<&str> = bodies.iter().filter(|body| !body.contains(" {\n    belongs();\n")).copied().collect();
    assert_eq!(bodies.len(), 28);
    assert!(unasked.len() == 2 && unasked.iter().all(|body| body.starts_with("version()") || body.starts_with("state_version()")));
}

// With this text replaced, a complaint names the item.
fn is_found(path: &'static str, from: &str, to: &str, item: &str) {
    let complaints = Sources::with(path, from, to).complaints();
    assert!(complaints.iter().any(|line| line.contains(item)), "{path}: `{to}` is not found: {complaints:?}");
}

#[test]
fn differences_in_the_header_are_found() {
    let found = |from: &str, to: &str, item: &str| is_found(HEADER, from, to, item);
    // widths
    found("uint8_t ledger, uint16_t account", "uint8_t ledger, uint32_t account", "moatbetony_pair_balance: parameter 3");
    found(
        "size_t far_accounts, uint64_t far_total",
        "uint32_t far_accounts, uint64_t far_total",
        "moatbetony_home_open: parameter 3",
    );
    found("    uint32_t number; /*", "    uint64_t number; /*", "PlainAnswer: field 1");
    found("uint64_t balances[2][56]", "uint64_t balances[56][2]", "PairValidator: field 2");
    found("uint64_t balances[2][56]", "uint64_t balances[2][57]", "PairValidator: field 3");
    found("moatbetony_held_t records[512]", "moatbetony_held_t records[511]", "HomeValidator: field 2");
    found("uint64_t accounts[2];", "uint64_t accounts;", "PairValidator: field 5");
    found(
        "    uint64_t amount;\n    uint64_t tail;",
        "    uint32_t amount;\n    uint64_t tail;",
        "u32 where a word of 64 bits is wanted",
    );
    found("uint32_t moatbetony_version(void)", "uint64_t moatbetony_version(void)", "moatbetony_version: its result");
    found("uint64_t far_total, uint64_t rate,", "uint64_t far_total, uint16_t rate,", "moatbetony_home_open: parameter 5");
    found(
        "uint64_t rate, uint64_t charge_account, const",
        "uint64_t rate, uint16_t charge_account, const",
        "moatbetony_block_write: parameter 6",
    );
    // order and names
    found("uint8_t ledger, uint16_t account", "uint16_t account, uint8_t ledger", "moatbetony_pair_balance: parameter 2");
    found(
        "uint64_t number, uint64_t amount, uint8_t verdict",
        "uint64_t amount, uint64_t number, uint8_t verdict",
        "moatbetony_record_encode: parameter 5",
    );
    found(
        "    uint64_t home_accounts;\n    uint64_t far_accounts;",
        "    uint64_t far_accounts;\n    uint64_t home_accounts;",
        "HomeValidator: field 5",
    );
    found(
        "    uint64_t number;\n    uint64_t amount;\n    uint64_t tail;",
        "    uint64_t amount;\n    uint64_t number;\n    uint64_t tail;",
        "Held: field 2",
    );
    found("    size_t start;\n    size_t length;", "    size_t length;\n    size_t start;", "PlainPart: field 2");
    found(
        "    uint32_t number; /* enum moatbetony_refusal */\n    uint32_t passed; /* 1 if passed, else 0 */\n",
        "    uint32_t passed; /* 1 if passed, else 0 */\n    uint32_t number; /* enum moatbetony_refusal */\n",
        "PlainAnswer: field 1",
    );
    found("uint64_t flight;", "uint64_t floating;", "PlainPairFigures: field 4");
    found(
        "    uint64_t rate;\n    uint64_t charge_account;\n    uint64_t balances[56];",
        "    uint64_t charge_account;\n    uint64_t rate;\n    uint64_t balances[56];",
        "PlainBalances: field 3",
    );
    found(
        "uint64_t rate, uint64_t charge_account, const",
        "uint64_t charge_account, uint64_t rate, const",
        "moatbetony_block_write: parameter 5",
    );
    found("uint64_t rate, uint64_t amount)", "uint64_t amount, uint64_t rate)", "moatbetony_charge: parameter 1");
    found("    uint64_t charge;\n", "    uint64_t cost;\n", "PlainCharge: field 2");
    // pointers
    found("    uint8_t *out,", "    const uint8_t *out,", "moatbetony_block_write: parameter 1");
    found("charge_account, const uint8_t *items", "charge_account, uint8_t *items", "moatbetony_block_write: parameter 7");
    found(
        "moatbetony_pair_take(moatbetony_pair_t *state",
        "moatbetony_pair_take(const moatbetony_pair_t *state",
        "moatbetony_pair_take: parameter 1",
    );
    found(
        "moatbetony_home_take(moatbetony_home_t *state",
        "moatbetony_home_take(moatbetony_pair_t *state",
        "moatbetony_home_take: parameter 1",
    );
    found(
        "moatbetony_home_take_list(moatbetony_home_t *state",
        "moatbetony_home_take_list(moatbetony_home_t state",
        "moatbetony_home_take_list: parameter 1",
    );
    // more and fewer
    found("uint32_t moatbetony_state_version(void);", "", "moatbetony_state_version: in the exports, and missing in the header");
    found(
        "uint32_t moatbetony_version(void);",
        "uint32_t moatbetony_version(void);\nuint32_t moatbetony_more(void);",
        "moatbetony_more: in the header, and missing in the exports",
    );
    found("size_t far_accounts, uint64_t far_total", "size_t far_accounts", "moatbetony_home_open: parameter 4");
    found("    uint64_t far;\n    uint64_t flight;\n", "    uint64_t flight;\n", "PlainPairFigures: field 3");
    found("    uint32_t passed; /* 1 if passed, else 0 */\n", "", "PlainAnswer: field 2");
    found(
        "moatbetony_home_figures_t moatbetony_home_figures(",
        "moatbetony_balance_t moatbetony_home_figures(",
        "moatbetony_home_figures: its result",
    );
}

#[test]
fn differences_in_the_binding_are_found() {
    let found = |from: &str, to: &str, item: &str| is_found(FFI, from, to, item);
    found("ledger: u8, account: u16", "ledger: u8, account: u8", "moatbetony_pair_balance: parameter 3");
    found("ledger: u8, account: u16", "account: u16, ledger: u8", "moatbetony_pair_balance: parameter 2");
    found("        far_accounts: usize,", "        far_accounts: u32,", "moatbetony_home_open: parameter 3");
    found("out: *mut u8", "out: *const u8", "moatbetony_block_write: parameter 1");
    found(
        "        far_total: u64,\n        rate: u64,\n        charge_account: u64,",
        "        far_total: u64,\n        charge_account: u64,\n        rate: u64,",
        "moatbetony_home_open: parameter 5",
    );
    found("rate: u64, amount: u64)", "amount: u64, rate: u64)", "moatbetony_charge: parameter 1");
    found("pub(crate) charge: u64,", "pub(crate) charge: u32,", "PlainCharge: field 2");
    found("        kind: u8,\n        rate: u64,", "        kind: u8,\n        rate: u16,", "moatbetony_block_write: parameter 5");
    found(
        "pub(crate) home_accounts: u64,\n    pub(crate) far_accounts: u64,",
        "pub(crate) far_accounts: u64,\n    pub(crate) home_accounts: u64,",
        "HomeValidator: field 5",
    );
    found("pub(crate) balances: [[u64; 56]; 2],", "pub(crate) balances: [u64; 112],", "PairValidator: field 2");
    found("pub(crate) records: [Held; 512],", "pub(crate) records: [Held; 511],", "HomeValidator: field 1");
    found(
        "pub(crate) amount: u64,\n    pub(crate) tail: u64,",
        "pub(crate) tail: u64,\n    pub(crate) amount: u64,",
        "Held: field 3",
    );
    found(
        "moatbetony_pair_take(state: *mut PairValidator",
        "moatbetony_pair_take(state: *mut HomeValidator",
        "moatbetony_pair_take: parameter 1",
    );
    found(
        "moatbetony_home_take_list(state: *mut",
        "moatbetony_home_take_list(state: *const",
        "moatbetony_home_take_list: parameter 1",
    );
    found("pub(crate) fn moatbetony_state_version() -> u32;", "", "moatbetony_state_version: in the header, and missing in ffi.rs");
    found(
        "pub(crate) fn moatbetony_version() -> u32;",
        "pub(crate) fn moatbetony_version() -> u64;",
        "moatbetony_version: its result",
    );
    found("#[repr(C)]\npub(crate) struct PlainDigest", "pub(crate) struct PlainDigest", "is missing near");
}

#[test]
fn differences_in_the_exports_are_found() {
    let found = |path: &'static str, from: &str, to: &str, item: &str| is_found(path, from, to, item);
    found(
        EXPORTS,
        "    far_accounts: usize,\n    far_total: u64,",
        "    far_total: u64,\n    far_accounts: usize,",
        "moatbetony_home_open: parameter 3",
    );
    found(EXPORTS, "    far_accounts: usize,", "    far_accounts: u64,", "moatbetony_home_open: parameter 3");
    found(LIBRARY, "    far_accounts: usize,", "    far_accounts: u64,", "moatbetony_home_open: parameter 3");
    found(
        LIBRARY,
        "fn moatbetony_sha256(",
        "fn moatbetony_digest(",
        "moatbetony_sha256: in the exports, and missing in the library",
    );
    found(
        LIBRARY,
        "    pub start: usize,\n    pub length: usize,",
        "    pub length: usize,\n    pub start: usize,",
        "PlainPart: field 2",
    );
    found(
        EXPORTS,
        "fn moatbetony_sha256(",
        "fn moatbetony_digest(",
        "moatbetony_sha256: in the header, and missing in the exports",
    );
    found(LIBRARY, "    pub number: u32,", "    pub number: u64,", "PlainAnswer: field 1");
    found(LIBRARY, "    pub passed: u32,", "    pub passed: u8,", "PlainAnswer: field 2");
    found(
        EXPORTS,
        "#[unsafe(no_mangle)]\npub extern \"C\" fn moatbetony_version",
        "pub extern \"C\" fn moatbetony_version",
        "without #[unsafe(no_mangle)]",
    );
    found(HOME.state, "#[repr(C)]", "", "unknown struct HomeValidator");
    found(HOME.core, "COUNT_WORD: usize = SUPPLY_WORD + 4", "COUNT_WORD: usize = SUPPLY_WORD + 3", "HomeValidator: field 7");
    found(HOME.core, "POOL_WORD: usize = SUPPLY_WORD + 1", "POOL_WORD: usize = SUPPLY_WORD + 2", "HomeValidator: field 4");
    found(HOME.core, "BALANCES_WORD: usize = 4 * ", "BALANCES_WORD: usize = 3 * ", "HomeValidator: field 2");
    found(HOME.core, "RATE_WORD: usize = SUPPLY_WORD + 5", "RATE_WORD: usize = SUPPLY_WORD + 6", "HomeValidator: field 8");
    found(PAIR.core, "ACCOUNT_WORD: usize = SUPPLY_WORD + 6", "ACCOUNT_WORD: usize = SUPPLY_WORD + 5", "PairValidator: field 7");
    found(HOME.core, " WORDS: usize = SUPPLY_WORD + 7", " WORDS: usize = SUPPLY_WORD + 8", "moatbetony_home_take: parameter 1");
    found(LEDGERS, "CAPACITY: usize = 512", "CAPACITY: usize = 1730", "PairValidator: field 2");
    found(LEDGERS, "ACCOUNTS: usize = 56", "ACCOUNTS: usize = 57", "PlainBalances: field 5");
}
