//! What a comparison of calls has found.

use std::collections::BTreeMap;
use std::fmt;

/// How often each answer was given by the library; 0 is passed, and a call
/// without an answer counts as passed.
pub type Answers = BTreeMap<u8, u64>;

/// The differences that are kept.
pub const KEPT: usize = 20;

/// A call whose results differ.
#[derive(Clone, Debug, PartialEq, Eq)]
pub struct Difference {
    /// The index of the call.
    pub index: u64,
    pub family: &'static str,
    pub scenario: u64,
    pub call: &'static str,
    /// All that the call was handed.
    pub inputs: String,
    /// What differs: the library's, then the part's.
    pub found: Vec<String>,
}

#[derive(Clone, Debug, Default, PartialEq, Eq)]
pub struct Report {
    pub seed: u64,
    /// The calls that were compared.
    pub calls: u64,
    pub by_family: BTreeMap<&'static str, Answers>,
    pub by_call: BTreeMap<&'static str, Answers>,
    /// The calls whose results differ.
    pub differences: u64,
    /// The first of them.
    pub kept: Vec<Difference>,
}

impl Report {
    /// How often each answer was given, in all.
    pub fn answers(&self) -> Answers {
        let mut all = Answers::new();
        for answers in self.by_family.values() {
            for (&number, count) in answers {
                *all.entry(number).or_default() += count;
            }
        }
        all
    }

    /// The calls of a family.
    pub fn family_calls(&self, family: &str) -> u64 {
        self.by_family
            .get(family)
            .map_or(0, |answers| answers.values().sum())
    }

    /// The passed calls of a family.
    pub fn family_passed(&self, family: &str) -> u64 {
        let answers = self.by_family.get(family);
        answers.map_or(0, |answers| answers.get(&0).copied().unwrap_or(0))
    }
}

impl fmt::Display for Report {
    fn fmt(&self, out: &mut fmt::Formatter<'_>) -> fmt::Result {
        writeln!(out, "seed {}", self.seed)?;
        for (family, answers) in &self.by_family {
            line(out, "family", family, answers)?;
        }
        for (call, answers) in &self.by_call {
            line(out, "call", call, answers)?;
        }
        line(out, "all", "calls", &self.answers())?;
        for difference in &self.kept {
            writeln!(out, "{difference}")?;
        }
        writeln!(
            out,
            "{} calls compared, {} differ",
            self.calls, self.differences
        )
    }
}

fn line(out: &mut fmt::Formatter<'_>, sort: &str, name: &str, answers: &Answers) -> fmt::Result {
    let sum: u64 = answers.values().sum();
    write!(out, "{sort} {name}: {sum}")?;
    for (number, count) in answers {
        write!(out, ", {number}: {count}")?;
    }
    writeln!(out)
}

impl fmt::Display for Difference {
    fn fmt(&self, out: &mut fmt::Formatter<'_>) -> fmt::Result {
        let Difference { index, family, .. } = self;
        let scenario = self.scenario;
        writeln!(out, "call {index} ({family} {scenario}): {}", self.call)?;
        for found in &self.found {
            writeln!(out, "  {found}")?;
        }
        write!(out, "{}", self.inputs)
    }
}
