//! The families of journals that are compared.

pub mod damage;
pub mod faults;
pub mod full_tables;
pub mod honest;
pub mod long;
pub mod near_misses;
pub mod openings;
pub mod small_worlds;

use super::rng::Rng;

/// A journal with a name for its files.
pub struct Sample {
    pub name: String,
    pub journal: Vec<u8>,
}

impl Sample {
    pub fn new(name: impl Into<String>, journal: Vec<u8>) -> Sample {
        Sample {
            name: name.into(),
            journal,
        }
    }
}

/// A family of journals, made one at a time.
pub trait Family: Sync {
    fn name(&self) -> &str;

    fn count(&self) -> usize;

    fn sample(&self, index: usize) -> Sample;

    /// How many journals are compared at a time.
    fn workers(&self) -> usize {
        2
    }
}

/// A family of journals that are always run and of seeded ones.
pub struct Mixed {
    name: &'static str,
    seed: u64,
    fixed: Vec<Sample>,
    seeded: usize,
    make: fn(&mut Rng) -> Vec<u8>,
}

impl Family for Mixed {
    fn name(&self) -> &str {
        self.name
    }

    fn count(&self) -> usize {
        self.fixed.len() + self.seeded
    }

    fn sample(&self, index: usize) -> Sample {
        if let Some(sample) = self.fixed.get(index) {
            return Sample::new(sample.name.clone(), sample.journal.clone());
        }
        let number = index - self.fixed.len();
        let mut rng = Rng::for_journal(self.seed, self.name, number as u64);
        Sample::new(format!("seeded_{number}"), (self.make)(&mut rng))
    }
}

/// What a run is asked for.
#[derive(Clone, Copy, Debug)]
pub struct Plan {
    pub seed: u64,
    /// The seeded journals of all families together.
    pub journals: usize,
    /// With the longest journals and the whole small worlds.
    pub long: bool,
}

type FixedMaker = fn(&mut Rng) -> Vec<Sample>;
type SeededMaker = fn(&mut Rng) -> Vec<u8>;

/// The families with their share of the seeded journals, in hundredths.
const MIXED: [(&str, usize, FixedMaker, SeededMaker); 6] = [
    ("honest", 20, honest::fixed, honest::seeded),
    ("faults", 22, faults::fixed, faults::seeded),
    ("near_misses", 18, near_misses::fixed, near_misses::seeded),
    ("full_tables", 10, full_tables::fixed, full_tables::seeded),
    ("openings", 10, openings::fixed, openings::seeded),
    ("damage", 20, damage::fixed, damage::seeded),
];

/// Calls `run` with each family in turn; only one is in memory at a time.
pub fn each<E>(plan: &Plan, mut run: impl FnMut(&dyn Family) -> Result<(), E>) -> Result<(), E> {
    for (name, share, fixed, make) in MIXED {
        let mut rng = Rng::for_journal(plan.seed, name, u64::MAX);
        run(&Mixed {
            name,
            seed: plan.seed,
            fixed: fixed(&mut rng),
            seeded: plan.journals * share / 100,
            make,
        })?;
    }
    run(&small_worlds::SmallWorlds::new(plan.long))?;
    run(&long::Long::new(plan.seed, plan.long))
}
