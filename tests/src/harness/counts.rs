//! Counts what a test met, by name, so that it can be printed and asked for.
use crate::makers::random;
use std::collections::BTreeMap;

pub struct Counts {
    test: &'static str,
    counts: BTreeMap<String, usize>,
}

impl Counts {
    pub fn new(test: &'static str) -> Counts {
        Counts { test, counts: BTreeMap::new() }
    }

    pub fn add(&mut self, name: impl ToString) {
        self.add_many(name, 1);
    }

    pub fn add_many(&mut self, name: impl ToString, count: usize) {
        *self.counts.entry(name.to_string()).or_default() += count;
    }

    pub fn of(&self, name: impl ToString) -> usize {
        self.counts.get(&name.to_string()).copied().unwrap_or(0)
    }

    /// Prints the counts, and asks for at least `least` of each of the names.
    pub fn close<N: ToString>(self, names: impl IntoIterator<Item = N>, least: usize) {
        let counts: Vec<String> = self.counts.iter().map(|(name, count)| format!("{name}: {count}")).collect();
        println!("{}: {}", self.test, counts.join(", "));
        self.ask(names, least);
    }

    /// Asks for at least `least` of each of the names.
    pub fn ask<N: ToString>(&self, names: impl IntoIterator<Item = N>, least: usize) {
        for name in names {
            let (name, count) = (name.to_string(), self.of(name));
            assert!(count >= least, "{}: only {count} of {name} (seed {})", self.test, random::seed());
        }
    }
}

/// Holds what the proved functions gave to what the specification gives.
pub fn hold<T: PartialEq + std::fmt::Debug>(proved: &T, expected: &T, on: impl FnOnce() -> String) {
    assert!(proved == expected, "seed {}: {proved:?}\nis not {expected:?}\non {}", random::seed(), on());
}
