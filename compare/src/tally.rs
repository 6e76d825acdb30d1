//! Counts groups of comparisons, and how often each refusal and each form of
//! input was met.

use std::collections::BTreeMap;
use std::fmt::Display;

pub struct Tally {
    passed: usize,
    failed: usize,
    /// Of so many random inputs one is tried.
    one_of: usize,
}

impl Tally {
    pub fn new(one_of: usize) -> Tally {
        Tally {
            passed: 0,
            failed: 0,
            one_of,
        }
    }

    /// How many of so many random inputs are tried.
    pub fn share(&self, inputs: usize) -> usize {
        inputs / self.one_of
    }

    /// Runs a group. The first difference fails it.
    pub fn group(&mut self, name: &str, run: impl FnOnce() -> Result<String, String>) {
        match run() {
            Ok(said) => {
                println!("ok: {name}: {said}");
                self.passed += 1;
            }
            Err(difference) => {
                println!("FAILED: {name}: {difference}");
                self.failed += 1;
            }
        }
    }

    /// Counts what another counted.
    pub fn add(&mut self, other: Tally) {
        self.passed += other.passed;
        self.failed += other.failed;
    }

    /// The closing line, and whether all passed.
    pub fn close(self) -> bool {
        println!("{} passed, {} failed", self.passed, self.failed);
        self.failed == 0
    }
}

/// How often each answer, or each form of input, was met. An answer is 0 for an
/// accepted call, else the number of the refusal.
pub struct Met<K = u32>(BTreeMap<K, usize>);

impl<K> Default for Met<K> {
    fn default() -> Met<K> {
        Met(BTreeMap::new())
    }
}

impl<K: Copy + Display + Ord> Met<K> {
    pub fn add(&mut self, key: K) {
        *self.0.entry(key).or_default() += 1;
    }

    /// Adds what another met.
    pub fn add_all(&mut self, other: &Met<K>) {
        for (key, times) in &other.0 {
            *self.0.entry(*key).or_default() += times;
        }
    }

    /// Fails if one of them was never met.
    pub fn all_of(&self, keys: &[K]) -> Result<String, String> {
        match keys.iter().find(|key| !self.0.contains_key(key)) {
            Some(key) => Err(format!("{key} was never met")),
            None => Ok(self.said()),
        }
    }

    /// Fails if one of them was never met, or another was.
    pub fn only(&self, keys: &[K]) -> Result<String, String> {
        self.only_or(keys, &[])
    }

    /// The same, but for those that may be met and need not.
    pub fn only_or(&self, keys: &[K], may: &[K]) -> Result<String, String> {
        let is_known = |key: &&K| keys.contains(key) || may.contains(key);
        match self.0.keys().find(|key| !is_known(key)) {
            Some(key) => Err(format!("{key} was met")),
            None => self.all_of(keys),
        }
    }

    /// All that was met.
    pub fn said(&self) -> String {
        let total: usize = self.0.values().sum();
        let each: Vec<String> = self
            .0
            .iter()
            .map(|(key, times)| format!("{key}: {times}"))
            .collect();
        format!("{total} compared ({})", each.join(", "))
    }
}
