//! Counts that may not be zero.

use std::collections::BTreeMap;

/// Counts by name, in the order in which they are asked for.
#[derive(Default)]
pub struct Counts {
    names: Vec<String>,
    of: BTreeMap<String, usize>,
}

impl Counts {
    /// Adds to a count.
    pub fn add(&mut self, name: impl Into<String>, more: usize) {
        *self.of.entry(name.into()).or_insert(0) += more;
    }

    /// Asks for a count: it may not be zero.
    pub fn ask(&mut self, name: impl Into<String>) {
        self.names.push(name.into());
    }

    /// Prints all counts that are asked for, and asserts that none is zero.
    pub fn show(&self) {
        let count = |name: &String| self.of.get(name).copied().unwrap_or(0);
        for name in &self.names {
            println!("{:>7}  {name}", count(name));
        }
        let zero: Vec<&String> = self.names.iter().filter(|name| count(name) == 0).collect();
        assert!(zero.is_empty(), "never reached: {zero:?}");
    }
}
