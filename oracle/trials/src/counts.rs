//! How often each thing was met in a run.

use std::collections::HashMap;

#[derive(Default)]
pub struct Counts {
    met: HashMap<&'static str, u64>,
}

impl Counts {
    pub fn add(&mut self, name: &'static str) {
        *self.met.entry(name).or_default() += 1;
    }

    pub fn add_if(&mut self, met: bool, name: &'static str) {
        if met {
            self.add(name);
        }
    }

    pub fn of(&self, name: &str) -> u64 {
        self.met.get(name).copied().unwrap_or(0)
    }

    /// The table of these names.
    pub fn table(&self, names: &[&'static str]) -> String {
        let line = |name: &&str| format!("{:>12}  {name}\n", self.of(name));
        names.iter().map(line).collect()
    }
}
