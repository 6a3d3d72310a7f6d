//! How often cases had a thing, by its name.

use std::collections::BTreeMap;
use std::fmt;

#[derive(Default)]
pub struct Marks(BTreeMap<&'static str, u64>);

impl Marks {
    /// Counts the things that a case has, of all that it could have.
    pub fn add<const N: usize>(&mut self, things: [(&'static str, bool); N]) {
        for (name, has) in things {
            *self.0.entry(name).or_default() += u64::from(has);
        }
    }

    /// There are so many names, and each has been counted so often.
    pub fn assert_full(&self, names: usize, least: u64) {
        assert_eq!(self.0.len(), names, "{self}");
        for (name, &times) in &self.0 {
            assert!(times >= least, "{name}: only {times} times");
        }
    }
}

impl fmt::Display for Marks {
    fn fmt(&self, f: &mut fmt::Formatter) -> fmt::Result {
        write!(f, "{:?}", self.0)
    }
}
