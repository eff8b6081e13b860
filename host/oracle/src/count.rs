//! What was compared, counted.

use std::collections::BTreeMap;

#[derive(Default, Clone)]
pub struct Counts {
    pub ops: BTreeMap<&'static str, u64>,
    pub answers: BTreeMap<(&'static str, u8), u64>,
    pub notes: BTreeMap<&'static str, u64>,
    pub total: u64,
}

impl Counts {
    pub fn op(&mut self, name: &'static str) {
        *self.ops.entry(name).or_default() += 1;
        self.total += 1;
    }

    /// Something done to the input: no operation of either side.
    pub fn made(&mut self, name: &'static str) {
        *self.ops.entry(name).or_default() += 1;
    }

    pub fn ops_of(&mut self, name: &'static str, n: u64) {
        *self.ops.entry(name).or_default() += n;
        self.total += n;
    }

    pub fn answer(&mut self, name: &'static str, no: u8) {
        *self.answers.entry((name, no)).or_default() += 1;
    }

    pub fn note(&mut self, name: &'static str) {
        *self.notes.entry(name).or_default() += 1;
    }
}
