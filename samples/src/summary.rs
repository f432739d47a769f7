//! What was compared: for each entry how often each number was given.

use crate::calls::ENTRIES;
use llwybrenu::Answer;
use second::samples::calls::Entry;
use std::collections::BTreeMap;

#[derive(Default)]
pub struct Summary {
    /// Calls by entry (its place in `ENTRIES`) and number.
    calls: BTreeMap<(usize, u8), u64>,
    /// Names of the numbers given so far.
    names: BTreeMap<u8, &'static str>,
    /// Runs on which book and strip agreed.
    pub agreements: u64,
}

impl Summary {
    /// Counts a call in.
    pub fn count(&mut self, entry: Entry, answer: &Answer) {
        let place = ENTRIES
            .iter()
            .position(|other| *other == entry)
            .expect("one of the six");
        *self.calls.entry((place, answer.number)).or_default() += 1;
        self.names.insert(answer.number, answer.name());
    }

    /// All calls.
    pub fn total(&self) -> u64 {
        self.calls.values().sum()
    }

    /// The numbers that no call was answered with: samples that leave one out compare less than they should.
    pub fn missing(&self) -> Vec<u8> {
        (0..=11)
            .chain(20..=24)
            .filter(|number| !self.names.contains_key(number))
            .collect()
    }

    /// A line for each entry.
    pub fn lines(&self) -> String {
        let mut lines = String::new();
        for (place, entry) in ENTRIES.iter().enumerate() {
            lines += &format!("  {entry:?}:");
            for ((_, number), count) in self.calls.range((place, 0)..=(place, u8::MAX)) {
                lines += &format!(" {} {count}", self.names[number]);
            }
            lines += "\n";
        }
        lines + &format!("  book and strip: agreed on {} runs\n", self.agreements)
    }
}
