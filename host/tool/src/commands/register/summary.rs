//! The verdicts on all images, counted.

use super::verdict::{Judgement, Verdict};
use std::collections::BTreeMap;

#[derive(Default)]
pub struct Summary {
    counts: BTreeMap<Verdict, u64>,
    /// How many images were refused by each number.
    pub refused_by: BTreeMap<u64, u64>,
}

impl Summary {
    pub fn count(&mut self, judgement: &Judgement) {
        *self.counts.entry(judgement.verdict).or_default() += 1;
        if let (Verdict::Refused, Some(refused)) = (judgement.verdict, judgement.refused) {
            *self.refused_by.entry(refused.refusal.number).or_default() += 1;
        }
    }

    /// How many images have a verdict.
    pub fn of(&self, verdict: Verdict) -> u64 {
        self.counts.get(&verdict).copied().unwrap_or(0)
    }

    pub fn images(&self) -> u64 {
        self.counts.values().sum()
    }

    pub fn all_good(&self) -> bool {
        self.of(Verdict::Good) == self.images()
    }
}
