//! What is refused, counted by its reason, and told once.
use crate::fault::Refusal;
use std::sync::atomic::{AtomicU32, AtomicU64, Ordering};

// The numbers of refusals that have a count of their own. All others have the count of 0.
const NUMBERS: usize = 15;

/// How often recordings on an instrument were refused, for each reason.
#[derive(Default)]
pub(crate) struct Counts {
    all: [AtomicU64; NUMBERS],
    told: AtomicU32,
}

impl Counts {
    pub(crate) fn count(&self, code: u32) {
        self.all[place(code)].fetch_add(1, Ordering::Relaxed);
    }

    /// Whether this reason is told for the first time now.
    pub(crate) fn is_new(&self, code: u32) -> bool {
        let bit = 1 << place(code);
        self.told.fetch_or(bit, Ordering::Relaxed) & bit == 0
    }

    /// Each reason with its count, where that is above 0.
    pub(crate) fn all(&self) -> Vec<(Refusal, u64)> {
        let counts = self.all.iter().enumerate();
        counts
            .map(|(code, count)| (Refusal::of(code as u32), count.load(Ordering::Relaxed)))
            .filter(|(_, count)| *count > 0)
            .collect()
    }
}

fn place(code: u32) -> usize {
    match code as usize {
        own if own < NUMBERS => own,
        _ => 0,
    }
}
