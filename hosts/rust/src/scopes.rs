//! What is recorded when it ends.
use crate::measured::TimeUnit;
use crate::shared::Bound;
use std::time::Instant;

/// Records how long it takes until it is dropped.
#[must_use = "it records when it is dropped"]
pub struct Timer {
    bound: Option<Bound>,
    unit: TimeUnit,
    began: Instant,
}

impl Timer {
    pub(crate) fn new(bound: Option<Bound>, unit: TimeUnit) -> Timer {
        let began = Instant::now();
        Timer { bound, unit, began }
    }
}

impl Drop for Timer {
    fn drop(&mut self) {
        if let Some(bound) = &self.bound {
            bound.record_duration(self.unit, self.began.elapsed());
        }
    }
}

/// Is counted in until it is dropped.
#[must_use = "it is counted out when it is dropped"]
pub struct InFlight {
    // With the shard and the run that it is counted in.
    counted: Option<(Bound, (usize, u64))>,
}

impl InFlight {
    pub(crate) fn new(bound: Bound, place: (usize, u64)) -> InFlight {
        let counted = Some((bound, place));
        InFlight { counted }
    }

    pub(crate) fn nothing() -> InFlight {
        InFlight { counted: None }
    }

    /// Whether it is counted in.
    pub fn is_counted(&self) -> bool {
        self.counted.is_some()
    }
}

impl Drop for InFlight {
    fn drop(&mut self) {
        if let Some((bound, place)) = &self.counted {
            bound.count_out(*place);
        }
    }
}
