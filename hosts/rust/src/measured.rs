//! Recordings round some work, which no way out of it leaves out.
use crate::fault::Refusal;
#[cfg(doc)]
use crate::metrics::Instrument;
use crate::recorder::{Prepared, Recorder};
use std::time::{Duration, Instant};

/// The unit in which a duration is recorded, which is that of the instrument.
#[derive(Clone, Copy, Debug, PartialEq, Eq)]
pub enum TimeUnit {
    /// Whole seconds.
    Seconds,
    /// Whole milliseconds.
    Milliseconds,
    /// Whole microseconds.
    Microseconds,
    /// Nanoseconds.
    Nanoseconds,
}

impl TimeUnit {
    // As many whole units as a duration has; the greatest number where it has more.
    pub(crate) fn whole(self, duration: Duration) -> i64 {
        let whole = match self {
            TimeUnit::Seconds => u128::from(duration.as_secs()),
            TimeUnit::Milliseconds => duration.as_millis(),
            TimeUnit::Microseconds => duration.as_micros(),
            TimeUnit::Nanoseconds => duration.as_nanos(),
        };
        i64::try_from(whole).unwrap_or(i64::MAX)
    }
}

// Takes back what was added while some work went on, where nobody else does.
struct InFlight<'a> {
    recorder: &'a mut Recorder,
    active: &'a Prepared,
    is_counted: bool,
}

impl InFlight<'_> {
    fn end(&mut self) -> Result<(), Refusal> {
        match std::mem::take(&mut self.is_counted) {
            true => self.recorder.count_out(self.active),
            false => Ok(()),
        }
    }
}

impl Drop for InFlight<'_> {
    fn drop(&mut self) {
        // Only the work's panic comes here with something counted, and there is nobody to tell.
        let _ = self.end();
    }
}

impl Recorder {
    // Counts some work in, where a recording is left to count it out, beside those for the work that is under way.
    fn count_in(&mut self, active: &Prepared) -> Result<(), Refusal> {
        let on = &active.instrument;
        let under_way = self.under_way.iter().filter(|one| one.is(on)).count() as u64;
        if self.left(on)? < under_way + 2 {
            return Err(Refusal::Budget);
        }
        self.record_prepared(active, 1)?;
        self.under_way.push(on.clone());
        Ok(())
    }

    fn count_out(&mut self, active: &Prepared) -> Result<(), Refusal> {
        self.under_way.pop();
        self.record_prepared(active, -1)
    }

    /// Does some work, and counts it as under way meanwhile: 1 is added to an up-down counter before it, and taken away
    /// after it, also where it ends by `?` or in a panic. The work is done whatever is refused; where the first
    /// recording is, the second is left out. The first one is refused as [`Refusal::Budget`] too where none would be
    /// left for the second. With what the work gave comes the first [`Refusal`].
    pub fn during<T>(
        &mut self,
        active: &Prepared,
        work: impl FnOnce(&mut Recorder) -> T,
    ) -> (T, Result<(), Refusal>) {
        let began = self.count_in(active);
        let mut under_way = InFlight {
            recorder: self,
            active,
            is_counted: began.is_ok(),
        };
        let done = work(under_way.recorder);
        let ended = under_way.end();
        (done, began.and(ended))
    }

    /// Does some work, and records in a histogram how long it took, as [`Recorder::record_duration`] does. The work is
    /// done whatever is refused; with what it gave comes the [`Refusal`].
    pub fn timed<T>(
        &mut self,
        took: &Prepared,
        unit: TimeUnit,
        work: impl FnOnce(&mut Recorder) -> T,
    ) -> (T, Result<(), Refusal>) {
        let began = Instant::now();
        let done = work(self);
        let recorded = self.record_duration(took, unit, began.elapsed());
        (done, recorded)
    }

    /// Records a duration in whole units. One above the instrument's range is recorded as the greatest value of the
    /// range, and [`Instrument::clamped`] counts it.
    ///
    /// # Errors
    ///
    /// The first [`Refusal`]; nothing is counted then.
    pub fn record_duration(
        &mut self,
        took: &Prepared,
        unit: TimeUnit,
        duration: Duration,
    ) -> Result<(), Refusal> {
        let on = &took.instrument;
        let whole = unit.whole(duration);
        self.record_prepared(took, whole.min(on.greatest()))?;
        if whole > on.greatest() {
            on.count_clamped();
        }
        Ok(())
    }
}
