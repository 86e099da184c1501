//! The instruments of a run.
use crate::dialect::Dialect;
use crate::fault::{Refusal, RollFault, SettleFault, UnknownName};
use crate::headroom::Headroom;
use crate::opening::{Opened, next};
use crate::raw::{self, Handle};
use crate::reader::Reader;
use crate::recorder::Recorder;
use std::mem::replace;
use std::sync::atomic::{AtomicU64, Ordering};
use std::sync::{Arc, Mutex, MutexGuard, PoisonError};

/// The instruments of a run. Cloned, it is the same instruments.
#[derive(Clone)]
pub struct Metrics {
    instruments: Vec<Instrument>,
}

/// An instrument, which threads share. Cloned, it is the same instrument.
#[derive(Clone)]
pub struct Instrument {
    own: Arc<Own>,
}

// Each recording writes in it, so no two share lines of cache, nor a pair of lines that are fetched together.
#[repr(align(128))]
struct Own {
    run: u64,
    number: u32,
    meter: String,
    name: String,
    greatest: i64,
    clamped: AtomicU64,
    held: Mutex<Held>,
}

/// What is behind the lock of an instrument.
pub(crate) struct Held {
    pub(crate) handle: Handle,
}

impl Drop for Held {
    fn drop(&mut self) {
        // SAFETY: the handle is null or as the library left it, and nobody else has it.
        unsafe { raw::wormweekly_free_instrument(&mut self.handle) }
    }
}

/// The recordings that may be granted to the recorders of an instrument beside their budgets.
#[derive(Clone, Copy, Debug, PartialEq, Eq)]
pub struct Spare {
    /// How many the catalogue declares.
    pub declared: u64,
    /// How many of them were granted.
    pub granted: u64,
    /// How many are left.
    pub left: u64,
}

/// A run that has ended, and the next one of its plan.
pub struct Rolled {
    /// The next run, with full budgets and new seats.
    pub next: Opened,
    /// The total of each instrument of the run that has ended, in order.
    pub totals: Vec<Total>,
}

/// What an instrument comes to.
#[derive(Clone, Copy, Debug, PartialEq, Eq)]
pub struct Total {
    /// How many recordings were accepted.
    pub count: u64,
    /// The sum of their values.
    pub sum: i128,
}

impl Metrics {
    pub(crate) fn new(instruments: Vec<Instrument>) -> Metrics {
        Metrics { instruments }
    }

    /// The instrument of this name, where there is exactly one.
    pub fn instrument(&self, name: &str) -> Result<&Instrument, UnknownName> {
        let mut found = self
            .instruments
            .iter()
            .filter(|instrument| instrument.name() == name);
        match (found.next(), found.next()) {
            (Some(instrument), None) => Ok(instrument),
            _ => Err(UnknownName(name.to_owned())),
        }
    }

    /// All instruments, in the order of the catalogue.
    pub fn instruments(&self) -> &[Instrument] {
        &self.instruments
    }

    /// Collects all instruments at a time in nanoseconds, in order, and answers a page for Prometheus: their lines,
    /// and in OpenMetrics the end. The lines of a [`Resource`](crate::Resource) stand before it. Each lock is held for
    /// the collection alone. [`Reader::expose`] tells beforehand whether a server will hold each sample.
    ///
    /// # Errors
    ///
    /// The first [`Refusal`].
    pub fn page(&self, reader: &mut Reader, now: u64, dialect: Dialect) -> Result<String, Refusal> {
        self.collect_all(reader, now)?;
        Ok(reader.prometheus(dialect)? + dialect.end())
    }

    /// Collects all instruments at a time in nanoseconds, in order. The reader keeps the batches in place of those that
    /// it kept: [`Reader::otlp`] is one message of all of them.
    ///
    /// # Errors
    ///
    /// The first [`Refusal`]; the batches before it are kept.
    pub fn collect_all(&self, reader: &mut Reader, now: u64) -> Result<(), Refusal> {
        let Some((first, others)) = self.instruments.split_first() else {
            return Ok(());
        };
        reader.collect_kept(first, now)?;
        for instrument in others {
            reader.collect_also(instrument, now)?;
        }
        Ok(())
    }

    /// How often each instrument may be recorded, in order: what the catalogue declares, and the most that is safe.
    /// Takes no lock. It looks at each stream of the plan, so ask once.
    ///
    /// # Errors
    ///
    /// [`Refusal::Stranger`] where the recorder is of another run, [`Refusal::Memory`].
    pub fn headrooms(&self, recorder: &mut Recorder) -> Result<Vec<Headroom>, Refusal> {
        let is_own = |instrument: &Instrument| instrument.run() == recorder.run();
        if !self.instruments.iter().all(is_own) {
            return Err(Refusal::Stranger);
        }
        let mut out = vec![raw::Headroom::default(); self.instruments.len()];
        // SAFETY: the handle is as the library left it, this call has it alone, and the buffer is borrowed for it.
        let code =
            unsafe { raw::wormweekly_headrooms(recorder.handle(), out.as_mut_ptr(), out.len()) };
        match code {
            0 => Ok(out.iter().map(Headroom::of).collect()),
            code => Err(Refusal::of(code)),
        }
    }

    /// Ends this run by the recorders of all of it, and opens the next one of the same plan, since a time in
    /// nanoseconds. So a service lives for ever on bounded budgets; to a reader of cumulative streams it is a restart.
    /// The instruments of the run that has ended are closed. Its readers are left: let each collect a last time, since
    /// what was recorded after a reader's last batch is in the totals only.
    ///
    /// # Errors
    ///
    /// A [`RollFault`], with the recorders: the run goes on.
    pub fn roll_over(
        &self,
        mut recorders: Vec<Recorder>,
        start: u64,
    ) -> Result<Rolled, (Vec<Recorder>, RollFault)> {
        let Some(first) = recorders.first_mut() else {
            return Err((recorders, RollFault::Settle(SettleFault::RecorderMissing)));
        };
        // All memory for the next run is taken before this one ends.
        let next = match next(first, start) {
            Ok(next) => next,
            Err(fault) => return Err((recorders, RollFault::Open(fault))),
        };
        let totals = match self.settle(&mut recorders) {
            Ok(totals) => totals,
            Err(fault) => return Err((recorders, RollFault::Settle(fault))),
        };
        for instrument in &self.instruments {
            // One that is closed already stays closed.
            let _ = instrument.close();
        }
        Ok(Rolled { next, totals })
    }

    /// The total of each instrument, in order, where all of them are what the recorders were told. The recorders are
    /// all those of the run, in any order.
    ///
    /// # Errors
    ///
    /// The first [`SettleFault`] of an instrument.
    pub fn settle(&self, recorders: &mut [Recorder]) -> Result<Vec<Total>, SettleFault> {
        self.instruments
            .iter()
            .map(|instrument| instrument.settle(recorders))
            .collect()
    }
}

impl Instrument {
    pub(crate) fn new(
        held: Held,
        run: u64,
        number: u32,
        meter: String,
        name: String,
        greatest: i64,
    ) -> Instrument {
        let own = Own {
            run,
            number,
            meter,
            name,
            greatest,
            clamped: AtomicU64::new(0),
            held: Mutex::new(held),
        };
        Instrument { own: Arc::new(own) }
    }

    /// The name.
    pub fn name(&self) -> &str {
        &self.own.name
    }

    /// The name of its meter.
    pub fn meter(&self) -> &str {
        &self.own.meter
    }

    /// Its number in the catalogue, from 0.
    pub fn number(&self) -> u32 {
        self.own.number
    }

    // The number of its run.
    pub(crate) fn run(&self) -> u64 {
        self.own.run
    }

    /// The greatest value of its range.
    pub(crate) fn greatest(&self) -> i64 {
        self.own.greatest
    }

    /// How many durations above its range were recorded as the greatest value of the range, by [`Recorder::timed`] and
    /// [`Recorder::record_duration`]. Where these are many, declare a wider range.
    pub fn clamped(&self) -> u64 {
        self.own.clamped.load(Ordering::Relaxed)
    }

    pub(crate) fn count_clamped(&self) {
        self.own.clamped.fetch_add(1, Ordering::Relaxed);
    }

    // Whether both are one instrument.
    pub(crate) fn is(&self, other: &Instrument) -> bool {
        Arc::ptr_eq(&self.own, &other.own)
    }

    /// Grants the recorder of a number (from 0, in the order of the catalogue) so many recordings beside its budget, of
    /// what is left of the spare budget.
    ///
    /// # Errors
    ///
    /// The first of these: [`Refusal::UnknownRecorder`]; [`Refusal::Closed`]; [`Refusal::NoSpare`] where more is asked
    /// for than is left.
    pub fn grant(&self, recorder: u32, amount: u64) -> Result<(), Refusal> {
        // SAFETY: the handle is as the library left it, and this call has it alone.
        match unsafe { raw::wormweekly_grant(&mut self.lock().handle, recorder, amount) } {
            0 => Ok(()),
            code => Err(Refusal::of(code)),
        }
    }

    /// What may be granted to recorders beside their budgets.
    pub fn spare(&self) -> Spare {
        let mut out = raw::Spare::default();
        // SAFETY: as in `grant`. A handle that is not null is always answered.
        unsafe { raw::wormweekly_spare(&mut self.lock().handle, &mut out) };
        Spare {
            declared: out.declared,
            granted: out.granted,
            left: out.left,
        }
    }

    /// Ends the recordings. It is collected and settled as before.
    ///
    /// # Errors
    ///
    /// [`Refusal::Closed`] where it is closed.
    pub fn close(&self) -> Result<(), Refusal> {
        // SAFETY: the handle is as the library left it, and this call has it alone.
        match unsafe { raw::wormweekly_close(&mut self.lock().handle) } {
            0 => Ok(()),
            code => Err(Refusal::of(code)),
        }
    }

    // What was behind the lock where a thread ended in a panic is still as the library left it.
    pub(crate) fn lock(&self) -> MutexGuard<'_, Held> {
        self.own.held.lock().unwrap_or_else(PoisonError::into_inner)
    }

    fn settle(&self, recorders: &mut [Recorder]) -> Result<Total, SettleFault> {
        let mut handles: Vec<Handle> = recorders
            .iter_mut()
            .map(|recorder| replace(recorder.handle(), Handle::NOTHING))
            .collect();
        let mut total = raw::Total::default();
        // SAFETY: the handles are as the library left them, and this call has them alone.
        let code = unsafe {
            raw::wormweekly_settle(
                &mut self.lock().handle,
                handles.as_mut_ptr(),
                handles.len(),
                &mut total,
            )
        };
        for (recorder, handle) in recorders.iter_mut().zip(handles) {
            *recorder.handle() = handle;
        }
        match code {
            0 => Ok(Total {
                count: total.count,
                sum: sum_of(&total),
            }),
            code => Err(SettleFault::of(code)),
        }
    }
}

fn sum_of(total: &raw::Total) -> i128 {
    let size = (i128::from(total.high) << 64) + i128::from(total.low);
    if total.negative == 0 { size } else { -size }
}
