//! The recorders of a run as shards: any thread takes one of them for a recording.
use crate::fault::{Refusal, RollFault, SettleFault};
use crate::metrics::{Instrument, Metrics, Rolled, Total};
use crate::reader::Reader;
use crate::recorder::Recorder;
use crate::value::Value;
use std::mem::replace;
use std::sync::atomic::{AtomicU64, AtomicUsize, Ordering};
use std::sync::{Mutex, MutexGuard, PoisonError, TryLockError};

// The numbers of refusals that are met here.
const UNKNOWN_RECORDER: u32 = 2;
pub(crate) const BUDGET: u32 = 9;
const NO_SPARE: u32 = 14;

static NEXT_HINT: AtomicUsize = AtomicUsize::new(0);

thread_local! {
    // Where this thread begins to look for a shard.
    static HINT: usize = NEXT_HINT.fetch_add(1, Ordering::Relaxed);
}

// A thread that is ending, and has none any more, begins with the first.
fn hint() -> usize {
    HINT.try_with(|own| *own).unwrap_or(0)
}

/// A recorder, with the instruments of the run that it is of.
pub(crate) struct Shard {
    pub(crate) recorder: Recorder,
    pub(crate) metrics: Metrics,
    // How many recordings of each instrument count out what is under way.
    pub(crate) kept: Vec<u64>,
}

impl Shard {
    pub(crate) fn record(
        &mut self,
        number: usize,
        attributes: &[(&str, Value<'_>)],
        value: i64,
    ) -> u32 {
        let Shard {
            recorder, metrics, ..
        } = self;
        recorder.record_code(&metrics.instruments()[number], attributes, value)
    }

    pub(crate) fn record_set(&mut self, number: usize, set: [u16; 8], value: i64) -> u32 {
        let Shard {
            recorder, metrics, ..
        } = self;
        recorder.record_set_code(&metrics.instruments()[number], set, value)
    }

    pub(crate) fn set_of(
        &mut self,
        number: usize,
        attributes: &[(&str, Value<'_>)],
    ) -> Result<[u16; 8], u32> {
        let Shard {
            recorder, metrics, ..
        } = self;
        recorder.set_of(&metrics.instruments()[number], attributes)
    }

    pub(crate) fn explained(
        &mut self,
        number: usize,
        code: u32,
        attributes: &[(&str, Value<'_>)],
        value: i64,
    ) -> Refusal {
        let Shard {
            recorder, metrics, ..
        } = self;
        recorder.refused(code, &metrics.instruments()[number], attributes, value)
    }

    /// Counts something in, where a recording is left to count it out, beside those for what is under way.
    pub(crate) fn count_in(&mut self, number: usize, set: [u16; 8]) -> u32 {
        let left = match self.recorder.left_code(&self.metrics.instruments()[number]) {
            Ok(left) => left,
            Err(code) => return code,
        };
        if left < self.kept[number] + 2 {
            return BUDGET;
        }
        let code = self.record_set(number, set, 1);
        self.kept[number] += u64::from(code == 0);
        code
    }

    pub(crate) fn count_out(&mut self, number: usize, set: [u16; 8]) -> u32 {
        self.kept[number] -= 1;
        self.record_set(number, set, -1)
    }
}

/// A run that has ended while its instruments went over into the next one.
pub struct Ended {
    /// The total of each instrument of the run that has ended, in order.
    pub totals: Vec<Total>,
    /// The instruments of that run, for its readers, each of which collects a last time.
    pub metrics: Metrics,
    /// A seat for each reader of the run that has begun.
    pub readers: Vec<Reader>,
}

/// All shards.
pub(crate) struct Shards {
    all: Vec<Mutex<Shard>>,
    // Of a hint: less than twice as many as there are shards.
    mask: usize,
    // Of each instrument, the shards that had no budget left, a bit for each.
    spent: Vec<AtomicU64>,
}

impl Shards {
    pub(crate) fn new(metrics: &Metrics, recorders: Vec<Recorder>) -> Shards {
        let instruments = metrics.instruments().len();
        let shard = |recorder| Shard {
            recorder,
            metrics: metrics.clone(),
            kept: vec![0; instruments],
        };
        Shards {
            mask: recorders.len().next_power_of_two() - 1,
            all: recorders
                .into_iter()
                .map(|own| Mutex::new(shard(own)))
                .collect(),
            spent: (0..instruments).map(|_| AtomicU64::new(0)).collect(),
        }
    }

    /// Makes a recording on the instrument of a number, with the first shard from this thread's own that is free and
    /// has budget left. Where all with budget are busy, it waits for one of them, which takes as long as one recording.
    /// Where none has budget left, one asks the spare budget. The answer is that of the library.
    pub(crate) fn record(
        &self,
        number: usize,
        mut make: impl FnMut(usize, &mut Shard) -> u32,
    ) -> u32 {
        if self.all.is_empty() {
            return UNKNOWN_RECORDER;
        }
        self.by_first(number, &mut make)
            .unwrap_or_else(|| self.by_all(number, make))
    }

    // By this thread's own shard, where nobody uses it and it is not known to be spent.
    fn by_first(
        &self,
        number: usize,
        make: &mut impl FnMut(usize, &mut Shard) -> u32,
    ) -> Option<u32> {
        let at = self.first();
        if self.spent_of(number) & bit(at) != 0 {
            return None;
        }
        self.made(number, at, &mut *self.free(at)?, make)
    }

    #[cold]
    fn by_all(&self, number: usize, mut make: impl FnMut(usize, &mut Shard) -> u32) -> u32 {
        let mut code = BUDGET;
        // Another thread may have been granted what was spare meanwhile, and has some of it left.
        for _ in 0..=self.all.len() {
            code = self
                .by_free(number, &mut make)
                .or_else(|| self.by_waiting(number, &mut make))
                .unwrap_or_else(|| self.by_spare(number, &mut make));
            if code != BUDGET || self.are_spent(number) {
                break;
            }
        }
        code
    }

    // By a shard that nobody uses and that is not known to be spent. Nothing where there is none.
    fn by_free(
        &self,
        number: usize,
        make: &mut impl FnMut(usize, &mut Shard) -> u32,
    ) -> Option<u32> {
        let spent = self.spent_of(number);
        self.in_turn()
            .filter(|at| spent & bit(*at) == 0)
            .find_map(|at| self.made(number, at, &mut *self.free(at)?, make))
    }

    // By each shard in turn, first those that are not known to be spent. Nothing where none has budget left.
    fn by_waiting(
        &self,
        number: usize,
        make: &mut impl FnMut(usize, &mut Shard) -> u32,
    ) -> Option<u32> {
        let spent = self.spent_of(number);
        let is_spent = |at: &usize| spent & bit(*at) != 0;
        self.in_turn()
            .filter(|at| !is_spent(at))
            .chain(self.in_turn().filter(is_spent))
            .find_map(|at| self.made(number, at, &mut self.lock(at), make))
    }

    // What a shard's recording is answered. Nothing where its budget is spent, so that the next one is tried.
    fn made(
        &self,
        number: usize,
        at: usize,
        shard: &mut Shard,
        make: &mut impl FnMut(usize, &mut Shard) -> u32,
    ) -> Option<u32> {
        let code = make(at, shard);
        if code == BUDGET {
            self.spent[number].fetch_or(bit(at), Ordering::SeqCst);
            return None;
        }
        Some(code)
    }

    // By this thread's own shard, which asks the spare budget for more.
    fn by_spare(&self, number: usize, make: &mut impl FnMut(usize, &mut Shard) -> u32) -> u32 {
        let at = self.first();
        let mut shard = self.lock(at);
        // Before it asks: who finds nothing spare any more has to see who has it.
        self.spent[number].fetch_and(!bit(at), Ordering::SeqCst);
        let code = loop {
            match self.ask(number, &mut shard) {
                // What wants more than one recording may want more than was granted.
                0 => match make(at, &mut shard) {
                    BUDGET => {}
                    code => break code,
                },
                NO_SPARE => break BUDGET,
                code => break code,
            }
        };
        if code == BUDGET {
            self.spent[number].fetch_or(bit(at), Ordering::SeqCst);
        }
        code
    }

    // Asks for a part of what is spare, so that something is left for the other shards.
    fn ask(&self, number: usize, shard: &mut Shard) -> u32 {
        let Shard {
            recorder, metrics, ..
        } = shard;
        let instrument = &metrics.instruments()[number];
        loop {
            let left = instrument.spare().left;
            if left == 0 {
                return NO_SPARE;
            }
            let part = (left / (2 * self.all.len() as u64)).max(1);
            match recorder.ask_code(instrument, part) {
                // Another thread was granted it meanwhile.
                NO_SPARE => {}
                code => return code,
            }
        }
    }

    fn in_turn(&self) -> impl Iterator<Item = usize> {
        let first = self.first();
        (first..self.all.len()).chain(0..first)
    }

    // Where this thread begins.
    fn first(&self) -> usize {
        let at = hint() & self.mask;
        if at < self.all.len() {
            at
        } else {
            at - self.all.len()
        }
    }

    fn spent_of(&self, number: usize) -> u64 {
        self.spent[number].load(Ordering::SeqCst)
    }

    fn are_spent(&self, number: usize) -> bool {
        let spent = self.spent_of(number);
        (0..self.all.len()).all(|at| spent & bit(at) != 0)
    }

    // What was behind the lock where a thread ended in a panic is still as the library left it.
    pub(crate) fn lock(&self, at: usize) -> MutexGuard<'_, Shard> {
        self.all[at].lock().unwrap_or_else(PoisonError::into_inner)
    }

    fn free(&self, at: usize) -> Option<MutexGuard<'_, Shard>> {
        match self.all[at].try_lock() {
            Ok(shard) => Some(shard),
            Err(TryLockError::Poisoned(found)) => Some(found.into_inner()),
            Err(TryLockError::WouldBlock) => None,
        }
    }

    /// Any shard, to ask it what all would answer.
    pub(crate) fn any(&self) -> Option<MutexGuard<'_, Shard>> {
        if self.all.is_empty() {
            return None;
        }
        Some(
            self.in_turn()
                .find_map(|at| self.free(at))
                .unwrap_or_else(|| self.lock(self.first())),
        )
    }

    fn lock_all(&self) -> Vec<MutexGuard<'_, Shard>> {
        (0..self.all.len()).map(|at| self.lock(at)).collect()
    }

    /// Ends the run, and begins the next one of its plan in the place of it. Recordings wait as long as that takes.
    pub(crate) fn roll_over(&self, start: u64) -> Result<Ended, RollFault> {
        let mut held = self.lock_all();
        let Some(first) = held.first() else {
            return Err(RollFault::Settle(SettleFault::RecorderMissing));
        };
        let metrics = first.metrics.clone();
        match metrics.roll_over(taken(&mut held), start) {
            Ok(Rolled { next, totals }) => {
                put_back(&mut held, next.recorders);
                for shard in &mut held {
                    shard.metrics = next.metrics.clone();
                    shard.kept.fill(0);
                }
                for spent in &self.spent {
                    spent.store(0, Ordering::SeqCst);
                }
                let readers = next.readers;
                Ok(Ended {
                    totals,
                    metrics,
                    readers,
                })
            }
            Err((recorders, fault)) => {
                put_back(&mut held, recorders);
                Err(fault)
            }
        }
    }

    /// The least part that is left of all that may be recorded on an instrument. Recordings wait as long as that takes.
    pub(crate) fn part_left(&self) -> f64 {
        let mut held = self.lock_all();
        let metrics = held.first().map(|first| first.metrics.clone());
        metrics
            .iter()
            .flat_map(Metrics::instruments)
            .map(|instrument| part_left_of(instrument, &mut held))
            .fold(1.0, f64::min)
    }

    /// The totals of all instruments. Recordings wait as long as that takes.
    pub(crate) fn settle(&self) -> Result<Vec<Total>, SettleFault> {
        let mut held = self.lock_all();
        let Some(first) = held.first() else {
            return Err(SettleFault::RecorderMissing);
        };
        let metrics = first.metrics.clone();
        let mut recorders = taken(&mut held);
        let totals = metrics.settle(&mut recorders);
        put_back(&mut held, recorders);
        totals
    }
}

// What is left on an instrument, of budgets and spare.
fn part_left_of(instrument: &Instrument, held: &mut [MutexGuard<'_, Shard>]) -> f64 {
    let spare = instrument.spare();
    let (mut most, mut left) = (spare.declared as f64, spare.left as f64);
    let budgets = held
        .iter_mut()
        .filter_map(|shard| shard.recorder.budget(instrument).ok());
    for budget in budgets {
        most += budget.declared as f64;
        left += budget.left as f64;
    }
    if most > 0.0 { left / most } else { 1.0 }
}

// Takes the recorders out of the shards, in order.
fn taken(held: &mut [MutexGuard<'_, Shard>]) -> Vec<Recorder> {
    held.iter_mut()
        .map(|shard| replace(&mut shard.recorder, Recorder::nothing()))
        .collect()
}

fn put_back(held: &mut [MutexGuard<'_, Shard>], recorders: Vec<Recorder>) {
    for (shard, recorder) in held.iter_mut().zip(recorders) {
        shard.recorder = recorder;
    }
}

// A plan has at most 64 recorders, so that a set of them is a number. Of more, which are of several runs, the last ones
// are in none.
fn bit(at: usize) -> u64 {
    u32::try_from(at)
        .ok()
        .and_then(|at| 1u64.checked_shl(at))
        .unwrap_or(0)
}
