//! Instruments on which any thread records.
use crate::fault::{Refusal, RollFault, SettleFault, UnknownName};
use crate::measured::TimeUnit;
use crate::metrics::{Instrument, Metrics, Total};
use crate::opening::Opened;
use crate::reader::Reader;
use crate::refused::Counts;
use crate::scopes::{InFlight, Timer};
use crate::shards::{Ended, Shard, Shards};
use crate::value::Value;
use std::sync::atomic::{AtomicU64, Ordering};
use std::sync::{Arc, PoisonError, RwLock};
use std::time::Duration;

/// What tells a refusal: the name of the instrument, and the refusal.
type Tell = Arc<dyn Fn(&str, &Refusal) + Send + Sync>;

/// A run on whose instruments any thread records, by the recorders that the catalogue declares: each is a shard, and a
/// recording takes one that is free. A shard whose budget is spent hands on to the next, and the last one asks the
/// spare budget; only then is a recording refused. Cloned, it is the same run.
#[derive(Clone)]
pub struct Shared {
    own: Arc<Own>,
}

pub(crate) struct Own {
    pub(crate) shards: Shards,
    // The run as it was opened, whose instruments are named as those of all later ones.
    opened: Metrics,
    counts: Vec<InstrumentCounts>,
    tell: RwLock<Option<Tell>>,
}

// Goes on from run to run.
#[derive(Default)]
struct InstrumentCounts {
    refused: Counts,
    clamped: AtomicU64,
    replaced: AtomicU64,
}

/// An instrument on which any thread records. Cloned, it is the same instrument.
///
/// A recording that is refused, for whatever reason, changes nothing but a count of such refusals
/// ([`SharedInstrument::refused`]), and is told once for each reason ([`Shared::on_refusal`]). Calls that begin with
/// `try_` answer the refusal too.
#[derive(Clone)]
pub struct SharedInstrument {
    own: Arc<Own>,
    number: usize,
}

/// A set of attributes that was looked up once, for recordings on an instrument by any thread. It stays from run to
/// run.
#[derive(Clone)]
pub struct Bound {
    on: SharedInstrument,
    set: [u16; 8],
}

impl Opened {
    /// Gives all recorders to the instruments, on which any thread records then, and the readers to the caller.
    ///
    /// ```
    /// # const CATALOGUE: &str = "format = 1
    /// # [[meter]]
    /// # name = 'shop'
    /// # [[meter.instrument]]
    /// # name = 'orders'
    /// # kind = 'counter'
    /// # range = [1, 100]
    /// # key = [{ name = 'country', values = ['de', 'fr'] }]
    /// # [[recorder]]
    /// # name = 'main'
    /// # budget = [{ instrument = 0, amount = 1000 }]
    /// # ";
    /// # const CONFIG: &str = "format = 1
    /// # [[reader]]
    /// # name = 'console'
    /// # ";
    /// # fn main() -> Result<(), Box<dyn std::error::Error>> {
    /// let (shared, mut readers) = wormweekly::open(CATALOGUE, CONFIG, 0)?.share();
    /// shared.on_refusal(|instrument, refusal| eprintln!("{instrument} does not record: {refusal}"));
    /// let orders = shared.instrument("orders")?;
    /// std::thread::scope(|scope| {
    ///     scope.spawn(|| orders.add(2, &[("country", "de".into())]));
    ///     scope.spawn(|| orders.add(1, &[("country", "fr".into())]));
    /// });
    /// print!("{}", readers[0].collect(&orders.instrument(), 1_000)?);
    /// assert_eq!(shared.settle()?[0].sum, 3);
    /// # Ok(())
    /// # }
    /// ```
    pub fn share(self) -> (Shared, Vec<Reader>) {
        let Opened {
            metrics,
            recorders,
            readers,
            ..
        } = self;
        let counts = metrics
            .instruments()
            .iter()
            .map(|_| InstrumentCounts::default());
        let own = Own {
            shards: Shards::new(&metrics, recorders),
            counts: counts.collect(),
            opened: metrics,
            tell: RwLock::new(None),
        };
        (Shared { own: Arc::new(own) }, readers)
    }
}

impl Shared {
    /// The instrument of this name, where there is exactly one.
    pub fn instrument(&self, name: &str) -> Result<SharedInstrument, UnknownName> {
        Ok(self.of(self.own.opened.instrument(name)?.number()))
    }

    /// All instruments, in the order of the catalogue.
    pub fn instruments(&self) -> Vec<SharedInstrument> {
        let all = self.own.opened.instruments().iter();
        all.map(|one| self.of(one.number())).collect()
    }

    fn of(&self, number: u32) -> SharedInstrument {
        let own = Arc::clone(&self.own);
        let number = number as usize;
        SharedInstrument { own, number }
    }

    /// The instruments of the run that is under way, for its readers.
    pub fn metrics(&self) -> Metrics {
        self.own.metrics()
    }

    /// Has each reason for which recordings on an instrument are refused told once, with the name of the instrument, by
    /// the thread that meets it first. It takes the place of what was to tell them before.
    pub fn on_refusal(&self, tell: impl Fn(&str, &Refusal) + Send + Sync + 'static) {
        *self
            .own
            .tell
            .write()
            .unwrap_or_else(PoisonError::into_inner) = Some(Arc::new(tell));
    }

    /// The total of each instrument, in order, each compared with what all recorders were told. Recordings wait
    /// meanwhile.
    ///
    /// # Errors
    ///
    /// The first [`SettleFault`].
    pub fn settle(&self) -> Result<Vec<Total>, SettleFault> {
        self.own.shards.settle()
    }

    /// How much is left of all that may be recorded on an instrument, budgets and spare: the least part that any has,
    /// from 1.0 to 0.0. Roll over in time: past it, recordings are refused.
    pub fn part_left(&self) -> f64 {
        self.own.shards.part_left()
    }

    /// Ends the run, and begins the next one of the same plan in its place, since a time in nanoseconds: with budgets
    /// as declared, nothing counted, and all instruments open. Instruments and bound sets go on in it; recordings wait
    /// meanwhile. With the totals come the instruments that ended, of which each reader collects a last time, and the
    /// readers of the next run. What is in flight then is counted out in no run.
    ///
    /// # Errors
    ///
    /// A [`RollFault`]: the run goes on.
    pub fn roll_over(&self, start: u64) -> Result<Ended, RollFault> {
        self.own.shards.roll_over(start)
    }
}

impl Own {
    fn metrics(&self) -> Metrics {
        match self.shards.any() {
            Some(shard) => shard.metrics.clone(),
            None => self.opened.clone(),
        }
    }

    fn tell(&self) -> Option<Tell> {
        self.tell
            .read()
            .unwrap_or_else(PoisonError::into_inner)
            .clone()
    }
}

impl SharedInstrument {
    fn opened(&self) -> &Instrument {
        &self.own.opened.instruments()[self.number]
    }

    /// The name.
    pub fn name(&self) -> &str {
        self.opened().name()
    }

    /// The name of its meter.
    pub fn meter(&self) -> &str {
        self.opened().meter()
    }

    /// The same instrument in the run that is under way, for its readers, and for [`Instrument::spare`] and
    /// [`Instrument::close`].
    pub fn instrument(&self) -> Instrument {
        self.own.metrics().instruments()[self.number].clone()
    }

    /// The value, where the instrument declares it for the key; else the other one, and [`SharedInstrument::replaced`]
    /// counts it. A recording tells what else is wrong.
    pub fn known_or<'a>(&self, key: &str, value: Value<'a>, other: Value<'a>) -> Value<'a> {
        let found = match self.own.shards.any() {
            Some(mut shard) => shard.set_of(self.number, &[(key, value)]),
            None => return value,
        };
        if found != Err(UNKNOWN_VALUE) {
            return value;
        }
        self.counts().replaced.fetch_add(1, Ordering::Relaxed);
        other
    }

    /// How many values that the instrument does not declare [`SharedInstrument::known_or`] replaced.
    pub fn replaced(&self) -> u64 {
        self.counts().replaced.load(Ordering::Relaxed)
    }

    /// Adds to a counter or an up-down counter.
    pub fn add(&self, value: i64, attributes: &[(&str, Value<'_>)]) {
        self.settled(self.code(value, attributes), attributes, value);
    }

    /// Records a value of a histogram or a gauge.
    pub fn record(&self, value: i64, attributes: &[(&str, Value<'_>)]) {
        self.add(value, attributes);
    }

    /// Makes a recording on an instrument of any kind.
    ///
    /// # Errors
    ///
    /// The first [`Refusal`], which is counted and told as those of [`SharedInstrument::add`].
    pub fn try_add(&self, value: i64, attributes: &[(&str, Value<'_>)]) -> Result<(), Refusal> {
        let code = self.code(value, attributes);
        self.settled(code, attributes, value);
        match code {
            0 => Ok(()),
            code => Err(self.explained(code, attributes, value)),
        }
    }

    /// Records a duration in whole units. One above the range is recorded as the greatest value of the range, and
    /// [`SharedInstrument::clamped`] counts it.
    pub fn record_duration(
        &self,
        unit: TimeUnit,
        duration: Duration,
        attributes: &[(&str, Value<'_>)],
    ) {
        let whole = unit.whole(duration);
        let value = self.clamp(whole);
        let code = self.code(value, attributes);
        self.settled(code, attributes, value);
        self.count_clamped(code, whole);
    }

    /// Records how long it takes until the answer is dropped, as [`SharedInstrument::record_duration`] does. The
    /// attributes are looked up before; where they are refused, nothing is recorded later.
    pub fn time(&self, unit: TimeUnit, attributes: &[(&str, Value<'_>)]) -> Timer {
        Timer::new(self.bound(attributes).ok(), unit)
    }

    /// Counts in what goes on until the answer is dropped, on an up-down counter, and then out again. What could not be
    /// counted out is not counted in: where fewer than two recordings are left for it, beside those that count out what
    /// is under way, it is refused as [`Refusal::Budget`].
    pub fn in_flight(&self, attributes: &[(&str, Value<'_>)]) -> InFlight {
        match self.bound(attributes) {
            Ok(bound) => bound.in_flight(),
            Err(_) => InFlight::nothing(),
        }
    }

    /// Looks up a set of attributes once, for recordings by any thread.
    ///
    /// # Errors
    ///
    /// The first [`Refusal`] of the attributes, which is counted and told as those of recordings.
    pub fn bind(&self, attributes: &[(&str, Value<'_>)]) -> Result<Bound, Refusal> {
        self.bound(attributes)
            .map_err(|code| self.explained(code, attributes, 0))
    }

    fn bound(&self, attributes: &[(&str, Value<'_>)]) -> Result<Bound, u32> {
        let found = match self.own.shards.any() {
            Some(mut shard) => shard.set_of(self.number, attributes),
            None => Err(UNKNOWN_RECORDER),
        };
        match found {
            Ok(set) => Ok(self.bind_set(set)),
            Err(code) => {
                self.settled(code, attributes, 0);
                Err(code)
            }
        }
    }

    /// Makes a recording of a set key, as code that is made from a catalogue writes one ([`Recorder::record_set`]).
    ///
    /// [`Recorder::record_set`]: crate::Recorder::record_set
    pub fn add_set(&self, set: [u16; 8], value: i64) {
        self.settled_set(self.set_code(set, value));
    }

    /// The attributes of a set key, for recordings by any thread; what is wrong with it is refused at each of them.
    pub fn bind_set(&self, set: [u16; 8]) -> Bound {
        Bound {
            on: self.clone(),
            set,
        }
    }

    /// How often recordings were refused since the plan was opened, for each reason.
    pub fn refused(&self) -> Vec<(Refusal, u64)> {
        self.counts().refused.all()
    }

    /// How many durations above the range were recorded as the greatest value of the range. Where these are many,
    /// declare a wider range.
    pub fn clamped(&self) -> u64 {
        self.counts().clamped.load(Ordering::Relaxed)
    }

    fn counts(&self) -> &InstrumentCounts {
        &self.own.counts[self.number]
    }

    fn clamp(&self, whole: i64) -> i64 {
        whole.min(self.opened().greatest())
    }

    fn count_clamped(&self, code: u32, whole: i64) {
        if code == 0 && whole > self.opened().greatest() {
            self.counts().clamped.fetch_add(1, Ordering::Relaxed);
        }
    }

    fn code(&self, value: i64, attributes: &[(&str, Value<'_>)]) -> u32 {
        let number = self.number;
        self.own
            .shards
            .record(number, |_, shard| shard.record(number, attributes, value))
    }

    fn set_code(&self, set: [u16; 8], value: i64) -> u32 {
        let number = self.number;
        let made = |_: usize, shard: &mut Shard| shard.record_set(number, set, value);
        self.own.shards.record(number, made)
    }

    fn settled_set(&self, code: u32) {
        if code != 0 {
            self.count_refused(code, || Refusal::of(code));
        }
    }

    // Counts what is refused, and tells what is refused for the first time.
    fn settled(&self, code: u32, attributes: &[(&str, Value<'_>)], value: i64) {
        if code != 0 {
            self.count_refused(code, || self.explained(code, attributes, value));
        }
    }

    #[cold]
    fn count_refused(&self, code: u32, explained: impl FnOnce() -> Refusal) {
        let refused = &self.counts().refused;
        refused.count(code);
        match self.own.tell() {
            Some(tell) if refused.is_new(code) => tell(self.name(), &explained()),
            _ => {}
        }
    }

    // The refusal of this number, with what it is about. No shard is held.
    fn explained(&self, code: u32, attributes: &[(&str, Value<'_>)], value: i64) -> Refusal {
        match self.own.shards.any() {
            Some(mut shard) => shard.explained(self.number, code, attributes, value),
            None => Refusal::of(code),
        }
    }
}

// The number of the refusal of a value that a key does not declare.
const UNKNOWN_VALUE: u32 = 5;
// The number of the refusal of a recorder that is not there.
const UNKNOWN_RECORDER: u32 = 2;

impl Bound {
    /// The instrument.
    pub fn instrument(&self) -> &SharedInstrument {
        &self.on
    }

    /// Adds to a counter or an up-down counter.
    pub fn add(&self, value: i64) {
        self.settled(self.code(value));
    }

    /// Records a value of a histogram or a gauge.
    pub fn record(&self, value: i64) {
        self.add(value);
    }

    /// Makes a recording on an instrument of any kind.
    ///
    /// # Errors
    ///
    /// The first [`Refusal`], which is counted and told as those of [`Bound::add`].
    pub fn try_add(&self, value: i64) -> Result<(), Refusal> {
        let code = self.code(value);
        self.settled(code);
        match code {
            0 => Ok(()),
            code => Err(Refusal::of(code)),
        }
    }

    /// Records a duration, as [`SharedInstrument::record_duration`] does.
    pub fn record_duration(&self, unit: TimeUnit, duration: Duration) {
        let whole = unit.whole(duration);
        let code = self.code(self.on.clamp(whole));
        self.settled(code);
        self.on.count_clamped(code, whole);
    }

    /// Records how long it takes until the answer is dropped, as [`SharedInstrument::time`] does.
    pub fn time(&self, unit: TimeUnit) -> Timer {
        Timer::new(Some(self.clone()), unit)
    }

    /// Counts in what goes on until the answer is dropped, as [`SharedInstrument::in_flight`] does.
    pub fn in_flight(&self) -> InFlight {
        let (number, set) = (self.on.number, self.set);
        let mut place = (0, 0);
        let code = self.on.own.shards.record(number, |at, shard| {
            place = (at, shard.recorder.run());
            shard.count_in(number, set)
        });
        self.settled(code);
        match code {
            0 => InFlight::new(self.clone(), place),
            _ => InFlight::nothing(),
        }
    }

    // Counts out what was counted in by the shard of a place, in a run. In another run there is nothing to count out.
    pub(crate) fn count_out(&self, (at, run): (usize, u64)) {
        let (number, set) = (self.on.number, self.set);
        let shards = &self.on.own.shards;
        let mut shard = shards.lock(at);
        if shard.recorder.run() != run {
            return;
        }
        let mut code = shard.count_out(number, set);
        drop(shard);
        if code == crate::shards::BUDGET {
            // Something else took what was kept.
            code = shards.record(number, |_, shard| shard.record_set(number, set, -1));
        }
        self.settled(code);
    }

    fn code(&self, value: i64) -> u32 {
        self.on.set_code(self.set, value)
    }

    fn settled(&self, code: u32) {
        self.on.settled_set(code);
    }
}
