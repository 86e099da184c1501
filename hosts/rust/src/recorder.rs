//! The seats of recorders.
use crate::fault::{ListRefusal, Refusal};
use crate::metrics::Instrument;
use crate::raw::{self, Handle};
use crate::texts::told;
use crate::value::{FewAttributes, Room, Value};

// The number of the refusal of a recorder or an instrument of another run.
const STRANGER: u32 = 12;

/// The seat of one recorder, with which a thread records. It keeps what it was told of its recordings, and goes from
/// thread to thread, but is never shared or copied.
// Each recording writes in it, so no two of a list share lines of cache, nor a pair of lines that are fetched together.
#[repr(align(128))]
pub struct Recorder {
    handle: Handle,
    run: u64,
    number: u32,
    name: String,
    few: FewAttributes,
    room: Room,
    list: Vec<raw::Prepared>,
    // The instruments on which work under way is counted in, the last one last.
    pub(crate) under_way: Vec<Instrument>,
}

/// The recordings that a recorder may make on an instrument, and those that it has made.
#[derive(Clone, Copy, Debug, PartialEq, Eq)]
pub struct Budget {
    /// How many the catalogue declares.
    pub declared: u64,
    /// How many were granted beside these.
    pub granted: u64,
    /// How many were made.
    pub spent: u64,
    /// How many are left.
    pub left: u64,
}

/// A set of attributes that was found once, for an instrument.
#[derive(Clone)]
pub struct Prepared {
    pub(crate) instrument: Instrument,
    own: raw::Prepared,
}

impl Drop for Recorder {
    fn drop(&mut self) {
        // SAFETY: the handle is null or as the library left it, and nobody else has it.
        unsafe { raw::wormweekly_free_recorder(&mut self.handle) }
    }
}

fn answer(code: u32) -> Result<(), Refusal> {
    match code {
        0 => Ok(()),
        code => Err(Refusal::of(code)),
    }
}

impl Recorder {
    pub(crate) fn new(handle: Handle, run: u64, number: u32) -> Recorder {
        Recorder {
            handle,
            run,
            number,
            name: String::new(),
            few: FewAttributes::default(),
            room: Room::default(),
            list: Vec::new(),
            under_way: Vec::new(),
        }
    }

    // What stands in the place of a recorder that is elsewhere for a while.
    pub(crate) fn nothing() -> Recorder {
        Recorder::new(Handle::NOTHING, 0, 0)
    }

    pub(crate) fn set_name(&mut self, name: String) {
        self.name = name;
    }

    pub(crate) fn handle(&mut self) -> &mut Handle {
        &mut self.handle
    }

    // The number of its run.
    pub(crate) fn run(&self) -> u64 {
        self.run
    }

    /// The name.
    pub fn name(&self) -> &str {
        &self.name
    }

    /// Its number, from 0, in the order of the catalogue, which [`Instrument::grant`] takes.
    pub fn number(&self) -> u32 {
        self.number
    }

    /// What the recorder may record on an instrument, and has recorded there.
    ///
    /// # Errors
    ///
    /// [`Refusal::Stranger`] where the instrument is of another run.
    pub fn budget(&mut self, instrument: &Instrument) -> Result<Budget, Refusal> {
        let out = self.raw_budget(instrument).map_err(Refusal::of)?;
        Ok(Budget {
            declared: out.declared,
            granted: out.granted,
            spent: out.spent,
            left: out.left,
        })
    }

    fn raw_budget(&mut self, instrument: &Instrument) -> Result<raw::Budget, u32> {
        let mut out = raw::Budget::default();
        let mut held = instrument.lock();
        // SAFETY: the handles are as the library left them, and this call has them alone.
        match unsafe { raw::wormweekly_budget(&mut held.handle, &mut self.handle, &mut out) } {
            0 => Ok(out),
            code => Err(code),
        }
    }

    pub(crate) fn left_code(&mut self, instrument: &Instrument) -> Result<u64, u32> {
        Ok(self.raw_budget(instrument)?.left)
    }

    /// How many recordings the recorder has left on an instrument. Ask for more before there is none: a recording past
    /// the budget is refused, and not counted.
    ///
    /// # Errors
    ///
    /// [`Refusal::Stranger`] where the instrument is of another run.
    pub fn left(&mut self, instrument: &Instrument) -> Result<u64, Refusal> {
        Ok(self.budget(instrument)?.left)
    }

    /// Asks for so many recordings on an instrument beside the budget, of what is left of its spare budget.
    ///
    /// # Errors
    ///
    /// The first of these: [`Refusal::Stranger`] where the instrument is of another run; [`Refusal::Closed`];
    /// [`Refusal::NoSpare`] where more is asked for than is left.
    pub fn ask(&mut self, instrument: &Instrument, amount: u64) -> Result<(), Refusal> {
        answer(self.ask_code(instrument, amount))
    }

    // The same by what the library answers. So below.
    pub(crate) fn ask_code(&mut self, instrument: &Instrument, amount: u64) -> u32 {
        let mut held = instrument.lock();
        // SAFETY: as in `budget`.
        unsafe { raw::wormweekly_ask(&mut held.handle, &mut self.handle, amount) }
    }

    /// Makes a recording. Its attributes are found before the lock is taken, so that other threads wait for the
    /// recording alone. Any order will do; that of the catalogue's keys is found fastest.
    ///
    /// # Errors
    ///
    /// The first [`Refusal`]; nothing is counted then. It prints what it is about, as `orders: key "country" has no
    /// value "uk"`.
    pub fn record(
        &mut self,
        instrument: &Instrument,
        attributes: &[(&str, Value<'_>)],
        value: i64,
    ) -> Result<(), Refusal> {
        match self.record_code(instrument, attributes, value) {
            0 => Ok(()),
            code => Err(self.refused(code, instrument, attributes, value)),
        }
    }

    pub(crate) fn record_code(
        &mut self,
        instrument: &Instrument,
        attributes: &[(&str, Value<'_>)],
        value: i64,
    ) -> u32 {
        let mut own = raw::Prepared { set: [0; 8], value };
        match self.find(instrument, attributes, &mut own) {
            0 => self.record_found(instrument, &own),
            code => code,
        }
    }

    pub(crate) fn record_set_code(
        &mut self,
        instrument: &Instrument,
        set: [u16; 8],
        value: i64,
    ) -> u32 {
        self.record_found(instrument, &raw::Prepared { set, value })
    }

    // The refusal of this number of a recording. A call of its own, since few recordings are refused.
    #[cold]
    pub(crate) fn refused(
        &mut self,
        code: u32,
        instrument: &Instrument,
        attributes: &[(&str, Value<'_>)],
        value: i64,
    ) -> Refusal {
        Refusal::of(code).told(|| self.explained(instrument, attributes, value))
    }

    // What a recording is refused for. No lock is taken.
    fn explained(
        &mut self,
        instrument: &Instrument,
        attributes: &[(&str, Value<'_>)],
        value: i64,
    ) -> Option<String> {
        let Recorder { handle, room, .. } = self;
        let (texts, attributes) = room.filled(attributes);
        // SAFETY: as in `find`.
        let text = told(|out, length| unsafe {
            raw::wormweekly_explain(
                handle,
                instrument.number(),
                texts.as_ptr(),
                texts.len(),
                attributes.as_ptr(),
                attributes.len(),
                value,
                out.as_mut_ptr(),
                out.len(),
                length,
            )
        });
        text.ok().filter(|text| !text.is_empty())
    }

    /// Finds what a set of attributes comes to, for recordings on an instrument. Takes no lock.
    ///
    /// # Errors
    ///
    /// [`Refusal::Stranger`] where the instrument is of another run, else the first [`Refusal`] of the attributes.
    pub fn prepare(
        &mut self,
        instrument: &Instrument,
        attributes: &[(&str, Value<'_>)],
    ) -> Result<Prepared, Refusal> {
        match self.set_of(instrument, attributes) {
            Ok(set) => {
                let instrument = instrument.clone();
                let own = raw::Prepared { set, value: 0 };
                Ok(Prepared { instrument, own })
            }
            // Any value would do, since the attributes are told of first.
            Err(code) => Err(self.refused(code, instrument, attributes, 0)),
        }
    }

    pub(crate) fn set_of(
        &mut self,
        instrument: &Instrument,
        attributes: &[(&str, Value<'_>)],
    ) -> Result<[u16; 8], u32> {
        let mut own = raw::Prepared {
            set: [0; 8],
            value: 0,
        };
        match self.find(instrument, attributes, &mut own) {
            0 => Ok(own.set),
            code => Err(code),
        }
    }

    // Finds the set key of attributes, and writes it; the value stays. What the library answers, or that the instrument
    // is of another run.
    fn find(
        &mut self,
        instrument: &Instrument,
        attributes: &[(&str, Value<'_>)],
        own: &mut raw::Prepared,
    ) -> u32 {
        if instrument.run() != self.run {
            return STRANGER;
        }
        let Recorder {
            handle, few, room, ..
        } = self;
        let (texts, attributes) = match few.filled(attributes) {
            Some(filled) => filled,
            None => room.filled(attributes),
        };
        // SAFETY: the handle is as the library left it, this call has it alone, and the buffers are borrowed for it.
        unsafe {
            raw::wormweekly_prepare(
                handle,
                instrument.number(),
                texts.as_ptr(),
                texts.len(),
                attributes.as_ptr(),
                attributes.len(),
                own,
            )
        }
    }

    fn record_found(&mut self, instrument: &Instrument, own: &raw::Prepared) -> u32 {
        let mut held = instrument.lock();
        // SAFETY: the handles are as the library left them, and this call has them alone.
        unsafe { raw::wormweekly_record_prepared(&mut held.handle, &mut self.handle, own) }
    }

    /// Makes a recording with attributes that were prepared.
    ///
    /// # Errors
    ///
    /// The first [`Refusal`]; nothing is counted then.
    pub fn record_prepared(&mut self, prepared: &Prepared, value: i64) -> Result<(), Refusal> {
        let own = raw::Prepared {
            value,
            ..prepared.own
        };
        answer(self.record_found(&prepared.instrument, &own))
    }

    /// Makes a recording of a set key, as code that is made from a catalogue writes one: for each key of the instrument,
    /// in its order, 0 where the recording has no such key, else the number of its value, from 1; behind them 0.
    ///
    /// # Errors
    ///
    /// The first [`Refusal`]; nothing is counted then. A set key that no attributes come to is refused as
    /// [`Refusal::UnknownValue`], or as [`Refusal::Combination`] where the instrument does not allow the combination.
    pub fn record_set(
        &mut self,
        instrument: &Instrument,
        set: [u16; 8],
        value: i64,
    ) -> Result<(), Refusal> {
        answer(self.record_set_code(instrument, set, value))
    }

    /// Makes several recordings with attributes that were prepared for one instrument, in one call and under one lock.
    ///
    /// # Errors
    ///
    /// The first [`Refusal`], with the number of those before it, which are made. One that was prepared for another
    /// instrument than the first is refused as [`Refusal::UnknownInstrument`].
    pub fn record_list(&mut self, list: &[(&Prepared, i64)]) -> Result<(), ListRefusal> {
        let Some((first, _)) = list.first() else {
            return Ok(());
        };
        let own = list
            .iter()
            .take_while(|(prepared, _)| prepared.instrument.is(&first.instrument));
        self.list.clear();
        self.list.extend(own.map(|(prepared, value)| raw::Prepared {
            value: *value,
            ..prepared.own
        }));
        let mut made = 0;
        let mut held = first.instrument.lock();
        // SAFETY: as in `find`.
        let code = unsafe {
            raw::wormweekly_record_list(
                &mut held.handle,
                &mut self.handle,
                self.list.as_ptr(),
                self.list.len(),
                &mut made,
            )
        };
        match code {
            0 if made < list.len() => Err(ListRefusal {
                made,
                refusal: Refusal::UnknownInstrument,
            }),
            0 => Ok(()),
            code => Err(ListRefusal {
                made,
                refusal: Refusal::of(code),
            }),
        }
    }

    // A name of the plan.
    pub(crate) fn name_of(&mut self, kind: u32, number: u32) -> Result<String, u32> {
        let handle = &mut self.handle;
        // SAFETY: as in `find`.
        told(|out, length| unsafe {
            raw::wormweekly_name(handle, kind, number, out.as_mut_ptr(), out.len(), length)
        })
    }

    // The greatest value of the range of an instrument.
    pub(crate) fn greatest_of(&mut self, instrument: u32) -> Result<i64, u32> {
        let mut out = raw::Range::default();
        // SAFETY: as in `find`.
        match unsafe { raw::wormweekly_range(&mut self.handle, instrument, &mut out) } {
            0 => Ok(out.greatest),
            code => Err(code),
        }
    }

    // The warnings of the plan.
    pub(crate) fn warnings(&mut self) -> Result<String, u32> {
        let handle = &mut self.handle;
        // SAFETY: as in `find`.
        told(|out, length| unsafe {
            raw::wormweekly_warnings(handle, out.as_mut_ptr(), out.len(), length)
        })
    }
}
