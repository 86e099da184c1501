//! Whether instruments mean what a program was made for.
use crate::batch::Kind;
use crate::fault::MeaningFault;
use crate::metrics::{Instrument, Metrics};
use crate::raw;
use crate::recorder::Recorder;
use crate::value::{Room, Value};

/// A key of an instrument, as a program was made for it.
#[derive(Clone, Copy, Debug, PartialEq, Eq)]
pub struct ExpectedKey<'a> {
    /// The name.
    pub name: &'a str,
    /// Whether a recording may leave it out.
    pub optional: bool,
    /// Its values in order, at least one: the number of each in a set key is its place, from 1.
    pub values: &'a [Value<'a>],
}

impl Metrics {
    /// The instrument of this meter and name, where it means what a program was made for, as one that is made from a
    /// catalogue asks once: it has this kind and unit; its first keys are these in order, each optional exactly where
    /// that is said; the values of each begin with these; and each further key may be left out. So a set key that is
    /// written for them ([`Recorder::record_set`]) names the same attributes. Takes no lock.
    ///
    /// # Errors
    ///
    /// [`MeaningFault::Unknown`] where there is not exactly one instrument of this meter and name;
    /// [`MeaningFault::Stranger`] where the recorder is of another run; [`MeaningFault::Fault`] with the first
    /// difference, in words; [`MeaningFault::Memory`].
    pub fn expect(
        &self,
        recorder: &mut Recorder,
        meter: &str,
        name: &str,
        kind: Kind,
        unit: &str,
        keys: &[ExpectedKey<'_>],
    ) -> Result<&Instrument, MeaningFault> {
        let instrument = self.only(meter, name)?;
        if instrument.run() != recorder.run() {
            return Err(MeaningFault::Stranger);
        }
        if let Some(key) = keys.iter().find(|key| key.values.is_empty()) {
            let words = format!(
                "{meter}/{name}: key {:?} is asked for without a value",
                key.name
            );
            return Err(MeaningFault::Fault(words));
        }
        let mut room = Room::default();
        for text in [meter, name, unit] {
            room.push("", Value::Text(text));
        }
        for key in keys {
            for value in key.values {
                room.push(key.name, *value);
            }
        }
        ask(recorder, instrument.number(), kind, &room, flags(keys))?;
        Ok(instrument)
    }

    fn only(&self, meter: &str, name: &str) -> Result<&Instrument, MeaningFault> {
        let mut found = self
            .instruments()
            .iter()
            .filter(|instrument| instrument.meter() == meter && instrument.name() == name);
        match (found.next(), found.next()) {
            (Some(instrument), None) => Ok(instrument),
            _ => Err(MeaningFault::Unknown(format!("{meter}/{name}"))),
        }
    }
}

// A bit for each key that may be left out. Of more than 32 keys those behind are none of any instrument.
fn flags(keys: &[ExpectedKey<'_>]) -> u32 {
    let bits = keys.iter().take(32).enumerate();
    bits.fold(0, |all, (at, key)| all | u32::from(key.optional) << at)
}

// A line is mostly shorter, and is asked for again where it is not.
const SHORT: usize = 512;

fn ask(
    recorder: &mut Recorder,
    instrument: u32,
    kind: Kind,
    room: &Room,
    optional: u32,
) -> Result<(), MeaningFault> {
    let mut fault = vec![0u8; SHORT];
    loop {
        let mut length = 0;
        // SAFETY: the handle is as the library left it, this call has it alone, and the buffers are borrowed for it.
        let code = unsafe {
            raw::wormweekly_expect(
                recorder.handle(),
                instrument,
                kind.number(),
                room.texts.as_ptr(),
                room.texts.len(),
                room.attributes.as_ptr(),
                room.attributes.len(),
                optional,
                fault.as_mut_ptr(),
                fault.len(),
                &mut length,
            )
        };
        if length <= fault.len() {
            fault.truncate(length);
            return MeaningFault::told(code, &fault);
        }
        fault.resize(length, 0);
    }
}
