//! The start of a run.
use crate::fault::OpenFault;
use crate::metrics::{Held, Instrument, Metrics};
use crate::raw::{self, Counts, Handle};
use crate::reader::Reader;
use crate::recorder::Recorder;
use std::sync::atomic::{AtomicU64, Ordering};

const MEMORY: u32 = 11;
const TOO_SHORT: u32 = 102;
const FAULT: u32 = 103;

// How much room there is for a fault at first.
const FAULT_ROOM: usize = 512;

// The kinds of names.
const INSTRUMENT_NAME: u32 = 0;
const METER_NAME: u32 = 1;
const RECORDER_NAME: u32 = 2;
const READER_NAME: u32 = 3;

// What tells the runs of this crate apart, before a lock is taken. The library draws a number of its own for each.
static NEXT_RUN: AtomicU64 = AtomicU64::new(1);

/// What is opened: the instruments, and a seat for each recorder and each reader that was declared, in order.
pub struct Opened {
    /// The instruments.
    pub metrics: Metrics,
    /// A seat for each recorder.
    pub recorders: Vec<Recorder>,
    /// A seat for each reader.
    pub readers: Vec<Reader>,
    /// A line for each view that does not fit an instrument, in fixed words; [`lint`] tells the same in sentences.
    /// Streams that collide are a fault of the opening.
    pub warnings: String,
}

/// Opens the instruments of a catalogue and a config (TOML), since a start in nanoseconds. The library makes a
/// certificate that nothing can overflow, and checks it. Each run of a process has a number of its own, so seats of two
/// runs do not mix.
///
/// # Errors
///
/// [`OpenFault::Fault`] with the first fault of the catalogue, else of the config, else the first part of safety that
/// fails; [`OpenFault::Memory`].
pub fn open(catalogue: &str, config: &str, start: u64) -> Result<Opened, OpenFault> {
    let texts = Texts {
        catalogue,
        config,
        certificate: None,
    };
    texts.open(start)
}

/// The same with a certificate that somebody made. It is checked, whoever that was.
///
/// # Errors
///
/// [`OpenFault::Fault`] with the first fault of the catalogue, else of the config, else of the certificate, else what
/// its check finds first; [`OpenFault::Memory`].
pub fn open_certified(
    catalogue: &str,
    config: &str,
    certificate: &str,
    start: u64,
) -> Result<Opened, OpenFault> {
    let texts = Texts {
        catalogue,
        config,
        certificate: Some(certificate),
    };
    texts.open(start)
}

/// The remarks that `wormweekly lint` has on a catalogue and a config, a line each, with the place: what looks like a
/// mistake and is none that keeps them from being opened, and what does, as budgets that are not safe. At most a
/// hundred are told, and in one more line how many there are beside these.
///
/// # Errors
///
/// [`OpenFault::Fault`] with the first fault of the catalogue, else of the config; [`OpenFault::Memory`].
pub fn lint(catalogue: &str, config: &str) -> Result<Vec<String>, OpenFault> {
    let mut out = vec![0u8; 1024];
    loop {
        let mut length = 0;
        // SAFETY: the texts and the buffer are borrowed for the call and apart from each other.
        let code = unsafe {
            raw::wormweekly_lint(
                catalogue.as_ptr(),
                catalogue.len(),
                config.as_ptr(),
                config.len(),
                out.as_mut_ptr(),
                out.len(),
                &mut length,
            )
        };
        let is_cut = length > out.len();
        out.resize(length, 0);
        match code {
            TOO_SHORT => {}
            FAULT if is_cut => {}
            0 => return Ok(lossy(&out).lines().map(str::to_owned).collect()),
            FAULT => return Err(OpenFault::Fault(lossy(&out))),
            code => return Err(refused(code)),
        }
    }
}

fn lossy(bytes: &[u8]) -> String {
    String::from_utf8_lossy(bytes).into_owned()
}

struct Texts<'a> {
    catalogue: &'a str,
    config: &'a str,
    certificate: Option<&'a str>,
}

struct Handles {
    instruments: Vec<Handle>,
    recorders: Vec<Handle>,
    readers: Vec<Handle>,
}

fn nothing(count: usize) -> Vec<Handle> {
    (0..count).map(|_| Handle::NOTHING).collect()
}

impl Handles {
    fn nothing(counts: &Counts) -> Handles {
        Handles {
            instruments: nothing(counts.instruments),
            recorders: nothing(counts.recorders),
            readers: nothing(counts.readers),
        }
    }
}

impl Texts<'_> {
    fn open(&self, start: u64) -> Result<Opened, OpenFault> {
        let run = NEXT_RUN.fetch_add(1, Ordering::Relaxed);
        let mut counts = Counts::default();
        let mut fault = vec![0u8; FAULT_ROOM];
        let mut handles = Handles::nothing(&counts);
        let mut code = self.call(start, &mut handles, &mut counts, &mut fault);
        if code == TOO_SHORT {
            handles = Handles::nothing(&counts);
            code = self.call(start, &mut handles, &mut counts, &mut fault);
        } else if code == FAULT && fault.len() > FAULT_ROOM {
            code = self.call(start, &mut handles, &mut counts, &mut fault);
        }
        match code {
            0 => named(handles, run).map_err(refused),
            FAULT => Err(OpenFault::Fault(lossy(&fault))),
            code => Err(refused(code)),
        }
    }

    // Opens what there are handles for. The fault gets its length, also where there was no room for all of it.
    fn call(
        &self,
        start: u64,
        handles: &mut Handles,
        counts: &mut Counts,
        fault: &mut Vec<u8>,
    ) -> u32 {
        let Handles {
            instruments,
            recorders,
            readers,
        } = handles;
        let mut fault_length = 0;
        // SAFETY: the texts and buffers are borrowed for the call and apart from each other, and the handles are null.
        let code = match self.certificate {
            None => unsafe {
                raw::wormweekly_open(
                    self.catalogue.as_ptr(),
                    self.catalogue.len(),
                    self.config.as_ptr(),
                    self.config.len(),
                    start,
                    instruments.as_mut_ptr(),
                    instruments.len(),
                    recorders.as_mut_ptr(),
                    recorders.len(),
                    readers.as_mut_ptr(),
                    readers.len(),
                    counts,
                    fault.as_mut_ptr(),
                    fault.len(),
                    &mut fault_length,
                )
            },
            // SAFETY: as above.
            Some(certificate) => unsafe {
                raw::wormweekly_open_certified(
                    self.catalogue.as_ptr(),
                    self.catalogue.len(),
                    self.config.as_ptr(),
                    self.config.len(),
                    certificate.as_ptr(),
                    certificate.len(),
                    start,
                    instruments.as_mut_ptr(),
                    instruments.len(),
                    recorders.as_mut_ptr(),
                    recorders.len(),
                    readers.as_mut_ptr(),
                    readers.len(),
                    counts,
                    fault.as_mut_ptr(),
                    fault.len(),
                    &mut fault_length,
                )
            },
        };
        if code == FAULT {
            fault.resize(fault_length, 0);
        }
        code
    }
}

/// Opens the next run of the plan that a recorder is of.
pub(crate) fn next(recorder: &mut Recorder, start: u64) -> Result<Opened, OpenFault> {
    let run = NEXT_RUN.fetch_add(1, Ordering::Relaxed);
    let mut counts = Counts::default();
    let mut handles = Handles::nothing(&counts);
    let mut code = call_next(recorder, start, &mut handles, &mut counts);
    if code == TOO_SHORT {
        handles = Handles::nothing(&counts);
        code = call_next(recorder, start, &mut handles, &mut counts);
    }
    match code {
        0 => named(handles, run).map_err(refused),
        code => Err(refused(code)),
    }
}

fn call_next(
    recorder: &mut Recorder,
    start: u64,
    handles: &mut Handles,
    counts: &mut Counts,
) -> u32 {
    let Handles {
        instruments,
        recorders,
        readers,
    } = handles;
    // SAFETY: the lists are borrowed for the call and apart from each other, their handles are null, and the recorder's
    // is as the library left it.
    unsafe {
        raw::wormweekly_next(
            recorder.handle(),
            start,
            instruments.as_mut_ptr(),
            instruments.len(),
            recorders.as_mut_ptr(),
            recorders.len(),
            readers.as_mut_ptr(),
            readers.len(),
            counts,
        )
    }
}

fn refused(code: u32) -> OpenFault {
    match code {
        MEMORY => OpenFault::Memory,
        other => OpenFault::Other(other),
    }
}

// Gives each handle its owner, with its name.
fn named(handles: Handles, run: u64) -> Result<Opened, u32> {
    let held = handles.instruments.into_iter();
    let held: Vec<Held> = held.map(|handle| Held { handle }).collect();
    let recorders = handles.recorders.into_iter().enumerate();
    let mut recorders: Vec<Recorder> = recorders
        .map(|(number, handle)| Recorder::new(handle, run, number as u32))
        .collect();
    let readers = handles.readers.into_iter();
    let mut readers: Vec<Reader> = readers.map(Reader::new).collect();
    // Names are asked through any seat. Where there is none, nobody records and nobody collects.
    let mut name = |kind, number: usize| match (recorders.first_mut(), readers.first_mut()) {
        (Some(first), _) => first.name_of(kind, number as u32),
        (None, Some(first)) => first.name_of(kind, number as u32),
        (None, None) => Ok(String::new()),
    };
    let names: Result<Vec<_>, u32> = (0..held.len())
        .map(|number| Ok([name(METER_NAME, number)?, name(INSTRUMENT_NAME, number)?]))
        .collect();
    let mut instruments = Vec::new();
    for (number, (held, [meter, own])) in held.into_iter().zip(names?).enumerate() {
        let number = number as u32;
        // Where there is no recorder, nobody records.
        let greatest = match recorders.first_mut() {
            Some(first) => first.greatest_of(number)?,
            None => i64::MAX,
        };
        instruments.push(Instrument::new(held, run, number, meter, own, greatest));
    }
    for (number, recorder) in recorders.iter_mut().enumerate() {
        let own = recorder.name_of(RECORDER_NAME, number as u32)?;
        recorder.set_name(own);
    }
    for (number, reader) in readers.iter_mut().enumerate() {
        let own = reader.name_of(READER_NAME, number as u32)?;
        reader.set_name(own);
    }
    let warnings = match recorders.first_mut() {
        Some(first) => first.warnings()?,
        None => String::new(),
    };
    let metrics = Metrics::new(instruments);
    Ok(Opened {
        metrics,
        recorders,
        readers,
        warnings,
    })
}
