//! Why calls are refused.
use std::fmt;

/// What a refusal is about, as it prints: the instrument, and the key, the value or the range of the first mistake. A
/// recording of attributes that were prepared tells none. Two are equal whatever they tell, so that refusals are
/// compared by their kind alone.
#[derive(Clone, Debug, Default)]
pub struct About(Option<Box<str>>);

impl PartialEq for About {
    fn eq(&self, _other: &About) -> bool {
        true
    }
}

impl Eq for About {}

impl About {
    /// What is told, as `orders: key "country" has no value "uk"`. The words may change with each version.
    pub fn text(&self) -> Option<&str> {
        self.0.as_deref()
    }

    // The same, or these words where nothing is told.
    fn or<'a>(&'a self, words: &'a str) -> &'a str {
        self.text().unwrap_or(words)
    }
}

/// Why a recording, a collection, a grant or a close is refused. What is refused has changed nothing.
#[derive(Clone, Debug, PartialEq, Eq)]
#[non_exhaustive]
pub enum Refusal {
    /// The instrument is none of the recorder's or reader's plan.
    UnknownInstrument,
    /// The instrument has no recorder of this number.
    UnknownRecorder,
    /// A key stands twice among the attributes.
    DuplicateKey(About),
    /// The instrument does not declare a key.
    UnknownKey(About),
    /// A key does not declare its value.
    UnknownValue(About),
    /// A required key is missing.
    MissingKey(About),
    /// The instrument does not allow this combination of values.
    Combination(About),
    /// The value is outside the instrument's range.
    ValueRange(About),
    /// The instrument is closed.
    Closed,
    /// The recorder's budget for the instrument is spent, and what it was granted.
    Budget,
    /// Less is left of the instrument's spare budget than a grant asks for.
    NoSpare,
    /// Out of memory.
    Memory,
    /// The recorder or reader is of another run.
    Stranger,
    /// The library answered a number that this crate does not know.
    Other(u32),
}

impl Refusal {
    pub(crate) fn of(code: u32) -> Refusal {
        match code {
            1 => Refusal::UnknownInstrument,
            2 => Refusal::UnknownRecorder,
            3 => Refusal::DuplicateKey(About::default()),
            4 => Refusal::UnknownKey(About::default()),
            5 => Refusal::UnknownValue(About::default()),
            6 => Refusal::MissingKey(About::default()),
            13 => Refusal::Combination(About::default()),
            7 => Refusal::ValueRange(About::default()),
            8 => Refusal::Closed,
            9 => Refusal::Budget,
            14 => Refusal::NoSpare,
            11 => Refusal::Memory,
            12 => Refusal::Stranger,
            other => Refusal::Other(other),
        }
    }

    // What the refusal tells of what a recording says, where it is refused for that.
    fn about(&mut self) -> Option<&mut About> {
        match self {
            Refusal::DuplicateKey(about)
            | Refusal::UnknownKey(about)
            | Refusal::UnknownValue(about)
            | Refusal::MissingKey(about)
            | Refusal::Combination(about)
            | Refusal::ValueRange(about) => Some(about),
            _ => None,
        }
    }

    // The same refusal, with what is told of it where a recording is refused for what it says. Only then is it asked
    // for.
    pub(crate) fn told(mut self, tell: impl FnOnce() -> Option<String>) -> Refusal {
        if let Some(about) = self.about() {
            about.0 = tell().map(String::into_boxed_str);
        }
        self
    }
}

impl fmt::Display for Refusal {
    fn fmt(&self, f: &mut fmt::Formatter<'_>) -> fmt::Result {
        match self {
            Refusal::UnknownInstrument => write!(f, "the plan has no such instrument"),
            Refusal::UnknownRecorder => write!(f, "the instrument has no such recorder"),
            Refusal::DuplicateKey(about) => {
                f.write_str(about.or("a key stands twice among the attributes"))
            }
            Refusal::UnknownKey(about) => {
                f.write_str(about.or("the instrument does not declare a key"))
            }
            Refusal::UnknownValue(about) => {
                f.write_str(about.or("a key does not declare its value"))
            }
            Refusal::MissingKey(about) => f.write_str(about.or("a required key is missing")),
            Refusal::Combination(about) => {
                f.write_str(about.or("the instrument does not allow this combination of values"))
            }
            Refusal::ValueRange(about) => {
                f.write_str(about.or("the value is outside the instrument's range"))
            }
            Refusal::Closed => write!(f, "the instrument is closed"),
            Refusal::Budget => write!(f, "the recorder's budget is spent"),
            Refusal::NoSpare => write!(f, "less is left of the spare budget than is asked for"),
            Refusal::Memory => write!(f, "out of memory"),
            Refusal::Stranger => write!(f, "the recorder or reader is of another run"),
            Refusal::Other(code) => write!(f, "the library answered {code}"),
        }
    }
}

impl std::error::Error for Refusal {}

/// Where a list of recordings ended, and why. Those before it are made.
#[derive(Clone, Debug, PartialEq, Eq)]
pub struct ListRefusal {
    /// How many were made.
    pub made: usize,
    /// What the next one was refused for.
    pub refusal: Refusal,
}

impl fmt::Display for ListRefusal {
    fn fmt(&self, f: &mut fmt::Formatter<'_>) -> fmt::Result {
        write!(f, "after {} recordings: {}", self.made, self.refusal)
    }
}

impl std::error::Error for ListRefusal {}

/// Why nothing is opened.
#[derive(Clone, Debug, PartialEq, Eq)]
#[non_exhaustive]
pub enum OpenFault {
    /// The catalogue or the config is at fault, or the two are not safe together: the first fault, with its place, as
    /// `catalogue:7:1: instrument 0 "orders": unknown kind "guage"; ..`.
    Fault(String),
    /// Out of memory.
    Memory,
    /// The library answered a number that this crate does not know.
    Other(u32),
}

impl fmt::Display for OpenFault {
    fn fmt(&self, f: &mut fmt::Formatter<'_>) -> fmt::Result {
        match self {
            OpenFault::Fault(text) => write!(f, "{text}"),
            OpenFault::Memory => write!(f, "out of memory"),
            OpenFault::Other(code) => write!(f, "the library answered {code}"),
        }
    }
}

impl std::error::Error for OpenFault {}

/// Why totals are not settled.
#[derive(Clone, Copy, Debug, PartialEq, Eq)]
#[non_exhaustive]
pub enum SettleFault {
    /// A recorder is of another run, or stands twice.
    Stranger,
    /// Some recorder of the run is not among those that were given.
    RecorderMissing,
    /// An instrument's state is not what its recorders were told.
    AuditMismatch,
    /// Out of memory.
    Memory,
    /// The library answered a number that this crate does not know.
    Other(u32),
}

impl SettleFault {
    pub(crate) fn of(code: u32) -> SettleFault {
        match code {
            11 => SettleFault::Memory,
            12 => SettleFault::Stranger,
            104 => SettleFault::RecorderMissing,
            105 => SettleFault::AuditMismatch,
            other => SettleFault::Other(other),
        }
    }
}

impl fmt::Display for SettleFault {
    fn fmt(&self, f: &mut fmt::Formatter<'_>) -> fmt::Result {
        match self {
            SettleFault::Stranger => write!(f, "a recorder is of another run, or stands twice"),
            SettleFault::RecorderMissing => write!(f, "some recorder is missing"),
            SettleFault::AuditMismatch => {
                write!(
                    f,
                    "an instrument's state is not what its recorders were told"
                )
            }
            SettleFault::Memory => write!(f, "out of memory"),
            SettleFault::Other(code) => write!(f, "the library answered {code}"),
        }
    }
}

impl std::error::Error for SettleFault {}

/// Why a run does not go over into the next one.
#[derive(Clone, Debug, PartialEq, Eq)]
pub enum RollFault {
    /// The next one is not opened.
    Open(OpenFault),
    /// This one is not settled.
    Settle(SettleFault),
}

impl fmt::Display for RollFault {
    fn fmt(&self, f: &mut fmt::Formatter<'_>) -> fmt::Result {
        match self {
            RollFault::Open(fault) => write!(f, "the next run is not opened: {fault}"),
            RollFault::Settle(fault) => write!(f, "the run is not settled: {fault}"),
        }
    }
}

impl std::error::Error for RollFault {}

/// Why attributes are no resource. They are tried in this order.
#[derive(Clone, Copy, Debug, PartialEq, Eq)]
#[non_exhaustive]
pub enum ResourceFault {
    /// There are more than 64.
    TooMany,
    /// One has an empty key.
    EmptyKey,
    /// A key stands twice.
    RepeatedKey,
    /// A key has no letter and no digit, so that its label in a page says nothing.
    BadLabel,
    /// Two keys have one label in a page, as `a.b` and `a_b` have.
    LabelCollision,
    /// Out of memory.
    Memory,
    /// The library answered a number that this crate does not know.
    Other(u32),
}

impl ResourceFault {
    pub(crate) fn of(code: u32) -> ResourceFault {
        match code {
            3 => ResourceFault::RepeatedKey,
            11 => ResourceFault::Memory,
            107 => ResourceFault::TooMany,
            108 => ResourceFault::EmptyKey,
            110 => ResourceFault::BadLabel,
            111 => ResourceFault::LabelCollision,
            other => ResourceFault::Other(other),
        }
    }
}

impl fmt::Display for ResourceFault {
    fn fmt(&self, f: &mut fmt::Formatter<'_>) -> fmt::Result {
        match self {
            ResourceFault::TooMany => write!(f, "a resource has more than 64 attributes"),
            ResourceFault::EmptyKey => write!(f, "an attribute of a resource has an empty key"),
            ResourceFault::RepeatedKey => write!(f, "a key of a resource stands twice"),
            ResourceFault::BadLabel => write!(f, "a key of a resource has no letter and no digit"),
            ResourceFault::LabelCollision => write!(f, "two keys of a resource have one label"),
            ResourceFault::Memory => write!(f, "out of memory"),
            ResourceFault::Other(code) => write!(f, "the library answered {code}"),
        }
    }
}

impl std::error::Error for ResourceFault {}

/// Why a reader's streams cannot stand in a page for Prometheus.
#[derive(Clone, Debug, PartialEq, Eq)]
#[non_exhaustive]
pub enum ExposureFault {
    /// The first fault, with its stream: samples of a page would be lost without a word, or the page would be refused.
    Fault(String),
    /// Out of memory.
    Memory,
    /// The library answered a number that this crate does not know.
    Other(u32),
}

impl fmt::Display for ExposureFault {
    fn fmt(&self, f: &mut fmt::Formatter<'_>) -> fmt::Result {
        match self {
            ExposureFault::Fault(text) => write!(f, "{text}"),
            ExposureFault::Memory => write!(f, "out of memory"),
            ExposureFault::Other(code) => write!(f, "the library answered {code}"),
        }
    }
}

impl std::error::Error for ExposureFault {}

/// Why an instrument is not what a program was made for.
#[derive(Clone, Debug, PartialEq, Eq)]
#[non_exhaustive]
pub enum MeaningFault {
    /// There is no instrument of this meter and name, or more than one.
    Unknown(String),
    /// It means something else: the first difference, as `shop/orders: key "country" has no value "uk" at place 2`.
    /// The words may change with each version.
    Fault(String),
    /// The recorder is of another run.
    Stranger,
    /// Out of memory.
    Memory,
    /// The library answered a number that this crate does not know.
    Other(u32),
}

impl MeaningFault {
    pub(crate) fn told(code: u32, words: &[u8]) -> Result<(), MeaningFault> {
        match code {
            0 => Ok(()),
            11 => Err(MeaningFault::Memory),
            103 => Err(MeaningFault::Fault(
                String::from_utf8_lossy(words).into_owned(),
            )),
            code => Err(MeaningFault::Other(code)),
        }
    }
}

impl fmt::Display for MeaningFault {
    fn fmt(&self, f: &mut fmt::Formatter<'_>) -> fmt::Result {
        match self {
            MeaningFault::Unknown(name) => write!(f, "there is not one instrument {name:?}"),
            MeaningFault::Fault(text) => write!(f, "{text}"),
            MeaningFault::Stranger => write!(f, "the recorder is of another run"),
            MeaningFault::Memory => write!(f, "out of memory"),
            MeaningFault::Other(code) => write!(f, "the library answered {code}"),
        }
    }
}

impl std::error::Error for MeaningFault {}

/// There is no instrument of this name, or more than one.
#[derive(Clone, Debug, PartialEq, Eq)]
pub struct UnknownName(pub String);

impl fmt::Display for UnknownName {
    fn fmt(&self, f: &mut fmt::Formatter<'_>) -> fmt::Result {
        write!(f, "there is not one instrument named {:?}", self.0)
    }
}

impl std::error::Error for UnknownName {}
