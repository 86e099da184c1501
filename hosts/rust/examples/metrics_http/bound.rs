// Made by `wormweekly bind --for rust`, not to be edited: `wormweekly bind --check` compares it.
//! What the service may record.
#![allow(dead_code, non_camel_case_types, non_snake_case, unused_mut, unused_variables, clippy::all)]
use wormweekly::{
    Bound as Bound_, ExpectedKey as ExpectedKey_, Instrument as Instrument_, Kind as Kind_, MeaningFault as MeaningFault_,
    OpenFault as OpenFault_, Opened as Opened_, Reader as Reader_, Recorder as Recorder_, Refusal as Refusal_,
    Shared as Shared_, SharedInstrument as SharedInstrument_, Value as Value_,
};

/// The values of the key `country`.
#[derive(Clone, Copy, Debug, PartialEq, Eq, Hash)]
#[repr(u16)]
pub enum Country {
    /// `de`
    De = 1,
    /// `fr`
    Fr = 2,
}

impl Country {
    /// All of them, in the order of the catalogue.
    pub const ALL: [Country; 2] = [
        Country::De,
        Country::Fr,
    ];

    const fn rank(self) -> u16 {
        self as u16
    }

    /// The value of this text, where it is declared.
    pub fn of(text: &str) -> Option<Self> {
        match text {
            "de" => Some(Country::De),
            "fr" => Some(Country::Fr),
            _ => None,
        }
    }
}

/// `shop` `orders`: a counter, 1 to 100.
#[derive(Clone)]
pub struct On_shop__orders<I = Instrument_> {
    on: I,
}

impl<I> On_shop__orders<I> {
    /// The instrument itself.
    pub fn on(&self) -> &I {
        &self.on
    }

    fn set_(country: Country) -> [u16; 8] {
        [country.rank(), 0, 0, 0, 0, 0, 0, 0]
    }
}

impl On_shop__orders {
    /// Adds a value. Where it is refused, nothing is counted.
    #[inline]
    pub fn add(
        &self,
        seat: &mut Recorder_,
        country: Country,
        value: i64,
    ) -> Result<(), Refusal_> {
        seat.record_set(&self.on, Self::set_(country), value)
    }
}

impl On_shop__orders<SharedInstrument_> {
    /// Adds a value by any recorder. What is refused is counted, and told once.
    #[inline]
    pub fn add(
        &self,
        country: Country,
        value: i64,
    ) {
        self.on.add_set(Self::set_(country), value);
    }

    /// These attributes, for recordings and durations by any recorder.
    pub fn bind(&self, country: Country) -> Bound_ {
        self.on.bind_set(Self::set_(country))
    }
}

/// `shop` `took`: a histogram in `ms`, 0 to 1000.
#[derive(Clone)]
pub struct On_shop__took<I = Instrument_> {
    on: I,
}

impl<I> On_shop__took<I> {
    /// The instrument itself.
    pub fn on(&self) -> &I {
        &self.on
    }

    fn set_() -> [u16; 8] {
        [0, 0, 0, 0, 0, 0, 0, 0]
    }
}

impl On_shop__took {
    /// Records a value. Where it is refused, nothing is counted.
    #[inline]
    pub fn record(
        &self,
        seat: &mut Recorder_,
        value: i64,
    ) -> Result<(), Refusal_> {
        seat.record_set(&self.on, Self::set_(), value)
    }
}

impl On_shop__took<SharedInstrument_> {
    /// Records a value by any recorder. What is refused is counted, and told once.
    #[inline]
    pub fn record(
        &self,
        value: i64,
    ) {
        self.on.add_set(Self::set_(), value);
    }

    /// These attributes, for recordings and durations by any recorder.
    pub fn bind(&self) -> Bound_ {
        self.on.bind_set(Self::set_())
    }
}

/// The instruments of the meter `shop`.
#[derive(Clone)]
pub struct Meter_shop<I = Instrument_> {
    /// `orders`
    pub orders: On_shop__orders<I>,
    /// `took`
    pub took: On_shop__took<I>,
}

/// All instruments, each under its meter.
#[derive(Clone)]
pub struct Metrics<I = Instrument_> {
    /// `shop`
    pub shop: Meter_shop<I>,
}

/// The recorders.
pub struct Recorders {
    /// `till`
    pub till: Recorder_,
}

/// What is opened.
pub struct Opened {
    pub metrics: Metrics,
    pub recorders: Recorders,
    pub readers: Vec<Reader_>,
    pub warnings: String,
    /// The host's own calls.
    pub own: wormweekly::Metrics,
}

/// What is opened, and shared by threads: any of them records by any recorder.
pub struct Shared {
    pub metrics: Metrics<SharedInstrument_>,
    pub readers: Vec<Reader_>,
    pub warnings: String,
    /// The host's own calls.
    pub own: Shared_,
}

/// Why a run is not opened, or is not of what this file was made of.
#[derive(Debug)]
pub enum BindFault {
    Open(OpenFault_),
    /// An instrument means something else: run `wormweekly bind` again.
    Other(MeaningFault_),
    /// There is no recorder of this name: run `wormweekly bind` again.
    Seat(&'static str),
}

impl std::fmt::Display for BindFault {
    fn fmt(&self, f: &mut std::fmt::Formatter<'_>) -> std::fmt::Result {
        match self {
            BindFault::Open(own) => write!(f, "{own}"),
            BindFault::Other(own) => write!(f, "{own}: run `wormweekly bind` again"),
            BindFault::Seat(name) => write!(f, "there is no recorder {name}: run `wormweekly bind` again"),
        }
    }
}

impl std::error::Error for BindFault {}

/// Opens a run, and compares it with what this file was made of.
pub fn open(catalogue: &str, config: &str, start: u64) -> Result<Opened, BindFault> {
    bound(wormweekly::open(catalogue, config, start).map_err(BindFault::Open)?)
}

fn flag_(flag: bool, yes: u16, no: u16) -> u16 {
    if flag { yes } else { no }
}

fn taken_(seats: &mut Vec<Recorder_>, name: &'static str) -> Result<Recorder_, BindFault> {
    let at = seats.iter().position(|own| own.name() == name).ok_or(BindFault::Seat(name))?;
    Ok(seats.remove(at))
}

fn metrics_(own: &wormweekly::Metrics, seats: &mut [Recorder_]) -> Result<Metrics, BindFault> {
    let seat = seats.first_mut().ok_or(BindFault::Seat("of any name"))?;
    Ok(Metrics {
        shop: Meter_shop {
            orders: On_shop__orders {
                on: own.expect(seat, "shop", "orders", Kind_::Counter, "", &[
                    ExpectedKey_ {
                        name: "country",
                        values: &[
                            Value_::Text("de"),
                            Value_::Text("fr"),
                        ],
                        optional: false,
                    },
                ]).map_err(BindFault::Other)?.clone(),
            },
            took: On_shop__took {
                on: own.expect(seat, "shop", "took", Kind_::Histogram, "ms", &[
                ]).map_err(BindFault::Other)?.clone(),
            },
        },
    })
}

/// Compares a run that is opened with what this file was made of.
pub fn bound(opened: Opened_) -> Result<Opened, BindFault> {
    let Opened_ { metrics: own, mut recorders, readers, warnings } = opened;
    let metrics = metrics_(&own, &mut recorders)?;
    let recorders = Recorders {
        till: taken_(&mut recorders, "till")?,
    };
    Ok(Opened { metrics, recorders, readers, warnings, own })
}

/// Compares a run that is opened with what this file was made of, and gives its recorders to the instruments.
pub fn shared(mut opened: Opened_) -> Result<Shared, BindFault> {
    let own = metrics_(&opened.metrics, &mut opened.recorders)?;
    let warnings = std::mem::take(&mut opened.warnings);
    let (all, readers) = opened.share();
    let each = all.instruments();
    let metrics = Metrics {
        shop: Meter_shop {
            orders: On_shop__orders { on: each[own.shop.orders.on.number() as usize].clone() },
            took: On_shop__took { on: each[own.shop.took.on.number() as usize].clone() },
        },
    };
    Ok(Shared { metrics, readers, warnings, own: all })
}
