//! How often the instruments of a plan may be recorded.
use crate::raw;

/// How often an instrument may be recorded, all recorders together. A certified plan declares no more than the most
/// that is safe: between the two a catalogue can be raised.
#[derive(Clone, Copy, Debug, PartialEq, Eq)]
pub struct Headroom {
    /// How many recordings the catalogue declares, with those to spare.
    pub declared: u64,
    /// The most that is safe, while all else stays as it is.
    pub most: u64,
    /// What one more would break.
    pub limit: Limit,
}

/// What keeps an instrument from being recorded more often.
#[derive(Clone, Copy, Debug, PartialEq, Eq)]
#[non_exhaustive]
pub enum Limit {
    /// A count would leave the range of `u64`.
    Count,
    /// Two sums could be 2^64 or more apart.
    Amount,
    /// A sum could be below the least `i64`.
    SumLow,
    /// A sum could be above the greatest `i64`.
    SumHigh,
    /// A stream could have more series than its limit.
    Series {
        /// The number of the stream in the plan.
        stream: u64,
    },
}

impl Headroom {
    pub(crate) fn of(raw: &raw::Headroom) -> Headroom {
        let limit = match raw.limit {
            0 => Limit::Count,
            1 => Limit::Amount,
            2 => Limit::SumLow,
            3 => Limit::SumHigh,
            _ => Limit::Series { stream: raw.stream },
        };
        Headroom {
            declared: raw.declared,
            most: raw.most,
            limit,
        }
    }
}
