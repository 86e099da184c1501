//! Batches, point by point.
use crate::raw::{self, Handle};
use crate::texts::told;

/// A batch that was collected, for a host that writes a format of its own.
#[derive(Clone, Debug, PartialEq)]
pub struct Batch {
    /// The number of the instrument.
    pub instrument: u64,
    /// When the covered recordings begin, in nanoseconds.
    pub start: u64,
    /// When it was collected, in nanoseconds.
    pub time: u64,
    /// The streams that the reader has of the instrument.
    pub streams: Vec<Stream>,
}

/// A stream with its points.
#[derive(Clone, Debug, PartialEq)]
pub struct Stream {
    /// The name.
    pub name: String,
    /// The unit.
    pub unit: String,
    /// The description.
    pub description: String,
    /// The name of the meter.
    pub meter: String,
    /// The version of the meter.
    pub version: String,
    /// The schema URL of the meter.
    pub schema_url: String,
    /// The kind of the instrument.
    pub kind: Kind,
    /// Whether it covers the recordings since the reader's last collection, and not all since the start.
    pub is_delta: bool,
    /// The boundaries, where it is a histogram.
    pub boundaries: Vec<i64>,
    /// The points.
    pub points: Vec<Point>,
}

/// The kind of an instrument.
#[derive(Clone, Copy, Debug, PartialEq, Eq)]
pub enum Kind {
    /// A sum that only rises.
    Counter,
    /// A sum that rises and falls.
    UpDownCounter,
    /// A distribution of values.
    Histogram,
    /// A current value.
    Gauge,
}

impl Kind {
    // Its number for the library.
    pub(crate) fn number(self) -> u32 {
        match self {
            Kind::Counter => 0,
            Kind::UpDownCounter => 1,
            Kind::Histogram => 2,
            Kind::Gauge => 3,
        }
    }
}

/// What is reported of one series.
#[derive(Clone, Debug, PartialEq)]
pub struct Point {
    /// The attributes, with the keys in declared order; none of the overflow point.
    pub attributes: Vec<(String, OwnedValue)>,
    /// Whether it is of the recordings past the cardinality limit. A certified plan has no such point.
    pub is_overflow: bool,
    /// The value.
    pub value: PointValue,
}

/// The value of an attribute, owned.
#[derive(Clone, Debug, PartialEq, Eq)]
pub enum OwnedValue {
    /// A text.
    Text(String),
    /// A whole number.
    Whole(i64),
    /// A flag.
    Flag(bool),
}

/// The value of a point.
#[derive(Clone, Debug, PartialEq, Eq)]
pub enum PointValue {
    /// A sum.
    Sum(i64),
    /// The value that was recorded last.
    Last(i64),
    /// A histogram.
    Buckets {
        /// How many values there are.
        count: u64,
        /// How many fell into each bucket.
        counts: Vec<u64>,
        /// Their sum, where there is one.
        sum: Option<i64>,
        /// The least.
        min: i64,
        /// The greatest.
        max: i64,
    },
}

/// Reads the batch that a reader keeps, none before one.
pub(crate) fn batch_of(reader: &mut Handle) -> Result<Option<Batch>, u32> {
    let mut out = raw::Batch::default();
    // SAFETY: the handle is as the library left it, this call has it alone, and the buffer is borrowed for it. So
    // below.
    match unsafe { raw::wormweekly_batch(reader, &mut out) } {
        0 => {}
        UNKNOWN => return Ok(None),
        code => return Err(code),
    }
    let streams: Result<_, _> = (0..out.streams as usize)
        .map(|at| stream_at(reader, at))
        .collect();
    Ok(Some(Batch {
        instrument: out.instrument,
        start: out.start,
        time: out.time,
        streams: streams?,
    }))
}

// There is nothing of this number.
const UNKNOWN: u32 = 106;

fn done(code: u32) -> Result<(), u32> {
    if code == 0 { Ok(()) } else { Err(code) }
}

fn stream_at(reader: &mut Handle, at: usize) -> Result<Stream, u32> {
    let mut out = raw::Stream::default();
    done(unsafe { raw::wormweekly_stream(reader, at, &mut out) })?;
    let mut boundaries = vec![0; out.boundaries as usize];
    done(unsafe {
        raw::wormweekly_boundaries(reader, at, boundaries.as_mut_ptr(), boundaries.len())
    })?;
    let mut text = |kind| {
        told(|out, length| unsafe {
            raw::wormweekly_stream_text(reader, at, kind, out.as_mut_ptr(), out.len(), length)
        })
    };
    let [name, unit, description, meter, version, schema_url] =
        [text(0)?, text(1)?, text(2)?, text(3)?, text(4)?, text(5)?];
    let points: Result<_, _> = (0..out.points as usize)
        .map(|number| point_at(reader, at, number, out.aggregation))
        .collect();
    Ok(Stream {
        name,
        unit,
        description,
        meter,
        version,
        schema_url,
        kind: kind_of(out.kind),
        is_delta: out.delta == 1,
        boundaries,
        points: points?,
    })
}

fn kind_of(number: u64) -> Kind {
    match number {
        0 => Kind::Counter,
        1 => Kind::UpDownCounter,
        2 => Kind::Histogram,
        _ => Kind::Gauge,
    }
}

fn point_at(reader: &mut Handle, at: usize, number: usize, aggregation: u64) -> Result<Point, u32> {
    let mut out = raw::Point::default();
    done(unsafe { raw::wormweekly_point(reader, at, number, &mut out) })?;
    let mut counts = vec![0; out.buckets as usize];
    done(unsafe {
        raw::wormweekly_buckets(reader, at, number, counts.as_mut_ptr(), counts.len())
    })?;
    let entries = out.set.iter().enumerate().filter(|(_, entry)| **entry != 0);
    let attributes: Result<_, _> = entries
        .map(|(key, entry)| attribute_at(reader, at, key, *entry))
        .collect();
    let value = match aggregation {
        0 => PointValue::Sum(out.value),
        1 => PointValue::Last(out.value),
        _ => PointValue::Buckets {
            count: out.count,
            counts,
            sum: (out.has_value == 1).then_some(out.value),
            min: out.least,
            max: out.greatest,
        },
    };
    Ok(Point {
        attributes: attributes?,
        is_overflow: out.is_series == 0,
        value,
    })
}

fn attribute_at(
    reader: &mut Handle,
    at: usize,
    key: usize,
    entry: u16,
) -> Result<(String, OwnedValue), u32> {
    let name = told(|out, length| unsafe {
        raw::wormweekly_key(reader, at, key, out.as_mut_ptr(), out.len(), length)
    })?;
    let mut kind = 0;
    let mut whole = 0;
    let text = told(|out, length| {
        let mut value = raw::Attribute::default();
        let code = unsafe {
            raw::wormweekly_value(
                reader,
                at,
                key,
                entry,
                &mut value,
                out.as_mut_ptr(),
                out.len(),
            )
        };
        (kind, whole, *length) = (value.kind, value.whole, value.text);
        code
    })?;
    let value = match kind {
        0 => OwnedValue::Text(text),
        1 => OwnedValue::Whole(whole),
        2 => OwnedValue::Flag(false),
        _ => OwnedValue::Flag(true),
    };
    Ok((name, value))
}
