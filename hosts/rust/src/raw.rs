//! The calls of the library, as `wormweekly.h` declares them.
use std::ffi::c_void;
use std::ptr::null_mut;

/// A handle: null, or as the library left it. It is not `Clone`, and the modules above lend it to one call at a time.
#[repr(C)]
pub struct Handle {
    at: *mut c_void,
}

impl Handle {
    pub const NOTHING: Handle = Handle { at: null_mut() };
}

// SAFETY: the library proves of each of its three handles that what it owns may go to another thread.
unsafe impl Send for Handle {}

#[repr(C)]
#[derive(Clone, Copy, Default)]
pub struct Attribute {
    pub key: usize,
    pub kind: usize,
    pub text: usize,
    pub whole: i64,
}

#[repr(C)]
#[derive(Clone, Copy, Debug, PartialEq, Eq)]
pub struct Prepared {
    pub set: [u16; 8],
    pub value: i64,
}

#[repr(C)]
#[derive(Clone, Copy, Default)]
pub struct Counts {
    pub instruments: usize,
    pub recorders: usize,
    pub readers: usize,
}

#[repr(C)]
#[derive(Clone, Copy, Default)]
pub struct Total {
    pub count: u64,
    pub negative: u64,
    pub high: u64,
    pub low: u64,
}

#[repr(C)]
#[derive(Clone, Copy, Default)]
pub struct Budget {
    pub declared: u64,
    pub granted: u64,
    pub spent: u64,
    pub left: u64,
}

#[repr(C)]
#[derive(Clone, Copy, Default)]
pub struct Spare {
    pub declared: u64,
    pub granted: u64,
    pub left: u64,
}

#[repr(C)]
#[derive(Clone, Copy, Default)]
pub struct Range {
    pub least: i64,
    pub greatest: i64,
}

#[repr(C)]
#[derive(Clone, Copy, Default)]
pub struct Headroom {
    pub declared: u64,
    pub most: u64,
    pub limit: u64,
    pub stream: u64,
}

#[repr(C)]
#[derive(Clone, Copy, Default)]
pub struct Batch {
    pub instrument: u64,
    pub streams: u64,
    pub start: u64,
    pub time: u64,
}

#[repr(C)]
#[derive(Clone, Copy, Default)]
pub struct Stream {
    pub number: u64,
    pub kind: u64,
    pub aggregation: u64,
    pub delta: u64,
    pub boundaries: u64,
    pub points: u64,
}

#[repr(C)]
#[derive(Clone, Copy, Default)]
pub struct Point {
    pub set: [u16; 8],
    pub is_series: u64,
    pub count: u64,
    pub has_value: u64,
    pub value: i64,
    pub least: i64,
    pub greatest: i64,
    pub buckets: u64,
}

unsafe extern "C" {
    pub fn wormweekly_lint(
        catalogue: *const u8,
        catalogue_length: usize,
        config: *const u8,
        config_length: usize,
        out: *mut u8,
        room: usize,
        text_length: *mut usize,
    ) -> u32;
    pub fn wormweekly_explain(
        recorder: *mut Handle,
        instrument: u32,
        texts: *const u8,
        texts_length: usize,
        attributes: *const Attribute,
        attributes_length: usize,
        value: i64,
        out: *mut u8,
        room: usize,
        text_length: *mut usize,
    ) -> u32;
    pub fn wormweekly_expect(
        recorder: *mut Handle,
        instrument: u32,
        kind: u32,
        texts: *const u8,
        texts_length: usize,
        declared: *const Attribute,
        declared_length: usize,
        optional: u32,
        fault: *mut u8,
        fault_room: usize,
        fault_length: *mut usize,
    ) -> u32;
    pub fn wormweekly_open(
        catalogue: *const u8,
        catalogue_length: usize,
        config: *const u8,
        config_length: usize,
        start: u64,
        instruments: *mut Handle,
        instruments_length: usize,
        recorders: *mut Handle,
        recorders_length: usize,
        readers: *mut Handle,
        readers_length: usize,
        counts: &mut Counts,
        fault: *mut u8,
        fault_room: usize,
        fault_length: &mut usize,
    ) -> u32;
    pub fn wormweekly_open_certified(
        catalogue: *const u8,
        catalogue_length: usize,
        config: *const u8,
        config_length: usize,
        certificate: *const u8,
        certificate_length: usize,
        start: u64,
        instruments: *mut Handle,
        instruments_length: usize,
        recorders: *mut Handle,
        recorders_length: usize,
        readers: *mut Handle,
        readers_length: usize,
        counts: &mut Counts,
        fault: *mut u8,
        fault_room: usize,
        fault_length: &mut usize,
    ) -> u32;
    pub fn wormweekly_next(
        recorder: &mut Handle,
        start: u64,
        instruments: *mut Handle,
        instruments_length: usize,
        recorders: *mut Handle,
        recorders_length: usize,
        readers: *mut Handle,
        readers_length: usize,
        counts: &mut Counts,
    ) -> u32;
    pub fn wormweekly_prepare(
        recorder: &mut Handle,
        instrument: u32,
        texts: *const u8,
        texts_length: usize,
        attributes: *const Attribute,
        attributes_length: usize,
        prepared: &mut Prepared,
    ) -> u32;
    pub fn wormweekly_record_prepared(
        instrument: &mut Handle,
        recorder: &mut Handle,
        prepared: &Prepared,
    ) -> u32;
    pub fn wormweekly_record_list(
        instrument: &mut Handle,
        recorder: &mut Handle,
        list: *const Prepared,
        list_length: usize,
        made: &mut usize,
    ) -> u32;
    pub fn wormweekly_collect(instrument: &mut Handle, reader: &mut Handle, now: u64) -> u32;
    pub fn wormweekly_collect_also(instrument: &mut Handle, reader: &mut Handle, now: u64) -> u32;
    pub fn wormweekly_text(
        reader: &mut Handle,
        out: *mut u8,
        room: usize,
        text_length: &mut usize,
    ) -> u32;
    pub fn wormweekly_otlp(
        reader: &mut Handle,
        json: u32,
        texts: *const u8,
        texts_length: usize,
        attributes: *const Attribute,
        attributes_length: usize,
        out: *mut u8,
        room: usize,
        text_length: &mut usize,
    ) -> u32;
    pub fn wormweekly_expose(
        reader: &mut Handle,
        fault: *mut u8,
        fault_room: usize,
        fault_length: &mut usize,
    ) -> u32;
    pub fn wormweekly_prometheus(
        reader: &mut Handle,
        dialect: u32,
        out: *mut u8,
        room: usize,
        text_length: &mut usize,
    ) -> u32;
    pub fn wormweekly_prometheus_target(
        dialect: u32,
        texts: *const u8,
        texts_length: usize,
        attributes: *const Attribute,
        attributes_length: usize,
        out: *mut u8,
        room: usize,
        text_length: &mut usize,
    ) -> u32;
    pub fn wormweekly_batch(reader: &mut Handle, out: &mut Batch) -> u32;
    pub fn wormweekly_stream(reader: &mut Handle, stream: usize, out: &mut Stream) -> u32;
    pub fn wormweekly_point(
        reader: &mut Handle,
        stream: usize,
        point: usize,
        out: &mut Point,
    ) -> u32;
    pub fn wormweekly_stream_text(
        reader: &mut Handle,
        stream: usize,
        kind: u32,
        out: *mut u8,
        room: usize,
        text_length: &mut usize,
    ) -> u32;
    pub fn wormweekly_boundaries(
        reader: &mut Handle,
        stream: usize,
        out: *mut i64,
        room: usize,
    ) -> u32;
    pub fn wormweekly_buckets(
        reader: &mut Handle,
        stream: usize,
        point: usize,
        out: *mut u64,
        room: usize,
    ) -> u32;
    pub fn wormweekly_key(
        reader: &mut Handle,
        stream: usize,
        key: usize,
        out: *mut u8,
        room: usize,
        text_length: &mut usize,
    ) -> u32;
    pub fn wormweekly_value(
        reader: &mut Handle,
        stream: usize,
        key: usize,
        entry: u16,
        value: &mut Attribute,
        out: *mut u8,
        room: usize,
    ) -> u32;
    pub fn wormweekly_name(
        recorder: &mut Handle,
        kind: u32,
        number: u32,
        out: *mut u8,
        room: usize,
        text_length: &mut usize,
    ) -> u32;
    pub fn wormweekly_reader_name(
        reader: &mut Handle,
        kind: u32,
        number: u32,
        out: *mut u8,
        room: usize,
        text_length: &mut usize,
    ) -> u32;
    pub fn wormweekly_range(recorder: &mut Handle, instrument: u32, out: &mut Range) -> u32;
    pub fn wormweekly_warnings(
        recorder: &mut Handle,
        out: *mut u8,
        room: usize,
        text_length: &mut usize,
    ) -> u32;
    pub fn wormweekly_grant(instrument: &mut Handle, recorder: u32, amount: u64) -> u32;
    pub fn wormweekly_ask(instrument: &mut Handle, recorder: &mut Handle, amount: u64) -> u32;
    pub fn wormweekly_budget(
        instrument: &mut Handle,
        recorder: &mut Handle,
        out: &mut Budget,
    ) -> u32;
    pub fn wormweekly_headrooms(recorder: *mut Handle, out: *mut Headroom, room: usize) -> u32;
    pub fn wormweekly_spare(instrument: &mut Handle, out: &mut Spare) -> u32;
    pub fn wormweekly_close(instrument: &mut Handle) -> u32;
    pub fn wormweekly_settle(
        instrument: &mut Handle,
        recorders: *mut Handle,
        recorders_length: usize,
        total: &mut Total,
    ) -> u32;
    pub fn wormweekly_free_instrument(instrument: &mut Handle);
    pub fn wormweekly_free_recorder(recorder: &mut Handle);
    pub fn wormweekly_free_reader(reader: &mut Handle);
}
