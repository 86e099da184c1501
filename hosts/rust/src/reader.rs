//! The seats of readers.
use crate::batch::{Batch, batch_of};
use crate::dialect::Dialect;
use crate::fault::{ExposureFault, Refusal, ResourceFault};
use crate::metrics::Instrument;
use crate::raw::{self, Handle};
use crate::resource::Resource;
use crate::texts::{told, told_bytes};
use crate::value::Room;

/// The seat of one reader, with which a thread collects. It keeps what it has seen, so that the windows of a delta
/// reader leave no gap and no overlap.
pub struct Reader {
    handle: Handle,
    name: String,
}

impl Drop for Reader {
    fn drop(&mut self) {
        // SAFETY: the handle is null or as the library left it, and nobody else has it.
        unsafe { raw::wormweekly_free_reader(&mut self.handle) }
    }
}

impl Reader {
    pub(crate) fn new(handle: Handle) -> Reader {
        let name = String::new();
        Reader { handle, name }
    }

    pub(crate) fn set_name(&mut self, name: String) {
        self.name = name;
    }

    // A name of the plan.
    pub(crate) fn name_of(&mut self, kind: u32, number: u32) -> Result<String, u32> {
        let handle = &mut self.handle;
        // SAFETY: as in `collect_kept`, and the buffer is borrowed for the call.
        told(|out, length| unsafe {
            raw::wormweekly_reader_name(handle, kind, number, out.as_mut_ptr(), out.len(), length)
        })
    }

    /// The name.
    pub fn name(&self) -> &str {
        &self.name
    }

    /// Collects an instrument at a time in nanoseconds, and answers the text of the batch. The lock is held for the
    /// collection alone, not for the text. A time before the reader's last one of the instrument is moved up to that
    /// one, so a time that is wrongly far ahead stays until the clock is there.
    ///
    /// # Errors
    ///
    /// A [`Refusal`]. Where it is [`Refusal::Memory`], [`Reader::text`] tells whether the batch is there.
    pub fn collect(&mut self, instrument: &Instrument, now: u64) -> Result<String, Refusal> {
        self.collect_kept(instrument, now)?;
        self.text()
    }

    /// The same without the text. The reader keeps the batch, for [`Reader::text`], [`Reader::batch`], [`Reader::otlp`]
    /// and [`Reader::prometheus`].
    ///
    /// # Errors
    ///
    /// A [`Refusal`]; the batch before is kept then.
    pub fn collect_kept(&mut self, instrument: &Instrument, now: u64) -> Result<(), Refusal> {
        let mut held = instrument.lock();
        // SAFETY: the handles are as the library left them, and this call has them alone.
        match unsafe { raw::wormweekly_collect(&mut held.handle, &mut self.handle, now) } {
            0 => Ok(()),
            code => Err(Refusal::of(code)),
        }
    }

    /// The same; the batch is kept behind those that the reader keeps.
    ///
    /// # Errors
    ///
    /// A [`Refusal`]; the batches before are kept then.
    pub fn collect_also(&mut self, instrument: &Instrument, now: u64) -> Result<(), Refusal> {
        let mut held = instrument.lock();
        // SAFETY: as in `collect_kept`.
        match unsafe { raw::wormweekly_collect_also(&mut held.handle, &mut self.handle, now) } {
            0 => Ok(()),
            code => Err(Refusal::of(code)),
        }
    }

    /// The batch that was collected last, point by point, none before one.
    ///
    /// # Errors
    ///
    /// [`Refusal::Memory`].
    pub fn batch(&mut self) -> Result<Option<Batch>, Refusal> {
        batch_of(&mut self.handle).map_err(Refusal::of)
    }

    /// The text of the batches that the reader keeps, empty before one.
    ///
    /// # Errors
    ///
    /// [`Refusal::Memory`].
    pub fn text(&mut self) -> Result<String, Refusal> {
        let handle = &mut self.handle;
        // SAFETY: as in `collect_kept`, and the buffer is borrowed for the call.
        let text = told(|out, length| unsafe {
            raw::wormweekly_text(handle, out.as_mut_ptr(), out.len(), length)
        });
        text.map_err(Refusal::of)
    }

    /// The batches that the reader keeps as one message `ExportMetricsServiceRequest` of OTLP, which a collector takes at
    /// `/v1/metrics` as `application/x-protobuf`. It is empty where there is no point. Requests one after the other are
    /// one request. The batches stay, so what a collector did not take can be asked for again.
    ///
    /// # Errors
    ///
    /// The first [`ResourceFault`].
    pub fn otlp(&mut self, resource: &Resource) -> Result<Vec<u8>, ResourceFault> {
        self.encoded(0, resource).map_err(ResourceFault::of)
    }

    /// The same as a line of OTLP/JSON, which a collector takes as `application/json`. Each line is a post of its own:
    /// of several, a collector reads the first alone.
    ///
    /// # Errors
    ///
    /// The first [`ResourceFault`].
    pub fn otlp_line(&mut self, resource: &Resource) -> Result<String, ResourceFault> {
        let line = self.encoded(1, resource).map_err(ResourceFault::of)?;
        Ok(String::from_utf8_lossy(&line).into_owned())
    }

    /// Whether the streams of the reader can stand in a page for Prometheus: no sample of the page would be lost, or
    /// taken for another. Ask before anything is recorded.
    ///
    /// # Errors
    ///
    /// The first [`ExposureFault`].
    pub fn expose(&mut self) -> Result<(), ExposureFault> {
        let mut fault = vec![0u8; 256];
        let mut length = 0;
        // SAFETY: as in `collect_kept`, and the buffer is borrowed for the call.
        let code = unsafe {
            raw::wormweekly_expose(
                &mut self.handle,
                fault.as_mut_ptr(),
                fault.len(),
                &mut length,
            )
        };
        fault.truncate(length);
        match code {
            0 => Ok(()),
            11 => Err(ExposureFault::Memory),
            103 => Err(ExposureFault::Fault(
                String::from_utf8_lossy(&fault).into_owned(),
            )),
            code => Err(ExposureFault::Other(code)),
        }
    }

    /// The lines of the batches that the reader keeps in a page for Prometheus, none before one.
    ///
    /// # Errors
    ///
    /// [`Refusal::Memory`].
    pub fn prometheus(&mut self, dialect: Dialect) -> Result<String, Refusal> {
        let handle = &mut self.handle;
        // SAFETY: as in `collect_kept`, and the buffer is borrowed for the call.
        let text = told(|out, length| unsafe {
            raw::wormweekly_prometheus(
                handle,
                dialect.number(),
                out.as_mut_ptr(),
                out.len(),
                length,
            )
        });
        text.map_err(Refusal::of)
    }

    fn encoded(&mut self, json: u32, resource: &Resource) -> Result<Vec<u8>, u32> {
        let handle = &mut self.handle;
        let Room { texts, attributes } = resource.room();
        // SAFETY: as in `collect_kept`, and the buffers are borrowed for the call.
        told_bytes(|out, length| unsafe {
            raw::wormweekly_otlp(
                handle,
                json,
                texts.as_ptr(),
                texts.len(),
                attributes.as_ptr(),
                attributes.len(),
                out.as_mut_ptr(),
                out.len(),
                length,
            )
        })
    }
}
