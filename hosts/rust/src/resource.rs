//! What produces the metrics.
use crate::dialect::Dialect;
use crate::fault::ResourceFault;
use crate::raw;
use crate::texts::told;
use crate::value::{Room, Value};

/// The attributes of what produces the metrics, as `service.name`: at most 64, none with an empty key, and none twice.
/// They are looked at by each call that writes them.
#[derive(Clone, Default)]
pub struct Resource {
    room: Room,
}

impl Resource {
    /// The resource of these attributes.
    pub fn new(attributes: &[(&str, Value<'_>)]) -> Resource {
        let mut room = Room::default();
        room.fill(attributes);
        Resource { room }
    }

    /// The lines of a page that tell of it, as `target_info`; none where it has no attributes. They stand before those
    /// of [`Metrics::page`](crate::Metrics::page).
    ///
    /// # Errors
    ///
    /// The first [`ResourceFault`]: [`BadLabel`](ResourceFault::BadLabel) and
    /// [`LabelCollision`](ResourceFault::LabelCollision) come behind all others.
    pub fn page(&self, dialect: Dialect) -> Result<String, ResourceFault> {
        let Room { texts, attributes } = &self.room;
        // SAFETY: the buffers are borrowed for the call.
        let text = told(|out, length| unsafe {
            raw::wormweekly_prometheus_target(
                dialect.number(),
                texts.as_ptr(),
                texts.len(),
                attributes.as_ptr(),
                attributes.len(),
                out.as_mut_ptr(),
                out.len(),
                length,
            )
        });
        text.map_err(ResourceFault::of)
    }

    pub(crate) fn room(&self) -> &Room {
        &self.room
    }
}
