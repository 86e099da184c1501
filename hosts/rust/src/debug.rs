//! What is shown of types that hold what belongs to the library.
use crate::metrics::{Instrument, Metrics, Rolled};
use crate::opening::Opened;
use crate::reader::Reader;
use crate::recorder::{Prepared, Recorder};
use crate::resource::Resource;
use crate::scopes::{InFlight, Timer};
use crate::shards::Ended;
use crate::shared::{Bound, Shared, SharedInstrument};
use std::fmt::{Debug, Formatter, Result};

// Shows a type with what says which one of it it is.
macro_rules! shown {
    ($($of:ident { $($part:ident: $by:expr),* })*) => {
        $(impl Debug for $of {
            fn fmt(&self, out: &mut Formatter<'_>) -> Result {
                out.debug_struct(stringify!($of))
                    $(.field(stringify!($part), &$by(self)))*
                    .finish_non_exhaustive()
            }
        })*
    };
}

shown! {
    Metrics { instruments: Metrics::instruments }
    Instrument { name: Instrument::name }
    Recorder { name: Recorder::name }
    Reader { name: Reader::name }
    Prepared { instrument: |own: &Prepared| own.instrument.clone() }
    Opened { metrics: |own: &Opened| own.metrics.clone(), warnings: |own: &Opened| own.warnings.clone() }
    Rolled { totals: |own: &Rolled| own.totals.clone() }
    Ended { totals: |own: &Ended| own.totals.clone() }
    Shared { instruments: Shared::instruments }
    SharedInstrument { name: SharedInstrument::name }
    Bound { on: |own: &Bound| own.instrument().clone() }
    InFlight { is_counted: InFlight::is_counted }
    Timer {}
    Resource {}
}
