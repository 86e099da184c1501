//! Metrics that are counted exactly, as it is proved of the library that this crate links.
//!
//! A *catalogue* declares what may ever be recorded: instruments with the values of their attributes, and recorders
//! with their budgets; a *config* declares readers and views. [`open`] certifies that nothing can overflow, and gives
//! the [`Metrics`], with a [`Recorder`] for each recorder and a [`Reader`] for each reader.
//!
//! ```
//! const CATALOGUE: &str = "format = 1
//! [[meter]]
//! name = 'shop'
//! [[meter.instrument]]
//! name = 'orders'
//! kind = 'counter'
//! range = [1, 100]
//! key = [{ name = 'country', values = ['de', 'fr'] }]
//! [[recorder]]
//! name = 'main'
//! budget = [{ instrument = 0, amount = 1000 }]
//! ";
//! const CONFIG: &str = "format = 1
//! [[reader]]
//! name = 'console'
//! ";
//!
//! fn main() -> Result<(), Box<dyn std::error::Error>> {
//!     let mut opened = wormweekly::open(CATALOGUE, CONFIG, 0)?;
//!     let orders = opened.metrics.instrument("orders")?;
//!     let main = &mut opened.recorders[0];
//!     main.record(orders, &[("country", "de".into())], 2)?;
//!     main.record(orders, &[("country", "fr".into())], 1)?;
//!     print!("{}", opened.readers[0].collect(orders, 1_000)?);
//!     assert_eq!(opened.metrics.settle(&mut opened.recorders)?[0].sum, 3);
//!     Ok(())
//! }
//! ```
//!
//! # Recordings of any thread
//!
//! [`Opened::share`] gives the recorders to the instruments, on which any thread records then, as a service wants it
//! that has more threads than recorders. The recorders are shards: a recording takes one that is free, goes on to the
//! next where a budget is spent, then asks the spare budget, and only then is it refused. What is refused is counted,
//! and told once for each reason.
//!
//! ```
//! use wormweekly::{Key, SharedInstrument, TimeUnit};
//!
//! const ROUTE: Key = Key::new("http.route");
//!
//! struct Service {
//!     requests: SharedInstrument,
//!     in_flight: SharedInstrument,
//!     took: SharedInstrument,
//! }
//!
//! impl Service {
//!     fn serve(&self, route: &str, request: impl FnOnce()) {
//!         let _counted = self.in_flight.in_flight(&[]);
//!         let _timed = self.took.time(TimeUnit::Milliseconds, &[ROUTE.of(route)]);
//!         request();
//!         self.requests.add(1, &[ROUTE.of(route)]);
//!     }
//! }
//! ```
//!
//! # Recorders of one's own
//!
//! An [`Instrument`] is shared by threads, and has a mutex inside. A recorder or a reader is owned by one thread at a
//! time: neither can be cloned, and two threads can't record with one recorder.
//!
//! ```compile_fail,E0599
//! fn copy(recorder: wormweekly::Recorder) -> wormweekly::Recorder {
//!     recorder.clone()
//! }
//! ```
//!
//! ```compile_fail,E0499
//! fn both(recorder: &mut wormweekly::Recorder, orders: &wormweekly::Instrument) {
//!     std::thread::scope(|scope| {
//!         scope.spawn(|| recorder.record(orders, &[], 1));
//!         scope.spawn(|| recorder.record(orders, &[], 1));
//!     });
//! }
//! ```
//!
//! Each of them may go to another thread, and an instrument be shared; a recorder or a reader is not shared even by
//! `&`.
//!
//! ```
//! fn goes<T: Send>() {}
//! goes::<wormweekly::Recorder>();
//! goes::<wormweekly::Reader>();
//! fn is_shared<T: Send + Sync>() {}
//! is_shared::<wormweekly::Metrics>();
//! is_shared::<wormweekly::Instrument>();
//! is_shared::<wormweekly::Prepared>();
//! ```
//!
//! ```compile_fail,E0277
//! fn is_shared<T: Sync>() {}
//! is_shared::<wormweekly::Recorder>();
//! ```
//!
//! ```compile_fail,E0277
//! fn is_shared<T: Sync>() {}
//! is_shared::<wormweekly::Reader>();
//! ```
//!
//! A recorder that was dropped is gone, and so are its totals: [`Metrics::settle`] asks for all of them.
//!
//! ```compile_fail,E0382
//! fn gone(recorder: wormweekly::Recorder, orders: &wormweekly::Instrument) {
//!     drop(recorder);
//!     let _ = recorder.record(orders, &[], 1);
//! }
//! ```
//!
//! # What leaves
//!
//! [`Reader::collect`] answers the project's own text of a batch, [`Reader::batch`] the batch point by point. For a
//! collector there is [`Reader::otlp`], for Prometheus [`Metrics::page`], each with a [`Resource`] that tells what
//! produces the metrics; [`Reader::expose`] says before anything is recorded whether a server would hold each sample of
//! a page. The examples
//! `otlp_push` and `metrics_http` do both with the standard library alone.
//!
//! # What is told
//!
//! An opening that fails tells the first fault with its place, as `catalogue:7:1: instrument 0 "orders": unknown kind
//! "guage"; ..`, and [`lint`] tells what else looks like a mistake before anything is opened. A recording that is
//! refused for what it says prints that, as
//! `orders: key "country" has no value "uk"`. The words may change from version to version; the variants do not change their meaning.
//!
//! # What a service lives on
//!
//! [`Recorder::left`] tells what a recorder has left, [`Recorder::ask`] gets more of what an instrument has to spare
//! ([`Instrument::spare`]), and [`Metrics::roll_over`] ends a run with its totals and begins the next one with full
//! budgets. [`Metrics::headrooms`] tells how far the catalogue's budgets could be raised.
//!
//! # Recording without forgetting
//!
//! A [`Key`] names an attribute once. [`Recorder::during`] counts some work as under way and [`Recorder::timed`]
//! measures it, both on every way out of it. So a web service gives each of its workers a recorder, and wraps a request
//! in both:
//!
//! ```
//! use wormweekly::{Key, Prepared, Recorder, TimeUnit};
//!
//! const ROUTE: Key = Key::new("http.route");
//!
//! struct Worker {
//!     recorder: Recorder,
//!     active: Prepared,
//!     took: Prepared,
//! }
//!
//! impl Worker {
//!     fn serve(&mut self, request: impl FnOnce() -> u16) -> u16 {
//!         let Worker { recorder, active, took } = self;
//!         let ((status, timed), counted) =
//!             recorder.during(active, |recorder| recorder.timed(took, TimeUnit::Milliseconds, |_| request()));
//!         if let Err(refusal) = counted.and(timed) {
//!             eprintln!("not recorded: {refusal}");
//!         }
//!         status
//!     }
//! }
//! # let _ = ROUTE.of("/pay");
//! ```
//!
//! # What a host owes, and nothing checks
//!
//! 1. A handle is null or as the library left it, never copied or written, and in one call at a time: an instrument under a
//!    mutex of its own, a recorder or a reader on the thread that has it.
//! 2. Pointers and lengths are those of memory that the host owns, and buffers do not overlap.
//! 3. The declarations are those of the header of the library's version.
//! 4. `malloc`, `realloc` and `free` are of one allocator, which aligns a block to each power of two up to 16 that divides its
//!    size.
//! 5. No call is made from a signal handler, or from the forked child of a process with threads.
//!
//! The types of this crate keep the first two.
#![warn(missing_docs)]

mod batch;
mod debug;
mod dialect;
mod expected;
mod fault;
mod headroom;
mod key;
mod measured;
mod metrics;
mod opening;
#[allow(missing_docs)]
mod raw;
mod reader;
mod recorder;
mod refused;
mod resource;
mod scopes;
mod shards;
mod shared;
mod texts;
mod value;

pub use batch::{Batch, Kind, OwnedValue, Point, PointValue, Stream};
pub use dialect::Dialect;
pub use expected::ExpectedKey;
pub use fault::{
    About, ExposureFault, ListRefusal, MeaningFault, OpenFault, Refusal, ResourceFault, RollFault,
    SettleFault, UnknownName,
};
pub use headroom::{Headroom, Limit};
pub use key::Key;
pub use measured::TimeUnit;
pub use metrics::{Instrument, Metrics, Rolled, Spare, Total};
pub use opening::{Opened, lint, open, open_certified};
pub use reader::Reader;
pub use recorder::{Budget, Prepared, Recorder};
pub use resource::Resource;
pub use scopes::{InFlight, Timer};
pub use shards::Ended;
pub use shared::{Bound, Shared, SharedInstrument};
pub use value::Value;
