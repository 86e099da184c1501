//! The keys of attributes, each named once.
use crate::value::Value;

/// The key of an attribute, so that its name stands in one place of a program.
///
/// ```
/// use wormweekly::Key;
///
/// const ROUTE: Key = Key::new("http.route");
///
/// fn served(recorder: &mut wormweekly::Recorder, requests: &wormweekly::Instrument) -> Result<(), wormweekly::Refusal>
/// {
///     recorder.record(requests, &[ROUTE.of("/pay")], 1)
/// }
/// ```
#[derive(Clone, Copy, Debug, PartialEq, Eq, Hash)]
pub struct Key(&'static str);

impl Key {
    /// The key of this name.
    pub const fn new(name: &'static str) -> Key {
        Key(name)
    }

    /// The name.
    pub const fn name(self) -> &'static str {
        self.0
    }

    /// The attribute of this key with a value.
    pub fn of<'a>(self, value: impl Into<Value<'a>>) -> (&'static str, Value<'a>) {
        (self.0, value.into())
    }
}
