//! The values of attributes, and attributes as the library takes them.
use crate::raw::Attribute;

/// The value of an attribute.
#[derive(Clone, Copy, Debug, PartialEq, Eq)]
pub enum Value<'a> {
    /// A text.
    Text(&'a str),
    /// A whole number.
    Whole(i64),
    /// A flag.
    Flag(bool),
}

impl<'a> From<&'a str> for Value<'a> {
    fn from(text: &'a str) -> Self {
        Value::Text(text)
    }
}

impl From<i64> for Value<'_> {
    fn from(whole: i64) -> Self {
        Value::Whole(whole)
    }
}

impl From<i32> for Value<'_> {
    fn from(whole: i32) -> Self {
        Value::Whole(i64::from(whole))
    }
}

impl From<bool> for Value<'_> {
    fn from(flag: bool) -> Self {
        Value::Flag(flag)
    }
}

// An instrument has at most so many keys, and the texts of a recording are mostly short.
const FEW: usize = 8;
const SHORT: usize = 256;

// The keys of attributes are compared with one another, so no more than these are. Of so many a key is unknown or
// stands twice, and what follows could not mend that.
const MOST: usize = 65;

/// Room for the few short attributes that most recordings have.
pub(crate) struct FewAttributes {
    texts: [u8; SHORT],
    attributes: [Attribute; FEW],
}

impl Default for FewAttributes {
    fn default() -> FewAttributes {
        FewAttributes {
            texts: [0; SHORT],
            attributes: [Attribute::default(); FEW],
        }
    }
}

impl FewAttributes {
    /// The attributes as a call takes them; nothing where they are too many, or their texts too long.
    pub(crate) fn filled(
        &mut self,
        attributes: &[(&str, Value<'_>)],
    ) -> Option<(&[u8], &[Attribute])> {
        let own = self.attributes.get_mut(..attributes.len())?;
        let mut left = &mut self.texts[..];
        for ((key, value), own) in attributes.iter().zip(own.iter_mut()) {
            left = put(left, key)?;
            if let Value::Text(text) = value {
                left = put(left, text)?;
            }
            *own = attribute_of(key, *value);
        }
        let end = SHORT - left.len();
        Some((&self.texts[..end], own))
    }
}

// Puts a text at the front of a room. What is left of it.
#[inline(always)]
fn put<'a>(room: &'a mut [u8], text: &str) -> Option<&'a mut [u8]> {
    let text = text.as_bytes();
    let (front, left) = room.split_at_mut_checked(text.len())?;
    match text.len() {
        8..=16 => put_ends::<8>(front, text),
        4..=7 => put_ends::<4>(front, text),
        2..=3 => put_ends::<2>(front, text),
        1 => put_ends::<1>(front, text),
        _ => front.copy_from_slice(text),
    }
    Some(left)
}

// Copies the first and the last so many bytes of a text, which is less work than a call that copies it where these are
// all.
#[inline(always)]
fn put_ends<const N: usize>(room: &mut [u8], text: &[u8]) {
    if let (Some(room), Some(text)) = (room.first_chunk_mut::<N>(), text.first_chunk::<N>()) {
        *room = *text;
    }
    if let (Some(room), Some(text)) = (room.last_chunk_mut::<N>(), text.last_chunk::<N>()) {
        *room = *text;
    }
}

// An attribute without its texts.
fn attribute_of(key: &str, value: Value<'_>) -> Attribute {
    let (kind, text, whole) = match value {
        Value::Text(text) => (0, text.len(), 0),
        Value::Whole(whole) => (1, 0, whole),
        Value::Flag(false) => (2, 0, 0),
        Value::Flag(true) => (3, 0, 0),
    };
    Attribute {
        key: key.len(),
        kind,
        text,
        whole,
    }
}

/// Room for any attributes of one call, which a recorder keeps from call to call: after the first calls it takes no
/// memory.
#[derive(Clone, Default)]
pub(crate) struct Room {
    pub(crate) texts: Vec<u8>,
    pub(crate) attributes: Vec<Attribute>,
}

impl Room {
    pub(crate) fn fill(&mut self, attributes: &[(&str, Value<'_>)]) {
        self.texts.clear();
        self.attributes.clear();
        for (key, value) in attributes {
            self.push(key, *value);
        }
    }

    /// The attributes as a recording takes them. Of more than 65 the first 65, which are refused.
    pub(crate) fn filled(&mut self, attributes: &[(&str, Value<'_>)]) -> (&[u8], &[Attribute]) {
        self.fill(&attributes[..attributes.len().min(MOST)]);
        (&self.texts, &self.attributes)
    }

    pub(crate) fn push(&mut self, key: &str, value: Value<'_>) {
        self.texts.extend_from_slice(key.as_bytes());
        if let Value::Text(text) = value {
            self.texts.extend_from_slice(text.as_bytes());
        }
        self.attributes.push(attribute_of(key, value));
    }
}

#[cfg(test)]
mod tests {
    use super::{FEW, FewAttributes, Room, SHORT, Value};

    // A text of so many bytes, no two beside each other alike.
    fn text_of(length: usize) -> String {
        "abcdefghijklmnopqrstuvw"
            .chars()
            .cycle()
            .take(length)
            .collect()
    }

    // Both rooms give one answer wherever the small one has room.
    fn compare(attributes: &[(&str, Value<'_>)]) {
        let (mut few, mut room) = (FewAttributes::default(), Room::default());
        let (texts, all) = room.filled(attributes);
        let fits = attributes.len() <= FEW && texts.len() <= SHORT;
        match few.filled(attributes) {
            None => assert!(!fits),
            Some((few_texts, few_all)) => {
                assert!(fits);
                assert_eq!(few_texts, texts);
                let parts = |own: &crate::raw::Attribute| (own.key, own.kind, own.text, own.whole);
                assert!(few_all.iter().map(parts).eq(all.iter().map(parts)));
            }
        }
    }

    #[test]
    fn both_rooms_give_the_same() {
        for length in 0..300 {
            let text = text_of(length);
            compare(&[(&text, Value::Whole(-7)), ("é", Value::Flag(true))]);
            compare(&[("key", Value::Text(&text)), (&text, Value::Flag(false))]);
            for count in 0..10 {
                compare(&vec![(text.as_str(), Value::Text(&text)); count]);
            }
        }
    }
}
