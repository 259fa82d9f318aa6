//! Many values of a document by one call.

use crate::calls::{self, Moment, Path};
use crate::{class_of, text_of, Class, Fault};

/// Paths to blocks: made once, and followed in many documents. A path has item numbers from 0: the first is that of a
/// block at the top level, each other that of an item of the one before.
///
/// ```
/// use simple_asn1_records::{Fault, Paths};
///
/// fn main() -> Result<(), Fault> {
///     let paths = Paths::new([&[0, 0][..], &[0, 1], &[0, 2]]);
///     let values = paths.values(&[0x30, 0x06, 0x02, 0x01, 0x05, 0x0C, 0x01, 0x41])?;
///     assert_eq!(values[0].unwrap().int64(), Some(5));
///     assert_eq!(values[1].unwrap().text()?, "A");
///     assert!(values[2].is_none());
///     Ok(())
/// }
/// ```
#[derive(Clone, Debug, Default)]
pub struct Paths {
    steps: Vec<usize>,
    paths: Vec<Path>,
}

impl Paths {
    pub fn new<P: AsRef<[usize]>>(paths: impl IntoIterator<Item = P>) -> Paths {
        let mut all = Paths::default();
        for path in paths {
            let steps = path.as_ref();
            all.paths.push(Path { start: all.steps.len(), length: steps.len() });
            all.steps.extend_from_slice(steps);
        }
        all
    }

    /// What each path leads to, in order; `None` if it leads nowhere. The document is read by its headers alone, as by
    /// [`Document::outline`](crate::Document::outline), which has the same errors.
    pub fn values<'a>(&self, octets: &'a [u8]) -> Result<Vec<Option<Value<'a>>>, Fault> {
        let found = calls::values(octets, &self.steps, &self.paths)?;
        Ok(found.into_iter().map(|found| (found.kind != 0).then_some(Value { octets, found })).collect())
    }
}

/// A block that a path leads to.
#[derive(Clone, Copy, Debug)]
pub struct Value<'a> {
    octets: &'a [u8],
    found: calls::Value,
}

impl<'a> Value<'a> {
    pub fn class(&self) -> Class {
        class_of(self.found.tag_class)
    }

    /// The tag number; `u64::MAX` for greater ones.
    pub fn tag(&self) -> u64 {
        self.found.tag
    }

    pub fn is_constructed(&self) -> bool {
        self.found.constructed != 0
    }

    /// The offset of its first byte in the document.
    pub fn offset(&self) -> usize {
        self.found.offset
    }

    /// The bytes of the whole block.
    pub fn octets(&self) -> &'a [u8] {
        &self.octets[self.found.offset..][..self.found.header + self.found.contents]
    }

    /// Its contents octets.
    pub fn contents(&self) -> &'a [u8] {
        &self.octets()[self.found.header..]
    }

    /// The number of an INTEGER, if it fits an `i64`; `None` for any other block.
    pub fn int64(&self) -> Option<i64> {
        (self.found.kind == 2).then_some(self.found.number)
    }

    /// The moment of a UTCTime or GeneralizedTime.
    pub fn moment(&self) -> Result<Moment, Fault> {
        calls::time(self.octets, self.offset())
    }

    /// The text of a string, of any kind.
    pub fn text(&self) -> Result<String, Fault> {
        text_of(calls::text(self.octets, self.offset(), self.found.contents)?, self.offset())
    }

    /// The components of an OBJECT IDENTIFIER, as in `1.2.840`.
    pub fn oid(&self) -> Result<String, Fault> {
        let contents = if self.class() == Class::Universal && self.tag() == 6 { self.found.contents } else { 0 };
        text_of(calls::oid(self.octets, self.offset(), contents)?, self.offset())
    }
}
