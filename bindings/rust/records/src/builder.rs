//! Documents that are made of values.

use crate::calls::{self, Moment, Record};
use crate::{Block, Class, Fault, FaultKind};

/// A document that is made of values, block by block. The first error stays, and [`Builder::finish`] returns it.
///
/// ```
/// use simple_asn1_records::{Builder, Class, Fault};
///
/// fn main() -> Result<(), Fault> {
///     let der = Builder::new().open(Class::Universal, 16).add_int64(5).add_null().close().finish()?;
///     assert_eq!(der, [0x30, 0x05, 0x02, 0x01, 0x05, 0x05, 0x00]);
///     Ok(())
/// }
/// ```
#[derive(Clone, Debug, Default)]
pub struct Builder {
    octets: Vec<u8>,
    records: Vec<Record>,
    /// The indices of the open blocks, the innermost last.
    open: Vec<usize>,
    fault: Option<Fault>,
}

impl Builder {
    pub fn new() -> Builder {
        Builder::default()
    }

    /// Begins a constructed block: those that are added until [`Builder::close`] are its items.
    pub fn open(&mut self, class: Class, tag: u64) -> &mut Builder {
        self.add(class, tag, true, Ok(&[]));
        self.open.push(self.records.len() - 1);
        self
    }

    /// Ends the innermost open block. If none is open, the error is [`FaultKind::BadRecord`].
    pub fn close(&mut self) -> &mut Builder {
        match self.open.pop() {
            Some(index) => self.records[index].next = self.records.len(),
            None => self.refuse(Fault { kind: FaultKind::BadRecord, offset: 0 }),
        }
        self
    }

    pub fn add_boolean(&mut self, value: bool) -> &mut Builder {
        self.add_value(1, calls::put_boolean(value))
    }

    pub fn add_int64(&mut self, value: i64) -> &mut Builder {
        self.add_value(2, calls::put_int64(value))
    }

    /// A BIT STRING of the first bits of the bytes, which must be the fewest that hold so many. Unused bits of the
    /// last stay as they are; in DER they are 0.
    pub fn add_bits(&mut self, octets: &[u8], bits: usize) -> &mut Builder {
        self.add_value(3, calls::put_bits(octets, bits))
    }

    pub fn add_null(&mut self) -> &mut Builder {
        self.add_value(5, Ok(Vec::new()))
    }

    /// An OBJECT IDENTIFIER with these components, as in `1.2.840`.
    pub fn add_oid(&mut self, text: &str) -> &mut Builder {
        self.add_value(6, calls::put_oid(text))
    }

    /// A string with this tag number: 12 for UTF8String, 19 for PrintableString, 22 for IA5String.
    pub fn add_text(&mut self, tag: u64, text: &str) -> &mut Builder {
        self.add_value(tag, calls::put_text(tag, text))
    }

    /// A UTCTime (tag 23), of the years 1950 to 2049 and whole seconds, or a GeneralizedTime (tag 24).
    pub fn add_time(&mut self, tag: u64, moment: Moment) -> &mut Builder {
        self.add_value(tag, calls::put_time(tag, moment))
    }

    /// A primitive block with these contents octets as they are: an OCTET STRING (tag 4 of class Universal), or an
    /// INTEGER (tag 2) of any size in two's complement.
    pub fn add_octets(&mut self, class: Class, tag: u64, octets: &[u8]) -> &mut Builder {
        self.add(class, tag, false, Ok(octets))
    }

    /// A copy of a block that was read, with all that it holds.
    pub fn add_block(&mut self, block: Block<'_, '_>) -> &mut Builder {
        self.add(block.class(), block.tag(), block.is_constructed(), Ok(block.contents()))
    }

    /// The canonical bytes of the document, or the first error. A block that was not closed is a
    /// [`FaultKind::BadRecord`].
    pub fn finish(&self) -> Result<Vec<u8>, Fault> {
        match (self.fault, self.open.last()) {
            (Some(fault), _) => Err(fault),
            (None, Some(&offset)) => Err(Fault { kind: FaultKind::BadRecord, offset }),
            (None, None) => calls::write(&self.octets, &self.records),
        }
    }

    fn add_value(&mut self, tag: u64, contents: Result<Vec<u8>, Fault>) -> &mut Builder {
        self.add(Class::Universal, tag, false, contents.as_deref().map_err(|fault| *fault))
    }

    fn add(&mut self, class: Class, tag: u64, constructed: bool, contents: Result<&[u8], Fault>) -> &mut Builder {
        let contents = contents.unwrap_or_else(|fault| {
            self.refuse(fault);
            &[]
        });
        if let Some(&around) = self.open.last() {
            self.records[around].items += 1;
        }
        self.records.push(Record {
            tag,
            offset: self.octets.len(),
            contents: contents.len(),
            next: self.records.len() + 1,
            depth: self.open.len(),
            tag_class: class as u8,
            constructed: u8::from(constructed),
            ..Record::default()
        });
        self.octets.extend_from_slice(contents);
        self
    }

    /// Keeps the fault of the block that would be next, if it is the first.
    fn refuse(&mut self, fault: Fault) {
        self.fault.get_or_insert(Fault { offset: self.records.len(), ..fault });
    }
}
