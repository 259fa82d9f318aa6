#![doc = include_str!("../README.md")]

mod builder;
mod calls;
mod certificate;
mod departures;
mod fault;
mod fields;
mod paths;
mod request;
mod revocation_list;

pub use builder::Builder;
use calls::SignedParts;
pub use calls::{Moment, Record};
pub use certificate::Certificate;
pub use departures::{departures, Departure, Rule};
pub use fault::{Fault, FaultKind};
pub use fields::Extension;
pub use paths::{Paths, Value};
pub use request::{Attribute, CertificationRequest};
pub use revocation_list::{RevocationList, RevokedCertificate, RevokedCertificates};

use std::fmt;
use std::iter::FusedIterator;

/// The version of the library's calls and records: `SIMPLE_ASN1_VERSION` of `simple_asn1.h`.
pub fn version() -> u32 {
    calls::version()
}

/// A document, with the record of each of its blocks: 64 bytes for each, and twice that while it is read. If there are
/// more than 1,024 blocks it is read twice: the first call counts them, and the second gets just the room they need.
#[derive(Clone, Debug)]
pub struct Document<'a> {
    octets: &'a [u8],
    records: Vec<Record>,
}

impl<'a> Document<'a> {
    /// Reads a document: blocks one after another to the end of the bytes, at least one.
    pub fn read(octets: &'a [u8]) -> Result<Document<'a>, Fault> {
        Ok(Document { octets, records: calls::read(octets)? })
    }

    /// Reads a document in canonical form, and rejects any other. Canonical is what [`rewrite`] writes, which is not
    /// quite DER: a BIT STRING of no bits is `03 00`, where DER has `03 01 00`. Section 6 of the library's
    /// `docs/GRAMMAR.md` has the whole list, and [`departures`] says whether bytes are DER.
    pub fn read_strict(octets: &'a [u8]) -> Result<Document<'a>, Fault> {
        Ok(Document { octets, records: calls::read_strict(octets)? })
    }

    /// Reads a document by its headers alone: contents octets of leaves are not checked, so a document with faults in
    /// them can be walked too. Asking for the value of such a leaf returns its fault.
    pub fn outline(octets: &'a [u8]) -> Result<Document<'a>, Fault> {
        Ok(Document { octets, records: calls::outline(octets)? })
    }

    /// The blocks at the top level.
    pub fn blocks(&self) -> Blocks<'_, 'a> {
        Blocks { document: self, index: 0, end: self.records.len() }
    }

    /// The blocks at all depths, each before those inside it.
    pub fn all_blocks(&self) -> impl ExactSizeIterator<Item = Block<'_, 'a>> + DoubleEndedIterator {
        (0..self.records.len()).map(|index| Block { document: self, index })
    }

    pub fn octets(&self) -> &'a [u8] {
        self.octets
    }

    /// The records of all blocks, as [`write()`] takes them.
    pub fn records(&self) -> &[Record] {
        &self.records
    }
}

impl<'d, 'a> IntoIterator for &'d Document<'a> {
    type Item = Block<'d, 'a>;
    type IntoIter = Blocks<'d, 'a>;

    fn into_iter(self) -> Blocks<'d, 'a> {
        self.blocks()
    }
}

/// Blocks one after another at one level.
#[derive(Clone)]
pub struct Blocks<'d, 'a> {
    document: &'d Document<'a>,
    index: usize,
    end: usize,
}

impl<'d, 'a> Iterator for Blocks<'d, 'a> {
    type Item = Block<'d, 'a>;

    fn next(&mut self) -> Option<Block<'d, 'a>> {
        if self.index >= self.end {
            return None;
        }
        let block = Block { document: self.document, index: self.index };
        self.index = block.record().next;
        Some(block)
    }

    fn size_hint(&self) -> (usize, Option<usize>) {
        (usize::from(self.index < self.end), Some(self.end - self.index))
    }
}

impl FusedIterator for Blocks<'_, '_> {}

/// The class of a tag (X.690, table 1).
#[derive(Clone, Copy, Debug, PartialEq, Eq, Hash)]
pub enum Class {
    Universal,
    Application,
    ContextSpecific,
    Private,
}

fn class_of(number: u8) -> Class {
    match number {
        0 => Class::Universal,
        1 => Class::Application,
        2 => Class::ContextSpecific,
        _ => Class::Private,
    }
}

/// A block of a document.
#[derive(Clone, Copy)]
pub struct Block<'d, 'a> {
    document: &'d Document<'a>,
    index: usize,
}

impl<'d, 'a> Block<'d, 'a> {
    pub fn record(&self) -> &'d Record {
        &self.document.records[self.index]
    }

    pub fn class(&self) -> Class {
        class_of(self.record().tag_class)
    }

    /// The tag number; `u64::MAX` for greater ones.
    pub fn tag(&self) -> u64 {
        self.record().tag
    }

    pub fn is_constructed(&self) -> bool {
        self.record().constructed != 0
    }

    /// The offset of its first octet in the document.
    pub fn offset(&self) -> usize {
        self.record().offset
    }

    /// The number of blocks around it.
    pub fn depth(&self) -> usize {
        self.record().depth
    }

    /// The blocks directly inside it.
    pub fn items(&self) -> Blocks<'d, 'a> {
        Blocks { document: self.document, index: self.index + 1, end: self.record().next }
    }

    /// The bytes of the whole block.
    pub fn octets(&self) -> &'a [u8] {
        let record = self.record();
        &self.document.octets[record.offset..][..record.header + record.contents]
    }

    /// Its contents octets. They are the value of an OCTET STRING, and the number of an INTEGER in two's complement.
    pub fn contents(&self) -> &'a [u8] {
        &self.octets()[self.record().header..]
    }

    /// The number of an INTEGER, if it fits an `i64`.
    pub fn int64(&self) -> Result<i64, Fault> {
        calls::int64(self.document.octets, self.offset())
    }

    /// The moment of a UTCTime or GeneralizedTime.
    pub fn moment(&self) -> Result<Moment, Fault> {
        calls::time(self.document.octets, self.offset())
    }

    /// The text of a string, of any kind.
    pub fn text(&self) -> Result<String, Fault> {
        // only an IA5String's octets above 7F become longer
        let room = if self.tag() == 22 { 2 * self.record().contents } else { self.record().contents };
        text_of(calls::text(self.document.octets, self.offset(), room)?, self.offset())
    }

    /// The components of an OBJECT IDENTIFIER, as in `1.2.840`. One of more than 1,024 contents octets is
    /// [`FaultKind::TooLong`]: [`contents`](Block::contents) has them.
    pub fn oid(&self) -> Result<String, Fault> {
        let contents = if self.class() == Class::Universal && self.tag() == 6 { self.record().contents } else { 0 };
        text_of(calls::oid(self.document.octets, self.offset(), contents)?, self.offset())
    }

    /// The bytes that hold the bits of a BIT STRING, and the number of bits. The first bit is the most significant of
    /// the first octet.
    pub fn bits(&self) -> Result<(&'a [u8], usize), Fault> {
        calls::bits(self.document.octets, self.offset())
    }
}

impl fmt::Debug for Block<'_, '_> {
    fn fmt(&self, f: &mut fmt::Formatter<'_>) -> fmt::Result {
        self.record().fmt(f)
    }
}

/// As in `2026-11-23T07:03:22Z`; a fraction has nine digits.
impl fmt::Display for Moment {
    fn fmt(&self, f: &mut fmt::Formatter<'_>) -> fmt::Result {
        let Moment { year, month, day, hour, minute, second, nanosecond } = self;
        write!(f, "{year:04}-{month:02}-{day:02}T{hour:02}:{minute:02}:{second:02}")?;
        match nanosecond {
            0 => f.write_str("Z"),
            _ => write!(f, ".{nanosecond:09}Z"),
        }
    }
}

fn text_of(octets: Vec<u8>, offset: usize) -> Result<String, Fault> {
    String::from_utf8(octets).map_err(|_| Fault { kind: FaultKind::Utf8, offset })
}

/// Whether bytes are a document; otherwise the first fault. No records are made.
///
/// ```
/// use simple_asn1_records::{FaultKind, check};
///
/// assert_eq!(check(&[0x30, 0x03, 0x01, 0x01, 0xFF]), Ok(()));
/// let fault = check(&[0x30, 0x03, 0x01, 0x02, 0xFF]).unwrap_err();
/// assert_eq!((fault.kind, fault.offset), (FaultKind::Incomplete, 2));
/// ```
pub fn check(octets: &[u8]) -> Result<(), Fault> {
    calls::check(octets)
}

/// The canonical bytes of a document, as [`Document::read_strict`] accepts them.
pub fn rewrite(octets: &[u8]) -> Result<Vec<u8>, Fault> {
    calls::rewrite(octets)
}

/// The canonical bytes of what records describe: one with items holds the records after it, any other has its contents
/// octets in `octets`. `next` and `depth` are ignored.
pub fn write(octets: &[u8], records: &[Record]) -> Result<Vec<u8>, Fault> {
    calls::write(octets, records)
}

/// The parts of a certificate, request or revocation list with which its signature is verified (RFC 5280, section 4.1).
#[derive(Clone, Debug, PartialEq, Eq)]
#[non_exhaustive]
pub struct Signed<'a> {
    /// The bytes that were signed.
    pub content: &'a [u8],
    /// The OBJECT IDENTIFIER of the algorithm, as in `1.2.840`.
    pub algorithm: String,
    /// The bytes of the AlgorithmIdentifier: the SEQUENCE of that OBJECT IDENTIFIER and the parameters.
    pub algorithm_identifier: &'a [u8],
    /// The bytes of the algorithm's parameters, if any. RSASSA-PSS cannot be verified without them.
    pub parameters: &'a [u8],
    /// The bytes that hold the bits of the signature.
    pub signature: &'a [u8],
    /// The number of unused bits in the last of these: 0 with all usual algorithms.
    pub unused_bits: u8,
}

impl<'a> Signed<'a> {
    pub fn read(octets: &'a [u8]) -> Result<Signed<'a>, Fault> {
        let SignedParts { content, algorithm, signature, .. } = calls::signed(octets)?;
        let (held, bits) = calls::bits(octets, signature.offset)?;
        Ok(Signed {
            content: &octets[content.offset..end_of(&content)],
            algorithm: text_of(calls::oid(octets, algorithm.offset, algorithm.contents)?, algorithm.offset)?,
            // content, algorithm and signature stand one after another
            algorithm_identifier: &octets[end_of(&content)..signature.offset],
            parameters: &octets[end_of(&algorithm)..signature.offset],
            signature: held,
            // at most 255: an octet has their number
            unused_bits: (8 * held.len() - bits) as u8,
        })
    }
}

fn end_of(record: &Record) -> usize {
    record.offset + record.header + record.contents
}
