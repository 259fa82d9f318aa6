//! What the records of fields say, of a certificate, a request and a list of revoked certificates.

use crate::calls;
use crate::{end_of, text_of, Block, Class, Document, Fault, FaultKind, Record};

/// An extension of a certificate, a list of revoked certificates, or an entry of one; or one that is asked for.
#[derive(Clone, Debug, PartialEq, Eq)]
#[non_exhaustive]
pub struct Extension<'a> {
    /// Its OBJECT IDENTIFIER, as in `2.5.29.19`.
    pub oid: String,
    /// Who does not know a critical extension has to reject what has it.
    pub critical: bool,
    /// The bytes of its value: a document of the type that the identifier says.
    pub value: &'a [u8],
}

/// The bytes of a block.
pub fn block<'a>(octets: &'a [u8], record: &Record) -> &'a [u8] {
    &octets[record.offset..end_of(record)]
}

/// The bytes of a block, if it is there.
pub fn optional<'a>(octets: &'a [u8], record: &Record) -> Option<&'a [u8]> {
    is_there(record).then(|| block(octets, record))
}

/// The contents octets of a block.
pub fn contents<'a>(octets: &'a [u8], record: &Record) -> &'a [u8] {
    &block(octets, record)[record.header..]
}

/// Where what is inside a block begins, if the block is there.
pub fn inside(record: &Record) -> Option<usize> {
    is_there(record).then_some(record.offset + record.header)
}

/// The OBJECT IDENTIFIER with which a block begins.
pub fn identifier(octets: &[u8], record: &Record) -> Result<String, Fault> {
    let offset = record.offset + record.header;
    text_of(calls::oid(octets, offset, record.contents)?, offset)
}

/// The extensions inside an explicit tag, in order; none if the tag is absent.
pub fn tagged_extensions<'a>(octets: &'a [u8], record: &Record) -> Result<Vec<Extension<'a>>, Fault> {
    match inside(record) {
        Some(start) => extensions_between(octets, start, end_of(record)),
        None => Ok(Vec::new()),
    }
}

/// The extensions of the SEQUENCE that stands between two offsets, in order.
pub fn extensions_between(octets: &[u8], start: usize, end: usize) -> Result<Vec<Extension<'_>>, Fault> {
    extensions(&octets[start..end]).map_err(|fault| Fault { offset: start + fault.offset, ..fault })
}

/// The extensions of a SEQUENCE, in order. If there is another block, the fault is [`FaultKind::NoSuchValue`].
pub fn extensions(sequence: &[u8]) -> Result<Vec<Extension<'_>>, Fault> {
    let document = Document::read(sequence)?;
    let mut found = Vec::new();
    for sequence in document.blocks() {
        expect(&sequence, SEQUENCE)?;
        for extension in sequence.items() {
            found.push(extension_of(&extension)?);
        }
    }
    Ok(found)
}

fn extension_of<'a>(block: &Block<'_, 'a>) -> Result<Extension<'a>, Fault> {
    let items: Vec<_> = block.items().collect();
    let (oid, critical, value) = match items[..] {
        [oid, value] => (oid, false, value),
        [oid, critical, value] => (oid, critical.contents() != [0], value),
        _ => return Err(no_such_value(block)),
    };
    expect(&value, OCTET_STRING)?;
    Ok(Extension { oid: oid.oid()?, critical, value: value.contents() })
}

const OCTET_STRING: u64 = 4;
const SEQUENCE: u64 = 16;

/// A block of class Universal has to have the tag.
fn expect(block: &Block<'_, '_>, tag: u64) -> Result<(), Fault> {
    match (block.class(), block.tag()) == (Class::Universal, tag) {
        true => Ok(()),
        false => Err(no_such_value(block)),
    }
}

fn no_such_value(block: &Block<'_, '_>) -> Fault {
    Fault { kind: FaultKind::NoSuchValue, offset: block.offset() }
}

/// A field that is absent has a record of zeros.
fn is_there(record: &Record) -> bool {
    record.header > 0
}
