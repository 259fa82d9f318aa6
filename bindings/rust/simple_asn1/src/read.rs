//! The tree of the records of a document.

use crate::calls::{self, Block};
use crate::growing::{only, Growing};
use crate::{base128, sys, ASN1Block, ASN1Class, ASN1DecodeErr, BigInt, BigUint, OID};
use std::iter;
use std::mem::{self, MaybeUninit};
use std::sync::atomic::{AtomicUsize, Ordering::Relaxed};
use time::{Date, Month, PrimitiveDateTime, Time};

/// The depth that [`from_der`] reads unless [`set_max_depth`] has set another.
pub const DEFAULT_MAX_DEPTH: usize = 256;

static MAX_DEPTH: AtomicUsize = AtomicUsize::new(DEFAULT_MAX_DEPTH);

/// Sets for all threads how many blocks may stand around a block that [`from_der`] reads.
///
/// Dropping, copying, comparing and showing blocks call themselves for the blocks inside, so each level takes stack: up
/// to 110 bytes to drop, 430 to copy, 2,700 to show with `{:#?}`, and in a debug build 2,100 to copy. The default, of
/// 256 levels, fits the 2 MiB of a thread of Rust twice over.
///
/// ```
/// use simple_asn1::{from_der, set_max_depth, ASN1DecodeErr, DEFAULT_MAX_DEPTH};
///
/// let nested = [0x30, 0x06, 0x30, 0x04, 0x30, 0x02, 0x05, 0x00];
/// set_max_depth(2);
/// assert_eq!(from_der(&nested), Err(ASN1DecodeErr::Overflow));
/// set_max_depth(DEFAULT_MAX_DEPTH);
/// assert!(from_der(&nested).is_ok());
/// ```
pub fn set_max_depth(depth: usize) {
    MAX_DEPTH.store(depth, Relaxed);
}

/// The blocks of a document. If more blocks than [`set_max_depth`] says stand around one, the error is `Overflow`.
///
/// ```
/// use simple_asn1::{from_der, ASN1Block, BigInt};
///
/// let blocks = from_der(&[0x30, 0x03, 0x02, 0x01, 0xFF]).unwrap();
/// assert_eq!(blocks, [ASN1Block::Sequence(0, vec![ASN1Block::Integer(2, BigInt::from(-1))])]);
/// ```
pub fn from_der(i: &[u8]) -> Result<Vec<ASN1Block>, ASN1DecodeErr> {
    match calls::read(i, |records| build(i, records, MAX_DEPTH.load(Relaxed))) {
        Ok(blocks) => blocks,
        Err(fault) if has_empty_group_before(i, fault.offset) => Err(ASN1DecodeErr::EmptyBuffer),
        Err(_) => Err(fault(i)),
    }
}

/// The blocks of these records. `EmptyBuffer` if a SEQUENCE or SET is empty, outside any attempt to read a block of
/// another class; `Overflow` if the blocks nest too deeply.
fn build(octets: &[u8], records: &[Block], max_depth: usize) -> Result<Vec<ASN1Block>, ASN1DecodeErr> {
    let mut blocks = Vec::with_capacity(top_level_count(records));
    match add_blocks(octets, records, max_depth, &mut blocks) {
        Ok(()) => Ok(blocks),
        Err(fault) => {
            discard(blocks);
            Err(fault)
        }
    }
}

/// The number of blocks at the top level.
fn top_level_count(records: &[Block]) -> usize {
    iter::successors(records.first(), |record| records.get(record.next)).count()
}

fn add_blocks(
    octets: &[u8],
    records: &[Block],
    max_depth: usize,
    blocks: &mut Vec<ASN1Block>,
) -> Result<(), ASN1DecodeErr> {
    let mut growing = Growing::new(blocks);
    let mut index = 0;
    while let Some(record) = records.get(index) {
        if !holds_blocks(record) {
            growing.push(record.depth, |slot| write_leaf(slot, octets, record));
            index = record.next;
        } else if is_empty_group(record) {
            index = give_up_attempt(octets, &mut growing, index).ok_or(ASN1DecodeErr::EmptyBuffer)?;
        } else if record.depth < max_depth {
            growing.open(record);
            index += 1;
        } else {
            return Err(ASN1DecodeErr::Overflow);
        }
    }
    growing.finish(|block, record| make_explicit(octets, record, block));
    Ok(())
}

/// Whether a block is read as one that holds others.
#[inline(always)]
fn holds_blocks(record: &Block) -> bool {
    match record.tag_class {
        0 => matches!(record.tag, 16 | 17),
        _ => record.items == 1,
    }
}

/// Whether it is a SEQUENCE or SET without contents octets.
#[inline(always)]
fn is_empty_group(record: &Block) -> bool {
    matches!(record, Block { tag_class: 0, tag: 16 | 17, contents: 0, .. })
}

/// Makes an explicit block of the SEQUENCE or SET of its one item, as which it was opened.
fn make_explicit(octets: &[u8], record: &Block, block: &mut ASN1Block) {
    if let ASN1Block::Sequence(offset, items) | ASN1Block::Set(offset, items) = block {
        let (class, tag) = (class_of(record.tag_class), tag_of(octets, record));
        *block = ASN1Block::Explicit(class, *offset, tag, only(mem::take(items)));
    }
}

/// The innermost attempt stays as it came, and the index after it is next; `None` if there is none.
#[cold]
fn give_up_attempt(octets: &[u8], growing: &mut Growing, index: usize) -> Option<usize> {
    let (record, block) = growing.give_up(index, |record| unknown(octets, record))?;
    discard(vec![block]);
    Some(record.next)
}

/// Drops blocks by a loop, however deeply they nest.
fn discard(mut blocks: Vec<ASN1Block>) {
    while let Some(block) = blocks.pop() {
        match block {
            ASN1Block::Sequence(_, items) | ASN1Block::Set(_, items) => blocks.extend(items),
            ASN1Block::Explicit(_, _, _, item) => blocks.push(*item),
            _ => {}
        }
    }
}

fn class_of(number: u8) -> ASN1Class {
    match number {
        0 => ASN1Class::Universal,
        1 => ASN1Class::Application,
        2 => ASN1Class::ContextSpecific,
        _ => ASN1Class::Private,
    }
}

/// Writes a block that holds no others. In the loop above, all of its values would not stay in registers.
#[inline(never)]
fn write_leaf<'s>(slot: &'s mut MaybeUninit<ASN1Block>, octets: &[u8], record: &Block) -> &'s mut ASN1Block {
    let offset = record.offset;
    let contents = contents_of(octets, record);
    if record.tag_class != 0 {
        return slot.write(unknown(octets, record));
    }
    match record.tag {
        1 => slot.write(ASN1Block::Boolean(offset, contents[0] != 0)),
        2 => slot.write(ASN1Block::Integer(offset, integer(contents))),
        3 => match contents {
            [] => slot.write(ASN1Block::BitString(offset, 0, Vec::new())),
            [unused, bits @ ..] => {
                slot.write(ASN1Block::BitString(offset, 8 * bits.len() - usize::from(*unused), bits.to_vec()))
            }
        },
        4 => slot.write(ASN1Block::OctetString(offset, contents.to_vec())),
        5 => slot.write(ASN1Block::Null(offset)),
        6 => {
            let front = from_contents(octets, record);
            slot.write(ASN1Block::ObjectIdentifier(offset, OID::of_front(front, contents.len())))
        }
        12 => slot.write(ASN1Block::UTF8String(offset, text_of(octets, record))),
        19 => slot.write(ASN1Block::PrintableString(offset, text_of(octets, record))),
        20 => slot.write(ASN1Block::TeletexString(offset, text_of(octets, record))),
        22 => slot.write(ASN1Block::IA5String(offset, text_of(octets, record))),
        23 => slot.write(ASN1Block::UTCTime(offset, moment_of(octets, record))),
        24 => slot.write(ASN1Block::GeneralizedTime(offset, moment_of(octets, record))),
        28 => slot.write(ASN1Block::UniversalString(offset, text_of(octets, record))),
        30 => slot.write(ASN1Block::BMPString(offset, text_of(octets, record))),
        _ => slot.write(unknown(octets, record)),
    }
}

fn contents_of<'a>(octets: &'a [u8], record: &Block) -> &'a [u8] {
    &from_contents(octets, record)[..record.contents]
}

/// The octets of the document from the contents octets of a block on.
fn from_contents<'a>(octets: &'a [u8], record: &Block) -> &'a [u8] {
    &octets[record.offset + record.header..]
}

fn unknown(octets: &[u8], record: &Block) -> ASN1Block {
    let contents = contents_of(octets, record).to_vec();
    let tag = tag_of(octets, record);
    ASN1Block::Unknown(class_of(record.tag_class), record.constructed != 0, record.offset, tag, contents)
}

/// The record has the greatest `u64` for each greater tag number too, which stands after the leading octet.
pub(crate) fn tag_of(octets: &[u8], record: &Block) -> BigUint {
    match record.tag {
        u64::MAX => base128::numbers(&octets[record.offset + 1..]).next().expect("its header was read"),
        tag => BigUint::from(tag),
    }
}

/// So many octets of an INTEGER are turned round on the stack. A serial number has up to 20.
const USUAL_INTEGER: usize = 24;

/// In two's complement. `num-bigint` takes the octets from the last one, and would turn them round on the heap.
fn integer(contents: &[u8]) -> BigInt {
    let mut room = [0; USUAL_INTEGER];
    match room.get_mut(..contents.len()) {
        Some(turned) => {
            turned.iter_mut().zip(contents.iter().rev()).for_each(|(turned, octet)| *turned = *octet);
            BigInt::from_signed_bytes_le(turned)
        }
        None => BigInt::from_signed_bytes_be(contents),
    }
}

/// The contents octets of all strings are their text in UTF-8, but for an IA5String's above 7F.
fn text_of(octets: &[u8], record: &Block) -> String {
    let contents = contents_of(octets, record);
    calls::ascii(contents).unwrap_or_else(|| match record.tag {
        22 => calls::text(octets, record.offset, 2 * record.contents),
        _ => String::from_utf8(contents.to_vec()).expect("the text was read"),
    })
}

fn moment_of(octets: &[u8], record: &Block) -> PrimitiveDateTime {
    let moment = calls::time(octets, record.offset);
    if moment.status == sys::NO_MEMORY {
        calls::out_of_memory();
    }
    let month = Month::try_from(moment.month as u8).expect("the month was read");
    let date = Date::from_calendar_date(moment.year, month, moment.day as u8).expect("the day was read");
    let (hour, minute, second) = (moment.hour as u8, moment.minute as u8, moment.second as u8);
    let time = Time::from_hms_nano(hour, minute, second, moment.nanosecond).expect("the time was read");
    PrimitiveDateTime::new(date, time)
}

/// Whether a SEQUENCE or SET before the block at fault is empty, outside any attempt. The blocks around the one at
/// fault are gone through from the outermost: each is cut before it, and what comes before the cut block is read alone.
#[cold]
fn has_empty_group_before(octets: &[u8], fault: usize) -> bool {
    let mut start = 0;
    while start < fault {
        match read_alone(&octets[start..fault]) {
            Ok(is_empty) => return is_empty,
            Err(cut) => {
                if cut > 0 && read_alone(&octets[start..start + cut]) == Ok(true) {
                    return true;
                }
                start = match calls::header(octets, start + cut) {
                    Some(around) => around.offset + around.header,
                    None => return false,
                };
            }
        }
    }
    false
}

/// Whether one of them is empty, outside any attempt; or the offset of the fault.
fn read_alone(octets: &[u8]) -> Result<bool, usize> {
    calls::read(octets, has_empty_group).map_err(|fault| fault.offset)
}

fn has_empty_group(records: &[Block]) -> bool {
    let mut index = 0;
    while let Some(record) = records.get(index) {
        if is_empty_group(record) {
            return true;
        }
        // a block of another class is an attempt, whatever it holds
        index = if record.tag_class == 0 { index + 1 } else { record.next };
    }
    false
}

#[cold]
fn fault(octets: &[u8]) -> ASN1DecodeErr {
    let (fault, text) = calls::fault(octets);
    match fault.status {
        sys::EMPTY => ASN1DecodeErr::EmptyBuffer,
        sys::BOOLEAN_LENGTH => ASN1DecodeErr::BadBooleanLength(fault.number as usize),
        sys::LENGTH => ASN1DecodeErr::LengthTooLarge(fault.number as usize),
        sys::UTF8 => utf8_fault(octets, fault.offset),
        sys::PRINTABLE => ASN1DecodeErr::PrintableStringDecodeFailure,
        sys::DATE => ASN1DecodeErr::InvalidDateValue(text),
        sys::BIT_STRING_LENGTH => ASN1DecodeErr::InvalidBitStringLength(-(fault.number as isize)),
        sys::NO_MEMORY => calls::out_of_memory(),
        _ => ASN1DecodeErr::Incomplete,
    }
}

/// A `Utf8Error` can only be had from the octets.
fn utf8_fault(octets: &[u8], offset: usize) -> ASN1DecodeErr {
    let contents = calls::header(octets, offset).map(|record| contents_of(octets, &record)).unwrap_or_default();
    match std::str::from_utf8(contents) {
        Err(e) => ASN1DecodeErr::UTF8DecodeFailure(e),
        Ok(_) => ASN1DecodeErr::Incomplete,
    }
}
