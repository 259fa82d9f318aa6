//! Records of a tree, and the contents octets of its leaves.

use crate::calls::{self, Block, Moment, Outcome};
use crate::{base128, sys, ASN1Block, ASN1Class, ASN1EncodeErr, BigUint, OID};
use time::PrimitiveDateTime;

/// The canonical bytes of a block.
///
/// ```
/// use simple_asn1::{to_der, ASN1Block};
///
/// let block = ASN1Block::Sequence(0, vec![ASN1Block::Null(0), ASN1Block::Boolean(0, true)]);
/// assert_eq!(to_der(&block), Ok(vec![0x30, 5, 5, 0, 1, 1, 0xFF]));
/// ```
pub fn to_der(i: &ASN1Block) -> Result<Vec<u8>, ASN1EncodeErr> {
    let mut records = Records {
        blocks: Vec::with_capacity(USUAL_BLOCKS),
        octets: Vec::with_capacity(USUAL_OCTETS),
        tags: Vec::new(),
    };
    let mut owed = Vec::with_capacity(USUAL_BLOCKS);
    owed.push(i);
    while let Some(block) = owed.pop() {
        records.add(block, &mut owed)?;
    }
    Ok(records.written())
}

/// A certificate has about so many blocks, and contents octets of leaves.
const USUAL_BLOCKS: usize = 128;
const USUAL_OCTETS: usize = 2048;

struct Records {
    blocks: Vec<Block>,
    /// The contents octets of leaves.
    octets: Vec<u8>,
    /// Tag numbers that a record has no room for, by its index.
    tags: Vec<(usize, BigUint)>,
}

/// A call did not put a value for this reason.
fn error(e: ASN1EncodeErr) -> impl Fn(Outcome) -> ASN1EncodeErr {
    move |_| e.clone()
}

impl Records {
    /// Adds the record of a block; those that it holds are owed.
    fn add<'a>(&mut self, block: &'a ASN1Block, owed: &mut Vec<&'a ASN1Block>) -> Result<(), ASN1EncodeErr> {
        match block {
            ASN1Block::Boolean(_, value) => self.leaf(1, |out| calls::put_boolean(*value, out)),
            ASN1Block::Integer(_, number) => self.leaf(2, |out| {
                out.extend_from_slice(&number.to_signed_bytes_be());
                Ok(())
            }),
            ASN1Block::BitString(_, bits, octets) => {
                self.leaf(3, |out| calls::raw_bits(octets, *bits, out).map_err(error(ASN1EncodeErr::BitStringLength)))
            }
            ASN1Block::OctetString(_, octets) => self.leaf(4, |out| {
                out.extend_from_slice(octets);
                Ok(())
            }),
            ASN1Block::Null(_) => self.leaf(5, |_| Ok(())),
            ASN1Block::ObjectIdentifier(_, oid) => self.leaf(6, |out| identifier(oid, out)),
            ASN1Block::UTF8String(_, text) => self.text(12, text),
            ASN1Block::PrintableString(_, text) => self.text(19, text),
            ASN1Block::TeletexString(_, text) => self.text(20, text),
            ASN1Block::IA5String(_, text) => self.text(22, text),
            ASN1Block::UniversalString(_, text) => self.text(28, text),
            ASN1Block::BMPString(_, text) => self.text(30, text),
            ASN1Block::UTCTime(_, moment) => self.moment(23, moment),
            ASN1Block::GeneralizedTime(_, moment) => self.moment(24, moment),
            ASN1Block::Sequence(_, items) => {
                self.group(16, items.len());
                owed.extend(items.iter().rev());
                Ok(())
            }
            ASN1Block::Set(_, items) => {
                self.group(17, items.len());
                owed.extend(items.iter().rev());
                Ok(())
            }
            ASN1Block::Explicit(class, _, tag, item) => {
                let tag = self.tag(tag);
                let tag_class = number_of(*class);
                self.blocks.push(Block { tag, tag_class, constructed: 1, items: 1, ..Block::default() });
                owed.push(item);
                Ok(())
            }
            ASN1Block::Unknown(class, constructed, _, tag, contents) => {
                let block = Block {
                    tag: self.tag(tag),
                    tag_class: number_of(*class),
                    constructed: u8::from(*constructed),
                    offset: self.octets.len(),
                    contents: contents.len(),
                    ..Block::default()
                };
                self.octets.extend_from_slice(contents);
                self.blocks.push(block);
                Ok(())
            }
        }
    }

    fn leaf(
        &mut self,
        tag: u64,
        put: impl FnOnce(&mut Vec<u8>) -> Result<(), ASN1EncodeErr>,
    ) -> Result<(), ASN1EncodeErr> {
        let offset = self.octets.len();
        put(&mut self.octets)?;
        self.blocks.push(Block { tag, offset, contents: self.octets.len() - offset, ..Block::default() });
        Ok(())
    }

    fn text(&mut self, tag: u64, text: &str) -> Result<(), ASN1EncodeErr> {
        self.leaf(tag, |out| calls::raw_text(tag, text, out).map_err(error(ASN1EncodeErr::CharacterTooLarge)))
    }

    fn moment(&mut self, tag: u64, moment: &PrimitiveDateTime) -> Result<(), ASN1EncodeErr> {
        let moment = Moment {
            status: sys::OK,
            year: moment.year(),
            month: u32::from(u8::from(moment.month())),
            day: u32::from(moment.day()),
            hour: u32::from(moment.hour()),
            minute: u32::from(moment.minute()),
            second: u32::from(moment.second()),
            nanosecond: moment.nanosecond(),
        };
        self.leaf(tag, |out| calls::raw_time(tag, &moment, out).map_err(error(ASN1EncodeErr::YearOutOfRange)))
    }

    fn group(&mut self, tag: u64, items: usize) {
        let offset = self.octets.len();
        self.blocks.push(Block { tag, offset, items, constructed: 1, ..Block::default() });
    }

    fn tag(&mut self, tag: &BigUint) -> u64 {
        match u64::try_from(tag) {
            Ok(tag) if tag < u64::MAX => tag,
            _ => {
                self.tags.push((self.blocks.len(), tag.clone()));
                u64::MAX
            }
        }
    }

    fn written(&self) -> Vec<u8> {
        if !self.tags.is_empty() {
            return self.written_from_the_end();
        }
        let mut octets = Vec::new();
        calls::spell(&self.octets, &self.blocks, &mut octets).expect("each record can be put");
        octets
    }

    /// With tag numbers of any size: the last octet first, so that the size of what a block holds is known when its
    /// header's turn comes.
    fn written_from_the_end(&self) -> Vec<u8> {
        let mut octets = Vec::with_capacity(self.octets.len() + 6 * self.blocks.len());
        let mut tags = self.tags.iter().rev().peekable();
        // of the blocks whose turn came, each without those that it holds
        let mut sizes: Vec<usize> = Vec::new();
        for (index, block) in self.blocks.iter().enumerate().rev() {
            let start = octets.len();
            octets.extend(self.octets[block.offset..][..block.contents].iter().rev());
            let items: usize = sizes.drain(sizes.len() - block.items..).sum();
            let large = tags.next_if(|(large, _)| *large == index).map(|(_, tag)| tag.clone());
            let mut header = identifier_octets(block, &large.unwrap_or_else(|| BigUint::from(block.tag)));
            put_length(items + block.contents, &mut header);
            octets.extend(header.iter().rev());
            sizes.push(items + octets.len() - start);
        }
        octets.reverse();
        octets
    }
}

/// The identifier octets of a block with this tag number (X.690 8.1.2).
pub(crate) fn identifier_octets(block: &Block, tag: &BigUint) -> Vec<u8> {
    let leading = block.tag_class << 6 | block.constructed << 5;
    match u8::try_from(tag) {
        Ok(tag) if tag < 31 => vec![leading | tag],
        _ => {
            let mut octets = vec![leading | 31];
            base128::put(tag, &mut octets);
            octets
        }
    }
}

/// Puts the length octets, the fewest (X.690 10.1).
fn put_length(length: usize, out: &mut Vec<u8>) {
    let octets = length.to_be_bytes();
    let significant = &octets[(length.leading_zeros() / 8) as usize..];
    if length > 127 {
        out.push(128 | significant.len() as u8);
    }
    out.extend_from_slice(if length == 0 { &[0] } else { significant });
}

fn number_of(class: ASN1Class) -> u8 {
    match class {
        ASN1Class::Universal => 0,
        ASN1Class::Application => 1,
        ASN1Class::ContextSpecific => 2,
        ASN1Class::Private => 3,
    }
}

/// Puts the contents octets of an object identifier.
pub(crate) fn identifier(oid: &OID, out: &mut Vec<u8>) -> Result<(), ASN1EncodeErr> {
    match oid.contents() {
        Some(contents) => {
            calls::shortest_oid(contents, out).expect("it was read");
            Ok(())
        }
        None => put_components(oid.components(), out),
    }
}

/// If the number of a component is cut, the same ones are too large.
fn put_components(components: &[BigUint], out: &mut Vec<u8>) -> Result<(), ASN1EncodeErr> {
    let start = out.len();
    let mut is_cut = false;
    let cut = |component| {
        u64::try_from(component).unwrap_or_else(|_| {
            is_cut = true;
            u64::MAX
        })
    };
    let mut few = [0; 32];
    let many: Vec<u64>;
    let numbers = if components.len() <= few.len() {
        few.iter_mut().zip(components.iter().map(cut)).for_each(|(number, component)| *number = component);
        &few[..components.len()]
    } else {
        many = components.iter().map(cut).collect();
        &many
    };
    calls::raw_oid(numbers, out).map_err(|outcome| match (outcome.status, outcome.offset) {
        (sys::NOT_OID, _) => ASN1EncodeErr::ObjectIdentHasTooFewFields,
        (_, 0) => ASN1EncodeErr::ObjectIdentVal1TooLarge,
        _ => ASN1EncodeErr::ObjectIdentVal2TooLarge,
    })?;
    if is_cut {
        // the first octet is of the first two
        out.truncate(start + 1);
        components[2..].iter().for_each(|component| base128::put(component, out));
    }
    Ok(())
}
