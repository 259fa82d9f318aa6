//! The private functions that the original's own tests call, by those of the crate and calls of the proved library.

#![allow(unused_imports)]
use crate::calls::{self, Block};
use crate::*;
use num_traits::{FromPrimitive, ToPrimitive};
use quickcheck::quickcheck;
use std::iter::FromIterator;
use time::PrimitiveDateTime;

const PRINTABLE_CHARS: &str = "ABCDEFGHIJKLMNOPQRSTUVWXYZabcdefghijklmnopqrstuvwxyz0123456789'()+,-./:=? ";
const CLASSES: [ASN1Class; 4] =
    [ASN1Class::Universal, ASN1Class::Application, ASN1Class::ContextSpecific, ASN1Class::Private];

fn encode_tag(class: ASN1Class, constructed: bool, tag: &BigUint) -> Vec<u8> {
    let tag_class = CLASSES.iter().position(|other| *other == class).unwrap() as u8;
    let block = Block { tag_class, constructed: u8::from(constructed), ..Block::default() };
    crate::write::identifier_octets(&block, tag)
}

fn decode_tag(octets: &[u8], index: &mut usize) -> Result<(BigUint, bool, ASN1Class), ASN1DecodeErr> {
    let whole = [&octets[*index..], &[0]].concat();
    let header = calls::header(&whole, 0).ok_or(ASN1DecodeErr::Incomplete)?;
    *index += header.header - 1;
    let tag = crate::read::tag_of(&whole, &header);
    Ok((tag, header.constructed != 0, CLASSES[usize::from(header.tag_class)]))
}

fn encode_class(class: ASN1Class) -> u8 {
    encode_tag(class, false, &BigUint::from(0u8))[0]
}

fn decode_class(octet: u8) -> Result<ASN1Class, ASN1DecodeErr> {
    decode_tag(&[octet & 0xC0], &mut 0).map(|(_, _, class)| class)
}

/// A component of an object identifier.
fn encode_base127(number: &BigUint) -> Vec<u8> {
    let mut octets = Vec::new();
    calls::raw_oid(&[0, 0, number.to_u64().unwrap()], &mut octets).unwrap();
    octets.split_off(1)
}

fn from_der_(octets: &[u8], _start: usize) -> Result<Vec<ASN1Block>, ASN1DecodeErr> {
    from_der(octets)
}

/// As the tuple that the original's is.
#[allow(non_snake_case)]
fn OID(components: Vec<BigUint>) -> OID {
    OID::new(components)
}

// No call writes or reads a length alone; the test of both is skipped.
fn encode_len(_: usize) -> Vec<u8> {
    unimplemented!()
}

fn decode_length(_: &[u8], _: &mut usize) -> Result<usize, ASN1DecodeErr> {
    unimplemented!()
}
