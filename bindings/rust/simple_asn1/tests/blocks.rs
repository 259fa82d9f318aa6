//! What differs from DER alone: empty groups, large numbers, what cannot be written. Octets by hand from X.690.

use simple_asn1::{
    der_decode, der_encode, from_der, oid, to_der, ASN1Block, ASN1Class, ASN1DecodeErr, ASN1EncodeErr, BigInt, BigUint,
    FromASN1, ToASN1, OID,
};
use std::panic::{RefUnwindSafe, UnwindSafe};
use time::{Date, Month, PrimitiveDateTime, Time};
use ASN1Block::*;

fn large() -> BigUint {
    BigUint::from(1u8) << 64
}

#[test]
fn an_empty_group_is_an_empty_buffer() {
    for octets in [&[0x30, 0][..], &[0x31, 0], &[5, 0, 0x30, 2, 0x31, 0], &[0x30, 0, 4], &[0x30, 4, 0x30, 0, 1, 0]] {
        assert_eq!(from_der(octets), Err(ASN1DecodeErr::EmptyBuffer), "{octets:X?}");
    }
    // a fault before it is first
    assert_eq!(from_der(&[0x30, 4, 1, 0, 0x30, 0]), Err(ASN1DecodeErr::BadBooleanLength(0)));
    assert_eq!(from_der(&[0x30, 2, 1, 0]), Err(ASN1DecodeErr::BadBooleanLength(0)));
}

#[test]
fn the_nearest_explicit_block_around_an_empty_group_stays_unknown() {
    let blocks = from_der(&[0xA1, 4, 0xA0, 2, 0x30, 0, 5, 0]).unwrap();
    let unknown = Unknown(ASN1Class::ContextSpecific, true, 2, BigUint::from(0u8), vec![0x30, 0]);
    assert_eq!(blocks, [Explicit(ASN1Class::ContextSpecific, 0, BigUint::from(1u8), Box::new(unknown)), Null(6)]);
    // deep in it, after other items
    let octets = [0xA0, 8, 0x30, 6, 5, 0, 0x30, 2, 0x31, 0];
    let stays = Unknown(ASN1Class::ContextSpecific, true, 0, BigUint::from(0u8), octets[2..].to_vec());
    assert_eq!(from_der(&octets), Ok(vec![stays]));
}

#[test]
fn several_blocks_in_one_of_another_class_are_unknown() {
    let unknown = Unknown(ASN1Class::Private, true, 0, BigUint::from(2u8), vec![5, 0, 0x30, 2, 5, 0]);
    assert_eq!(from_der(&[0xE2, 6, 5, 0, 0x30, 2, 5, 0, 5, 0]), Ok(vec![unknown, Null(8)]));
}

#[test]
fn numbers_of_any_size_are_read_and_written() {
    let large_octets = [0x82, 0x80, 0x80, 0x80, 0x80, 0x80, 0x80, 0x80, 0x80, 0];
    let oid = OID::new(vec![BigUint::from(1u8), BigUint::from(2u8), large()]);
    let octets = [&[6, 11, 0x2A][..], &large_octets].concat();
    assert_eq!(from_der(&octets), Ok(vec![ObjectIdentifier(0, oid.clone())]));
    assert_eq!(to_der(&ObjectIdentifier(0, oid)), Ok(octets));
    let octets = [&[0xBF][..], &large_octets, &[2, 5, 0]].concat();
    let block = Explicit(ASN1Class::ContextSpecific, 0, large(), Box::new(Null(13)));
    assert_eq!(from_der(&octets), Ok(vec![block.clone()]));
    assert_eq!(to_der(&block), Ok(octets.clone()));
    assert_eq!(to_der(&Sequence(0, vec![Null(0), block])), Ok([&[0x30, 16, 5, 0][..], &octets].concat()));
}

#[test]
fn large_tag_numbers_stand_at_any_depth() {
    let large_octets = [0x82, 0x80, 0x80, 0x80, 0x80, 0x80, 0x80, 0x80, 0x80, 0];
    let greatest = [0x81, 0xFF, 0xFF, 0xFF, 0xFF, 0xFF, 0xFF, 0xFF, 0xFF, 0x7F];
    let explicit = [&[0xBF][..], &large_octets, &[2, 5, 0]].concat();
    let unknown = [&[0xDF][..], &greatest, &[0x81, 0x80], &[7; 128]].concat();
    let octets = [&[0x30, 0x81, 164, 5, 0, 0xA3, 14][..], &explicit, &unknown, &[0x31, 3, 1, 1, 0xFF]].concat();
    let explicit = Explicit(ASN1Class::ContextSpecific, 7, large(), Box::new(Null(19)));
    let items = vec![
        Null(3),
        Explicit(ASN1Class::ContextSpecific, 5, BigUint::from(3u8), Box::new(explicit)),
        Unknown(ASN1Class::Private, false, 21, BigUint::from(u64::MAX), vec![7; 128]),
        Set(162, vec![Boolean(164, true)]),
    ];
    let sequence = Sequence(0, items);
    assert_eq!(from_der(&octets).map(|blocks| format!("{blocks:?}")), Ok(format!("{:?}", [&sequence])));
    assert_eq!(to_der(&sequence), Ok(octets));
}

#[test]
fn long_components_are_read_and_written() {
    // 2^140 - 1 in 20 octets, after an octet that adds nothing to it
    let number = (BigUint::from(1u8) << 140) - 1u8;
    let long = [&[0xFF; 19][..], &[0x7F]].concat();
    let octets = [&[6, 23, 0x88, 5, 0x80][..], &long].concat();
    let made = OID::new(vec![BigUint::from(2u8), BigUint::from(56u8), BigUint::from(5u8), number]);
    assert_eq!(from_der(&octets), Ok(vec![ObjectIdentifier(0, made.clone())]));
    let shortest = [&[6, 22, 0x88, 5][..], &long].concat();
    assert_eq!(to_der(&ObjectIdentifier(0, made)), Ok(shortest.clone()));
    assert_eq!(to_der(&from_der(&octets).unwrap()[0]), Ok(shortest));
}

#[test]
fn identifiers_that_were_read_are_as_those_that_were_made() {
    // the second is not in the shortest form, the last is long
    for (contents, components) in [
        (&[0x2A, 0x86, 0x48][..], &[1, 2, 840][..]),
        (&[0x2A, 0x80, 5, 0x80, 0x80, 6], &[1, 2, 5, 6]),
        (&[0x88, 0x37], &[2, 56, 55]),
        (&[0x55; 20], &[2, 5, 85, 85, 85, 85, 85, 85, 85, 85, 85, 85, 85, 85, 85, 85, 85, 85, 85, 85, 85]),
    ] {
        let made = OID::new(components.iter().map(|component| BigUint::from(*component)).collect());
        let octets = [&[6, contents.len() as u8][..], contents].concat();
        let read = || match from_der(&octets).unwrap().pop() {
            Some(ObjectIdentifier(0, oid)) => oid,
            other => panic!("{other:?}"),
        };
        assert_eq!(read(), read());
        assert_eq!(read(), made);
        assert_eq!(made, read());
        assert_eq!(&made, read());
        assert_ne!(read(), oid!(1, 2));
        assert_eq!(read().as_raw(), made.as_raw());
        assert_eq!(read().as_vec::<u64>(), made.as_vec());
        assert_eq!(format!("{:?}", read()), format!("{made:?}"));
        let asked = read();
        assert_eq!(asked.as_vec::<u64>().unwrap(), components);
        assert_eq!((asked.as_raw(), &asked.clone()), (made.as_raw(), &read()));
    }
    // equal, though their octets are not
    assert_eq!(from_der(&[6, 2, 0x2A, 5]), from_der(&[6, 3, 0x2A, 0x80, 5]));
    assert_ne!(from_der(&[6, 2, 0x2A, 5]), from_der(&[6, 2, 0x2A, 6]));
}

#[test]
fn blocks_go_from_thread_to_thread() {
    fn can_go<T: Send + Sync + Unpin + UnwindSafe + RefUnwindSafe>() {}
    can_go::<ASN1Block>();
}

#[test]
fn errors_say_what_they_are_of() {
    let octets = [12, 2, 0x61, 0xFF];
    let utf8 = std::str::from_utf8(&octets[2..]).unwrap_err();
    assert_eq!(from_der(&octets), Err(ASN1DecodeErr::UTF8DecodeFailure(utf8)));
    assert_eq!(from_der(&[4, 0x89]), Err(ASN1DecodeErr::LengthTooLarge(9)));
    assert_eq!(from_der(&[3, 2, 10, 0xFF]), Err(ASN1DecodeErr::InvalidBitStringLength(-2)));
    assert_eq!(from_der(&[0x17, 1, 0x41]), Err(ASN1DecodeErr::InvalidDateValue("1".to_string())));
    assert_eq!(from_der(&[0x13, 1, b'*']), Err(ASN1DecodeErr::PrintableStringDecodeFailure));
    assert_eq!(from_der(&[4, 1]), Err(ASN1DecodeErr::Incomplete));
    assert_eq!(from_der(&[]), Err(ASN1DecodeErr::EmptyBuffer));
}

#[test]
fn what_has_no_octets_is_an_error() {
    let year = Date::from_calendar_date(-1, Month::May, 1).unwrap();
    let before = PrimitiveDateTime::new(year, Time::MIDNIGHT);
    for (block, error) in [
        (BitString(0, 9, vec![0xFF]), ASN1EncodeErr::BitStringLength),
        (IA5String(0, "Ā".to_string()), ASN1EncodeErr::CharacterTooLarge),
        (GeneralizedTime(0, before), ASN1EncodeErr::YearOutOfRange),
        (ObjectIdentifier(0, oid!(1)), ASN1EncodeErr::ObjectIdentHasTooFewFields),
        (ObjectIdentifier(0, OID::new(vec![large(), large()])), ASN1EncodeErr::ObjectIdentVal1TooLarge),
        (ObjectIdentifier(0, OID::new(vec![BigUint::from(1u8), large()])), ASN1EncodeErr::ObjectIdentVal2TooLarge),
    ] {
        assert_eq!(to_der(&Sequence(0, vec![Null(0), block])), Err(error));
    }
}

struct Small(i64);

impl FromASN1 for Small {
    type Error = ASN1DecodeErr;

    fn from_asn1(blocks: &[ASN1Block]) -> Result<(Small, &[ASN1Block]), ASN1DecodeErr> {
        match blocks {
            [Integer(_, n), rest @ ..] => Ok((Small(i64::try_from(n).map_err(|_| ASN1DecodeErr::Overflow)?), rest)),
            _ => Err(ASN1DecodeErr::Incomplete),
        }
    }
}

impl ToASN1 for Small {
    type Error = ASN1EncodeErr;

    fn to_asn1_class(&self, _class: ASN1Class) -> Result<Vec<ASN1Block>, ASN1EncodeErr> {
        Ok(vec![Integer(0, BigInt::from(self.0))])
    }
}

#[test]
fn types_of_ones_own_are_converted() {
    assert_eq!(der_encode(&Small(-129)), Ok(vec![2, 2, 0xFF, 0x7F]));
    assert_eq!(der_decode::<Small>(&[2, 2, 0xFF, 0x7F]).map(|small| small.0), Ok(-129));
    assert!(der_decode::<Small>(&[5, 0]).is_err());
    assert_eq!(oid!(1, 2, 840).as_vec::<u16>(), Ok(vec![1, 2, 840]));
    assert_eq!(oid!(1, 2, 840).as_vec::<u8>(), Err(ASN1DecodeErr::Overflow));
}
