use std::str::Utf8Error;
use thiserror::Error;

/// Why bytes are not a document, or a component of an object identifier does not fit.
#[derive(Clone, Debug, Error, PartialEq)]
pub enum ASN1DecodeErr {
    /// The input, or a SEQUENCE or SET, is empty.
    #[error("Encountered an empty buffer decoding ASN1 block.")]
    EmptyBuffer,
    /// How many contents octets a BOOLEAN has.
    #[error("Bad length field in boolean block: {0}")]
    BadBooleanLength(usize),
    #[error("Length field too large for object type: {0}")]
    LengthTooLarge(usize),
    #[error("UTF8 string failed to properly decode: {0}")]
    UTF8DecodeFailure(Utf8Error),
    #[error("Printable string failed to properly decode.")]
    PrintableStringDecodeFailure,
    /// The text of a time that is none.
    #[error("Invalid date value: {0}")]
    InvalidDateValue(String),
    /// How many bits a BIT STRING has, less the unused ones.
    #[error("Invalid length of bit string: {0}")]
    InvalidBitStringLength(isize),
    /// Never returned.
    #[error("Invalid class value: {0}")]
    InvalidClass(u8),
    #[error("Incomplete data or invalid ASN1")]
    Incomplete,
    /// A component does not fit the type that [`OID::as_vec`](crate::OID::as_vec) was asked for; or blocks nest more
    /// deeply than [`set_max_depth`](crate::set_max_depth) lets [`from_der`](crate::from_der) read.
    #[error("Value overflow")]
    Overflow,
}

/// Why a block is not written. The last three are not in the original, which panics there or writes other bytes.
#[derive(Clone, Debug, Error, PartialEq)]
pub enum ASN1EncodeErr {
    #[error("ASN1 object identifier has too few fields.")]
    ObjectIdentHasTooFewFields,
    #[error("First value in ASN1 OID is too big.")]
    ObjectIdentVal1TooLarge,
    #[error("Second value in ASN1 OID is too big.")]
    ObjectIdentVal2TooLarge,
    /// A bit string has more bits than its bytes hold, or more than 255 unused ones.
    #[error("Number of bits does not match the octets of a bit string")]
    BitStringLength,
    /// A character of a PrintableString or IA5String is above 255.
    #[error("Character does not fit an octet")]
    CharacterTooLarge,
    /// A time has a year below 0 or above 9999.
    #[error("Year cannot be written")]
    YearOutOfRange,
}
