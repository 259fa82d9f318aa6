//! Why bytes cannot be read, why a block has no value of a kind, and why records cannot be written.

use simple_asn1_sys as sys;
use std::error::Error;
use std::fmt;

/// What is wrong, and where.
#[derive(Clone, Copy, Debug, PartialEq, Eq, Hash)]
pub struct Fault {
    pub kind: FaultKind,
    /// The offset of the block at fault, in bytes from the start; for [`FaultKind::BadRecord`] the index of the last
    /// such record, and for a value that a [`Builder`](crate::Builder) cannot add the index of its block.
    pub offset: usize,
}

/// What is wrong: a variant for each status of `simple_asn1.h`.
#[derive(Clone, Copy, Debug, PartialEq, Eq, Hash)]
#[non_exhaustive]
pub enum FaultKind {
    /// The input is empty.
    Empty,
    /// A BOOLEAN must have one content byte.
    BooleanLength,
    /// A length is beyond `usize`.
    Length,
    /// A string or time is not UTF-8.
    Utf8,
    /// A PrintableString has a forbidden character.
    Printable,
    /// A UTCTime or GeneralizedTime is invalid.
    Date,
    /// A BIT STRING has more unused bits than bits.
    BitStringLength,
    /// The input is truncated.
    Incomplete,
    /// A block is not in canonical form: only from [`Document::read_strict`](crate::Document::read_strict).
    NotCanonical,
    /// Out of memory.
    NoMemory,
    /// The block is of another kind; of a [`Builder`](crate::Builder): no string or time has the tag number.
    NoSuchValue,
    /// The value does not fit.
    Range,
    /// The first block is not a signed triple.
    NotSigned,
    /// A record cannot be written.
    BadRecord,
    /// The text is not an OBJECT IDENTIFIER's, as `1.2.840` is: only from [`Builder`](crate::Builder).
    NotOid,
    /// An OBJECT IDENTIFIER has more than 1,024 contents octets, which are not made into text: their digits would take
    /// time that grows as the square of the size. Of a [`Builder`](crate::Builder): a text has more than 4,097 bytes.
    TooLong,
    /// The first block is not a certificate.
    NotCertificate,
    /// The first block is not a certification request.
    NotRequest,
    /// The first block is not a certificate revocation list.
    NotRevocationList,
    /// A status of a later library, by its number there.
    Unknown(u32),
}

impl Fault {
    pub(crate) fn of_status(status: u32, offset: usize) -> Fault {
        let kind = match status {
            sys::EMPTY => FaultKind::Empty,
            sys::BOOLEAN_LENGTH => FaultKind::BooleanLength,
            sys::LENGTH => FaultKind::Length,
            sys::UTF8 => FaultKind::Utf8,
            sys::PRINTABLE => FaultKind::Printable,
            sys::DATE => FaultKind::Date,
            sys::BIT_STRING_LENGTH => FaultKind::BitStringLength,
            sys::INCOMPLETE => FaultKind::Incomplete,
            sys::NOT_CANONICAL => FaultKind::NotCanonical,
            sys::NO_MEMORY => FaultKind::NoMemory,
            sys::NO_SUCH_VALUE => FaultKind::NoSuchValue,
            sys::RANGE => FaultKind::Range,
            sys::NOT_SIGNED => FaultKind::NotSigned,
            sys::BAD_RECORD => FaultKind::BadRecord,
            sys::NOT_OID => FaultKind::NotOid,
            sys::TOO_LONG => FaultKind::TooLong,
            sys::NOT_CERTIFICATE => FaultKind::NotCertificate,
            sys::NOT_REQUEST => FaultKind::NotRequest,
            sys::NOT_REVOCATION_LIST => FaultKind::NotRevocationList,
            _ => FaultKind::Unknown(status),
        };
        Fault { kind, offset }
    }
}

impl fmt::Display for FaultKind {
    fn fmt(&self, f: &mut fmt::Formatter<'_>) -> fmt::Result {
        f.write_str(match self {
            FaultKind::Empty => "the input is empty",
            FaultKind::BooleanLength => "a BOOLEAN must have one content byte",
            FaultKind::Length => "a length is too large",
            FaultKind::Utf8 => "a string or time is not UTF-8",
            FaultKind::Printable => "a PrintableString has a forbidden character",
            FaultKind::Date => "a time is invalid",
            FaultKind::BitStringLength => "a BIT STRING has more unused bits than bits",
            FaultKind::Incomplete => "the input is truncated",
            FaultKind::NotCanonical => "a block is not in canonical form",
            FaultKind::NoMemory => "out of memory",
            FaultKind::NoSuchValue => "there is no block of this kind",
            FaultKind::Range => "the value does not fit",
            FaultKind::NotSigned => "the first block is not a signed triple",
            FaultKind::BadRecord => "a record cannot be written",
            FaultKind::NotOid => "the text is not an OBJECT IDENTIFIER",
            FaultKind::TooLong => "too long for text in decimal",
            FaultKind::NotCertificate => "the first block is not a certificate",
            FaultKind::NotRequest => "the first block is not a certification request",
            FaultKind::NotRevocationList => "the first block is not a certificate revocation list",
            FaultKind::Unknown(status) => return write!(f, "unknown status {status}"),
        })
    }
}

impl Error for FaultKind {}

impl fmt::Display for Fault {
    fn fmt(&self, f: &mut fmt::Formatter<'_>) -> fmt::Result {
        write!(f, "{}, at {}", self.kind, self.offset)
    }
}

impl Error for Fault {
    fn source(&self) -> Option<&(dyn Error + 'static)> {
        Some(&self.kind)
    }
}

#[cfg(test)]
mod tests {
    use super::*;

    #[test]
    fn a_status_without_a_name_stays_a_number() {
        let fault = Fault::of_status(99, 3);
        assert_eq!(fault, Fault { kind: FaultKind::Unknown(99), offset: 3 });
        assert_eq!(fault.to_string(), "unknown status 99, at 3");
        assert_eq!(Fault::of_status(16, 0).kind, FaultKind::NotOid);
        assert_eq!(Fault::of_status(17, 0).kind, FaultKind::TooLong);
    }
}
