//! The calls and records of `simple_asn1.h`. Two crates have this file, so that each can be used alone:
//! `simple_asn1-sys`, and `simple_asn1` as a private module.

pub const OK: u32 = 0;
pub const EMPTY: u32 = 1;
pub const BOOLEAN_LENGTH: u32 = 2;
pub const LENGTH: u32 = 3;
pub const UTF8: u32 = 4;
pub const PRINTABLE: u32 = 5;
pub const DATE: u32 = 6;
pub const BIT_STRING_LENGTH: u32 = 7;
pub const INCOMPLETE: u32 = 8;
pub const NOT_CANONICAL: u32 = 9;
pub const NO_MEMORY: u32 = 10;
pub const NO_ROOM: u32 = 11;
pub const NO_SUCH_VALUE: u32 = 12;
pub const RANGE: u32 = 13;
pub const NOT_SIGNED: u32 = 14;
pub const BAD_RECORD: u32 = 15;
pub const NOT_OID: u32 = 16;
pub const TOO_LONG: u32 = 17;
pub const NOT_CERTIFICATE: u32 = 18;
pub const NOT_REQUEST: u32 = 19;
pub const NOT_REVOCATION_LIST: u32 = 20;

pub const RULE_LONG_IDENTIFIER: u32 = 1;
pub const RULE_PADDED_TAG: u32 = 2;
pub const RULE_INDEFINITE_LENGTH: u32 = 3;
pub const RULE_LONG_LENGTH: u32 = 4;
pub const RULE_RESERVED_TAG: u32 = 5;
pub const RULE_NOT_CONSTRUCTED: u32 = 6;
pub const RULE_NOT_PRIMITIVE: u32 = 7;
pub const RULE_CONSTRUCTED_STRING: u32 = 8;
pub const RULE_BOOLEAN_SIZE: u32 = 9;
pub const RULE_BOOLEAN_VALUE: u32 = 10;
pub const RULE_NO_INTEGER: u32 = 11;
pub const RULE_PADDED_INTEGER: u32 = 12;
pub const RULE_BINARY_REAL: u32 = 13;
pub const RULE_DECIMAL_REAL: u32 = 14;
pub const RULE_SPECIAL_REAL: u32 = 15;
pub const RULE_UNUSED_COUNT: u32 = 16;
pub const RULE_UNUSED_OF_NONE: u32 = 17;
pub const RULE_UNUSED_BITS: u32 = 18;
pub const RULE_NULL_CONTENTS: u32 = 19;
pub const RULE_SUBIDENTIFIERS: u32 = 20;
pub const RULE_IRI: u32 = 21;
pub const RULE_CHARACTERS: u32 = 22;
pub const RULE_UTC_TIME: u32 = 23;
pub const RULE_GENERALIZED_TIME: u32 = 24;
pub const RULE_TIME: u32 = 25;
pub const RULE_ORDER: u32 = 26;
pub const RULE_NOT_ENCODINGS: u32 = 27;
pub const RULE_EXTERNAL: u32 = 28;
pub const RULE_IDENTIFICATION: u32 = 29;

/// A block as the library has it.
#[repr(C)]
#[derive(Clone, Copy, Debug, Default, PartialEq, Eq)]
pub struct Block {
    pub tag: u64,
    pub offset: usize,
    pub header: usize,
    pub contents: usize,
    pub items: usize,
    pub next: usize,
    pub depth: usize,
    pub tag_class: u8,
    pub constructed: u8,
}

/// Where the item numbers of a path begin, and how many they are.
#[repr(C)]
#[derive(Clone, Copy, Debug, Default, PartialEq, Eq)]
pub struct Path {
    pub start: usize,
    pub length: usize,
}

/// What a path leads to: of kind 0 nothing, of kind 1 a block, of kind 2 an INTEGER whose number fits.
#[repr(C)]
#[derive(Clone, Copy, Debug, Default, PartialEq, Eq)]
pub struct Value {
    pub tag: u64,
    pub offset: usize,
    pub header: usize,
    pub contents: usize,
    pub number: i64,
    pub kind: u32,
    pub tag_class: u8,
    pub constructed: u8,
}

/// A rule of DER that an encoding breaks, and the offset of the encoding.
#[repr(C)]
#[derive(Clone, Copy, Debug, Default, PartialEq, Eq)]
pub struct Departure {
    pub offset: usize,
    pub rule: u32,
}

#[repr(C)]
#[derive(Clone, Copy, Debug, PartialEq, Eq)]
pub struct Outcome {
    pub status: u32,
    pub offset: usize,
    pub count: usize,
}

#[repr(C)]
#[derive(Clone, Copy, Debug, PartialEq, Eq)]
pub struct Integer {
    pub status: u32,
    pub value: i64,
}

/// Where the bits of a BIT STRING are: so many, in octets of the input.
#[repr(C)]
#[derive(Clone, Copy, Debug, PartialEq, Eq)]
pub struct BitString {
    pub status: u32,
    pub start: usize,
    pub size: usize,
    pub bits: usize,
}

#[repr(C)]
#[derive(Clone, Copy, Debug, PartialEq, Eq)]
pub struct Moment {
    pub status: u32,
    pub year: i32,
    pub month: u32,
    pub day: u32,
    pub hour: u32,
    pub minute: u32,
    pub second: u32,
    pub nanosecond: u32,
}

#[repr(C)]
#[derive(Clone, Copy, Debug, PartialEq, Eq)]
pub struct SignedParts {
    pub status: u32,
    pub offset: usize,
    pub content: Block,
    pub algorithm: Block,
    pub signature: Block,
}

#[repr(C)]
#[derive(Clone, Copy, Debug, PartialEq, Eq)]
pub struct CertificateParts {
    pub status: u32,
    pub offset: usize,
    pub certificate: Block,
    pub tbs_certificate: Block,
    pub version: Block,
    pub serial_number: Block,
    pub tbs_signature: Block,
    pub issuer: Block,
    pub not_before: Block,
    pub not_after: Block,
    pub subject: Block,
    pub subject_public_key_info: Block,
    pub public_key_algorithm: Block,
    pub subject_public_key: Block,
    pub issuer_unique_id: Block,
    pub subject_unique_id: Block,
    pub extensions: Block,
    pub signature_algorithm: Block,
    pub signature: Block,
}

#[repr(C)]
#[derive(Clone, Copy, Debug, PartialEq, Eq)]
pub struct RequestParts {
    pub status: u32,
    pub offset: usize,
    pub certification_request: Block,
    pub certification_request_info: Block,
    pub version: Block,
    pub subject: Block,
    pub subject_public_key_info: Block,
    pub public_key_algorithm: Block,
    pub subject_public_key: Block,
    pub attributes: Block,
    pub signature_algorithm: Block,
    pub signature: Block,
}

#[repr(C)]
#[derive(Clone, Copy, Debug, PartialEq, Eq)]
pub struct RevocationListParts {
    pub status: u32,
    pub offset: usize,
    pub certificate_list: Block,
    pub tbs_cert_list: Block,
    pub version: Block,
    pub tbs_signature: Block,
    pub issuer: Block,
    pub this_update: Block,
    pub next_update: Block,
    pub revoked_certificates: Block,
    pub crl_extensions: Block,
    pub signature_algorithm: Block,
    pub signature: Block,
}

#[repr(C)]
#[derive(Clone, Copy, Debug, PartialEq, Eq)]
pub struct Fault {
    pub status: u32,
    pub offset: usize,
    pub number: u64,
    pub text: Outcome,
}

extern "C" {
    pub fn simple_asn1_version() -> u32;
    pub fn simple_asn1_read(octets: *const u8, size: usize, blocks: *mut Block, room: usize) -> Outcome;
    pub fn simple_asn1_read_strict(octets: *const u8, size: usize, blocks: *mut Block, room: usize) -> Outcome;
    pub fn simple_asn1_outline(octets: *const u8, size: usize, blocks: *mut Block, room: usize) -> Outcome;
    pub fn simple_asn1_values(
        octets: *const u8,
        size: usize,
        steps: *const usize,
        step_count: usize,
        paths: *const Path,
        path_count: usize,
        values: *mut Value,
        room: usize,
    ) -> Outcome;
    pub fn simple_asn1_check(octets: *const u8, size: usize) -> Outcome;
    pub fn simple_asn1_departures(octets: *const u8, size: usize, departures: *mut Departure, room: usize) -> Outcome;
    pub fn simple_asn1_rewrite(octets: *const u8, size: usize, out: *mut u8, room: usize) -> Outcome;
    pub fn simple_asn1_write(
        octets: *const u8,
        size: usize,
        blocks: *const Block,
        count: usize,
        out: *mut u8,
        room: usize,
    ) -> Outcome;
    pub fn simple_asn1_int64(octets: *const u8, size: usize, offset: usize) -> Integer;
    pub fn simple_asn1_bits(octets: *const u8, size: usize, offset: usize) -> BitString;
    pub fn simple_asn1_time(octets: *const u8, size: usize, offset: usize) -> Moment;
    pub fn simple_asn1_text(octets: *const u8, size: usize, offset: usize, out: *mut u8, room: usize) -> Outcome;
    pub fn simple_asn1_oid(octets: *const u8, size: usize, offset: usize, out: *mut u8, room: usize) -> Outcome;
    pub fn simple_asn1_signed(octets: *const u8, size: usize) -> SignedParts;
    pub fn simple_asn1_certificate(octets: *const u8, size: usize) -> CertificateParts;
    pub fn simple_asn1_request(octets: *const u8, size: usize) -> RequestParts;
    pub fn simple_asn1_revocation_list(octets: *const u8, size: usize) -> RevocationListParts;
    pub fn simple_asn1_put_boolean(value: u8, out: *mut u8, room: usize) -> Outcome;
    pub fn simple_asn1_put_int64(value: i64, out: *mut u8, room: usize) -> Outcome;
    pub fn simple_asn1_put_bits(octets: *const u8, size: usize, bits: usize, out: *mut u8, room: usize) -> Outcome;
    pub fn simple_asn1_put_oid(text: *const u8, size: usize, out: *mut u8, room: usize) -> Outcome;
    pub fn simple_asn1_put_text(tag: u64, text: *const u8, size: usize, out: *mut u8, room: usize) -> Outcome;
    pub fn simple_asn1_put_time(tag: u64, moment: *const Moment, out: *mut u8, room: usize) -> Outcome;
    pub fn simple_asn1_components(contents: *const u8, size: usize, out: *mut u64, room: usize) -> Outcome;
    pub fn simple_asn1_dotted(contents: *const u8, size: usize, out: *mut u8, room: usize) -> Outcome;
    pub fn simple_asn1_shortest_oid(contents: *const u8, size: usize, out: *mut u8, room: usize) -> Outcome;
    pub fn simple_asn1_component(contents: *const u8, size: usize, index: usize) -> Outcome;
    pub fn simple_asn1_header(octets: *const u8, size: usize, offset: usize, block: *mut Block, room: usize)
        -> Outcome;
    pub fn simple_asn1_tag(octets: *const u8, size: usize, offset: usize, out: *mut u8, room: usize) -> Outcome;
    pub fn simple_asn1_tag_octets(octets: *const u8, size: usize, offset: usize) -> Outcome;
    pub fn simple_asn1_fault(octets: *const u8, size: usize, out: *mut u8, room: usize) -> Fault;
    pub fn simple_asn1_raw_bits(octets: *const u8, size: usize, bits: usize, out: *mut u8, room: usize) -> Outcome;
    pub fn simple_asn1_raw_oid(components: *const u64, size: usize, out: *mut u8, room: usize) -> Outcome;
    pub fn simple_asn1_raw_text(tag: u64, text: *const u8, size: usize, out: *mut u8, room: usize) -> Outcome;
    pub fn simple_asn1_raw_time(tag: u64, moment: *const Moment, out: *mut u8, room: usize) -> Outcome;
    pub fn simple_asn1_spell(
        octets: *const u8,
        size: usize,
        blocks: *const Block,
        count: usize,
        out: *mut u8,
        room: usize,
    ) -> Outcome;
    pub fn simple_asn1_encoding(
        tag_class: u8,
        constructed: u8,
        tag: *const u8,
        tag_size: usize,
        contents: *const u8,
        size: usize,
        out: *mut u8,
        room: usize,
    ) -> Outcome;
}
