//! The readers and writers that are timed.
use crate::records;
use simple_asn1::ASN1Block;
use std::ffi::{c_char, c_int, CString};
use std::hint::black_box;

/// One document, and of which item it is: a reader by types has to know.
pub struct Document {
    pub item: CString,
    pub octets: Vec<u8>,
}

/// Each function answers whether the document was read, and drops what it made.
pub struct Peer {
    pub name: &'static str,
    pub read: fn(&Document) -> bool,
    pub read_strictly: Option<fn(&Document) -> bool>,
    /// Reads the document once, and writes what was read so many times.
    pub write: Option<fn(&Document, u64) -> bool>,
    /// Gives the canonical octets.
    pub rewrite: Option<fn(&Document) -> bool>,
}

pub const RUST_CRATE: &str = "Rust crate";
pub const HERE: &str = "here";

pub fn peers() -> Vec<Peer> {
    vec![
        Peer {
            name: RUST_CRATE,
            read: |it| crate_write(it, 0),
            read_strictly: None,
            write: Some(crate_write),
            rewrite: Some(|it| black_box(crate_rewritten(&it.octets)).is_some()),
        },
        Peer {
            name: HERE,
            read: |it| unsafe { bench_read(it.octets.as_ptr(), it.octets.len()) >= 0 },
            read_strictly: Some(|it| unsafe { bench_read_strictly(it.octets.as_ptr(), it.octets.len()) >= 0 }),
            write: Some(|it, times| unsafe { bench_write(it.octets.as_ptr(), it.octets.len(), times) >= 0 }),
            rewrite: Some(|it| unsafe { bench_rewritten_size(it.octets.as_ptr(), it.octets.len()) >= 0 }),
        },
        Peer {
            name: "here, Document",
            read: |it| unsafe { bench_read_document(it.octets.as_ptr(), it.octets.len()) >= 0 },
            read_strictly: None,
            write: None,
            rewrite: None,
        },
        Peer {
            name: "here, Outline",
            read: |it| unsafe { bench_outline(it.octets.as_ptr(), it.octets.len()) >= 0 },
            read_strictly: Some(|it| unsafe { bench_outline_strictly(it.octets.as_ptr(), it.octets.len()) >= 0 }),
            write: None,
            rewrite: None,
        },
        Peer {
            name: "here, is_der",
            read: |it| unsafe { bench_is_der(it.octets.as_ptr(), it.octets.len()) >= 0 },
            read_strictly: None,
            write: None,
            rewrite: None,
        },
        Peer {
            name: "here, departures",
            read: |it| unsafe { bench_departures(it.octets.as_ptr(), it.octets.len()) >= 0 },
            read_strictly: None,
            write: None,
            rewrite: None,
        },
        Peer {
            name: "here, C",
            read: |it| records::read(&it.octets),
            read_strictly: Some(|it| records::read_strictly(&it.octets)),
            write: Some(|it, times| records::write(&it.octets, times)),
            rewrite: Some(|it| records::rewrite(&it.octets)),
        },
        Peer {
            name: "here, C, all values",
            read: |it| records::read_values(&it.octets),
            read_strictly: None,
            write: None,
            rewrite: None,
        },
        Peer {
            name: "der-parser",
            read: |it| all_read(it, |octets| der_parser::ber::parse_ber_recursive(octets, DEPTH)),
            read_strictly: Some(|it| all_read(it, |octets| der_parser::der::parse_der_recursive(octets, DEPTH))),
            write: None,
            rewrite: None,
        },
        Peer {
            name: "libtasn1",
            read: |it| libtasn1(it, false, 0),
            read_strictly: Some(|it| libtasn1(it, true, 0)),
            write: Some(|it, times| libtasn1(it, false, times)),
            rewrite: None,
        },
        Peer {
            name: "OpenSSL tree",
            read: |it| unsafe { openssl_tree(it.octets.as_ptr(), it.octets.len()) == 1 },
            read_strictly: None,
            write: None,
            rewrite: None,
        },
        Peer {
            name: "OpenSSL types",
            read: |it| openssl(it, 0),
            read_strictly: None,
            write: Some(openssl),
            rewrite: None,
        },
    ]
}

/// Calls for C whose instructions are counted, and no time is taken. They are asked of certificates.
pub fn calls() -> Vec<Peer> {
    let call = |name, read| Peer { name, read, read_strictly: None, write: None, rewrite: None };
    vec![
        call("here, C, outline", |it| records::outline(&it.octets)),
        call("here, C, three values", |it| records::facts(&it.octets)),
        call("here, C, check", |it| records::check(&it.octets)),
        call("here, C, departures", |it| records::departures(&it.octets)),
        call("here, C, signed", |it| records::signed(&it.octets)),
    ]
}

fn crate_write(it: &Document, times: u64) -> bool {
    let Ok(blocks) = simple_asn1::from_der(&it.octets) else {
        return false;
    };
    let all = black_box(&blocks);
    (0..times).all(|_| all.iter().all(|block| black_box(simple_asn1::to_der(block)).is_ok()))
}

/// The canonical octets by the Rust crate.
pub fn crate_rewritten(octets: &[u8]) -> Option<Vec<u8>> {
    let mut written = Vec::new();
    for block in simple_asn1::from_der(octets).ok()? {
        written.append(&mut simple_asn1::to_der(&block).ok()?);
    }
    Some(written)
}

/// The canonical octets by the library here.
pub fn rewritten(octets: &[u8]) -> Option<Vec<u8>> {
    // (a time or an empty integer may grow)
    let mut room = vec![0; 2 * octets.len() + 64];
    let size = unsafe { bench_rewrite(octets.as_ptr(), octets.len(), room.as_mut_ptr(), room.len()) };
    room.truncate(usize::try_from(size).ok()?);
    Some(room)
}

/// How many blocks a document has, at all depths.
pub fn block_count(octets: &[u8]) -> usize {
    fn count(block: &ASN1Block) -> usize {
        1 + match block {
            ASN1Block::Sequence(_, items) | ASN1Block::Set(_, items) => items.iter().map(count).sum(),
            ASN1Block::Explicit(_, _, _, inner) => count(inner),
            _ => 0,
        }
    }
    simple_asn1::from_der(octets).map_or(0, |blocks| blocks.iter().map(count).sum())
}

const DEPTH: usize = 1 << 20;

fn all_read<'a>(it: &'a Document, read: fn(&'a [u8]) -> der_parser::error::BerResult<'a>) -> bool {
    let (mut rest, mut objects) = (&it.octets[..], Vec::new());
    while !rest.is_empty() {
        let Ok((after, object)) = read(rest) else {
            return false;
        };
        objects.push(object);
        rest = after;
    }
    black_box(objects);
    true
}

fn libtasn1(it: &Document, is_strict: bool, times: u64) -> bool {
    unsafe { libtasn1_typed(it.item.as_ptr(), it.octets.as_ptr(), it.octets.len(), is_strict.into(), times) == 1 }
}

fn openssl(it: &Document, times: u64) -> bool {
    unsafe { openssl_typed(it.item.as_ptr(), it.octets.as_ptr(), it.octets.len(), times) == 1 }
}

// A slice of Rattle crosses as a pointer and a length. (bench/library, bench/c)
extern "C" {
    fn bench_read(octets: *const u8, size: usize) -> i64;
    fn bench_read_document(octets: *const u8, size: usize) -> i64;
    fn bench_outline(octets: *const u8, size: usize) -> i64;
    fn bench_outline_strictly(octets: *const u8, size: usize) -> i64;
    fn bench_read_strictly(octets: *const u8, size: usize) -> i64;
    fn bench_is_der(octets: *const u8, size: usize) -> i64;
    fn bench_departures(octets: *const u8, size: usize) -> i64;
    fn bench_write(octets: *const u8, size: usize, times: u64) -> i64;
    fn bench_rewritten_size(octets: *const u8, size: usize) -> i64;
    fn bench_rewrite(octets: *const u8, size: usize, room: *mut u8, room_size: usize) -> i64;
    fn libtasn1_typed(item: *const c_char, octets: *const u8, size: usize, is_strict: c_int, times: u64) -> c_int;
    fn openssl_tree(octets: *const u8, size: usize) -> c_int;
    fn openssl_typed(item: *const c_char, octets: *const u8, size: usize, times: u64) -> c_int;
}
