//! The calls of `simple_asn1.h`. All unsafe code is in this file, in `growing` and in `once_lock`.

use crate::sys;
use std::alloc::{handle_alloc_error, Layout};
use std::cell::Cell;
pub use sys::{Block, Moment, Outcome};

// SAFETY, of each call below: each pointer comes with the length of what is behind it; the room is memory that nothing
// else refers to, so it overlaps no input; no call keeps a pointer; of the room, only what the call says that it wrote
// is read.

/// Puts what the call writes at the end. The room is a guess: with too little of it, the call is made again.
fn append<T>(out: &mut Vec<T>, room: usize, call: impl Fn(*mut T, usize) -> Outcome) -> Result<(), Outcome> {
    out.reserve(room);
    let used = out.len();
    let mut answer = call(out.spare_capacity_mut().as_mut_ptr().cast(), out.capacity() - used);
    if answer.status == sys::NO_ROOM {
        out.reserve(answer.count);
        answer = call(out.spare_capacity_mut().as_mut_ptr().cast(), out.capacity() - used);
    }
    match answer.status {
        sys::OK => {
            unsafe { out.set_len(used + answer.count) };
            Ok(())
        }
        sys::NO_MEMORY => out_of_memory(),
        _ => Err(answer),
    }
}

/// As any allocation of Rust.
#[cold]
pub fn out_of_memory() -> ! {
    handle_alloc_error(Layout::new::<Block>())
}

thread_local! {
    /// Room for the records of documents of the common sizes.
    static KEPT: Cell<Vec<Block>> = const { Cell::new(Vec::new()) };
}
const FIRST_ROOM: usize = 256;
const MOST_KEPT: usize = 4096;

/// What is made of the records of a document, or the fault.
pub fn read<T>(octets: &[u8], make: impl FnOnce(&[Block]) -> T) -> Result<T, Outcome> {
    // a thread that ends may have dropped it already
    let mut records = KEPT.try_with(Cell::take).unwrap_or_default();
    records.clear();
    let read = append(&mut records, FIRST_ROOM, |out, room| unsafe {
        sys::simple_asn1_read(octets.as_ptr(), octets.len(), out, room)
    });
    let made = read.map(|()| make(&records));
    if records.capacity() <= MOST_KEPT {
        let _ = KEPT.try_with(|kept| kept.set(records));
    }
    made
}

/// The error of bytes that are not a document, and its text.
pub fn fault(octets: &[u8]) -> (sys::Fault, String) {
    let mut text = vec![0; 64];
    loop {
        let fault = unsafe { sys::simple_asn1_fault(octets.as_ptr(), octets.len(), text.as_mut_ptr(), text.len()) };
        match fault.text.status {
            sys::OK => {
                text.truncate(fault.text.count);
                return (fault, String::from_utf8(text).unwrap_or_default());
            }
            _ => text.resize(fault.text.count, 0),
        }
    }
}

/// The record of the encoding at an offset, by its header alone.
pub fn header(octets: &[u8], offset: usize) -> Option<Block> {
    let mut header = Vec::new();
    append(&mut header, 1, |out, room| unsafe {
        sys::simple_asn1_header(octets.as_ptr(), octets.len(), offset, out, room)
    })
    .ok()?;
    header.pop()
}

pub fn time(octets: &[u8], offset: usize) -> Moment {
    unsafe { sys::simple_asn1_time(octets.as_ptr(), octets.len(), offset) }
}

/// These octets as text, if they are ASCII. `from_utf8` would look at each octet of a short text by itself.
pub fn ascii(octets: &[u8]) -> Option<String> {
    // SAFETY: ASCII is UTF-8.
    octets.is_ascii().then(|| unsafe { String::from_utf8_unchecked(octets.to_vec()) })
}

/// The text of a value that was read.
fn text_of(room: usize, call: impl Fn(*mut u8, usize) -> Outcome) -> String {
    let mut text = Vec::new();
    append(&mut text, room, call).expect("the value was read");
    String::from_utf8(text).expect("text is in UTF-8")
}

pub fn text(octets: &[u8], offset: usize, room: usize) -> String {
    text_of(room, |out, room| unsafe { sys::simple_asn1_text(octets.as_ptr(), octets.len(), offset, out, room) })
}

/// What is made of the components of an object identifier; `None` if one is 2^64 or more.
pub fn components<T>(contents: &[u8], make: impl FnOnce(&[u64]) -> T) -> Option<T> {
    let mut room = [0; 32];
    let mut more;
    let mut room = &mut room[..];
    if contents.len() >= room.len() {
        more = vec![0; contents.len() + 1];
        room = &mut more;
    }
    let answer =
        unsafe { sys::simple_asn1_components(contents.as_ptr(), contents.len(), room.as_mut_ptr(), room.len()) };
    match answer.status {
        sys::OK => Some(make(&room[..answer.count])),
        sys::NO_MEMORY => out_of_memory(),
        _ => None,
    }
}

/// The contents octets of a canonical encoding of what these mean.
pub fn shortest_oid(contents: &[u8], out: &mut Vec<u8>) -> Result<(), Outcome> {
    append(out, contents.len(), |out, room| unsafe {
        sys::simple_asn1_shortest_oid(contents.as_ptr(), contents.len(), out, room)
    })
}

pub fn raw_bits(octets: &[u8], bits: usize, out: &mut Vec<u8>) -> Result<(), Outcome> {
    append(out, octets.len() + 1, |out, room| unsafe {
        sys::simple_asn1_raw_bits(octets.as_ptr(), octets.len(), bits, out, room)
    })
}

pub fn raw_oid(components: &[u64], out: &mut Vec<u8>) -> Result<(), Outcome> {
    append(out, 32, |out, room| unsafe { sys::simple_asn1_raw_oid(components.as_ptr(), components.len(), out, room) })
}

pub fn raw_text(tag: u64, text: &str, out: &mut Vec<u8>) -> Result<(), Outcome> {
    append(out, text.len(), |out, room| unsafe { sys::simple_asn1_raw_text(tag, text.as_ptr(), text.len(), out, room) })
}

pub fn raw_time(tag: u64, moment: &Moment, out: &mut Vec<u8>) -> Result<(), Outcome> {
    append(out, 32, |out, room| unsafe { sys::simple_asn1_raw_time(tag, moment, out, room) })
}

/// The bytes that records describe.
pub fn spell(octets: &[u8], blocks: &[Block], out: &mut Vec<u8>) -> Result<(), Outcome> {
    append(out, octets.len() + 6 * blocks.len(), |out, room| unsafe {
        sys::simple_asn1_spell(octets.as_ptr(), octets.len(), blocks.as_ptr(), blocks.len(), out, room)
    })
}

pub fn put_boolean(value: bool, out: &mut Vec<u8>) -> Result<(), crate::ASN1EncodeErr> {
    append(out, 1, |out, room| unsafe { sys::simple_asn1_put_boolean(u8::from(value), out, room) })
        .expect("there is room for one octet");
    Ok(())
}
