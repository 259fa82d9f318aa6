//! The calls of simple_asn1.h. All unsafe code is in this file.

use crate::Fault;
pub use simple_asn1_sys::Block as Record;
use simple_asn1_sys::*;
pub use simple_asn1_sys::{CertificateParts, Path, RequestParts, RevocationListParts, SignedParts, Value};

/// A moment in UTC, to the nanosecond.
#[derive(Clone, Copy, Debug, PartialEq, Eq, PartialOrd, Ord, Hash)]
pub struct Moment {
    pub year: i32,
    pub month: u32,
    pub day: u32,
    pub hour: u32,
    pub minute: u32,
    pub second: u32,
    pub nanosecond: u32,
}

/// The bytes that a call writes. It is made with this room, which suffices for most values, or else once more with as
/// much as it needs.
fn sized(room: usize, call: impl Fn(*mut u8, usize) -> Outcome) -> Result<Vec<u8>, Fault> {
    let mut out = vec![0; room];
    let mut answer = call(out.as_mut_ptr(), out.len());
    if answer.status == NO_ROOM {
        out.resize(answer.count, 0);
        answer = call(out.as_mut_ptr(), out.len());
    }
    if answer.status != OK {
        return Err(Fault::of_status(answer.status, answer.offset));
    }
    out.truncate(answer.count);
    out.shrink_to_fit();
    Ok(out)
}

// SAFETY, of each call below: the declarations are those of simple_asn1.h, which checks/run bindings compares; each pointer
// comes with the length of what is behind it; `out` is memory of its own, so it overlaps nothing; no call keeps a
// pointer.

/// The first call has room for so many records. Most documents have fewer, and are read by one call.
const FIRST_ROOM: usize = 1024;

/// Room for the most records that the octets can need would be 32 octets for each octet. So a document with more
/// records than the first room is read again, with room for just as many as it has: the first call holds no more of
/// them than fit into the first room, and counts the others.
fn records<R: Clone + Default>(octets: &[u8], call: impl Fn(*mut R, usize) -> Outcome) -> Result<Vec<R>, Fault> {
    let mut records = vec![R::default(); FIRST_ROOM.min(octets.len() / 2)];
    let mut answer = call(records.as_mut_ptr(), records.len());
    if answer.status == NO_ROOM {
        records = vec![R::default(); answer.count];
        answer = call(records.as_mut_ptr(), records.len());
    }
    if answer.status != OK {
        return Err(Fault::of_status(answer.status, answer.offset));
    }
    records.truncate(answer.count);
    records.shrink_to_fit();
    Ok(records)
}

pub fn version() -> u32 {
    unsafe { simple_asn1_version() }
}

pub fn read(octets: &[u8]) -> Result<Vec<Record>, Fault> {
    records(octets, |out, room| unsafe { simple_asn1_read(octets.as_ptr(), octets.len(), out, room) })
}

pub fn read_strict(octets: &[u8]) -> Result<Vec<Record>, Fault> {
    records(octets, |out, room| unsafe { simple_asn1_read_strict(octets.as_ptr(), octets.len(), out, room) })
}

pub fn outline(octets: &[u8]) -> Result<Vec<Record>, Fault> {
    records(octets, |out, room| unsafe { simple_asn1_outline(octets.as_ptr(), octets.len(), out, room) })
}

pub fn departures(octets: &[u8]) -> Result<Vec<Departure>, Fault> {
    records(octets, |out, room| unsafe { simple_asn1_departures(octets.as_ptr(), octets.len(), out, room) })
}

/// What each path leads to: they begin one after another in the item numbers, and each has so many.
pub fn values(octets: &[u8], steps: &[usize], paths: &[Path]) -> Result<Vec<Value>, Fault> {
    let mut values = vec![Value::default(); paths.len()];
    let answer = unsafe {
        simple_asn1_values(
            octets.as_ptr(),
            octets.len(),
            steps.as_ptr(),
            steps.len(),
            paths.as_ptr(),
            paths.len(),
            values.as_mut_ptr(),
            values.len(),
        )
    };
    match answer.status {
        OK => Ok(values),
        status => Err(Fault::of_status(status, answer.offset)),
    }
}

pub fn rewrite(octets: &[u8]) -> Result<Vec<u8>, Fault> {
    sized(octets.len(), |out, room| unsafe { simple_asn1_rewrite(octets.as_ptr(), octets.len(), out, room) })
}

pub fn write(octets: &[u8], records: &[Record]) -> Result<Vec<u8>, Fault> {
    // a short header has two octets, and most have one of at most six
    sized(octets.len() + 6 * records.len(), |out, room| unsafe {
        simple_asn1_write(octets.as_ptr(), octets.len(), records.as_ptr(), records.len(), out, room)
    })
}

pub fn check(octets: &[u8]) -> Result<(), Fault> {
    let answer = unsafe { simple_asn1_check(octets.as_ptr(), octets.len()) };
    match answer.status {
        OK => Ok(()),
        status => Err(Fault::of_status(status, answer.offset)),
    }
}

pub fn int64(octets: &[u8], offset: usize) -> Result<i64, Fault> {
    let answer = unsafe { simple_asn1_int64(octets.as_ptr(), octets.len(), offset) };
    match answer.status {
        OK => Ok(answer.value),
        status => Err(Fault::of_status(status, offset)),
    }
}

/// The octets that hold the bits of a BIT STRING, and the number of bits.
pub fn bits(octets: &[u8], offset: usize) -> Result<(&[u8], usize), Fault> {
    let answer = unsafe { simple_asn1_bits(octets.as_ptr(), octets.len(), offset) };
    match answer.status {
        OK => Ok((&octets[answer.start..][..answer.size], answer.bits)),
        status => Err(Fault::of_status(status, offset)),
    }
}

pub fn time(octets: &[u8], offset: usize) -> Result<Moment, Fault> {
    let answer = unsafe { simple_asn1_time(octets.as_ptr(), octets.len(), offset) };
    match answer.status {
        OK => Ok(Moment {
            year: answer.year,
            month: answer.month,
            day: answer.day,
            hour: answer.hour,
            minute: answer.minute,
            second: answer.second,
            nanosecond: answer.nanosecond,
        }),
        status => Err(Fault::of_status(status, offset)),
    }
}

pub fn text(octets: &[u8], offset: usize, room: usize) -> Result<Vec<u8>, Fault> {
    sized(room, |out, room| unsafe { simple_asn1_text(octets.as_ptr(), octets.len(), offset, out, room) })
}

/// The library makes no text of an OBJECT IDENTIFIER with more contents octets.
const MOST_IN_DECIMAL: usize = 1024;

/// The components of an OBJECT IDENTIFIER with so many contents octets; for another block that number is 0. Its first
/// octet gives at most five characters, as in `2.175`, and each other at most four: so the text is never made twice.
pub fn oid(octets: &[u8], offset: usize, contents: usize) -> Result<Vec<u8>, Fault> {
    sized(4 * contents.min(MOST_IN_DECIMAL) + 1, |out, room| unsafe {
        simple_asn1_oid(octets.as_ptr(), octets.len(), offset, out, room)
    })
}

pub fn signed(octets: &[u8]) -> Result<SignedParts, Fault> {
    let answer = unsafe { simple_asn1_signed(octets.as_ptr(), octets.len()) };
    match answer.status {
        OK => Ok(answer),
        status => Err(Fault::of_status(status, answer.offset)),
    }
}

pub fn certificate(octets: &[u8]) -> Result<CertificateParts, Fault> {
    let answer = unsafe { simple_asn1_certificate(octets.as_ptr(), octets.len()) };
    match answer.status {
        OK => Ok(answer),
        status => Err(Fault::of_status(status, answer.offset)),
    }
}

pub fn request(octets: &[u8]) -> Result<RequestParts, Fault> {
    let answer = unsafe { simple_asn1_request(octets.as_ptr(), octets.len()) };
    match answer.status {
        OK => Ok(answer),
        status => Err(Fault::of_status(status, answer.offset)),
    }
}

pub fn revocation_list(octets: &[u8]) -> Result<RevocationListParts, Fault> {
    let answer = unsafe { simple_asn1_revocation_list(octets.as_ptr(), octets.len()) };
    match answer.status {
        OK => Ok(answer),
        status => Err(Fault::of_status(status, answer.offset)),
    }
}

/// The record of the encoding at an offset, read by its header alone: `items`, `next` and `depth` are 0.
pub fn header(octets: &[u8], offset: usize) -> Result<Record, Fault> {
    let mut record = Record::default();
    let answer = unsafe { simple_asn1_header(octets.as_ptr(), octets.len(), offset, &mut record, 1) };
    match answer.status {
        OK => Ok(record),
        status => Err(Fault::of_status(status, offset)),
    }
}

pub fn put_boolean(value: bool) -> Result<Vec<u8>, Fault> {
    sized(1, |out, room| unsafe { simple_asn1_put_boolean(u8::from(value), out, room) })
}

pub fn put_int64(value: i64) -> Result<Vec<u8>, Fault> {
    sized(8, |out, room| unsafe { simple_asn1_put_int64(value, out, room) })
}

pub fn put_bits(octets: &[u8], bits: usize) -> Result<Vec<u8>, Fault> {
    sized(octets.len() + 1, |out, room| unsafe { simple_asn1_put_bits(octets.as_ptr(), octets.len(), bits, out, room) })
}

pub fn put_oid(text: &str) -> Result<Vec<u8>, Fault> {
    sized(text.len(), |out, room| unsafe { simple_asn1_put_oid(text.as_ptr(), text.len(), out, room) })
}

pub fn put_text(tag: u64, text: &str) -> Result<Vec<u8>, Fault> {
    sized(text.len(), |out, room| unsafe { simple_asn1_put_text(tag, text.as_ptr(), text.len(), out, room) })
}

pub fn put_time(tag: u64, moment: Moment) -> Result<Vec<u8>, Fault> {
    let fields = simple_asn1_sys::Moment {
        status: OK,
        year: moment.year,
        month: moment.month,
        day: moment.day,
        hour: moment.hour,
        minute: moment.minute,
        second: moment.second,
        nanosecond: moment.nanosecond,
    };
    sized(32, |out, room| unsafe { simple_asn1_put_time(tag, &fields, out, room) })
}
