//! The calls for C, as a program in C makes them: into room that it keeps, and enlarges where a call says how much is
//! needed.
use std::cell::RefCell;

#[repr(C)]
#[derive(Clone, Copy, Default)]
struct Block {
    tag: u64,
    offset: usize,
    header: usize,
    contents: usize,
    items: usize,
    next: usize,
    depth: usize,
    tag_class: u8,
    constructed: u8,
}

#[repr(C)]
#[allow(dead_code)]
struct Outcome {
    status: u32,
    offset: usize,
    count: usize,
}

/// Where the item numbers of a path begin, and how many they are.
#[repr(C)]
struct Path {
    start: usize,
    length: usize,
}

#[repr(C)]
#[derive(Clone, Copy, Default)]
struct Found {
    tag: u64,
    offset: usize,
    header: usize,
    contents: usize,
    number: i64,
    kind: u32,
    tag_class: u8,
    constructed: u8,
}

#[repr(C)]
#[derive(Clone, Copy, Default)]
struct Departure {
    offset: usize,
    rule: u32,
}

#[repr(C)]
#[allow(dead_code)]
struct Signed {
    status: u32,
    offset: usize,
    parts: [Block; 3],
}

#[repr(C)]
#[allow(dead_code)]
struct Integer {
    status: u32,
    value: i64,
}

#[repr(C)]
#[allow(dead_code)]
struct Moment {
    status: u32,
    year: i32,
    month_to_nanosecond: [u32; 6],
}

const OK: u32 = 0;
const NO_MEMORY: u32 = 10;
const NO_ROOM: u32 = 11;

extern "C" {
    fn simple_asn1_read(octets: *const u8, size: usize, blocks: *mut Block, room: usize) -> Outcome;
    fn simple_asn1_read_strict(octets: *const u8, size: usize, blocks: *mut Block, room: usize) -> Outcome;
    fn simple_asn1_outline(octets: *const u8, size: usize, blocks: *mut Block, room: usize) -> Outcome;
    fn simple_asn1_values(
        octets: *const u8,
        size: usize,
        steps: *const usize,
        step_count: usize,
        paths: *const Path,
        path_count: usize,
        values: *mut Found,
        room: usize,
    ) -> Outcome;
    fn simple_asn1_check(octets: *const u8, size: usize) -> Outcome;
    fn simple_asn1_departures(octets: *const u8, size: usize, departures: *mut Departure, room: usize) -> Outcome;
    fn simple_asn1_signed(octets: *const u8, size: usize) -> Signed;
    fn simple_asn1_rewrite(octets: *const u8, size: usize, out: *mut u8, room: usize) -> Outcome;
    fn simple_asn1_write(
        octets: *const u8,
        size: usize,
        blocks: *const Block,
        count: usize,
        out: *mut u8,
        room: usize,
    ) -> Outcome;
    fn simple_asn1_int64(octets: *const u8, size: usize, offset: usize) -> Integer;
    fn simple_asn1_time(octets: *const u8, size: usize, offset: usize) -> Moment;
    fn simple_asn1_text(octets: *const u8, size: usize, offset: usize, out: *mut u8, room: usize) -> Outcome;
    fn simple_asn1_oid(octets: *const u8, size: usize, offset: usize, out: *mut u8, room: usize) -> Outcome;
}

thread_local! {
    static RECORDS: RefCell<Vec<Block>> = const { RefCell::new(Vec::new()) };
    static OCTETS: RefCell<Vec<u8>> = const { RefCell::new(Vec::new()) };
}

/// What a call puts into room that is enlarged once where it has to be. None where the call fails.
fn filled<T: Clone + Default>(room: &mut Vec<T>, call: impl Fn(*mut T, usize) -> Outcome) -> Option<usize> {
    let mut outcome = call(room.as_mut_ptr(), room.len());
    if outcome.status == NO_ROOM {
        room.resize(outcome.count, T::default());
        outcome = call(room.as_mut_ptr(), room.len());
    }
    (outcome.status == OK).then_some(outcome.count)
}

type Reader = unsafe extern "C" fn(*const u8, usize, *mut Block, usize) -> Outcome;

fn read_by(reader: Reader, octets: &[u8], records: &mut Vec<Block>) -> Option<usize> {
    filled(records, |blocks, room| unsafe { reader(octets.as_ptr(), octets.len(), blocks, room) })
}

pub fn read(octets: &[u8]) -> bool {
    RECORDS.with_borrow_mut(|records| read_by(simple_asn1_read, octets, records).is_some())
}

pub fn read_strictly(octets: &[u8]) -> bool {
    RECORDS.with_borrow_mut(|records| read_by(simple_asn1_read_strict, octets, records).is_some())
}

pub fn outline(octets: &[u8]) -> bool {
    RECORDS.with_borrow_mut(|records| read_by(simple_asn1_outline, octets, records).is_some())
}

pub fn check(octets: &[u8]) -> bool {
    unsafe { simple_asn1_check(octets.as_ptr(), octets.len()).status == OK }
}

pub fn signed(octets: &[u8]) -> bool {
    unsafe { simple_asn1_signed(octets.as_ptr(), octets.len()).status == OK }
}

pub fn departures(octets: &[u8]) -> bool {
    let mut room = [Departure::default(); 64];
    let call = |out, room| unsafe { simple_asn1_departures(octets.as_ptr(), octets.len(), out, room) };
    matches!(call(room.as_mut_ptr(), room.len()).status, OK | NO_ROOM)
}

/// Three facts of a certificate that says its version: the serial number, the end of its validity, and the subject.
pub fn facts(octets: &[u8]) -> bool {
    const STEPS: [usize; 10] = [0, 0, 1, 0, 0, 4, 1, 0, 0, 5];
    const PATHS: [Path; 3] = [Path { start: 0, length: 3 }, Path { start: 3, length: 4 }, Path { start: 7, length: 3 }];
    let mut found = [Found::default(); PATHS.len()];
    let outcome = unsafe {
        simple_asn1_values(
            octets.as_ptr(),
            octets.len(),
            STEPS.as_ptr(),
            STEPS.len(),
            PATHS.as_ptr(),
            PATHS.len(),
            found.as_mut_ptr(),
            found.len(),
        )
    };
    outcome.status == OK
}

pub fn rewrite(octets: &[u8]) -> bool {
    let call = |out, room| unsafe { simple_asn1_rewrite(octets.as_ptr(), octets.len(), out, room) };
    OCTETS.with_borrow_mut(|out| filled(out, call).is_some())
}

/// Reads once, and writes the records so many times.
pub fn write(octets: &[u8], times: u64) -> bool {
    RECORDS.with_borrow_mut(|records| {
        let Some(count) = read_by(simple_asn1_read, octets, records) else {
            return false;
        };
        let (from, size, blocks) = (octets.as_ptr(), octets.len(), records.as_ptr());
        let call = |out, room| unsafe { simple_asn1_write(from, size, blocks, count, out, room) };
        (0..times).all(|_| OCTETS.with_borrow_mut(|out| filled(out, call).is_some()))
    })
}

/// The value of a record, of whichever kind it has; true also where it has none.
fn take_value(octets: &[u8], record: &Block, out: &mut Vec<u8>) -> bool {
    let (from, size, offset) = (octets.as_ptr(), octets.len(), record.offset);
    let status = match record.tag {
        2 => unsafe { simple_asn1_int64(from, size, offset).status },
        23 | 24 => unsafe { simple_asn1_time(from, size, offset).status },
        6 => return filled(out, |out, room| unsafe { simple_asn1_oid(from, size, offset, out, room) }).is_some(),
        12 | 19 | 20 | 22 | 28 | 30 => {
            return filled(out, |out, room| unsafe { simple_asn1_text(from, size, offset, out, room) }).is_some();
        }
        _ => OK,
    };
    status != NO_MEMORY
}

/// Reads, and takes the value of each record: its number, moment, text or components.
pub fn read_values(octets: &[u8]) -> bool {
    RECORDS.with_borrow_mut(|records| {
        let Some(count) = read_by(simple_asn1_read, octets, records) else {
            return false;
        };
        let universal = records[..count].iter().filter(|record| record.tag_class == 0);
        OCTETS.with_borrow_mut(|out| universal.fold(true, |well, record| take_value(octets, record, out) && well))
    })
}
