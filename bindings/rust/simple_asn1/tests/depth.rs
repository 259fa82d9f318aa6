//! How deeply blocks may nest, and reading while a thread ends.

use simple_asn1::{from_der, set_max_depth, to_der, ASN1Block, ASN1DecodeErr, DEFAULT_MAX_DEPTH};
use std::sync::atomic::{AtomicUsize, Ordering::SeqCst};
use std::thread;

/// A NULL in so many SEQUENCEs, or explicit blocks.
fn nested(levels: usize, leading: u8) -> Vec<u8> {
    let mut octets = vec![0, 5];
    for _ in 0..levels {
        let size = octets.len() as u32;
        octets.extend(size.to_le_bytes());
        octets.extend([0x84, leading]);
    }
    octets.reverse();
    octets
}

// one test, since the depth is set for all threads
#[test]
fn no_more_blocks_stand_around_one_than_is_set() {
    for leading in [0x30, 0x31, 0xA0] {
        assert_eq!(from_der(&nested(40_000, leading)), Err(ASN1DecodeErr::Overflow));
        assert_eq!(from_der(&nested(DEFAULT_MAX_DEPTH + 1, leading)), Err(ASN1DecodeErr::Overflow));
        // dropped, copied, compared and shown in half of a thread's usual stack
        let used = move || {
            let blocks = from_der(&nested(DEFAULT_MAX_DEPTH, leading)).unwrap();
            assert_eq!(blocks.clone(), blocks);
            assert!(format!("{blocks:#?}").len() > format!("{blocks:?}").len());
        };
        thread::Builder::new().stack_size(1 << 20).spawn(used).unwrap().join().unwrap();
    }
    // what is wrong comes first, and an empty SEQUENCE before the depth
    assert_eq!(from_der(&[&nested(300, 0x30)[..], &[1, 0]].concat()), Err(ASN1DecodeErr::BadBooleanLength(0)));
    assert_eq!(from_der(&[&[0x30, 0], &nested(300, 0x30)[..]].concat()), Err(ASN1DecodeErr::EmptyBuffer));
    // an attempt that fails is one block, which holds none
    let contents = [&nested(300, 0xA0)[..], &[5, 0]].concat();
    let attempt = [&[0xA0, 0x82, 7, 12][..], &contents].concat();
    assert!(matches!(from_der(&attempt).as_deref(), Ok([ASN1Block::Unknown(..)])));
    set_max_depth(2000);
    // in a debug build a level takes up to 1,100 bytes of stack to compare
    let written = || {
        let blocks = from_der(&nested(2000, 0x30)).unwrap();
        assert_eq!(to_der(&blocks[0]).unwrap().len(), blocks_size(2000));
        assert_eq!(from_der(&to_der(&blocks[0]).unwrap()).as_ref(), Ok(&blocks));
    };
    thread::Builder::new().stack_size(4 << 20).spawn(written).unwrap().join().unwrap();
    // what was read before an empty SEQUENCE goes away without a stack for each level, however deeply it nests
    set_max_depth(usize::MAX);
    for leading in [0x30, 0x31] {
        let mut octets = nested(40_000, leading);
        let end = octets.len();
        octets[end - 2] = 0x30;
        assert_eq!(from_der(&octets), Err(ASN1DecodeErr::EmptyBuffer));
        assert_eq!(from_der(&[&octets[..], &[1, 0]].concat()), Err(ASN1DecodeErr::EmptyBuffer));
        let attempt = [&[0xA0, 0x84], &(end as u32).to_be_bytes()[..], &octets[..]].concat();
        assert!(matches!(from_der(&attempt).as_deref(), Ok([ASN1Block::Unknown(..)])));
    }
    set_max_depth(0);
    assert!(from_der(&[5, 0, 0xC0, 2, 5, 0xFF]).is_ok());
    assert_eq!(from_der(&[5, 0, 0x30, 2, 5, 0]), Err(ASN1DecodeErr::Overflow));
}

/// The size of a NULL in so many SEQUENCEs with the shortest headers.
fn blocks_size(levels: usize) -> usize {
    (0..levels).fold(2, |size, _| {
        size + if size < 128 {
            2
        } else if size < 256 {
            3
        } else {
            4
        }
    })
}

static READ: AtomicUsize = AtomicUsize::new(0);

struct ReadsWhenDropped;

impl Drop for ReadsWhenDropped {
    fn drop(&mut self) {
        READ.fetch_add(from_der(&[5, 0]).map_or(0, |blocks| blocks.len()), SeqCst);
    }
}

thread_local! {
    static OLDER: ReadsWhenDropped = const { ReadsWhenDropped };
}

#[test]
fn a_thread_that_ends_still_reads() {
    thread::spawn(|| {
        OLDER.with(|_| ());
        from_der(&[5, 0]).unwrap();
    })
    .join()
    .unwrap();
    assert_eq!(READ.load(SeqCst), 1);
}
