//! Calls of the crate simple_asn1 on a document, with the processor time that each took in microseconds, and 0, or 1 for
//! an error.
//!
//! `growth CALL FILE` makes a call, and prints these. `growth each FILE..` makes each call on each of these, and prints
//! its name before them: `bounded` reads as deep as the crate reads by itself, and all others without a bound.

use simple_asn1::{from_der, set_max_depth, to_der, ASN1Block, BigUint, DEFAULT_MAX_DEPTH, OID};
use std::thread;

/// Comparing and copying blocks take stack for each level.
const STACK: usize = 1 << 30;

extern "C" {
    /// The processor time of the process in microseconds (POSIX).
    fn clock() -> i64;
}

fn asked(block: &ASN1Block) -> usize {
    match block {
        ASN1Block::ObjectIdentifier(_, oid) => oid.as_vec::<&BigUint>().unwrap().len(),
        ASN1Block::Sequence(_, items) | ASN1Block::Set(_, items) => items.iter().map(asked).sum(),
        ASN1Block::Explicit(_, _, _, item) => asked(item),
        _ => 0,
    }
}

fn is_right(call: &str, octets: &[u8], blocks: &[ASN1Block]) -> bool {
    match call {
        "from_der" => from_der(octets).is_ok(),
        "components" => blocks.iter().map(asked).sum::<usize>() > 0,
        "==" => blocks == from_der(octets).unwrap(),
        "to_der" => blocks.iter().flat_map(|block| to_der(block).unwrap()).eq(octets.iter().copied()),
        "made" => blocks.iter().all(|block| match block {
            ASN1Block::ObjectIdentifier(_, oid) => {
                let made = oid.as_vec::<&BigUint>().unwrap().into_iter().cloned().collect();
                OID::new(made).as_raw().unwrap() == octets[octets.len() - oid.as_raw().unwrap().len()..]
            }
            _ => false,
        }),
        _ => false,
    }
}

fn timed<T>(call: impl FnOnce() -> T) -> (i64, T) {
    let begun = unsafe { clock() };
    let answer = call();
    (unsafe { clock() } - begun, answer)
}

fn each(octets: &[u8]) {
    let show = |name: &str, took: i64, is_right: bool| println!("{name} {took} {}", u8::from(!is_right));
    let (took, bounded) = timed(|| from_der(octets).is_ok());
    show("bounded", took, bounded);
    set_max_depth(usize::MAX);
    let (took, read) = timed(|| from_der(octets));
    show("read", took, read.is_ok());
    if let Ok(blocks) = read {
        let (took, is_written) = timed(|| blocks.iter().all(|block| to_der(block).is_ok()));
        show("write", took, is_written);
        let (took, copies) = timed(|| blocks.clone());
        show("clone", took, true);
        let (took, is_equal) = timed(|| copies == blocks);
        show("==", took, is_equal);
        let (took, _) = timed(|| blocks.iter().map(asked).sum::<usize>());
        show("components", took, true);
        let (took, _) = timed(|| drop(copies));
        show("drop", took, true);
    }
    set_max_depth(DEFAULT_MAX_DEPTH);
}

fn run() {
    let words: Vec<String> = std::env::args().skip(1).collect();
    let documents = words[1..].iter().map(|path| std::fs::read(path).unwrap());
    for octets in documents {
        if words[0] == "each" {
            each(&octets);
        } else {
            let blocks = from_der(&octets).unwrap();
            let (took, is_right) = timed(|| is_right(&words[0], &octets, &blocks));
            println!("{took} {}", u8::from(!is_right));
        }
    }
}

fn main() {
    thread::Builder::new().stack_size(STACK).spawn(run).unwrap().join().unwrap();
}
