//! The original beside the crate over the proved library: `differential read|write COUNT` compares them on so many
//! documents or trees, and fails at a difference that no rule explains; `differential speed ROUNDS FOLDER` and
//! `differential once original|dropin FOLDER` read and write the certificates of a folder.

use num_bigint::{BigInt, BigUint};
use simple_asn1 as dropin;
use std::collections::BTreeMap;
use std::time::Instant;
use time::{Date, Month, PrimitiveDateTime, Time};

/// Xorshift, from a fixed seed: each run has the same inputs.
struct Random(u64);

impl Random {
    fn next(&mut self) -> u64 {
        self.0 ^= self.0 << 13;
        self.0 ^= self.0 >> 7;
        self.0 ^= self.0 << 17;
        self.0
    }

    fn below(&mut self, n: usize) -> usize {
        ((self.next() >> 16) % n as u64) as usize
    }

    fn one_in(&mut self, n: usize) -> bool {
        self.below(n) == 0
    }

    fn of<T: Copy>(&mut self, all: &[T]) -> T {
        all[self.below(all.len())]
    }

    fn octets(&mut self, most: usize) -> Vec<u8> {
        (0..self.below(most + 1)).map(|_| (self.next() >> 24) as u8).collect()
    }
}

#[derive(Default)]
struct Tally(BTreeMap<String, (usize, String)>);

impl Tally {
    fn count(&mut self, rule: &str, example: impl FnOnce() -> String) {
        let entry = self.0.entry(rule.to_string()).or_default();
        if entry.0 == 0 {
            entry.1 = example();
        }
        entry.0 += 1;
    }

    fn show(&self) {
        for (rule, (count, example)) in &self.0 {
            println!("{count:9} {rule}");
            if rule.starts_with("UNEXPLAINED") {
                println!("          {example}");
            }
        }
        if self.0.keys().any(|rule| rule.starts_with("UNEXPLAINED")) {
            std::process::exit(1);
        }
    }
}

fn hex(octets: &[u8]) -> String {
    octets.iter().map(|octet| format!("{octet:02X}")).collect()
}

// ---- documents

fn length(r: &mut Random, n: usize) -> Vec<u8> {
    let octets = (n as u32).to_be_bytes();
    match r.below(16) {
        0 => [&[0x84][..], &octets].concat(),
        1 if n < 256 => vec![0x81, n as u8],
        _ if n < 128 => vec![n as u8],
        _ => [&[0x82][..], &octets[2..]].concat(),
    }
}

fn encoding(r: &mut Random, leading: u8, contents: &[u8]) -> Vec<u8> {
    let mut octets = vec![leading];
    if leading % 32 == 31 {
        let number: &[u8] = r.of(&[&[0x1F][..], &[0x81, 0], &[0x80, 5], &[0xFF; 11]]);
        octets.extend(number);
        octets.extend((number.len() == 11).then_some(0x7F));
    }
    octets.extend(length(r, contents.len()));
    octets.extend(contents);
    octets
}

/// A time, often with something wrong.
fn time_text(r: &mut Random, is_utc: bool) -> Vec<u8> {
    let mut text = if is_utc { String::new() } else { format!("{:02}", r.of(&[0, 18, 19, 20, 99])) };
    let (month, day) = (r.below(12) + 1, r.below(28) + 1 + r.below(2) * r.below(4));
    let second = if r.one_in(20) { 60 } else { r.below(60) };
    text += &format!("{:02}{month:02}{day:02}{:02}{:02}{second:02}", r.below(100), r.below(24), r.below(60));
    if !is_utc && r.one_in(2) {
        text.push('.');
        (0..r.below(11)).for_each(|_| text.push(r.of(&['0', '1', '5', '9'])));
    }
    text.push('Z');
    let mut octets = text.into_bytes();
    if r.one_in(5) {
        let place = r.below(octets.len());
        octets[place] = r.of(b"+-. 0aZ\xC3\xFF");
    }
    if !is_utc && r.one_in(6) {
        octets.insert(0, r.of(b"+-0 "));
    }
    if r.one_in(20) {
        octets.truncate(r.below(octets.len()));
    }
    octets
}

fn leaf(r: &mut Random) -> Vec<u8> {
    let tag = r.of(&[1, 2, 3, 4, 5, 6, 6, 6, 12, 19, 20, 22, 23, 23, 24, 24, 24, 28, 30, 10, 26, 31]);
    let mut contents = match tag {
        1 if !r.one_in(10) => vec![r.of(&[0, 1, 0xFF])],
        5 if !r.one_in(10) => Vec::new(),
        12 | 20 | 28 | 30 if r.one_in(2) => "aé€😀".as_bytes()[..r.below(11)].to_vec(),
        19 | 22 if !r.one_in(8) => (0..r.below(9)).map(|_| r.of(b"AZaz09 '()+,-./:=?*@")).collect(),
        23 | 24 => time_text(r, tag == 23),
        _ => {
            let most = r.of(&[9, 9, 9, 40]);
            r.octets(most)
        }
    };
    match (tag, contents.first_mut(), r.below(6)) {
        (3, Some(first), 1..) => *first %= 10,
        _ => {}
    }
    match (tag, contents.last_mut(), r.below(6)) {
        (6, Some(last), 1..) => *last &= 0x7F,
        _ => {}
    }
    let class = if r.one_in(5) { r.of(&[0x40, 0x80, 0xC0]) } else { 0 };
    let constructed = if r.one_in(12) { 0x20 } else { 0 };
    encoding(r, class | constructed | tag, &contents)
}

fn block(r: &mut Random, depth: usize) -> Vec<u8> {
    if depth == 0 || r.one_in(2) {
        return leaf(r);
    }
    let leading = r.of(&[0x30, 0x30, 0x31, 0xA0, 0xA0, 0xA1, 0x60, 0xE3, 0xBF]);
    let most = if leading & 0xC0 == 0 || r.one_in(3) { 4 } else { 1 };
    let count = if r.one_in(8) { 0 } else { 1 + r.below(most) };
    let contents: Vec<u8> = (0..count).flat_map(|_| block(r, depth - 1)).collect();
    encoding(r, leading, &contents)
}

fn damaged(r: &mut Random, mut octets: Vec<u8>) -> Vec<u8> {
    for _ in 0..1 + r.below(3) {
        let place = r.below(octets.len() + 1);
        match r.below(5) {
            0 => octets.truncate(place),
            1 => octets.insert(place, r.of(&[0, 0x30, 0xA0, 0x80, 0xFF])),
            2 if place < octets.len() => drop(octets.remove(place)),
            _ if place < octets.len() => octets[place] ^= 1 << r.below(8),
            _ => {}
        }
    }
    octets
}

fn document(r: &mut Random, certificates: &[Vec<u8>]) -> Vec<u8> {
    match r.below(10) {
        0 => r.octets(24),
        1 if !certificates.is_empty() => {
            let certificate = certificates[r.below(certificates.len())].clone();
            damaged(r, certificate)
        }
        2..=4 => {
            let octets = (0..1 + r.below(3)).flat_map(|_| block(r, 4)).collect();
            damaged(r, octets)
        }
        _ => (0..1 + r.below(3)).flat_map(|_| block(r, 4)).collect(),
    }
}

fn read(count: usize, certificates: &[Vec<u8>]) {
    let mut r = Random(88172645463325252);
    let mut tally = Tally::default();
    for _ in 0..count {
        let octets = document(&mut r, certificates);
        let here = dropin::from_der(&octets);
        // before anybody asks for the components of an object identifier
        let written: Vec<_> = here.iter().flatten().map(dropin::to_der).collect();
        let there = original::from_der(&octets);
        // a tree with its offsets, or an error with what it says
        let shown = (format!("{here:?}"), here.as_ref().err().map(|e| e.to_string()));
        let rule = if here.iter().flatten().zip(&written).any(|(block, octets)| rule_of(block, octets) == "UNEXPLAINED")
        {
            "UNEXPLAINED as written"
        } else if here.is_ok() && here != dropin::from_der(&octets) {
            "UNEXPLAINED as another tree"
        } else if shown == (format!("{there:?}"), there.as_ref().err().map(|e| e.to_string())) {
            if here.is_ok() {
                "the same tree"
            } else {
                "the same error"
            }
        } else if shown.0 == format!("{:?}", unsigned::from_der(&octets)) {
            "a signed year is not read"
        } else {
            "UNEXPLAINED"
        };
        tally.count(rule, || format!("{}: {there:?}, here {here:?}", hex(&octets)));
    }
    tally.show();
}

// ---- trees

fn number(r: &mut Random) -> BigUint {
    match r.below(6) {
        0 => BigUint::from_bytes_be(&r.octets(20)),
        1 => BigUint::from(u64::MAX - r.below(2) as u64),
        2 => BigUint::from(r.next()),
        _ => BigUint::from(r.below(200)),
    }
}

fn text(r: &mut Random) -> String {
    let size = r.below(10);
    let character = |_| if r.one_in(12) { r.of(&['é', 'ÿ', 'Ā', '😀']) } else { r.of(&['a', '1', '*', ' ']) };
    (0..size).map(character).collect()
}

fn moment(r: &mut Random) -> PrimitiveDateTime {
    let year = match r.below(8) {
        0 => r.below(19999) as i32 - 9999,
        1 => r.below(7) as i32 - 3,
        _ => 1940 + r.below(120) as i32,
    };
    let month = Month::try_from(r.below(12) as u8 + 1).unwrap();
    let date = Date::from_calendar_date(year, month, r.below(28) as u8 + 1).unwrap();
    let nanosecond = r.of(&[0, 0, 300_000_000, 1, 999_999_999]);
    let time = Time::from_hms_nano(r.below(24) as u8, r.below(60) as u8, r.below(60) as u8, nanosecond).unwrap();
    PrimitiveDateTime::new(date, time)
}

fn class(r: &mut Random) -> dropin::ASN1Class {
    use dropin::ASN1Class::*;
    r.of(&[Universal, Application, ContextSpecific, Private])
}

fn components(r: &mut Random) -> Vec<BigUint> {
    if r.one_in(8) {
        return (0..r.below(4)).map(|_| number(r)).collect();
    }
    let first = r.below(3);
    let greatest = if first == 2 { 175 } else { 39 };
    let second = r.below(greatest + 1);
    let most = r.of(&[9, 9, 9, 50]);
    let rest: Vec<BigUint> = (0..r.below(most)).map(|_| number(r)).collect();
    [BigUint::from(first), BigUint::from(second)].into_iter().chain(rest).collect()
}

fn tree(r: &mut Random, depth: usize) -> dropin::ASN1Block {
    use dropin::ASN1Block::*;
    let offset = r.below(9);
    let most = if depth == 0 { 16 } else { 22 };
    match r.below(most) {
        0 => Boolean(offset, r.one_in(2)),
        1 => Integer(offset, BigInt::from_signed_bytes_be(&r.octets(12))),
        2 => {
            let most = r.of(&[5, 5, 5, 50]);
            let octets = r.octets(most);
            let bits = if r.one_in(8) { r.below(60) } else { (8 * octets.len()).saturating_sub(r.below(8)) };
            BitString(offset, bits, octets)
        }
        3 => {
            let most = if r.one_in(50) { 70000 } else { 20 };
            OctetString(offset, r.octets(most))
        }
        4 => Null(offset),
        5 | 6 => ObjectIdentifier(offset, dropin::OID::new(components(r))),
        7 => UTF8String(offset, text(r)),
        8 => PrintableString(offset, text(r)),
        9 => TeletexString(offset, text(r)),
        10 => IA5String(offset, text(r)),
        11 => UniversalString(offset, text(r)),
        12 => BMPString(offset, text(r)),
        13 => UTCTime(offset, moment(r)),
        14 => GeneralizedTime(offset, moment(r)),
        15 => Unknown(class(r), r.one_in(2), offset, number(r), r.octets(20)),
        16 | 17 => Sequence(offset, (0..r.below(5)).map(|_| tree(r, depth - 1)).collect()),
        18 | 19 => Set(offset, (0..r.below(5)).map(|_| tree(r, depth - 1)).collect()),
        _ => Explicit(class(r), offset, number(r), Box::new(tree(r, depth - 1))),
    }
}

fn same_class(class: dropin::ASN1Class) -> original::ASN1Class {
    use dropin::ASN1Class::*;
    match class {
        Universal => original::ASN1Class::Universal,
        Application => original::ASN1Class::Application,
        ContextSpecific => original::ASN1Class::ContextSpecific,
        Private => original::ASN1Class::Private,
    }
}

fn numbers(oid: &dropin::OID) -> Vec<BigUint> {
    oid.as_vec::<&BigUint>().unwrap().into_iter().cloned().collect()
}

/// The same tree in the original's types.
fn same_tree(block: &dropin::ASN1Block) -> original::ASN1Block {
    use dropin::ASN1Block::*;
    use original::ASN1Block as There;
    match block {
        Boolean(o, v) => There::Boolean(*o, *v),
        Integer(o, v) => There::Integer(*o, v.clone()),
        BitString(o, n, v) => There::BitString(*o, *n, v.clone()),
        OctetString(o, v) => There::OctetString(*o, v.clone()),
        Null(o) => There::Null(*o),
        ObjectIdentifier(o, v) => There::ObjectIdentifier(*o, original::OID::new(numbers(v))),
        UTF8String(o, v) => There::UTF8String(*o, v.clone()),
        PrintableString(o, v) => There::PrintableString(*o, v.clone()),
        TeletexString(o, v) => There::TeletexString(*o, v.clone()),
        IA5String(o, v) => There::IA5String(*o, v.clone()),
        UniversalString(o, v) => There::UniversalString(*o, v.clone()),
        BMPString(o, v) => There::BMPString(*o, v.clone()),
        UTCTime(o, v) => There::UTCTime(*o, *v),
        GeneralizedTime(o, v) => There::GeneralizedTime(*o, *v),
        Sequence(o, v) => There::Sequence(*o, v.iter().map(same_tree).collect()),
        Set(o, v) => There::Set(*o, v.iter().map(same_tree).collect()),
        Explicit(c, o, t, v) => There::Explicit(same_class(*c), *o, t.clone(), Box::new(same_tree(v))),
        Unknown(c, k, o, t, v) => There::Unknown(same_class(*c), *k, *o, t.clone(), v.clone()),
    }
}

/// The rule of the first block, in the order of the octets, that the original writes or panics at where there is an
/// error here; `Some(None)` for one that neither writes.
fn first_rule(block: &dropin::ASN1Block) -> Option<Option<(&'static str, dropin::ASN1EncodeErr)>> {
    use dropin::ASN1Block::*;
    use dropin::ASN1EncodeErr::*;
    match block {
        BitString(_, bits, octets) => {
            let all = 8 * octets.len();
            let fits = *bits == 0 || (*bits <= all && all - *bits < 256);
            (!fits).then_some(Some(("bits that do not fit are an error", BitStringLength)))
        }
        UTCTime(_, moment) | GeneralizedTime(_, moment) => {
            (moment.year() < 0).then_some(Some(("a year below 0 is an error", YearOutOfRange)))
        }
        PrintableString(_, text) | IA5String(_, text) => {
            text.chars().any(|c| c > '\u{FF}').then_some(Some(("a character above 255 is an error", CharacterTooLarge)))
        }
        ObjectIdentifier(_, oid) => original::OID::new(numbers(oid)).as_raw().is_err().then_some(None),
        Sequence(_, items) | Set(_, items) => items.iter().find_map(first_rule),
        Explicit(_, _, _, item) => first_rule(item),
        _ => None,
    }
}

/// Why a block was written so.
fn rule_of(block: &dropin::ASN1Block, here: &Result<Vec<u8>, dropin::ASN1EncodeErr>) -> &'static str {
    match first_rule(block) {
        Some(Some((rule, error))) if *here == Err(error.clone()) => rule,
        Some(Some(_)) => "UNEXPLAINED",
        rule => match (here, &original::to_der(&same_tree(block))) {
            (Ok(here), Ok(there)) if here == there && rule.is_none() => "the same octets",
            (Err(here), Err(there)) if format!("{here:?} {here}") == format!("{there:?} {there}") => "the same error",
            _ => "UNEXPLAINED",
        },
    }
}

fn write(count: usize) {
    let mut r = Random(36243606936243607);
    let mut tally = Tally::default();
    for _ in 0..count {
        let block = tree(&mut r, 3);
        let here = dropin::to_der(&block);
        let rule = match &block {
            dropin::ASN1Block::ObjectIdentifier(_, oid) if oid.as_raw().ok() != contents_of(&here) => {
                "UNEXPLAINED as_raw"
            }
            _ => rule_of(&block, &here),
        };
        tally.count(rule, || format!("{block:?}: {here:?}"));
    }
    tally.show();
}

/// Those of a leaf, which follow its header.
fn contents_of(written: &Result<Vec<u8>, dropin::ASN1EncodeErr>) -> Option<Vec<u8>> {
    let written = written.as_ref().ok()?;
    Some(written[if written[1] < 128 { 2 } else { usize::from(written[1] - 126) }..].to_vec())
}

// ---- speed

fn files(folder: &str) -> Vec<Vec<u8>> {
    let mut paths: Vec<_> = std::fs::read_dir(folder).unwrap().map(|entry| entry.unwrap().path()).collect();
    paths.sort();
    paths.iter().map(|path| std::fs::read(path).unwrap()).collect()
}

fn nanoseconds(certificates: usize, run: impl FnOnce()) -> f64 {
    let begun = Instant::now();
    run();
    begun.elapsed().as_nanos() as f64 / certificates as f64
}

/// Reads, and asks each object identifier for its components, which the crate over the proved library makes only then.
macro_rules! asking {
    ($name:ident, $from:ident) => {
        fn $name(octets: &[u8]) {
            fn ask(block: &$from::ASN1Block) {
                use $from::ASN1Block::*;
                match block {
                    ObjectIdentifier(_, oid) => drop(oid.as_vec::<&BigUint>()),
                    Sequence(_, items) | Set(_, items) => items.iter().for_each(ask),
                    Explicit(_, _, _, item) => ask(item),
                    _ => {}
                }
            }
            $from::from_der(octets).unwrap().iter().for_each(ask);
        }
    };
}
asking!(ask_there, original);
asking!(ask_here, dropin);

/// The least time of so many rounds, in which both take turns.
fn speed(rounds: usize, certificates: &[Vec<u8>]) {
    let n = certificates.len();
    let there: Vec<_> = certificates.iter().map(|octets| original::from_der(octets).unwrap()).collect();
    let here: Vec<_> = certificates.iter().map(|octets| dropin::from_der(octets).unwrap()).collect();
    let mut least = [[f64::MAX; 2]; 3];
    for _ in 0..rounds {
        let times = [
            [
                nanoseconds(n, || certificates.iter().for_each(|octets| drop(original::from_der(octets)))),
                nanoseconds(n, || certificates.iter().for_each(|octets| drop(dropin::from_der(octets)))),
            ],
            [
                nanoseconds(n, || certificates.iter().for_each(|octets| ask_there(octets))),
                nanoseconds(n, || certificates.iter().for_each(|octets| ask_here(octets))),
            ],
            [
                nanoseconds(n, || there.iter().flatten().for_each(|block| drop(original::to_der(block)))),
                nanoseconds(n, || here.iter().flatten().for_each(|block| drop(dropin::to_der(block)))),
            ],
        ];
        for (least, time) in least.iter_mut().flatten().zip(times.into_iter().flatten()) {
            *least = least.min(time);
        }
    }
    let whats = ["reading and dropping", "asking each identifier for its components too", "writing"];
    for (what, [there, here]) in whats.into_iter().zip(least) {
        let ratio = there / here;
        println!("{what}: {ratio:.2} times as fast as the original ({there:.0} ns, here {here:.0} ns)");
    }
}

fn once(what: &str, certificates: &[Vec<u8>]) {
    for octets in certificates {
        match what {
            "original" => drop(original::from_der(octets)),
            "dropin" => drop(dropin::from_der(octets)),
            "original-ask" => ask_there(octets),
            "dropin-ask" => ask_here(octets),
            "original-write" => drop(original::to_der(&original::from_der(octets).unwrap()[0])),
            "dropin-write" => drop(dropin::to_der(&dropin::from_der(octets).unwrap()[0])),
            _ => {}
        }
    }
}

fn main() {
    let words: Vec<String> = std::env::args().skip(1).collect();
    let certificates = words.get(2).map(|folder| files(folder)).unwrap_or_default();
    match words[0].as_str() {
        "read" => read(words[1].parse().unwrap(), &certificates),
        "write" => write(words[1].parse().unwrap()),
        "speed" => speed(words[1].parse().unwrap(), &certificates),
        _ => once(&words[1], &certificates),
    }
}
