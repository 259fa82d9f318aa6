//! What the bindings add to the library's calls, on documents that were made by hand.

use simple_asn1_records::{
    departures, rewrite, write, Builder, Certificate, Class, Document, Fault, FaultKind, Moment, Paths, Rule, Signed,
};
use std::error::Error;

const DOCUMENT: [u8; 13] = [0x30, 0x09, 0x02, 0x01, 0x05, 0xA0, 0x04, 0x0C, 0x02, 0xC3, 0xA4, 0x05, 0x00];

#[test]
fn blocks_are_walked_over_in_order() -> Result<(), Fault> {
    let document = Document::read(&DOCUMENT)?;
    let top: Vec<u64> = document.blocks().map(|block| block.tag()).collect();
    assert_eq!(top, [16, 5]);
    let sequence = (&document).into_iter().next().unwrap();
    let items: Vec<_> = sequence.items().collect();
    assert_eq!(items.len(), 2);
    assert_eq!(items[0].int64()?, 5);
    assert_eq!((items[1].class(), items[1].tag(), items[1].depth()), (Class::ContextSpecific, 0, 1));
    assert_eq!(items[1].items().next().unwrap().text()?, "ä");
    assert_eq!(items[1].octets(), &DOCUMENT[5..11]);
    assert_eq!(document.all_blocks().len(), 5);
    assert!(document.all_blocks().rev().map(|block| block.offset()).eq([11, 7, 5, 2, 0]));
    Ok(())
}

#[test]
fn the_version_is_that_of_the_header() {
    assert_eq!(simple_asn1_records::version(), 1);
}

#[test]
fn faults_say_what_and_where() {
    let fault = Document::read(&[0x30, 0x04, 0x02, 0x01, 0x05, 0x01]).unwrap_err();
    assert_eq!(fault, Fault { kind: FaultKind::Incomplete, offset: 5 });
    assert_eq!(fault.to_string(), "the input is truncated, at 5");
    assert_eq!(fault.source().unwrap().to_string(), "the input is truncated");
    assert_eq!(Document::read(&[]).unwrap_err().kind, FaultKind::Empty);
    assert_eq!(Document::read_strict(&[1, 1, 42]).unwrap_err().kind, FaultKind::NotCanonical);
    let document = Document::read(&DOCUMENT).unwrap();
    let sequence = document.blocks().next().unwrap();
    assert_eq!(sequence.int64().unwrap_err(), Fault { kind: FaultKind::NoSuchValue, offset: 0 });
    assert_eq!(Signed::read(&DOCUMENT).unwrap_err().kind, FaultKind::NotSigned);
}

#[test]
fn departures_say_which_rule_is_broken_where() -> Result<(), Fault> {
    let octets = [0x30, 0x81, 3, 1, 1, 42, 0x31, 6, 4, 1, 65, 2, 1, 5, 0x30, 2, 5, 1, 5, 0];
    let found = departures(&octets)?;
    assert!(found.iter().map(|departure| departure.offset).eq([0, 3, 6, 14]));
    let rules = [Rule::LongLength, Rule::BooleanValue, Rule::Order, Rule::NotEncodings];
    assert!(found.iter().map(|departure| departure.rule).eq(rules));
    assert_eq!(found[1].rule.text(), "BOOLEAN neither 00 nor FF");
    assert_eq!(found[1].rule.section(), "8.2.2, 11.1");
    assert_eq!(departures(&DOCUMENT)?, []);
    let many = [1, 1, 42].repeat(5000);
    assert!(departures(&many)?.iter().map(|departure| departure.offset).eq((0..15000).step_by(3)));
    let cut = departures(&many[..14999]).unwrap_err();
    assert_eq!(cut, Fault { kind: FaultKind::Incomplete, offset: 14997 });
    assert_eq!(departures(&[]).unwrap_err(), Fault { kind: FaultKind::Empty, offset: 0 });
    Ok(())
}

#[test]
fn an_outline_is_walked_past_a_leaf_at_fault() -> Result<(), Fault> {
    let octets = [0x30, 7, 0x1E, 2, 0, 0xE4, 2, 1, 5];
    assert_eq!(Document::read(&octets).unwrap_err(), Fault { kind: FaultKind::Utf8, offset: 2 });
    let document = Document::outline(&octets)?;
    let sequence = document.blocks().next().unwrap();
    let items: Vec<_> = sequence.items().collect();
    assert_eq!(items.len(), 2);
    assert_eq!(items[0].contents(), &octets[4..6]);
    assert_eq!(items[0].text().unwrap_err().kind, FaultKind::Utf8);
    assert_eq!(items[1].int64()?, 5);
    let fault = Document::outline(&[0x30, 0x04, 0x02, 0x01, 0x05, 0x01]).unwrap_err();
    assert_eq!(fault, Fault { kind: FaultKind::Incomplete, offset: 5 });
    Ok(())
}

#[test]
fn an_outline_has_no_bits_where_more_are_unused_than_there_are() {
    // X.690 8.6.2.2: from 0 to 7 bits are unused. Here 7 of none, 9 of 8, and 255 of 16 are
    for octets in [&[3, 1, 7][..], &[3, 2, 9, 0], &[3, 3, 255, 1, 2]] {
        let document = Document::outline(octets).unwrap();
        let fault = document.blocks().next().unwrap().bits().unwrap_err();
        assert_eq!(fault, Fault { kind: FaultKind::BitStringLength, offset: 0 });
    }
    let document = Document::outline(&[5, 0, 3, 2, 8, 0xFF, 3, 0]).unwrap();
    let blocks: Vec<_> = document.blocks().collect();
    assert_eq!(blocks[0].bits(), Err(Fault { kind: FaultKind::NoSuchValue, offset: 0 }));
    assert_eq!(blocks[1].bits(), Ok((&[0xFF][..], 0)));
    assert_eq!(blocks[2].bits(), Ok((&[][..], 0)));
}

#[test]
fn text_in_decimal_has_a_bound() {
    // 1,024 contents octets, and one more: 2.5, and components of an octet each
    let [most, more] = [0, 1].map(|size| [vec![6, 0x82, 4, size, 0x55], vec![0; 1023 + usize::from(size)]].concat());
    let document = [most.clone(), more.clone()].concat();
    let document = Document::read(&document).unwrap();
    let blocks: Vec<_> = document.blocks().collect();
    let text = format!("2.5{}", ".0".repeat(1023));
    assert_eq!(blocks[0].oid(), Ok(text.clone()));
    assert_eq!(blocks[1].oid(), Err(Fault { kind: FaultKind::TooLong, offset: most.len() }));
    assert_eq!(blocks[1].contents(), &more[4..]);
    assert_eq!(Builder::new().add_oid(&text).finish(), Ok(most));
    let refused = Builder::new().add_oid(&format!("2.5{}", ".0".repeat(2048))).finish();
    assert_eq!(refused, Err(Fault { kind: FaultKind::TooLong, offset: 0 }));
    let front = [0x30, 0x82, 4, 0x12, 0x30, 3, 2, 1, 1, 0x30, 0x82, 4, 5];
    let signed = [&front[..], &more, &[3, 2, 0, 0x99]].concat();
    assert_eq!(Signed::read(&signed), Err(Fault { kind: FaultKind::TooLong, offset: 13 }));
}

#[test]
fn paths_lead_to_blocks_and_nowhere() -> Result<(), Fault> {
    let octets = [0x30, 12, 2, 2, 0xFF, 0x7F, 0x1E, 2, 0, 0xE4, 0xA0, 2, 5, 0, 6, 1, 42];
    let paths = Paths::new([&[0, 0][..], &[0, 1], &[0, 2, 0], &[1], &[2], &[1, 0], &[]]);
    let values = paths.values(&octets)?;
    assert_eq!(values[0].unwrap().int64(), Some(-129));
    let text = values[1].unwrap();
    assert_eq!((text.tag(), text.contents(), text.int64()), (30, &octets[8..10], None));
    assert_eq!(text.text().unwrap_err(), Fault { kind: FaultKind::Utf8, offset: 6 });
    assert_eq!(values[2].unwrap().octets(), &octets[12..14]);
    assert_eq!(values[3].unwrap().oid()?, "1.2");
    assert!(values[4..].iter().all(Option::is_none));
    assert_eq!(paths.values(&octets[..16]).unwrap_err(), Fault { kind: FaultKind::Incomplete, offset: 14 });
    Ok(())
}

#[test]
fn values_are_those_of_their_blocks() -> Result<(), Fault> {
    let bits = [0x03, 0x02, 0x04, 0xB0];
    assert_eq!(Document::read(&bits)?.blocks().next().unwrap().bits()?, (&[0xB0][..], 4));
    let empty = [0x03, 0x00];
    assert_eq!(Document::read(&empty)?.blocks().next().unwrap().bits()?, (&[][..], 0));
    let wide = [0x02, 0x09, 0x01, 0, 0, 0, 0, 0, 0, 0, 0];
    let document = Document::read(&wide)?;
    let number = document.blocks().next().unwrap();
    assert_eq!(number.int64().unwrap_err().kind, FaultKind::Range);
    assert_eq!(number.contents(), &wide[2..]);
    let oid = [0x06, 0x06, 0x2A, 0x86, 0x48, 0x86, 0xF7, 0x0D];
    assert_eq!(Document::read(&oid)?.blocks().next().unwrap().oid()?, "1.2.840.113549");
    let sequence = [0x30, 0x04, 0x04, 0x02, 0x2A, 0x03];
    let refused = Document::read(&sequence)?.blocks().next().unwrap().oid().unwrap_err();
    assert_eq!((refused.kind, refused.offset), (FaultKind::NoSuchValue, 0));
    let time = b"\x17\x0D261123070322Z";
    let wanted = Moment { year: 2026, month: 11, day: 23, hour: 7, minute: 3, second: 22, nanosecond: 0 };
    assert_eq!(Document::read(time)?.blocks().next().unwrap().moment()?, wanted);
    assert_eq!(wanted.to_string(), "2026-11-23T07:03:22Z");
    let fraction = b"\x18\x1320261123070322.125Z";
    let moment = Document::read(fraction)?.blocks().next().unwrap().moment()?;
    assert_eq!(moment.to_string(), "2026-11-23T07:03:22.125000000Z");
    Ok(())
}

#[test]
fn what_is_read_is_written() -> Result<(), Fault> {
    let loose = [0x30, 0x81, 0x03, 0x01, 0x01, 0x2A];
    let canonical = [0x30, 0x03, 0x01, 0x01, 0xFF];
    assert_eq!(rewrite(&loose)?, canonical);
    let document = Document::read(&loose)?;
    assert_eq!(write(document.octets(), document.records())?, canonical);
    let mut records = document.records().to_vec();
    records[0].items = 2;
    assert_eq!(write(&loose, &records).unwrap_err(), Fault { kind: FaultKind::BadRecord, offset: 0 });
    records[1].tag_class = 4;
    assert_eq!(write(&loose, &records).unwrap_err(), Fault { kind: FaultKind::BadRecord, offset: 1 });
    Ok(())
}

#[test]
fn signed_parts_are_slices_of_the_document() -> Result<(), Fault> {
    let triple = [0x30, 0x0E, 0x30, 0x03, 0x02, 0x01, 0x01, 0x30, 0x03, 0x06, 0x01, 0x2A, 0x03, 0x02, 0x00, 0x99];
    let signed = Signed::read(&triple)?;
    assert_eq!(signed.content, &triple[2..7]);
    assert_eq!(signed.algorithm, "1.2");
    assert_eq!(signed.signature, &[0x99]);
    assert_eq!((signed.algorithm_identifier, signed.parameters), (&triple[7..12], &[][..]));
    assert_eq!(signed.unused_bits, 0);
    Ok(())
}

#[test]
fn parameters_and_unused_bits_of_signed_parts_are_kept() -> Result<(), Fault> {
    let triple = [
        0x30, 0x11, 0x30, 0x00, 0x30, 0x08, 0x06, 0x01, 0x2A, 0x30, 0x03, 0x02, 0x01, 0x20, 0x03, 0x03, 0x03, 0xAB,
        0xC8,
    ];
    let signed = Signed::read(&triple)?;
    assert_eq!(signed.parameters, &triple[9..14]);
    assert_eq!(signed.algorithm_identifier, &triple[4..14]);
    assert_eq!((signed.signature, signed.unused_bits), (&[0xAB, 0xC8][..], 3));
    Ok(())
}

#[test]
fn more_blocks_than_are_tried_first_are_read() -> Result<(), Fault> {
    let octets = [0x05, 0x00].repeat(3000);
    let document = Document::read(&octets)?;
    assert_eq!((document.blocks().count(), document.all_blocks().len()), (3000, 3000));
    assert_eq!(write(document.octets(), document.records())?, octets);
    Ok(())
}

#[test]
fn several_threads_read_at_once() {
    std::thread::scope(|scope| {
        let reads: Vec<_> =
            (0..8).map(|_| scope.spawn(|| (0..1000).all(|_| Document::read(&DOCUMENT).is_ok()))).collect();
        assert!(reads.into_iter().all(|read| read.join().unwrap()));
    });
}

/// A certificate that the Python package `cryptography` made. The offsets below are those of `openssl asn1parse`.
#[rustfmt::skip]
const CERTIFICATE: [u8; 266] = [
    0x30, 0x82, 0x01, 0x06, 0x30, 0x81, 0xB9, 0xA0, 0x03, 0x02, 0x01, 0x02, 0x02, 0x02, 0x12, 0x34, 0x30, 0x05,
    0x06, 0x03, 0x2B, 0x65, 0x70, 0x30, 0x19, 0x31, 0x0B, 0x30, 0x09, 0x06, 0x03, 0x55, 0x04, 0x06, 0x13, 0x02,
    0x43, 0x48, 0x31, 0x0A, 0x30, 0x08, 0x06, 0x03, 0x55, 0x04, 0x03, 0x0C, 0x01, 0x65, 0x30, 0x20, 0x17, 0x0D,
    0x32, 0x36, 0x30, 0x31, 0x30, 0x32, 0x30, 0x33, 0x30, 0x34, 0x30, 0x35, 0x5A, 0x18, 0x0F, 0x32, 0x30, 0x35,
    0x36, 0x30, 0x31, 0x30, 0x32, 0x30, 0x33, 0x30, 0x34, 0x30, 0x35, 0x5A, 0x30, 0x19, 0x31, 0x0B, 0x30, 0x09,
    0x06, 0x03, 0x55, 0x04, 0x06, 0x13, 0x02, 0x43, 0x48, 0x31, 0x0A, 0x30, 0x08, 0x06, 0x03, 0x55, 0x04, 0x03,
    0x0C, 0x01, 0x65, 0x30, 0x2A, 0x30, 0x05, 0x06, 0x03, 0x2B, 0x65, 0x70, 0x03, 0x21, 0x00, 0x03, 0xA1, 0x07,
    0xBF, 0xF3, 0xCE, 0x10, 0xBE, 0x1D, 0x70, 0xDD, 0x18, 0xE7, 0x4B, 0xC0, 0x99, 0x67, 0xE4, 0xD6, 0x30, 0x9B,
    0xA5, 0x0D, 0x5F, 0x1D, 0xDC, 0x86, 0x64, 0x12, 0x55, 0x31, 0xB8, 0xA3, 0x23, 0x30, 0x21, 0x30, 0x0F, 0x06,
    0x03, 0x55, 0x1D, 0x13, 0x01, 0x01, 0xFF, 0x04, 0x05, 0x30, 0x03, 0x01, 0x01, 0xFF, 0x30, 0x0E, 0x06, 0x03,
    0x55, 0x1D, 0x11, 0x04, 0x07, 0x30, 0x05, 0x82, 0x03, 0x65, 0x2E, 0x78, 0x30, 0x05, 0x06, 0x03, 0x2B, 0x65,
    0x70, 0x03, 0x41, 0x00, 0xCA, 0x83, 0x92, 0xA0, 0xAE, 0xF7, 0x88, 0x96, 0x3C, 0x2B, 0xA3, 0x66, 0xCE, 0xD2,
    0xC8, 0xC1, 0x80, 0xAA, 0x9F, 0x07, 0xC3, 0x98, 0xDA, 0x36, 0x37, 0xC9, 0x6D, 0x8A, 0x7A, 0x38, 0x41, 0x49,
    0x62, 0x26, 0x94, 0x33, 0x86, 0x5B, 0x55, 0x82, 0x17, 0x20, 0x8F, 0x12, 0x09, 0xC4, 0x97, 0xD9, 0x60, 0x49,
    0xD9, 0x28, 0x6F, 0xB9, 0x96, 0x21, 0xF1, 0xD5, 0x56, 0x11, 0x71, 0xF1, 0x8B, 0x01,
];

#[test]
fn a_certificate_has_its_fields() -> Result<(), Fault> {
    let certificate = Certificate::read(&CERTIFICATE)?;
    assert_eq!(certificate.octets(), &CERTIFICATE);
    assert_eq!(certificate.tbs_certificate(), &CERTIFICATE[4..192]);
    assert_eq!((certificate.version()?, certificate.serial_number()), (2, &[0x12, 0x34][..]));
    assert_eq!(certificate.tbs_signature(), &CERTIFICATE[16..23]);
    assert_eq!((certificate.issuer(), certificate.subject()), (&CERTIFICATE[23..50], &CERTIFICATE[84..111]));
    assert_eq!(certificate.not_before()?.to_string(), "2026-01-02T03:04:05Z");
    assert_eq!(certificate.not_after()?.to_string(), "2056-01-02T03:04:05Z");
    assert_eq!(certificate.subject_public_key_info(), &CERTIFICATE[111..155]);
    assert_eq!(certificate.public_key_algorithm()?, "1.3.101.112");
    assert_eq!(certificate.subject_public_key()?, (&CERTIFICATE[123..155], 256));
    assert_eq!((certificate.issuer_unique_id(), certificate.subject_unique_id()), (None, None));
    let extensions = certificate.extensions()?;
    let shown: Vec<_> = extensions.iter().map(|found| (found.oid.as_str(), found.critical, found.value)).collect();
    assert_eq!(shown, [("2.5.29.19", true, &CERTIFICATE[171..176]), ("2.5.29.17", false, &CERTIFICATE[185..192])]);
    assert_eq!(certificate.signature_algorithm()?, "1.3.101.112");
    assert_eq!(certificate.signature_algorithm_identifier(), &CERTIFICATE[192..199]);
    assert_eq!(certificate.signature()?, (&CERTIFICATE[202..], 512));
    Ok(())
}

#[test]
fn another_document_is_no_certificate() {
    let fault = Certificate::read(&DOCUMENT).unwrap_err();
    assert_eq!((fault.kind, fault.offset), (FaultKind::NotCertificate, 0));
    assert_eq!(Certificate::read(&CERTIFICATE[..265]).unwrap_err().kind, FaultKind::Incomplete);
}
