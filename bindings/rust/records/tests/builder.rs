//! Documents that are made of values, and values that are refused.

use simple_asn1_records::{Block, Builder, Class, Document, Fault, FaultKind, Moment};

const MOMENT: Moment = Moment { year: 2026, month: 11, day: 25, hour: 9, minute: 8, second: 7, nanosecond: 0 };

fn only(add: impl FnOnce(&mut Builder) -> &mut Builder) -> Result<Vec<u8>, Fault> {
    add(&mut Builder::new()).finish()
}

#[test]
fn values_are_as_openssl_writes_them() -> Result<(), Fault> {
    assert_eq!(only(|b| b.add_boolean(true))?, [1, 1, 0xFF]);
    assert_eq!(only(|b| b.add_int64(-129))?, [2, 2, 0xFF, 0x7F]);
    assert_eq!(only(|b| b.add_octets(Class::Universal, 2, &[0, 0, 0x80]))?, [2, 2, 0, 0x80]);
    assert_eq!(only(|b| b.add_bits(&[0xB0], 4))?, [3, 2, 4, 0xB0]);
    assert_eq!(only(|b| b.add_null())?, [5, 0]);
    assert_eq!(only(|b| b.add_oid("1.2.840.113549"))?, [6, 6, 0x2A, 0x86, 0x48, 0x86, 0xF7, 0x0D]);
    assert_eq!(only(|b| b.add_text(12, "ä"))?, [12, 2, 0xC3, 0xA4]);
    assert_eq!(only(|b| b.add_text(12, ""))?, [12, 0]);
    assert_eq!(only(|b| b.add_time(23, MOMENT))?, b"\x17\x0D261125090807Z");
    let late = Moment { year: 2126, nanosecond: 120_000_000, ..MOMENT };
    assert_eq!(only(|b| b.add_time(24, late))?, b"\x18\x1221261125090807.12Z");
    Ok(())
}

#[test]
fn values_are_read_back() -> Result<(), Fault> {
    let numbers =
        (0..64).flat_map(|k| [1i64 << k, (1i64 << k).wrapping_neg(), (1i64 << k).wrapping_sub(1), !(1i64 << k)]);
    for number in numbers {
        let der = only(|b| b.add_int64(number))?;
        assert_eq!(Document::read_strict(&der)?.blocks().next().unwrap().int64()?, number);
    }
    let der = only(|b| b.add_time(24, Moment { nanosecond: 1, ..MOMENT }))?;
    assert_eq!(Document::read_strict(&der)?.blocks().next().unwrap().moment()?, Moment { nanosecond: 1, ..MOMENT });
    Ok(())
}

#[test]
fn blocks_are_in_those_that_are_open() -> Result<(), Fault> {
    let read = [0x31, 0x81, 0x06, 0xA1, 0x04, 0x02, 0x02, 0x00, 0x07];
    let document = Document::read(&read)?;
    let set = document.blocks().next().unwrap();
    let der = Builder::new()
        .open(Class::Universal, 16)
        .add_block(set)
        .open(Class::ContextSpecific, 0)
        .close()
        .close()
        .add_null()
        .finish()?;
    assert_eq!(der, [0x30, 9, 0x31, 5, 0xA1, 3, 2, 1, 7, 0xA0, 0, 5, 0]);
    let made = Document::read_strict(&der)?;
    let depths: Vec<usize> = made.all_blocks().map(|block: Block| block.depth()).collect();
    assert_eq!(depths, [0, 1, 2, 3, 1, 0]);
    Ok(())
}

#[test]
fn the_first_error_stays() {
    let refused =
        |add: fn(&mut Builder) -> &mut Builder| add(Builder::new().add_null()).add_oid("x").finish().unwrap_err();
    let fault = |kind| Fault { kind, offset: 1 };
    assert_eq!(refused(|b| b.add_oid("1.2.")), fault(FaultKind::NotOid));
    assert_eq!(refused(|b| b.add_oid("2.999")), fault(FaultKind::Range));
    assert_eq!(refused(|b| b.add_bits(&[0, 0], 8)), fault(FaultKind::Range));
    assert_eq!(refused(|b| b.add_text(19, "*")), fault(FaultKind::Printable));
    assert_eq!(refused(|b| b.add_text(22, "é")), fault(FaultKind::Range));
    assert_eq!(refused(|b| b.add_text(4, "a")), fault(FaultKind::NoSuchValue));
    assert_eq!(refused(|b| b.add_time(23, Moment { year: 2050, ..MOMENT })), fault(FaultKind::Date));
    assert_eq!(refused(|b| b.add_time(24, Moment { month: 2, day: 29, ..MOMENT })), fault(FaultKind::Date));
    assert_eq!(refused(|b| b.close()), fault(FaultKind::BadRecord));
    assert_eq!(only(|b| b.add_null().open(Class::Universal, 16)).unwrap_err(), fault(FaultKind::BadRecord));
    assert_eq!(Builder::new().finish().unwrap_err().kind, FaultKind::Empty);
    assert_eq!(FaultKind::NotOid.to_string(), "the text is not an OBJECT IDENTIFIER");
}
