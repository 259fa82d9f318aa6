//! Which rules of DER bytes break, and where.

use crate::{calls, Fault};

/// A rule of DER that an encoding may break: a variant for each of `simple_asn1.h`, in the order of their numbers.
#[derive(Clone, Copy, Debug, PartialEq, Eq, Hash)]
#[non_exhaustive]
pub enum Rule {
    /// A tag number below 31 is in one byte.
    LongIdentifier,
    /// A tag number of 31 or more is in the fewest bytes.
    PaddedTag,
    /// A length has the definite form.
    IndefiniteLength,
    /// A length is in the fewest bytes.
    LongLength,
    /// A tag of class Universal is that of a type.
    ReservedTag,
    /// A SEQUENCE, SET, EXTERNAL, EMBEDDED PDV or CHARACTER STRING is constructed.
    NotConstructed,
    /// Any other type that is no string is primitive.
    NotPrimitive,
    /// A string is primitive.
    ConstructedString,
    /// A BOOLEAN has one byte.
    BooleanSize,
    /// A BOOLEAN is `00` or `FF`.
    BooleanValue,
    /// An INTEGER or ENUMERATED has some bytes.
    NoInteger,
    /// The first nine bits of an INTEGER or ENUMERATED are not alike.
    PaddedInteger,
    /// A binary REAL has the base 2, no scaling, an odd mantissa, and the fewest bytes.
    BinaryReal,
    /// A decimal REAL has the form NR3 of ISO 6093 without spare characters.
    DecimalReal,
    /// A special REAL is one of the bytes `40` to `43`.
    SpecialReal,
    /// A BIT STRING begins with a number of unused bits from 0 to 7.
    UnusedCount,
    /// A BIT STRING without bits has no unused bits.
    UnusedOfNone,
    /// The unused bits of a BIT STRING are 0.
    UnusedBits,
    /// A NULL has no bytes.
    NullContents,
    /// An OBJECT IDENTIFIER or RELATIVE-OID has one subidentifier or more, each whole and in the fewest bytes.
    Subidentifiers,
    /// An OID-IRI or RELATIVE-OID-IRI is labels with solidi between them, before which an OID-IRI has one more.
    Iri,
    /// A string has only characters of its type.
    Characters,
    /// A UTCTime is YYMMDDhhmmssZ of a moment that exists.
    UtcTime,
    /// A GeneralizedTime is YYYYMMDDhhmmss of a moment that exists, perhaps a fraction that does not end in 0, and Z.
    GeneralizedTime,
    /// A DATE, TIME-OF-DAY, DATE-TIME or DURATION is one, and a TIME has its characters in an order that there is.
    Time,
    /// The items of a SET ascend by their tags or by their bytes.
    Order,
    /// The contents of a constructed encoding are encodings.
    NotEncodings,
    /// An EXTERNAL has one reference or both, perhaps a descriptor, and an encoding.
    External,
    /// An EMBEDDED PDV or CHARACTER STRING has an identification and a value.
    Identification,
    /// A rule of a later library, by its number there.
    Unknown(u32),
}

/// The rules, each with what is wrong and the clauses that say it.
const RULES: [(Rule, &str, &str); 29] = [
    (Rule::LongIdentifier, "tag number below 31 in more than one byte", "8.1.2.2"),
    (Rule::PaddedTag, "tag number not in the fewest bytes", "8.1.2.4.2"),
    (Rule::IndefiniteLength, "indefinite length", "8.1.3.2, 10.1"),
    (Rule::LongLength, "length not in the fewest bytes", "10.1"),
    (Rule::ReservedTag, "reserved tag", "X.680 8.4"),
    (Rule::NotConstructed, "primitive, but the type is constructed", "8.9.1, 8.11.1, 8.17, 8.18, 8.24"),
    (
        Rule::NotPrimitive,
        "constructed, but the type is primitive",
        "8.2.1, 8.3.1, 8.5.1, 8.8.1, 8.19.1, 8.20.1, 8.21, 8.22, 8.26",
    ),
    (Rule::ConstructedString, "string in pieces", "10.2"),
    (Rule::BooleanSize, "BOOLEAN not of one byte", "8.2.1"),
    (Rule::BooleanValue, "BOOLEAN neither 00 nor FF", "8.2.2, 11.1"),
    (Rule::NoInteger, "number without bytes", "8.3.1"),
    (Rule::PaddedInteger, "number not in the fewest bytes", "8.3.2"),
    (Rule::BinaryReal, "binary REAL not in its one form", "8.5.7, 11.3.1"),
    (Rule::DecimalReal, "decimal REAL not in its one form", "8.5.8, 11.3.2"),
    (Rule::SpecialReal, "special REAL that there is not", "8.5.9"),
    (Rule::UnusedCount, "no number of unused bits from 0 to 7", "8.6.2.2"),
    (Rule::UnusedOfNone, "unused bits of no bits", "8.6.2.3"),
    (Rule::UnusedBits, "unused bits not 0", "11.2.1"),
    (Rule::NullContents, "NULL with contents", "8.8.2"),
    (Rule::Subidentifiers, "subidentifiers missing, cut off or not in the fewest bytes", "8.19.2, 8.20.2"),
    (Rule::Iri, "no internationalized resource identifier", "8.21, 8.22"),
    (Rule::Characters, "characters that the type does not have", "8.23, X.680 41"),
    (Rule::UtcTime, "not YYMMDDhhmmssZ of a moment that exists", "11.8"),
    (Rule::GeneralizedTime, "not YYYYMMDDhhmmss[.f]Z of a moment that exists", "11.7"),
    (Rule::Time, "no date or time of the type", "8.26"),
    (Rule::Order, "SET out of order", "10.3, 11.6"),
    (Rule::NotEncodings, "contents that are not encodings", "8.9.2, 8.10.2, 8.11.2, 8.12.2, 8.14"),
    (Rule::External, "not a reference and an encoding", "8.18"),
    (Rule::Identification, "not an identification and a value", "8.17, 8.24"),
];

impl Rule {
    /// The rule with a number of `simple_asn1.h`, from 1.
    pub(crate) fn numbered(number: u32) -> Rule {
        let index = (number as usize).wrapping_sub(1);
        RULES.get(index).map_or(Rule::Unknown(number), |(rule, ..)| *rule)
    }

    /// What is wrong where the rule is broken, in a few words.
    pub fn text(self) -> &'static str {
        self.words().0
    }

    /// The clauses that say the rule: of X.690, unless X.680 is named. None of [`Rule::Unknown`].
    pub fn section(self) -> &'static str {
        self.words().1
    }

    fn words(self) -> (&'static str, &'static str) {
        let found = RULES.iter().find(|(rule, ..)| *rule == self);
        found.map_or(("unknown rule", ""), |(_, text, section)| (text, section))
    }
}

/// A rule that an encoding breaks.
#[derive(Clone, Copy, Debug, PartialEq, Eq, Hash)]
pub struct Departure {
    /// Where the encoding begins, in bytes from the start.
    pub offset: usize,
    pub rule: Rule,
}

/// Each rule of DER that an encoding breaks, in the order of their offsets: none for DER, and only for DER. Rules that
/// need a schema are not checked, and no OCTET STRING or BIT STRING is looked into. The error is that of bytes that are
/// not encodings one after another by their headers.
///
/// ```
/// use simple_asn1_records::{Fault, Rule, departures};
///
/// fn main() -> Result<(), Fault> {
///     let found = departures(&[0x30, 0x03, 0x01, 0x01, 0x2A])?;
///     assert_eq!((found[0].offset, found[0].rule), (2, Rule::BooleanValue));
///     assert_eq!(found[0].rule.section(), "8.2.2, 11.1");
///     assert!(departures(&[0x30, 0x03, 0x01, 0x01, 0xFF])?.is_empty());
///     Ok(())
/// }
/// ```
pub fn departures(octets: &[u8]) -> Result<Vec<Departure>, Fault> {
    let found = calls::departures(octets)?;
    Ok(found.into_iter().map(|found| Departure { offset: found.offset, rule: Rule::numbered(found.rule) }).collect())
}

#[cfg(test)]
mod tests {
    use super::*;

    #[test]
    fn a_number_is_that_of_a_rule_or_stays_one() {
        assert_eq!([1, 29].map(Rule::numbered), [Rule::LongIdentifier, Rule::Identification]);
        for number in [0, 99, u32::MAX] {
            let rule = Rule::numbered(number);
            assert_eq!(rule, Rule::Unknown(number));
            assert_eq!((rule.text(), rule.section()), ("unknown rule", ""));
        }
    }
}
