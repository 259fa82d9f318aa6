//! Numbers of any size in base 128, as tag numbers (X.690 8.1.2.4.2) and subidentifiers (8.19.2) are. It takes linear
//! time, which decimal digits would not.

use crate::BigUint;

/// The numbers that stand one after another. The last octet of each is below 128.
pub(crate) fn numbers(octets: &[u8]) -> impl Iterator<Item = BigUint> + '_ {
    octets.split_inclusive(|octet| *octet < 128).map(|octets| {
        let digits: Vec<u8> = octets.iter().map(|octet| octet & 127).collect();
        BigUint::from_radix_be(&digits, 128).unwrap_or_default()
    })
}

/// Puts a number in the fewest octets.
pub(crate) fn put(number: &BigUint, out: &mut Vec<u8>) {
    let mut digits = number.to_radix_be(128);
    let last = digits.pop();
    out.extend(digits.into_iter().map(|digit| digit | 128));
    out.extend(last);
}
