#![doc = include_str!("../README.md")]

mod base128;
mod block;
mod calls;
mod convert;
mod error;
mod growing;
mod oid;
mod once_lock;
mod read;
mod write;

// in a checkout this is the file of simple_asn1-sys; a package has a copy of it, and so needs no other crate
#[allow(dead_code)]
#[path = "../../sys/src/calls.rs"]
mod sys;

pub use block::{ASN1Block, ASN1Class};
pub use convert::{der_decode, der_encode, FromASN1, FromASN1WithBody, ToASN1};
pub use error::{ASN1DecodeErr, ASN1EncodeErr};
pub use num_bigint::{BigInt, BigUint};
pub use oid::OID;
pub use read::{from_der, set_max_depth, DEFAULT_MAX_DEPTH};
pub use write::to_der;

/// The object identifier of these components, each cast to a `u64`.
///
/// ```
/// let common_name = simple_asn1::oid!(2, 5, 4, 3);
/// assert_eq!(common_name.as_raw(), Ok(vec![0x55, 4, 3]));
/// ```
#[macro_export]
macro_rules! oid {
    ($($component:expr),*) => {
        $crate::OID::new(vec![$($crate::BigUint::from($component as u64)),*])
    };
}
