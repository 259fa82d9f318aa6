use crate::once_lock::OnceLock;
use crate::{base128, calls, write, ASN1DecodeErr, ASN1EncodeErr, BigUint};
use std::fmt;

/// An object identifier: its components.
#[derive(Clone)]
pub struct OID(Origin);

/// One that was read keeps its contents octets. Its components are made when they are first asked for.
#[derive(Clone)]
enum Origin {
    Made(Vec<BigUint>),
    Short { size: u8, octets: [u8; SHORT], components: OnceLock<Vec<BigUint>> },
    Long(Box<Long>),
}

#[derive(Clone)]
struct Long {
    octets: Box<[u8]>,
    components: OnceLock<Vec<BigUint>>,
}

/// So many contents octets make no block larger.
const SHORT: usize = 14;

impl OID {
    pub fn new(x: Vec<BigUint>) -> OID {
        OID(Origin::Made(x))
    }

    /// The contents octets.
    pub fn as_raw(&self) -> Result<Vec<u8>, ASN1EncodeErr> {
        let mut octets = Vec::new();
        write::identifier(self, &mut octets)?;
        Ok(octets)
    }

    /// The components as numbers of this type; `Overflow` if one does not fit.
    pub fn as_vec<'a, T: TryFrom<&'a BigUint>>(&'a self) -> Result<Vec<T>, ASN1DecodeErr> {
        self.components().iter().map(|component| T::try_from(component).map_err(|_| ASN1DecodeErr::Overflow)).collect()
    }

    /// What so many contents octets at the front mean, which were read. Others may stand behind them.
    #[inline(always)]
    pub(crate) fn of_front(octets: &[u8], size: usize) -> OID {
        if size > SHORT {
            return OID::of_many(&octets[..size]);
        }
        let short = match octets.get(..16).map(<[u8; 16]>::try_from) {
            // faster than a copy of so few octets by their number
            Some(Ok(front)) => (u128::from_le_bytes(front) & !(u128::MAX << (8 * size))).to_le_bytes(),
            _ => {
                let mut short = [0; 16];
                short[..size].copy_from_slice(&octets[..size]);
                short
            }
        };
        let mut octets = [0; SHORT];
        octets.copy_from_slice(&short[..SHORT]);
        OID(Origin::Short { size: size as u8, octets, components: OnceLock::new() })
    }

    #[cold]
    fn of_many(contents: &[u8]) -> OID {
        OID(Origin::Long(Box::new(Long { octets: contents.into(), components: OnceLock::new() })))
    }

    /// The contents octets that it was read from.
    pub(crate) fn contents(&self) -> Option<&[u8]> {
        match &self.0 {
            Origin::Made(_) => None,
            Origin::Short { size, octets, .. } => Some(&octets[..usize::from(*size)]),
            Origin::Long(long) => Some(&long.octets),
        }
    }

    pub(crate) fn components(&self) -> &[BigUint] {
        match &self.0 {
            Origin::Made(components) => components,
            Origin::Short { size, octets, components } => {
                components.get_or_init(|| components_of(&octets[..usize::from(*size)]))
            }
            Origin::Long(long) => long.components.get_or_init(|| components_of(&long.octets)),
        }
    }
}

fn components_of(contents: &[u8]) -> Vec<BigUint> {
    calls::components(contents, |numbers| numbers.iter().map(|number| BigUint::from(*number)).collect())
        .unwrap_or_else(|| large_components_of(contents))
}

/// Components of any size, of contents octets that were read. The first octet is of the first two.
fn large_components_of(contents: &[u8]) -> Vec<BigUint> {
    match contents.split_first() {
        Some((&leading, rest)) => {
            let first = (leading / 40).min(2);
            [first, leading - 40 * first].map(BigUint::from).into_iter().chain(base128::numbers(rest)).collect()
        }
        None => Vec::new(),
    }
}

impl fmt::Debug for OID {
    fn fmt(&self, f: &mut fmt::Formatter<'_>) -> fmt::Result {
        f.debug_tuple("OID").field(&self.components()).finish()
    }
}

impl PartialEq for OID {
    fn eq(&self, other: &OID) -> bool {
        match (self.contents(), other.contents()) {
            (Some(a), Some(b)) if a == b => true,
            _ => self.components() == other.components(),
        }
    }
}

impl Eq for OID {}

impl PartialEq<OID> for &OID {
    fn eq(&self, other: &OID) -> bool {
        **self == *other
    }
}
