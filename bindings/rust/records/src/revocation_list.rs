//! The fields of a list of revoked certificates, in place.

use crate::calls::{self, RevocationListParts};
use crate::fields::{self, Extension};
use crate::{end_of, Fault, Moment, Record};
use std::iter::FusedIterator;

/// A certificate revocation list by its fields (RFC 5280, section 5.1), which are slices of its bytes. That bytes are
/// such a list is checked, and no more: no signature and no moment.
///
/// ```no_run
/// use simple_asn1_records::{Fault, RevocationList};
///
/// fn is_revoked(list: &[u8], serial_number: &[u8]) -> Result<bool, Fault> {
///     for revoked in RevocationList::read(list)?.revoked_certificates() {
///         if revoked?.serial_number() == serial_number {
///             return Ok(true);
///         }
///     }
///     Ok(false)
/// }
/// ```
#[derive(Clone, Copy, Debug, PartialEq, Eq)]
pub struct RevocationList<'a> {
    octets: &'a [u8],
    parts: RevocationListParts,
}

impl<'a> RevocationList<'a> {
    /// Reads the list that a document begins with. If it begins with another block, the fault is
    /// [`NotRevocationList`](crate::FaultKind::NotRevocationList).
    pub fn read(octets: &'a [u8]) -> Result<RevocationList<'a>, Fault> {
        Ok(RevocationList { octets, parts: calls::revocation_list(octets)? })
    }

    /// The bytes of the list.
    pub fn octets(&self) -> &'a [u8] {
        fields::block(self.octets, &self.parts.certificate_list)
    }

    /// The bytes that were signed.
    pub fn tbs_cert_list(&self) -> &'a [u8] {
        fields::block(self.octets, &self.parts.tbs_cert_list)
    }

    /// The version as it stands there: 1 is v2. Without one it is 0, which is v1.
    pub fn version(&self) -> Result<i64, Fault> {
        match fields::optional(self.octets, &self.parts.version) {
            Some(_) => calls::int64(self.octets, self.parts.version.offset),
            None => Ok(0),
        }
    }

    /// The bytes of the AlgorithmIdentifier in what was signed, which is that of the signature.
    pub fn tbs_signature(&self) -> &'a [u8] {
        fields::block(self.octets, &self.parts.tbs_signature)
    }

    /// The bytes of the Name of the issuer.
    pub fn issuer(&self) -> &'a [u8] {
        fields::block(self.octets, &self.parts.issuer)
    }

    /// The moment of the list.
    pub fn this_update(&self) -> Result<Moment, Fault> {
        calls::time(self.octets, self.parts.this_update.offset)
    }

    /// The moment until which the next list comes.
    pub fn next_update(&self) -> Result<Option<Moment>, Fault> {
        let next = &self.parts.next_update;
        fields::optional(self.octets, next).map(|_| calls::time(self.octets, next.offset)).transpose()
    }

    /// The revoked certificates, in order. Each is looked at when it is asked for, in no memory.
    pub fn revoked_certificates(&self) -> RevokedCertificates<'a> {
        let revoked = &self.parts.revoked_certificates;
        RevokedCertificates { octets: self.octets, offset: revoked.offset + revoked.header, left: revoked.items }
    }

    /// The extensions of the list, in order.
    pub fn extensions(&self) -> Result<Vec<Extension<'a>>, Fault> {
        fields::tagged_extensions(self.octets, &self.parts.crl_extensions)
    }

    /// The OBJECT IDENTIFIER of the signature's algorithm, as in `1.2.840`.
    pub fn signature_algorithm(&self) -> Result<String, Fault> {
        fields::identifier(self.octets, &self.parts.signature_algorithm)
    }

    /// The bytes of the AlgorithmIdentifier behind what was signed.
    pub fn signature_algorithm_identifier(&self) -> &'a [u8] {
        fields::block(self.octets, &self.parts.signature_algorithm)
    }

    /// The bytes that hold the bits of the signature, and the number of bits.
    pub fn signature(&self) -> Result<(&'a [u8], usize), Fault> {
        calls::bits(self.octets, self.parts.signature.offset)
    }
}

/// The revoked certificates of a list. The only fault is that memory runs out, after which there are no more.
#[derive(Clone, Debug)]
pub struct RevokedCertificates<'a> {
    octets: &'a [u8],
    offset: usize,
    left: usize,
}

impl<'a> Iterator for RevokedCertificates<'a> {
    type Item = Result<RevokedCertificate<'a>, Fault>;

    fn next(&mut self) -> Option<Self::Item> {
        self.left = self.left.checked_sub(1)?;
        let found = RevokedCertificate::at(self.octets, self.offset);
        match &found {
            Ok(revoked) => self.offset = revoked.end,
            Err(_) => self.left = 0,
        }
        Some(found)
    }

    fn size_hint(&self) -> (usize, Option<usize>) {
        (self.left.min(1), Some(self.left))
    }
}

impl FusedIterator for RevokedCertificates<'_> {}

/// A revoked certificate of a list.
#[derive(Clone, Copy, Debug, PartialEq, Eq)]
pub struct RevokedCertificate<'a> {
    octets: &'a [u8],
    serial_number: Record,
    revocation_date: Record,
    end: usize,
}

impl<'a> RevokedCertificate<'a> {
    fn at(octets: &'a [u8], offset: usize) -> Result<RevokedCertificate<'a>, Fault> {
        let entry = calls::header(octets, offset)?;
        let serial_number = calls::header(octets, entry.offset + entry.header)?;
        let revocation_date = calls::header(octets, end_of(&serial_number))?;
        Ok(RevokedCertificate { octets, serial_number, revocation_date, end: end_of(&entry) })
    }

    /// The contents octets of the serial number, in two's complement.
    pub fn serial_number(&self) -> &'a [u8] {
        fields::contents(self.octets, &self.serial_number)
    }

    /// The moment of the revocation.
    pub fn revocation_date(&self) -> Result<Moment, Fault> {
        calls::time(self.octets, self.revocation_date.offset)
    }

    /// The extensions of the entry, in order.
    pub fn extensions(&self) -> Result<Vec<Extension<'a>>, Fault> {
        match end_of(&self.revocation_date) {
            start if start < self.end => fields::extensions_between(self.octets, start, self.end),
            _ => Ok(Vec::new()),
        }
    }
}
