//! The fields of a certificate, in place.

use crate::calls::{self, CertificateParts};
use crate::fields::{self, Extension};
use crate::{Fault, Moment};

/// A certificate by its fields (RFC 5280, section 4.1), which are slices of its bytes. That bytes are a certificate is
/// checked, and no more: no signature, chain, moment or purpose.
///
/// ```no_run
/// use simple_asn1_records::{Certificate, Fault};
///
/// fn last_moment(octets: &[u8]) -> Result<String, Fault> {
///     Ok(Certificate::read(octets)?.not_after()?.to_string())
/// }
/// ```
#[derive(Clone, Copy, Debug, PartialEq, Eq)]
pub struct Certificate<'a> {
    octets: &'a [u8],
    parts: CertificateParts,
}

impl<'a> Certificate<'a> {
    /// Reads the certificate that a document begins with. If it begins with another block, the fault is
    /// [`NotCertificate`](crate::FaultKind::NotCertificate).
    pub fn read(octets: &'a [u8]) -> Result<Certificate<'a>, Fault> {
        Ok(Certificate { octets, parts: calls::certificate(octets)? })
    }

    /// The bytes of the certificate.
    pub fn octets(&self) -> &'a [u8] {
        fields::block(self.octets, &self.parts.certificate)
    }

    /// The bytes that were signed.
    pub fn tbs_certificate(&self) -> &'a [u8] {
        fields::block(self.octets, &self.parts.tbs_certificate)
    }

    /// The version as it stands there: 2 is v3. Without one it is 0, which is v1.
    pub fn version(&self) -> Result<i64, Fault> {
        match fields::inside(&self.parts.version) {
            Some(offset) => calls::int64(self.octets, offset),
            None => Ok(0),
        }
    }

    /// The contents octets of the serial number, in two's complement.
    pub fn serial_number(&self) -> &'a [u8] {
        fields::contents(self.octets, &self.parts.serial_number)
    }

    /// The bytes of the AlgorithmIdentifier in what was signed, which is that of the signature.
    pub fn tbs_signature(&self) -> &'a [u8] {
        fields::block(self.octets, &self.parts.tbs_signature)
    }

    /// The bytes of the Name of the issuer.
    pub fn issuer(&self) -> &'a [u8] {
        fields::block(self.octets, &self.parts.issuer)
    }

    /// The first moment at which it is valid.
    pub fn not_before(&self) -> Result<Moment, Fault> {
        calls::time(self.octets, self.parts.not_before.offset)
    }

    /// The last moment at which it is valid.
    pub fn not_after(&self) -> Result<Moment, Fault> {
        calls::time(self.octets, self.parts.not_after.offset)
    }

    /// The bytes of the Name of the subject.
    pub fn subject(&self) -> &'a [u8] {
        fields::block(self.octets, &self.parts.subject)
    }

    /// The bytes of the SubjectPublicKeyInfo.
    pub fn subject_public_key_info(&self) -> &'a [u8] {
        fields::block(self.octets, &self.parts.subject_public_key_info)
    }

    /// The OBJECT IDENTIFIER of the public key's algorithm, as in `1.2.840`.
    pub fn public_key_algorithm(&self) -> Result<String, Fault> {
        fields::identifier(self.octets, &self.parts.public_key_algorithm)
    }

    /// The bytes that hold the bits of the public key, and the number of bits.
    pub fn subject_public_key(&self) -> Result<(&'a [u8], usize), Fault> {
        calls::bits(self.octets, self.parts.subject_public_key.offset)
    }

    /// The bytes of the issuer's unique identifier, with the tag `[1]`.
    pub fn issuer_unique_id(&self) -> Option<&'a [u8]> {
        fields::optional(self.octets, &self.parts.issuer_unique_id)
    }

    /// The bytes of the subject's unique identifier, with the tag `[2]`.
    pub fn subject_unique_id(&self) -> Option<&'a [u8]> {
        fields::optional(self.octets, &self.parts.subject_unique_id)
    }

    /// The extensions, in order.
    pub fn extensions(&self) -> Result<Vec<Extension<'a>>, Fault> {
        fields::tagged_extensions(self.octets, &self.parts.extensions)
    }

    /// The OBJECT IDENTIFIER of the signature's algorithm, as in `1.2.840`.
    pub fn signature_algorithm(&self) -> Result<String, Fault> {
        fields::identifier(self.octets, &self.parts.signature_algorithm)
    }

    /// The bytes of the AlgorithmIdentifier behind what was signed.
    pub fn signature_algorithm_identifier(&self) -> &'a [u8] {
        fields::block(self.octets, &self.parts.signature_algorithm)
    }

    /// The bytes that hold the bits of the signature, and the number of bits.
    pub fn signature(&self) -> Result<(&'a [u8], usize), Fault> {
        calls::bits(self.octets, self.parts.signature.offset)
    }
}
