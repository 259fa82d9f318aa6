//! The fields of a certification request, in place.

use crate::calls::{self, RequestParts};
use crate::fields::{self, Extension};
use crate::{Document, Fault};

/// The contents octets of 1.2.840.113549.1.9.14, the type of the attribute with the extensions that are asked for.
const EXTENSION_REQUEST: [u8; 9] = [0x2A, 0x86, 0x48, 0x86, 0xF7, 0x0D, 0x01, 0x09, 0x0E];

/// A certification request (PKCS #10) by its fields (RFC 2986, section 4), which are slices of its bytes. That bytes are
/// a request is checked, and no more: no signature.
///
/// ```no_run
/// use simple_asn1_records::{CertificationRequest, Fault};
///
/// fn key_algorithm(octets: &[u8]) -> Result<String, Fault> {
///     CertificationRequest::read(octets)?.public_key_algorithm()
/// }
/// ```
#[derive(Clone, Copy, Debug, PartialEq, Eq)]
pub struct CertificationRequest<'a> {
    octets: &'a [u8],
    parts: RequestParts,
}

impl<'a> CertificationRequest<'a> {
    /// Reads the request that a document begins with. If it begins with another block, the fault is
    /// [`NotRequest`](crate::FaultKind::NotRequest).
    pub fn read(octets: &'a [u8]) -> Result<CertificationRequest<'a>, Fault> {
        Ok(CertificationRequest { octets, parts: calls::request(octets)? })
    }

    /// The bytes of the request.
    pub fn octets(&self) -> &'a [u8] {
        fields::block(self.octets, &self.parts.certification_request)
    }

    /// The bytes that were signed.
    pub fn certification_request_info(&self) -> &'a [u8] {
        fields::block(self.octets, &self.parts.certification_request_info)
    }

    /// The version as it stands there: 0 is v1.
    pub fn version(&self) -> Result<i64, Fault> {
        calls::int64(self.octets, self.parts.version.offset)
    }

    /// The bytes of the Name of the subject.
    pub fn subject(&self) -> &'a [u8] {
        fields::block(self.octets, &self.parts.subject)
    }

    /// The bytes of the SubjectPublicKeyInfo.
    pub fn subject_public_key_info(&self) -> &'a [u8] {
        fields::block(self.octets, &self.parts.subject_public_key_info)
    }

    /// The OBJECT IDENTIFIER of the public key's algorithm, as in `1.2.840`.
    pub fn public_key_algorithm(&self) -> Result<String, Fault> {
        fields::identifier(self.octets, &self.parts.public_key_algorithm)
    }

    /// The bytes that hold the bits of the public key, and the number of bits.
    pub fn subject_public_key(&self) -> Result<(&'a [u8], usize), Fault> {
        calls::bits(self.octets, self.parts.subject_public_key.offset)
    }

    /// The attributes, in order.
    pub fn attributes(&self) -> Result<Vec<Attribute<'a>>, Fault> {
        let document = match self.attribute_blocks()? {
            Some(document) => document,
            None => return Ok(Vec::new()),
        };
        let attributes = document.blocks().map(|attribute| {
            let items: Vec<_> = attribute.items().collect();
            let values = items[1].items().map(|value| value.octets()).collect();
            Ok(Attribute { oid: items[0].oid().map_err(|fault| self.in_attributes(fault))?, values })
        });
        attributes.collect()
    }

    /// The extensions that are asked for, in order (RFC 2985, section 5.4.2). If such an attribute has a value of another
    /// type, the fault is [`NoSuchValue`](crate::FaultKind::NoSuchValue).
    pub fn extensions(&self) -> Result<Vec<Extension<'a>>, Fault> {
        let mut found = Vec::new();
        let document = match self.attribute_blocks()? {
            Some(document) => document,
            None => return Ok(found),
        };
        for attribute in document.blocks() {
            let items: Vec<_> = attribute.items().collect();
            if items[0].contents() == EXTENSION_REQUEST {
                for value in items[1].items() {
                    found.extend(fields::extensions(value.octets()).map_err(|fault| {
                        self.in_attributes(Fault { offset: value.offset() + fault.offset, ..fault })
                    })?);
                }
            }
        }
        Ok(found)
    }

    /// The attributes as blocks; none if there are none.
    fn attribute_blocks(&self) -> Result<Option<Document<'a>>, Fault> {
        match fields::contents(self.octets, &self.parts.attributes) {
            [] => Ok(None),
            contents => Ok(Some(Document::read(contents).map_err(|fault| self.in_attributes(fault))?)),
        }
    }

    /// A fault of the attributes, by its offset in the document.
    fn in_attributes(&self, fault: Fault) -> Fault {
        let tag = &self.parts.attributes;
        Fault { offset: tag.offset + tag.header + fault.offset, ..fault }
    }

    /// The OBJECT IDENTIFIER of the signature's algorithm, as in `1.2.840`.
    pub fn signature_algorithm(&self) -> Result<String, Fault> {
        fields::identifier(self.octets, &self.parts.signature_algorithm)
    }

    /// The bytes of the AlgorithmIdentifier behind what was signed.
    pub fn signature_algorithm_identifier(&self) -> &'a [u8] {
        fields::block(self.octets, &self.parts.signature_algorithm)
    }

    /// The bytes that hold the bits of the signature, and the number of bits.
    pub fn signature(&self) -> Result<(&'a [u8], usize), Fault> {
        calls::bits(self.octets, self.parts.signature.offset)
    }
}

/// An attribute of a certification request.
#[derive(Clone, Debug, PartialEq, Eq)]
#[non_exhaustive]
pub struct Attribute<'a> {
    /// Its OBJECT IDENTIFIER, as in `1.2.840.113549.1.9.7`.
    pub oid: String,
    /// The bytes of each value: a document of the type that the identifier says.
    pub values: Vec<&'a [u8]>,
}
