//! The algorithm of a public key: `openssl pkey -pubout -outform DER < KEY.pem | cargo run --example algorithm`.

use simple_asn1::{der_decode, ASN1Block, ASN1DecodeErr, FromASN1, OID};
use std::io::{self, Read};

/// A `SubjectPublicKeyInfo` (RFC 5280, section 4.1): its algorithm, and how many bits its key has.
struct PublicKey {
    algorithm: OID,
    bits: usize,
}

impl FromASN1 for PublicKey {
    type Error = ASN1DecodeErr;

    fn from_asn1(blocks: &[ASN1Block]) -> Result<(PublicKey, &[ASN1Block]), ASN1DecodeErr> {
        match blocks {
            [ASN1Block::Sequence(_, items), rest @ ..] => Ok((public_key(items)?, rest)),
            _ => Err(ASN1DecodeErr::Incomplete),
        }
    }
}

fn public_key(items: &[ASN1Block]) -> Result<PublicKey, ASN1DecodeErr> {
    match items {
        [ASN1Block::Sequence(_, algorithm), ASN1Block::BitString(_, bits, _)] => match algorithm.first() {
            Some(ASN1Block::ObjectIdentifier(_, algorithm)) => {
                Ok(PublicKey { algorithm: algorithm.clone(), bits: *bits })
            }
            _ => Err(ASN1DecodeErr::Incomplete),
        },
        _ => Err(ASN1DecodeErr::Incomplete),
    }
}

fn main() -> Result<(), Box<dyn std::error::Error>> {
    let mut octets = Vec::new();
    io::stdin().read_to_end(&mut octets)?;
    let key: PublicKey = der_decode(&octets)?;
    let components: Vec<String> = key.algorithm.as_vec::<u64>()?.iter().map(u64::to_string).collect();
    println!("algorithm {}, a key of {} bits", components.join("."), key.bits);
    Ok(())
}
