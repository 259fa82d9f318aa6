//! Makes a certification request (PKCS #10, RFC 2986) for an Ed25519 or P-256 key:
//!
//! ```text
//! openssl pkey -in KEY.pem -pubout -outform DER -out PUBLIC.der
//! csr NAME PUBLIC.der > INFO.der
//! openssl pkeyutl -sign -inkey KEY.pem -rawin -in INFO.der -out SIGNATURE    (P-256: and -digest sha256)
//! csr NAME PUBLIC.der SIGNATURE > REQUEST.der
//! ```

use simple_asn1_records::{Block, Builder, Class::ContextSpecific, Class::Universal, Document};
use std::error::Error;
use std::io::Write;
use std::process::ExitCode;

const UTF8_STRING: u64 = 12;
const SEQUENCE: u64 = 16;
const SET: u64 = 17;

fn main() -> ExitCode {
    let arguments: Vec<String> = std::env::args().skip(1).collect();
    let made = match arguments.as_slice() {
        [name, key] => made(name, key, None),
        [name, key, signature] => made(name, key, Some(signature)),
        _ => Err("csr NAME PUBLIC.der [SIGNATURE]".into()),
    };
    match made.and_then(|octets| Ok(std::io::stdout().write_all(&octets)?)) {
        Ok(()) => ExitCode::SUCCESS,
        Err(why) => {
            eprintln!("{why}");
            ExitCode::FAILURE
        }
    }
}

/// What is to be signed; with a signature the request.
fn made(name: &str, key: &str, signature: Option<&String>) -> Result<Vec<u8>, Box<dyn Error>> {
    let key = std::fs::read(key)?;
    let document = Document::read_strict(&key)?;
    let key = document.blocks().next().ok_or("this is no public key")?;

    let mut builder = Builder::new();
    match signature {
        None => add_info(&mut builder, name, key),
        Some(path) => {
            let signature = std::fs::read(path)?;
            builder.open(Universal, SEQUENCE);
            add_info(&mut builder, name, key);
            builder.open(Universal, SEQUENCE).add_oid(signature_algorithm(key)?).close();
            builder.add_bits(&signature, 8 * signature.len());
            builder.close();
        }
    }
    Ok(builder.finish()?)
}

/// The algorithm that a key signs with, by the OBJECT IDENTIFIER of the key's.
fn signature_algorithm(key: Block) -> Result<&'static str, Box<dyn Error>> {
    let algorithm = key.items().next().and_then(|algorithm| algorithm.items().next()).ok_or("this is no public key")?;
    match algorithm.oid()?.as_str() {
        "1.3.101.112" => Ok("1.3.101.112"),               // Ed25519
        "1.2.840.10045.2.1" => Ok("1.2.840.10045.4.3.2"), // ecdsa-with-SHA256
        _ => Err("this key is neither of Ed25519 nor of P-256".into()),
    }
}

/// The CertificationRequestInfo, which is signed: version, subject, public key and no attributes.
fn add_info(builder: &mut Builder, name: &str, key: Block) {
    builder.open(Universal, SEQUENCE).add_int64(0);
    builder.open(Universal, SEQUENCE).open(Universal, SET).open(Universal, SEQUENCE);
    builder.add_oid("2.5.4.3").add_text(UTF8_STRING, name); // commonName
    builder.close().close().close();
    builder.add_block(key);
    builder.open(ContextSpecific, 0).close();
    builder.close();
}
