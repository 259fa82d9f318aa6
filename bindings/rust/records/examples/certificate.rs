//! Shows the subject of a certificate and when it is valid: certificate < FILE.der

use simple_asn1_records::{Block, Certificate, Document, Fault};
use std::error::Error;
use std::io::Read;
use std::process::ExitCode;

const PEM: &str = "this is PEM; as DER it is: openssl x509 -in FILE -outform DER";

fn main() -> ExitCode {
    match shown() {
        Ok(text) => {
            print!("{text}");
            ExitCode::SUCCESS
        }
        Err(why) => {
            eprintln!("{why}");
            ExitCode::FAILURE
        }
    }
}

fn shown() -> Result<String, Box<dyn Error>> {
    let mut octets = Vec::new();
    std::io::stdin().read_to_end(&mut octets)?;
    if octets.first() != Some(&0x30) && octets.windows(11).any(|part| part == b"-----BEGIN ") {
        return Err(PEM.into());
    }
    certificate_text(&octets).map_err(|fault| format!("refused at offset {}: {}", fault.offset, fault.kind).into())
}

/// The lines of a certificate.
fn certificate_text(octets: &[u8]) -> Result<String, Fault> {
    let certificate = Certificate::read(octets)?;
    let subject = Document::read(certificate.subject())?;
    let sets = subject.blocks().flat_map(|name| name.items());
    let mut text = String::from("subject:");
    for attribute in sets.flat_map(|set| set.items()) {
        let items: Vec<Block> = attribute.items().collect();
        text += &format!(" {}", attribute_text(&items[0].oid()?, items[1]));
    }
    text += &format!("\nnot before: {}", certificate.not_before()?);
    text += &format!("\nnot after: {}\n", certificate.not_after()?);
    Ok(text)
}

fn attribute_text(kind: &str, value: Block) -> String {
    let name = match kind {
        "2.5.4.3" => "CN",
        "2.5.4.6" => "C",
        "2.5.4.7" => "L",
        "2.5.4.8" => "ST",
        "2.5.4.10" => "O",
        "2.5.4.11" => "OU",
        other => other,
    };
    format!("{name}={}", value_text(value))
}

/// The text of a value, with what would hide or fake a part of it escaped; in hex digits where it has none.
fn value_text(value: Block) -> String {
    match value.text() {
        Ok(text) => text.chars().map(shown_character).collect(),
        Err(_) => value.octets().iter().fold(String::from("#"), |text, octet| format!("{text}{octet:02x}")),
    }
}

fn shown_character(c: char) -> String {
    if is_hidden(c) {
        c.escape_unicode().to_string()
    } else {
        c.to_string()
    }
}

/// The signs that the lines above have themselves, and characters that can't be seen or that move what stands beside
/// them: of Unicode, Cc, Zl, Zp, Default_Ignorable_Code_Point and U+FFF9 to U+FFFB.
fn is_hidden(c: char) -> bool {
    matches!(
        c,
        '#' | '=' | '\\' | '\0'..='\x1f' | '\x7f'..='\u{9f}' | '\u{ad}' | '\u{34f}' | '\u{61c}'
            | '\u{115f}'..='\u{1160}' | '\u{17b4}'..='\u{17b5}' | '\u{180b}'..='\u{180f}' | '\u{200b}'..='\u{200f}'
            | '\u{2028}'..='\u{202e}' | '\u{2060}'..='\u{206f}' | '\u{3164}' | '\u{fe00}'..='\u{fe0f}'
            | '\u{feff}' | '\u{ffa0}' | '\u{fff0}'..='\u{fffb}' | '\u{1bca0}'..='\u{1bca3}' | '\u{1d173}'..='\u{1d17a}'
            | '\u{e0000}'..='\u{e0fff}'
    )
}
