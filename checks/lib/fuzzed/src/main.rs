//! What each block of outlines is: of each line of hex digits, a document, a line with the fields of each block, and
//! the value of each kind or why it has none. `fuzzed.py` compares them.

use simple_asn1_records::{Block, Document, Fault};
use std::error::Error;
use std::fmt::Display;
use std::io::{self, BufRead, BufWriter, Write};

fn octets_of(digits: &str) -> Result<Vec<u8>, Box<dyn Error>> {
    (0..digits.len()).step_by(2).map(|at| Ok(u8::from_str_radix(&digits[at..at + 2], 16)?)).collect()
}

fn digits_of(octets: &[u8]) -> String {
    octets.iter().map(|octet| format!("{octet:02x}")).collect()
}

fn shown<T: Display>(value: Result<T, Fault>) -> String {
    value.map_or_else(|fault| format!("!{}", fault.kind), |value| value.to_string())
}

fn block_line(block: Block) -> String {
    let fields = [
        block.offset().to_string(),
        block.record().items.to_string(),
        digits_of(block.contents()),
        shown(block.int64()),
        shown(block.bits().map(|(octets, bits)| format!("{bits}:{}", digits_of(octets)))),
        shown(block.moment()),
        shown(block.text().map(|text| digits_of(text.as_bytes()))),
        shown(block.oid()),
    ];
    fields.join("|")
}

fn main() -> Result<(), Box<dyn Error>> {
    let mut out = BufWriter::new(io::stdout().lock());
    for line in io::stdin().lock().lines() {
        let octets = octets_of(&line?)?;
        for block in Document::outline(&octets)?.all_blocks() {
            write!(out, "{};", block_line(block))?;
        }
        writeln!(out)?;
    }
    Ok(out.flush()?)
}
