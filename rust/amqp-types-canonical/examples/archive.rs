//! Keeps each message once, however it is spelled: by its canonical text, which all spellings of a message share.
//!
//!     cargo run --example archive -- MESSAGE..

use amqp_types_canonical::{canonical, Limits, Type};
use std::collections::HashMap;

fn bytes_of(digits: &str) -> Result<Vec<u8>, Box<dyn std::error::Error>> {
    let pairs = digits.as_bytes().chunks(2).map(std::str::from_utf8);
    pairs.map(|pair| Ok(u8::from_str_radix(pair?, 16)?)).collect()
}

fn main() -> Result<(), Box<dyn std::error::Error>> {
    // The numbers of the messages by their canonical texts.
    let mut archive: HashMap<Vec<u8>, usize> = HashMap::new();
    for digits in std::env::args().skip(1) {
        let input = bytes_of(&digits)?;
        let (text, _) = canonical(Type::Message, &input, &Limits::for_peers(input.len() as u64))?;
        let (len, kept) = (text.len(), archive.len());
        let number = *archive.entry(text).or_insert(kept + 1);
        let known = if number > kept { "new" } else { "known" };
        println!("{number}: {known}, {} bytes, {len} in canonical text", input.len());
    }
    Ok(())
}
