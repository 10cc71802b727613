//! Prints the canonical text of a value, in hexadecimal digits.
//!
//!     cargo run --example canon -- open 005310c00401a10161

use amqp_types_canonical::{canonical, Limits, Type};
use std::error::Error;

fn bytes_of(digits: &str) -> Result<Vec<u8>, Box<dyn Error>> {
    let pairs = digits.as_bytes().chunks(2).map(std::str::from_utf8);
    pairs.map(|pair| Ok(u8::from_str_radix(pair?, 16)?)).collect()
}

fn main() -> Result<(), Box<dyn Error>> {
    let arguments: Vec<String> = std::env::args().skip(1).collect();
    let [name, digits] = &arguments[..] else {
        return Err("usage: canon TYPE DIGITS".into());
    };
    let of = Type::from_name(name).ok_or("no type has this name")?;
    let input = bytes_of(digits)?;
    let (text, taken) = canonical(of, &input, &Limits::for_peers(input.len() as u64))?;
    let digits: String = text.iter().map(|byte| format!("{byte:02x}")).collect();
    println!("{digits} {taken}");
    Ok(())
}
