//! Finds what a router needs in a message: its sections, the bare message, and the address that it goes to (Part 3, section 3.2).
//!
//!     cargo run --example router -- 005373...

use amqp_types_canonical::{read, Error, ErrorKind, Limits, Nodes, Type};

/// The sections in the standard's order, with their names.
const SECTIONS: [(Type, &str); 9] = [
    (Type::Header, "header"),
    (Type::DeliveryAnnotations, "delivery-annotations"),
    (Type::MessageAnnotations, "message-annotations"),
    (Type::Properties, "properties"),
    (Type::ApplicationProperties, "application-properties"),
    (Type::Data, "data"),
    (Type::AmqpSequence, "amqp-sequence"),
    (Type::AmqpValue, "amqp-value"),
    (Type::Footer, "footer"),
];

/// The field `to` of the properties.
const TO: usize = 2;

fn bytes_of(digits: &str) -> Result<Vec<u8>, Box<dyn std::error::Error>> {
    let pairs = digits.as_bytes().chunks(2).map(std::str::from_utf8);
    pairs.map(|pair| Ok(u8::from_str_radix(pair?, 16)?)).collect()
}

/// Returns the number and the size of the section that the input begins with.
fn section_at(input: &[u8], limits: &Limits) -> Result<(usize, usize), Error> {
    let last = SECTIONS.len() - 1;
    for (number, (of, _)) in SECTIONS[..last].iter().enumerate() {
        match read(*of, input, limits) {
            Ok(size) => return Ok((number, size)),
            Err(error) if error.kind() == ErrorKind::WrongDescriptor => {}
            Err(error) => return Err(error),
        }
    }
    Ok((last, read(SECTIONS[last].0, input, limits)?))
}

fn to_of(properties: &[u8]) -> Result<String, Error> {
    let to = Nodes::new(properties).field(TO)?;
    let node = to.and_then(|mut nodes| nodes.next()).transpose()?;
    Ok(node.map_or("None".into(), |node| String::from_utf8_lossy(node.data).into_owned()))
}

fn main() -> Result<(), Box<dyn std::error::Error>> {
    let input = bytes_of(&std::env::args().nth(1).ok_or("usage: router MESSAGE")?)?;
    let limits = Limits::for_peers(input.len() as u64);
    let (mut at, mut bare) = (0, None);
    while at < input.len() {
        let (number, size) = section_at(&input[at..], &limits)?;
        println!("{}: {size} bytes at {at}", SECTIONS[number].1);
        match SECTIONS[number].0 {
            Type::Header | Type::DeliveryAnnotations | Type::MessageAnnotations | Type::Footer => {}
            of => {
                if of == Type::Properties {
                    println!("  to: {}", to_of(&input[at..])?);
                }
                // The bare message is what its sender made, and no router changes a byte of it.
                let (start, _) = bare.unwrap_or((at, at));
                bare = Some((start, at + size));
            }
        }
        at += size;
    }
    if let Some((start, end)) = bare {
        println!("bare message: {} bytes at {start}", end - start);
    }
    Ok(())
}
