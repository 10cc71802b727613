//! Goes through the frames that one side of a connection sends, and prints the performative of each, or its fault with the place
//! (Part 2, sections 2.2 and 2.3).
//!
//!     cargo run --example filter -- 414d5150...

use amqp_types_canonical::{read, Error, ErrorKind, Limits, Type};

const AMQP: [(Type, &str); 9] = [
    (Type::Open, "open"),
    (Type::Begin, "begin"),
    (Type::Attach, "attach"),
    (Type::Flow, "flow"),
    (Type::Transfer, "transfer"),
    (Type::Disposition, "disposition"),
    (Type::Detach, "detach"),
    (Type::End, "end"),
    (Type::Close, "close"),
];
const SASL: [(Type, &str); 5] = [
    (Type::SaslMechanisms, "sasl-mechanisms"),
    (Type::SaslInit, "sasl-init"),
    (Type::SaslChallenge, "sasl-challenge"),
    (Type::SaslResponse, "sasl-response"),
    (Type::SaslOutcome, "sasl-outcome"),
];

fn bytes_of(digits: &str) -> Result<Vec<u8>, Box<dyn std::error::Error>> {
    let pairs = digits.as_bytes().chunks(2).map(std::str::from_utf8);
    pairs.map(|pair| Ok(u8::from_str_radix(pair?, 16)?)).collect()
}

/// Returns the name of the performative that a frame's body begins with. What follows a transfer is its payload.
fn performative_of(body: &[u8], types: &[(Type, &'static str)]) -> Result<&'static str, Error> {
    let limits = Limits::for_peers(body.len() as u64);
    let mut refused = None;
    for (of, name) in types {
        match read(*of, body, &limits) {
            Ok(_) => return Ok(name),
            Err(error) => {
                let goes_on = error.kind() == ErrorKind::WrongDescriptor;
                refused = Some(error);
                if !goes_on {
                    break;
                }
            }
        }
    }
    Err(refused.expect("there is a type"))
}

/// Returns the size of the frame at the start of the bytes, and where its body begins in it, if the whole frame is there.
fn frame_of(rest: &[u8]) -> Option<(usize, usize)> {
    let size = u32::from_be_bytes(rest.get(..4)?.try_into().ok()?) as usize;
    let offset = 4 * usize::from(*rest.get(4)?);
    let is_frame = offset >= 8 && size >= offset && rest.get(5)? <= &1 && size <= rest.len();
    is_frame.then_some((size, offset))
}

fn main() -> Result<(), Box<dyn std::error::Error>> {
    let input = bytes_of(&std::env::args().nth(1).ok_or("usage: filter BYTES")?)?;
    let mut at = 0;
    while input.len() - at >= 8 {
        let rest = &input[at..];
        if rest.starts_with(b"AMQP") {
            println!("{at}: protocol header");
            at += 8;
            continue;
        }
        let Some((size, offset)) = frame_of(rest) else { break };
        let body = &rest[offset..size];
        let types = if rest[5] == 1 { &SASL[..] } else { &AMQP[..] };
        match performative_of(body, types) {
            _ if body.is_empty() => println!("{at}: empty"),
            Ok(name) => println!("{at}: {name}"),
            Err(error) => {
                let place = at + offset + error.at().unwrap_or(0);
                println!("{at}: {} at byte {place}", error.name());
            }
        }
        at += size;
    }
    if at < input.len() {
        println!("{at}: no whole frame");
    }
    Ok(())
}
