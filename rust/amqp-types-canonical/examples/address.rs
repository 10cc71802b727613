//! Prints the address of the source of an attach, which is field 0 of field 5.
//!
//!     cargo run --example address

use amqp_types_canonical::{Error, Nodes};

/// An attach of the link `orders`, whose source has the address `queue`.
const ATTACH: &[u8] = b"\x00\x53\x12\xc0\x1a\x06\xa1\x06orders\x43\x41\x40\x40\x00\x53\x28\xc0\x08\x01\xa1\x05queue";

fn main() -> Result<(), Error> {
    let source = Nodes::new(ATTACH).field(5)?;
    let address = match source {
        Some(source) => source.field(0)?,
        None => None,
    };
    match address.and_then(|mut nodes| nodes.next()).transpose()? {
        Some(node) => println!("{}", String::from_utf8_lossy(node.data)),
        None => println!("none"),
    }
    Ok(())
}
