//! Prints the values in a term, each with its kind, indented by how many are around it.
//!
//!     cargo run --example walk

use amqp_types_canonical::{Error, Nodes};

/// A received state: section 9, up to byte 13.
const RECEIVED: [u8; 10] = [0x00, 0x53, 0x23, 0xc0, 0x05, 0x02, 0x52, 0x09, 0x53, 0x0d];

fn main() -> Result<(), Error> {
    for node in Nodes::new(&RECEIVED) {
        let node = node?;
        println!("{:indent$}{:?}, {} inside", "", node.kind, node.count, indent = 2 * node.depth);
    }
    Ok(())
}
