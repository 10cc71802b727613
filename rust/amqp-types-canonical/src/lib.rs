//! The data types of AMQP 1.0: values are checked, measured, rewritten as their canonical text, and walked. An error has the place of the
//! fault, and the path there.
//!
//! Each call is made of calls of a static library, `libamqp_types.a`, which is proved; `docs/C.md` says what is proved about them. This
//! crate decides nothing again.
//!
//! ```
//! use amqp_types_canonical::{canonical, Error, Limits, Type};
//!
//! let input = [0x00, 0x53, 0x24, 0xc0, 0x00, 0x00, 0xff];
//! let (text, taken) = canonical(Type::Accepted, &input, &Limits::greatest())?;
//! assert_eq!(text, [0x00, 0x53, 0x24, 0x45]);
//! assert_eq!(taken, 6);
//! # Ok::<(), Error>(())
//! ```

mod error;
mod nodes;
mod path;
mod sys;
mod types;

use std::collections::hash_map::RandomState;
use std::hash::{BuildHasher, Hasher};
use std::sync::OnceLock;

pub use error::{Error, ErrorKind};
pub use nodes::{Kind, Node, Nodes};
pub use path::{path_of, Container, Path, PathNode, Piece};
pub use types::Type;

/// The version of this crate, which is independent of that of `fe2o3-amqp-types`.
pub const VERSION: &str = env!("CARGO_PKG_VERSION");

/// The number of the error that the text is longer than the room for it.
const NO_ROOM: u32 = 1000;

/// Limits on what is read.
#[derive(Clone, Copy, Debug, PartialEq, Eq, Hash)]
pub struct Limits {
    /// How deep values may nest, up to 128. Lists, maps and described values count, and an array counts if one of its items is no
    /// primitive.
    pub nesting: u32,
    /// How many bytes are read at most; the greatest number sets no limit.
    pub bytes: u64,
    /// How many items are in them at most; the greatest number sets no limit. Each primitive, list, map and array is one. In an array, each
    /// item takes one more for each descriptor that it shares, and for each whole 32 bytes of that descriptor's name.
    pub items: u64,
    /// The seed by which the keys of hashed maps are hashed, which a peer must not know; 0 for none, and a faster hash.
    pub hash_seed: u64,
}

impl Limits {
    /// Returns the limits under which everything is read that nests at most 128 deep, with the seed of this process.
    pub fn greatest() -> Limits {
        let mut limits = sys::Limits { nesting: 0, bytes: 0, items: 0, hash_seed: 0 };
        // SAFETY: the pointer is that of one value that nothing else refers to.
        unsafe { sys::amqp_c_greatest(&mut limits) };
        Limits::of(limits)
    }

    /// Returns limits for input from a peer, of which at most this many bytes are read, with the seed of this process. Values nest at most
    /// 128 deep, and there are at most as many of them as bytes.
    pub fn for_peers(bytes: u64) -> Limits {
        let mut limits = sys::Limits { nesting: 0, bytes: 0, items: 0, hash_seed: 0 };
        // SAFETY: the pointer is that of one value that nothing else refers to.
        unsafe { sys::amqp_c_for_peers(&mut limits, bytes) };
        Limits::of(limits)
    }

    fn of(limits: sys::Limits) -> Limits {
        Limits { nesting: limits.nesting, bytes: limits.bytes, items: limits.items, hash_seed: process_seed() }
    }

    fn given(&self) -> sys::Limits {
        sys::Limits { nesting: self.nesting, bytes: self.bytes, items: self.items, hash_seed: self.hash_seed }
    }
}

// A number that is drawn once in a process, and isn't 0.
fn process_seed() -> u64 {
    static SEED: OnceLock<u64> = OnceLock::new();
    *SEED.get_or_init(|| RandomState::new().build_hasher().finish().max(1))
}

impl Default for Limits {
    fn default() -> Limits {
        Limits::greatest()
    }
}

// What a call returned, if there is no error.
fn told<T>(outcome: sys::Outcome, value: T) -> Result<T, Error> {
    match outcome.number {
        0 => Ok(value),
        _ => Err(Error::from_outcome(outcome)),
    }
}

/// Returns how many bytes the value of the type at the start of the input takes, within the limits. What follows it is ignored.
///
/// ```
/// use amqp_types_canonical::{read, ErrorKind, Limits, Type};
///
/// assert_eq!(read(Type::Boolean, &[0x41, 0x42], &Limits::greatest()), Ok(1));
/// let error = read(Type::Boolean, &[0x99], &Limits::greatest()).unwrap_err();
/// assert_eq!((error.kind(), error.at()), (ErrorKind::UnknownCode(0x99), Some(0)));
/// ```
pub fn read(of: Type, input: &[u8], limits: &Limits) -> Result<usize, Error> {
    let mut taken = 0;
    // SAFETY: each pointer and length are those of one slice, the other pointers are of values that live on, and what is written is named once.
    let outcome = unsafe { sys::amqp_c_read(of as u32, input.as_ptr(), input.len(), &limits.given(), &mut taken) };
    told(outcome, taken)
}

/// Returns the canonical text of the value of the type at the start of the input, within the limits, and how many bytes the value takes
/// there.
///
/// ```
/// use amqp_types_canonical::{canonical, ErrorKind, Limits, Type};
///
/// let within = Limits { bytes: 4, ..Limits::greatest() };
/// let error = canonical(Type::Accepted, &[0x00, 0x53, 0x24, 0xc0, 0x00, 0x00], &within).unwrap_err();
/// assert_eq!(error.kind(), ErrorKind::Limit);
/// ```
pub fn canonical(of: Type, input: &[u8], limits: &Limits) -> Result<(Vec<u8>, usize), Error> {
    let mut text = Vec::with_capacity(input.len());
    text.resize(text.capacity(), 0);
    match canonical_into(of, input, limits, &mut text)? {
        Text::Fits { written, taken } => {
            text.truncate(written);
            Ok((text, taken))
        }
        Text::Needs(needed) => {
            text.resize(needed, 0);
            match canonical_into(of, input, limits, &mut text)? {
                Text::Fits { taken, .. } => Ok((text, taken)),
                Text::Needs(_) => unreachable!("the length of a text doesn't change"),
            }
        }
    }
}

/// The result of `canonical_into`.
#[derive(Clone, Copy, Debug, PartialEq, Eq)]
pub enum Text {
    /// The first `written` bytes of the room are the text, and the value takes `taken` bytes of the input.
    Fits {
        /// How many bytes the text has.
        written: usize,
        /// How many bytes the value takes.
        taken: usize,
    },
    /// The text has so many bytes, for which there is no room. The room is unchanged.
    Needs(usize),
}

/// Writes what `canonical` returns into room of the caller's, without allocating for the text.
///
/// ```
/// use amqp_types_canonical::{canonical_into, Error, Limits, Text, Type};
///
/// let mut room = [0; 3];
/// let input = [0x00, 0x53, 0x24, 0x45];
/// assert_eq!(canonical_into(Type::Accepted, &input, &Limits::greatest(), &mut room)?, Text::Needs(4));
/// # Ok::<(), Error>(())
/// ```
pub fn canonical_into(of: Type, input: &[u8], limits: &Limits, room: &mut [u8]) -> Result<Text, Error> {
    let (mut written, mut taken) = (0, 0);
    // SAFETY: as in `read`; the room is named once, and doesn't overlap the input.
    let outcome = unsafe {
        sys::amqp_c_canonical(
            of as u32,
            input.as_ptr(),
            input.len(),
            &limits.given(),
            room.as_mut_ptr(),
            room.len(),
            &mut written,
            &mut taken,
        )
    };
    match outcome.number {
        NO_ROOM => Ok(Text::Needs(written)),
        _ => told(outcome, Text::Fits { written, taken }),
    }
}

/// Returns the length of the term at the start of the input: one encoded value, of any type. It doesn't allocate.
///
/// ```
/// use amqp_types_canonical::{term_len, ErrorKind};
///
/// assert_eq!(term_len(&[0xa1, 0x02, 0x68, 0x69, 0x00]), Ok(4));
/// assert_eq!(term_len(&[0xa1, 0x02, 0x68]).unwrap_err().kind(), ErrorKind::Cut);
/// ```
pub fn term_len(input: &[u8]) -> Result<usize, Error> {
    let mut taken = 0;
    // SAFETY: as in `read`.
    let outcome = unsafe { sys::amqp_c_term_len(input.as_ptr(), input.len(), &mut taken) };
    told(outcome, taken)
}
