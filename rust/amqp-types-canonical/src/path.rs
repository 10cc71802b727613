//! The path to a place in an encoded value.

use crate::{sys, term_len, Type};
use std::fmt;

/// A kind of value that holds any number of other values.
#[derive(Clone, Copy, Debug, PartialEq, Eq, Hash)]
pub enum Container {
    /// A list.
    List,
    /// A map.
    Map,
    /// An array.
    Array,
}

/// What begins at a node of a path.
#[derive(Clone, Copy, Debug, PartialEq, Eq, Hash)]
pub enum Piece {
    /// A value by itself: the whole value, or the value that a descriptor describes.
    Value {
        /// The type that has the descriptor's code.
        of: Option<Type>,
    },
    /// A descriptor.
    Descriptor,
    /// An item of a list or of a map. In a map, keys have even numbers, and each value is behind its key.
    Item {
        /// A list or a map.
        container: Container,
        /// How many items it announces.
        count: usize,
        /// The number of the item, from 0.
        index: usize,
        /// The composite's type whose field it is.
        of: Option<Type>,
    },
    /// The content of an array: the constructor that its items share, and their data.
    ArrayContent {
        /// How many items the array announces.
        count: usize,
    },
    /// The rest of the constructor that the items of an array share: a further descriptor or the format code.
    ElementConstructor {
        /// How many descriptors are before it in the constructor.
        descriptors: usize,
    },
    /// The data of an item of an array.
    Element {
        /// How many of the shared descriptors describe what begins here.
        descriptors: usize,
        /// The format code that the items share.
        code: u8,
        /// How many items the array announces.
        count: usize,
        /// The number of the item, from 0.
        index: usize,
    },
    /// The place behind all items of a container.
    End {
        /// What it is the end of.
        container: Container,
        /// How many items are before it.
        count: usize,
        /// The type of the composite whose list it ends.
        of: Option<Type>,
    },
}

/// A node of a path: what begins there, and where.
#[derive(Clone, Copy, Debug, PartialEq, Eq, Hash)]
pub struct PathNode {
    /// How many bytes of the input are before it.
    pub at: usize,
    /// What begins there.
    pub piece: Piece,
}

impl PathNode {
    // The node as the library tells it, behind so many bytes; or None if the library is of another version.
    fn told(node: &sys::PathNode, start: usize) -> Option<PathNode> {
        let of = Type::of_number(node.type_number);
        let container = match node.container {
            1 => Container::List,
            2 => Container::Map,
            _ => Container::Array,
        };
        let (count, index, descriptors, code) = (node.count, node.index, node.descriptors, node.code);
        let piece = match node.piece {
            1 => Piece::Value { of },
            2 => Piece::Descriptor,
            3 => Piece::Item { container, count, index, of },
            4 => Piece::ArrayContent { count },
            5 => Piece::ElementConstructor { descriptors },
            6 => Piece::Element { descriptors, code, count, index },
            7 => Piece::End { container, count, of },
            _ => return None,
        };
        Some(PathNode { at: start + node.at, piece })
    }
}

/// The path to a place in an encoded value: the nodes around it, from the outside in. None begins behind the place.
///
/// It is printed as the outermost type's name and a step for each node: `.NAME` for a field of a composite, `[N]` for an item of a list or of
/// an array, `{N}` for the key of the pair N of a map, and `[{N}]` for its value. `(descriptor)` is a descriptor, `(constructor)` that of an
/// array's items, and `(end)` the place behind the last item. All numbers count from 0.
#[derive(Clone, Debug, PartialEq, Eq)]
pub struct Path {
    of: Type,
    nodes: Vec<PathNode>,
}

/// Returns the path to the place `at` in the encoded value at the start of the input. The bytes at the place and behind it need not be well
/// formed.
///
/// ```
/// use amqp_types_canonical::{path_of, Container, Piece, Type};
///
/// let received = [0x00, 0x53, 0x23, 0xc0, 0x05, 0x02, 0x52, 0x09, 0x53, 0x0d];
/// let path = path_of(&received, 8);
/// let offset = Piece::Item { container: Container::List, count: 2, index: 1, of: Some(Type::Received) };
/// assert_eq!(path.nodes().last().map(|node| (node.at, node.piece)), Some((8, offset)));
/// assert_eq!(path.to_string(), "received.section-offset");
/// ```
pub fn path_of(input: &[u8], at: usize) -> Path {
    Path::new(input, at, 0, Type::Value)
}

impl Path {
    // The path in an input with so many bytes before it, of a type that is named if the value doesn't say its own.
    pub(crate) fn new(input: &[u8], at: usize, start: usize, named: Type) -> Path {
        let mut told = vec![sys::PathNode::default(); 16];
        loop {
            // SAFETY: each pointer and length are those of one slice, and the nodes are named once.
            let count = unsafe { sys::amqp_c_path(input.as_ptr(), input.len(), at, told.as_mut_ptr(), told.len()) };
            if count <= told.len() {
                told.truncate(count);
                break;
            }
            told.resize(count, sys::PathNode::default());
        }
        let nodes: Vec<PathNode> = told.iter().map_while(|node| PathNode::told(node, start)).collect();
        let of = match nodes.get(1).map(|node| node.piece) {
            Some(Piece::Value { of: Some(of) }) => of,
            _ => named,
        };
        Path { of, nodes }
    }

    /// Returns the nodes, from the outside in. The first is the value itself.
    pub fn nodes(&self) -> &[PathNode] {
        &self.nodes
    }
}

// Where the section begins that has the place: behind the whole sections before it. If the error may be behind the last item of a container,
// the section may end at the place.
pub(crate) fn section_of(input: &[u8], at: usize, may_end: bool) -> usize {
    let mut start = 0;
    while let Ok(len) = term_len(&input[start..]) {
        let end = start + len;
        if end > at || (end == at && may_end) {
            break;
        }
        start = end;
    }
    start
}

// A field of a type, or an item that has no name.
fn write_item(f: &mut fmt::Formatter<'_>, of: Option<Type>, index: usize) -> fmt::Result {
    match of.and_then(|of| of.field_name(index)) {
        Some(name) => write!(f, ".{name}"),
        None => write!(f, "[{index}]"),
    }
}

impl fmt::Display for Path {
    fn fmt(&self, f: &mut fmt::Formatter<'_>) -> fmt::Result {
        f.write_str(self.of.name())?;
        for (before, node) in self.nodes.iter().zip(self.nodes.iter().skip(1)) {
            match node.piece {
                Piece::Value { .. } | Piece::ArrayContent { .. } => {}
                Piece::Descriptor => f.write_str("(descriptor)")?,
                Piece::Item { container: Container::List, index, of, .. } => write_item(f, of, index)?,
                Piece::Item { index, .. } if index % 2 == 0 => write!(f, "{{{}}}", index / 2)?,
                Piece::Item { index, .. } => write!(f, "[{{{}}}]", index / 2)?,
                Piece::ElementConstructor { .. } => f.write_str("(constructor)")?,
                Piece::Element { index, .. } => {
                    if !matches!(before.piece, Piece::Element { .. }) {
                        write!(f, "[{index}]")?;
                    }
                }
                Piece::End { .. } => f.write_str("(end)")?,
            }
        }
        Ok(())
    }
}
