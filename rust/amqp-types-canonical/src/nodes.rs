//! The nodes of a term.

use crate::{sys, Error};

/// The kind of a node.
#[derive(Clone, Copy, Debug, PartialEq, Eq, Hash)]
pub enum Kind {
    /// Null.
    Null,
    /// A boolean.
    Bool,
    /// A ubyte.
    Ubyte,
    /// A ushort.
    Ushort,
    /// A uint.
    Uint,
    /// A ulong.
    Ulong,
    /// A byte.
    Byte,
    /// A short.
    Short,
    /// An int.
    Int,
    /// A long.
    Long,
    /// A decimal32.
    Decimal32,
    /// A decimal64.
    Decimal64,
    /// A decimal128.
    Decimal128,
    /// A char.
    Char,
    /// A timestamp.
    Timestamp,
    /// A uuid.
    Uuid,
    /// A binary.
    Binary,
    /// A string.
    String,
    /// A symbol.
    Symbol,
    /// A described value, which holds its descriptor and its value.
    Described,
    /// A list.
    List,
    /// A map, which holds its keys and values in turn.
    Map,
    /// An array.
    Array,
}

/// The kinds in the order of their numbers, from 1 on.
static KINDS: &[Kind] = &[
    Kind::Null,
    Kind::Bool,
    Kind::Ubyte,
    Kind::Ushort,
    Kind::Uint,
    Kind::Ulong,
    Kind::Byte,
    Kind::Short,
    Kind::Int,
    Kind::Long,
    Kind::Decimal32,
    Kind::Decimal64,
    Kind::Decimal128,
    Kind::Char,
    Kind::Timestamp,
    Kind::Uuid,
    Kind::Binary,
    Kind::String,
    Kind::Symbol,
    Kind::Described,
    Kind::List,
    Kind::Map,
    Kind::Array,
];

/// A value in a term. A described value is a node with two in it, its descriptor and its value.
#[derive(Clone, Copy, Debug, PartialEq, Eq)]
pub struct Node<'a> {
    /// Its kind.
    pub kind: Kind,
    /// Its format code, or 0 for a described value.
    pub code: u8,
    /// Its content, after its constructor, its size and its count: the bytes of its value, or of the nodes in it. The content of an array
    /// begins with the constructor of its items.
    pub data: &'a [u8],
    /// How many nodes are around it.
    pub depth: usize,
    /// How many nodes are directly in it.
    pub count: usize,
}

/// An iterator over the nodes of the term at the start of the bytes, each before those in it. After an error there are no more.
///
/// ```
/// use amqp_types_canonical::{Error, Kind, Nodes};
///
/// let list = [0xc0, 0x05, 0x02, 0x52, 0x09, 0xa1, 0x00, 0xff];
/// let kinds = Nodes::new(&list).map(|node| Ok((node?.kind, node?.depth))).collect::<Result<Vec<_>, Error>>()?;
/// assert_eq!(kinds, [(Kind::List, 0), (Kind::Uint, 1), (Kind::String, 1)]);
/// # Ok::<(), Error>(())
/// ```
#[derive(Clone, Debug)]
pub struct Nodes<'a> {
    input: &'a [u8],
    at: usize,
    /// The node that comes first, if it is known.
    first: Option<sys::Node>,
    /// The enclosing nodes of the next one, each with how many nodes in it are still to come. At first it is what is around a whole term,
    /// with one.
    open: Vec<(sys::Node, usize)>,
}

impl<'a> Nodes<'a> {
    /// Returns an iterator over the nodes of the term at the start of the input.
    pub fn new(input: &'a [u8]) -> Nodes<'a> {
        Nodes { input, at: 0, first: None, open: vec![(sys::Node::default(), 1)] }
    }

    /// Returns the nodes of a field of a composite, or `None` if the composite omits the field. The composite is the node that comes next,
    /// and its fields are counted from 0.
    ///
    /// # Errors
    ///
    /// `WrongType` if the node is no described list, or the error of the node.
    ///
    /// ```
    /// use amqp_types_canonical::{Error, Nodes};
    ///
    /// let error = [0x00, 0x53, 0x1d, 0xc0, 0x05, 0x02, 0xa3, 0x01, 0x61, 0x40];
    /// let condition = Nodes::new(&error).field(0)?.and_then(|mut nodes| nodes.next());
    /// assert_eq!(condition.transpose()?.map(|node| node.data), Some(&b"a"[..]));
    /// assert!(Nodes::new(&error).field(1)?.is_none());
    /// # Ok::<(), Error>(())
    /// ```
    pub fn field(&self, index: usize) -> Result<Option<Nodes<'a>>, Error> {
        let composite = self.clone().next_node().ok_or(Error::CUT)??;
        let mut field = sys::Node::default();
        // SAFETY: the pointer and the length are those of one slice, and the nodes are values of their own.
        let outcome = unsafe { sys::amqp_c_field(self.input.as_ptr(), self.input.len(), &composite, index, &mut field) };
        if outcome.number != 0 {
            return Err(Error::without_place(outcome));
        }
        if field.kind == 0 {
            return Ok(None);
        }
        Ok(Some(Nodes { input: self.input, at: field.next, first: Some(field), open: vec![(sys::Node::default(), 1)] }))
    }

    /// The node that comes next. After an error there are no more.
    fn next_node(&mut self) -> Option<Result<sys::Node, Error>> {
        while self.open.last()?.1 == 0 {
            self.open.pop();
        }
        let (around, left) = self.open.last_mut()?;
        *left -= 1;
        let mut node = *around;
        match self.first.take() {
            Some(first) => node = first,
            None => {
                // SAFETY: the pointer and the length are those of one slice, and the node is a value of its own.
                let outcome = unsafe { sys::amqp_c_next(self.input.as_ptr(), self.input.len(), self.at, &mut node) };
                if outcome.number != 0 {
                    self.open.clear();
                    return Some(Err(Error::without_place(outcome)));
                }
            }
        }
        self.at = node.next;
        self.open.push((node, node.count));
        Some(Ok(node))
    }
}

impl<'a> Iterator for Nodes<'a> {
    type Item = Result<Node<'a>, Error>;

    fn next(&mut self) -> Option<Result<Node<'a>, Error>> {
        let node = match self.next_node()? {
            Ok(node) => node,
            Err(error) => return Some(Err(error)),
        };
        Some(Ok(Node {
            kind: KINDS[node.kind as usize - 1],
            code: node.code,
            data: &self.input[node.start..node.end],
            depth: self.open.len() - 2,
            count: node.count,
        }))
    }
}
