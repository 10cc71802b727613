//! Errors: why a value isn't read or isn't written, and where the fault is.

use crate::path::{section_of, Path};
use crate::{sys, Type};
use std::fmt;

/// Why a value isn't read or isn't written, and the place of the fault.
///
/// ```
/// use amqp_types_canonical::{read, ErrorKind, Limits, Type};
///
/// // A received state, whose section number is a string that is not UTF-8.
/// let input = [0x00, 0x53, 0x23, 0xc0, 0x04, 0x01, 0xa1, 0x01, 0xff];
/// let error = read(Type::Value, &input, &Limits::greatest()).unwrap_err();
/// assert_eq!((error.kind(), error.at()), (ErrorKind::BadUtf8, Some(6)));
/// assert_eq!(error.to_string(), "a string is not UTF-8 at byte 6");
/// let path = error.path(Type::Value, &input).map(|path| path.to_string());
/// assert_eq!(path.as_deref(), Some("received.section-number"));
/// ```
#[derive(Clone, Copy, Debug, PartialEq, Eq, Hash)]
pub struct Error {
    kind: ErrorKind,
    at: Option<usize>,
}

impl Error {
    /// There is no node.
    pub(crate) const CUT: Error = Error { kind: ErrorKind::Cut, at: None };

    /// An error as a call that tells places returns it.
    pub(crate) fn from_outcome(outcome: sys::Outcome) -> Error {
        let kind = ErrorKind::from_outcome(outcome.number, outcome.detail);
        Error { kind, at: if kind.is_of_bytes() { usize::try_from(outcome.at).ok() } else { None } }
    }

    /// An error as a call that tells no place returns it.
    pub(crate) fn without_place(outcome: sys::Outcome) -> Error {
        Error { kind: ErrorKind::from_outcome(outcome.number, outcome.detail), at: None }
    }

    /// Returns the error without its place.
    pub fn kind(&self) -> ErrorKind {
        self.kind
    }

    /// Returns the place of the fault: how many bytes of the input are before what is at fault. It is `None` if the error reports no fault of
    /// bytes, as `Memory`, and in an error of `Nodes`.
    pub fn at(&self) -> Option<usize> {
        self.at
    }

    /// Returns the path to the fault, in the input that was to be read as a value of the type, if the error has a place. If the input has
    /// several sections, the path begins with the section that has the fault.
    pub fn path(&self, of: Type, input: &[u8]) -> Option<Path> {
        let at = self.at.filter(|at| *at <= input.len())?;
        let start = section_of(input, at, self.kind.is_behind());
        Some(Path::new(&input[start..], at - start, start, of))
    }

    /// Returns the error's number.
    pub fn number(&self) -> u32 {
        self.kind.number()
    }

    /// Returns the error's name, as `"Cut"`, or an empty one for `Other`.
    pub fn name(&self) -> String {
        self.kind.name()
    }
}

impl PartialEq<ErrorKind> for Error {
    fn eq(&self, kind: &ErrorKind) -> bool {
        self.kind == *kind
    }
}

impl fmt::Display for Error {
    fn fmt(&self, f: &mut fmt::Formatter<'_>) -> fmt::Result {
        match self.at {
            Some(at) => write!(f, "{} at byte {at}", self.kind),
            None => self.kind.fmt(f),
        }
    }
}

impl std::error::Error for Error {}

/// Why a value isn't read or isn't written. `docs/ERRORS.md` explains each error. If an input has several faults, which one is reported is
/// unspecified.
#[derive(Clone, Copy, Debug, PartialEq, Eq, Hash)]
#[non_exhaustive]
pub enum ErrorKind {
    /// The input ends within a value.
    Cut,
    /// A constructor has this format code, which isn't in Part 1, section 1.6.
    UnknownCode(u8),
    /// The code of a float or a double, which are not supported.
    FloatCode(u8),
    /// A size differs from its content.
    Size,
    /// A map has a key without a value.
    OddCount,
    /// A map has a key twice.
    DuplicateKey,
    /// There are more items than the type has.
    Surplus,
    /// A mandatory value is missing.
    Missing,
    /// The descriptor isn't one of the type's.
    WrongDescriptor,
    /// Values nest more than 128 deep.
    Depth,
    /// The items of an array have no bytes.
    ZeroWidthItems,
    /// A boolean's byte is neither 0 nor 1.
    BadBool,
    /// A char isn't a Unicode scalar value.
    BadChar,
    /// A string is not UTF-8.
    BadUtf8,
    /// A symbol is not ASCII.
    NonAscii,
    /// A symbol is not among the type's texts.
    UnknownText,
    /// A number is not among the type's numbers.
    UnknownNumber,
    /// A mandatory field of several values has none.
    EmptyMultiple,
    /// A message has no body.
    EmptyBody,
    /// Bytes follow, but no section begins there.
    NotSection,
    /// Out of memory.
    Memory,
    /// A reader failed; no call here has one.
    Read,
    /// The items of an array need different constructors.
    MixedArray,
    /// A size is above 32 bits.
    TooLarge,
    /// A value isn't where it may be.
    InvalidValue,
    /// A value with kept bytes is the item of an array.
    LazyInArray,
    /// The constructor with this code isn't the type's.
    WrongType(u8),
    /// A descriptor is neither a symbol nor a ulong.
    BadDescriptor,
    /// A user's own type refuses the value for this reason; no type here does.
    Custom(u32),
    /// A section is misplaced.
    Misplaced,
    /// The input is past a limit.
    Limit,
    /// The limits let values nest more than 128 deep.
    NoLimits,
    /// An error that this crate doesn't know: the library is of another version.
    Other(u32),
}

impl ErrorKind {
    pub(crate) fn from_outcome(number: u32, detail: u32) -> ErrorKind {
        match number {
            1 => ErrorKind::Cut,
            2 => ErrorKind::UnknownCode(detail as u8),
            3 => ErrorKind::FloatCode(detail as u8),
            4 => ErrorKind::Size,
            5 => ErrorKind::OddCount,
            6 => ErrorKind::DuplicateKey,
            7 => ErrorKind::Surplus,
            8 => ErrorKind::Missing,
            9 => ErrorKind::WrongDescriptor,
            10 => ErrorKind::Depth,
            11 => ErrorKind::ZeroWidthItems,
            12 => ErrorKind::BadBool,
            13 => ErrorKind::BadChar,
            14 => ErrorKind::BadUtf8,
            15 => ErrorKind::NonAscii,
            16 => ErrorKind::UnknownText,
            17 => ErrorKind::UnknownNumber,
            18 => ErrorKind::EmptyMultiple,
            19 => ErrorKind::EmptyBody,
            20 => ErrorKind::NotSection,
            21 => ErrorKind::Memory,
            22 => ErrorKind::Read,
            23 => ErrorKind::MixedArray,
            24 => ErrorKind::TooLarge,
            25 => ErrorKind::InvalidValue,
            26 => ErrorKind::LazyInArray,
            27 => ErrorKind::WrongType(detail as u8),
            28 => ErrorKind::BadDescriptor,
            29 => ErrorKind::Custom(detail),
            30 => ErrorKind::Misplaced,
            31 => ErrorKind::Limit,
            1002 => ErrorKind::NoLimits,
            number => ErrorKind::Other(number),
        }
    }

    /// Whether it is a fault of bytes. Otherwise memory ran out, a value can't be written, or what was asked for is none.
    fn is_of_bytes(&self) -> bool {
        matches!(self.number(), 1..=20 | 25..=31)
    }

    /// Whether it may be behind all items of a container.
    fn is_behind(&self) -> bool {
        matches!(self, ErrorKind::Missing | ErrorKind::EmptyMultiple | ErrorKind::DuplicateKey)
    }

    /// Returns the error's number.
    pub fn number(&self) -> u32 {
        match self {
            ErrorKind::Cut => 1,
            ErrorKind::UnknownCode(_) => 2,
            ErrorKind::FloatCode(_) => 3,
            ErrorKind::Size => 4,
            ErrorKind::OddCount => 5,
            ErrorKind::DuplicateKey => 6,
            ErrorKind::Surplus => 7,
            ErrorKind::Missing => 8,
            ErrorKind::WrongDescriptor => 9,
            ErrorKind::Depth => 10,
            ErrorKind::ZeroWidthItems => 11,
            ErrorKind::BadBool => 12,
            ErrorKind::BadChar => 13,
            ErrorKind::BadUtf8 => 14,
            ErrorKind::NonAscii => 15,
            ErrorKind::UnknownText => 16,
            ErrorKind::UnknownNumber => 17,
            ErrorKind::EmptyMultiple => 18,
            ErrorKind::EmptyBody => 19,
            ErrorKind::NotSection => 20,
            ErrorKind::Memory => 21,
            ErrorKind::Read => 22,
            ErrorKind::MixedArray => 23,
            ErrorKind::TooLarge => 24,
            ErrorKind::InvalidValue => 25,
            ErrorKind::LazyInArray => 26,
            ErrorKind::WrongType(_) => 27,
            ErrorKind::BadDescriptor => 28,
            ErrorKind::Custom(_) => 29,
            ErrorKind::Misplaced => 30,
            ErrorKind::Limit => 31,
            ErrorKind::NoLimits => 1002,
            ErrorKind::Other(number) => *number,
        }
    }

    /// Returns the error's name, as `"Cut"`, or an empty one for `Other`.
    pub fn name(&self) -> String {
        let mut name = [0; 32];
        // SAFETY: the pointer and the length are those of one slice that nothing else refers to.
        let len = unsafe { crate::sys::amqp_c_error_name(self.number(), name.as_mut_ptr(), name.len()) };
        String::from_utf8_lossy(&name[..len.min(name.len())]).into_owned()
    }
}

impl fmt::Display for ErrorKind {
    fn fmt(&self, f: &mut fmt::Formatter<'_>) -> fmt::Result {
        let text = match self {
            ErrorKind::UnknownCode(code) => return write!(f, "no constructor has the code 0x{code:02x}"),
            ErrorKind::FloatCode(code) => return write!(f, "floating point numbers, as of the code 0x{code:02x}, are not supported"),
            ErrorKind::WrongType(code) => return write!(f, "the code 0x{code:02x} is not the type's"),
            ErrorKind::Custom(reason) => return write!(f, "refused by the type, for reason {reason}"),
            ErrorKind::Other(number) => return write!(f, "error {number}"),
            ErrorKind::NoLimits => "the limits let values nest more than 128 deep",
            ErrorKind::Cut => "the input ends within a value",
            ErrorKind::Size => "a size differs from its content",
            ErrorKind::OddCount => "a map has a key without a value",
            ErrorKind::DuplicateKey => "a map has a key twice",
            ErrorKind::Surplus => "there are more items than the type has",
            ErrorKind::Missing => "a mandatory value is missing",
            ErrorKind::WrongDescriptor => "the descriptor is none of the type's",
            ErrorKind::Depth => "values are nested more than 128 deep",
            ErrorKind::ZeroWidthItems => "the items of an array have no bytes",
            ErrorKind::BadBool => "a boolean's byte is neither 0 nor 1",
            ErrorKind::BadChar => "a char is no Unicode scalar value",
            ErrorKind::BadUtf8 => "a string is not UTF-8",
            ErrorKind::NonAscii => "a symbol is not ASCII",
            ErrorKind::UnknownText => "a symbol is not among the type's texts",
            ErrorKind::UnknownNumber => "a number is not among the type's numbers",
            ErrorKind::EmptyMultiple => "a mandatory field of several values has none",
            ErrorKind::EmptyBody => "a message has no body",
            ErrorKind::NotSection => "what stands here is no section",
            ErrorKind::Memory => "out of memory",
            ErrorKind::Read => "a reader failed; no call here has one",
            ErrorKind::MixedArray => "the items of an array need different constructors",
            ErrorKind::TooLarge => "a size passes 32 bits",
            ErrorKind::InvalidValue => "a value does not stand where it may",
            ErrorKind::LazyInArray => "a lazy value is the item of an array",
            ErrorKind::BadDescriptor => "a descriptor is neither a symbol nor a ulong",
            ErrorKind::Misplaced => "a section is misplaced",
            ErrorKind::Limit => "a limit was passed",
        };
        f.write_str(text)
    }
}
