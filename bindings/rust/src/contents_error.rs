//! Why contents can't be read or written.

use crate::event::{Exception, ExceptionKind};
use crate::fault::Fault;
use std::error::Error;
use std::fmt;

/// Why contents can't be read or written.
#[derive(Clone, Copy, Debug, PartialEq, Eq)]
pub enum ContentsError {
    /// The bytes are no payload that goes with so many references.
    NoPayload(Fault),
    /// There is too much for a message, or it nests too deep: `TooLarge`, `Depth` or `Traversal`.
    TooMuch(Fault),
    /// Something else stands there than was asked for.
    WrongKind {
        /// The pointer of the struct; none is the root.
        pointer: Option<u16>,
        /// What was asked for.
        wanted: &'static str,
        /// What stands there.
        found: &'static str,
    },
    /// The text at that pointer does not end with a zero byte, or is no UTF-8.
    BadText(u16),
}

impl fmt::Display for ContentsError {
    fn fmt(&self, f: &mut fmt::Formatter<'_>) -> fmt::Result {
        match self {
            ContentsError::NoPayload(fault) => write!(f, "{}: {}", fault.name(), fault.meaning()),
            ContentsError::TooMuch(fault) => {
                write!(f, "{}: {}. Send less in one message.", fault.name(), fault.meaning())
            }
            ContentsError::WrongKind { pointer: Some(pointer), wanted, found } => {
                write!(f, "at pointer {pointer} is {found}, not {wanted}")
            }
            ContentsError::WrongKind { pointer: None, wanted, found } => write!(f, "the root is {found}, not {wanted}"),
            ContentsError::BadText(pointer) => write!(f, "at pointer {pointer} is a text without its end, or no UTF-8"),
        }
    }
}

impl Error for ContentsError {}

/// An error that is passed on to who called, as `Failed`.
impl From<ContentsError> for Exception {
    fn from(error: ContentsError) -> Exception {
        Exception { kind: ExceptionKind::Failed, reason: error.to_string() }
    }
}
