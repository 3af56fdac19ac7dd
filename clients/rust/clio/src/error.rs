//! Why a call has no result.
use std::{error, fmt, io};

/// Why a call was not issued. Nothing was sent, and nothing was done.
#[derive(Debug, Clone, Copy, PartialEq, Eq)]
pub enum Fault {
    /// The client holds 256 calls.
    QueueFull,
    /// A read or a write has no bytes, or an allocation or a free no pages.
    Empty,
    /// More than 65,536 bytes to read or write, 1,024 pages, or 1,024 bytes to an object or from it.
    TooLong,
    /// The bytes end above 2^28.
    BadAddress,
    /// A word isn't at a multiple of 8, or a range not at one of 4,096.
    Misaligned,
    /// The bytes don't lie in their range. This is judged here and not by the library.
    OutOfRange,
    /// The heap refused memory.
    NoMemory,
    /// A process number isn't 1 to 65,279, or a first id not 1 to 2^63.
    BadArgument,
    /// The client has issued 2^32 - 1 calls: connect again.
    UsedUp,
}

impl Fault {
    pub(crate) fn of(number: u32) -> Fault {
        match number {
            1 => Fault::QueueFull,
            2 => Fault::Empty,
            3 => Fault::TooLong,
            4 => Fault::BadAddress,
            5 => Fault::Misaligned,
            100 => Fault::NoMemory,
            102 => Fault::UsedUp,
            _ => Fault::BadArgument,
        }
    }
}

/// Why the node refused a call. A refused part of a call changed nothing.
#[derive(Debug, Clone, Copy, PartialEq, Eq)]
pub enum Refusal {
    /// The page isn't mapped for the process, or no range starts there with so many pages.
    NoMapping,
    /// The permission of the page lacks what is needed.
    NoPermission,
    /// The node has no physical page left.
    NoPage,
    /// No place has room for so many pages.
    NoRange,
    /// The node has no object of this number.
    NoOffload,
    /// A key is new, and the object has as many as it can have.
    ObjectFull,
    /// The object doesn't have the key.
    NoKey,
    /// The object doesn't have the operation, or the bytes aren't of its form.
    BadOp,
}

impl Refusal {
    pub(crate) fn of(number: u64) -> Refusal {
        match number {
            1 => Refusal::NoMapping,
            2 => Refusal::NoPermission,
            3 => Refusal::NoPage,
            4 => Refusal::NoRange,
            5 => Refusal::NoOffload,
            6 => Refusal::ObjectFull,
            7 => Refusal::NoKey,
            _ => Refusal::BadOp,
        }
    }
}

/// Why a call has no result.
#[derive(Debug)]
pub enum Error {
    /// The call was not issued.
    NotIssued(Fault),
    /// The node refused it. Of a call of several parts the others may have been done.
    Refused(Refusal),
    /// A part had no answer within 400 ticks: the call may have been done, in whole, in part or not.
    TimedOut,
    /// The socket failed: the call may have been done, as where it timed out.
    Io(io::Error),
}

impl fmt::Display for Error {
    fn fmt(&self, f: &mut fmt::Formatter<'_>) -> fmt::Result {
        match self {
            Error::NotIssued(fault) => write!(f, "not issued: {fault:?}"),
            Error::Refused(refusal) => write!(f, "refused: {refusal:?}"),
            Error::TimedOut => write!(f, "timed out, and may have been done"),
            Error::Io(error) => write!(f, "the socket failed: {error}"),
        }
    }
}

impl error::Error for Error {
    fn source(&self) -> Option<&(dyn error::Error + 'static)> {
        match self {
            Error::Io(error) => Some(error),
            _ => None,
        }
    }
}

impl From<io::Error> for Error {
    fn from(error: io::Error) -> Error {
        Error::Io(error)
    }
}

impl From<Fault> for Error {
    fn from(fault: Fault) -> Error {
        Error::NotIssued(fault)
    }
}
