//! Why a call fails.

use std::fmt;
use std::io;

/// Why a node refuses a request, by its number (docs/FORMATS.md, "Refusals").
#[derive(Clone, Copy, Debug, PartialEq, Eq, Hash)]
#[repr(u8)]
#[allow(missing_docs)]
pub enum Refusal {
    Left = 1,
    NotEntered,
    AlreadyEntered,
    NotJoined,
    Old,
    Gap,
    NothingToAck,
    TooManyNodes,
    TooManySessions,
    Repeat,
    Stale,
    Skip,
    Busy,
    SetFull,
    OutboxFull,
    Spent,
    NoMemory,
    QueueFull,
}

impl Refusal {
    const ALL: [Refusal; 18] = [
        Refusal::Left,
        Refusal::NotEntered,
        Refusal::AlreadyEntered,
        Refusal::NotJoined,
        Refusal::Old,
        Refusal::Gap,
        Refusal::NothingToAck,
        Refusal::TooManyNodes,
        Refusal::TooManySessions,
        Refusal::Repeat,
        Refusal::Stale,
        Refusal::Skip,
        Refusal::Busy,
        Refusal::SetFull,
        Refusal::OutboxFull,
        Refusal::Spent,
        Refusal::NoMemory,
        Refusal::QueueFull,
    ];

    pub(crate) fn from_number(number: u8) -> Option<Refusal> {
        let place = usize::from(number).checked_sub(1)?;
        Refusal::ALL.get(place).copied()
    }

    /// Its number, from 1 to 18.
    pub fn number(self) -> u8 {
        self as u8
    }

    /// The node asks for patience: it may take the same request later.
    pub(crate) fn is_passing(self) -> bool {
        matches!(
            self,
            Refusal::NotEntered
                | Refusal::NotJoined
                | Refusal::Busy
                | Refusal::OutboxFull
                | Refusal::NoMemory
                | Refusal::QueueFull
        )
    }
}

impl fmt::Display for Refusal {
    fn fmt(&self, f: &mut fmt::Formatter<'_>) -> fmt::Result {
        write!(f, "{} {self:?}", self.number())
    }
}

/// What is wrong with bytes that spell no frame of a node (docs/FORMATS.md, "What a decoder refuses").
#[derive(Clone, Copy, Debug, PartialEq, Eq, Hash)]
#[allow(missing_docs)]
pub enum Fault {
    Short,
    TooLarge,
    BadKind,
    NotAscending,
    Trailing,
}

/// Why the last attempt of a call failed whose deadline passed.
#[derive(Debug)]
pub enum Cause {
    /// The connection couldn't be made, broke, or said nothing in time.
    Io(io::Error),
    /// The node refused the request for the time being.
    Refused(Refusal),
}

/// Why a call failed.
#[derive(Debug)]
#[non_exhaustive]
pub enum Error {
    /// An argument is outside its limits. Nothing was sent.
    InvalidArgument(String),
    /// No answer came in time, or no two collects in a row of a snapshot agreed.
    DeadlineExceeded {
        /// Where this is true, what was asked may have been done, and the client's next call first asks it again until it
        /// is. Else it was never sent.
        is_pending: bool,
        /// Why the last attempt failed.
        cause: Cause,
        /// How many collects of a snapshot were answered of which no two in a row agree. It is 0 where fewer than two were,
        /// and for any other call.
        collects: u64,
    },
    /// The node refused the request for good: it wasn't done, and won't be.
    Refused {
        /// Why.
        refusal: Refusal,
        /// The number that the refusal carries, else 0.
        carried: u64,
    },
    /// Another client asks in this session, or the addresses lead to different nodes. What was asked may have been done.
    SessionInUse,
    /// The other end sent bytes that spell no frame of a node. What was asked may still be done, as after a deadline.
    Malformed(Fault),
}

impl fmt::Display for Error {
    fn fmt(&self, f: &mut fmt::Formatter<'_>) -> fmt::Result {
        match self {
            Error::InvalidArgument(why) => write!(f, "invalid argument: {why}"),
            Error::DeadlineExceeded { collects, .. } if *collects > 0 => write!(
                f,
                "no two in a row of {collects} collects agree, since others write"
            ),
            Error::DeadlineExceeded {
                cause: Cause::Io(why),
                ..
            } => write!(f, "no answer in time: {why}"),
            Error::DeadlineExceeded {
                cause: Cause::Refused(refusal),
                ..
            } => write!(f, "no answer in time: refused {refusal}"),
            Error::Refused { refusal, .. } => write!(f, "refused {refusal}"),
            Error::SessionInUse => write!(f, "another client uses the session"),
            Error::Malformed(fault) => write!(f, "malformed frame: {fault:?}"),
        }
    }
}

impl std::error::Error for Error {
    fn source(&self) -> Option<&(dyn std::error::Error + 'static)> {
        match self {
            Error::DeadlineExceeded {
                cause: Cause::Io(why),
                ..
            } => Some(why),
            _ => None,
        }
    }
}
