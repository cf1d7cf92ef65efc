use crate::refusal::Refusal;
use std::{error, fmt, io};

/// Why a call gives no answer.
#[derive(Clone, Copy, Debug, PartialEq, Eq)]
pub enum Error {
    /// The library refuses.
    Refused(Refusal),
    /// The call's lists do not fit into this machine's memory. The library was not asked for the answer.
    TooLarge {
        /// So many bytes the lists would take.
        bytes: u128,
    },
}

/// Why a configuration has no place among the states.
#[derive(Clone, Copy, Debug, PartialEq, Eq)]
pub enum Unplaced {
    /// The call is refused by a smaller number than 17.
    Refused(Refusal),
    /// The configuration is not in the basis, which is the refusal 17: what was found.
    NotInBasis(Finding),
    /// The list of states does not fit into this machine's memory.
    TooLarge {
        /// So many bytes it would take.
        bytes: u128,
    },
}

/// What is found of a configuration that is not in the basis.
#[derive(Clone, Copy, Debug, PartialEq, Eq)]
pub enum Finding {
    /// It breaks Gauss's law.
    BreaksLaw {
        /// The lowest vertex at which it does.
        vertex: usize,
        /// What comes in there less what goes out, which is not 0.
        excess: i64,
    },
    /// It obeys the law, and a value is outside -L to L.
    OutsideBand {
        /// The lowest edge with such a value.
        edge: usize,
        /// The truncation L.
        truncation: usize,
    },
}

/// Where a configuration breaks Gauss's law.
#[derive(Clone, Copy, Debug, PartialEq, Eq)]
pub struct BreaksLaw {
    /// The lowest vertex at which it does.
    pub vertex: usize,
    /// What comes in there less what goes out, which is not 0.
    pub excess: i64,
}

/// Why a file gives no sheet.
#[derive(Debug)]
pub enum ReadError {
    /// The file could not be read.
    Io(io::Error),
    /// It was read, and the library refuses what it holds.
    Refused(Refusal),
}

impl Error {
    /// The refusal, where the library refuses.
    pub fn refusal(&self) -> Option<Refusal> {
        match *self {
            Error::Refused(refusal) => Some(refusal),
            Error::TooLarge { .. } => None,
        }
    }
}

impl Unplaced {
    /// The refusal, where the library refuses; 17 where there is a finding.
    pub fn refusal(&self) -> Option<Refusal> {
        match *self {
            Unplaced::Refused(refusal) => Some(refusal),
            Unplaced::NotInBasis(_) => Some(Refusal::NotInBasis),
            Unplaced::TooLarge { .. } => None,
        }
    }
}

impl ReadError {
    /// The refusal, where the library refuses.
    pub fn refusal(&self) -> Option<Refusal> {
        match *self {
            ReadError::Refused(refusal) => Some(refusal),
            ReadError::Io(_) => None,
        }
    }
}

impl From<Refusal> for Error {
    fn from(refusal: Refusal) -> Error {
        Error::Refused(refusal)
    }
}

impl From<Refusal> for Unplaced {
    fn from(refusal: Refusal) -> Unplaced {
        Unplaced::Refused(refusal)
    }
}

impl From<Error> for Unplaced {
    fn from(error: Error) -> Unplaced {
        match error {
            Error::Refused(refusal) => Unplaced::Refused(refusal),
            Error::TooLarge { bytes } => Unplaced::TooLarge { bytes },
        }
    }
}

impl From<BreaksLaw> for Finding {
    fn from(BreaksLaw { vertex, excess }: BreaksLaw) -> Finding {
        Finding::BreaksLaw { vertex, excess }
    }
}

impl From<io::Error> for ReadError {
    fn from(error: io::Error) -> ReadError {
        ReadError::Io(error)
    }
}

impl From<Refusal> for ReadError {
    fn from(refusal: Refusal) -> ReadError {
        ReadError::Refused(refusal)
    }
}

fn too_large(f: &mut fmt::Formatter, bytes: u128) -> fmt::Result {
    write!(f, "the lists would take {bytes} bytes, which is more than this machine's memory holds")
}

impl fmt::Display for Error {
    fn fmt(&self, f: &mut fmt::Formatter) -> fmt::Result {
        match *self {
            Error::Refused(refusal) => refusal.fmt(f),
            Error::TooLarge { bytes } => too_large(f, bytes),
        }
    }
}

/// As [`Refusal`], but with 17 the finding stands in the place of the sentence.
impl fmt::Display for Unplaced {
    fn fmt(&self, f: &mut fmt::Formatter) -> fmt::Result {
        match *self {
            Unplaced::Refused(refusal) => refusal.fmt(f),
            Unplaced::NotInBasis(finding) => write!(f, "refused 17: {finding}"),
            Unplaced::TooLarge { bytes } => too_large(f, bytes),
        }
    }
}

impl fmt::Display for Finding {
    fn fmt(&self, f: &mut fmt::Formatter) -> fmt::Result {
        match *self {
            Finding::BreaksLaw { vertex, excess } => BreaksLaw { vertex, excess }.fmt(f),
            Finding::OutsideBand { edge, truncation } => write!(f, "edge {edge} is outside -{truncation} to {truncation}"),
        }
    }
}

impl fmt::Display for BreaksLaw {
    fn fmt(&self, f: &mut fmt::Formatter) -> fmt::Result {
        write!(f, "vertex {} breaks the law, its sum is {}", self.vertex, self.excess)
    }
}

impl fmt::Display for ReadError {
    fn fmt(&self, f: &mut fmt::Formatter) -> fmt::Result {
        match self {
            ReadError::Io(error) => write!(f, "the file could not be read: {error}"),
            ReadError::Refused(refusal) => refusal.fmt(f),
        }
    }
}

impl error::Error for Error {}
impl error::Error for Unplaced {}

impl error::Error for ReadError {
    fn source(&self) -> Option<&(dyn error::Error + 'static)> {
        match self {
            ReadError::Io(error) => Some(error),
            ReadError::Refused(_) => None,
        }
    }
}
