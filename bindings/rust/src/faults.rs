//! The errors of the calls.

use crate::calls::explained;
use crate::reasons::Reason;
use crate::{Depth, Kind};
use std::fmt;

/// Why a call has no result.
#[derive(Clone, Copy, Debug, PartialEq, Eq, Hash)]
#[non_exhaustive]
pub enum Fault {
    /// The input is malformed or has a validity error.
    Refused {
        /// Why it is refused.
        reason: Reason,
        /// The offset of the fault, in bytes from the start of the input.
        place: u64,
    },
    /// The input has more than 2^30 bytes.
    TooLong,
    /// Out of memory.
    OutOfMemory,
}

impl Fault {
    pub(crate) fn new(code: u32, place: u64) -> Fault {
        match code {
            3 => Fault::OutOfMemory,
            4 => Fault::TooLong,
            number => Fault::Refused { reason: Reason::new(number), place },
        }
    }

    /// Lines that say where in the input the fault is, what is there, and why, as the program writes them with
    /// `--explain`. `input` is the input that was refused, `from` its format and `depth` the limit that it was read with.
    ///
    /// `None`: the fault isn't in the content of the input, no input of that format has such a fault, or memory is refused.
    ///
    /// ```
    /// use cborn::{normalise, Options};
    /// let float = [0x82, 0x01, 0xf9, 0x3c, 0x00];
    /// let options = Options::default();
    /// let why = normalise(&float, options).unwrap_err();
    /// let lines = why.explain(&float, options.from, options.depth).unwrap();
    /// assert!(lines.starts_with("  path  item 0 [1]\n  bytes 82 01 >f9< 3c 00\n"));
    /// ```
    pub fn explain(self, input: &[u8], from: Kind, depth: Depth) -> Option<String> {
        match self {
            Fault::Refused { reason, place } => explained(input, from, depth, reason, place),
            Fault::TooLong | Fault::OutOfMemory => None,
        }
    }
}

impl fmt::Display for Fault {
    fn fmt(&self, f: &mut fmt::Formatter<'_>) -> fmt::Result {
        match self {
            Fault::Refused { reason, place } => write!(f, "offset {place}: {reason}"),
            Fault::TooLong => f.write_str("input too long"),
            Fault::OutOfMemory => f.write_str("out of memory"),
        }
    }
}

impl std::error::Error for Fault {}

/// Why two inputs aren't compared.
#[derive(Clone, Copy, Debug, PartialEq, Eq, Hash)]
#[non_exhaustive]
pub enum CompareFault {
    /// The first input is refused.
    First(Fault),
    /// The second input is refused, and the first isn't.
    Second(Fault),
    /// Out of memory.
    OutOfMemory,
}

impl CompareFault {
    pub(crate) fn new(code: u32, place: u64) -> CompareFault {
        match code {
            3 => CompareFault::OutOfMemory,
            0x10000.. => CompareFault::Second(Fault::new(code - 0x10000, place)),
            code => CompareFault::First(Fault::new(code, place)),
        }
    }
}

impl fmt::Display for CompareFault {
    fn fmt(&self, f: &mut fmt::Formatter<'_>) -> fmt::Result {
        match self {
            CompareFault::First(why) => write!(f, "first: {why}"),
            CompareFault::Second(why) => write!(f, "second: {why}"),
            CompareFault::OutOfMemory => f.write_str("out of memory"),
        }
    }
}

impl std::error::Error for CompareFault {}

/// The first defect of bytes that are valid but not deterministic.
#[derive(Clone, Copy, Debug, PartialEq, Eq, Hash)]
pub struct Defect {
    /// Its offset in bytes from the start of the input.
    pub place: u64,
    /// What kind of defect it is.
    pub reason: Reason,
}

impl Defect {
    /// Lines that say where in the input the defect is, what is there, and why it is one. `input` is the input that was
    /// checked, and `depth` the limit that it was read with. `None`: memory is refused.
    pub fn explain(self, input: &[u8], depth: Depth) -> Option<String> {
        explained(input, Kind::Wire, depth, self.reason, self.place)
    }
}

impl fmt::Display for Defect {
    fn fmt(&self, f: &mut fmt::Formatter<'_>) -> fmt::Result {
        write!(f, "offset {}: {}", self.place, self.reason)
    }
}
