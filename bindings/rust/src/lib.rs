//! CBOR (RFC 8949) in its one deterministic encoding, by the proved library cborn.
//!
//! ```
//! use cborn::{normalise, Options};
//! let loose = [0x98, 0x02, 0x18, 0x01, 0x58, 0x01, 0x61];
//! assert_eq!(normalise(&loose, Options::default()).unwrap(), [0x82, 0x01, 0x41, 0x61]);
//! let twice = [0xa2, 0x01, 0x00, 0xc2, 0x41, 0x01, 0x00];
//! let why = normalise(&twice, Options::default()).unwrap_err();
//! assert_eq!(why.to_string(), "offset 3: duplicate key");
//! ```
//!
//! An input is any number of data items, one after another, as bytes or in diagnostic notation. Floats are left out: an
//! input with a float is refused. Nothing is kept between calls, and any threads may call at once. [`Depth::stack`]
//! gives how much stack a call takes. With less, deeply nested input can overflow the stack and crash the process.
//!
//! A [`Fault`] is why an input is refused: it is malformed, has a validity error, or is too long. A [`Defect`] is why a
//! valid input isn't in the deterministic encoding.
#![warn(missing_docs)]

mod calls;
mod faults;
mod reasons;

use calls::filled;
pub use faults::{CompareFault, Defect, Fault};
pub use reasons::Reason;

/// The format of an input or an output. As output both notations are the same.
#[derive(Clone, Copy, Debug, Default, PartialEq, Eq, Hash)]
#[repr(u32)]
#[non_exhaustive]
pub enum Kind {
    /// CBOR bytes: data items one after another (RFC 8742).
    #[default]
    Wire = 0,
    /// Diagnostic notation (RFC 8949 section 8, RFC 8610 Appendix G), in UTF-8.
    Notation = 1,
    /// Diagnostic notation with comments from `#` to the end of a line, and trailing commas.
    Notation2 = 2,
}

/// The sort order of map keys.
#[derive(Clone, Copy, Debug, Default, PartialEq, Eq, Hash)]
#[repr(u32)]
#[non_exhaustive]
pub enum Order {
    /// By encoded bytes (RFC 8949 section 4.2.1).
    #[default]
    Bytewise = 0,
    /// Shortest first (RFC 8949 section 4.2.3).
    LengthFirst = 1,
}

/// The maximum nesting depth of arrays, maps and tags: from 1 to 1,024, and 128 by default.
#[derive(Clone, Copy, Debug, PartialEq, Eq, PartialOrd, Ord, Hash)]
pub struct Depth(u64);

impl Depth {
    /// This depth, or `None` if it isn't from 1 to 1,024.
    pub fn new(most: u64) -> Option<Depth> {
        (1..=1024).contains(&most).then_some(Depth(most))
    }

    /// The most bytes of stack that a call under this limit takes, as measured.
    pub fn stack(self) -> usize {
        calls::stack(self.0 as usize)
    }
}

impl Default for Depth {
    fn default() -> Self {
        Depth(128)
    }
}

/// What [`normalise`] reads and writes: by default bytes, with keys in bytewise order, at most 128 deep.
///
/// ```
/// use cborn::{normalise, Kind, Options};
/// let options = Options::default().with_from(Kind::Notation);
/// assert_eq!(normalise(b"[1, 'a']", options).unwrap(), [0x82, 0x01, 0x41, 0x61]);
/// ```
#[derive(Clone, Copy, Debug, Default, PartialEq, Eq, Hash)]
#[non_exhaustive]
pub struct Options {
    /// The format of the input.
    pub from: Kind,
    /// The format of the output.
    pub to: Kind,
    /// The sort order of map keys.
    pub order: Order,
    /// The maximum nesting depth of the input.
    pub depth: Depth,
}

impl Options {
    /// These options with another format of the input.
    #[must_use]
    pub fn with_from(self, from: Kind) -> Options {
        Options { from, ..self }
    }

    /// These options with another format of the output.
    #[must_use]
    pub fn with_to(self, to: Kind) -> Options {
        Options { to, ..self }
    }

    /// These options with another sort order of map keys.
    #[must_use]
    pub fn with_order(self, order: Order) -> Options {
        Options { order, ..self }
    }

    /// These options with another maximum nesting depth.
    #[must_use]
    pub fn with_depth(self, depth: Depth) -> Options {
        Options { depth, ..self }
    }
}

/// The canonical form of the items in the input: their deterministic encodings, or these in notation.
///
/// # Errors
/// [`Fault::Refused`] if the input is malformed or has a validity error, [`Fault::TooLong`] if it has more than 2^30
/// bytes.
pub fn normalise(input: &[u8], options: Options) -> Result<Vec<u8>, Fault> {
    let Options { from, to, order, depth } = options;
    filled(room_for(input, to), |out, room, told| unsafe {
        // SAFETY: as in `calls`
        calls::cborn_normalise(
            from as u32, to as u32, order as u32, depth.0, input.as_ptr(), input.len(), out, room, told,
        )
    })
}

/// A first guess at the length of a canonical form. From bytes to bytes it is never too small.
fn room_for(input: &[u8], to: Kind) -> usize {
    if to == Kind::Wire { input.len() + input.len() / 3 } else { 3 * input.len() + 64 }
}

/// The items in the input as they are encoded, each head in its own width: as bytes or in notation.
///
/// # Errors
/// [`Fault::Refused`] if the input is malformed, [`Fault::TooLong`] if it has more than 2^30 bytes. Validity errors are
/// accepted, with one exception: a text string that isn't UTF-8 can't be written in notation.
pub fn show(input: &[u8], from: Kind, to: Kind, depth: Depth) -> Result<Vec<u8>, Fault> {
    let room = if to == Kind::Wire { input.len() + 8 } else { 3 * input.len() + 64 };
    filled(room, |out, room, told| unsafe {
        // SAFETY: as in `calls`
        calls::cborn_show(from as u32, to as u32, depth.0, input.as_ptr(), input.len(), out, room, told)
    })
}

/// The first defect of the input. `None`: it is deterministic, so [`normalise`] would give the same bytes. The contents of
/// byte strings aren't checked, even if they are CBOR.
///
/// # Errors
/// [`Fault::Refused`] if the input is malformed or has a validity error, [`Fault::TooLong`] if it has more than 2^30
/// bytes.
pub fn check(input: &[u8], order: Order, depth: Depth) -> Result<Option<Defect>, Fault> {
    let mut place = 0;
    // SAFETY: as in `calls`
    let code = unsafe { calls::cborn_check(order as u32, depth.0, input.as_ptr(), input.len(), &mut place) };
    checked(code, place)
}

/// The result of a check, by the number that a call answered.
fn checked(code: u32, place: u64) -> Result<Option<Defect>, Fault> {
    match code {
        0 => Ok(None),
        0x601..=0x6ff => Ok(Some(Defect { place, reason: Reason::new(code) })),
        code => Err(Fault::new(code, place)),
    }
}

/// The index, from 0, of the first item that differs. `None`: both inputs hold the same items.
///
/// # Errors
/// The fault of an input, as [`normalise`] gives it, and which input has it. If both have one, that of the first.
pub fn compare(
    first: &[u8],
    from_first: Kind,
    second: &[u8],
    from_second: Kind,
    depth: Depth,
) -> Result<Option<u64>, CompareFault> {
    let mut place = 0;
    // SAFETY: as in `calls`
    let code = unsafe {
        calls::cborn_compare(
            from_first as u32, from_second as u32, depth.0,
            first.as_ptr(), first.len(), second.as_ptr(), second.len(), &mut place,
        )
    };
    match code {
        0 => Ok(None),
        5 => Ok(Some(place)),
        code => Err(CompareFault::new(code, place)),
    }
}

/// Whether both inputs hold the same items, so that their canonical forms are equal. [`compare`] says where they differ,
/// too.
///
/// # Errors
/// The fault of an input, as [`normalise`] gives it, and which input has it. If both have one, that of the first.
pub fn same(
    first: &[u8],
    from_first: Kind,
    second: &[u8],
    from_second: Kind,
    depth: Depth,
) -> Result<bool, CompareFault> {
    let mut place = 0;
    // SAFETY: as in `calls`
    let code = unsafe {
        calls::cborn_same(
            from_first as u32, from_second as u32, depth.0,
            first.as_ptr(), first.len(), second.as_ptr(), second.len(), &mut place,
        )
    };
    matched(code, place)
}

/// The result of a comparison that doesn't say where, by the number that a call answered.
fn matched(code: u32, place: u64) -> Result<bool, CompareFault> {
    match code {
        0 => Ok(true),
        5 => Ok(false),
        code => Err(CompareFault::new(code, place)),
    }
}

/// The canonical form of the one item that the input has to hold.
///
/// ```
/// use cborn::{normalise, normalise_one, Options};
/// let options = Options::default();
/// assert_eq!(normalise(b"", options).unwrap(), b"");
/// assert_eq!(normalise_one(b"", options).unwrap_err().to_string(), "offset 0: no item");
/// ```
///
/// # Errors
/// Each error of [`normalise`]. If there is none: [`Reason::NoItem`] at the length of an input that holds no item, and
/// [`Reason::MoreItems`] at the start of the second item of one that holds more.
pub fn normalise_one(input: &[u8], options: Options) -> Result<Vec<u8>, Fault> {
    let Options { from, to, order, depth } = options;
    filled(room_for(input, to), |out, room, told| unsafe {
        // SAFETY: as in `calls`
        calls::cborn_normalise_one(
            from as u32, to as u32, order as u32, depth.0, input.as_ptr(), input.len(), out, room, told,
        )
    })
}

/// The one item that the input has to hold, as it is encoded, each head in its own width: as bytes or in notation.
///
/// # Errors
/// Each error of [`show`]. If there is none: [`Reason::NoItem`] at the length of an input that holds no item, and
/// [`Reason::MoreItems`] at the start of the second item of one that holds more.
pub fn show_one(input: &[u8], from: Kind, to: Kind, depth: Depth) -> Result<Vec<u8>, Fault> {
    let room = if to == Kind::Wire { input.len() + 8 } else { 3 * input.len() + 64 };
    filled(room, |out, room, told| unsafe {
        // SAFETY: as in `calls`
        calls::cborn_show_one(from as u32, to as u32, depth.0, input.as_ptr(), input.len(), out, room, told)
    })
}

/// The first defect of the one item that the input has to hold. `None`: it is deterministic. An input that isn't one item
/// is refused, even if it has a defect.
///
/// # Errors
/// Each error of [`check`]. If there is none: [`Reason::NoItem`] at the length of an input that holds no item, and
/// [`Reason::MoreItems`] at the start of the second item of one that holds more.
pub fn check_one(input: &[u8], order: Order, depth: Depth) -> Result<Option<Defect>, Fault> {
    let mut place = 0;
    // SAFETY: as in `calls`
    let code = unsafe { calls::cborn_check_one(order as u32, depth.0, input.as_ptr(), input.len(), &mut place) };
    checked(code, place)
}

/// Whether both inputs, each of which has to hold exactly one item, hold the same item.
///
/// # Errors
/// The fault of an input, as [`normalise_one`] gives it, and which input has it. If both have one, that of the first.
pub fn compare_one(
    first: &[u8],
    from_first: Kind,
    second: &[u8],
    from_second: Kind,
    depth: Depth,
) -> Result<bool, CompareFault> {
    let mut place = 0;
    // SAFETY: as in `calls`
    let code = unsafe {
        calls::cborn_compare_one(
            from_first as u32, from_second as u32, depth.0,
            first.as_ptr(), first.len(), second.as_ptr(), second.len(), &mut place,
        )
    };
    matched(code, place)
}

/// The items of a sequence of CBOR bytes (RFC 8742), one after another, each as it is encoded. Each is found when it is
/// asked for, in time linear in its length. The input may have more than 2^30 bytes.
///
/// ```
/// use cborn::{items, Depth};
/// let all: Result<Vec<&[u8]>, _> = items(&[1, 0x82, 2, 3, 0x61, 0x61], Depth::default()).collect();
/// assert_eq!(all.unwrap(), [&[1][..], &[0x82, 2, 3], &[0x61, 0x61]]);
/// ```
///
/// # Errors
/// The last thing that it gives is [`Fault::Refused`], with the offset in the input, if no well-formed item is next.
/// Validity errors are accepted.
pub fn items(input: &[u8], depth: Depth) -> Items<'_> {
    Items { input, depth, at: 0, is_done: false }
}

/// What [`items`] gives.
#[derive(Clone, Debug)]
pub struct Items<'a> {
    input: &'a [u8],
    depth: Depth,
    at: usize,
    is_done: bool,
}

impl<'a> Iterator for Items<'a> {
    type Item = Result<&'a [u8], Fault>;

    fn next(&mut self) -> Option<Self::Item> {
        if self.is_done {
            return None;
        }
        let mut place = 0;
        let input = self.input;
        // SAFETY: as in `calls`
        let code =
            unsafe { calls::cborn_item_end(self.depth.0, input.as_ptr(), input.len(), self.at as u64, &mut place) };
        self.is_done = code != 0;
        match code {
            0 => {
                let start = std::mem::replace(&mut self.at, place as usize);
                Some(Ok(&input[start..self.at]))
            }
            0x701 => None,
            code => Some(Err(Fault::new(code, place))),
        }
    }
}

impl std::iter::FusedIterator for Items<'_> {}

/// The version of the library: major, minor, patch. After a release the source has the numbers of the next release.
pub fn version() -> (u32, u32, u32) {
    // SAFETY: it takes nothing
    let number = unsafe { calls::cborn_version() };
    (number >> 16, number >> 8 & 0xff, number & 0xff)
}
