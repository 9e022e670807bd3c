//! Why an input is refused, or isn't deterministic.

use std::fmt;

/// Writes the enum of reasons, each with its number in `cborn.h` and its words.
macro_rules! reasons {
    ($($(#[$doc:meta])* $name:ident = $number:literal, $words:literal;)*) => {
        /// Why an input is refused, or isn't deterministic. No number ever changes its meaning; as text a reason is the
        /// words that the program prints.
        #[derive(Clone, Copy, Debug, PartialEq, Eq, Hash)]
        #[non_exhaustive]
        pub enum Reason {
            $($(#[$doc])* $name,)*
            /// A number of a newer library, which this crate has no name for.
            Unknown(u32),
        }

        impl Reason {
            pub(crate) fn new(number: u32) -> Reason {
                match number {
                    $($number => Reason::$name,)*
                    other => Reason::Unknown(other),
                }
            }

            /// The number in `cborn.h`: the class in the high byte (1 malformed bytes, 2 tokens of notation, 3 its grammar
            /// or meaning, 4 not UTF-8, 5 a validity error, 6 a defect, 7 not one item), the reason in the low one.
            pub fn number(self) -> u32 {
                match self {
                    $(Reason::$name => $number,)*
                    Reason::Unknown(number) => number,
                }
            }

            /// In words.
            pub fn words(self) -> &'static str {
                match self {
                    $(Reason::$name => $words,)*
                    Reason::Unknown(_) => "unknown fault",
                }
            }
        }
    };
}

impl fmt::Display for Reason {
    fn fmt(&self, f: &mut fmt::Formatter<'_>) -> fmt::Result {
        f.write_str(self.words())
    }
}

reasons! {
    // malformed bytes
    /// A head has the additional information 28, 29 or 30 (RFC 8949 section 3).
    ReservedAdditionalInformation = 0x101, "reserved additional information";
    /// An integer or a tag has the additional information 31.
    IndefiniteLengthNotAllowed = 0x102, "indefinite length not allowed";
    /// A chunk of a string of indefinite length isn't a string of its type with a definite length (section 3.2.3).
    BadChunk = 0x103, "bad chunk";
    /// A break where an item has to be (section 3.2.1).
    UnexpectedBreak = 0x104, "unexpected break";
    /// A floating-point number, in bytes.
    FloatLeftOut = 0x105, "float left out";
    /// A simple value below 32 in two bytes (section 3.3).
    BadSimple = 0x106, "bad simple";
    /// Bytes are nested deeper than the maximum nesting depth.
    TooDeep = 0x107, "too deep";
    /// The input ends within an item.
    Truncated = 0x108, "truncated";
    // notation with an invalid token
    /// No token begins with this character.
    TextUnexpectedCharacter = 0x201, "unexpected character";
    /// A string without its closing quote.
    TextUnclosedString = 0x202, "unclosed string";
    /// A comment without its closing slash.
    TextUnclosedComment = 0x203, "unclosed comment";
    /// An invalid escape in a string.
    TextBadEscape = 0x204, "bad escape";
    /// The quoted text isn't valid hex.
    TextBadHex = 0x205, "bad hex";
    /// The quoted text isn't valid base64.
    TextBadBase64 = 0x206, "bad base64";
    /// A word other than `h` and `b64` right before a quote.
    TextUnknownPrefix = 0x207, "unknown prefix";
    /// An invalid number.
    TextBadNumber = 0x208, "bad number";
    /// A number above 2^128 - 1.
    TextNumberTooLarge = 0x209, "number too large";
    /// An invalid encoding indicator.
    TextBadIndicator = 0x20a, "bad indicator";
    /// A floating-point number, in notation.
    TextFloatLeftOut = 0x20b, "float left out";
    // notation with invalid grammar, or faults of what it means
    /// The first token that can't continue valid notation.
    TextUnexpectedToken = 0x301, "unexpected token";
    /// The notation ends within an item.
    TextUnexpectedEnd = 0x302, "unexpected end";
    /// Notation is nested deeper than the maximum nesting depth.
    TextTooDeep = 0x303, "too deep";
    /// A number, a length or a count doesn't fit the width of its encoding indicator.
    TextIndicatorTooNarrow = 0x304, "indicator too narrow";
    /// An encoding indicator where none is allowed.
    TextIndicatorNotAllowed = 0x305, "indicator not allowed";
    /// A text string after the first piece of a byte string.
    TextMixedString = 0x306, "mixed string";
    /// A chunk of another type than the first one.
    TextMixedChunks = 0x307, "mixed chunks";
    /// A text string in notation isn't UTF-8.
    TextNotUtf8 = 0x308, "text not UTF-8";
    /// `simple(n)` with n negative, from 24 to 31, or above 255.
    TextBadSimple = 0x309, "bad simple";
    /// A tag number above 2^64 - 1.
    TextTagTooLarge = 0x30a, "tag too large";
    // not UTF-8: a whole input of notation, or a text string to be shown
    /// An input of notation isn't UTF-8.
    InputNotUtf8 = 0x401, "not UTF-8";
    /// A text string that should be shown isn't UTF-8.
    ShownNotUtf8 = 0x402, "not UTF-8";
    // validity errors
    /// A text string isn't UTF-8 (section 3.1).
    InvalidNotUtf8 = 0x501, "not UTF-8";
    /// Tag 2 or 3 isn't over a byte string (section 3.4.3).
    InvalidBadBignum = 0x502, "bad bignum";
    /// A key is the same as an earlier key of its map (section 5.6).
    InvalidDuplicateKey = 0x503, "duplicate key";
    // defects
    /// A head isn't the shortest (section 4.2.1).
    DefectLongHead = 0x601, "long head";
    /// A string, an array or a map has an indefinite length (section 4.2.1).
    DefectIndefiniteLength = 0x602, "indefinite length";
    /// The bytes of a bignum begin with a zero, or it fits 64 bits (section 3.4.3).
    DefectLooseBignum = 0x603, "loose bignum";
    /// A key sorts before the key in front of it (section 4.2.1).
    DefectKeyOrder = 0x604, "key order";
    // inputs that aren't one item
    /// The input holds no item, and exactly one is wanted.
    NoItem = 0x701, "no item";
    /// The input holds more than one item, and exactly one is wanted.
    MoreItems = 0x702, "more than one item";
}
