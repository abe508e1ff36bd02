//! The numbers of an answer, as the header lists them: tests/rust.test holds names, numbers and texts to it.

use core::fmt;

/// A number that this crate has no name for. Only the crate makes one, out of an answer:
///
/// ```compile_fail
/// let made = rahmisve::Unlisted(0);
/// ```
#[derive(Clone, Copy, Debug, PartialEq, Eq, Hash)]
pub struct Unlisted(u8);

macro_rules! refusals {
    ($($(#[$more:meta])* $name:ident, $number:literal, $text:literal;)*) => {
        /// Why something was refused. The numbers and texts are those of the manual.
        #[non_exhaustive]
        #[derive(Clone, Copy, Debug, PartialEq, Eq, Hash)]
        pub enum Refusal {
            $(#[doc = concat!($number, ": ", $text, ".")] $(#[$more])* $name,)*
            /// A number that this crate has no name for: the archive is of another version.
            Unlisted(Unlisted),
        }

        impl Refusal {
            pub(crate) fn of(number: u8) -> Refusal {
                Refusal::from_number(number).unwrap_or(Refusal::Unlisted(Unlisted(number)))
            }

            /// The refusal of a number of the manual, as in a listing. There is none for 0, which is accepted, and none
            /// for a number that the manual does not have.
            ///
            /// ```
            /// use rahmisve::Refusal;
            /// assert_eq!(Refusal::from_number(10), Some(Refusal::CheckDisagrees));
            /// assert_eq!((Refusal::from_number(0), Refusal::from_number(23)), (None, None));
            /// ```
            #[must_use]
            pub const fn from_number(number: u8) -> Option<Refusal> {
                match number {
                    $($number => Some(Refusal::$name),)*
                    _ => None,
                }
            }

            /// The number of the manual.
            ///
            /// ```
            /// assert_eq!(rahmisve::Refusal::CheckDisagrees.number(), 10);
            /// ```
            #[must_use]
            pub const fn number(self) -> u8 {
                match self {
                    $(Refusal::$name => $number,)*
                    Refusal::Unlisted(Unlisted(number)) => number,
                }
            }

            /// The text of the manual.
            ///
            /// ```
            /// println!("{}", rahmisve::Refusal::CheckDisagrees.text());
            /// ```
            #[must_use]
            pub const fn text(self) -> &'static str {
                match self {
                    $(Refusal::$name => $text,)*
                    Refusal::Unlisted(_) => "a number that this crate has no name for",
                }
            }
        }
    };
}

// A comment says where a number has more grounds than its text names.
refusals! {
    NoHeader, 1, "a block of fewer than 90 bytes, or a header not of 28 bytes";
    NoCopyPasses, 2, "none of the three header copies passes its check";
    CopiesDiffer, 3, "two header copies pass and differ";
    UnknownBlock, 4, "an unknown block id, or a block number above 11";
    UnknownVersion, 5, "a version above 3";
    WrongSize, 6, "a word size that the block cannot have, or outside 1 to 16";
    WrongCount, 7, "the block cannot have this count of words";
    /// Too few bits, where words are taken out of a field.
    WrongLength, 8, "not the required number of bytes or words";
    /// Too few words are fewer than the header counts, where a record is asked for.
    SmallRoom, 9, "too little room, or too few words";
    CheckDisagrees, 10, "the check word is not that of the field";
    FillNotZero, 11, "a bit behind the last word is 1";
    /// One not of eight bytes too, and an open watch whose last tag is bad.
    BadTag, 12, "a bad time tag";
    /// An open watch that expects none of the blocks 1 to 10.
    NoRecord, 13, "no such record, detector or expected block";
    LargeWord, 14, "a word too large for its size";
    OtherField, 15, "a field of a recording with another tag than 1";
    LongLimit, 16, "a waiting limit above 3,600,000 ms";
    /// No block has one: every field is a multiple of 16 bits.
    OffBoundary, 17, "a check word off its 16-bit boundary";
    NoBlock, 18, "no start has an acceptable block";
    BadLeapDays, 19, "more than 64 leap days, two that do not rise, or one that no year has";
    /// In an open watch the expected block or one above it, in an idle one any.
    BadFill, 20, "a set of fill blocks that the watch cannot have";
    SpareBit, 21, "a bit behind those of the Sounder's detectors is 1";
    /// The eastern field too, where the western pixel is above the eastern one. A
    /// [`SounderRefusal`](crate::SounderRefusal) names the field's first word.
    OutOfRange, 22, "a frame field out of its range";
}

impl fmt::Display for Refusal {
    fn fmt(&self, f: &mut fmt::Formatter<'_>) -> fmt::Result {
        write!(f, "refusal {}: {}", self.number(), self.text())
    }
}

impl core::error::Error for Refusal {}

#[cfg(test)]
mod tests {
    use super::Refusal;

    #[test]
    fn a_number_without_a_name_is_kept() {
        assert_eq!((Refusal::of(23).number(), Refusal::of(255).number()), (23, 255));
        assert_eq!(Refusal::of(22), Refusal::OutOfRange);
    }
}
