//! GVAR blocks, CDA time tags, the Sounder's status, recordings, salvage and the scan watch, over the proved archive
//! `librahmisve.a`. The archive's manual is include/rahmisve.h. Here a refusal is an `Err` with a [`Refusal`], and a lent
//! room is as it was after one.
//!
//! Nothing is allocated and nothing is kept between calls, so that everything may be called from any thread.
//!
//! ```
//! use rahmisve::*;
//!
//! // Block 3 of version 2, with 16 words of line documentation and four pixels.
//! let mut header = [0; HEADER_BYTES];
//! header[HEADER_ID] = 3;
//! header[HEADER_SIZE] = 10;
//! header[HEADER_COUNT..HEADER_COUNT + 2].copy_from_slice(&(20 + EXTRA_WORDS).to_be_bytes());
//! header[HEADER_VERSION] = 2;
//! let mut room = [0; MOST_BYTES];
//! let bytes = write(&header, &[1023; 20], &mut room)?;
//!
//! let mut words = [0; MOST_WORDS];
//! let got = read(&room[..bytes], &mut words)?;
//! assert_eq!((got.header, got.word_count, words[19]), (header, 20, 1023));
//! assert_eq!(read(&room[..89], &mut words), Err(Refusal::NoHeader));
//! # Ok::<(), Refusal>(())
//! ```
//!
//! # Which archive
//!
//! The crate is for archives of version [`VERSION`]. Which archive it is linked with is decided where it is built, by
//! the folder that RAHMISVE_ARCHIVE_DIR names, and nothing can look at its version there. A program that may be linked
//! with another one must ask [`check_version`] first, and call nothing else where that is an `Err`: the functions here
//! are safe over an archive of this version alone.
#![no_std]
#![warn(missing_docs)]

mod block;
mod leap_day;
mod parity;
mod record;
mod recording;
mod refusal;
mod salvage;
mod sounder;
mod time;
mod version;
mod watch;
mod words;

pub use block::{plan, read, write, Header, Plan, Read};
pub use leap_day::LeapDay;
pub use parity::{parity_imager, parity_sounder};
pub use record::{place, record, Place};
pub use recording::{first_text, last_text, line, line_text, next_field, Field, Fields, Found, Line, Listed};
pub use refusal::{Refusal, Unlisted};
pub use salvage::{salvage, salvage_bytes, salvage_entries, Entry, Piece, Pieces, Salvaged};
pub use sounder::{sounder_status, sounder_suspect, Detector, SounderFrame, SounderRefusal, SounderStatus, SounderTag};
pub use time::{elapsed, read_tag, write_tag, Time};
pub use version::{check_version, version, OtherVersion, VERSION};
pub use watch::{Fill, Verdict, Watch};
pub use words::{check_word, put_words, take_words};

/// Bytes of a header: the first 28 of a copy, without its check word.
pub const HEADER_BYTES: usize = 28;
/// A mark for each header copy in front of a block.
pub const COPY_MARKS: usize = 3;
/// Bytes of a block around its field: three header copies of 30, and the check word.
pub const AROUND_BYTES: usize = 92;
/// Words of the longest block: a room of so many holds those of any.
pub const MOST_WORDS: usize = 21_008;
/// Bytes of the longest block.
pub const MOST_BYTES: usize = 26_352;
/// Bytes of the shortest block.
pub const LEAST_BYTES: usize = 2_772;
/// Bytes of a time tag.
pub const TAG_BYTES: usize = 8;
/// How many leap days may be lent.
pub const MOST_LEAP_DAYS: usize = 64;
/// Words of line documentation in front of a record's pixels.
pub const DOCUMENTATION_WORDS: usize = 16;
/// Words of a block with parity sections.
pub const PARITY_WORDS: usize = 8_040;
/// A mark for each section of block 1 of the Imager spacelook set.
pub const IMAGER_MARKS: usize = 4;
/// The same for the Sounder spacelook set.
pub const SOUNDER_MARKS: usize = 2;
/// Words of a Sounder documentation block.
pub const SOUNDER_WORDS: usize = 8_040;
/// Channels of the Sounder, from 1.
pub const SOUNDER_CHANNELS: u32 = 19;
/// Detectors of a channel of the Sounder, from 1.
pub const SOUNDER_DETECTORS: u32 = 4;
/// Numbers of the Sounder's status.
pub const SOUNDER_NUMBERS: usize = 13;
/// Time tags of a Sounder documentation block.
pub const SOUNDER_TAGS: usize = 15;
/// Numbers of what is said of such a tag: its answer, and a time behind it.
pub const SOUNDER_TAG_NUMBERS: usize = 8;
/// Numbers of a time.
pub const TIME_NUMBERS: usize = 7;
/// Numbers of a watch.
pub const WATCH_NUMBERS: usize = 11;
/// The largest waiting limit of a watch, in ms.
pub const LONGEST_WAIT_MS: u32 = 3_600_000;
/// Bytes of a field of a recording in front of its body: the tag, and the body's length, high byte first.
pub const FRONT_BYTES: usize = 3;
/// Bytes of the longest field of a recording, with its front.
pub const FIELD_BYTES: usize = 65_538;
/// Bytes of the longest line of a listing: a room of so many holds any.
pub const LINE_BYTES: usize = 105;
/// The tag of a field that holds a block.
pub const BLOCK_FIELD: u8 = 1;
/// Numbers of an entry in the report of a salvage.
pub const ENTRY_NUMBERS: usize = 3;

/// Where a header has the block id: the block's number, or [`BLOCK_0_ID`] for block 0.
pub const HEADER_ID: usize = 0;
/// Where a header has the bits of a word.
pub const HEADER_SIZE: usize = 1;
/// Where a header has the count of words, [`EXTRA_WORDS`] more than there are, in two bytes, high byte first.
pub const HEADER_COUNT: usize = 2;
/// Where a header has the version, 0 to 3.
pub const HEADER_VERSION: usize = 7;
/// Where a header has the data valid word: [`VALID`], or another number where the block is fill.
pub const HEADER_VALID: usize = 8;
/// Where a header has the tag of the SPS time, of [`TAG_BYTES`].
pub const HEADER_TIME: usize = 16;
/// What the data valid word says of valid data.
pub const VALID: u8 = 1;
/// The id of block 0.
pub const BLOCK_0_ID: u8 = 240;
/// What a header counts more than the words of the block.
pub const EXTRA_WORDS: u16 = 2;

fn answer<T>(number: u8, accepted: T) -> Result<T, Refusal> {
    match number {
        0 => Ok(accepted),
        number => Err(Refusal::of(number)),
    }
}
