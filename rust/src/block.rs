//! Reading and writing a block.

use rahmisve_sys::{rahmisve_plan, rahmisve_read, rahmisve_write};

#[cfg(doc)]
use crate::Refusal::*;
use crate::{answer, Refusal, COPY_MARKS, HEADER_BYTES};

/// The first 28 bytes of a header copy, which the reader gives and the writer and record access take.
pub type Header = [u8; HEADER_BYTES];

/// What reading a block gives beside the words in the room.
#[derive(Clone, Copy, Debug, PartialEq, Eq)]
pub struct Read {
    /// The common header of the copies that passed.
    pub header: Header,
    /// Which header copies passed their check.
    pub copies: [bool; COPY_MARKS],
    /// How many words stand at the front of the room.
    pub word_count: usize,
}

/// Reads a block, to the front of the room.
///
/// # Errors
///
/// The first that holds of [`NoHeader`] (1), [`NoCopyPasses`] (2), [`CopiesDiffer`] (3), [`UnknownBlock`] (4),
/// [`UnknownVersion`] (5), [`WrongSize`] (6), [`WrongCount`] (7), [`WrongLength`] (8), [`OffBoundary`] (17),
/// [`SmallRoom`] (9), [`CheckDisagrees`] (10) and [`FillNotZero`] (11). The room is as it was.
///
/// ```
/// use rahmisve::*;
/// # let mut header = [0; HEADER_BYTES];
/// # (header[HEADER_ID], header[HEADER_SIZE], header[HEADER_COUNT + 1]) = (1, 10, 68 + EXTRA_WORDS as u8);
/// # let mut bytes = [0; MOST_BYTES];
/// # let length = write(&header, &[5; 68], &mut bytes)?;
/// # let block = &mut bytes[..length];
/// let mut room = [0; MOST_WORDS];
/// let got = read(block, &mut room)?;
/// let words = &room[..got.word_count];
/// assert_eq!((words.len(), got.copies), (68, [true; 3]));
///
/// block[100] ^= 1;
/// assert_eq!(read(block, &mut room), Err(Refusal::CheckDisagrees));
/// # Ok::<(), Refusal>(())
/// ```
pub fn read(block: &[u8], room: &mut [u16]) -> Result<Read, Refusal> {
    let (mut header, mut copies, mut word_count) = ([0; HEADER_BYTES], [0; COPY_MARKS], 0);
    // SAFETY: the slices are as long as is said, the other places are this function's own, and none overlaps another.
    let number = unsafe {
        rahmisve_read(
            block.as_ptr(),
            block.len(),
            room.as_mut_ptr(),
            room.len(),
            &mut header,
            &mut copies,
            &mut word_count,
        )
    };
    answer(number, Read { header, copies: copies.map(|passed| passed != 0), word_count })
}

/// What a header asks for.
#[derive(Clone, Copy, Debug, PartialEq, Eq)]
pub struct Plan {
    /// The block's number, 0 to 11.
    pub block: u8,
    /// The version, 0 to 3: 0 and 1 are GOES I to L, 2 is GOES M and N, 3 is GOES O and P.
    pub version: u8,
    /// Bits of a word.
    pub size: u8,
    /// Detector records: 4 in block 1; 3 in block 2, but 4 in version 3; 1 in blocks 3 to 10; none in blocks 0 and 11.
    pub records: u8,
    /// Words of the block.
    pub word_count: usize,
    /// Bytes of the field that holds the words; the block has [`AROUND_BYTES`](crate::AROUND_BYTES) more.
    pub field_bytes: usize,
}

/// What a header asks for.
///
/// # Errors
///
/// The first that holds of [`NoHeader`] (1), [`UnknownBlock`] (4), [`UnknownVersion`] (5), [`WrongSize`] (6) and
/// [`WrongCount`] (7).
///
/// ```
/// use rahmisve::*;
/// let mut header = [0; HEADER_BYTES];
/// header[HEADER_ID] = BLOCK_0_ID;
/// header[HEADER_SIZE] = 8;
/// header[HEADER_COUNT..HEADER_COUNT + 2].copy_from_slice(&(8_040 + EXTRA_WORDS).to_be_bytes());
/// let plan = plan(&header)?;
/// assert_eq!((plan.block, plan.records, plan.field_bytes), (0, 0, 8_040));
/// # Ok::<(), Refusal>(())
/// ```
pub fn plan(header: &[u8]) -> Result<Plan, Refusal> {
    let mut p = Plan { block: 0, version: 0, size: 0, records: 0, word_count: 0, field_bytes: 0 };
    // SAFETY: as in `read`.
    let number = unsafe {
        rahmisve_plan(
            header.as_ptr(),
            header.len(),
            &mut p.block,
            &mut p.version,
            &mut p.size,
            &mut p.records,
            &mut p.word_count,
            &mut p.field_bytes,
        )
    };
    answer(number, p)
}

/// Writes a block to the front of the room, and says how many bytes it has.
///
/// # Errors
///
/// The first that holds of [`NoHeader`] (1), [`UnknownBlock`] (4), [`UnknownVersion`] (5), [`WrongSize`] (6),
/// [`WrongCount`] (7), [`WrongLength`] (8), [`SmallRoom`] (9) and [`LargeWord`] (14). The room is as it was.
///
/// ```
/// use rahmisve::*;
/// let mut header = [0; HEADER_BYTES];
/// header[HEADER_ID] = 3;
/// header[HEADER_SIZE] = 10;
/// header[HEADER_COUNT..HEADER_COUNT + 2].copy_from_slice(&(20 + EXTRA_WORDS).to_be_bytes());
/// let mut room = [0; MOST_BYTES];
/// assert_eq!(write(&header, &[1023; 20], &mut room), Ok(2_772));
/// assert_eq!(write(&header, &[1024; 20], &mut room), Err(Refusal::LargeWord));
/// ```
pub fn write(header: &[u8], words: &[u16], room: &mut [u8]) -> Result<usize, Refusal> {
    let mut bytes = 0;
    // SAFETY: as in `read`.
    let number = unsafe {
        rahmisve_write(
            header.as_ptr(),
            header.len(),
            words.as_ptr(),
            words.len(),
            room.as_mut_ptr(),
            room.len(),
            &mut bytes,
        )
    };
    answer(number, bytes)
}
