//! Detector records, and which channel and detector each holds.

use rahmisve_sys::{rahmisve_place, rahmisve_record};

#[cfg(doc)]
use crate::Refusal::*;
use crate::{answer, Refusal};

/// The part of a block's words that is record `record`, from 1. There may be more words than the header counts.
///
/// # Errors
///
/// The first that holds of [`NoHeader`] (1), [`UnknownBlock`] (4), [`UnknownVersion`] (5), [`WrongSize`] (6),
/// [`WrongCount`] (7), [`NoRecord`] (13) and [`SmallRoom`] (9).
///
/// ```
/// use rahmisve::*;
/// # let mut header = [0; HEADER_BYTES];
/// # (header[HEADER_ID], header[HEADER_SIZE], header[HEADER_COUNT + 1]) = (1, 10, 68 + EXTRA_WORDS as u8);
/// # let words: [u16; 68] = core::array::from_fn(|i| i as u16);
/// // a block 1 of one pixel: four records of 17 words
/// let second = record(&header, &words, 2)?;
/// let pixels = &second[DOCUMENTATION_WORDS..];
/// assert_eq!((second.len(), second[0], pixels), (17, 17, &[33][..]));
/// assert_eq!(record(&header, &words, 5), Err(Refusal::NoRecord));
/// # Ok::<(), Refusal>(())
/// ```
///
/// In block 2 the version says how many records share the words: 84 are three records of 28 up to version 2, and four of
/// 21 in version 3.
///
/// ```
/// use rahmisve::*;
/// # let mut header = [0; HEADER_BYTES];
/// # (header[HEADER_ID], header[HEADER_SIZE], header[HEADER_COUNT + 1]) = (2, 10, 84 + EXTRA_WORDS as u8);
/// # let words = [0; 84];
/// header[HEADER_VERSION] = 2;
/// assert_eq!((plan(&header)?.records, record(&header, &words, 3)?.len()), (3, 28));
/// header[HEADER_VERSION] = 3;
/// assert_eq!((plan(&header)?.records, record(&header, &words, 4)?.len()), (4, 21));
/// # Ok::<(), Refusal>(())
/// ```
pub fn record<'a>(header: &[u8], words: &'a [u16], record: u32) -> Result<&'a [u16], Refusal> {
    let (mut start, mut length) = (0, 0);
    // SAFETY: as in `read`; of the words only their count is given.
    let number =
        unsafe { rahmisve_record(header.as_ptr(), header.len(), words.len(), record, &mut start, &mut length) };
    answer(number, ())?;
    words.get(start..).and_then(|rest| rest.get(..length)).ok_or(Refusal::SmallRoom)
}

/// What a record holds.
#[derive(Clone, Copy, Debug, PartialEq, Eq)]
pub struct Place {
    /// The channel, 1 to 6.
    pub channel: u8,
    /// The detector, 1 to 8.
    pub detector: u8,
}

/// Which channel and detector record `record`, from 1, of a block holds: the fixed placement of an upright spacecraft
/// without co-registration.
///
/// # Errors
///
/// The first that holds of [`UnknownBlock`] (4), [`UnknownVersion`] (5) and [`NoRecord`] (13).
///
/// ```
/// use rahmisve::*;
/// assert_eq!(place(2, 3, 4), Ok(Place { channel: 6, detector: 2 }));
/// assert_eq!(place(2, 2, 4), Err(Refusal::NoRecord));
/// assert_eq!(place(3, 3, 2), Err(Refusal::NoRecord));
/// ```
pub fn place(block: u32, version: u32, record: u32) -> Result<Place, Refusal> {
    let mut p = Place { channel: 0, detector: 0 };
    // SAFETY: as in `read`.
    let number = unsafe { rahmisve_place(block, version, record, &mut p.channel, &mut p.detector) };
    answer(number, p)
}
