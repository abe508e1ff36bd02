//! Longitudinal parity of two spacelook blocks.

use rahmisve_sys::{rahmisve_parity_imager, rahmisve_parity_sounder};

#[cfg(doc)]
use crate::Refusal::*;
use crate::{answer, Refusal, IMAGER_MARKS, SOUNDER_MARKS};

/// Whether the parity holds of each section of block 1 of the Imager spacelook set, in
/// [`PARITY_WORDS`](crate::PARITY_WORDS) words.
///
/// # Errors
///
/// [`WrongLength`] (8) where there are not so many words, then [`LargeWord`] (14) for a word above 255.
///
/// ```
/// use rahmisve::*;
/// let mut words = [0; PARITY_WORDS];
/// assert_eq!(parity_imager(&words), Ok([true; IMAGER_MARKS]));
/// words[300] = 9;
/// assert_eq!(parity_imager(&words), Ok([true, false, true, true]));
/// ```
pub fn parity_imager(words: &[u16]) -> Result<[bool; IMAGER_MARKS], Refusal> {
    let mut holds = [0; IMAGER_MARKS];
    // SAFETY: as in `read`.
    let number = unsafe { rahmisve_parity_imager(words.as_ptr(), words.len(), &mut holds) };
    answer(number, holds.map(|section| section != 0))
}

/// The same for block 1 of the Sounder spacelook set.
///
/// # Errors
///
/// [`WrongLength`] (8) where there are not [`PARITY_WORDS`](crate::PARITY_WORDS) words, then [`LargeWord`] (14) for a
/// word above 255.
///
/// ```
/// use rahmisve::*;
/// let mut words = [0; PARITY_WORDS];
/// words[0] = 256;
/// assert_eq!(parity_sounder(&words), Err(Refusal::LargeWord));
/// ```
pub fn parity_sounder(words: &[u16]) -> Result<[bool; SOUNDER_MARKS], Refusal> {
    let mut holds = [0; SOUNDER_MARKS];
    // SAFETY: as in `read`.
    let number = unsafe { rahmisve_parity_sounder(words.as_ptr(), words.len(), &mut holds) };
    answer(number, holds.map(|section| section != 0))
}
