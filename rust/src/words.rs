//! What a block is made of: its check word, and words of some bits in bytes.

use rahmisve_sys::{rahmisve_check_word, rahmisve_put_words, rahmisve_take_words};

#[cfg(doc)]
use crate::Refusal::*;
use crate::{answer, Refusal};

/// The check word of a message, which follows it high byte first.
///
/// ```
/// assert_eq!(rahmisve::check_word(b"123456789"), 0xD64E);
/// ```
#[must_use]
pub fn check_word(message: &[u8]) -> u16 {
    // SAFETY: as in `read`.
    unsafe { rahmisve_check_word(message.as_ptr(), message.len()) }
}

/// Takes the first `count` words of `size` bits, 1 to 16, out of a field, to the front of the room.
///
/// # Errors
///
/// [`WrongSize`] (6) for another size, then [`WrongLength`] (8) where the field has fewer bits, then [`SmallRoom`] (9).
/// The room is as it was.
///
/// ```
/// use rahmisve::*;
/// let mut room = [0; 4];
/// take_words(&[0x00, 0x40, 0x20, 0x0C, 0x04], 10, 4, &mut room)?;
/// assert_eq!(room, [1, 2, 3, 4]);
/// # Ok::<(), Refusal>(())
/// ```
pub fn take_words(field: &[u8], size: u32, count: usize, room: &mut [u16]) -> Result<(), Refusal> {
    // SAFETY: as in `read`.
    let number =
        unsafe { rahmisve_take_words(field.as_ptr(), field.len(), size, count, room.as_mut_ptr(), room.len()) };
    answer(number, ())
}

/// Puts words of `size` bits, 1 to 16, into a field, with zeros behind the last one.
///
/// # Errors
///
/// [`WrongSize`] (6) for another size, then [`SmallRoom`] (9) where the field has fewer bits, then [`LargeWord`] (14).
/// The field is as it was.
///
/// ```
/// use rahmisve::*;
/// let mut field = [0xFF; 4];
/// put_words(&[1, 2, 3, 4], 6, &mut field)?;
/// assert_eq!(field, [0x04, 0x20, 0xC4, 0x00]);
/// # Ok::<(), Refusal>(())
/// ```
pub fn put_words(words: &[u16], size: u32, field: &mut [u8]) -> Result<(), Refusal> {
    // SAFETY: as in `read`.
    let number = unsafe { rahmisve_put_words(words.as_ptr(), words.len(), size, field.as_mut_ptr(), field.len()) };
    answer(number, ())
}
