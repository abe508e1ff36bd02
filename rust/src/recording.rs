//! Recordings: their fields, the line of a field, and the text of a listing.

use core::fmt;
use core::iter::FusedIterator;

use rahmisve_sys::{rahmisve_first_text, rahmisve_last_text, rahmisve_line, rahmisve_line_text, rahmisve_next_field};

#[cfg(doc)]
use crate::Refusal::*;
use crate::{answer, Refusal};

/// A field of a recording.
#[derive(Clone, Copy, Debug, PartialEq, Eq)]
pub struct Field<'a> {
    /// What the body is: [`BLOCK_FIELD`](crate::BLOCK_FIELD) where it holds a block.
    pub tag: u8,
    /// What stands behind the tag and the length.
    pub body: &'a [u8],
}

/// What stands in a recording from a byte on.
#[derive(Clone, Copy, Debug, PartialEq, Eq)]
pub enum Found<'a> {
    /// Nothing more.
    End,
    /// A whole field, and where the next one is.
    Field(Field<'a>, usize),
    /// The recording stops inside a field.
    Cut,
}

/// What stands in a recording at byte `at`, which may be anywhere. [`Fields`] goes from one field to the next.
///
/// ```
/// use rahmisve::*;
/// let recording = [2, 0, 1, 77, 1, 0];
/// assert_eq!(next_field(&recording, 0), Found::Field(Field { tag: 2, body: &[77] }, 4));
/// assert_eq!(next_field(&recording, 4), Found::Cut);
/// assert_eq!(next_field(&recording, 6), Found::End);
/// ```
#[must_use]
pub fn next_field(recording: &[u8], at: usize) -> Found<'_> {
    let (mut tag, mut start, mut length) = (0, 0, 0);
    // SAFETY: as in `read`.
    let found =
        unsafe { rahmisve_next_field(recording.as_ptr(), recording.len(), at, &mut tag, &mut start, &mut length) };
    match (found, recording.get(start..).and_then(|rest| rest.get(..length))) {
        (0, _) => Found::End,
        (1, Some(body)) => Found::Field(Field { tag, body }, start + length),
        _ => Found::Cut,
    }
}

/// The complete fields of a recording, in order. Behind the last one, [`is_cut`](Fields::is_cut) says whether the
/// recording stops inside a field.
///
/// ```
/// use rahmisve::*;
/// let recording = [2, 0, 1, 77, 3, 0, 0, 1, 0];
/// let mut fields = Fields::of(&recording);
/// let tags: Vec<u8> = fields.by_ref().map(|field| field.tag).collect();
/// assert_eq!((tags, fields.is_cut()), (vec![2, 3], true));
/// ```
#[derive(Clone)]
#[must_use = "an iterator does nothing by itself"]
pub struct Fields<'a> {
    recording: &'a [u8],
    at: usize,
}

impl<'a> Fields<'a> {
    /// The fields of a recording, from its first byte on.
    ///
    /// ```
    /// use rahmisve::*;
    /// assert_eq!(Fields::of(&[2, 0, 1, 77]).next(), Some(Field { tag: 2, body: &[77] }));
    /// ```
    pub fn of(recording: &'a [u8]) -> Fields<'a> {
        Fields { recording, at: 0 }
    }

    /// Whether there is no further field but a part of one.
    ///
    /// ```
    /// use rahmisve::*;
    /// assert!(Fields::of(&[2, 0, 1]).is_cut());
    /// assert!(!Fields::of(&[]).is_cut());
    /// ```
    #[must_use]
    pub fn is_cut(&self) -> bool {
        next_field(self.recording, self.at) == Found::Cut
    }
}

impl<'a> Iterator for Fields<'a> {
    type Item = Field<'a>;

    fn next(&mut self) -> Option<Field<'a>> {
        let Found::Field(field, next) = next_field(self.recording, self.at) else { return None };
        self.at = next;
        Some(field)
    }
}

impl FusedIterator for Fields<'_> {}

/// Where it is, and how long the recording is: the bytes would be a page of numbers.
impl fmt::Debug for Fields<'_> {
    fn fmt(&self, f: &mut fmt::Formatter<'_>) -> fmt::Result {
        f.debug_struct("Fields").field("at", &self.at).field("length", &self.recording.len()).finish()
    }
}

/// What the listing says of a block that is accepted.
#[derive(Clone, Copy, Debug, PartialEq, Eq)]
pub struct Listed {
    /// The block's number, 0 to 11.
    pub block: u8,
    /// The version, 0 to 3.
    pub version: u8,
    /// Words of the block.
    pub word_count: usize,
}

/// The line of a field in a listing.
#[derive(Clone, Copy, Debug, PartialEq, Eq)]
pub struct Line {
    /// The field's number, from 1.
    pub seq: u64,
    /// The block that it holds, or why there is none.
    pub answer: Result<Listed, Refusal>,
}

/// The line of the field behind `before` complete ones. Its block, if it holds one, is read to the room as by
/// [`read`](crate::read).
///
/// The answer is `Err` with [`OtherField`] (15) where the tag is another than 1, else with what the reader refuses the
/// body for.
///
/// ```
/// use rahmisve::*;
/// let other = line(4, Field { tag: 2, body: &[] }, &mut []);
/// assert_eq!(other, Line { seq: 5, answer: Err(Refusal::OtherField) });
/// ```
#[must_use]
pub fn line(before: u64, field: Field<'_>, room: &mut [u16]) -> Line {
    let mut seq = 0;
    let mut listed = Listed { block: 0, version: 0, word_count: 0 };
    let body = field.body;
    // SAFETY: as in `read`.
    let number = unsafe {
        rahmisve_line(
            before,
            field.tag.into(),
            body.as_ptr(),
            body.len(),
            room.as_mut_ptr(),
            room.len(),
            &mut seq,
            &mut listed.block,
            &mut listed.version,
            &mut listed.word_count,
        )
    };
    Line { seq, answer: answer(number, listed) }
}

/// The text at the front of a room. It is ASCII, so nothing is lost here.
fn text(number: u8, room: &[u8], bytes: usize) -> Result<&str, Refusal> {
    answer(number, ())?;
    let front = room.get(..bytes).unwrap_or_default();
    Ok(core::str::from_utf8(front).unwrap_or_default())
}

/// The first line of a listing, which names the columns, at the front of the room. A room of
/// [`LINE_BYTES`](crate::LINE_BYTES) is enough for any line.
///
/// # Errors
///
/// [`SmallRoom`] (9). The room is as it was.
///
/// ```
/// use rahmisve::*;
/// assert_eq!(first_text(&mut [0; LINE_BYTES]), Ok("seq block version words answer\n"));
/// assert_eq!(first_text(&mut []), Err(Refusal::SmallRoom));
/// ```
pub fn first_text(room: &mut [u8]) -> Result<&str, Refusal> {
    let mut bytes = 0;
    // SAFETY: as in `read`.
    let number = unsafe { rahmisve_first_text(room.as_mut_ptr(), room.len(), &mut bytes) };
    text(number, room, bytes)
}

/// The text of a line, at the front of the room.
///
/// # Errors
///
/// [`SmallRoom`] (9). The room is as it was.
///
/// ```
/// use rahmisve::*;
/// let mut room = [0; LINE_BYTES];
/// let good = Line { seq: 1, answer: Ok(Listed { block: 3, version: 2, word_count: 20 }) };
/// assert_eq!(line_text(&good, &mut room), Ok("1 3 2 20 0\n"));
/// let refused = Line { seq: 2, answer: Err(Refusal::NoHeader) };
/// assert_eq!(line_text(&refused, &mut room), Ok("2 - - - 1\n"));
/// ```
pub fn line_text<'a>(line: &Line, room: &'a mut [u8]) -> Result<&'a str, Refusal> {
    let (block, version, word_count, answer) = match line.answer {
        Ok(listed) => (listed.block, listed.version, listed.word_count, 0),
        Err(refusal) => (0, 0, 0, refusal.number()),
    };
    let mut bytes = 0;
    // SAFETY: as in `read`.
    let number = unsafe {
        rahmisve_line_text(
            line.seq,
            block.into(),
            version.into(),
            word_count,
            answer.into(),
            room.as_mut_ptr(),
            room.len(),
            &mut bytes,
        )
    };
    text(number, room, bytes)
}

/// The last line of a listing, at the front of the room: how many complete fields there are, and whether the recording
/// is cut behind them.
///
/// # Errors
///
/// [`SmallRoom`] (9). The room is as it was.
///
/// ```
/// use rahmisve::*;
/// let mut room = [0; LINE_BYTES];
/// assert_eq!(last_text(false, 2, &mut room), Ok("end 2\n"));
/// assert_eq!(last_text(true, 2, &mut room), Ok("cut 2\n"));
/// ```
pub fn last_text(cut: bool, fields: u64, room: &mut [u8]) -> Result<&str, Refusal> {
    let mut bytes = 0;
    // SAFETY: as in `read`.
    let number = unsafe { rahmisve_last_text(cut.into(), fields, room.as_mut_ptr(), room.len(), &mut bytes) };
    text(number, room, bytes)
}
