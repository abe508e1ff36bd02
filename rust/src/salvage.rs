//! Salvage: the blocks in bytes that have lost their boundaries.

use core::fmt;
use core::iter::FusedIterator;
use core::ops::Range;

use rahmisve_sys::rahmisve_salvage;

#[cfg(doc)]
use crate::Refusal::*;
use crate::{answer, Refusal, COPY_MARKS, ENTRY_NUMBERS, FRONT_BYTES, LEAST_BYTES};

/// What the manual has for a piece that is no block.
const SPAN: usize = 8;

/// An entry of the report as the archive writes it. [`Salvaged::pieces`] says what it means.
pub type Entry = [usize; ENTRY_NUMBERS];

/// Bytes of the recording that an input of so many bytes asks for, however many blocks are in it. Where that is more
/// than a `usize` holds it is the largest one; no input is so long.
///
/// ```
/// use rahmisve::*;
/// assert_eq!((salvage_bytes(2_771), salvage_bytes(2_772)), (2_771, 2_775));
/// assert_eq!(salvage_bytes(usize::MAX), usize::MAX);
/// ```
#[must_use]
pub const fn salvage_bytes(input_bytes: usize) -> usize {
    input_bytes.saturating_add(input_bytes / LEAST_BYTES * FRONT_BYTES)
}

/// Entries of the report that an input of so many bytes asks for.
///
/// ```
/// use rahmisve::*;
/// assert_eq!((salvage_entries(2_771), salvage_entries(2_772)), (1, 3));
/// static REPORT: [Entry; salvage_entries(65_000)] = [[0; ENTRY_NUMBERS]; 47];
/// ```
#[must_use]
pub const fn salvage_entries(input_bytes: usize) -> usize {
    input_bytes / LEAST_BYTES * 2 + 1
}

/// A piece of the input.
#[derive(Clone, Copy, Debug, PartialEq, Eq, Hash)]
pub enum Piece {
    /// A block.
    Block {
        /// Where it starts in the input.
        start: usize,
        /// How many bytes it has.
        bytes: usize,
        /// Which header copies' bytes changed: those that differ from the copy that was used, whether they passed their
        /// checks or not.
        changed: [bool; COPY_MARKS],
    },
    /// Bytes that are of no block, all of them up to the next block or the input's end.
    Span {
        /// Where it starts in the input.
        start: usize,
        /// How many bytes it has, never 0.
        bytes: usize,
    },
}

impl Piece {
    fn of([start, bytes, found]: Entry) -> Piece {
        match found {
            SPAN => Piece::Span { start, bytes },
            changed => Piece::Block { start, bytes, changed: core::array::from_fn(|k| changed >> k & 1 == 1) },
        }
    }

    /// Where it is in the input.
    ///
    /// ```
    /// use rahmisve::*;
    /// let input = b"junk and more";
    /// assert_eq!(&input[Piece::Span { start: 5, bytes: 3 }.range()], b"and");
    /// ```
    #[must_use]
    pub const fn range(&self) -> Range<usize> {
        let (Piece::Block { start, bytes, .. } | Piece::Span { start, bytes }) = *self;
        start..start.saturating_add(bytes)
    }
}

/// The pieces of an input, in order: [`Salvaged::pieces`] gives them.
#[derive(Clone)]
#[must_use = "an iterator does nothing by itself"]
pub struct Pieces<'a>(core::slice::Iter<'a, Entry>);

impl Iterator for Pieces<'_> {
    type Item = Piece;

    fn next(&mut self) -> Option<Piece> {
        self.0.next().copied().map(Piece::of)
    }

    fn size_hint(&self) -> (usize, Option<usize>) {
        self.0.size_hint()
    }
}

impl DoubleEndedIterator for Pieces<'_> {
    fn next_back(&mut self) -> Option<Piece> {
        self.0.next_back().copied().map(Piece::of)
    }
}

impl ExactSizeIterator for Pieces<'_> {}

impl FusedIterator for Pieces<'_> {}

impl fmt::Debug for Pieces<'_> {
    fn fmt(&self, f: &mut fmt::Formatter<'_>) -> fmt::Result {
        f.debug_list().entries(self.clone()).finish()
    }
}

/// What was found in an input.
#[derive(Clone, Copy, PartialEq, Eq)]
pub struct Salvaged<'a> {
    /// The recording, at the front of its room: a field with each block, whose three header copies are equal.
    pub recording: &'a [u8],
    /// How many blocks there are, at least one.
    pub blocks: usize,
    report: &'a [Entry],
}

impl<'a> Salvaged<'a> {
    /// The blocks and the spans between them, in the order of the input, which they cover once.
    ///
    /// ```
    /// use rahmisve::*;
    /// # let mut header = [0; HEADER_BYTES];
    /// # (header[HEADER_ID], header[HEADER_SIZE], header[HEADER_COUNT + 1]) = (1, 10, 68 + EXTRA_WORDS as u8);
    /// # let mut input = [0; 3_000];
    /// # write(&header, &[5; 68], &mut input[100..])?;
    /// # let mut recording = [0; salvage_bytes(3_000)];
    /// # let mut report = [[0; ENTRY_NUMBERS]; salvage_entries(3_000)];
    /// # let mut scratch = [0; MOST_WORDS];
    /// let made = salvage(&input, &mut recording, &mut report, &mut scratch)?;
    /// for piece in made.pieces() {
    ///     match piece {
    ///         Piece::Block { start, changed, .. } => println!("a block at {start}, changed copies: {changed:?}"),
    ///         Piece::Span { .. } => println!("junk: {:?}", &input[piece.range()]),
    ///     }
    /// }
    /// # Ok::<(), Refusal>(())
    /// ```
    pub fn pieces(&self) -> Pieces<'a> {
        Pieces(self.report.iter())
    }
}

/// How long the recording is: its bytes would be pages of numbers.
impl fmt::Debug for Salvaged<'_> {
    fn fmt(&self, f: &mut fmt::Formatter<'_>) -> fmt::Result {
        let mut shown = f.debug_struct("Salvaged");
        shown
            .field("bytes", &self.recording.len())
            .field("blocks", &self.blocks)
            .field("pieces", &self.pieces())
            .finish()
    }
}

/// Finds the blocks in an input that does not say where they are, with junk before, between and behind them. The search
/// takes the lowest start from which a header copy that passes, put in all three places, makes an acceptable block, of
/// the three copies the first that does, and goes on behind that block's end.
///
/// The recording and the report are put at the front of their rooms, which [`salvage_bytes`] and [`salvage_entries`]
/// give for the input's length. The scratch words are [`MOST_WORDS`](crate::MOST_WORDS); each block is read to their
/// front in turn, so the last one's words stand there afterwards.
///
/// # Errors
///
/// [`SmallRoom`] (9) where a room is smaller than that, whatever the input holds, then [`NoBlock`] (18). The rooms are
/// as they were.
///
/// ```
/// use rahmisve::*;
/// # let mut header = [0; HEADER_BYTES];
/// # (header[HEADER_ID], header[HEADER_SIZE], header[HEADER_COUNT + 1]) = (1, 10, 68 + EXTRA_WORDS as u8);
/// # let mut block = [0; 2_772];
/// # write(&header, &[5; 68], &mut block)?;
/// // seven bytes of junk, and a block whose first header copy is damaged
/// let mut input = [&[0xA5; 7][..], &block].concat();
/// input[7] ^= 0xFF;
///
/// let mut recording = vec![0; salvage_bytes(input.len())];
/// let mut report = vec![[0; ENTRY_NUMBERS]; salvage_entries(input.len())];
/// let mut scratch = vec![0; MOST_WORDS];
/// let made = salvage(&input, &mut recording, &mut report, &mut scratch)?;
/// assert!(made.pieces().eq([
///     Piece::Span { start: 0, bytes: 7 },
///     Piece::Block { start: 7, bytes: 2_772, changed: [true, false, false] },
/// ]));
/// // the recording has the block as it was
/// assert!(Fields::of(made.recording).eq([Field { tag: BLOCK_FIELD, body: &block }]));
///
/// assert_eq!(salvage(&input[..2_000], &mut recording, &mut report, &mut scratch), Err(Refusal::NoBlock));
/// assert_eq!(salvage(&input, &mut recording, &mut [], &mut scratch), Err(Refusal::SmallRoom));
/// # Ok::<(), Refusal>(())
/// ```
pub fn salvage<'a>(
    input: &[u8],
    recording: &'a mut [u8],
    report: &'a mut [Entry],
    scratch: &mut [u16],
) -> Result<Salvaged<'a>, Refusal> {
    let (mut bytes, mut entries, mut blocks) = (0, 0, 0);
    let numbers = report.as_flattened_mut();
    // SAFETY: as in `read`.
    let number = unsafe {
        rahmisve_salvage(
            input.as_ptr(),
            input.len(),
            recording.as_mut_ptr(),
            recording.len(),
            numbers.as_mut_ptr(),
            numbers.len(),
            scratch.as_mut_ptr(),
            scratch.len(),
            &mut bytes,
            &mut entries,
            &mut blocks,
        )
    };
    let recording = recording.get(..bytes).unwrap_or_default();
    let report = report.get(..entries).unwrap_or_default();
    answer(number, Salvaged { recording, blocks, report })
}
