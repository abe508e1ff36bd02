//! Words taken out of fields and put into them. A library may take or put many words in one go and the rest one by one,
//! so every number of them is met, of every size, in buffers that stand at every shift.

use crate::compare::{first_difference, hex, hex_words, lend_bytes, lend_words, Lent};
use crate::inputs::Dice;
use crate::library::{Library, Model};
use crate::rows::{field_bits, FIXED_FIELD_BITS, LARGEST_C, SMALLEST_FIELD_BITS};

/// Shifts from 0 up to but not including this one.
const SHIFTS: usize = 8;
/// Every count up to this one: many groups of four words, and any rest behind them.
const MOST_COUNTED: usize = 150;
/// Bytes of a short field at most, and of what may stand behind the words.
const SHORT_FIELD_BYTES: usize = 40;
/// Bytes of a longer one at most.
const LONG_FIELD_BYTES: usize = 300;
/// Counts in which each word is too large once: few groups, whole ones and others.
const DAMAGED_COUNTS: [usize; 9] = [1, 4, 7, 15, 16, 17, 33, 64, 71];

/// `count` words asked for, in a room of `room` words; the shifts are of field and room.
struct Taking<'a> {
    field: &'a [u8],
    size: u32,
    count: usize,
    room: usize,
    shifts: [usize; 2],
}

impl Taking<'_> {
    /// The answer; field and room afterwards.
    fn run(&self, library: &dyn Library) -> (u8, Lent<u8>, Lent<u16>) {
        let field = lend_bytes(self.field, self.shifts[0]);
        // No word of fewer than 15 bits is that large, so one that is written shows.
        let mut room = lend_words(&vec![0x5A5A; self.room], self.shifts[1]);
        let number = library.take_words(field.get(), self.size, self.count, room.get_mut());
        (number, field, room)
    }

    fn compare(&self, library: &dyn Library) -> Result<(), String> {
        let (ours, theirs) = (self.run(&Model), self.run(library));
        if ours == theirs {
            return Ok(());
        }
        Err(format!(
            "difference in {} words of {} bits out of a field, {} bytes: {}\n  \
             room of {} words, shifts {:?}\n  model:   {}\n  library: {}\n{}{}",
            self.count,
            self.size,
            self.field.len(),
            hex(self.field),
            self.room,
            self.shifts,
            ours.0,
            theirs.0,
            first_difference("field", &ours.1, &theirs.1),
            first_difference("room", &ours.2, &theirs.2)
        ))
    }
}

/// Words to put into a field with something in it; the shifts are of words and field.
struct Putting<'a> {
    words: &'a [u16],
    size: u32,
    field: &'a [u8],
    shifts: [usize; 2],
}

impl Putting<'_> {
    /// The answer; words and field afterwards.
    fn run(&self, library: &dyn Library) -> (u8, Lent<u16>, Lent<u8>) {
        let words = lend_words(self.words, self.shifts[0]);
        let mut field = lend_bytes(self.field, self.shifts[1]);
        let number = library.put_words(words.get(), self.size, field.get_mut());
        (number, words, field)
    }

    fn compare(&self, library: &dyn Library) -> Result<(), String> {
        let (ours, theirs) = (self.run(&Model), self.run(library));
        if ours == theirs {
            return Ok(());
        }
        Err(format!(
            "difference in {} words of {} bits into a field: {}\n  \
             field before, {} bytes: {}\n  shifts {:?}\n  model:   {}\n  library: {}\n{}{}",
            self.words.len(),
            self.size,
            hex_words(self.words),
            self.field.len(),
            hex(self.field),
            self.shifts,
            ours.0,
            theirs.0,
            first_difference("words", &ours.1, &theirs.1),
            first_difference("field", &ours.2, &theirs.2)
        ))
    }
}

/// Any size, some that no word has, and often ten.
fn some_size(dice: &mut Dice) -> u32 {
    match dice.below(8) {
        0 => dice.pick(&[0, 17, 256, 266, 65_546, u32::MAX]),
        1 | 2 => 10,
        _ => dice.between(1, 16) as u32,
    }
}

/// As many as fit, one more, a few fewer or any number; now and then far too many.
fn some_count(dice: &mut Dice, fit: usize) -> usize {
    match dice.below(16) {
        0 => usize::MAX - dice.below(3),
        1..=4 => (fit + 1).saturating_sub(dice.below(6)),
        _ => dice.below(fit + 2),
    }
}

fn some_shifts(dice: &mut Dice) -> [usize; 2] {
    [dice.below(SHIFTS), dice.below(SHIFTS)]
}

fn all_shifts() -> impl Iterator<Item = [usize; 2]> {
    (0..SHIFTS * SHIFTS).map(|pair| [pair / SHIFTS, pair % SHIFTS])
}

/// Words that fit their size.
fn some_words(dice: &mut Dice, size: u32, count: usize) -> Vec<u16> {
    (0..count).map(|_| dice.below(1 << size) as u16).collect()
}

/// One bit of one word that is above its size, where there are such bits.
fn make_too_large(dice: &mut Dice, words: &mut [u16], size: u32, place: usize) {
    if size < 16 {
        words[place] |= 1 << dice.between(size as usize, 15);
    }
}

/// Drawn fields, with words out of them and others into them; rooms and fields too small and too large.
pub fn compare_drawn(library: &dyn Library, seed: u64, count: u64) -> Result<u64, String> {
    for case in 0..count {
        let mut dice = Dice::for_case(seed, case);
        let size = some_size(&mut dice);
        let most = if dice.one_in(4) { LONG_FIELD_BYTES } else { SHORT_FIELD_BYTES };
        let length = dice.below(most + 1);
        let field = dice.bytes(length);
        let fit = 8 * length / size.clamp(1, 16) as usize;
        let asked = some_count(&mut dice, fit);
        let near = dice.pick(&[fit, asked.min(fit)]);
        let room = (near + 1).saturating_sub(dice.below(4));
        Taking { field: &field, size, count: asked, room, shifts: some_shifts(&mut dice) }.compare(library)?;

        let fitting = if dice.one_in(8) { 16 } else { size.clamp(1, 16) };
        let count = dice.below(fit + 2);
        let mut words = some_words(&mut dice, fitting, count);
        if dice.one_in(4) && !words.is_empty() {
            let place = dice.below(words.len());
            make_too_large(&mut dice, &mut words, fitting, place);
        }
        Putting { words: &words, size, field: &field, shifts: some_shifts(&mut dice) }.compare(library)?;
    }
    Ok(count)
}

/// Bytes that so many words need.
fn needed(size: u32, count: usize) -> usize {
    (size as usize * count).div_ceil(8)
}

/// Bytes of a field where so many are needed: one too few, just enough, and more.
fn field_lengths(bytes: usize) -> [usize; 5] {
    [bytes.saturating_sub(1), bytes, bytes + 1, bytes + 7, bytes + SHORT_FIELD_BYTES]
}

/// The same with words of a room: one too few, just enough, and more.
fn lengths(bytes: usize, words: usize) -> Vec<(usize, usize)> {
    let rooms = [words.saturating_sub(1), words, words + 20];
    field_lengths(bytes).into_iter().flat_map(|field| rooms.map(|room| (field, room))).collect()
}

/// The field and the room in every length, at every pair of shifts.
fn take_lengths(library: &dyn Library, field: &[u8], size: u32, count: usize) -> Result<u64, String> {
    let mut compared = 0;
    for (bytes, room) in lengths(needed(size, count), count) {
        for shifts in all_shifts() {
            Taking { field: &field[..bytes], size, count, room, shifts }.compare(library)?;
            compared += 1;
        }
    }
    Ok(compared)
}

/// The words into a field of every length, at every pair of shifts.
fn put_lengths(library: &dyn Library, words: &[u16], size: u32, field: &[u8]) -> Result<u64, String> {
    let mut compared = 0;
    for bytes in field_lengths(needed(size, words.len())) {
        for shifts in all_shifts() {
            Putting { words, size, field: &field[..bytes], shifts }.compare(library)?;
            compared += 1;
        }
    }
    Ok(compared)
}

/// The words with every number of bytes of fill behind them.
fn put_fills(library: &dyn Library, dice: &mut Dice, words: &[u16], size: u32, field: &[u8]) -> Result<u64, String> {
    for bytes in needed(size, words.len())..=field.len() {
        Putting { words, size, field: &field[..bytes], shifts: some_shifts(dice) }.compare(library)?;
    }
    Ok(SHORT_FIELD_BYTES as u64 + 1)
}

/// Every size with every count, out of a field and into one.
pub fn compare_counts(library: &dyn Library, seed: u64) -> Result<u64, String> {
    let mut dice = Dice::new(seed);
    let mut compared = 0;
    for size in 1..=16 {
        for count in 0..=MOST_COUNTED {
            let field = dice.bytes(needed(size, count) + SHORT_FIELD_BYTES);
            compared += take_lengths(library, &field, size, count)?;
            let words = some_words(&mut dice, size, count);
            compared += put_lengths(library, &words, size, &field)?;
            compared += put_fills(library, &mut dice, &words, size, &field)?;
        }
    }
    Ok(compared)
}

/// One word too large, by each bit, at every place among others that are as large as they may be, or drawn.
pub fn compare_large_words(library: &dyn Library, seed: u64) -> Result<u64, String> {
    let mut dice = Dice::new(seed);
    let mut compared = 0;
    for size in 1..=15 {
        for count in DAMAGED_COUNTS {
            let field = dice.bytes(needed(size, count) + SHORT_FIELD_BYTES);
            for words in [vec![((1 << size) - 1) as u16; count], some_words(&mut dice, size, count)] {
                for place in 0..count {
                    for bit in size..=15 {
                        let mut words = words.clone();
                        words[place] |= 1 << bit;
                        let bytes = needed(size, count) + dice.below(SHORT_FIELD_BYTES + 1);
                        let shifts = some_shifts(&mut dice);
                        Putting { words: &words, size, field: &field[..bytes], shifts }.compare(library)?;
                        compared += 1;
                    }
                }
            }
        }
    }
    Ok(compared)
}

/// The shortest field, that of blocks 0 and 11, and the longest, in words of each size that a block has: few of them,
/// and as many as the shortest field and this one hold, and up to eight more or fewer.
pub fn compare_long_fields(library: &dyn Library, seed: u64) -> Result<u64, String> {
    let mut dice = Dice::new(seed);
    let mut compared = 0;
    for bits in [SMALLEST_FIELD_BITS, FIXED_FIELD_BITS, field_bits(1, LARGEST_C)] {
        let field = dice.bytes(bits / 8);
        for size in [6, 8, 10] {
            for near in [68, SMALLEST_FIELD_BITS / size, bits / size] {
                for count in near - 8..=near + 8 {
                    compared += compare_long(library, &mut dice, &field, size as u32, count)?;
                }
            }
        }
    }
    Ok(compared)
}

/// So many words out of a field, into it, and into it with one too large.
fn compare_long(library: &dyn Library, dice: &mut Dice, field: &[u8], size: u32, count: usize) -> Result<u64, String> {
    for room in [count - 1, count, count + 20] {
        Taking { field, size, count, room, shifts: some_shifts(dice) }.compare(library)?;
    }
    let mut words = some_words(dice, size, count);
    Putting { words: &words, size, field, shifts: some_shifts(dice) }.compare(library)?;
    let place = dice.below(count);
    make_too_large(dice, &mut words, size, place);
    Putting { words: &words, size, field, shifts: some_shifts(dice) }.compare(library)?;
    Ok(5)
}

/// `count` drawn fields, every count, too large words at every place, and long fields.
pub fn compare_words(library: &dyn Library, seed: u64, count: u64) -> Result<u64, String> {
    Ok(compare_drawn(library, seed, count)?
        + compare_counts(library, seed)?
        + compare_large_words(library, seed)?
        + compare_long_fields(library, seed)?)
}

#[cfg(test)]
mod tests {
    use super::*;
    use std::collections::BTreeSet;

    #[test]
    fn every_count_meets_every_answer() {
        for count in 1..=MOST_COUNTED {
            let field = vec![0; 2 * count + SHORT_FIELD_BYTES];
            for size in 1..=16 {
                let answers: BTreeSet<u8> = lengths(needed(size, count), count)
                    .into_iter()
                    .map(|(bytes, room)| Model.take_words(&field[..bytes], size, count, &mut vec![0; room]))
                    .collect();
                assert_eq!(answers, [0, 8, 9].into(), "{count} words of {size} bits");
                let answers: BTreeSet<u8> = field_lengths(needed(size, count))
                    .into_iter()
                    .map(|bytes| Model.put_words(&vec![0; count], size, &mut field.clone()[..bytes]))
                    .collect();
                assert_eq!(answers, [0, 9].into(), "{count} words of {size} bits into a field");
            }
        }
    }
}
