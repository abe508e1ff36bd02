//! Sounder documentation blocks: a good one and what is put into it, and drawn ones from seeded dice, with all that is
//! read from them varied, and spoilt on one ground of refusal or on several at once. Words are counted from 1.

use std::collections::BTreeSet;

use crate::compare::Case;
use crate::inputs::{digits, lent_tag, sound_tag, Dice};
use crate::leaps::{bad_list, good_list, some_date, tag_near_end, Date};
use crate::status::{Detector, BITS, BLOCK_COUNT, EAST, FRAME, RAW_COUNT, TAGS, WEST};
use crate::tags::Tag;

pub const WORDS: usize = 8_040;
/// The word whose last four bits are spare.
pub const LAST_STATUS_WORD: usize = 42;

pub fn put_number(words: &mut [u16], first: usize, number: u32) {
    words[first - 1] = (number / 256) as u16;
    words[first] = (number % 256) as u16;
}

pub fn put_frame(words: &mut [u16], frame: &[u32; 7]) {
    (181..).step_by(2).zip(frame).for_each(|(first, number)| put_number(words, first, *number));
}

/// The bits of these detectors, counted from 0, and zeros for the others and behind them.
pub fn put_suspects(words: &mut [u16], places: impl IntoIterator<Item = usize>) {
    words[32..42].fill(0);
    for place in places {
        words[32 + place / 8] |= 0x80 >> (place % 8);
    }
}

/// Tags are counted from 0.
pub fn put_tag(words: &mut [u16], tag: usize, bytes: &[u8; 8]) {
    for (word, byte) in words[58 + 8 * tag..].iter_mut().zip(bytes) {
        *word = (*byte).into();
    }
}

/// A good tag that no other of a block is equal to.
pub fn tag_of_block(tag: usize) -> Tag {
    let k = tag as u8;
    let (hour, minute, second) = (k, 20 + k, 40 + k);
    Tag { year: 2008, day: 60 + k as u16, hour, minute, second, millisecond: 500 + k as u16, flywheel: k % 2 == 1 }
}

/// A good block without suspect detectors, all of whose numbers and tags differ.
pub fn good_block() -> Vec<u16> {
    let mut words: Vec<u16> = (1..=WORDS).map(|number| (number * 7 % 251 + 1) as u16).collect();
    put_suspects(&mut words, []);
    put_number(&mut words, RAW_COUNT, 263);
    put_number(&mut words, BLOCK_COUNT, 25);
    put_frame(&mut words, &[12, 300, 500, 700, 1_300, 350, 600]);
    for tag in 0..TAGS {
        put_tag(&mut words, tag, &digits(&tag_of_block(tag)));
    }
    words
}

/// The detector of a bit, counted from 0.
pub fn detector_of(place: usize) -> Detector {
    (place as u32 / 4 + 1, place as u32 % 4 + 1)
}

// ---- drawn blocks ----

/// A block in the making, and the list that is lent with it.
struct Draft {
    words: Vec<u16>,
    suspects: Vec<usize>,
    leap_days: Vec<u32>,
    /// The day near whose end some of the tags are.
    date: Date,
}

fn some_words(dice: &mut Dice) -> Vec<u16> {
    match dice.below(5) {
        0 => vec![0; WORDS],
        1 => vec![255; WORDS],
        _ => dice.bytes(WORDS).into_iter().map(u16::from).collect(),
    }
}

fn some_suspects(dice: &mut Dice) -> Vec<usize> {
    let place = dice.below(BITS);
    match dice.below(6) {
        0 => vec![place],
        1 => (place..BITS).collect(),
        2 => (0..=place).collect(),
        _ => {
            let percent = dice.pick(&[0, 2, 5, 20, 50, 90, 98, 100]);
            (0..BITS).filter(|_| dice.below(100) < percent).collect()
        }
    }
}

fn some_count(dice: &mut Dice) -> u32 {
    match dice.below(3) {
        0 => dice.pick(&[0, 1, 2, 132, 255, 256, 523, 1_434, 5_736, 5_737, 32_768, 65_280, 65_535]),
        1 => dice.below(2_000) as u32,
        _ => dice.below(65_536) as u32,
    }
}

fn in_range(dice: &mut Dice, least: u32, most: u32) -> u32 {
    match dice.below(5) {
        0 => least,
        1 => most,
        2 => dice.pick(&[least + 1, most - 1, 255, 256, 257]),
        _ => dice.between(least as usize, most as usize) as u32,
    }
}

fn pixel_up_to(dice: &mut Dice, most: u32) -> u32 {
    match dice.below(5) {
        0 => most,
        1 => 1,
        _ => dice.between(1, most as usize) as u32,
    }
}

/// North and south may stand to each other as they like.
fn put_some_frame(dice: &mut Dice, words: &mut [u16]) {
    let mut frame = FRAME.map(|(_, least, most)| in_range(dice, least, most));
    frame[3] = pixel_up_to(dice, frame[4].min(1_754));
    put_frame(words, &frame);
}

/// A good tag, one that may be good by a list only, or any eight bytes.
fn some_tag(dice: &mut Dice, date: Date) -> [u8; 8] {
    match dice.below(8) {
        0..=2 => sound_tag(dice),
        3..=5 => digits(&tag_near_end(dice, date)),
        6 => lent_tag(dice).try_into().unwrap_or([0; 8]),
        _ => dice.bytes(8).try_into().unwrap(),
    }
}

fn good_draft(dice: &mut Dice) -> Draft {
    let date = some_date(dice);
    let leap_days = if dice.one_in(3) { vec![] } else { good_list(dice, date) };
    let (mut words, suspects) = (some_words(dice), some_suspects(dice));
    put_suspects(&mut words, suspects.iter().copied());
    put_number(&mut words, RAW_COUNT, some_count(dice));
    put_number(&mut words, BLOCK_COUNT, some_count(dice));
    put_some_frame(dice, &mut words);
    let all_sound = dice.one_in(4);
    for tag in 0..TAGS {
        let bytes = if all_sound { sound_tag(dice) } else { some_tag(dice, date) };
        put_tag(&mut words, tag, &bytes);
    }
    Draft { words, suspects, leap_days, date }
}

// ---- grounds of refusal ----

/// Where the block and the parts that are read begin and end, and their neighbours; the ends of the block twice.
const EDGES: [usize; 26] =
    [1, 1, 2, 31, 32, 33, 41, 42, 43, 44, 45, 46, 47, 58, 59, 66, 178, 179, 180, 181, 187, 189, 194, 195, WORDS, WORDS];

/// One too large or several; some of them are good where they are cut to a byte.
fn put_large_words(dice: &mut Dice, draft: &mut Draft) {
    for _ in 0..dice.pick(&[1, 1, 1, 2, 5]) {
        let at = if dice.one_in(3) { dice.between(1, WORDS) } else { dice.pick(&EDGES) };
        let word = &mut draft.words[at - 1];
        *word = match dice.below(4) {
            0 | 1 => *word % 256 + 256,
            2 => dice.pick(&[256, 264, 512, 32_768, 65_535]),
            _ => dice.between(256, 65_535) as u16,
        };
    }
}

fn put_spare_bits(dice: &mut Dice, draft: &mut Draft) {
    draft.words[LAST_STATUS_WORD - 1] |= if dice.one_in(3) { dice.between(1, 15) as u16 } else { 1 << dice.below(4) };
}

fn out_of(dice: &mut Dice, least: u32, most: u32) -> u32 {
    match dice.below(8) {
        0..=2 => least - 1,
        3..=5 => most + 1,
        6 => dice.pick(&[0, 1_759, 2_048, 32_768, 65_280, 65_535]),
        _ => dice.between(most as usize + 1, 65_535) as u32,
    }
}

fn put_out_of_range(dice: &mut Dice, words: &mut [u16], field: usize) {
    let (first, least, most) = FRAME[field];
    let number = out_of(dice, least, most);
    put_number(words, first, number);
    // An eastern pixel that is too low should not be below the western one always.
    if first == EAST && number < least && !dice.one_in(3) {
        put_number(words, WEST, pixel_up_to(dice, number.max(1)));
    }
}

fn cross_pixels(dice: &mut Dice, words: &mut [u16]) {
    let east = dice.between(5, 1_753) as u32;
    let west = if dice.one_in(2) { east + 1 } else { dice.between(east as usize + 1, 1_754) as u32 };
    put_number(words, EAST, east);
    put_number(words, WEST, west);
}

/// One field or several, the pixels crossed as often as one of them is out of its own range.
fn spoil_frame(dice: &mut Dice, draft: &mut Draft) {
    for _ in 0..dice.pick(&[1, 1, 1, 2, 3]) {
        match dice.below(FRAME.len() + 1) {
            7 => cross_pixels(dice, &mut draft.words),
            field => put_out_of_range(dice, &mut draft.words, field),
        }
    }
}

fn spoil_list(dice: &mut Dice, draft: &mut Draft) {
    draft.leap_days = bad_list(dice, draft.date);
}

fn spoil_length(dice: &mut Dice, draft: &mut Draft) {
    let length = match dice.below(3) {
        0 => dice.pick(&[0, 1, 42, 194, 6_432, 8_042, 10_720, 16_080, 65_536 + WORDS]),
        1 => WORDS + 1,
        _ => WORDS - 1,
    };
    draft.words.resize(length, dice.pick(&[0, 255, 256]));
}

type Spoil = fn(&mut Dice, &mut Draft);
/// In the order in which they can be put into one block.
const SPOIL: [Spoil; 5] = [put_large_words, put_spare_bits, spoil_frame, spoil_list, spoil_length];

fn draft(dice: &mut Dice) -> Draft {
    let mut draft = good_draft(dice);
    let grounds: BTreeSet<usize> =
        (0..dice.pick(&[0, 0, 0, 1, 1, 1, 1, 2, 2, 3])).map(|_| dice.pick(&[0, 1, 2, 2, 2, 3, 4])).collect();
    grounds.into_iter().for_each(|ground| SPOIL[ground](dice, &mut draft));
    draft
}

// ---- detectors asked for ----

/// Numbers of no detector, some of which are one where they are cut to a byte or two.
fn outside(dice: &mut Dice, most: u32) -> u32 {
    match dice.below(5) {
        0 => 0,
        1 => most + 1,
        2 | 3 => dice.pick(&[256, 512, 65_536, 1 << 24, 1 << 31]) + dice.below(most as usize + 1) as u32,
        _ => dice.pick(&[most + 2, 128, 255, 256, 65_535, u32::MAX - 1, u32::MAX]),
    }
}

/// A suspect one or its neighbour as often as any other.
fn some_detector(dice: &mut Dice, suspects: &[usize]) -> Detector {
    if suspects.is_empty() || dice.one_in(2) {
        return detector_of(dice.below(BITS));
    }
    let suspect = dice.pick(suspects);
    detector_of(dice.pick(&[suspect, suspect, suspect.saturating_sub(1), (suspect + 1).min(BITS - 1)]))
}

fn asked(dice: &mut Dice, suspects: &[usize]) -> Detector {
    let (channel, detector) = some_detector(dice, suspects);
    match dice.below(12) {
        0 => (outside(dice, 19), detector),
        1 => (channel, outside(dice, 4)),
        2 => (outside(dice, 19), outside(dice, 4)),
        _ => (channel, detector),
    }
}

/// The status of a block, or one of its detectors.
pub fn case(dice: &mut Dice) -> Case {
    let Draft { words, suspects, leap_days, .. } = draft(dice);
    let shift = dice.below(8);
    if dice.one_in(2) {
        return Case::Status { words, leap_days, shift };
    }
    let (channel, detector) = asked(dice, &suspects);
    Case::Suspect { words, leap_days, channel, detector, shift }
}

#[cfg(test)]
mod tests {
    use super::*;
    use crate::inputs::Dice;
    use crate::status;

    #[test]
    fn the_good_block_is_good() {
        let answer = status::status(&good_block(), &[]);
        assert_eq!((answer.number, answer.suspects, answer.first), (0, 0, (0, 0)));
        assert_eq!((answer.raw_count, answer.block_count), (263, 25));
        assert_eq!(answer.frame, [12, 300, 500, 700, 1_300, 350, 600]);
        assert_eq!(answer.tags, std::array::from_fn(|tag| (0, tag_of_block(tag))));
    }

    #[test]
    fn drafts_are_good_before_they_are_spoilt() {
        let mut dice = Dice::new(31);
        for _ in 0..2_000 {
            let Draft { words, suspects, leap_days, .. } = good_draft(&mut dice);
            let answer = status::status(&words, &leap_days);
            assert_eq!((answer.number, answer.suspects), (0, suspects.len() as u32));
        }
    }

    /// Each ground by itself refuses, but for a list now and then, where two faults undo one another.
    #[test]
    fn each_ground_refuses() {
        let mut dice = Dice::new(32);
        for (spoil, number) in SPOIL.into_iter().zip([14, 21, 22, 19, 8]) {
            let mut refused = 0;
            for _ in 0..500 {
                let mut draft = good_draft(&mut dice);
                spoil(&mut dice, &mut draft);
                let answer = status::status(&draft.words, &draft.leap_days).number;
                assert!([0, number].contains(&answer), "{answer} for {number}");
                refused += usize::from(answer == number);
            }
            assert!(refused == 500 || number == 19 && refused > 480, "{number}: {refused}");
        }
    }
}
