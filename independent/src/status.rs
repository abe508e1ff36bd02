//! The Sounder's status, from the words of its documentation block (Table 3-10): which detectors are suspect, two
//! counts, seven frame fields and fifteen time tags. Words are counted from 1, as the table counts them.

use std::ops::RangeInclusive;

use crate::library::{StatusAnswer, SuspectAnswer};
use crate::parity::eight_bit_words;
use crate::tags::{self, LeapDays, Tag};

/// A channel and one of its detectors.
pub type Detector = (u32, u32);

const CHANNELS: RangeInclusive<u32> = 1..=19;
const DETECTORS: RangeInclusive<u32> = 1..=4;

/// The words of the detectors' bits.
const STATUS: RangeInclusive<usize> = 33..=42;
/// How many of those bits are a detector's; those behind them are spare.
pub const BITS: usize = 76;

/// Numbers of two words go by the first of them.
pub const RAW_COUNT: usize = 43;
pub const BLOCK_COUNT: usize = 45;

pub const TAGS: usize = 15;
const FIRST_TAG: usize = 59;
const TAG_WORDS: usize = 8;

/// The frame fields in word order: first word, least and most, as Table 3-10 prints them.
pub const FRAME: [(usize, u32, u32); 7] = [
    (181, 1, 396),   // RSSCT
    (183, 1, 396),   // ASSCT
    (185, 1, 1_579), // SNSLN
    (187, 1, 1_754), // SWFPX
    (189, 5, 1_758), // SEFPX
    (191, 1, 1_579), // SNFLN
    (193, 4, 1_582), // SSFLN
];
pub const WEST: usize = 187;
pub const EAST: usize = 189;

fn word(words: &[u16], number: usize) -> u32 {
    words[number - 1].into()
}

/// Two words, the high one first.
pub fn number(words: &[u16], first: usize) -> u32 {
    256 * word(words, first) + word(words, first + 1)
}

/// All eighty status bits in the order sent, each word's highest first.
pub fn bits(words: &[u16]) -> Vec<bool> {
    let mut bits = Vec::new();
    for number in STATUS {
        for worth in [128, 64, 32, 16, 8, 4, 2, 1] {
            bits.push(word(words, number) / worth % 2 == 1);
        }
    }
    bits
}

/// Every detector, in the order of their bits.
pub fn detectors() -> impl Iterator<Item = Detector> {
    CHANNELS.flat_map(|channel| DETECTORS.map(move |detector| (channel, detector)))
}

/// Those whose bits are set, in that order.
fn suspects(words: &[u16]) -> Vec<Detector> {
    detectors().zip(bits(words)).filter(|(_, bit)| *bit).map(|(detector, _)| detector).collect()
}

fn has_spare_bit(words: &[u16]) -> bool {
    bits(words)[BITS..].contains(&true)
}

/// The eastern field is out of its range also where the western one is above it.
fn is_out_of_range(words: &[u16], (first, least, most): (usize, u32, u32)) -> bool {
    let field = number(words, first);
    field < least || field > most || first == EAST && number(words, WEST) > field
}

/// The first word of the lowest frame field out of its range.
fn out_of_range(words: &[u16]) -> Option<u32> {
    FRAME.into_iter().find(|field| is_out_of_range(words, *field)).map(|(first, ..)| first as u32)
}

/// The eight words of a tag, counted from 0, as bytes.
pub fn tag_bytes(words: &[u16], tag: usize) -> Vec<u8> {
    let first = FIRST_TAG + TAG_WORDS * tag;
    (first..first + TAG_WORDS).map(|number| word(words, number) as u8).collect()
}

/// A bad tag has zeros with its number.
fn read_tag(words: &[u16], tag: usize, leap_days: &LeapDays) -> (u8, Tag) {
    match tags::try_read(&tag_bytes(words, tag), leap_days) {
        Ok(tag) => (0, tag),
        Err(number) => (number, Tag::default()),
    }
}

/// A number of refusal, and the word that it names: 0 but for 22.
pub type Refusal = (u8, u32);

/// What is tested whether or not a detector is asked for; the leap days by which the tags are read.
fn judge(words: &[u16], lent: &[u32]) -> Result<LeapDays, Refusal> {
    eight_bit_words(words).map_err(|number| (number, 0))?;
    if has_spare_bit(words) {
        return Err((21, 0));
    }
    if let Some(first) = out_of_range(words) {
        return Err((22, first));
    }
    tags::leap_days(lent).map_err(|number| (number, 0))
}

pub fn status(words: &[u16], lent: &[u32]) -> StatusAnswer {
    let leap_days = match judge(words, lent) {
        Ok(leap_days) => leap_days,
        Err((number, word)) => return StatusAnswer::refused(number, word),
    };
    let suspects = suspects(words);
    StatusAnswer {
        number: 0,
        word: 0,
        suspects: suspects.len() as u32,
        first: suspects.first().copied().unwrap_or((0, 0)),
        raw_count: number(words, RAW_COUNT),
        block_count: number(words, BLOCK_COUNT),
        frame: FRAME.map(|(first, ..)| number(words, first)),
        tags: std::array::from_fn(|tag| read_tag(words, tag, &leap_days)),
    }
}

/// Whether one detector is suspect.
pub fn suspect(words: &[u16], lent: &[u32], channel: u32, detector: u32) -> SuspectAnswer {
    if let Err((number, word)) = judge(words, lent) {
        return SuspectAnswer::refused(number, word);
    }
    if !CHANNELS.contains(&channel) || !DETECTORS.contains(&detector) {
        return SuspectAnswer::refused(13, 0);
    }
    SuspectAnswer { number: 0, word: 0, suspect: suspects(words).contains(&(channel, detector)) }
}

#[cfg(test)]
mod tests {
    use super::*;

    /// A block of zeros but for its frame, which is as wide as can be.
    fn block() -> Vec<u16> {
        let mut words = vec![0; 8_040];
        for (first, value) in (181..).step_by(2).zip([1, 1, 1, 1, 1_758, 1, 1_582]) {
            put(&mut words, first, value);
        }
        words
    }

    fn put(words: &mut [u16], first: usize, value: u16) {
        words[first - 1] = value / 256;
        words[first] = value % 256;
    }

    fn with(changes: &[(usize, u16)]) -> Vec<u16> {
        let mut words = block();
        changes.iter().for_each(|(number, word)| words[number - 1] = *word);
        words
    }

    fn refusal(words: &[u16]) -> Refusal {
        let answer = status(words, &[]);
        (answer.number, answer.word)
    }

    #[test]
    fn detectors_stand_in_the_order_of_their_bits() {
        let all: Vec<Detector> = detectors().collect();
        assert_eq!(all.len(), BITS);
        assert_eq!(all[..5], [(1, 1), (1, 2), (1, 3), (1, 4), (2, 1)]);
        assert_eq!(all[75], (19, 4));
        for (word, bit, detector) in
            [(33, 0x80, (1, 1)), (33, 0x10, (1, 4)), (33, 1, (2, 4)), (34, 0x80, (3, 1)), (42, 0x10, (19, 4))]
        {
            assert_eq!(suspects(&with(&[(word, bit)])), [detector]);
        }
    }

    /// Of all the numbers that two words can have; the bounds themselves are held to those printed elsewhere.
    #[test]
    fn a_field_is_good_in_its_range_and_nowhere_else() {
        let mut words = block();
        for (first, least, most) in FRAME {
            let before = words.clone();
            for value in 0..=u16::MAX {
                put(&mut words, first, value);
                let is_good = (least..=most).contains(&value.into());
                assert_eq!(out_of_range(&words), if is_good { None } else { Some(first as u32) }, "{value}");
            }
            words = before;
        }
    }

    #[test]
    fn a_west_above_its_east_is_the_eastern_field() {
        for (west, east, wanted) in [(5, 5, (0, 0)), (6, 5, (22, 189)), (256, 255, (22, 189)), (1_755, 5, (22, 187))] {
            let mut words = block();
            put(&mut words, WEST, west);
            put(&mut words, EAST, east);
            assert_eq!(refusal(&words), wanted, "{west}, {east}");
        }
    }

    /// The fifteen tags fill words 59 to 178, and none is read from the words beside them.
    #[test]
    fn tags_fill_their_words() {
        let numbered: Vec<u16> = (1..=8_040).map(|number| number % 256).collect();
        let bytes: Vec<u8> = (0..TAGS).flat_map(|tag| tag_bytes(&numbered, tag)).collect();
        assert_eq!(bytes, (59..=178).collect::<Vec<u8>>());
    }

    #[test]
    fn the_number_that_decides_comes_first() {
        let grounds: [(&[(usize, u16)], Refusal); 4] = [
            (&[(8_040, 256), (42, 1), (181, 9)], (14, 0)),
            (&[(42, 1), (181, 9)], (21, 0)),
            (&[(185, 9), (193, 9)], (22, 185)),
            (&[(193, 9)], (22, 193)),
        ];
        for (changes, wanted) in grounds {
            let answer = status(&with(changes), &[0]);
            assert_eq!((answer.number, answer.word), wanted);
        }
        assert_eq!(status(&block(), &[0]).number, 19);
        assert_eq!(suspect(&block(), &[0], 20, 5).number, 19);
        assert_eq!(suspect(&block(), &[], 20, 5).number, 13);
        assert_eq!(status(&[256; 8_039], &[0]).number, 8);
    }
}
