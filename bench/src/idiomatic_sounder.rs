//! Idiomatic Rust: a status of named numbers, ranges, the 80 bits of the detectors in one number; at the end the same
//! functions as the two others have.

use std::ops::RangeInclusive;

use crate::idiomatic_tags::{LeapDays, Time};

const WORDS: usize = 8_040;
const CHANNELS: u32 = 19;
const DETECTORS: u32 = 4;
/// Bits behind those of the detectors.
const SPARE: u32 = 4;
/// The frame fields, of two words each from word 181 on. The fourth is the western pixel, the fifth the eastern one.
const RANGES: [RangeInclusive<u32>; 7] = [1..=396, 1..=396, 1..=1_579, 1..=1_754, 5..=1_758, 1..=1_579, 4..=1_582];
const EAST: usize = 4;

/// A number, and with 22 a word.
#[derive(Clone, Copy)]
pub struct Refused {
    pub number: u8,
    pub word: u32,
}

impl From<u8> for Refused {
    fn from(number: u8) -> Refused {
        Refused { number, word: 0 }
    }
}

pub struct Status {
    suspects: u32,
    /// The channel and the detector.
    first: Option<(u32, u32)>,
    raw_blocks: u32,
    blocks: u32,
    frame: [u32; 7],
    tags: [Result<Time, u8>; 15],
}

/// A block that is good, and what is asked for of it.
struct Block<'a> {
    words: &'a [u16; WORDS],
    leap_days: LeapDays<'a>,
    detectors: u128,
    frame: [u32; 7],
}

fn pair(words: &[u16; WORDS], word: usize) -> u32 {
    u32::from(words[word - 1]) << 8 | u32::from(words[word])
}

impl<'a> Block<'a> {
    fn new(words: &'a [u16], leap_days: &'a [u32]) -> Result<Self, Refused> {
        let words: &[u16; WORDS] = words.try_into().map_err(|_| 8)?;
        if words.iter().any(|&word| word > 255) {
            return Err(14.into());
        }
        let detectors = words[32..42].iter().fold(0, |bits, &word| bits << 8 | u128::from(word));
        if detectors.trailing_zeros() < SPARE {
            return Err(21.into());
        }
        let frame = std::array::from_fn(|field| pair(words, 181 + 2 * field));
        let in_range =
            |field: usize| RANGES[field].contains(&frame[field]) && (field != EAST || frame[EAST - 1] <= frame[EAST]);
        if let Some(field) = (0..RANGES.len()).find(|&field| !in_range(field)) {
            return Err(Refused { number: 22, word: 181 + 2 * field as u32 });
        }
        Ok(Block { words, leap_days: LeapDays::new(leap_days)?, detectors: detectors >> SPARE, frame })
    }

    fn status(&self) -> Status {
        let suspects = self.detectors.count_ones();
        let before = self.detectors.leading_zeros() - (u128::BITS - CHANNELS * DETECTORS);
        let tag = |k: usize| {
            let bytes: [u8; 8] = std::array::from_fn(|i| self.words[58 + 8 * k + i] as u8);
            Time::parse(&bytes, self.leap_days)
        };
        Status {
            suspects,
            first: (suspects > 0).then_some((before / DETECTORS + 1, before % DETECTORS + 1)),
            raw_blocks: pair(self.words, 43),
            blocks: pair(self.words, 45),
            frame: self.frame,
            tags: std::array::from_fn(tag),
        }
    }

    fn suspect(&self, channel: u32, detector: u32) -> Result<bool, Refused> {
        if !(1..=CHANNELS).contains(&channel) || !(1..=DETECTORS).contains(&detector) {
            return Err(13.into());
        }
        let behind = (CHANNELS - channel) * DETECTORS + DETECTORS - detector;
        Ok(self.detectors >> behind & 1 == 1)
    }
}

pub fn sounder_status(words: &[u16], leap_days: &[u32]) -> Result<Status, Refused> {
    Block::new(words, leap_days).map(|block| block.status())
}

pub fn sounder_suspect(words: &[u16], leap_days: &[u32], channel: u32, detector: u32) -> Result<bool, Refused> {
    Block::new(words, leap_days)?.suspect(channel, detector)
}

/// The two functions of sounder.h. Where a length is 0 the pointer is not followed.
pub(crate) mod c {
    use super::{Status, Time};
    use crate::idiomatic_tags::c::{lent, numbers};

    fn tag_numbers(tag: Result<Time, u8>) -> [u32; 8] {
        let [year, day, hour, minute, second, ms, flywheel] = numbers(tag.unwrap_or_default());
        [tag.err().unwrap_or(0).into(), year, day, hour, minute, second, ms, flywheel]
    }

    pub unsafe extern "C" fn idiomatic_sounder_status(
        words: *const u16,
        len: usize,
        days: *const u32,
        count: usize,
        status: *mut [u32; 13],
        tags: *mut [[u32; 8]; 15],
    ) -> u8 {
        (*status, *tags) = ([0; 13], [[0; 8]; 15]);
        match super::sounder_status(lent(words, len), lent(days, count)) {
            Ok(Status { suspects, first, raw_blocks, blocks, frame, tags: said }) => {
                let (channel, detector) = first.unwrap_or_default();
                let [a, b, c, d, e, f, g] = frame;
                *status = [0, suspects, channel, detector, raw_blocks, blocks, a, b, c, d, e, f, g];
                *tags = said.map(tag_numbers);
                0
            }
            Err(refused) => {
                (*status)[0] = refused.word;
                refused.number
            }
        }
    }

    pub unsafe extern "C" fn idiomatic_sounder_suspect(
        words: *const u16,
        len: usize,
        days: *const u32,
        count: usize,
        channel: u32,
        detector: u32,
        word: *mut u32,
        suspect: *mut u8,
    ) -> u8 {
        let answer = super::sounder_suspect(lent(words, len), lent(days, count), channel, detector);
        *word = answer.err().map_or(0, |refused| refused.word);
        *suspect = answer.unwrap_or(false).into();
        answer.err().map_or(0, |refused| refused.number)
    }
}
