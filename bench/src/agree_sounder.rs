//! The ways to judge a Sounder documentation block against the library, on drawn blocks.

use independent::inputs::Dice;
use independent::leaps::{clock, successive};
use independent::tags::spell;

use crate::sounder::{Left, SounderWay, BASELINES, LIBRARY};

const WORDS: usize = 8_040;
/// The range of each frame field, and a number well inside it.
const FRAME: [(usize, usize, usize); 7] = [
    (1, 396, 12),
    (1, 396, 100),
    (1, 1_579, 397),
    (1, 1_754, 600),
    (5, 1_758, 1_200),
    (1, 1_579, 349),
    (4, 1_582, 598),
];

/// A block that is good as a rule.
fn block(dice: &mut Dice) -> Vec<u16> {
    let mut words: Vec<u16> = dice.bytes(WORDS).into_iter().map(u16::from).collect();
    if dice.one_in(3) {
        words[32..42].fill(0);
    }
    words[41] &= 0xF0;
    for (field, (least, most, usual)) in FRAME.into_iter().enumerate() {
        let number = match dice.below(40) {
            0 => least,
            1 => most,
            2 => dice.pick(&[least - 1, most + 1, 65_535]),
            _ => usual + dice.below(100),
        };
        (words[180 + 2 * field], words[181 + 2 * field]) = ((number >> 8) as u16, (number & 255) as u16);
    }
    for k in 0..15 {
        words[58 + 8 * k..][..8].copy_from_slice(&tag(dice).map(u16::from));
    }
    spoil(dice, &mut words);
    words
}

/// A tag near the days that are listed, in second 60 of some, or any bytes.
fn tag(dice: &mut Dice) -> [u8; 8] {
    if dice.one_in(8) {
        return std::array::from_fn(|_| dice.byte());
    }
    let (minute, second) = dice.pick(&[(59, 60), (59, 59), (30, 20)]);
    spell(&clock((2016, dice.between(300, 366) as u16), 23, minute, second))
}

fn spoil(dice: &mut Dice, words: &mut Vec<u16>) {
    match dice.below(24) {
        0 => drop(words.pop()),
        1 => words.push(0),
        2 => words.clear(),
        3 | 4 => {
            let at = dice.below(WORDS);
            words[at] += 256;
        }
        5 | 6 => words[41] |= 1 << dice.below(4),
        _ => {}
    }
}

/// None, some or 64 days at the end of 2016, or a list that is none.
fn list(dice: &mut Dice) -> Vec<u32> {
    let count = dice.pick(&[0, 0, 1, 7, 64, 65]);
    let mut days = successive((2016, 301), count);
    if count > 1 && dice.one_in(4) {
        let at = dice.between(1, count - 1);
        days[at] = dice.pick(&[days[at - 1], 2_015_366, 0]);
    }
    days
}

/// How many blocks were compared; of them those accepted, and those refused for a frame field.
#[derive(Default)]
pub struct Compared {
    pub blocks: u64,
    pub accepted: u64,
    pub out_of_range: u64,
}

fn judged(way: &SounderWay, words: &[u16], leap_days: &[u32], channel: u32, detector: u32) -> [Left; 2] {
    let mut left = [Left::default(), Left::default()];
    way.status(words, leap_days, &mut left[0]);
    way.suspect(words, leap_days, channel, detector, &mut left[1]);
    left
}

impl Compared {
    /// All three on one block, and on a detector that may be none.
    pub fn compare(&mut self, dice: &mut Dice) {
        let (words, leap_days) = (block(dice), list(dice));
        let (channel, detector) = (dice.below(21) as u32, dice.below(6) as u32);
        let expected = judged(&LIBRARY, &words, &leap_days, channel, detector);
        for way in &BASELINES {
            let got = judged(way, &words, &leap_days, channel, detector);
            assert_eq!(got, expected, "{} {channel}/{detector} {leap_days:?} {words:?}", way.name);
        }
        self.blocks += 1;
        self.accepted += (expected[0].answer == 0) as u64;
        self.out_of_range += (expected[0].answer == 22) as u64;
    }
}
