//! Offers of valid blocks and of fill, from seeded dice: scans that complete or are closed in any way, with strays and
//! refused offers among them, and lent records whose sets are in bounds or not.

use crate::compare::{Case, Offer, Start};
use crate::inputs::{begin_case, digits, lent_tag, lent_watch, some_limit, Dice};
use crate::leaps::{bad_list, good_list, leap_tag_at, some_date, Date};
use crate::tags::leap_days;
use crate::watch::{self, Watch, LONGEST_WAIT, VALID};

/// Words of fill; some of them are 1 where they are kept in a byte or two, or end in a one.
const FILL_WORDS: [u32; 19] =
    [0, 0, 2, 2, 3, 127, 128, 129, 254, 255, 255, 256, 257, 257, 65_535, 65_536, 65_537, 1 << 31, u32::MAX];

fn fill_word(dice: &mut Dice) -> u32 {
    match dice.below(10) {
        0 => dice.roll() as u32,
        1 => dice.byte().into(),
        _ => dice.pick(&FILL_WORDS),
    }
}

/// Offers, each made by what the watch stands at before it.
struct Scan {
    watch: Watch,
    date: Date,
    list: Vec<u32>,
    /// When a scan begins.
    opening: i64,
    /// How many blocks of a hundred are fill.
    fill: usize,
    /// In how many places of a hundred something else is offered than what goes on with the scan.
    noise: usize,
}

impl Scan {
    fn new(dice: &mut Dice, watch: Watch, noise: usize) -> Scan {
        let date = some_date(dice);
        let list = if dice.one_in(4) { good_list(dice, date) } else { vec![] };
        // In the first thirty years, whose times are quickly counted.
        let opening = dice.below(1_000_000_000_000) as i64;
        Scan { watch, date, list, opening, fill: dice.pick(&[0, 5, 20, 50, 50, 80, 100]), noise }
    }

    fn limit(&self) -> i64 {
        self.watch.limit.min(LONGEST_WAIT).into()
    }

    /// A tag so long behind the last one.
    fn tag(&self, dice: &mut Dice, wait: i64) -> Vec<u8> {
        let days = leap_days(&self.list).unwrap_or_default();
        let followed = self.watch.open && self.watch.tag.in_bounds(&days);
        let last = if followed { self.watch.tag.time(&days) } else { self.opening };
        digits(&leap_tag_at(last + wait, &days, dice.one_in(4))).to_vec()
    }

    fn wait(&self, dice: &mut Dice) -> i64 {
        match dice.below(4) {
            0 => self.limit(),
            1 => 0,
            _ => dice.below(self.limit() as usize + 1) as i64,
        }
    }

    fn wait_that_closes(&self, dice: &mut Dice) -> i64 {
        dice.pick(&[-1, -1_000, -86_400_000, self.limit() + 1, self.limit() + 1_000, self.limit() + 86_400_000])
    }

    fn expected(&self) -> u8 {
        if self.watch.open {
            self.watch.expected
        } else {
            0
        }
    }

    fn other_block(&self, dice: &mut Dice) -> u8 {
        let next = self.watch.expected.wrapping_add(1);
        let last = self.watch.expected.wrapping_sub(1);
        let near = dice.pick(&[0, 0, 0, 1, 10, 11, next, last, last]);
        if dice.one_in(3) {
            dice.below(12) as u8
        } else {
            near
        }
    }

    /// What goes on with the scan but for its tag, its block or its list, or several of them, which are bad mostly.
    fn refused(&self, dice: &mut Dice, valid: u32) -> Offer {
        let wait = self.wait(dice);
        let tag = self.tag(dice, wait);
        let mut offer = Offer { block: self.expected(), valid, tag, leap_days: self.list.clone() };
        let grounds = dice.between(1, 7);
        if grounds & 1 != 0 {
            offer.tag = lent_tag(dice);
        }
        if grounds & 2 != 0 {
            offer.block = dice.pick(&[12, 12, 16, 32, 240, 255]);
        }
        if grounds & 4 != 0 {
            offer.leap_days = bad_list(dice, self.date);
        }
        offer
    }

    fn offer(&self, dice: &mut Dice) -> Offer {
        let valid = if dice.below(100) < self.fill { fill_word(dice) } else { VALID };
        let (block, wait) = match (dice.below(100) < self.noise, dice.below(4)) {
            (false, _) => (self.expected(), self.wait(dice)),
            (true, 0) => return self.refused(dice, valid),
            (true, 1) => (self.other_block(dice), self.wait(dice)),
            (true, 2) => (self.other_block(dice), self.wait_that_closes(dice)),
            (true, _) => (self.expected(), self.wait_that_closes(dice)),
        };
        Offer { block, valid, tag: self.tag(dice, wait), leap_days: self.list.clone() }
    }

    fn offers(&mut self, dice: &mut Dice, count: usize) -> Vec<Offer> {
        let mut offers = Vec::new();
        for _ in 0..count {
            let offer = self.offer(dice);
            watch::offer(&mut self.watch, offer.block, offer.valid, &offer.tag, &offer.leap_days);
            offers.push(offer);
        }
        offers
    }
}

fn begun(dice: &mut Dice, count: usize) -> Case {
    let limit = some_limit(dice);
    let noise = dice.pick(&[0, 2, 5, 10, 30]);
    let offers = Scan::new(dice, watch::begin(limit).1, noise).offers(dice, count);
    Case::Offers { start: Start::Begun(limit), offers }
}

/// Scans from the beginning of a watch, many of them one after another.
pub fn long_case(dice: &mut Dice) -> Case {
    let count = dice.between(100, 400);
    begun(dice, count)
}

/// A set for a lent record, below its expected block or not. An idle one should have none.
fn some_set(dice: &mut Dice, expected: u8) -> u32 {
    let bit = 1u32.checked_shl(expected.into()).unwrap_or(0);
    let below = bit.wrapping_sub(1);
    match dice.below(12) {
        0 | 1 => 0,
        2..=4 => below & dice.roll() as u32,
        5 => below,
        6 => bit >> 1,
        7 => bit,
        8 => bit | below & dice.roll() as u32,
        9 => below & dice.roll() as u32 | 1 << dice.between(11, 31),
        10 => dice.pick(&[1, 2, 512, 1_024, 2_047, 2_048, 65_536, 1 << 31, u32::MAX]),
        _ => dice.roll() as u32,
    }
}

/// A lent record; several grounds of refusal meet.
fn lent_case(dice: &mut Dice) -> Case {
    let mut watch = lent_watch(dice);
    watch.fill = some_set(dice, watch.expected);
    let mut scan = Scan::new(dice, watch, 50);
    if dice.one_in(4) {
        scan.list = bad_list(dice, scan.date);
    }
    let count = dice.between(1, 4);
    Case::Offers { start: Start::Lent(watch), offers: scan.offers(dice, count) }
}

/// One case of any kind.
pub fn case(dice: &mut Dice) -> Case {
    match dice.below(20) {
        0 => begin_case(dice),
        1..=7 => {
            let count = dice.between(1, 30);
            begun(dice, count)
        }
        _ => lent_case(dice),
    }
}
