//! Lists of leap days, good and spoilt, from seeded dice, with the tags and the
//! offers whose answers turn on them.

use std::collections::BTreeSet;

use crate::compare::{Case, Offer, Start};
use crate::inputs::{
    digits, lent_tag, lent_watch, often_at_edge, some_limit, some_tag, strained_tag, tag_at, Dice, LAST_TIME,
};
use crate::tags::{days_in, leap_days, LeapDays, Tag, MOST_LEAP_DAYS};
use crate::watch::{self, Watch, LONGEST_WAIT, VALID};

/// A year and a day of it.
pub type Date = (u16, u16);

pub const FIRST_DATE: Date = (0, 1);
pub const LAST_DATE: Date = (9_999, 365);

/// A date as it is lent.
pub fn number((year, day): Date) -> u32 {
    1_000 * year as u32 + day as u32
}

pub fn next_date((year, day): Date) -> Date {
    if day < days_in(year) {
        (year, day + 1)
    } else {
        (year + 1, 1)
    }
}

fn date_before((year, day): Date) -> Date {
    if day > 1 {
        (year, day - 1)
    } else {
        (year - 1, days_in(year - 1))
    }
}

/// A date with the one before and the one behind it, as far as the calendar goes.
fn dates_around(date: Date) -> Vec<Date> {
    let mut dates = vec![date];
    if date > FIRST_DATE {
        dates.push(date_before(date));
    }
    if date < LAST_DATE {
        dates.push(next_date(date));
    }
    dates
}

/// So many leap days, one every day from a date on.
pub fn successive(from: Date, count: usize) -> Vec<u32> {
    std::iter::successors(Some(from), |date| Some(next_date(*date))).take(count).map(number).collect()
}

/// A time of day at a date, its millisecond and mark zero.
pub fn clock((year, day): Date, hour: u8, minute: u8, second: u8) -> Tag {
    Tag { year, day, hour, minute, second, ..Tag::default() }
}

/// The tag of a time that has leap seconds in it.
pub fn leap_tag_at(time: i64, leap_days: &LeapDays, flywheel: bool) -> Tag {
    let listed_before = |date: Date| leap_days.range(..date).count() as i64;
    let time = time.clamp(0, LAST_TIME + 1_000 * listed_before(LAST_DATE));
    let plain = tag_at(time, flywheel);
    // A list has not enough leap seconds to take a time back by more than one midnight.
    let counted = 1_000 * listed_before((plain.year, plain.day));
    let tag = tag_at(time - counted, flywheel);
    if tag.time(leap_days) == time {
        return tag;
    }
    // The midnight was crossed, and the day before it is a listed one.
    let later = tag_at(time - counted + 1_000, flywheel);
    if later.time(leap_days) == time {
        return later;
    }
    Tag { second: 60, ..tag }
}

// ---- lists ----

pub(crate) fn some_date(dice: &mut Dice) -> Date {
    let tag = some_tag(dice);
    match dice.below(4) {
        0 => dice.pick(&[FIRST_DATE, (0, 366), (1972, 182), (1999, 365), (2000, 366), (2016, 366), LAST_DATE]),
        1 => (tag.year, days_in(tag.year)),
        _ => (tag.year, tag.day),
    }
}

/// One to 64 days. A date is mostly among them, its neighbours as often as not.
pub(crate) fn good_list(dice: &mut Dice, date: Date) -> Vec<u32> {
    let count = match dice.below(3) {
        0 => dice.pick(&[MOST_LEAP_DAYS - 1, MOST_LEAP_DAYS]),
        1 => dice.between(1, MOST_LEAP_DAYS),
        _ => dice.between(1, 4),
    };
    let mut days: BTreeSet<Date> = dates_around(date).into_iter().filter(|_| dice.one_in(2)).collect();
    if dice.one_in(2) {
        days.insert(date);
    }
    while days.len() < count {
        let near = (date.0, dice.between(1, days_in(date.0) as usize) as u16);
        days.insert(if dice.one_in(4) { near } else { some_date(dice) });
    }
    days.into_iter().map(number).collect()
}

/// A number that is no day of a calendar year, often close to one that is. `last` is the list's last one.
fn impossible_day(dice: &mut Dice, date: Date, last: u32) -> u32 {
    let year = 1_000 * date.0 as u32;
    let common = if days_in(date.0) == 365 { year } else { year + 1_000 };
    match dice.below(8) {
        0 => year,
        1 | 2 => common + 366,
        3 => year + dice.pick(&[367, 368, 399, 400, 999]),
        4 => dice.pick(&[9_999_366, 10_000_000, 10_000_001, 10_000_060, 10_000_366]),
        // A year that is a good one where it is kept in 16 bits, and a day that is later than the others then.
        5 => 65_536_001 + last % 10_000_000,
        6 => dice.pick(&[20_161_231, 99_999_365, 1 << 31, u32::MAX, u32::MAX]),
        _ => 10_000_000 + dice.below(u32::MAX as usize - 10_000_000) as u32,
    }
}

/// A good list with one impossible day in its place among the others.
fn with_impossible_day(dice: &mut Dice, list: &mut Vec<u32>, date: Date) {
    if list.len() == MOST_LEAP_DAYS {
        list.remove(dice.below(MOST_LEAP_DAYS));
    }
    let last = list.last().copied().unwrap_or(0);
    list.push(impossible_day(dice, date, last));
    list.sort();
}

/// What makes a good list a bad one, but for its length.
fn spoil(dice: &mut Dice, list: &mut Vec<u32>, date: Date) {
    let at = dice.below(list.len());
    match dice.below(6) {
        0 if list.len() < MOST_LEAP_DAYS => list.insert(at, list[at]),
        0 | 1 if at > 0 => list[at] = list[at - 1],
        2 if at > 0 => list.swap(at, at - 1),
        3 if list.len() > 1 => list.rotate_left(1),
        4 if list.len() > 1 => list.reverse(),
        _ => with_impossible_day(dice, list, date),
    }
}

pub(crate) fn bad_list(dice: &mut Dice, date: Date) -> Vec<u32> {
    if dice.one_in(4) {
        // Lengths that are good ones where they are kept in a byte, too.
        let length = dice.pick(&[65, 65, 65, 66, 80, 128, 255, 256, 257, 320]);
        return successive((date.0.min(9_990), 1 + dice.below(365) as u16), length);
    }
    let mut list = good_list(dice, date);
    spoil(dice, &mut list, date);
    // Two faults at once, or one undone by the other.
    if dice.one_in(6) {
        spoil(dice, &mut list, date);
    }
    list
}

/// A list for tags about a date.
fn some_list(dice: &mut Dice, date: Date) -> Vec<u32> {
    match dice.below(10) {
        0 | 1 => vec![],
        2..=7 => good_list(dice, date),
        _ => bad_list(dice, date),
    }
}

/// The same list with the date taken out, or put in.
fn without_or_with(list: &[u32], date: Date) -> Vec<u32> {
    let mut days: BTreeSet<u32> = list.iter().copied().collect();
    if !days.remove(&number(date)) {
        days.insert(number(date));
    }
    days.into_iter().collect()
}

// ---- tags ----

/// A tag in the last second of a day, a leap second or one that is not to be.
pub(crate) fn tag_near_end(dice: &mut Dice, date: Date) -> Tag {
    let mut tag = clock(date, 23, 59, 60);
    tag.millisecond = often_at_edge(dice, 1_000) as u16;
    tag.flywheel = dice.one_in(3);
    match dice.below(14) {
        0..=5 => {}
        6 | 7 => tag.second = 59,
        8 => tag.second = dice.pick(&[61, 61, 62, 99, 100, 255]),
        9 => tag.hour = dice.pick(&[0, 12, 21, 22, 24]),
        10 => tag.minute = dice.pick(&[0, 29, 57, 58, 60]),
        11 => (tag.hour, tag.minute) = (dice.below(24) as u8, dice.below(60) as u8),
        12 => (tag.hour, tag.minute, tag.second) = (0, 0, 0),
        _ => tag = strained_tag(dice),
    }
    tag
}

/// The same as lent; now and then with a bad digit, or not of eight bytes.
fn lent_near_end(dice: &mut Dice, date: Date) -> Vec<u8> {
    if dice.one_in(6) {
        lent_tag(dice)
    } else {
        digits(&tag_near_end(dice, date)).to_vec()
    }
}

fn read_case(dice: &mut Dice) -> Case {
    let date = some_date(dice);
    Case::ReadTag { bytes: lent_near_end(dice, date), leap_days: some_list(dice, date) }
}

fn write_case(dice: &mut Dice) -> Case {
    let date = some_date(dice);
    Case::WriteTag { tag: tag_near_end(dice, date), leap_days: some_list(dice, date) }
}

/// The tag near a day's end, or some good one where it is bad: of two tags both should be good often enough.
fn mostly_good(dice: &mut Dice, date: Date, leap_days: &LeapDays) -> Tag {
    let tag = tag_near_end(dice, date);
    if tag.in_bounds(leap_days) || dice.one_in(6) {
        tag
    } else {
        some_tag(dice)
    }
}

/// The second tag of two is at a round time from the first, or near the end of a day, the same or another.
fn elapsed_case(dice: &mut Dice) -> Case {
    let date = some_date(dice);
    let list = some_list(dice, date);
    let days = leap_days(&list).unwrap_or_default();
    let first = mostly_good(dice, date, &days);
    let second = if dice.one_in(2) && first.in_bounds(&days) {
        let step = dice.pick(&[0, 1, 999, 1_000, 1_001, 2_000, 61_000, 86_400_000, 86_401_000]);
        let way = if dice.one_in(2) { -1 } else { 1 };
        leap_tag_at(first.time(&days) + way * step, &days, dice.one_in(3))
    } else {
        let listed: Vec<Date> = days.iter().copied().chain(dates_around(date)).collect();
        let date = dice.pick(&listed);
        mostly_good(dice, date, &days)
    };
    let [first, second] =
        [first, second].map(|tag| if dice.one_in(14) { lent_tag(dice) } else { digits(&tag).to_vec() });
    Case::Elapsed { first, second, leap_days: list }
}

// ---- the scan watch ----

/// Offers about the end of one day.
struct Scan {
    date: Date,
    list: Vec<u32>,
    /// In how many of a hundred places something else is offered.
    noise: usize,
    changing: bool,
    watch: Watch,
}

impl Scan {
    fn noisy(&self, dice: &mut Dice) -> bool {
        dice.below(100) < self.noise
    }

    fn leap_days(&self, dice: &mut Dice) -> Vec<u32> {
        if !self.changing || !dice.one_in(3) {
            return self.list.clone();
        }
        match dice.below(3) {
            0 => vec![],
            1 if self.list.len() < MOST_LEAP_DAYS => without_or_with(&self.list, self.date),
            _ => some_list(dice, self.date),
        }
    }

    fn block(&self, dice: &mut Dice) -> u8 {
        if self.noisy(dice) {
            dice.pick(&[0, 0, 1, 10, 11, 12, 240, 255, self.watch.expected.wrapping_add(1)])
        } else if self.watch.open {
            self.watch.expected
        } else {
            0
        }
    }

    /// So many limits before the day's end that most scans cross it.
    fn opening(&self, dice: &mut Dice, leap_days: &LeapDays) -> i64 {
        let end = clock(self.date, 23, 59, 59).time(leap_days) + dice.pick(&[0, 0, 999, 1_000, 1_999, 2_000]);
        end - dice.below(6 * self.watch.limit.min(LONGEST_WAIT) as usize + 1) as i64
    }

    /// A wait inside the limit; where it can, one into the day's leap second or past it.
    fn wait(&self, dice: &mut Dice, now: i64, leap_days: &LeapDays) -> i64 {
        let limit = self.watch.limit.min(LONGEST_WAIT) as i64;
        let end = clock(self.date, 23, 59, 59).time(leap_days) + dice.pick(&[999, 1_000, 1_999, 2_000]);
        match dice.below(6) {
            0 => limit,
            1 => 0,
            2 | 3 if (0..=limit).contains(&(end - now)) => end - now,
            _ => dice.below(limit as usize + 1) as i64,
        }
    }

    fn tag(&self, dice: &mut Dice, list: &[u32]) -> Vec<u8> {
        if self.noisy(dice) && dice.one_in(2) {
            return lent_near_end(dice, self.date);
        }
        let days = leap_days(list).unwrap_or_default();
        let mut now = if self.watch.open && self.watch.tag.in_bounds(&days) {
            let last = self.watch.tag.time(&days);
            last + self.wait(dice, last, &days)
        } else {
            self.opening(dice, &days)
        };
        if self.noisy(dice) {
            now += dice.pick(&[-1_000, -1, 1, 1_000, self.watch.limit.min(LONGEST_WAIT) as i64]);
        }
        digits(&leap_tag_at(now, &days, dice.one_in(4))).to_vec()
    }

    fn offers(&mut self, dice: &mut Dice, count: usize) -> Vec<Offer> {
        let mut offers = Vec::new();
        for _ in 0..count {
            let leap_days = self.leap_days(dice);
            let (block, tag) = (self.block(dice), self.tag(dice, &leap_days));
            watch::offer(&mut self.watch, block, VALID, &tag, &leap_days);
            offers.push(Offer { block, valid: VALID, tag, leap_days });
        }
        offers
    }
}

/// A scan from its beginning, under one list or under lists that change.
fn scan_case(dice: &mut Dice) -> Case {
    let date = some_date(dice);
    let limit = some_limit(dice);
    let list = if dice.one_in(8) { some_list(dice, date) } else { good_list(dice, date) };
    let mut scan =
        Scan { date, list, noise: dice.pick(&[0, 0, 2, 15]), changing: dice.one_in(3), watch: watch::begin(limit).1 };
    let count = dice.between(1, 26);
    Case::Offers { start: Start::Begun(limit), offers: scan.offers(dice, count) }
}

/// A lent record, often open with its last tag in a leap second; several grounds of refusal meet.
fn lent_case(dice: &mut Dice) -> Case {
    let date = some_date(dice);
    let mut watch = lent_watch(dice);
    if dice.one_in(2) {
        watch.open = true;
    }
    if !dice.one_in(3) {
        watch.tag = tag_near_end(dice, date);
    }
    let list = if dice.one_in(4) { bad_list(dice, date) } else { some_list(dice, date) };
    let mut scan = Scan { date, list, noise: 35, changing: dice.one_in(2), watch };
    let count = dice.between(1, 3);
    Case::Offers { start: Start::Lent(watch), offers: scan.offers(dice, count) }
}

/// One case of any kind.
pub fn case(dice: &mut Dice) -> Case {
    match dice.below(12) {
        0..=2 => read_case(dice),
        3 | 4 => write_case(dice),
        5..=7 => elapsed_case(dice),
        8 | 9 => scan_case(dice),
        _ => lent_case(dice),
    }
}

#[cfg(test)]
mod tests {
    use super::*;

    #[test]
    fn a_tag_has_its_time_and_a_time_its_tag() {
        let mut dice = Dice::new(21);
        let mut leap_seconds = 0;
        for _ in 0..20_000 {
            let date = some_date(&mut dice);
            let days = leap_days(&good_list(&mut dice, date)).unwrap();
            let tag = tag_near_end(&mut dice, date);
            // The last leap second that there can be is behind the last time.
            if tag.in_bounds(&days) && (tag.second < 60 || date < LAST_DATE) {
                assert_eq!(leap_tag_at(tag.time(&days), &days, tag.flywheel), tag);
                leap_seconds += (tag.second == 60) as usize;
            }
        }
        assert!(leap_seconds > 2_000, "{leap_seconds}");
    }

    #[test]
    fn later_tags_have_larger_times() {
        let mut dice = Dice::new(22);
        let order = |tag: &Tag| (tag.year, tag.day, tag.hour, tag.minute, tag.second, tag.millisecond);
        for _ in 0..20_000 {
            let date = some_date(&mut dice);
            let days = leap_days(&good_list(&mut dice, date)).unwrap();
            let near = dates_around(date);
            let [first, second] = [date, dice.pick(&near)].map(|date| tag_near_end(&mut dice, date));
            if first.in_bounds(&days) && second.in_bounds(&days) {
                assert_eq!(first.time(&days).cmp(&second.time(&days)), order(&first).cmp(&order(&second)));
            }
        }
    }

    #[test]
    fn lists_are_good_and_bad_as_named() {
        let mut dice = Dice::new(23);
        let mut bad = 0;
        for _ in 0..5_000 {
            let date = some_date(&mut dice);
            assert!(leap_days(&good_list(&mut dice, date)).is_ok());
            bad += leap_days(&bad_list(&mut dice, date)).is_err() as usize;
        }
        // Two faults may undo one another.
        assert!(bad > 4_900, "{bad}");
    }
}
