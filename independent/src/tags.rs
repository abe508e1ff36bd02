//! CDA time tags: sixteen BCD digits in eight bytes, and the time between two.
//! Leap days are lent with them, each as one number (2016366): four digits of year, three of day.

use std::collections::BTreeSet;

#[derive(Clone, Copy, Debug, Default, PartialEq, Eq)]
pub struct Tag {
    pub year: u16,
    pub day: u16,
    pub hour: u8,
    pub minute: u8,
    pub second: u8,
    pub millisecond: u16,
    pub flywheel: bool,
}

/// Gregorian throughout, year 0 too.
pub fn leap(year: u16) -> bool {
    if year % 400 == 0 {
        true
    } else if year % 100 == 0 {
        false
    } else {
        year % 4 == 0
    }
}

pub fn days_in(year: u16) -> u16 {
    if leap(year) {
        366
    } else {
        365
    }
}

pub fn in_calendar(year: u16, day: u16) -> bool {
    year <= 9999 && (1..=days_in(year)).contains(&day)
}

/// Days at whose end there is a leap second, as year and day of the year.
pub type LeapDays = BTreeSet<(u16, u16)>;

pub const MOST_LEAP_DAYS: usize = 64;

/// A leap day read as a date. None for a day that the calendar has not got.
pub fn date(leap_day: u32) -> Option<(u16, u16)> {
    let text = format!("{leap_day:07}");
    // Years from 10,000 on need more digits.
    if text.len() > 7 {
        return None;
    }
    let (year, day) = text.split_at(4);
    let (year, day) = (year.parse().ok()?, day.parse().ok()?);
    in_calendar(year, day).then_some((year, day))
}

/// Refusal 19 for more than 64 days, for a number that is no date, and where a day is not later than the one before.
pub fn leap_days(lent: &[u32]) -> Result<LeapDays, u8> {
    if lent.len() > MOST_LEAP_DAYS {
        return Err(19);
    }
    let dates: Vec<(u16, u16)> = lent.iter().map(|&day| date(day).ok_or(19)).collect::<Result<_, u8>>()?;
    let days: LeapDays = dates.iter().copied().collect();
    // A set sorts its days and holds each of them once: only a list that rises strictly is the same again.
    if days.iter().eq(&dates) {
        Ok(days)
    } else {
        Err(19)
    }
}

impl Tag {
    fn date(&self) -> (u16, u16) {
        (self.year, self.day)
    }

    /// The seconds of the minute that the tag stands in.
    fn seconds(&self, leap_days: &LeapDays) -> u8 {
        if leap_days.contains(&self.date()) && self.hour == 23 && self.minute == 59 {
            61
        } else {
            60
        }
    }

    pub fn in_bounds(&self, leap_days: &LeapDays) -> bool {
        in_calendar(self.year, self.day)
            && self.hour <= 23
            && self.minute <= 59
            && self.second < self.seconds(leap_days)
            && self.millisecond <= 999
    }

    /// Milliseconds since year 0 began, leap seconds included; the mark has no part in it.
    pub fn time(&self, leap_days: &LeapDays) -> i64 {
        let mut days = self.day as i64 - 1;
        for year in 0..self.year {
            days += days_in(year) as i64;
        }
        let hours = 24 * days + self.hour as i64;
        let minutes = 60 * hours + self.minute as i64;
        let mut seconds = 60 * minutes + self.second as i64;
        for leap_day in leap_days {
            if *leap_day < self.date() {
                seconds += 1;
            }
        }
        1000 * seconds + self.millisecond as i64
    }
}

/// The numbers that eight bytes spell, whatever their bounds. None for other lengths, and where a digit is above 9.
pub fn spelt(bytes: &[u8]) -> Option<Tag> {
    if bytes.len() != 8 {
        return None;
    }
    let mut digits = [0u16; 16];
    for (index, byte) in bytes.iter().enumerate() {
        digits[2 * index] = (byte >> 4) as u16;
        digits[2 * index + 1] = (byte & 15) as u16;
    }
    // The first bit of byte 3 is no part of the day.
    let flywheel = digits[4] >= 8;
    digits[4] %= 8;
    if digits.iter().any(|&digit| digit > 9) {
        return None;
    }
    let number = |from: usize, to: usize| digits[from..to].iter().fold(0, |sum, digit| 10 * sum + digit);
    Some(Tag {
        year: number(0, 4),
        day: number(4, 7),
        hour: number(7, 9) as u8,
        minute: number(9, 11) as u8,
        second: number(11, 13) as u8,
        millisecond: number(13, 16),
        flywheel,
    })
}

/// Refusal 12 for any number of bytes but eight, and for a bad tag.
pub fn try_read(bytes: &[u8], leap_days: &LeapDays) -> Result<Tag, u8> {
    spelt(bytes).filter(|tag| tag.in_bounds(leap_days)).ok_or(12)
}

fn try_read_lent(bytes: &[u8], lent: &[u32]) -> Result<Tag, u8> {
    let leap_days = leap_days(lent)?;
    try_read(bytes, &leap_days)
}

/// The number, and the tag with zeros on refusal.
pub fn read_tag(bytes: &[u8], lent: &[u32]) -> (u8, Tag) {
    match try_read_lent(bytes, lent) {
        Ok(tag) => (0, tag),
        Err(number) => (number, Tag::default()),
    }
}

/// The eight bytes of a tag within its bounds.
pub fn spell(tag: &Tag) -> [u8; 8] {
    let digits =
        format!("{:04}{:03}{:02}{:02}{:02}{:03}", tag.year, tag.day, tag.hour, tag.minute, tag.second, tag.millisecond);
    let mut bytes = [0; 8];
    for (index, digit) in digits.bytes().enumerate() {
        bytes[index / 2] = 16 * bytes[index / 2] + (digit - b'0');
    }
    if tag.flywheel {
        bytes[2] |= 0x80;
    }
    bytes
}

pub fn write_tag(tag: &Tag, lent: &[u32]) -> (u8, [u8; 8]) {
    match leap_days(lent) {
        Err(number) => (number, [0; 8]),
        Ok(leap_days) if tag.in_bounds(&leap_days) => (0, spell(tag)),
        Ok(_) => (12, [0; 8]),
    }
}

fn try_elapsed(first: &[u8], second: &[u8], lent: &[u32]) -> Result<i64, u8> {
    let leap_days = leap_days(lent)?;
    let first = try_read(first, &leap_days)?;
    let second = try_read(second, &leap_days)?;
    Ok(second.time(&leap_days) - first.time(&leap_days))
}

/// From the first to the second, below zero where the second is the earlier one.
pub fn elapsed(first: &[u8], second: &[u8], lent: &[u32]) -> (u8, i64) {
    match try_elapsed(first, second, lent) {
        Ok(time) => (0, time),
        Err(number) => (number, 0),
    }
}

#[cfg(test)]
mod tests {
    use super::*;

    fn midnight((year, day): (u16, u16)) -> Tag {
        Tag { year, day, ..Tag::default() }
    }

    fn last_second(date: (u16, u16), second: u8) -> Tag {
        Tag { hour: 23, minute: 59, second, ..midnight(date) }
    }

    /// Every day of some years lasts 86,400 seconds, and one more where it is listed.
    #[test]
    fn days_follow_one_another() {
        let listed = leap_days(&[3, 366, 1_001, 1_365, 4_060, 4_365, 4_366, 5_001, 5_002]).unwrap();
        let days: Vec<(u16, u16)> = (0..8).flat_map(|year| (1..=days_in(year)).map(move |day| (year, day))).collect();
        let mut begins = 0;
        for date in days {
            let last = 59 + listed.contains(&date) as u8;
            assert_eq!(midnight(date).time(&listed), begins);
            begins += 1_000 * (86_400 + (last - 59) as i64);
            assert_eq!(last_second(date, last).time(&listed), begins - 1_000);
            assert!(last_second(date, last).in_bounds(&listed));
            assert!(!last_second(date, last + 1).in_bounds(&listed));
        }
    }

    #[test]
    fn leap_days_are_dates() {
        for (number, date) in [(1, (0, 1)), (366, (0, 366)), (2_016_366, (2016, 366)), (9_999_365, (9999, 365))] {
            assert_eq!(super::date(number), Some(date));
        }
        for number in
            [0, 367, 1_000, 1_366, 1_900_366, 2_016_000, 2_016_367, 2_016_999, 9_999_366, 10_000_001, u32::MAX]
        {
            assert_eq!(super::date(number), None, "{number}");
        }
    }
}
