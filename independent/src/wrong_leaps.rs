//! Libraries that are wrong on purpose in what they make of leap days, one fault each. By any other name they answer as
//! the model does, put together from its parts.

use std::collections::BTreeSet;

use crate::library::OfferAnswer;
use crate::tags::{self, days_in, spell, spelt, LeapDays, Tag};
use crate::watch::{self, Verdict, Watch, LONGEST_WAIT};
use crate::wrong_fills;

pub const LEAP_FAULTS: [&str; 36] = [
    "takes a list of 65 days",
    "refuses a list of 64 days",
    "overlooks the last of 64 days",
    "keeps the length of a list in a byte",
    "lets equal neighbours in",
    "lets a list in that falls",
    "takes day 366 of a common year as listed",
    "takes a day 0 as listed",
    "takes a day of year 10,000 as listed",
    "keeps the year of a leap day in 16 bits",
    "takes second 60 at any hour",
    "takes second 60 in any minute",
    "takes second 60 on any day",
    "takes second 60 on any day where one is listed",
    "takes second 60 on the day behind a listed one",
    "takes second 60 only as it begins",
    "takes second 61",
    "counts a listed day for its own day",
    "counts second 60 as second 59",
    "counts one leap second at most",
    "counts every day of the list",
    "counts the listed days of its own year only",
    "counts no leap seconds",
    "writes without the list",
    "lends the list to the first tag only",
    "lends the list to the second tag only",
    "tests 19 after 12",
    "tests 19 after the length of a tag",
    "tests 19 before 16",
    "tests 19 before 13",
    "tests 19 after the last tag",
    "tests 19 after 4",
    "tests 19 only when open",
    "judges the last tag without the list",
    "counts a wait without leap seconds",
    "closes on refusal 19",
];

/// The list that is judged in place of the lent one.
fn forgiven(fault: &str, lent: &[u32]) -> Vec<u32> {
    let mut list = lent.to_vec();
    match fault {
        "takes a list of 65 days" if list.len() == 65 => list.truncate(64),
        "overlooks the last of 64 days" if list.len() == 64 => list.truncate(63),
        "keeps the length of a list in a byte" => list.truncate(list.len() % 256),
        "lets equal neighbours in" => list.dedup(),
        "lets a list in that falls" => list.sort(),
        "takes day 366 of a common year as listed" => {
            list.retain(|day| day % 1_000 != 366 || *day > 9_999_999 || days_in((day / 1_000) as u16) == 366);
        }
        "takes a day 0 as listed" => list.retain(|day| day % 1_000 != 0),
        "takes a day of year 10,000 as listed" => list.retain(|day| !(10_000_001..=10_000_366).contains(day)),
        "keeps the year of a leap day in 16 bits" => {
            list.iter_mut().for_each(|day| *day = *day / 1_000 % 65_536 * 1_000 + *day % 1_000);
        }
        _ => {}
    }
    list
}

pub(crate) fn leap_days(fault: &str, lent: &[u32]) -> Result<LeapDays, u8> {
    if fault == "refuses a list of 64 days" && lent.len() == 64 {
        return Err(19);
    }
    tags::leap_days(&forgiven(fault, lent))
}

/// Whether the day before is listed.
fn behind_a_listed_day(tag: &Tag, leap_days: &LeapDays) -> bool {
    match (tag.year, tag.day) {
        (0, 1) => false,
        (year, 1) => leap_days.contains(&(year - 1, days_in(year - 1))),
        (year, day) => leap_days.contains(&(year, day - 1)),
    }
}

/// The tag whose bounds are asked for in place of this one.
fn seen(fault: &str, tag: &Tag, leap_days: &LeapDays) -> Tag {
    let last_minute = tag.hour == 23 && tag.minute == 59;
    let plain = Tag { second: 59, ..*tag };
    match (fault, tag.second) {
        ("takes second 60 at any hour", 60) if tag.hour <= 23 => Tag { hour: 23, ..*tag },
        ("takes second 60 in any minute", 60) if tag.minute <= 59 => Tag { minute: 59, ..*tag },
        ("takes second 60 on any day", 60) if last_minute => plain,
        ("takes second 60 on any day where one is listed", 60) if last_minute && !leap_days.is_empty() => plain,
        ("takes second 60 on the day behind a listed one", 60) if last_minute && tag.day > 0 && tag.year <= 9_999 => {
            if behind_a_listed_day(tag, leap_days) {
                plain
            } else {
                *tag
            }
        }
        ("takes second 60 only as it begins", 60) if tag.millisecond > 0 => Tag { second: 61, ..*tag },
        ("takes second 61", 61) => Tag { second: 60, ..*tag },
        _ => *tag,
    }
}

fn in_bounds(fault: &str, tag: &Tag, leap_days: &LeapDays) -> bool {
    seen(fault, tag, leap_days).in_bounds(leap_days)
}

fn time(fault: &str, tag: &Tag, leap_days: &LeapDays) -> i64 {
    let right = tag.time(leap_days);
    let plain = tag.time(&BTreeSet::new());
    match fault {
        "counts a listed day for its own day" if leap_days.contains(&(tag.year, tag.day)) => right + 1_000,
        "counts second 60 as second 59" if tag.second == 60 => right - 1_000,
        "counts one leap second at most" => right.min(plain + 1_000),
        "counts every day of the list" => plain + 1_000 * leap_days.len() as i64,
        "counts the listed days of its own year only" => {
            plain + 1_000 * leap_days.range((tag.year, 0)..(tag.year, tag.day)).count() as i64
        }
        "counts no leap seconds" => plain,
        _ => right,
    }
}

pub(crate) fn try_read(fault: &str, bytes: &[u8], leap_days: &LeapDays) -> Result<Tag, u8> {
    spelt(bytes).filter(|tag| in_bounds(fault, tag, leap_days)).ok_or(12)
}

/// The leap days lent with some tags, which may be asked for before their list.
fn lent_with(fault: &str, lent: &[u32], tags: &[&[u8]]) -> Result<LeapDays, u8> {
    let bad = |tag: &&[u8]| match fault {
        "tests 19 after 12" => try_read(fault, tag, &LeapDays::new()).is_err(),
        "tests 19 after the length of a tag" => tag.len() != 8,
        _ => false,
    };
    leap_days(fault, lent).map_err(|number| if tags.iter().any(bad) { 12 } else { number })
}

pub fn read_tag(fault: &str, bytes: &[u8], lent: &[u32]) -> (u8, Tag) {
    let tag = lent_with(fault, lent, &[bytes]).and_then(|leap_days| try_read(fault, bytes, &leap_days));
    match tag {
        Ok(tag) => (0, tag),
        Err(number) => (number, Tag::default()),
    }
}

pub fn write_tag(fault: &str, tag: &Tag, lent: &[u32]) -> (u8, [u8; 8]) {
    let lent = if fault == "writes without the list" { &[] } else { lent };
    match leap_days(fault, lent) {
        Err(_) if fault == "tests 19 after 12" && !tag.in_bounds(&LeapDays::new()) => (12, [0; 8]),
        Err(number) => (number, [0; 8]),
        Ok(leap_days) if in_bounds(fault, tag, &leap_days) => (0, spell(tag)),
        Ok(_) => (12, [0; 8]),
    }
}

fn try_elapsed(fault: &str, first: &[u8], second: &[u8], lent: &[u32]) -> Result<i64, u8> {
    let leap_days = lent_with(fault, lent, &[first, second])?;
    let none = LeapDays::new();
    let (for_first, for_second) = match fault {
        "lends the list to the first tag only" => (&leap_days, &none),
        "lends the list to the second tag only" => (&none, &leap_days),
        _ => (&leap_days, &leap_days),
    };
    let first = try_read(fault, first, for_first)?;
    let second = try_read(fault, second, for_second)?;
    Ok(time(fault, &second, for_second) - time(fault, &first, for_first))
}

pub fn elapsed(fault: &str, first: &[u8], second: &[u8], lent: &[u32]) -> (u8, i64) {
    match try_elapsed(fault, first, second, lent) {
        Ok(time) => (0, time),
        Err(number) => (number, 0),
    }
}

/// The tests of an offer by place: limit, expected block, set, list, last tag, block and tag.
fn order(fault: &str) -> [usize; 7] {
    match fault {
        "tests 19 before 16" => [3, 0, 1, 2, 4, 5, 6],
        "tests 19 before 13" => [0, 3, 1, 2, 4, 5, 6],
        "tests 19 after the last tag" => [0, 1, 2, 4, 3, 5, 6],
        "tests 19 after 4" => [0, 1, 2, 4, 5, 3, 6],
        "tests 19 after 12" => [0, 1, 2, 4, 5, 6, 3],
        _ => wrong_fills::order(fault),
    }
}

fn try_offer(
    fault: &str,
    watch: &mut Watch,
    block: u8,
    valid: u32,
    tag: &[u8],
    lent: &[u32],
) -> Result<OfferAnswer, u8> {
    let list = leap_days(fault, lent);
    let bad_list = list.is_err() && (watch.open || fault != "tests 19 only when open");
    let leap_days = list.unwrap_or_default();
    let none = LeapDays::new();
    let for_last = if fault == "judges the last tag without the list" { &none } else { &leap_days };
    let offered = try_read(fault, tag, &leap_days);
    let refusals = [
        (16, watch.limit > LONGEST_WAIT),
        (13, watch.open && !(1..=10).contains(&watch.expected)),
        (20, wrong_fills::out_of_bounds(fault, watch)),
        (19, bad_list),
        (12, watch.open && !in_bounds(fault, &watch.tag, for_last)),
        (4, block > 11),
        (12, offered.is_err()),
    ];
    if let Some((number, _)) = order(fault).map(|place| refusals[place]).into_iter().find(|(_, given)| *given) {
        return Err(number);
    }
    let tag = offered?;
    if !watch.open {
        return Ok(watch::offer_idle(watch, block, valid, tag));
    }
    let counted = if fault == "counts a wait without leap seconds" { &none } else { &leap_days };
    let d = time(fault, &tag, counted) - time(fault, &watch.tag, counted);
    Ok(watch::offer_open(watch, block, valid, tag, d))
}

pub fn offer(fault: &str, watch: &mut Watch, block: u8, valid: u32, tag: &[u8], lent: &[u32]) -> OfferAnswer {
    let answer = try_offer(fault, watch, block, valid, tag, lent).unwrap_or_else(OfferAnswer::refused);
    if fault == "closes on refusal 19" && answer.verdict == Verdict::Refused(19) {
        *watch = Watch { limit: watch.limit, ..Watch::default() };
    }
    answer
}
