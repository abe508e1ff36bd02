//! Cases with leap days, in a run of their own, so that the others stay as they
//! are. Some have names, the rest are drawn.

use crate::compare::{compare_case, Case, Offer, Start, Tally};
use crate::inputs::{digits, Dice};
use crate::leaps::{self, clock, leap_tag_at, number, successive, Date, FIRST_DATE, LAST_DATE};
use crate::library::Library;
use crate::tags::{self, Tag, MOST_LEAP_DAYS};
use crate::watch::{Watch, LONGEST_WAIT, VALID};

pub fn leap_case_of(seed: u64, number: u64) -> Case {
    leaps::case(&mut Dice::for_case(seed, number))
}

/// Drawn cases.
pub fn compare_leap_cases(library: &dyn Library, seed: u64, count: u64, tally: &mut Tally) -> Result<u64, String> {
    for number in 0..count {
        let case = leap_case_of(seed, number);
        compare_case(library, &case, tally).map_err(|text| format!("seed {seed}, leap days, case {number}: {text}"))?;
    }
    Ok(count)
}

// ---- cases with names ----

const LEAP_DAY: Date = (2016, 366);

/// Whoever is lent a list judges it: the reader, the writer, elapsed time, and a watch, idle or open.
fn judges(leap_days: &[u32]) -> Vec<Case> {
    let leap_days = leap_days.to_vec();
    let tag = clock(LEAP_DAY, 23, 59, 59);
    let ends = [clock(FIRST_DATE, 0, 0, 0), clock(LAST_DATE, 23, 59, 59)].map(|tag| digits(&tag).to_vec());
    let [first, second] = ends.clone();
    let mut cases = vec![
        Case::ReadTag { bytes: digits(&tag).to_vec(), leap_days: leap_days.clone() },
        Case::WriteTag { tag, leap_days: leap_days.clone() },
        Case::Elapsed { first, second, leap_days: leap_days.clone() },
    ];
    for open in [false, true] {
        let watch = Watch { open, expected: 3, tag, limit: 1_000, fill: 0 };
        let offer = Offer { block: 0, valid: VALID, tag: ends[1].clone(), leap_days: leap_days.clone() };
        cases.push(Case::Offers { start: Start::Lent(watch), offers: vec![offer] });
    }
    cases
}

/// Lists of 64 days that are wrong at one place, each place in turn.
pub(crate) fn lists_wrong_at_a_place() -> Vec<Vec<u32>> {
    let good = successive((2015, 330), MOST_LEAP_DAYS);
    let mut lists = Vec::new();
    for at in 0..MOST_LEAP_DAYS {
        let mut with = |day: u32| {
            let mut list = good.clone();
            list[at] = day;
            lists.push(list);
        };
        with(good[at]);
        with(good[at.saturating_sub(1)]);
        with(2_014_365);
        for impossible in [0, 2_015_000, 2_015_366, 2_016_000, 2_016_367, 10_000_001, u32::MAX] {
            with(impossible);
        }
    }
    lists
}

pub(crate) fn lists_by_length() -> impl Iterator<Item = Vec<u32>> {
    // Behind 255 and 65,535 the lengths of good lists come again where they are cut to a byte or two.
    let lengths = (0..=70).chain([127, 128, 129, 255, 256, 257, 320, 321, 65_535, 65_536, 65_537, 65_600]);
    lengths.map(|length| successive((1_990, 200), length))
}

/// Numbers alone in a list: every day up to 999 of some years, and of every year the days at its ends.
fn lone_numbers() -> impl Iterator<Item = u32> {
    let whole = (0..=4).chain([99, 100, 399, 400, 1_900, 2_000, 2_015, 2_016, 2_100, 9_996, 9_999, 10_000, 65_536]);
    let every_day = whole.flat_map(|year| (0..1_000).map(move |day| 1_000 * year + day));
    let ends = (0..10_005).flat_map(|year| [0, 1, 365, 366, 367].map(|day| 1_000 * year + day));
    every_day.chain(ends).chain([65_536_366, 67_552_366, u32::MAX - 1, u32::MAX])
}

/// A number as the only leap day, and the leap second of the day that its digits name.
fn lone_day(day: u32) -> Case {
    let date = ((day / 1_000 % 10_000) as u16, (day % 1_000) as u16);
    Case::ReadTag { bytes: digits(&clock(date, 23, 59, 60)).to_vec(), leap_days: vec![day] }
}

/// Seconds 58 to 62 of every minute of a day, under lists that have the day, its neighbours or none of them.
fn seconds_of_a_day() -> impl Iterator<Item = Case> {
    let lists = [vec![], vec![2_016_366], vec![2_016_365, 2_017_001], successive((2016, 365), 3)];
    let minutes = (0..24).flat_map(|hour| (0..60).map(move |minute| (hour, minute)));
    let tags = minutes.flat_map(|(hour, minute)| (58..=62).map(move |second| clock(LEAP_DAY, hour, minute, second)));
    tags.flat_map(move |tag| {
        let lists = lists.clone();
        let tags = [tag, Tag { millisecond: 999, ..tag }];
        lists.into_iter().flat_map(move |leap_days| tags.map(|tag| tag_cases(&tag, &leap_days)).concat())
    })
}

fn tag_cases(tag: &Tag, leap_days: &[u32]) -> Vec<Case> {
    let (bytes, leap_days) = (digits(tag).to_vec(), leap_days.to_vec());
    let midnight = digits(&clock((2017, 1), 0, 0, 0)).to_vec();
    vec![
        Case::ReadTag { bytes: bytes.clone(), leap_days: leap_days.clone() },
        Case::WriteTag { tag: *tag, leap_days: leap_days.clone() },
        Case::Elapsed { first: bytes, second: midnight, leap_days },
    ]
}

/// Every choice among the six grounds on which a watch refuses an offer, open and idle. The tags that are bad are leap
/// seconds which the list has not got.
fn offers_refused() -> Vec<Case> {
    let mut cases = Vec::new();
    for choice in 0..128 {
        let has = |ground: u32| choice >> ground & 1 == 1;
        let leap_second = |bad: bool| clock(if bad { (2015, 365) } else { LEAP_DAY }, 23, 59, 60);
        let watch = Watch {
            open: has(6),
            expected: if has(1) { 11 } else { 4 },
            tag: leap_second(has(3)),
            limit: if has(0) { LONGEST_WAIT + 1 } else { 1_000 },
            fill: 0,
        };
        let leap_days = if has(2) { vec![2_016_366, 2_016_366] } else { vec![2_016_366] };
        let tag = digits(&leap_second(has(5))).to_vec();
        let offer = Offer { block: if has(4) { 12 } else { 4 }, valid: VALID, tag, leap_days };
        cases.push(Case::Offers { start: Start::Lent(watch), offers: vec![offer] });
    }
    cases
}

/// Bad tags and bad lists at once, the tags too short, too long and out of bounds.
fn bad_tags_and_lists() -> Vec<Case> {
    let leap_second = clock(LEAP_DAY, 23, 59, 60);
    let good = digits(&leap_second).to_vec();
    let bad = digits(&Tag { second: 61, ..leap_second }).to_vec();
    let mut cases = Vec::new();
    for leap_days in [vec![2_016_366], vec![2_015_366], successive((2016, 1), 65)] {
        for first in [&[], &good[..7], &good, &bad, &good.repeat(2)] {
            cases.push(Case::ReadTag { bytes: first.to_vec(), leap_days: leap_days.clone() });
            for second in [&[], &good[..7], &good, &bad, &good.repeat(2)] {
                let (first, second) = (first.to_vec(), second.to_vec());
                cases.push(Case::Elapsed { first, second, leap_days: leap_days.clone() });
            }
        }
        for tag in [leap_second, Tag { second: 61, ..leap_second }, Tag { year: 10_000, ..leap_second }] {
            cases.push(Case::WriteTag { tag, leap_days: leap_days.clone() });
        }
    }
    cases
}

/// A scan that crosses the leap second, each wait as long as the limit or a millisecond longer, the day listed or not.
fn scans_across() -> Vec<Case> {
    let mut cases = Vec::new();
    for (limit, listed) in [(200, true), (199, true), (200, false), (199, false)] {
        let leap_days = if listed { vec![number(LEAP_DAY)] } else { vec![] };
        let days = tags::leap_days(&leap_days).unwrap_or_default();
        let opening = clock(LEAP_DAY, 23, 59, 59).time(&days) + 200;
        let offer = |block: u8| {
            let tag = leap_tag_at(opening + 200 * block as i64, &days, false);
            Offer { block, valid: VALID, tag: digits(&tag).to_vec(), leap_days: leap_days.clone() }
        };
        cases.push(Case::Offers { start: Start::Begun(limit), offers: (0..=10).map(offer).collect() });
    }
    cases
}

/// Every case with a name.
pub fn compare_named_leaps(library: &dyn Library, tally: &mut Tally) -> Result<u64, String> {
    let lists = lists_by_length().chain(lists_wrong_at_a_place());
    let judged = lists.flat_map(|list| judges(&list)).chain(lone_numbers().map(lone_day));
    let others = [offers_refused(), bad_tags_and_lists(), scans_across()].concat();
    let mut compared = 0;
    for case in judged.chain(others).chain(seconds_of_a_day()) {
        compare_case(library, &case, tally).map_err(|text| format!("leap days, named case {compared}: {text}"))?;
        compared += 1;
    }
    Ok(compared)
}

pub fn compare_leaps(library: &dyn Library, seed: u64, count: u64, tally: &mut Tally) -> Result<u64, String> {
    Ok(compare_named_leaps(library, tally)? + compare_leap_cases(library, seed, count, tally)?)
}
