//! Cases with blocks of fill, in a run of their own, so that the others stay as they are. Some have names, the rest are
//! drawn; and long sequences of offers, over which the library is held to what was offered, without the model.

use std::collections::BTreeSet;

use crate::compare::{compare_case, run, Answer, Case, Offer, Start, Tally};
use crate::fills;
use crate::inputs::{digits, tag_at, Dice};
use crate::library::{Library, OfferAnswer};
use crate::tags::Tag;
use crate::watch::{Verdict, Watch, LONGEST_WAIT, VALID};

pub fn fill_case_of(seed: u64, number: u64) -> Case {
    fills::case(&mut Dice::for_case(seed, number))
}

pub fn long_case_of(seed: u64, number: u64) -> Case {
    fills::long_case(&mut Dice::for_case(seed, number))
}

/// Drawn cases.
pub fn compare_fill_cases(library: &dyn Library, seed: u64, count: u64, tally: &mut Tally) -> Result<u64, String> {
    for number in 0..count {
        let case = fill_case_of(seed, number);
        compare_case(library, &case, tally).map_err(|text| format!("seed {seed}, fill, case {number}: {text}"))?;
    }
    Ok(count)
}

// ---- what was offered ----

/// The fill blocks of the scan that an offer closed, back to its block 0, by what was offered and not refused.
fn fill_of_scan(offers: &[Offer], answers: &[OfferAnswer], closing: usize) -> BTreeSet<u8> {
    let end = if answers[closing].verdict == Verdict::Complete { closing + 1 } else { closing };
    let mut fill = BTreeSet::new();
    for (offer, answer) in offers[..end].iter().zip(answers).rev() {
        if matches!(answer.verdict, Verdict::Refused(_)) {
            continue;
        }
        if offer.valid != 1 {
            fill.insert(offer.block);
        }
        if offer.block == 0 {
            break;
        }
    }
    fill
}

/// The set and the count that go with an answer to an offer of a watch begun idle.
fn wanted(offers: &[Offer], answers: &[OfferAnswer], place: usize) -> (u32, u32) {
    if !answers[place].verdict.closes() {
        return (0, 0);
    }
    let fill = fill_of_scan(offers, answers, place);
    (fill.iter().map(|block| 2u32.pow((*block).into())).sum(), fill.len() as u32)
}

/// How many scans were closed. A watch begun idle is never refused for its set.
pub fn judge_closings(library: &dyn Library, case: &Case) -> Result<u64, String> {
    let (Case::Offers { offers, .. }, Answer::Offers(_, answers)) = (case, run(library, case).answer) else {
        return Ok(0);
    };
    let answers: Vec<OfferAnswer> = answers.into_iter().map(|(answer, _)| answer).collect();
    for (place, answer) in answers.iter().enumerate() {
        let wanted = wanted(offers, &answers, place);
        if (answer.fill, answer.count) != wanted || answer.verdict == Verdict::Refused(20) {
            let input = case.input();
            let at = place + 1;
            return Err(format!("offer {at}\n{input}  by the offers: {wanted:?}\n  library: {answer:?}\n"));
        }
    }
    Ok(answers.iter().filter(|answer| answer.verdict.closes()).count() as u64)
}

/// Every closing in so many long sequences; how many there were.
pub fn compare_closings(library: &dyn Library, seed: u64, count: u64) -> Result<u64, String> {
    let mut closings = 0;
    for number in 0..count {
        let judged = judge_closings(library, &long_case_of(seed, number));
        closings += judged.map_err(|text| format!("seed {seed}, closings, sequence {number}: {text}"))?;
    }
    Ok(closings)
}

// ---- cases with names ----

const LIMIT: u32 = 1_000;
const LAST: i64 = 5_000_000;
/// A tag that closes no scan, one before the last, and one behind the limit.
const TIMES: [i64; 3] = [LAST, LAST - 1, LAST + LIMIT as i64 + 1];

fn lent(open: bool, expected: u8, fill: u32) -> Watch {
    Watch { open, expected, tag: tag_at(LAST, false), limit: LIMIT, fill }
}

fn offer(block: u8, valid: u32, time: i64) -> Offer {
    Offer { block, valid, tag: digits(&tag_at(time, false)).to_vec(), leap_days: vec![] }
}

fn lone_offer(watch: Watch, offer: Offer) -> Case {
    Case::Offers { start: Start::Lent(watch), offers: vec![offer] }
}

fn from_begin(offers: Vec<Offer>) -> Case {
    Case::Offers { start: Start::Begun(LIMIT), offers }
}

fn in_set(set: u32, block: u8) -> bool {
    set >> block & 1 == 1
}

/// Blocks of a scan, those of a set as fill.
fn scan(blocks: std::ops::RangeInclusive<u8>, set: u32) -> Vec<Offer> {
    blocks.map(|block| offer(block, if in_set(set, block) { 0 } else { VALID }, LAST)).collect()
}

/// Data valid words up to a few above 1,024, and those about every power of two.
fn words() -> impl Iterator<Item = u32> {
    let powers = (0..32).flat_map(|power| [-1, 0, 1].map(|step| (1u32 << power).wrapping_add_signed(step)));
    (0..=1_030).chain(powers).chain([u32::MAX])
}

/// A word with a block that opens, that is kept, that completes, and that closes in each way, block 0 or another.
fn word_cases(word: u32) -> Vec<Case> {
    let mut cases = vec![
        lone_offer(lent(false, 0, 0), offer(0, word, LAST)),
        lone_offer(lent(false, 0, 0), offer(5, word, LAST)),
        lone_offer(lent(true, 3, 0), offer(3, word, LAST)),
        lone_offer(lent(true, 10, 0), offer(10, word, LAST)),
    ];
    for time in TIMES {
        cases.extend([0, 5, 11].map(|block| lone_offer(lent(true, 3, 2), offer(block, word, time))));
    }
    cases
}

/// Whole scans with every choice of fill blocks, and what comes behind them.
fn whole_scans() -> impl Iterator<Item = Case> {
    let behind = [offer(5, 0, LAST), offer(0, VALID, LAST), offer(5, 0, LAST)];
    (0..1 << 11).map(move |set| from_begin([&scan(0..=10, set)[..], &behind].concat()))
}

/// Every set that an open record may have, closed by every block in every way, and gone on with.
fn every_set() -> impl Iterator<Item = Case> {
    let records = (1..=10).flat_map(|expected| (0..1 << expected).map(move |set| lent(true, expected, set)));
    let offers = (0..=11).flat_map(|block| [0, VALID].map(|word| (block, word)));
    let offers = offers.flat_map(|(block, word)| TIMES.map(|time| offer(block, word, time)));
    let offers: Vec<Offer> = offers.collect();
    records.flat_map(move |record| offers.clone().into_iter().map(move |offer| lone_offer(record, offer)))
}

/// Sets of one block and of all below one, beside every expected block there is and some that are none.
fn sets_about_the_bounds() -> Vec<Case> {
    let lone = (0..32).map(|bit| 1 << bit);
    let sets: Vec<u32> = lone.flat_map(|bit: u32| [bit, bit - 1, !(bit - 1), u32::MAX - bit]).collect();
    let mut cases = Vec::new();
    for expected in (0..=13).chain([31, 32, 33, 64, 128, 255]) {
        for set in &sets {
            for open in [false, true] {
                cases.push(lone_offer(lent(open, expected, *set), offer(0, VALID, LAST)));
            }
        }
    }
    cases
}

/// Every choice among the seven grounds on which a watch refuses an offer, open and idle.
fn offers_refused() -> Vec<Case> {
    let mut cases = Vec::new();
    for choice in 0..256 {
        let has = |ground: u32| choice >> ground & 1 == 1;
        for set in [1 << 4, 1 << 11, 1 << 31, u32::MAX] {
            let mut watch = lent(has(7), if has(1) { 11 } else { 4 }, if has(2) { set } else { 0 });
            if has(0) {
                watch.limit = LONGEST_WAIT + 1;
            }
            if has(4) {
                watch.tag.hour = 24;
            }
            let mut offer = offer(if has(5) { 12 } else { 4 }, 0, LAST);
            if has(3) {
                offer.leap_days = vec![0];
            }
            if has(6) {
                offer.tag = vec![0xFF; 8];
            }
            cases.push(lone_offer(watch, offer));
        }
    }
    cases
}

/// Offers of fill that are refused, for their block, their tag and their list.
fn refused(block: u8) -> [Offer; 4] {
    let good = offer(block, 0, LAST);
    let bad_tag = digits(&Tag { hour: 24, ..tag_at(LAST, false) }).to_vec();
    [
        Offer { block: 12, ..good.clone() },
        Offer { tag: bad_tag, ..good.clone() },
        Offer { tag: vec![], ..good.clone() },
        Offer { leap_days: vec![0], ..good },
    ]
}

/// Scans with refused offers before any one block, and with strays before the first.
fn interrupted_scans() -> Vec<Case> {
    let mut cases = Vec::new();
    for set in [0, 0x2AA, 0x555, 0x7FF] {
        for place in 1..=10 {
            for between in refused(place) {
                let offers = [scan(0..=place - 1, set), vec![between], scan(place..=10, set)].concat();
                cases.push(from_begin(offers));
            }
        }
        let strays: Vec<Offer> = (1..=11).map(|block| offer(block, 0, LAST)).collect();
        cases.push(from_begin([&refused(0)[..], &strays, &scan(0..=10, set)].concat()));
    }
    cases
}

/// Scans that a block 0 closes at any place, and the whole scan that it opens.
fn scans_one_after_another() -> Vec<Case> {
    let mut cases = Vec::new();
    for place in 1..=10 {
        for (old, new) in [(0, 0x7FF), (0x7FF, 0), (0x2AA, 0x555), (0x555, 0x2AA), (0, 1), (1, 0)] {
            for time in TIMES {
                let closing = Offer { tag: offer(0, 0, time).tag, ..scan(0..=0, new)[0].clone() };
                let mut rest = scan(1..=10, new);
                rest.iter_mut().for_each(|offer| offer.tag.clone_from(&closing.tag));
                cases.push(from_begin([scan(0..=place - 1, old), vec![closing], rest].concat()));
            }
        }
    }
    cases
}

fn beginnings() -> impl Iterator<Item = Case> {
    [0, 1, LONGEST_WAIT, LONGEST_WAIT + 1, u32::MAX].into_iter().map(|limit| Case::Begin { limit })
}

/// Every case with a name.
pub fn compare_named_fills(library: &dyn Library, tally: &mut Tally) -> Result<u64, String> {
    let others = [sets_about_the_bounds(), offers_refused(), interrupted_scans(), scans_one_after_another()].concat();
    let cases = beginnings().chain(words().flat_map(word_cases)).chain(whole_scans()).chain(others);
    let mut compared = 0;
    for case in cases.chain(every_set()) {
        compare_case(library, &case, tally).map_err(|text| format!("fill, named case {compared}: {text}"))?;
        compared += 1;
    }
    Ok(compared)
}

/// Cases and closings.
pub fn compare_fills(library: &dyn Library, seed: u64, count: u64, tally: &mut Tally) -> Result<(u64, u64), String> {
    let cases = compare_named_fills(library, tally)? + compare_fill_cases(library, seed, count, tally)?;
    // A long sequence has as many offers as a few dozen cases.
    Ok((cases, compare_closings(library, seed, count / 40)?))
}
