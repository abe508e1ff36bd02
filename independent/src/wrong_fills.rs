//! Libraries that are wrong on purpose about which blocks were fill, one fault each. By any other name they leave an
//! answer as it is.

use crate::library::OfferAnswer;
use crate::watch::{self, blocks, Verdict, Watch, VALID};

/// Those that show in what is handed over at the closings of a watch begun idle come first.
pub const FILL_FAULTS: [&str; 56] = [
    "takes every word but 0 as valid",
    "takes every word but 1 as valid",
    "goes by the low bit of the word",
    "keeps the word in a byte",
    "keeps the word in 16 bits",
    "takes 255 as valid",
    "takes a word above 255 as valid",
    "leaves out a block 0 that opens",
    "leaves out a block 0 that closes and opens",
    "leaves out block 10",
    "leaves out a kept block",
    "keeps the last fill block only",
    "puts a kept block at the next number",
    "puts in a valid block 0 that closes and opens",
    "puts the closing block into a set by the clock",
    "puts the closing block into a late set",
    "puts the closing block into a broken set",
    "puts a closing block 0 into the old set",
    "keeps the set over a closing",
    "gives the new scan the old set",
    "hands over the set of the new scan",
    "hands over the set of a completed scan only",
    "hands over no set of a scan that block 0 closes",
    "hands the set over where a scan goes on",
    "hands the set over where a scan opens",
    "hands the set over on a refusal",
    "counts one block too many",
    "counts one block too few",
    "counts up to the last block",
    "counts the valid blocks",
    "counts no blocks of a broken scan",
    "counts no blocks of a late scan",
    "counts no blocks where the clock went back",
    "counts no block 10",
    "empties the set on a refusal",
    "puts a refused block into the set",
    "puts a stray into the set",
    "begins with block 0 in the set",
    "gives a set with a refused begin",
    "empties the set on refusal 20",
    "closes on refusal 20",
    "answers 13 for a set out of bounds",
    "tests 20 before 16",
    "tests 20 before 13",
    "tests 20 after 19",
    "tests 20 after the last tag",
    "tests 20 after 4",
    "tests 20 last",
    "tests 20 only when open",
    "tests 20 only when idle",
    "allows the expected block in the set",
    "refuses the block before the expected one",
    "allows every block up to 10",
    "looks at blocks up to 10 only",
    "looks at 16 bits of the set only",
    "tests an idle set by the expected block",
];

/// The data valid word that is gone by in place of the offered one.
pub fn seen(fault: &str, valid: u32) -> u32 {
    match fault {
        "takes every word but 0 as valid" => valid.min(1),
        "takes every word but 1 as valid" => u32::from(valid != VALID),
        "goes by the low bit of the word" => valid % 2,
        "keeps the word in a byte" => valid % 256,
        "keeps the word in 16 bits" => valid % 65_536,
        "takes 255 as valid" if valid == 255 => VALID,
        "takes a word above 255 as valid" if valid > 255 => VALID,
        _ => valid,
    }
}

pub fn begin(fault: &str, limit: u32) -> (u8, Watch) {
    let (number, watch) = watch::begin(limit);
    match fault {
        "begins with block 0 in the set" if number == 0 => (0, Watch { fill: 1, ..watch }),
        "gives a set with a refused begin" if number != 0 => (number, Watch { fill: 1, ..watch }),
        _ => (number, watch),
    }
}

/// The tests of an offer by place: limit, expected block, set, list, last tag, block and tag.
pub fn order(fault: &str) -> [usize; 7] {
    match fault {
        "tests 20 before 16" => [2, 0, 1, 3, 4, 5, 6],
        "tests 20 before 13" => [0, 2, 1, 3, 4, 5, 6],
        "tests 20 after 19" => [0, 1, 3, 2, 4, 5, 6],
        "tests 20 after the last tag" => [0, 1, 3, 4, 2, 5, 6],
        "tests 20 after 4" => [0, 1, 3, 4, 5, 2, 6],
        "tests 20 last" => [0, 1, 3, 4, 5, 6, 2],
        _ => [0, 1, 2, 3, 4, 5, 6],
    }
}

/// Whether the set of a lent record is refused.
pub fn out_of_bounds(fault: &str, watch: &Watch) -> bool {
    let mut judged = *watch;
    match fault {
        "tests 20 only when open" if !watch.open => judged.fill = 0,
        "tests 20 only when idle" if watch.open => judged.fill = 0,
        "allows the expected block in the set" => judged.expected = watch.expected.saturating_add(1),
        "refuses the block before the expected one" => judged.expected = watch.expected.saturating_sub(1),
        "allows every block up to 10" => judged.expected = 11,
        "looks at blocks up to 10 only" => judged.fill %= 1 << 11,
        "looks at 16 bits of the set only" => judged.fill %= 1 << 16,
        "tests an idle set by the expected block" => judged.open = true,
        _ => {}
    }
    watch::fill_out_of_bounds(&judged)
}

/// The record's set after an offer that was answered so. `bit` is its block's, none for valid data.
fn kept(fault: &str, before: &Watch, after: &Watch, block: u8, bit: u32, verdict: Verdict) -> u32 {
    let reopens = verdict.closes() && block == 0;
    match (fault, verdict) {
        ("leaves out a block 0 that opens", Verdict::Opened) => 0,
        ("leaves out a block 0 that closes and opens", _) if reopens => 0,
        ("leaves out a kept block", Verdict::Kept) => before.fill,
        ("keeps the last fill block only", Verdict::Kept) if bit != 0 => bit,
        ("puts a kept block at the next number", Verdict::Kept) => before.fill | bit << 1,
        ("puts in a valid block 0 that closes and opens", _) if reopens => 1,
        ("keeps the set over a closing", _) if verdict.closes() && !reopens => before.fill,
        ("gives the new scan the old set", _) if reopens => before.fill | after.fill,
        ("empties the set on a refusal", Verdict::Refused(_)) => 0,
        ("empties the set on refusal 20", Verdict::Refused(20)) => 0,
        ("puts a refused block into the set", Verdict::Refused(_)) => before.fill | bit,
        ("puts a stray into the set", Verdict::Stray) => before.fill | bit,
        _ => after.fill,
    }
}

/// The set that is handed over in place of the right one.
fn handed_over(fault: &str, before: &Watch, after: &Watch, block: u8, bit: u32, answer: &OfferAnswer) -> u32 {
    let by_block_0 = answer.verdict.closes() && block == 0;
    match (fault, answer.verdict) {
        ("leaves out block 10", Verdict::Complete) => before.fill,
        ("puts the closing block into a set by the clock", Verdict::ClockBack) => answer.fill | bit,
        ("puts the closing block into a late set", Verdict::Late) => answer.fill | bit,
        ("puts the closing block into a broken set", Verdict::Broken) => answer.fill | bit,
        ("puts a closing block 0 into the old set", _) if by_block_0 => answer.fill | bit,
        ("hands over the set of the new scan", verdict) if verdict.closes() => after.fill,
        ("hands over the set of a completed scan only", Verdict::ClockBack | Verdict::Late | Verdict::Broken) => 0,
        ("hands over no set of a scan that block 0 closes", _) if by_block_0 => 0,
        ("hands the set over where a scan goes on", Verdict::Kept) => after.fill,
        ("hands the set over where a scan opens", Verdict::Opened) => after.fill,
        ("hands the set over on a refusal", Verdict::Refused(_)) => before.fill,
        _ => answer.fill,
    }
}

/// How many blocks the set is said to have.
fn counted(fault: &str, before: &Watch, verdict: Verdict, fill: u32) -> u32 {
    let count = blocks(fill).count() as u32;
    match (fault, verdict) {
        ("counts one block too many", _) if verdict.closes() => count + 1,
        ("counts one block too few", _) => count.saturating_sub(1),
        ("counts up to the last block", _) => blocks(fill).last().map_or(0, |last| last + 1),
        ("counts the valid blocks", Verdict::Complete) => 11 - count,
        ("counts the valid blocks", _) if verdict.closes() => u32::from(before.expected) - count,
        ("counts no blocks of a broken scan", Verdict::Broken) => 0,
        ("counts no blocks of a late scan", Verdict::Late) => 0,
        ("counts no blocks where the clock went back", Verdict::ClockBack) => 0,
        ("counts no block 10", _) => blocks(fill).filter(|block| *block < 10).count() as u32,
        _ => count,
    }
}

/// What is made of a right answer, and of the record.
pub fn spoilt(
    fault: &str,
    before: &Watch,
    watch: &mut Watch,
    block: u8,
    valid: u32,
    answer: OfferAnswer,
) -> OfferAnswer {
    let bit = if valid == VALID || block > 11 { 0 } else { 1 << block };
    watch.fill = kept(fault, before, watch, block, bit, answer.verdict);
    let fill = handed_over(fault, before, watch, block, bit, &answer);
    let mut verdict = answer.verdict;
    match (fault, verdict) {
        ("closes on refusal 20", Verdict::Refused(20)) => *watch = Watch { limit: before.limit, ..Watch::default() },
        ("answers 13 for a set out of bounds", Verdict::Refused(20)) => verdict = Verdict::Refused(13),
        _ => {}
    }
    OfferAnswer { verdict, fill, count: counted(fault, before, verdict, fill) }
}
