//! The watch that follows a scan, blocks 0 to 10, and which of them were fill.

use crate::library::OfferAnswer;
use crate::tags::{leap_days, try_read, LeapDays, Tag};

pub const LONGEST_WAIT: u32 = 3_600_000;

/// What word 9 of a header says of valid data, by Table 3-5. Data under any other word are fill.
pub const VALID: u32 = 1;

/// `fill` is a set of block numbers: bit b, `1 << b`, stands for block b.
#[derive(Clone, Copy, Debug, Default, PartialEq, Eq)]
pub struct Watch {
    pub open: bool,
    pub expected: u8,
    pub tag: Tag,
    pub limit: u32,
    pub fill: u32,
}

#[derive(Clone, Copy, Debug, PartialEq, Eq, PartialOrd, Ord)]
pub enum Verdict {
    Refused(u8),
    Stray,
    Opened,
    Kept,
    ClockBack,
    Late,
    Broken,
    Complete,
}

impl Verdict {
    pub fn closes(self) -> bool {
        matches!(self, Verdict::ClockBack | Verdict::Late | Verdict::Broken | Verdict::Complete)
    }
}

pub fn begin(limit: u32) -> (u8, Watch) {
    if limit > LONGEST_WAIT {
        return (16, Watch::default());
    }
    (0, Watch { limit, ..Watch::default() })
}

/// The block numbers of a set.
pub fn blocks(set: u32) -> impl Iterator<Item = u32> {
    (0..u32::BITS).filter(move |block| set >> block & 1 == 1)
}

/// The set with one block more, where that is fill.
fn with_block(set: u32, block: u8, valid: u32) -> u32 {
    if valid == VALID {
        set
    } else {
        set | 1 << block
    }
}

fn opened(limit: u32, valid: u32, tag: Tag) -> Watch {
    Watch { open: true, expected: 1, tag, limit, fill: with_block(0, 0, valid) }
}

fn idle(limit: u32) -> Watch {
    Watch { limit, ..Watch::default() }
}

/// Whether a block is in the set that cannot have come yet; to an idle watch none has.
pub fn fill_out_of_bounds(watch: &Watch) -> bool {
    let to_come = if watch.open { watch.expected } else { 0 };
    blocks(watch.fill).any(|block| block >= to_come.into())
}

/// The leap days, or why the lent record or their list is refused: an idle record's block and tag are not read.
fn lent_leap_days(watch: &Watch, lent: &[u32]) -> Result<LeapDays, u8> {
    if watch.limit > LONGEST_WAIT {
        return Err(16);
    }
    if watch.open && !(1..=10).contains(&watch.expected) {
        return Err(13);
    }
    if fill_out_of_bounds(watch) {
        return Err(20);
    }
    let leap_days = leap_days(lent)?;
    if watch.open && !watch.tag.in_bounds(&leap_days) {
        return Err(12);
    }
    Ok(leap_days)
}

fn try_offer(watch: &mut Watch, block: u8, valid: u32, tag: &[u8], lent: &[u32]) -> Result<OfferAnswer, u8> {
    let leap_days = lent_leap_days(watch, lent)?;
    if block > 11 {
        return Err(4);
    }
    let tag = try_read(tag, &leap_days)?;
    if !watch.open {
        return Ok(offer_idle(watch, block, valid, tag));
    }
    let d = tag.time(&leap_days) - watch.tag.time(&leap_days);
    Ok(offer_open(watch, block, valid, tag, d))
}

pub fn offer(watch: &mut Watch, block: u8, valid: u32, tag: &[u8], lent: &[u32]) -> OfferAnswer {
    try_offer(watch, block, valid, tag, lent).unwrap_or_else(OfferAnswer::refused)
}

/// What an idle watch makes of an offer that is not refused.
pub fn offer_idle(watch: &mut Watch, block: u8, valid: u32, tag: Tag) -> OfferAnswer {
    if block != 0 {
        return OfferAnswer::closing_none(Verdict::Stray);
    }
    *watch = opened(watch.limit, valid, tag);
    OfferAnswer::closing_none(Verdict::Opened)
}

/// What an open one makes of it, `d` being the time since the last tag.
pub fn offer_open(watch: &mut Watch, block: u8, valid: u32, tag: Tag, d: i64) -> OfferAnswer {
    let verdict = if d < 0 {
        Verdict::ClockBack
    } else if d > watch.limit as i64 {
        Verdict::Late
    } else if block != watch.expected {
        Verdict::Broken
    } else {
        // Only the expected block belongs to the scan, be it the last one or not.
        watch.fill = with_block(watch.fill, block, valid);
        if block == 10 {
            Verdict::Complete
        } else {
            watch.expected += 1;
            watch.tag = tag;
            return OfferAnswer::closing_none(Verdict::Kept);
        }
    };
    let answer = OfferAnswer::closing(verdict, watch.fill);
    *watch = if block == 0 { opened(watch.limit, valid, tag) } else { idle(watch.limit) };
    answer
}
