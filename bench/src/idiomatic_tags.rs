//! Idiomatic Rust: a time of named numbers, slices and results, the standard library's searches; at the end the same
//! functions as the two others have.

const LONGEST_WAIT: u32 = 3_600_000;
const LAST_OF_SCAN: u32 = 10;
const VALID: u32 = 1;

#[derive(Clone, Copy, Default)]
pub struct Time {
    year: u32,
    day: u32,
    hour: u32,
    minute: u32,
    second: u32,
    ms: u32,
    flywheel: bool,
}

fn is_day(year: u32, day: u32) -> bool {
    let leap = year.is_multiple_of(4) && (!year.is_multiple_of(100) || year.is_multiple_of(400));
    year <= 9_999 && (1..=365 + u32::from(leap)).contains(&day)
}

/// A list of leap days that is good, which nothing else makes.
#[derive(Clone, Copy)]
pub(crate) struct LeapDays<'a>(&'a [u32]);

impl<'a> LeapDays<'a> {
    pub(crate) fn new(days: &'a [u32]) -> Result<Self, u8> {
        let good = days.len() <= 64
            && days.iter().all(|day| is_day(day / 1_000, day % 1_000))
            && days.is_sorted_by(|a, b| a < b);
        good.then_some(LeapDays(days)).ok_or(19)
    }
}

impl Time {
    fn number(&self) -> u32 {
        self.year * 1_000 + self.day
    }

    fn in_bounds(&self, leap_days: LeapDays) -> bool {
        is_day(self.year, self.day)
            && self.ms <= 999
            && match (self.hour, self.minute, self.second) {
                (0..=23, 0..=59, 0..=59) => true,
                (23, 59, 60) => leap_days.0.binary_search(&self.number()).is_ok(),
                _ => false,
            }
    }

    pub(crate) fn parse(tag: &[u8], leap_days: LeapDays) -> Result<Time, u8> {
        let mut bytes: [u8; 8] = tag.try_into().map_err(|_| 12)?;
        let flywheel = bytes[2] >= 0x80;
        bytes[2] &= 0x7F;
        if bytes.iter().any(|byte| byte >> 4 > 9 || byte & 15 > 9) {
            return Err(12);
        }
        let [a, b, c, d, e, f, g, h] = bytes.map(|byte| (u32::from(byte >> 4), u32::from(byte & 15)));
        let time = Time {
            year: a.0 * 1_000 + a.1 * 100 + b.0 * 10 + b.1,
            day: c.0 * 100 + c.1 * 10 + d.0,
            hour: d.1 * 10 + e.0,
            minute: e.1 * 10 + f.0,
            second: f.1 * 10 + g.0,
            ms: g.1 * 100 + h.0 * 10 + h.1,
            flywheel,
        };
        if time.in_bounds(leap_days) {
            Ok(time)
        } else {
            Err(12)
        }
    }

    fn milliseconds(&self, leap_days: LeapDays) -> i64 {
        let year = self.year;
        let days = year * 365 + year.div_ceil(4) - year.div_ceil(100) + year.div_ceil(400) + self.day;
        let minutes = (i64::from(days) * 24 + i64::from(self.hour)) * 60 + i64::from(self.minute);
        let leap_seconds = leap_days.0.partition_point(|&day| day < self.number());
        (minutes * 60 + i64::from(self.second) + leap_seconds as i64) * 1_000 + i64::from(self.ms)
    }
}

pub fn read_tag(tag: &[u8], leap_days: &[u32]) -> Result<Time, u8> {
    Time::parse(tag, LeapDays::new(leap_days)?)
}

pub fn elapsed(from: &[u8], to: &[u8], leap_days: &[u32]) -> Result<i64, u8> {
    let leap_days = LeapDays::new(leap_days)?;
    let (from, to) = (Time::parse(from, leap_days)?, Time::parse(to, leap_days)?);
    Ok(to.milliseconds(leap_days) - from.milliseconds(leap_days))
}

#[derive(Clone, Copy)]
pub enum Closing {
    ClockBack = 4,
    Late,
    Broken,
    Complete,
}

#[derive(Clone, Copy)]
pub enum Verdict {
    Stray,
    Opened,
    Kept,
    /// With the set of the scan's fill blocks.
    Closed(Closing, u32),
}

pub struct Watch {
    /// The expected block and the last tag, where a scan is open.
    open: Option<(u32, Time)>,
    limit: u32,
    /// The fill blocks of that scan: bit b stands for block b.
    fill: u32,
}

impl Watch {
    fn in_bounds(&self) -> Result<(), u8> {
        if self.limit > LONGEST_WAIT {
            return Err(16);
        }
        let to_come = match self.open {
            Some((expected @ 1..=LAST_OF_SCAN, _)) => expected,
            Some(_) => return Err(13),
            None => 0,
        };
        if self.fill >> to_come != 0 {
            return Err(20);
        }
        Ok(())
    }

    pub fn offer(&mut self, block: u32, valid: u32, tag: &[u8], leap_days: &[u32]) -> Result<Verdict, u8> {
        self.in_bounds()?;
        let leap_days = LeapDays::new(leap_days)?;
        if self.open.is_some_and(|(_, last)| !last.in_bounds(leap_days)) {
            return Err(12);
        }
        if block > 11 {
            return Err(4);
        }
        let time = Time::parse(tag, leap_days)?;
        let own = u32::from(valid != VALID) << block;
        Ok(match self.open {
            Some((expected, last)) => {
                let waited = time.milliseconds(leap_days) - last.milliseconds(leap_days);
                self.follow(block, own, time, expected, waited)
            }
            None if block == 0 => {
                (self.open, self.fill) = (Some((1, time)), own);
                Verdict::Opened
            }
            None => Verdict::Stray,
        })
    }

    /// `own` is the set of the block alone, or empty where it is valid.
    fn follow(&mut self, block: u32, own: u32, time: Time, expected: u32, waited: i64) -> Verdict {
        let (closing, fill) = match waited {
            ..0 => (Closing::ClockBack, self.fill),
            _ if waited > self.limit.into() => (Closing::Late, self.fill),
            _ if block != expected => (Closing::Broken, self.fill),
            _ if block == LAST_OF_SCAN => (Closing::Complete, self.fill | own),
            _ => {
                (self.open, self.fill) = (Some((expected + 1, time)), self.fill | own);
                return Verdict::Kept;
            }
        };
        (self.open, self.fill) = if block == 0 { (Some((1, time)), own) } else { (None, 0) };
        Verdict::Closed(closing, fill)
    }
}

/// The three functions of tags.h. Where a length is 0 the pointer is not followed.
pub(crate) mod c {
    use super::{Time, Verdict, Watch};
    use crate::tags::WatchNumbers;

    pub(crate) unsafe fn lent<'a, T>(from: *const T, length: usize) -> &'a [T] {
        if length == 0 {
            return &[];
        }
        std::slice::from_raw_parts(from, length)
    }

    pub(crate) fn numbers(time: Time) -> [u32; 7] {
        let Time { year, day, hour, minute, second, ms, flywheel } = time;
        [year, day, hour, minute, second, ms, flywheel.into()]
    }

    pub unsafe extern "C" fn idiomatic_read_tag(
        tag: *const u8,
        len: usize,
        days: *const u32,
        count: usize,
        time: *mut [u32; 7],
    ) -> u8 {
        let read = super::read_tag(lent(tag, len), lent(days, count));
        *time = numbers(read.unwrap_or_default());
        read.err().unwrap_or(0)
    }

    pub unsafe extern "C" fn idiomatic_elapsed(
        from: *const u8,
        from_len: usize,
        to: *const u8,
        to_len: usize,
        days: *const u32,
        count: usize,
        ms: *mut i64,
    ) -> u8 {
        let elapsed = super::elapsed(lent(from, from_len), lent(to, to_len), lent(days, count));
        *ms = elapsed.unwrap_or(0);
        elapsed.err().unwrap_or(0)
    }

    /// The number of a verdict, and the set that it hands over.
    fn numbers_of(verdict: Verdict) -> (u8, u32) {
        match verdict {
            Verdict::Stray => (1, 0),
            Verdict::Opened => (2, 0),
            Verdict::Kept => (3, 0),
            Verdict::Closed(closing, fill) => (closing as u8, fill),
        }
    }

    pub unsafe extern "C" fn idiomatic_watch_offer(
        row: *mut WatchNumbers,
        block: u32,
        valid: u32,
        tag: *const u8,
        len: usize,
        days: *const u32,
        count: usize,
        verdict: *mut u8,
        fill: *mut u32,
        fill_count: *mut u32,
    ) -> u8 {
        let [open, expected, year, day, hour, minute, second, ms, flywheel, limit, set] = *row;
        let last = Time { year, day, hour, minute, second, ms, flywheel: flywheel != 0 };
        let mut watch = Watch { open: (open != 0).then_some((expected, last)), limit, fill: set };
        let did = watch.offer(block, valid, lent(tag, len), lent(days, count));
        (*verdict, *fill) = did.map_or((0, 0), numbers_of);
        *fill_count = (*fill).count_ones();
        if did.is_ok_and(|verdict| !matches!(verdict, Verdict::Stray)) {
            let (expected, time) = watch.open.unwrap_or_default();
            let [year, day, hour, minute, second, ms, flywheel] = numbers(time);
            let open = watch.open.is_some().into();
            *row = [open, expected, year, day, hour, minute, second, ms, flywheel, limit, watch.fill];
        }
        did.err().unwrap_or(0)
    }
}
