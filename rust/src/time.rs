//! CDA time tags, and the time between two.

use rahmisve_sys::{rahmisve_elapsed, rahmisve_read_tag, rahmisve_write_tag};

#[cfg(doc)]
use crate::Refusal::*;
use crate::{answer, LeapDay, Refusal, TAG_BYTES, TIME_NUMBERS};

/// The numbers of a time tag. Any may be put here; the writer refuses those out of bounds. The default has day 0, so it
/// is no time by itself: it fills the numbers that are not named.
#[derive(Clone, Copy, Debug, Default, PartialEq, Eq)]
pub struct Time {
    /// 0 to 9999.
    pub year: u32,
    /// Of the year, from 1.
    pub day: u32,
    /// 0 to 23.
    pub hour: u32,
    /// 0 to 59.
    pub minute: u32,
    /// 0 to 59; at 23:59 on a [`LeapDay`] that is lent, 60 too.
    pub second: u32,
    /// 0 to 999.
    pub millisecond: u32,
    /// The flywheel mark, which is no part of the time.
    pub flywheel: bool,
}

impl Time {
    pub(crate) fn of(n: [u32; TIME_NUMBERS]) -> Time {
        let [year, day, hour, minute, second, millisecond, flywheel] = n;
        Time { year, day, hour, minute, second, millisecond, flywheel: flywheel != 0 }
    }

    fn numbers(&self) -> [u32; TIME_NUMBERS] {
        [self.year, self.day, self.hour, self.minute, self.second, self.millisecond, self.flywheel.into()]
    }
}

/// Reads a tag of eight bytes, by these [leap days](LeapDay).
///
/// # Errors
///
/// [`BadLeapDays`] (19), then [`BadTag`] (12).
///
/// ```
/// use rahmisve::*;
/// let time = read_tag(&[0x20, 0x08, 0x06, 0x02, 0x35, 0x95, 0x99, 0x99], &[])?;
/// assert_eq!((time.year, time.day, time.hour, time.millisecond, time.flywheel), (2008, 60, 23, 999, false));
///
/// let leap = [0x20, 0x16, 0x36, 0x62, 0x35, 0x96, 0x09, 0x99];
/// assert_eq!(read_tag(&leap, &[LeapDay::new(2016, 366)]).map(|time| time.second), Ok(60));
/// assert_eq!(read_tag(&leap, &[]), Err(Refusal::BadTag));
/// # Ok::<(), Refusal>(())
/// ```
pub fn read_tag(tag: &[u8], leap_days: &[LeapDay]) -> Result<Time, Refusal> {
    let mut time = [0; TIME_NUMBERS];
    // SAFETY: as in `read`; a leap day is laid out as its number, here and below.
    let number =
        unsafe { rahmisve_read_tag(tag.as_ptr(), tag.len(), leap_days.as_ptr().cast(), leap_days.len(), &mut time) };
    answer(number, Time::of(time))
}

/// The eight bytes of a time's tag, by these [leap days](LeapDay).
///
/// # Errors
///
/// [`BadLeapDays`] (19), then [`BadTag`] (12) where a number is out of bounds, as day 0 of the default is.
///
/// ```
/// use rahmisve::*;
/// let tag = write_tag(&Time { year: 2008, day: 366, ..Time::default() }, &[])?;
/// assert_eq!(tag, [0x20, 0x08, 0x36, 0x60, 0, 0, 0, 0]);
/// assert_eq!(write_tag(&Time { year: 2007, day: 366, ..Time::default() }, &[]), Err(Refusal::BadTag));
/// assert_eq!(write_tag(&Time::default(), &[]), Err(Refusal::BadTag));
///
/// let leap_days = [LeapDay::new(2008, 366)];
/// let leap = Time { year: 2008, day: 366, hour: 23, minute: 59, second: 60, ..Time::default() };
/// assert_eq!(write_tag(&leap, &leap_days), Ok([0x20, 0x08, 0x36, 0x62, 0x35, 0x96, 0, 0]));
/// assert_eq!(write_tag(&Time { minute: 58, ..leap }, &leap_days), Err(Refusal::BadTag));
/// # Ok::<(), Refusal>(())
/// ```
pub fn write_tag(time: &Time, leap_days: &[LeapDay]) -> Result<[u8; TAG_BYTES], Refusal> {
    let mut tag = [0; TAG_BYTES];
    // SAFETY: as in `read_tag`.
    let number = unsafe { rahmisve_write_tag(&time.numbers(), leap_days.as_ptr().cast(), leap_days.len(), &mut tag) };
    answer(number, tag)
}

/// Milliseconds from one tag to another, the leap seconds between them counted, negative where the second is earlier.
/// One list of [leap days](LeapDay) counts for both.
///
/// # Errors
///
/// [`BadLeapDays`] (19), then [`BadTag`] (12).
///
/// ```
/// use rahmisve::*;
/// let last = write_tag(&Time { year: 2016, day: 366, hour: 23, minute: 59, second: 59, ..Time::default() }, &[])?;
/// let next = write_tag(&Time { year: 2017, day: 1, ..Time::default() }, &[])?;
/// assert_eq!(elapsed(&last, &next, &[LeapDay::new(2016, 366)]), Ok(2_000));
/// assert_eq!(elapsed(&last, &next, &[]), Ok(1_000));
/// assert_eq!(elapsed(&next, &last, &[]), Ok(-1_000));
/// # Ok::<(), Refusal>(())
/// ```
pub fn elapsed(from: &[u8], to: &[u8], leap_days: &[LeapDay]) -> Result<i64, Refusal> {
    let mut ms = 0;
    // SAFETY: as in `read_tag`; what is only read may overlap.
    let number = unsafe {
        rahmisve_elapsed(
            from.as_ptr(),
            from.len(),
            to.as_ptr(),
            to.len(),
            leap_days.as_ptr().cast(),
            leap_days.len(),
            &mut ms,
        )
    };
    answer(number, ms)
}
