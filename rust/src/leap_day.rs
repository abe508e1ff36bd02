//! Leap days, which are lent with every tag.

#[cfg(doc)]
use crate::{Refusal::*, MOST_LEAP_DAYS};

/// A day whose last minute has 61 seconds, as one number: year x 1000 + day of the year. 2016 day 366 is 2016366.
///
/// Such days are announced and cannot be computed. So whoever reads, writes, compares or offers tags lends a list of
/// them, a slice that rises strictly and has at most [`MOST_LEAP_DAYS`]. It is lent as it stands, and nothing of it is
/// kept. By an empty list no day is a leap day.
///
/// Second 60 is good at 23:59 on a listed day and nowhere else, and a time counts 1,000 ms more for each listed day
/// before its own. Lend one list throughout, since times are comparable where one list counted them. A list that is
/// longer, does not rise, or has a number that is no day of the years 0 to 9999, is refused with [`BadLeapDays`] (19)
/// before its tag is looked at.
///
/// ```
/// use rahmisve::*;
/// const LEAP_DAYS: [LeapDay; 2] = [LeapDay::new(2015, 181), LeapDay::new(2016, 366)];
/// let leap = Time { year: 2016, day: 366, hour: 23, minute: 59, second: 60, millisecond: 999, flywheel: false };
/// let next = write_tag(&Time { year: 2017, day: 1, ..Time::default() }, &LEAP_DAYS)?;
/// assert_eq!(elapsed(&write_tag(&leap, &LEAP_DAYS)?, &next, &LEAP_DAYS), Ok(1));
/// assert_eq!(write_tag(&leap, &LEAP_DAYS[..1]), Err(Refusal::BadTag));
/// assert_eq!(write_tag(&leap, &[LEAP_DAYS[1], LEAP_DAYS[0]]), Err(Refusal::BadLeapDays));
/// # Ok::<(), Refusal>(())
/// ```
#[repr(transparent)]
#[derive(Clone, Copy, Debug, PartialEq, Eq, PartialOrd, Ord, Hash)]
pub struct LeapDay(pub u32);

impl LeapDay {
    /// The leap day of a year and a day in it, from 1. A pair that is no day makes a number that is none, and a list
    /// with it is refused with [`BadLeapDays`] (19).
    ///
    /// ```
    /// use rahmisve::*;
    /// assert_eq!(LeapDay::new(2016, 366), LeapDay(2_016_366));
    /// let tag = write_tag(&Time { year: 2016, day: 1, ..Time::default() }, &[])?;
    /// for (year, day) in [(2016, 0), (2015, 366), (2016, 367), (2016, 1_366), (10_000, 1), (u32::MAX, u32::MAX)] {
    ///     assert_eq!(read_tag(&tag, &[LeapDay::new(year, day)]), Err(Refusal::BadLeapDays));
    /// }
    /// # Ok::<(), Refusal>(())
    /// ```
    #[must_use]
    pub const fn new(year: u32, day: u32) -> LeapDay {
        // a day of four digits would run into the year, and a long year out of the number
        if year > 9_999 || day > 999 {
            return LeapDay(u32::MAX);
        }
        LeapDay(year * 1_000 + day)
    }
}
