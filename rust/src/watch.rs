//! The scan watch.

use rahmisve_sys::{rahmisve_watch_begin, rahmisve_watch_offer};

use crate::{answer, LeapDay, Refusal, Time, WATCH_NUMBERS};
#[cfg(doc)]
use crate::{Refusal::*, HEADER_VALID, VALID};

/// The blocks of a closed scan that were fill: the data valid word of each was another number than [`VALID`].
///
/// Of a complete scan they are any of blocks 0 to 10. The block that closes a scan in another way is none of its
/// blocks; where that is a block 0 and fill, it is in the set of the scan that it opens.
///
/// ```
/// use rahmisve::*;
/// let tag = write_tag(&Time { year: 2008, day: 60, ..Time::default() }, &[])?;
/// let mut watch = Watch::begin(1_000)?;
/// let mut closed = None;
/// for block in 0..=10 {
///     let valid = if [2, 5, 10].contains(&block) { 0 } else { VALID };
///     closed = Some(watch.offer(block, valid.into(), &tag, &[])?);
/// }
/// let fill = Fill { blocks: 1 << 2 | 1 << 5 | 1 << 10, count: 3 };
/// assert_eq!(closed, Some(Verdict::Complete(fill)));
/// assert!((0..=10).filter(|block| fill.has(*block)).eq([2, 5, 10]));
/// # Ok::<(), Refusal>(())
/// ```
#[derive(Clone, Copy, Debug, PartialEq, Eq, Hash)]
pub struct Fill {
    /// The set of these blocks as one number: bit b, `1 << b`, stands for block b.
    pub blocks: u32,
    /// How many they are.
    pub count: u32,
}

impl Fill {
    /// Whether a block is in the set. Numbers above 31 have no bit, and are in none.
    ///
    /// ```
    /// let fill = rahmisve::Fill { blocks: 1 << 3, count: 1 };
    /// assert_eq!([3, 2, 35, u32::MAX].map(|block| fill.has(block)), [true, false, false, false]);
    /// ```
    #[must_use]
    pub fn has(&self, block: u32) -> bool {
        self.blocks.checked_shr(block).is_some_and(|bits| bits & 1 == 1)
    }
}

/// What an accepted offer did. One that closed a scan has the blocks of that scan that were fill.
#[derive(Clone, Copy, Debug, PartialEq, Eq, Hash)]
pub enum Verdict {
    /// A block other than 0 came to an idle watch, which stays as it is.
    Stray,
    /// Block 0 opened a scan.
    Opened,
    /// The expected block came in time.
    Kept,
    /// Closed: the tag is earlier than the last one.
    ClockBack(Fill),
    /// Closed: the wait was longer than the limit.
    Late(Fill),
    /// Closed: not the expected block.
    Broken(Fill),
    /// Closed: block 10, and the scan is complete.
    Complete(Fill),
}

/// A watch over the blocks 0 to 10 of a scan: eleven numbers, as the manual has them.
///
/// ```
/// use rahmisve::*;
/// let second = |second| write_tag(&Time { year: 2008, day: 60, second, ..Time::default() }, &[]);
/// let mut watch = Watch::begin(10_000)?;
/// assert_eq!(watch.offer(0, VALID.into(), &second(5)?, &[]), Ok(Verdict::Opened));
/// assert_eq!(watch.offer(1, 0, &second(7)?, &[]), Ok(Verdict::Kept));
/// assert_eq!(watch.offer(2, 0, &second(6)?, &[]), Ok(Verdict::ClockBack(Fill { blocks: 1 << 1, count: 1 })));
/// assert!(!watch.is_open());
/// # Ok::<(), Refusal>(())
/// ```
#[derive(Clone, Copy, Debug, PartialEq, Eq)]
pub struct Watch([u32; WATCH_NUMBERS]);

impl Watch {
    /// An idle watch with a waiting limit in ms.
    ///
    /// # Errors
    ///
    /// [`LongLimit`] (16) for a limit above [`LONGEST_WAIT_MS`](crate::LONGEST_WAIT_MS).
    ///
    /// ```
    /// use rahmisve::*;
    /// assert!(Watch::begin(LONGEST_WAIT_MS).is_ok());
    /// assert_eq!(Watch::begin(LONGEST_WAIT_MS + 1), Err(Refusal::LongLimit));
    /// ```
    pub fn begin(limit: u32) -> Result<Watch, Refusal> {
        let mut numbers = [0; WATCH_NUMBERS];
        // SAFETY: as in `read`.
        let number = unsafe { rahmisve_watch_begin(limit, &mut numbers) };
        answer(number, Watch(numbers))
    }

    /// Offers a block, its data valid word, the bytes of its tag and the [leap days](LeapDay) to count by. A closing
    /// block 0 also opens a new scan: see [`is_open`](Watch::is_open). Block 11 is no block of a scan: one that comes
    /// to an open watch in time is [`Broken`](Verdict::Broken), and closes it.
    ///
    /// The data valid word is what the header has at [`HEADER_VALID`], or any number: every one but [`VALID`] is fill,
    /// 257 too. A verdict that closes a scan has the [fill blocks](Fill) of that scan. Whoever does not ask for them
    /// offers [`VALID`].
    ///
    /// The watch keeps no leap days: those of this offer judge and count its last tag too. Lend one list from block 0
    /// to the end of a scan. With one list and one limit throughout, a scan that completes took at most ten times the
    /// limit.
    ///
    /// # Errors
    ///
    /// The first that holds of [`LongLimit`] (16), [`NoRecord`] (13) and [`BadFill`] (20) for the watch itself,
    /// [`BadLeapDays`] (19) for the list, [`BadTag`] (12) for the watch's last tag, [`UnknownBlock`] (4) for the block,
    /// and [`BadTag`] (12) for its tag. The watch is as it was. It is refused for itself only where [`of`](Watch::of)
    /// made it, or where its last tag has second 60 and the list that is lent now does not have that day.
    ///
    /// ```
    /// use rahmisve::*;
    /// let valid = VALID.into();
    /// let mut watch = Watch::begin(1_000)?;
    /// let tag = write_tag(&Time { year: 2008, day: 60, ..Time::default() }, &[])?;
    /// assert_eq!(watch.offer(0, valid, &tag, &[]), Ok(Verdict::Opened));
    /// assert_eq!(watch.offer(12, valid, &tag, &[]), Err(Refusal::UnknownBlock));
    /// assert_eq!(watch.offer(11, valid, &tag, &[]), Ok(Verdict::Broken(Fill { blocks: 0, count: 0 })));
    ///
    /// // Over a leap second, which is in time.
    /// let leap_days = [LeapDay::new(2008, 366)];
    /// let leap = Time { year: 2008, day: 366, hour: 23, minute: 59, second: 60, ..Time::default() };
    /// watch.offer(0, valid, &write_tag(&leap, &leap_days)?, &leap_days)?;
    /// let next = write_tag(&Time { year: 2009, day: 1, ..Time::default() }, &leap_days)?;
    /// assert_eq!(watch.offer(1, valid, &next, &[]), Err(Refusal::BadTag));
    /// assert_eq!(watch.offer(1, valid, &next, &leap_days), Ok(Verdict::Kept));
    /// # Ok::<(), Refusal>(())
    /// ```
    pub fn offer(&mut self, block: u32, valid: u32, tag: &[u8], leap_days: &[LeapDay]) -> Result<Verdict, Refusal> {
        let mut verdict = 0;
        let mut fill = Fill { blocks: 0, count: 0 };
        // SAFETY: as in `read_tag`.
        let number = unsafe {
            rahmisve_watch_offer(
                &mut self.0,
                block,
                valid,
                tag.as_ptr(),
                tag.len(),
                leap_days.as_ptr().cast(),
                leap_days.len(),
                &mut verdict,
                &mut fill.blocks,
                &mut fill.count,
            )
        };
        let did = match verdict {
            1 => Verdict::Stray,
            2 => Verdict::Opened,
            3 => Verdict::Kept,
            4 => Verdict::ClockBack(fill),
            5 => Verdict::Late(fill),
            6 => Verdict::Broken(fill),
            7 => Verdict::Complete(fill),
            _ => return Err(Refusal::of(number)),
        };
        answer(number, did)
    }

    /// Whether a scan is open.
    ///
    /// ```
    /// use rahmisve::*;
    /// assert!(!Watch::begin(1_000)?.is_open());
    /// # Ok::<(), Refusal>(())
    /// ```
    #[must_use]
    pub fn is_open(&self) -> bool {
        self.0[0] != 0
    }

    /// The next expected block, while a scan is open.
    ///
    /// ```
    /// use rahmisve::*;
    /// let mut watch = Watch::begin(1_000)?;
    /// assert_eq!(watch.expected(), None);
    /// watch.offer(0, VALID.into(), &write_tag(&Time { year: 2008, day: 60, ..Time::default() }, &[])?, &[])?;
    /// assert_eq!(watch.expected(), Some(1));
    /// # Ok::<(), Refusal>(())
    /// ```
    #[must_use]
    pub fn expected(&self) -> Option<u32> {
        self.is_open().then_some(self.0[1])
    }

    /// The last tag's time, while a scan is open.
    ///
    /// ```
    /// use rahmisve::*;
    /// let time = Time { year: 2008, day: 60, ..Time::default() };
    /// let mut watch = Watch::begin(1_000)?;
    /// watch.offer(0, VALID.into(), &write_tag(&time, &[])?, &[])?;
    /// assert_eq!(watch.last(), Some(time));
    /// # Ok::<(), Refusal>(())
    /// ```
    #[must_use]
    pub fn last(&self) -> Option<Time> {
        let [_, _, last @ .., _, _] = self.0;
        self.is_open().then_some(Time::of(last))
    }

    /// The waiting limit in ms.
    ///
    /// ```
    /// use rahmisve::*;
    /// assert_eq!(Watch::begin(1_000)?.limit(), 1_000);
    /// # Ok::<(), Refusal>(())
    /// ```
    #[must_use]
    pub fn limit(&self) -> u32 {
        self.0[9]
    }

    /// The fill blocks of the open scan so far, a set as [`Fill::blocks`] is one. It is empty, which is 0, while the
    /// watch is idle; where [`of`](Watch::of) made it of numbers that say otherwise, the next offer is refused.
    ///
    /// ```
    /// use rahmisve::*;
    /// let tag = write_tag(&Time { year: 2008, day: 60, ..Time::default() }, &[])?;
    /// let mut watch = Watch::begin(1_000)?;
    /// watch.offer(0, VALID.into(), &tag, &[])?;
    /// watch.offer(1, 0, &tag, &[])?;
    /// assert_eq!(watch.fill(), 1 << 1);
    /// # Ok::<(), Refusal>(())
    /// ```
    #[must_use]
    pub fn fill(&self) -> u32 {
        self.0[10]
    }

    /// The eleven numbers, to be kept somewhere.
    ///
    /// ```
    /// use rahmisve::*;
    /// assert_eq!(Watch::begin(1_000)?.numbers(), [0, 0, 0, 0, 0, 0, 0, 0, 0, 1_000, 0]);
    /// # Ok::<(), Refusal>(())
    /// ```
    #[must_use]
    pub fn numbers(&self) -> [u32; WATCH_NUMBERS] {
        self.0
    }

    /// A watch of eleven numbers that were kept, of any value: what is out of bounds is refused by the offer that would
    /// use it. A watch is for one version: keep [`VERSION`](crate::VERSION) beside it. The ten numbers that version 4
    /// kept are none: [`begin`](Watch::begin) anew, with the limit, which is the last of them.
    ///
    /// ```
    /// use rahmisve::*;
    /// let watch = Watch::begin(1_000)?;
    /// assert_eq!(Watch::of(watch.numbers()), watch);
    /// # Ok::<(), Refusal>(())
    /// ```
    #[must_use]
    pub fn of(numbers: [u32; WATCH_NUMBERS]) -> Watch {
        Watch(numbers)
    }
}
