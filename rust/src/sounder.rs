//! The status of the Sounder, and which of its detectors are suspect.

use core::fmt;

use rahmisve_sys::{rahmisve_sounder_status, rahmisve_sounder_suspect};

use crate::{answer, LeapDay, Refusal, Time, SOUNDER_NUMBERS, SOUNDER_TAGS, SOUNDER_TAG_NUMBERS};
#[cfg(doc)]
use crate::{Refusal::*, SOUNDER_WORDS};

/// A detector of the Sounder.
#[derive(Clone, Copy, Debug, PartialEq, Eq, PartialOrd, Ord, Hash)]
pub struct Detector {
    /// The channel, 1 to 19.
    pub channel: u32,
    /// The detector in its channel, 1 to 4.
    pub detector: u32,
}

/// The frame fields of a Sounder documentation block.
#[derive(Clone, Copy, Debug, PartialEq, Eq, Hash)]
pub struct SounderFrame {
    /// The scan, counted from the start of the frame: 1 to 396. Words 181-182, RSSCT.
    pub scan_of_frame: u32,
    /// The scan, counted from the north: 1 to 396. Words 183-184, ASSCT.
    pub scan: u32,
    /// The northernmost line of the scan: 1 to 1579. Words 185-186, SNSLN.
    pub scan_north: u32,
    /// The westernmost pixel of the frame: 1 to 1754, and not above the easternmost. Words 187-188, SWFPX.
    pub west: u32,
    /// The easternmost pixel of the frame: 5 to 1758. Words 189-190, SEFPX.
    pub east: u32,
    /// The northernmost line of the frame: 1 to 1579. Words 191-192, SNFLN.
    pub north: u32,
    /// The southernmost line of the frame: 4 to 1582. Words 193-194, SSFLN.
    pub south: u32,
}

/// What each of the fifteen time tags of a Sounder documentation block is of, in the order of the block.
#[derive(Clone, Copy, Debug, PartialEq, Eq, PartialOrd, Ord, Hash)]
pub enum SounderTag {
    /// Current SPS time, TSCURR.
    Current,
    /// The scan line starts, TSCLS.
    LineStart,
    /// The scan line ends, TSCLE.
    LineEnd,
    /// The calibration set at the line's start, TCSLS.
    SetAtStart,
    /// The calibration set at the line's end, TCSLE.
    SetAtEnd,
    /// The priority frame starts, TSPFS.
    PriorityFrame,
    /// The normal frame starts, TSNFS.
    NormalFrame,
    /// Last spacelook calibration, TSSPC.
    Spacelook,
    /// Last electronic calibration, TSECL.
    Ecal,
    /// Last blackbody calibration, TSBBC.
    Blackbody,
    /// Last star sense, TSSTR.
    StarSense,
    /// Last ranging measurement, TLRAN.
    Ranging,
    /// The normalization tables used, TSVIT.
    VisibleTables,
    /// The limits in force, TSCLMT.
    Limits,
    /// The orbit and attitude set in force, TSONA.
    Orbit,
}

/// What a Sounder documentation block says of the Sounder.
#[derive(Clone, Copy, Debug, PartialEq, Eq)]
pub struct SounderStatus {
    /// How many of the 76 detectors are suspect.
    pub suspects: u32,
    /// The first suspect one, in the order of channels and in each of detectors, if any is.
    pub first: Option<Detector>,
    /// How many blocks of raw data the scan has, as it stands in words 43-44, SRBCT.
    pub raw_blocks: u32,
    /// How many blocks 11 the scan has, this one too, as it stands in words 45-46, SGBCT.
    pub blocks: u32,
    /// The frame fields.
    pub frame: SounderFrame,
    /// The time of each tag, or [`BadTag`] (12), in the order of [`SounderTag`].
    pub tags: [Result<Time, Refusal>; SOUNDER_TAGS],
}

impl SounderStatus {
    /// The time of a tag.
    ///
    /// # Errors
    ///
    /// [`BadTag`] (12). A bad tag says nothing of the others.
    ///
    /// ```
    /// use rahmisve::*;
    /// # let mut words = [0; SOUNDER_WORDS];
    /// # [182, 184, 186, 188, 190, 192, 194].map(|word| words[word - 1] = 5);
    /// // a block whose first tag is of 2008 day 61, and whose other tags are zeros
    /// words[59 - 1..66].copy_from_slice(&[0x20, 0x08, 0x06, 0x10, 0, 0, 0, 0]);
    /// let status = sounder_status(&words, &[])?;
    /// assert_eq!(status.tag(SounderTag::Current), Ok(Time { year: 2008, day: 61, ..Time::default() }));
    /// assert_eq!(status.tag(SounderTag::StarSense), Err(Refusal::BadTag));
    /// # Ok::<(), SounderRefusal>(())
    /// ```
    pub fn tag(&self, tag: SounderTag) -> Result<Time, Refusal> {
        self.tags[tag as usize]
    }
}

/// Why a Sounder documentation block was refused, or a detector of it.
///
/// ```
/// use rahmisve::*;
/// let why = sounder_status(&[0; SOUNDER_WORDS], &[]).expect_err("no scan is counted 0");
/// assert_eq!((why.refusal, why.word), (Refusal::OutOfRange, Some(181)));
/// assert_eq!(why.to_string(), "refusal 22: a frame field out of its range, word 181");
/// assert_eq!(Refusal::from(why), Refusal::OutOfRange);
/// ```
#[derive(Clone, Copy, Debug, PartialEq, Eq, Hash)]
pub struct SounderRefusal {
    /// Why.
    pub refusal: Refusal,
    /// The first word of the frame field, where the refusal is [`OutOfRange`] (22): 181, 183 and so on to 193.
    pub word: Option<u32>,
}

impl fmt::Display for SounderRefusal {
    fn fmt(&self, f: &mut fmt::Formatter<'_>) -> fmt::Result {
        match self.word {
            Some(word) => write!(f, "{}, word {word}", self.refusal),
            None => self.refusal.fmt(f),
        }
    }
}

impl core::error::Error for SounderRefusal {}

impl From<SounderRefusal> for Refusal {
    fn from(why: SounderRefusal) -> Refusal {
        why.refusal
    }
}

fn judged<T>(number: u8, word: u32, accepted: T) -> Result<T, SounderRefusal> {
    answer(number, accepted).map_err(|refusal| SounderRefusal { refusal, word: (word != 0).then_some(word) })
}

/// Judges a Sounder documentation block, in [`SOUNDER_WORDS`] words, by these [leap days](LeapDay). It comes as a block
/// 11 with words of eight bits, and has 32 in the last six bits of word 3, which is not tested here.
///
/// # Errors
///
/// The first that holds of [`WrongLength`] (8), [`LargeWord`] (14) for a word above 255, [`SpareBit`] (21) for a bit that
/// is 1 among the last four of word 42, [`OutOfRange`] (22) for a frame field out of its range, and [`BadLeapDays`] (19).
/// A western pixel above the eastern one is the eastern field out of its range. A bad tag refuses itself and nothing
/// else.
///
/// ```
/// use rahmisve::*;
/// # let mut words = [0; SOUNDER_WORDS];
/// # [182, 184, 186, 188, 190, 192, 194].map(|word| words[word - 1] = 5);
/// // a block in which every frame field is 5 and no detector is suspect; then channel 1 detector 3 and one more are
/// assert_eq!(sounder_status(&words, &[])?.first, None);
/// (words[33 - 1], words[42 - 1]) = (0x20, 0x10);
/// let status = sounder_status(&words, &[])?;
/// assert_eq!((status.suspects, status.first), (2, Some(Detector { channel: 1, detector: 3 })));
/// assert_eq!((status.frame.west, status.frame.east), (5, 5));
///
/// words[188 - 1] = 6;
/// assert_eq!(sounder_status(&words, &[]), Err(SounderRefusal { refusal: Refusal::OutOfRange, word: Some(189) }));
/// words[42 - 1] = 0x08;
/// assert_eq!(sounder_status(&words, &[]), Err(SounderRefusal { refusal: Refusal::SpareBit, word: None }));
/// # Ok::<(), SounderRefusal>(())
/// ```
pub fn sounder_status(words: &[u16], leap_days: &[LeapDay]) -> Result<SounderStatus, SounderRefusal> {
    let mut status = [0; SOUNDER_NUMBERS];
    let mut tags = [[0; SOUNDER_TAG_NUMBERS]; SOUNDER_TAGS];
    // SAFETY: as in `read_tag`.
    let number = unsafe {
        rahmisve_sounder_status(
            words.as_ptr(),
            words.len(),
            leap_days.as_ptr().cast(),
            leap_days.len(),
            &mut status,
            &mut tags,
        )
    };
    let [word, suspects, channel, detector, raw_blocks, blocks, scan_of_frame, scan, scan_north, west, east, north, south] =
        status;
    let accepted = SounderStatus {
        suspects,
        first: (suspects != 0).then_some(Detector { channel, detector }),
        raw_blocks,
        blocks,
        frame: SounderFrame { scan_of_frame, scan, scan_north, west, east, north, south },
        tags: tags.map(|[number, time @ ..]| answer(number as u8, Time::of(time))),
    };
    judged(number, word, accepted)
}

/// Whether a detector of such a block is suspect.
///
/// # Errors
///
/// What [`sounder_status`] refuses the block for; then [`NoRecord`] (13) for a channel outside 1 to 19 or a detector
/// outside 1 to 4.
///
/// ```
/// use rahmisve::*;
/// # let mut words = [0; SOUNDER_WORDS];
/// # [182, 184, 186, 188, 190, 192, 194].map(|word| words[word - 1] = 5);
/// words[42 - 1] = 0x10;
/// assert_eq!(sounder_suspect(&words, &[], 19, 4), Ok(true));
/// assert_eq!(sounder_suspect(&words, &[], 19, 3), Ok(false));
/// assert_eq!(sounder_suspect(&words, &[], 20, 1), Err(SounderRefusal { refusal: Refusal::NoRecord, word: None }));
/// ```
pub fn sounder_suspect(
    words: &[u16],
    leap_days: &[LeapDay],
    channel: u32,
    detector: u32,
) -> Result<bool, SounderRefusal> {
    let (mut word, mut suspect) = (0, 0);
    // SAFETY: as in `read_tag`.
    let number = unsafe {
        rahmisve_sounder_suspect(
            words.as_ptr(),
            words.len(),
            leap_days.as_ptr().cast(),
            leap_days.len(),
            channel,
            detector,
            &mut word,
            &mut suspect,
        )
    };
    judged(number, word, suspect != 0)
}
