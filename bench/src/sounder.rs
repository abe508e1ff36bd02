//! The Sounder's status, with a list of leap days: plain C, good C, idiomatic Rust and the library, called alike.

use crate::idiomatic_sounder::c::*;
use rahmisve_sys::*;

type Judge = unsafe extern "C" fn(*const u16, usize, *const u32, usize, *mut [u32; 13], *mut [[u32; 8]; 15]) -> u8;
type Ask = unsafe extern "C" fn(*const u16, usize, *const u32, usize, u32, u32, *mut u32, *mut u8) -> u8;

pub struct SounderWay {
    pub name: &'static str,
    status: Judge,
    suspect: Ask,
}

macro_rules! in_c {
    ($status:ident, $suspect:ident) => {
        extern "C" {
            fn $status(
                words: *const u16,
                len: usize,
                days: *const u32,
                count: usize,
                status: *mut [u32; 13],
                tags: *mut [[u32; 8]; 15],
            ) -> u8;
            fn $suspect(
                words: *const u16,
                len: usize,
                days: *const u32,
                count: usize,
                channel: u32,
                detector: u32,
                word: *mut u32,
                suspect: *mut u8,
            ) -> u8;
        }
    };
}
in_c!(plain_sounder_status, plain_sounder_suspect);
in_c!(good_sounder_status, good_sounder_suspect);

pub const LIBRARY: SounderWay =
    SounderWay { name: "library", status: rahmisve_sounder_status, suspect: rahmisve_sounder_suspect };

pub const BASELINES: [SounderWay; 3] = [
    SounderWay { name: "plain C", status: plain_sounder_status, suspect: plain_sounder_suspect },
    SounderWay { name: "good C", status: good_sounder_status, suspect: good_sounder_suspect },
    SounderWay { name: "idiomatic Rust", status: idiomatic_sounder_status, suspect: idiomatic_sounder_suspect },
];

/// What calls left: the answer of the last one, and what else belongs to it.
#[derive(Clone, Debug, PartialEq)]
pub struct Left {
    pub answer: u8,
    pub status: [u32; 13],
    pub tags: [[u32; 8]; 15],
    pub word: u32,
    pub suspect: u8,
}

impl Default for Left {
    /// No answer: every place is to be written.
    fn default() -> Left {
        Left { answer: 0xC3, status: [0xC3C3; 13], tags: [[0xC3C3; 8]; 15], word: 0xC3C3, suspect: 0xC3 }
    }
}

// SAFETY, of both: the pointers are those of slices as long as is said, and of places that are no part of them.
impl SounderWay {
    pub fn status(&self, words: &[u16], leap_days: &[u32], left: &mut Left) {
        let (days, count) = (leap_days.as_ptr(), leap_days.len());
        left.answer =
            unsafe { (self.status)(words.as_ptr(), words.len(), days, count, &mut left.status, &mut left.tags) };
    }

    pub fn suspect(&self, words: &[u16], leap_days: &[u32], channel: u32, detector: u32, left: &mut Left) {
        let (days, count) = (leap_days.as_ptr(), leap_days.len());
        let Left { word, suspect, .. } = left;
        left.answer =
            unsafe { (self.suspect)(words.as_ptr(), words.len(), days, count, channel, detector, word, suspect) };
    }
}
