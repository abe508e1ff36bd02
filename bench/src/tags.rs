//! Time tags and the scan watch, with a list of leap days: plain C, good C, idiomatic Rust and the library, called
//! alike.

use crate::idiomatic_tags::c::*;
use independent::leaps::number;
use independent::tags::days_in;
use rahmisve_sys::*;

type ReadTag = unsafe extern "C" fn(*const u8, usize, *const u32, usize, *mut [u32; 7]) -> u8;
type Elapsed = unsafe extern "C" fn(*const u8, usize, *const u8, usize, *const u32, usize, *mut i64) -> u8;
type Offer = unsafe extern "C" fn(
    *mut WatchNumbers,
    u32,
    u32,
    *const u8,
    usize,
    *const u32,
    usize,
    *mut u8,
    *mut u32,
    *mut u32,
) -> u8;

/// The numbers of a watch, as rahmisve.h has their places.
pub type WatchNumbers = [u32; 11];

pub struct TagWay {
    pub name: &'static str,
    read_tag: ReadTag,
    elapsed: Elapsed,
    offer: Offer,
}

macro_rules! in_c {
    ($read_tag:ident, $elapsed:ident, $offer:ident) => {
        extern "C" {
            fn $read_tag(tag: *const u8, len: usize, days: *const u32, count: usize, time: *mut [u32; 7]) -> u8;
            fn $elapsed(
                from: *const u8,
                from_len: usize,
                to: *const u8,
                to_len: usize,
                days: *const u32,
                count: usize,
                ms: *mut i64,
            ) -> u8;
            fn $offer(
                watch: *mut WatchNumbers,
                block: u32,
                valid: u32,
                tag: *const u8,
                len: usize,
                days: *const u32,
                count: usize,
                verdict: *mut u8,
                fill: *mut u32,
                fill_count: *mut u32,
            ) -> u8;
        }
    };
}
in_c!(plain_read_tag, plain_elapsed, plain_watch_offer);
in_c!(good_read_tag, good_elapsed, good_watch_offer);

pub const LIBRARY: TagWay =
    TagWay { name: "library", read_tag: rahmisve_read_tag, elapsed: rahmisve_elapsed, offer: rahmisve_watch_offer };

pub const BASELINES: [TagWay; 3] = [
    TagWay { name: "plain C", read_tag: plain_read_tag, elapsed: plain_elapsed, offer: plain_watch_offer },
    TagWay { name: "good C", read_tag: good_read_tag, elapsed: good_elapsed, offer: good_watch_offer },
    TagWay {
        name: "idiomatic Rust",
        read_tag: idiomatic_read_tag,
        elapsed: idiomatic_elapsed,
        offer: idiomatic_watch_offer,
    },
];

/// 64 leap days, the ends of half-years, of which the last is that of 2016.
pub fn half_years() -> Vec<u32> {
    let ends = |year| [days_in(year) - 184, days_in(year)].map(|day| number((year, day)));
    (1985..=2016).flat_map(ends).collect()
}

/// What an offer answers: its number, the verdict, and the set of fill blocks and their count of a scan that it closes.
#[derive(Clone, Copy, Debug, Default, PartialEq)]
pub struct Offered {
    pub number: u8,
    pub verdict: u8,
    pub fill: u32,
    pub count: u32,
}

// SAFETY, of all three: the pointers are those of slices as long as is said, and of places that are no part of them.
impl TagWay {
    pub fn read_tag(&self, tag: &[u8], leap_days: &[u32], time: &mut [u32; 7]) -> u8 {
        unsafe { (self.read_tag)(tag.as_ptr(), tag.len(), leap_days.as_ptr(), leap_days.len(), time) }
    }

    pub fn elapsed(&self, from: &[u8], to: &[u8], leap_days: &[u32], ms: &mut i64) -> u8 {
        let (days, count) = (leap_days.as_ptr(), leap_days.len());
        unsafe { (self.elapsed)(from.as_ptr(), from.len(), to.as_ptr(), to.len(), days, count, ms) }
    }

    pub fn offer(&self, watch: &mut WatchNumbers, block: u32, valid: u32, tag: &[u8], leap_days: &[u32]) -> Offered {
        // No answer: every place is to be written.
        let mut offered = Offered { number: 0xC3, verdict: 0xC3, fill: 0xC3C3, count: 0xC3C3 };
        let (days, count) = (leap_days.as_ptr(), leap_days.len());
        let Offered { verdict, fill, count: fill_count, .. } = &mut offered;
        offered.number = unsafe {
            (self.offer)(watch, block, valid, tag.as_ptr(), tag.len(), days, count, verdict, fill, fill_count)
        };
        offered
    }
}
