//! One way to read tags, to count between them and to follow a scan, against the model on one case.

use independent::compare::{Case, Offer, Start};
use independent::library::{Library, Model, OfferAnswer};
use independent::tags::Tag;
use independent::watch::{Verdict, Watch};

use crate::tags::{Offered, TagWay, WatchNumbers};

fn numbers(tag: &Tag) -> [u32; 7] {
    let Tag { year, day, hour, minute, second, millisecond, flywheel } = *tag;
    [year.into(), day.into(), hour.into(), minute.into(), second.into(), millisecond.into(), flywheel.into()]
}

fn row(watch: &Watch) -> WatchNumbers {
    let Watch { open, expected, tag, limit, fill } = watch;
    let [year, day, hour, minute, second, ms, flywheel] = numbers(tag);
    [(*open).into(), (*expected).into(), year, day, hour, minute, second, ms, flywheel, *limit, *fill]
}

/// An answer of the model in numbers.
fn numbers_of(answer: OfferAnswer) -> Offered {
    let OfferAnswer { verdict, fill, count } = answer;
    let (number, verdict) = match verdict {
        Verdict::Refused(number) => (number, 0),
        Verdict::Stray => (0, 1),
        Verdict::Opened => (0, 2),
        Verdict::Kept => (0, 3),
        Verdict::ClockBack => (0, 4),
        Verdict::Late => (0, 5),
        Verdict::Broken => (0, 6),
        Verdict::Complete => (0, 7),
    };
    Offered { number, verdict, fill, count }
}

fn read(way: &TagWay, tag: &[u8], leap_days: &[u32]) -> u8 {
    let (answer, expected) = Model.read_tag(tag, leap_days);
    let mut time = [0xC3C3; 7];
    let got = way.read_tag(tag, leap_days, &mut time);
    assert_eq!((got, time), (answer, numbers(&expected)), "{} read tag {tag:02X?} {leap_days:?}", way.name);
    answer
}

fn elapsed(way: &TagWay, from: &[u8], to: &[u8], leap_days: &[u32]) -> u8 {
    let expected = Model.elapsed(from, to, leap_days);
    let mut ms = 0xC3C3;
    let got = way.elapsed(from, to, leap_days, &mut ms);
    assert_eq!((got, ms), expected, "{} elapsed {from:02X?} {to:02X?} {leap_days:?}", way.name);
    expected.0
}

fn offer(way: &TagWay, watch: &mut Watch, offer: &Offer) -> Offered {
    let Offer { block, valid, tag, leap_days } = offer;
    let before = *watch;
    let mut after = row(&before);
    let expected = numbers_of(Model.offer(watch, *block, *valid, tag, leap_days));
    let got = way.offer(&mut after, (*block).into(), *valid, tag, leap_days);
    assert_eq!((got, after), (expected, row(watch)), "{} offer {before:?} {offer:?}", way.name);
    expected
}

/// How many calls were compared; of them those refused for the list, for the watch's set and for something else, and
/// those that closed a scan with fill in it.
#[derive(Default)]
pub struct Compared {
    pub calls: u64,
    pub bad_list: u64,
    pub bad_fill: u64,
    pub refused: u64,
    pub closed_with_fill: u64,
}

impl Compared {
    fn count(&mut self, answer: u8) {
        self.calls += 1;
        match answer {
            0 => {}
            19 => self.bad_list += 1,
            20 => self.bad_fill += 1,
            _ => self.refused += 1,
        }
    }

    /// Nothing where the case is about something else.
    pub fn compare(&mut self, way: &TagWay, case: &Case) {
        match case {
            Case::ReadTag { bytes, leap_days } => self.count(read(way, bytes, leap_days)),
            Case::Elapsed { first, second, leap_days } => self.count(elapsed(way, first, second, leap_days)),
            Case::Offers { start, offers } => {
                let mut watch = match start {
                    Start::Begun(limit) => Model.begin(*limit).1,
                    Start::Lent(watch) => *watch,
                };
                for one in offers {
                    let Offered { number, count, .. } = offer(way, &mut watch, one);
                    self.count(number);
                    self.closed_with_fill += (count > 0) as u64;
                }
            }
            _ => {}
        }
    }
}
