//! tags: the library's reading of time tags, elapsed time and scan watch beside plain C, good C and idiomatic Rust, with
//! no leap days and with 64, in one run on one thread. All answers are compared first. Prints nanoseconds a call, the
//! best of many rounds, and how the library is against each.

use std::hint::black_box;
use std::time::{Duration, Instant};

use bench::against;
use bench::tags::{half_years, Offered, TagWay, WatchNumbers, BASELINES, LIBRARY};
use independent::leaps::clock;
use independent::tags::{spell, Tag};
use independent::watch::VALID;

const OFFERS: usize = 11;
/// The waiting limit, in ms, and the time between two offers of a scan.
const LIMIT: u32 = 1_000;
const APART: u16 = 90;

#[derive(Clone, Copy, PartialEq)]
enum What {
    Read,
    Elapsed,
    Offer,
}

/// Eleven tags to read, to count to, or to offer as a scan, and the list lent with them.
struct Trial {
    name: &'static str,
    what: What,
    tags: [[u8; 8]; OFFERS],
    leap_days: Vec<u32>,
}

/// What calls left, their answers joined.
#[derive(Clone, Debug, PartialEq)]
struct Left {
    answers: u8,
    time: [u32; 7],
    ms: i64,
    watch: WatchNumbers,
    offered: Offered,
}

impl Left {
    fn new() -> Left {
        let mut watch = WatchNumbers::default();
        watch[9] = LIMIT;
        Left { answers: 0, time: [0; 7], ms: 0, watch, offered: Offered::default() }
    }
}

/// Eleven tags from a time on, within its second.
fn within(first: Tag) -> [[u8; 8]; OFFERS] {
    std::array::from_fn(|i| spell(&Tag { millisecond: APART * i as u16, ..first }))
}

impl Trial {
    fn new(name: &'static str, what: What, first: Tag, leap_days: &[u32]) -> Trial {
        Trial { name, what, tags: within(first), leap_days: leap_days.to_vec() }
    }

    fn once(&self, way: &TagWay, i: usize, left: &mut Left) {
        let (tag, leap_days) = (&self.tags[i], &self.leap_days[..]);
        left.answers |= match self.what {
            What::Read => way.read_tag(tag, leap_days, &mut left.time),
            What::Elapsed => way.elapsed(&EARLY, tag, leap_days, &mut left.ms),
            What::Offer => {
                left.offered = way.offer(&mut left.watch, i as u32, VALID, tag, leap_days);
                left.offered.number
            }
        };
    }

    /// What each of the eleven calls leaves.
    fn all(&self, way: &TagWay) -> Vec<Left> {
        let mut left = Left::new();
        let mut step = |i| {
            self.once(way, i, &mut left);
            left.clone()
        };
        (0..OFFERS).map(&mut step).collect()
    }
}

/// 1980 day 1, before all leap days of the list.
const EARLY: [u8; 8] = [0x19, 0x80, 0x00, 0x11, 0x21, 0x53, 0x05, 0x00];

/// Every way leaves what plain C leaves, and refuses nothing; a scan completes.
fn agree(trial: &Trial, ways: &[TagWay; 4]) {
    let expected = trial.all(&BASELINES[0]);
    let last = &expected[OFFERS - 1];
    assert_eq!(last.answers, 0, "{}: refused", trial.name);
    assert!(trial.what != What::Offer || last.offered.verdict == 7, "{}: the scan is not complete", trial.name);
    for way in ways {
        assert_eq!(trial.all(way), expected, "{}: {} leaves something else than plain C", trial.name, way.name);
    }
}

/// The best time of a call, the ways taking turns so that they meet the same machine.
fn timed(trial: &Trial, ways: &[TagWay; 4]) -> [f64; 4] {
    const SCANS: usize = 20;
    let mut best = [f64::INFINITY; 4];
    let mut left = Left::new();
    let end = Instant::now() + Duration::from_secs(3);
    while Instant::now() < end {
        for (best, way) in best.iter_mut().zip(ways) {
            let begun = Instant::now();
            for i in (0..OFFERS).cycle().take(SCANS * OFFERS) {
                black_box(trial).once(way, i, black_box(&mut left));
            }
            *best = best.min(begun.elapsed().as_secs_f64() * 1e9 / (SCANS * OFFERS) as f64);
        }
    }
    best
}

/// A line of the table: the time of each way, the library's first.
fn line(trial: &Trial, [own, others @ ..]: [f64; 4]) {
    print!("{:<16}{:>12}{own:>10.1}", trial.name, trial.leap_days.len());
    for other in others {
        print!("{:>24}", format!("{other:.1}, {}", against(own, other)));
    }
    println!();
}

fn main() {
    let ways = {
        let [plain, good, idiomatic] = BASELINES;
        [LIBRARY, plain, good, idiomatic]
    };
    println!("nanoseconds a call, best of many; behind each other way, what the library is against it\n");
    print!("{:<16}{:>12}", "", "leap days");
    for way in &ways {
        print!("{:>width$}", way.name, width = if way.name == LIBRARY.name { 10 } else { 24 });
    }
    println!();
    let (noon, leap_second) = (clock((2017, 182), 12, 34, 56), clock((2016, 366), 23, 59, 60));
    let (none, half_years) = (vec![], half_years());
    let calls = [("read a tag", What::Read), ("elapsed time", What::Elapsed), ("offer", What::Offer)];
    for (name, what) in calls {
        let lists = [(noon, &none), (noon, &half_years), (leap_second, &half_years)];
        for (i, (first, leap_days)) in lists.into_iter().enumerate() {
            let trial = Trial::new(if i == 2 { "  in second 60" } else { name }, what, first, leap_days);
            agree(&trial, &ways);
            line(&trial, timed(&trial, &ways));
        }
    }
}
