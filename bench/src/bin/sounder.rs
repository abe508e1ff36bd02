//! sounder: the library's judging of a Sounder documentation block, and its answer for a detector, beside plain C, good C
//! and idiomatic Rust, with no leap days and with 64, in one run on one thread. All answers are compared first. Prints
//! microseconds a call, the best of many rounds, and how the library is against each.

use std::hint::black_box;
use std::time::{Duration, Instant};

use bench::against;
use bench::sounder::{Left, SounderWay, BASELINES, LIBRARY};
use bench::tags::half_years;
use independent::leaps::clock;
use independent::tags::{spell, Tag};

/// A detector to ask for, the last one.
const CHANNEL: u32 = 19;
const DETECTOR: u32 = 4;

#[derive(Clone, Copy)]
enum What {
    Judge,
    Ask,
}

/// A block, and the list lent with it.
struct Trial {
    name: &'static str,
    what: What,
    suspects: u32,
    words: Vec<u16>,
    leap_days: Vec<u32>,
}

/// A good block with good tags, of 2017 and behind all leap days; no detector is suspect, or 4/2, 18/3 and 19/4.
fn block(suspects: u32) -> Vec<u16> {
    let mut words: Vec<u16> = (0..8_040).map(|k| k % 61).collect();
    words[32..42].fill(0);
    if suspects > 0 {
        (words[33], words[40], words[41]) = (0x04, 0x02, 0x10);
    }
    for (field, number) in [12_u16, 100, 397, 600, 1_200, 349, 600].into_iter().enumerate() {
        words[180 + 2 * field..][..2].copy_from_slice(&number.to_be_bytes().map(u16::from));
    }
    for k in 0..15 {
        let tag = Tag { millisecond: 60 * k as u16, ..clock((2017, 182), 12, 34, 56) };
        words[58 + 8 * k..][..8].copy_from_slice(&spell(&tag).map(u16::from));
    }
    words
}

impl Trial {
    fn once(&self, way: &SounderWay, left: &mut Left) {
        match self.what {
            What::Judge => way.status(&self.words, &self.leap_days, left),
            What::Ask => way.suspect(&self.words, &self.leap_days, CHANNEL, DETECTOR, left),
        }
    }
}

/// Every way leaves what plain C leaves, and refuses nothing; the suspects are those of the block, and all tags are good.
fn agree(trial: &Trial, ways: &[SounderWay; 4]) {
    let left = |way: &SounderWay| {
        let mut left = Left::default();
        trial.once(way, &mut left);
        left
    };
    let expected = left(&BASELINES[0]);
    assert_eq!(expected.answer, 0, "{}: refused", trial.name);
    match trial.what {
        What::Judge => {
            assert_eq!(expected.status[1], trial.suspects, "{}: other suspects", trial.name);
            assert!(expected.tags.iter().all(|tag| tag[0] == 0), "{}: a bad tag", trial.name);
        }
        What::Ask => assert_eq!(u32::from(expected.suspect), trial.suspects.min(1), "{}: another answer", trial.name),
    }
    for way in ways {
        assert_eq!(left(way), expected, "{}: {} leaves something else than plain C", trial.name, way.name);
    }
}

/// The best time of a call, the ways taking turns so that they meet the same machine.
fn timed(trial: &Trial, ways: &[SounderWay; 4]) -> [f64; 4] {
    const CALLS: u32 = 20;
    let mut best = [f64::INFINITY; 4];
    let mut left = Left::default();
    let end = Instant::now() + Duration::from_secs(3);
    while Instant::now() < end {
        for (best, way) in best.iter_mut().zip(ways) {
            let begun = Instant::now();
            for _ in 0..CALLS {
                black_box(trial).once(way, black_box(&mut left));
            }
            *best = best.min(begun.elapsed().as_secs_f64() * 1e6 / f64::from(CALLS));
        }
    }
    best
}

/// A line of the table: the time of each way, the library's first.
fn line(trial: &Trial, [own, others @ ..]: [f64; 4]) {
    print!("{:<20}{:>8}{:>12}{own:>10.2}", trial.name, trial.suspects, trial.leap_days.len());
    for other in others {
        print!("{:>24}", format!("{other:.2}, {}", against(own, other)));
    }
    println!();
}

fn main() {
    let ways = {
        let [plain, good, idiomatic] = BASELINES;
        [LIBRARY, plain, good, idiomatic]
    };
    println!("microseconds a call, best of many; behind each other way, what the library is against it\n");
    print!("{:<20}{:>8}{:>12}", "", "suspect", "leap days");
    for way in &ways {
        print!("{:>width$}", way.name, width = if way.name == LIBRARY.name { 10 } else { 24 });
    }
    println!();
    for (name, what) in [("judge a block", What::Judge), ("ask for a detector", What::Ask)] {
        for (suspects, leap_days) in [(0, vec![]), (3, vec![]), (0, half_years()), (3, half_years())] {
            let trial = Trial { name, what, suspects, words: block(suspects), leap_days };
            agree(&trial, &ways);
            line(&trial, timed(&trial, &ways));
        }
    }
}
