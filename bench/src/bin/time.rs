//! time: the library's check word, unpacking, packing, reader and writer beside plain C, good C and idiomatic Rust, in
//! one run on one thread. All answers are compared first. Prints microseconds a call, the best of many rounds, and how
//! the library is against each.
//!
//! The test of the fill is no call of its own, so its line is a difference, for every way alike: the time to read a
//! block whose field is nearly all fill, less the time to refuse the same block for a wrong check word. Header copies,
//! row and check word are gone through both times; the fill, and the few words in front of it, only where it is read.

use std::hint::black_box;
use std::time::{Duration, Instant};

use bench::{against, idiomatic, Way, BASELINES, LIBRARY};

/// A block, what it is made of, and room for what is made of it.
struct Trial {
    header: [u8; 28],
    size: usize,
    words: Vec<u16>,
    block: Vec<u8>,
    /// The block with a wrong check word.
    damaged: Vec<u8>,
    room: Vec<u16>,
    dest: Vec<u8>,
}

/// What is timed on a field, in the order of the lines.
const WHAT: [&str; 5] = ["check word", "unpack", "pack", "read", "write"];
/// What is timed on the field that is nearly all fill: the fill's line is the first less the second.
const FILL: [&str; 2] = ["read", "refuse"];
/// The last digit that is printed: no difference is less.
const LEAST: f64 = 0.01;

fn field_bytes(id: u8, c: usize) -> usize {
    match id {
        240 | 11 => 8_040,
        _ => (c * 10).div_ceil(16).max(1_340) * 2,
    }
}

impl Trial {
    fn new(id: u8, size: u8, c: usize) -> Trial {
        let mut header = [0; 28];
        header[0] = id;
        header[1] = size;
        header[2..4].copy_from_slice(&(c as u16 + 2).to_be_bytes());
        let mut state = 88_172_645_463_325_252u64;
        let words = (0..c).map(|_| {
            state ^= state << 13;
            state ^= state >> 7;
            state ^= state << 17;
            (state % (1 << size)) as u16
        });
        let words = words.collect();
        let bytes = field_bytes(id, c) + 92;
        let (room, dest) = (vec![0; c], vec![0; bytes]);
        let mut trial = Trial { header, size: size.into(), words, block: vec![], damaged: vec![], room, dest };
        trial.once("write", &BASELINES[0]);
        trial.block = trial.dest.clone();
        trial.damaged = trial.dest.clone();
        trial.damaged[bytes - 1] ^= 1;
        trial
    }

    fn field(&self) -> &[u8] {
        &self.block[90..self.block.len() - 2]
    }

    /// One call, and its check word or the number of its answer, 0 where there is none.
    fn once(&mut self, what: &str, way: &Way) -> usize {
        let (room, words, count) = (self.room.as_mut_ptr(), self.words.as_ptr(), self.words.len());
        // SAFETY: the pointers are those of vectors as long as is said, of which none overlaps another.
        unsafe {
            match what {
                "check word" => (way.check)(self.field().as_ptr(), self.field().len()).into(),
                "unpack" => {
                    (way.unpack)(self.field().as_ptr(), self.field().len(), self.size, room, count);
                    0
                }
                "pack" => {
                    let length = self.field().len();
                    (way.pack)(words, count, self.size, self.dest.as_mut_ptr(), length);
                    0
                }
                "read" | "refuse" => {
                    let block = if what == "read" { &self.block } else { &self.damaged };
                    let mut header = [0; 28];
                    (way.read)(block.as_ptr(), block.len(), room, count, header.as_mut_ptr())
                }
                _ => {
                    let length = self.dest.len();
                    (way.write)(self.header.as_ptr(), 28, words, count, self.dest.as_mut_ptr(), length)
                }
            }
        }
    }
}

/// Every way gives what plain C gives: the same check word, the same words, the same bytes, the same refusal.
fn agree(trial: &mut Trial, ways: &[Way; 4], what: &[&str]) {
    let check = trial.once("check word", &BASELINES[0]);
    for &what in what {
        for way in ways {
            trial.room.fill(0xAAAA);
            trial.dest.fill(0xAA);
            let gave = trial.once(what, way);
            let field = trial.field().len();
            let same = match what {
                "check word" => gave == check,
                "pack" => trial.dest[..field] == *trial.field(),
                "write" => gave == 0 && trial.dest == trial.block,
                "refuse" => gave == 10 && trial.room.iter().all(|&word| word == 0xAAAA),
                _ => gave == 0 && trial.room == trial.words,
            };
            assert!(same, "{what}: {} gives something else than plain C", way.name);
        }
    }
}

/// The best time of each call, all of them taking turns so that they meet the same machine.
fn timed<const N: usize>(trial: &mut Trial, ways: &[Way; 4], what: &[&str; N]) -> [[f64; 4]; N] {
    const CALLS: u32 = 20;
    let mut best = [[f64::INFINITY; 4]; N];
    let end = Instant::now() + Duration::from_secs(8);
    while Instant::now() < end {
        for (best, what) in best.iter_mut().zip(what) {
            for (best, way) in best.iter_mut().zip(ways) {
                let begun = Instant::now();
                for _ in 0..CALLS {
                    black_box(black_box(&mut *trial).once(what, way));
                }
                *best = best.min(begun.elapsed().as_secs_f64() * 1e6 / f64::from(CALLS));
            }
        }
    }
    best
}

/// A line of the table: the time of each way, the library's first.
fn line(what: &str, trial: &Trial, [own, others @ ..]: [f64; 4]) {
    print!("{what:<12}{:>8}{:>8}{own:>10.2}", trial.field().len(), trial.words.len());
    for other in others {
        print!("{:>24}", format!("{other:.2}, {}", against(own, other)));
    }
    println!();
}

fn main() {
    let ways = {
        let [plain, good, idiomatic] = BASELINES;
        [LIBRARY, plain, good, idiomatic]
    };
    println!("microseconds a call, best of many; behind each other way, what the library is against it\n");
    print!("{:<12}{:>8}{:>8}", "", "field", "words");
    for way in &ways {
        print!("{:>width$}", way.name, width = if way.name == LIBRARY.name { 10 } else { 24 });
    }
    println!();
    let mut trial = Trial::new(3, 10, 20);
    agree(&mut trial, &ways, &FILL);
    let [read, refused] = timed(&mut trial, &ways, &FILL);
    line("fill", &trial, std::array::from_fn(|way| (read[way] - refused[way]).max(LEAST)));

    let longest = 4 * (16 + idiomatic::LARGEST_N);
    for (id, size, c) in [(1, 10, 68), (1, 10, 2_144), (240, 8, 8_040), (11, 6, 10_720), (1, 10, longest)] {
        let mut trial = Trial::new(id, size, c);
        agree(&mut trial, &ways, &WHAT);
        for (what, times) in WHAT.into_iter().zip(timed(&mut trial, &ways, &WHAT)) {
            line(what, &trial, times);
        }
    }
}
