//! salvage: the library's search for blocks among junk beside plain C's, in one run on one thread. What both leave and
//! answer is compared first. Prints microseconds a call, the best of many rounds, how the library is against plain C,
//! and its nanoseconds for a byte of the input, which show how its time grows.

use std::hint::black_box;
use std::time::{Duration, Instant};

use bench::against;
use bench::search::{Rooms, LIBRARY, PLAIN};
use independent::inputs::Dice;
use independent::rows::{field_bits, LARGEST_C};
use independent::salvage::MOST_INPUT;
use independent::{block, document, header};

/// The words of a block 1 that fill the shortest field.
const SHORTEST: usize = 2_144;

/// As many blocks 1 of so many words as there is room for, back to back.
fn blocks(dice: &mut Dice, c: usize) -> Vec<u8> {
    let said = document::header(1, 10, 2, c as u16);
    let mut one = vec![0; 92 + field_bits(1, c) / 8];
    let mut all = vec![];
    while all.len() + one.len() <= MOST_INPUT {
        let words: Vec<u16> = (0..c).map(|_| dice.below(1_024) as u16).collect();
        assert_eq!(block::write(&said, &words, &mut one), (0, one.len()));
        all.extend(&one);
    }
    all
}

/// Every thirty bytes a copy that passes and asks for the longest field, whose check fails.
fn failing_fields() -> Vec<u8> {
    let copy = header::sealed(&document::header(1, 10, 2, LARGEST_C as u16));
    copy.into_iter().cycle().take(MOST_INPUT).collect()
}

/// From six bytes in twelve a header that says what one may, and whose check fails. No bytes have more of them: where
/// one has its size another cannot have its version, six bytes in front of it.
fn failing_copies() -> Vec<u8> {
    [3, 10, 10, 10, 10, 10, 10, 2, 2, 2, 2, 2].into_iter().cycle().take(MOST_INPUT).collect()
}

/// The best time of the library's search and of plain C's, which take turns so that they meet the same machine.
fn timed(input: &[u8]) -> [f64; 2] {
    let mut best = [f64::INFINITY; 2];
    let mut rooms = Rooms::new(input.len());
    let end = Instant::now() + Duration::from_secs(3);
    while Instant::now() < end {
        for (best, search) in best.iter_mut().zip([&LIBRARY, &PLAIN]) {
            let begun = Instant::now();
            black_box(&mut rooms).search(search, black_box(input));
            *best = best.min(begun.elapsed().as_secs_f64() * 1e6);
        }
    }
    best
}

/// A line of the table, where both find the same.
fn line(what: &str, input: &[u8]) {
    let [found, plain] = [&LIBRARY, &PLAIN].map(|search| {
        let mut rooms = Rooms::new(input.len());
        rooms.search(search, input);
        rooms
    });
    assert!(found == plain, "{what}: the library finds something else than plain C");
    let [own, other] = timed(input);
    let each = own * 1e3 / input.len() as f64;
    let other = format!("{other:.2}, {}", against(own, other));
    println!("{what:<16}{:>8}{:>8}{own:>12.2}{each:>12.2}{other:>28}", input.len(), found.blocks);
}

fn main() {
    println!(
        "microseconds a call, best of many; what the library is against plain C; the library's nanoseconds a byte\n"
    );
    println!("{:<16}{:>8}{:>8}{:>12}{:>12}{:>28}", "", "bytes", "blocks", LIBRARY.name, "ns a byte", PLAIN.name);
    let mut dice = Dice::new(1);
    for length in [MOST_INPUT / 4, MOST_INPUT / 2, MOST_INPUT] {
        line("random bytes", &dice.bytes(length));
    }
    line("shortest blocks", &blocks(&mut dice, SHORTEST));
    line("longest blocks", &blocks(&mut dice, LARGEST_C));
    line("failing fields", &failing_fields());
    line("failing copies", &failing_copies());
}
