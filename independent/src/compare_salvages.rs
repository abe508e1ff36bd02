//! Salvages, in a run of their own: they are longer than other cases.

use crate::compare::{compare_case, Case, Tally};
use crate::inputs::Dice;
use crate::library::Library;
use crate::salvage;
use crate::tapes;

pub fn salvage_of(seed: u64, number: u64) -> Case {
    tapes::case(&mut Dice::for_case(seed, number))
}

/// The rooms asked for, each of them one smaller, and all larger.
pub fn rooms_around(length: usize) -> Vec<[usize; 3]> {
    let rooms = salvage::rooms(length);
    let smaller = (0..3).map(|one| {
        let mut rooms = rooms;
        rooms[one] = rooms[one].saturating_sub(1);
        rooms
    });
    [rooms, rooms.map(|room| room + 5)].into_iter().chain(smaller).collect()
}

/// Every tape with a name, in each of these rooms.
pub fn compare_named(library: &dyn Library, tally: &mut Tally) -> Result<u64, String> {
    let mut compared = 0;
    for (name, tape) in tapes::named() {
        for rooms in rooms_around(tape.len()) {
            let case = tapes::case_with(&mut Dice::new(compared), tape.clone(), rooms);
            compare_case(library, &case, tally).map_err(|text| format!("tape {name}: {text}"))?;
            compared += 1;
        }
    }
    Ok(compared)
}

/// Drawn tapes.
pub fn compare_tapes(library: &dyn Library, seed: u64, count: u64, tally: &mut Tally) -> Result<u64, String> {
    for number in 0..count {
        let case = salvage_of(seed, number);
        compare_case(library, &case, tally).map_err(|text| format!("seed {seed}, tape {number}: {text}"))?;
    }
    Ok(count)
}

pub fn compare_salvages(library: &dyn Library, seed: u64, count: u64, tally: &mut Tally) -> Result<u64, String> {
    Ok(compare_named(library, tally)? + compare_tapes(library, seed, count, tally)?)
}
