//! compare SEED COUNT [FAULT]: the model against the library, or, with a fault (a number from 1), against one that is
//! wrong on purpose. One salvage is compared for every twenty cases; for every five, one case with leap days, one with
//! fill blocks and one of the Sounder's status. Exit status 1 on a difference, 2 on bad arguments.

use std::process::ExitCode;

use independent::compare::{compare, compare_headers, compare_placements, Tally};
use independent::compare_fills::compare_fills;
use independent::compare_leaps::compare_leaps;
use independent::compare_salvages::compare_salvages;
use independent::compare_status::compare_statuses;
use independent::compare_words::compare_words;
use independent::document;
use independent::library::Library;
use independent::real::Real;
use independent::wrong::{Wrong, FAULTS};
use independent::wrong_fills::FILL_FAULTS;
use independent::wrong_leaps::LEAP_FAULTS;
use independent::wrong_salvage::SALVAGE_FAULTS;
use independent::wrong_status::STATUS_FAULTS;

fn usage() -> ExitCode {
    eprintln!("usage: compare SEED COUNT [FAULT from 1 to {}]", faults().count());
    ExitCode::from(2)
}

/// Every fault: those of a salvage behind the others, then those in leap days, in fill blocks and in the Sounder's
/// status.
fn faults() -> impl Iterator<Item = &'static str> {
    FAULTS.into_iter().chain(SALVAGE_FAULTS).chain(LEAP_FAULTS).chain(FILL_FAULTS).chain(STATUS_FAULTS)
}

/// The fault of a number from 1.
fn fault_of(number: u64) -> Option<&'static str> {
    faults().nth(usize::try_from(number).ok()?.checked_sub(1)?)
}

/// The cases whose answers are counted; how many there were.
fn compare_counted(library: &dyn Library, seed: u64, count: u64, tally: &mut Tally) -> Result<String, String> {
    compare(library, seed, 0, count, tally)?;
    let leaps = compare_leaps(library, seed, count / 5, tally)?;
    let (fills, closings) = compare_fills(library, seed, count / 5, tally)?;
    let statuses = compare_statuses(library, seed, count / 5, tally)?;
    let salvages = compare_salvages(library, seed, count / 20, tally)?;
    Ok(format!(
        "{count} cases of seed {seed}, {leaps} with leap days, {fills} with fill blocks, {closings} closings, \
         {statuses} of the Sounder's status, {salvages} salvages"
    ))
}

/// The others.
fn compare_uncounted(library: &dyn Library, seed: u64, count: u64) -> Result<String, String> {
    let words = compare_words(library, seed, count)?;
    let placements = compare_placements(library)?;
    let headers = compare_headers(library)?;
    Ok(format!("{words} fields and words, {placements} placements and {headers} headers"))
}

fn main() -> ExitCode {
    let numbers: Option<Vec<u64>> = std::env::args().skip(1).map(|text| text.parse().ok()).collect();
    let (seed, count, library): (u64, u64, Box<dyn Library>) = match numbers.as_deref() {
        Some([seed, count]) => (*seed, *count, Box::new(Real)),
        Some([seed, count, fault]) => {
            let Some(fault) = fault_of(*fault) else { return usage() };
            println!("library on trial: {fault}");
            (*seed, *count, Box::new(Wrong(fault)))
        }
        _ => return usage(),
    };

    let found = document::all(&*library);
    for wrong in &found.wrong {
        println!("{wrong}");
    }
    println!("printed answers: {} compared, {} wrong", found.run, found.wrong.len());

    let mut tally = Tally::default();
    let counted = compare_counted(&*library, seed, count, &mut tally);
    print!("{}", tally.lines());
    let outcome = counted.and_then(|counted| Ok((counted, compare_uncounted(&*library, seed, count)?)));
    match outcome {
        Ok((counted, others)) => println!("{counted}, {others} agree"),
        Err(text) => {
            print!("{text}");
            return ExitCode::FAILURE;
        }
    }
    if found.wrong.is_empty() {
        ExitCode::SUCCESS
    } else {
        ExitCode::FAILURE
    }
}
