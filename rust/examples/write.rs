//! Writes a block to standard output: block 1 of version 2, with its four records of one pixel each, and 2008 day 60,
//! 23:59:59.999 as its time. What examples/write.c does, in Rust.

use std::error::Error;
use std::io::{stdout, Write};
use std::process::ExitCode;

use rahmisve::*;

const RECORD: usize = DOCUMENTATION_WORDS + 1;
const WORDS: usize = 4 * RECORD;

fn run() -> Result<(), Box<dyn Error>> {
    check_version()?;
    let time = Time { year: 2008, day: 60, hour: 23, minute: 59, second: 59, millisecond: 999, flywheel: false };
    let mut header = [0; HEADER_BYTES];
    header[HEADER_ID] = 1;
    header[HEADER_SIZE] = 10;
    header[HEADER_COUNT..HEADER_COUNT + 2].copy_from_slice(&(WORDS as u16 + EXTRA_WORDS).to_be_bytes());
    header[HEADER_VERSION] = 2;
    header[HEADER_VALID] = 1;
    // second 59 needs no leap days
    header[HEADER_TIME..HEADER_TIME + TAG_BYTES].copy_from_slice(&write_tag(&time, &[])?);
    let words: Vec<u16> = (0..WORDS).map(|i| (100 * (i / RECORD + 1) + i % RECORD) as u16).collect();

    let mut room = vec![0; MOST_BYTES];
    let bytes = write(&header, &words, &mut room)?;
    stdout().write_all(&room[..bytes])?;
    Ok(())
}

fn main() -> ExitCode {
    match run() {
        Ok(()) => ExitCode::SUCCESS,
        Err(why) => {
            eprintln!("{why}");
            ExitCode::from(2)
        }
    }
}
