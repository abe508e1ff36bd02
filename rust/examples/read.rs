//! read [FILE]: reads one block, of the file or of standard input, and prints what it holds: the header's numbers,
//! which header copies passed, each detector record with its channel and detector, and the time. What examples/read.c
//! does, in Rust.

use std::error::Error;
use std::fs::File;
use std::io::{stdin, stdout, Read, Write};
use std::process::ExitCode;

use leap_days::LEAP_DAYS;
use rahmisve::*;

mod leap_days;

/// The block, and a byte more where there is one, so that a longer file shows as too long.
fn input() -> Result<Vec<u8>, String> {
    let name = std::env::args().nth(1);
    let from: Result<Box<dyn Read>, _> = match &name {
        Some(name) => File::open(name).map(|file| Box::new(file) as _),
        None => Ok(Box::new(stdin())),
    };
    let mut block = Vec::new();
    from.and_then(|from| from.take(MOST_BYTES as u64 + 1).read_to_end(&mut block))
        .map_err(|why| format!("{}: {why}", name.as_deref().unwrap_or("standard input")))?;
    Ok(block)
}

/// The records among the words, each with what it holds and its first pixel, which stands behind the line
/// documentation.
fn print_records(plan: &Plan, header: &Header, words: &[u16], out: &mut impl Write) -> Result<(), Box<dyn Error>> {
    let mut start = 0;
    for k in 1..=plan.records.into() {
        let record = record(header, words, k)?;
        let Place { channel, detector } = place(plan.block.into(), plan.version.into(), k)?;
        write!(out, "record {k}: channel {channel}, detector {detector}, {} words from word {start}", record.len())?;
        writeln!(out, ", first pixel {}", record[DOCUMENTATION_WORDS])?;
        start += record.len();
    }
    Ok(())
}

/// The time of the header's tag, and how long after midnight that is.
fn print_time(tag: &[u8], out: &mut impl Write) -> Result<(), Box<dyn Error>> {
    let time = match read_tag(tag, &LEAP_DAYS) {
        Ok(time) => time,
        Err(why) => return Ok(writeln!(out, "time: refused: {}, {}", why.number(), why.text())?),
    };
    let midnight = write_tag(&Time { year: time.year, day: time.day, ..Time::default() }, &LEAP_DAYS)?;
    let ms = elapsed(&midnight, tag, &LEAP_DAYS)?;
    let Time { year, day, hour, minute, second, millisecond, flywheel } = time;
    write!(out, "time: {year} day {day}, {hour:02}:{minute:02}:{second:02}.{millisecond:03}")?;
    writeln!(out, "{}, {ms} ms after midnight", if flywheel { " by flywheel" } else { "" })?;
    Ok(())
}

fn run() -> Result<ExitCode, Box<dyn Error>> {
    check_version()?;
    let block = input()?;
    let mut words = vec![0; MOST_WORDS];
    let mut out = stdout().lock();
    let got = match read(&block, &mut words) {
        Ok(got) => got,
        Err(why) => {
            writeln!(out, "refused: {}, {}", why.number(), why.text())?;
            return Ok(ExitCode::FAILURE);
        }
    };
    let plan = plan(&got.header)?;
    write!(out, "block {}, version {}: {} words of {} bits", plan.block, plan.version, plan.word_count, plan.size)?;
    writeln!(out, " in a field of {} bytes", plan.field_bytes)?;
    let passed: String = (1..).zip(got.copies).filter(|(_, passed)| *passed).map(|(k, _)| format!(" {k}")).collect();
    writeln!(out, "header copies that passed:{passed}")?;
    print_records(&plan, &got.header, &words, &mut out)?;
    print_time(&got.header[HEADER_TIME..HEADER_TIME + TAG_BYTES], &mut out)?;
    Ok(ExitCode::SUCCESS)
}

fn main() -> ExitCode {
    run().unwrap_or_else(|why| {
        eprintln!("{why}");
        ExitCode::from(2)
    })
}
