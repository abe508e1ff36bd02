//! watch [FILE]: offers the blocks of a recording, of the file or of standard input, to a scan watch, and prints what
//! opens a scan and what closes it: the field, its block and SPS time, the verdict, and of a closed scan how many of its
//! blocks were fill. A field that is refused is named with the reason. What examples/watch.c does, in Rust.

use std::error::Error;
use std::io::{stdin, stdout, Read, Write};
use std::process::ExitCode;

use leap_days::LEAP_DAYS;
use rahmisve::*;

mod leap_days;

const WAIT_MS: u32 = 5_000;

/// The recording, and its name.
fn input() -> Result<(Vec<u8>, String), String> {
    let name = std::env::args().nth(1);
    let mut recording = Vec::new();
    let got = match &name {
        Some(name) => std::fs::read(name).map(|bytes| recording = bytes),
        None => stdin().read_to_end(&mut recording).map(|_| ()),
    };
    let name = name.unwrap_or("standard input".into());
    match got {
        Ok(()) => Ok((recording, name)),
        Err(why) => Err(format!("{name}: {why}")),
    }
}

/// What is printed of a verdict that opens a scan or closes one.
fn said(verdict: Verdict) -> Option<String> {
    let (closed, fill) = match verdict {
        Verdict::Stray | Verdict::Kept => return None,
        Verdict::Opened => return Some("opened".into()),
        Verdict::ClockBack(fill) => ("clock back", fill),
        Verdict::Late(fill) => ("late", fill),
        Verdict::Broken(fill) => ("broken", fill),
        Verdict::Complete(fill) => ("complete", fill),
    };
    Some(format!("{closed}, {} fill", fill.count))
}

/// Reads the block of a field and offers it: its number, its time and the verdict.
fn offer(watch: &mut Watch, body: &[u8], room: &mut [u16]) -> Result<(u8, Time, Verdict), Refusal> {
    let header = read(body, room)?.header;
    let block = plan(&header)?.block;
    let tag = &header[HEADER_TIME..HEADER_TIME + TAG_BYTES];
    let verdict = watch.offer(block.into(), header[HEADER_VALID].into(), tag, &LEAP_DAYS)?;
    Ok((block, read_tag(tag, &LEAP_DAYS)?, verdict))
}

fn run() -> Result<ExitCode, Box<dyn Error>> {
    check_version()?;
    let (recording, name) = input()?;
    let mut room = vec![0; MOST_WORDS];
    let mut out = stdout().lock();
    let mut watch = Watch::begin(WAIT_MS)?;
    let mut count = 0;
    let mut fields = Fields::of(&recording);
    for Field { tag, body } in &mut fields {
        count += 1;
        if tag != BLOCK_FIELD {
            continue;
        }
        match offer(&mut watch, body, &mut room) {
            Err(why) => writeln!(out, "field {count}: refused: {}, {}", why.number(), why.text())?,
            Ok((block, time, verdict)) => {
                let Some(said) = said(verdict) else { continue };
                // a block 0 that closes a scan opens the next one
                let next = if verdict != Verdict::Opened && watch.is_open() { ", opened" } else { "" };
                let Time { year, day, hour, minute, second, millisecond, .. } = time;
                write!(out, "field {count}: block {block}, {year:04} day {day}, ")?;
                writeln!(out, "{hour:02}:{minute:02}:{second:02}.{millisecond:03}: {said}{next}")?;
            }
        }
    }
    if fields.is_cut() {
        eprintln!("{name}: cut behind field {count}");
        return Ok(ExitCode::FAILURE);
    }
    Ok(ExitCode::SUCCESS)
}

fn main() -> ExitCode {
    run().unwrap_or_else(|why| {
        eprintln!("{why}");
        ExitCode::from(2)
    })
}
