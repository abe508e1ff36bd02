//! sounder [FILE]: finds the Sounder documentation blocks in a recording, of the file or of standard input, and prints
//! of each the field and its SPS time, whether it is fill, how many detectors are suspect and which, as
//! channel/detector, and which of its time tags are bad; or why it is refused. What examples/sounder.c does, in Rust.

use std::error::Error;
use std::io::{stdin, stdout, Read, Write};
use std::process::ExitCode;

use leap_days::LEAP_DAYS;
use rahmisve::*;

mod leap_days;

// A Sounder documentation block is a block 11 of words of eight bits whose SAD ID says so, in the last six bits of word 3.
const BLOCK: u8 = 11;
const WORD_BITS: u8 = 8;
const DATA_WORD: usize = 3;
const DATA_BITS: u16 = 63;
const DOCUMENTATION: u16 = 32;

/// In the order of [`SounderTag`].
const TAG_NAMES: [&str; SOUNDER_TAGS] = [
    "current",
    "line start",
    "line end",
    "set at start",
    "set at end",
    "priority frame",
    "normal frame",
    "spacelook",
    "ECAL",
    "blackbody",
    "star sense",
    "ranging",
    "visible tables",
    "limits",
    "orbit",
];

/// The recording, and its name.
fn input() -> Result<(Vec<u8>, String), String> {
    let name = std::env::args().nth(1);
    let mut recording = Vec::new();
    let got = match &name {
        Some(name) => std::fs::read(name).map(|bytes| recording = bytes),
        None => stdin().read_to_end(&mut recording).map(|_| ()),
    };
    let name = name.unwrap_or("standard input".into());
    match got {
        Ok(()) => Ok((recording, name)),
        Err(why) => Err(format!("{name}: {why}")),
    }
}

/// The header of a Sounder documentation block, whose words are in the room then; of any other block none.
fn documentation(body: &[u8], room: &mut [u16]) -> Option<Header> {
    let header = read(body, room).ok()?.header;
    let is_one = header[HEADER_ID] == BLOCK
        && header[HEADER_SIZE] == WORD_BITS
        && room[DATA_WORD - 1] & DATA_BITS == DOCUMENTATION;
    is_one.then_some(header)
}

fn time(tag: &[u8]) -> String {
    let Ok(Time { year, day, hour, minute, second, millisecond, .. }) = read_tag(tag, &LEAP_DAYS) else {
        return "bad time".into();
    };
    format!("{year:04} day {day}, {hour:02}:{minute:02}:{second:02}.{millisecond:03}")
}

/// Asks for each detector of a block that is accepted.
fn suspects(words: &[u16]) -> Result<String, SounderRefusal> {
    let mut suspects = String::new();
    for channel in 1..=SOUNDER_CHANNELS {
        for detector in 1..=SOUNDER_DETECTORS {
            if sounder_suspect(words, &LEAP_DAYS, channel, detector)? {
                suspects += &format!(" {channel}/{detector}");
            }
        }
    }
    Ok(suspects)
}

/// What is printed of a block behind the field and the time.
fn said(words: &[u16]) -> Result<String, SounderRefusal> {
    let status = sounder_status(words, &LEAP_DAYS)?;
    let mut said = format!("{} suspect", status.suspects);
    if status.suspects > 0 {
        said += &format!(":{}", suspects(words)?);
    }
    let bad: Vec<&str> =
        TAG_NAMES.into_iter().zip(status.tags).filter(|(_, tag)| tag.is_err()).map(|(name, _)| name).collect();
    if !bad.is_empty() {
        said += &format!("; bad tags: {}", bad.join(", "));
    }
    Ok(said)
}

fn refused(why: SounderRefusal) -> String {
    let word = why.word.map_or(String::new(), |word| format!(", word {word}"));
    format!("refused: {}, {}{word}", why.refusal.number(), why.refusal.text())
}

fn run() -> Result<ExitCode, Box<dyn Error>> {
    check_version()?;
    let (recording, name) = input()?;
    let mut room = vec![0; MOST_WORDS];
    let mut out = stdout().lock();
    let mut count = 0;
    let mut fields = Fields::of(&recording);
    for Field { tag, body } in &mut fields {
        count += 1;
        if tag != BLOCK_FIELD {
            continue;
        }
        let Some(header) = documentation(body, &mut room) else { continue };
        let time = time(&header[HEADER_TIME..HEADER_TIME + TAG_BYTES]);
        let fill = if header[HEADER_VALID] == VALID { "" } else { ", fill" };
        let said = said(&room[..SOUNDER_WORDS]).unwrap_or_else(refused);
        writeln!(out, "field {count}: {time}{fill}: {said}")?;
    }
    if fields.is_cut() {
        eprintln!("{name}: cut behind field {count}");
        return Ok(ExitCode::FAILURE);
    }
    Ok(ExitCode::SUCCESS)
}

fn main() -> ExitCode {
    run().unwrap_or_else(|why| {
        eprintln!("{why}");
        ExitCode::from(2)
    })
}
