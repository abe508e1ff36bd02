//! salvage IN OUT: finds the blocks in a file that has lost their boundaries, writes a recording of them to OUT, and
//! prints a line for each block and for each span of junk, as the program `salvage` does. What examples/salvage.c does,
//! in Rust.

use std::error::Error;
use std::io::{stdout, BufWriter, Write};
use std::process::ExitCode;

use rahmisve::*;

/// IN and OUT.
fn names() -> Result<(String, String), &'static str> {
    let mut args = std::env::args().skip(1);
    match (args.next(), args.next(), args.next()) {
        (Some(from), Some(to), None) => Ok((from, to)),
        _ => Err("usage: salvage IN OUT"),
    }
}

/// The numbers of the changed header copies, or a dash.
fn listed(changed: [bool; COPY_MARKS]) -> String {
    let numbers: Vec<_> = (1..).zip(changed).filter(|(_, changed)| *changed).map(|(k, _)| format!("{k}")).collect();
    if numbers.is_empty() {
        "-".into()
    } else {
        numbers.join(",")
    }
}

fn print_report(made: &Salvaged) -> std::io::Result<()> {
    let mut out = BufWriter::new(stdout().lock());
    writeln!(out, "start bytes found changed")?;
    for piece in made.pieces() {
        match piece {
            Piece::Block { start, bytes, changed } => writeln!(out, "{start} {bytes} block {}", listed(changed))?,
            Piece::Span { start, bytes } => writeln!(out, "{start} {bytes} span -")?,
        }
    }
    writeln!(out, "end {}", made.blocks)?;
    out.flush()
}

fn run() -> Result<ExitCode, Box<dyn Error>> {
    check_version()?;
    let (from, to) = names()?;
    let input = std::fs::read(&from).map_err(|why| format!("{from}: {why}"))?;
    let mut recording = vec![0; salvage_bytes(input.len())];
    let mut report = vec![[0; ENTRY_NUMBERS]; salvage_entries(input.len())];
    let mut scratch = vec![0; MOST_WORDS];
    let made = match salvage(&input, &mut recording, &mut report, &mut scratch) {
        Ok(made) => made,
        Err(why) => {
            println!("refused: {}, {}", why.number(), why.text());
            return Ok(ExitCode::FAILURE);
        }
    };
    std::fs::write(&to, made.recording).map_err(|why| format!("{to}: {why}"))?;
    print_report(&made).map_err(|why| format!("standard output: {why}"))?;
    Ok(ExitCode::SUCCESS)
}

fn main() -> ExitCode {
    run().unwrap_or_else(|why| {
        eprintln!("{why}");
        ExitCode::from(2)
    })
}
