//! list [FILE]: lists a recording, of the file or of standard input, as the program `list` does, with the library's
//! lines and texts.

use std::error::Error;
use std::io::{stdin, stdout, BufWriter, Read, Write};
use std::process::ExitCode;

use rahmisve::*;

fn input() -> Result<Vec<u8>, String> {
    let Some(name) = std::env::args().nth(1) else {
        let mut recording = Vec::new();
        stdin().read_to_end(&mut recording).map_err(|why| format!("standard input: {why}"))?;
        return Ok(recording);
    };
    std::fs::read(&name).map_err(|why| format!("{name}: {why}"))
}

fn run() -> Result<(), Box<dyn Error>> {
    check_version()?;
    let recording = input()?;
    let mut room = vec![0; MOST_WORDS];
    let mut text = [0; LINE_BYTES];
    let mut out = BufWriter::new(stdout().lock());

    out.write_all(first_text(&mut text)?.as_bytes())?;
    let mut fields = Fields::of(&recording);
    let mut count = 0;
    for field in &mut fields {
        let line = line(count, field, &mut room);
        out.write_all(line_text(&line, &mut text)?.as_bytes())?;
        count = line.seq;
    }
    out.write_all(last_text(fields.is_cut(), count, &mut text)?.as_bytes())?;
    out.flush()?;
    Ok(())
}

fn main() -> ExitCode {
    match run() {
        Ok(()) => ExitCode::SUCCESS,
        Err(why) => {
            eprintln!("{why}");
            ExitCode::from(2)
        }
    }
}
