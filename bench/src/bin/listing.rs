//! listing make FILE: a recording of a thousand longest blocks. listing pass FILE: the same calls of the system as the
//! program `list` makes of it, and the same listing, without a look at a block. listing read FILE: prints the
//! microseconds that `rahmisve_read` takes for all of its blocks, the best of many rounds.

use std::fs::{self, File};
use std::io::{self, Read, Write};
use std::time::{Duration, Instant};

use independent::inputs::{field, Dice};
use independent::rows::{field_bits, LARGEST_C};
use independent::{block, document};
use rahmisve_sys::rahmisve_read;

const BLOCKS: usize = 1_000;
const ROUNDS: usize = 50;

fn make(name: &str) -> io::Result<()> {
    let header = document::header(1, 10, 2, LARGEST_C as u16);
    let mut dice = Dice::new(1);
    let mut recording = Vec::new();
    for _ in 0..BLOCKS {
        let words: Vec<u16> = (0..LARGEST_C).map(|_| dice.below(1_024) as u16).collect();
        let mut bytes = vec![0; 92 + field_bits(1, LARGEST_C) / 8];
        let (answer, length) = block::write(&header, &words, &mut bytes);
        assert_eq!(answer, 0);
        recording.extend(field(1, &bytes[..length]));
    }
    fs::write(name, recording)
}

/// The body of the next field, to the front of the buffer, or none at the end.
fn next<'a>(file: &mut File, buffer: &'a mut [u8]) -> io::Result<Option<&'a [u8]>> {
    let mut front = [0; 3];
    if file.read(&mut front)? < front.len() {
        return Ok(None);
    }
    let body = &mut buffer[..u16::from_be_bytes([front[1], front[2]]).into()];
    file.read_exact(body)?;
    Ok(Some(body))
}

fn pass(name: &str) -> io::Result<()> {
    let (mut file, mut buffer) = (File::open(name)?, vec![0; 65_535]);
    // a line is written as one, since it ends there
    let mut out = io::stdout().lock();
    out.write_all(b"seq block version words answer\n")?;
    let mut fields = 0;
    while next(&mut file, &mut buffer)?.is_some() {
        fields += 1;
        out.write_all(format!("{fields} 1 2 {LARGEST_C} 0\n").as_bytes())?;
    }
    out.write_all(format!("end {fields}\n").as_bytes())
}

fn read(name: &str) -> io::Result<()> {
    let (mut buffer, mut room) = (vec![0; 65_535], vec![0; LARGEST_C]);
    let mut best = Duration::MAX;
    for _ in 0..ROUNDS {
        let (mut file, mut took) = (File::open(name)?, Duration::ZERO);
        while let Some(block) = next(&mut file, &mut buffer)? {
            let (mut header, mut copies, mut words) = ([0; 28], [0; 3], 0);
            let (place, length) = (room.as_mut_ptr(), room.len());
            let begun = Instant::now();
            // SAFETY: the pointers are those of slices as long as is said, and of three variables.
            let answer = unsafe {
                rahmisve_read(block.as_ptr(), block.len(), place, length, &mut header, &mut copies, &mut words)
            };
            took += begun.elapsed();
            assert_eq!((answer, words), (0, LARGEST_C));
        }
        best = best.min(took);
    }
    println!("{}", best.as_micros());
    Ok(())
}

fn main() -> io::Result<()> {
    let words: Vec<String> = std::env::args().skip(1).collect();
    match words.iter().map(String::as_str).collect::<Vec<_>>()[..] {
        ["make", name] => make(name),
        ["pass", name] => pass(name),
        ["read", name] => read(name),
        _ => Err(io::Error::other("usage: listing make | pass | read FILE")),
    }
}
