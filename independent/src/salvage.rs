//! Blocks in bytes that have lost their boundaries: found from byte 0 on, written as a recording, and reported piece by
//! piece. Also what the program prints of them.

use crate::block::read;
use crate::header::{meaning, passes, COPY, HEADER};
use crate::inputs::field;
use crate::library::SalvageAnswer;
use crate::rows::LARGEST_C;

/// No block is shorter.
pub const LEAST_BYTES: usize = 2_772;
/// An entry of the report: start, bytes, found.
pub const ENTRY_NUMBERS: usize = 3;
/// What is found where no block is.
pub const SPAN: usize = 8;
/// The program takes no longer input.
pub const MOST_INPUT: usize = 65_000;

/// The rooms for an input of so many bytes: bytes of the recording, numbers of the report, scratch words.
pub fn rooms(length: usize) -> [usize; 3] {
    let q = length / LEAST_BYTES;
    [length + 3 * q, ENTRY_NUMBERS * (2 * q + 1), LARGEST_C]
}

/// A piece of the input: a block, or a span that was skipped.
#[derive(Clone, Debug, PartialEq, Eq)]
pub struct Piece {
    pub start: usize,
    pub bytes: usize,
    /// Of a block the sum of 1, 2 and 4 over its changed copies.
    pub found: usize,
    /// A block as it is written; of a span nothing.
    pub made: Vec<u8>,
}

impl Piece {
    pub fn span(start: usize, end: usize) -> Piece {
        Piece { start, bytes: end - start, found: SPAN, made: Vec::new() }
    }

    /// A copy's bytes changed where they differ from those of the copy used, which are now in front.
    pub fn block(input: &[u8], start: usize, made: Vec<u8>) -> Piece {
        let changed = |k: usize| copy(&input[start..], k) != copy(&made, 0);
        let found = (0..3).filter(|&k| changed(k)).map(|k| 1 << k).sum();
        Piece { start, bytes: made.len(), found, made }
    }

    pub fn is_block(&self) -> bool {
        self.found != SPAN
    }
}

/// Header copy `k`, from 0, of bytes that are long enough.
pub fn copy(bytes: &[u8], k: usize) -> Option<&[u8]> {
    bytes.get(COPY * k..COPY * (k + 1))
}

/// The block that copy `k` makes of the bytes: three times that copy, then field and check word as they lie.
pub fn made(bytes: &[u8], k: usize) -> Option<Vec<u8>> {
    let copy = copy(bytes, k).filter(|copy| passes(copy))?;
    let header: [u8; HEADER] = copy[..HEADER].try_into().unwrap();
    let length = meaning(&header).ok()?.block_bytes();
    let behind = bytes.get(3 * COPY..length)?;
    let block = [copy, copy, copy, behind].concat();
    (read(&block, &mut vec![0; LARGEST_C]).number == 0).then_some(block)
}

/// The lowest start, from `from` on, that has an acceptable block, and what the first copy makes of it that makes one.
pub fn next_block(input: &[u8], from: usize) -> Option<(usize, Vec<u8>)> {
    for start in from..input.len() {
        for k in 0..3 {
            if let Some(block) = made(&input[start..], k) {
                return Some((start, block));
            }
        }
    }
    None
}

/// The whole input in blocks and spans.
pub fn pieces(input: &[u8]) -> Vec<Piece> {
    let mut pieces = Vec::new();
    let mut from = 0;
    while let Some((start, made)) = next_block(input, from) {
        if from < start {
            pieces.push(Piece::span(from, start));
        }
        from = start + made.len();
        pieces.push(Piece::block(input, start, made));
    }
    if from < input.len() {
        pieces.push(Piece::span(from, input.len()));
    }
    pieces
}

/// Refusal 9, then 18.
pub fn salvage(input: &[u8], recording: &mut [u8], report: &mut [usize], scratch: &mut [u16]) -> SalvageAnswer {
    let lent = [recording.len(), report.len(), scratch.len()];
    if lent.iter().zip(rooms(input.len())).any(|(&lent, needed)| lent < needed) {
        return SalvageAnswer::refused(9);
    }
    let pieces = pieces(input);
    if !pieces.iter().any(Piece::is_block) {
        return SalvageAnswer::refused(18);
    }
    put(&pieces, recording, report, scratch)
}

/// Pieces to the fronts of rooms that hold them; each block's words over those of the one before.
pub fn put(pieces: &[Piece], recording: &mut [u8], report: &mut [usize], scratch: &mut [u16]) -> SalvageAnswer {
    for (piece, entry) in pieces.iter().zip(report.chunks_exact_mut(ENTRY_NUMBERS)) {
        entry.copy_from_slice(&[piece.start, piece.bytes, piece.found]);
    }
    let mut answer = SalvageAnswer { number: 0, bytes: 0, entries: pieces.len(), blocks: 0 };
    for piece in pieces.iter().filter(|piece| piece.is_block()) {
        let field = field(1, &piece.made);
        recording[answer.bytes..answer.bytes + field.len()].copy_from_slice(&field);
        read(&piece.made, scratch);
        answer.bytes += field.len();
        answer.blocks += 1;
    }
    answer
}

/// The numbers of the changed copies joined by commas, or a dash.
pub fn changed_text(found: usize) -> String {
    let changed: Vec<String> = (0..3).filter(|k| found >> k & 1 == 1).map(|k| (k + 1).to_string()).collect();
    if changed.is_empty() {
        "-".into()
    } else {
        changed.join(",")
    }
}

/// The numbers of a report as the program prints them.
pub fn text(report: &[usize]) -> String {
    let mut lines = String::from("start bytes found changed\n");
    let mut blocks = 0;
    for entry in report.chunks_exact(ENTRY_NUMBERS) {
        let (start, bytes, found) = (entry[0], entry[1], entry[2]);
        blocks += usize::from(found != SPAN);
        let name = if found == SPAN { "span" } else { "block" };
        lines += &format!("{start} {bytes} {name} {}\n", changed_text(found));
    }
    lines + &format!("end {blocks}\n")
}

/// What the program prints, and the recording that it writes, if any.
pub fn program(input: &[u8]) -> (String, Option<Vec<u8>>) {
    if input.len() > MOST_INPUT {
        return ("too long\n".into(), None);
    }
    let [bytes, numbers, words] = rooms(input.len());
    let (mut recording, mut report) = (vec![0; bytes], vec![0; numbers]);
    let answer = salvage(input, &mut recording, &mut report, &mut vec![0; words]);
    if answer.number != 0 {
        return ("no block\n".into(), None);
    }
    recording.truncate(answer.bytes);
    (text(&report[..ENTRY_NUMBERS * answer.entries]), Some(recording))
}
