//! Salvages that are wrong on purpose, one fault each.

use crate::header::{passes, COPY};
use crate::library::{Library, Model, SalvageAnswer};
use crate::salvage::{copy, made, next_block, pieces, put, rooms, Piece, ENTRY_NUMBERS, MOST_INPUT, SPAN};

pub const SALVAGE_FAULTS: [&str; 30] = [
    "goes on at the byte behind a block's start",
    "goes on a byte too far behind a block",
    "takes the highest start",
    "begins at byte 1",
    "overlooks a block that ends with the input",
    "takes only copies that agree",
    "gives a start up at its first passing copy",
    "takes the copy that asks for the most bytes",
    "takes the copy that asks for the fewest bytes",
    "tries copies 3, 2, 1",
    "tries no copy 3",
    "takes a block without its last byte",
    "takes a block without its check word",
    "writes the copies as they lay",
    "mends only the copies that failed",
    "reports spans of no bytes",
    "reports two spans side by side",
    "reports no span at the end",
    "counts only copies that failed as changed",
    "counts the copies from the last",
    "keeps a start in 16 bits",
    "takes at most 65,000 bytes",
    "answers 18 before 9",
    "asks only for the room that is used",
    "takes a recording a byte too small",
    "takes a report a number too small",
    "takes a scratch word too few",
    "changes the scratch words on refusal 18",
    "reports the span of a refused input",
    "clears the scratch words before each block",
];

/// What a wrong salvage answers and leaves.
pub fn salvage(
    fault: &str,
    input: &[u8],
    recording: &mut [u8],
    report: &mut [usize],
    scratch: &mut [u16],
) -> SalvageAnswer {
    if fault == "takes at most 65,000 bytes" && input.len() > MOST_INPUT {
        return SalvageAnswer::refused(9);
    }
    if fault == "answers 18 before 9" && next_block(input, 0).is_none() {
        return SalvageAnswer::refused(18);
    }
    if let Some(answer) = in_small_room(fault, input, recording, report, scratch) {
        return answer;
    }
    let mut answer = Model.salvage(input, recording, report, scratch);
    if answer.number == 9 {
        return answer;
    }
    let wrong = Search { fault, input }.pieces();
    if wrong != pieces(input) {
        return put_where_it_fits(&wrong, recording, report, scratch);
    }
    match (fault, answer.number) {
        ("changes the scratch words on refusal 18", 18) => scratch[0] = !scratch[0],
        ("reports the span of a refused input", 18) => answer.entries = 1,
        ("clears the scratch words before each block", 0) => {
            let last = wrong.iter().rfind(|piece| piece.is_block()).unwrap();
            scratch.fill(0);
            Model.read(&last.made, scratch);
        }
        _ => {}
    }
    answer
}

/// The answer where a room is too small and that is overlooked.
fn in_small_room(
    fault: &str,
    input: &[u8],
    recording: &mut [u8],
    report: &mut [usize],
    scratch: &mut [u16],
) -> Option<SalvageAnswer> {
    let grown = match fault {
        "takes a recording a byte too small" => [1, 0, 0],
        "takes a report a number too small" => [0, 1, 0],
        "takes a scratch word too few" => [0, 0, 1],
        "asks only for the room that is used" => rooms(input.len()),
        _ => return None,
    };
    let lent = [recording.len(), report.len(), scratch.len()];
    let [bytes, numbers, words] = [0, 1, 2].map(|room| lent[room] + grown[room]);
    let (mut longer, mut entries, mut more) = (recording.to_vec(), report.to_vec(), scratch.to_vec());
    longer.resize(bytes, 0);
    entries.resize(numbers, 0);
    more.resize(words, 0);
    let answer = Model.salvage(input, &mut longer, &mut entries, &mut more);
    if answer.bytes > recording.len() || ENTRY_NUMBERS * answer.entries > report.len() {
        return Some(SalvageAnswer::refused(9));
    }
    recording.copy_from_slice(&longer[..lent[0]]);
    report.copy_from_slice(&entries[..lent[1]]);
    scratch.copy_from_slice(&more[..lent[2]]);
    Some(answer)
}

/// Too many or too long pieces, as some faults bring them, are refused rather than written past a room.
fn put_where_it_fits(
    pieces: &[Piece],
    recording: &mut [u8],
    report: &mut [usize],
    scratch: &mut [u16],
) -> SalvageAnswer {
    let bytes: usize = pieces.iter().filter(|piece| piece.is_block()).map(|piece| 3 + piece.made.len()).sum();
    if bytes > recording.len() || ENTRY_NUMBERS * pieces.len() > report.len() {
        return SalvageAnswer::refused(9);
    }
    if bytes == 0 {
        return SalvageAnswer::refused(18);
    }
    put(pieces, recording, report, scratch)
}

/// The search over an input with a fault.
struct Search<'a> {
    fault: &'a str,
    input: &'a [u8],
}

impl Search<'_> {
    fn is(&self, fault: &str) -> bool {
        self.fault == fault
    }

    fn pieces(&self) -> Vec<Piece> {
        let mut pieces = Vec::new();
        let mut from = 0;
        let mut search = usize::from(self.is("begins at byte 1"));
        while let Some((start, made)) = self.next(search) {
            self.add_span(&mut pieces, from, start);
            from = start + made.len().min(self.input.len() - start);
            search = match self.fault {
                "goes on at the byte behind a block's start" => start + 1,
                "goes on a byte too far behind a block" => from + 1,
                _ => from,
            };
            pieces.push(self.block(start, made));
        }
        if !self.is("reports no span at the end") {
            self.add_span(&mut pieces, from, self.input.len());
        }
        pieces
    }

    /// A span, where it is to be reported, and in two where a copy in it was passed over.
    fn add_span(&self, pieces: &mut Vec<Piece>, from: usize, end: usize) {
        if from > end {
            return;
        }
        let passed_over = |&start: &usize| copy(&self.input[start..], 0).is_some_and(passes);
        let middle = (from + 1..end).find(passed_over).filter(|_| self.is("reports two spans side by side"));
        if let Some(middle) = middle {
            pieces.push(Piece::span(from, middle));
            pieces.push(Piece::span(middle, end));
        } else if from < end || self.is("reports spans of no bytes") {
            pieces.push(Piece::span(from, end));
        }
    }

    fn next(&self, from: usize) -> Option<(usize, Vec<u8>)> {
        let end = self.input.len();
        let mut starts = from..end;
        let hit = |start: usize| self.at(start).map(|made| (start, made));
        if self.is("takes the highest start") {
            return starts.rev().find_map(hit);
        }
        let hit = starts.find_map(hit)?;
        if self.is("overlooks a block that ends with the input") && hit.0 + hit.1.len() == end {
            return None;
        }
        Some(hit)
    }

    /// The block that is taken at a start.
    fn at(&self, start: usize) -> Option<Vec<u8>> {
        let rest = &self.input[start..];
        let passing = (0..3).filter(|&k| copy(rest, k).is_some_and(passes));
        let mut blocks = passing.map(|k| self.made(rest, k));
        match self.fault {
            "tries copies 3, 2, 1" => blocks.rev().flatten().next(),
            "tries no copy 3" => (0..2).find_map(|k| made(rest, k)),
            "gives a start up at its first passing copy" => blocks.next()?,
            // Of equal ones the first, so that the length alone is wrong.
            "takes the copy that asks for the most bytes" => blocks.rev().flatten().max_by_key(Vec::len),
            "takes the copy that asks for the fewest bytes" => blocks.flatten().min_by_key(Vec::len),
            "takes only copies that agree" => {
                let block = blocks.flatten().next()?;
                let agree = (0..3).all(|k| copy(rest, k).is_some_and(|lies| !passes(lies) || lies == &block[..COPY]));
                agree.then_some(block)
            }
            _ => blocks.flatten().next(),
        }
    }

    /// What a copy makes of the bytes, or of more bytes than there are.
    fn made(&self, rest: &[u8], k: usize) -> Option<Vec<u8>> {
        let missing = match self.fault {
            "takes a block without its last byte" => 1,
            "takes a block without its check word" => 2,
            _ => return made(rest, k),
        };
        made(rest, k).or_else(|| {
            let whole = completed(rest, missing)?;
            made(&whole, k).map(|block| block[..block.len().min(rest.len())].to_vec())
        })
    }

    /// A block as it is written and reported.
    fn block(&self, start: usize, made: Vec<u8>) -> Piece {
        let rest = &self.input[start..];
        let mut piece = Piece::block(self.input, start, made);
        let passing = (0..3).filter(|&k| copy(rest, k).is_some_and(passes));
        match self.fault {
            "writes the copies as they lay" => piece.made[..3 * COPY].copy_from_slice(&rest[..3 * COPY]),
            "mends only the copies that failed" => {
                passing.for_each(|k| piece.made[COPY * k..][..COPY].copy_from_slice(&rest[COPY * k..][..COPY]));
            }
            "counts only copies that failed as changed" => passing.for_each(|k| piece.found &= !(1 << k)),
            "counts the copies from the last" if piece.found != SPAN => {
                piece.found = [0, 4, 2, 6, 1, 5, 3, 7][piece.found];
            }
            "keeps a start in 16 bits" => piece.start %= 65_536,
            _ => {}
        }
        piece
    }
}

/// The bytes with so many more, where these are the rest of a check word.
fn completed(rest: &[u8], missing: usize) -> Option<Vec<u8>> {
    let field = rest.get(3 * COPY..(rest.len() + missing).checked_sub(2)?)?;
    let check = crate::check::check_bytes(field);
    Some([&rest[..3 * COPY], field, &check].concat())
}
