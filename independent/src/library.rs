//! Everything a library of this kind answers, as plain functions. `Model` is
//! the one written here; another is compared with it through the same trait.

use crate::rows::LARGEST_C;
use crate::tags::Tag;
use crate::watch::{Verdict, Watch};
use crate::{block, check, parity, placement, recording, salvage, status, tags, watch, words};

#[derive(Clone, Debug, PartialEq, Eq)]
pub struct ReadAnswer {
    pub number: u8,
    pub header: [u8; 28],
    pub copies: [bool; 3],
    pub words: usize,
}

impl ReadAnswer {
    pub fn refused(number: u8) -> ReadAnswer {
        ReadAnswer { number, header: [0; 28], copies: [false; 3], words: 0 }
    }
}

/// What stands in a recording from a byte on.
#[derive(Clone, Copy, Debug, PartialEq, Eq)]
pub enum Found {
    End,
    Field,
    Cut,
}

/// A field that was found: its tag, and where its body starts and how long it is.
#[derive(Clone, Copy, Debug, PartialEq, Eq)]
pub struct FieldAnswer {
    pub found: Found,
    pub tag: u8,
    pub start: usize,
    pub length: usize,
}

impl FieldAnswer {
    pub fn none(found: Found) -> FieldAnswer {
        FieldAnswer { found, tag: 0, start: 0, length: 0 }
    }
}

#[derive(Clone, Copy, Debug, PartialEq, Eq)]
pub struct LineAnswer {
    pub number: u8,
    pub seq: u64,
    pub block: u8,
    pub version: u8,
    pub words: usize,
}

impl LineAnswer {
    pub fn refused(seq: u64, number: u8) -> LineAnswer {
        LineAnswer { number, seq, block: 0, version: 0, words: 0 }
    }
}

/// The verdict on an offer and, of a scan that it closes, the set of fill blocks and how many it has.
#[derive(Clone, Copy, Debug, PartialEq, Eq)]
pub struct OfferAnswer {
    pub verdict: Verdict,
    pub fill: u32,
    pub count: u32,
}

impl OfferAnswer {
    pub fn closing(verdict: Verdict, fill: u32) -> OfferAnswer {
        OfferAnswer { verdict, fill, count: watch::blocks(fill).count() as u32 }
    }

    pub fn closing_none(verdict: Verdict) -> OfferAnswer {
        OfferAnswer { verdict, fill: 0, count: 0 }
    }

    pub fn refused(number: u8) -> OfferAnswer {
        OfferAnswer::closing_none(Verdict::Refused(number))
    }
}

/// Bytes of the recording, entries of the report, and how many of these are blocks.
#[derive(Clone, Copy, Debug, PartialEq, Eq)]
pub struct SalvageAnswer {
    pub number: u8,
    pub bytes: usize,
    pub entries: usize,
    pub blocks: usize,
}

impl SalvageAnswer {
    pub fn refused(number: u8) -> SalvageAnswer {
        SalvageAnswer { number, bytes: 0, entries: 0, blocks: 0 }
    }
}

/// What a Sounder documentation block says. A refusal has zeros, but with 22 the first word of the frame field.
#[derive(Clone, Debug, Default, PartialEq, Eq)]
pub struct StatusAnswer {
    pub number: u8,
    pub word: u32,
    pub suspects: u32,
    /// Channel and detector of the first suspect one, zeros where none is.
    pub first: (u32, u32),
    pub raw_count: u32,
    pub block_count: u32,
    pub frame: [u32; 7],
    /// Each with a number of its own.
    pub tags: [(u8, Tag); 15],
}

impl StatusAnswer {
    pub fn refused(number: u8, word: u32) -> StatusAnswer {
        StatusAnswer { number, word, ..StatusAnswer::default() }
    }
}

/// Whether one detector of such a block is suspect.
#[derive(Clone, Copy, Debug, PartialEq, Eq)]
pub struct SuspectAnswer {
    pub number: u8,
    pub word: u32,
    pub suspect: bool,
}

impl SuspectAnswer {
    pub fn refused(number: u8, word: u32) -> SuspectAnswer {
        SuspectAnswer { number, word, suspect: false }
    }
}

pub trait Library {
    fn check_word(&self, bytes: &[u8]) -> u16;
    fn take_words(&self, field: &[u8], size: u32, count: usize, room: &mut [u16]) -> u8;
    fn put_words(&self, words: &[u16], size: u32, field: &mut [u8]) -> u8;
    fn read(&self, block: &[u8], room: &mut [u16]) -> ReadAnswer;
    /// Number, bytes written.
    fn write(&self, header: &[u8], words: &[u16], dest: &mut [u8]) -> (u8, usize);
    /// Number, start and length in words.
    fn record(&self, header: &[u8], words: &[u16], k: usize) -> (u8, usize, usize);
    /// Number, channel, detector.
    fn place(&self, block: u8, version: u8, record: u8) -> (u8, u8, u8);
    /// Leap days are lent with every tag, as numbers like 2016366.
    fn read_tag(&self, bytes: &[u8], leap_days: &[u32]) -> (u8, Tag);
    fn write_tag(&self, tag: &Tag, leap_days: &[u32]) -> (u8, [u8; 8]);
    fn elapsed(&self, first: &[u8], second: &[u8], leap_days: &[u32]) -> (u8, i64);
    fn begin(&self, limit: u32) -> (u8, Watch);
    /// `valid` is word 9 of the block's header.
    fn offer(&self, watch: &mut Watch, block: u8, valid: u32, tag: &[u8], leap_days: &[u32]) -> OfferAnswer;
    fn imager(&self, words: &[u16]) -> (u8, [bool; 4]);
    fn sounder(&self, words: &[u16]) -> (u8, [bool; 2]);
    fn sounder_status(&self, words: &[u16], leap_days: &[u32]) -> StatusAnswer;
    fn sounder_suspect(&self, words: &[u16], leap_days: &[u32], channel: u32, detector: u32) -> SuspectAnswer;
    fn next_field(&self, recording: &[u8], at: usize) -> FieldAnswer;
    fn line(&self, before: u64, tag: u32, body: &[u8], room: &mut [u16]) -> LineAnswer;
    /// Number, bytes written; so for each text.
    fn first_text(&self, room: &mut [u8]) -> (u8, usize);
    fn line_text(&self, seq: u64, block: u32, version: u32, words: usize, answer: u32, room: &mut [u8]) -> (u8, usize);
    fn last_text(&self, cut: u32, fields: u64, room: &mut [u8]) -> (u8, usize);
    /// An entry of the report is three numbers.
    fn salvage(&self, input: &[u8], recording: &mut [u8], report: &mut [usize], scratch: &mut [u16]) -> SalvageAnswer;

    fn list(&self, recording: &[u8]) -> String;
}

/// Five columns, each of twenty digits at most and the byte behind them.
const LONGEST_LINE: usize = 5 * 21;

/// The listing of a recording as a caller makes it, field by field and line by line.
pub fn list_by_lines(library: &dyn Library, recording: &[u8]) -> String {
    let mut text = Vec::new();
    let mut room = vec![0; LARGEST_C];
    let mut spelt = [0; LONGEST_LINE];
    let (_, bytes) = library.first_text(&mut spelt);
    text.extend(&spelt[..bytes]);
    let (mut fields, mut at) = (0, 0);
    loop {
        let field = library.next_field(recording, at);
        if field.found != Found::Field {
            let (_, bytes) = library.last_text((field.found == Found::Cut).into(), fields, &mut spelt);
            text.extend(&spelt[..bytes]);
            return String::from_utf8_lossy(&text).into();
        }
        at = field.start + field.length;
        let LineAnswer { number, seq, block, version, words } =
            library.line(fields, field.tag.into(), &recording[field.start..at], &mut room);
        fields = seq;
        let (_, bytes) = library.line_text(seq, block.into(), version.into(), words, number.into(), &mut spelt);
        text.extend(&spelt[..bytes]);
    }
}

pub struct Model;

impl Library for Model {
    fn check_word(&self, bytes: &[u8]) -> u16 {
        check::check_word(bytes)
    }
    fn take_words(&self, field: &[u8], size: u32, count: usize, room: &mut [u16]) -> u8 {
        words::take(field, size, count, room)
    }
    fn put_words(&self, words: &[u16], size: u32, field: &mut [u8]) -> u8 {
        words::put(words, size, field)
    }
    fn read(&self, block: &[u8], room: &mut [u16]) -> ReadAnswer {
        block::read(block, room)
    }
    fn write(&self, header: &[u8], words: &[u16], dest: &mut [u8]) -> (u8, usize) {
        block::write(header, words, dest)
    }
    fn record(&self, header: &[u8], words: &[u16], k: usize) -> (u8, usize, usize) {
        block::record(header, words, k)
    }
    fn place(&self, block: u8, version: u8, record: u8) -> (u8, u8, u8) {
        placement::place(block, version, record)
    }
    fn read_tag(&self, bytes: &[u8], leap_days: &[u32]) -> (u8, Tag) {
        tags::read_tag(bytes, leap_days)
    }
    fn write_tag(&self, tag: &Tag, leap_days: &[u32]) -> (u8, [u8; 8]) {
        tags::write_tag(tag, leap_days)
    }
    fn elapsed(&self, first: &[u8], second: &[u8], leap_days: &[u32]) -> (u8, i64) {
        tags::elapsed(first, second, leap_days)
    }
    fn begin(&self, limit: u32) -> (u8, Watch) {
        watch::begin(limit)
    }
    fn offer(&self, watch: &mut Watch, block: u8, valid: u32, tag: &[u8], leap_days: &[u32]) -> OfferAnswer {
        watch::offer(watch, block, valid, tag, leap_days)
    }
    fn imager(&self, words: &[u16]) -> (u8, [bool; 4]) {
        parity::imager(words)
    }
    fn sounder(&self, words: &[u16]) -> (u8, [bool; 2]) {
        parity::sounder(words)
    }
    fn sounder_status(&self, words: &[u16], leap_days: &[u32]) -> StatusAnswer {
        status::status(words, leap_days)
    }
    fn sounder_suspect(&self, words: &[u16], leap_days: &[u32], channel: u32, detector: u32) -> SuspectAnswer {
        status::suspect(words, leap_days, channel, detector)
    }
    fn next_field(&self, recording: &[u8], at: usize) -> FieldAnswer {
        recording::next_field(recording, at)
    }
    fn line(&self, before: u64, tag: u32, body: &[u8], room: &mut [u16]) -> LineAnswer {
        recording::line(before, tag, body, room)
    }
    fn first_text(&self, room: &mut [u8]) -> (u8, usize) {
        recording::first_text(room)
    }
    fn line_text(&self, seq: u64, block: u32, version: u32, words: usize, answer: u32, room: &mut [u8]) -> (u8, usize) {
        recording::line_text(seq, block, version, words, answer, room)
    }
    fn last_text(&self, cut: u32, fields: u64, room: &mut [u8]) -> (u8, usize) {
        recording::last_text(cut, fields, room)
    }
    fn salvage(&self, input: &[u8], recording: &mut [u8], report: &mut [usize], scratch: &mut [u16]) -> SalvageAnswer {
        salvage::salvage(input, recording, report, scratch)
    }
    fn list(&self, recording: &[u8]) -> String {
        recording::list(recording)
    }
}
