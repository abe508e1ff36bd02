//! The library itself, through its C interface. What is given back is filled before each call, so that a place left unwritten shows.

use rahmisve_sys::*;

use crate::inputs::LARGEST_K;
use crate::library::{
    list_by_lines, FieldAnswer, Found, Library, LineAnswer, OfferAnswer, ReadAnswer, SalvageAnswer, StatusAnswer,
    SuspectAnswer,
};
use crate::tags::Tag;
use crate::watch::{Verdict, Watch};

fn numbers(tag: &Tag) -> [u32; 7] {
    [
        tag.year.into(),
        tag.day.into(),
        tag.hour.into(),
        tag.minute.into(),
        tag.second.into(),
        tag.millisecond.into(),
        tag.flywheel.into(),
    ]
}

/// A number that is too large becomes one that no good time has, so that it shows.
fn in_byte(number: u32) -> u8 {
    number.try_into().unwrap_or(u8::MAX)
}

fn in_two_bytes(number: u32) -> u16 {
    number.try_into().unwrap_or(u16::MAX)
}

fn tag_of(time: &[u32]) -> Tag {
    assert!(time[6] < 2, "a mark is 0 or 1");
    Tag {
        year: in_two_bytes(time[0]),
        day: in_two_bytes(time[1]),
        hour: in_byte(time[2]),
        minute: in_byte(time[3]),
        second: in_byte(time[4]),
        millisecond: in_two_bytes(time[5]),
        flywheel: time[6] == 1,
    }
}

fn record_of(watch: &Watch) -> [u32; 11] {
    let mut record = [0; 11];
    record[0] = watch.open.into();
    record[1] = watch.expected.into();
    record[2..9].copy_from_slice(&numbers(&watch.tag));
    record[9] = watch.limit;
    record[10] = watch.fill;
    record
}

fn watch_of(record: &[u32; 11]) -> Watch {
    let [open, expected, .., limit, fill] = *record;
    Watch { open: open != 0, expected: expected as u8, tag: tag_of(&record[2..9]), limit, fill }
}

fn verdict_of(verdict: u8, number: u8) -> Verdict {
    match verdict {
        0 => Verdict::Refused(number),
        1 => Verdict::Stray,
        2 => Verdict::Opened,
        3 => Verdict::Kept,
        4 => Verdict::ClockBack,
        5 => Verdict::Late,
        6 => Verdict::Broken,
        7 => Verdict::Complete,
        _ => panic!("verdict {verdict}"),
    }
}

/// More than any number of a status can be.
const JUNK: u32 = 0x5A5A_5A5A;

/// No leap days are lent as null, the way a caller in C has it.
fn place_of(leap_days: &[u32]) -> *const u32 {
    if leap_days.is_empty() {
        std::ptr::null()
    } else {
        leap_days.as_ptr()
    }
}

pub struct Real;

impl Library for Real {
    fn check_word(&self, bytes: &[u8]) -> u16 {
        unsafe { rahmisve_check_word(bytes.as_ptr(), bytes.len()) }
    }
    fn take_words(&self, field: &[u8], size: u32, count: usize, room: &mut [u16]) -> u8 {
        unsafe { rahmisve_take_words(field.as_ptr(), field.len(), size, count, room.as_mut_ptr(), room.len()) }
    }
    fn put_words(&self, words: &[u16], size: u32, field: &mut [u8]) -> u8 {
        unsafe { rahmisve_put_words(words.as_ptr(), words.len(), size, field.as_mut_ptr(), field.len()) }
    }
    fn read(&self, block: &[u8], room: &mut [u16]) -> ReadAnswer {
        let (mut header, mut copies, mut words) = ([0x5A; 28], [0x5A; 3], 0x5A5A);
        let number = unsafe {
            rahmisve_read(
                block.as_ptr(),
                block.len(),
                room.as_mut_ptr(),
                room.len(),
                &mut header,
                &mut copies,
                &mut words,
            )
        };
        assert!(copies.iter().all(|copy| *copy < 2), "a mark is 0 or 1");
        ReadAnswer { number, header, copies: copies.map(|copy| copy == 1), words }
    }
    fn write(&self, header: &[u8], words: &[u16], dest: &mut [u8]) -> (u8, usize) {
        let mut bytes = 0x5A5A;
        let number = unsafe {
            rahmisve_write(
                header.as_ptr(),
                header.len(),
                words.as_ptr(),
                words.len(),
                dest.as_mut_ptr(),
                dest.len(),
                &mut bytes,
            )
        };
        (number, bytes)
    }
    fn record(&self, header: &[u8], words: &[u16], k: usize) -> (u8, usize, usize) {
        assert!(k <= LARGEST_K);
        let (mut start, mut length) = (0x5A5A, 0x5A5A);
        let number =
            unsafe { rahmisve_record(header.as_ptr(), header.len(), words.len(), k as u32, &mut start, &mut length) };
        (number, start, length)
    }
    fn place(&self, block: u8, version: u8, record: u8) -> (u8, u8, u8) {
        let (mut channel, mut detector) = (0x5A, 0x5A);
        let number =
            unsafe { rahmisve_place(block.into(), version.into(), record.into(), &mut channel, &mut detector) };
        (number, channel, detector)
    }
    fn read_tag(&self, bytes: &[u8], leap_days: &[u32]) -> (u8, Tag) {
        let mut time = [0x5A5A; 7];
        let number =
            unsafe { rahmisve_read_tag(bytes.as_ptr(), bytes.len(), place_of(leap_days), leap_days.len(), &mut time) };
        (number, tag_of(&time))
    }
    fn write_tag(&self, tag: &Tag, leap_days: &[u32]) -> (u8, [u8; 8]) {
        let mut bytes = [0x5A; 8];
        let number = unsafe { rahmisve_write_tag(&numbers(tag), place_of(leap_days), leap_days.len(), &mut bytes) };
        (number, bytes)
    }
    fn elapsed(&self, first: &[u8], second: &[u8], leap_days: &[u32]) -> (u8, i64) {
        let mut ms = 0x5A5A;
        let number = unsafe {
            rahmisve_elapsed(
                first.as_ptr(),
                first.len(),
                second.as_ptr(),
                second.len(),
                place_of(leap_days),
                leap_days.len(),
                &mut ms,
            )
        };
        (number, ms)
    }
    fn begin(&self, limit: u32) -> (u8, Watch) {
        let mut record = [0x5A5A; 11];
        let number = unsafe { rahmisve_watch_begin(limit, &mut record) };
        if number == 0 {
            return (0, watch_of(&record));
        }
        assert_eq!(record, [0x5A5A; 11], "a refusal leaves the lent record");
        (number, watch_of(&[0; 11]))
    }
    fn offer(&self, watch: &mut Watch, block: u8, valid: u32, tag: &[u8], leap_days: &[u32]) -> OfferAnswer {
        let mut record = record_of(watch);
        let (mut verdict, mut fill, mut count) = (0x5A, 0x5A5A, 0x5A5A);
        let number = unsafe {
            rahmisve_watch_offer(
                &mut record,
                block.into(),
                valid,
                tag.as_ptr(),
                tag.len(),
                place_of(leap_days),
                leap_days.len(),
                &mut verdict,
                &mut fill,
                &mut count,
            )
        };
        *watch = watch_of(&record);
        OfferAnswer { verdict: verdict_of(verdict, number), fill, count }
    }
    fn imager(&self, words: &[u16]) -> (u8, [bool; 4]) {
        let mut holds = [0x5A; 4];
        let number = unsafe { rahmisve_parity_imager(words.as_ptr(), words.len(), &mut holds) };
        (number, holds.map(|section| section != 0))
    }
    fn sounder(&self, words: &[u16]) -> (u8, [bool; 2]) {
        let mut holds = [0x5A; 2];
        let number = unsafe { rahmisve_parity_sounder(words.as_ptr(), words.len(), &mut holds) };
        (number, holds.map(|section| section != 0))
    }
    fn sounder_status(&self, words: &[u16], leap_days: &[u32]) -> StatusAnswer {
        let (mut status, mut tags) = ([JUNK; 13], [[JUNK; 8]; 15]);
        let number = unsafe {
            rahmisve_sounder_status(
                words.as_ptr(),
                words.len(),
                place_of(leap_days),
                leap_days.len(),
                &mut status,
                &mut tags,
            )
        };
        let [word, suspects, channel, detector, raw_count, block_count, frame @ ..] = status;
        let tags = tags.map(|[number, time @ ..]| (in_byte(number), tag_of(&time)));
        StatusAnswer { number, word, suspects, first: (channel, detector), raw_count, block_count, frame, tags }
    }
    fn sounder_suspect(&self, words: &[u16], leap_days: &[u32], channel: u32, detector: u32) -> SuspectAnswer {
        let (mut word, mut suspect) = (JUNK, 0x5A);
        let number = unsafe {
            rahmisve_sounder_suspect(
                words.as_ptr(),
                words.len(),
                place_of(leap_days),
                leap_days.len(),
                channel,
                detector,
                &mut word,
                &mut suspect,
            )
        };
        assert!(suspect < 2, "a mark is 0 or 1");
        SuspectAnswer { number, word, suspect: suspect == 1 }
    }
    fn next_field(&self, recording: &[u8], at: usize) -> FieldAnswer {
        let (mut tag, mut start, mut length) = (0x5A, 0x5A5A, 0x5A5A);
        let found =
            unsafe { rahmisve_next_field(recording.as_ptr(), recording.len(), at, &mut tag, &mut start, &mut length) };
        let found = match found {
            0 => Found::End,
            1 => Found::Field,
            2 => Found::Cut,
            _ => panic!("found {found}"),
        };
        FieldAnswer { found, tag, start, length }
    }
    fn line(&self, before: u64, tag: u32, body: &[u8], room: &mut [u16]) -> LineAnswer {
        let (mut seq, mut block, mut version, mut words) = (0x5A5A, 0x5A, 0x5A, 0x5A5A);
        let number = unsafe {
            rahmisve_line(
                before,
                tag,
                body.as_ptr(),
                body.len(),
                room.as_mut_ptr(),
                room.len(),
                &mut seq,
                &mut block,
                &mut version,
                &mut words,
            )
        };
        LineAnswer { number, seq, block, version, words }
    }
    fn first_text(&self, room: &mut [u8]) -> (u8, usize) {
        let mut bytes = 0x5A5A;
        let number = unsafe { rahmisve_first_text(room.as_mut_ptr(), room.len(), &mut bytes) };
        (number, bytes)
    }
    fn line_text(&self, seq: u64, block: u32, version: u32, words: usize, answer: u32, room: &mut [u8]) -> (u8, usize) {
        let mut bytes = 0x5A5A;
        let (place, length) = (room.as_mut_ptr(), room.len());
        let number = unsafe { rahmisve_line_text(seq, block, version, words, answer, place, length, &mut bytes) };
        (number, bytes)
    }
    fn last_text(&self, cut: u32, fields: u64, room: &mut [u8]) -> (u8, usize) {
        let mut bytes = 0x5A5A;
        let number = unsafe { rahmisve_last_text(cut, fields, room.as_mut_ptr(), room.len(), &mut bytes) };
        (number, bytes)
    }
    fn salvage(&self, input: &[u8], recording: &mut [u8], report: &mut [usize], scratch: &mut [u16]) -> SalvageAnswer {
        let (mut bytes, mut entries, mut blocks) = (0x5A5A, 0x5A5A, 0x5A5A);
        let number = unsafe {
            rahmisve_salvage(
                input.as_ptr(),
                input.len(),
                recording.as_mut_ptr(),
                recording.len(),
                report.as_mut_ptr(),
                report.len(),
                scratch.as_mut_ptr(),
                scratch.len(),
                &mut bytes,
                &mut entries,
                &mut blocks,
            )
        };
        SalvageAnswer { number, bytes, entries, blocks }
    }
    fn list(&self, recording: &[u8]) -> String {
        list_by_lines(self, recording)
    }
}
