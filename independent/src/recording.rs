//! A recording, field after field: a byte of tag, two of length, a body; and its
//! listing.

use crate::block::read;
use crate::header::meaning;
use crate::library::{FieldAnswer, Found, LineAnswer};
use crate::rows::LARGEST_C;

/// The tag of a field that holds a block.
const BLOCK: u32 = 1;
/// Tag and length.
const FRONT: usize = 3;

/// What stands in a recording from a byte on, wherever that is.
pub fn next_field(recording: &[u8], at: usize) -> FieldAnswer {
    let rest = recording.get(at..).unwrap_or(&[]);
    if rest.is_empty() {
        return FieldAnswer::none(Found::End);
    }
    if rest.len() < FRONT {
        return FieldAnswer::none(Found::Cut);
    }
    let length = 256 * rest[1] as usize + rest[2] as usize;
    if rest.len() < FRONT + length {
        return FieldAnswer::none(Found::Cut);
    }
    FieldAnswer { found: Found::Field, tag: rest[0], start: at + FRONT, length }
}

/// The line of the field behind `before` others. Only a tag of 1 has its body read.
pub fn line(before: u64, tag: u32, body: &[u8], room: &mut [u16]) -> LineAnswer {
    let seq = before.saturating_add(1);
    if tag != BLOCK {
        return LineAnswer::refused(seq, 15);
    }
    let answer = read(body, room);
    match meaning(&answer.header) {
        Ok(meaning) if answer.number == 0 => {
            LineAnswer { number: 0, seq, block: meaning.block, version: meaning.version, words: answer.words }
        }
        _ => LineAnswer::refused(seq, answer.number),
    }
}

/// The number, and how many bytes of the room are written: all of a text or none.
fn put(text: &str, room: &mut [u8]) -> (u8, usize) {
    if room.len() < text.len() {
        return (9, 0);
    }
    room[..text.len()].copy_from_slice(text.as_bytes());
    (0, text.len())
}

pub fn first_text(room: &mut [u8]) -> (u8, usize) {
    put("seq block version words answer\n", room)
}

/// Refusals have three dashes; numbers above 255 count as that.
pub fn line_text(seq: u64, block: u32, version: u32, words: usize, answer: u32, room: &mut [u8]) -> (u8, usize) {
    let byte = |number: u32| number.min(255);
    let text = match byte(answer) {
        0 => format!("{seq} {} {} {words} 0\n", byte(block), byte(version)),
        number => format!("{seq} - - - {number}\n"),
    };
    put(&text, room)
}

pub fn last_text(cut: u32, fields: u64, room: &mut [u8]) -> (u8, usize) {
    put(&format!("{} {fields}\n", if cut == 0 { "end" } else { "cut" }), room)
}

/// The whole listing, in one go and without the functions above but the reader.
pub fn list(recording: &[u8]) -> String {
    let mut lines = String::from("seq block version words answer\n");
    let mut room = vec![0; LARGEST_C];
    let mut rest = recording;
    let mut fields = 0;
    loop {
        if rest.is_empty() {
            return lines + &format!("end {fields}\n");
        }
        if rest.len() < 3 {
            return lines + &format!("cut {fields}\n");
        }
        let tag = rest[0];
        let length = 256 * rest[1] as usize + rest[2] as usize;
        if rest.len() < 3 + length {
            return lines + &format!("cut {fields}\n");
        }
        let body = &rest[3..3 + length];
        rest = &rest[3 + length..];
        fields += 1;
        lines += &format!("{fields} {}\n", answer(tag, body, &mut room));
    }
}

fn answer(tag: u8, body: &[u8], room: &mut [u16]) -> String {
    if tag != 1 {
        return "- - - 15".into();
    }
    let answer = read(body, room);
    match meaning(&answer.header) {
        Ok(meaning) if answer.number == 0 => {
            format!("{} {} {} 0", meaning.block, meaning.version, answer.words)
        }
        _ => format!("- - - {}", answer.number),
    }
}
