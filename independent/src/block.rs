//! Reading and writing one block, and the parts for detector records.

use crate::check::check_bytes;
use crate::header::{self, Meaning, COPY, HEADER};
use crate::library::ReadAnswer;
use crate::{rows, words};

pub fn read(block: &[u8], room: &mut [u16]) -> ReadAnswer {
    match try_read(block, room) {
        Ok(answer) => answer,
        Err(number) => ReadAnswer::refused(number),
    }
}

fn try_read(block: &[u8], room: &mut [u16]) -> Result<ReadAnswer, u8> {
    if block.len() < 3 * COPY {
        return Err(1);
    }
    let copies = header::passing(block);
    let good: Vec<&[u8]> =
        (0..3).filter(|&copy| copies[copy]).map(|copy| &block[COPY * copy..COPY * (copy + 1)]).collect();
    if good.is_empty() {
        return Err(2);
    }
    if good.iter().any(|copy| copy != &good[0]) {
        return Err(3);
    }
    let common: [u8; HEADER] = good[0][..HEADER].try_into().unwrap();
    let meaning = header::meaning(&common)?;
    if block.len() != meaning.block_bytes() {
        return Err(8);
    }
    let (front, check) = block.split_at(block.len() - 2);
    if front.len() % 2 != 0 {
        return Err(17);
    }
    if room.len() < meaning.c {
        return Err(9);
    }
    let field = &front[3 * COPY..];
    if check != check_bytes(field) {
        return Err(10);
    }
    if !words::fill_is_zero(field, meaning.size * meaning.c) {
        return Err(11);
    }
    let decoded = words::unpack(field, meaning.size, meaning.c);
    room[..meaning.c].copy_from_slice(&decoded);
    Ok(ReadAnswer { number: 0, header: common, copies, words: meaning.c })
}

/// The number and the bytes written.
pub fn write(header: &[u8], words: &[u16], dest: &mut [u8]) -> (u8, usize) {
    match try_write(header, words, dest) {
        Ok(written) => (0, written),
        Err(number) => (number, 0),
    }
}

fn try_write(lent: &[u8], words: &[u16], dest: &mut [u8]) -> Result<usize, u8> {
    let header = header::lent(lent)?;
    let meaning = header::meaning(&header)?;
    if words.len() != meaning.c {
        return Err(8);
    }
    if dest.len() < meaning.block_bytes() {
        return Err(9);
    }
    if words.iter().any(|&word| word as u32 >= 1 << meaning.size) {
        return Err(14);
    }
    let block = assemble(&header, &meaning, words);
    dest[..block.len()].copy_from_slice(&block);
    Ok(block.len())
}

fn assemble(header: &[u8; HEADER], meaning: &Meaning, words: &[u16]) -> Vec<u8> {
    let field = words::pack(words, meaning.size, meaning.field_bytes());
    let mut block = Vec::new();
    for _ in 0..3 {
        block.extend(header::sealed(header));
    }
    block.extend(&field);
    block.extend(check_bytes(&field));
    block
}

/// The number, and where record k (from 1) stands in the words.
pub fn record(header: &[u8], words: &[u16], k: usize) -> (u8, usize, usize) {
    match try_record(header, words, k) {
        Ok((start, length)) => (0, start, length),
        Err(number) => (number, 0, 0),
    }
}

fn try_record(lent: &[u8], words: &[u16], k: usize) -> Result<(usize, usize), u8> {
    let header = header::lent(lent)?;
    let meaning = header::meaning(&header)?;
    let records = rows::records(meaning.block, meaning.version);
    if k < 1 || k > records {
        return Err(13);
    }
    if words.len() < meaning.c {
        return Err(9);
    }
    let length = meaning.c / records;
    Ok(((k - 1) * length, length))
}
