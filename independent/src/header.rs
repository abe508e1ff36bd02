//! The header: three copies of thirty bytes, each with its own check.

use crate::check::check_bytes;
use crate::rows;

pub const COPY: usize = 30;
pub const HEADER: usize = 28;

/// Table 3-5: the count is the words of the field and two more for the check.
pub const COUNT_ADDS: usize = 2;

pub fn passes(copy: &[u8]) -> bool {
    copy[HEADER..COPY] == check_bytes(&copy[..HEADER])
}

/// Which copies of the first 90 bytes pass.
pub fn passing(block: &[u8]) -> [bool; 3] {
    [0, 1, 2].map(|copy| passes(&block[COPY * copy..COPY * (copy + 1)]))
}

/// What the words of a header say, once they suit the table.
#[derive(Clone, Copy, Debug, PartialEq, Eq)]
pub struct Meaning {
    pub block: u8,
    pub version: u8,
    pub size: usize,
    pub c: usize,
}

impl Meaning {
    pub fn field_bytes(&self) -> usize {
        rows::field_bits(self.block, self.c) / 8
    }

    pub fn block_bytes(&self) -> usize {
        3 * COPY + self.field_bytes() + 2
    }
}

/// Refusals 4 to 7, in order. Specification words count from 1.
pub fn meaning(header: &[u8; HEADER]) -> Result<Meaning, u8> {
    let word = |number: usize| header[number - 1];
    let block = rows::block_of_id(word(1)).ok_or(4)?;
    let version = word(8);
    if version > 3 {
        return Err(5);
    }
    let size = word(2);
    if !rows::size_suits(block, size) {
        return Err(6);
    }
    let count = 256 * word(3) as usize + word(4) as usize;
    if count < COUNT_ADDS {
        return Err(7);
    }
    let c = count - COUNT_ADDS;
    if !rows::count_suits(block, version, size, c) {
        return Err(7);
    }
    Ok(Meaning { block, version, size: size as usize, c })
}

/// A lent header that has not 28 bytes is refusal 1.
pub fn lent(header: &[u8]) -> Result<[u8; HEADER], u8> {
    header.try_into().map_err(|_| 1)
}

pub fn sealed(header: &[u8; HEADER]) -> [u8; COPY] {
    let mut copy = [0; COPY];
    copy[..HEADER].copy_from_slice(header);
    copy[HEADER..].copy_from_slice(&check_bytes(header));
    copy
}
