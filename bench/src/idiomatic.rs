//! Idiomatic Rust: slices, iterators and chunks, with a table for the check word; at the end the same functions as the
//! two others have.

const COPY: usize = 30;
const HEADER: usize = 28;
const FRONT: usize = 3 * COPY;
pub const LARGEST_N: usize = 5_236;

const STEPS: [u16; 256] = {
    let mut steps = [0; 256];
    let mut top = 0;
    while top < 256 {
        let mut step = (top as u16) << 8;
        let mut bit = 0;
        while bit < 8 {
            step = if step & 0x8000 != 0 { step << 1 ^ 0x1021 } else { step << 1 };
            bit += 1;
        }
        steps[top] = step;
        top += 1;
    }
    steps
};

pub fn check(bytes: &[u8]) -> u16 {
    !bytes.iter().fold(0xFFFF_u16, |check, byte| check << 8 ^ STEPS[usize::from((check >> 8) as u8 ^ byte)])
}

/// Size of a word, words before fill, bytes of the field.
struct Row {
    size: usize,
    count: usize,
    field: usize,
}

fn row(header: &[u8]) -> Result<Row, usize> {
    let (id, size) = (header[0], usize::from(header[1]));
    if !matches!(id, 240 | 1..=11) {
        return Err(4);
    }
    if header[7] > 3 {
        return Err(5);
    }
    let fixed = matches!(id, 240 | 11);
    match (id, size) {
        (240 | 11, 8) | (1..=11, 10) | (11, 6) => {}
        _ => return Err(6),
    }
    let sent = u16::from_be_bytes([header[2], header[3]]);
    let count = usize::from(sent.checked_sub(2).ok_or(7_usize)?);
    let (front, each) = match (id, header[7]) {
        (1, _) | (2, 3) => (64, 4),
        (2, _) => (48, 3),
        _ => (16, 4),
    };
    let suits = if fixed {
        count * size == 64_320
    } else {
        (front + each..=front + each * LARGEST_N).contains(&count) && (count - front).is_multiple_of(each)
    };
    if !suits {
        return Err(7);
    }
    let field = ((size * count).next_multiple_of(16)).max(21_440) / 8;
    Ok(Row { size, count, field })
}

fn tens(b: &[u8; 5]) -> [u16; 4] {
    let b = b.map(u16::from);
    [b[0] << 2 | b[1] >> 6, (b[1] & 0x3F) << 4 | b[2] >> 4, (b[2] & 0x0F) << 6 | b[3] >> 2, (b[3] & 3) << 8 | b[4]]
}

fn sixes(b: &[u8; 3]) -> [u16; 4] {
    let b = b.map(u16::from);
    [b[0] >> 2, (b[0] & 3) << 4 | b[1] >> 4, (b[1] & 0x0F) << 2 | b[2] >> 6, b[2] & 0x3F]
}

fn from_tens(w: &[u16; 4]) -> [u8; 5] {
    [w[0] >> 2, w[0] << 6 | w[1] >> 4, w[1] << 4 | w[2] >> 6, w[2] << 2 | w[3] >> 8, w[3]].map(|byte| byte as u8)
}

fn from_sixes(w: &[u16; 4]) -> [u8; 3] {
    [w[0] << 2 | w[1] >> 4, w[1] << 4 | w[2] >> 2, w[2] << 6 | w[3]].map(|byte| byte as u8)
}

fn unpack_fours<const N: usize>(field: &[u8], words: &mut [u16], four: impl Fn(&[u8; N]) -> [u16; 4]) {
    let (fours, rest) = words.as_chunks_mut::<4>();
    let (groups, _) = field.as_chunks::<N>();
    for (words, bytes) in fours.iter_mut().zip(groups) {
        *words = four(bytes);
    }
    let mut last = [0; N];
    last.iter_mut().zip(&field[N * fours.len()..]).for_each(|(to, &byte)| *to = byte);
    rest.copy_from_slice(&four(&last)[..rest.len()]);
}

fn pack_fours<const N: usize>(words: &[u16], field: &mut [u8], bytes_of: impl Fn(&[u16; 4]) -> [u8; N]) {
    let (fours, rest) = words.as_chunks::<4>();
    let (data, fill) = field.split_at_mut(N * fours.len());
    for (bytes, words) in data.as_chunks_mut::<N>().0.iter_mut().zip(fours) {
        *bytes = bytes_of(words);
    }
    let mut last = [0; 4];
    last[..rest.len()].copy_from_slice(rest);
    fill.fill(0);
    fill.iter_mut().zip(bytes_of(&last)).for_each(|(to, byte)| *to = byte);
}

pub fn unpack(field: &[u8], size: usize, words: &mut [u16]) {
    match size {
        10 => unpack_fours(field, words, tens),
        6 => unpack_fours(field, words, sixes),
        _ => words.iter_mut().zip(field).for_each(|(word, &byte)| *word = byte.into()),
    }
}

pub fn pack(words: &[u16], size: usize, field: &mut [u8]) {
    match size {
        10 => pack_fours(words, field, from_tens),
        6 => pack_fours(words, field, from_sixes),
        _ => {
            field.fill(0);
            field.iter_mut().zip(words).for_each(|(byte, &word)| *byte = word as u8);
        }
    }
}

fn fill_is_zero(field: &[u8], bits: usize) -> bool {
    let part = bits.is_multiple_of(8) || field[bits / 8] & (0xFF >> (bits % 8)) == 0;
    part && field[bits.div_ceil(8)..].iter().all(|&byte| byte == 0)
}

/// The header of an accepted block; its words are in the room then.
pub fn read<'a>(block: &'a [u8], room: &mut [u16]) -> Result<&'a [u8], usize> {
    let (front, rest) = block.split_at_checked(FRONT).ok_or(1_usize)?;
    let mut passing = front
        .chunks_exact(COPY)
        .map(|copy| copy.split_at(HEADER))
        .filter(|(header, sent)| check(header).to_be_bytes() == **sent)
        .map(|(header, _)| header);
    let header = passing.next().ok_or(2_usize)?;
    if passing.any(|other| other != header) {
        return Err(3);
    }
    let row = row(header)?;
    if rest.len() != row.field + 2 {
        return Err(8);
    }
    let room = room.get_mut(..row.count).ok_or(9_usize)?;
    let (field, sent) = rest.split_at(row.field);
    if check(field).to_be_bytes() != *sent {
        return Err(10);
    }
    if !fill_is_zero(field, row.size * row.count) {
        return Err(11);
    }
    unpack(field, row.size, room);
    Ok(header)
}

/// The bytes written at the front of the destination.
pub fn write(header: &[u8], words: &[u16], dest: &mut [u8]) -> Result<usize, usize> {
    if header.len() != HEADER {
        return Err(1);
    }
    let row = row(header)?;
    if words.len() != row.count {
        return Err(8);
    }
    let length = FRONT + row.field + 2;
    let dest = dest.get_mut(..length).ok_or(9_usize)?;
    if words.iter().any(|word| word >> row.size != 0) {
        return Err(14);
    }
    let (front, rest) = dest.split_at_mut(FRONT);
    let sent = check(header).to_be_bytes();
    for copy in front.chunks_exact_mut(COPY) {
        copy[..HEADER].copy_from_slice(header);
        copy[HEADER..].copy_from_slice(&sent);
    }
    let (field, sent) = rest.split_at_mut(row.field);
    pack(words, row.size, field);
    sent.copy_from_slice(&check(field).to_be_bytes());
    Ok(length)
}

/// The five functions of baseline.h. Pointers as slices want them: none is null, each is good for its length, and what
/// is written overlaps nothing.
pub(crate) mod c {
    use std::slice::{from_raw_parts, from_raw_parts_mut};

    pub unsafe extern "C" fn idiomatic_check(bytes: *const u8, len: usize) -> u16 {
        super::check(from_raw_parts(bytes, len))
    }

    pub unsafe extern "C" fn idiomatic_unpack(
        field: *const u8,
        field_len: usize,
        size: usize,
        words: *mut u16,
        count: usize,
    ) {
        super::unpack(from_raw_parts(field, field_len), size, from_raw_parts_mut(words, count))
    }

    pub unsafe extern "C" fn idiomatic_pack(
        words: *const u16,
        count: usize,
        size: usize,
        field: *mut u8,
        field_len: usize,
    ) {
        super::pack(from_raw_parts(words, count), size, from_raw_parts_mut(field, field_len))
    }

    pub unsafe extern "C" fn idiomatic_read(
        block: *const u8,
        len: usize,
        room: *mut u16,
        room_len: usize,
        header: *mut u8,
    ) -> usize {
        match super::read(from_raw_parts(block, len), from_raw_parts_mut(room, room_len)) {
            Ok(common) => {
                from_raw_parts_mut(header, 28).copy_from_slice(common);
                0
            }
            Err(number) => number,
        }
    }

    pub unsafe extern "C" fn idiomatic_write(
        header: *const u8,
        header_len: usize,
        words: *const u16,
        count: usize,
        dest: *mut u8,
        dest_len: usize,
    ) -> usize {
        let (header, words) = (from_raw_parts(header, header_len), from_raw_parts(words, count));
        super::write(header, words, from_raw_parts_mut(dest, dest_len)).err().unwrap_or(0)
    }
}
