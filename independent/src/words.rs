//! Words of any size in a field, bit by bit, most significant first.

/// Bit number `place` of the field, from 0.
pub fn bit(field: &[u8], place: usize) -> bool {
    field[place / 8] & (0x80 >> (place % 8)) != 0
}

pub fn unpack(field: &[u8], size: usize, count: usize) -> Vec<u16> {
    let mut words = Vec::with_capacity(count);
    for index in 0..count {
        let mut word = 0;
        for place in 0..size {
            word = word * 2 + bit(field, index * size + place) as u16;
        }
        words.push(word);
    }
    words
}

/// Every bit behind the last word is fill and zero.
pub fn pack(words: &[u16], size: usize, field_bytes: usize) -> Vec<u8> {
    let mut field = vec![0; field_bytes];
    for (index, &word) in words.iter().enumerate() {
        for place in 0..size {
            if (word >> (size - 1 - place)) & 1 == 1 {
                let at = index * size + place;
                field[at / 8] |= 0x80 >> (at % 8);
            }
        }
    }
    field
}

pub fn fill_is_zero(field: &[u8], data_bits: usize) -> bool {
    (data_bits..8 * field.len()).all(|place| !bit(field, place))
}

/// Whether `count` words have more bits than a field of `bytes` bytes.
fn too_many(count: usize, size: u32, bytes: usize) -> bool {
    count as u128 * u128::from(size) > 8 * bytes as u128
}

/// The first words of a field to the front of the room; refusals 6, 8, 9.
pub fn take(field: &[u8], size: u32, count: usize, room: &mut [u16]) -> u8 {
    if !(1..=16).contains(&size) {
        return 6;
    }
    if too_many(count, size, field.len()) {
        return 8;
    }
    if count > room.len() {
        return 9;
    }
    room[..count].copy_from_slice(&unpack(field, size as usize, count));
    0
}

/// Words into the whole of a field; refusals 6, 9, 14.
pub fn put(words: &[u16], size: u32, field: &mut [u8]) -> u8 {
    if !(1..=16).contains(&size) {
        return 6;
    }
    if too_many(words.len(), size, field.len()) {
        return 9;
    }
    if words.iter().any(|&word| u32::from(word) >> size != 0) {
        return 14;
    }
    field.copy_from_slice(&pack(words, size as usize, field.len()));
    0
}

#[cfg(test)]
mod tests {
    use super::*;
    use crate::inputs::Dice;

    #[test]
    fn ten_and_six_bits() {
        assert_eq!(unpack(&[0x00, 0x40, 0x20, 0x0C, 0x04], 10, 4), [1, 2, 3, 4]);
        assert_eq!(unpack(&[0x04, 0x20, 0xC4], 6, 4), [1, 2, 3, 4]);
        assert_eq!(pack(&[1, 2, 3, 4], 10, 5), [0x00, 0x40, 0x20, 0x0C, 0x04]);
        assert_eq!(pack(&[1, 2, 3, 4], 6, 3), [0x04, 0x20, 0xC4]);
        assert_eq!(pack(&[1, 255], 8, 3), [1, 255, 0]);
    }

    /// Five bytes as one number of forty bits, cut into four words from its high end.
    fn four_words(five: &[u8]) -> [u16; 4] {
        let number = five.iter().fold(0u64, |number, &byte| 256 * number + u64::from(byte));
        [1 << 30, 1 << 20, 1 << 10, 1].map(|place: u64| (number / place % 1_024) as u16)
    }

    #[test]
    fn ten_bits_by_fives() {
        let mut dice = Dice::new(3);
        for count in 0usize..600 {
            let field = dice.bytes((10 * count).div_ceil(8) + count % 7);
            let mut fives = field.clone();
            fives.resize(field.len().next_multiple_of(5), 0);
            let words: Vec<u16> = fives.chunks_exact(5).flat_map(four_words).take(count).collect();
            assert_eq!(unpack(&field, 10, count), words);
        }
    }

    #[test]
    fn fill() {
        assert!(fill_is_zero(&[0xFF, 0xC0], 10));
        assert!(!fill_is_zero(&[0xFF, 0xE0], 10));
        assert!(!fill_is_zero(&[0xFF, 0xC1], 10));
        assert!(fill_is_zero(&[0xFF], 8));
    }
}
