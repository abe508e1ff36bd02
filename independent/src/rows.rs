//! The table of field sizes: which word size and count suit a block number and its version.

pub const LARGEST_N: usize = 5_236;
pub const SMALLEST_FIELD_BITS: usize = 21_440;
pub const FIXED_FIELD_BITS: usize = 64_320;
/// Four records with the largest n.
pub const LARGEST_C: usize = 4 * (16 + LARGEST_N);

/// Word 1 of the header, Table 3-5: block 0 has id 240.
pub fn block_of_id(id: u8) -> Option<u8> {
    match id {
        240 => Some(0),
        1..=11 => Some(id),
        _ => None,
    }
}

pub fn id_of_block(block: u8) -> u8 {
    if block == 0 {
        240
    } else {
        block
    }
}

pub fn size_suits(block: u8, size: u8) -> bool {
    match block {
        0 => size == 8,
        1..=10 => size == 10,
        11 => size == 6 || size == 8 || size == 10,
        _ => false,
    }
}

/// C for n pixels; for blocks 1 to 10 only.
pub fn c_of_n(block: u8, version: u8, n: usize) -> usize {
    match block {
        1 | 2 => records(block, version) * (16 + n),
        _ => 16 + 4 * n,
    }
}

pub fn count_suits(block: u8, version: u8, size: u8, c: usize) -> bool {
    match (block, size) {
        (0, 8) => c == 8_040,
        // From the widest scan down: the first that is not above C decides.
        (1..=10, 10) => (1..=LARGEST_N).rev().map(|n| c_of_n(block, version, n)).find(|&row| row <= c) == Some(c),
        (11, 6) => c == 10_720,
        (11, 8) => c == 8_040,
        (11, 10) => c == 6_432,
        _ => false,
    }
}

pub fn field_bits(block: u8, c: usize) -> usize {
    if block == 0 || block == 11 {
        return FIXED_FIELD_BITS;
    }
    let mut bits = 10 * c;
    while bits % 16 != 0 {
        bits += 1;
    }
    bits.max(SMALLEST_FIELD_BITS)
}

/// Detector records: Table 3-1. Version 3 has an eighth infrared detector, whose record is block 2's fourth.
pub fn records(block: u8, version: u8) -> usize {
    match (block, version) {
        (1, _) | (2, 3) => 4,
        (2, _) => 3,
        (3..=10, _) => 1,
        _ => 0,
    }
}

#[cfg(test)]
mod tests {
    use super::*;

    #[test]
    fn a_count_suits_where_some_n_gives_it() {
        for (block, version) in [(1, 0), (1, 3), (2, 0), (2, 1), (2, 2), (2, 3), (3, 2), (3, 3), (10, 3)] {
            let mut given = vec![false; 65_536];
            (1..=LARGEST_N).for_each(|n| given[c_of_n(block, version, n)] = true);
            for (c, &suits) in given.iter().enumerate() {
                assert_eq!(count_suits(block, version, 10, c), suits, "block {block}, version {version}, {c} words");
            }
        }
    }

    #[test]
    fn block_2_has_the_row_of_block_1_in_version_3_alone() {
        let rows = |block, version| [1, LARGEST_N].map(|n| c_of_n(block, version, n));
        for version in 0..=2 {
            assert_eq!(rows(2, version), [51, 15_756]);
            assert_eq!(rows(1, version), [68, LARGEST_C]);
        }
        assert_eq!(rows(2, 3), [68, LARGEST_C]);
        assert_eq!(rows(1, 3), [68, LARGEST_C]);
    }
}
