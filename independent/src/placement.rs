//! The channel and the detector of a record (section 3.2.1, normal mode).

/// The number, the channel and the detector; records count from 1.
pub fn place(block: u8, version: u8, record: u8) -> (u8, u8, u8) {
    if block > 11 {
        return (4, 0, 0);
    }
    if version > 3 {
        return (5, 0, 0);
    }
    let held: &[(u8, u8)] = match (version, block) {
        (0 | 1, 1) => &[(4, 1), (4, 2), (5, 1), (5, 2)],
        (0 | 1, 2) => &[(2, 1), (2, 2), (3, 1)],
        (2 | 3, 1) => &[(2, 1), (2, 2), (3, 1), (3, 2)],
        (2, 2) => &[(4, 1), (4, 2), (6, 1)],
        (3, 2) => &[(4, 1), (4, 2), (6, 1), (6, 2)],
        (_, 3) => &[(1, 5)],
        (_, 4) => &[(1, 6)],
        (_, 5) => &[(1, 7)],
        (_, 6) => &[(1, 8)],
        (_, 7) => &[(1, 1)],
        (_, 8) => &[(1, 2)],
        (_, 9) => &[(1, 3)],
        (_, 10) => &[(1, 4)],
        _ => &[],
    };
    if record < 1 || record as usize > held.len() {
        return (13, 0, 0);
    }
    let (channel, detector) = held[record as usize - 1];
    (0, channel, detector)
}

#[cfg(test)]
mod tests {
    use super::*;
    use crate::rows;

    #[test]
    fn every_record_of_a_row_has_a_place_of_its_own() {
        for (block, version) in (0..=11).flat_map(|block| (0..=3).map(move |version| (block, version))) {
            let records = rows::records(block, version) as u8;
            let mut places: Vec<_> = (1..=records).map(|record| place(block, version, record)).collect();
            assert!(places.iter().all(|place| place.0 == 0), "block {block}, version {version}");
            places.sort();
            places.dedup();
            assert_eq!(places.len(), records as usize, "block {block}, version {version}");
            for record in [0, records + 1] {
                assert_eq!(place(block, version, record), (13, 0, 0), "block {block}, version {version}");
            }
        }
    }
}
