//! Longitudinal parity of two spacelook layouts: the XOR of a section's words.

pub const WORDS: usize = 8_040;

/// First word, last word and parity word, all counted from 1.
type Section = (usize, usize, usize);

/// Words 7903 to 7905 belong to no section.
const IMAGER: [Section; 4] = [(1, 221, 222), (223, 701, 702), (703, 1181, 1182), (1183, 7902, 7906)];
const SOUNDER: [Section; 2] = [(1, 221, 222), (223, 2926, 2927)];

/// Refusal 8 for another number of words, then 14 for a word of more than eight bits.
pub fn eight_bit_words(words: &[u16]) -> Result<(), u8> {
    if words.len() != WORDS {
        return Err(8);
    }
    if words.iter().any(|&word| word > 255) {
        return Err(14);
    }
    Ok(())
}

fn verdicts<const N: usize>(sections: &[Section; N], words: &[u16]) -> (u8, [bool; N]) {
    if let Err(number) = eight_bit_words(words) {
        return (number, [false; N]);
    }
    let right = sections.map(|(first, last, parity)| {
        let mut sum = 0;
        for number in first..=last {
            sum ^= words[number - 1];
        }
        sum == words[parity - 1]
    });
    (0, right)
}

pub fn imager(words: &[u16]) -> (u8, [bool; 4]) {
    verdicts(&IMAGER, words)
}

pub fn sounder(words: &[u16]) -> (u8, [bool; 2]) {
    verdicts(&SOUNDER, words)
}
