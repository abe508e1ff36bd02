//! The check word: the generator is x^16 + x^12 + x^5 + 1, all ones at the
//! start, the remainder complemented (section 3.3.3). Bits go as sent, highest
//! first.

const GENERATOR: u16 = 0x1021;

const fn divide(mut register: u16, byte: u8) -> u16 {
    let mut place = 8;
    while place > 0 {
        place -= 1;
        let sent = (byte >> place) & 1 == 1;
        let out = register & 0x8000 != 0;
        register <<= 1;
        if sent != out {
            register ^= GENERATOR;
        }
    }
    register
}

/// The definition, one bit at a time.
pub fn check_word(bytes: &[u8]) -> u16 {
    let mut register = 0xFFFF;
    for &byte in bytes {
        register = divide(register, byte);
    }
    !register
}

const STEPS: [u16; 256] = {
    let mut steps = [0; 256];
    let mut top = 0;
    while top < 256 {
        steps[top] = divide((top as u16) << 8, 0);
        top += 1;
    }
    steps
};

/// The same a byte at a time, so that many large blocks can be compared.
pub fn check_word_by_bytes(bytes: &[u8]) -> u16 {
    let mut register: u16 = 0xFFFF;
    for &byte in bytes {
        let top = (register >> 8) as u8 ^ byte;
        register = (register << 8) ^ STEPS[top as usize];
    }
    !register
}

/// High byte first, as sent.
pub fn check_bytes(bytes: &[u8]) -> [u8; 2] {
    check_word_by_bytes(bytes).to_be_bytes()
}

#[cfg(test)]
mod tests {
    use super::*;
    use crate::inputs::Dice;

    #[test]
    fn known_value() {
        assert_eq!(check_word(b"123456789"), 0xD64E);
        assert_eq!(check_word(b""), 0x0000);
    }

    #[test]
    fn both_ways_agree() {
        let mut dice = Dice::new(5);
        for length in 0..3000 {
            let bytes = dice.bytes(length);
            assert_eq!(check_word(&bytes), check_word_by_bytes(&bytes));
        }
    }
}
