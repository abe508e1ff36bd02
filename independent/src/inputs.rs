//! Inputs from seeded dice: sound ones first, then damaged in many ways. Which
//! answer an input must get is the model's business, not settled here.

use crate::block::write;
use crate::check::check_bytes;
use crate::compare::{Case, Offer, Start};
use crate::document;
use crate::header::{self, sealed, HEADER};
use crate::rows::{self, LARGEST_C, LARGEST_N};
use crate::tags::{days_in, LeapDays, Tag};
use crate::watch::{self, Watch, LONGEST_WAIT, VALID};
use crate::words;

/// Records are asked for up to this number: the width of a byte.
pub const LARGEST_K: usize = 255;

/// SplitMix64.
pub struct Dice(u64);

impl Dice {
    pub fn new(seed: u64) -> Dice {
        Dice(seed)
    }

    /// Dice of their own for each case, so that one can be made again alone.
    pub fn for_case(seed: u64, case: u64) -> Dice {
        let mut dice = Dice(seed ^ 0x47_56_41_52);
        dice.0 = dice.roll() ^ case;
        dice.roll();
        dice
    }

    pub fn roll(&mut self) -> u64 {
        self.0 = self.0.wrapping_add(0x9E37_79B9_7F4A_7C15);
        let mut z = self.0;
        z = (z ^ (z >> 30)).wrapping_mul(0xBF58_476D_1CE4_E5B9);
        z = (z ^ (z >> 27)).wrapping_mul(0x94D0_49BB_1331_11EB);
        z ^ (z >> 31)
    }

    /// From 0 up to but not including `end`.
    pub fn below(&mut self, end: usize) -> usize {
        (self.roll() % end as u64) as usize
    }

    pub fn between(&mut self, first: usize, last: usize) -> usize {
        first + self.below(last - first + 1)
    }

    pub fn one_in(&mut self, chances: usize) -> bool {
        self.below(chances) == 0
    }

    pub fn pick<T: Copy>(&mut self, from: &[T]) -> T {
        from[self.below(from.len())]
    }

    pub fn byte(&mut self) -> u8 {
        self.roll() as u8
    }

    pub fn bytes(&mut self, length: usize) -> Vec<u8> {
        let mut bytes = Vec::with_capacity(length + 8);
        while bytes.len() < length {
            bytes.extend(self.roll().to_le_bytes());
        }
        bytes.truncate(length);
        bytes
    }

    /// Buffers hold a pattern beforehand, so that any write into them shows.
    pub fn pattern(&mut self, length: usize) -> Vec<u16> {
        let start = self.roll() as u16;
        (0..length).map(|index| start.wrapping_add((index as u16).wrapping_mul(40_503))).collect()
    }

    fn run(&mut self) -> usize {
        self.between(1, 16)
    }
}

// ---- sound blocks ----

/// The header and words of a sound block.
#[derive(Clone)]
pub struct Draft {
    pub header: [u8; HEADER],
    pub words: Vec<u16>,
    pub block: u8,
    pub version: u8,
    pub size: usize,
}

fn pixels(dice: &mut Dice) -> usize {
    const ONE_LESS: usize = LARGEST_N - 1;
    const TWO_LESS: usize = LARGEST_N - 2;
    match dice.below(20) {
        0..=8 => dice.between(1, 40),
        // 3,923 pixels in four records are as many words as the widest scan in three.
        9..=11 => dice.pick(&[
            1, 2, 3, 4, 519, 520, 521, 522, 531, 532, 533, 534, 697, 698, 699, 700, 701, 3_923, TWO_LESS, ONE_LESS,
            LARGEST_N,
        ]),
        12..=14 => dice.between(500, 720),
        15..=18 => dice.between(1, 1_500),
        _ => dice.between(1, LARGEST_N),
    }
}

fn some_words(dice: &mut Dice, size: usize, count: usize) -> Vec<u16> {
    let end = 1usize << size;
    match dice.below(8) {
        0 => vec![0; count],
        1 => vec![(end - 1) as u16; count],
        2 => (0..count).map(|index| (index % end) as u16).collect(),
        3 => {
            let mut words = vec![0; count];
            words[dice.below(count)] = dice.below(end) as u16;
            words
        }
        _ => (0..count).map(|_| dice.below(end) as u16).collect(),
    }
}

fn put_count(header: &mut [u8; HEADER], count: u16) {
    header[2..4].copy_from_slice(&count.to_be_bytes());
}

fn count_of(header: &[u8; HEADER]) -> usize {
    u16::from_be_bytes([header[2], header[3]]) as usize
}

/// A good version; block 2 gets four records as often as three.
fn some_version(dice: &mut Dice, id: u8) -> u8 {
    if id == 2 && dice.one_in(3) {
        3
    } else {
        dice.below(4) as u8
    }
}

pub fn draft(dice: &mut Dice) -> Draft {
    let block = match dice.below(4) {
        0 => dice.pick(&[1, 2, 2, 11]),
        _ => dice.below(12) as u8,
    };
    draft_of(dice, block, pixels)
}

/// The same of a given block, with as many pixels as are drawn, where it has pixels.
pub fn draft_of(dice: &mut Dice, block: u8, pixels: fn(&mut Dice) -> usize) -> Draft {
    let version = some_version(dice, block);
    let (size, c) = match block {
        0 => (8, 8_040),
        11 => dice.pick(&[(6, 10_720), (8, 8_040), (10, 6_432)]),
        _ => (10, rows::c_of_n(block, version, pixels(dice))),
    };
    let mut header: [u8; HEADER] = if dice.one_in(4) { [0; HEADER] } else { dice.bytes(HEADER).try_into().unwrap() };
    header[0] = rows::id_of_block(block);
    header[1] = size as u8;
    put_count(&mut header, (c + header::COUNT_ADDS) as u16);
    header[7] = version;
    if !dice.one_in(8) {
        header[8] = dice.below(2) as u8;
    }
    if dice.one_in(2) {
        header[16..24].copy_from_slice(&sound_tag(dice));
    }
    Draft { header, words: some_words(dice, size, c), block, version, size }
}

/// A block of a scan of `n` pixels, or of the fixed length, with words that can be told from one another.
pub fn scanned(number: u8, version: u8, n: usize) -> Vec<u8> {
    let (size, c) = match number {
        0 => (8, 8_040),
        11 => [(6, 10_720), (8, 8_040), (10, 6_432), (8, 8_040)][version as usize],
        _ => (10, rows::c_of_n(number, version, n)),
    };
    let words: Vec<u16> = (0..c).map(|k| ((k * 7 + version as usize) % (1 << size)) as u16).collect();
    let mut dest = vec![0; 32_000];
    let (answer, length) =
        write(&document::header(rows::id_of_block(number), size, version, c as u16), &words, &mut dest);
    assert_eq!(answer, 0);
    dest.truncate(length);
    dest
}

// ---- damaged blocks ----

#[derive(Clone)]
pub(crate) struct Parts {
    pub(crate) copies: [[u8; 30]; 3],
    field: Vec<u8>,
    check: [u8; 2],
}

impl Parts {
    pub(crate) fn of(draft: &Draft) -> Parts {
        let bytes = rows::field_bits(draft.block, draft.words.len()) / 8;
        let field = words::pack(&draft.words, draft.size, bytes);
        Parts { copies: [sealed(&draft.header); 3], check: check_bytes(&field), field }
    }

    pub(crate) fn joined(&self) -> Vec<u8> {
        let mut block = self.copies.concat();
        block.extend(&self.field);
        block.extend(self.check);
        block
    }

    fn header(&self) -> [u8; HEADER] {
        self.copies[0][..HEADER].try_into().unwrap()
    }

    fn put_header(&mut self, header: &[u8; HEADER]) {
        self.copies = [sealed(header); 3];
    }

    fn reseal_field(&mut self) {
        self.check = check_bytes(&self.field);
    }
}

fn flip(bytes: &mut [u8], place: usize) {
    bytes[place / 8] ^= 0x80 >> (place % 8);
}

/// A run of bits: both ends flipped, those between as they fall.
fn flip_run(dice: &mut Dice, bytes: &mut [u8], length: usize) {
    let bits = 8 * bytes.len();
    let length = length.min(bits);
    let start = dice.below(bits - length + 1);
    for place in start..start + length {
        if place == start || place == start + length - 1 || dice.one_in(2) {
            flip(bytes, place);
        }
    }
}

fn flip_scattered(dice: &mut Dice, bytes: &mut [u8]) {
    for _ in 0..dice.between(1, 7) {
        let place = dice.below(8 * bytes.len());
        flip(bytes, place);
    }
}

pub(crate) fn damage_copy(dice: &mut Dice, copy: &mut [u8; 30]) {
    match dice.below(5) {
        0 | 1 => {
            let length = dice.run();
            flip_run(dice, copy, length);
        }
        2 => flip_scattered(dice, copy),
        3 => {
            let place = dice.below(240);
            flip(copy, place);
        }
        _ => *copy = dice.bytes(30).try_into().unwrap(),
    }
}

/// Checks made by a slightly other rule.
fn spoilt_check(dice: &mut Dice, check: [u8; 2]) -> [u8; 2] {
    match dice.below(4) {
        0 => [check[1], check[0]],
        1 => [!check[0], !check[1]],
        2 => [0, 0],
        _ => [0xFF, 0xFF],
    }
}

/// Another header that passes: one byte or one bit different.
pub(crate) fn other_copy(dice: &mut Dice, copy: &[u8; 30]) -> [u8; 30] {
    let mut header: [u8; HEADER] = copy[..HEADER].try_into().unwrap();
    let place = dice.below(8 * HEADER);
    flip(&mut header, place);
    if dice.one_in(3) {
        spoil_header(dice, &mut header);
    }
    sealed(&header)
}

/// A count at an end of its row or near it, or of 84 words, which are three records and four. Block 2 gets those of
/// either row, so that its version may ask for the other.
fn put_border_count(dice: &mut Dice, header: &mut [u8; HEADER]) {
    let c = match header[0] {
        block @ 1..=10 => {
            let n = dice.pick(&[0, 1, 84 / 4 - 16, 84 / 3 - 16, LARGEST_N, LARGEST_N + 1]);
            let c = rows::c_of_n(block, dice.pick(&[2, 3]), n);
            c + dice.pick(&[0, 0, 0, 1]) - dice.pick(&[0, 0, 0, 1])
        }
        _ => dice.pick(&[10_720, 8_040, 6_432, 8_042]),
    };
    put_count(header, (c + header::COUNT_ADDS) as u16);
}

fn spoil_word(dice: &mut Dice, header: &mut [u8; HEADER]) {
    match dice.below(12) {
        0 => header[0] = dice.pick(&[0, 12, 13, 14, 15, 16, 239, 241, 255]),
        1 => header[0] = if dice.one_in(2) { dice.byte() } else { dice.pick(&[240, 1, 2, 3, 10, 11]) },
        2 => header[7] = dice.pick(&[4, 5, 7, 8, 16, 128, 255]),
        3 => header[7] = dice.byte(),
        4 => header[1] = dice.pick(&[0, 1, 6, 7, 8, 9, 10, 11, 12, 16, 255]),
        5 => header[1] = dice.byte(),
        6 => {
            let near = count_of(header) as i64 + dice.pick(&[-12, -4, -3, -2, -1, 1, 2, 3, 4, 8, 12]);
            put_count(header, near as u16);
        }
        7..=9 => put_border_count(dice, header),
        10 => put_count(header, dice.pick(&[0, 1, 2, 3, 255, 256, 32_767, 32_768, 65_535])),
        _ => put_count(header, dice.roll() as u16),
    }
}

/// Another good version, and half the time another count: under it block 2 may have the other row.
fn cross_versions(dice: &mut Dice, header: &mut [u8; HEADER]) {
    header[7] = some_version(dice, header[0]);
    if dice.one_in(2) {
        put_border_count(dice, header);
    }
}

/// Words 1, 2, 3-4 and 8 that the table may not have.
pub fn spoil_header(dice: &mut Dice, header: &mut [u8; HEADER]) {
    loop {
        let chances = if header[0] == 2 { 2 } else { 12 };
        if dice.one_in(chances) {
            cross_versions(dice, header);
        } else {
            spoil_word(dice, header);
        }
        // Two faults at once show in which order they are tested.
        if !dice.one_in(3) {
            return;
        }
    }
}

fn damage_parts(dice: &mut Dice, parts: &mut Parts, draft: &Draft) {
    let data_bits = draft.size * draft.words.len();
    let field_bits = 8 * parts.field.len();
    let one = dice.below(3);
    let two = (one + dice.between(1, 2)) % 3;
    match dice.below(19) {
        0 | 1 => damage_copy(dice, &mut parts.copies[one]),
        2 => {
            damage_copy(dice, &mut parts.copies[one]);
            damage_copy(dice, &mut parts.copies[two]);
        }
        3 => {
            for copy in &mut parts.copies {
                damage_copy(dice, copy);
            }
        }
        4 => {
            // Damaged alike: two votes for a wrong header.
            let mut copy = parts.copies[one];
            damage_copy(dice, &mut copy);
            parts.copies[one] = copy;
            parts.copies[two] = copy;
            if dice.one_in(4) {
                parts.copies = [copy; 3];
            }
        }
        5 => parts.copies[one] = other_copy(dice, &parts.copies[one]),
        6 => {
            parts.copies[one] = other_copy(dice, &parts.copies[one]);
            damage_copy(dice, &mut parts.copies[two]);
        }
        7 => {
            for copy in 0..3 {
                let check = [parts.copies[copy][28], parts.copies[copy][29]];
                if copy != one || dice.one_in(2) {
                    let spoilt = spoilt_check(dice, check);
                    parts.copies[copy][28..].copy_from_slice(&spoilt);
                }
            }
        }
        8..=10 => {
            let mut header = parts.header();
            spoil_header(dice, &mut header);
            parts.put_header(&header);
            if dice.one_in(4) {
                damage_copy(dice, &mut parts.copies[one]);
            }
        }
        11 => {
            let place = dice.below(field_bits);
            flip(&mut parts.field, place);
        }
        12 => {
            let length = dice.run();
            flip_run(dice, &mut parts.field, length);
        }
        13 => flip_scattered(dice, &mut parts.field),
        14 => match dice.below(3) {
            0 => parts.check = spoilt_check(dice, parts.check),
            1 => flip(&mut parts.check, dice.below(16)),
            _ => {
                let length = dice.run();
                flip_run(dice, &mut parts.check, length);
            }
        },
        15 | 16 => {
            if data_bits < field_bits {
                let place = match dice.below(4) {
                    0 => data_bits,
                    1 => field_bits - 1,
                    _ => dice.between(data_bits, field_bits - 1),
                };
                flip(&mut parts.field, place);
                if !dice.one_in(3) {
                    parts.reseal_field();
                }
            }
        }
        17 => {
            // The field ended at a byte, or at another multiple.
            let bytes = match dice.below(3) {
                0 => data_bits.div_ceil(8),
                1 => data_bits.div_ceil(32) * 4,
                _ => (parts.field.len() as i64 + dice.pick(&[-2, -1, 1, 2])) as usize,
            };
            parts.field.resize(bytes, 0);
            parts.reseal_field();
        }
        _ => {
            // Another field that passes its check.
            parts.field = dice.bytes(parts.field.len());
            if dice.one_in(2) {
                parts.field.iter_mut().skip(data_bits / 8).for_each(|byte| *byte = 0);
            }
            parts.reseal_field();
        }
    }
}

fn damage_length(dice: &mut Dice, block: &mut Vec<u8>) {
    let length = block.len();
    match dice.below(10) {
        0 | 1 => {
            block.pop();
        }
        2 | 3 => block.push(dice.byte()),
        4 => {
            block.pop();
            block.pop();
        }
        5 => block.extend([0, 0]),
        6 => block.truncate(dice.below(length + 1)),
        7 => block.truncate(dice.pick(&[0, 1, 29, 30, 60, 88, 89, 90, 91, 92])),
        8 => {
            let more = dice.below(300);
            block.extend(dice.bytes(more));
        }
        _ => {
            block.remove(dice.below(length));
        }
    }
}

/// A block, sound or damaged.
pub fn block(dice: &mut Dice) -> Vec<u8> {
    if dice.one_in(25) {
        let length = match dice.below(4) {
            0 => dice.below(3),
            1 => dice.pick(&[88, 89, 90, 91, 92, 2_771, 2_772, 8_132]),
            _ => dice.below(400),
        };
        return if dice.one_in(4) { vec![dice.pick(&[0, 0xFF]); length] } else { dice.bytes(length) };
    }
    let draft = draft(dice);
    let mut parts = Parts::of(&draft);
    let damages = dice.pick(&[0, 0, 0, 1, 1, 1, 1, 1, 1, 2]);
    for _ in 0..damages {
        damage_parts(dice, &mut parts, &draft);
    }
    let mut block = parts.joined();
    if dice.one_in(12) {
        damage_length(dice, &mut block);
    }
    block
}

/// Lengths around what is needed.
fn length_near(dice: &mut Dice, needed: usize) -> usize {
    match dice.below(12) {
        0..=3 => needed,
        4 => needed + 1,
        5 | 6 => needed + dice.below(400),
        7 => needed.saturating_sub(1),
        8 => 0,
        9 => dice.below(needed + 1),
        10 => needed + 4,
        _ => needed.max(LARGEST_C),
    }
}

/// The words that the first passing copy announces, if it makes sense.
fn announced(block: &[u8]) -> Option<usize> {
    if block.len() < 90 {
        return None;
    }
    let first = header::passing(block).iter().position(|&passes| passes)?;
    let header: [u8; HEADER] = block[30 * first..30 * first + HEADER].try_into().unwrap();
    header::meaning(&header).ok().map(|meaning| meaning.c)
}

fn read_case(dice: &mut Dice) -> Case {
    let block = block(dice);
    let needed = announced(&block).unwrap_or_else(|| dice.below(200));
    let length = if dice.one_in(2) { needed } else { length_near(dice, needed) };
    Case::Read { room: dice.pattern(length), shift: dice.below(8), block }
}

fn lent_header(dice: &mut Dice, draft: &Draft) -> Vec<u8> {
    let mut header = draft.header;
    if dice.one_in(3) {
        spoil_header(dice, &mut header);
    }
    let mut lent = header.to_vec();
    if dice.one_in(10) {
        match dice.below(6) {
            0 => lent.clear(),
            1 => lent.truncate(27),
            2 => lent.push(dice.byte()),
            3 => lent = sealed(&header).to_vec(),
            4 => lent = [sealed(&header); 3].concat(),
            _ => lent = dice.bytes(HEADER),
        }
    }
    lent
}

fn write_case(dice: &mut Dice) -> Case {
    let draft = draft(dice);
    let header = lent_header(dice, &draft);
    let mut words = draft.words.clone();
    if dice.one_in(6) {
        let length = length_near(dice, words.len());
        words.resize(length, 0);
    }
    if dice.one_in(5) && !words.is_empty() {
        let first = 1u32 << draft.size;
        let large = match dice.below(4) {
            0 | 1 => first,
            2 => 65_535,
            _ => first + dice.below((65_536 - first) as usize) as u32,
        };
        let at = match dice.below(4) {
            0 => 0,
            1 => words.len() - 1,
            _ => dice.below(words.len()),
        };
        words[at] = large as u16;
    }
    let needed = 92 + rows::field_bits(draft.block, draft.words.len()) / 8;
    let length = if dice.one_in(2) { needed } else { length_near(dice, needed) };
    let dest = dice.pattern(length).iter().map(|word| (word >> 5) as u8).collect();
    Case::Write { header, words, dest, shift: dice.below(8) }
}

fn record_case(dice: &mut Dice) -> Case {
    let draft = draft(dice);
    let header = lent_header(dice, &draft);
    let length = if dice.one_in(3) { length_near(dice, draft.words.len()) } else { draft.words.len() };
    let k = match dice.below(8) {
        0 => dice.below(LARGEST_K + 1),
        1 | 2 => dice.below(6),
        _ => dice.between(1, rows::records(draft.block, draft.version).max(1)),
    };
    Case::Record { words: dice.pattern(length), header, k }
}

fn place_case(dice: &mut Dice) -> Case {
    let mut byte = |likely: usize| if dice.one_in(4) { dice.byte() } else { dice.below(likely) as u8 };
    let (block, version, record) = (byte(13), byte(5), byte(6));
    // How many records block 2 has goes by the version.
    Case::Place { block: if dice.one_in(3) { 2 } else { block }, version, record }
}

// ---- time tags ----

pub(crate) const LAST_TIME: i64 = 315_569_519_999_999;

/// The tag of a time since year 0 began.
pub fn tag_at(time: i64, flywheel: bool) -> Tag {
    let time = time.clamp(0, LAST_TIME);
    let mut days = time / 86_400_000;
    let of_day = time % 86_400_000;
    // Four hundred years are as many days whenever they begin.
    let mut year = 400 * (days / 146_097) as u16;
    days %= 146_097;
    while days >= days_in(year) as i64 {
        days -= days_in(year) as i64;
        year += 1;
    }
    Tag {
        year,
        day: days as u16 + 1,
        hour: (of_day / 3_600_000) as u8,
        minute: (of_day / 60_000 % 60) as u8,
        second: (of_day / 1000 % 60) as u8,
        millisecond: (of_day % 1000) as u16,
        flywheel,
    }
}

/// Digits as they fall, two to a byte: bounds are for the reader to see.
pub fn digits(tag: &Tag) -> [u8; 8] {
    let mut numbers = Vec::new();
    let mut put = |number: u16, places: u32| {
        for place in (0..places).rev() {
            numbers.push((number / 10u16.pow(place) % 10) as u8);
        }
    };
    put(tag.year, 4);
    put(tag.day, 3);
    put(tag.hour as u16, 2);
    put(tag.minute as u16, 2);
    put(tag.second as u16, 2);
    put(tag.millisecond, 3);
    let mut bytes = [0; 8];
    for (index, number) in numbers.iter().enumerate() {
        bytes[index / 2] |= number << (4 * (1 - index % 2));
    }
    if tag.flywheel {
        bytes[2] |= 0x80;
    }
    bytes
}

fn some_year(dice: &mut Dice) -> u16 {
    match dice.below(3) {
        0 => dice.pick(&[
            0, 1, 3, 4, 99, 100, 101, 399, 400, 401, 1600, 1899, 1900, 1999, 2000, 2001, 2004, 2007, 2008, 2009, 2100,
            2400, 4000, 8000, 9996, 9999,
        ]),
        1 => dice.between(1990, 2040) as u16,
        _ => dice.below(10_000) as u16,
    }
}

pub(crate) fn often_at_edge(dice: &mut Dice, end: usize) -> usize {
    match dice.below(4) {
        0 => 0,
        1 => end - 1,
        _ => dice.below(end),
    }
}

/// A good tag, often where a day or a year ends.
pub fn some_tag(dice: &mut Dice) -> Tag {
    let year = some_year(dice);
    let last = days_in(year) as usize;
    let day = if dice.one_in(4) { dice.pick(&[59, 60, 61, last - 1]) } else { 1 + often_at_edge(dice, last) };
    Tag {
        year,
        day: day as u16,
        hour: often_at_edge(dice, 24) as u8,
        minute: often_at_edge(dice, 60) as u8,
        second: often_at_edge(dice, 60) as u8,
        millisecond: often_at_edge(dice, 1000) as u16,
        flywheel: dice.one_in(3),
    }
}

pub fn sound_tag(dice: &mut Dice) -> [u8; 8] {
    digits(&some_tag(dice))
}

/// One number moved to its bound or past it.
pub(crate) fn strained_tag(dice: &mut Dice) -> Tag {
    let mut tag = some_tag(dice);
    match dice.below(6) {
        0 => tag.year = dice.pick(&[9_999, 10_000, 32_768, 65_535]),
        1 => {
            tag.day = dice.pick(&[0, 1, 365, 366, 366, 366, 367, 368, 400, 799, 1_000, 65_535]);
            if dice.one_in(2) {
                tag.year = 100 * dice.below(100) as u16 + dice.pick(&[0, 0, 4, 96, 99]);
            }
        }
        2 => tag.hour = dice.pick(&[23, 24, 25, 29, 99, 100, 255]),
        3 => tag.minute = dice.pick(&[59, 60, 61, 99, 100, 255]),
        4 => tag.second = dice.pick(&[59, 60, 61, 99, 100, 255]),
        _ => tag.millisecond = dice.pick(&[999, 1_000, 1_001, 65_535]),
    }
    tag
}

/// A tag as lent: good, strained, with a bad digit, or of a wrong length.
pub fn lent_tag(dice: &mut Dice) -> Vec<u8> {
    let mut bytes = sound_tag(dice).to_vec();
    match dice.below(10) {
        0..=3 => {}
        4 | 5 => bytes = digits(&strained_tag(dice)).to_vec(),
        6 | 7 => {
            let nibble = dice.below(16);
            let shift = 4 * (1 - nibble % 2);
            let value = if dice.one_in(3) { dice.below(16) } else { dice.between(10, 15) } as u8;
            bytes[nibble / 2] = bytes[nibble / 2] & !(15 << shift) | value << shift;
        }
        8 => match dice.below(6) {
            0 => bytes.clear(),
            1 => bytes.truncate(7),
            2 => bytes.push(0),
            3 => bytes.truncate(dice.below(8)),
            4 => bytes.extend(sound_tag(dice)),
            _ => bytes.insert(0, 0),
        },
        _ => bytes = dice.bytes(8),
    }
    bytes
}

fn write_tag_case(dice: &mut Dice) -> Case {
    let tag = if dice.one_in(2) { some_tag(dice) } else { strained_tag(dice) };
    Case::WriteTag { tag, leap_days: vec![] }
}

fn elapsed_case(dice: &mut Dice) -> Case {
    let first = some_tag(dice);
    let near = |dice: &mut Dice| {
        let step = match dice.below(5) {
            0 => 0,
            1 => 1,
            2 => dice.below(100_000) as i64,
            3 => 86_400_000 * dice.pick(&[1, 2, 365, 366, 1_461, 36_524, 146_097]),
            _ => dice.below(40_000_000_000) as i64,
        };
        let way = if dice.one_in(2) { -1 } else { 1 };
        digits(&tag_at(first.time(&LeapDays::new()) + way * step, dice.one_in(3))).to_vec()
    };
    let (first_bytes, second) = match dice.below(8) {
        0..=3 => (digits(&first).to_vec(), near(dice)),
        4 | 5 => (digits(&first).to_vec(), sound_tag(dice).to_vec()),
        _ => (lent_tag(dice), lent_tag(dice)),
    };
    Case::Elapsed { first: first_bytes, second, leap_days: vec![] }
}

// ---- the scan watch ----

pub(crate) fn some_limit(dice: &mut Dice) -> u32 {
    match dice.below(3) {
        0 => dice.pick(&[0, 1, 2, 10, 999, 1_000, 60_000, LONGEST_WAIT - 1, LONGEST_WAIT]),
        1 => dice.below(LONGEST_WAIT as usize + 1) as u32,
        _ => dice.below(5_000) as u32,
    }
}

fn strained_limit(dice: &mut Dice) -> u32 {
    match dice.below(4) {
        0 => LONGEST_WAIT + 1,
        1 => u32::MAX,
        2 => dice.roll() as u32,
        _ => LONGEST_WAIT,
    }
}

pub(crate) fn begin_case(dice: &mut Dice) -> Case {
    Case::Begin { limit: if dice.one_in(2) { some_limit(dice) } else { strained_limit(dice) } }
}

/// A record as a host might lend it, inside its bounds or not.
pub(crate) fn lent_watch(dice: &mut Dice) -> Watch {
    let mut watch = Watch {
        open: dice.one_in(2),
        expected: dice.between(1, 10) as u8,
        tag: some_tag(dice),
        limit: some_limit(dice),
        fill: 0,
    };
    // Two faults at once show in which order they are tested.
    for _ in 0..dice.pick(&[0, 0, 1, 1, 2, 3]) {
        match dice.below(3) {
            0 => watch.limit = strained_limit(dice),
            1 => watch.expected = dice.pick(&[0, 0, 1, 10, 11, 12, 128, 255]),
            _ => watch.tag = strained_tag(dice),
        }
    }
    watch
}

fn offers_case(dice: &mut Dice) -> Case {
    let (start, mut watch) = if dice.one_in(3) {
        let watch = lent_watch(dice);
        (Start::Lent(watch), watch)
    } else {
        let limit = some_limit(dice);
        (Start::Begun(limit), watch::begin(limit).1)
    };
    let count = match start {
        Start::Lent(_) => dice.between(1, 5),
        Start::Begun(_) => dice.between(1, 45),
    };
    // Some sequences are all sensible, so that scans complete.
    let noise = dice.pick(&[0, 1, 3, 10, 30]);
    let noisy = |dice: &mut Dice| dice.below(100) < noise;
    let mut offers = Vec::new();
    let none = LeapDays::new();
    let mut now = some_tag(dice).time(&none);
    for _ in 0..count {
        if watch.open && watch.tag.in_bounds(&none) {
            now = watch.tag.time(&none);
        }
        let limit = watch.limit.min(LONGEST_WAIT) as i64;
        now += if noisy(dice) || matches!(start, Start::Lent(_)) && dice.one_in(2) {
            match dice.below(7) {
                0 => limit + 1,
                1 => -1,
                2 => -(dice.below(100_000) as i64),
                3 => limit + dice.below(10_000) as i64,
                4 => 86_400_000 * dice.between(1, 366) as i64,
                5 => -86_400_000 * dice.between(1, 366) as i64,
                _ => dice.below(10_000_000) as i64,
            }
        } else {
            match dice.below(6) {
                0 => limit,
                1 => 0,
                _ => dice.below(limit as usize + 1) as i64,
            }
        };
        now = now.clamp(0, LAST_TIME);
        let block = if noisy(dice) {
            match dice.below(6) {
                0 => 0,
                1 => 11,
                2 => dice.pick(&[12, 15, 128, 240, 255]),
                3 => dice.byte(),
                4 => watch.expected.wrapping_add(1),
                _ => dice.below(12) as u8,
            }
        } else if watch.open {
            watch.expected
        } else {
            0
        };
        let tag =
            if noisy(dice) && dice.one_in(2) { lent_tag(dice) } else { digits(&tag_at(now, dice.one_in(4))).to_vec() };
        watch::offer(&mut watch, block, VALID, &tag, &[]);
        offers.push(Offer { block, valid: VALID, tag, leap_days: vec![] });
    }
    Case::Offers { start, offers }
}

// ---- parity ----

/// Words at a section's edge, or between the third and the fourth parity word.
const EDGES: [usize; 26] = [
    1, 221, 222, 223, 700, 701, 702, 703, 1180, 1181, 1182, 1183, 1184, 2925, 2926, 2927, 2928, 7901, 7902, 7903, 7904,
    7905, 7906, 7907, 8039, 8040,
];

fn parity_words(dice: &mut Dice, sections: &[(usize, usize, usize)]) -> Vec<u16> {
    let mut words: Vec<u16> =
        if dice.one_in(4) { vec![0; 8_040] } else { dice.bytes(8_040).iter().map(|&byte| byte as u16).collect() };
    for &(first, last, parity) in sections {
        words[parity - 1] = words[first - 1..last].iter().fold(0, |sum, word| sum ^ word);
        if dice.one_in(5) {
            words[parity - 1] ^= dice.between(1, 255) as u16;
        }
    }
    for _ in 0..dice.pick(&[0, 0, 1, 1, 2]) {
        let at = if dice.one_in(4) { dice.between(1, 8_040) } else { dice.pick(&EDGES) };
        words[at - 1] ^= 1 << dice.below(8);
    }
    if dice.one_in(6) {
        let at = if dice.one_in(2) { dice.between(1, 8_040) } else { dice.pick(&EDGES) };
        words[at - 1] = match dice.below(3) {
            0 => words[at - 1] + 256,
            1 => 256,
            _ => dice.between(256, 65_535) as u16,
        };
    }
    if dice.one_in(8) {
        let length = dice.pick(&[0, 1, 222, 2_927, 7_906, 8_039, 8_041, 8_042, 10_720]);
        words.resize(length, dice.pick(&[0, 256]));
    }
    words
}

fn imager_case(dice: &mut Dice) -> Case {
    let sections = [(1, 221, 222), (223, 701, 702), (703, 1181, 1182), (1183, 7902, 7906)];
    Case::Imager { words: parity_words(dice, &sections) }
}

fn sounder_case(dice: &mut Dice) -> Case {
    Case::Sounder { words: parity_words(dice, &[(1, 221, 222), (223, 2926, 2927)]) }
}

// ---- recordings ----

pub fn field(tag: u8, body: &[u8]) -> Vec<u8> {
    let mut field = vec![tag];
    field.extend((body.len() as u16).to_be_bytes());
    field.extend(body);
    field
}

pub fn recording(dice: &mut Dice) -> Vec<u8> {
    let mut bytes = Vec::new();
    for _ in 0..dice.pick(&[0, 1, 1, 2, 2, 3, 4, 6, 12]) {
        let tag = if dice.one_in(6) { dice.pick(&[0, 2, 3, 15, 128, 255]) } else { 1 };
        let body = match dice.below(10) {
            0 => {
                let length = dice.below(120);
                dice.bytes(length)
            }
            1 => vec![],
            2 if dice.one_in(20) => dice.bytes(65_535),
            _ => block(dice),
        };
        bytes.extend(field(tag, &body));
    }
    match dice.below(10) {
        0 => bytes.truncate(dice.below(bytes.len() + 1)),
        1 => bytes.extend(&field(1, &[7; 40])[..dice.between(1, 42)]),
        2 => bytes.truncate(bytes.len().saturating_sub(1)),
        3 => {
            let length = dice.between(1, 3);
            bytes.extend(dice.bytes(length));
        }
        _ => {}
    }
    bytes
}

fn next_field_case(dice: &mut Dice) -> Case {
    let recording = recording(dice);
    let length = recording.len();
    // where a field begins, or anywhere
    let at = if dice.one_in(2) {
        let (mut begins, mut next) = (vec![0], 0);
        while let Some([_, high, low, ..]) = recording.get(next..) {
            next += 3 + 256 * *high as usize + *low as usize;
            begins.push(next);
        }
        dice.pick(&begins)
    } else {
        match dice.below(8) {
            0 => length,
            1 => length + dice.between(1, 5),
            2 => usize::MAX - dice.below(4),
            3 => length.saturating_sub(dice.between(1, 4)),
            _ => dice.below(length + 1),
        }
    };
    Case::NextField { recording, at, shift: dice.below(8) }
}

/// Any count, often at an edge of one.
fn some_count(dice: &mut Dice) -> u64 {
    match dice.below(5) {
        0 => dice.pick(&[0, 1, 9, 10, 99, 100, u32::MAX as u64, u32::MAX as u64 + 1, 1 << 63]),
        1 => u64::MAX - dice.below(3) as u64,
        2 => 10u64.pow(dice.below(20) as u32) - dice.below(2) as u64,
        _ => dice.roll() >> dice.below(64),
    }
}

fn line_case(dice: &mut Dice) -> Case {
    let body = if dice.one_in(10) { vec![] } else { block(dice) };
    let tag = if dice.one_in(4) { dice.pick(&[0, 2, 255, 256, 257, 65_537, u32::MAX]) } else { 1 };
    let needed = announced(&body).unwrap_or_else(|| dice.below(200));
    let length = length_near(dice, needed);
    Case::Line { before: some_count(dice), tag, body, room: dice.pattern(length), shift: dice.below(8) }
}

/// Room for a line, too little of it often.
fn text_room(dice: &mut Dice) -> Vec<u8> {
    let length = match dice.below(4) {
        0 => dice.pick(&[0, 1, 30, 31, 32, 104, 105, 106, 200]),
        1 => dice.below(106),
        2 => dice.between(5, 40),
        _ => 105,
    };
    dice.bytes(length)
}

fn line_text_case(dice: &mut Dice) -> Case {
    let byte = |dice: &mut Dice| match dice.below(4) {
        0 => dice.pick(&[0, 9, 10, 99, 100, 255, 256, 257, 65_536, u32::MAX]),
        1 => dice.roll() as u32,
        _ => dice.below(12) as u32,
    };
    Case::LineText {
        seq: some_count(dice),
        block: byte(dice),
        version: byte(dice),
        words: some_count(dice) as usize,
        answer: if dice.one_in(2) { 0 } else { byte(dice) },
        room: text_room(dice),
    }
}

fn last_text_case(dice: &mut Dice) -> Case {
    let cut = if dice.one_in(3) { dice.pick(&[2, 255, 256, u32::MAX]) } else { dice.below(2) as u32 };
    Case::LastText { cut, fields: some_count(dice), room: text_room(dice) }
}

/// One case of any kind; blocks most often.
pub fn case(dice: &mut Dice) -> Case {
    match dice.below(110) {
        0..=34 => read_case(dice),
        35..=49 => write_case(dice),
        50..=57 => record_case(dice),
        58..=59 => place_case(dice),
        60..=66 => Case::ReadTag { bytes: lent_tag(dice), leap_days: vec![] },
        67..=71 => write_tag_case(dice),
        72..=77 => elapsed_case(dice),
        78 => begin_case(dice),
        79..=88 => offers_case(dice),
        89..=91 => imager_case(dice),
        92..=93 => sounder_case(dice),
        94..=97 => Case::List { recording: recording(dice) },
        98..=100 => next_field_case(dice),
        101..=103 => line_case(dice),
        104 => Case::FirstText { room: text_room(dice) },
        105..=106 => line_text_case(dice),
        107 => last_text_case(dice),
        _ => {
            let length = dice.below(3_000);
            Case::CheckWord { bytes: dice.bytes(length) }
        }
    }
}

#[cfg(test)]
mod tests {
    use super::*;
    use crate::tags;

    #[test]
    fn the_end_of_time() {
        let last = Tag { year: 9999, day: 365, hour: 23, minute: 59, second: 59, millisecond: 999, flywheel: false };
        assert_eq!(last.time(&LeapDays::new()), LAST_TIME);
        assert_eq!(tag_at(LAST_TIME, false), last);
        assert_eq!(tag_at(0, false), Tag { day: 1, ..Tag::default() });
    }

    #[test]
    fn sound_tags_are_good() {
        let mut dice = Dice::new(2);
        let none = LeapDays::new();
        for _ in 0..20_000 {
            let tag = some_tag(&mut dice);
            assert!(tag.in_bounds(&none), "{tag:?}");
            assert_eq!(tags::read_tag(&digits(&tag), &[]), (0, tag));
            assert_eq!(tag_at(tag.time(&none), tag.flywheel), tag);
        }
    }
}
