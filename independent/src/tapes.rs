//! Inputs of the salvage, as a tape copier leaves them: blocks with damaged header copies, and junk before, between and
//! behind them. Which blocks are found is the model's business, not settled here.

use crate::check::check_bytes;
use crate::compare::Case;
use crate::document;
use crate::header::{sealed, COPY, HEADER};
use crate::inputs::{block, damage_copy, draft, draft_of, other_copy, scanned, Dice, Draft, Parts};
use crate::recording::next_field;
use crate::rows::{LARGEST_C, LARGEST_N};
use crate::salvage::{self, LEAST_BYTES, MOST_INPUT};

/// What became of a header copy.
#[derive(Clone, Copy, Debug, PartialEq, Eq)]
pub enum Fate {
    Whole,
    Ruined,
    /// Another header that passes.
    Other,
}

/// Every pattern of fates.
pub fn patterns() -> impl Iterator<Item = [Fate; 3]> {
    const FATES: [Fate; 3] = [Fate::Whole, Fate::Ruined, Fate::Other];
    (0..27).map(|number| [number / 9, number / 3 % 3, number % 3].map(|fate| FATES[fate]))
}

// ---- tapes with a name ----

/// The narrowest block 3, of 2,772 bytes.
fn narrow(version: u8) -> Vec<u8> {
    scanned(3, version, 1)
}

fn with_bits(mut block: Vec<u8>, byte: usize, bits: u8) -> Vec<u8> {
    block[byte] ^= bits;
    block
}

fn put_copy(block: &mut [u8], k: usize, copy: &[u8; COPY]) {
    block[COPY * k..COPY * (k + 1)].copy_from_slice(copy);
}

/// The block with each copy as its fate has it; an other one has a word changed that nobody looks at, its place among
/// the copies, so that it makes a block too.
fn with_fates(mut block: Vec<u8>, fates: [Fate; 3]) -> Vec<u8> {
    let header: [u8; HEADER] = block[..HEADER].try_into().unwrap();
    for (k, fate) in fates.into_iter().enumerate() {
        let mut other = header;
        other[10] = k as u8 + 1;
        match fate {
            Fate::Whole => {}
            Fate::Ruined => block[COPY * k + 4] ^= 0x10,
            Fate::Other => put_copy(&mut block, k, &sealed(&other)),
        }
    }
    block
}

/// A header that asks for the longest block.
fn longest() -> [u8; COPY] {
    sealed(&document::header(1, 10, 0, LARGEST_C as u16))
}

/// The block with a copy that asks for more bytes than there are.
fn asking_more(mut block: Vec<u8>, k: usize) -> Vec<u8> {
    put_copy(&mut block, k, &longest());
    block
}

/// The block with a first copy that asks for a longer one, which the bytes behind it would hold.
fn asking_for_another(mut block: Vec<u8>) -> Vec<u8> {
    put_copy(&mut block, 0, &sealed(&longer_without_fill()));
    block
}

/// Bytes that hold no block, the same each time.
fn dull(length: usize) -> Vec<u8> {
    (0..length).map(|k| ((11 + 37 * k) % 251) as u8).collect()
}

/// A tape of such bytes with a block in them.
fn around(block: &[u8]) -> Vec<u8> {
    [&dull(41)[..], block, &dull(23)].concat()
}

/// Two acceptable readings of the same bytes, as far apart as the front is long, 30 or 60 bytes: a copy of the lower one
/// is the first copy of the higher one. The header has no fill, so that any bytes may stand in both fields.
fn readings(front: &[u8], header: &[u8; HEADER], field: &[u8], between: &[u8]) -> Vec<u8> {
    let apart = front.len();
    let mut bytes = [front, &sealed(header), &vec![0; 60 - apart]].concat();
    let first = bytes.len();
    bytes.extend(field);
    bytes.extend(check_bytes(field));
    bytes.extend(&between[..apart - 2]);
    let second = first + apart;
    let check = check_bytes(&bytes[second..second + field.len()]);
    bytes.extend(check);
    bytes
}

/// The header of a block 1 of 2,144 words, which fill the shortest field.
fn without_fill() -> [u8; HEADER] {
    document::header(1, 10, 0, 2_144)
}

/// The same with 2,152 words, which fill ten bytes more.
fn longer_without_fill() -> [u8; HEADER] {
    document::header(1, 10, 0, 2_152)
}

/// Copies of these two headers, and bytes in which both find a field and its check word.
fn two_lengths(copies: [[u8; COPY]; 3], bytes: &[u8]) -> Vec<u8> {
    let mut field = bytes[..2_680].to_vec();
    field.extend(check_bytes(&field));
    field.extend(&bytes[2_680..2_688]);
    field.extend(check_bytes(&field));
    [copies.concat(), field].concat()
}

/// The same with the header of the first copy, and that of the others.
fn first_and_others(first: [u8; HEADER], others: [u8; HEADER]) -> Vec<u8> {
    two_lengths([sealed(&first), sealed(&others), sealed(&others)], &dull(2_688))
}

/// Readings so far apart, the lower one sound or not.
fn two_readings(apart: usize, sound: bool) -> Vec<u8> {
    let mut tape = readings(&dull(apart), &without_fill(), &dull(2_680), &dull(60));
    if !sound {
        tape[90] ^= 1;
    }
    tape
}

/// The blocks of the recording that is salvaged of a tape, without the fronts of their fields.
pub fn again(tape: &[u8]) -> Vec<u8> {
    let recording = salvage::program(tape).1.unwrap_or_default();
    let (mut blocks, mut at) = (Vec::new(), 0);
    while at < recording.len() {
        let field = next_field(&recording, at);
        at = field.start + field.length;
        blocks.extend(&recording[field.start..at]);
    }
    blocks
}

/// As many blocks as so many bytes can hold, with a span before, between and behind them or with none.
fn crowded(count: usize, spans: bool) -> Vec<u8> {
    let junk = if spans { dull(7) } else { Vec::new() };
    let blocks = (0..count).flat_map(|k| [&junk[..], &narrow(k as u8 % 4)].concat());
    blocks.chain(junk.iter().copied()).collect()
}

/// The tape of the printed report: a span, a block, and the longest block with copies 1 and 3 ruined.
pub fn example() -> Vec<u8> {
    let widest = with_fates(scanned(1, 2, LARGEST_N), [Fate::Ruined, Fate::Whole, Fate::Ruined]);
    [dull(137), narrow(2), widest].concat()
}

/// What the program `salvage` is run on where it is proved: a span, a block, and the same with copies 1 and 3 ruined.
fn stored() -> Vec<u8> {
    let ruined = with_bits(with_bits(narrow(3), 4, 0x10), 60 + 17, 0x81);
    [dull(137), narrow(3), ruined].concat()
}

/// The tape at the front of so many bytes, or cut there.
fn of_length(tape: Vec<u8>, length: usize) -> Vec<u8> {
    let mut bytes = [tape, dull(length)].concat();
    bytes.truncate(length);
    bytes
}

/// Every tape that has a name.
pub fn named() -> Vec<(String, Vec<u8>)> {
    let several = || [around(&narrow(0)), around(&with_fates(narrow(1), [Fate::Other; 3])), crowded(3, false)].concat();
    let short = |length: usize| (format!("bytes-{length}"), of_length(narrow(2), length));
    let long = |length: usize| (format!("bytes-{length}"), of_length(several(), length));
    let mut tapes = vec![
        ("stored".into(), stored()),
        ("example".into(), example()),
        ("empty".into(), Vec::new()),
        short(89),
        short(90),
        short(LEAST_BYTES - 1),
        short(LEAST_BYTES),
        short(LEAST_BYTES + 1),
        long(MOST_INPUT),
        long(MOST_INPUT + 1),
        ("no-block".into(), dull(5_000)),
        ("lower-60".into(), two_readings(60, true)),
        ("lower-30".into(), two_readings(30, true)),
        ("higher-60".into(), two_readings(60, false)),
        ("higher-30".into(), two_readings(30, false)),
        ("shorter-first".into(), first_and_others(without_fill(), longer_without_fill())),
        ("longer-first".into(), first_and_others(longer_without_fill(), without_fill())),
        ("other-length-1".into(), around(&asking_for_another(narrow(2)))),
        ("cut".into(), [around(&narrow(1)), narrow(2)[..LEAST_BYTES - 1].to_vec()].concat()),
        ("cut-check".into(), [narrow(1), narrow(2)[..LEAST_BYTES - 2].to_vec()].concat()),
        ("cut-copies".into(), [narrow(1), narrow(2)[..89].to_vec()].concat()),
        ("field-hit".into(), [narrow(1), with_bits(narrow(2), 1_000, 1), narrow(3)].concat()),
        ("again".into(), again(&several())),
        ("full".into(), crowded(MOST_INPUT / LEAST_BYTES, false)),
        ("full-spans".into(), crowded(MOST_INPUT / LEAST_BYTES, true)),
        ("scratch".into(), [scanned(11, 1, 1), narrow(1)].concat()),
        ("far".into(), [dull(65_536), narrow(1)].concat()),
    ];
    for k in 0..3 {
        tapes.push((format!("asks-more-{}", k + 1), around(&asking_more(narrow(2), k))));
    }
    for fates in patterns() {
        let names = fates.map(|fate| format!("{fate:?}").to_lowercase());
        tapes.push((format!("copies-{}", names.join("-")), around(&with_fates(narrow(2), fates))));
    }
    tapes
}

// ---- drawn tapes ----

/// A short block most often, any now and then.
fn some_draft(dice: &mut Dice) -> Draft {
    if dice.one_in(8) {
        return draft(dice);
    }
    let block = dice.between(1, 10) as u8;
    draft_of(dice, block, |dice| if dice.one_in(4) { dice.between(500, 700) } else { dice.between(1, 500) })
}

/// A header that passes and differs: in a word that nobody looks at, in any, or so that it asks for the longest block.
fn drawn_other(dice: &mut Dice, copy: &[u8; COPY]) -> [u8; COPY] {
    match dice.below(4) {
        0 | 1 => {
            let mut header: [u8; HEADER] = copy[..HEADER].try_into().unwrap();
            header[dice.pick(&[4, 5, 6, 8, 9, 15, 23, 27])] ^= dice.between(1, 255) as u8;
            sealed(&header)
        }
        2 => other_copy(dice, copy),
        _ => longest(),
    }
}

/// A block with any fates of its copies.
fn drawn_block(dice: &mut Dice) -> Vec<u8> {
    let mut parts = Parts::of(&some_draft(dice));
    for copy in &mut parts.copies {
        match dice.below(5) {
            0 | 1 => {}
            2 | 3 => damage_copy(dice, copy),
            _ => *copy = drawn_other(dice, copy),
        }
    }
    parts.joined()
}

/// A header whose words leave no fill.
fn drawn_without_fill(dice: &mut Dice) -> [u8; HEADER] {
    let full = |dice: &mut Dice| match dice.below(4) {
        0 => draft_of(dice, 0, |_| 1),
        1 => draft_of(dice, 11, |_| 1),
        2 => draft_of(dice, 1, |_| 520),
        _ => {
            let block = dice.between(3, 10) as u8;
            draft_of(dice, block, |_| 532)
        }
    };
    full(dice).header
}

/// Two readings, 30 or 60 bytes apart, the lower one often unsound.
fn drawn_readings(dice: &mut Dice) -> Vec<u8> {
    let header = drawn_without_fill(dice);
    let apart = dice.pick(&[30, 60, 60]);
    let length = crate::header::meaning(&header).unwrap().field_bytes();
    let (front, field, between) = (dice.bytes(apart), dice.bytes(length), dice.bytes(60));
    let mut tape = readings(&front, &header, &field, &between);
    if dice.one_in(3) {
        tape[90 + dice.below(apart)] ^= 1 << dice.below(8);
    }
    tape
}

/// Copies that ask for two lengths, some of them ruined.
fn drawn_lengths(dice: &mut Dice) -> Vec<u8> {
    let copies = [0; 3].map(|_| {
        let mut copy = sealed(&dice.pick(&[without_fill(), longer_without_fill()]));
        if dice.one_in(4) {
            damage_copy(dice, &mut copy);
        }
        copy
    });
    two_lengths(copies, &dice.bytes(2_688))
}

/// Any number of bytes that belong to no block, though they may look so.
fn junk(dice: &mut Dice) -> Vec<u8> {
    let length = match dice.below(6) {
        0 => dice.between(1, 3),
        1 => dice.pick(&[29, 30, 31, 59, 60, 61, 89, 90, 91, 137]),
        2 => dice.below(2_800),
        _ => dice.below(300),
    };
    match dice.below(8) {
        0 => vec![dice.pick(&[0, 0xFF]); length],
        1 => sealed(&some_draft(dice).header).repeat(dice.between(1, 4)),
        2 => {
            let mut block = drawn_block(dice);
            block.truncate(dice.below(block.len()));
            block
        }
        3 => {
            let block = drawn_block(dice);
            block[dice.below(block.len())..].to_vec()
        }
        _ => dice.bytes(length),
    }
}

/// A block behind more of its own copies: all pass, and only from the right one on there is a block.
fn stuttered(dice: &mut Dice) -> Vec<u8> {
    let block = Parts::of(&some_draft(dice)).joined();
    [&block[..COPY].repeat(dice.between(1, 4)), &block[..]].concat()
}

/// Something that may be a block, or two.
fn piece(dice: &mut Dice) -> Vec<u8> {
    match dice.below(12) {
        0 => drawn_readings(dice),
        1 => drawn_lengths(dice),
        2 => block(dice),
        3 => Parts::of(&some_draft(dice)).joined(),
        4 => stuttered(dice),
        _ => drawn_block(dice),
    }
}

/// So many pieces, often side by side, and junk.
fn joined(dice: &mut Dice, count: usize) -> Vec<u8> {
    let mut bytes = Vec::new();
    for _ in 0..count {
        if dice.one_in(2) {
            bytes.extend(junk(dice));
        }
        bytes.extend(piece(dice));
    }
    if dice.one_in(2) {
        bytes.extend(junk(dice));
    }
    bytes
}

/// A block that ends with the tape, or less than a block behind it.
fn cut(dice: &mut Dice, mut tape: Vec<u8>) -> Vec<u8> {
    tape.extend(Parts::of(&some_draft(dice)).joined());
    let missing = match dice.below(4) {
        0 => dice.between(1, 2),
        1 => dice.between(1, 200),
        _ => dice.below(LEAST_BYTES),
    };
    tape.truncate(tape.len() - missing);
    tape
}

/// Pieces up to a length, with a long span somewhere.
fn long(dice: &mut Dice, length: usize) -> Vec<u8> {
    let mut bytes = Vec::new();
    while bytes.len() < length {
        let rest = length - bytes.len();
        let span = dice.below(rest + 1);
        let more = if dice.one_in(6) { dice.bytes(span) } else { joined(dice, 2) };
        bytes.extend(more);
    }
    bytes.truncate(length);
    bytes
}

/// A block whose start takes more than 16 bits.
fn far_block(dice: &mut Dice) -> Vec<u8> {
    let span = dice.between(65_530, 65_545);
    let mut bytes = long(dice, span);
    bytes.extend(drawn_block(dice));
    bytes
}

/// A tape of any kind.
pub fn tape(dice: &mut Dice) -> Vec<u8> {
    match dice.below(48) {
        0 | 1 => {
            let length = dice.pick(&[0, 89, 90, LEAST_BYTES - 1, LEAST_BYTES]);
            of_length(drawn_block(dice), length)
        }
        2 => {
            let count = dice.between(1, 23);
            crowded(count, dice.one_in(2))
        }
        3 => {
            let length = dice.pick(&[MOST_INPUT, MOST_INPUT, MOST_INPUT, MOST_INPUT + 1]);
            long(dice, length)
        }
        4 if dice.one_in(2) => far_block(dice),
        5..=8 => {
            let tape = joined(dice, 1);
            cut(dice, tape)
        }
        9 => again(&joined(dice, 3)),
        10 => junk(dice),
        _ => {
            let count = dice.pick(&[1, 1, 2, 2, 3]);
            joined(dice, count)
        }
    }
}

/// Rooms as they are asked for, larger, or too small by one or more.
fn lent_rooms(dice: &mut Dice, length: usize) -> [usize; 3] {
    let mut rooms = salvage::rooms(length);
    let one = dice.below(3);
    match dice.below(12) {
        0..=5 => {}
        6 | 7 => rooms[one] = rooms[one].saturating_sub(1),
        8 => rooms[one] = dice.below(rooms[one] + 1),
        9 => rooms = rooms.map(|room| room.saturating_sub(dice.below(2))),
        _ => rooms = rooms.map(|room| room + dice.below(40)),
    }
    rooms
}

/// The tape, with rooms that hold a pattern.
pub fn case_with(dice: &mut Dice, input: Vec<u8>, rooms: [usize; 3]) -> Case {
    let [bytes, numbers, words] = rooms;
    Case::Salvage {
        input,
        recording: dice.pattern(bytes).iter().map(|word| (word >> 5) as u8).collect(),
        report: dice.pattern(numbers).iter().map(|&word| 0x5A_0000 + usize::from(word)).collect(),
        scratch: dice.pattern(words),
        shift: dice.below(8),
    }
}

pub fn case(dice: &mut Dice) -> Case {
    let input = tape(dice);
    let rooms = lent_rooms(dice, input.len());
    case_with(dice, input, rooms)
}
