//! agree SEED COUNT: the three baselines against the model, with tags, leap days and fill blocks too, and against the
//! library on Sounder documentation blocks; and plain C's search for blocks against the library's.

use bench::agree_tags::Compared;
use bench::search::{Rooms, LIBRARY, PLAIN};
use bench::{agree_sounder, tags, Way, BASELINES};
use independent::compare::{case_of, Case};
use independent::compare_fills::fill_case_of;
use independent::compare_leaps::leap_case_of;
use independent::header::sealed;
use independent::inputs::{draft, Dice};
use independent::library::{Library, Model};
use independent::{block, check, document, rows, words};

fn check_word(baseline: &Way, bytes: &[u8]) {
    let got = unsafe { (baseline.check)(bytes.as_ptr(), bytes.len()) };
    assert_eq!(got, check::check_word(bytes), "{} check {bytes:02X?}", baseline.name);
}

fn reading(baseline: &Way, block: &[u8], room: &[u16]) -> usize {
    let mut expected = room.to_vec();
    let answer = Model.read(block, &mut expected);
    let header = if answer.number == 0 { answer.header } else { [0xC3; 28] };
    let mut after = room.to_vec();
    let mut got = [0xC3; 28];
    let number =
        unsafe { (baseline.read)(block.as_ptr(), block.len(), after.as_mut_ptr(), after.len(), got.as_mut_ptr()) };
    assert_eq!(number, answer.number as usize, "{} read {block:02X?}", baseline.name);
    assert!(after == expected && got == header, "{} read {block:02X?}", baseline.name);
    number
}

fn writing(baseline: &Way, header: &[u8], words: &[u16], dest: &[u8]) {
    let mut expected = dest.to_vec();
    let (answer, _) = Model.write(header, words, &mut expected);
    let mut after = dest.to_vec();
    let (h, w, d) = (header.as_ptr(), words.as_ptr(), after.as_mut_ptr());
    let number = unsafe { (baseline.write)(h, header.len(), w, words.len(), d, after.len()) };
    assert_eq!(number, answer as usize, "{} write {header:02X?} {words:04X?}", baseline.name);
    assert!(after == expected, "{} write {header:02X?} {words:04X?}", baseline.name);
}

/// Fields with and without fill, and counts that leave a rest of one to three.
fn packing(baseline: &Way, dice: &mut Dice) {
    let size = dice.pick(&[6, 8, 10]);
    let count = dice.below(60);
    let data: Vec<u16> = (0..count).map(|_| dice.below(1 << size) as u16).collect();
    let length = (size * count).div_ceil(8) + dice.below(7);
    let field = words::pack(&data, size, length);
    let mut got = vec![0xEE; length];
    unsafe { (baseline.pack)(data.as_ptr(), count, size, got.as_mut_ptr(), length) };
    assert_eq!(got, field, "{} pack {size} {data:04X?}", baseline.name);
    let mut room = vec![0xEEEE; count];
    unsafe { (baseline.unpack)(field.as_ptr(), length, size, room.as_mut_ptr(), count) };
    assert_eq!(room, data, "{} unpack {size} {field:02X?}", baseline.name);
}

/// A block of dice. Of its copies some are those of another header, which pass, or altered; so is a byte of its field.
fn damaged(dice: &mut Dice) -> Vec<u8> {
    let sound = draft(dice);
    let mut bytes = vec![0; 92 + rows::field_bits(sound.block, sound.words.len()) / 8];
    assert_eq!(block::write(&sound.header, &sound.words, &mut bytes), (0, bytes.len()));
    for copy in 0..3 {
        match dice.below(8) {
            0 => bytes[30 * copy..30 * (copy + 1)].copy_from_slice(&sealed(&draft(dice).header)),
            1..=3 => bytes[30 * copy + dice.below(30)] ^= dice.between(1, 255) as u8,
            _ => {}
        }
    }
    if dice.one_in(8) {
        let at = dice.between(90, bytes.len() - 1);
        bytes[at] ^= dice.between(1, 255) as u8;
    }
    bytes
}

/// A longest block whose field has another one in it, where that is short enough.
fn around(dice: &mut Dice, inner: &[u8]) -> Vec<u8> {
    let mut field = dice.bytes(rows::field_bits(1, rows::LARGEST_C) / 8);
    if inner.len() <= field.len() {
        let at = dice.between(0, field.len() - inner.len());
        field[at..at + inner.len()].copy_from_slice(inner);
    }
    let copies = [sealed(&document::header(1, 10, 2, rows::LARGEST_C as u16)); 3];
    [&copies.concat()[..], &field, &check::check_bytes(&field)].concat()
}

/// Blocks with junk between them, random or copies that pass, or cut at the end; in rooms that may be one too small.
fn salvaging(dice: &mut Dice) -> Rooms {
    let mut input = vec![];
    for _ in 0..dice.below(4) {
        let junk = dice.below(400);
        match dice.below(4) {
            0 => input.extend(dice.bytes(junk)),
            1 => input.extend(sealed(&draft(dice).header).into_iter().cycle().take(junk)),
            _ => {}
        }
        let block = damaged(dice);
        input.extend(if dice.one_in(8) { around(dice, &block) } else { block });
    }
    if dice.one_in(4) {
        input.truncate(dice.below(input.len() + 1));
    }
    let mut found = Rooms::new(input.len() + dice.pick(&[0, 0, 5_000]));
    match dice.below(16) {
        0 => drop(found.recording.pop()),
        1 => drop(found.report.pop()),
        2 => drop(found.scratch.pop()),
        _ => {}
    }
    let mut other = found.clone();
    found.search(&LIBRARY, &input);
    other.search(&PLAIN, &input);
    assert!(found == other, "{} salvage {input:02X?}", PLAIN.name);
    found
}

/// Tags, elapsed time and offers, with lists of leap days good and bad, and with blocks of fill.
fn tagging(seed: u64, count: u64) -> Compared {
    let mut compared = Compared::default();
    for case in (0..count).flat_map(|number| [leap_case_of(seed, number), fill_case_of(seed, number)]) {
        for way in &tags::BASELINES {
            compared.compare(way, &case);
        }
    }
    compared
}

/// Sounder documentation blocks, good and bad, with lists of leap days good and bad.
fn judging(seed: u64, count: u64) -> agree_sounder::Compared {
    let mut compared = agree_sounder::Compared::default();
    for number in 0..count {
        compared.compare(&mut Dice::for_case(!seed, number));
    }
    compared
}

fn main() {
    let numbers: Vec<u64> = std::env::args().skip(1).filter_map(|text| text.parse().ok()).collect();
    let [seed, count] = numbers[..] else {
        eprintln!("usage: agree SEED COUNT");
        std::process::exit(2);
    };
    let mut runs = [0; 5];
    let mut searches = [0; 3];
    let tagged = tagging(seed, count);
    let judged = judging(seed, count);
    for number in 0..count {
        let case = case_of(seed, number);
        let mut dice = Dice::for_case(!seed, number);
        let sound = draft(&mut dice);
        let room = 92 + rows::field_bits(sound.block, sound.words.len()) / 8;
        for baseline in &BASELINES {
            match &case {
                Case::CheckWord { bytes } => {
                    check_word(baseline, bytes);
                    runs[0] += 1;
                }
                Case::Read { block, room, .. } => {
                    let number = reading(baseline, block, room);
                    runs[1] += 1;
                    runs[2] += (number == 0) as u64;
                }
                Case::Write { header, words, dest, .. } => {
                    writing(baseline, header, words, dest);
                    runs[3] += 1;
                }
                _ => packing(baseline, &mut dice),
            }
            if number % 16 == 0 {
                writing(baseline, &sound.header, &sound.words, &vec![0x5A; room + 3]);
                runs[3] += 1;
            }
        }
        if number % 16 == 0 {
            let found = salvaging(&mut dice);
            searches[0] += 1;
            searches[1] += (found.answer == 0) as u64;
            searches[2] += found.blocks as u64;
        }
        if !matches!(case, Case::CheckWord { .. } | Case::Read { .. } | Case::Write { .. }) {
            runs[4] += BASELINES.len() as u64;
        }
    }
    let [checks, reads, accepted, writes, packs] = runs;
    let [searches, salvaged, blocks] = searches;
    println!(
        "{} baselines agree with the model: {checks} check words, {reads} reads ({accepted} accepted), \
         {writes} writes, {packs} packings, {} calls on tags ({} with a bad list of leap days, {} with a bad set of fill \
         blocks, {} refused for something else, {} that close a scan with fill in it); with the library on {} Sounder \
         documentation blocks ({} accepted, {} with a frame field out of range); and plain C's search with the library's: \
         {searches} inputs ({salvaged} accepted, {blocks} blocks)",
        BASELINES.len(),
        tagged.calls,
        tagged.bad_list,
        tagged.bad_fill,
        tagged.refused,
        tagged.closed_with_fill,
        judged.blocks,
        judged.accepted,
        judged.out_of_range
    );
}
