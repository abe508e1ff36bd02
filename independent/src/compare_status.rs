//! Cases of the Sounder's status, in a run of their own, so that the others stay as they are. Some have names, the rest
//! are drawn.

use std::collections::BTreeSet;

use crate::compare::{compare_case, Case, Tally};
use crate::compare_leaps::{lists_by_length, lists_wrong_at_a_place};
use crate::inputs::{digits, Dice};
use crate::leaps::{clock, number, successive, Date};
use crate::library::Library;
use crate::sounder_blocks::{
    self, detector_of, good_block, put_number, put_suspects, put_tag, tag_of_block, LAST_STATUS_WORD, WORDS,
};
use crate::status::{Detector, BITS, BLOCK_COUNT, EAST, FRAME, RAW_COUNT, TAGS, WEST};
use crate::tags::Tag;

pub fn status_case_of(seed: u64, number: u64) -> Case {
    sounder_blocks::case(&mut Dice::for_case(seed, number))
}

/// Drawn cases.
pub fn compare_status_cases(library: &dyn Library, seed: u64, count: u64, tally: &mut Tally) -> Result<u64, String> {
    for number in 0..count {
        let case = status_case_of(seed, number);
        compare_case(library, &case, tally).map_err(|text| format!("seed {seed}, status, case {number}: {text}"))?;
    }
    Ok(count)
}

// ---- cases with names ----

const LEAP_DAY: Date = (2016, 366);

fn status_of(words: Vec<u16>) -> Case {
    Case::Status { words, leap_days: vec![], shift: 0 }
}

fn suspect_of(words: Vec<u16>, (channel, detector): Detector) -> Case {
    Case::Suspect { words, leap_days: vec![], channel, detector, shift: 0 }
}

/// Both calls for one block and one list. The detector asked for is a suspect one where all are.
fn judged(words: Vec<u16>, leap_days: Vec<u32>) -> [Case; 2] {
    let status = Case::Status { words: words.clone(), leap_days: leap_days.clone(), shift: 1 };
    [status, Case::Suspect { words, leap_days, channel: 4, detector: 2, shift: 1 }]
}

fn with_suspects(places: impl IntoIterator<Item = usize>) -> Vec<u16> {
    let mut words = good_block();
    put_suspects(&mut words, places);
    words
}

/// The good block with all its detectors suspect.
fn suspect_block() -> Vec<u16> {
    with_suspects(0..BITS)
}

fn with_word(number: usize, word: u16) -> Vec<u16> {
    let mut words = good_block();
    words[number - 1] = word;
    words
}

fn with_numbers(numbers: &[(usize, u32)]) -> Vec<u16> {
    let mut words = suspect_block();
    numbers.iter().for_each(|(first, number)| put_number(&mut words, *first, *number));
    words
}

// ---- detectors ----

/// A bit alone, all but one, all from one on and all up to one.
fn bits_by_place() -> Vec<Case> {
    let mut cases = vec![status_of(good_block()), status_of(suspect_block())];
    for place in 0..BITS {
        cases.push(status_of(with_suspects([place])));
        cases.push(status_of(with_suspects((0..BITS).filter(|other| *other != place))));
        cases.push(status_of(with_suspects(place..BITS)));
        cases.push(status_of(with_suspects(0..place)));
    }
    cases
}

/// Every detector asked for where one is suspect, whichever that is.
fn one_suspect_and_one_asked() -> impl Iterator<Item = Case> {
    let pairs = (0..BITS).flat_map(|suspect| (0..BITS).map(move |asked| (suspect, asked)));
    pairs.map(|(suspect, asked)| suspect_of(with_suspects([suspect]), detector_of(asked)))
}

fn two_suspects() -> impl Iterator<Item = Case> {
    let pairs = (0..BITS).flat_map(|one| (one + 1..BITS).map(move |two| [one, two]));
    pairs.map(|pair| status_of(with_suspects(pair)))
}

/// Every byte in every word of the bits; in the last of them most have a spare bit.
fn bytes_of_the_status() -> impl Iterator<Item = Case> {
    (33..=LAST_STATUS_WORD).flat_map(|number| (0..=255).map(move |word| status_of(with_word(number, word))))
}

/// Each choice of the last four bits, with no detector suspect, the last one, and all.
fn spare_bits() -> Vec<Case> {
    let mut cases = Vec::new();
    for spare in 0..16 {
        for mut words in [good_block(), with_suspects([BITS - 1]), suspect_block()] {
            words[LAST_STATUS_WORD - 1] |= spare;
            cases.extend(judged(words, vec![]));
        }
    }
    cases
}

/// Channels and detectors in their bounds and near them, and numbers that are in bounds where they are cut short.
fn numbers_asked() -> Vec<Detector> {
    let near = (0..=40).flat_map(|channel| (0..=12).map(move |detector| (channel, detector)));
    let cut = [255, 256, 65_535, 65_536, 1 << 24, 1 << 31, u32::MAX - 3];
    let far = cut.into_iter().flat_map(|from| (0..=20).map(move |step| from.wrapping_add(step)));
    let far = far.flat_map(|number| [1, 4].map(|good| [(number, good), (good, number)])).flatten();
    near.chain(far).chain([(u32::MAX, u32::MAX), (257, 257), (256, 256), (0, 257), (257, 0)]).collect()
}

fn detectors_asked() -> impl Iterator<Item = Case> {
    let asked = numbers_asked().into_iter();
    asked.flat_map(|asked| [good_block(), suspect_block()].map(|words| suspect_of(words, asked)))
}

// ---- words and their number ----

fn lengths() -> impl Iterator<Item = Case> {
    // The last one is 8,040 where it is cut to two bytes.
    let lengths = [0, 1, 32, 42, 46, 178, 194, 195, 6_432, WORDS - 1, WORDS, WORDS + 1, 8_042, 10_720, 16_080];
    let lengths = lengths.into_iter().chain([65_536 + WORDS]);
    lengths.flat_map(|length| {
        [0, 255, 256].into_iter().flat_map(move |word| {
            let mut words = suspect_block();
            words.resize(length, word);
            judged(words, vec![])
        })
    })
}

/// A word too large at every place in turn, and at some places each bit that is too high.
fn large_words() -> impl Iterator<Item = Case> {
    let ends = [1, 33, 34, 42, 43, 46, 58, 59, 178, 179, 180, 181, 182, 187, 189, 194, 195, WORDS];
    let bits = (8..16).map(|bit| 1 << bit);
    let large: Vec<u16> = bits.chain([255, 257, 264, 511, 65_535]).collect();
    let several = ends.into_iter().flat_map(move |at| {
        let in_a_byte = suspect_block()[at - 1] + 256;
        large.clone().into_iter().chain([in_a_byte]).map(move |word| (at, word))
    });
    let every = (1..=WORDS).map(|at| (at, if at % 2 == 0 { 256 } else { 65_535 }));
    several.chain(every).flat_map(|(at, word)| {
        let mut words = suspect_block();
        words[at - 1] = word;
        judged(words, vec![])
    })
}

/// Every word changed by itself: only what is read from it may change with it.
fn words_changed() -> impl Iterator<Item = Case> {
    (1..=WORDS).map(|number| status_of(with_word(number, (good_block()[number - 1] + 128) % 256)))
}

// ---- numbers of two words ----

/// Numbers about the bounds of every field, about whole high words and about powers of two.
fn two_word_numbers() -> Vec<u32> {
    let bounds = FRAME.iter().flat_map(|(_, least, most)| [*least, *most]);
    let counts = [132, 523, 1_434, 5_736];
    let whole = (0..=8).map(|high| 256 * high);
    let powers = (0..=16).map(|power| 1 << power);
    let about = |number: u32| number.saturating_sub(2)..=(number + 2).min(65_535);
    let about = bounds.chain(counts).chain(whole).chain(powers).flat_map(about);
    let numbers: BTreeSet<u32> = about.collect();
    numbers.into_iter().collect()
}

fn counts() -> impl Iterator<Item = Case> {
    let numbers = two_word_numbers().into_iter();
    numbers.flat_map(|number| [RAW_COUNT, BLOCK_COUNT].map(|first| status_of(with_numbers(&[(first, number)]))))
}

/// Each field by itself, beside pixels that are as far apart as they can be.
fn frame_fields() -> impl Iterator<Item = Case> {
    let fields =
        FRAME.into_iter().flat_map(|(first, ..)| two_word_numbers().into_iter().map(move |number| (first, number)));
    fields.flat_map(|field| judged(with_numbers(&[(WEST, 1), (EAST, 1_758), field]), vec![]))
}

fn pixels() -> impl Iterator<Item = Case> {
    let numbers = [0, 1, 2, 4, 5, 6, 255, 256, 257, 511, 512, 1_024, 1_753, 1_754, 1_755, 1_757, 1_758, 1_759, 65_535];
    let pairs = numbers.into_iter().flat_map(move |west| numbers.map(|east| (west, east)));
    pairs.flat_map(|(west, east)| judged(with_numbers(&[(WEST, west), (EAST, east)]), vec![]))
}

/// The lines of the scan and of the frame, which nobody sets against one another.
fn lines() -> impl Iterator<Item = Case> {
    let numbers = [4, 5, 256, 700, 1_578, 1_579];
    let pairs = numbers.into_iter().flat_map(move |north| numbers.map(|south| (north, south)));
    let frames = pairs.flat_map(move |(north, south)| numbers.map(|scan| [(185, scan), (191, north), (193, south)]));
    frames.map(|frame| status_of(with_numbers(&frame)))
}

/// Every choice of fields out of their ranges, too low or too high.
fn several_fields_out() -> impl Iterator<Item = Case> {
    let choices = (0..1 << FRAME.len()).flat_map(|choice| [false, true].map(|high| (choice, high)));
    choices.flat_map(|(choice, high)| {
        let chosen = FRAME.into_iter().enumerate().filter(move |(place, _)| choice >> place & 1 == 1);
        let out = chosen.map(|(_, (first, least, most))| (first, if high { most + 1 } else { least - 1 }));
        judged(with_numbers(&out.collect::<Vec<_>>()), vec![])
    })
}

/// Pixels that are crossed, and another field out of its range.
fn crossed_and_another() -> impl Iterator<Item = Case> {
    let crossed = [(WEST, 700), (EAST, 699)];
    FRAME.into_iter().flat_map(move |(first, least, most)| {
        [least - 1, most + 1].into_iter().flat_map(move |number| {
            let fields = [&crossed[..], &[(first, number)]].concat();
            judged(with_numbers(&fields), vec![])
        })
    })
}

// ---- tags and their list ----

fn with_tag(tag: usize, bytes: &[u8; 8]) -> Vec<u16> {
    let mut words = suspect_block();
    put_tag(&mut words, tag, bytes);
    words
}

/// Eight bytes that are no tag: without digits, and with each number of it out of its bounds.
fn bad_tags(good: &Tag) -> Vec<[u8; 8]> {
    let spelt = [
        Tag { day: 0, ..*good },
        Tag { year: 2007, day: 366, ..*good },
        Tag { day: 367, ..*good },
        Tag { hour: 24, ..*good },
        Tag { minute: 60, ..*good },
        Tag { second: 60, ..*good },
        Tag { hour: 23, minute: 59, second: 60, ..*good },
        Tag { second: 61, ..*good },
    ];
    [[0; 8], [0xFF; 8]].into_iter().chain(spelt.iter().map(digits)).collect()
}

/// Each digit of a tag in turn made 9, which may be too large there, and two that are no digits.
fn other_digits(good: &Tag) -> impl Iterator<Item = [u8; 8]> {
    let good = digits(good);
    (0..16).flat_map(move |nibble| {
        [9, 10, 15].map(|digit| {
            let shift = 4 * (1 - nibble % 2);
            let mut bytes = good;
            bytes[nibble / 2] = bytes[nibble / 2] & !(15 << shift) | digit << shift;
            bytes
        })
    })
}

fn one_bad_tag() -> impl Iterator<Item = Case> {
    (0..TAGS).flat_map(|tag| {
        let good = tag_of_block(tag);
        let bad = bad_tags(&good).into_iter().chain(other_digits(&good));
        bad.flat_map(move |bytes| judged(with_tag(tag, &bytes), vec![]))
    })
}

/// One tag good and all the others bad, and all of them bad.
fn one_good_tag() -> impl Iterator<Item = Case> {
    (0..=TAGS).flat_map(|kept| {
        let mut words = suspect_block();
        (0..TAGS).filter(|tag| *tag != kept).for_each(|tag| put_tag(&mut words, tag, &[0xFF; 8]));
        judged(words, vec![])
    })
}

/// The leap second and its neighbours, and second 60 of another minute and another hour.
fn about_the_leap_second() -> Vec<Tag> {
    let leap_second = clock(LEAP_DAY, 23, 59, 60);
    let ends = Tag { millisecond: 999, ..leap_second };
    let others = [(23, 59, 59), (23, 59, 61), (23, 58, 60), (22, 59, 60)];
    let others = others.map(|(hour, minute, second)| clock(LEAP_DAY, hour, minute, second));
    [leap_second, ends].into_iter().chain(others).collect()
}

/// Each of them as each tag, by lists that have the day, its neighbours or none.
fn leap_second_tags() -> impl Iterator<Item = Case> {
    let lists = [vec![], vec![number(LEAP_DAY)], vec![2_016_365, 2_017_001], successive((2016, 365), 3)];
    let tags = (0..TAGS).flat_map(|tag| about_the_leap_second().into_iter().map(move |lent| (tag, digits(&lent))));
    tags.flat_map(move |(tag, bytes)| {
        let lists = lists.clone().into_iter();
        lists.flat_map(move |leap_days| judged(with_tag(tag, &bytes), leap_days))
    })
}

/// Lists that are judged, with the leap second of one day among the tags.
fn lists() -> impl Iterator<Item = Case> {
    let words = with_tag(7, &digits(&clock(LEAP_DAY, 23, 59, 60)));
    // The last but one is the day where its year is kept in 16 bits.
    let lone = [0, 1, 366, 367, 2_015_366, 9_999_365, 9_999_366, 10_000_001, 67_552_366, u32::MAX].map(|day| vec![day]);
    let lists = lists_by_length().chain(lists_wrong_at_a_place()).chain(lone);
    lists.flat_map(move |list| judged(words.clone(), list))
}

// ---- several grounds at once ----

/// A block with these grounds of refusal: length, a word, a spare bit, a frame field.
fn spoilt(grounds: u32, field: usize, at: usize) -> Vec<u16> {
    let has = |ground: u32| grounds >> ground & 1 == 1;
    let (first, _, most) = FRAME[field];
    let mut words = if has(3) { with_numbers(&[(first, most + 1)]) } else { suspect_block() };
    if has(2) {
        words[LAST_STATUS_WORD - 1] |= 8;
    }
    if has(1) {
        words[at - 1] += 256;
    }
    if has(0) {
        words.pop();
    }
    words
}

/// Every choice among the six grounds, with every frame field and a word too large at several places.
fn grounds_together() -> Vec<Case> {
    let mut cases = Vec::new();
    for grounds in 0..64 {
        let leap_days = if grounds & 16 == 0 { vec![2_016_366] } else { vec![2_016_366, 2_016_366] };
        let asked: &[Detector] = if grounds & 32 == 0 { &[(19, 4)] } else { &[(20, 4), (19, 5), (0, 0), (257, 1)] };
        for (field, at) in (0..FRAME.len()).zip([1, 33, 42, 181, 194, 195, 8_039]) {
            let words = spoilt(grounds, field, at);
            for (channel, detector) in asked.iter().copied() {
                let (words, leap_days) = (words.clone(), leap_days.clone());
                cases.push(Case::Suspect { words, leap_days, channel, detector, shift: 0 });
            }
            cases.push(Case::Status { words, leap_days: leap_days.clone(), shift: 0 });
        }
    }
    cases
}

/// Every case with a name, the short runs first.
pub fn compare_named_statuses(library: &dyn Library, tally: &mut Tally) -> Result<u64, String> {
    let short = [bits_by_place(), spare_bits(), grounds_together()].concat().into_iter();
    let numbers = counts().chain(pixels()).chain(lines()).chain(several_fields_out()).chain(crossed_and_another());
    let tags = one_good_tag().chain(leap_second_tags()).chain(one_bad_tag()).chain(lists());
    let words = lengths().chain(detectors_asked()).chain(frame_fields()).chain(bytes_of_the_status());
    let long = one_suspect_and_one_asked().chain(two_suspects()).chain(words_changed()).chain(large_words());
    let mut compared = 0;
    for case in short.chain(numbers).chain(tags).chain(words).chain(long) {
        compare_case(library, &case, tally).map_err(|text| format!("status, named case {compared}: {text}"))?;
        compared += 1;
    }
    Ok(compared)
}

pub fn compare_statuses(library: &dyn Library, seed: u64, count: u64, tally: &mut Tally) -> Result<u64, String> {
    Ok(compare_named_statuses(library, tally)? + compare_status_cases(library, seed, count, tally)?)
}
