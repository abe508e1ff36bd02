//! The Sounder's status with the answers that the scope and Table 3-10 print: the detectors, the ranges of the frame
//! fields, the tags, and the refusals in their order. Nothing here asks the model.

use crate::document::{bad_lists, clock, Findings, LEAP_DAY};
use crate::inputs::digits;
use crate::library::{Library, StatusAnswer, SuspectAnswer};
use crate::sounder_blocks::{good_block, put_frame, put_number, put_tag, tag_of_block};
use crate::status::Detector;
use crate::tags::Tag;

pub fn status(library: &dyn Library, found: &mut Findings) {
    suspect_detectors(library, found);
    every_detector(library, found);
    counts(library, found);
    ranges(library, found);
    west_and_east(library, found);
    north_and_south(library, found);
    tags(library, found);
    leap_second_tags(library, found);
    words(library, found);
    refusals_in_order(library, found);
    numbers_asked(library, found);
    lists(library, found);
}

/// Words, each by its number.
type Numbered = [(usize, u16)];

/// The good block with these words in the place of its own.
fn with_words(numbered: &Numbered) -> Vec<u16> {
    let mut words = good_block();
    numbered.iter().for_each(|(number, word)| words[number - 1] = *word);
    words
}

/// The same with every detector suspect.
fn all_suspect() -> Vec<u16> {
    let mut words = good_block();
    words[32..41].fill(0xFF);
    words[41] = 0xF0;
    words
}

fn with_frame(frame: [u32; 7]) -> Vec<u16> {
    let mut words = good_block();
    put_frame(&mut words, &frame);
    words
}

/// What the good block says, with so many suspect detectors and this one as the first.
fn answer(suspects: u32, first: Detector) -> StatusAnswer {
    StatusAnswer {
        number: 0,
        word: 0,
        suspects,
        first,
        raw_count: 263,
        block_count: 25,
        frame: [12, 300, 500, 700, 1_300, 350, 600],
        tags: std::array::from_fn(|tag| (0, tag_of_block(tag))),
    }
}

fn said(suspect: bool) -> SuspectAnswer {
    SuspectAnswer { number: 0, word: 0, suspect }
}

/// Both calls refuse a block alike.
fn refused(library: &dyn Library, found: &mut Findings, what: &str, words: &[u16], list: &[u32], refusal: (u8, u32)) {
    let (number, word) = refusal;
    found.expect(what, library.sounder_status(words, list), StatusAnswer::refused(number, word));
    let suspect = library.sounder_suspect(words, list, 1, 1);
    found.expect(&format!("{what}, asked"), suspect, SuspectAnswer::refused(number, word));
}

/// Number and word of a refusal, or zeros.
fn judged(library: &dyn Library, words: &[u16]) -> (u8, u32) {
    let answer = library.sounder_status(words, &[]);
    (answer.number, answer.word)
}

fn suspect_detectors(library: &dyn Library, found: &mut Findings) {
    let rows: [(&Numbered, u32, Detector); 12] = [
        (&[], 0, (0, 0)),
        (&[(33, 0x80)], 1, (1, 1)),
        (&[(33, 0x40)], 1, (1, 2)),
        (&[(33, 0x10)], 1, (1, 4)),
        (&[(33, 0x08)], 1, (2, 1)),
        (&[(33, 0x01)], 1, (2, 4)),
        (&[(34, 0x80)], 1, (3, 1)),
        (&[(41, 0x01)], 1, (18, 4)),
        (&[(42, 0x10)], 1, (19, 4)),
        (&[(42, 0xF0)], 4, (19, 1)),
        (&[(33, 0x01), (42, 0x80)], 2, (2, 4)),
        (&[(34, 0x04), (41, 0x02), (42, 0x10)], 3, (4, 2)),
    ];
    for (status, suspects, first) in rows {
        let words = with_words(status);
        let what = format!("words {status:?}");
        found.expect(&what, library.sounder_status(&words, &[]), answer(suspects, first));
        let asked = |channel, detector| library.sounder_suspect(&words, &[], channel, detector);
        for (channel, detector) in [(1, 1), (1, 2), (1, 4), (2, 1), (2, 4), (3, 1), (18, 4), (19, 4)] {
            // Of one detector alone the first says all.
            if suspects < 2 {
                let what = format!("{what}, channel {channel}, detector {detector}");
                found.expect(&what, asked(channel, detector), said((channel, detector) == first));
            }
        }
    }
    found.expect("all suspect", library.sounder_status(&all_suspect(), &[]), answer(76, (1, 1)));
    for spare in [0x08, 0x04, 0x02, 0x01, 0x0F, 0xFF, 0x18] {
        refused(library, found, &format!("word 42 = {spare:02X}"), &with_words(&[(42, spare)]), &[], (21, 0));
    }
}

/// Channel 1, detector 1 has the first bit, then detector 2, and so on to channel 19, detector 4.
fn every_detector(library: &dyn Library, found: &mut Findings) {
    let (mut word, mut bit) = (33, 0x80);
    for channel in 1..=19 {
        for detector in 1..=4 {
            let words = with_words(&[(word, bit)]);
            let what = format!("channel {channel}, detector {detector} suspect");
            found.expect(&what, library.sounder_status(&words, &[]), answer(1, (channel, detector)));
            let own = library.sounder_suspect(&words, &[], channel, detector);
            found.expect(&format!("{what}, asked"), own, said(true));
            let next = if detector < 4 { detector + 1 } else { 1 };
            let other = library.sounder_suspect(&words, &[], channel, next);
            found.expect(&format!("{what}, another asked"), other, said(false));
            (word, bit) = if bit == 1 { (word + 1, 0x80) } else { (word, bit / 2) };
        }
    }
}

/// High word first, and any number is given as it stands.
fn counts(library: &dyn Library, found: &mut Findings) {
    let rows = [(1, 7, 263), (0, 25, 25), (0, 0, 0), (0, 255, 255), (255, 0, 65_280), (255, 255, 65_535)];
    for (high, low, count) in rows {
        let raw = library.sounder_status(&with_words(&[(43, high), (44, low)]), &[]);
        found.expect("raw count", raw, StatusAnswer { raw_count: count, ..answer(0, (0, 0)) });
        let blocks = library.sounder_status(&with_words(&[(45, high), (46, low)]), &[]);
        found.expect("block count", blocks, StatusAnswer { block_count: count, ..answer(0, (0, 0)) });
    }
}

/// Words, least and most of the frame fields, as Table 3-10 prints them.
const RANGES: [(usize, u32, u32); 7] =
    [(181, 1, 396), (183, 1, 396), (185, 1, 1579), (187, 1, 1754), (189, 5, 1758), (191, 1, 1579), (193, 4, 1582)];

fn ranges(library: &dyn Library, found: &mut Findings) {
    // From the western edge to the eastern one, so that no pixel is above the other.
    let widest = [1, 1, 1, 1, 1_758, 1, 1_582];
    for (place, (first, least, most)) in RANGES.into_iter().enumerate() {
        let frame_of = |number: u32| {
            let mut frame = widest;
            frame[place] = number;
            frame
        };
        for number in [least, least + 1, most - 1, most] {
            let frame = frame_of(number);
            let wanted = StatusAnswer { frame, ..answer(0, (0, 0)) };
            found.expect(&format!("word {first}, {number}"), library.sounder_status(&with_frame(frame), &[]), wanted);
        }
        for number in [0, least - 1, most + 1, 65_535] {
            let words = with_frame(frame_of(number));
            refused(library, found, &format!("word {first}, {number}"), &words, &[], (22, first as u32));
        }
    }
    // Of several fields the lowest is named.
    for (place, (first, ..)) in RANGES.into_iter().enumerate() {
        let mut frame = widest;
        frame[place..].fill(0);
        refused(library, found, &format!("all from word {first} on"), &with_frame(frame), &[], (22, first as u32));
    }
}

fn west_and_east(library: &dyn Library, found: &mut Findings) {
    let rows = [
        (5, 5, (0, 0)),
        (700, 700, (0, 0)),
        (1_754, 1_754, (0, 0)),
        (1, 1_758, (0, 0)),
        (6, 5, (22, 189)),
        (701, 700, (22, 189)),
        (1_754, 1_753, (22, 189)),
        (256, 255, (22, 189)),
        (255, 256, (0, 0)),
        (1_200, 600, (22, 189)),
        (4, 4, (22, 189)),
        (1_755, 1_754, (22, 187)),
        (1_758, 1_758, (22, 187)),
        (0, 5, (22, 187)),
    ];
    for (west, east, wanted) in rows {
        let words = with_frame([12, 300, 500, west, east, 350, 600]);
        found.expect(&format!("west {west}, east {east}"), judged(library, &words), wanted);
    }
    // A field in front of them is named first, and they are named before one behind them.
    for (frame, wanted) in [([397, 1, 1, 701, 700, 1, 4], 181), ([1, 1, 1, 701, 700, 1_580, 3], 189)] {
        found.expect("crossed, and another", judged(library, &with_frame(frame)), (22, wanted));
    }
}

/// Nothing is asked of lines beside each other.
fn north_and_south(library: &dyn Library, found: &mut Findings) {
    for (scan, north, south) in [(1, 1_579, 4), (1_579, 1, 1_582), (500, 600, 600), (700, 600, 500), (1, 600, 700)] {
        let words = with_frame([12, 300, scan, 700, 1_300, north, south]);
        found.expect(&format!("lines {scan}, {north}, {south}"), judged(library, &words), (0, 0));
    }
}

/// A bad tag refuses itself and nothing else.
fn tags(library: &dyn Library, found: &mut Findings) {
    let bad = [[0; 8], [0xFF; 8], digits(&clock(2007, 366, 0, 0, 0, 0)), digits(&clock(2008, 61, 24, 0, 0, 0))];
    for tag in 0..15 {
        for bytes in bad {
            let mut words = with_words(&[(33, 0x80)]);
            put_tag(&mut words, tag, &bytes);
            let mut wanted = answer(1, (1, 1));
            wanted.tags[tag] = (12, Tag::default());
            let what = format!("tag {tag}, {bytes:02X?}");
            found.expect(&what, library.sounder_status(&words, &[]), wanted);
            found.expect(&format!("{what}, asked"), library.sounder_suspect(&words, &[], 1, 1), said(true));
        }
    }
    let mut none = good_block();
    (0..15).for_each(|tag| put_tag(&mut none, tag, &[0; 8]));
    let wanted = StatusAnswer { tags: [(12, Tag::default()); 15], ..answer(0, (0, 0)) };
    found.expect("no good tag", library.sounder_status(&none, &[]), wanted);
    // Words 67 to 74 are the second tag; the first bit of its third word is the mark.
    let mut words = good_block();
    words[66..74].copy_from_slice(&[0x20, 0x08, 0x86, 0x02, 0x35, 0x95, 0x99, 0x99]);
    let mut wanted = answer(0, (0, 0));
    wanted.tags[1] = (0, Tag { flywheel: true, ..clock(2008, 60, 23, 59, 59, 999) });
    found.expect("a tag by its words", library.sounder_status(&words, &[]), wanted);
}

fn leap_second_tags(library: &dyn Library, found: &mut Findings) {
    let (leap_second, none) = (clock(2016, 366, 23, 59, 60, 0), Tag::default());
    let rows = [(&[LEAP_DAY][..], (0, leap_second)), (&[], (12, none)), (&[2_016_365], (12, none))];
    for tag in [0, 7, 14] {
        let mut words = good_block();
        put_tag(&mut words, tag, &digits(&leap_second));
        for (list, said) in rows {
            let mut wanted = answer(0, (0, 0));
            wanted.tags[tag] = said;
            found.expect(&format!("tag {tag} in second 60, {list:?}"), library.sounder_status(&words, list), wanted);
        }
    }
}

/// 8,040 words of eight bits each.
fn words(library: &dyn Library, found: &mut Findings) {
    let good = good_block();
    for length in [0, 1, 194, 8_039, 8_041, 16_080] {
        let mut words = good.clone();
        words.resize(length, 0);
        refused(library, found, &format!("{length} words"), &words, &[], (8, 0));
    }
    for number in [1, 33, 42, 43, 58, 59, 178, 181, 194, 195, 4_000, 8_040] {
        for word in [256, 257, 65_535] {
            let words = with_words(&[(number, word)]);
            refused(library, found, &format!("word {number} = {word}"), &words, &[], (14, 0));
        }
    }
    // Words that nothing is read from may have any eight bits.
    for number in [1, 30, 31, 32, 47, 58, 179, 180, 195, 8_040] {
        for word in [0, 255] {
            let words = with_words(&[(number, word)]);
            found.expect(&format!("word {number} = {word}"), library.sounder_status(&words, &[]), answer(0, (0, 0)));
        }
    }
}

/// A block, a list and a detector with every ground for refusal; each one answered is mended.
fn refusals_in_order(library: &dyn Library, found: &mut Findings) {
    let mut words = with_frame([0, 397, 1_580, 1_755, 1_759, 0, 3]);
    words[8_040 - 1] = 256;
    words[42 - 1] = 0x18;
    words.push(0);
    let (mut list, mut asked) = (vec![LEAP_DAY, LEAP_DAY], (20, 5));
    let fields = [181, 183, 185, 187, 189, 191, 193].map(|word| (22, word));
    for (number, word) in [(8, 0), (14, 0), (21, 0)].into_iter().chain(fields).chain([(19, 0), (13, 0), (13, 0)]) {
        let wanted = if number == 13 { answer(1, (19, 4)) } else { StatusAnswer::refused(number, word) };
        let what = format!("refusals in their order, {number}");
        found.expect(&what, library.sounder_status(&words, &list), wanted);
        let suspect = library.sounder_suspect(&words, &list, asked.0, asked.1);
        found.expect(&format!("{what}, asked"), suspect, SuspectAnswer::refused(number, word));
        match (number, word) {
            (8, _) => words.truncate(8_040),
            (14, _) => words[8_040 - 1] = 255,
            (21, _) => words[42 - 1] = 0x10,
            (22, first) => {
                let good = [12, 300, 500, 700, 1_300, 350, 600][(first as usize - 181) / 2];
                put_number(&mut words, first as usize, good);
            }
            (19, _) => list = vec![LEAP_DAY],
            _ if asked.0 == 20 => asked.0 = 19,
            _ => asked.1 = 4,
        }
    }
    found.expect("all mended", library.sounder_suspect(&words, &list, asked.0, asked.1), said(true));
}

/// Channels 1 to 19 and detectors 1 to 4, no number cut to fit.
fn numbers_asked(library: &dyn Library, found: &mut Findings) {
    for words in [good_block(), all_suspect()] {
        for channel in [0, 20, 21, 255, 256, 257, 275, 65_536, 65_537, u32::MAX] {
            for detector in [0, 1, 4, 5] {
                let suspect = library.sounder_suspect(&words, &[], channel, detector);
                found.expect(&format!("channel {channel}"), suspect, SuspectAnswer::refused(13, 0));
            }
        }
        for detector in [0, 5, 6, 20, 255, 256, 257, 260, 65_536, 65_537, u32::MAX] {
            for channel in [1, 4, 18, 19] {
                let suspect = library.sounder_suspect(&words, &[], channel, detector);
                found.expect(&format!("detector {detector}"), suspect, SuspectAnswer::refused(13, 0));
            }
        }
    }
}

/// A list is judged even where no tag is in a leap second, or where a tag is bad.
fn lists(library: &dyn Library, found: &mut Findings) {
    let mut bad_tags = good_block();
    (0..15).for_each(|tag| put_tag(&mut bad_tags, tag, &[0xFF; 8]));
    for list in bad_lists() {
        for words in [&good_block(), &bad_tags] {
            let what = format!("list of {} from {:?} on", list.len(), list.first());
            refused(library, found, &what, words, &list, (19, 0));
        }
    }
}
