//! Libraries that are wrong on purpose about the Sounder's status, one fault each. By any other name they answer as the
//! model does, put together from its parts; a fault in what is made of leap days shows in the tags and in their list.

use std::borrow::Cow;

use crate::library::{StatusAnswer, SuspectAnswer};
use crate::sounder_blocks::WORDS;
use crate::status::{self, detectors, Detector, Refusal, BITS, BLOCK_COUNT, EAST, FRAME, RAW_COUNT, TAGS, WEST};
use crate::tags::{spelt, LeapDays, Tag};
use crate::wrong_leaps;

/// Those that show in either call come first, then those of a judged block, and last those of a detector asked for.
pub const STATUS_FAULTS: [&str; 145] = [
    // which bit is whose
    "takes the last bit of a word first",
    "takes the last word of the status first",
    "takes the status from its last bit on",
    "takes the status from its last detector on",
    "takes the detectors of a channel from the last on",
    "takes detectors before channels",
    "takes the status a word early",
    "takes the status a word late",
    "takes the first 64 bits only",
    // the spare bits
    "overlooks the spare bits",
    "overlooks the first spare bit",
    "overlooks the last spare bit",
    "tests one spare bit only",
    "takes the last detector's bit as spare",
    "takes the first four bits of word 42 as spare",
    "counts the spare bits",
    // the bounds of the frame fields
    "takes field 181 from 0",
    "takes field 181 from 2",
    "takes field 181 up to 395",
    "takes field 181 up to 397",
    "takes field 183 from 0",
    "takes field 183 from 2",
    "takes field 183 up to 395",
    "takes field 183 up to 397",
    "takes field 185 from 0",
    "takes field 185 from 2",
    "takes field 185 up to 1578",
    "takes field 185 up to 1580",
    "takes field 187 from 0",
    "takes field 187 from 2",
    "takes field 187 up to 1753",
    "takes field 187 up to 1755",
    "takes field 189 from 4",
    "takes field 189 from 6",
    "takes field 189 up to 1757",
    "takes field 189 up to 1759",
    "takes field 191 from 0",
    "takes field 191 from 2",
    "takes field 191 up to 1578",
    "takes field 191 up to 1580",
    "takes field 193 from 3",
    "takes field 193 from 5",
    "takes field 193 up to 1581",
    "takes field 193 up to 1583",
    // west and east, north and south
    "refuses a west equal to its east",
    "lets a west above its east in",
    "names the west for a west above its east",
    "names the east for a west out of its range above its east",
    "tests a west above its east before the other fields",
    "tests a west above its east behind the other fields",
    "sets the low words of west and east against each other",
    "refuses a north below its south",
    "refuses a north above its south",
    "refuses a scan north of its frame",
    // which field is named, and which are tested
    "names the second word of a field",
    "names a field by its place",
    "names a word counted from 0",
    "names no word",
    "names the highest field out of its range",
    "tests the first field only",
    "tests the first three fields only",
    "overlooks the last field",
    "tests the raw count for its range",
    "tests the block count for its range",
    "exchanges high and low in the frame",
    "takes the low word of a frame field alone",
    "reads the frame a word early",
    "reads the frame a word late",
    // words and their number
    "masks the words of a status",
    "tests the words that are read only",
    "tests no word behind the frame",
    "overlooks the first word",
    "overlooks the last word",
    "takes a word of 256 as good",
    "takes a word of 255 as too large",
    "takes a word more",
    "takes a word less",
    "takes fewer words where what is read is there",
    "takes any longer block",
    "keeps the length in two bytes",
    // the list
    "forgives a bad list",
    "tests the list only where a tag is in second 60",
    // the order of the refusals
    "tests 14 before 8 in a status",
    "tests 21 before 8",
    "tests 21 before 14",
    "tests 22 before 14",
    "tests 22 before 21",
    "tests 19 before 8",
    "tests 19 before 21",
    "tests 19 before 22",
    "refuses all for a bad tag",
    "refuses all for a bad first tag",
    "names the word with 14",
    "names word 42 with 21",
    "names the word of a good field with 19",
    // of a judged block: the count and the first
    "counts the suspect channels",
    "counts those that are not suspect",
    "counts one too few",
    "keeps the count in six bits",
    "counts the first 64 bits only",
    "counts the bits behind 64 only",
    "finds the first from the end",
    "finds the first behind 64 first",
    "finds the first behind 64 as if it began there",
    "finds no first behind 64",
    "gives 1 and 1 where none is suspect",
    "gives 20 and 1 where none is suspect",
    "counts the channel of the first from 0",
    "counts the detector of the first from 0",
    // its counts
    "exchanges high and low in the raw count",
    "exchanges high and low in the block count",
    "exchanges the two counts",
    "takes the low word of a count alone",
    "reads the counts a word late",
    // its tags
    "reads the tags without the list",
    "reads the tags a word early",
    "reads the tags a word late",
    "reads the tags from the last on",
    "reads fourteen tags",
    "leaves the time of a bad tag",
    "reads no tag behind a bad one",
    "loses the flywheel mark of a status",
    "gives 19 for a bad tag",
    // what a refusal leaves
    "leaves the numbers on a refusal",
    "leaves the tags on a refusal",
    "leaves the frame with 22",
    // of a detector asked for
    "answers for channel 20",
    "refuses channel 19",
    "refuses detector 4",
    "takes channel 0 as 1",
    "takes detector 0 as 1",
    "takes detector 5 as the next channel's first",
    "keeps the channel in a byte",
    "keeps the detector in a byte",
    "keeps the channel in two bytes",
    "keeps the detector in two bytes",
    "exchanges channel and detector",
    "answers for the whole channel",
    "answers for the first suspect one only",
    "tests 13 before 19",
    "tests 13 before 22",
    "tests 13 before all else",
    "leaves the mark on a refusal",
    "names no word where a detector is asked for",
    "asks nothing of frame and list for a detector",
];

// ---- bits ----

/// The words as they seem where something is read a word early, or late.
fn moved<'a>(fault: &str, what: &str, words: &'a [u16]) -> Cow<'a, [u16]> {
    match fault.strip_prefix(what) {
        Some(" a word early") => [&[0], words].concat().into(),
        Some(" a word late") => words[1..].into(),
        _ => words.into(),
    }
}

/// First those of the detectors in their order, then the spare ones.
fn bits(fault: &str, words: &[u16]) -> Vec<bool> {
    let mut bits = status::bits(&moved(fault, "takes the status", words));
    match fault {
        "takes the last bit of a word first" => bits.chunks_exact_mut(8).for_each(<[bool]>::reverse),
        "takes the last word of the status first" => bits = bits.chunks_exact(8).rev().flatten().copied().collect(),
        "takes the status from its last bit on" => bits.reverse(),
        "takes the status from its last detector on" => bits[..BITS].reverse(),
        "takes the detectors of a channel from the last on" => {
            bits[..BITS].chunks_exact_mut(4).for_each(<[bool]>::reverse);
        }
        "takes detectors before channels" => {
            let sent = bits.clone();
            for (bit, (channel, detector)) in bits.iter_mut().zip(detectors()) {
                *bit = sent[(19 * (detector - 1) + channel - 1) as usize];
            }
        }
        "takes the first 64 bits only" => bits[64..BITS].fill(false),
        _ => {}
    }
    bits
}

fn has_spare_bit(fault: &str, words: &[u16]) -> bool {
    let bits = bits(fault, words);
    let tested = match fault {
        "overlooks the spare bits" | "counts the spare bits" => &[],
        "overlooks the first spare bit" => &bits[BITS + 1..],
        "overlooks the last spare bit" => &bits[BITS..BITS + 3],
        "tests one spare bit only" => &bits[BITS..=BITS],
        "takes the last detector's bit as spare" => &bits[BITS - 1..],
        "takes the first four bits of word 42 as spare" => &bits[BITS - 4..BITS],
        _ => &bits[BITS..],
    };
    tested.contains(&true)
}

fn suspects(fault: &str, words: &[u16]) -> Vec<Detector> {
    detectors().zip(bits(fault, words)).filter(|(_, bit)| *bit).map(|(detector, _)| detector).collect()
}

/// Whether its bit is behind the first 64.
fn is_behind_64(detector: &Detector) -> bool {
    detector.0 > 16
}

fn count(fault: &str, words: &[u16]) -> u32 {
    let mut suspects = suspects(fault, words);
    let count = suspects.len() as u32;
    let behind = suspects.iter().filter(|one| is_behind_64(one)).count() as u32;
    match fault {
        "counts the spare bits" => bits(fault, words).iter().filter(|bit| **bit).count() as u32,
        "counts the suspect channels" => {
            suspects.dedup_by_key(|(channel, _)| *channel);
            suspects.len() as u32
        }
        "counts those that are not suspect" => BITS as u32 - count,
        "counts one too few" => count.saturating_sub(1),
        "keeps the count in six bits" => count % 64,
        "counts the first 64 bits only" => count - behind,
        "counts the bits behind 64 only" => behind,
        _ => count,
    }
}

fn first(fault: &str, words: &[u16]) -> Detector {
    let suspects = suspects(fault, words);
    let Some((channel, detector)) = suspects.first().copied() else {
        return match fault {
            "gives 1 and 1 where none is suspect" => (1, 1),
            "gives 20 and 1 where none is suspect" => (20, 1),
            _ => (0, 0),
        };
    };
    let behind = is_behind_64(&(channel, detector));
    match fault {
        "finds the first from the end" => suspects[suspects.len() - 1],
        "finds the first behind 64 first" => *suspects.iter().find(|one| is_behind_64(one)).unwrap_or(&suspects[0]),
        "finds the first behind 64 as if it began there" if behind => (channel - 16, detector),
        "finds no first behind 64" if behind => (0, 0),
        "counts the channel of the first from 0" => (channel - 1, detector),
        "counts the detector of the first from 0" => (channel, detector - 1),
        _ => (channel, detector),
    }
}

// ---- numbers of two words ----

fn exchanged(words: &[u16], first: usize) -> u32 {
    256 * u32::from(words[first]) + u32::from(words[first - 1])
}

fn count_number(fault: &str, words: &[u16], first: usize) -> u32 {
    match fault {
        "exchanges high and low in the raw count" if first == RAW_COUNT => exchanged(words, first),
        "exchanges high and low in the block count" if first == BLOCK_COUNT => exchanged(words, first),
        "exchanges the two counts" => status::number(words, RAW_COUNT + BLOCK_COUNT - first),
        "takes the low word of a count alone" => status::number(words, first) % 256,
        "reads the counts a word late" => status::number(words, first + 1),
        _ => status::number(words, first),
    }
}

fn frame_number(fault: &str, words: &[u16], first: usize) -> u32 {
    match fault {
        "exchanges high and low in the frame" => exchanged(words, first),
        "takes the low word of a frame field alone" => status::number(words, first) % 256,
        "reads the frame a word early" => status::number(words, first - 1),
        "reads the frame a word late" => status::number(words, first + 1),
        _ => status::number(words, first),
    }
}

// ---- frame fields ----

/// Least and most of a field; the names of the faults print one of them.
fn range(fault: &str, (first, least, most): (usize, u32, u32)) -> (u32, u32) {
    let bound = |which: &str| fault.strip_prefix(&format!("takes field {first} {which} "))?.parse().ok();
    (bound("from").unwrap_or(least), bound("up to").unwrap_or(most))
}

fn is_crossed(fault: &str, words: &[u16]) -> bool {
    let [west, east] = [WEST, EAST].map(|first| frame_number(fault, words, first));
    match fault {
        "refuses a west equal to its east" => west >= east,
        "lets a west above its east in" => false,
        "sets the low words of west and east against each other" => west % 256 > east % 256,
        _ => west > east,
    }
}

fn is_out_of_own_range(fault: &str, words: &[u16], field: (usize, u32, u32)) -> bool {
    let (least, most) = range(fault, field);
    !(least..=most).contains(&frame_number(fault, words, field.0))
}

/// The first word of a number that is refused on a ground that is none.
fn other_numbers_out(fault: &str, words: &[u16]) -> Option<usize> {
    let [scan, north, south] = [185, 191, 193].map(|first| status::number(words, first));
    match fault {
        "tests the raw count for its range" => {
            (!(1..=5_736).contains(&status::number(words, RAW_COUNT))).then_some(RAW_COUNT)
        }
        "tests the block count for its range" => {
            (!(2..=523).contains(&status::number(words, BLOCK_COUNT))).then_some(BLOCK_COUNT)
        }
        "refuses a north below its south" => (north < south).then_some(193),
        "refuses a north above its south" => (north > south).then_some(193),
        "refuses a scan north of its frame" => (scan < north).then_some(185),
        _ => None,
    }
}

/// First words of all that is out of its range, the eastern field for crossed pixels among them.
fn all_out_of_range(fault: &str, words: &[u16]) -> Vec<usize> {
    let tested = match fault {
        "tests the first field only" => 1,
        "tests the first three fields only" => 3,
        "overlooks the last field" => 6,
        _ => FRAME.len(),
    };
    let tested = FRAME[..tested].iter().copied();
    let own = tested.clone().filter(|field| is_out_of_own_range(fault, words, *field)).map(|(first, ..)| first);
    let mut out: Vec<usize> = own.chain(other_numbers_out(fault, words)).collect();
    if is_crossed(fault, words) && tested.len() > 4 {
        match fault {
            "names the west for a west above its east" => out.push(WEST),
            "names the east for a west out of its range above its east" => {
                out.retain(|first| *first != WEST);
                out.push(EAST);
            }
            "tests a west above its east before the other fields" => return vec![EAST],
            "tests a west above its east behind the other fields" if !out.is_empty() => {}
            _ => out.push(EAST),
        }
    }
    out.sort();
    out
}

/// The word that is named with 22.
fn out_of_range(fault: &str, words: &[u16]) -> Option<u32> {
    let out = all_out_of_range(fault, words);
    let first = if fault == "names the highest field out of its range" { out.last() } else { out.first() };
    let first = *first? as u32;
    Some(match fault {
        "names the second word of a field" => first + 1,
        "names a field by its place" => (first - 179) / 2,
        "names a word counted from 0" => first - 1,
        "names no word" => 0,
        _ => first,
    })
}

// ---- words and their number ----

fn is_other_length(fault: &str, length: usize) -> bool {
    match fault {
        "takes a word more" => length != WORDS && length != WORDS + 1,
        "takes a word less" => length != WORDS && length != WORDS - 1,
        "takes fewer words where what is read is there" => !(194..=WORDS).contains(&length),
        "takes any longer block" => length < WORDS,
        "keeps the length in two bytes" => length % 65_536 != WORDS,
        _ => length != WORDS,
    }
}

fn has_large_word(fault: &str, words: &[u16]) -> bool {
    let most = match fault {
        "takes a word of 256 as good" => 256,
        "takes a word of 255 as too large" => 254,
        "masks the words of a status" => u16::MAX,
        _ => 255,
    };
    let is_tested = |number: usize| match fault {
        "tests the words that are read only" => matches!(number, 33..=46 | 59..=178 | 181..=194),
        "tests no word behind the frame" => number <= 194,
        "overlooks the first word" => number > 1,
        "overlooks the last word" => number < WORDS,
        _ => true,
    };
    (1..).zip(words).any(|(number, word)| *word > most && is_tested(number))
}

/// The words that are gone by once they are tested. Those of a shorter block that are missing are zeros.
fn seen_words(fault: &str, words: &[u16]) -> Vec<u16> {
    let mut words = words.to_vec();
    words.resize(words.len().max(WORDS), 0);
    if fault == "masks the words of a status" {
        words.iter_mut().for_each(|word| *word %= 256);
    }
    words
}

// ---- tags ----

fn tag_bytes(fault: &str, words: &[u16], tag: usize) -> Vec<u8> {
    let tag = if fault == "reads the tags from the last on" { TAGS - 1 - tag } else { tag };
    status::tag_bytes(&moved(fault, "reads the tags", words), tag)
}

fn read_tag(fault: &str, bytes: &[u8], leap_days: &LeapDays) -> (u8, Tag) {
    match (fault, wrong_leaps::try_read(fault, bytes, leap_days)) {
        ("loses the flywheel mark of a status", Ok(tag)) => (0, Tag { flywheel: false, ..tag }),
        (_, Ok(tag)) => (0, tag),
        ("leaves the time of a bad tag", Err(number)) => (number, spelt(bytes).unwrap_or_default()),
        ("gives 19 for a bad tag", Err(_)) => (19, Tag::default()),
        (_, Err(number)) => (number, Tag::default()),
    }
}

fn read_tags(fault: &str, words: &[u16], leap_days: &LeapDays) -> [(u8, Tag); TAGS] {
    let none = LeapDays::new();
    let leap_days = if fault == "reads the tags without the list" { &none } else { leap_days };
    let mut tags: [(u8, Tag); TAGS] =
        std::array::from_fn(|tag| read_tag(fault, &tag_bytes(fault, words, tag), leap_days));
    match fault {
        "reads fourteen tags" => tags[TAGS - 1] = (0, Tag::default()),
        "reads no tag behind a bad one" => {
            let read = tags.iter().position(|(number, _)| *number != 0).unwrap_or(TAGS);
            tags[read..].fill((12, Tag::default()));
        }
        _ => {}
    }
    tags
}

fn has_bad_tag(fault: &str, words: &[u16], leap_days: &LeapDays) -> bool {
    let is_bad = |tag: usize| read_tag(fault, &tag_bytes(fault, words, tag), leap_days).0 != 0;
    match fault {
        "refuses all for a bad tag" => (0..TAGS).any(is_bad),
        "refuses all for a bad first tag" => is_bad(0),
        _ => false,
    }
}

// ---- refusals ----

/// The tests of a status by place: length, words, spare bits, frame, list, detector.
fn order(fault: &str) -> [usize; 6] {
    match fault {
        "tests 14 before 8 in a status" => [1, 0, 2, 3, 4, 5],
        "tests 21 before 8" => [2, 0, 1, 3, 4, 5],
        "tests 21 before 14" => [0, 2, 1, 3, 4, 5],
        "tests 22 before 14" => [0, 3, 1, 2, 4, 5],
        "tests 22 before 21" => [0, 1, 3, 2, 4, 5],
        "tests 19 before 8" => [4, 0, 1, 2, 3, 5],
        "tests 19 before 21" => [0, 1, 4, 2, 3, 5],
        "tests 19 before 22" => [0, 1, 2, 4, 3, 5],
        "tests 13 before 19" => [0, 1, 2, 3, 5, 4],
        "tests 13 before 22" => [0, 1, 2, 5, 3, 4],
        "tests 13 before all else" => [5, 0, 1, 2, 3, 4],
        _ => [0, 1, 2, 3, 4, 5],
    }
}

/// The leap days by which the tags are read, or a bad list, where that is not let pass.
fn list(fault: &str, words: &[u16], lent: &[u32]) -> Result<LeapDays, u8> {
    let in_second_60 = |tag: usize| spelt(&tag_bytes(fault, words, tag)).is_some_and(|tag| tag.second == 60);
    let is_let_pass = match fault {
        "forgives a bad list" => true,
        "tests the list only where a tag is in second 60" => !(0..TAGS).any(in_second_60),
        _ => false,
    };
    wrong_leaps::leap_days(fault, lent).or_else(|number| if is_let_pass { Ok(LeapDays::new()) } else { Err(number) })
}

/// The word that is named with another number than 22.
fn named_with(fault: &str, words: &[u16], number: u8) -> u32 {
    match (fault, number) {
        ("names the word with 14", 14) => (1..).zip(words).find(|(_, word)| **word > 255).map_or(0, |(place, _)| place),
        ("names word 42 with 21", 21) => 42,
        ("names the word of a good field with 19", 19) => 181,
        _ => 0,
    }
}

/// The leap days, or the first refusal. `lent_words` are tested, `words` gone by.
fn judge(
    fault: &str,
    lent_words: &[u16],
    words: &[u16],
    lent: &[u32],
    asked: Option<Detector>,
) -> Result<LeapDays, Refusal> {
    let list = list(fault, words, lent);
    let skips = asked.is_some() && fault == "asks nothing of frame and list for a detector";
    let ground = |is_so: bool, number: u8| is_so.then(|| (number, named_with(fault, lent_words, number)));
    let grounds = [
        ground(is_other_length(fault, lent_words.len()), 8),
        ground(has_large_word(fault, lent_words), 14),
        ground(has_spare_bit(fault, words), 21),
        out_of_range(fault, words).filter(|_| !skips).map(|word| (22, word)),
        ground(list.is_err() && !skips, 19),
        ground(asked.is_some_and(|asked| !is_there(fault, asked)), 13),
    ];
    if let Some(refusal) = order(fault).into_iter().find_map(|place| grounds[place]) {
        return Err(refusal);
    }
    let leap_days = list.unwrap_or_default();
    if has_bad_tag(fault, words, &leap_days) {
        return Err((12, 0));
    }
    Ok(leap_days)
}

// ---- answers ----

fn read(fault: &str, words: &[u16], leap_days: &LeapDays) -> StatusAnswer {
    StatusAnswer {
        number: 0,
        word: 0,
        suspects: count(fault, words),
        first: first(fault, words),
        raw_count: count_number(fault, words, RAW_COUNT),
        block_count: count_number(fault, words, BLOCK_COUNT),
        frame: FRAME.map(|(first, ..)| frame_number(fault, words, first)),
        tags: read_tags(fault, words, leap_days),
    }
}

pub fn status(fault: &str, lent_words: &[u16], lent: &[u32]) -> StatusAnswer {
    let words = seen_words(fault, lent_words);
    let (number, word) = match judge(fault, lent_words, &words, lent, None) {
        Ok(leap_days) => return read(fault, &words, &leap_days),
        Err(refusal) => refusal,
    };
    let refused = StatusAnswer::refused(number, word);
    let left = || read(fault, &words, &LeapDays::new());
    match fault {
        "leaves the numbers on a refusal" => StatusAnswer { number, word, tags: refused.tags, ..left() },
        "leaves the tags on a refusal" => StatusAnswer { tags: left().tags, ..refused },
        "leaves the frame with 22" if number == 22 => StatusAnswer { frame: left().frame, ..refused },
        _ => refused,
    }
}

/// The detector that is gone by in place of the one asked for.
fn seen_detector(fault: &str, (channel, detector): Detector) -> Detector {
    match fault {
        "takes channel 0 as 1" => (channel.max(1), detector),
        "takes detector 0 as 1" => (channel, detector.max(1)),
        "takes detector 5 as the next channel's first" if detector == 5 => (channel.saturating_add(1), 1),
        "keeps the channel in a byte" => (channel % 256, detector),
        "keeps the detector in a byte" => (channel, detector % 256),
        "keeps the channel in two bytes" => (channel % 65_536, detector),
        "keeps the detector in two bytes" => (channel, detector % 65_536),
        "exchanges channel and detector" => (detector, channel),
        _ => (channel, detector),
    }
}

fn is_there(fault: &str, asked: Detector) -> bool {
    let (channel, detector) = seen_detector(fault, asked);
    match fault {
        "answers for channel 20" if channel == 20 => (1..=4).contains(&detector),
        "refuses channel 19" if channel == 19 => false,
        "refuses detector 4" if detector == 4 => false,
        _ => detectors().any(|one| one == (channel, detector)),
    }
}

fn is_suspect(fault: &str, words: &[u16], asked: Detector) -> bool {
    let suspects = suspects(fault, words);
    let asked = seen_detector(fault, asked);
    match fault {
        "answers for the whole channel" => suspects.iter().any(|(channel, _)| *channel == asked.0),
        "answers for the first suspect one only" => suspects.first() == Some(&asked),
        _ => suspects.contains(&asked),
    }
}

pub fn suspect(fault: &str, lent_words: &[u16], lent: &[u32], asked: Detector) -> SuspectAnswer {
    let words = seen_words(fault, lent_words);
    match (fault, judge(fault, lent_words, &words, lent, Some(asked))) {
        (_, Ok(_)) => SuspectAnswer { number: 0, word: 0, suspect: is_suspect(fault, &words, asked) },
        ("leaves the mark on a refusal", Err((number, word))) => {
            SuspectAnswer { number, word, suspect: is_suspect(fault, &words, asked) }
        }
        ("names no word where a detector is asked for", Err((number, _))) => SuspectAnswer::refused(number, 0),
        (_, Err((number, word))) => SuspectAnswer::refused(number, word),
    }
}
