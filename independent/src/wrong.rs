//! Libraries that are wrong on purpose, one fault each: the comparison must
//! find every one of them.

use crate::check::check_bytes;
use crate::header::{meaning, passing, sealed, HEADER};
use crate::library::{
    FieldAnswer, Found, Library, LineAnswer, Model, OfferAnswer, ReadAnswer, SalvageAnswer, StatusAnswer, SuspectAnswer,
};
use crate::tags::{self, Tag};
use crate::watch::{Verdict, Watch};
use crate::{rows, words, wrong_fills, wrong_leaps, wrong_salvage, wrong_status};

pub const FAULTS: [&str; 80] = [
    "takes copy 1 unread",
    "votes without the check",
    "unpacks ten-bit words low bits first",
    "counts fill as words",
    "ends block 2's field at a byte",
    "clips a backward wait to zero",
    "runs the fourth Imager section up to word 7905",
    "refuses every block",
    "returns one fixed block",
    "writes no words",
    "watch only nods after its first offer",
    "writes one word behind the words",
    "changes the room on a refusal",
    "gives the header on refusal 10",
    "tests 10 before 9",
    "tests 11 before 10",
    "overlooks copy 3 in refusal 3",
    "marks every copy as passed",
    "tests 14 before 9 in the writer",
    "clears the destination behind the block",
    "counts records from 0",
    "tests 9 before 13 for a record",
    "places version 1 like version 2",
    "takes every fourth year as leap",
    "reads the flywheel mark as part of the day",
    "takes day 366 in any year",
    "gives elapsed time without sign",
    "lets the flywheel mark into elapsed time",
    "calls a wait of exactly the limit late",
    "opens no new scan on a closing block 0",
    "ignores block 11 while open",
    "asks for the block before the clock",
    "clears an idle record on a stray",
    "tests the tag of an idle record",
    "closes on a refused offer",
    "tests the limit of a lent record last",
    "masks words above 255",
    "tests 14 before 8 for parity",
    "counts the cut field",
    "lists other tags as 1",
    "lists the count of the header",
    "begins with any limit",
    "leaves the check word uncomplemented",
    "takes n up to 5,237",
    "takes n from 0",
    "crosses the counts of block 11",
    "takes id 0 as block 0",
    "tests only the last byte of fill",
    "keeps the opening tag while the scan goes on",
    "loses the flywheel mark of a kept tag",
    "takes a size of 256 more as the size",
    "leaves the fill of a lent field",
    "takes a length low byte first",
    "gives the tag of a field that is cut",
    "takes the last field as cut",
    "takes a tag of 256 more as the tag",
    "counts a field as the one before it",
    "spells the numbers of a refused line",
    "spells an answer of 256 as accepted",
    "writes what fits of a text",
    "gives block 2 four records in version 2",
    "gives block 2 three records in version 3",
    "gives block 1 three records in version 2",
    "shares block 2's words by three in version 3",
    "has no fourth placement in block 2",
    "places 6/1 twice",
    "forgets the words behind the last group",
    "takes a group too many",
    "exchanges two words of a group",
    "takes a group's words low bits first",
    "takes eight-bit words by fives",
    "takes six-bit words by the eight-bit way",
    "forgets to put the last group",
    "puts a group too many",
    "puts six-bit words by the eight-bit way",
    "lets a word of 1,024 in",
    "spills the high bit of a word of 1,024",
    "tests only whole sixteens of words",
    "clears only whole eights of the fill",
    "tests only whole eights of the fill",
];

pub struct Wrong(pub &'static str);

impl Wrong {
    fn is(&self, fault: &str) -> bool {
        self.0 == fault
    }

    /// The header with the block and version whose row is taken for its own.
    fn judged(&self, header: &[u8]) -> Vec<u8> {
        let mut judged = header.to_vec();
        match (self.0, header.first(), header.get(7)) {
            ("gives block 2 four records in version 2", Some(2), Some(2)) => judged[7] = 3,
            ("gives block 2 three records in version 3", Some(2), Some(3)) => judged[7] = 2,
            ("gives block 1 three records in version 2", Some(1), Some(2)) => judged[0] = 2,
            _ => {}
        }
        judged
    }

    /// Read by that row, and given back under the block's own header.
    fn read_judged(&self, block: &[u8], room: &mut [u16]) -> ReadAnswer {
        let Some(own) = common(block).filter(|own| self.judged(own) != own) else {
            return Model.read(block, room);
        };
        let judged = self.judged(&own).try_into().unwrap();
        let answer = Model.read(&with_header(block, &judged), room);
        if answer.number != 0 {
            return answer;
        }
        ReadAnswer { header: own, copies: passing(block), ..answer }
    }

    /// Spoils words that were rightly taken, as a wrong way by groups would. `before` is the room as lent.
    fn spoil_groups(&self, field: &[u8], size: u32, count: usize, before: &[u16], room: &mut [u16]) {
        let whole = count - count % 4;
        match (self.0, size) {
            ("forgets the words behind the last group", 10) => {
                room[whole..count].copy_from_slice(&before[whole..count]);
            }
            ("takes a group too many", 10) => {
                let end = count.next_multiple_of(4).min(room.len());
                let longer = [field, &[0; 5]].concat();
                room[count..end].copy_from_slice(&words::unpack(&longer, 10, end)[count..]);
            }
            ("exchanges two words of a group", 10) => {
                room[..whole].chunks_exact_mut(4).for_each(|group| group.swap(1, 2));
            }
            ("takes a group's words low bits first", 10) => {
                for (group, five) in room[..whole].chunks_exact_mut(4).zip(field.chunks_exact(5)) {
                    low_bits_first(group, five);
                }
            }
            ("takes eight-bit words by fives", 8) => {
                let grouped = 4 * (count / 4).min(field.len() / 5);
                room[..grouped].copy_from_slice(&words::unpack(field, 10, grouped));
            }
            ("takes six-bit words by the eight-bit way", 6) => {
                room[..count].iter_mut().zip(field).for_each(|(word, &byte)| *word = byte.into());
            }
            _ => {}
        }
    }

    /// The words that are put in place of these, where the test of too large ones is wrong.
    fn let_in(&self, words: &[u16], size: u32) -> Vec<u16> {
        let mut kept = words.to_vec();
        match (self.0, size) {
            ("lets a word of 1,024 in", 10) => kept.iter_mut().for_each(|word| *word &= !1_024),
            ("spills the high bit of a word of 1,024", 10) => {
                for place in (0..kept.len()).filter(|&place| words[place] & 1_024 != 0) {
                    kept[place] &= !1_024;
                    if place % 4 != 0 {
                        kept[place - 1] |= 1;
                    }
                }
            }
            ("tests only whole sixteens of words", 1..=15) => {
                let whole = kept.len() - kept.len() % 16;
                kept[whole..].iter_mut().for_each(|word| *word %= 1 << size);
            }
            _ => {}
        }
        kept
    }

    /// Spoils a field that words were rightly put into, as a wrong quick way would. `before` is the field as lent.
    fn spoil_put(&self, words: &[u16], size: u32, before: &[u8], field: &mut [u8]) {
        let four = size as usize / 2;
        let whole = words.len() / 4 * four;
        let end = (words.len() * size as usize).div_ceil(8);
        let keep = |field: &mut [u8], from: usize, to: usize| field[from..to].copy_from_slice(&before[from..to]);
        match (self.0, size) {
            ("forgets to put the last group", 6 | 10) if whole > 0 => keep(field, whole - four, whole),
            ("puts a group too many", 6 | 10) if whole > 0 => {
                let room = four.min(field.len() - end);
                field.copy_within(whole - four..whole - four + room, end);
            }
            ("puts six-bit words by the eight-bit way", 6) => {
                field.fill(0);
                field.iter_mut().zip(words).for_each(|(byte, &word)| *byte = word as u8);
            }
            ("leaves the fill of a lent field", _) => keep(field, end, field.len()),
            ("clears only whole eights of the fill", _) => {
                keep(field, field.len() - (field.len() - end) % 8, field.len())
            }
            _ => {}
        }
    }
}

fn low_bits_first(group: &mut [u16], five: &[u8]) {
    let mut number = five.iter().rev().fold(0u64, |number, &byte| 256 * number + u64::from(byte));
    for word in group {
        *word = (number % 1_024) as u16;
        number /= 1_024;
    }
}

fn copy(block: &[u8], number: usize) -> [u8; HEADER] {
    block[30 * number..30 * number + HEADER].try_into().unwrap()
}

/// The header of a block whose passing copies are equal.
fn common(block: &[u8]) -> Option<[u8; HEADER]> {
    if block.len() < 90 {
        return None;
    }
    let passing = passing(block);
    let mut good = (0..3).filter(|&number| passing[number]).map(|number| copy(block, number));
    let first = good.next()?;
    good.all(|other| other == first).then_some(first)
}

fn with_header(block: &[u8], header: &[u8; HEADER]) -> Vec<u8> {
    let mut block = block.to_vec();
    block[..90].copy_from_slice(&[sealed(header); 3].concat());
    block
}

fn with_check(block: &[u8]) -> Vec<u8> {
    let mut block = block.to_vec();
    if block.len() >= 92 {
        let end = block.len() - 2;
        let check = check_bytes(&block[90..end]);
        block[end..].copy_from_slice(&check);
    }
    block
}

impl Library for Wrong {
    fn check_word(&self, bytes: &[u8]) -> u16 {
        let word = Model.check_word(bytes);
        if self.is("leaves the check word uncomplemented") {
            return !word;
        }
        word
    }

    fn take_words(&self, field: &[u8], size: u32, count: usize, room: &mut [u16]) -> u8 {
        if self.is("takes a size of 256 more as the size") {
            return Model.take_words(field, size % 256, count, room);
        }
        let before = room.to_vec();
        let number = Model.take_words(field, size, count, room);
        if number == 0 {
            self.spoil_groups(field, size, count, &before, room);
        }
        number
    }

    fn put_words(&self, words: &[u16], size: u32, field: &mut [u8]) -> u8 {
        let before = field.to_vec();
        let words = self.let_in(words, size);
        let number = Model.put_words(&words, size, field);
        if number == 0 {
            self.spoil_put(&words, size, &before, field);
        }
        number
    }

    fn read(&self, block: &[u8], room: &mut [u16]) -> ReadAnswer {
        let whole = block.len() >= 90;
        if self.is("takes copy 1 unread") && whole {
            return Model.read(&with_header(block, &copy(block, 0)), room);
        }
        if self.is("votes without the check") && whole {
            let [a, b, c] = [0, 1, 2].map(|number| copy(block, number));
            let mut voted = [0; HEADER];
            for (index, byte) in voted.iter_mut().enumerate() {
                *byte = a[index] & b[index] | a[index] & c[index] | b[index] & c[index];
            }
            return Model.read(&with_header(block, &voted), room);
        }
        if self.is("returns one fixed block") {
            room.iter_mut().take(20).for_each(|word| *word = 7);
            let header = crate::document::header(3, 10, 2, 20);
            return ReadAnswer { number: 0, header, copies: [true; 3], words: 20 };
        }
        if self.is("refuses every block") {
            return ReadAnswer::refused(10);
        }
        let before = room.to_vec();
        let mut answer = self.read_judged(block, room);
        let field = || &block[90..block.len() - 2];
        if answer.number == 0 {
            self.spoil_groups(field(), answer.header[1].into(), answer.words, &before, room);
        }
        match (self.0, answer.number) {
            ("unpacks ten-bit words low bits first", 0) if answer.header[1] == 10 => {
                for word in &mut room[..answer.words] {
                    *word = word.reverse_bits() >> 6;
                }
            }
            ("counts fill as words", 0) => answer.words = 8 * field().len() / answer.header[1] as usize,
            ("writes no words", 0) => room.copy_from_slice(&before),
            ("writes one word behind the words", 0) if answer.words < room.len() => room[answer.words] = 0,
            ("changes the room on a refusal", 11) => room.fill(0),
            ("gives the header on refusal 10", 10) => answer.header = copy(block, 0),
            ("tests 10 before 9", 9) => {
                if Model.read(block, &mut vec![0; rows::LARGEST_C]).number == 10 {
                    answer.number = 10;
                }
            }
            ("tests 11 before 10", 10) => {
                if Model.read(&with_check(block), &mut vec![0; rows::LARGEST_C]).number == 11 {
                    answer.number = 11;
                }
            }
            ("overlooks copy 3 in refusal 3", 3) if copy(block, 0) == copy(block, 1) => {
                answer = Model.read(&with_header(block, &copy(block, 0)), room);
            }
            ("marks every copy as passed", 0) => answer.copies = [true; 3],
            ("takes n up to 5,237", 7) if block[..4] == [1, 10, 0x52, 0x16] => answer.number = 8,
            ("takes n from 0", 7) if block[..4] == [1, 10, 0, 66] => answer.number = 8,
            ("crosses the counts of block 11", 7) if block[..4] == [11, 6, 0x1F, 0x6A] => answer.number = 8,
            ("takes id 0 as block 0", 4) if block[0] == 0 => answer.number = 8,
            ("tests only the last byte of fill", 11) if field().last() == Some(&0) => {
                let first = passing(block).iter().position(|&passes| passes).unwrap();
                let meaning = meaning(&copy(block, first)).unwrap();
                let decoded = words::unpack(field(), meaning.size, meaning.c);
                let packed = words::pack(&decoded, meaning.size, field().len());
                let cleared = [&block[..90], &packed, &[0, 0]].concat();
                answer = Model.read(&with_check(&cleared), room);
            }
            ("tests only whole eights of the fill", 11) => {
                let meaning = meaning(&common(block).unwrap()).unwrap();
                let end = block.len() - 2;
                let fill = field().len() - (meaning.size * meaning.c).div_ceil(8);
                let mut cleared = block.to_vec();
                cleared[end - fill % 8..end].fill(0);
                answer = Model.read(&with_check(&cleared), room);
            }
            _ => {}
        }
        answer
    }

    fn write(&self, header: &[u8], words: &[u16], dest: &mut [u8]) -> (u8, usize) {
        let judged = self.judged(header);
        let before = dest.to_vec();
        let size = judged.get(1).copied().unwrap_or(0).into();
        let words = &self.let_in(words, size)[..];
        let (number, written) = Model.write(&judged, words, dest);
        if number == 0 {
            let field = &mut dest[90..written - 2];
            let right = field.to_vec();
            self.spoil_put(words, size, &before[90..written - 2], field);
            if *field != right {
                let checked = with_check(&dest[..written]);
                dest[..written].copy_from_slice(&checked);
            }
        }
        if number == 0 && judged != header {
            let own = sealed(header.try_into().unwrap());
            dest[..90].copy_from_slice(&own.repeat(3));
        }
        let rounded = number == 0 && written > 2_772 && (10 * words.len()).div_ceil(8) % 2 == 1;
        if self.is("ends block 2's field at a byte") && rounded && header[0] == 2 {
            dest.copy_within(written - 2..written, written - 3);
            return (0, written - 1);
        }
        if self.is("tests 14 before 9 in the writer") && number == 9 && words.iter().any(|&word| word > 1_023) {
            return (14, 0);
        }
        if self.is("clears the destination behind the block") && number == 0 {
            dest[written..].fill(0);
        }
        (number, written)
    }

    fn record(&self, header: &[u8], words: &[u16], k: usize) -> (u8, usize, usize) {
        let (number, start, length) = Model.record(&self.judged(header), words, k);
        if self.is("counts records from 0") && number == 0 {
            return (0, start + length, length);
        }
        if self.is("tests 9 before 13 for a record") && number == 13 && words.len() < 20 {
            return (9, 0, 0);
        }
        if self.is("shares block 2's words by three in version 3") && number == 0 && (header[0], header[7]) == (2, 3) {
            let third = 4 * length / 3;
            return (0, (k - 1) * third, third);
        }
        (number, start, length)
    }

    fn place(&self, block: u8, version: u8, record: u8) -> (u8, u8, u8) {
        if self.is("places version 1 like version 2") && version == 1 {
            return Model.place(block, 2, record);
        }
        if (block, version, record) == (2, 3, 4) {
            if self.is("has no fourth placement in block 2") {
                return (13, 0, 0);
            }
            if self.is("places 6/1 twice") {
                return (0, 6, 1);
            }
        }
        Model.place(block, version, record)
    }

    fn read_tag(&self, bytes: &[u8], leap_days: &[u32]) -> (u8, Tag) {
        let (number, tag) = wrong_leaps::read_tag(self.0, bytes, leap_days);
        if self.is("takes every fourth year as leap") && number == 12 && bytes.len() == 8 {
            let year_and_day = (bytes[0] & 3, bytes[1], bytes[2] & 0x7F, bytes[3] >> 4);
            if matches!(year_and_day, (1..=3, 0, 0x36, 6)) {
                return (0, Tag { day: 366, ..tag });
            }
        }
        if self.is("reads the flywheel mark as part of the day") && tag.flywheel {
            return (12, Tag::default());
        }
        if self.is("takes day 366 in any year") && number == 12 && bytes.len() == 8 {
            let mut other = bytes.to_vec();
            if (other[2] & 0x7F, other[3] >> 4) == (0x36, 6) {
                other[3] -= 0x10;
                let (number, tag) = Model.read_tag(&other, leap_days);
                return (number, if number == 0 { Tag { day: 366, ..tag } } else { tag });
            }
        }
        (number, tag)
    }

    fn write_tag(&self, tag: &Tag, leap_days: &[u32]) -> (u8, [u8; 8]) {
        wrong_leaps::write_tag(self.0, tag, leap_days)
    }

    fn elapsed(&self, first: &[u8], second: &[u8], leap_days: &[u32]) -> (u8, i64) {
        let (number, time) = wrong_leaps::elapsed(self.0, first, second, leap_days);
        if self.is("gives elapsed time without sign") {
            return (number, time.abs());
        }
        if self.is("lets the flywheel mark into elapsed time") && number == 0 && first[2] ^ second[2] >= 0x80 {
            return (0, time + 1);
        }
        (number, time)
    }

    fn begin(&self, limit: u32) -> (u8, Watch) {
        if self.is("begins with any limit") {
            return (0, Watch { limit, ..Watch::default() });
        }
        wrong_fills::begin(self.0, limit)
    }

    fn offer(&self, watch: &mut Watch, block: u8, valid: u32, tag: &[u8], leap_days: &[u32]) -> OfferAnswer {
        let before = *watch;
        let offered = tags::read_tag(tag, leap_days);
        if self.is("watch only nods after its first offer") && watch.open {
            return OfferAnswer::closing_none(Verdict::Kept);
        }
        let valid = wrong_fills::seen(self.0, valid);
        let answer = wrong_leaps::offer(self.0, watch, block, valid, tag, leap_days);
        let answer = wrong_fills::spoilt(self.0, &before, watch, block, valid, answer);
        let other = |verdict: Verdict| OfferAnswer { verdict, ..answer };
        let refused = matches!(answer.verdict, Verdict::Refused(_));
        match (self.0, answer.verdict) {
            ("clips a backward wait to zero", Verdict::ClockBack) => {
                *watch = before;
                watch.tag = offered.1;
                let answer = Model.offer(watch, block, valid, tag, leap_days);
                if answer.verdict == Verdict::Kept {
                    watch.tag = offered.1;
                }
                return answer;
            }
            ("calls a wait of exactly the limit late", _) if before.open && !refused => {
                let (_, wait) = Model.elapsed(&tags::spell(&before.tag), tag, leap_days);
                if wait == before.limit as i64 {
                    return other(Verdict::Late);
                }
            }
            ("opens no new scan on a closing block 0", _) if before.open && !refused && block == 0 => {
                *watch = Watch { limit: before.limit, ..Watch::default() };
            }
            ("ignores block 11 while open", Verdict::Broken) if block == 11 => {
                *watch = before;
                return OfferAnswer::closing_none(Verdict::Stray);
            }
            ("asks for the block before the clock", Verdict::ClockBack | Verdict::Late) => {
                if block != before.expected {
                    return other(Verdict::Broken);
                }
            }
            ("clears an idle record on a stray", Verdict::Stray) => {
                *watch = Watch { limit: before.limit, ..Watch::default() };
            }
            ("tests the tag of an idle record", _) if !before.open && !refused => {
                if before.tag != Tag::default() && Model.write_tag(&before.tag, leap_days).0 != 0 {
                    *watch = before;
                    return OfferAnswer::refused(12);
                }
            }
            ("closes on a refused offer", Verdict::Refused(4 | 12)) if before.open => {
                *watch = Watch { limit: before.limit, ..Watch::default() };
            }
            ("tests the limit of a lent record last", Verdict::Refused(16)) => {
                let within = Watch { limit: 0, ..before };
                let mended = Model.offer(&mut { within }, 0, valid, &[0, 0, 0, 0x10, 0, 0, 0, 0], leap_days);
                if matches!(mended.verdict, Verdict::Refused(_)) {
                    return mended;
                }
            }
            ("keeps the opening tag while the scan goes on", Verdict::Kept) => watch.tag = before.tag,
            ("loses the flywheel mark of a kept tag", Verdict::Kept) => watch.tag.flywheel = false,
            _ => {}
        }
        answer
    }

    fn imager(&self, words: &[u16]) -> (u8, [bool; 4]) {
        let (number, mut right) = Model.imager(words);
        if self.is("runs the fourth Imager section up to word 7905") && number == 0 {
            let spares = words[7_902..7_905].iter().fold(0, |sum, word| sum ^ word);
            let mut other = words.to_vec();
            other[7_905] ^= spares;
            right[3] = Model.imager(&other).1[3];
        }
        if self.is("masks words above 255") && number == 14 {
            let masked: Vec<u16> = words.iter().map(|word| word & 255).collect();
            return Model.imager(&masked);
        }
        if self.is("tests 14 before 8 for parity") && words.iter().any(|&word| word > 255) {
            return (14, right);
        }
        (number, right)
    }

    fn sounder(&self, words: &[u16]) -> (u8, [bool; 2]) {
        Model.sounder(words)
    }

    fn sounder_status(&self, words: &[u16], leap_days: &[u32]) -> StatusAnswer {
        wrong_status::status(self.0, words, leap_days)
    }

    fn sounder_suspect(&self, words: &[u16], leap_days: &[u32], channel: u32, detector: u32) -> SuspectAnswer {
        wrong_status::suspect(self.0, words, leap_days, (channel, detector))
    }

    fn next_field(&self, recording: &[u8], at: usize) -> FieldAnswer {
        let answer = Model.next_field(recording, at);
        let rest = recording.get(at..).unwrap_or(&[]);
        match (self.0, answer.found) {
            ("takes a length low byte first", Found::Field) => {
                let mut other = recording.to_vec();
                other.swap(at + 1, at + 2);
                Model.next_field(&other, at)
            }
            ("gives the tag of a field that is cut", Found::Cut) => FieldAnswer { tag: rest[0], ..answer },
            ("takes the last field as cut", Found::Field) if rest.len() == 3 + answer.length => {
                FieldAnswer::none(Found::Cut)
            }
            _ => answer,
        }
    }

    fn line(&self, before: u64, tag: u32, body: &[u8], room: &mut [u16]) -> LineAnswer {
        let tag = if self.is("takes a tag of 256 more as the tag") { tag % 256 } else { tag };
        let answer = Model.line(before, tag, body, room);
        let seq = if self.is("counts a field as the one before it") { before } else { answer.seq };
        LineAnswer { seq, ..answer }
    }

    fn first_text(&self, room: &mut [u8]) -> (u8, usize) {
        Model.first_text(room)
    }

    fn line_text(&self, seq: u64, block: u32, version: u32, words: usize, answer: u32, room: &mut [u8]) -> (u8, usize) {
        if self.is("spells the numbers of a refused line") && answer != 0 {
            let text = format!("{seq} {block} {version} {words} {answer}\n");
            let bytes = text.len().min(room.len());
            room[..bytes].copy_from_slice(&text.as_bytes()[..bytes]);
            return (0, bytes);
        }
        let answer = if self.is("spells an answer of 256 as accepted") { answer % 256 } else { answer };
        Model.line_text(seq, block, version, words, answer, room)
    }

    fn last_text(&self, cut: u32, fields: u64, room: &mut [u8]) -> (u8, usize) {
        let (number, bytes) = Model.last_text(cut, fields, room);
        if self.is("writes what fits of a text") && number == 9 {
            let mut whole = [0; 105];
            Model.last_text(cut, fields, &mut whole);
            room.copy_from_slice(&whole[..room.len()]);
        }
        (number, bytes)
    }

    fn salvage(&self, input: &[u8], recording: &mut [u8], report: &mut [usize], scratch: &mut [u16]) -> SalvageAnswer {
        if !wrong_salvage::SALVAGE_FAULTS.contains(&self.0) {
            return Model.salvage(input, recording, report, scratch);
        }
        wrong_salvage::salvage(self.0, input, recording, report, scratch)
    }

    fn list(&self, recording: &[u8]) -> String {
        let listing = Model.list(recording);
        if self.is("counts the cut field") {
            if let Some((front, last)) = listing.rsplit_once("cut ") {
                let fields: usize = last.trim().parse().unwrap();
                return format!("{front}cut {}\n", fields + 1);
            }
        }
        if self.is("lists other tags as 1") {
            return listing.replace("- 15\n", "- 1\n");
        }
        if self.is("lists the count of the header") {
            return listing.replace(" 20 0\n", " 22 0\n");
        }
        listing
    }
}
