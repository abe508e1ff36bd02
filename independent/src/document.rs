//! The numbered table, the further run cases, block 2 by version, the listing's
//! example, the salvage's, leap seconds, which blocks were fill and the errors
//! trainees bring, with the answers that the specification prints; the Sounder's
//! status has a file of its own. Nothing here asks the model, so it is checked
//! like any library.

use std::fmt::Debug;

use crate::check::check_word;
use crate::document_status;
use crate::inputs::{digits, field};
use crate::library::{Library, OfferAnswer, SalvageAnswer};
use crate::salvage::text;
use crate::tags::Tag;
use crate::tapes;
use crate::watch::{Verdict, Watch, VALID};

pub struct Findings {
    pub run: usize,
    pub wrong: Vec<String>,
}

impl Findings {
    pub(crate) fn expect<T: PartialEq + Debug>(&mut self, what: &str, got: T, wanted: T) {
        self.run += 1;
        if got != wanted {
            self.wrong.push(format!("{what}\n  answered: {got:?}\n  printed:  {wanted:?}"));
        }
    }
}

/// A header with zeros in every word that is not named.
pub fn header(id: u8, size: u8, version: u8, c: u16) -> [u8; 28] {
    let mut header = [0; 28];
    header[0] = id;
    header[1] = size;
    header[2..4].copy_from_slice(&(c + 2).to_be_bytes());
    header[7] = version;
    header
}

fn written(library: &dyn Library, header: &[u8], words: &[u16]) -> (u8, Vec<u8>) {
    let mut dest = vec![0x5A; 32_000];
    let (number, length) = library.write(header, words, &mut dest);
    dest.truncate(length);
    (number, dest)
}

fn read_number(library: &dyn Library, block: &[u8]) -> u8 {
    library.read(block, &mut [0; 22_000]).number
}

fn reseal(block: &mut [u8]) {
    let end = block.len() - 2;
    let check = check_word(&block[90..end]);
    block[end..].copy_from_slice(&check.to_be_bytes());
}

/// A block of so many ten-bit words, all zero, under any header.
fn zeros(lent: &[u8; 28], c: u16) -> Vec<u8> {
    let mut copy = lent.to_vec();
    copy.extend(check_word(lent).to_be_bytes());
    let mut block = copy.repeat(3);
    block.resize(92 + ((10 * c as usize).div_ceil(16) * 2).max(2_680), 0);
    reseal(&mut block);
    block
}

/// The same block under another version, each copy's check made good.
fn of_version(block: &[u8], version: u8) -> Vec<u8> {
    let mut block = block.to_vec();
    for copy in block.chunks_exact_mut(30).take(3) {
        copy[7] = version;
        let check = check_word(&copy[..28]);
        copy[28..].copy_from_slice(&check.to_be_bytes());
    }
    block
}

/// The field of a block whose words are all ones: its bytes and its fill bits.
fn field_and_fill(library: &dyn Library, id: u8, version: u8, c: u16) -> (u8, usize, u32) {
    let (number, block) = written(library, &header(id, 10, version, c), &vec![1023; c as usize]);
    let mut fill = 0;
    let bytes = block.len().saturating_sub(92);
    for byte in block.iter().rev().skip(2).take(bytes) {
        fill += byte.trailing_zeros().min(8);
        if *byte != 0 {
            break;
        }
    }
    (number, bytes, fill)
}

fn field_starts(library: &dyn Library, found: &mut Findings, id: u8, size: u8, c: u16, bytes: &[u8]) {
    let mut words = vec![0; c as usize];
    words[..4].copy_from_slice(&[1, 2, 3, 4]);
    let (number, block) = written(library, &header(id, size, 1, c), &words);
    let start = block.get(90..90 + bytes.len()).unwrap_or(&[]).to_vec();
    found.expect("words 1, 2, 3, 4 written", (number, start), (0, bytes.to_vec()));
    let mut room = vec![9; c as usize];
    let answer = library.read(&block, &mut room);
    found.expect("words 1, 2, 3, 4 read", (answer.number, answer.words, room), (0, c as usize, words));
}

pub(crate) fn clock(year: u16, day: u16, hour: u8, minute: u8, second: u8, millisecond: u16) -> Tag {
    Tag { year, day, hour, minute, second, millisecond, flywheel: false }
}

const LATE_TAG: [u8; 8] = [0x20, 0x08, 0x06, 0x02, 0x35, 0x95, 0x99, 0x99];
const NEXT_TAG: [u8; 8] = [0x20, 0x08, 0x06, 0x10, 0x00, 0x00, 0x00, 0x00];

pub fn table(library: &dyn Library, found: &mut Findings) {
    let sizes = |id, c| {
        let (number, bytes, _) = field_and_fill(library, id, 0, c);
        (number, bytes)
    };
    found.expect("row 1", sizes(1, 68), (0, 2_680));
    found.expect("row 2", sizes(1, 21_008), (0, 26_260));
    found.expect("row 3", field_and_fill(library, 2, 0, 15_756), (0, 19_696, 8));
    found.expect("row 4", field_and_fill(library, 3, 0, 20_960), (0, 26_200, 0));
    found.expect("row 5", field_and_fill(library, 1, 0, 2_144), (0, 2_680, 0));
    found.expect("row 6", field_and_fill(library, 1, 0, 2_148), (0, 2_686, 8));
    field_starts(library, found, 3, 10, 20, &[0x00, 0x40, 0x20, 0x0C, 0x04]);
    field_starts(library, found, 11, 6, 10_720, &[0x04, 0x20, 0xC4]);
    found.expect("row 9, tag", library.read_tag(&LATE_TAG, &[]), (0, clock(2008, 60, 23, 59, 59, 999)));
    found.expect("row 9, later", library.elapsed(&LATE_TAG, &NEXT_TAG, &[]), (0, 1));
    found.expect("row 9, backward", library.elapsed(&NEXT_TAG, &LATE_TAG, &[]), (0, -1));
    let mut marked = LATE_TAG;
    marked[2] = 0x86;
    let with_mark = Tag { flywheel: true, ..clock(2008, 60, 23, 59, 59, 999) };
    found.expect("row 10, tag", library.read_tag(&marked, &[]), (0, with_mark));
    found.expect("row 10, same time", library.elapsed(&LATE_TAG, &marked, &[]), (0, 0));
    found.expect("row 10, written", library.write_tag(&with_mark, &[]), (0, marked));
    let day_366 = |year| [0x20, year, 0x36, 0x60, 0, 0, 0, 0];
    found.expect("row 11, leap", library.read_tag(&day_366(0x08), &[]), (0, clock(2008, 366, 0, 0, 0, 0)));
    found.expect("row 11, common", library.read_tag(&day_366(0x07), &[]), (12, Tag::default()));
    found.expect("row 11, written", library.write_tag(&clock(2007, 366, 0, 0, 0, 0), &[]), (12, [0; 8]));
    let old = [0x20, 0x07, 0x36, 0x50, 0, 0, 0, 0];
    let new = [0x20, 0x08, 0x00, 0x10, 0, 0, 0, 0];
    found.expect("row 12", library.elapsed(&old, &new, &[]), (0, 86_400_000));
    let mut words = vec![0; 8_040];
    words[..3].copy_from_slice(&[1, 2, 3]);
    found.expect("row 13", library.sounder(&words), (0, [true; 2]));
    words[2] = 2;
    found.expect("row 13, otherwise", library.sounder(&words), (0, [false, true]));
}

pub fn further_cases(library: &dyn Library, found: &mut Findings) {
    for c in [64, 21_012] {
        let lent = header(1, 10, 0, c);
        found.expect("count refused by the writer", written(library, &lent, &vec![0; c as usize]).0, 7);
        found.expect("count refused by the reader", read_number(library, &zeros(&lent, c)), 7);
        let part = library.record(&lent, &vec![0; c as usize], 1);
        found.expect("count refused for a record", part, (7, 0, 0));
    }
    for length in [0, 1, 89] {
        found.expect("fewer than 90 bytes", read_number(library, &vec![0; length]), 1);
    }
    found.expect("90 bytes, no copy passes", read_number(library, &[0xFF; 90]), 2);
    for (id, size, c) in [(240, 8, 8_040), (1, 10, 68), (2, 10, 15_756), (10, 10, 20), (11, 6, 10_720)] {
        let (number, block) = written(library, &header(id, size, 3, c), &vec![1; c as usize]);
        found.expect("block written", number, 0);
        found.expect("block read", read_number(library, &block), 0);
        let short = &block[..block.len().saturating_sub(1)];
        found.expect("one byte short", read_number(library, short), 8);
        let long = [&block[..], &[0]].concat();
        found.expect("one byte long", read_number(library, &long), 8);
    }
    // Table 3-5: id 240 is block 0, and 0 is none.
    found.expect("id 0", written(library, &header(0, 8, 0, 8_040), &[0; 8_040]).0, 4);
    // The count is two more than C, so 0 and 1 are too small for it.
    for count in [0, 1, 2] {
        let mut small = header(1, 10, 0, 0);
        small[3] = count;
        found.expect("count too small", library.write(&small, &[], &mut []), (7, 0));
    }
    found.expect("check word", library.check_word(b"123456789"), 0xD64E);
}

/// Four records of the widest scan, as in row 2: their words, and the bytes of their field.
const FOUR_WIDEST: (u16, usize) = (21_008, 26_260);

/// Block 2 has three records up to version 2, and four in version 3; block 1 has four throughout.
pub fn block_2(library: &dyn Library, found: &mut Findings) {
    block_2_counts(library, found);
    block_2_records(library, found);
    block_2_places(library, found);
    block_2_read_back(library, found);
    block_1_stays(library, found);
}

fn block_2_counts(library: &dyn Library, found: &mut Findings) {
    let (most, bytes) = FOUR_WIDEST;
    // 15,756 words are four records too, of 3,939 each.
    let small = [(48, 7, 7), (51, 0, 7), (64, 7, 7), (68, 7, 0), (84, 0, 0)];
    let large = [(15_756, 0, 0), (15_759, 7, 7), (most, 7, 0), (most + 4, 7, 7)];
    for (c, old, new) in small.into_iter().chain(large) {
        // A version above 3 is refused whatever the count.
        for (version, number) in [(0, old), (1, old), (2, old), (3, new), (4, 5)] {
            let lent = header(2, 10, version, c);
            let words = vec![0; c as usize];
            let what = |who| format!("block 2 of version {version}, {c} words, {who}");
            found.expect(&what("writer"), written(library, &lent, &words).0, number);
            found.expect(&what("reader"), read_number(library, &zeros(&lent, c)), number);
            found.expect(&what("record access"), library.record(&lent, &words, 1).0, number);
        }
    }
    let fields = [(68, 2_680, 20_760), (2_144, 2_680, 0), (2_148, 2_686, 8), (15_756, 19_696, 8), (most, bytes, 0)];
    for (c, bytes, fill) in fields {
        let what = format!("field of block 2 of version 3, {c} words");
        found.expect(&what, field_and_fill(library, 2, 3, c), (0, bytes, fill));
    }
}

fn block_2_records(library: &dyn Library, found: &mut Findings) {
    let no_such = (13, 0, 0);
    // 84 words are three records of 28 and four of 21.
    let old = [no_such, (0, 0, 28), (0, 28, 28), (0, 56, 28), no_such, no_such];
    let new = [no_such, (0, 0, 21), (0, 21, 21), (0, 42, 21), (0, 63, 21), no_such];
    for (version, parts) in [(0, old), (1, old), (2, old), (3, new)] {
        let lent = header(2, 10, version, 84);
        for (k, part) in parts.into_iter().enumerate() {
            let what = format!("record {k} of 84 words, block 2 of version {version}");
            found.expect(&what, library.record(&lent, &[0; 84], k), part);
        }
        found.expect("a word too few for its records", library.record(&lent, &[0; 83], 1), (9, 0, 0));
    }
    // The fourth record of the widest scan stands where three records end.
    let (most, _) = FOUR_WIDEST;
    let last = library.record(&header(2, 10, 3, most), &vec![0; most as usize], 4);
    found.expect("record 4 of the widest scan", last, (0, 15_756, 5_252));
}

fn block_2_places(library: &dyn Library, found: &mut Findings) {
    let no_such = (13, 0, 0);
    let first = [no_such, (0, 2, 1), (0, 2, 2), (0, 3, 1), no_such, no_such];
    let second = [no_such, (0, 4, 1), (0, 4, 2), (0, 6, 1), no_such, no_such];
    let third = [no_such, (0, 4, 1), (0, 4, 2), (0, 6, 1), (0, 6, 2), no_such];
    for (version, places) in [(0, first), (1, first), (2, second), (3, third), (4, [(5, 0, 0); 6])] {
        for (record, place) in (0..).zip(places) {
            let what = format!("place of record {record}, block 2 of version {version}");
            found.expect(&what, library.place(2, version, record), place);
        }
    }
}

/// Blocks that are written, read, listed, and read as if of the other version, which 84 and 15,756 words suit as well.
fn block_2_read_back(library: &dyn Library, found: &mut Findings) {
    let (most, _) = FOUR_WIDEST;
    let blocks = [
        (2, 51, 3, 7),
        (2, 84, 3, 0),
        (2, 15_756, 3, 0),
        (3, 68, 2, 7),
        (3, 84, 2, 0),
        (3, 15_756, 2, 0),
        (3, most, 2, 7),
    ];
    for (version, c, other, number) in blocks {
        let words: Vec<u16> = (0..c).map(|k| k % 1_021).collect();
        let lent = header(2, 10, version, c);
        let (_, block) = written(library, &lent, &words);
        let mut room = vec![9; c as usize];
        let answer = library.read(&block, &mut room);
        found.expect("block 2 read back", (answer.number, answer.header, answer.words), (0, lent, c as usize));
        found.expect("words of block 2", room == words, true);
        let listed = format!("seq block version words answer\n1 2 {version} {c} 0\nend 1\n");
        found.expect("block 2 listed", library.list(&field(1, &block)), listed);
        let mut room = vec![9; c as usize];
        let answer = library.read(&of_version(&block, other), &mut room);
        found.expect("block 2 of the other version", answer.number, number);
        found.expect("its words", room == words, number == 0);
    }
}

/// Block 1 has four records in every version.
fn block_1_stays(library: &dyn Library, found: &mut Findings) {
    for (version, channel) in [(0, 5), (1, 5), (2, 3), (3, 3)] {
        let lent = header(1, 10, version, 68);
        found.expect("block 1 of 68 words", written(library, &lent, &[0; 68]).0, 0);
        found.expect("its record 4", library.record(&lent, &[0; 68], 4), (0, 51, 17));
        found.expect("its place", library.place(1, version, 4), (0, channel, 2));
        found.expect("no record 5", library.record(&lent, &[0; 68], 5), (13, 0, 0));
        found.expect("nor its place", library.place(1, version, 5), (13, 0, 0));
        found.expect("block 1 of 51 words", written(library, &header(1, 10, version, 51), &[0; 51]).0, 7);
    }
}

pub fn listing(library: &dyn Library, found: &mut Findings) {
    let (_, block) = written(library, &header(3, 10, 2, 20), &[5; 20]);
    let good = field(1, &block);
    let short = field(1, &[0; 89]);
    let head = "seq block version words answer\n";
    let both = [&good[..], &short].concat();
    let wanted = format!("{head}1 3 2 20 0\n2 - - - 1\nend 2\n");
    found.expect("listing", library.list(&both), wanted);
    found.expect("empty listing", library.list(&[]), format!("{head}end 0\n"));
    let other = [&field(2, &block)[..], &good].concat();
    let wanted = format!("{head}1 - - - 15\n2 3 2 20 0\nend 2\n");
    found.expect("other tag", library.list(&other), wanted);
    for kept in [1, 2, 3, 4, short.len() - 1] {
        let cut = [&good[..], &short[..kept]].concat();
        found.expect("cut", library.list(&cut), format!("{head}1 3 2 20 0\ncut 1\n"));
    }
    for kept in [1, 2, 3, good.len() - 1] {
        found.expect("cut at once", library.list(&good[..kept]), format!("{head}cut 0\n"));
    }
}

/// A tape salvaged in rooms of so many bytes, numbers and words; what the program would print, and the recording.
fn salvaged(library: &dyn Library, tape: &[u8], rooms: [usize; 3]) -> (SalvageAnswer, String, Vec<u8>) {
    let [bytes, numbers, words] = rooms;
    let (mut recording, mut report) = (vec![0x5A; bytes], vec![0x5A; numbers]);
    let answer = library.salvage(tape, &mut recording, &mut report, &mut vec![0x5A; words]);
    recording.truncate(answer.bytes);
    report.truncate(3 * answer.entries);
    (answer, text(&report), recording)
}

const REPORT_HEAD: &str = "start bytes found changed\n";
/// The printed report, line by line.
pub const REPORT: [&str; 5] =
    ["start bytes found changed", "0 137 span -", "137 2772 block -", "2909 26352 block 1,3", "end 2"];
/// The words of the longest block, whatever the input.
const SCRATCH: usize = FOUR_WIDEST.0 as usize;

/// Rooms that are printed as numbers, and the tape of the printed report.
pub fn salvage(library: &dyn Library, found: &mut Findings) {
    salvage_rooms(library, found);
    salvage_report(library, found);
    salvage_lone_block(library, found);
}

fn salvage_rooms(library: &dyn Library, found: &mut Findings) {
    let rows = [(0, 0, 1), (89, 89, 1), (2_771, 2_771, 1), (2_772, 2_775, 3), (65_000, 65_069, 47)];
    for (length, bytes, entries) in rows {
        let tape = vec![0; length];
        let rooms = [bytes, 3 * entries, SCRATCH];
        let number = |rooms| salvaged(library, &tape, rooms).0;
        found.expect(&format!("no block in {length} bytes"), number(rooms), SalvageAnswer::refused(18));
        for one in (0..3).filter(|&one| rooms[one] > 0) {
            let mut small = rooms;
            small[one] -= 1;
            let what = format!("room {one} too small for {length} bytes");
            found.expect(&what, number(small), SalvageAnswer::refused(9));
        }
    }
}

fn salvage_report(library: &dyn Library, found: &mut Findings) {
    let tape = tapes::example();
    let (answer, printed, recording) = salvaged(library, &tape, [tape.len() + 30, 63, SCRATCH]);
    let longest = 92 + FOUR_WIDEST.1;
    let wanted = SalvageAnswer { number: 0, bytes: 3 + 2_772 + 3 + longest, entries: 3, blocks: 2 };
    found.expect("salvage of the printed report", answer, wanted);
    found.expect("printed report", printed, REPORT.map(|line| format!("{line}\n")).concat());
    // Copy 2 of the longest block was whole, and stands in all three places.
    let second = &tape[2_909 + 30..2_909 + 60];
    let blocks = [field(1, &tape[137..2_909]), field(1, &[&second.repeat(3), &tape[2_909 + 90..]].concat())];
    found.expect("its recording", recording == blocks.concat(), true);
}

/// 2,772 bytes hold a block, and nothing less does.
fn salvage_lone_block(library: &dyn Library, found: &mut Findings) {
    let block = zeros(&header(3, 10, 2, 20), 20);
    let rooms = [2_775, 9, SCRATCH];
    let (answer, printed, recording) = salvaged(library, &block, rooms);
    found.expect("a lone block", answer, SalvageAnswer { number: 0, bytes: 2_775, entries: 1, blocks: 1 });
    found.expect("its report", printed, format!("{REPORT_HEAD}0 2772 block -\nend 1\n"));
    found.expect("its field", recording, field(1, &block));
    for length in [89, 90, 2_770, 2_771] {
        let (answer, ..) = salvaged(library, &block[..length], rooms);
        found.expect("a block cut", answer, SalvageAnswer::refused(18));
    }
}

/// 2016 day 366 as a leap day.
pub(crate) const LEAP_DAY: u32 = 2_016_366;
const LAST_SECOND: [u8; 8] = [0x20, 0x16, 0x36, 0x62, 0x35, 0x95, 0x90, 0x00];
const LEAP_SECOND: [u8; 8] = [0x20, 0x16, 0x36, 0x62, 0x35, 0x96, 0x00, 0x00];
const LEAP_SECOND_ENDS: [u8; 8] = [0x20, 0x16, 0x36, 0x62, 0x35, 0x96, 0x09, 0x99];
const NEW_YEAR: [u8; 8] = [0x20, 0x17, 0x00, 0x10, 0x00, 0x00, 0x00, 0x00];

/// The verdict on a block of valid data.
fn offer_valid(library: &dyn Library, watch: &mut Watch, block: u8, tag: &[u8], leap_days: &[u32]) -> Verdict {
    library.offer(watch, block, VALID, tag, leap_days).verdict
}

/// The end of 2016, with its last day listed and not, and lists that are refused.
pub fn leap_seconds(library: &dyn Library, found: &mut Findings) {
    leap_second_tags(library, found);
    leap_second_times(library, found);
    leap_lists(library, found);
    list_before_tag(library, found);
    watch_refusals_in_order(library, found);
    last_tag_by_the_list_lent_now(library, found);
    scan_across_a_leap_second(library, found);
}

fn leap_second_tags(library: &dyn Library, found: &mut Findings) {
    let good = clock(2016, 366, 23, 59, 60, 999);
    let rows: [(&[u32], u8); 5] =
        [(&[LEAP_DAY], 0), (&[2_015_365, LEAP_DAY, 2_017_001], 0), (&[], 12), (&[2_016_365], 12), (&[2_017_001], 12)];
    for (list, number) in rows {
        let (tag, bytes) = if number == 0 { (good, LEAP_SECOND_ENDS) } else { (Tag::default(), [0; 8]) };
        found.expect(&format!("second 60, {list:?}"), library.read_tag(&LEAP_SECOND_ENDS, list), (number, tag));
        found.expect(&format!("second 60 written, {list:?}"), library.write_tag(&good, list), (number, bytes));
    }
    // Another hour, another minute, second 61, the day before, the day behind.
    let bad = [
        clock(2016, 366, 22, 59, 60, 0),
        clock(2016, 366, 23, 58, 60, 0),
        clock(2016, 366, 0, 0, 60, 0),
        clock(2016, 366, 23, 59, 61, 0),
        clock(2016, 365, 23, 59, 60, 0),
        clock(2017, 1, 23, 59, 60, 0),
        clock(2012, 366, 23, 59, 60, 0),
    ];
    for tag in bad {
        found.expect(&format!("{tag:?} written"), library.write_tag(&tag, &[LEAP_DAY]), (12, [0; 8]));
        found.expect(&format!("{tag:?}"), library.read_tag(&digits(&tag), &[LEAP_DAY]), (12, Tag::default()));
    }
}

fn leap_second_times(library: &dyn Library, found: &mut Findings) {
    let rows: [(&[u8], &[u8], i64); 6] = [
        (&LAST_SECOND, &LEAP_SECOND, 1_000),
        (&LEAP_SECOND, &NEW_YEAR, 1_000),
        (&LEAP_SECOND_ENDS, &NEW_YEAR, 1),
        (&LAST_SECOND, &NEW_YEAR, 2_000),
        (&NEW_YEAR, &LAST_SECOND, -2_000),
        (&LEAP_SECOND, &LEAP_SECOND_ENDS, 999),
    ];
    for (first, second, time) in rows {
        let what = format!("from {first:02X?} to {second:02X?}");
        found.expect(&what, library.elapsed(first, second, &[LEAP_DAY]), (0, time));
    }
    found.expect("without a leap second", library.elapsed(&LAST_SECOND, &NEW_YEAR, &[]), (0, 1_000));
    found.expect("its own day, not listed", library.elapsed(&LEAP_SECOND, &NEW_YEAR, &[]), (12, 0));
    // A listed day counts neither for itself nor for what is before it.
    for list in [2_016_001, 2_017_001, 2_017_002] {
        let what = format!("with {list} listed");
        found.expect(&what, library.elapsed(&LAST_SECOND, &NEW_YEAR, &[list]), (0, 1_000));
    }
    let (start, end) = (digits(&clock(0, 1, 0, 0, 0, 0)), digits(&clock(9_999, 365, 23, 59, 59, 999)));
    let all = 315_569_519_999_999;
    found.expect("all years", library.elapsed(&start, &end, &[]), (0, all));
    found.expect("all years, 64 leap days", library.elapsed(&start, &end, &days_of_1973(64)), (0, all + 64_000));
    found.expect("the last day listed", library.elapsed(&start, &end, &[9_999_365]), (0, all));
    found.expect("the first day listed", library.elapsed(&start, &end, &[1]), (0, all + 1_000));
}

/// So many successive days, none of which the other cases ask for.
fn days_of_1973(count: u32) -> Vec<u32> {
    (1_973_001..1_973_001 + count).collect()
}

pub(crate) fn bad_lists() -> Vec<Vec<u32>> {
    vec![
        days_of_1973(65),
        vec![LEAP_DAY, LEAP_DAY],
        vec![LEAP_DAY, 2_016_365],
        vec![2_016_000],
        vec![2_016_367],
        vec![2_016_999],
        vec![2_015_366],
        vec![1_900_366],
        vec![9_999_366],
        vec![10_000_001],
        vec![0],
        vec![1_972_182, 2_015_366, LEAP_DAY],
        vec![u32::MAX],
    ]
}

/// An idle and an open watch answer alike, and stay as they are.
fn leap_lists(library: &dyn Library, found: &mut Findings) {
    let late = clock(2008, 60, 23, 59, 59, 999);
    let lists = bad_lists().into_iter().map(|list| (list, 19));
    let good = [vec![], vec![1], vec![366], vec![9_999_365], vec![2_000_366], days_of_1973(64)];
    for (list, number) in lists.chain(good.map(|list| (list, 0))) {
        let what = |who| format!("list of {} from {:?} on, {who}", list.len(), list.first());
        let accepted = number == 0;
        let (tag, bytes) = if accepted { (late, LATE_TAG) } else { (Tag::default(), [0; 8]) };
        found.expect(&what("reader"), library.read_tag(&LATE_TAG, &list), (number, tag));
        found.expect(&what("writer"), library.write_tag(&late, &list), (number, bytes));
        let time = i64::from(accepted);
        found.expect(&what("elapsed time"), library.elapsed(&LATE_TAG, &NEXT_TAG, &list), (number, time));
        for open in [false, true] {
            let before = Watch { open, expected: 1, tag: late, limit: 1, fill: 0 };
            let mut watch = before;
            let verdict = offer_valid(library, &mut watch, 2, &NEXT_TAG, &list);
            let wanted = match (accepted, open) {
                (false, _) => Verdict::Refused(19),
                (true, false) => Verdict::Stray,
                (true, true) => Verdict::Broken,
            };
            found.expect(&what("watch"), verdict, wanted);
            found.expect(&what("watch afterwards"), watch == before, wanted != Verdict::Broken);
        }
    }
}

/// A tag that is bad too does not hide a bad list.
fn list_before_tag(library: &dyn Library, found: &mut Findings) {
    for list in bad_lists() {
        for tag in [&[][..], &LATE_TAG[..7], &[0xFF; 8], &[0; 9], &LEAP_SECOND] {
            found.expect("bad tag and list", library.read_tag(tag, &list), (19, Tag::default()));
            found.expect("bad tag and list, from", library.elapsed(tag, &LATE_TAG, &list), (19, 0));
            found.expect("bad tag and list, to", library.elapsed(&LATE_TAG, tag, &list), (19, 0));
        }
        let bad = clock(10_000, 0, 24, 60, 61, 1_000);
        found.expect("bad numbers and list", library.write_tag(&bad, &list), (19, [0; 8]));
    }
}

/// A record, list, block and tag with every ground for refusal; each one answered is mended.
fn watch_refusals_in_order(library: &dyn Library, found: &mut Findings) {
    let bad_tag = clock(2016, 366, 23, 59, 61, 0);
    let mut watch = Watch { open: true, expected: 11, tag: bad_tag, limit: 3_600_001, fill: 1 << 11 };
    let (mut list, mut block, mut tag) = (vec![LEAP_DAY, LEAP_DAY], 12, [0xFF; 8]);
    for number in [16, 13, 20, 19, 12, 4, 12] {
        let before = watch;
        let verdict = offer_valid(library, &mut watch, block, &tag, &list);
        found.expect("refusals in their order", (verdict, watch), (Verdict::Refused(number), before));
        match number {
            16 => watch.limit = 1_000,
            13 => watch.expected = 10,
            20 => watch.fill = 0,
            19 => list = vec![LEAP_DAY],
            12 if block == 12 => watch.tag.second = 60,
            4 => block = 10,
            _ => tag = NEW_YEAR,
        }
    }
    found.expect("all mended", offer_valid(library, &mut watch, block, &tag, &list), Verdict::Complete);
    // What an idle record is not asked for does not come before the list.
    let mut idle = Watch { open: false, expected: 11, tag: clock(10_000, 0, 0, 0, 0, 0), limit: 0, fill: 1 };
    found.expect("idle, set", offer_valid(library, &mut idle, 12, &[], &[0]), Verdict::Refused(20));
    idle.fill = 0;
    found.expect("idle", offer_valid(library, &mut idle, 12, &[], &[0]), Verdict::Refused(19));
    found.expect("idle, good list", offer_valid(library, &mut idle, 12, &[], &[LEAP_DAY]), Verdict::Refused(4));
    (idle.limit, idle.fill) = (3_600_001, 1);
    found.expect("idle, limit", offer_valid(library, &mut idle, 12, &[], &[0]), Verdict::Refused(16));
}

fn last_tag_by_the_list_lent_now(library: &dyn Library, found: &mut Findings) {
    let (_, mut watch) = library.begin(1_000);
    let opened = offer_valid(library, &mut watch, 0, &LEAP_SECOND, &[LEAP_DAY]);
    found.expect("opened in a leap second", opened, Verdict::Opened);
    found.expect("its tag", watch.tag, clock(2016, 366, 23, 59, 60, 0));
    let before = watch;
    for list in [&[][..], &[2_016_365]] {
        let verdict = offer_valid(library, &mut watch, 1, &NEW_YEAR, list);
        found.expect("last tag not listed now", (verdict, watch), (Verdict::Refused(12), before));
    }
    let verdict = offer_valid(library, &mut watch, 1, &NEW_YEAR, &[LEAP_DAY]);
    found.expect("listed again", verdict, Verdict::Kept);
    // From here on no tag is in a leap second, and any list will do.
    found.expect("no list", offer_valid(library, &mut watch, 2, &NEW_YEAR, &[]), Verdict::Kept);
}

/// Eleven tags 200 ms apart, from 23:59:59.200 to 00:00:00.200: two seconds.
fn scan_across_a_leap_second(library: &dyn Library, found: &mut Findings) {
    let tag = |block: u16| match 200 * (block + 1) {
        ms @ 0..1_000 => clock(2016, 366, 23, 59, 59, ms),
        ms @ 1_000..2_000 => clock(2016, 366, 23, 59, 60, ms - 1_000),
        ms => clock(2017, 1, 0, 0, 0, ms - 2_000),
    };
    let tags: Vec<[u8; 8]> = (0..=10).map(|block| digits(&tag(block))).collect();
    let scan = |limit: u32, list: &[u32]| -> Vec<Verdict> {
        let mut watch = library.begin(limit).1;
        (0..).zip(&tags).map(|(block, tag)| offer_valid(library, &mut watch, block, tag, list)).collect()
    };
    use Verdict::*;
    let whole = [&[Opened][..], &[Kept; 9], &[Complete]].concat();
    found.expect("scan across a leap second", scan(200, &[LEAP_DAY]), whole);
    let late = [&[Opened, Late][..], &[Stray; 9]].concat();
    found.expect("the same, a shorter limit", scan(199, &[LEAP_DAY]), late);
    // Without the day in the list five tags are bad, so that their blocks are missing when the next good one comes.
    let refused = [&[Opened][..], &[Kept; 3], &[Refused(12); 5], &[Broken, Stray]].concat();
    found.expect("the same, not listed", scan(200, &[]), refused);
    found.expect("its time", library.elapsed(&tags[0], &tags[10], &[LEAP_DAY]), (0, 2_000));
}

/// Fill blocks are kept while a scan is open, and handed over as it closes.
pub fn fill_blocks(library: &dyn Library, found: &mut Findings) {
    words_of_fill(library, found);
    fill_of_completed_scans(library, found);
    fill_of_other_scans(library, found);
    fill_stays_as_it_was(library, found);
    sets_out_of_bounds(library, found);
}

/// A tag at a second of 2008 day 60.
fn at(second: u8) -> [u8; 8] {
    digits(&clock(2008, 60, 0, 0, second, 0))
}

/// Table 3-5 calls 1 valid.
fn words_of_fill(library: &dyn Library, found: &mut Findings) {
    for (word, set) in [(1, 0), (0, 1), (2, 1), (3, 1), (128, 1), (255, 1), (256, 1), (257, 1), (u32::MAX, 1)] {
        let what = |when: &str| format!("data valid word {word}, {when}");
        let (_, mut watch) = library.begin(1_000);
        found.expect(&what("begun"), watch.fill, 0);
        let opened = library.offer(&mut watch, 0, word, &at(1), &[]);
        found.expect(&what("opened"), opened, OfferAnswer { verdict: Verdict::Opened, fill: 0, count: 0 });
        found.expect(&what("kept"), watch.fill, set);
        let broken = library.offer(&mut watch, 2, 1, &at(2), &[]);
        found.expect(&what("broken"), broken, OfferAnswer { verdict: Verdict::Broken, fill: set, count: set });
    }
}

/// A watch that was offered blocks from 0 on, a second apart, some of them fill, and its last answer.
fn offered(library: &dyn Library, last: u8, fill: &[u8]) -> (Watch, OfferAnswer) {
    let (_, mut watch) = library.begin(1_000);
    let mut answer = OfferAnswer::refused(0);
    for block in 0..=last {
        let word = if fill.contains(&block) { 0 } else { 1 };
        answer = library.offer(&mut watch, block, word, &at(10 + block), &[]);
    }
    (watch, answer)
}

fn fill_of_completed_scans(library: &dyn Library, found: &mut Findings) {
    let rows: [(&[u8], u32, u32); 8] = [
        (&[], 0, 0),
        (&[0], 1, 1),
        (&[9], 512, 1),
        (&[10], 1_024, 1),
        (&[0, 10], 1_025, 2),
        (&[3, 4, 5, 6], 120, 4),
        (&[7, 8, 9, 10], 1_920, 4),
        (&[0, 1, 2, 3, 4, 5, 6, 7, 8, 9, 10], 2_047, 11),
    ];
    for (blocks, fill, count) in rows {
        let (before, kept) = offered(library, 9, blocks);
        let what = |when: &str| format!("scan with fill {blocks:?}, {when}");
        found.expect(&what("kept"), kept, OfferAnswer { verdict: Verdict::Kept, fill: 0, count: 0 });
        found.expect(&what("so far"), before.fill, fill & !1_024);
        let (after, complete) = offered(library, 10, blocks);
        found.expect(&what("complete"), complete, OfferAnswer { verdict: Verdict::Complete, fill, count });
        found.expect(&what("idle"), after, Watch { limit: 1_000, ..Watch::default() });
    }
}

/// A scan up to block 3 with blocks 1 and 3 fill, closed by fill and by valid data, by block 0 and by others.
fn fill_of_other_scans(library: &dyn Library, found: &mut Findings) {
    use Verdict::*;
    let closings = [(12, ClockBack, 4), (15, Late, 4), (14, Broken, 5), (14, Broken, 10), (14, Broken, 11)];
    let by_block_0 = [(12, ClockBack, 0), (15, Late, 0), (14, Broken, 0)];
    for (second, verdict, block) in closings.into_iter().chain(by_block_0) {
        for word in [0, 1, 2] {
            let what = |when: &str| format!("{verdict:?} by block {block}, data valid word {word}, {when}");
            let (mut watch, _) = offered(library, 3, &[1, 3]);
            let answer = library.offer(&mut watch, block, word, &at(second), &[]);
            found.expect(&what("handed over"), answer, OfferAnswer { verdict, fill: 10, count: 2 });
            let opens = block == 0;
            found.expect(&what("opens"), (watch.open, watch.expected), (opens, u8::from(opens)));
            found.expect(&what("kept"), watch.fill, u32::from(opens && word != 1));
        }
    }
}

/// Refused offers and strays, all of them fill.
fn fill_stays_as_it_was(library: &dyn Library, found: &mut Findings) {
    let (open, _) = offered(library, 3, &[1, 3]);
    let (_, idle) = library.begin(1_000);
    let offers: [(u8, &[u8], &[u32], u8); 4] =
        [(4, &at(14)[..7], &[], 12), (4, &[0xFF; 8], &[], 12), (12, &at(14), &[], 4), (4, &at(14), &[0], 19)];
    for before in [open, idle] {
        for (block, tag, list, number) in offers {
            let mut watch = before;
            let answer = library.offer(&mut watch, block, 0, tag, list);
            found.expect("a refused block of fill", (answer, watch), (OfferAnswer::refused(number), before));
        }
    }
    for block in 1..=11 {
        let mut watch = idle;
        let answer = library.offer(&mut watch, block, 0, &at(14), &[]);
        let stray = OfferAnswer { verdict: Verdict::Stray, fill: 0, count: 0 };
        found.expect("a stray of fill", (answer, watch), (stray, idle));
    }
}

/// Lent records with sets in bounds and out of them, offered block 11.
fn sets_out_of_bounds(library: &dyn Library, found: &mut Findings) {
    let open = [(1, 0, 0), (1, 1, 1), (4, 8, 1), (4, 15, 4), (10, 512, 1), (10, 1_023, 10)];
    for (expected, fill, count) in open {
        let mut watch = Watch { open: true, expected, tag: clock(2008, 60, 0, 0, 1, 0), limit: 1_000, fill };
        let answer = library.offer(&mut watch, 11, 0, &at(2), &[]);
        let what = format!("block {expected} expected, set {fill}");
        found.expect(&what, answer, OfferAnswer { verdict: Verdict::Broken, fill, count });
    }
    let bad = [(1, 2), (1, 3), (4, 16), (4, 31), (4, 1_024), (10, 1_024), (10, 2_047), (10, 2_048), (10, 1 << 31)];
    let idle = [(0, 1), (1, 1), (10, 1), (10, 512), (11, 1_024), (255, 1 << 11), (255, 1 << 31)];
    let records = bad.map(|record| (true, record)).into_iter().chain(idle.map(|record| (false, record)));
    for (open, (expected, fill)) in records {
        let before = Watch { open, expected, tag: clock(2008, 60, 0, 0, 1, 0), limit: 1_000, fill };
        let mut watch = before;
        let answer = library.offer(&mut watch, 11, 0, &at(2), &[]);
        let what = format!("open {open}, block {expected} expected, set {fill}");
        found.expect(&what, (answer, watch), (OfferAnswer::refused(20), before));
    }
}

pub fn trainee_errors(library: &dyn Library, found: &mut Findings) {
    let lent = header(3, 10, 2, 20);
    let (_, block) = written(library, &lent, &[0x155; 20]);
    found.expect("block 3", block.len(), 2_772);
    if block.len() != 2_772 {
        return;
    }

    // Copy 1 unread: its version is damaged and the others decide.
    let mut damaged = block.clone();
    damaged[7] ^= 1;
    let answer = library.read(&damaged, &mut [0; 20]);
    found.expect("copy 1 damaged", (answer.number, answer.header, answer.copies), (0, lent, [false, true, true]));

    // Two copies damaged alike outvote the only one that passes.
    damaged[37] ^= 1;
    let answer = library.read(&damaged, &mut [0; 20]);
    found.expect("two copies alike", (answer.number, answer.header, answer.copies), (0, lent, [false, false, true]));

    // Low bits first, 1 would be read as 64.
    let mut room = [0; 20];
    let mut low = block.clone();
    low[90..95].copy_from_slice(&[0x00, 0x40, 0x20, 0x0C, 0x04]);
    reseal(&mut low);
    found.expect("number", library.read(&low, &mut room).number, 0);
    found.expect("high bits first", room[..4].to_vec(), vec![1, 2, 3, 4]);

    // Fill is no pixel: 20 words from a field that could hold 2,144.
    let mut room = [0xEEEE; 2_144];
    let answer = library.read(&block, &mut room);
    found.expect("words", answer.words, 20);
    found.expect("words behind", room[20..].iter().all(|&word| word == 0xEEEE), true);
    found.expect("record", library.record(&lent, &room, 1), (0, 0, 20));

    // Block 2 ended at a byte is one byte short.
    let (_, block) = written(library, &header(2, 10, 0, 15_756), &[1; 15_756]);
    found.expect("block 2", block.len(), 19_788);
    if block.len() == 19_788 {
        let mut at_byte = block.clone();
        at_byte.remove(90 + 19_695);
        reseal(&mut at_byte);
        found.expect("block 2 ended at a byte", read_number(library, &at_byte), 8);
    }

    // A tag one millisecond back closes the scan, however long the limit.
    let (_, mut watch) = library.begin(3_600_000);
    found.expect("opened", offer_valid(library, &mut watch, 0, &NEXT_TAG, &[]), Verdict::Opened);
    found.expect("clock back", offer_valid(library, &mut watch, 1, &LATE_TAG, &[]), Verdict::ClockBack);
    found.expect("idle", (watch.open, watch.expected, watch.tag), (false, 0, Tag::default()));

    // Word 7905 is outside the fourth section, word 7902 inside.
    let mut words = vec![0; 8_040];
    words[7_905 - 1] = 1;
    found.expect("word 7905", library.imager(&words), (0, [true; 4]));
    words[7_902 - 1] = 1;
    found.expect("word 7902", library.imager(&words), (0, [true, true, true, false]));
    words[7_906 - 1] = 1;
    found.expect("word 7906", library.imager(&words), (0, [true; 4]));
}

pub fn all(library: &dyn Library) -> Findings {
    let mut found = Findings { run: 0, wrong: Vec::new() };
    table(library, &mut found);
    further_cases(library, &mut found);
    block_2(library, &mut found);
    listing(library, &mut found);
    salvage(library, &mut found);
    leap_seconds(library, &mut found);
    fill_blocks(library, &mut found);
    document_status::status(library, &mut found);
    trainee_errors(library, &mut found);
    found
}
