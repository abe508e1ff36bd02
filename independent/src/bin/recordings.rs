//! recordings DIR [SEED COUNT]: writes recordings for the listing program into DIR, each as NAME.rec beside the
//! listing that the model gives it, NAME.txt: one with every answer that a listing can have, the printed example,
//! what the program `sample` makes, the widest scans, block 2 of every version, an empty one, one cut in a tag, a length
//! and a body each, and COUNT random ones.

use std::path::Path;
use std::process::ExitCode;

use independent::block::write;
use independent::check::check_bytes;
use independent::document::header;
use independent::inputs::{digits, field, recording, scanned, tag_at, Dice};
use independent::recording::list;
use independent::rows::{c_of_n, id_of_block, records, LARGEST_N};
use independent::sounder_blocks::{put_frame, put_number, put_tag};
use independent::tags::{LeapDays, Tag};

/// A block of the narrowest scan.
fn block(number: u8, version: u8) -> Vec<u8> {
    scanned(number, version, 1)
}

/// The same block with three equal copies of another header, their checks right.
fn reheaded(mut block: Vec<u8>, change: impl Fn(&mut [u8])) -> Vec<u8> {
    for k in 0..3 {
        let copy = &mut block[k * 30..][..30];
        change(copy);
        let check = check_bytes(&copy[..28]);
        copy[28..].copy_from_slice(&check);
    }
    block
}

fn with_bit(mut block: Vec<u8>, byte: usize, bit: u8) -> Vec<u8> {
    block[byte] ^= bit;
    block
}

fn resealed(mut block: Vec<u8>) -> Vec<u8> {
    let end = block.len() - 2;
    let check = check_bytes(&block[90..end]);
    block[end..].copy_from_slice(&check);
    block
}

fn every_answer() -> Vec<u8> {
    let mut bytes = Vec::new();
    let mut add = |tag: u8, body: &[u8]| bytes.extend(field(tag, body));
    for number in 0..12 {
        add(1, &block(number, number % 4));
    }
    for version in 0..4 {
        add(1, &block(11, version));
    }
    let good = || block(3, 2);
    // one copy hit, two copies hit: still read
    add(1, &with_bit(good(), 4, 0x10));
    add(1, &with_bit(with_bit(good(), 4, 0x10), 65, 1));
    add(1, &[]);
    add(1, &good()[..89]);
    add(1, &with_bit(with_bit(with_bit(good(), 4, 0x10), 35, 2), 65, 1)); // 2
    let mut differ = good();
    differ[..30].copy_from_slice(&block(3, 1)[..30]);
    add(1, &differ); // 3
    add(1, &reheaded(good(), |copy| copy[0] = 0)); // 4
    add(1, &reheaded(good(), |copy| copy[0] = 15)); // 4, the idle block
    add(1, &reheaded(good(), |copy| copy[7] = 4)); // 5
    add(1, &reheaded(good(), |copy| copy[1] = 8)); // 6
    add(1, &reheaded(good(), |copy| copy[3] = 23)); // 7
    add(1, &reheaded(good(), |copy| copy[2..4].copy_from_slice(&[0, 1]))); // 7, a count too small
    add(1, &good()[..good().len() - 1]); // 8
    add(1, &[good(), vec![0]].concat()); // 8
    add(1, &with_bit(good(), 100, 0x40)); // 10
    add(1, &resealed(with_bit(good(), 90 + 2_679, 1))); // 11
    add(2, &good()); // 15
    add(0, &[]); // 15
    add(1, &good());
    bytes
}

/// The scope's example: an acceptable block 3 of version 2 with C = 20, and 89 bytes.
fn example() -> Vec<u8> {
    [field(1, &block(3, 2)), field(1, &[0; 89])].concat()
}

/// So many milliseconds behind the midnight that begins 2008 day 61.
fn on_day_61(ms: i64) -> Tag {
    let midnight = Tag { year: 2008, day: 61, ..Tag::default() }.time(&LeapDays::new());
    tag_at(midnight + ms, false)
}

/// Words that can be told from their neighbours.
fn some_words(c: u16) -> Vec<u16> {
    (0..c).map(|k| k % 61).collect()
}

/// A block of such words with a SPS time, of data or fill.
fn made(number: u8, size: u8, c: u16, version: u8, is_fill: bool, time: Tag) -> Vec<u8> {
    made_of(number, size, version, is_fill, time, &some_words(c))
}

fn made_of(number: u8, size: u8, version: u8, is_fill: bool, time: Tag, words: &[u16]) -> Vec<u8> {
    let mut header = header(id_of_block(number), size, version, words.len() as u16);
    header[8] = if is_fill { 0 } else { 1 };
    header[16..24].copy_from_slice(&digits(&time));
    let mut dest = vec![0; 32_000];
    let (answer, length) = write(&header, words, &mut dest);
    assert_eq!(answer, 0);
    dest.truncate(length);
    dest
}

/// Eleven times, a fifth of a second apart: three in second 59 of the last minute of 2008, five in second 60, and three
/// in the first second of 2009.
fn over_the_leap_second() -> Vec<Tag> {
    let second = |second: u8| Tag { year: 2008, day: 366, hour: 23, minute: 59, second, ..Tag::default() };
    let next_year = Tag { year: 2009, day: 1, ..Tag::default() };
    let within = |tag: Tag, first: u16, last: u16| {
        (first..=last).step_by(200).map(move |millisecond| Tag { millisecond, ..tag })
    };
    within(second(59), 500, 900).chain(within(second(60), 100, 900)).chain(within(next_year, 100, 500)).collect()
}

/// The tag of the last star sense, counted from 0.
const STAR_SENSE: usize = 10;

/// The words of a Sounder documentation block between these pixels: channel 4 detector 2, channel 18 detector 3 and
/// channel 19 detector 4 are suspect, and there was no star sense, so that its tag is no time.
fn sounder_words(west: u32, east: u32) -> Vec<u16> {
    let mut words = some_words(8_040);
    // GOES-P, SPS 1, Sounder documentation data, first of its series and not the last, block count 1, one record.
    words[..9].copy_from_slice(&[15, 1, 32, 63, 0, 0, 0, 1, 0]);
    words[32..42].copy_from_slice(&[0, 0x04, 0, 0, 0, 0, 0, 0, 0x02, 0x10]);
    put_number(&mut words, 43, 263);
    put_number(&mut words, 45, 25);
    for tag in 0..15 {
        let time = digits(&on_day_61(13_200 + 100 * tag as i64));
        put_tag(&mut words, tag, if tag == STAR_SENSE { &[0; 8] } else { &time });
    }
    put_frame(&mut words, &[12, 100, 397, west, east, 349, 600]);
    words
}

/// What the program `sample` makes: a scan of a hundred pixels over midnight; blocks 11; block 3 hit in one copy, hit in
/// its field, a byte short, under another tag, and short of a header; scans of one pixel that a watch with a limit of
/// 5,000 ms closes as late, clock back and broken; a scan of one pixel over the leap second at the end of 2008; block 2
/// of 84 words in versions 2 and 3; two Sounder documentation blocks, west and east exchanged in the second. Block 1 of
/// the broken scan is fill, and blocks 2, 5 and 10 over the leap second are.
fn sample() -> Vec<u8> {
    let scanned_at = |number: u8, n: usize, is_fill: bool, time: Tag| match number {
        0 => made(0, 8, 8_040, 2, is_fill, time),
        _ => made(number, 10, c_of_n(number, 2, n) as u16, 2, is_fill, time),
    };
    let scanned = |number: u8, n: usize, ms: i64| scanned_at(number, n, false, on_day_61(ms));
    let mut bytes = Vec::new();
    let mut add = |tag: u8, body: &[u8]| bytes.extend(field(tag, body));
    for number in 0..=10 {
        add(1, &scanned(number, 100, 100 * number as i64 - 500));
    }
    for (size, c, version) in [(8, 8_040, 0), (6, 10_720, 1), (10, 6_432, 2), (8, 8_040, 3)] {
        add(1, &made(11, size, c, version, false, on_day_61(600 + 100 * version as i64)));
    }
    let third = scanned(3, 100, 1_000);
    add(1, &with_bit(third.clone(), 5, 16));
    add(1, &with_bit(third.clone(), 200, 1));
    add(1, &third[..third.len() - 1]);
    add(2, &third);
    add(1, &third[..third.len() - 2_700]);
    for (number, ms) in [(0, 1_500), (1, 6_500), (2, 11_501), (0, 12_000), (1, 12_100), (2, 12_099)] {
        add(1, &scanned(number, 1, ms));
    }
    add(1, &scanned(0, 1, 12_500));
    add(1, &scanned_at(1, 1, true, on_day_61(12_600)));
    add(1, &with_bit(scanned(2, 1, 12_700), 200, 1));
    add(1, &scanned(3, 1, 12_800));
    for (number, time) in over_the_leap_second().into_iter().enumerate() {
        add(1, &scanned_at(number as u8, 1, [2, 5, 10].contains(&number), time));
    }
    add(1, &made(2, 10, 84, 2, false, on_day_61(13_000)));
    add(1, &made(2, 10, 84, 3, false, on_day_61(13_100)));
    for (ms, west, east) in [(13_200, 600, 1_200), (13_300, 1_200, 600)] {
        add(1, &made_of(11, 8, 3, false, on_day_61(ms), &sounder_words(west, east)));
    }
    bytes
}

/// The blocks of the widest scan, which take the most room: with three records in block 2, and with four.
fn widest() -> Vec<u8> {
    let scan = |version| (1..=10).flat_map(move |number| field(1, &scanned(number, version, LARGEST_N)));
    scan(2).chain(scan(3)).collect()
}

/// Block 2 of every version, the narrowest one and one of 84 words, which are three records or four; and each of them
/// once more under a version with the other row, its count kept.
fn block_2() -> Vec<u8> {
    let mut bytes = Vec::new();
    for version in 0..4 {
        let other = if version == 3 { 2 } else { 3 };
        for block in [block(2, version), scanned(2, version, 84 / records(2, version) - 16)] {
            bytes.extend(field(1, &block));
            bytes.extend(field(1, &reheaded(block, |copy| copy[7] = other)));
        }
    }
    bytes
}

fn save(dir: &Path, name: &str, bytes: &[u8]) -> std::io::Result<()> {
    std::fs::write(dir.join(format!("{name}.rec")), bytes)?;
    std::fs::write(dir.join(format!("{name}.txt")), list(bytes))
}

fn save_all(dir: &Path, seed: u64, count: u64) -> std::io::Result<()> {
    save(dir, "every", &every_answer())?;
    save(dir, "example", &example())?;
    save(dir, "sample", &sample())?;
    save(dir, "widest", &widest())?;
    save(dir, "block-2", &block_2())?;
    save(dir, "empty", &[])?;
    let whole = field(1, &block(5, 0));
    for (name, end) in [("cut-tag", 1), ("cut-length", 2), ("cut-front", 3), ("cut-body", 1_000)] {
        save(dir, name, &[&whole[..], &whole[..end]].concat())?;
    }
    for number in 0..count {
        save(dir, &format!("random-{number}"), &recording(&mut Dice::for_case(seed, number)))?;
    }
    Ok(())
}

fn main() -> ExitCode {
    let words: Vec<String> = std::env::args().skip(1).collect();
    let (dir, seed, count) = match words.as_slice() {
        [dir] => (dir, Ok(0), Ok(0)),
        [dir, seed, count] => (dir, seed.parse(), count.parse()),
        _ => return usage(),
    };
    let (Ok(seed), Ok(count)) = (seed, count) else { return usage() };
    match save_all(Path::new(dir), seed, count) {
        Ok(()) => ExitCode::SUCCESS,
        Err(why) => {
            eprintln!("{dir}: {why}");
            ExitCode::FAILURE
        }
    }
}

fn usage() -> ExitCode {
    eprintln!("usage: recordings DIR [SEED COUNT]");
    ExitCode::from(2)
}

#[cfg(test)]
mod tests {
    use independent::block::read;
    use independent::header::meaning;
    use independent::library::{OfferAnswer, StatusAnswer, SuspectAnswer};
    use independent::recording::list;
    use independent::rows::LARGEST_C;
    use independent::status::{detectors, status, suspect, Detector};
    use independent::tags::Tag;
    use independent::watch::{begin, offer, Verdict};

    #[test]
    fn block_2_goes_by_its_version() {
        let listed = "1 2 0 51 0, 2 - - - 7, 3 2 0 84 0, 4 2 3 84 0, 5 2 1 51 0, 6 - - - 7, 7 2 1 84 0, 8 2 3 84 0, \
                      9 2 2 51 0, 10 - - - 7, 11 2 2 84 0, 12 2 3 84 0, 13 2 3 68 0, 14 - - - 7, 15 2 3 84 0, 16 2 2 84 0";
        let lines = listed.replace(", ", "\n");
        assert_eq!(list(&super::block_2()), format!("seq block version words answer\n{lines}\nend 16\n"));
    }

    #[test]
    fn the_widest_scans_have_the_words_of_their_versions() {
        let listing = list(&super::widest());
        for line in ["2 2 2 15756 0".into(), format!("12 2 3 {LARGEST_C} 0"), "end 20".into()] {
            assert!(listing.contains(&format!("\n{line}\n")), "{line} in {listing}");
        }
        assert!(!listing.contains('-'), "{listing}");
    }

    /// The tag and the body of each field of the sample.
    fn fields() -> Vec<(u8, Vec<u8>)> {
        let bytes = super::sample();
        let mut fields = Vec::new();
        let mut rest = &bytes[..];
        while let [tag, high, low, body @ ..] = rest {
            let (body, behind) = body.split_at(256 * *high as usize + *low as usize);
            fields.push((*tag, body.to_vec()));
            rest = behind;
        }
        fields
    }

    /// What a watch with a limit of 5,000 ms says to the accepted blocks of the sample, by the leap days that are lent.
    fn watched(leap_days: &[u32]) -> Vec<OfferAnswer> {
        let mut watch = begin(5_000).1;
        let mut answers = Vec::new();
        for (tag, body) in fields() {
            let answer = read(&body, &mut [0; 22_000]);
            if tag == 1 && answer.number == 0 {
                let block = meaning(&answer.header).unwrap().block;
                let valid = answer.header[8].into();
                answers.push(offer(&mut watch, block, valid, &answer.header[16..24], leap_days));
            }
        }
        answers
    }

    fn verdicts(leap_days: &[u32]) -> Vec<Verdict> {
        watched(leap_days).iter().map(|answer| answer.verdict).collect()
    }

    /// Each verdict that hands over fill blocks, the set and the count.
    fn handed_over(leap_days: &[u32]) -> Vec<(Verdict, u32, u32)> {
        let handed = |answer: &OfferAnswer| (answer.fill, answer.count) != (0, 0);
        watched(leap_days)
            .into_iter()
            .filter(handed)
            .map(|answer| (answer.verdict, answer.fill, answer.count))
            .collect()
    }

    /// The verdicts over the sample, with those of its scan over the leap second.
    fn with_leap_scan(scan: &[Verdict]) -> Vec<Verdict> {
        use Verdict::*;
        let whole = [&[Opened][..], &[Kept; 9], &[Complete], &[Stray; 5]].concat();
        let closed = [Opened, Kept, Late, Opened, Kept, ClockBack, Opened, Kept, Broken];
        [&whole[..], &closed, scan, &[Stray; 4]].concat()
    }

    #[test]
    fn a_watch_over_the_sample_meets_every_verdict() {
        use Verdict::*;
        let complete = [&[Opened][..], &[Kept; 9], &[Complete]].concat();
        assert_eq!(verdicts(&[2_008_366]), with_leap_scan(&complete));
    }

    #[test]
    fn two_closings_of_the_sample_hand_over_fill_blocks() {
        use Verdict::*;
        assert_eq!(handed_over(&[2_008_366]), [(Broken, 1 << 1, 1), (Complete, 1 << 2 | 1 << 5 | 1 << 10, 3)]);
        // Without the leap day block 5 is refused and block 10 a stray.
        assert_eq!(handed_over(&[]), [(Broken, 1 << 1, 1), (Broken, 1 << 2, 1)]);
    }

    /// Blocks 3 to 7 stand in second 60, and block 8 is not the one expected then.
    #[test]
    fn without_its_leap_day_five_blocks_of_the_sample_are_refused() {
        use Verdict::*;
        let broken = [&[Opened, Kept, Kept][..], &[Refused(12); 5], &[Broken], &[Stray; 2]].concat();
        assert_eq!(verdicts(&[]), with_leap_scan(&broken));
    }

    /// The words of the sample's last two fields, which are 44 and 45.
    fn sounder_blocks() -> [Vec<u16>; 2] {
        let fields = fields();
        assert_eq!(fields.len(), 45);
        [43, 44].map(|place| {
            let (tag, body) = &fields[place];
            let mut words = vec![0; 8_040];
            let answer = read(body, &mut words);
            assert_eq!((*tag, answer.number, answer.words), (1, 0, 8_040));
            assert_eq!((answer.header[0], answer.header[1], answer.header[7], answer.header[8]), (11, 8, 3, 1));
            assert_eq!(answer.header[16..23], [0x20, 0x08, 0x06, 0x10, 0x00, 0x01, 0x32 + place as u8 - 43]);
            words
        })
    }

    #[test]
    fn the_sample_has_a_sounder_block_with_three_suspect_detectors() {
        let [words, _] = sounder_blocks();
        let answer = status(&words, &[]);
        let mut tags = std::array::from_fn(|tag| (0, super::on_day_61(13_200 + 100 * tag as i64)));
        tags[10] = (12, Tag::default());
        let frame = [12, 100, 397, 600, 1_200, 349, 600];
        let wanted =
            StatusAnswer { suspects: 3, first: (4, 2), raw_count: 263, block_count: 25, frame, tags, ..answer };
        assert_eq!((answer.number, answer.word), (0, 0));
        assert_eq!(answer, wanted);
        let is_suspect = |(channel, detector): &Detector| suspect(&words, &[], *channel, *detector).suspect;
        assert_eq!(detectors().filter(is_suspect).collect::<Vec<_>>(), [(4, 2), (18, 3), (19, 4)]);
        // Its SAD ID, and the words that nothing is put into.
        assert_eq!(words[..10], [15, 1, 32, 63, 0, 0, 0, 1, 0, 9]);
        assert!((46..58).chain([178, 179]).chain(194..8_040).all(|k| words[k] as usize == k % 61));
    }

    #[test]
    fn the_last_field_of_the_sample_has_its_pixels_exchanged() {
        let [good, words] = sounder_blocks();
        assert_eq!(status(&words, &[]), StatusAnswer::refused(22, 189));
        assert_eq!(suspect(&words, &[], 4, 2), SuspectAnswer::refused(22, 189));
        let differ: Vec<usize> = (1..=8_040).filter(|number| words[number - 1] != good[number - 1]).collect();
        assert_eq!(differ, [187, 188, 189, 190]);
    }

    #[test]
    fn the_blocks_over_the_leap_second_are_a_fifth_of_a_second_apart() {
        let leap_days = independent::tags::leap_days(&[2_008_366]).unwrap();
        let times: Vec<i64> = super::over_the_leap_second().iter().map(|tag| tag.time(&leap_days)).collect();
        assert_eq!(times.len(), 11);
        assert!(times.windows(2).all(|pair| pair[1] - pair[0] == 200), "{times:?}");
    }
}
