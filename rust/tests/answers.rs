//! Each safe function: what it gives, what it refuses, and what it leaves.

use rahmisve::*;

const TAG: [u8; 8] = [0x20, 0x08, 0x06, 0x02, 0x35, 0x95, 0x99, 0x99];
const NEXT: [u8; 8] = [0x20, 0x08, 0x06, 0x10, 0, 0, 0, 0];
const VALID_WORD: u32 = VALID as u32;
const NO_FILL: Fill = Fill { blocks: 0, count: 0 };

fn header(id: u8, size: u8, words: u16, version: u8) -> Header {
    let mut h: Header = core::array::from_fn(|i| 0x80 + 3 * i as u8);
    h[HEADER_ID] = id;
    h[HEADER_SIZE] = size;
    h[HEADER_COUNT..HEADER_COUNT + 2].copy_from_slice(&(words + EXTRA_WORDS).to_be_bytes());
    h[HEADER_VERSION] = version;
    h
}

fn words(count: usize, size: u32) -> Vec<u16> {
    (0..count).map(|i| (i * 40_503 % (1 << size)) as u16).collect()
}

fn block(h: &Header, ws: &[u16]) -> Vec<u8> {
    let mut room = vec![0xAA; MOST_BYTES + 5];
    let bytes = write(h, ws, &mut room).expect("the block is written");
    assert!(room[bytes..].iter().all(|b| *b == 0xAA), "behind the block nothing is written");
    room.truncate(bytes);
    room
}

#[test]
fn a_block_of_each_row_there_and_back() {
    // id, version, word size, words, records, bytes of the field
    let rows = [
        (BLOCK_0_ID, 0, 8, 8_040, 0, 8_040),
        (1, 1, 10, 68, 4, 2_680),
        (1, 2, 10, MOST_WORDS, 4, MOST_BYTES - AROUND_BYTES),
        (2, 2, 10, 15_756, 3, 19_696),
        (2, 3, 10, MOST_WORDS, 4, MOST_BYTES - AROUND_BYTES),
        (3, 0, 10, 20, 1, 2_680),
        (10, 1, 10, 20_960, 1, 26_200),
        (11, 2, 6, 10_720, 0, 8_040),
        (11, 3, 8, 8_040, 0, 8_040),
        (11, 0, 10, 6_432, 0, 8_040),
    ];
    for (id, version, size, count, records, field) in rows {
        let h = header(id, size, count as u16, version);
        let ws = words(count, size.into());
        let bytes = block(&h, &ws);
        assert_eq!(bytes.len(), field + AROUND_BYTES);
        let mut room = vec![0xBEEF; MOST_WORDS];
        let got = read(&bytes, &mut room).expect("it is read again");
        assert_eq!(got, Read { header: h, copies: [true; 3], word_count: count });
        assert_eq!(room[..count], ws);
        assert!(room[count..].iter().all(|w| *w == 0xBEEF), "behind the words nothing is written");
        let number = if id == BLOCK_0_ID { 0 } else { id };
        assert_eq!(plan(&h), Ok(Plan { block: number, version, size, records, word_count: count, field_bytes: field }));
        let parts: Vec<_> = (1..=records.into()).map(|k| record(&h, &room, k).expect("a record")).collect();
        assert!(records == 0 || parts.concat() == ws, "the records joined are the words");
        assert_eq!(record(&h, &room, u32::from(records) + 1), Err(Refusal::NoRecord));
    }
}

#[test]
fn refusals_leave_the_room() {
    let h = header(1, 10, 68, 2);
    let ws = words(68, 10);
    let good = block(&h, &ws);
    let mut short_room = [7; 67];
    assert_eq!(read(&good, &mut short_room), Err(Refusal::SmallRoom));
    assert_eq!(short_room, [7; 67]);
    assert_eq!(read(&[], &mut []), Err(Refusal::NoHeader));
    let mut room = [7; 68];
    for (bytes, refusal) in [(&good[..89], Refusal::NoHeader), (&good[..2_771], Refusal::WrongLength)] {
        assert_eq!(read(bytes, &mut room), Err(refusal));
    }
    let mut damaged = good.clone();
    damaged[100] ^= 1;
    assert_eq!(read(&damaged, &mut room), Err(Refusal::CheckDisagrees));
    damaged[..90].fill(0);
    assert_eq!(read(&damaged, &mut room), Err(Refusal::NoCopyPasses));
    assert_eq!(room, [7; 68]);

    let mut bytes = [7; 2_771];
    assert_eq!(write(&h, &ws, &mut bytes), Err(Refusal::SmallRoom));
    assert_eq!(write(&h[..27], &ws, &mut bytes), Err(Refusal::NoHeader));
    assert_eq!(write(&h, &ws[1..], &mut bytes), Err(Refusal::WrongLength));
    assert_eq!(write(&h, &[], &mut []), Err(Refusal::WrongLength));
    let mut long = [7; 3_000];
    let mut large = ws.clone();
    large[67] = 1_024;
    assert_eq!(write(&h, &large, &mut long), Err(Refusal::LargeWord));
    assert_eq!((bytes, long), ([7; 2_771], [7; 3_000]));

    assert_eq!(plan(&header(12, 10, 68, 2)), Err(Refusal::UnknownBlock));
    assert_eq!(plan(&header(1, 10, 68, 4)), Err(Refusal::UnknownVersion));
    assert_eq!(plan(&header(1, 8, 68, 2)), Err(Refusal::WrongSize));
    assert_eq!(plan(&header(1, 10, 64, 2)), Err(Refusal::WrongCount));
    assert_eq!(plan(&[]), Err(Refusal::NoHeader));
    assert_eq!(record(&h, &ws[1..], 1), Err(Refusal::SmallRoom));
}

#[test]
fn copies_that_pass() {
    let good = block(&header(3, 10, 20, 1), &words(20, 10));
    for damaged in 0..7 {
        let mut bytes = good.clone();
        for k in 0..3 {
            if damaged >> k & 1 == 1 {
                bytes[30 * k + 9] ^= 4;
            }
        }
        let got = read(&bytes, &mut [0; 20]).expect("one copy is enough");
        assert_eq!(got.copies, core::array::from_fn(|k| damaged >> k & 1 == 0));
    }
}

#[test]
fn records_of_block_2() {
    for (version, records, least, other) in [(0, 3, 51, 68), (1, 3, 51, 68), (2, 3, 51, 68), (3, 4, 68, 51)] {
        let h = header(2, 10, 84, version);
        let (ws, last) = (words(84, 10), 84 / records);
        assert_eq!(plan(&h).map(|p| u32::from(p.records)), Ok(records));
        assert_eq!(record(&h, &ws, records), Ok(&ws[84 - last as usize..]));
        assert_eq!(record(&h, &ws, records + 1), Err(Refusal::NoRecord));
        assert_eq!(plan(&header(2, 10, least, version)).map(|p| p.word_count), Ok(least as usize));
        assert_eq!(plan(&header(2, 10, other, version)), Err(Refusal::WrongCount));
    }
}

#[test]
fn placement() {
    let at = |block, version, record| place(block, version, record).map(|p| (p.channel, p.detector));
    assert_eq!(at(1, 1, 3), Ok((5, 1)));
    assert_eq!((at(2, 2, 3), at(2, 2, 4)), (Ok((6, 1)), Err(Refusal::NoRecord)));
    assert_eq!((at(2, 3, 4), at(2, 3, 5)), (Ok((6, 2)), Err(Refusal::NoRecord)));
    assert_eq!(at(10, 0, 1), Ok((1, 4)));
    assert_eq!(at(257, 0, 1), Err(Refusal::UnknownBlock));
    assert_eq!(at(1, 260, 1), Err(Refusal::UnknownVersion));
    assert_eq!(at(1, 0, 257), Err(Refusal::NoRecord));
}

#[test]
fn parity() {
    let mut ws = [0; PARITY_WORDS];
    ws[7_903] = 9; // in no section
    assert_eq!(parity_imager(&ws), Ok([true; 4]));
    ws[1_100] = 9;
    assert_eq!(parity_imager(&ws), Ok([true, true, false, true]));
    assert_eq!(parity_sounder(&ws), Ok([true, false]));
    assert_eq!(parity_imager(&ws[1..]), Err(Refusal::WrongLength));
    ws[0] = 256;
    assert_eq!(parity_sounder(&ws), Err(Refusal::LargeWord));
}

#[test]
fn tags() {
    let time = Time { year: 2008, day: 60, hour: 23, minute: 59, second: 59, millisecond: 999, flywheel: false };
    for leap_days in [&[][..], &many_days(MOST_LEAP_DAYS)] {
        assert_eq!(read_tag(&TAG, leap_days), Ok(time));
        assert_eq!(write_tag(&time, leap_days), Ok(TAG));
        let marked = write_tag(&Time { flywheel: true, ..time }, leap_days).expect("a mark");
        assert_eq!(marked[2], 0x86);
        assert_eq!(elapsed(&TAG, &NEXT, leap_days), Ok(1));
        assert_eq!(elapsed(&NEXT, &marked, leap_days), Ok(-1));
        assert_eq!(elapsed(&TAG, &TAG, leap_days), Ok(0));
        assert_eq!(elapsed(&TAG, &TAG[1..], leap_days), Err(Refusal::BadTag));
        assert_eq!(read_tag(&[], leap_days), Err(Refusal::BadTag));
        for wrong in [
            Time { year: 10_000, ..time },
            Time { day: 0, ..time },
            Time::default(),
            Time { hour: 256 + 23, ..time },
            Time { second: 60, ..time },
            Time { millisecond: 65_536, ..time },
        ] {
            assert_eq!(write_tag(&wrong, leap_days), Err(Refusal::BadTag));
        }
    }
}

/// Day 181 of so many years, from 1950 on.
fn many_days(count: usize) -> Vec<LeapDay> {
    (1950..).map(|year| LeapDay::new(year, 181)).take(count).collect()
}

/// The last second of 2016 day 366, and the midnight that follows.
const LEAP: Time = Time { year: 2016, day: 366, hour: 23, minute: 59, second: 60, millisecond: 0, flywheel: false };
const AFTER: Time = Time { year: 2017, day: 1, hour: 0, minute: 0, second: 0, millisecond: 0, flywheel: false };
const LISTED: [LeapDay; 3] = [LeapDay(2_008_366), LeapDay(2_015_181), LeapDay(2_016_366)];

#[test]
fn leap_seconds() {
    let tag = |time| write_tag(&time, &LISTED).expect("a good time");
    let last = tag(Time { millisecond: 999, ..LEAP });
    assert_eq!(last, [0x20, 0x16, 0x36, 0x62, 0x35, 0x96, 0x09, 0x99]);
    assert_eq!(read_tag(&last, &LISTED), Ok(Time { millisecond: 999, ..LEAP }));
    assert_eq!(elapsed(&last, &tag(AFTER), &LISTED), Ok(1));
    let before = tag(Time { second: 59, ..LEAP });
    assert_eq!(elapsed(&before, &tag(LEAP), &LISTED), Ok(1_000));
    assert_eq!(elapsed(&before, &tag(AFTER), &LISTED), Ok(2_000));
    assert_eq!(elapsed(&tag(AFTER), &before, &LISTED), Ok(-2_000));
    assert_eq!(elapsed(&before, &tag(AFTER), &LISTED[..2]), Ok(1_000));
    assert_eq!(elapsed(&before, &tag(AFTER), &[]), Ok(1_000));
    for leap_days in [&[][..], &LISTED[..2], &[LeapDay::new(2016, 365)]] {
        assert_eq!(read_tag(&last, leap_days), Err(Refusal::BadTag));
        assert_eq!(write_tag(&LEAP, leap_days), Err(Refusal::BadTag));
        assert_eq!(elapsed(&before, &last, leap_days), Err(Refusal::BadTag));
    }
    for wrong in [
        Time { second: 61, ..LEAP },
        Time { minute: 58, ..LEAP },
        Time { hour: 22, ..LEAP },
        Time { day: 365, ..LEAP },
        Time { year: 2012, ..LEAP },
        Time { second: 256 + 60, ..LEAP },
    ] {
        assert_eq!(write_tag(&wrong, &LISTED), Err(Refusal::BadTag));
    }
    let days = many_days(MOST_LEAP_DAYS);
    let new_year = |year| tag(Time { year, day: 1, ..AFTER });
    assert_eq!(elapsed(&new_year(1950), &new_year(2014), &days), Ok(86_400_000 * 23_376 + 64_000));
    assert!(days.iter().all(|day| write_tag(&Time { year: day.0 / 1_000, day: 181, ..LEAP }, &days).is_ok()));
}

/// Each kind of list that is refused. Cut to 32 bits, 4296983662 would be 2016366.
fn bad_lists() -> Vec<Vec<LeapDay>> {
    let pairs = [(2016, 0), (2015, 366), (1900, 366), (2016, 367), (2015, 1_366), (10_000, 1), (4_296_983, 662)];
    let mut lists: Vec<_> = pairs.map(|(year, day)| vec![LeapDay::new(year, day)]).into();
    lists.extend([0, 65_536_000 + 2_016_366, u32::MAX].map(|number| vec![LeapDay(number)]));
    lists.push(vec![LISTED[0], LISTED[2], LISTED[2]]);
    lists.push(vec![LISTED[0], LISTED[2], LISTED[1]]);
    lists.push(many_days(MOST_LEAP_DAYS + 1));
    lists
}

#[test]
fn leap_days_are_judged_first() {
    let mut idle = Watch::begin(500).expect("a limit of half a second");
    let mut open = idle;
    open.offer(0, VALID_WORD, &TAG, &[]).expect("block 0 opens");
    let changed = |place: usize, number| {
        let mut numbers = open.numbers();
        numbers[place] = number;
        Watch::of(numbers)
    };
    let (mut long_limit, mut no_record, mut bad_last) = (changed(9, 3_600_001), changed(1, 11), changed(4, 24));
    let mut bad_fill = changed(10, 1 << 1);
    for list in bad_lists() {
        let refused = Refusal::BadLeapDays;
        for tag in [&TAG[..], &TAG[1..], &[], &[0xFF; 8]] {
            assert_eq!(read_tag(tag, &list), Err(refused), "{list:?}");
            assert_eq!((elapsed(tag, &TAG, &list), elapsed(&TAG, tag, &list)), (Err(refused), Err(refused)));
            for block in [0, 1, 12] {
                let was = (idle, open);
                assert_eq!(
                    (idle.offer(block, VALID_WORD, tag, &list), open.offer(block, VALID_WORD, tag, &list)),
                    (Err(refused), Err(refused))
                );
                assert_eq!((idle, open), was);
            }
        }
        assert_eq!(write_tag(&LEAP, &list), Err(refused));
        assert_eq!(write_tag(&Time::default(), &list), Err(refused));
        assert_eq!(long_limit.offer(12, VALID_WORD, &[], &list), Err(Refusal::LongLimit));
        assert_eq!(no_record.offer(12, VALID_WORD, &[], &list), Err(Refusal::NoRecord));
        assert_eq!(bad_fill.offer(12, VALID_WORD, &[], &list), Err(Refusal::BadFill));
        assert_eq!(bad_last.offer(12, VALID_WORD, &[], &list), Err(refused));
        assert_eq!(bad_last.offer(12, VALID_WORD, &[], &LISTED), Err(Refusal::BadTag));
    }
}

#[test]
fn leap_days_and_their_numbers() {
    assert_eq!(LeapDay::new(2016, 366), LISTED[2]);
    assert_eq!((LeapDay::new(0, 1), LeapDay::new(9_999, 365)), (LeapDay(1), LeapDay(9_999_365)));
    assert!(LISTED.is_sorted());
    let first =
        write_tag(&Time { year: 0, day: 366, hour: 23, minute: 59, second: 60, ..LEAP }, &[LeapDay::new(0, 366)]);
    assert_eq!(first, Ok([0, 0, 0x36, 0x62, 0x35, 0x96, 0, 0]));
}

#[test]
fn a_scan_over_a_leap_second() {
    let mut watch = Watch::begin(200).expect("a limit of a fifth of a second");
    // blocks 0 to 10, a fifth of a second apart, from 23:59:59 to the midnight that follows
    let mut times: Vec<_> = (0..10).map(|k| Time { second: 59 + k / 5, millisecond: k % 5 * 200, ..LEAP }).collect();
    times.push(AFTER);
    for (block, time) in (0..).zip(&times) {
        let tag = write_tag(time, &LISTED).expect("a good time");
        let wanted = match block {
            0 => Verdict::Opened,
            10 => Verdict::Complete(NO_FILL),
            _ => Verdict::Kept,
        };
        if time.second == 60 {
            assert_eq!(watch.offer(block, VALID_WORD, &tag, &[]), Err(Refusal::BadTag), "second 60 without its day");
        }
        assert_eq!(watch.offer(block, VALID_WORD, &tag, &LISTED), Ok(wanted));
        assert_eq!(watch.last(), (block < 10).then_some(*time));
    }

    // the last tag is judged and counted by the list that is lent now
    let after = write_tag(&AFTER, &[]).expect("a good time");
    let mut numbers = watch.numbers();
    numbers[..9].copy_from_slice(&[1, 5, 2016, 366, 23, 59, 60, 800, 0]);
    watch = Watch::of(numbers);
    assert_eq!(watch.offer(5, VALID_WORD, &after, &LISTED[..2]), Err(Refusal::BadTag));
    assert_eq!(watch.offer(5, VALID_WORD, &after, &LISTED), Ok(Verdict::Kept));
    numbers[6] = 59;
    watch = Watch::of(numbers);
    assert_eq!(watch.offer(5, VALID_WORD, &after, &LISTED), Ok(Verdict::Late(NO_FILL)));
    watch = Watch::of(numbers);
    assert_eq!(watch.offer(5, VALID_WORD, &after, &[]), Ok(Verdict::Kept));
}

#[test]
fn a_scan_under_watch() {
    let mut watch = Watch::begin(500).expect("a limit of half a second");
    assert_eq!(Watch::begin(LONGEST_WAIT_MS + 1), Err(Refusal::LongLimit));
    assert_eq!(watch.offer(4, VALID_WORD, &TAG, &[]), Ok(Verdict::Stray));
    assert_eq!((watch.is_open(), watch.expected(), watch.last()), (false, None, None));
    assert_eq!(watch.offer(0, VALID_WORD, &TAG, &[]), Ok(Verdict::Opened));
    for block in 1..10 {
        assert_eq!(watch.offer(block, VALID_WORD, &NEXT, &[]), Ok(Verdict::Kept));
        assert_eq!(watch.expected(), Some(block + 1));
    }
    assert_eq!(watch.last(), Some(read_tag(&NEXT, &[]).expect("a good tag")));
    assert_eq!(watch.limit(), 500);
    let kept = Watch::of(watch.numbers());
    assert_eq!(watch.offer(256 + 10, VALID_WORD, &NEXT, &[]), Err(Refusal::UnknownBlock));
    assert_eq!(watch.offer(10, VALID_WORD, &NEXT[1..], &[]), Err(Refusal::BadTag));
    assert_eq!(watch, kept);
    assert_eq!(watch.offer(10, VALID_WORD, &NEXT, &[]), Ok(Verdict::Complete(NO_FILL)));
    assert_eq!(watch.numbers(), Watch::begin(500).expect("idle").numbers());

    watch = kept;
    assert_eq!(watch.offer(10, VALID_WORD, &TAG, &[]), Ok(Verdict::ClockBack(NO_FILL)));
    watch = kept;
    assert_eq!(watch.offer(0, VALID_WORD, &NEXT, &[]), Ok(Verdict::Broken(NO_FILL)));
    assert_eq!(watch.expected(), Some(1));
    watch = kept;
    assert_eq!((watch.offer(11, VALID_WORD, &NEXT, &[]), watch.is_open()), (Ok(Verdict::Broken(NO_FILL)), false));
    let late = [0x20, 0x08, 0x06, 0x10, 0, 0, 0x05, 0x01];
    watch = kept;
    assert_eq!(watch.offer(10, VALID_WORD, &late, &[]), Ok(Verdict::Late(NO_FILL)));
    let mut numbers = kept.numbers();
    numbers[1] = 256 + 10;
    assert_eq!(Watch::of(numbers).offer(10, VALID_WORD, &NEXT, &[]), Err(Refusal::NoRecord));
}

/// The blocks of a set.
fn fill(blocks: u32) -> Fill {
    Fill { blocks, count: blocks.count_ones() }
}

/// A watch with a limit of half a second, whose last tag is `TAG`.
fn open_watch(expected: u32, fill: u32) -> Watch {
    Watch::of([1, expected, 2008, 60, 23, 59, 59, 999, 0, 500, fill])
}

#[test]
fn fill_by_its_word() {
    for (word, is_fill) in [(0, 1), (1, 0), (2, 1), (255, 1), (256, 1), (257, 1), (65_537, 1), (u32::MAX, 1)] {
        let mut watch = Watch::begin(500).expect("a limit of half a second");
        assert_eq!((watch.offer(0, word, &TAG, &[]), watch.fill()), (Ok(Verdict::Opened), is_fill), "{word}");
        assert_eq!((watch.offer(1, word, &TAG, &[]), watch.fill()), (Ok(Verdict::Kept), is_fill * 3));
        assert_eq!(watch.offer(0, word, &TAG, &[]), Ok(Verdict::Broken(fill(is_fill * 3))));
        assert_eq!(watch.fill(), is_fill, "a block 0 that closes is in the scan that it opens");
        assert_eq!(open_watch(10, 0).offer(10, word, &NEXT, &[]), Ok(Verdict::Complete(fill(is_fill << 10))));
    }
}

#[test]
fn scans_with_every_set_of_fill_blocks() {
    let mut watch = Watch::begin(500).expect("a limit of half a second");
    for blocks in 0..1 << 11 {
        for block in 0..=10 {
            let valid = if blocks >> block & 1 == 1 { 0 } else { VALID_WORD };
            let wanted = match block {
                0 => Verdict::Opened,
                10 => Verdict::Complete(fill(blocks)),
                _ => Verdict::Kept,
            };
            assert_eq!(watch.offer(block, valid, &TAG, &[]), Ok(wanted), "{blocks:#b}");
            let so_far = if block == 10 { 0 } else { blocks & ((2 << block) - 1) };
            assert_eq!(watch.fill(), so_far);
        }
    }
}

#[test]
fn every_other_closing_leaves_its_block_out() {
    let late = [0x20, 0x08, 0x06, 0x10, 0, 0, 0x05, 0];
    let back = [0x20, 0x08, 0x06, 0x02, 0x35, 0x95, 0x99, 0x98];
    for (expected, blocks) in [(1, 0), (1, 1), (6, 0b10_1101), (10, 0b11_1111_1111), (10, 0b10_0000_0000)] {
        for word in [0, VALID_WORD] {
            let closed = fill(blocks);
            let closings = [
                (expected, &back, Verdict::ClockBack(closed)),
                (0, &back, Verdict::ClockBack(closed)),
                (expected, &late, Verdict::Late(closed)),
                (0, &late, Verdict::Late(closed)),
                (11, &NEXT, Verdict::Broken(closed)),
                (0, &NEXT, Verdict::Broken(closed)),
            ];
            for (block, tag, verdict) in closings {
                let mut watch = open_watch(expected, blocks);
                assert_eq!(watch.offer(block, word, tag, &[]), Ok(verdict));
                assert_eq!(watch.fill(), u32::from(block == 0 && word == 0));
            }
        }
    }
}

#[test]
fn sets_that_a_watch_cannot_have() {
    for bit in 0..32 {
        let idle = [0, 10, 2008, 60, 23, 59, 59, 999, 0, 500, 1 << bit];
        for block in [0, 5] {
            let mut watch = Watch::of(idle);
            assert_eq!(watch.offer(block, 0, &NEXT, &[]), Err(Refusal::BadFill), "bit {bit} of an idle watch");
            assert_eq!(watch.numbers(), idle);
        }
        for expected in 1..=10 {
            let mut watch = open_watch(expected, 1 << bit);
            let was = watch;
            let answer = watch.offer(11, 0, &NEXT, &[]);
            if bit < expected {
                assert_eq!(answer, Ok(Verdict::Broken(fill(1 << bit))));
            } else {
                assert_eq!((answer, watch), (Err(Refusal::BadFill), was), "bit {bit}, and {expected} is expected");
            }
        }
    }
    // behind the expected block, before the last tag and what is offered
    assert_eq!(open_watch(11, 1 << 11).offer(12, 0, &[], &[]), Err(Refusal::NoRecord));
    let mut numbers = open_watch(3, 1 << 3).numbers();
    numbers[4] = 24;
    assert_eq!(Watch::of(numbers).offer(12, 0, &[], &[]), Err(Refusal::BadFill));
    numbers[10] = 0b111;
    assert_eq!(Watch::of(numbers).offer(12, 0, &[], &[]), Err(Refusal::BadTag));
}

#[test]
fn the_blocks_of_a_set() {
    assert!((0..100).filter(|block| fill(0b100_0010_0101).has(*block)).eq([0, 2, 5, 10]));
    assert_eq!([0, 31, 32, 64, u32::MAX].map(|block| fill(u32::MAX).has(block)), [true, true, false, false, false]);
    assert!(!(0..100).any(|block| NO_FILL.has(block)));
}

/// The frame fields of the block below; each differs from the others.
const FRAME: SounderFrame =
    SounderFrame { scan_of_frame: 12, scan: 100, scan_north: 397, west: 600, east: 1_200, north: 349, south: 598 };

/// The time of tag k of that block.
fn tag_time(k: usize) -> Time {
    Time { year: 2008, day: 61, second: k as u32, millisecond: 500 + k as u32, flywheel: k % 2 == 1, ..Time::default() }
}

fn put_pair(ws: &mut [u16], word: usize, number: u32) {
    (ws[word - 1], ws[word]) = ((number >> 8) as u16, (number & 255) as u16);
}

fn put_tag(ws: &mut [u16], k: usize, tag: [u8; TAG_BYTES]) {
    ws[58 + 8 * k..][..8].copy_from_slice(&tag.map(u16::from));
}

/// A Sounder documentation block with good tags, of which no detector is suspect.
fn sounder_block() -> Vec<u16> {
    let mut ws = words(SOUNDER_WORDS, 8);
    ws[32..42].fill(0);
    let SounderFrame { scan_of_frame, scan, scan_north, west, east, north, south } = FRAME;
    let numbers = [scan_of_frame, scan, scan_north, west, east, north, south];
    for (word, number) in (181..).step_by(2).zip(numbers).chain([(43, 263), (45, 65_535)]) {
        put_pair(&mut ws, word, number);
    }
    for k in 0..SOUNDER_TAGS {
        put_tag(&mut ws, k, write_tag(&tag_time(k), &[]).expect("a good time"));
    }
    ws
}

/// The detectors in the order of their bits.
fn detectors() -> impl Iterator<Item = Detector> {
    (1..=SOUNDER_CHANNELS)
        .flat_map(|channel| (1..=SOUNDER_DETECTORS).map(move |detector| Detector { channel, detector }))
}

/// Those that are suspect, asked for one by one.
fn suspects_of(ws: &[u16]) -> Vec<Detector> {
    let is_suspect = |d: &Detector| sounder_suspect(ws, &[], d.channel, d.detector).expect("a detector");
    detectors().filter(is_suspect).collect()
}

fn refused<T>(refusal: Refusal, word: Option<u32>) -> Result<T, SounderRefusal> {
    Err(SounderRefusal { refusal, word })
}

#[test]
fn the_status_of_the_sounder() {
    let status = sounder_status(&sounder_block(), &[]).expect("a good block");
    let tags = core::array::from_fn(|k| Ok(tag_time(k)));
    assert_eq!(status, SounderStatus { suspects: 0, first: None, raw_blocks: 263, blocks: 65_535, frame: FRAME, tags });
    assert_eq!(suspects_of(&sounder_block()), []);
}

#[test]
fn each_detector_has_its_bit() {
    assert_eq!(detectors().count(), 76);
    for (k, detector) in detectors().enumerate() {
        let mut ws = sounder_block();
        ws[32 + k / 8] = 0x80 >> (k % 8);
        let status = sounder_status(&ws, &[]).expect("a good block");
        assert_eq!((status.suspects, status.first, suspects_of(&ws)), (1, Some(detector), vec![detector]));
    }
    let mut ws = sounder_block();
    (ws[33], ws[40], ws[41]) = (0x04, 0x02, 0x10);
    let wanted = [(4, 2), (18, 3), (19, 4)].map(|(channel, detector)| Detector { channel, detector });
    let status = sounder_status(&ws, &[]).expect("a good block");
    assert_eq!((status.suspects, status.first, &suspects_of(&ws)[..]), (3, Some(wanted[0]), &wanted[..]));
    ws[32..41].fill(255);
    ws[41] = 0xF0;
    assert_eq!(sounder_status(&ws, &[]).map(|status| status.suspects), Ok(76));
    assert!(suspects_of(&ws).into_iter().eq(detectors()));
}

#[test]
fn frame_fields_and_their_ranges() {
    let ranges = [(1, 396), (1, 396), (1, 1_579), (1, 1_754), (5, 1_758), (1, 1_579), (4, 1_582)];
    for (word, (least, most)) in (181..).step_by(2).zip(ranges) {
        let with = |number| {
            let mut ws = sounder_block();
            put_pair(&mut ws, 187, if word == 189 { 5 } else { 600 });
            put_pair(&mut ws, 189, if word == 187 { 1_758 } else { 1_200 });
            put_pair(&mut ws, word, number);
            let status = sounder_status(&ws, &[]).map(|_| ());
            assert_eq!(sounder_suspect(&ws, &[], 1, 1).map(|_| ()), status);
            status
        };
        assert_eq!((with(least), with(most)), (Ok(()), Ok(())), "word {word}");
        for number in [least - 1, most + 1, 65_535, 0] {
            assert_eq!(with(number), refused(Refusal::OutOfRange, Some(word as u32)), "word {word}, {number}");
        }
    }
    let between = |west, east| {
        let mut ws = sounder_block();
        put_pair(&mut ws, 187, west);
        put_pair(&mut ws, 189, east);
        sounder_status(&ws, &[]).map(|status| (status.frame.west, status.frame.east))
    };
    assert_eq!((between(600, 600), between(5, 5)), (Ok((600, 600)), Ok((5, 5))));
    assert_eq!(between(601, 600), refused(Refusal::OutOfRange, Some(189)));
    assert_eq!(between(1_755, 600), refused(Refusal::OutOfRange, Some(187)));
    // of several the lowest; a north below its south is no ground
    let mut ws = sounder_block();
    put_pair(&mut ws, 191, 1_579);
    assert!(sounder_status(&ws, &[]).is_ok());
    for word in [193, 191, 189, 187, 185, 183, 181] {
        put_pair(&mut ws, word, 0);
        assert_eq!(sounder_status(&ws, &[]), refused(Refusal::OutOfRange, Some(word as u32)));
    }
}

#[test]
fn a_bad_tag_refuses_itself() {
    let all = [
        SounderTag::Current,
        SounderTag::LineStart,
        SounderTag::LineEnd,
        SounderTag::SetAtStart,
        SounderTag::SetAtEnd,
        SounderTag::PriorityFrame,
        SounderTag::NormalFrame,
        SounderTag::Spacelook,
        SounderTag::Ecal,
        SounderTag::Blackbody,
        SounderTag::StarSense,
        SounderTag::Ranging,
        SounderTag::VisibleTables,
        SounderTag::Limits,
        SounderTag::Orbit,
    ];
    for (bad, tag) in all.into_iter().enumerate() {
        let mut ws = sounder_block();
        ws[58 + 8 * bad + 7] = 0x9A;
        let status = sounder_status(&ws, &[]).expect("a good block");
        for k in 0..SOUNDER_TAGS {
            assert_eq!(status.tags[k], if k == bad { Err(Refusal::BadTag) } else { Ok(tag_time(k)) });
        }
        assert_eq!(status.tag(tag), Err(Refusal::BadTag));
        put_tag(&mut ws, bad, write_tag(&LEAP, &LISTED).expect("a good time"));
        let by = |leap_days| sounder_status(&ws, leap_days).map(|status| status.tag(tag));
        assert_eq!((by(&LISTED[..]), by(&LISTED[..2])), (Ok(Ok(LEAP)), Ok(Err(Refusal::BadTag))));
    }
}

#[test]
fn a_sounder_block_is_refused_in_order() {
    // every ground at once, mended one by one
    let mut ws = sounder_block();
    (ws[41], ws[0], ws[8_039]) = (0xFF, 256, 65_535);
    put_pair(&mut ws, 193, 3);
    let list = [LISTED[1], LISTED[0]];
    let expect = |ws: &[u16], leap_days: &[LeapDay], refusal, word| {
        assert_eq!(sounder_status(ws, leap_days), refused(refusal, word));
        for (channel, detector) in [(1, 1), (0, 0), (20, 5)] {
            assert_eq!(sounder_suspect(ws, leap_days, channel, detector), refused(refusal, word));
        }
    };
    for length in [0, 8_039] {
        expect(&ws[..length], &list, Refusal::WrongLength, None);
    }
    expect(&[&ws[..], &[0]].concat(), &list, Refusal::WrongLength, None);
    expect(&ws, &list, Refusal::LargeWord, None);
    ws[0] = 255;
    expect(&ws, &list, Refusal::LargeWord, None);
    ws[8_039] = 255;
    for spare in [0x0F, 0x08, 0x04, 0x02, 0x01, 0xF1] {
        ws[41] = spare;
        expect(&ws, &list, Refusal::SpareBit, None);
    }
    ws[41] = 0xF0;
    expect(&ws, &list, Refusal::OutOfRange, Some(193));
    put_pair(&mut ws, 193, 4);
    for list in bad_lists() {
        expect(&ws, &list, Refusal::BadLeapDays, None);
    }
    assert_eq!(sounder_status(&ws, &LISTED).map(|status| status.suspects), Ok(4));
    for (channel, detector) in [(0, 1), (20, 1), (1, 0), (1, 5), (256 + 1, 1), (1, 65_536 + 1), (u32::MAX, u32::MAX)] {
        assert_eq!(sounder_suspect(&ws, &LISTED, channel, detector), refused(Refusal::NoRecord, None));
    }
}

#[test]
fn a_refused_sounder_block_says_why() {
    let why = SounderRefusal { refusal: Refusal::OutOfRange, word: Some(189) };
    let boxed: Box<dyn std::error::Error> = Box::new(why);
    assert_eq!(boxed.to_string(), format!("{}, word 189", Refusal::OutOfRange));
    assert_eq!(SounderRefusal { word: None, ..why }.to_string(), Refusal::OutOfRange.to_string());
    assert_eq!(Refusal::from(why), Refusal::OutOfRange);
}

#[test]
fn what_a_block_is_made_of() {
    assert_eq!(check_word(b"123456789"), 0xD64E);
    assert_eq!(check_word(b""), 0);
    let mut room = [9; 5];
    assert_eq!(take_words(&[0x00, 0x40, 0x20, 0x0C, 0x04], 10, 4, &mut room), Ok(()));
    assert_eq!(room, [1, 2, 3, 4, 9]);
    let mut field = [9; 4];
    assert_eq!(put_words(&room[..4], 6, &mut field), Ok(()));
    assert_eq!(field, [0x04, 0x20, 0xC4, 0]);
    assert_eq!(take_words(&field, 17, 1, &mut room), Err(Refusal::WrongSize));
    assert_eq!(take_words(&field, 8, 5, &mut room), Err(Refusal::WrongLength));
    assert_eq!(put_words(&[64], 6, &mut field), Err(Refusal::LargeWord));
    assert_eq!(put_words(&room, 8, &mut field), Err(Refusal::SmallRoom));
    assert_eq!((room, field), ([1, 2, 3, 4, 9], [0x04, 0x20, 0xC4, 0]));
}

#[test]
fn from_several_threads() {
    std::thread::scope(|threads| {
        for k in 0..4u8 {
            threads.spawn(move || {
                let ws = words(68 + 400 * usize::from(k), 10);
                let h = header(1, 10, ws.len() as u16, k);
                for _ in 0..50 {
                    let bytes = block(&h, &ws);
                    let mut room = vec![0; ws.len()];
                    assert_eq!(read(&bytes, &mut room).map(|got| got.header), Ok(h));
                    assert_eq!(room, ws);
                }
            });
        }
    });
}

#[test]
fn a_refusal_says_why() {
    assert_eq!(Refusal::CheckDisagrees.number(), 10);
    let text = Refusal::BadTag.text();
    let boxed: Box<dyn std::error::Error> = Box::new(Refusal::BadTag);
    assert_eq!(boxed.to_string(), format!("refusal 12: {text}"));
    for number in 0..=255 {
        let named = Refusal::from_number(number);
        assert_eq!(named.map(Refusal::number), (1..=22).contains(&number).then_some(number));
    }
}

#[test]
fn the_archive_is_of_this_version() {
    assert_eq!((version(), check_version()), (VERSION, Ok(())));
    assert_eq!(
        OtherVersion { archive: 7 }.to_string(),
        format!("librahmisve.a is of version 7, and this program is for version {VERSION}")
    );
}

fn field(tag: u8, body: &[u8]) -> Vec<u8> {
    let length = u16::try_from(body.len()).expect("a body that a field can hold");
    [&[tag][..], &length.to_be_bytes(), body].concat()
}

#[test]
fn the_fields_of_a_recording() {
    let longest = vec![7; FIELD_BYTES - FRONT_BYTES];
    let recording = [field(1, b"one"), field(2, b""), field(255, &longest)].concat();
    let wanted = [(1, &b"one"[..]), (2, b""), (255, &longest)].map(|(tag, body)| Field { tag, body });
    let mut fields = Fields::of(&recording);
    assert!(fields.by_ref().eq(wanted));
    assert!(!fields.is_cut());
    assert_eq!(fields.next(), None);
    for (end, whole) in [(0, 0), (1, 0), (5, 0), (6, 1), (8, 1), (9, 2), (12, 2), (recording.len() - 1, 2)] {
        let mut fields = Fields::of(&recording[..end]);
        assert_eq!((fields.by_ref().count(), fields.is_cut()), (whole, ![0, 6, 9].contains(&end)), "{end} bytes");
    }
    assert_eq!(format!("{fields:?}"), "Fields { at: 65547, length: 65547 }");
    for at in [recording.len(), recording.len() + 1, usize::MAX] {
        assert_eq!(next_field(&recording, at), Found::End);
    }
}

#[test]
fn lines_and_their_texts() {
    let good = block(&header(3, 10, 20, 2), &words(20, 10));
    let listed = Listed { block: 3, version: 2, word_count: 20 };
    let mut room = [7; 21];
    let mut text = [b'x'; LINE_BYTES];
    let of = |tag, body| Field { tag, body };
    let first = line(0, of(BLOCK_FIELD, &good), &mut room);
    assert_eq!(first, Line { seq: 1, answer: Ok(listed) });
    assert_eq!((&room[..20], room[20]), (&words(20, 10)[..], 7));
    assert_eq!(line_text(&first, &mut text), Ok("1 3 2 20 0\n"));

    room = [7; 21];
    for (before, refused, refusal) in [
        (1, of(2, &good), Refusal::OtherField),
        (9, of(1, &good[..89]), Refusal::NoHeader),
        (u64::MAX, of(1, &good[1..]), Refusal::NoCopyPasses),
    ] {
        let line = line(before, refused, &mut room);
        assert_eq!(line, Line { seq: before.saturating_add(1), answer: Err(refusal) });
        let wanted = format!("{} - - - {}\n", line.seq, refusal.number());
        assert_eq!(line_text(&line, &mut text), Ok(&wanted[..]));
    }
    assert_eq!(line(0, of(1, &good), &mut room[..19]).answer, Err(Refusal::SmallRoom));
    assert_eq!(room, [7; 21]);

    let mut small = [7; 30];
    assert_eq!(first_text(&mut small), Err(Refusal::SmallRoom));
    assert_eq!(line_text(&first, &mut small[..10]), Err(Refusal::SmallRoom));
    assert_eq!(last_text(true, 10, &mut small[..6]), Err(Refusal::SmallRoom));
    assert_eq!(small, [7; 30]);
    assert_eq!(last_text(true, 10, &mut small[..7]), Ok("cut 10\n"));
    assert_eq!(last_text(false, u64::MAX, &mut text), Ok("end 18446744073709551615\n"));
    assert_eq!(first_text(&mut text[..31]), Ok("seq block version words answer\n"));

    // no line is longer than a room of LINE_BYTES holds
    let widest = Line { seq: u64::MAX, answer: Ok(Listed { block: 255, version: 255, word_count: usize::MAX }) };
    let wanted = format!("{} 255 255 {} 0\n", u64::MAX, usize::MAX);
    assert_eq!(line_text(&widest, &mut text), Ok(&wanted[..]));
}

/// Rooms for an input of so many bytes, with something in them.
struct Rooms {
    recording: Vec<u8>,
    report: Vec<Entry>,
    scratch: Vec<u16>,
}

impl Rooms {
    fn of(input_bytes: usize) -> Rooms {
        Rooms {
            recording: vec![0xAA; salvage_bytes(input_bytes)],
            report: vec![[77; ENTRY_NUMBERS]; salvage_entries(input_bytes)],
            scratch: vec![0xBEEF; MOST_WORDS],
        }
    }

    fn salvage(&mut self, input: &[u8]) -> Result<Salvaged<'_>, Refusal> {
        salvage(input, &mut self.recording, &mut self.report, &mut self.scratch)
    }

    fn assert_untouched(&self) {
        assert!(self.recording.iter().all(|byte| *byte == 0xAA));
        assert!(self.report.iter().all(|entry| *entry == [77; ENTRY_NUMBERS]));
        assert!(self.scratch.iter().all(|word| *word == 0xBEEF));
    }
}

fn junk(count: usize) -> Vec<u8> {
    (0..count).map(|i| (i * 7 + 3) as u8).collect()
}

/// Ruins the header copies whose bits are set.
fn ruined(block: &[u8], copies: usize) -> Vec<u8> {
    let mut bytes = block.to_vec();
    for k in (0..COPY_MARKS).filter(|k| copies >> k & 1 == 1) {
        bytes[30 * k + 5 + k] ^= 0x10;
    }
    bytes
}

#[test]
fn blocks_among_junk() {
    let (short, long) = (words(20, 10), words(MOST_WORDS, 10));
    let one = block(&header(3, 10, 20, 2), &short);
    let two = block(&header(1, 10, MOST_WORDS as u16, 3), &long);
    let input = [&junk(137)[..], &one, &ruined(&two, 0b101), &junk(1), &ruined(&one, 0b010), &two[..100]].concat();
    let length = input.len();
    let mut rooms = Rooms::of(length + 10_000);
    let made = rooms.salvage(&input).expect("there are blocks");
    let wanted = [
        Piece::Span { start: 0, bytes: 137 },
        Piece::Block { start: 137, bytes: 2_772, changed: [false; 3] },
        Piece::Block { start: 2_909, bytes: MOST_BYTES, changed: [true, false, true] },
        Piece::Span { start: 29_261, bytes: 1 },
        Piece::Block { start: 29_262, bytes: 2_772, changed: [false, true, false] },
        Piece::Span { start: 32_034, bytes: 100 },
    ];
    let fields = [field(BLOCK_FIELD, &one), field(BLOCK_FIELD, &two), field(BLOCK_FIELD, &one)].concat();
    assert!(made.pieces().eq(wanted));
    assert_eq!((made.blocks, made.recording), (3, &fields[..]));

    assert!(
        rooms.recording[fields.len()..].iter().all(|byte| *byte == 0xAA),
        "behind the recording nothing is written"
    );
    assert!(rooms.report[wanted.len()..].iter().all(|entry| *entry == [77; 3]), "behind the report nothing is written");
    assert_eq!((&rooms.scratch[..20], &rooms.scratch[20..]), (&short[..], &long[20..]), "the words of each in turn");
}

#[test]
fn copies_that_changed() {
    let good = block(&header(3, 10, 20, 1), &words(20, 10));
    let mut rooms = Rooms::of(good.len());
    for ruins in 0..7 {
        let made = rooms.salvage(&ruined(&good, ruins)).expect("one copy is enough");
        let changed = core::array::from_fn(|k| ruins >> k & 1 == 1);
        assert!(made.pieces().eq([Piece::Block { start: 0, bytes: 2_772, changed }]));
        assert_eq!(made.recording, field(BLOCK_FIELD, &good));
    }
    // the first copy passes too, and says something else: what makes a block is used
    for (place, value, changed) in [(HEADER_SIZE, 9, [true, false, false]), (27, 0, [false, true, true])] {
        let mut other = good.clone();
        other[place] = value;
        let check = check_word(&other[..28]);
        other[28..30].copy_from_slice(&check.to_be_bytes());
        let made = rooms.salvage(&other).expect("a copy that makes a block");
        assert!(made.pieces().eq([Piece::Block { start: 0, bytes: 2_772, changed }]));
        let used = if changed[0] { &good[..30] } else { &other[..30] };
        assert_eq!(made.recording[FRONT_BYTES..FRONT_BYTES + 90], [used; 3].concat());
    }
}

#[test]
fn pieces_both_ways() {
    let good = block(&header(3, 10, 20, 1), &words(20, 10));
    let input = [&junk(5)[..], &good, &good, &junk(9)].concat();
    let mut rooms = Rooms::of(input.len());
    let made = rooms.salvage(&input).expect("two blocks");
    assert_eq!((made.pieces().len(), made.blocks), (4, 2));
    let parts: Vec<_> = made.pieces().map(|piece| &input[piece.range()]).collect();
    assert_eq!(parts.concat(), input);
    assert_eq!(made.pieces().next_back(), Some(Piece::Span { start: 5_549, bytes: 9 }));
    let mut ends = made.pieces();
    assert_eq!((ends.next(), ends.len()), (Some(Piece::Span { start: 0, bytes: 5 }), 3));
    assert!(ends.by_ref().rev().skip(1).all(|piece| matches!(piece, Piece::Block { .. })));
    assert_eq!(ends.next(), None);
    let shown = format!("{:?}", rooms.salvage(&good).expect("a block"));
    let piece = "Block { start: 0, bytes: 2772, changed: [false, false, false] }";
    assert_eq!(shown, format!("Salvaged {{ bytes: 2775, blocks: 1, pieces: [{piece}] }}"));
}

#[test]
fn rooms_too_small_by_one() {
    let good = block(&header(3, 10, 20, 1), &words(20, 10));
    let shrinks: [fn(&mut Rooms) -> bool; 3] =
        [|r| r.recording.pop().is_some(), |r| r.report.pop().is_some(), |r| r.scratch.pop().is_some()];
    for input in [&junk(2_771)[..], &junk(2_772), &good, &[&good[..], &good].concat(), &[]] {
        for shrink in shrinks {
            let mut rooms = Rooms::of(input.len());
            // an empty input asks for no recording, which cannot be smaller
            if shrink(&mut rooms) {
                assert_eq!(rooms.salvage(input), Err(Refusal::SmallRoom), "{} bytes", input.len());
                rooms.assert_untouched();
            }
        }
    }
    assert_eq!(salvage(&[], &mut [], &mut [], &mut []), Err(Refusal::SmallRoom));
}

#[test]
fn no_block_anywhere() {
    let good = block(&header(3, 10, 20, 1), &words(20, 10));
    let mut damaged = good.clone();
    damaged[100] ^= 1;
    for input in [&[][..], &junk(1), &junk(5_000), &good[1..], &good[..2_771], &damaged, &ruined(&good, 0b111)] {
        let mut rooms = Rooms::of(input.len());
        assert_eq!(rooms.salvage(input), Err(Refusal::NoBlock), "{} bytes", input.len());
        rooms.assert_untouched();
    }
}

#[test]
fn rooms_for_an_input() {
    assert_eq!([0, 2_771, 2_772, 65_000].map(salvage_bytes), [0, 2_771, 2_775, 65_069]);
    assert_eq!([0, 2_771, 2_772, 65_000].map(salvage_entries), [1, 1, 3, 47]);
    assert_eq!(salvage_bytes(usize::MAX), usize::MAX);
    assert_eq!(salvage_entries(usize::MAX), usize::MAX / LEAST_BYTES * 2 + 1);
    assert_eq!(Piece::Span { start: 1, bytes: usize::MAX }.range(), 1..usize::MAX);
}
