//! The model against the printed answers, and the comparison against libraries
//! that are wrong on purpose.

use std::collections::BTreeSet;

use independent::check::check_word;
use independent::compare::{case_of, compare, compare_placements, difference, run, Answer, Case, Tally};
use independent::compare_fills::compare_fills;
use independent::compare_leaps::compare_leaps;
use independent::compare_salvages::{compare_named, compare_salvages, compare_tapes, rooms_around, salvage_of};
use independent::compare_status::compare_statuses;
use independent::compare_words::{
    compare_counts, compare_drawn, compare_large_words, compare_long_fields, compare_words,
};
use independent::document::{self, Findings};
use independent::header::{meaning, passing, COUNT_ADDS};
use independent::inputs::{self, Dice};
use independent::library::{list_by_lines, Library, Model};
use independent::rows;
use independent::salvage::{self, copy, made, pieces, Piece, LEAST_BYTES, MOST_INPUT};
use independent::tapes;
use independent::watch::Verdict;
use independent::wrong::{Wrong, FAULTS};
use independent::wrong_salvage::SALVAGE_FAULTS;

fn none_wrong(part: fn(&dyn Library, &mut Findings)) {
    let mut found = Findings { run: 0, wrong: Vec::new() };
    part(&Model, &mut found);
    assert!(found.wrong.is_empty(), "{}", found.wrong.join("\n"));
    assert!(found.run > 0);
}

#[test]
fn numbered_table() {
    none_wrong(document::table);
}

#[test]
fn further_cases() {
    none_wrong(document::further_cases);
}

#[test]
fn block_2_by_version() {
    none_wrong(document::block_2);
}

#[test]
fn listing() {
    none_wrong(document::listing);
}

#[test]
fn salvage_as_printed() {
    none_wrong(document::salvage);
}

#[test]
fn trainee_errors() {
    none_wrong(document::trainee_errors);
}

#[test]
fn every_fault_is_found() {
    let mut missed = Vec::new();
    for fault in FAULTS {
        let library = Wrong(fault);
        let found = compare(&library, 1, 0, 30_000, &mut Tally::default());
        if found.is_ok() && compare_placements(&library).is_ok() && compare_words(&library, 1, 20_000).is_ok() {
            missed.push(fault);
        }
    }
    assert!(missed.is_empty(), "not found: {missed:?}");
}

#[test]
fn without_a_fault_none_is_found() {
    let library = Wrong("");
    compare(&library, 1, 0, 10_000, &mut Tally::default()).unwrap();
    compare_placements(&library).unwrap();
    compare_words(&library, 1, 5_000).unwrap();
    compare_salvages(&library, 1, 200, &mut Tally::default()).unwrap();
    compare_leaps(&library, 1, 5_000, &mut Tally::default()).unwrap();
    compare_fills(&library, 1, 5_000, &mut Tally::default()).unwrap();
    compare_statuses(&library, 1, 5_000, &mut Tally::default()).unwrap();
    assert!(document::all(&library).wrong.is_empty());
}

/// The tapes with names and the drawn ones each find it.
#[test]
fn every_wrong_salvage_is_found_by_each_way_to_it() {
    let mut missed = Vec::new();
    for fault in SALVAGE_FAULTS {
        let library = Wrong(fault);
        if compare_named(&library, &mut Tally::default()).is_ok() {
            missed.push((fault, "named"));
        }
        if compare_tapes(&library, 1, 1_500, &mut Tally::default()).is_ok() {
            missed.push((fault, "drawn"));
        }
    }
    assert!(missed.is_empty(), "not found: {missed:?}");
}

/// Whether the first 30,000 cases have one of this kind that gives the fault away.
fn found_by(kind: &str, fault: &'static str) -> bool {
    let mut cases = (0..30_000).map(|number| case_of(1, number)).filter(|case| case.kind() == kind);
    cases.any(|case| difference(&Wrong(fault), &case, &run(&Model, &case)).is_some())
}

/// Drawn fields, all counts, long fields and blocks each find it.
fn found_by_each_way(fault: &'static str, kind: &str) {
    assert!(FAULTS.contains(&fault));
    let library = Wrong(fault);
    assert!(compare_drawn(&library, 1, 2_000).is_err(), "{fault}: drawn fields");
    assert!(compare_counts(&library, 1).is_err(), "{fault}: counts");
    assert!(compare_long_fields(&library, 1).is_err(), "{fault}: long fields");
    assert!(found_by(kind, fault), "{fault}: {kind}");
}

#[test]
fn a_wrong_way_by_groups_is_found_by_each_way_to_it() {
    for fault in [
        "forgets the words behind the last group",
        "takes a group too many",
        "exchanges two words of a group",
        "takes a group's words low bits first",
        "takes eight-bit words by fives",
        "takes six-bit words by the eight-bit way",
    ] {
        found_by_each_way(fault, "read");
    }
}

#[test]
fn a_wrong_way_to_put_is_found_by_each_way_to_it() {
    for fault in [
        "forgets to put the last group",
        "puts a group too many",
        "puts six-bit words by the eight-bit way",
        "leaves the fill of a lent field",
        "clears only whole eights of the fill",
    ] {
        found_by_each_way(fault, "write");
    }
}

/// Words that fit do not give it away, so that too large ones are tried in place of all counts.
#[test]
fn a_word_let_in_is_found_by_each_way_to_it() {
    for fault in
        ["lets a word of 1,024 in", "spills the high bit of a word of 1,024", "tests only whole sixteens of words"]
    {
        assert!(FAULTS.contains(&fault));
        let library = Wrong(fault);
        assert!(compare_drawn(&library, 1, 2_000).is_err(), "{fault}: drawn fields");
        assert!(compare_large_words(&library, 1).is_err(), "{fault}: too large words");
        assert!(compare_long_fields(&library, 1).is_err(), "{fault}: long fields");
        assert!(found_by("write", fault), "{fault}: write");
    }
}

/// Whoever goes by the row gives the wrong one away: the reader, the writer and record access.
#[test]
fn a_wrong_row_is_found_by_each_way_to_it() {
    for fault in [
        "gives block 2 four records in version 2",
        "gives block 2 three records in version 3",
        "gives block 1 three records in version 2",
    ] {
        assert!(FAULTS.contains(&fault));
        for kind in ["read", "write", "record"] {
            assert!(found_by(kind, fault), "{fault}: {kind}");
        }
    }
}

/// The header that a case lends, or that a block begins with.
fn header_of(case: &Case) -> Option<[u8; 28]> {
    match case {
        Case::Write { header, .. } | Case::Record { header, .. } => header[..].try_into().ok(),
        Case::Read { block, .. } if block.len() >= 90 && passing(block)[0] => block[..28].try_into().ok(),
        _ => None,
    }
}

/// Counts of one row, of both and just outside, and records there are and are not, in versions with either row.
#[test]
fn block_2_is_met_at_the_ends_of_both_rows() {
    let (mut counts, mut parts) = (BTreeSet::new(), BTreeSet::new());
    for number in 0..30_000 {
        let case = case_of(7, number);
        let Some(header) = header_of(&case).filter(|header| header[..2] == [2, 10] && header[7] <= 3) else { continue };
        let records = rows::records(2, header[7]);
        counts.insert((records, u16::from_be_bytes([header[2], header[3]]) as usize));
        if let (Case::Record { k, .. }, Answer::Part(0 | 13, ..)) = (&case, run(&Model, &case).answer) {
            parts.insert((records, *k));
        }
    }
    for records in [3, 4] {
        for c in [48, 51, 64, 68, 84, 15_756, 15_759, rows::LARGEST_C, rows::LARGEST_C + 4] {
            assert!(counts.contains(&(records, c + COUNT_ADDS)), "{c} words where {records} records are due");
        }
        for k in 0..=5 {
            assert!(parts.contains(&(records, k)), "record {k} of {records}");
        }
    }
}

#[test]
fn every_answer_is_met() {
    let mut tally = Tally::default();
    compare(&Model, 7, 0, 30_000, &mut tally).unwrap();
    let expected: [(&str, &[&str]); 16] = [
        ("read", &["0", "1", "2", "3", "4", "5", "6", "7", "8", "9", "10", "11"]),
        ("write", &["0", "1", "4", "5", "6", "7", "8", "9", "14"]),
        ("record", &["0", "1", "4", "5", "6", "7", "9", "13"]),
        ("place", &["0", "4", "5", "13"]),
        ("read tag", &["0", "12"]),
        ("write tag", &["0", "12"]),
        ("elapsed", &["0", "12"]),
        ("begin", &["0", "16"]),
        (
            "offer",
            &[
                "Refused(4)",
                "Refused(12)",
                "Refused(13)",
                "Refused(16)",
                "Stray",
                "Opened",
                "Kept",
                "ClockBack",
                "Late",
                "Broken",
                "Complete",
            ],
        ),
        ("imager", &["0", "8", "14"]),
        ("next field", &["End", "Field", "Cut"]),
        ("line", &["0", "1", "2", "3", "8", "9", "10", "15"]),
        ("first text", &["0", "9"]),
        ("line text", &["0", "9"]),
        ("last text", &["0", "9"]),
        ("list", &["0", "1", "2", "3", "4", "5", "6", "7", "8", "10", "11", "15", "cut", "end"]),
    ];
    for (kind, labels) in expected {
        for label in labels {
            assert!(tally.met(kind, label) > 20, "{kind} {label}: {}", tally.met(kind, label));
        }
    }
}

#[test]
fn a_listing_is_its_lines() {
    let mut dice = Dice::new(17);
    for _ in 0..2_000 {
        let recording = inputs::recording(&mut dice);
        assert_eq!(list_by_lines(&Model, &recording), Model.list(&recording));
    }
}

#[test]
fn what_is_written_is_read() {
    let mut dice = Dice::new(11);
    for _ in 0..1_000 {
        let draft = inputs::draft(&mut dice);
        let mut dest = vec![0xEE; 27_000];
        let (number, written) = Model.write(&draft.header, &draft.words, &mut dest);
        assert_eq!(number, 0);
        assert!(dest[written..].iter().all(|&byte| byte == 0xEE));
        let mut room = vec![0xEEEE; rows::LARGEST_C + 5];
        let answer = Model.read(&dest[..written], &mut room);
        assert_eq!((answer.number, answer.header, answer.copies), (0, draft.header, [true; 3]));
        assert_eq!(room[..answer.words], draft.words);
        assert!(room[answer.words..].iter().all(|&word| word == 0xEEEE));
    }
}

#[test]
fn records_joined_are_the_words() {
    let mut dice = Dice::new(12);
    for _ in 0..1_000 {
        let draft = inputs::draft(&mut dice);
        let mut joined: Vec<u16> = Vec::new();
        let records = rows::records(draft.block, draft.version);
        for k in 1..=records {
            let (number, start, length) = Model.record(&draft.header, &draft.words, k);
            assert_eq!(number, 0);
            joined.extend(&draft.words[start..start + length]);
        }
        assert!(joined == draft.words || records == 0);
    }
}

#[test]
fn a_refusal_leaves_room_and_answer_empty() {
    for number in 0..10_000 {
        match case_of(13, number) {
            Case::Read { block, room, .. } => {
                let mut after = room.clone();
                let answer = Model.read(&block, &mut after);
                if answer.number != 0 {
                    assert_eq!((answer.words, answer.header, answer.copies), (0, [0; 28], [false; 3]));
                    assert_eq!(room, after);
                }
            }
            Case::Write { header, words, dest, .. } => {
                let mut after = dest.clone();
                let (number, written) = Model.write(&header, &words, &mut after);
                if number != 0 {
                    assert_eq!(written, 0);
                    assert_eq!(dest, after);
                }
            }
            _ => {}
        }
    }
}

/// A burst of up to sixteen bits in field and check word is always seen.
#[test]
fn bursts_are_refused() {
    let mut dice = Dice::new(14);
    for _ in 0..300 {
        let draft = inputs::draft(&mut dice);
        let mut dest = vec![0; 27_000];
        let (_, written) = Model.write(&draft.header, &draft.words, &mut dest);
        let bits = 8 * (written - 90);
        let length = dice.between(1, 16);
        let start = dice.below(bits - length + 1);
        let inner = dice.roll();
        for place in 0..length {
            if place == 0 || place == length - 1 || inner >> place & 1 == 1 {
                let at = 8 * 90 + start + place;
                dest[at / 8] ^= 0x80 >> (at % 8);
            }
        }
        let answer = Model.read(&dest[..written], &mut vec![0; draft.words.len()]);
        assert_eq!(answer.number, 10);
    }
}

#[test]
fn a_completed_scan_stays_within_ten_limits() {
    let mut completed = 0;
    for number in 0..40_000 {
        let case = case_of(15, number);
        let Case::Offers { start: independent::compare::Start::Begun(limit), offers } = &case else {
            continue;
        };
        let Answer::Offers(0, answers) = run(&Model, &case).answer else { panic!() };
        let mut opening = 0;
        let mut was_open = false;
        for (index, (answered, watch)) in answers.iter().enumerate() {
            if !matches!(answered.verdict, Verdict::Refused(_)) && offers[index].block == 0 && watch.open {
                opening = index;
            }
            if answered.verdict == Verdict::Complete {
                let (answer, time) = Model.elapsed(&offers[opening].tag, &offers[index].tag, &[]);
                assert!(was_open && answer == 0 && time >= 0 && time <= 10 * *limit as i64);
                completed += 1;
            }
            was_open = watch.open;
        }
    }
    assert!(completed > 500);
}

#[test]
fn every_field_has_an_even_number_of_bytes() {
    for block in 0..=11 {
        for c in 1..=rows::LARGEST_C {
            assert_eq!(rows::field_bits(block, c) % 16, 0);
        }
    }
}

#[test]
fn bytes_and_their_check_leave_one_remainder() {
    let mut dice = Dice::new(16);
    for length in 0..200 {
        let mut bytes = dice.bytes(length);
        bytes.extend(check_word(&bytes).to_be_bytes());
        assert_eq!(check_word(&bytes), !0x1D0F);
    }
}

// ---- salvage ----

#[test]
fn every_answer_of_a_salvage_is_met() {
    let labels = ["0", "9", "18", "span", "block -", "block 1", "block 2", "block 3"];
    let two_changed = ["block 1,2", "block 1,3", "block 2,3"];
    let mut tally = Tally::default();
    compare_tapes(&Model, 7, 1_000, &mut tally).unwrap();
    for label in labels.into_iter().chain(two_changed) {
        assert!(tally.met("salvage", label) > 20, "{label}: {}", tally.met("salvage", label));
    }
}

/// The drawn tapes that are salvaged in rooms as they are asked for.
fn drawn_tapes(count: u64) -> impl Iterator<Item = Vec<u8>> {
    (0..count).map(|number| match salvage_of(7, number) {
        Case::Salvage { input, .. } => input,
        _ => panic!(),
    })
}

/// The first copy at a start that makes a block.
fn maker(rest: &[u8]) -> Option<usize> {
    (0..3).find(|&k| made(rest, k).is_some())
}

/// What is remarkable about a block on a tape.
fn block_kinds(tape: &[u8], piece: &Piece) -> Vec<String> {
    let rest = &tape[piece.start..];
    let used = maker(rest).unwrap();
    let passing = passing(rest);
    let mut kinds = vec![format!("made by copy {}", used + 1)];
    if (0..used).any(|k| passing[k]) {
        kinds.push("a passing copy passed over".into());
    }
    if (0..3).any(|k| passing[k] && copy(rest, k) != copy(rest, used)) {
        kinds.push("passing copies that differ".into());
    }
    if (used + 1..3).any(|k| made(rest, k).is_some_and(|other| other != piece.made)) {
        kinds.push("two copies that make two blocks".into());
    }
    if (used + 1..3).any(|k| made(rest, k).is_some_and(|other| other.len() != piece.bytes)) {
        kinds.push("two copies that make blocks of two lengths".into());
    }
    if (0..3).any(|k| passing[k] && asks_for(rest, k) > Some(rest.len())) {
        kinds.push("a copy that asks for more than there is".into());
    }
    for apart in [30, 60] {
        if tape.get(piece.start + apart..).is_some_and(|rest| maker(rest).is_some()) {
            kinds.push(format!("two readings {apart} bytes apart"));
        }
    }
    kinds
}

/// The bytes that a copy's header asks for.
fn asks_for(rest: &[u8], k: usize) -> Option<usize> {
    meaning(copy(rest, k)?[..28].try_into().unwrap()).ok().map(|meaning| meaning.block_bytes())
}

/// What is remarkable about a tape.
fn tape_kinds(tape: &[u8]) -> Vec<String> {
    let pieces = pieces(tape);
    let blocks: Vec<&Piece> = pieces.iter().filter(|piece| piece.is_block()).collect();
    let mut kinds = vec![format!("{} bytes", tape.len()), format!("{} blocks", blocks.len())];
    let mut note = |is_so: bool, kind: &str| {
        if is_so {
            kinds.push(kind.into());
        }
    };
    let [first, .., last] = &pieces[..] else { return kinds };
    note(!first.is_block(), "junk before");
    note(!last.is_block(), "junk behind");
    note(pieces[1..pieces.len() - 1].iter().any(|piece| !piece.is_block()), "junk between");
    note(pieces.windows(2).any(|two| two[0].is_block() && two[1].is_block()), "blocks side by side");
    note(blocks.windows(2).any(|two| two[0].bytes > two[1].bytes), "a shorter block behind a longer one");
    note(blocks.iter().any(|block| block.start > 65_535), "a start of more than 16 bits");
    let lone_cut = |start: &usize| {
        let rest = &tape[*start..];
        rest.len() >= 90 && passing(rest) == [true; 3] && asks_for(rest, 0) > Some(rest.len())
    };
    note(!last.is_block() && (last.start..tape.len()).any(|start| lone_cut(&start)), "a block cut at the end");
    let [bytes, numbers, _] = salvage::rooms(tape.len());
    note(blocks.iter().map(|block| 3 + block.bytes).sum::<usize>() == bytes, "a recording that fills its room");
    note(3 * pieces.len() == numbers, "a report that fills its room");
    kinds.extend(blocks.into_iter().flat_map(|block| block_kinds(tape, block)));
    kinds
}

#[test]
fn every_kind_of_tape_is_drawn() {
    let met: BTreeSet<String> = drawn_tapes(1_500).flat_map(|tape| tape_kinds(&tape)).collect();
    let lengths = [0, 89, 90, LEAST_BYTES - 1, LEAST_BYTES, MOST_INPUT, MOST_INPUT + 1];
    let lengths = lengths.map(|length| format!("{length} bytes"));
    let counts = [0, 1, 2, 3, 4, 5, 10].map(|count| format!("{count} blocks"));
    let others = [
        "junk before",
        "junk between",
        "junk behind",
        "blocks side by side",
        "a shorter block behind a longer one",
        "a start of more than 16 bits",
        "a block cut at the end",
        "a recording that fills its room",
        "a report that fills its room",
        "made by copy 1",
        "made by copy 2",
        "made by copy 3",
        "a passing copy passed over",
        "passing copies that differ",
        "two copies that make two blocks",
        "two copies that make blocks of two lengths",
        "a copy that asks for more than there is",
        "two readings 30 bytes apart",
        "two readings 60 bytes apart",
    ];
    for kind in lengths.iter().chain(&counts).map(String::as_str).chain(others) {
        assert!(met.contains(kind), "no tape has {kind}");
    }
}

/// Each room one too small, with the others as they are asked for, whatever the tape.
#[test]
fn each_room_one_too_small_is_met() {
    let mut met = BTreeSet::new();
    for number in 0..1_500 {
        let Case::Salvage { input, recording, report, scratch, .. } = salvage_of(7, number) else { panic!() };
        let lent = [recording.len(), report.len(), scratch.len()];
        let place = rooms_around(input.len()).iter().position(|rooms| *rooms == lent);
        met.insert((place, pieces(&input).iter().any(Piece::is_block)));
    }
    for place in [0, 2, 3, 4] {
        for has_blocks in [false, true] {
            assert!(met.contains(&(Some(place), has_blocks)), "rooms {place}, blocks: {has_blocks}");
        }
    }
}

#[test]
fn blocks_and_spans_cover_the_tape_once() {
    for tape in drawn_tapes(400) {
        let (mut joined, mut spans) = (0, Vec::new());
        for piece in pieces(&tape) {
            assert_eq!(piece.start, joined);
            assert!(piece.bytes > 0);
            joined += piece.bytes;
            spans.push(!piece.is_block());
        }
        assert_eq!(joined, tape.len());
        assert!(!spans.windows(2).any(|two| two == [true, true]));
    }
}

#[test]
fn each_block_written_is_read_and_listed() {
    for tape in drawn_tapes(400) {
        let (text, recording) = salvage::program(&tape);
        let Some(recording) = recording else {
            assert!(text == "no block\n" || tape.len() > MOST_INPUT && text == "too long\n");
            continue;
        };
        let blocks = text.lines().filter(|line| line.contains(" block ")).count();
        let listing = Model.list(&recording);
        assert_eq!(listing.lines().filter(|line| line.ends_with(" 0")).count(), blocks);
        assert!(listing.ends_with(&format!("\nend {blocks}\n")) && text.ends_with(&format!("\nend {blocks}\n")));
    }
}

#[test]
fn what_was_salvaged_is_salvaged_again() {
    for tape in drawn_tapes(400) {
        let again = tapes::again(&tape);
        if let (_, Some(recording)) = salvage::program(&tape) {
            assert_eq!(salvage::program(&again).1, Some(recording));
        }
    }
}
