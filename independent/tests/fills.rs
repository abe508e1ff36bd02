//! Which blocks were fill: the printed answers, libraries that are wrong about it on purpose, and what the drawn cases
//! meet.

mod offers;

use std::collections::BTreeSet;

use independent::compare::{Case, Start, Tally};
use independent::compare_fills::{
    compare_closings, compare_fill_cases, compare_named_fills, fill_case_of, judge_closings, long_case_of,
};
use independent::document::{self, Findings};
use independent::library::{Model, OfferAnswer};
use independent::watch::{Verdict, Watch, LONGEST_WAIT};
use independent::wrong::Wrong;
use independent::wrong_fills::FILL_FAULTS;
use offers::{grounds_not_met, offers};

const DRAWN: u64 = 5_000;
const LONG: u64 = 100;

#[test]
fn as_printed() {
    let mut found = Findings { run: 0, wrong: Vec::new() };
    document::fill_blocks(&Model, &mut found);
    assert!(found.wrong.is_empty(), "{}", found.wrong.join("\n"));
    assert!(found.run > 0);
}

/// The cases with names and the drawn ones each find it.
#[test]
fn every_fault_is_found_by_each_way_to_it() {
    let mut missed = Vec::new();
    for fault in FILL_FAULTS {
        let library = Wrong(fault);
        if compare_named_fills(&library, &mut Tally::default()).is_ok() {
            missed.push((fault, "named"));
        }
        if compare_fill_cases(&library, 1, DRAWN, &mut Tally::default()).is_ok() {
            missed.push((fault, "drawn"));
        }
    }
    assert!(missed.is_empty(), "not found: {missed:?}");
}

/// What is handed over gives these away, with no look at the record and without the model.
#[test]
fn what_was_offered_finds_a_wrong_closing() {
    let last = FILL_FAULTS.iter().position(|fault| *fault == "begins with block 0 in the set").unwrap();
    let missed: Vec<&str> =
        FILL_FAULTS[..=last].iter().copied().filter(|fault| compare_closings(&Wrong(fault), 1, LONG).is_ok()).collect();
    assert!(missed.is_empty(), "not found: {missed:?}");
}

/// Faults that show in the printed answers alone.
#[test]
fn the_printed_answers_find_what_was_foreseen() {
    for fault in [
        "takes every word but 0 as valid",
        "puts the closing block into a broken set",
        "leaves out block 10",
        "keeps the set over a closing",
        "gives the new scan the old set",
        "puts a closing block 0 into the old set",
        "counts one block too many",
        "counts one block too few",
        "tests 20 only when open",
        "tests 20 only when idle",
        "allows the expected block in the set",
    ] {
        assert!(FILL_FAULTS.contains(&fault), "{fault}");
        let mut found = Findings { run: 0, wrong: Vec::new() };
        document::fill_blocks(&Wrong(fault), &mut found);
        assert!(!found.wrong.is_empty(), "{fault}");
    }
    // The order of all refusals stands with those of the list.
    for fault in ["tests 20 before 16", "tests 20 before 13", "tests 20 after 19"] {
        let mut found = Findings { run: 0, wrong: Vec::new() };
        document::leap_seconds(&Wrong(fault), &mut found);
        assert!(!found.wrong.is_empty(), "{fault}");
    }
}

#[test]
fn every_answer_is_met() {
    let mut tally = Tally::default();
    compare_fill_cases(&Model, 7, DRAWN, &mut tally).unwrap();
    let refusals = [4, 12, 13, 16, 19, 20].map(|number| format!("Refused({number})"));
    let verdicts = ["Stray", "Opened", "Kept", "ClockBack", "Late", "Broken", "Complete"].map(String::from);
    for label in refusals.iter().chain(&verdicts) {
        assert!(tally.met("offer", label) > 50, "{label}: {}", tally.met("offer", label));
    }
    for label in ["0", "16"] {
        assert!(tally.met("begin", label) > 50, "{label}: {}", tally.met("begin", label));
    }
}

// ---- what is drawn ----

fn drawn() -> impl Iterator<Item = Case> {
    (0..DRAWN).map(|number| fill_case_of(7, number))
}

/// How a data valid word comes to a watch: which way its block goes.
fn word_kind(block: u8, answer: &OfferAnswer) -> &'static str {
    match answer.verdict {
        Verdict::Refused(_) => "refused",
        Verdict::Complete => "last",
        verdict if verdict.closes() && block == 0 => "closing block 0",
        verdict if verdict.closes() => "closing",
        Verdict::Opened => "opening",
        Verdict::Kept => "kept",
        _ => "stray",
    }
}

#[test]
fn every_kind_of_word_is_drawn() {
    let mut met = BTreeSet::new();
    for case in drawn() {
        for (_, offer, answer) in offers(&case) {
            met.insert((word_kind(offer.block, &answer), offer.valid));
        }
    }
    for kind in ["refused", "last", "closing block 0", "closing", "opening", "kept", "stray"] {
        for word in [0, 1, 2, 255, 256, 257, 65_537, u32::MAX] {
            assert!(met.contains(&(kind, word)), "no word {word}, {kind}");
        }
    }
}

/// What is remarkable about the set of a lent record whose limit and expected block are good.
fn set_kinds(watch: &Watch) -> Vec<&'static str> {
    let [below, at] = [(1 << watch.expected) - 1, 1 << watch.expected];
    let fill = watch.fill;
    let mut kinds = Vec::new();
    let mut note = |is_so: bool, kind: &'static str| {
        if is_so {
            kinds.push(kind);
        }
    };
    note(fill == 0, "empty");
    note(fill > 0 && fill <= below, "below the expected block");
    note(fill == below, "all below it");
    note(fill == at >> 1, "the block before it alone");
    note(fill == at, "it alone");
    note(fill & !at <= below && fill > at, "it and others below");
    note((fill & !below) >> 11 > 0 && fill & !below & 0x7FF == 0, "above 10 only, of those out of bounds");
    note((fill & !below) >> 16 > 0 && fill & !below & 0xFFFF == 0, "above 15 only, of those out of bounds");
    note(fill & !below & 0x7FF > at && fill < 1 << 11, "between it and 10");
    kinds
}

#[test]
fn every_kind_of_set_is_drawn() {
    let mut met = BTreeSet::new();
    for case in drawn() {
        let Case::Offers { start: Start::Lent(watch), .. } = case else { continue };
        if (1..=10).contains(&watch.expected) && watch.limit <= LONGEST_WAIT {
            met.extend(set_kinds(&watch).into_iter().map(|kind| (watch.open, kind)));
        }
    }
    let kinds = [
        "empty",
        "below the expected block",
        "all below it",
        "the block before it alone",
        "it alone",
        "it and others below",
        "above 10 only, of those out of bounds",
        "above 15 only, of those out of bounds",
        "between it and 10",
    ];
    for kind in kinds {
        for open in [false, true] {
            assert!(met.contains(&(open, kind)), "open {open}: no set has {kind}");
        }
    }
}

#[test]
fn every_pair_of_grounds_is_drawn() {
    let open = ["limit", "expected block", "set", "list", "last tag", "block", "tag"];
    let idle = ["limit", "set", "list", "block", "tag"];
    assert_eq!(grounds_not_met(drawn(), &open, &idle), Vec::<String>::new());
}

// ---- what holds throughout ----

fn long() -> impl Iterator<Item = Case> {
    (0..LONG).map(|number| long_case_of(7, number))
}

/// Which verdicts closed a scan, by block 0 or another, with how many fill blocks, and after what in between.
#[test]
fn closings_of_every_kind_are_judged() {
    let mut closings = BTreeSet::new();
    let mut counts = BTreeSet::new();
    let (mut judged, mut refused_within) = (0, 0);
    for case in long() {
        judged += judge_closings(&Model, &case).unwrap();
        for (watch, offer, answer) in offers(&case) {
            refused_within += u64::from(watch.fill > 0 && matches!(answer.verdict, Verdict::Refused(_)));
            if answer.verdict.closes() {
                closings.insert((answer.verdict, offer.block == 0, offer.valid == 1, answer.fill > 0));
            }
            if answer.verdict == Verdict::Complete {
                counts.insert(answer.count);
            }
        }
    }
    for verdict in [Verdict::ClockBack, Verdict::Late, Verdict::Broken] {
        for (block_0, valid, fill) in (0..8).map(|bits| (bits & 1 == 1, bits & 2 == 2, bits & 4 == 4)) {
            assert!(closings.contains(&(verdict, block_0, valid, fill)), "{verdict:?} {block_0} {valid} {fill}");
        }
    }
    assert_eq!(counts, (0..=11).collect());
    assert!(judged > 1_000 && refused_within > 100, "{judged}, {refused_within}");
}

/// The record of a watch begun idle has nothing in its set but blocks that came.
#[test]
fn a_watch_begun_stays_in_bounds() {
    for case in long() {
        for (watch, _, answer) in offers(&case) {
            let end = if watch.open { watch.expected } else { 0 };
            assert!(watch.fill < 1 << end);
            assert_ne!(answer.verdict, Verdict::Refused(20));
        }
    }
}

#[test]
fn refusals_and_strays_leave_the_record() {
    let mut left = 0;
    for case in long().chain(drawn()) {
        let all = offers(&case);
        for two in all.windows(2) {
            let (before, _, answer) = two[0];
            if matches!(answer.verdict, Verdict::Refused(_) | Verdict::Stray) {
                assert_eq!(two[1].0, before);
                left += u64::from(before.fill > 0);
            }
        }
    }
    assert!(left > 1_000, "{left}");
}
