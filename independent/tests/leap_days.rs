//! Leap days: the printed answers, libraries that are wrong about them on purpose, and what the drawn cases meet.

mod offers;

use std::collections::BTreeSet;

use independent::compare::{difference, run, Case, Outcome, Start, Tally};
use independent::compare_leaps::{compare_leap_cases, compare_named_leaps, leap_case_of};
use independent::document::{self, Findings};
use independent::leaps::{next_date, number, FIRST_DATE, LAST_DATE};
use independent::library::{Library, Model, OfferAnswer};
use independent::tags::{date, days_in, leap_days, spelt, Tag, MOST_LEAP_DAYS};
use independent::watch::Verdict;
use independent::wrong::Wrong;
use independent::wrong_leaps::LEAP_FAULTS;
use offers::{grounds_not_met, offers};

const DRAWN: u64 = 5_000;

#[test]
fn as_printed() {
    let mut found = Findings { run: 0, wrong: Vec::new() };
    document::leap_seconds(&Model, &mut found);
    assert!(found.wrong.is_empty(), "{}", found.wrong.join("\n"));
    assert!(found.run > 0);
}

/// The cases with names and the drawn ones each find it.
#[test]
fn every_fault_is_found_by_each_way_to_it() {
    let mut missed = Vec::new();
    for fault in LEAP_FAULTS {
        let library = Wrong(fault);
        if compare_named_leaps(&library, &mut Tally::default()).is_ok() {
            missed.push((fault, "named"));
        }
        if compare_leap_cases(&library, 1, DRAWN, &mut Tally::default()).is_ok() {
            missed.push((fault, "drawn"));
        }
    }
    assert!(missed.is_empty(), "not found: {missed:?}");
}

/// Faults that show in the printed answers alone.
#[test]
fn the_printed_answers_find_what_was_foreseen() {
    for fault in [
        "takes a list of 65 days",
        "lets equal neighbours in",
        "takes day 366 of a common year as listed",
        "takes second 60 at any hour",
        "takes second 60 in any minute",
        "counts a listed day for its own day",
        "writes without the list",
        "lends the list to the first tag only",
        "lends the list to the second tag only",
        "tests 19 after 12",
        "tests 19 only when open",
    ] {
        assert!(LEAP_FAULTS.contains(&fault), "{fault}");
        let mut found = Findings { run: 0, wrong: Vec::new() };
        document::leap_seconds(&Wrong(fault), &mut found);
        assert!(!found.wrong.is_empty(), "{fault}");
    }
}

const KINDS: [&str; 4] = ["read tag", "write tag", "elapsed", "offer"];

/// Drawn cases with what the model makes of them.
fn drawn() -> Vec<(Case, Outcome)> {
    let cases = (0..DRAWN).map(|number| leap_case_of(1, number));
    cases.map(|case| (case.clone(), run(&Model, &case))).collect()
}

/// The kinds of case in which a fault shows.
fn found_by(fault: &'static str, drawn: &[(Case, Outcome)]) -> BTreeSet<&'static str> {
    let mut kinds = BTreeSet::new();
    for (case, ours) in drawn {
        if !kinds.contains(case.kind()) && difference(&Wrong(fault), case, ours).is_some() {
            kinds.insert(case.kind());
        }
        if kinds.len() == KINDS.len() {
            break;
        }
    }
    kinds
}

/// Whoever is lent a list judges it and its leap seconds, and gives a wrong judgement away.
#[test]
fn a_wrong_judgement_is_found_by_each_kind_of_case() {
    let drawn = drawn();
    let last = LEAP_FAULTS.iter().position(|fault| *fault == "takes second 61").unwrap();
    for fault in LEAP_FAULTS[..=last].iter().copied().chain(["tests 19 after 12"]) {
        assert_eq!(found_by(fault, &drawn), KINDS.into(), "{fault}");
    }
}

#[test]
fn a_wrong_count_is_found_by_each_kind_that_counts() {
    let counts = LEAP_FAULTS.iter().copied().filter(|fault| fault.starts_with("counts ") && !fault.contains("wait"));
    let drawn = drawn();
    for fault in counts {
        assert_eq!(found_by(fault, &drawn), ["elapsed", "offer"].into(), "{fault}");
    }
}

#[test]
fn every_answer_is_met() {
    let mut tally = Tally::default();
    compare_leap_cases(&Model, 7, DRAWN, &mut tally).unwrap();
    for kind in &KINDS[..3] {
        for label in ["0", "12", "19"] {
            assert!(tally.met(kind, label) > 100, "{kind} {label}: {}", tally.met(kind, label));
        }
    }
    let refusals = [4, 12, 13, 16, 19].map(|number| format!("Refused({number})"));
    let verdicts = ["Stray", "Opened", "Kept", "ClockBack", "Late", "Broken", "Complete"].map(String::from);
    for label in refusals.iter().chain(&verdicts) {
        assert!(tally.met("offer", label) > 20, "{label}: {}", tally.met("offer", label));
    }
}

// ---- what is drawn ----

/// What is remarkable about a number in a list.
fn day_kind(day: u32) -> Option<&'static str> {
    let year = day / 1_000;
    match day % 1_000 {
        _ if day == u32::MAX => Some("the largest number"),
        _ if year == 10_000 => Some("year 10,000"),
        1..=365 if year > 65_535 && year % 65_536 < 10_000 => Some("a good year in 16 bits"),
        _ if year > 10_000 => None,
        0 => Some("day 0"),
        366 if days_in(year as u16) == 365 => Some("day 366 of a common year"),
        366 => Some("day 366 of a leap year"),
        367 => Some("day 367"),
        999 => Some("day 999"),
        _ if day == number(FIRST_DATE) => Some("the first day"),
        _ if day == number(LAST_DATE) => Some("the last day"),
        _ => None,
    }
}

fn list_kinds(list: &[u32]) -> Vec<String> {
    let mut kinds = vec![format!("{} days", list.len())];
    let good_days = list.iter().all(|&day| date(day).is_some());
    let pairs: Vec<(u32, u32)> = list.windows(2).map(|two| (two[0], two[1])).collect();
    let mut note = |is_so: bool, kind: &str| {
        if is_so && good_days && list.len() <= MOST_LEAP_DAYS {
            kinds.push(kind.into());
        }
    };
    // Each of these alone makes the list a bad one.
    note(pairs.iter().any(|(one, two)| one == two) && pairs.is_sorted(), "equal neighbours");
    note(pairs.iter().any(|(one, two)| one > two) && !pairs.iter().any(|(one, two)| one == two), "a fall");
    kinds.extend(list.iter().filter_map(|&day| day_kind(day)).map(String::from));
    kinds
}

/// How a tag in second 60 or 61 stands to a good list.
fn tag_kinds(tag: &Tag, list: &[u32]) -> Vec<String> {
    let (Ok(days), Some(own)) = (leap_days(list), date(number((tag.year, tag.day)))) else { return vec![] };
    let at_end = tag.hour == 23 && tag.minute == 59;
    let place = match (tag.second, tag.hour, tag.minute) {
        (60, ..) if at_end => "second 60",
        (61, ..) if at_end => "second 61",
        (60, 23, _) => "second 60 of another minute",
        (60, _, 59) => "second 60 of another hour",
        _ => return vec![],
    };
    let mut kinds = Vec::new();
    let mut note = |is_so: bool, day: &str| {
        if is_so {
            kinds.push(format!("{place}, {day}"));
        }
    };
    note(list.is_empty(), "no list");
    note(days.contains(&own), "its day listed");
    note(!days.contains(&own) && days.contains(&next_date(own)), "the next day listed");
    note(!days.contains(&own) && days.iter().any(|day| next_date(*day) == own), "the day before listed");
    kinds
}

#[test]
fn every_kind_of_list_and_tag_is_drawn() {
    let mut met = BTreeSet::new();
    for case in (0..DRAWN).map(|number| leap_case_of(7, number)) {
        let (tag, list) = match &case {
            Case::ReadTag { bytes, leap_days } => (spelt(bytes), leap_days),
            Case::WriteTag { tag, leap_days } => (Some(*tag), leap_days),
            Case::Elapsed { first, leap_days, .. } => (spelt(first), leap_days),
            _ => continue,
        };
        met.extend(list_kinds(list));
        met.extend(tag.into_iter().flat_map(|tag| tag_kinds(&tag, list)));
    }
    let lengths = [0, 1, 2, 3, 63, 64, 65, 66, 128, 256, 257, 320].map(|length| format!("{length} days"));
    let lists = [
        "equal neighbours",
        "a fall",
        "day 0",
        "day 366 of a common year",
        "day 366 of a leap year",
        "day 367",
        "day 999",
        "year 10,000",
        "a good year in 16 bits",
        "the largest number",
        "the first day",
        "the last day",
    ];
    let tags = ["no list", "its day listed", "the next day listed", "the day before listed"];
    let places = ["second 60", "second 61", "second 60 of another minute", "second 60 of another hour"];
    let tags = places.iter().flat_map(|place| tags.map(|day| format!("{place}, {day}")));
    for kind in lengths.into_iter().chain(lists.map(String::from)).chain(tags) {
        assert!(met.contains(&kind), "no case has {kind}");
    }
}

#[test]
fn every_kind_of_offer_is_drawn() {
    let cases = || (0..DRAWN).map(|number| leap_case_of(7, number));
    let open = ["limit", "expected block", "list", "last tag", "block", "tag"];
    let idle = ["limit", "list", "block", "tag"];
    assert_eq!(grounds_not_met(cases(), &open, &idle), Vec::<String>::new());

    let mut met = BTreeSet::new();
    for case in cases() {
        let in_leap_second = offers(&case).into_iter().filter(|(watch, ..)| watch.open && watch.tag.second == 60);
        met.extend(in_leap_second.map(|(.., answer)| format!("{:?}", answer.verdict)));
    }
    for verdict in ["Refused(12)", "Refused(19)", "Kept", "ClockBack", "Late", "Broken", "Complete"] {
        assert!(met.contains(verdict), "no {verdict} with the last tag in a leap second");
    }
}

// ---- what holds throughout ----

/// The list of a sequence of offers that all have the same.
fn one_list(case: &Case) -> Option<&[u32]> {
    let Case::Offers { start: Start::Begun(_), offers } = case else { return None };
    let list = &offers[0].leap_days;
    offers.iter().all(|offer| offer.leap_days == *list).then_some(list)
}

#[test]
fn a_scan_under_one_list_stays_within_ten_limits() {
    let (mut completed, mut crossed) = (0, 0);
    for case in (0..4 * DRAWN).map(|number| leap_case_of(15, number)) {
        let Some(list) = one_list(&case) else { continue };
        let mut opening = &[][..];
        for (watch, offer, OfferAnswer { verdict, .. }) in offers(&case) {
            if verdict == Verdict::Complete {
                let (number, time) = Model.elapsed(opening, &offer.tag, list);
                assert!(number == 0 && (0..=10 * watch.limit as i64).contains(&time));
                completed += 1;
                crossed += (time > Model.elapsed(opening, &offer.tag, &[]).1) as usize;
            }
            if offer.block == 0 && !matches!(verdict, Verdict::Refused(_)) {
                opening = &offer.tag;
            }
        }
    }
    assert!(completed > 500 && crossed > 200, "{completed}, {crossed}");
}

/// Scans that complete although their list changed on the way.
#[test]
fn lists_change_while_scans_go_on() {
    let changed = |case: &Case| {
        let all = offers(case);
        let complete = all.iter().position(|(.., answer)| answer.verdict == Verdict::Complete)?;
        let scan = &all[complete.checked_sub(10)?..=complete];
        Some(scan.windows(2).any(|two| two[0].1.leap_days != two[1].1.leap_days))
    };
    let found = (0..DRAWN).filter(|&number| changed(&leap_case_of(7, number)) == Some(true)).count();
    assert!(found > 20, "{found}");
}

#[test]
fn elapsed_times_add_up() {
    let mut added = 0;
    let mut last: Option<Vec<u8>> = None;
    for number in 0..DRAWN {
        let Case::Elapsed { first, second, leap_days } = leap_case_of(19, number) else { continue };
        let third = last.replace(second.clone()).unwrap_or_else(|| first.clone());
        let [there, on, over] = [(&first, &second), (&second, &third), (&first, &third)]
            .map(|(from, to)| Model.elapsed(from, to, &leap_days));
        if [there.0, on.0, over.0] == [0; 3] {
            assert_eq!(there.1 + on.1, over.1);
            assert_eq!(Model.elapsed(&second, &first, &leap_days), (0, -there.1));
            added += 1;
        }
    }
    assert!(added > 200, "{added}");
}

#[test]
fn what_is_written_is_read() {
    for number in 0..DRAWN {
        match leap_case_of(20, number) {
            Case::WriteTag { tag, leap_days } => {
                let (number, bytes) = Model.write_tag(&tag, &leap_days);
                if number == 0 {
                    assert_eq!(Model.read_tag(&bytes, &leap_days), (0, tag));
                } else {
                    assert_eq!(bytes, [0; 8]);
                }
            }
            Case::ReadTag { bytes, leap_days } => {
                let (number, tag) = Model.read_tag(&bytes, &leap_days);
                if number == 0 {
                    assert_eq!(Model.write_tag(&tag, &leap_days), (0, bytes.try_into().unwrap()));
                } else {
                    assert_eq!(tag, Tag::default());
                }
            }
            _ => {}
        }
    }
}
