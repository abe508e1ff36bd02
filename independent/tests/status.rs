//! The Sounder's status: the printed answers, libraries that are wrong about it on purpose, and what the drawn cases
//! meet.

use std::collections::{BTreeMap, BTreeSet};

use independent::compare::{difference, run, Answer, Case, Outcome, Tally};
use independent::compare_status::{compare_named_statuses, compare_status_cases, status_case_of};
use independent::document::Findings;
use independent::document_status;
use independent::library::{Library, Model, StatusAnswer, SuspectAnswer};
use independent::sounder_blocks::{detector_of, good_block, put_tag, WORDS};
use independent::status::{bits, detectors, number, tag_bytes, BITS, EAST, FRAME, TAGS, WEST};
use independent::tags::leap_days;
use independent::wrong::{Wrong, FAULTS};
use independent::wrong_fills::FILL_FAULTS;
use independent::wrong_leaps::LEAP_FAULTS;
use independent::wrong_salvage::SALVAGE_FAULTS;
use independent::wrong_status::STATUS_FAULTS;

const DRAWN: u64 = 5_000;

fn printed(library: &dyn Library) -> Findings {
    let mut found = Findings { run: 0, wrong: Vec::new() };
    document_status::status(library, &mut found);
    found
}

#[test]
fn as_printed() {
    let found = printed(&Model);
    assert!(found.wrong.is_empty(), "{}", found.wrong.join("\n"));
    assert!(found.run > 0);
}

/// The cases with names and the drawn ones each find it.
#[test]
fn every_fault_is_found_by_each_way_to_it() {
    let mut missed = Vec::new();
    for fault in STATUS_FAULTS {
        let library = Wrong(fault);
        if compare_named_statuses(&library, &mut Tally::default()).is_ok() {
            missed.push((fault, "named"));
        }
        if compare_status_cases(&library, 1, DRAWN, &mut Tally::default()).is_ok() {
            missed.push((fault, "drawn"));
        }
    }
    assert!(missed.is_empty(), "not found: {missed:?}");
}

/// Faults that show in the printed answers alone, every bound one off among them.
#[test]
fn the_printed_answers_find_what_was_foreseen() {
    let foreseen = [
        "takes the last bit of a word first",
        "takes detectors before channels",
        "counts the spare bits",
        "tests 21 before 14",
        "names the second word of a field",
        "names the west for a west above its east",
        "refuses all for a bad tag",
        "tests 13 before 22",
        "exchanges high and low in the frame",
        "exchanges high and low in the raw count",
        "exchanges high and low in the block count",
        "refuses a west equal to its east",
        "refuses a north above its south",
        "refuses a north below its south",
        "keeps the channel in a byte",
        "reads the tags without the list",
    ];
    let bounds = STATUS_FAULTS.into_iter().filter(|fault| fault.starts_with("takes field "));
    for fault in foreseen.into_iter().chain(bounds) {
        assert!(STATUS_FAULTS.contains(&fault), "{fault}");
        assert!(!printed(&Wrong(fault)).wrong.is_empty(), "{fault}");
    }
}

/// Every bound of every field has a fault one below it and one above.
#[test]
fn every_bound_is_one_off() {
    let named: BTreeSet<&str> = STATUS_FAULTS.into_iter().filter(|fault| fault.starts_with("takes field ")).collect();
    let off = FRAME.into_iter().flat_map(|(first, least, most)| {
        let from = [least - 1, least + 1].map(|least| format!("takes field {first} from {least}"));
        let up_to = [most - 1, most + 1].map(|most| format!("takes field {first} up to {most}"));
        from.into_iter().chain(up_to)
    });
    let off: BTreeSet<String> = off.collect();
    assert_eq!(named, off.iter().map(String::as_str).collect());
}

/// A name stands for one fault.
#[test]
fn no_name_is_taken_twice() {
    let all = FAULTS.into_iter().chain(SALVAGE_FAULTS).chain(LEAP_FAULTS).chain(FILL_FAULTS).chain(STATUS_FAULTS);
    let mut met = BTreeSet::new();
    assert_eq!(all.filter(|fault| !met.insert(*fault)).collect::<Vec<_>>(), Vec::<&str>::new());
}

const KINDS: [&str; 2] = ["status", "suspect"];

/// Drawn cases with what the model makes of them.
fn drawn() -> Vec<(Case, Outcome)> {
    let cases = (0..DRAWN).map(|number| status_case_of(1, number));
    cases.map(|case| (case.clone(), run(&Model, &case))).collect()
}

/// The calls in which a fault shows.
fn found_by(fault: &'static str, drawn: &[(Case, Outcome)]) -> BTreeSet<&'static str> {
    let mut kinds = BTreeSet::new();
    for (case, ours) in drawn {
        if !kinds.contains(case.kind()) && difference(&Wrong(fault), case, ours).is_some() {
            kinds.insert(case.kind());
        }
        if kinds.len() == KINDS.len() {
            break;
        }
    }
    kinds
}

fn faults_between(first: &str, last: &str) -> &'static [&'static str] {
    static ALL: [&str; STATUS_FAULTS.len()] = STATUS_FAULTS;
    let place = |name: &str| ALL.iter().position(|fault| *fault == name).unwrap();
    &ALL[place(first)..=place(last)]
}

/// What both calls go by gives a wrong judgement away in both, what one gives back in that one.
#[test]
fn a_fault_is_found_by_each_call_that_has_it() {
    let drawn = drawn();
    for fault in faults_between("takes the last bit of a word first", "names the word of a good field with 19") {
        assert_eq!(found_by(fault, &drawn), KINDS.into(), "{fault}");
    }
    for fault in faults_between("counts the suspect channels", "leaves the frame with 22") {
        assert_eq!(found_by(fault, &drawn), ["status"].into(), "{fault}");
    }
    for fault in faults_between("answers for channel 20", "asks nothing of frame and list for a detector") {
        assert_eq!(found_by(fault, &drawn), ["suspect"].into(), "{fault}");
    }
}

/// The tags of a block are read as any tag is, by a list that is judged as any is.
#[test]
fn a_wrong_reader_of_tags_is_found_in_a_status() {
    let drawn = drawn();
    let last = LEAP_FAULTS.iter().position(|fault| *fault == "takes second 61").unwrap();
    for fault in &LEAP_FAULTS[..=last] {
        assert!(found_by(fault, &drawn).contains("status"), "{fault}, drawn");
        assert!(compare_named_statuses(&Wrong(fault), &mut Tally::default()).is_err(), "{fault}, named");
    }
}

// ---- what is met ----

/// What both calls answer.
fn answers_of_both() -> Vec<String> {
    let fields = FRAME.map(|(first, ..)| format!("22 at {first}"));
    ["0", "8", "14", "19", "21"].map(String::from).into_iter().chain(fields).collect()
}

#[test]
fn every_answer_is_met() {
    let mut tally = Tally::default();
    compare_status_cases(&Model, 7, DRAWN, &mut tally).unwrap();
    for kind in KINDS {
        for label in &answers_of_both() {
            assert!(tally.met(kind, label) > 30, "{kind} {label}: {}", tally.met(kind, label));
        }
    }
    for (kind, label) in [("suspect", "13"), ("suspect", "suspect"), ("suspect", "not suspect")] {
        assert!(tally.met(kind, label) > 100, "{kind} {label}: {}", tally.met(kind, label));
    }
    for label in ["tag 0", "tag 12"] {
        assert!(tally.met("status", label) > 1_000, "{label}: {}", tally.met("status", label));
    }
}

#[test]
fn every_answer_has_a_name() {
    let mut tally = Tally::default();
    compare_named_statuses(&Model, &mut tally).unwrap();
    for kind in KINDS {
        for label in &answers_of_both() {
            assert!(tally.met(kind, label) > 0, "{kind} {label}");
        }
    }
    assert!(tally.met("suspect", "13") > 0);
}

/// Words, list and detector of a case.
fn parts(case: &Case) -> (&[u16], &[u32], Option<(u32, u32)>) {
    match case {
        Case::Status { words, leap_days, .. } => (words, leap_days, None),
        Case::Suspect { words, leap_days, channel, detector, .. } => (words, leap_days, Some((*channel, *detector))),
        _ => panic!(),
    }
}

/// The fields of a frame that are out of the range printed for them, the crossed pixels beside them.
fn fields_out_of(words: &[u16]) -> Vec<String> {
    let value = |first: usize| number(words, first);
    let out = FRAME.into_iter().filter(|(first, least, most)| !(*least..=*most).contains(&value(*first)));
    let out = out.map(|(first, ..)| format!("field {first}"));
    out.chain((value(WEST) > value(EAST)).then(|| "crossed pixels".into())).collect()
}

/// The grounds on which a case could be refused, in the order in which they are tested. A shorter block has no others.
fn grounds(case: &Case) -> Vec<String> {
    let (words, list, asked) = parts(case);
    let mut grounds = Vec::new();
    let mut note = |is_so: bool, ground: &str| {
        if is_so {
            grounds.push(ground.to_string());
        }
    };
    note(words.len() != WORDS, "length");
    note(words.iter().any(|word| *word > 255), "large word");
    let whole = words.len() >= 194;
    note(whole && bits(words)[BITS..].contains(&true), "spare bit");
    note(whole && !fields_out_of(words).is_empty(), "frame");
    note(leap_days(list).is_err(), "list");
    note(asked.is_some_and(|asked| detectors().all(|one| one != asked)), "detector");
    grounds
}

/// How often each ground is met by itself, and each two together.
fn alone_and_in_pairs(cases: impl Iterator<Item = Case>) -> BTreeMap<String, u64> {
    let mut met = BTreeMap::new();
    for case in cases {
        let grounds = grounds(&case);
        for (place, one) in grounds.iter().enumerate() {
            let pairs = grounds[place + 1..].iter().map(|two| format!("{one} and {two}"));
            let alone = (grounds.len() == 1).then(|| one.clone());
            pairs.chain(alone).for_each(|kind| *met.entry(format!("{}: {kind}", case.kind())).or_default() += 1);
        }
    }
    met
}

#[test]
fn every_pair_of_grounds_is_drawn() {
    let met = alone_and_in_pairs((0..DRAWN).map(|number| status_case_of(7, number)));
    let all = ["length", "large word", "spare bit", "frame", "list", "detector"];
    for (kind, grounds) in [("status", &all[..5]), ("suspect", &all[..])] {
        for (place, one) in grounds.iter().enumerate() {
            let pairs = grounds[place + 1..].iter().map(|two| format!("{one} and {two}"));
            for ground in pairs.chain([one.to_string()]) {
                let times = met.get(&format!("{kind}: {ground}")).copied().unwrap_or(0);
                assert!(times > 5, "{kind}: {ground}, {times} times");
            }
        }
    }
}

/// Every two fields of a frame out of their ranges, crossed pixels among them.
#[test]
fn every_pair_of_fields_is_drawn() {
    let mut met = BTreeSet::new();
    for case in (0..4 * DRAWN).map(|number| status_case_of(7, number)) {
        let (words, ..) = parts(&case);
        if words.len() == WORDS {
            let out = fields_out_of(words);
            let pairs =
                out.iter().enumerate().flat_map(|(place, one)| out[place + 1..].iter().map(move |two| (one, two)));
            met.extend(pairs.map(|(one, two)| format!("{one} and {two}")));
        }
    }
    let fields = FRAME.map(|(first, ..)| format!("field {first}")).into_iter().chain(["crossed pixels".into()]);
    let fields: Vec<String> = fields.collect();
    for (place, one) in fields.iter().enumerate() {
        for two in &fields[place + 1..] {
            assert!(met.contains(&format!("{one} and {two}")), "{one} and {two}");
        }
    }
}

/// The drawn blocks that are accepted, with what is said of them.
fn accepted() -> impl Iterator<Item = (Case, StatusAnswer)> {
    (0..2 * DRAWN).map(|number| status_case_of(7, number)).filter_map(|case| match run(&Model, &case).answer {
        Answer::Status(answer) if answer.number == 0 => Some((case, *answer)),
        _ => None,
    })
}

#[test]
fn every_detector_is_drawn() {
    let (mut asked, mut firsts, mut counts) = (BTreeSet::new(), BTreeSet::new(), BTreeSet::new());
    for case in (0..4 * DRAWN).map(|number| status_case_of(7, number)) {
        if let (Case::Suspect { channel, detector, .. }, Answer::Suspect(SuspectAnswer { number: 0, suspect, .. })) =
            (&case, run(&Model, &case).answer)
        {
            asked.insert((*channel, *detector, suspect));
        }
    }
    for (_, answer) in accepted() {
        firsts.insert(answer.first);
        counts.insert(answer.suspects);
    }
    for (channel, detector) in (0..BITS).map(detector_of) {
        for suspect in [false, true] {
            assert!(asked.contains(&(channel, detector, suspect)), "{channel}, {detector}: {suspect}");
        }
        assert!(firsts.contains(&(channel, detector)), "first {channel}, {detector}");
    }
    assert!(firsts.contains(&(0, 0)));
    for count in [0, 1, 2, 12, 13, 38, 63, 64, 65, 75, 76] {
        assert!(counts.contains(&count), "{count} suspect");
    }
}

#[test]
fn every_bound_is_drawn() {
    let (mut good, mut bad) = (BTreeSet::new(), BTreeSet::new());
    for (_, answer) in accepted() {
        good.extend(FRAME.iter().zip(answer.frame).map(|((first, ..), value)| (*first, value)));
        good.extend((answer.frame[3] == answer.frame[4]).then_some((0, 0)));
    }
    for case in (0..DRAWN).map(|number| status_case_of(7, number)) {
        if let (Case::Status { words, .. }, Answer::Status(answer)) = (&case, run(&Model, &case).answer) {
            if answer.number == 22 {
                bad.insert((answer.word as usize, number(words, answer.word as usize)));
            }
        }
    }
    for (first, least, most) in FRAME {
        assert!(good.contains(&(first, least)) && good.contains(&(first, most)), "{first}");
        assert!(bad.contains(&(first, least - 1)) && bad.contains(&(first, most + 1)), "{first}");
    }
    assert!(good.contains(&(0, 0)), "no west equal to its east");
}

/// Each tag good and bad, and good by its list alone.
#[test]
fn every_kind_of_tag_is_drawn() {
    let mut met = BTreeSet::new();
    for (case, answer) in accepted() {
        let (words, ..) = parts(&case);
        let without = Model.sounder_status(words, &[]);
        for (tag, (said, other)) in answer.tags.iter().zip(without.tags).enumerate() {
            met.insert((tag, said.0, other.0));
        }
    }
    for tag in 0..TAGS {
        for (number, without) in [(0, 0), (12, 12), (0, 12)] {
            assert!(met.contains(&(tag, number, without)), "tag {tag}: {number}, without a list {without}");
        }
    }
}

// ---- what holds throughout ----

#[test]
fn the_count_is_that_of_the_detectors_asked_one_by_one() {
    for (case, answer) in accepted().take(500) {
        let (words, list, _) = parts(&case);
        let suspects: Vec<(u32, u32)> = detectors()
            .filter(|(channel, detector)| Model.sounder_suspect(words, list, *channel, *detector).suspect)
            .collect();
        assert_eq!(answer.suspects as usize, suspects.len());
        assert_eq!(answer.first, suspects.first().copied().unwrap_or((0, 0)));
    }
}

/// A refusal of a block leaves nothing but its number and, with 22, the word; both calls agree on it.
#[test]
fn a_refusal_leaves_zeros() {
    for case in (0..DRAWN).map(|number| status_case_of(7, number)) {
        let (words, list, asked) = parts(&case);
        let answer = Model.sounder_status(words, list);
        let (channel, detector) = asked.unwrap_or((1, 1));
        let suspect = Model.sounder_suspect(words, list, channel, detector);
        assert_eq!(answer.word != 0, answer.number == 22);
        if answer.number != 0 {
            assert_eq!(answer, StatusAnswer::refused(answer.number, answer.word));
            assert_eq!(suspect, SuspectAnswer::refused(answer.number, answer.word));
        } else if suspect.number != 0 {
            assert_eq!(suspect, SuspectAnswer::refused(13, 0));
        }
    }
}

/// Each tag is said what the reader of tags says of its eight words, and no other tag has a part in it.
#[test]
fn a_tag_has_the_verdict_of_its_bytes() {
    for (case, answer) in accepted().take(500) {
        let (words, list, _) = parts(&case);
        for (tag, said) in answer.tags.into_iter().enumerate() {
            assert_eq!(said, Model.read_tag(&tag_bytes(words, tag), list));
        }
    }
    let mut words = good_block();
    let good = Model.sounder_status(&words, &[]);
    put_tag(&mut words, 3, &[0xFF; 8]);
    let mut other = Model.sounder_status(&words, &[]);
    assert_eq!(other.tags[3].0, 12);
    other.tags[3] = good.tags[3];
    assert_eq!(other, good);
}

/// What is read stands in words 33 to 46, 59 to 178 and 181 to 194; the others may have any eight bits.
#[test]
fn other_words_have_no_part_in_it() {
    for (case, answer) in accepted().take(200) {
        let (words, list, _) = parts(&case);
        let mut changed = words.to_vec();
        for (number, word) in (1..).zip(&mut changed) {
            if !matches!(number, 33..=46 | 59..=178 | 181..=194) {
                *word = 255 - *word;
            }
        }
        assert_eq!(Model.sounder_status(&changed, list), answer);
    }
}
