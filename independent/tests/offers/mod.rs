//! The offers of a case one by one, and the grounds on which each could be refused.

use std::collections::BTreeSet;

use independent::compare::{run, Answer, Case, Offer, Start};
use independent::library::{Library, Model, OfferAnswer};
use independent::tags::{leap_days, spelt};
use independent::watch::{Watch, LONGEST_WAIT};

/// Each offer of a case with the watch before it and the model's answer.
pub fn offers(case: &Case) -> Vec<(Watch, &Offer, OfferAnswer)> {
    let (Case::Offers { start, offers }, Answer::Offers(0, answers)) = (case, run(&Model, case).answer) else {
        return vec![];
    };
    let mut watch = match start {
        Start::Begun(limit) => Model.begin(*limit).1,
        Start::Lent(watch) => *watch,
    };
    let mut all = Vec::new();
    for (offer, (answer, after)) in offers.iter().zip(answers) {
        all.push((watch, offer, answer));
        watch = after;
    }
    all
}

/// The grounds on which an offer could be refused, in the order in which they are tested.
fn grounds(watch: &Watch, offer: &Offer) -> Vec<&'static str> {
    let days = leap_days(&offer.leap_days);
    let bad_list = days.is_err();
    let days = days.unwrap_or_default();
    let end = if watch.open { watch.expected.into() } else { 0 };
    let all = [
        ("limit", watch.limit > LONGEST_WAIT),
        ("expected block", watch.open && !(1..=10).contains(&watch.expected)),
        ("set", u64::from(watch.fill) >= 1 << end.min(32)),
        ("list", bad_list),
        ("last tag", watch.open && !watch.tag.in_bounds(&days)),
        ("block", offer.block > 11),
        ("tag", spelt(&offer.tag).filter(|tag| tag.in_bounds(&days)).is_none()),
    ];
    all.into_iter().filter(|(_, is_so)| *is_so).map(|(ground, _)| ground).collect()
}

/// Grounds by themselves and two by two.
fn alone_and_in_pairs(open: bool, grounds: &[&str]) -> Vec<String> {
    let state = if open { "open" } else { "idle" };
    let mut kinds: Vec<String> = grounds.iter().map(|ground| format!("{state}: {ground}")).collect();
    for (place, one) in grounds.iter().enumerate() {
        kinds.extend(grounds[place + 1..].iter().map(|two| format!("{state}: {one} and {two}")));
    }
    kinds
}

/// Which of these grounds no offer of the cases has, open and idle, or no offer has together.
pub fn grounds_not_met(cases: impl Iterator<Item = Case>, open: &[&str], idle: &[&str]) -> Vec<String> {
    let mut met = BTreeSet::new();
    for case in cases {
        for (watch, offer, _) in offers(&case) {
            met.extend(alone_and_in_pairs(watch.open, &grounds(&watch, offer)));
        }
    }
    let all = [alone_and_in_pairs(true, open), alone_and_in_pairs(false, idle)].concat();
    all.into_iter().filter(|kind| !met.contains(kind)).collect()
}
