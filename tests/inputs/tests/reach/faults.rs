//! The faults that refused readings reach, alone and two in one field.

use crate::counts::Counts;
use crate::kinds::*;
use inputs::faults::{in_book, in_case, Fault};
use inputs::generator::Files;
use inputs::questions::counted;
use second::plan::Plan;
use second::reader::*;
use second::refusal::*;
use std::collections::{BTreeMap, BTreeSet};

/// The seat of a refusal of the reading and all the faults there; the first in the order of judging gives the number.
fn faults_at(case: &[u8], book: &[u8], refusal: &Refusal) -> (Seat, Vec<Fault>) {
    let (bytes, faults) = match refusal.file {
        IN_CASE => (case, in_case(case, refusal.place)),
        _ => (book, in_book(book, refusal.place)),
    };
    assert_eq!(faults[0].refusal(), refusal.number);
    let tag = match bytes.get(refusal.place) {
        None => END,
        Some(tag) if (HEAD_TAG..=COUPLE_TAG).contains(tag) => *tag,
        Some(_) => UNKNOWN,
    };
    ((refusal.file, tag), faults)
}

/// What the vectors of refused readings reach: how often each two faults met in each seat, and with itself how often a fault was there and its
/// own number was given.
type Met = BTreeMap<(Seat, Fault, Fault), usize>;

/// Adds the faults of one refused reading.
fn add_faults(met: &mut Met, seat: Seat, faults: &[Fault]) {
    for (at, one) in faults.iter().enumerate() {
        if one.refusal() == faults[0].refusal() {
            *met.entry((seat, *one, *one)).or_insert(0) += 1;
        }
        for other in &faults[at + 1..] {
            *met.entry((seat, *one, *other)).or_insert(0) += 1;
        }
    }
}

#[test]
fn every_fault_and_every_two_that_can_meet_in_one_field_are_reached() {
    let mut met = Met::new();
    let mut counts = Counts::default();
    for Files { case, book } in counted().into_iter().map(|asked| asked.files) {
        match Plan::read(&case, &book) {
            Ok(_) => {}
            Err(refusal) if refusal.number == NO_TABLE => {
                let train = train_at(&case, refusal.place);
                counts.add(format!("refusal 11 for train {train}"), 1);
            }
            Err(refusal) => {
                let (seat, faults) = faults_at(&case, &book, &refusal);
                add_faults(&mut met, seat, &faults);
            }
        }
    }
    for (name, seat, faults) in KINDS {
        count_seat(&mut counts, &met, name, seat, faults);
    }
    (0..7).for_each(|train| counts.ask(format!("refusal 11 for train {train}")));
    assert_named(&met);
    counts.show();
}

/// Asserts that every fault met is named where it was met, and that no two met that are said never to.
fn assert_named(met: &Met) {
    let named: BTreeSet<(Seat, Fault)> = KINDS
        .iter()
        .flat_map(|(_, seat, faults)| faults.iter().map(|fault| (*seat, *fault)))
        .collect();
    for (seat, one, other) in met.keys() {
        for fault in [one, other] {
            let known = named.contains(&(*seat, *fault));
            assert!(known, "{fault:?} in {seat:?} is not named");
        }
        let may = can_meet(*one, *other);
        assert!(may, "{one:?} and {other:?} met in {seat:?}");
    }
}

/// Asks for each fault of a seat, and for each two that can meet there; of these the number and the smallest count are shown.
fn count_seat(counts: &mut Counts, met: &Met, name: &str, seat: Seat, faults: &[Fault]) {
    let count = |one: Fault, other: Fault| {
        let key = (seat, one.min(other), one.max(other));
        met.get(&key).copied().unwrap_or(0)
    };
    let mut pairs = Vec::new();
    for (at, one) in faults.iter().enumerate() {
        let given = format!("refusal {} given: {name}: {one:?}", one.refusal());
        match NEVER_FIRST
            .iter()
            .any(|(at, late)| *at == seat && late.contains(one))
        {
            true => assert_eq!(count(*one, *one), 0, "{given}"),
            false => counts.ask(given.clone()),
        }
        counts.add(given, count(*one, *one));
        let later = faults[at + 1..].iter();
        for other in later.filter(|other| can_meet(*one, **other)) {
            let reached = count(*one, *other);
            assert!(reached > 0, "{one:?} and {other:?} never met: {name}");
            pairs.push(reached);
        }
    }
    let fewest = pairs.iter().min().copied().unwrap_or(1);
    let all = format!(
        "fewest of the {} two faults that can meet: {name}",
        pairs.len()
    );
    counts.ask(all.clone());
    counts.add(all, fewest);
}

/// The number of the train whose field stands at a place.
fn train_at(case: &[u8], place: usize) -> usize {
    let (_, case) = read_case(case).expect("refusal 11 comes after the case is read");
    let at = case.trains.iter().position(|train| train.offset == place);
    at.expect("the place of a train")
}
