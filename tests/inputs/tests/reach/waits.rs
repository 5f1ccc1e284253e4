//! What accepted inputs with couples have, and what their runs go through at coupled tracks.

use crate::counts::Counts;
use inputs::branches::{each_waits, passing_station, two_abreast};
use inputs::drawn::MOST_MET;
use inputs::questions::counted;
use inputs::waits::{waits, Waits};
use second::bodies::MOST_COUPLES;
use second::plan::{Place, Plan};
use second::reader::Couple;

/// The most bytes that an accepted case has.
const LONGEST: usize = 919;

#[test]
fn couples_are_of_every_kind() {
    let mut counts = Counts::default();
    for files in counted().iter().map(|asked| &asked.files) {
        if let Ok(plan) = Plan::read(&files.case, &files.book) {
            count_case(&mut counts, &plan, files.case.len());
        }
    }
    for (name, _) in CASES {
        counts.ask(name);
    }
    for (name, _) in COUPLES {
        counts.ask(name);
    }
    counts.show();
}

/// A kind of accepted case: what it is called, and whether a plan and its case's length are of it.
type Cases = (&'static str, fn(&Plan, usize) -> bool);

/// A kind of couple: what it is called, and whether a plan's couple is of it.
type Couples = (&'static str, fn(&Plan, &Couple) -> bool);

/// Every kind of accepted case that is asked for.
const CASES: [Cases; 4] = [
    ("cases with one couple", |plan, _| {
        plan.case.couples.len() == 1
    }),
    ("cases with two couples or more", |plan, _| {
        plan.case.couples.len() > 1
    }),
    ("cases with 20 couples", |plan, _| {
        plan.case.couples.len() == MOST_COUPLES
    }),
    ("cases of 919 bytes", |_, length| length == LONGEST),
];

/// Every kind of couple that is asked for.
const COUPLES: [Couples; 6] = [
    ("couples with the lower track first", |_, couple| {
        couple[0] < couple[1]
    }),
    ("couples with the higher track first", |_, couple| {
        couple[0] > couple[1]
    }),
    ("couples of a capacity above 1", |plan, couple| {
        plan.case.tracks[couple[0]].capacity > 1
    }),
    ("couples that no train uses", |plan, couple| {
        couple.iter().all(|track| users(plan, *track) == 0)
    }),
    ("couples that are used one way", |plan, couple| {
        couple
            .iter()
            .filter(|track| users(plan, **track) > 0)
            .count()
            == 1
    }),
    ("couples that are used both ways", |plan, couple| {
        couple.iter().all(|track| users(plan, *track) > 0)
    }),
];

/// How many trains go over a track.
fn users(plan: &Plan, track: usize) -> usize {
    let goes = |train: &usize| plan.planned_length(*train, Place::Track(track)) > 0;
    (0..plan.trains()).filter(goes).count()
}

/// Adds what one accepted case has.
fn count_case(counts: &mut Counts, plan: &Plan, length: usize) {
    assert!(length <= LONGEST);
    for (name, is) in CASES {
        counts.add(name, is(plan, length).into());
    }
    for couple in &plan.case.couples {
        for (name, is) in COUPLES {
            counts.add(name, is(plan, couple).into());
        }
    }
}

#[test]
fn runs_hold_pieces_at_the_partner_and_at_every_count_behind_it() {
    let mut counts = Counts::default();
    for files in counted().iter().map(|asked| &asked.files) {
        if let Ok(plan) = Plan::read(&files.case, &files.book) {
            count_waits(&mut counts, &waits(&plan));
        }
    }
    for name in WAITS {
        counts.ask(name);
    }
    for count in 1..MOST_MET {
        counts.ask(behind(count));
    }
    counts.show();
}

/// What runs go through at coupled tracks.
const WAITS: [&str; 6] = [
    "entries held by one that stands on the partner",
    "entries held by a block of the partner",
    "entries held in part at the partner, while another part enters",
    "entries held in part at the partner and in part at the capacity",
    "entries held at two entries of the partner or more",
    "runs that end with two trains that wait for each other",
];

fn behind(count: usize) -> String {
    format!("entries held on a coupled track at count {count}")
}

/// Adds what one run went through.
fn count_waits(counts: &mut Counts, seen: &Waits) {
    let reached = [
        seen.by_standing,
        seen.by_block,
        seen.part_entered,
        seen.part_at_both,
        seen.at_two_entries,
        seen.each_other.into(),
    ];
    for (name, more) in WAITS.iter().zip(reached) {
        counts.add(*name, more);
    }
    for (count, held) in seen.by_capacity.iter().enumerate() {
        counts.add(behind(count), *held);
    }
}

/// What is seen in the run of a branch.
fn seen_of(case: &[u8]) -> Waits {
    waits(&Plan::read(case, &[]).expect("a sound case"))
}

#[test]
fn waits_are_told_by_the_entries_of_the_partner() {
    // Train 1 waits from minute 3 to 12 for train 0, which waits for it.
    let seen = seen_of(&each_waits());
    assert_eq!((seen.by_standing, seen.by_block), (10, 0));
    assert!(seen.each_other && seen.by_capacity.iter().all(|held| *held == 0));
    // Train 2 waits for room from minute 2 to 4; train 3 for trains in minutes 3, 4, 6, 7 and 8, and for blocks, as the first that it meets, in 5 and 9.
    let seen = seen_of(&two_abreast());
    assert_eq!((seen.by_standing, seen.by_block), (5, 2));
    assert_eq!(seen.by_capacity[..4], [0, 0, 3, 0]);
    assert!(!seen.each_other && seen.part_entered == 0);
    // In minute 7 each train is held by the other's block and by the other itself.
    let seen = seen_of(&passing_station(2));
    assert_eq!((seen.at_two_entries, seen.part_at_both), (2, 0));
    assert!(!seen.each_other);
}
