//! Drawn damage meets every refusal of the reading, and the calls answer alike on it.

use inputs::answers::listed;
use inputs::damage::damaged;
use inputs::faults::{in_book, in_case, Fault, Fault::*};
use inputs::generator::{sound, Chance, Files, Size};
use inputs::meeting::{long_branch, meeting};
use second::plan::Plan;
use second::reader::{COUPLE_TAG, TABLE_TAG};
use second::refusal::{Refusal, IN_BOOK, IN_CASE, ROOM};
use std::collections::BTreeMap;

const SMALL: Size = Size {
    trains: (1, 4),
    delays: (1, 3),
    small_room: 0,
    stretch: 1,
};

/// Files drawn sound and then damaged.
fn draw(chance: &mut Chance) -> Files {
    let files = sound(chance, SMALL);
    damaged(chance, &files)
}

/// Files with couples drawn sound, now and then with as many as there may be, and then damaged.
fn draw_coupled(chance: &mut Chance) -> Files {
    let files = match chance.percent(10) {
        true => long_branch(chance),
        false => meeting(chance, SMALL),
    };
    damaged(chance, &files)
}

/// How often each number was given for each file; at 0 the accepted are counted.
type Met = [[usize; 2]; 19];

/// What is said of 20,000 draws.
fn met(mut chance: Chance, draw: fn(&mut Chance) -> Files) -> Met {
    let mut met = Met::default();
    for _ in 0..20_000 {
        let files = draw(&mut chance);
        match Plan::read(&files.case, &files.book) {
            Ok(_) => met[0][0] += 1,
            Err(refusal) => {
                met[usize::from(refusal.number)][usize::from(refusal.file)] += 1;
                assert!(refusal.place <= 919);
            }
        }
    }
    println!("{met:?}");
    met
}

/// Asserts that these numbers were given for the case and those for the book, and no others.
fn assert_met(met: &Met, in_case: &[usize], in_book: &[usize]) {
    for (number, files) in met.iter().enumerate() {
        assert_eq!(files[0] > 0, in_case.contains(&number), "{number}");
        assert_eq!(files[1] > 0, in_book.contains(&number), "{number}");
    }
}

#[test]
fn every_refusal_of_the_reading_is_met() {
    let met = met(Chance::new(5), draw);
    assert_met(
        &met,
        &[0, 1, 2, 3, 4, 5, 6, 7, 8, 9, 10, 11],
        &[1, 2, 3, 4, 5, 10],
    );
}

#[test]
fn every_refusal_of_the_reading_is_met_where_tracks_are_coupled() {
    let met = met(Chance::new(8), draw_coupled);
    assert_met(
        &met,
        &[0, 1, 2, 3, 4, 5, 6, 7, 8, 9, 10, 11, 18],
        &[1, 2, 3, 4, 5, 10],
    );
}

/// How often each fault gave the refusal of a field, by the file and the field's tag.
type Given = BTreeMap<(u8, u8, Fault), usize>;

/// Adds the faults that gave the refusal of a reading, if a field has one.
fn add_given(given: &mut Given, files: &Files, refusal: &Refusal) {
    let (bytes, faults) = match refusal.file {
        IN_CASE => (&files.case, in_case(&files.case, refusal.place)),
        _ => (&files.book, in_book(&files.book, refusal.place)),
    };
    if let Some(tag) = bytes.get(refusal.place) {
        for fault in faults.into_iter().filter(|f| f.refusal() == refusal.number) {
            *given.entry((refusal.file, *tag, fault)).or_insert(0) += 1;
        }
    }
}

#[test]
fn drawn_damage_meets_every_fault_of_a_couple() {
    let mut chance = Chance::new(9);
    let mut given = Given::new();
    for _ in 0..4_000 {
        let files = draw_coupled(&mut chance);
        if let Err(refusal) = Plan::read(&files.case, &files.book) {
            add_given(&mut given, &files, &refusal);
        }
    }
    let of_couples = [
        HeaderCut,
        Length,
        BodyCut,
        TooMany,
        FirstTrackUnknown,
        SecondTrackUnknown,
        TrackWithItself,
        EndsNotMirrored,
        CapacitiesUnequal,
        FirstTrackCoupled,
        SecondTrackCoupled,
    ];
    let mut expected = of_couples
        .map(|fault| (IN_CASE, COUPLE_TAG, fault))
        .to_vec();
    expected.push((IN_CASE, TABLE_TAG, FallingTag));
    expected.push((IN_BOOK, COUPLE_TAG, NoTableInBook));
    for seat in expected {
        let count = given.get(&seat).copied().unwrap_or(0);
        println!("{count:>5}  {seat:?}");
        assert!(count > 0, "{seat:?}");
    }
}

#[test]
fn a_refused_reading_refuses_the_listing_and_an_accepted_one_is_listed() {
    let mut chance = Chance::new(6);
    let mut apart = chance.apart();
    for number in 0..4_000 {
        let files = match number < 3_000 {
            true => draw(&mut chance),
            false => draw_coupled(&mut apart),
        };
        let listed = listed(&files.case, &files.book);
        match Plan::read(&files.case, &files.book) {
            Err(refusal) => assert_eq!(listed, Err(refusal)),
            Ok(_) => assert!(listed.is_ok() || listed == Err(Refusal::at(ROOM, 0, 0))),
        }
    }
}

#[test]
fn what_stands_past_4096_bytes_never_changes_the_answer() {
    let mut chance = Chance::new(7);
    let mut apart = chance.apart();
    for number in 0..400 {
        let mut files = match number < 300 {
            true => draw(&mut chance),
            false => draw_coupled(&mut apart),
        };
        for file in [&mut files.case, &mut files.book] {
            if chance.percent(50) {
                let junk = chance.between(3_000, 9_000);
                file.extend((0..junk).map(|_| chance.below(7) as u8));
            }
        }
        let handed = |file: &[u8]| file[..file.len().min(4_096)].to_vec();
        let short = listed(&handed(&files.case), &handed(&files.book));
        assert_eq!(listed(&files.case, &files.book), short);
    }
}
